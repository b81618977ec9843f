#!/usr/bin/env bash
# Looks at the program from outside, by strace: which calls it makes on its image, and what is in the image where it is
# killed at any of them. Ends with a status other than 0 where something isn't as it is wanted. The program is
# crates/blobtool/out/blobtool, which `rt run` proves and builds, or what BLOBTOOL names.
set -uo pipefail
cd "$(dirname "$0")/.."
program=${BLOBTOOL:-$PWD/crates/blobtool/out/blobtool}
[ -x "$program" ] || { echo "there is no $program: cd crates/blobtool && rt run -- generate 1 1" && exit 1; }
strace -o /dev/null true 2>/dev/null || { echo "strace is missing, or may trace nothing here" && exit 1; }
work=$(mktemp -d)
trap 'rm -rf "$work"' EXIT
cd "$work"
differs=0

# wanted WHAT FOUND WANTED: compares what was found.
wanted() {
    if [ "$2" = "$3" ]; then echo "ok     $1: $2"; else echo "differs: $1: $2, wanted $3" && differs=1; fi
}

# new_image CLUSTER: an image with a thin volume of 8 slots.
new_image() {
    rm -f i
    truncate -s 16M i
    "$program" format i --cluster "$1" >out
    echo "0 create v 8 thin" | "$program" run i >out
}

# calls IMAGE SCRIPT: the calls that a run makes on the image, a line each: how many bytes are written from which on,
# and `sync`.
calls() {
    strace -f -s 0 -o trace -P "$PWD/$1" -e trace=write,writev,pwrite64,pwritev,pwritev2,fsync,fdatasync \
        "$program" run "$1" <"$2" >out
    sed -nE -e 's/^[0-9]+ +pwrite64\([0-9]+, ""(\.\.\.)?, ([0-9]+), ([0-9]+)\) += \2$/\2 \3/p;t' \
        -e 's/^[0-9]+ +f(data)?sync\([0-9]+\) += 0$/sync/p;t' -e '/^[0-9]+ +(\+\+\+|---)/d;s/^/strange /p' trace
}

syncs() { calls "$1" "$2" | grep -c sync; }

echo "== the calls"
new_image 1048576
for slot in 0 1 2 3; do
    printf '0 write v %d 1 7\n0 write v %d 2 8\n0 flush\n0 flush\n' $((slot * 256 + 9)) $((slot * 256 + 20))
done >script
calls i script >made
wanted "writes that aren't runs of whole pages, aligned" \
    "$(awk '$1 != "sync" && ($1 % 4096 || $2 % 4096 || $1 > 1048576)' made | wc -l)" 0
wanted "clusters of 1 MiB that are written by one call" "$(grep -c '^1048576 ' made)" 4
wanted "syncs with no write since the last" \
    "$(awk 'before == "sync" && $1 == "sync" { found++ } { before = $1 } END { print found + 0 }' made)" 0

echo "== how many syncs"
new_image 16384
cp i j
echo "0 write v 0 1 7" >one
printf '0 write v 0 1 7\n0 write v 4 1 7\n' >two
wanted "those of an insert" $(($(syncs j two) - $(cp i j && syncs j one))) 2
printf '0 write v 0 1 7\n0 snapshot v s\n' >snapshot
wanted "those of a snapshot" $(($(cp i j && syncs j snapshot) - $(cp i j && syncs j one))) 5

echo "== killed at each call"
for page in 0 1 2 5 9 10 30 31; do
    printf '0 write v %d 1 %d\n0 flush\n' "$page" $((page + 1))
done >script
sed -n 's/write v \([0-9]*\) 1.*/read v \1 1/p' script >reads
# Each page is flushed before the next is written, so a first part of them is there, and with each call more no less.
cp i j
last=$(calls j script | wc -l)
before=0 wrong=0
for call in $(seq 1 "$last"); do
    cp i j
    { strace -f -o /dev/null -P "$PWD/j" -e trace=pwrite64,fsync -e inject=pwrite64,fsync:signal=KILL:when="$call" \
        "$program" run j <script >out; } 2>/dev/null
    "$program" run j <reads | sed 's/.* //' >found
    kept=$(grep -vc 0000000000000000 found)
    [ "$(head -n "$kept" found | grep -c 0000000000000000)" = 0 ] && [ "$kept" -ge "$before" ] || wrong=$((wrong + 1))
    before=$kept
done
wanted "of $last images those that don't show a first part of what was written" "$wrong" 0
wanted "pages that are there at the end" "$before" 8

[ "$differs" != 0 ] || echo "all is as it is wanted"
exit "$differs"
