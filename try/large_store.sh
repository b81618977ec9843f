#!/usr/bin/env bash
# Makes a store of 100 GiB on a sparse file, with twenty volumes, a page and a snapshot of each, and runs a generated
# script of 50,000 lines on two new stores of 4 GiB. Compares what is printed with what docs/FORMAT.md makes of them,
# and ends with a status other than 0 where they differ. It tells how many seconds each call took. The program is
# crates/blobtool/out/blobtool, which `rt run` proves and builds, or what BLOBTOOL names.
set -euo pipefail
cd "$(dirname "$0")/.."
program=${BLOBTOOL:-$PWD/crates/blobtool/out/blobtool}
[ -x "$program" ] || { echo "there is no $program: cd crates/blobtool && rt run -- generate 1 1" && exit 1; }
work=$(mktemp -d)
trap 'rm -rf "$work"' EXIT
truncate -s 100G "$work/large"
truncate -s 4G "$work/one" "$work/other"

# call NAME WORDS < SCRIPT: calls the program, and keeps what it prints under this name.
call() {
    local name=$1 begin=$EPOCHREALTIME
    shift
    echo "== $name" >>"$work/printed"
    "$program" "$@" >>"$work/printed"
    awk -v name="$name" -v begin="$begin" -v end="$EPOCHREALTIME" 'BEGIN { printf "%s: %.2f s\n", name, end - begin }'
}

# The lines that make the twenty volumes, and that look at them in a later run.
making() {
    for number in {0..19}; do
        echo "0 create v$number 1280 thin"
        echo "0 write v$number 0 1 $number"
        echo "0 snapshot v$number s$number"
    done
    echo "0 df"
}
looking() {
    for number in {0..19}; do
        echo "0 read v$number 0 1"
        echo "0 read s$number 0 2"
    done
    echo "0 df"
}

# What they print: the super blob has the first metadata page, each volume and each snapshot takes the next, and each
# volume takes a cluster. Behind the first page the snapshots read as zeros.
made() {
    for number in {0..19}; do
        printf '0 %d ok @%d\n' $((3 * number)) $((2 * number + 1))
        printf '0 %d ok\n' $((3 * number + 1))
        printf '0 %d ok @%d\n' $((3 * number + 2)) $((2 * number + 2))
    done
    echo "0 60 df clusters 25554 of 25600 pages 25559 of 25600"
}
found() {
    for number in {0..19}; do
        printf '0 %d page fill %016x\n' $((3 * number)) "$number" $((3 * number + 1)) "$number" $((3 * number + 2)) 0
    done
    echo "0 60 df clusters 25554 of 25600 pages 25559 of 25600"
}

# draw N: draws a number below N by the generator of generated scripts, into `drawn`.
draw() {
    state=$(((state * 1103515245 + 12345) % 2147483648))
    drawn=$((state / 65536 % $1))
}

# The generated script of the number 7 with 50,000 drawn lines, a command each.
script() {
    local channel page state=7 drawn
    printf '%d create v%d 8 thin\n' 0 0 1 1 2 2 3 3
    for _ in {1..50000}; do
        draw 4
        channel=$drawn
        draw 8
        case $drawn in
        [0-3]) draw 32 && page=$drawn && draw 32768 && echo "$channel write v$channel $page 1 $drawn" ;;
        [45]) draw 4 && page=$drawn && draw 32 && echo "$channel read v$page $drawn 1" ;;
        6) echo "$channel flush" ;;
        7) draw 1000 && echo "$channel put v$channel k t:$drawn" ;;
        esac
    done
}

call format format "$work/large" --lvol store0 --uuid 5f2b4e66-0d0c-4c1e-9a55-3f0a7c2d9b10
making | call run run "$work/large"
looking | call "second run" run "$work/large"
call generate generate 7 50000
for image in one other; do
    call "format $image" format "$work/$image"
    call "exercise $image" exercise "$work/$image" 7 50000
done

# The lines up to the checksum of the log, which is the same of both. No volume of the generated script is written past
# its first cluster's pages, so that nothing is refused.
wanted() {
    echo "== format" && echo "clusters 25600 free 25574 pages 25600 free 25599"
    echo "== run" && made
    echo "== second run" && found
    echo "== generate" && script
    for image in one other; do
        echo "== format $image" && echo "clusters 4096 free 4079 pages 4096 free 4096"
        echo "== exercise $image" && echo "entries 50004 ok 50004 other 0 crc"
    done
}
wanted >"$work/wanted"
sed 's/ crc [0-9a-f]\{8\}$/ crc/' "$work/printed" |
    diff -u --label "docs/FORMAT.md" --label "printed" "$work/wanted" -
[ "$(grep -o ' crc [0-9a-f]\{8\}$' "$work/printed" | sort -u | wc -l)" = 1 ] || { echo "the logs differ" && exit 1; }
grep ' crc [0-9a-f]\{8\}$' "$work/printed"
echo "all is printed as docs/FORMAT.md says"
