#!/usr/bin/env bash
# Calls the program as the shell of an administrator would: with closed standard streams, on what is no image, with bad
# words, on bad images, where a write fails. Compares each status and each line on standard error with what is wanted,
# and ends with a status other than 0 where one differs. The program is crates/blobtool/out/blobtool, which `rt run`
# proves and builds, or what BLOBTOOL names.
set -uo pipefail
cd "$(dirname "$0")/.."
program=${BLOBTOOL:-$PWD/crates/blobtool/out/blobtool}
[ -x "$program" ] || { echo "there is no $program: cd crates/blobtool && rt run -- generate 1 1" && exit 1; }
work=$(mktemp -d)
trap 'rm -rf "$work"' EXIT
gcc -O1 -shared -fPIC -o "$work/failing_calls.so" try/failing_calls.c -ldl || exit 1
cd "$work"
differs=0

# ended STATUS LINE: compares how the last call ended with what is wanted.
ended() {
    local status=$?
    if [ "$status" = "$1" ] && [ "$(head -n 1 errors)" = "$2" ]; then
        echo "ok     $1 ${2:-nothing is said}"
    else
        echo "differs: wanted $1 $2"
        echo "            got $status $(head -n 1 errors)"
        differs=1
    fi
}

# same FILE FILE WHAT: compares two files.
same() {
    if cmp -s "$1" "$2"; then echo "ok     $3"; else echo "differs: $3" && differs=1; fi
}

blobtool() { "$program" "$@"; }

# failing CALL WORDS: calls the program, and fails it a call on the image, as try/failing_calls.c says.
failing() {
    truncate -s 0 counts && truncate -s 32 counts
    COUNTED_CALLS=$work/counts FAILING_CALLS=$1 LD_PRELOAD=$work/failing_calls.so "$program" "${@:2}"
}

# counted: how many pages the last failing call of the program read and wrote, and how often it flushed.
counted() { od -A n -v -t u8 -w8 -j 8 counts | xargs; }

truncate -s 256K i
blobtool format i --cluster 16384 >out 2>errors
ended 0 ""
cp i before
printf '0 df\n' >script

echo "== closed standard streams"
blobtool run i <script >&- 2>errors
ended 5 "blobtool: run i: writing standard output failed: Bad file descriptor (os error 9)"
same i before "the image has no byte of the log"
cp before i
blobtool run i <&- >out 2>errors
ended 4 "blobtool: run i: reading standard input failed: Bad file descriptor (os error 9)"
same i before "the image was no script"
blobtool run nothing <script >out 2>&-
[ $? = 6 ] && echo "ok     6 with standard error closed" || { echo "differs: with standard error closed" && differs=1; }
blobtool list i <&- >out 2>errors
ended 0 ""
blobtool list i <&- >&- 2>errors
ended 5 "blobtool: list i: writing standard output failed: Bad file descriptor (os error 9)"
blobtool run i <script >/dev/full 2>errors
ended 5 "blobtool: run i: writing standard output failed: No space left on device (os error 28)"
blobtool run i <. >out 2>errors
ended 4 "blobtool: run i: reading standard input failed: Is a directory (os error 21)"

echo "== requests for help, and words that are none"
for words in "help run" "run --help" "run i --help" "help" "--help" "run nothing -h"; do
    blobtool $words >out 2>errors </dev/null
    status=$?
    if [ "$status" = 1 ] && grep -q '^Usage: blobtool' errors && [ ! -s out ]; then
        echo "ok     1 $words: the help"
    else
        echo "differs: $words: $status $(head -n 1 errors)" && differs=1
    fi
done
blobtool help nothing 2>errors
ended 1 "error: unrecognized subcommand 'nothing'"
blobtool run nothing more 2>errors </dev/null
ended 6 "blobtool: run nothing: opening it failed: No such file or directory (os error 2)"
blobtool run i more 2>errors </dev/null
ended 1 "error: unexpected argument 'more' found"
blobtool format i --cluster 5000 2>errors
ended 1 "blobtool: format i: --cluster is '5000', wanted a multiple of 4096, from 4096 to 4294963200"
blobtool format i --lvol a 2>errors
ended 1 "blobtool: format i: --lvol is there, wanted --uuid too"
blobtool exercise i 1 70000 2>errors
ended 1 "blobtool: exercise i: SIZE is '70000', wanted a number from 0 to 65000"
blobtool list $'\xff' 2>errors
ended 1 "blobtool: a word is not UTF-8, wanted words in UTF-8"
same i before "the image is as it was"

echo "== what is no image"
mkfifo fifo
mkdir folder
for kind in "fifo a FIFO" "folder a directory" "/dev/null a character device"; do
    timeout 10 "$program" list ${kind%% *} 2>errors
    ended 6 "blobtool: list ${kind%% *}: it is ${kind#* }, wanted a regular file or a block device"
done
blobtool list nothing 2>errors
ended 6 "blobtool: list nothing: opening it failed: No such file or directory (os error 2)"
blobtool list $'no\nthing' 2>errors
ended 6 'blobtool: list no\x0athing: opening it failed: No such file or directory (os error 2)'

echo "== format"
blobtool format i --new 2>errors
ended 6 "blobtool: format i: it has a store already, wanted none with --new"
same i before "the image is as it was"
truncate -s 256K new
blobtool format new --new --cluster 16384 >out 2>errors
ended 0 ""
same new before "an image without a store gets one"
blobtool format new --cluster 16384 >out 2>errors
ended 0 ""
: >empty
blobtool format empty --cluster 16384 2>errors
ended 3 "blobtool: format empty: it has 0 pages of 4096 bytes, wanted at least 4 for the new store"
truncate -s $((19 * 4096)) small
blobtool format small --cluster 16384 --md-pages 16 2>errors
ended 3 "blobtool: format small: it has 19 pages of 4096 bytes, wanted at least 20 for the new store"

echo "== bad images and scripts"
blobtool list empty 2>errors
ended 3 "blobtool: list empty: it has no page of 4096 bytes, so it has no store"
truncate -s 256K zeros
blobtool list zeros 2>errors
ended 3 "blobtool: list zeros: it has no store: page 0 does not begin with SPDKBLOB"
head -c 81920 before >cut
blobtool list cut 2>errors
ended 3 "blobtool: list cut: the store has 262144 bytes, but the image only 20 pages of 4096 bytes"
cp before damaged
printf x | dd of=damaged bs=1 seek=200 conv=notrunc status=none
blobtool list damaged 2>errors
ended 3 "blobtool: list damaged: super block: its checksum is wrong, so page 0 is damaged"
printf '0 df\n0 frobnicate v\n' | blobtool run i 2>errors
ended 2 "blobtool: run i: line 2 of the script, '0 frobnicate v': its second word is no verb"
printf '16 df\n' | blobtool run i 2>errors
ended 2 "blobtool: run i: line 1 of the script, '16 df': its first word is no channel, wanted 0 to 15"
head -c 1048577 /dev/zero | blobtool run i 2>errors
ended 2 "blobtool: run i: the script has more than 1048576 bytes"
same i before "the image is as it was"
flock i -c "$program list i 2>errors >out"
ended 6 "blobtool: list i: another program has it locked, wanted an image that nobody uses"

echo "== calls that fail"
cp before full
printf '0 create v 4 thin\n0 create w 4 thin\n' >script
(trap '' XFSZ && ulimit -f 16 && blobtool run full <script >out 2>errors)
ended 6 "blobtool: run full: writing page 4 of the image failed: File too large (os error 27)"
(trap '' XFSZ && ulimit -f 16 && blobtool format full --cluster 16384 >out 2>errors)
ended 6 "blobtool: format full: writing page 4 of the image failed: File too large (os error 27)"
blobtool list full >out 2>errors
ended 0 ""
cp before full
echo "0 create v 4 thick" | blobtool run full >out 2>errors
ended 0 ""
# The write is answered, and fails where it goes to the file, at the flush that ends the run.
echo "0 write v 5 1 7" >script
(trap '' XFSZ && ulimit -f 48 && blobtool run full <script >out 2>errors)
ended 6 "blobtool: run full: writing page 25 of the image failed: File too large (os error 27), after 1 commands"

echo "== a page takes one call, and what was written before is synced before the first read"
cp before i
printf '0 create v 4 thin\n0 create w 4 thin\n' >script
failing "pwrite 1" run i <script >out 2>errors
ended 6 "blobtool: run i: writing page 0 of the image failed: it was not taken whole"
failing "pread 1" list i >out 2>errors
ended 6 "blobtool: list i: reading page 0 of the image failed: it ends before that"
failing "fsync 1 5" run i <script >out 2>errors
ended 6 "blobtool: run i: opening it failed: Input/output error (os error 5)"
calls=$(counted)
if [ "$calls" = "0 0 1" ]; then echo "ok     nothing is read or written before the sync"; else
    echo "differs: reads, writes and syncs are $calls" && differs=1
fi
cp before i
failing "pwrite 2 5" run i <script >out 2>errors
calls=$(counted)
cp before i
failing "pwrite 2" run i <script >out 2>errors
if [ "$(counted)" = "$calls" ]; then echo "ok     a short write is followed by the calls that a failed one is"; else
    echo "differs: reads, writes and syncs are $(counted), after a failed write $calls" && differs=1
fi

[ "$differs" != 0 ] || echo "all ended as it is wanted"
exit "$differs"
