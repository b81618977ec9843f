#!/usr/bin/env bash
# One table of every line that the program says on standard error: what it is called with and on, the status, and the
# line, word for word. The table stands in try/messages/. Each call stands under a row of docs/blobtool.1, and the rows
# are compared with that page, so that none is left out. Ends with a status other than 0 where something differs. Only
# root can make block devices: for others their rows are left out. The program is crates/blobtool/out/blobtool, which
# `rt run` proves and builds, or what BLOBTOOL names.
set -uo pipefail
cd "$(dirname "$0")/.."
top=$PWD
program=${BLOBTOOL:-$PWD/crates/blobtool/out/blobtool}
[ -x "$program" ] || { echo "there is no $program: cd crates/blobtool && rt run -- generate 1 1" && exit 1; }
work=$(mktemp -d)
device=
release() {
    if [ -n "$device" ]; then
        swapoff "$device" 2>/dev/null
        umount "$work/folder" 2>/dev/null
        losetup --detach "$device"
    fi
    rm -rf "$work"
}
trap release EXIT
gcc -O1 -shared -fPIC -o "$work/failing_calls.so" try/failing_calls.c -ldl || exit 1
cd "$work"
differs=0
count=0
: >rows

# row MESSAGE: what follows is said of this row of docs/blobtool.1.
row() {
    echo "== $1"
    echo "$1" >>rows
}

# script LINES: what standard input gives to the next call.
script() { printf "$1" >given; }

# damaged BASE EDITS..: the image `i`, a damaged copy of another one.
damaged() {
    cp "$1" i
    python3 "$top/try/damage.py" i "${@:2}"
}

# unset_all: what holds of a call where nothing else is said.
unset_all() {
    : >given
    failing=
    calling=("$program")
}

# compared STATUS LINE HOW: compares how the last call ended with what is wanted.
compared() {
    count=$((count + 1))
    if [ "$status" = "$1" ] && [ "$3" = "$2" ]; then
        echo "ok     $1 $2"
    else
        echo "differs: wanted $1 $2"
        echo "            got $status $3"
        differs=1
    fi
}

# called WORDS: calls the program. Where it refuses the image it is to leave it as it was.
called() {
    local before=
    [ ! -f "${2:-}" ] || before=$(cksum <"$2")
    if [ -n "$failing" ]; then
        FAILING_CALLS=$failing LD_PRELOAD=$work/failing_calls.so "${calling[@]}" "$@" <given >out 2>errors
    else
        "${calling[@]}" "$@" <given >out 2>errors
    fi
    status=$?
    if [[ $status =~ [1-4] ]] && [ -n "$before" ] && [ "$before" != "$(cksum <"$2")" ]; then
        echo "differs: the image is another one after status $status" && differs=1
    fi
    unset_all
}

# says STATUS LINE WORDS..: the program says this line alone.
says() {
    called "${@:3}"
    compared "$1" "$2" "$(cat errors)"
}

# tells LINE WORDS..: the words are no command, and `clap` says so by a text that begins with this line and tells how
# they are used, or where that is told; nothing is printed.
tells() {
    called "${@:2}"
    compared 1 "$1" "$(head -n 1 errors)"
    grep -q "^Usage: blobtool\|^For more information, try '--help'" errors && [ ! -s out ] ||
        { echo "differs: no usage" && differs=1; }
}

# fails CALL: the next call of the program has this call failed, as try/failing_calls.c says.
fails() { failing=$1; }

# by WORDS..: the next call of the program is made by these words.
by() { calling=("$@" "$program"); }

unset_all
store() {
    truncate -s 256K "$1"
    "$program" format "$@" --cluster 16384 >out
    "$program" run "$1" <given >out
    unset_all
}
store empty
cp empty i
script '0 create v 2 thin\n'
store volume
script '0 create v 2 thin\n0 write v 0 1 5\n0 snapshot v s\n'
store family
script '0 create v 1 thick\n0 create w 1 thick\n'
store two
long=$(printf '%3000s' '' | tr ' ' x)
script "0 create v 1 thin\n0 put v a t:$long\n0 put v b t:$long\n0 create w 1 thin\n"
store chain --md-pages 3
for name in a b c d e f g h i j k l m n o p q; do echo "0 create $name 1 thin"; done >given
store many --md-pages 32

for part in words images calls devices; do . "$top/try/messages/$part.sh"; done

echo "== each row of docs/blobtool.1 stands here"
sed -n '/^\.SH DIAGNOSTICS/,/^\.SH FILES/{ s/^\.B "\(.*\)"$/\1/p }' "$top/docs/blobtool.1" |
    sed 's/\\fI\|\\fP//g; s/\\-/-/g' | sort >manual
sort rows | diff manual - || { echo "differs: the rows are others" && differs=1; }

[ "$differs" != 0 ] || echo "all $count calls say what the table has"
exit "$differs"
