#!/usr/bin/env bash
# Refuses the program one request for memory after the other, one in each call, over each command. Wanted is that the
# call tells it, by status 7 or by `no memory` in its log, or that it asks again and ends as if nothing was refused; and
# that the image then shows what it did after a first part of the script, or after the script without the command that
# was answered so. Ends with a status other than 0 where one differs. Words are options of `run`. The program is
# crates/blobtool/out/blobtool, which `rt run` proves and builds, or what BLOBTOOL names. It takes some minutes, fewer
# with a TMPDIR in memory.
set -uo pipefail
cd "$(dirname "$0")/.."
program=${BLOBTOOL:-$PWD/crates/blobtool/out/blobtool}
[ -x "$program" ] || { echo "there is no $program: cd crates/blobtool && rt run -- generate 1 1" && exit 1; }
work=$(mktemp -d)
trap 'rm -rf "$work"' EXIT
gcc -O1 -shared -fPIC -o "$work/failing_calls.so" try/failing_calls.c -ldl || exit 1
cd "$work"
differs=0

blobtool() { "$program" "$@"; }

# differ WORDS: tells that a call ended otherwise than wanted.
differ() {
    echo "differs: $name with request $number refused: $*"
    differs=1
}

# call REQUEST WORDS < SCRIPT: calls the program, refuses it this request (none is 0), and counts its requests.
call() {
    local request=$1
    shift
    truncate -s 0 counts && truncate -s 32 counts
    COUNTED_CALLS=$work/counts FAILING_CALLS="memory $request 12" LD_PRELOAD=$work/failing_calls.so \
        "$program" "$@" >out 2>errors
}

# requests: how many requests the last call made.
requests() { od -A n -t u8 -N 8 counts | tr -d ' '; }

# shown IMAGE: what is found on an image: its volumes, their pages and their attributes.
shown() {
    cp "$1" looked_at
    blobtool list looked_at | sed 1d || echo "the list ended with $?"
    blobtool run looked_at <look || echo "the look ended with $?"
}

# replies: the replies of a log, without their numbers and the notes of `no memory`.
replies() { sed 's/^0 [0-9]* //' | grep -v '^no memory$'; }

# as_the_others LINE: what the script's other lines answer or show. A fill that ends early keeps the slots that it
# filled, so that it is not known then how many clusters are free.
as_the_others() {
    case $1 in
    *' inflate '* | *' decouple '*) sed 's/^df clusters [0-9]*/df clusters/; s/ own [0-9]*//' ;;
    *) cat ;;
    esac
}

# is_begin FILE FILE: whether the first file is how the second begins.
is_begin() { cmp -s "$1" <(head -c "$(stat -c %s "$1")" "$2"); }

# is_out_of_memory: whether the last call told on standard error that memory ran out.
is_out_of_memory() { [ "$(wc -l <errors)" = 1 ] && grep -qx "blobtool:\( $name:\)\? memory ran out" errors; }

truncate -s 1M empty
blobtool format empty --cluster 16384 --md-pages 16 >out
for name in v s c d; do
    printf '0 read %s 0 24\n0 getx %s k\n0 getx %s a\n' $name $name $name
done >look
cat >script <<'END'
0 create v 4 thin
0 put v k t:1
0 write v 0 1 5
0 flush
0 snapshot v s
0 write v 4 1 6
0 clone s c
0 setx c a t:b
0 delx c a
0 setx c a t:c
0 sync c
0 resize c 6
0 info c
0 list
0 read v 4 1
0 getx v k
0 write c 1 1 7
0 rename c d
0 inflate d
0 decouple v
0 readonly d
0 delete s
0 df
END
lines=$(wc -l <script)

# What is shown after each first part of the script, and what the script without one of its lines answers and shows.
: >none
for ((line = 0; line <= lines; line++)); do
    cp empty image
    head -n "$line" script | blobtool run image >out
    shown image >"behind.$line"
    cp empty image
    sed "$((line + 1))d" script | blobtool run image | replies >"replies.$line"
    shown image >"without.$line"
done

# is_behind: whether the image shows what it did after a first part of the script.
is_behind() {
    local line
    for ((line = 0; line <= lines; line++)); do
        cmp -s shown "behind.$line" && return
    done
    return 1
}

# look_at_run: looks at how a run ended, and at what is on the image then.
look_at_run() {
    local status=$1 refused line
    shown image >shown
    refused=$(sed -n 's/^0 \([0-9]*\) no memory$/\1/p' out)
    if [ "$status" = 7 ]; then
        is_out_of_memory || differ "it says $(cat errors)"
        is_begin out "whole.out" || differ "the log is another one"
        is_behind || differ "the image shows no first part"
        told=$((told + 1))
    elif [ "$status" = 0 ] && [ -n "$refused" ]; then
        line=$(sed -n "$((refused + 1))p" script)
        case $line in *' read '* | *' flush') differ "'$line' takes no memory" ;; esac
        cmp -s <(replies <out | as_the_others "$line") <(as_the_others "$line" <"replies.$refused") ||
            differ "the others are answered otherwise than without '$line'"
        cmp -s <(as_the_others "$line" <shown) <(as_the_others "$line" <"without.$refused") ||
            differ "the image is otherwise than without '$line'"
        told=$((told + 1))
    else
        look_at_retry "$status"
    fi
}

# look_at_retry STATUS: expects that the call ended as if nothing was refused.
look_at_retry() {
    [ "$1" = 0 ] || differ "the status is $1: $(cat errors)"
    cmp -s out whole.out && cmp -s image whole.image || differ "it is told nowhere, and not made good"
    retried=$((retried + 1))
}

# look_at_command STATUS: looks at how another command ended, and that a store is there.
look_at_command() {
    blobtool list image >listed || differ "the image is not loaded"
    case $1 in
    7)
        is_out_of_memory || differ "it says $(cat errors)"
        is_begin out whole.out || differ "it prints something else"
        told=$((told + 1))
        ;;
    0)
        if grep -q ' other [1-9]' out; then
            told=$((told + 1))
        else
            look_at_retry 0
        fi
        ;;
    *) differ "the status is $1: $(cat errors)" ;;
    esac
}

# sweep LOOK WORDS < SCRIPT: calls the program once for each of its requests, and looks at each end.
sweep() {
    local look=$1 told=0 retried=0 all number=0 status
    shift
    name=$1
    [ "$name" = generate ] || name="$1 $2"
    cat >given
    cp before image
    call 0 "$@" <given || differ "the status is $? though nothing was refused"
    all=$(requests)
    cp out whole.out
    cp image whole.image
    for ((number = 1; number <= all; number++)); do
        cp before image
        call "$number" "$@" <given
        status=$?
        "$look" "$status"
        [ "$(requests)" -ge "$number" ] || differ "it made no such request"
    done
    echo "$name: $all requests refused, $told told, $retried made good"
}

cp empty before
sweep look_at_run run image "$@" <script
blobtool run before <script >out
sweep look_at_command list image </dev/null
sweep look_at_command format image --cluster 16384 --lvol store0 --uuid 5f2b4e66-0d0c-4c1e-9a55-3f0a7c2d9b10 </dev/null
sweep look_at_command generate 7 40 </dev/null
cp empty before
sweep look_at_command exercise image 7 20 </dev/null

[ "$differs" != 0 ] || echo "each time memory ran out is told, or made good"
exit "$differs"
