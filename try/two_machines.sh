#!/usr/bin/env bash
# Runs a store on two mirrors, as docs/GUIDE.md has it under "More than one machine": an NBD server for each, which two
# other machines could run; a quorum of both; and a file that shows it. At ten moments of a run one server is killed:
# the run goes on with every answer the same, and the other mirror shows its end. At ten moments both are killed: the
# run ends with the device's fault, and each mirror loads to what was flushed. Ends with a status other than 0 where
# something differs. It wants qemu-nbd, nbdfuse, nbdinfo and fusermount3 (Debian: qemu-utils, libnbd-bin, fuse3), and a
# user who may mount by FUSE. The program is crates/blobtool/out/blobtool, which `rt run` proves and builds, or what
# BLOBTOOL names.
set -uo pipefail
cd "$(dirname "$0")/.."
program=${BLOBTOOL:-$PWD/crates/blobtool/out/blobtool}
[ -x "$program" ] || { echo "there is no $program: cd crates/blobtool && rt run -- generate 1 1" && exit 1; }
for tool in qemu-nbd nbdfuse nbdinfo fusermount3; do
    type -P "$tool" >/dev/null || { echo "there is no $tool: apt-get install qemu-utils libnbd-bin fuse3" && exit 1; }
done
work=$(mktemp -d)
servers=()
release() {
    fusermount3 -u -z "$work/mount" 2>/dev/null
    kill $(jobs -p) 2>/dev/null
    wait 2>/dev/null
    rm -rf --one-file-system "$work"
}
trap release EXIT
cd "$work"
mkdir mount
differs=0
moments=10

# differ WHAT: says what differs.
differ() { echo "differs: $*" && differs=1; }

# waited COMMAND..: waits until the command succeeds, for some minutes at most.
waited() {
    local tries
    for ((tries = 0; tries < 10000; tries++)); do
        "$@" 2>/dev/null && return
        sleep 0.01
    done
    echo "this didn't come: $*" && exit 1
}

# serve NUMBER: starts the server of a mirror. It serves one client, and ends with it.
serve() {
    rm -f "socket$1"
    qemu-nbd --format=raw --export-name=store --socket="$work/socket$1" "mirror$1" &
    servers[$1]=$!
    waited [ -S "socket$1" ]
}

# show: shows the quorum of both mirrors as the file mount/image. It is enough where one of them answers.
show() {
    local quorum=driver=quorum,vote-threshold=1 number
    for number in 0 1; do
        quorum+=,children.$number.driver=nbd,children.$number.export=store
        quorum+=,children.$number.server.type=unix,children.$number.server.path=$work/socket$number
    done
    nbdfuse mount/image [ qemu-nbd --image-opts "$quorum" ] 2>shown_errors &
    shown=$!
    waited is_shown
    [ -f mount/image ] || { cat shown_errors && exit 1; }
}

# is_shown: whether the file is there, or can't come any more.
is_shown() { [ -f mount/image ] || ! kill -0 "$shown"; }

# begin: two mirrors with an empty store, served and shown.
begin() {
    cp base mirror0
    cp base mirror1
    serve 0
    serve 1
    show
}

# finish: the file is gone, and with it the servers.
finish() {
    waited fusermount3 -u mount
    wait "$shown" "${servers[@]}" 2>/dev/null
    servers=()
}

# written: how many bytes the first server has written.
written() { awk '/^wchar/ { print $2 }' "/proc/${servers[0]}/io"; }

# has_written COUNT: whether these are so many, or the run has ended.
has_written() { [ "$(written)" -ge "$1" ] || ! kill -0 "$run"; }

# start: starts the run of the script over both mirrors.
start() {
    timeout 300 "$program" run mount/image <script >log 2>errors &
    run=$!
}

# kill_servers PROCESS..: kills servers, as a machine that fails would.
kill_servers() {
    kill -KILL "$@"
    wait "$@" 2>/dev/null
}

# at MOMENT: waits until this moment of the run.
at() { waited has_written $((before + $1 * (whole - before) / (moments + 1))); }

# The script, a command a line: volumes are made, written, flushed, snapshot, and deleted.
script() {
    local number
    for ((number = 0; number < 30; number++)); do
        echo "0 create v$number 8 thin"
        echo "0 write v$number 0 1 $number"
        echo "0 write v$number 9 1 $((number + 1000))"
        echo "0 flush"
        echo "0 snapshot v$number s$number"
        echo "0 write v$number 0 1 $((number + 2000))"
        echo "0 read s$number 0 1"
        echo "0 put v$number round t:$number"
        [ "$number" -lt 4 ] || echo "0 delete v$((number - 4))"
    done
}

# listed IMAGE: its store and volumes, but not whether it is clean.
listed() { "$program" list "$1" | sed 's/ clean [01]$//'; }

# plainly NAME < SCRIPT: runs a script on an image of this name that is no mirror.
plainly() { cp base "$1" && "$program" run "$1"; }

# one_gone MOMENT: a server is killed at this moment, and the run goes on with the other.
one_gone() {
    local gone=$(($1 % 2)) status=0 volumes
    begin
    start
    at "$1"
    kill_servers "${servers[$gone]}"
    wait "$run" || status=$?
    finish
    [ "$status" = 0 ] || differ "status $status $(cat errors)"
    cmp log wanted || differ "an answer"
    cmp plain "mirror$((1 - gone))" || differ "the mirror that is left"
    ! cmp -s mirror0 mirror1 || differ "the server was killed after the end of the run"
    volumes=$("$program" list "mirror$gone" | grep -c '^@') || differ "the mirror that fell behind doesn't load"
    echo "moment $1: server $gone is gone, all is answered; its mirror fell behind, at $volumes volumes"
}

# split_log: what the log tells. `settled` are the script's lines that were answered before the store stopped, and done;
# `next` is the one behind them, whose answer is `fault`, or `stopped` where a call failed that the snapshot before it
# makes after its own answer; `flushed` are those of `settled` up to the last flush; `looking` reads each page that
# these wrote, of the volumes that no later line names.
split_log() {
    answered=$(grep -n -m 1 -E '^0 [0-9]+ (fault|stopped [0-9]+)$' log | cut -d : -f 1)
    answered=$((${answered:-$(($(wc -l <log) + 1))} - 1))
    paste -d '|' script log | head -n "$answered" | grep -v ' read fault$' | cut -d '|' -f 1 >settled
    sed -n "$((answered + 1))p" script >next
    tac settled | sed -n '/^0 flush$/,$p' | tac >flushed
    cat <(tail -n +$(($(wc -l <flushed) + 1)) settled) next | awk '{ print $3 }' >later
    awk 'NR == FNR { later[$1]; next }
        $2 == "write" && !($3 in later) { print 0, "read", $3, $4, 1 }
        $2 == "snapshot" { print 0, "read", $4, 0, 1 }' later flushed | sort -u >looking
}

# both_gone MOMENT: both servers are killed at this moment.
both_gone() {
    local status=0 number
    begin
    start
    at "$1"
    kill_servers "${servers[@]}"
    wait "$run" || status=$?
    finish
    split_log
    grep -qE "^blobtool: run mount/image: .* failed: .*, after $answered commands\$" errors && [ "$status" = 6 ] ||
        differ "status $status $(cat errors)"
    # A read may have failed before the first write did.
    paste -d '|' wanted log | head -n "$answered" | awk -F '|' '$1 != $2 && $2 !~ / read fault$/' >others
    tail -n +$((answered + 1)) log | sed '1s/ fault$/ stopped '"$answered/" | grep -v " stopped $answered\$" >>others
    [ ! -s others ] || differ "an answer: $(head -n 1 others)"
    plainly before_it <settled >/dev/null
    cat settled next | plainly with_it >/dev/null
    plainly flushed_store <flushed >/dev/null
    "$program" run flushed_store <looking >flushed_pages
    for number in 0 1; do
        listed "mirror$number" >volumes
        cmp -s volumes <(listed before_it) || cmp -s volumes <(listed with_it) || differ "volumes of mirror $number"
        "$program" run "mirror$number" <looking | diff flushed_pages - || differ "pages of mirror $number"
    done
    echo "moment $1: both servers are gone, $(wc -l <looking) flushed pages are there; status $status"
    sed 's/^/    /' errors
}

truncate -s 16M base
"$program" format base --cluster 16384 --md-pages 512 >/dev/null
script >script
plainly plain <script >wanted || exit 1

echo "== both servers are there"
begin
before=$(written)
start
waited has_written $((before + 100000))
locked="blobtool: list mount/image: another program has it locked, wanted an image that nobody uses"
"$program" list mount/image >out 2>&1
[ "$? $(cat out)" = "6 $locked" ] || differ "another run on this host: $(cat out)"
timeout 1 nbdinfo "nbd+unix:///store?socket=$work/socket0" >out
[ $? = 124 ] || differ "another host is served: $(cat out)"
wait "$run" || differ "status $? $(cat errors)"
whole=$(written)
"$program" list mount/image | cmp - <("$program" list plain) || differ "the store"
finish
cmp log wanted || differ "an answer"
cmp plain mirror0 && cmp plain mirror1 || differ "a mirror"
echo "$(wc -l <log) commands are answered as on a plain file, and each mirror is what that is"

echo "== one server is killed"
for ((moment = 1; moment <= moments; moment++)); do one_gone "$moment"; done

echo "== both servers are killed"
for ((moment = 1; moment <= moments; moment++)); do both_gone "$moment"; done

echo "== a mirror that fell behind is copied anew"
one_gone 5
cp mirror0 mirror1
serve 0
serve 1
show
"$program" list mount/image | cmp - <("$program" list plain) || differ "the store"
finish

[ "$differs" != 0 ] || echo "all ended as it is wanted"
exit "$differs"
