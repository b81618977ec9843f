# Part of the table of try/messages.sh, which reads it: what is said of streams, of files, and of calls that fail.

row "reading standard input failed: ERROR"
cp empty i
calling=(bash -c '"$0" "$@" <&-' "$program")
says 4 "blobtool: run i: reading standard input failed: Bad file descriptor (os error 9)" run i
calling=(bash -c '"$0" "$@" </' "$program")
says 4 "blobtool: run i: reading standard input failed: Is a directory (os error 21)" run i

row "writing standard output failed: ERROR"
calling=(bash -c '"$0" "$@" >&-' "$program")
says 5 "blobtool: list i: writing standard output failed: Bad file descriptor (os error 9)" list i
calling=(bash -c '"$0" "$@" >/dev/full' "$program")
says 5 "blobtool: generate: writing standard output failed: No space left on device (os error 28)" generate 1 1
calling=(bash -c '"$0" "$@" >/dev/full' "$program")
script '0 create v 1 thin\n'
says 5 "blobtool: run i: writing standard output failed: No space left on device (os error 28)" run i
calling=(bash -c '{ "$0" "$@" 3>&-; echo $? >&3; } 3>ended | true; exit $(cat ended)' "$program")
says 5 "blobtool: generate: writing standard output failed: Broken pipe (os error 32)" generate 1 60000

row "opening it failed: ERROR"
says 6 "blobtool: list nothing: opening it failed: No such file or directory (os error 2)" list nothing
says 6 'blobtool: list no\x0athing: opening it failed: No such file or directory (os error 2)' list $'no\nthing'
says 6 "blobtool: run i/i: opening it failed: Not a directory (os error 20)" run i/i
says 6 "blobtool: run nothing: opening it failed: No such file or directory (os error 2)" run nothing more
says 6 "blobtool: export nothing: opening it failed: No such file or directory (os error 2)" export i nothing v
fails "fsync 1 5"
says 6 "blobtool: format i: opening it failed: Input/output error (os error 5)" format i

row "it is a directory, a FIFO, a socket, a character device, wanted a regular file or a block device"
mkdir folder
mkfifo fifo
python3 -c 'import socket; socket.socket(socket.AF_UNIX).bind("socket")'
wanted="wanted a regular file or a block device"
says 6 "blobtool: list folder: it is a directory, $wanted" list folder
says 6 "blobtool: run fifo: it is a FIFO, $wanted" run fifo
says 6 "blobtool: format socket: it is a socket, $wanted" format socket
says 6 "blobtool: exercise /dev/null: it is a character device, $wanted" exercise /dev/null 1 1

row "another program has it locked, wanted an image that nobody uses"
used="another program has it locked, wanted an image that nobody uses"
by flock i
says 6 "blobtool: list i: $used" list i
by flock --shared i
says 6 "blobtool: format i: $used" format i
by flock --shared i
says 0 "" list i
says 6 "blobtool: export i: $used" export i i v

row "it has a store already, wanted none with --new"
says 6 "blobtool: format i: it has a store already, wanted none with --new" format i --new

row "reading page N of the image failed: ERROR; writing page N .. failed: ERROR; flushing the image failed: ERROR; .., \
after M commands"
fails "pread 1 5"
says 6 "blobtool: list i: reading page 0 of the image failed: Input/output error (os error 5)" list i
fails "pread 1"
says 6 "blobtool: list i: reading page 0 of the image failed: it ends before that" list i
cp empty i
fails "pwrite 1 28"
says 6 "blobtool: format i: writing page 4 of the image failed: No space left on device (os error 28)" \
    format i --cluster 16384
cp empty i
fails "pwrite 2"
script '0 df\n0 create v 1 thin\n'
says 6 "blobtool: run i: writing page 4 of the image failed: it was not taken whole, after 1 commands" run i
cp empty i
fails "fsync 2 5"
script '0 df\n0 create v 1 thin\n'
says 6 "blobtool: run i: flushing the image failed: Input/output error (os error 5), after 1 commands" run i
cp empty i
fails "fsync 2 5"
says 6 "blobtool: run i: flushing the image failed: Input/output error (os error 5)" run i

row "memory ran out"
fails "memory 1 12"
says 7 "blobtool: memory ran out" list i
fails "memory 100 12"
script '0 df\n'
says 7 "blobtool: run i: memory ran out" run i
fails "memory 150 12"
says 7 "blobtool: generate: memory ran out" generate 1 9

row "writing page N of the target failed: ERROR; flushing the target failed: ERROR"
cp empty i
script '0 create v 1 thin\n'
says 0 "" run i
truncate -s 16384 t
fails "pwrite 1 28"
says 6 "blobtool: export t: writing page 0 of the target failed: No space left on device (os error 28)" export i t v
fails "fsync 2 5"
says 6 "blobtool: export t: flushing the target failed: Input/output error (os error 5)" export i t v
says 0 "" export i t v
