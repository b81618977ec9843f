# Part of the table of try/messages.sh, which reads it: what is said of words and of scripts.

row "a word is not UTF-8, wanted words in UTF-8"
says 1 "blobtool: a word is not UTF-8, wanted words in UTF-8" list $'\xff'

row "OPTION is 'VALUE', wanted FORM"
cluster="wanted a multiple of 4096, from 4096 to 4294963200"
says 1 "blobtool: format i: --cluster is '5000', $cluster" format i --cluster 5000
says 1 "blobtool: format i: --cluster is '0', $cluster" format i --cluster 0
says 1 "blobtool: format i: --cluster is '04096', $cluster" format --cluster=04096 i
says 1 "blobtool: format i: --md-pages is '0', wanted a number from 1 to 1048576" format i --md-pages 0
uuid=5f2b4e66-0d0c-4c1e-9a55-3f0a7c2d9b10
name_form="wanted 1 to 63 printable characters without a space, the first neither @ nor #"
says 1 "blobtool: format i: --lvol is '@a', $name_form" format i --lvol @a --uuid $uuid
says 1 "blobtool: format i: --lvol is 'a\x0a', $name_form" format i --lvol $'a\n' --uuid $uuid
uuid_form="wanted 32 hexadecimal digits, with or without hyphens"
says 1 "blobtool: format i: --uuid is '5f2b4e66', $uuid_form" format i --lvol a --uuid 5f2b4e66
volume_form="wanted @ and a head below 4294967296, or a name of 1 to 63 bytes, the first neither @ nor #"
truncate -s 4096 t
says 1 "blobtool: export i: VOLUME is '@', $volume_form" export i t @
says 1 "blobtool: export i: VOLUME is '#a', $volume_form" export i t '#a'
says 1 "blobtool: generate: NUMBER is '2147483648', wanted a number from 0 to 2147483647" generate 2147483648 10
says 1 "blobtool: generate: SIZE is 'x', wanted a number from 0 to 65000" generate 1 x
says 1 "blobtool: exercise i: SIZE is '65001', wanted a number from 0 to 65000" exercise i 1 65001

row "--schedule is 'LIST', wrong from byte N on, wanted .."
parts="wanted parts as 0+1*2,m: channels 0 to 15 or m, joined by +, with * and a count up to 65536, separated by \
commas, at most 65536 steps"
says 1 "blobtool: run i: --schedule is '0,x', wrong from byte 2 on, $parts" run i --schedule 0,x
says 1 "blobtool: run i: --schedule is '16', wrong from byte 1 on, $parts" run i --schedule 16

row "--schedule and --threads are there, wanted one of them at most"
both="--schedule and --threads are there, wanted one of them at most"
says 1 "blobtool: run i: $both" run i --schedule 0 --threads
says 1 "blobtool: run i: $both" run --threads i --schedule=x

row "--json and --tree are there, wanted one of them at most"
says 1 "blobtool: list i: --json and --tree are there, wanted one of them at most" list --tree i --json

row "--lvol is there, wanted --uuid too; --uuid is there, wanted --lvol too"
says 1 "blobtool: format i: --lvol is there, wanted --uuid too" format i --lvol a
says 1 "blobtool: format i: --uuid is there, wanted --lvol too" format i --uuid $uuid

row "a word is not of its form: see blobtool COMMAND --help"
echo "none   each word that has not its form is found, so that this stands for none"

# What clap says is of no row: it is a text that ends with the usage.
echo "== words that are no command"
about="A storage engine that is proved: SPDK Blobstore with logical volume stores, in a file"
tells "$about"
tells "$about" help
tells "$about" --help
tells "Runs the script on standard input on a store, and prints an answer for each command" help run
tells "error: unrecognized subcommand 'mount'" mount
tells "error: unrecognized subcommand 'mount'" help mount
tells "error: the following required arguments were not provided:" list
tells "error: unexpected argument 'more' found" list i more
tells "error: unexpected argument '--new' found" run i --new
tells "error: the argument '--cluster <BYTES>' cannot be used multiple times" format i --cluster 4096 --cluster 4096
tells "error: a value is required for '--cluster <BYTES>' but none was supplied" format i --cluster
says 1 $'blobtool 0.1.0 (SPDK Blobstore, format version 3)\nproved with '"$(rt version)" --version

row "line N of the script: WRONG, wanted FORM"
form="not of its form, wanted CHANNEL VERB WORDS, as many as the verb has, with one space between two"
script '0 df\n0  df\n'
says 2 "blobtool: run i: line 2 of the script, '0  df': $form" run i
script '0 create v 2\n'
says 2 "blobtool: run i: line 1 of the script, '0 create v 2': $form" run i
script '0 create v 2 thin\t\n'
says 2 "blobtool: run i: line 1 of the script, '0 create v 2 thin\x09': $form" run i
script '16 df\n'
says 2 "blobtool: run i: line 1 of the script, '16 df': its first word is no channel, wanted 0 to 15" run i
script '0 frobnicate v\n'
says 2 "blobtool: run i: line 1 of the script, '0 frobnicate v': its second word is no verb" run i
number="a word is no such number, wanted at most 18446744073709551615, without sign or leading zero, of a COUNT 1 to \
256, and PAGE + COUNT not above"
script '0 create v 007 thin\n'
says 2 "blobtool: run i: line 1 of the script, '0 create v 007 thin': $number" run i
script '0 read v 0 257'
says 2 "blobtool: run i: line 1 of the script, '0 read v 0 257': $number" run i
volume="a word is no volume, wanted @ and its head, or a name of 1 to 63 bytes, the first neither @ nor #"
script '0 info @4294967296\n'
says 2 "blobtool: run i: line 1 of the script, '0 info @4294967296': $volume" run i
key="a word is no key or value, wanted a KEY of 1 to 255 bytes, and as a VALUE t: and the bytes, or h: and two \
hexadecimal digits a byte"
script '# a note\n\n0 put v k h:123\n'
says 2 "blobtool: run i: line 3 of the script, '0 put v k h:123': $key" run i
last="its last word is no UUID, wanted 32 hexadecimal digits, with or without hyphens"
script '0 create v 2 thin 5f2b4e66\n'
says 2 "blobtool: run i: line 1 of the script, '0 create v 2 thin 5f2b4e66': $last" run i
limit="with it the script has more than 65536 lines, or reads and writes more than 65536 pages"
yes '0 df' | head -n 65537 >given
says 2 "blobtool: run i: line 65537 of the script, '0 df': $limit" run i
yes '0 read v 0 256' | head -n 257 >given
says 2 "blobtool: run i: line 257 of the script, '0 read v 0 256': $limit" run i
script "0 put v k t:$long\n0 put v k s:$long\n"
begin=$(head -c 90 <<<"$long")
says 2 "blobtool: run i: line 2 of the script, '0 put v k $(printf 's:%s' "${begin:0:88}")..': $key" run i

row "the script has more than 1048576 bytes"
head -c 1048577 /dev/zero >given
says 2 "blobtool: run i: the script has more than 1048576 bytes" run i
