#!/usr/bin/env bash
# Installs the program by try/install.sh into an empty folder, and looks whether it runs from there, whether man shows
# the manual page, and whether bash completes what `--help` names. Ends with a status other than 0 where something
# differs. It takes the program that try/install.sh takes. man has to be there.
set -uo pipefail
cd "$(dirname "$0")/.."
top=$PWD
work=$(mktemp -d)
trap 'rm -rf "$work"' EXIT
export LC_ALL=C.UTF-8
prefix=$work/prefix
differs=0

# same WANTED GOT WHAT: compares two texts.
same() {
    if [ "$1" = "$2" ]; then echo "ok     $3"; else
        echo "differs: $3" && diff <(echo "$1") <(echo "$2")
        differs=1
    fi
}

# The three files below a folder, and each with its mode as `find` prints them.
three() { printf "$1/%s\n" bin/blobtool share/bash-completion/completions/blobtool share/man/man1/blobtool.1; }
modes() { paste -d ' ' <(printf '755\n644\n644\n') <(three "$1"); }

echo "== installed"
printed=$(umask 077 && try/install.sh "$prefix") || differs=1
same "$(three "$prefix")" "$(sort <<<"$printed")" "it prints three files"
same "$(modes "$prefix")" "$(find "$prefix" -type f -printf '%m %p\n' | sort -k 2)" "they are there, and no other"
same "" "$(find "$prefix" -type d ! -perm 755)" "each folder can be read by all"
try/install.sh "$prefix/" >/dev/null || differs=1
same "$(modes "$prefix")" "$(find "$prefix" -type f -printf '%m %p\n' | sort -k 2)" "the same when it is done again"
printed=$(DESTDIR=$work/stage try/install.sh /usr) || differs=1
same "$(three "$work/stage/usr")" "$(sort <<<"$printed")" "with DESTDIR they lie below that folder"
for words in "" "prefix" "/ /"; do
    printed=$(try/install.sh $words 2>&1)
    same "1 usage: try/install.sh PREFIX, wanted a folder whose name begins with /" "$? $printed" "refused: '$words'"
done

echo "== it runs from there"
mkdir "$work/folder"
cd "$work/folder"
PATH=$prefix/bin:$PATH
same "$prefix/bin/blobtool" "$(type -P blobtool)" "the name alone is the program"
truncate -s 1M disk.img
same "clusters 64 free 59 pages 16 free 16" "$(blobtool format disk.img --cluster 16384 --md-pages 16)" "format"
same $'0 0 ok @0\n0 1 ok\n0 2 page fill 0000000000000007' \
    "$(printf '0 create web 100 thin\n0 write web 0 1 7\n0 read web 0 1\n' | blobtool run disk.img)" "run"
same "0 0 page fill 0000000000000007" "$(printf '0 read web 0 1\n' | blobtool run disk.img)" "run once more"

echo "== the manual page"
page=$(man -l "$prefix/share/man/man1/blobtool.1" 2>"$work/errors" | col -b)
same "" "$(man --warnings -l "$prefix/share/man/man1/blobtool.1" 2>&1 >/dev/null)" "man says nothing against it"
same "$page" "$(man -M "$prefix/share/man" blobtool 2>&1 | col -b)" "man finds it in the folder"
same "       blobtool - keep volumes, thin writes, snapshots and clones on one image" \
    "$(grep -m 1 'blobtool - ' <<<"$page")" "its first line"

echo "== the completion"
# offered WORD..: what bash offers for the last word, by a bash that reads nothing else.
offered() {
    bash --norc --noprofile -c '
        . "$1" || exit 1
        shift
        COMP_WORDS=(blobtool "$@") COMP_CWORD=$#
        _blobtool
        [ ${#COMPREPLY[@]} = 0 ] || printf "%s\n" "${COMPREPLY[@]}"
    ' bash "$prefix/share/bash-completion/completions/blobtool" "$@" | sort
}
# listed WORD..: these words, a line each.
listed() { [ $# = 0 ] || printf '%s\n' "$@" | sort; }
# options WORD..: the options that the help of these words names.
options() { blobtool "$@" --help 2>&1 | grep -oE -- '(^|[ ;,])--[a-z][a-z-]*' | tr -d ' ;,' | sort -u; }

commands=$(blobtool --help 2>&1 | sed -n '/^Commands:/,/^$/s/^  \([a-z]*\) .*/\1/p' | sort)
same "$commands" "$(offered '' | grep -v '^-')" "the commands are those of the help"
same "$(listed --help --version)" "$(offered -)" "behind them its own options"
paged=$(grep -oE -- '--[a-z][a-z-]*' <<<"$page" | sort -u)
for command in $commands; do
    [ "$command" != help ] || continue
    named=$(options "$command")
    same "$named" "$(offered "$command" --)" "the options of $command are those of its help"
    same "$named" "$(grep -xF -e "$named" <<<"$paged")" "the manual page has them"
done
same "$(listed ${commands/help/})" "$(offered help '')" "help is of the commands"
: >'one image' && : >"$work/folder/other"
same "$(listed disk.img 'one image' other)" "$(offered list '')" "list wants an image"
same "disk.img" "$(offered format --new --cluster 16384 di)" "so does format behind its options"
same "disk.img" "$(offered format --cluster = 16384 -- di)" "and where a value stands behind ="
same "" "$(offered list disk.img '')" "one image alone"
same "" "$(offered format --md-pages '')" "no name of a file where a number is due"
same "16384" "$(offered format --cluster 16)" "a size of a cluster"
same "16384" "$(offered format --cluster = 16)" "the same behind ="
same "--new" "$(offered format disk.img --n)" "an option behind the image"
same "" "$(offered format --new disk.img --n)" "each option once"
same "--help" "$(offered run disk.img --threads -)" "a run is by a schedule or by threads"
same "--help" "$(offered list disk.img --json -)" "a listing is in JSON or a tree"
same "" "$(offered generate '')$(offered exercise disk.img '')$(offered nothing '')" "nothing where nothing is known"

cd "$top"
[ "$differs" != 0 ] || echo "all is as it is wanted"
exit "$differs"
