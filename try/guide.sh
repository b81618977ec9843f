#!/usr/bin/env bash
# Types what docs/GUIDE.md shows as typed, and compares what is printed with what the guide shows below it. Ends with a
# status other than 0 where they differ. The program is what BLOBTOOL names, or else crates/blobtool/out/blobtool, which
# `rt run` proves and builds. power_cut, which no image of an administrator sees, is built without proof by the guide's
# own words. Wants bash, Python 3 and jq.
set -uo pipefail
cd "$(dirname "$0")/.."
program=${BLOBTOOL:-$PWD/crates/blobtool/out/blobtool}
[ -x "$program" ] || { echo "there is no $program: cd crates/blobtool && rt run -- generate 1 1" && exit 1; }
work=$(mktemp -d)
image=
trap 'rm -rf "$work" "$image"' EXIT
differs=0

# The guide's blocks as files: N.sh is typed, and N.text is what it prints.
awk -v work="$work" '
    /^```sh$/ { to = sprintf("%s/%02d.sh", work, ++n); next }
    /^```text$/ { to = sprintf("%s/%02d.text", work, n); next }
    /^```/ { to = ""; next }
    to { print > to }
' docs/GUIDE.md
[ -e "$work/01.sh" ] || { echo "docs/GUIDE.md has no command" && exit 1; }
[ ! -e "$work/00.text" ] || { echo "no command prints this:" && cat "$work/00.text" && exit 1; }

for file in "$work"/*.sh; do
    cat "$file"
    . "$file" </dev/null >"$work/printed"
    # In place of the guide's own, which builds the program for each command.
    blobtool() { "$program" "$@"; }
    shown=${file%.sh}.text
    [ -e "$shown" ] || shown=/dev/null
    diff -u --label docs/GUIDE.md --label printed "$shown" "$work/printed" || differs=1
done
[ "$differs" != 0 ] || echo "all is printed as the guide shows it"
exit "$differs"
