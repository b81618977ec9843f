#!/usr/bin/env bash
# Installs the program, its manual page and its completion for bash: try/install.sh PREFIX, as in
#   try/install.sh /usr/local
# With DESTDIR they lie below that folder, as who makes a package wants it. What is installed is the program that
# BLOBTOOL names, or crates/blobtool/out/blobtool, which `rt run` proves and builds where it isn't there. It prints the
# three files; without them it is as if nothing had been installed.
set -euo pipefail
usage() { echo "usage: try/install.sh PREFIX, wanted a folder whose name begins with /" >&2 && exit 1; }
[ $# = 1 ] && [[ $1 == /* && ${DESTDIR:-/} == /* ]] || usage
cd "$(dirname "$0")/.."
program=${BLOBTOOL:-$PWD/crates/blobtool/out/blobtool}
if [ -z "${BLOBTOOL:-}" ] && [ ! -x "$program" ]; then
    (cd crates/blobtool && rt run -- generate 1 1) >/dev/null
fi
[ -x "$program" ] || { echo "there is no program $program" >&2 && exit 1; }

# put MODE FILE PLACE: makes the folders of the place, and lays the file there.
put() {
    local place=${DESTDIR:-}${prefix}/$3
    install -d -m 755 "${place%/*}"
    install -m "$1" "$2" "$place"
    echo "$place"
}
prefix=${1%/}
put 755 "$program" bin/blobtool
put 644 docs/blobtool.1 share/man/man1/blobtool.1
put 644 try/completion.bash share/bash-completion/completions/blobtool
