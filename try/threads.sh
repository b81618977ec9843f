#!/usr/bin/env bash
# Runs random scripts by `run --threads`, whole, killed, and with a call on the image that fails, and compares each
# answer, and what is on the image then, with plain volumes. Ends with a status other than 0 where one differs. Words
# are options of try/threads.py: `--option ''` runs the same by rounds. The program is crates/blobtool/out/blobtool,
# which `rt run` proves and builds, or what BLOBTOOL names.
set -euo pipefail
cd "$(dirname "$0")/.."
program=${BLOBTOOL:-$PWD/crates/blobtool/out/blobtool}
[ -x "$program" ] || { echo "there is no $program: cd crates/blobtool && rt run -- generate 1 1" && exit 1; }
work=$(mktemp -d)
trap 'rm -rf "$work"' EXIT
gcc -O1 -shared -fPIC -o "$work/failing_calls.so" try/failing_calls.c -ldl
python3 try/threads.py "$program" "$work/failing_calls.so" "$@"
