#!/usr/bin/env bash
# Makes stores by the program, lists each in lines, in JSON and in a tree, has Python read the JSON (and jq, where it is
# there), and compares each of its values, and the tree, with the lines. Does the same for the stores that the first N
# generated scripts leave. Prints what differs, and ends with 1 if something does. Call it: try/listings.sh [N]
# Wants bash, Python 3 and the Rattle kit; builds the program unless BLOBTOOL names one.
set -u
cd "$(dirname "$0")/.." || exit 1
folder=$(mktemp -d)
trap 'rm -rf "$folder"' EXIT
image=$folder/store.img
bad=0

if [ -z "${BLOBTOOL:-}" ]; then
    (cd crates/blobtool && rt try -- --version) >"$folder/built" 2>&1
    BLOBTOOL() { (cd crates/blobtool && rt try -- "$@" 2>/dev/null); }
else
    BLOBTOOL() { "$BLOBTOOL" "$@"; }
fi

# Compares the listings of the image. The lines are read by the rule of docs/FORMAT.md, not by the program.
compare() {
    BLOBTOOL list "$image" >"$folder/lines" || { echo "$1: list ended with $?"; bad=1; return; }
    BLOBTOOL list --json "$image" >"$folder/json" || { echo "$1: list --json ended with $?"; bad=1; return; }
    BLOBTOOL list --tree "$image" >"$folder/tree" || { echo "$1: list --tree ended with $?"; bad=1; return; }
    python3 -m json.tool "$folder/json" >/dev/null || { echo "$1: Python refuses it"; bad=1; return; }
    if command -v jq >/dev/null; then
        jq -e . "$folder/json" >/dev/null || { echo "$1: jq refuses it"; bad=1; return; }
    fi
    python3 - "$1" "$folder/lines" "$folder/json" "$folder/tree" <<'END' || bad=1
import json, sys
name, lines, text = sys.argv[1], open(sys.argv[2]).read().split('\n'), open(sys.argv[3]).read()
drawn = open(sys.argv[4]).read()
def head(word): return None if word == '-' else int(word[1:])
def store(words):
    return {'type': words[2], 'cluster_size': int(words[4]),
            'clusters': {'total': int(words[6]), 'free': int(words[8])},
            'pages': {'total': int(words[10]), 'free': int(words[12])}, 'clean': words[14] == '1'}
def blob(words): return {'head': head(words[0]), 'name': words[1], 'uuid': words[2]}
def volume(words):
    return {**blob(words), 'slots': int(words[4]), 'own': int(words[6]), 'parent': head(words[8]),
            'thin': words[9] == 'thin', 'read_only': words[10] == 'ro'}
want = {'store': store(lines[0].split(' ')), 'super': None, 'volumes': []}
for words in (line.split(' ') for line in lines[1:-1]):
    if words[0] == 'super':
        want['super'] = blob(words[1:])
    else:
        want['volumes'].append(volume(words))
if not text.endswith('\n') or text.count('\n') != 1:
    sys.exit(f'{name}: it is not one line')
if json.loads(text) != want:
    sys.exit(f'{name}: the lines say {want}, JSON {json.loads(text)}')

# The tree is read from its lines: how deep the name stands says which line above is the parent's.
class Row: pass
volumes = {v['head']: v for v in want['volumes']}
rows = []
for line in drawn.split('\n')[:-1]:
    row = Row()
    words = line[line.index('@'):].split(' ')
    row.art, row.head, row.last = line[:line.index('@')], head(words[0]), True
    row.depth, row.parent = len(row.art) // 2, None
    for above in reversed(rows):
        if above.depth == row.depth:
            above.last = False
            if above.head > row.head:
                sys.exit(f'{name}: in the tree @{row.head} comes behind @{above.head}')
            break
        if above.depth == row.depth - 1:
            break
    for above in reversed(rows):
        if above.depth == row.depth - 1:
            row.parent = above
            break
    v = volumes[row.head]
    writing = 'ro' if v['read_only'] else 'rw'
    said = [f"@{v['head']}", v['name'], 'slots', str(v['slots']), 'own', str(v['own']), writing]
    if words != said:
        sys.exit(f'{name}: the lines say {said}, the tree {words}')
    stands = row.parent.head if row.parent else None
    if stands != (v['parent'] if v['parent'] in volumes else None):
        sys.exit(f'{name}: in the tree @{row.head} stands below {stands}')
    rows.append(row)
if sorted(row.head for row in rows) != sorted(volumes):
    sys.exit(f'{name}: not each volume stands once in the tree')
for row in rows:
    art, above = '', row
    if row.depth:
        art, above = ('`-' if row.last else '|-'), row.parent
    while above and above.depth:
        art, above = ('  ' if above.last else '| ') + art, above.parent
    if row.art != art:
        sys.exit(f'{name}: to @{row.head} leads {row.art!r}, and not {art!r}')
print(f"{name}: {len(want['volumes'])} volumes, the same values")
END
}

truncate -s 1M "$image"
BLOBTOOL format "$image" --cluster 16384 --md-pages 16 >/dev/null
compare "an empty store"
BLOBTOOL run "$image" >/dev/null <<'END'
0 create a"b\c 10 thin
0 create v 2 thick
0 write a"b\c 0 2 7
0 readonly a"b\c
0 clone a"b\c d
0 snapshot v s
0 write v 0 1 9
END
compare "a family with odd names"
BLOBTOOL format "$image" --cluster 16384 --lvol 'store"0\' --uuid 5f2b4e66-0d0c-4c1e-9a55-3f0a7c2d9b10 >/dev/null
compare "a store with a name"
for number in $(seq "${1:-0}"); do
    BLOBTOOL format "$image" --cluster 16384 --md-pages 48 >/dev/null
    BLOBTOOL exercise "$image" "$number" 60 >/dev/null
    compare "script $number"
done
BLOBTOOL list --json "$folder/none" >"$folder/none.out"
status=$?
[ "$status" = 6 ] && [ ! -s "$folder/none.out" ] || { echo "no image: status $status"; bad=1; }
BLOBTOOL run --json "$image" </dev/null >"$folder/none.out"
status=$?
[ "$status" = 1 ] && [ ! -s "$folder/none.out" ] || { echo "--json of run: status $status"; bad=1; }
BLOBTOOL list --json --tree "$image" >"$folder/none.out"
status=$?
[ "$status" = 1 ] && [ ! -s "$folder/none.out" ] || { echo "--json and --tree: status $status"; bad=1; }
exit "$bad"
