#!/usr/bin/env bash
# Runs the first N generated scripts, each on a store of its own, exports every volume that is left, and compares each
# page of the target with what `read` answers of it; behind the volume's length the target is as it was, and the image
# is the same file. Prints what differs, and ends with 1 if something does. Call it: try/exports.sh [N]
# Wants bash, Python 3 and the Rattle kit; builds the program unless BLOBTOOL names one.
set -u
cd "$(dirname "$0")/.." || exit 1
folder=$(mktemp -d)
trap 'rm -rf "$folder"' EXIT

if [ -z "${BLOBTOOL:-}" ]; then
    (cd crates/blobtool && rt run -- --version) >"$folder/built" 2>&1
    BLOBTOOL=$PWD/crates/blobtool/out/blobtool
fi

python3 - "$BLOBTOOL" "$folder" "${1:-50}" <<'END'
import hashlib, json, re, subprocess, sys
program, folder, scripts = sys.argv[1], sys.argv[2], int(sys.argv[3])
image, target = f'{folder}/store.img', f'{folder}/target.raw'
bad = volumes = pages = 0

def call(*words, script=''):
    done = subprocess.run([program, *words], input=script, capture_output=True, text=True)
    return done.returncode, done.stdout

def crc32c(data):
    sum = 0xffffffff
    for byte in data:
        sum ^= byte
        for _ in range(8):
            sum = sum >> 1 ^ (0x82f63b78 if sum & 1 else 0)
    return sum ^ 0xffffffff

# What a line of a read says of a page, by the rule of docs/FORMAT.md.
def is_said(line, page):
    word = re.search(r'page fill ([0-9a-f]{16})$', line)
    if word:
        return page == bytes.fromhex(word[1])[::-1] * 512
    return line.endswith(f'page crc {crc32c(page):08x}')

def differs(*what):
    global bad
    bad += 1
    print(*what)

for number in range(1, scripts + 1):
    with open(image, 'wb') as file:
        file.truncate(4 << 20)
    call('format', image, '--cluster', '16384', '--md-pages', '64')
    call('exercise', image, str(number), '120')
    listing = json.loads(call('list', '--json', image)[1])
    before = hashlib.sha256(open(image, 'rb').read()).digest()
    for volume in listing['volumes']:
        head, length = volume['head'], volume['slots'] * 4
        with open(target, 'wb') as file:
            file.write(b'\xaa' * 4096 * (length + 2))
        if call('export', image, target, f'@{head}') != (0, f'exported {length}\n'):
            differs(number, head, 'is not exported')
            continue
        data = open(target, 'rb').read()
        if len(data) != 4096 * (length + 2) or data[4096 * length:] != b'\xaa' * 8192:
            differs(number, head, 'is written past its end')
        reads = ''.join(f'0 read @{head} {at} {min(256, length - at)}\n' for at in range(0, length, 256))
        answers = call('run', image, script=reads)[1].splitlines()
        if len(answers) != length:
            differs(number, head, f'has {len(answers)} pages to read, and {length} are exported')
        for at, line in enumerate(answers):
            if not is_said(line, data[4096 * at:4096 * (at + 1)]):
                differs(number, head, at, line)
        volumes, pages = volumes + 1, pages + length
        if length:
            with open(target, 'wb') as file:
                file.write(b'\xaa' * 4096 * (length - 1))
            if call('export', image, target, f'@{head}') != (0, 'out of range\n'):
                differs(number, head, 'is exported to a target that is too short')
            if open(target, 'rb').read() != b'\xaa' * 4096 * (length - 1):
                differs(number, head, 'a target that is too short is written')
    if call('export', image, target, '@63') not in ((0, 'no volume\n'), (0, 'out of range\n')):
        differs(number, 'a volume that is not there')
    if hashlib.sha256(open(image, 'rb').read()).digest() != before:
        differs(number, 'the image is another one')
print(f'{scripts} scripts, {volumes} volumes, {pages} pages, {bad} differences')
sys.exit(1 if bad else 0)
END
