"""The calls that a run makes on its image, as strace sees them."""
import dataclasses
import re
import subprocess

from running import expect

PAGE = 4096

# All by which a program reads or writes a file, or makes lasting what it wrote.
TRACED = (
    "read,readv,pread64,preadv,preadv2,write,writev,pwrite64,pwritev,pwritev2,"
    "fsync,fdatasync,sync_file_range,fallocate,ftruncate"
)

# As `12 pwrite64(3, ""..., 4096, 65536) = 4096`: the name, the bytes asked for, the first of them, the bytes moved.
ON_BYTES = re.compile(r'^\d+ +(pread64|pwrite64)\(\d+, ""(?:\.\.\.)?, (\d+), (\d+)\) += (\d+)$')
FLUSH = re.compile(r"^\d+ +fsync\(\d+\) += 0$")
ENDING = re.compile(r"^\d+ +(\+\+\+|---) ")


@dataclasses.dataclass
class Calls:
    """Calls in their order, a line each as call_replay reads them, and those that are none of a page device."""

    lines: list
    strange: list

    def count(self, kind):
        return sum(line[0] == kind for line in self.lines)

    def text(self):
        return "".join(f"{line}\n" for line in self.lines)


def call_of(line):
    """The call that a line of strace tells of; None where it reads no whole page, writes no whole pages one behind the
    other, or is another call."""
    if FLUSH.match(line):
        return "f"
    found = ON_BYTES.match(line)
    if not found:
        return None
    name, asked, first, moved = found[1], int(found[2]), int(found[3]), int(found[4])
    if asked % PAGE != 0 or asked == 0 or moved != asked or first % PAGE != 0:
        return None
    if name == "pread64":
        return f"r {first // PAGE}" if asked == PAGE else None
    pages = asked // PAGE
    return f"w {first // PAGE}" if pages == 1 else f"w {first // PAGE} {pages}"


def calls_in(trace):
    """The calls that the lines of strace tell of."""
    calls = Calls([], [])
    for line in trace:
        call = call_of(line.rstrip("\n"))
        if call:
            calls.lines.append(call)
        elif not ENDING.match(line):
            calls.strange.append(line.rstrip("\n"))
    return calls


def calls_of(strace, words, image, source, trace, status=0):
    """The calls that a run makes on its image. `trace` is a file for strace to write to."""
    tracing = [strace, "-f", "-s", "0", "-o", trace, "-P", image, "-e", f"trace={TRACED}"]
    with open(source, "rb") as script:
        done = subprocess.run(
            [*tracing, *words], stdin=script, stdout=subprocess.DEVNULL, stderr=subprocess.PIPE, check=False
        )
    expect(words, done.returncode, status, done.stderr)
    with open(trace, encoding="utf-8") as lines:
        return calls_in(lines)
