#!/usr/bin/env python3
"""Measures `run --threads`: sixteen channels that read and write pages, beside the same commands on one channel, and
beside rounds of sixteen channels; and how much processor time threads take that have no work, while one channel waits
for a slow disk. Prints one table: seconds, and behind them processor seconds, medians of some runs that are made in
turns."""
import argparse
import dataclasses
import os
import resource
import statistics
import subprocess
import sys
import tempfile
import time
from pathlib import Path

import images
import running

CHANNELS, SLOTS, SLOT_PAGES, AT_ONCE = 16, 256, 16, 256
PAGES = SLOTS * SLOT_PAGES
# By how many microseconds each sync of the disk is slower where threads wait for it.
SLOWER = 5000


@dataclasses.dataclass
class Way:
    """A way to run a script, and what its runs took: seconds, and seconds of processors."""

    name: str
    channels: int
    options: tuple
    seconds: list = dataclasses.field(default_factory=list)
    processor: list = dataclasses.field(default_factory=list)

    def shown(self):
        return f"{statistics.median(self.seconds):.2f} ({statistics.median(self.processor):.2f})"


@dataclasses.dataclass
class Work:
    """What is measured: the lines of each channel, whether they change the image, and whether the disk is slow."""

    name: str
    lines: list
    changes: bool
    is_slow: bool
    ways: list

    def script(self, channels):
        """The script on so many channels, a line of each in turns."""
        mixed = []
        for place in range(max(map(len, self.lines))):
            for channel, own in enumerate(self.lines):
                mixed += [f"{channel % channels} {line}\n" for line in own[place : place + 1]]
        return "".join(mixed)


def parsed_options():
    parser = argparse.ArgumentParser(description="Measures `run --threads`, and prints one table.")
    parser.add_argument("folder", type=Path, help="where images are made; they are gone at the end")
    parser.add_argument("program", type=Path, help="a blobtool that is built already")
    parser.add_argument("--option", default="--threads", help="the option of `run`")
    parser.add_argument("--runs", type=int, default=5, help="how many runs the median is of")
    return parser.parse_args()


def by_channels(line):
    """The lines of each channel over all pages of its volume."""
    return [[line.format(channel, page) for page in range(0, PAGES, AT_ONCE)] for channel in range(CHANNELS)]


def works(option):
    def ways():
        return [Way("one channel", 1, ()), Way("rounds", CHANNELS, ()), Way("threads", CHANNELS, (option,))]

    writes = by_channels("write v{} {} 256 1")
    few = [["info v0"] for _ in range(1, CHANNELS)]
    puts = [f"put v0 k t:{number}" for number in range(300)]
    flushes = [line for number in range(300) for line in (f"write v0 {number} 1 7", "flush")]
    return [
        Work("65,536 filled pages written, a flush each", [[*own, "flush"] for own in writes], True, False, ways()),
        Work("65,536 pages read", by_channels("read v{} {} 256"), False, False, ways()),
        Work("300 puts on one channel, one command on each other, slow disk", [puts, *few], True, True, ways()),
        Work("300 flushes on one channel, one command on each other, slow disk", [flushes, *few], True, True, ways()),
    ]


def slow_disk(folder):
    """The words before a program that make its disk slow."""
    library = folder / "slow_sync.so"
    source = Path(__file__).resolve().parent / "slow_sync.c"
    subprocess.run(["cc", "-O2", "-shared", "-fPIC", "-o", library, source, "-ldl"], check=True)
    return ["env", f"SLOW_SYNC={SLOWER}", f"LD_PRELOAD={library}"]


def make_store(program, image, script):
    """A store with a filled volume for each channel."""
    images.make_sparse(image, (CHANNELS * SLOTS + 64) * SLOT_PAGES * 4096)
    running.output_of([program, "format", image, "--cluster", str(SLOT_PAGES * 4096), "--md-pages", "256"], os.devnull)
    creates = "".join(f"0 create v{channel} {SLOTS} thin\n" for channel in range(CHANNELS))
    for text in (creates, Work("", by_channels("write v{} {} 256 1"), True, False, []).script(1)):
        script.write_text(text, encoding="ascii")
        running.output_of([program, "run", image], script)


def measure(words, base, folder, work, way):
    """One run of these words, no answer of which is a refusal."""
    image, script = base, folder / "script"
    if work.changes:
        image = folder / "work.image"
        images.copy_sparse(base, image)
    script.write_text(work.script(way.channels), encoding="ascii")
    os.sync()
    before, begin = resource.getrusage(resource.RUSAGE_CHILDREN), time.perf_counter()
    output = running.output_of([*words, "run", image, *way.options], script)
    way.seconds.append(time.perf_counter() - begin)
    after = resource.getrusage(resource.RUSAGE_CHILDREN)
    way.processor.append(after.ru_utime + after.ru_stime - before.ru_utime - before.ru_stime)
    refused = [line for line in output.splitlines() if line.split()[2] not in (b"ok", b"page", b"volume")]
    if refused or not output:
        raise running.Failure(f"{work.name}, {way.name}: {refused[:1]}")


def print_table(table):
    ways = [way.name for way in table[0].ways]
    print("| workload | " + " | ".join(ways) + " | threads of one channel | threads of rounds |")
    print("|---|" + "---:|" * (len(ways) + 2))
    for work in table:
        one, rounds, threads = (statistics.median(way.seconds) for way in work.ways)
        cells = [work.name, *(way.shown() for way in work.ways), f"{threads / one:.2f}", f"{threads / rounds:.2f}"]
        print("| " + " | ".join(cells) + " |")


def main():
    options = parsed_options()
    program = options.program.resolve()
    with tempfile.TemporaryDirectory(prefix="blobtool-bench-", dir=options.folder) as folder:
        folder = Path(folder)
        base = folder / "base.image"
        make_store(program, base, folder / "script")
        table, slowly = works(options.option), slow_disk(folder)
        for turn in range(options.runs):
            print(f"run {turn + 1}", file=sys.stderr)
            for work in table:
                for way in work.ways:
                    measure([*(slowly if work.is_slow else ()), program], base, folder, work, way)
    one, _, _ = os.getloadavg()
    print(f"{os.cpu_count()} processors, {images.file_system(options.folder)}; load {one:.1f}")
    print(f"medians of {options.runs}: seconds (processor seconds)\n")
    print_table(table)


if __name__ == "__main__":
    try:
        main()
    except (running.Failure, subprocess.CalledProcessError, OSError) as failure:
        sys.exit(f"bench: {failure}")
