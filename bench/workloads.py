"""What is measured: images, scripts, and what each row must show."""
import dataclasses
import itertools
import random
import string
from typing import Callable, Optional

import images
from claims import of_qcow2, of_replay, of_row, reads_of, sums_of, times_memory
from qcow2 import Qcow2, commands_of

KIB, MIB, GIB = 1 << 10, 1 << 20, 1 << 30
PAGE = 4096
LETTERS = string.ascii_lowercase + string.digits


@dataclasses.dataclass(frozen=True)
class Workload:
    """A row of the table: `verb` with `options` on an image that `make` has made."""

    name: str
    make: Callable
    claims: tuple = ()
    verb: str = "run"
    options: tuple = ()
    script: str = ""
    status: int = 0
    answers: Callable = lambda output: True
    changes: bool = True
    counts_load: bool = False
    qcow2: Optional[Qcow2] = None

    def words(self, program, image):
        return [program, self.verb, image, *self.options]


def short_names(length):
    """Names of so many letters, each another one."""
    return map("".join, itertools.product(LETTERS, repeat=length))


def all_done(count):
    """Whether the output says of so many commands that they are done."""
    wanted = b"".join(b"0 %d ok\n" % number for number in range(count))
    return lambda output: output == wanted


def store(size, cluster, md_pages, script=""):
    """Makes an image of so many bytes with a store, on which this script was run."""

    def make(bench, image):
        images.make_sparse(image, size)
        bench.run(["format", image, "--cluster", str(cluster), "--md-pages", str(md_pages)])
        if script:
            bench.run(["run", image], script)

    return make


def random_writes(cluster, flush_each):
    """Writes of pages of a thin volume, each to a place that is drawn."""
    size, count = GIB, 2000
    draw = random.Random(1)
    writes = [(draw.randrange(size // PAGE), number) for number in range(1, count + 1)]
    flush = "0 flush\n"
    lines = [f"0 write v {page} 1 {word}\n" + (flush if flush_each else "") for page, word in writes]
    kept = "each" if flush_each else "at the end"
    told = f"{cluster // KIB} KiB" if cluster < MIB else f"{cluster // MIB} MiB"
    return Workload(
        f"2,000 pages written, {told}, flush {kept}",
        store(size + 64 * MIB, cluster, 256, f"0 create v {size // cluster} thin\n"),
        (of_replay(1.1), of_qcow2()) if flush_each else (of_replay(1.1),),
        script="".join(lines) + ("" if flush_each else flush),
        answers=all_done(2 * count if flush_each else count + 1),
        qcow2=Qcow2(size, cluster, commands_of(writes, flush_each)),
    )


def snapshot_writes():
    """Pages written to a thin volume of 1 GiB, with a snapshot after each two hundred: the script, and the pages."""
    draw = random.Random(3)
    pages = [draw.randrange(GIB // PAGE) for _ in range(2000)]
    lines = []
    for number, page in enumerate(pages, 1):
        lines.append(f"0 write v {page} 1 {number}\n")
        if number % 200 == 0:
            lines.append(f"0 snapshot v s{number // 200}\n")
    return "".join(lines), pages


def snapshots():
    """The volume is written and snapshotted in one run."""
    script, pages = snapshot_writes()

    def is_answer(output):
        return output.count(b"\n") == len(pages) + 10 and all(b" ok" in line for line in output.splitlines())

    return Workload(
        "2,000 pages written, a snapshot every 200",
        store(GIB + 64 * MIB, 64 * KIB, 1024, f"0 create v {GIB // (64 * KIB)} thin\n"),
        (of_replay(1.1),),
        script=script,
        answers=is_answer,
    )


def parents_read(volumes):
    """Each page of it is read, through up to ten parents, in a store with so many other volumes."""
    script, pages = snapshot_writes()
    others = "".join(f"0 create {name} 0 thin\n" for name in itertools.islice(short_names(3), volumes))
    create = f"0 create v {GIB // (64 * KIB)} thin\n"
    return Workload(
        f"2,000 pages read through ten parents, {volumes:,} other volumes",
        store(GIB + 64 * MIB, 64 * KIB, 2048, create + others + script),
        (of_replay(1.1), reads_of(len(pages))),
        script="".join(f"0 read v {page} 1\n" for page in pages),
        answers=lambda output: output.count(b" page fill ") == len(pages),
        changes=False,
        counts_load=True,
    )


def attributes(volumes, claims=()):
    """Attributes that are set in memory: on each volume the same sixty keys, again and again where it is one of few."""
    names = list(itertools.islice(short_names(2), volumes))
    keys = list(itertools.islice(short_names(2), 60))
    sets = [(names[number % volumes], keys[number // volumes % len(keys)]) for number in range(60000)]
    return Workload(
        f"60,000 attributes, {volumes:,} volumes",
        store(64 * MIB, 16 * KIB, 2048, "".join(f"0 create {name} 0 thin\n" for name in names)),
        claims,
        script="".join(f"0 setx {name} {key} t:x\n" for name, key in sets),
        answers=all_done(60000),
    )


def long_script(name, last, claims=(), status=0):
    """A script of as many lines and bytes as one may have, with this last line."""
    lines, line = 65536, "0 write v {} 1 7\n"
    written = "".join(line.format(number % 10) for number in range(lines - 1))
    script = written + last
    assert len(script) == MIB and script.count("\n") == lines
    return Workload(
        name,
        store(64 * MIB, 64 * KIB, 16, "0 create v 1 thin\n0 write v 0 1 1\n"),
        claims,
        script=script,
        status=status,
        answers=all_done(0 if status else lines),
    )


def loaded(by_masks):
    """A store that is loaded and listed, with many metadata pages and few in use: by its masks, or, where their first
    page is lost, by a scan."""
    md_pages, blobs = 262144, 10
    script = "".join(f"0 create v{number} 4 thin\n" for number in range(blobs))
    make_store = store(md_pages * PAGE + 64 * MIB, MIB, md_pages, script)

    def make(bench, image):
        make_store(bench, image)
        if not by_masks:
            with open(image, "r+b") as file:
                file.seek(PAGE)
                file.write(bytes(PAGE))

    return Workload(
        f"load of 262,144 metadata pages, ten blobs, by {'masks' if by_masks else 'a scan'}",
        make,
        (of_replay(1.1),),
        verb="list",
        answers=lambda output: output.startswith(b"store ") and output.count(b"\n") == 1 + blobs,
        changes=False,
    )


def formatted():
    """A new store on a device that is large and empty."""
    return Workload(
        "format of a sparse 100 GiB",
        lambda bench, image: images.make_sparse(image, 100 * GIB),
        (of_replay(1.1),),
        verb="format",
        answers=lambda output: output.startswith(b"clusters 102400 free "),
    )


def large_maps():
    """Volumes whose maps are as large as they may be, made and written in one run."""
    volumes, slots = 16, 1 << 20
    names = list(itertools.islice(short_names(1), volumes))
    creates = "".join(f"0 create {name} {slots} thin\n" for name in names)
    writes = "".join(f"0 write {name} 0 1 1\n" for name in names)

    def is_answer(output):
        lines = output.splitlines()
        return len(lines) == 2 * volumes and all(line.split()[2] == b"ok" for line in lines)

    return Workload(
        "16 volumes of 2^20 slots, a page to each",
        store(64 * MIB, 64 * KIB, 64),
        (times_memory(3, volumes * slots * 4, "what the maps take as lists of 32-bit numbers"),),
        script=creates + writes,
        answers=is_answer,
    )


def thin_writes(power):
    """Pages that are written to empty slots, drawn, of a volume of so many slots, each of one page."""
    slots, count = 1 << power, 500
    places = random.Random(4).sample(range(slots), count)
    lines = [f"0 write v {place} 1 {number}\n" for number, place in enumerate(places, 1)]
    return Workload(
        f"{count} pages written to empty slots of 2^{power}",
        store(64 * MIB, 4 * KIB, 512, f"0 create v {slots} thin\n"),
        script="".join(lines) + "0 flush\n",
        answers=all_done(count + 1),
    )


def summed_pages():
    """Pages of a thick volume that are no word repeated, so that each is told by its checksum."""
    size, at_once = 256 * MIB, 256
    make_store = store(size + 64 * MIB, MIB, 16, f"0 create v {size // MIB} thick\n")
    pages = size // PAGE

    def make(bench, image):
        make_store(bench, image)
        drawn = random.Random(2).randbytes(MIB)
        with open(image, "r+b") as file:
            # The store's own pages are in the first cluster, the volume has those behind it.
            for cluster in range(1, 1 + size // MIB):
                file.seek(cluster * MIB)
                file.write(drawn)

    return Workload(
        "65,536 pages read and summed",
        make,
        (sums_of(size, 2.5),),
        script="".join(f"0 read v {page} {at_once}\n" for page in range(0, pages, at_once)),
        answers=lambda output: output.count(b" page crc ") == pages,
    )


def all_workloads():
    """The rows, in the table's order. A row that is compared with another names it."""
    few = attributes(10)
    run = long_script("65,536 lines, 1 MiB of text, run", "0 write v 0 1 7\n")
    below = of_row(0.2, run.name, "of its run", "below")
    return [
        random_writes(64 * KIB, False),
        random_writes(64 * KIB, True),
        random_writes(MIB, False),
        random_writes(MIB, True),
        snapshots(),
        parents_read(0),
        parents_read(500),
        few,
        attributes(1000, (of_row(1.5, few.name, "of ten volumes"),)),
        run,
        long_script("65,536 lines, 1 MiB of text, read alone", "0 write v 0 1 x\n", (below,), status=2),
        formatted(),
        loaded(True),
        loaded(False),
        large_maps(),
        summed_pages(),
        *(thin_writes(power) for power in (10, 14, 18, 20)),
    ]
