"""What the calls must be, whatever they take: a put flushes as often as its turns do, and pages are written whole."""
import images

PUTS = 10


def flushes(bench, base, script):
    """How often a run of this script flushes."""
    image, source = bench.path("put.image"), bench.path("put.script")
    images.copy_sparse(base, image)
    source.write_text(script, encoding="ascii")
    return bench.calls([bench.program, "run", image], image, source).count("f")


def put_flushes(bench, first):
    """How often ten puts flush, after these commands on a new volume."""
    base = bench.path("puts.image")
    images.make_sparse(base, 1 << 20)
    bench.run(["format", base, "--cluster", "16384"])
    bench.run(["run", base], "0 create v 4 thin\n" + first)
    # Both runs have a put, so that both mark the store as in use, and unload it.
    once = "0 put v key t:first\n"
    puts = "".join(f"0 put v key t:{number}\n" for number in range(PUTS))
    return flushes(bench, base, once + puts) - flushes(bench, base, once)


def puts(bench):
    """How often puts flush, and how often they must: a put flushes after its head; before that where its chain has
    other pages; and once more where the chain had pages that are given back. A flush with nothing to make lasting makes
    no call."""
    long = "x" * 3000
    two_pages = f"0 put v a t:{long}\n0 put v b t:{long}\n"
    return [
        (f"{PUTS} puts", put_flushes(bench, ""), PUTS),
        (f"{PUTS} puts that give pages back", put_flushes(bench, two_pages), 3 * PUTS),
    ]


def strange_calls(rows):
    """The calls that are none on whole pages, a line for each row that has some."""
    for row in rows:
        strange = row.measured.calls.strange
        if strange:
            yield f"{row.workload.name}: {len(strange)} calls that are not of whole pages, the first {strange[0]}"
