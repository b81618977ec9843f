"""Draws speed.svg from the last run that BENCHMARK.md keeps."""
import math
import pathlib
import re

from drawing import INK, NEW, OLD, PALE, WAY, Picture

BENCHMARK = pathlib.Path(__file__).resolve().parent / "BENCHMARK.md"
HEADING = "## The last run"
EMPTY_SLOTS = re.compile(r"500 pages written to empty slots of 2\^(\d+)")
BARS, BAR, LEFT, WIDE = 60, 15, 430, 480


def last_run():
    """Of the last run that is kept: what it was made on, and its rows by the heads of their columns. No rows where none
    is kept."""
    _, found, rest = BENCHMARK.read_text(encoding="utf-8").partition(HEADING + "\n")
    if not found:
        return "", []
    part = rest.split("\n## ", 1)[0]
    lines = part.strip().splitlines()
    machine = " ".join(lines[: lines.index("")])
    cells = [[cell.strip() for cell in line.strip("|").split("|")] for line in lines if line.startswith("|")]
    return machine, [dict(zip(cells[0], line)) for line in cells[2:]]


def seconds(row, head):
    return float(row[head]) if row.get(head) else None


def marks(low, high):
    """The powers of ten from one at most the lowest figure to one at least the highest."""
    return [10.0**power for power in range(math.floor(math.log10(low)), math.ceil(math.log10(high)) + 1)]


def bars(picture, rows):
    """Each row's seconds, beside the replay's of its calls and, where there is one, qcow2's."""
    peers = (("program s", NEW), ("replay s", OLD), ("qcow2 s", PALE))
    figures = [seconds(row, head) for row in rows for head, _ in peers if seconds(row, head)]
    scale = marks(min(figures), max(figures))
    step = WIDE / (len(scale) - 1)

    def width(figure):
        return round(step * math.log10(figure / scale[0]))

    foot = BARS + len(rows) * (3 * BAR + 12)
    for n, mark in enumerate(scale):
        x = LEFT + round(step * n)
        picture.add(f'<line x1="{x}" y1="{BARS - 8}" x2="{x}" y2="{foot}" stroke="#dddddd"/>')
        picture.text(x, BARS - 14, f"{mark:g} s", 12, fill=PALE)
    for n, row in enumerate(rows):
        y = BARS + n * (3 * BAR + 12)
        picture.text(LEFT - 10, y + 27, row["workload"], 12, "end")
        for k, (head, fill) in enumerate(peers):
            figure = seconds(row, head)
            if figure:
                w = max(2, width(figure))
                picture.add(f'<rect x="{LEFT}" y="{y + k * BAR}" width="{w}" height="{BAR - 2}" fill="{fill}"/>')
                picture.text(LEFT + w + 6, y + k * BAR + 11, row[head], 11, "start")
    return foot


def curve(picture, rows, top):
    """What a write to an empty slot costs, against the number of slots, both axes logarithmic."""
    points = [(int(EMPTY_SLOTS.fullmatch(row["workload"])[1]), row) for row in rows]
    figures = [2 * seconds(row, head) for _, row in points for head in ("program s", "replay s")]
    scale, height = marks(min(figures), max(figures)), 260
    least, most = points[0][0], points[-1][0]

    def at(power, figure):
        x = LEFT + round(WIDE * (power - least) / (most - least))
        return x, top + height - round(height * math.log10(figure / scale[0]) / (len(scale) - 1))

    for mark in scale:
        _, y = at(least, mark)
        picture.add(f'<line x1="{LEFT}" y1="{y}" x2="{LEFT + WIDE}" y2="{y}" stroke="#dddddd"/>')
        picture.text(LEFT - 10, y + 4, f"{mark:g} ms", 12, "end", PALE)
    for head, colour in (("replay s", INK), ("program s", WAY)):
        line = [at(power, 2 * seconds(row, head)) for power, row in points]
        way = " ".join(f"{x},{y}" for x, y in line)
        picture.add(f'<polyline points="{way}" fill="none" stroke="{colour}" stroke-width="2"/>')
        for x, y in line:
            picture.add(f'<circle cx="{x}" cy="{y}" r="3.5" fill="{colour}"/>')
        picture.text(line[-1][0] + 10, line[-1][1] + 4, head.split()[0], 12, "start", colour)
    for power, _ in points:
        picture.text(at(power, scale[0])[0], top + height + 20, f"2^{power}", 12, fill=PALE)
    picture.text(20, top + 20, "a write to an empty slot,", 13, "start", bold=True)
    picture.text(20, top + 40, "by the slots of its volume", 13, "start", bold=True)
    return top + height + 40


def speed(folder):
    machine, rows = last_run()
    if not rows:
        return
    slots = [row for row in rows if EMPTY_SLOTS.fullmatch(row["workload"])]
    others = [row for row in rows if row not in slots]
    foot = BARS + len(others) * (3 * BAR + 12)
    picture = Picture(LEFT + WIDE + 110, foot + 400)
    picture.text(20, 24, "seconds of the program, of a replay of its calls, and of qcow2", 14, "start", bold=True)
    for n, (words, fill) in enumerate((("program", NEW), ("replay", OLD), ("qcow2", PALE))):
        picture.add(f'<rect x="{620 + 110 * n}" y="13" width="14" height="14" fill="{fill}"/>')
        picture.text(640 + 110 * n, 25, words, 12, "start")
    foot = bars(picture, others)
    foot = curve(picture, slots, foot + 40)
    picture.text(20, foot + 30, machine, 11, "start", PALE)
    picture.save(folder / "speed.svg")
