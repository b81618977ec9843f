#!/usr/bin/env python3
"""Draws crates.svg, commit.svg, threads.svg and speed.svg beside this file, or in the folder that is named. Run it
after a change of a crate, of a device call of the commit, of a thread of a run or of the last run in BENCHMARK.md;
.ci/check_docs refuses a picture that isn't current."""
import pathlib
import sys

from drawing import NEW, OLD, OPEN, PALE, WAY, Picture
from speed import speed


# ---- the crates in their layers

COLUMNS_WIDE, COLUMN, ROW, LEFT, TOP = 6, 150, 70, 170, 20
# name: first column, last column, row; a crate stands on crates of lower rows alone
CRATES = {
    "blobtool": (1, 6, 0), "host_io": (4, 6, 1), "blob_tool": (1, 6, 2), "command_words": (1, 1, 7),
    "worker_threads": (5, 5, 3), "channels": (4, 5, 4),
    "script_lang": (1, 1, 5), "md_thread": (3, 4, 5), "streams": (6, 6, 5),
    "lvol_store": (3, 3, 6), "thin_write": (5, 5, 6), "store_format": (1, 1, 6), "whole_copy": (3, 3, 7),
    "unclean_load": (2, 2, 7), "data_path": (5, 5, 7), "blob_report": (6, 6, 7),
    "store_core": (4, 4, 8), "run_moves": (6, 6, 8),
    "metadata_turns": (3, 3, 9), "job_begins": (4, 4, 9), "insert_runs": (6, 6, 9),
    "channel_turns": (3, 3, 10), "job_views": (4, 4, 10), "repair_runs": (6, 6, 10),
    "running_store": (3, 4, 11), "clean_images": (6, 6, 11),
    "nbd_reader": (1, 1, 1), "nbd_words": (1, 1, 14),
    "turn_columns": (1, 1, 11), "listing_laws": (3, 3, 3), "listing_text": (3, 3, 4),
    "md_queue": (1, 1, 12), "io_freeze": (3, 3, 12), "store_model": (4, 4, 12),
    "md_chain": (2, 2, 13), "pools": (4, 4, 13), "shown_volumes": (6, 6, 13),
    "md_page": (3, 3, 14), "inflate_delete": (6, 6, 14), "snapshots": (6, 6, 15),
    "blob_meta": (1, 1, 16), "clean_stop": (4, 4, 16), "gathered_file": (6, 6, 16),
    "descriptors": (1, 1, 17), "super_block": (3, 3, 17), "page_runs": (4, 4, 17), "run_work": (6, 6, 17),
    "volume_model": (1, 1, 18), "page_fields": (3, 3, 18), "bit_array": (4, 4, 18),
    "file_disk": (6, 6, 18),
    "page_disk": (2, 6, 19), "out_of_memory": (1, 2, 20), "crc32c": (3, 6, 20),
}
BANDS = [
    (0, 2, "the program"), (3, 7, "a run's actors,|scripts, texts,|plans, a load"), (8, 12, "the running|store"),
    (13, 17, "metadata and|places"), (18, 18, "volumes, fields,|sets"), (19, 20, "the device and|the bottom"),
]
STEPS = [
    "1  main opens the image that the words name, and hands over words, source, sink and device",
    "2  the source is read to its end, and the text becomes each channel's commands",
    "3  the store of the image is loaded: super block, heads, chains; the device is only read; then it is repaired",
    "4  channels and the metadata thread take turns; a put, a create, a snapshot is planned from what the store shows",
    "5  each step is one turn of the store: read, write, flush, post or settle; answer, refuse, or one of a job's",
    "6  a turn of a job writes and flushes; its entry is logged, with the clock as its mark",
    "7  the log is printed, an entry a line",
]


def place(name):
    first, last, row = CRATES[name]
    x = LEFT + (first - 1) * COLUMN + 8
    return x, TOP + row * ROW + 16, (last - first + 1) * COLUMN - 16, ROW - 32


def middle(column):
    return LEFT + (column - 1) * COLUMN + COLUMN // 2


def crates(folder):
    rows = max(row for _, _, row in CRATES.values()) + 1
    picture = Picture(LEFT + COLUMNS_WIDE * COLUMN + 20, TOP + rows * ROW + 30 + 24 * len(STEPS))
    for n, (first, last, name) in enumerate(BANDS):
        y, height = TOP + first * ROW, (last - first + 1) * ROW
        fill = "#f4f4f4" if n % 2 == 0 else "#ffffff"
        picture.add(f'<rect x="10" y="{y}" width="{LEFT + COLUMNS_WIDE * COLUMN}" height="{height}" fill="{fill}"/>')
        lines = name.split("|")
        for k, line in enumerate(lines):
            picture.text(20, y + height // 2 + 5 + 18 * k - 9 * (len(lines) - 1), line, 13, "start", PALE)
    for name in CRATES:
        x, y, w, h = place(name)
        picture.box(x, y, w, h)
        picture.text(x + w // 2, y + h // 2 + 5, name)

    def top(name):
        return place(name)[1]

    def bottom(name):
        return place(name)[1] + place(name)[3]

    def down(number, column, start, end):
        x = middle(column)
        picture.arrow([(x, bottom(start)), (x, top(end))])
        picture.badge(x + 22, bottom(start) + 16, number)

    down(1, 3, "blobtool", "blob_tool")
    down(2, 1, "blob_tool", "script_lang")
    down(7, 6, "blob_tool", "streams")
    picture.arrow([(middle(6), bottom("streams")), (middle(6), top("blob_report"))])
    down(4, 4, "blob_tool", "channels")
    picture.arrow([(middle(5), bottom("worker_threads")), (middle(5), top("channels"))])
    picture.arrow([(middle(4), bottom("channels")), (middle(4), top("md_thread"))])
    picture.arrow([(middle(3), bottom("md_thread")), (middle(3), top("lvol_store"))])
    picture.arrow([(middle(5), bottom("channels")), (middle(5), top("thin_write"))])
    down(3, 2, "blob_tool", "unclean_load")
    picture.arrow([(middle(2), bottom("unclean_load")), (middle(2), top("md_chain"))])
    picture.arrow([(middle(2), bottom("md_chain")), (middle(2), top("page_disk"))])
    down(5, 4, "md_thread", "store_core")
    x, y, w, h = place("store_core")
    picture.arrow([(x + w, y + h // 2), (middle(5), y + h // 2), (middle(5), top("page_disk"))])
    picture.badge(middle(5) + 22, y + h // 2 + 16, 6)
    for n, step in enumerate(STEPS):
        picture.text(20, TOP + rows * ROW + 30 + 24 * n, step, 14, "start")
    picture.save(folder / "crates.svg")


# ---- the commit of a job

WIDE, GAP = 224, 20
COLUMNS = [
    ("before the turn", None, [("old", "old or planned"), ("old", "torn")], ["the old metadata"]),
    ("flush", 1, [("old", "planned")], ["the old metadata;", "the fresh pages last"]),
    ("write of the head", 2, [("old", "planned"), ("new", "planned")],
        ["old: the old metadata", "new: the new metadata"]),
    ("flush", 3, [("new", "planned")], ["the new metadata"]),
]
SERVES = [
    ["the log so far"],
    ["the log so far"],
    ["old: the log so far", "new: with the command"],
    ["the log with its entry,", "whose mark is here"],
]


def card(picture, x, y, head, fresh):
    picture.box(x, y, WIDE - 24, 66)
    fills = {"old": OLD, "new": NEW, "planned": NEW, "torn": OPEN, "old or planned": OPEN}
    for k, (name, what) in enumerate([("head", head), ("fresh", fresh)]):
        picture.text(x + 12, y + 25 + 28 * k, name, 13, "start", PALE)
        picture.box(x + 66, y + 8 + 28 * k, WIDE - 24 - 76, 22, fills[what])
        picture.text(x + 66 + (WIDE - 100) // 2, y + 24 + 28 * k, what, 13)


def commit(folder):
    left = 120
    picture = Picture(left + 4 * (WIDE + GAP) + 10, 466)
    rows = [(44, "device call"), (150, "images that"), (168, "a crash may"), (186, "leave"), (296, "which say")]
    for y, name in rows + [(352, "come back to")]:
        picture.text(12, y, name, 13, "start", PALE)
    for n, (call, number, images, says) in enumerate(COLUMNS):
        x = left + n * (WIDE + GAP)
        picture.box(x, 22, WIDE, 36, "#ffffff" if number is None else "#fbeceb", PALE if number is None else WAY)
        picture.text(x + WIDE // 2 + (10 if number else 0), 45, call, 14, bold=number is not None)
        if number:
            picture.badge(x + 18, 40, number)
        for k, (head, fresh) in enumerate(images):
            card(picture, x + 12, 82 + 84 * k, head, fresh)
        for k, line in enumerate(says):
            picture.text(x + WIDE // 2, 296 + 18 * k, line, 13)
        for k, line in enumerate(SERVES[n]):
            picture.text(x + WIDE // 2, 352 + 18 * k, line, 13)
        if n < 3:
            picture.arrow([(x + WIDE + 2, 40), (x + WIDE + GAP - 2, 40)])
    notes = [
        "Each column is what a crash may leave after its call; the head is written whole, so it is never torn.",
        "Where a call fails the store stops: after call 1 the images are those from before, after call 2 or 3",
        "the old and the new one. The entry is `fault` then, and the new image holds the change in progress.",
    ]
    for k, line in enumerate(notes):
        picture.text(12, 412 + 20 * k, line, 13, "start")
    picture.save(folder / "commit.svg")


# ---- a run by threads

WORKERS = [(0, "worker of channel 0"), (1, "worker of channel 1"), (3, "worker of channel 15")]
THREAD_STEPS = [
    "1  a worker asks the gate before each of its steps; it has no lock then",
    "2  a turn of its channel: the lock is held for this one turn",
    "3  a message of what the turn has posted is pushed; the lock is free",
    "4  a turn of the metadata thread, with the one right to change metadata",
    "5  where none is due it pops a message, which its next turn serves; the lock is free",
    "At the end the workers are joined, the queue is closed, and the steps that are left are made one at a time.",
]


def threads(folder):
    picture = Picture(980, 336 + 24 * len(THREAD_STEPS))
    for row, name in WORKERS:
        picture.box(130, 30 + 66 * row, 210, 46)
        picture.text(235, 58 + 66 * row, name, 13)
    picture.text(235, 186, "...", 16, fill=PALE)
    picture.box(20, 30, 74, 244, OPEN, PALE, "4 3")
    picture.text(57, 157, "gate", 13)
    picture.box(446, 30, 210, 112, OLD)
    for k, line in enumerate(["the store", "behind its lock", "(LockedStore)"]):
        picture.text(551, 68 + 22 * k, line, 13)
    for k in range(8):
        picture.box(446 + 27 * k, 222, 21, 46, NEW if k < 3 else "#ffffff")
    picture.text(551, 290, "the queue: eight messages at most", 13)
    picture.box(754, 96, 206, 92)
    for k, line in enumerate(["metadata thread", "(the run's own)", "with the right"]):
        picture.text(857, 126 + 22 * k, line, 13)
    picture.arrow([(130, 53), (96, 53)])
    picture.badge(113, 76, 1)
    picture.arrow([(340, 53), (444, 53)])
    picture.arrow([(340, 119), (380, 119), (380, 86), (444, 86)])
    picture.arrow([(340, 240), (404, 240), (404, 119), (444, 119)])
    picture.badge(422, 38, 2)
    picture.arrow([(340, 256), (444, 256)])
    picture.badge(392, 274, 3)
    picture.arrow([(754, 112), (710, 112), (710, 86), (658, 86)])
    picture.badge(684, 68, 4)
    picture.arrow([(660, 245), (857, 245), (857, 190)])
    picture.badge(760, 264, 5)
    for n, step in enumerate(THREAD_STEPS):
        picture.text(20, 336 + 24 * n, step, 13, "start")
    picture.save(folder / "threads.svg")


def main():
    folder = pathlib.Path(sys.argv[1] if len(sys.argv) > 1 else __file__)
    folder = folder if folder.is_dir() else folder.parent
    crates(folder)
    commit(folder)
    threads(folder)
    speed(folder)


if __name__ == "__main__":
    main()
