#!/usr/bin/env python3
"""Runs random scripts on threads, and compares each answer and what is left with plain volumes (volumes.py).

Whole runs are replayed along the log that they print; their image is to be clean, and to load by its masks. Runs that
are killed, and runs of which a call on the image fails, leave an image that shows what a first part of the commands
made. A seed is told where something differs, with which that one run is made again."""
import argparse
import os
import random
import shutil
import struct
import subprocess
import sys
import tempfile
import time
from pathlib import Path

import random_scripts
from volumes import Volumes, Wrong, commands_of, entries_of

IMAGE_SIZE = 16 << 20
LONGEST = 120


def read_options():
    parser = argparse.ArgumentParser(description="Runs random scripts on threads.")
    parser.add_argument("program", type=Path, help="a blobtool that is built already")
    parser.add_argument("calls", type=Path, help="the library of failing_calls.c")
    parser.add_argument("--option", default="--threads", help="the option of `run`; an empty one is for rounds")
    parser.add_argument("--whole", type=int, default=200, help="how many runs are whole")
    parser.add_argument("--killed", type=int, default=50, help="how many are killed")
    parser.add_argument("--failing", type=int, default=50, help="how many have a call that fails")
    parser.add_argument("--seed", type=int, default=1, help="that of the first run of each kind")
    return parser.parse_args()


class Store:
    """An image that is made anew for each run, and the program on it."""

    def __init__(self, folder, options):
        self.folder, self.options = folder, options
        self.new, self.image, self.counts = folder / "new", folder / "image", folder / "counts"
        with open(self.new, "wb") as file:
            file.truncate(IMAGE_SIZE)
        self.call(["format", self.new, "--cluster", "16384", "--md-pages", "256"])

    def words(self, words):
        return [str(word) for word in (self.options.program, *words)]

    def call(self, words, script="", **environment):
        """What a call prints, which is to end well."""
        done = subprocess.run(
            self.words(words), input=script, capture_output=True, text=True, timeout=LONGEST, check=False,
            env={**os.environ, **environment},
        )
        if done.returncode:
            raise Wrong(f"{words[0]} ended with {done.returncode}: {done.stderr.strip()}")
        return done.stdout

    def begin(self):
        shutil.copyfile(self.new, self.image)

    def run_words(self):
        return ["run", self.image, *self.options.option.split()]

    def counted(self, words, script=""):
        """What a call prints, and how many pages it read and wrote and how often it flushed."""
        self.counts.write_bytes(bytes(32))
        counting = {"LD_PRELOAD": str(self.options.calls), "COUNTED_CALLS": str(self.counts)}
        output = self.call(words, script, **counting)
        return output, struct.unpack("<4Q", self.counts.read_bytes())[1:]

    def found(self):
        """What is shown of the volumes on the image, as Volumes.shown gives it, and whether the store is clean and was
        loaded by its masks."""
        text, (reads, writes, flushes) = self.counted(["list", self.image])
        store, *lines = text.splitlines()
        pages, free, clean = (int(store.split()[place]) for place in (10, 12, 14))
        if writes or flushes:
            raise Wrong("the list writes")
        rows = [line.split() for line in lines]
        names = {row[0]: row[1] for row in rows}
        shown = {}
        look = self.folder / "look"
        for head, name, _, _, slots, _, _, _, parent, kind, access in rows:
            shutil.copyfile(self.image, look)
            contents = self.contents(look, head, int(slots))
            shown[name] = (int(slots), kind == "thin", access == "ro", names.get(parent), *contents)
        return shown, clean == 1 and reads <= 1 + 3 + pages - free

    def contents(self, image, head, slots):
        """The attributes and the pages of a volume."""
        keys = "klm"
        script = "".join(f"0 getx {head} {key}\n" for key in keys) + f"0 read {head} 0 {4 * slots}\n"
        replies = [reply for _, _, reply in entries_of(self.call(["run", image], script))]
        live = [(key, bytes.fromhex(reply[6:].strip("-"))) for key, reply in zip(keys, replies) if reply != "no value"]
        words = [int(reply[10:], 16) if reply.startswith("page fill ") else reply for reply in replies[len(keys) :]]
        return live, [(page, word) for page, word in enumerate(words) if word]


def replayed(commands, entries):
    """The volumes after these entries, each answer of which plain volumes give, in the order of its channel."""
    volumes, done = Volumes(), [0] * 16
    for channel, number, reply in entries:
        if number != done[channel] or number >= len(commands[channel]):
            raise Wrong(f"channel {channel} answers {number} after {done[channel]} commands")
        volumes.apply(*commands[channel][number], reply)
        done[channel] += 1
    return volumes, done


def check_found(shown, allowed):
    """Expects that the volumes on an image are one of these."""
    if not any(volumes.stable().fits(shown) for volumes in allowed):
        raise Wrong(f"the image shows {shown}")


def check_whole(store, commands, log):
    volumes, done = replayed(commands, entries_of(log))
    if done != [len(own) for own in commands]:
        raise Wrong(f"so many commands are answered: {done}")
    shown, is_clean = store.found()
    volumes.before.clear()
    check_found(shown, [volumes])
    if not is_clean:
        raise Wrong("the image is not loaded by its masks")


def whole(store, draw):
    """A run that ends by itself."""
    script = random_scripts.of_shared(draw)
    store.begin()
    check_whole(store, commands_of(script), store.call(store.run_words(), script))


def states_of(own):
    """What is shown after each first part of a channel's commands, if no other channel has its volumes."""
    volumes = Volumes()
    states = [volumes.shown()]
    for verb, words in own:
        volumes.answer(verb, words)
        states.append(volumes.stable().shown())
    return states


def check_first_parts(shown, commands, printed):
    """Expects that the volumes of each channel are as after a first part of its commands, with all that were
    printed."""
    for channel, own in enumerate(commands):
        mine = {name: volume for name, volume in shown.items() if int(name[1:]) == channel}
        if mine not in states_of(own)[printed[channel] :]:
            raise Wrong(f"channel {channel} after {printed[channel]} printed commands: {mine}")


def killed(store, draw):
    """A run that is killed at some moment, of channels that share no volume: each has done a first part of its own."""
    script = random_scripts.of_own(draw)
    commands = commands_of(script)
    store.begin()
    begin = time.monotonic()
    store.call(store.run_words(), script)
    longest = time.monotonic() - begin
    store.begin()
    with subprocess.Popen(
        store.words(store.run_words()), stdin=subprocess.PIPE, stdout=subprocess.PIPE, stderr=subprocess.DEVNULL
    ) as process:
        process.stdin.write(script.encode())
        process.stdin.close()
        time.sleep(draw.uniform(0, 1.1 * longest))
        process.kill()
        lines = process.stdout.read().decode().splitlines(keepends=True)
    log = "".join(line for line in lines if line.endswith("\n"))
    printed = [0] * 16
    for channel, _, _ in entries_of(log):
        printed[channel] += 1
    check_first_parts(store.found()[0], commands, printed)
    return "before its end" if process.returncode else "at its end"


def check_stopped(store, commands, log, error):
    """A log that ends with what a stopped store answers: the first entries are plain volumes', and the image shows what
    they made, perhaps with the command that failed, and perhaps without the last writes that nothing flushed."""
    entries = entries_of(log)
    stopped = {reply for _, _, reply in entries if reply.startswith("stopped ")}
    faults = [place for place, (_, _, reply) in enumerate(entries) if reply == "fault"]
    at = int(min(stopped, default="stopped").split()[-1]) if stopped else faults[0] if faults else len(entries)
    behind = entries[at:]
    if len(stopped) > 1 or len(faults) > 1 or any(reply not in ("fault", f"stopped {at}") for _, _, reply in behind):
        raise Wrong(f"stopped at {at}: {[reply for _, _, reply in behind]}")
    if at and not error.endswith(f", after {at} commands"):
        raise Wrong(f"stopped at {at}: {error}")
    volumes, _done = replayed(commands, entries[:at])
    allowed = [volumes]
    if faults:
        channel, number, _ = entries[faults[0]]
        allowed.append(volumes.copy())
        allowed[1].answer(*commands[channel][number])
    check_found(store.found()[0], allowed)


def failing(store, draw):
    """A run of which one write or flush fails."""
    script = random_scripts.of_shared(draw)
    commands = commands_of(script)
    kind = draw.choice(("pwrite", "fsync"))
    store.begin()
    _, (_, writes, flushes) = store.counted(store.run_words(), script)
    # The first sync is that of the opening.
    number = draw.randint(1, max(writes, 1)) if kind == "pwrite" else draw.randint(2, max(flushes, 2))
    store.begin()
    done = subprocess.run(
        store.words(store.run_words()), input=script, capture_output=True, text=True, timeout=LONGEST, check=False,
        env={**os.environ, "LD_PRELOAD": str(store.options.calls), "FAILING_CALLS": f"{kind} {number} 5"},
    )
    if done.returncode == 0:
        check_whole(store, commands, done.stdout)
        return "without that call"
    if done.returncode != 6:
        raise Wrong(f"the run ended with {done.returncode}: {done.stderr}")
    check_stopped(store, commands, done.stdout, done.stderr.strip())
    return f"at a {kind}"


def tried(store, make, count, seed):
    """Makes so many runs of a kind, and tells how they ended."""
    ends, differ = {}, 0
    for number in range(seed, seed + count):
        try:
            end = make(store, random.Random(f"{make.__name__} {number}"))
            ends[end] = ends.get(end, 0) + 1
        except (Wrong, subprocess.TimeoutExpired) as wrong:
            print(f"differs: {make.__name__}, seed {number}: {str(wrong)[:600]}")
            differ += 1
    told = ", ".join(f"{times} {end}" for end, times in sorted(ends.items(), key=str) if end)
    print(f"{make.__name__}: {count} runs{told and ': ' + told}, {differ} differ", flush=True)
    return differ


def main():
    options = read_options()
    with tempfile.TemporaryDirectory(prefix="blobtool-threads-") as folder:
        store = Store(Path(folder), options)
        kinds = ((whole, options.whole), (killed, options.killed), (failing, options.failing))
        differ = sum(tried(store, make, count, options.seed) for make, count in kinds)
    return 1 if differ else 0


if __name__ == "__main__":
    sys.exit(main())
