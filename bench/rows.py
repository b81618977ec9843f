"""The rows of the table: how each workload is measured."""
import dataclasses
import os
import shutil
import statistics
import subprocess
from pathlib import Path
from typing import Optional

import images
import qcow2
import running
from calls import Calls, calls_of
from workloads import Workload


@dataclasses.dataclass
class Bench:
    """The programs that are run, and the folder for images. There is no replay without strace."""

    folder: Path
    program: Path
    replay: Optional[Path]
    strace: Optional[str]
    replay_start: float = 0.0

    def path(self, name):
        return self.folder / name

    def run(self, words, script=""):
        """Runs the program to its good end."""
        done = subprocess.run([self.program, *words], input=script.encode(), capture_output=True, check=False)
        running.expect([self.program, *words], done.returncode, 0, done.stderr)

    def calls(self, words, image, script, status=0):
        return calls_of(self.strace, words, image, script, self.path("trace"), status)

    def time_replay_start(self, runs):
        """A replay is timed from its first call on. What a program takes to start and to end is added to each."""
        image, nothing = self.path("empty.image"), self.path("empty.calls")
        image.touch()
        nothing.touch()
        seconds = [running.seconds_of([self.replay, image], nothing) for _ in range(runs)]
        self.replay_start = statistics.median(seconds)


@dataclasses.dataclass
class Measured:
    """What is known of a row, the seconds of each run."""

    memory: int = 0
    calls: Optional[Calls] = None
    load_reads: int = 0
    program_seconds: list = dataclasses.field(default_factory=list)
    replay_seconds: list = dataclasses.field(default_factory=list)
    qcow2_seconds: list = dataclasses.field(default_factory=list)

    def program(self):
        return statistics.median(self.program_seconds)

    def replay(self):
        return statistics.median(self.replay_seconds) if self.replay_seconds else None

    def qcow2(self):
        return statistics.median(self.qcow2_seconds) if self.qcow2_seconds else None

    def of_replay(self):
        return self.program() / self.replay() if self.replay_seconds else None

    def of_qcow2(self):
        return self.program() / self.qcow2() if self.qcow2_seconds else None


class Row:
    """A workload, its files, and what was measured of it."""

    def __init__(self, bench: Bench, number, workload: Workload):
        self.bench, self.workload, self.measured = bench, workload, Measured()
        self.base = bench.path(f"{number}.image")
        self.script = bench.path(f"{number}.script")
        self.calls = bench.path(f"{number}.calls")
        self.commands = bench.path(f"{number}.commands")
        self.has_qcow2 = workload.qcow2 is not None and qcow2.is_there()

    def image(self):
        """The image that a run begins with, as it was made, all of it on the disk."""
        image = self.base
        if self.workload.changes:
            image = self.bench.path("work.image")
            images.copy_sparse(self.base, image)
        os.sync()
        return image

    def prepare(self):
        """Makes the image, and sees that the program answers as it should, and which calls it makes."""
        workload, bench = self.workload, self.bench
        workload.make(bench, self.base)
        self.script.write_text(workload.script, encoding="ascii")
        image = self.image()
        words = workload.words(bench.program, image)
        output, self.measured.memory = running.output_and_memory_of(words, self.script, workload.status)
        if not workload.answers(output):
            raise running.Failure(f"{workload.name}: unlike answers, the first {output[:200]!r}")
        if bench.strace:
            self.measured.calls = bench.calls(words, self.image(), self.script, workload.status)
            self.calls.write_text(self.measured.calls.text(), encoding="ascii")
        if bench.strace and workload.counts_load:
            listing = [bench.program, "list", self.base]
            self.measured.load_reads = bench.calls(listing, self.base, os.devnull).count("r")
        if self.has_qcow2:
            self.commands.write_text(workload.qcow2.commands, encoding="ascii")
            workload.qcow2.try_out(bench.path("work.qcow2"), self.commands)

    def measure(self):
        """One run of each: the program, the replay of its calls, and qcow2."""
        workload, bench, measured = self.workload, self.bench, self.measured
        words = workload.words(bench.program, self.image())
        measured.program_seconds.append(running.seconds_of(words, self.script, workload.status))
        if bench.replay and not measured.calls.strange:
            replay = running.seconds_behind_line([bench.replay, self.image()], self.calls)
            measured.replay_seconds.append(bench.replay_start + replay)
        if self.has_qcow2:
            image = bench.path("work.qcow2")
            workload.qcow2.make(image)
            os.sync()
            measured.qcow2_seconds.append(running.seconds_of(workload.qcow2.words(image), self.commands))


def strace():
    """Where strace is, if it may be used here."""
    found = shutil.which("strace")
    tried = found and subprocess.run([found, "-o", os.devnull, found, "-V"], capture_output=True, check=False)
    return found if tried and tried.returncode == 0 else None
