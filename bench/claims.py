"""What a row must show, and whether it does."""
import dataclasses
import operator
from typing import Callable

HOLDS = {"at most": operator.le, "below": operator.lt, "at least": operator.ge}


@dataclasses.dataclass(frozen=True)
class Claim:
    """That a figure is at most a bound, below it, or at least it. `figure` gives it, or None where it isn't known, of
    what was measured of the row and of all rows by name."""

    words: str
    bound: float
    figure: Callable
    side: str = "at most"

    def shown(self, measured, rows):
        figure = self.figure(measured, rows)
        asked = f"{self.side} {self.bound:g} {self.words}"
        if figure is None:
            return f"{asked}: not measured"
        holds = HOLDS[self.side](figure, self.bound)
        return f"{asked}: {'holds' if holds else 'FALLS SHORT'}, {figure:.2f}"


def of_replay(bound):
    return Claim("of its replay", bound, lambda measured, rows: measured.of_replay())


def of_qcow2():
    return Claim("of qcow2", 1, lambda measured, rows: measured.of_qcow2(), "below")


def of_row(bound, name, words, side="at most"):
    """What it takes in seconds of another row."""

    def figure(measured, rows):
        return measured.program() / rows[name].program() if name in rows else None

    return Claim(words, bound, figure, side)


def times_memory(bound, size, words):
    """That the greatest memory is at most so many times this size."""
    return Claim(f"times {words}", bound, lambda measured, rows: measured.memory * 1024 / size)


def reads_of(pages):
    """That each of so many pages takes one read, beside those of the load."""

    def figure(measured, rows):
        return (measured.calls.count("r") - measured.load_reads) / pages if measured.calls else None

    return Claim("reads a page", 1, figure)


def sums_of(size, bound):
    """That so many bytes are summed at least that fast, by what the program takes beside the replay of its calls."""

    def figure(measured, rows):
        replay = measured.replay()
        return size / (measured.program() - replay) / 1e9 if replay else None

    return Claim("GB/s", bound, figure, "at least")
