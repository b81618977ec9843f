"""Runs of programs: how long they take, what they print, and how much memory they have."""
import os
import select
import subprocess
import time


class Failure(Exception):
    """A program ended otherwise than it should."""


def expect(words, found, wanted, errors=b""):
    if found != wanted:
        shown = " ".join(str(word) for word in words)
        raise Failure(f"{shown} ended with {found} in place of {wanted}: {errors.decode(errors='replace').strip()}")


def seconds_of(words, source, status=0):
    """The seconds of a run on this standard input, whose output is thrown away."""
    with open(source, "rb") as script:
        begin = time.perf_counter()
        done = subprocess.run(words, stdin=script, stdout=subprocess.DEVNULL, stderr=subprocess.PIPE, check=False)
        seconds = time.perf_counter() - begin
    expect(words, done.returncode, status, done.stderr)
    return seconds


def seconds_behind_line(words, source):
    """The seconds of a run from the first line that it prints on."""
    with open(source, "rb") as script:
        with subprocess.Popen(words, stdin=script, stdout=subprocess.PIPE) as process:
            process.stdout.readline()
            begin = time.perf_counter()
            process.wait()
            seconds = time.perf_counter() - begin
    expect(words, process.returncode, 0)
    return seconds


def output_of(words, source, status=0):
    """What a run prints."""
    with open(source, "rb") as script:
        done = subprocess.run(words, stdin=script, stdout=subprocess.PIPE, stderr=subprocess.PIPE, check=False)
    expect(words, done.returncode, status, done.stderr)
    return done.stdout


def greatest_memory(pid):
    """The most KiB that a running process had so far; 0 where it is just ending."""
    try:
        with open(f"/proc/{pid}/status", encoding="utf-8") as status:
            for line in status:
                if line.startswith("VmHWM:"):
                    return int(line.split()[1])
    except (FileNotFoundError, ProcessLookupError):
        pass
    return 0


def output_and_memory_of(words, source, status=0):
    """What a run prints, and the most KiB that it had. The system knows that for as long as the process lives, so it is
    asked again with each piece of output, the last of which comes at the end, and each millisecond."""
    output, memory = [], 0
    with open(source, "rb") as script:
        with subprocess.Popen(words, stdin=script, stdout=subprocess.PIPE, stderr=subprocess.DEVNULL) as process:
            piece = None
            while piece != b"":
                ready, _, _ = select.select([process.stdout], [], [], 0.001)
                memory = max(memory, greatest_memory(process.pid))
                if ready:
                    piece = os.read(process.stdout.fileno(), 1 << 16)
                    output.append(piece)
            process.wait()
    expect(words, process.returncode, status)
    return b"".join(output), memory
