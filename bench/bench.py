#!/usr/bin/env python3
"""Measures blobtool: builds it, runs the workloads of workloads.py below a folder, and prints one table.

It fails where an answer is wrong, where a put flushes too seldom, and where the image is written in other pieces than
pages. Whether a row is as fast as it must be is printed."""
import argparse
import os
import signal
import subprocess
import sys
import tempfile
from pathlib import Path

import checks
import images
import qcow2
import record
import rows
import running
from workloads import all_workloads

TOP = Path(__file__).resolve().parent.parent


def read_options():
    parser = argparse.ArgumentParser(description="Measures blobtool, and prints one table.")
    parser.add_argument("folder", type=Path, help="where images are made; they are gone at the end")
    parser.add_argument("--program", type=Path, help="a blobtool that is built already")
    parser.add_argument("--replay", type=Path, help="a call_replay that is built already")
    parser.add_argument("--runs", type=int, default=5, help="how many runs the median is of")
    parser.add_argument("--only", default="", help="only the rows whose names have this word")
    parser.add_argument("--record", action="store_true", help="keep this run in docs/BENCHMARK.md, and draw it")
    parser.add_argument("--slow-sync", type=int, metavar="MICROSECONDS", help="what each sync takes more")
    return parser.parse_args()


def built(crate, words):
    """The program of a crate, which is proved and built, and run once on these words."""
    print(f"proving and building {crate}", file=sys.stderr)
    folder = TOP / "crates" / crate
    subprocess.run(["rt", "run", "--", *words], cwd=folder, stdin=subprocess.DEVNULL, check=True)
    return folder / "out" / crate


def bench_in(folder, options):
    """What is needed for the rows: the programs, and a folder that is gone at the end."""
    folder = Path(folder)
    program = (options.program or built("blobtool", ["generate", "0", "0"])).resolve()
    bench = rows.Bench(folder, program, None, rows.strace())
    if bench.strace:
        image = bench.path("empty.image")
        image.touch()
        bench.replay = (options.replay or built("call_replay", [str(image)])).resolve()
        bench.time_replay_start(options.runs)
    return bench


def slow_down_syncs(folder, microseconds):
    """Makes each sync of the programs that are measured take longer, by a library that is preloaded into them."""
    library = Path(folder) / "slow_sync.so"
    subprocess.run(["cc", "-O2", "-shared", "-fPIC", "-o", library, TOP / "bench" / "slow_sync.c", "-ldl"], check=True)
    os.environ.update(LD_PRELOAD=str(library), SLOW_SYNC=str(microseconds))
    print(f"each sync takes {microseconds} microseconds more")


def processor():
    with open("/proc/cpuinfo", encoding="utf-8") as lines:
        for line in lines:
            if line.startswith("model name"):
                return line.split(":", 1)[1].strip()
    return os.uname().machine


def seconds(number):
    return "" if number is None else f"{number:.3f}"


def ratio(number):
    return "" if number is None else f"{number:.2f}"


def cells(row, measured_of):
    """The cells of a row, by the heads of their columns."""
    measured = row.measured
    found = {"workload": row.workload.name, "program s": seconds(measured.program())}
    if row.bench.strace:
        found["replay s"], found["of replay"] = seconds(measured.replay()), ratio(measured.of_replay())
    if qcow2.is_there():
        found["qcow2 s"], found["of qcow2"] = seconds(measured.qcow2()), ratio(measured.of_qcow2())
    if row.bench.strace:
        for head, kind in (("reads", "r"), ("writes", "w"), ("flushes", "f")):
            found[head] = f"{measured.calls.count(kind):,}"
    found["MiB"] = f"{measured.memory / 1024:.1f}"
    found["must show"] = "; ".join(claim.shown(measured, measured_of) for claim in row.workload.claims)
    return found


def lines_of(table):
    """The table's lines, its columns as wide as what stands in them."""
    heads = list(table[0])
    widths = {head: max(len(head), *(len(line[head]) for line in table)) for head in heads}
    texts = ("workload", "must show")
    sides = {head: str.ljust if head in texts else str.rjust for head in heads}
    lines = ["| " + " | ".join(sides[head](head, widths[head]) for head in heads) + " |"]
    lines.append("|" + "|".join("-" * (widths[head] + 1) + ("-" if head in texts else ":") for head in heads) + "|")
    return lines + ["| " + " | ".join(sides[head](line[head], widths[head]) for head in heads) + " |" for line in table]


def machine(bench):
    """What a run is made on."""
    return f"{os.cpu_count()} processors {processor()}, Linux {os.uname().release}, {images.file_system(bench.folder)}"


def print_machine(bench, runs):
    one, _, _ = os.getloadavg()
    print(machine(bench))
    print(f"medians of {runs}; {one:.1f} programs were running when it began")
    if not bench.strace:
        print("strace is missing, or may trace nothing here: no calls, no replay, and no check of the calls")
    if not qcow2.is_there():
        print("no qemu-io here: no qcow2")
    print()


def faults_of_calls(bench, measured):
    """What the calls show that must not be; prints how often puts flush."""
    faults = list(checks.strange_calls(measured))
    for words, made, must in checks.puts(bench):
        print(f"{words} flush {made} times, at least {must}: {'holds' if made >= must else 'FAILS'}")
        if made < must:
            faults.append(f"{words} flush too seldom")
    print(f"pages are read and written whole: {'FAILS' if any(checks.strange_calls(measured)) else 'holds'}")
    return faults


def measured_rows(bench, options):
    """The rows that were asked for, measured in turns, so that what else the machine does meets all alike."""
    chosen = [workload for workload in all_workloads() if options.only in workload.name]
    measured = [rows.Row(bench, number, workload) for number, workload in enumerate(chosen)]
    for row in measured:
        print(f"making: {row.workload.name}", file=sys.stderr)
        row.prepare()
    for turn in range(options.runs):
        for row in measured:
            print(f"run {turn + 1}: {row.workload.name}", file=sys.stderr)
            row.measure()
    return measured


def main():
    options = read_options()
    with tempfile.TemporaryDirectory(prefix="blobtool-bench-", dir=options.folder) as folder:
        bench = bench_in(folder, options)
        if options.slow_sync:
            slow_down_syncs(folder, options.slow_sync)
        print_machine(bench, options.runs)
        measured = measured_rows(bench, options)
        measured_of = {row.workload.name: row.measured for row in measured}
        table = [cells(row, measured_of) for row in measured]
        print("\n".join(lines_of(table)), end="\n\n")
        if options.record:
            kept = [{head: cell for head, cell in line.items() if head != "must show"} for line in table]
            record.keep(f"{machine(bench)}, medians of {options.runs}", lines_of(kept))
        faults = faults_of_calls(bench, measured) if bench.strace else []
    for fault in faults:
        print(f"bench: {fault}", file=sys.stderr)
    return 1 if faults else 0


if __name__ == "__main__":
    # Images are removed also where it is told to stop.
    signal.signal(signal.SIGTERM, lambda _number, _frame: sys.exit("bench: stopped"))
    try:
        sys.exit(main())
    except (running.Failure, subprocess.CalledProcessError, OSError) as failure:
        sys.exit(f"bench: {failure}")
