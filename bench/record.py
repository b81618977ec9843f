"""Keeps a run in docs/BENCHMARK.md, from which docs/speed.svg is drawn."""
import datetime
import subprocess
import sys
from pathlib import Path

DOCS = Path(__file__).resolve().parent.parent / "docs"
HEADING = "## The last run"


def keep(machine, table):
    """Puts the run in the place of the one that is kept, and draws the picture anew. `machine` says what it was made
    on, `table` has the lines of the table."""
    path = DOCS / "BENCHMARK.md"
    before, _, rest = path.read_text(encoding="utf-8").partition(HEADING + "\n")
    _, next_heading, after = rest.partition("\n## ")
    day = datetime.date.today().isoformat()
    part = "\n".join(["", f"On {day}, by `bench/bench.py --record`: {machine}.", "", *table, ""])
    path.write_text(before + HEADING + "\n" + part + next_heading + after, encoding="utf-8")
    subprocess.run([sys.executable, DOCS / "pictures.py"], check=True)
