#!/usr/bin/env python3
"""Measures how long the program takes for questions with a repetition, on graphs that grow.

    bench/repetition.py [--program PATH] [--runs N] [--only QUESTION]

Runs the built program over the graph of each size without the question and with it (`bench/repetition_script.py` says which
questions and graphs there are). Prints for each size the spans of all persons and meetings, the rows of the answer, the least
seconds of all runs that the edits take, the seconds that the question takes beyond them, the growth of the rows and of these
seconds against the size before, and the greatest memory that a run had. Ends with 1 where a run wrote something else than it
must. The seconds are those that the processor worked for the run.
"""
import argparse
import subprocess
import sys
import tempfile

sys.dont_write_bytecode = True
from ingest import TOP, run  # noqa: E402
from repetition_script import GRAPHS  # noqa: E402

WRITER = TOP / "bench/repetition_script.py"
SIZES = {
    "groups": (10, 40, 160, 640),
    "crowd": (16, 32, 64, 128),
    "chain": (64, 256, 1_024, 4_096),
    "alive": (64, 256, 1_024, 4_096),
}


def write(question, size, what):
    # In a process of its own: a child's greatest memory is never told as less than its parent's at the start.
    return subprocess.run([sys.executable, WRITER, question, str(size), what], stdout=subprocess.PIPE, check=True).stdout


def measure(program, script, wanted, runs):
    """Least seconds and greatest peak bytes over a script."""
    with tempfile.NamedTemporaryFile(suffix=".itpg") as file:
        file.write(script)
        file.flush()
        results = [run(program, file.name, wanted) for _ in range(runs)]
        return min(r[0] for r in results), max(r[1] for r in results)


def times(now, before):
    return f"{now / before:.1f}" if before else ""


def main():
    parser = argparse.ArgumentParser(description=__doc__.splitlines()[0])
    parser.add_argument("--program", default=str(TOP / "crates/itpg/out/itpg"))
    parser.add_argument("--runs", type=int, default=3)
    parser.add_argument("--only", choices=GRAPHS)
    options = parser.parse_args()
    print(f"{'question':>8} {'size':>6} {'spans':>7} {'rows':>7} {'growth':>7} {'edits s':>8} {'question s':>10} {'growth':>7} "
          f"{'peak MB':>8}")
    for question in [options.only] if options.only else GRAPHS:
        rows_before = seconds_before = 0
        for size in SIZES[question]:
            edits, wanted = write(question, size, "edits"), write(question, size, "answer")
            spans, rows = edits.count(b"\nlive "), wanted.count(b"\n") - 1
            without, _ = measure(options.program, edits, b"", options.runs)
            total, peak = measure(options.program, write(question, size, "asked"), wanted, options.runs)
            seconds = max(total - without, 0.0)
            print(f"{question:>8} {size:>6,} {spans:>7,} {rows:>7,} {times(rows, rows_before):>7} {without:>8.3f} "
                  f"{seconds:>10.3f} {times(seconds, seconds_before):>7} {peak / 1e6:>8.0f}", flush=True)
            rows_before, seconds_before = rows, seconds


if __name__ == "__main__":
    sys.exit(main())
