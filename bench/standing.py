#!/usr/bin/env python3
"""Measures how long a tick takes with one watch and with many, on graphs that grow.

    bench/standing.py [--program PATH] [--runs N] [--persons N ..] [--watches N ..] [--rounds N]

Runs the built program over the graph of each size with each number of watches: without a tick, with one, and with a second
behind two late reports (`bench/standing_script.py` says which). Prints for each the rows that the first tick and the second tell,
the least seconds of all runs that the edits take, the seconds that each tick takes beyond what comes before it, the growth of the
second tick's against the number of watches before, and the greatest memory that a run had. Ends with 1 where a run wrote something
else than it must. The seconds are those that the processor worked for the run.

With --rounds it measures so many rounds of one edit and a tick behind the first tick instead, with watches that all ask something
else, and prints the milliseconds that a round takes.
"""
import argparse
import subprocess
import sys
import tempfile

sys.dont_write_bytecode = True
from ingest import TOP, run  # noqa: E402

WRITER = TOP / "bench/standing_script.py"


def write(persons, watches, ticks, what, rounds):
    # In a process of its own: a child's greatest memory is never told as less than its parent's at the start.
    words = [sys.executable, WRITER, *map(str, (persons, watches, ticks, what, rounds))]
    return subprocess.run(words, stdout=subprocess.PIPE, check=True).stdout


def measure(program, persons, watches, ticks, runs, rounds=0):
    """Least seconds, greatest peak bytes, and how many rows are told."""
    wanted = write(persons, watches, ticks, "output", rounds)
    with tempfile.NamedTemporaryFile(suffix=".itpg") as file:
        file.write(write(persons, watches, ticks, "script", rounds))
        file.flush()
        results = [run(program, file.name, wanted) for _ in range(runs)]
        rows = wanted.count(b"\n") - (ticks + rounds) * watches
        return min(r[0] for r in results), max(r[1] for r in results), rows


def measure_rounds(options):
    print(f"{'persons':>8} {'watches':>7} {'rounds':>7} {'rows':>9} {'told':>7} {'a round ms':>11} {'peak MB':>8}")
    for persons in options.persons:
        for watches in options.watches:
            some, _, first = measure(options.program, persons, watches, 1, options.runs, 1)
            all_, peak, told = measure(options.program, persons, watches, 1, options.runs, options.rounds + 1)
            each = (all_ - some) / options.rounds * 1000
            print(f"{persons:>8,} {watches:>7} {options.rounds:>7} {first:>9,} {told - first:>7,} {each:>11.2f} {peak / 1e6:>8.0f}", flush=True)


def main():
    parser = argparse.ArgumentParser(description=__doc__.splitlines()[0])
    parser.add_argument("--program", default=str(TOP / "crates/itpg/out/itpg"))
    parser.add_argument("--runs", type=int, default=3)
    parser.add_argument("--persons", type=int, nargs="+", default=[100, 1_000, 10_000])
    parser.add_argument("--watches", type=int, nargs="+", default=[1, 8, 32])
    parser.add_argument("--rounds", type=int)
    options = parser.parse_args()
    if options.rounds:
        return measure_rounds(options)
    print(f"{'persons':>8} {'watches':>7} {'rows':>9} {'2nd':>6} {'edits s':>8} {'tick s':>8} {'2nd s':>8} {'growth':>7} {'peak MB':>8}")
    for persons in options.persons:
        before = 0.0
        for watches in options.watches:
            (edits, _, _), (one, _, rows), (two, peak, all_rows) = (
                measure(options.program, persons, watches, ticks, options.runs) for ticks in (0, 1, 2))
            first, second = max(one - edits, 0.0), max(two - one, 0.0)
            growth = f"{second / before:.1f}" if before else ""
            before = second
            print(f"{persons:>8,} {watches:>7} {rows:>9,} {all_rows - rows:>6,} {edits:>8.3f} {first:>8.3f} {second:>8.3f} "
                  f"{growth:>7} {peak / 1e6:>8.0f}", flush=True)


if __name__ == "__main__":
    sys.exit(main())
