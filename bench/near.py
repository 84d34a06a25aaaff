#!/usr/bin/env python3
"""Measures questions from single objects, the first time and again, and edits while their rows are kept.

    bench/near.py [--program PATH] [--runs N] [--nodes N] [--nears N ..]

Runs the built program over a ring of 100,000 nodes, unless N is given, and as many edges, with one query followed. Nine objects are near
each node (`bench/near_script.py` has the lines). From so many nodes the rows are asked for, twice, with as many edits between that are
near none of them, and at last once more, each behind an edit near it. Prints for each number of nodes the least seconds of all runs that
the graph takes, then microseconds: of a first `near`, of an edit, of a `near` whose rows are kept, of an edit and the `near` behind it;
and the greatest memory of a run. Ends with 1 where a run wrote something else than it must. Seconds are those that the processor worked
for the run.
"""
import argparse
import subprocess
import sys
import tempfile

sys.dont_write_bytecode = True
from ingest import TOP, run  # noqa: E402

WRITER = TOP / "bench/near_script.py"
STAGES = 4


def write(nodes, nears, stages, what):
    # In a process of its own: a child's greatest memory is never told as less than its parent's at the start.
    words = [sys.executable, WRITER, *map(str, (nodes, nears, stages)), what]
    return subprocess.run(words, stdout=subprocess.PIPE, check=True).stdout


def measure(program, nodes, nears, stages, runs):
    """Least seconds and greatest peak bytes."""
    wanted = write(nodes, nears, stages, "output")
    with tempfile.NamedTemporaryFile(suffix=".itpg") as file:
        words = [sys.executable, WRITER, *map(str, (nodes, nears, stages)), "script"]
        subprocess.run(words, stdout=file, check=True)
        results = [run(program, file.name, wanted) for _ in range(runs)]
        return min(r[0] for r in results), max(r[1] for r in results)


def main():
    parser = argparse.ArgumentParser(description=__doc__.splitlines()[0])
    parser.add_argument("--program", default=str(TOP / "crates/itpg/out/itpg"))
    parser.add_argument("--runs", type=int, default=3)
    parser.add_argument("--nodes", type=int, default=100_000)
    parser.add_argument("--nears", type=int, nargs="+", default=[100, 1_000, 10_000])
    options = parser.parse_args()
    print(f"{'nears':>7} {'graph s':>8} {'first us':>9} {'edit us':>8} {'kept us':>8} {'edit, near us':>14} {'peak MB':>8}")
    for nears in options.nears:
        results = [measure(options.program, options.nodes, nears, stages, options.runs) for stages in range(STAGES + 1)]
        seconds = [least for least, _ in results]
        each = [(after - before) / nears * 1e6 for before, after in zip(seconds, seconds[1:])]
        print(f"{nears:>7,} {seconds[0]:>8.2f} {each[0]:>9.1f} {each[1]:>8.1f} {each[2]:>8.1f} {each[3]:>14.1f} {results[-1][1] / 1e6:>8.0f}", flush=True)


if __name__ == "__main__":
    sys.exit(main())
