#!/usr/bin/env python3
"""Measures what pins cost: to open them on the greatest graph, and edits afterwards.

    bench/pins.py [--program PATH] [--runs N] [--nodes N] [--pins N ..]

Runs the built program over the graph of `ingest_script.py`, with 100,000 nodes and as many edges unless N is given, and over the same
with so many pins opened, with an edit of each node behind them, and with another edit of each (`bench/pins_script.py` has the lines).
At the end a question is asked on each pin's graph and on the graph as it stands. Prints for each number of pins the least seconds of
all runs without edits, the seconds beyond those without a pin, the seconds that the first edit of each node takes and the second, and
the greatest memory of a run without edits and of one with both. Ends with 1 where a run wrote something else than it must. The seconds
are those that the processor worked for the run.
"""
import argparse
import subprocess
import sys
import tempfile

sys.dont_write_bytecode = True
from ingest import TOP, run  # noqa: E402

WRITER = TOP / "bench/pins_script.py"


def write(nodes, pins, rounds, what):
    # In a process of its own: a child's greatest memory is never told as less than its parent's at the start.
    words = [sys.executable, WRITER, *map(str, (nodes, pins, rounds)), what]
    return subprocess.run(words, stdout=subprocess.PIPE, check=True).stdout


def measure(program, nodes, pins, rounds, runs):
    """Least seconds and greatest peak bytes."""
    wanted = write(nodes, pins, rounds, "output")
    with tempfile.NamedTemporaryFile(suffix=".itpg") as file:
        words = [sys.executable, WRITER, *map(str, (nodes, pins, rounds)), "script"]
        subprocess.run(words, stdout=file, check=True)
        results = [run(program, file.name, wanted) for _ in range(runs)]
        return min(r[0] for r in results), max(r[1] for r in results)


def main():
    parser = argparse.ArgumentParser(description=__doc__.splitlines()[0])
    parser.add_argument("--program", default=str(TOP / "crates/itpg/out/itpg"))
    parser.add_argument("--runs", type=int, default=3)
    parser.add_argument("--nodes", type=int, default=100_000)
    parser.add_argument("--pins", type=int, nargs="+", default=[1, 8])
    options = parser.parse_args()
    print(f"{'pins':>4} {'run s':>8} {'opening s':>10} {'1st edits s':>12} {'2nd edits s':>12} {'peak MB':>8} {'with edits MB':>14}")
    alone = None
    for pins in [0, *options.pins]:
        (none, peak), (one, _), (two, peak_of_two) = (
            measure(options.program, options.nodes, pins, rounds, options.runs) for rounds in (0, 1, 2))
        alone = none if alone is None else alone
        print(f"{pins:>4} {none:>8.2f} {none - alone:>10.2f} {one - none:>12.2f} {two - one:>12.2f} {peak / 1e6:>8.0f} "
              f"{peak_of_two / 1e6:>14.0f}", flush=True)


if __name__ == "__main__":
    sys.exit(main())
