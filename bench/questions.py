#!/usr/bin/env python3
"""Measures how long the program takes for two questions whose paths have no repetition, on graphs that grow.

    bench/questions.py [--program PATH] [--runs N] [--persons N ..]

Runs the built program over the graph of each size without a question, and then with each of the two
(`bench/questions_script.py` says which). Prints for each size the rows of the answer, the least seconds of all runs that the
edits take, the seconds that the question takes beyond them, the growth of these against the size before, and the greatest
memory that a run had. Ends with 1 where a run wrote something else than it must. The seconds are those that the processor
worked for the run.
"""
import argparse
import subprocess
import sys
import tempfile

sys.dont_write_bytecode = True
from ingest import TOP, run  # noqa: E402
from questions_script import Contacts, QUESTIONS, output  # noqa: E402

WRITER = TOP / "bench/questions_script.py"


def measure(program, graph, question, runs):
    """Least seconds, greatest peak bytes and rows over the graph with the question, or without one."""
    wanted, rows = output(graph, question)
    with tempfile.NamedTemporaryFile(suffix=".itpg") as file:
        words = [str(graph.persons)] + ([question] if question else [])
        # In a process of its own: a child's greatest memory is never told as less than its parent's at the start.
        subprocess.run([sys.executable, WRITER, *words], stdout=file, check=True)
        results = [run(program, file.name, wanted) for _ in range(runs)]
        return min(r[0] for r in results), max(r[1] for r in results), rows


def main():
    parser = argparse.ArgumentParser(description=__doc__.splitlines()[0])
    parser.add_argument("--program", default=str(TOP / "crates/itpg/out/itpg"))
    parser.add_argument("--runs", type=int, default=3)
    parser.add_argument("--persons", type=int, nargs="+", default=[100, 1_000, 10_000])
    options = parser.parse_args()
    before = {}
    print(f"{'question':>8} {'persons':>8} {'edges':>8} {'rows':>8} {'edits s':>8} {'question s':>10} {'growth':>7} {'peak MB':>8}")
    for persons in options.persons:
        graph = Contacts(persons)
        edits, _, _ = measure(options.program, graph, None, options.runs)
        for question in QUESTIONS:
            total, peak, rows = measure(options.program, graph, question, options.runs)
            seconds = max(total - edits, 0.0)
            growth = f"{seconds / before[question]:.1f}" if before.get(question) else ""
            before[question] = seconds
            print(f"{question:>8} {persons:>8,} {len(graph.edges):>8,} {rows:>8,} {edits:>8.3f} {seconds:>10.3f} "
                  f"{growth:>7} {peak / 1e6:>8.0f}", flush=True)


if __name__ == "__main__":
    sys.exit(main())
