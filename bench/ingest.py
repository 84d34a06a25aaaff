#!/usr/bin/env python3
"""Measures how fast the program takes in a script of edits, and whether its time grows in proportion.

    bench/ingest.py [--program PATH] [--runs N] [--nodes N] [--json]

Runs the built program over scripts of the sizes 1, 2, 4 and 8. Size 1 has 12,500 nodes and as many edges, so size 8 has as
many objects as a script may declare. Prints for each size the least seconds of all runs, the bytes a second, the growth
against the size before, and the greatest memory that a run had. Ends with 1 where the last doubling took more than 2.3 times as
long, or where a run wrote something else than it must. The seconds are those that the processor worked for the run, so that
they tell the same on a busy machine.

With --json each size is run twice, as plain lines and as lines of JSON, and a last column says how many times as long those of JSON
took. It ends with 1 too where that was more than 2 at the last size.
"""
import argparse
import os
import pathlib
import subprocess
import sys
import tempfile

sys.dont_write_bytecode = True
from ingest_script import json_output, output  # noqa: E402

TOP = pathlib.Path(__file__).resolve().parent.parent
WRITER = TOP / "bench/ingest_script.py"
SIZES = (1, 2, 4, 8)
MOST_GROWTH = 2.3
MOST_TIMES = 2.0  # as long as over plain lines


def run(words, path, wanted):
    """Seconds and peak bytes of one run over the script in this file."""
    with open(path, "rb") as source, tempfile.TemporaryFile() as sink:
        child = subprocess.Popen(words, stdin=source, stdout=sink)
        _, status, usage = os.wait4(child.pid, 0)
        child.returncode = os.waitstatus_to_exitcode(status)
        sink.seek(0)
        if child.returncode != 0 or sink.read() != wanted:
            sys.exit(f"{path}: the run ended with {child.returncode}, or wrote something else than it must")
    return usage.ru_utime + usage.ru_stime, usage.ru_maxrss * 1024


def measure(program, nodes, runs, *flag):
    """Bytes, least seconds and greatest peak bytes over a script with so many nodes, as lines of JSON with the flag."""
    with tempfile.NamedTemporaryFile(suffix=".itpg") as file:
        # In a process of its own: a child's greatest memory is never told as less than its parent's at the start.
        subprocess.run([sys.executable, WRITER, str(nodes), *flag], stdout=file, check=True)
        wanted = json_output(nodes) if flag else output(nodes)
        results = [run([program, *flag], file.name, wanted) for _ in range(runs)]
        return os.path.getsize(file.name), min(r[0] for r in results), max(r[1] for r in results)


class Table:
    """Prints the sizes in one form of lines, and keeps the growth of the last."""

    def __init__(self):
        self.before = self.growth = None

    def add(self, size, count, seconds, peak, more=""):
        self.growth = None if self.before is None else seconds / self.before
        self.before = seconds
        told = "" if self.growth is None else f"{self.growth:.2f}"
        print(f"{size:>6} {count:>11,} {seconds:>8.3f} {count / seconds:>12,.0f} {told:>7} {peak / 1e6:>8.0f}{more}", flush=True)


def main():
    parser = argparse.ArgumentParser(description=__doc__.splitlines()[0])
    parser.add_argument("--program", default=str(TOP / "crates/itpg/out/itpg"))
    parser.add_argument("--runs", type=int, default=5)
    parser.add_argument("--nodes", type=int, default=12_500)
    parser.add_argument("--json", action="store_true")
    options = parser.parse_args()
    print(f"{'size':>6} {'bytes':>11} {'seconds':>8} {'bytes/s':>12} {'growth':>7} {'peak MB':>8}" + "    times" * options.json)
    tables, times = [Table(), Table()], 0
    for size in SIZES:
        plain = measure(options.program, size * options.nodes, options.runs)
        tables[0].add(size, *plain)
        if options.json:
            json = measure(options.program, size * options.nodes, options.runs, "--json")
            times = json[1] / plain[1]
            tables[1].add(f"{size} JSON", *json, f" {times:>8.2f}")
    return 1 if any((table.growth or 0) > MOST_GROWTH for table in tables) or times > MOST_TIMES else 0


if __name__ == "__main__":
    sys.exit(main())
