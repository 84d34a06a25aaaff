#!/usr/bin/env python3
"""Measures how long the program takes for trials.

    bench/trial.py [--program PATH] [NUMBER ..]

Runs the built program once with `--trial NUMBER` for each number, ten of them where none is named. Prints for each the rows of
the three questions, the seconds that the processor worked for the run, and the greatest memory that it had. Ends with 1 where a
run wrote something else than `crates/itpg_rows/data/trial_model.py` works out.
"""
import argparse
import os
import re
import subprocess
import sys

sys.dont_write_bytecode = True
from ingest import TOP  # noqa: E402

MODEL = TOP / "crates/itpg_rows/data/trial_model.py"
NUMBERS = (0, 1, 2, 3, 7, 42, 1_000, 123_456_789, 2**63, 2**64 - 1)


def wanted_of(number):
    # In a process of its own: a child's greatest memory is never told as less than its parent's at the start.
    return subprocess.run([sys.executable, MODEL, str(number)], stdout=subprocess.PIPE, check=True).stdout


def run(program, number):
    """What a trial writes, its status, and what it used. Its standard input is closed, as it reads nothing."""
    child = subprocess.Popen([program, "--trial", str(number)], stdin=subprocess.DEVNULL, stdout=subprocess.PIPE)
    output = child.stdout.read()
    _, status, used = os.wait4(child.pid, 0)
    child.returncode = os.waitstatus_to_exitcode(status)
    return output, child.returncode, used


def main():
    parser = argparse.ArgumentParser(description=__doc__.splitlines()[0])
    parser.add_argument("--program", default=str(TOP / "crates/itpg/out/itpg"))
    parser.add_argument("numbers", type=int, nargs="*", default=NUMBERS)
    options = parser.parse_args()
    print(f"{'number':>20} {'rows':>16} {'seconds':>8} {'peak MB':>8}")
    for number in options.numbers:
        wanted = wanted_of(number)
        output, status, used = run(options.program, number)
        if (output, status) != (wanted, 0):
            print(f"{number}: status {status} and {output!r} in place of {wanted!r}")
            return 1
        rows = " ".join(re.findall(r"rows (\d+)", output.decode()))
        print(f"{number:>20} {rows:>16} {used.ru_utime + used.ru_stime:>8.2f} {used.ru_maxrss / 1e3:>8.0f}", flush=True)
    return 0


if __name__ == "__main__":
    sys.exit(main())
