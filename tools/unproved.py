#!/usr/bin/env python3
"""Runs a program from its sources, unproved: an answer within two minutes on a machine where nothing is built.

The program is `itpg`, or the one that stands behind a first word `--program`, as `--program itpg_explain`.
"""
import pathlib
import re
import subprocess
import sys

NOTE = """{name}: this run is UNPROVED: the same sources, compiled with checks but without their proofs.
{name}: it is some hundred times slower than the built program, ends after 60 seconds and gives at most 1 MiB of output.
{name}: compiling takes a minute or two ..."""

# What the tool says of a run, in lines of its own.
OF_THE_TOOL = ("checked:", "interpreted:", "run=", "rt:", "note:")


def main():
    words = sys.argv[1:]
    program, words = (words[1], words[2:]) if words[:1] == ["--program"] else ("itpg", words)
    name = program.replace("_", "-")
    print(NOTE.format(name=name), file=sys.stderr, flush=True)
    crate = pathlib.Path(__file__).resolve().parent.parent / "crates" / program
    try:
        ran = subprocess.run(["rt", "try", "--", *words], cwd=crate, stderr=subprocess.PIPE, text=True, errors="replace")
    except FileNotFoundError:
        print(f"{name}: the command rt isn't there; README says where it comes from", file=sys.stderr)
        return 70
    lines = ran.stderr.splitlines()
    ended = re.search(r"^run=ended status=(\d+)", ran.stderr, re.M)
    said = [line for line in lines if not line.startswith(OF_THE_TOOL)] if ended else lines[-20:]
    for line in said:
        print(line, file=sys.stderr)
    if not ended:
        print(f"{name}: the unproved run gave no whole answer", file=sys.stderr)
        return 70
    return int(ended[1])


if __name__ == "__main__":
    sys.exit(main())
