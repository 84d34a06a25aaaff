#!/usr/bin/env python3
"""Measures the longest scripts that there may be, and what is longer by a byte.

    bench/longest.py [--program PATH]

Hands the built program 268,435,456 bytes and one byte more on a pipe: of comments of 65,536 bytes, of `live` lines that change
nothing, and of one line without an end. Prints for each the status, the seconds that the processor worked for the run, and the
greatest memory of the run shortly before its end; beside it that of a run over the first million bytes. Ends with 1 where a run
ended otherwise than it must, or where one had 500 kB more than its short run (the system counts in steps).
"""
import argparse
import os
import pathlib
import subprocess
import sys

TOP = pathlib.Path(__file__).resolve().parent.parent
LONGEST = 268_435_456
BLOCK = 65_536
GRAPH = b"graph g 0 9\nnode a T\n"
LIVE = b"live a 0 9\n" * 5_957  # just below a block

# Of each script its head, what is repeated, what it writes and with which status; a rest is filled with comments and a line's end.
SCRIPTS = {
    "comments": (b"", b"#" + b"x" * (BLOCK - 2) + b"\n", b"", 0),
    "live lines": (GRAPH, LIVE, b"", 0),
    "one line": (b"", b"x" * BLOCK, b"line 1 bad long\n", 1),
}


def blocks(kind, size):
    """The script of this kind and size, block by block."""
    head, block, _, _ = SCRIPTS[kind]
    yield head
    left = size - len(head)
    while left >= len(block):
        yield block
        left -= len(block)
    yield block[:1] * left if kind == "one line" else b"#" * (left - 1) + b"\n" * (left > 0)


def peak_of(process):
    """The greatest memory that the process had so far, in bytes."""
    status = pathlib.Path(f"/proc/{process.pid}/status").read_text()
    return int(status.split("VmHWM:")[1].split()[0]) * 1024


def run(program, kind, size):
    """The status, the output, the seconds and the peak bytes of a run."""
    process = subprocess.Popen([program], stdin=subprocess.PIPE, stdout=subprocess.PIPE, stderr=subprocess.DEVNULL, bufsize=0)
    last = b""
    for block in blocks(kind, size):
        process.stdin.write(last)
        last = block
    peak = peak_of(process)
    process.stdin.write(last)
    process.stdin.close()
    output = process.stdout.read()
    _, status, used = os.wait4(process.pid, 0)
    process.returncode = os.waitstatus_to_exitcode(status)
    return process.returncode, output, used.ru_utime + used.ru_stime, peak


def main():
    parser = argparse.ArgumentParser(description=__doc__.splitlines()[0])
    parser.add_argument("--program", default=str(TOP / "crates/itpg/out/itpg"))
    options = parser.parse_args()
    wrong = 0
    print(f"{'script':12} {'bytes':>11} {'status':>6} {'seconds':>8} {'peak kB':>8} {'of a short run':>15}")
    for kind, (_, _, output, status) in SCRIPTS.items():
        short = run(options.program, kind, 1_000_000)[3]
        for size, wanted in ((LONGEST, (status, output)), (LONGEST + 1, (6, b""))):
            got = run(options.program, kind, size)
            print(f"{kind:12} {size:>11,} {got[0]:>6} {got[2]:>8.2f} {got[3] / 1e3:>8,.0f} {short / 1e3:>15,.0f}", flush=True)
            if got[:2] != wanted or got[3] > short + 500_000:
                wrong += 1
                print(f"{kind}: {got[:2]} in place of {wanted}, or more memory than a short run")
    return 1 if wrong else 0


if __name__ == "__main__":
    sys.exit(main())
