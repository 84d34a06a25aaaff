#!/usr/bin/env python3
"""Says in which functions a run of the built program spends its time.

    bench/samples.py SCRIPT [--program PATH] [--most N]

While the program runs over the script, at a limit of 1,000,000 rows, it is stopped each 0.3 ms, and the function in which it stood is
counted. So what waits for memory is seen, which a count of instructions doesn't show. Prints the share of each function, the largest
first; `elsewhere` is the system's libraries. It wants Linux on x86-64, and `nm` of binutils.
"""
import argparse
import bisect
import collections
import ctypes
import os
import pathlib
import subprocess
import sys
import time

TOP = pathlib.Path(__file__).resolve().parent.parent
PAUSE = 0.0003
# Requests of ptrace, a flag of waitpid, and where the instruction pointer stands among the registers.
CONTINUE, REGISTERS, SEIZE, INTERRUPT = 7, 12, 0x4206, 0x4207
ALL_THREADS = 0x40000000
POINTER, COUNT = 16, 27

ptrace = ctypes.CDLL(None, use_errno=True).ptrace
ptrace.argtypes = [ctypes.c_long, ctypes.c_long, ctypes.c_void_p, ctypes.c_void_p]
ptrace.restype = ctypes.c_long


def functions(program):
    """The first addresses of the program's functions, rising, and their names."""
    said = subprocess.run(["nm", "-n", "--defined-only", program], stdout=subprocess.PIPE, text=True, check=True).stdout
    found = [line.split(" ", 2) for line in said.splitlines()]
    code = [(int(at, 16), name) for at, kind, name in found if kind in "tT"]
    return [at for at, _ in code], [name for _, name in code]


def places(program, script):
    """Where the program stood at each stop, as addresses of its file; None where it stood elsewhere."""
    with open(script, "rb") as source:
        child = subprocess.Popen([program, "--max-rows", "1000000"], stdin=source, stdout=subprocess.DEVNULL)
    if ptrace(SEIZE, child.pid, None, None) != 0:
        sys.exit(f"the run can't be stopped: {os.strerror(ctypes.get_errno())}")
    registers, code = (ctypes.c_uint64 * COUNT)(), None
    while True:
        time.sleep(PAUSE)
        ptrace(INTERRUPT, child.pid, None, None)
        _, status = os.waitpid(child.pid, ALL_THREADS)
        if not os.WIFSTOPPED(status):
            child.returncode = os.waitstatus_to_exitcode(status)
            return
        code = code or mapped(child.pid, program)
        ptrace(REGISTERS, child.pid, None, ctypes.byref(registers))
        at = registers[POINTER]
        yield at - code[0] if code and code[0] <= at < code[1] else None
        ptrace(CONTINUE, child.pid, None, None)


def mapped(pid, program):
    """The first address of the program in the memory of its run, and the address behind its last."""
    real = os.path.realpath(program)
    with open(f"/proc/{pid}/maps", encoding="ascii", errors="replace") as maps:
        spans = [line.split()[0].split("-") for line in maps if line.rstrip().endswith(real)]
    return (int(spans[0][0], 16), int(spans[-1][1], 16)) if spans else None


def main():
    parser = argparse.ArgumentParser(description="Says in which functions a run of the program spends its time.")
    parser.add_argument("script")
    parser.add_argument("--program", default=TOP / "crates/itpg/out/itpg", type=pathlib.Path)
    parser.add_argument("--most", type=int, default=20)
    given = parser.parse_args()
    starts, names = functions(given.program)
    counts = collections.Counter()
    for at in places(given.program, given.script):
        counts["elsewhere" if at is None else names[bisect.bisect_right(starts, at) - 1]] += 1
    stops = sum(counts.values())
    print(f"{stops} stops")
    for name, count in counts.most_common(given.most):
        print(f"{100 * count / stops:5.1f} %  {name}")


if __name__ == "__main__":
    main()
