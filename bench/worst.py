#!/usr/bin/env python3
"""Measures the worst short scripts that are known: none has more than ten lines.

    bench/worst.py [--program PATH] [--seconds S] [--only TEXT]

Runs each script below at the default limit of rows, and ends it after S seconds of the processor (60). Prints for each what it asks, the
seconds of the processor and the greatest memory, the longest first. The heads of the replies must be those that stand beside the script,
which follow from its few lines by hand; its exit status is 1 if one isn't, or if a run was ended."""
import argparse
import pathlib
import resource
import subprocess
import sys
import tempfile

TOP = pathlib.Path(__file__).resolve().parent.parent
LAST = 10**12 - 1

# One node that exists at each moment of a long horizon; two of which the first leads to itself and to the other.
ONE = [f"graph g 0 {LAST}", "node a A", f"live a 0 {LAST}"]
LOOP = [f"graph g 0 {LAST}", "node a A", f"live a 0 {LAST}", "node b B", f"live b 0 {LAST}", "edge e L a a", f"live e 0 {LAST}",
        "edge f L a b", f"live f 0 {LAST}"]
# A node that exists late.
LATE = [f"graph g 0 {LAST}", "node a A", "live a 500000000000 599999999999"]
# Few moments: a loop, and an edge that holds for some of them; and a node that exists for some.
PART = ["graph g 0 7999", "node a A", "live a 0 7999", "node b B", "live b 0 7999", "edge e L a a", "live e 0 7999", "edge f L a b", "live f 2000 4999"]
SOME = ["graph g 0 9599", "node a A", "live a 2400 5999"]
INNER = "(x {time >= 1000000 AND time < 1000000000})"


# The lines before the question, the question, and the heads that must be replied.
SCRIPTS = [
    (ONE, "ask MATCH (x)-/(N/N)*/-(y)", ["wide"]),
    (ONE, "ask MATCH (x)-/(N/N)[0,_]/(N/N/N)*/-(y)", ["wide"]),
    (ONE, "ask MATCH (x)-/((N/N)[0,_] + P)*/-(y)", ["wide"]),
    (ONE, "ask MATCH (x)-/(N + P)[3,_]/-(y)", ["rows 1"]),
    (ONE, "ask MATCH (x)-/(N/N + P/P)*/-(y)", ["wide"]),
    (ONE, "ask MATCH (x)-/(N/N + FWD/FWD + P/P)[3,_]/-(y)", ["wide"]),
    (ONE, "ask MATCH (x)-/(N/N/N + P/P/P)*/-(y)", ["wide"]),
    (ONE, "ask MATCH (x)-/(N/N + P/P/P)*/-(y)", ["rows 1"]),
    (LATE, "ask MATCH (x)-/(NEXT[0,3]/N/N)*/-(y)", ["wide"]),
    (LATE, "ask MATCH (x)-/((NEXT[0,21])[7,_]/N/N)*/-(y)", ["wide"]),
    (LOOP, "ask MATCH (x)-/(FWD/FWD/N + P/P)*/-(y)", ["wide"]),
    (LOOP, "ask MATCH (x)-/(FWD/FWD/N/N + P/P)*/-(y)", ["wide"]),
    (LOOP, "ask MATCH (x)-/(NEXT/NEXT + FWD/FWD/P)*/-(y)", ["wide"]),
    (PART, "ask MATCH (x:B)-/(FWD/FWD/N + P/P)*/-(y {time = 1})", ["rows 4000"]),
    (SOME, "ask MATCH (x)-/(NEXT*/N/N)*/-(y)", ["rows 2"]),
    (LATE, "ask MATCH (x)-/(N/N + NEXT[0,3000])[1000,1000]/-()", ["rows 1"]),
    (ONE, "ask MATCH (x)-/(N + P)[3000,_]/-(y)", ["rows 1"]),
    (ONE, "ask MATCH (x)-/(N + P)[6000,_]/-(y)", ["rows 1"]),
    (ONE, f"ask MATCH {INNER}-/(N/N)[0,4000]/(P/P/P)[0,3000]/-(y)", ["rows 3"]),
    (ONE, f"ask MATCH {INNER}-/(N/N)[0,8000]/(P/P/P)[0,6000]/-(y)", ["rows 3"]),
    (ONE, f"ask MATCH {INNER}-/(N/N)[0,90000]/(P/P/P)[0,60000]/-(y)", ["wide"]),
    (ONE, "ask MATCH (x)-/(N + P)[60000,_]/-(y)", ["rows 1"]),
    (ONE, "ask MATCH (x)-/(N + P)[3000000021,_]/-(y)", ["wide"]),
    (ONE, "ask MATCH (x)-/(N/N)[0,40000]/(N/N)[0,40000]/-(y)", ["rows 80001"]),
    (ONE, "ask MATCH (x)-/(N/N)[0,90000]/-(y)", ["rows 90001"]),
    (ONE, "ask MATCH (x)-/((N/N)[0,40000] + (P/P/P)[0,30000])/-(y)", ["rows 70001"]),
    (ONE, "ask MATCH (x)-/(N/N)[0,90000]/{time = 5}/-(y)", ["rows 3"]),
    (ONE, "ask MATCH (x)-/" + "/".join(["N"] * 500) + "/-(y)", ["rows 1"]),
    (ONE, "ask MATCH (x)-/" + "/".join(["(N + P)"] * 120) + "/-(y)", ["rows 121"]),
    (ONE, "ask MATCH (x {" + " AND ".join(f"?(N[0,{n}]/{{time = {n}}})" for n in range(60)) + "})", ["rows 1"]),
]


def run(program, lines, seconds):
    """The heads of a run, its seconds of the processor, its peak in megabytes, and whether it was ended."""
    def bounded():
        resource.setrlimit(resource.RLIMIT_CPU, (seconds, seconds))
    with tempfile.NamedTemporaryFile("r") as told:
        words = ["/usr/bin/env", "time", "-o", told.name, "-f", "%U %S %M", program]
        ran = subprocess.run(words, input="\n".join(lines) + "\n", stdout=subprocess.PIPE, stderr=subprocess.DEVNULL, text=True, preexec_fn=bounded)
        user, system, peak = told.read().split("\n")[-2].split()
    heads = [line.split(" ", 2)[2] for line in ran.stdout.splitlines() if line.startswith("line ")]
    return heads, float(user) + float(system), int(peak) / 1000, ran.returncode not in (0, 1)


def main():
    parser = argparse.ArgumentParser(description=__doc__.splitlines()[0])
    parser.add_argument("--program", default=str(TOP / "crates/itpg/out/itpg"))
    parser.add_argument("--seconds", type=int, default=60)
    parser.add_argument("--only", default="")
    options = parser.parse_args()
    found, wrong = [], 0
    for before, question, wanted in SCRIPTS:
        if options.only not in question:
            continue
        heads, seconds, peak, ended = run(options.program, [*before, question], options.seconds)
        found.append((seconds, peak, question, "ended" if ended else " ".join(heads)))
        if ended or heads != wanted:
            wrong += 1
            print(f"{question[:100]}: {heads} in place of {wanted}")
    for seconds, peak, question, head in sorted(found, reverse=True):
        print(f"{seconds:6.2f} s {peak:5.0f} MB  {head:10}  {question[:110]}")
    return int(wrong > 0)


if __name__ == "__main__":
    sys.exit(main())
