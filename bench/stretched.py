#!/usr/bin/env python3
"""Looks for short scripts that take long: draws scripts, stretches their moments, and prints the slowest.

    bench/stretched.py PROGRAM [--scripts N] [--from SEED] [--seconds S] [--most M] [--slowest K]

Draws N scripts (1,000 unless given) of twelve lines of edits and six questions over few names, as `tests/kept.py` does, with
repetitions of `N` and `P` among them. All moments of a script, those of its tests too, are multiplied by one factor from 1 to
3*10^10, and the ends of its repetitions by another, so that few lines speak of many moments. Runs each at the default limit of rows and ends it after S seconds
(20) or M megabytes (4,000). Prints the K slowest (10), each with its seconds of the processor, its peak and the factors, and
`N scripts, J took over 5 s, L were ended`. Its exit status is 1 if J or L is above 0."""
import argparse
import pathlib
import random
import re
import resource
import subprocess
import sys
import tempfile

sys.dont_write_bytecode = True
sys.path.insert(0, str(pathlib.Path(__file__).resolve().parent.parent / "tests"))
import kept  # noqa: E402

FACTORS = [1, 7, 1_000, 30_011, 1_000_000, 99_999_989, 1_000_000_000, 30_000_000_000]
COUNTS = [1, 1, 7, 1_000, 30_011, 1_000_000_007]
REPEATED = ["(N/N)*", "(N/N + P/P)*", "(N + P)[3,_]", "(N/N)[0,3]", "(N/N/N)[2,_]", "(NEXT/NEXT + PREV)*", "(N/N)[0,2]/(N/N/N)*",
            "((N/N)[0,_] + P)*", "(FWD/FWD/N + P/P)*", "(<path>/N/N)*", "(N/N + <path>)[1,3]"]
TIMED = re.compile(r"^(graph \S+|extend|(?:live|gone) \S+|set \S+ \S+ '[^']*'|unset \S+ \S+) (-?\d+) (-?\d+)$")


class Draw(kept.Draw):
    """Draws queries with repetitions that pass time, in one of two."""

    def query(self):
        query = self.text("<query>")
        if "-/" in query and self.random.random() < 0.5:
            query = re.sub(r"-/.*/-", lambda _: f"-/{self.text(self.random.choice(REPEATED), 2)}/-", query)
        return query


def script_of(seed):
    """The lines of a script, its factor of moments and that of repetitions."""
    draw = Draw(seed)
    lines = [f"graph g 0 {kept.LAST}"]
    for kind in ["node"] * 3 + ["edge"] * 2:
        lines += draw.edits(kind)
    lines += [line for _ in range(3) for line in draw.edits("live", "gone", "set")]
    lines += [f"ask {draw.query()}" for _ in range(6)]
    by, ends = draw.random.choice(FACTORS), draw.random.choice(COUNTS)
    return [stretched(line, by, ends) for line in lines], by, ends


def stretched(line, by, ends):
    """The line with its moments and the ends of its repetitions multiplied."""
    timed = TIMED.match(line)
    if timed:
        return f"{timed[1]} {int(timed[2]) * by} {int(timed[3]) * by + by - 1}"
    line = re.sub(r"(time (?:<|=|>=) )(\d+)", lambda found: f"{found[1]}{int(found[2]) * by}", line)
    return re.sub(r"\[(\d+),(\d+|_)\]", lambda found: f"[{int(found[1]) * ends},{found[2] if found[2] == '_' else int(found[2]) * ends}]", line)


def measure(program, lines, seconds, most):
    """Seconds of the processor and peak bytes of a run, and whether it was ended."""
    def bounded():
        resource.setrlimit(resource.RLIMIT_CPU, (seconds, seconds))
        resource.setrlimit(resource.RLIMIT_AS, (most << 20, most << 20))
    with tempfile.TemporaryFile() as file, tempfile.NamedTemporaryFile("r") as told:
        file.write("\n".join(lines).encode() + b"\n")
        file.seek(0)
        words = ["/usr/bin/env", "time", "-o", told.name, "-f", "%U %S %M", program]
        ran = subprocess.run(words, stdin=file, stdout=subprocess.DEVNULL, stderr=subprocess.DEVNULL, preexec_fn=bounded)
        user, system, peak = told.read().split("\n")[-2].split()
    return float(user) + float(system), int(peak) * 1024, ran.returncode not in (0, 1)


def main():
    parser = argparse.ArgumentParser(description=__doc__.splitlines()[0])
    parser.add_argument("program")
    parser.add_argument("--scripts", type=int, default=1_000)
    parser.add_argument("--from", dest="first", type=int, default=0)
    parser.add_argument("--seconds", type=int, default=20)
    parser.add_argument("--most", type=int, default=4_000)
    parser.add_argument("--slowest", type=int, default=10)
    options = parser.parse_args()
    runs = []
    for seed in range(options.first, options.first + options.scripts):
        lines, by, ends = script_of(seed)
        runs.append((*measure(options.program, lines, options.seconds, options.most), seed, by, ends))
    for seconds, peak, ended, seed, by, ends in sorted(runs, reverse=True)[:options.slowest]:
        print(f"seed {seed}: {seconds:.2f} s, {peak / 1e6:.0f} MB, moments times {by}, repetitions times {ends}{', ended' * ended}")
    slow, ended = sum(run[0] > 5 for run in runs), sum(run[2] for run in runs)
    print(f"{len(runs)} scripts, {slow} took over 5 s, {ended} were ended")
    return int(slow + ended > 0)


if __name__ == "__main__":
    sys.exit(main())
