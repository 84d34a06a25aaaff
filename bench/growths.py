#!/usr/bin/env python3
"""Measures how seconds grow where rows or zones are many, by five sizes of which each is twice the one before.

    bench/growths.py [--program PATH] [--runs N] [--only SHAPE]

    lives     an answer of a row for each life of one moment
    tick      ticks that each gain one row over as many that stay
    nested    edges between two nodes, each of which lives within the one before
    limits    a question over 10^12 moments that is wide, at limits of rows that grow
    ring      who reaches whom on a ring of nodes, 9 times, 1,000 times, 10^12 times or any number of times
    groups    the same in groups of ten

Prints for each size the least seconds of the processor of all runs, their growth against the size before, and the greatest memory. Of
`ring` and `groups`, in place of the growth, against the first number of times. Ends with 1 where a run wrote something else than it must,
which is worked out here without itpg.
"""
import argparse
import os
import pathlib
import subprocess
import sys
import tempfile

TOP = pathlib.Path(__file__).resolve().parent.parent
LAST = 10**12 - 1


def row(source, first, target, last):
    return f"{source} {first}..{first} {target} {last}..{last}"


def lives(size):
    lines = [f"graph g 0 {2 * size}", "node a P"] + [f"live a {2 * i} {2 * i}" for i in range(size)]
    rows = [row("a", 2 * i, "a", 2 * i) for i in range(size)]
    return [], lines + ["ask MATCH (x)-/NEXT*/-(y)"], [f"line {size + 3} rows {size}"] + rows


def tick(size):
    ticks = 8
    lines, _ = lives(size)[1:]
    lines[0] = f"graph g 0 {2 * (size + ticks)}"
    lines[-1] = "watch w MATCH (x)-/NEXT*/-(y)"
    told = [f"tick w gained {size} lost 0"] + [f"+ {row('a', 2 * i, 'a', 2 * i)}" for i in range(size)]
    lines.append("tick")
    for i in range(size, size + ticks):
        lines += [f"live a {2 * i} {2 * i}", "tick"]
        told += ["tick w gained 1 lost 0", f"+ {row('a', 2 * i, 'a', 2 * i)}"]
    return [], lines, told


def nested(size):
    end = 2 * size
    lines = [f"graph g 0 {end}", "node a P", "node b P", f"live a 0 {end}", f"live b 0 {end}"]
    for i in range(size):
        lines += [f"edge e{i} m a b", f"live e{i} {i} {end - i}"]
    return [], lines + ["ask MATCH (x)-/FWD/FWD/-(y)"], [f"line {len(lines) + 1} rows 1", f"a 0..{end} b t..t"]


def limits(size):
    lines = [f"graph g 0 {LAST}", "node a A", f"live a 0 {LAST}", "ask MATCH (x)-/(N/N)*/-(y)"]
    return ["--max-rows", str(size)], lines, ["line 4 wide"]


def reach(edges, nodes, pairs, most):
    lines = ["graph g 0 0"] + [line for n in range(nodes) for line in (f"node n{n} P", f"live n{n} 0 0")]
    for i, (a, b) in enumerate(edges):
        lines += [f"edge e{i} m n{a} n{b}", f"live e{i} 0 0"]
    rows = [row(f"n{a}", 0, f"n{b}", 0) for a, b in sorted(pairs)]
    return [], lines + [f"ask MATCH (x:P)-/(FWD/:m/FWD)[1,{most}]/-(y:P)"], [f"line {len(lines) + 1} rows {len(rows)}"] + rows


def ring(most):
    nodes = 200
    far = 9 if most == 9 else nodes
    pairs = {(a, (a + k) % nodes) for a in range(nodes) for k in range(1, far + 1)}
    return reach([(a, (a + 1) % nodes) for a in range(nodes)], nodes, pairs, most)


def groups(most):
    nodes, ten = 1_000, range(10)
    pairs = {(g + i, g + j) for g in range(0, nodes, 10) for i in ten for j in ten}
    return reach([(a, a - a % 10 + (a + 1) % 10) for a in range(nodes)], nodes, {p for p in pairs if most != 9 or p[0] != p[1]}, most)


SHAPES = {
    "lives": (lives, (256, 512, 1_024, 2_048, 4_096)),
    "tick": (tick, (255, 511, 1_023, 2_047, 4_087)),
    "nested": (nested, (1_000, 2_000, 4_000, 8_000, 16_000)),
    "limits": (limits, (1_000, 2_000, 4_000, 8_000, 16_000)),
    "ring": (ring, ("_", 1_000, 10**12, 9)),
    "groups": (groups, ("_", 1_000, 10**12, 9)),
}


def run(program, words, script):
    """What a run wrote, and its seconds of the processor."""
    with tempfile.TemporaryFile() as given, tempfile.TemporaryFile() as wrote:
        given.write(script)
        given.seek(0)
        process = subprocess.Popen([program] + words, stdin=given, stdout=wrote, stderr=subprocess.DEVNULL)
        _, _, used = os.wait4(process.pid, 0)
        wrote.seek(0)
        return wrote.read(), used.ru_utime + used.ru_stime


def peak(program, words, script):
    """The greatest memory of a run, in megabytes. Another program starts it, since a run is told to have had its parent's memory."""
    with tempfile.NamedTemporaryFile("r") as told:
        timed = ["/usr/bin/env", "time", "-q", "-o", told.name, "-f", "%M", program]
        subprocess.run(timed + words, input=script, stdout=subprocess.DEVNULL, stderr=subprocess.DEVNULL)
        return int(told.read()) / 1_000


def main():
    parser = argparse.ArgumentParser(description=__doc__.splitlines()[0])
    parser.add_argument("--program", default=str(TOP / "crates/itpg/out/itpg"))
    parser.add_argument("--runs", type=int, default=9)
    parser.add_argument("--only", choices=SHAPES)
    options = parser.parse_args()
    differ = 0
    print(f"{'shape':>8} {'size':>14} {'seconds':>8} {'growth':>7} {'peak MB':>8}")
    for shape in [options.only] if options.only else SHAPES:
        make, sizes = SHAPES[shape]
        before = 0.0
        for size in sizes:
            words, lines, told = make(size)
            script, wanted = ("\n".join(text) + "\n" for text in (lines, told))
            runs = [run(options.program, words, script.encode()) for _ in range(options.runs)]
            differ += any(wrote != wanted.encode() for wrote, _ in runs)
            seconds = min(r[1] for r in runs)
            growth = f"{seconds / before:.2f}" if before else ""
            most = peak(options.program, words, script.encode())
            print(f"{shape:>8} {size:>14} {seconds:>8.4f} {growth:>7} {most:>8.0f}", flush=True)
            if make not in (ring, groups) or not before:
                before = seconds
    print(f"{differ} differ")
    return int(differ > 0)


if __name__ == "__main__":
    sys.exit(main())
