#!/usr/bin/env python3
"""Runs the gate, `rt ci`, and writes what it took by crate to docs/GATE.md.

    tools/gate.py [--log FILE]      runs `rt ci` at the top, keeps what it prints in FILE, and ends with its status

The prover prints no times, so its processes are looked at five times a second: each belongs to a crate by its words, and to the
proof, the tests or the wrong bodies by its folder. Measure alone, on a machine on which nothing else runs and
nothing is kept.
"""
import argparse
import collections
import datetime
import os
import pathlib
import re
import resource
import subprocess
import sys
import time

TOP = pathlib.Path(__file__).resolve().parent.parent
PAGE = TOP / "docs" / "GATE.md"
KINDS = ("proof", "tests", "wrong bodies", "building")
TICK = os.sysconf("SC_CLK_TCK")


def crate_lines():
    """Each crate of crates.txt with those of the repository that it uses."""
    uses = {}
    for line in (TOP / "crates.txt").read_text().splitlines():
        name, colon, used = line.partition("#")[0].partition(":")
        if colon:
            uses[name.split()[0]] = used.split()
    return {name: [it for it in used if it in uses] for name, used in uses.items()}


def kind_of(words, folder):
    """What a process of the prover works for."""
    if os.path.basename(folder).startswith("rt-edit-"):
        return "wrong bodies"
    if "--test" in words:
        return "tests"
    return "building" if "--crate-checked" in words else "proof"


class Watch:
    """The processor seconds of the prover's processes, by crate and kind."""

    def __init__(self):
        self.owner, self.used = {}, {}

    def look(self):
        for pid in filter(str.isdigit, os.listdir("/proc")):
            try:
                stat = pathlib.Path(f"/proc/{pid}/stat").read_text().rpartition(")")[2].split()
                key = pid, stat[19]
                if not self.owner.get(key):
                    # A process that was seen before it became the prover is asked again.
                    self.owner[key] = self.owner_of(pid, stat[1])
                if self.owner[key]:
                    self.used[key] = (int(stat[11]) + int(stat[12])) / TICK
            except (OSError, IndexError):
                continue

    def owner_of(self, pid, parent):
        words = pathlib.Path(f"/proc/{pid}/cmdline").read_bytes().decode(errors="replace").split("\0")
        if os.path.basename(words[0]) == "rattle" and "--crate-name" in words:
            return words[words.index("--crate-name") + 1], kind_of(words, os.readlink(f"/proc/{pid}/cwd"))
        # What the prover starts itself, as a compiler, works for what it works for.
        above = next((owner for (it, _), owner in reversed(self.owner.items()) if it == parent and owner), None)
        return above

    def seconds(self):
        found = collections.Counter()
        for key, used in self.used.items():
            found[self.owner[key]] += used
        return found


def longest(uses, weight):
    """The chain of crates, each over the one before, with the greatest weight."""
    best = {}

    def chain(name):
        if name not in best:
            below = max((chain(it) for it in uses[name]), default=(0, []))
            best[name] = below[0] + weight(name), below[1] + [name]
        return best[name]

    return max(chain(name) for name in uses)


def figures(text):
    """The seconds that a page has, by crate and kind."""
    found = collections.Counter()
    for line in text.splitlines():
        name, *cells = line.split() or [""]
        if len(cells) == 5 and all(re.fullmatch(r"\d+|-", cell) for cell in cells):
            del cells[3]
            found.update({(name, kind): int(cell) for kind, cell in zip(KINDS, cells) if cell != "-"})
    return found


def filled(seconds, before, uses):
    """The seconds of a run with those of the page before where the toolchain kept what an earlier run had passed, and where that is."""
    kept = [(name, kind) for name in uses for kind in KINDS if not round(seconds[name, kind]) and before[name, kind]]
    return seconds + collections.Counter({it: before[it] for it in kept}), kept


def page(seconds, kept, whole, took, uses, last):
    """The text of the page."""
    sums = {kind: sum(seconds[name, kind] for name in uses) for kind in KINDS}
    version = subprocess.run(["rt", "version"], capture_output=True, text=True).stdout.strip()
    commit = subprocess.run(["git", "-C", TOP, "rev-parse", "--short", "HEAD"], capture_output=True, text=True).stdout.strip()
    lines = [
        "# What the gate takes",
        "",
        "Written by `tools/gate.py`; not edited by hand.",
        "",
        f"- {datetime.date.today()}, commit {commit}, `{version}`, {os.cpu_count()} processors: `{last}`",
        f"- this run: {took / 60:.0f} minutes by the clock; {whole:.0f} seconds of the processor",
        f"- the table: {sum(sums.values()):.0f} seconds: {', '.join(f'{kind} {sums[kind]:.0f}' for kind in KINDS)}",
    ]
    if kept:
        of = [f"{kind} of {', '.join(name for name, it in kept if it == kind)}" for kind in KINDS if kind in {it for _, it in kept}]
        lines.append(f"- kept by the toolchain, so as on the page before: {'; '.join(of)}")
    dear, chain = longest(uses, lambda name: seconds[name, "proof"])
    count, deep = longest(uses, lambda name: 1)
    lines += [
        f"- dearest chain, {dear:.0f} seconds one after another: {', '.join(chain)}",
        f"- longest chain, {count} crates: {', '.join(deep)}",
        "",
        "Seconds of the processor, and how many wrong bodies there are:",
        "",
        "```",
        f"{'crate':18}{'proof':>7}{'tests':>7}{'wrong bodies':>14}{'many':>6}{'building':>10}",
    ]
    for name in uses:
        own = {kind: f"{seconds[name, kind]:.0f}" for kind in KINDS}
        edits = len(list((TOP / "crates" / name / "must-fail").glob("*.edit")))
        lines.append(f"{name:18}{own['proof']:>7}{own['tests']:>7}{own['wrong bodies']:>14}{edits:>6}{own['building']:>10}")
    lines.append("```")
    return "\n".join(lines) + "\n"


def main():
    words = argparse.ArgumentParser(description=__doc__.splitlines()[0])
    words.add_argument("--log", default=str(TOP / ".git" / "gate.log"), help="where the gate's own output goes")
    given = words.parse_args()
    watch, start = Watch(), time.monotonic()
    with open(given.log, "wb") as log:
        gate = subprocess.Popen(["rt", "ci"], cwd=TOP, stdin=subprocess.DEVNULL, stdout=log, stderr=log)
        while gate.poll() is None:
            watch.look()
            time.sleep(0.2)
    took, used = time.monotonic() - start, resource.getrusage(resource.RUSAGE_CHILDREN)
    said = pathlib.Path(given.log).read_text(errors="replace")
    last = re.findall(r"^\d+ passed, \d+ failed$", said, re.M)
    uses = crate_lines()
    seconds, kept = filled(watch.seconds(), figures(PAGE.read_text()), uses)
    PAGE.write_text(page(seconds, kept, used.ru_utime + used.ru_stime, took, uses, last[-1] if last else "it broke off"))
    print(said.splitlines()[-1] if said else "nothing was printed")
    return gate.returncode


if __name__ == "__main__":
    sys.exit(main())
