#!/usr/bin/env python3
"""Builds a program, which proves every crate below it, and shows on standard error how far it is.

The program is the one that its only word names, as `itpg_explain`, and else `itpg`. On a terminal one line rewrites itself;
elsewhere each crate has a line. What was proved before an interrupt is kept.
"""
import os
import pathlib
import re
import subprocess
import sys
import time

TOP = pathlib.Path(__file__).resolve().parent.parent
PROGRAM = sys.argv[1] if len(sys.argv) > 1 else "itpg"
NAME = PROGRAM.replace("_", "-")
CRATE = TOP / "crates" / PROGRAM
LOG = CRATE / "out" / "build.log"
BEGUN = re.compile(rb"^rt: chose --jobs \d+ for (\w+)", re.M)
# Before a crate has ended here: its seconds pass this much faster than the clock, since two processes share them.
FIRST_PACE = 1.5
UNPROVED = f"for an answer within two minutes, unproved: ITPG_UNPROVED=1 ./{NAME} < SCRIPT"


def libraries():
    """The crates that the program stands on, each after those that it uses, and the program."""
    uses = {}
    for line in (TOP / "crates.txt").read_text().splitlines():
        name, colon, used = line.partition("#")[0].partition(":")
        if colon:
            uses[name.split()[0]] = used.split()
    found = []

    def add(name):
        for below in uses[name]:
            if below in uses:
                add(below)
        if name not in found:
            found.append(name)

    add(PROGRAM)
    return found


def seconds_of(names):
    """The seconds that the prover takes for each crate, from the page that the gate's run was written to."""
    page = TOP / "docs" / "GATE.md"
    rows = dict(re.findall(r"^(\w+) +(\d+) ", page.read_text() if page.is_file() else "", re.M))
    return {name: max(int(rows.get(name, 60)), 1) for name in names}


class Progress:
    """How much is done, by the seconds of the crates, and how fast they pass here."""

    def __init__(self, seconds):
        self.seconds = seconds
        self.done = {name for name in seconds if (TOP / "crates" / name / "out" / "rlib" / "stamp").is_file()}
        self.kept = self.sum_of(self.done)
        self.current = None
        self.start = self.since = time.monotonic()

    def sum_of(self, names):
        return sum(self.seconds[name] for name in names)

    def begin(self, name):
        """A crate is begun once those before it are done."""
        self.done = {it for it in self.seconds if it != name and (it in self.done or it == self.current)}
        if self.current is None:
            self.kept = self.sum_of(self.done)
            self.start = time.monotonic()
        self.current, self.since = name, time.monotonic()

    def pace(self):
        """Seconds of the prover that pass in a second of the clock."""
        made = self.sum_of(self.done) - self.kept
        return made / max(self.since - self.start, 1) if made else FIRST_PACE

    def line(self):
        whole = self.sum_of(self.seconds)
        pace, done = self.pace(), self.sum_of(self.done)
        if self.current is None:
            return f"{NAME}: reading the sources; then some {minutes((whole - done) / pace)} of proofs"
        part = min((time.monotonic() - self.since) * pace, 0.95 * self.seconds[self.current])
        left = (whole - done - part) / pace
        number = len(self.done) + 1
        share = int(100 * (done + part) / whole)
        return f"{NAME}: proving {self.current}, crate {number} of {len(self.seconds)}; {share}% done, about {minutes(left)} left"


def minutes(seconds):
    count = max(round(seconds / 60), 1)
    return f"{count} minute{'s' if count > 1 else ''}"


def show(progress, build):
    """Shows how far the build is until it ends."""
    on_terminal, seen = sys.stderr.isatty(), 0
    while True:
        ended = build.poll() is not None
        names = [it.decode() for it in BEGUN.findall(LOG.read_bytes())]
        for name in names[seen:]:
            if name in progress.seconds and name != progress.current:
                progress.begin(name)
                if not on_terminal:
                    print(progress.line(), file=sys.stderr, flush=True)
        seen = len(names)
        if on_terminal:
            print(f"\r\x1b[K{progress.line()}", end="", file=sys.stderr, flush=True)
        if ended:
            print("\r\x1b[K" if on_terminal else "", end="", file=sys.stderr, flush=True)
            return build.returncode
        time.sleep(0.5)


def main():
    LOG.parent.mkdir(exist_ok=True)
    names = libraries()
    print(f"{NAME}: building the program, which proves its {len(names)} crates; the log is {os.path.relpath(LOG)}", file=sys.stderr)
    print(f"{NAME}: {UNPROVED}", file=sys.stderr, flush=True)
    progress, start = Progress(seconds_of(names)), time.monotonic()
    if not sys.stderr.isatty():
        print(progress.line(), file=sys.stderr, flush=True)
    try:
        with open(LOG, "wb") as log:
            build = subprocess.Popen(["rt", "run"], cwd=CRATE, stdin=subprocess.DEVNULL, stdout=log, stderr=log)
            status = show(progress, build)
    except FileNotFoundError:
        print(f"{NAME}: the command rt isn't there; README says where it comes from", file=sys.stderr)
        return 70
    except KeyboardInterrupt:
        print(f"\n{NAME}: stopped; the next call goes on from here", file=sys.stderr)
        return 70
    if status:
        print(LOG.read_text(errors="replace")[-2000:], file=sys.stderr)
        print(f"{NAME}: the build failed", file=sys.stderr)
        return 70
    os.utime(CRATE / "out" / PROGRAM)
    print(f"{NAME}: built in {minutes(time.monotonic() - start)}", file=sys.stderr)
    return 0


if __name__ == "__main__":
    sys.exit(main())
