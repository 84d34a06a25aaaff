#!/usr/bin/env python3
"""Refuses the built program memory, and counts what it asks for. It proves nothing and builds nothing of the project.

    tests/memory.py PROGRAM [--runs N]

It compiles a small library in a temporary folder that stands before the C library's `malloc`, `calloc` and `realloc`. That counts
the requests, and refuses the one of a number, or that and all later ones. So it needs a C compiler, and a program that is linked
dynamically.

- Each request of three scripts, of one of them as lines of JSON, and of a trial is refused, alone and with all later ones; of a run with more than N requests (4,000
  unless given), every second, third and so on. The status must be 5 and the output that of some first lines, or the status and the
  output must be those of a run with all memory.
- Lines that must take no memory come last in a script, which must ask as often as without them, and must end well if memory is
  refused from there on. Of lines of JSON these are the blank ones.
- A tick with nothing met must ask as often on a graph of 2,000 objects as on one of 20.

It prints what differs and a table, and its exit status is 1 if something differs."""
import argparse
import os
import pathlib
import subprocess
import sys
import tempfile

TOP = pathlib.Path(__file__).resolve().parent.parent
DATA = TOP / "crates/itpg_rows/data"
sys.dont_write_bytecode = True
sys.path.insert(0, str(DATA))
import json_model  # noqa: E402

MEMORY = 5

LIBRARY = r"""
#include <errno.h>
#include <stdio.h>
#include <stdlib.h>
#include <string.h>

void *__libc_malloc(size_t);
void *__libc_calloc(size_t, size_t);
void *__libc_realloc(void *, size_t);

static long requests, bytes, from, to;
static const char *report;

static int refuses(size_t size) {
    requests += 1;
    bytes += size;
    if (requests < from || requests > to) return 0;
    errno = ENOMEM;
    return 1;
}

void *malloc(size_t size) { return refuses(size) ? 0 : __libc_malloc(size); }
void *calloc(size_t count, size_t size) { return refuses(count * size) ? 0 : __libc_calloc(count, size); }
void *realloc(void *old, size_t size) { return refuses(size) ? 0 : __libc_realloc(old, size); }

static long number(const char *name) {
    const char *text = getenv(name);
    return text ? atol(text) : 0;
}

__attribute__((constructor)) static void begin(void) {
    from = number("REFUSE_FROM");
    to = number("REFUSE_TO");
    report = getenv("REQUESTS");
    requests = bytes = 0;
}

__attribute__((destructor)) static void end(void) {
    long counted = requests, size = bytes;
    from = to = 0;
    FILE *file = report ? fopen(report, "w") : 0;
    if (!file) return;
    fprintf(file, "%ld %ld", counted, size);
    fclose(file);
}
"""

# The lines that come before those that must take no memory. The first makes the buffer of a line wide. The watch `w` is fresh, and the rows
# near `a` are kept.
BEFORE = f"""# {"x" * 500}
graph g 0 99
node a T
node b T
node c U
edge m e a b
edge k e a b
live a 0 20
live b 5 30
live m 6 8
set a p 'v' 0 9
follow f MATCH (x:T)-/FWD/:e/FWD/-(y)
near f a
live c 0 9
watch w MATCH (x:T)-/FWD/:e/FWD/-(y)
watch v MATCH (x)
tick
show w
"""
FREE = ["", " \t ", "# a comment", "\r", "Node a T", "live a 0.5 2", "live a 0 1000000000001", f"node {'x' * 65} T", "ask", "count", "set a p 'v", "graph h 0 9",
        "node a T", "node m T", "edge m e a b", "edge n e a z", "edge n e a m", "live z 0 9", "live a 9 5", "live a 90 100", "live m 0 9", "gone z 0 9",
        "gone a 9 5", "gone a 90 100", "gone a 7 7", "set z p 'v' 0 9", "set a p 'v' 15 25", "set a p 'v' 9 5", "unset z p 0 9", "unset a p 0 100",
        "drop z", "drop a", "drop m", "drop k", "drop c", "unwatch z", "unwatch w", "unwatch v", "show z", "show w", "show v",
        "near f a", "near f z", "near z a", "near a", "unfollow f", "unfollow z"]
FREE_AT_FIRST = ["graph g 0 9", "graph g 9 0", "node a T", "edge m e a b", "live a 0 9", "gone a 0 9", "set a p 'v' 0 9", "unset a p 0 9", "drop a", "show w",
                 "unwatch w", "tick", "near f a", "unfollow f"]


class Runs:
    """Runs of the program under the library."""

    def __init__(self, program, folder):
        self.program, self.report = program, folder / "requests"
        source, self.library = folder / "refuses.c", folder / "refuses.so"
        source.write_text(LIBRARY)
        subprocess.run(["cc", "-shared", "-fPIC", "-O1", "-o", self.library, source], check=True)

    def run(self, words, script, first=0, last=0):
        """The status, the output, the requests and the bytes asked for, where the requests of these numbers are refused."""
        self.report.unlink(missing_ok=True)
        outside = {**os.environ, "LD_PRELOAD": str(self.library), "REFUSE_FROM": str(first), "REFUSE_TO": str(last), "REQUESTS": str(self.report)}
        ran = subprocess.run([self.program, *words], input=script, capture_output=True, env=outside)
        if not self.report.exists():
            raise SystemExit("no request was counted: the program may be linked statically, or it ended by a signal")
        requests, size = map(int, self.report.read_text().split())
        return ran.returncode, ran.stdout, requests, size


def fronts(runs, words, script):
    """What the first lines of a script write, for each count of them; of a trial the first lines of its summary."""
    is_trial = "--trial" in words
    lines = (runs.run(words, script)[1] if is_trial else script).splitlines(keepends=True)
    starts = [b"".join(lines[:count]) for count in range(len(lines) + 1)]
    return set(starts) if is_trial else {runs.run(words, start)[1] for start in starts}


def refuse_each(runs, name, words, script, most):
    """Refuses each request of a run, or some. Gives how many were refused, how the runs ended, and what differs."""
    whole = runs.run(words, script)
    allowed = fronts(runs, words, script)
    step = -(-whole[2] // most)
    ended, differ, tried = {}, [], 0
    for first in range(1, whole[2] + 1, step):
        for last in (first, 2**62):
            got = runs.run(words, script, first, last)
            ended[got[0]] = ended.get(got[0], 0) + 1
            tried += 1
            if not (got[0] == MEMORY and got[1] in allowed or got[:2] == whole[:2]):
                differ.append(f"{name}: requests {first} to {last} refused: status {got[0]}, output {got[1]!r}")
    told = ", ".join(f"{ended[status]} with status {status}" for status in sorted(ended))
    print(f"{name:40} {whole[2]:>7} requests, {tried:>5} runs with every {step}. refused: {told}")
    return differ


def count_free(runs, before, lines, *words):
    """Tries lines that must take no memory behind others. Gives what differs."""
    differ = []
    base = runs.run(words, before)
    for line in lines:
        script = before + line.encode() + b"\n"
        got = runs.run(words, script)
        refused = runs.run(words, script, base[2] + 1, 2**62)
        if got[2] != base[2] or refused[:2] != got[:2]:
            differ.append(f"{line!r} asks {got[2] - base[2]} times for {got[3] - base[3]} bytes; with these refused the status is {refused[0]}")
    print(f"{len(lines)} lines that must take no memory, behind {len(before.splitlines())} lines: {len(differ)} do")
    return differ


def tick_requests(runs, objects, query, edit):
    """The requests and the bytes of a second tick, on a graph of so many objects."""
    lines = ["# " + "x" * 500, "graph g 0 99", "node a T", "node b T", "live a 0 9", "live b 0 9"]
    for i in range(objects - 2):
        lines += [f"node n{i} U", f"live n{i} 0 9"]
    lines += [f"watch w {query}", "tick", *edit]
    base, got = (runs.run([], "".join(line + "\n" for line in lines + more).encode()) for more in ([], ["tick"]))
    return got[2] - base[2], got[3] - base[3]


def ticks(runs):
    differ = []
    for query, edit, what, must in [
        ("MATCH (x:T)-/NEXT[0,3]/-(y:T)", [], "no edit", True),
        ("MATCH (x:T)-/NEXT[0,3]/-(y:T)", ["set n0 p 'v' 0 9"], "an edit of another label", True),
        ("MATCH (x)", [], "no edit, a row of each object", False),
    ]:
        few, many = (tick_requests(runs, objects, query, edit) for objects in (20, 2_000))
        print(f"a tick behind a tick and {what + ':':40} {few[0]} requests of {few[1]:,} bytes with 20 objects, {many[0]} of {many[1]:,} with 2,000")
        if many[0] > few[0] or must and many[1] > few[1]:
            differ.append(f"{query}, {what}: the tick asks for more on the greater graph")
    return differ


def main():
    parser = argparse.ArgumentParser()
    parser.add_argument("program")
    parser.add_argument("--runs", type=int, default=4_000)
    options = parser.parse_args()
    with tempfile.TemporaryDirectory() as folder:
        runs = Runs(options.program, pathlib.Path(folder))
        differ = []
        for name in ("contact_study_with_a_watch", "lines_of_all_kinds", "near_before_and_after_edits"):
            differ += refuse_each(runs, name, [], (DATA / f"{name}.itpg").read_bytes(), options.runs)
        script = json_model.json_script((DATA / "near_before_and_after_edits.itpg").read_bytes())
        differ += refuse_each(runs, "the last one as lines of JSON", ["--json"], script, options.runs)
        differ += refuse_each(runs, "--trial 7", ["--trial", "7"], b"", options.runs // 40)
        differ += count_free(runs, BEFORE.encode(), FREE)
        differ += count_free(runs, BEFORE.splitlines(keepends=True)[0].encode(), FREE_AT_FIRST)
        differ += count_free(runs, json_model.json_script(BEFORE.encode()), ["", " \t ", "\r"], "--json")
        differ += ticks(runs)
    for one in differ:
        print(one)
    print(f"{len(differ)} differ")
    return 1 if differ else 0


if __name__ == "__main__":
    sys.exit(main())
