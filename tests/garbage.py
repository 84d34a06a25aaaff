#!/usr/bin/env python3
"""Feeds the program garbage and checks what can be checked. It proves nothing and builds nothing.

    tests/garbage.py PROGRAM [--json] [--cases N] [--seed S] [--minutes M]

A case is a line of random bytes, a line of the grammar's words and marks at random, a good line with tokens left out, doubled,
swapped or replaced, or a worked script of `crates/itpg_rows/data` with bytes dropped, doubled, swapped or replaced. Lines run by
the hundred behind a small graph. It ends after N cases (100,000 unless given) or M minutes (5).

With --json the scripts are lines of JSON: random bytes, objects with members at random, good objects and plain lines in `text` objects
with tokens of JSON changed, and the worked scripts as lines of JSON with bytes changed. What a line asks for, or its fault as JSON, is
read by `crates/itpg_rows/data/json_model.py`, and replies are taken in the plain form by their members.

- The status is 0 exactly if no reply is bad, refused or wide, and else 1.
- The replies rise by line, and each is one that the reference allows for its line's first word (`docs/REFERENCE.md`).
- The script without its bad and refused lines gives the same other replies.
- The output is that of `crates/itpg_rows/data/model.py`, where that has an answer within two seconds.

It prints what differs, and its exit status is 1 if something does."""
import argparse
import json
import pathlib
import random
import re
import signal
import subprocess
import sys
import tempfile
import time

TOP = pathlib.Path(__file__).resolve().parent.parent
DATA = TOP / "crates/itpg_rows/data"
sys.dont_write_bytecode = True
sys.path[:0] = [str(DATA), str(TOP / "tests")]
import garbage_json  # noqa: E402
import json_model  # noqa: E402
import kept  # noqa: E402
import model  # noqa: E402

LINES = 200  # of a script of lines
OWN = "long byte tokens text number name".split()  # faults of any line
TEXTS = OWN + "deep range names terms".split()  # faults of a line with a query text


def forms():
    """Of each command its rules and whether its line has a query text, from the table of forms in the reference."""
    rows = re.findall(r"^\| `([a-z]+)([^`]*)` \|.*\|([^|]*)\|$", (TOP / "docs/REFERENCE.md").read_text(), re.MULTILINE)
    return {command: (set(re.findall(r"`(\w+)`", rules)) - {"wide"}, "QUERY" in rest)
            for command, rest, rules in rows if "nograph" in rules or "again" in rules}


RULES = forms()
ROW = re.compile(r"\w+ -?\d+\.\.-?\d+( \w+ (t([+-]\d+)?|-?\d+)\.\.(t([+-]\d+)?|-?\d+))?")
COUNT = re.compile(r"-?\d+\.\.-?\d+ [1-9]\d*")
ANSWERED = {**dict.fromkeys(["ask", "in", "near", "show", "first", "last"], "rows"), "count": "counts"}

GRAPH = """graph g 0 7
node a P
node b P
node c R
live a 0 7
live b 2 5
live c 0 3
edge m meets a b
live m 3 4
set a p 'v' 0 3
watch w MATCH (x:P)-/FWD/:meets/FWD/-(y)
open s
follow f MATCH (x:P)-/FWD/:meets/FWD/-(y)
"""
GOOD = ["node d P", "edge k meets a b", "live b 0 7", "live k 2 3", "gone b 6 7", "set b p 'v' 2 4", "unset a p 1 2", "drop k", "drop d", "tick", "show w",
        "unwatch w", "watch w MATCH (x)", "watch v MATCH (x:P)-/NEXT/-(y)", "ask MATCH (x)", "ask MATCH (x:P {p = 'v'})-/(FWD + NEXT*)/-(y) ON g",
        "first MATCH (x:P)-/NEXT[1,3]/-(y)", "last MATCH (x)-/(FWD/:meets/FWD)*/NEXT*/-(y:P)", "count MATCH (x:P)", "count MATCH ()-/FWD/NEXT/-(y)",
        "open r", "close r", "close s", "open s", "in s ask MATCH (x)", "in r ask MATCH (x:P {p = 'v'})-/(FWD + NEXT*)/-(y) ON g",
        "near f a", "near f a", "near f b", "near f m", "near h a", "unfollow f", "follow f MATCH (x)-/(FWD/FWD + NEXT)*/-(y)",
        "follow h MATCH (x)-/NEXT[0,2]/-(y {p = 'v'}) ON g", "unfollow h"]
WORDS = [*RULES, "MATCH", "ON", "FWD", "BWD", "NEXT", "PREV", "F", "B", "N", "P", "NOT", "AND", "OR", "NODE", "EDGE", "EXISTS", "time", *"abcmkgwvpsrfhTR",
         "meets", "x", "y", "0", "1", "7", "8", "-1", "007", "-0", "1000000000000", "1000000000001", "-1000000000001", "9" * 30, "'v'", "''", "'a b'",
         "'", "é", "n" * 64, "n" * 65, "'" + "v" * 65 + "'", "-/", "/-", ">=", *"(){}[]:,+*/?=<_", "#", "-", ">", ".", "\t", "\r", "\x00", "\x7f"]
TOKEN = re.compile(r"[A-Za-z]\w*|-?\d+|'[^']*'|-/|/-|>=|.")


class Hostile:
    """Draws lines and scripts."""

    def __init__(self, seed):
        self.random = random.Random(seed)
        self.draw = kept.Draw(seed)
        self.worked = [path.read_bytes() for path in sorted(DATA.glob("*.itpg")) if path.stat().st_size < 2_000]

    def noise(self):
        size = self.random.choice([0, 1, 2, 5, 20, 80, 300])
        return bytes(self.random.choice([*range(9), *range(11, 256)]) for _ in range(size))

    def words(self):
        found = [self.random.choice(WORDS) for _ in range(self.random.randrange(1, 12))]
        if self.random.random() < 0.8:
            found[0] = self.random.choice([*RULES])
        if self.random.random() < 0.003:
            found += found[-1:] * 70_000
        return self.random.choice([" ", " ", "", "  "]).join(found).encode()

    def bent(self):
        """A good line, most often with a few tokens changed."""
        word = self.random.choice(["ask", "watch u", "in s ask", "follow h", *kept.QUESTIONS])
        line = self.random.choice([*GOOD, *[f"{word} {self.draw.text('<query>')}"] * 2])
        return "".join(self.bend(TOKEN.findall(line), lambda: self.random.choice(WORDS), [0, 1, 1, 2, 3])).encode()

    def bend(self, items, other, counts):
        items = list(items)
        for _ in range(self.random.choice(counts)):
            at = self.random.randrange(len(items) or 1)
            there = items[at:at + 1]
            items[at:at + 1] = self.random.choice([[], there * 2, [other()], [*items[at + 1:at + 2], *there]])
        return items

    def lines(self):
        kinds = [self.noise, self.words, self.bent, self.bent]
        return GRAPH.encode() + b"".join(self.random.choice(kinds)() + b"\n" for _ in range(LINES))

    def script(self, is_json=False):
        script = self.random.choice(self.worked)
        if is_json:
            script = json_model.json_script(script) or script
        other = lambda: self.random.choice([self.random.randrange(256), *b" \n'()/-0129", *b'{}[]:,"\\' * is_json])  # noqa: E731
        return bytes(self.bend(script, other, [1, 2, 4, 8, 20]))


class Wrong(Exception):
    """What is wrong with a run."""


def insist(condition, told):
    if not condition:
        raise Wrong(told)


def lines_of(script):
    lines = script.split(b"\n")
    return lines if lines[-1] else lines[:-1]


def first_word(line):
    """The command of a line, None if it has none, and '' if it asks for nothing."""
    line = line.removesuffix(b"\r").lstrip(b" \t")
    word = re.match(rb"[A-Za-z][A-Za-z0-9_]*", line)
    return "" if not line or line[:1] == b"#" else word[0].decode() if word and word[0].decode() in RULES else None


def plain_of(line):
    """The plain line that asks for what a line of JSON does, or the code of its fault as JSON."""
    try:
        return json_model.plain_line(line)
    except json_model.Bad as bad:
        return bad.code


def is_allowed(command, line, reply):
    """Whether the reference allows this reply, without the number of its line, for a line with this command."""
    kind, _, code = reply.partition(" ")
    if command == "" or len(line) > 65_538:
        return reply == "bad long"
    if kind == "bad":
        return code in (TEXTS if command and RULES[command][1] else OWN) and (command is not None or code in OWN[:4])
    if command is None:
        return False
    return code in RULES[command][0] if kind == "refused" else command in ANSWERED and kind in ("wide", ANSWERED[command])


def replies_of(output):
    """The replies as pairs of the number of a line, None for a tick's, and the lines behind it."""
    texts, found = output.decode("ascii").split("\n"), []
    insist(texts.pop() == "", "the output doesn't end with a line end")
    texts.reverse()
    while texts:
        head = texts.pop()
        tick = re.fullmatch(r"tick \w+ (?:wide|gained (\d+) lost (\d+))", head)
        line = re.fullmatch(r"line (\d+) (bad \w+|refused \w+|wide|(rows|counts) (\d+))", head)
        insist(tick or line, f"no reply: {head}")
        leads = ["+ "] * int(tick[1] or 0) + ["- "] * int(tick[2] or 0) if tick else [""] * int(line[4] or 0)
        form = COUNT if line and line[3] == "counts" else ROW
        rows = [texts.pop() if texts else "" for _ in leads]
        insist(all(row.startswith(lead) and form.fullmatch(row[len(lead):]) for row, lead in zip(rows, leads)), f"no rows behind {head}")
        found.append((None, [head, *rows]) if tick else (int(line[1]), [line[2], *rows]))
    return found


def plain_output(output):
    """An output of lines of JSON in the plain form."""
    try:
        return "".join(json_model.plain_text(json.loads(line)) + "\n" for line in output.decode().splitlines()).encode()
    except (ValueError, KeyError, AttributeError) as wrong:
        raise Wrong(f"no reply of JSON: {wrong}") from None


def run(program, limit, script, is_json=False):
    ran = subprocess.run([program, "--max-rows", str(limit), *["--json"] * is_json], input=script, capture_output=True, timeout=60)
    insist(ran.returncode in (0, 1), f"the status is {ran.returncode}")
    return ran.returncode, ran.stdout, replies_of(plain_output(ran.stdout) if is_json else ran.stdout)


def check(program, limit, script, is_json=False):
    """Checks a script. Says whether the model had an answer."""
    lines = lines_of(script)
    status, output, replies = run(program, limit, script, is_json)
    numbers = [number for number, _ in replies if number]
    insist(numbers == sorted(set(numbers)) and all(number <= len(lines) for number in numbers), "the numbers of lines don't rise")
    insist(status == any(head.endswith("wide") or head.startswith(("bad", "refused")) for _, (head, *_) in replies), f"the status is {status}")
    answered = dict((number, head) for number, (head, *_) in replies if number)
    for number, line in enumerate(lines, 1):
        line = plain_of(line) if is_json else line
        if isinstance(line, str):
            insist(answered.get(number) == f"bad {line}", f"line {number} is bad {line}: {answered.get(number, 'no reply')}")
            continue
        command = first_word(line)
        allowed = is_allowed(command, line, answered[number]) if number in answered else command in {"", *RULES} - set(ANSWERED)
        insist(allowed, f"line {number} {line[:80]!r}: {answered.get(number, 'no reply')}")
    gone = {number for number, head in answered.items() if head.startswith(("bad", "refused"))}
    left = [number for number in range(1, len(lines) + 1) if number not in gone]
    again = run(program, limit, b"".join(lines[number - 1] + b"\n" for number in left), is_json)[2]
    again = [(number and left[number - 1], rows) for number, rows in again]
    insist(again == [(number, rows) for number, rows in replies if number not in gone], "without its bad and refused lines it gives other replies")
    try:
        signal.setitimer(signal.ITIMER_REAL, 2)
        wanted = model.run(script, limit, is_json)
    except (model.TooLong, RecursionError):
        return False
    finally:
        signal.setitimer(signal.ITIMER_REAL, 0)
    insist((output, status) == wanted, f"the model says otherwise: {first_difference(output, wanted[0])}")
    return True


def first_difference(got, wanted):
    pairs = zip(got.split(b"\n") + [b""], wanted.split(b"\n") + [b""])
    return next((f"{x!r} for {y!r}" for x, y in pairs if x != y), "the status")


def too_slow(*_):
    raise model.TooLong


def main():
    parser = argparse.ArgumentParser()
    parser.add_argument("program")
    parser.add_argument("--json", action="store_true")
    for word, value in (("cases", 100_000), ("seed", 0), ("minutes", 5)):
        parser.add_argument(f"--{word}", type=int, default=value)
    options = parser.parse_args()
    signal.signal(signal.SIGALRM, too_slow)
    hostile, end = Hostile(options.seed), time.monotonic() + 60 * options.minutes
    cases = lines = scripts = modelled = differ = 0
    while cases < options.cases and time.monotonic() < end:
        of_lines = (lines + scripts) % 10 == 0
        script = (garbage_json.lines(hostile, GRAPH.encode(), GOOD) if options.json else hostile.lines()) if of_lines else hostile.script(options.json)
        lines, scripts, cases = lines + of_lines, scripts + (not of_lines), cases + (LINES if of_lines else 1)
        limit = [3, 20, 100_000][(lines + scripts) % 3]
        try:
            modelled += check(options.program, limit, script, options.json)
        except (Wrong, subprocess.TimeoutExpired) as wrong:
            differ += 1
            name = pathlib.Path(tempfile.gettempdir()) / f"garbage_{options.seed}_{cases}.itpg"
            name.write_bytes(script)
            print(f"{'--json ' * options.json}--max-rows {limit} < {name}: {wrong}")
    print(f"{cases} cases in {lines} scripts of lines and {scripts} worked ones, {modelled} compared with the model, {differ} differ")
    return 1 if differ else 0


if __name__ == "__main__":
    sys.exit(main())
