#!/usr/bin/env python3
"""Tries whether what the program keeps across edits changes a reply. It proves nothing and builds nothing.

    tests/kept.py PROGRAM [--scripts N] [--from SEED] [--edits M] [--long] [--sets] [--json] [--fresh OTHER]

Draws N scripts (200 unless given), each of M edits (100) over few names, labels and properties, with watches of five queries, which
are also asked by `ask`, `first`, `last` and `count`, of pins that come and go, and of single objects by follows that come and go, and
shows and ticks between. Every second script has a small limit of rows, so that answers are wide now and then.
With --long a script has 10,000 edits unless M is given, and 32 watches of as many queries. Most edits come 600 at a time; then the
watches tick, and one or two edits come before each of six questions. In each tenth script great questions fill the table of plans, of
the graph or of a pin by turns, so that it is made anew. With --sets objects have up to three labels. With --json the script is run as
lines of JSON, and the fresh runs are of plain lines all the same.

Each question that the program answers there is also asked of a fresh run, of OTHER if it is given, which reads the edits accepted so
far and this one question. So in a fresh run nothing is kept.
- The reply to `ask`, `first`, `last`, `count` and `show` must be that of the fresh run, line for line.
- The reply to a question on a pin's graph must be that of a fresh run which reads the edits accepted before the pin was opened.
- The reply to a `near` must be that of a fresh run which follows the query only then.
- A tick must be wide exactly if the fresh run is. Otherwise its rows must hold what the answer has and the base doesn't, and what
  the base has and the answer doesn't, as points. The base is the fresh run's answer at the watch's last tick that wasn't wide. In a
  long script two watches of a tick are compared so.

It prints the first reply of each script that differs and `N scripts, M replies, D differ`; its exit status is 1 if D is above 0."""
import argparse
import json
import pathlib
import random
import re
import subprocess
import sys

sys.dont_write_bytecode = True
sys.path.insert(0, str(pathlib.Path(__file__).resolve().parent.parent / "crates/itpg_rows/data"))
import json_model  # noqa: E402

LAST, SMALL_LIMITS = 7, [3, 6, 12, 20, 40]  # the horizon is 0..LAST at first
QUIET, COMPARED = 600, 2  # edits at a time in a long script, and watches of a tick that are compared
QUESTIONS = ["ask", "first", "last", "count"]


def names(nodes, edges, watches, pins, follows):
    counts = {"node": nodes, "edge": edges, "watch": watches, "pin": pins, "follow": follows}
    return {kind: [f"{kind[0]}{i}" for i in range(count)] for kind, count in counts.items()}


# What a word in angles stands for. The forms after the bar may hold one another, down to a depth. Some labels are of nodes and edges.
FORMS = {
    "node_label": ["P", "R", "m"], "edge_label": ["m", "v", "P"], "label": ["<node_label>", "<edge_label>"],
    "property": ["hot", "hot", "risk"], "value": ["'y'", "'y'", "'n'"], "equal": ["<property> = <value>"],
    "leaf": [":<label>", "<equal>", "<equal>", "EXISTS", "NODE", "time < <moment>", "time = <moment>", "time >= <moment>"],
    "test": ["<leaf>", "<leaf>", "|", "NOT (<test>)", "(<test>) AND (<test>)", "(<test>) OR (<test>)", "?(<path>)", "?(<axis>/{<equal>})"],
    "axis": ["N", "P", "F", "B", "N[0,2]", "F/F"],
    "path": ["FWD/:<label>/FWD", "BWD/:<label>/BWD", "F/:<label>/F", *["F/{<equal>}/F"] * 3, "NEXT", "PREV", "N", "N/{<equal>}/P", "NEXT[0,3]",
             "PREV*", "{<leaf>}", "|", "<path>/<path>", "(<path> + <path>)", "(<path>)[0,2]", "(<path>)[1,_]", "(<path>/NEXT*)", "{<test>}"],
    "filter": ["", ":<node_label>", ":<node_label>", ":<node_label> {<test>}", " {<test>}"],
    "query": ["MATCH (x<filter>)", *["MATCH (x<filter>)-/<path>/-(y<filter>)"] * 3, "MATCH (x<filter>)-/<path>/-(<filter>)",
              "MATCH (<filter>)-/<path>/-(y<filter>)"],
    "span": [f"0 {LAST}"] * 12 + [f"{low} {high}" for low in range(LAST + 1) for high in range(low, LAST + 1, 2)]
            + [f"-1 {LAST}", f"{LAST} {LAST + 2}"],
    "early": ["0", "0", "-1", "-2"], "late": [str(LAST), str(LAST + 1), str(LAST + 2)],
    "moment": [str(t) for t in range(LAST + 1)],
    "one_or_more": ["<label>", "<label>,<label>", "<label>,<label>,<label>"],
}
FEW, MANY = names(6, 5, 6, 3, 3), names(16, 20, 32, 8, 8)
# What follows the name of an edit of an object.
MORE = {"set": " <property> <value> <span>", "unset": " <property> <span>", "live": " <span>", "gone": " <span>", "drop": ""}


def names_both(query):
    return "(x" in query and "(y" in query


class Draw:
    """Draws the lines of a script. It guesses which names stand, so that most edits are accepted."""

    def __init__(self, seed, names=FEW, queries=5, sets=False):
        self.random, self.names, self.sets = random.Random(seed), names, sets
        self.standing = {kind: set() for kind in names}
        self.queries = [self.text("<query>") for _ in range(queries)]  # asked again and again

    def text(self, form, deep=3):
        return re.sub(r"<(\w+)>", lambda found: self.word(found[1], deep), form)

    def word(self, kind, deep):
        forms = FORMS[kind]
        plain, more = (forms[:forms.index("|")], forms[forms.index("|") + 1:]) if "|" in forms else (forms, [])
        return self.text(self.random.choice(plain + more * (deep > 0)), deep - 1)

    def stands(self, kind):
        return self.random.choice(sorted(self.standing[kind]) or self.names[kind])

    def declared(self, kind):
        name = self.random.choice(sorted(set(self.names[kind]) - self.standing[kind]) or self.names[kind])
        self.standing[kind] |= {name}
        return name

    def dropped(self, kind):
        self.standing[kind] -= {name := self.stands(kind)}
        return name

    def edits(self, *kinds):
        kind = self.random.choice(kinds or ["node", "edge"] * 2 + ["live"] * 5 + ["gone"] * 5 + ["set"] * 6 + ["unset", "drop", "drop", "extend"])
        if kind in ("node", "edge"):
            ends = f" {self.stands('node')} {self.stands('node')}" * (kind == "edge")
            name = self.declared(kind)
            return [self.text(f"{kind} {name} <{'one_or_more' if self.sets else kind + '_label'}>{ends}"), self.text(f"live {name} <span>")]
        if kind == "extend":
            return [self.text("extend <early> <late>")]
        other = self.random.choice(["node", "edge", "edge"])
        name = self.dropped(other) if kind == "drop" else self.stands(other)
        return [self.text(f"{kind} {name}{MORE[kind]}")]

    def other(self, *kinds):
        """A line that is no edit."""
        kind = self.random.choice(kinds or ["ask"] * 8 + ["part"] * 4 + ["show"] * 12 + ["tick"] * 5 + ["watch"] * 3 + ["unwatch"]
                                           + ["in"] * 8 + ["open"] * 3 + ["close"] * 2 + ["near"] * 10 + ["follow"] * 2 + ["unfollow"])
        of = {**dict.fromkeys(("open", "close", "in"), "pin"), **dict.fromkeys(("follow", "near", "unfollow"), "follow")}.get(kind, "watch")
        chosen = {**dict.fromkeys(("watch", "open", "follow"), self.declared), **dict.fromkeys(("unwatch", "close", "unfollow"), self.dropped)}
        name, query = chosen.get(kind, self.stands)(of), self.random.choice(self.queries)
        if kind == "part":
            kind = self.question(query)
        if kind in QUESTIONS:
            return f"{kind} {query}"
        return {"tick": "tick", "watch": f"watch {name} {query}", "in": f"in {name} ask {query}",
                "follow": f"follow {name} {self.random.choice([q for q in self.queries if names_both(q)] or self.queries)}",
                "near": f"near {name} {self.stands(self.random.choice(['node'] * 5 + ['edge']))}"}.get(kind, f"{kind} {name}")

    def question(self, query):
        """The word of a line that asks for a part of the answer, or for counts if one end has a name. It is wrong now and then."""
        return self.random.choice(["first", "last"] if names_both(query) != (self.random.random() < 0.05) else ["count"])

    def script(self, edits):
        lines = [f"graph g 0 {LAST}"]
        for kind in ["node", "node", "node", "node", "edge", "edge", "edge"]:
            lines += [*self.edits(kind), self.other("watch"), self.other("follow")]
        for _ in range(edits):
            lines += self.edits()
            lines += [self.other() for _ in range(self.random.choice([0, 0, 1, 1, 2]))]
            lines += [f"ask {query}" for query in self.queries] * (self.random.random() < 0.4)
            lines += [f"near {self.stands('follow')} {name}" for name in sorted(self.standing["node"])] * (self.random.random() < 0.2)
        return lines

    def great(self, word):
        """A question of nearly 1,000 terms, most of which no other has."""
        paths = ["/".join(f"{{risk = 'v{self.random.getrandbits(60)}'}}" for _ in range(30)) for _ in range(16)]
        return word + " MATCH (x {" + " OR ".join(f"?({path})" for path in paths) + "})"

    def long_script(self, edits, great):
        """The script, with great questions that begin with the words `great`, if it has any."""
        lines = [f"graph g 0 {LAST}"]
        for kind in ["node"] * 12 + ["edge"] * 12:
            lines += self.edits(kind)
        lines += ["open s", *(f"watch {self.declared('watch')} {query}" for query in self.queries), *(self.other("follow") for _ in range(8))]
        made = 0
        while made < edits:
            lines += [self.other("close"), self.other("open"), self.other("open")][:self.random.choice([0, 2, 3])]
            quiet = [line for _ in range(min(QUIET, edits - made)) for line in self.edits()][:edits - made]
            made += len(quiet)
            lines += [*quiet, *(self.great(great) for _ in range(5 * bool(great))), self.other("tick")]
            for _ in range(6):
                lines += [*self.edits(), *self.edits()][:self.random.choice([1, 1, 2])]
                lines += [self.other("show", "show", "ask", "part", "in"), f"in s ask {self.random.choice(self.queries)}"]
                lines += [self.other("unwatch"), self.other("watch"), self.other("unfollow"), self.other("follow")] * (self.random.random() < 0.1)
                lines += [self.other("near") for _ in range(4)]
        return lines


def run(program, limit, script, is_json=False):
    """The lines of the output in the plain form; the script may be run as lines of JSON."""
    words = [program, "--max-rows", str(limit), *["--json"] * is_json]
    ran = subprocess.run(words, input=json_model.json_script(script) if is_json else script, capture_output=True, timeout=600)
    if ran.returncode not in (0, 1):
        raise SystemExit(f"the program ended with {ran.returncode}")
    lines = ran.stdout.decode().splitlines()
    return [json_model.plain_text(json.loads(line)) for line in lines] if is_json else lines


def points(rows, numbers):
    """The points, or pairs of points, that rows hold: objects by the numbers of their names."""
    found = set()
    for row in rows:
        name, times, *target = row.split(" ")
        first, last = map(int, times.split(".."))
        for t in range(first, last + 1):
            low, high = (t + int(end[1:] or 0) if end[0] == "t" else int(end) for end in target[1].split("..")) if target else (t, t)
            found |= {(numbers.get(name), t, numbers.get(target[0] if target else name), u) for u in range(low, high + 1)}
    return found


class Differs(Exception):
    pass


class Trial:
    """One script, read along its output as far as the first reply that differs."""

    def __init__(self, program, fresh, limit, lines, compared, is_json):
        self.program, self.limit, self.lines, self.compared = fresh, limit, lines, compared
        self.output, self.at = run(program, limit, "\n".join(lines).encode(), is_json), 0
        self.random = random.Random(len(self.output))
        self.edits, self.numbers = bytearray(), {}  # accepted so far; of each name a number of the last object declared
        self.pins = {}  # of each name how long the edits were when it was opened
        self.follows = {}  # of each name its query
        self.watches = {}  # of each name its query; where its base was found how long the edits were, and the numbers of names
        self.replies = 0

    def take(self, count):
        taken = self.output[self.at:self.at + count]
        self.at += count
        return taken

    def fresh(self, query, size, word="ask"):
        """The reply of a fresh run to this question behind so many bytes of edits: that it is wide or how many rows it has, and these."""
        head, *rows = run(self.program, self.limit, bytes(self.edits[:size]) + f"{word} {query}".encode())
        return head.split(" ", 2)[2], rows

    def check(self, number, got, wanted):
        self.replies += 1
        if got != wanted:
            raise Differs(f"line {number} {self.lines[number - 1]}: {got}, by fresh runs {wanted}")

    def answer(self, number, query, word="ask", size=None):
        told, rows = self.fresh(query, len(self.edits) if size is None else size, word)
        self.check(number, self.take(1 + len(rows)), [f"line {number} {told}", *rows])

    def tick(self, number):
        here = len(self.edits), dict(self.numbers)
        compared = self.random.sample(sorted(self.watches), min(self.compared, len(self.watches)))
        for name, (query, base) in self.watches.items():
            head = self.take(1)
            counts = re.fullmatch(rf"tick {name} gained (\d+) lost (\d+)", "".join(head))
            gained, lost = (self.take(int(count)) for count in counts.groups()) if counts else ([], [])
            told, rows = self.fresh(query, here[0]) if name in compared else ("" if counts else "wide", [])
            if told == "wide" or not counts:
                self.check(number, head, [f"tick {name} {told}"])
                continue
            if name in compared:
                was, then = (points(self.fresh(query, base[0])[1], base[1]), base[1]) if base else (set(), {})
                now = points(rows, self.numbers)
                got = points((row[2:] for row in gained), self.numbers), points((row[2:] for row in lost), then)
                marks = "".join(row[:2] for row in gained + lost)
                self.check(number, (marks, *got), ("+ " * len(gained) + "- " * len(lost), now - was, was - now))
            self.watches[name] = query, here

    def read(self):
        for number, line in enumerate(self.lines, 1):
            command, name, rest = (line + "  ").split(" ", 2)
            if "".join(self.output[self.at:self.at + 1]).startswith((f"line {number} refused ", f"line {number} bad ")):
                self.take(1)
            elif command in QUESTIONS:
                self.answer(number, line[len(command) + 1:], command)
            elif command == "show":
                self.answer(number, self.watches[name][0])
            elif command == "in":
                self.answer(number, rest.strip().removeprefix("ask "), size=self.pins[name])
            elif command == "open":
                self.pins[name] = len(self.edits)
            elif command == "close":
                del self.pins[name]
            elif command == "near":
                self.answer(number, rest.strip(), f"follow f {self.follows[name]}\nnear f")
            elif command == "follow":
                self.follows[name] = rest.strip()
            elif command == "unfollow":
                del self.follows[name]
            elif command == "tick":
                self.tick(number)
            elif command == "watch":
                self.watches[name] = rest.strip(), None
            elif command == "unwatch":
                del self.watches[name]
            else:
                self.edits += line.encode() + b"\n"
                self.numbers.update({name: len(self.edits)} if command in ("node", "edge") else {})
        self.check(len(self.lines), self.output[self.at:], [])


def main():
    parser = argparse.ArgumentParser()
    parser.add_argument("program")
    for word, value in (("scripts", 200), ("from", 0), ("edits", None)):
        parser.add_argument(f"--{word}", type=int, default=value)
    parser.add_argument("--long", action="store_true")
    parser.add_argument("--sets", action="store_true")
    parser.add_argument("--json", action="store_true")
    parser.add_argument("--fresh")
    options = vars(parser.parse_args())
    is_long, program = options["long"], options["program"]
    replies = differ = 0
    for seed in range(options["from"], options["from"] + options["scripts"]):
        limit = SMALL_LIMITS[seed // 2 % len(SMALL_LIMITS)] * (10 if is_long else 1) if seed % 2 else 100_000
        great = None if seed % 10 else ["ask", "in s ask"][seed // 10 % 2]
        draw = Draw(seed, *((MANY, 32) if is_long else (FEW, 5)), options["sets"])
        lines = draw.long_script(options["edits"] or 10_000, great) if is_long else draw.script(options["edits"] or 100)
        trial = Trial(program, options["fresh"] or program, limit, lines, COMPARED if is_long else 32, options["json"])
        try:
            trial.read()
        except Differs as wrong:
            differ += 1
            print(f"seed {seed}, --max-rows {limit}: {wrong}", flush=True)
        replies += trial.replies
    print(f"{options['scripts']} scripts, {replies} replies, {differ} differ")
    return 1 if differ else 0


if __name__ == "__main__":
    sys.exit(main())
