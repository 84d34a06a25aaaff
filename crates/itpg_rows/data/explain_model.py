#!/usr/bin/env python3
"""A second opinion on what `itpg-explain` writes, over the model of the plain machine.

    explain_model.py SCRIPT [--max-rows N]     writes what must be said of the script, each time as 0.000 ms
    explain_model.py            tries each NAME.explained of this folder against NAME.itpg and its words, and finds lines of the
                                pages on traps and on wide questions that stand in none

It shares nothing with itpg. Members and what is kept are worked out by `member_model.py`, hints by `hint_model.py`, replies and
relations by `model.py`, moment by moment.
"""
import itertools
import pathlib
import sys

sys.dont_write_bytecode = True
from hint_model import hints  # noqa: E402
from member_model import Counts, Table, add_member, counts_told, path_text, scope_text  # noqa: E402
from model import (  # noqa: E402
    ALL, QUESTIONS, Fault, Machine, fault_of_parts, narrowed, near_graph, number_in, options_in, parts, read_query, script_of, steps, tokens_of,
    values_of)

LONGEST_SHOWN = 240  # bytes of a member's path
LONGEST_KEPT = 65_538  # bytes of a line

MEANINGS = {
    "wide": "some member, or the reply itself, has more rows than the limit",
    "bad long": "the line has more than 65,536 bytes",
    "bad byte": "a byte with which no token begins, or that may not stand in a quoted text",
    "bad tokens": "more than 4,096 tokens",
    "bad deep": "more than 64 brackets stand open at some token",
    "bad text": "the tokens are none of the forms, or a quoted text isn't closed",
    "bad number": "a number below -10^12 or above 10^12",
    "bad name": "a name, label, property or value of more than 64 bytes",
    "bad range": "n is above m in some [n,m]",
    "bad names": "the ends have no name where one is asked for, or one where none may be, or the same",
    "bad terms": "the path has more than 1,024 terms",
    "refused nograph": "no graph was begun",
    "refused again": "a graph was begun already",
    "refused taken": "a standing object, watch, pin or follow has the name",
    "refused unknown": "no standing object, watch, pin or follow has the name",
    "refused kind": "an end of the new edge is an edge",
    "refused backwards": "the first moment is after the second",
    "refused horizon": "a moment of the span is outside the horizon",
    "refused ends": "an end of the edge doesn't exist at some moment of the span",
    "refused absent": "the object doesn't exist at some moment of the span",
    "refused held": "an edge at the node exists at some moment of the span",
    "refused incident": "the node is an end of a standing edge",
    "refused full": "a limit on objects, spans, properties, watches, pins or follows would be passed",
    "refused graphname": "the query says ON with another name than the graph's",
    "refused narrow": "a moment of the horizon is outside the new one",
}


def read(machine, line):
    """The command of a line, the texts of its tokens and the path of its query, None for what it doesn't have."""
    line = line.removesuffix(b"\r")
    tokens, end = tokens_of(line) if len(line) <= 65_536 else ([], None)
    if end or not 0 < len(tokens) <= 4096 or tokens[0][0] != "word":
        return None, [], None
    command, rest = tokens[0][1], tokens[1:]
    try:
        form, query = machine.parts(command, rest)
        fault_of_parts(form)
        return command, values_of(command, form), read_query(query, "ask")[2] if query is not None else None
    except (Fault, KeyError):
        return None, [], None


class Place:
    """A graph that questions are asked of, and what is kept for them."""

    def __init__(self, graph, table):
        self.graph, self.table, self.counts = graph, table, None

    def counted(self):
        if self.counts is None:
            self.counts = Counts(self.graph)
        return self.counts


class Explainer:
    def __init__(self, limit):
        self.machine, self.limit = Machine(limit), limit
        self.here, self.pins = Place(self.machine.graph, Table()), {}

    def said(self, number, line):
        """The lines that are written of a line of a script, and whether its reply fails."""
        asked = read(self.machine, line)
        explained = self.explained(*asked)
        touch = self.touch(*asked[:2])
        try:
            reply = self.machine.reply(number, line)
            self.settle(*asked, touch)
        except Fault as fault:
            reply = [f"line {number} {fault.reply}"]
        head = reply[0] if reply and reply[0].startswith("line ") else ""
        meaning = MEANINGS.get(head.partition(" ")[2].partition(" ")[2])
        failing = any(text.endswith(" wide") for text in reply) or meaning is not None
        if not head:
            return [], failing
        front, behind = explained or ([], [])
        means = [f"means {meaning}"] if meaning else []
        return [b"explain %d " % number + line[:LONGEST_KEPT], *front, head, *means, *behind], failing

    # Questions

    def explained(self, command, values, path):
        """What is said of a question before its reply and behind it, or None where it can't be asked."""
        machine, graph = self.machine, self.machine.graph
        if command is None or graph.name is None:
            return None
        if command in QUESTIONS:
            return self.of_path(path, graph, self.here.counted(), self.here.table)
        if command == "in" and values[0] in self.pins:
            pin = self.pins[values[0]]
            return self.of_path(path, pin.graph, pin.counted(), pin.table)
        if command == "show" and self.watched(values[0]):
            return self.of_path(self.watched(values[0])[0], graph, self.here.counted(), self.here.table)
        if command == "near" and values[0] in machine.follows and graph.find(values[1]) is not None:
            path = machine.follows[values[0]][2]
            near = near_graph(graph, graph.find(values[1]), steps(path))
            return self.of_path(path, graph, Counts(near), Table())
        return None

    def watched(self, name):
        """The path of the watch of this name, in a list."""
        return [watch.query[2] for watch in self.machine.watches if watch.name == name]

    def of_path(self, path, graph, counts, table):
        root, numbers = narrowed(path, ALL, ALL), {}
        add_member(root, numbers)
        told = counts_told(numbers, counts, self.limit)
        front = [f"path {path_text(path)}", *self.tree(root, numbers, told, table.kept)]
        front += [f"wide member {number}" for member, number in numbers.items() if told[member] == "over"][:1]
        behind = hints(graph, counts, path, list(told.values()), self.limit)
        return front, [f"hint {text}" for text in behind]

    def tree(self, member, numbers, told, kept, depth=0):
        path, a, b = member
        rows = {"over": f"over {self.limit}", "unknown": "unknown"}.get(told[member], f"rows {told[member]}")
        state = "kept" if member in kept else "new"
        text = path_text(path)[:LONGEST_SHOWN]
        yield f"{'  ' * depth}member {numbers[member]} {rows} {state} 0.000 ms {scope_text(a)} {scope_text(b)} {text}"
        for part in parts(*member):
            yield from self.tree(part, numbers, told, kept, depth + 1)

    # What a line changes

    def touch(self, command, values):
        """What an edit changes: kinds of facts, perhaps a property, and the labels of its object; False for no edit."""
        kinds = {"live": {"live"}, "gone": {"live", "value"}, "set": {"value"}, "unset": {"value"}, "drop": {"shape"}}
        if command in ("graph", "extend"):
            return None
        if command in ("node", "edge"):
            return {"shape"}, None, frozenset(values[1])
        number = self.machine.graph.find(values[0]) if command in kinds else None
        if number is None:
            return False
        return kinds[command], values[1] if command in ("set", "unset") else None, self.machine.graph.objects[number].labels

    def settle(self, command, values, path, touch):
        """What is kept after a line that was answered or made."""
        if touch is not False:
            self.here.counts = None
            self.here.table.forget(touch)
        elif command in QUESTIONS:
            self.work(self.here, path)
        elif command == "in":
            self.work(self.pins[values[0]], path)
        elif command == "open":
            self.pins[values[0]] = Place(self.machine.pins[values[0]], self.here.table.copy())
        elif command == "close":
            del self.pins[values[0]]
        elif command == "watch":
            self.here.table.add(path)
        elif command in ("show", "tick"):
            for path in self.watched(values[0]) if command == "show" else [watch.query[2] for watch in self.machine.watches]:
                self.work(self.here, path)

    def work(self, place, path):
        place.table.work(path, place.counted(), self.limit)


def explain(script, limit):
    """What must be written of the script, and the exit status."""
    explainer, output, status = Explainer(limit), [], 0
    lines = script.split(b"\n")
    for number, line in enumerate(lines if lines[-1] else lines[:-1], start=1):
        said, failing = explainer.said(number, line)
        output += said
        status = status or int(failing)
    return b"".join((line if isinstance(line, bytes) else line.encode()) + b"\n" for line in output), status


def explain_file(path, words):
    limit, _trial, _json = options_in(words)
    return explain(script_of(path), number_in(path.with_suffix(".limit"), limit))[0]


def first_difference(wanted, got):
    pairs = itertools.zip_longest(wanted.splitlines(), got.splitlines(), fillvalue=b"the end")
    return next((f"{one!r} in the file, {other!r} by the model" for one, other in pairs if one != other), None)


def unsaid_lines(folder, files):
    """What the pages show of explanations, each with M for the milliseconds, and no file has."""
    said = {line.strip() for path in files for line in path.read_bytes().decode(errors="replace").splitlines()}
    pages = [folder.parents[2] / "docs" / name for name in ("TRAPS.md", "WIDE.md")]
    shown = [line.strip() for page in pages for line in page.read_text().splitlines() if line.startswith("    ")]
    words = ("hint ", "member ", "wide member ")
    return [line for line in shown if line.startswith(words) and line.replace(" M ms ", " 0.000 ms ") not in said]


def try_all(folder):
    differing, files = 0, sorted(folder.glob("*.explained"))
    for path in files:
        words = path.with_suffix(".words")
        script = next(name for name in map(path.with_suffix, (".made", ".itpg")) if name.exists())
        got = explain_file(script, words.read_text().split("\n")[:-1] if words.exists() else [])
        difference = first_difference(path.read_bytes(), got)
        if difference:
            differing += 1
            print(f"{path.stem}: {difference}")
    unsaid = unsaid_lines(folder, files)
    for line in unsaid:
        print(f"a page has a line that is said nowhere: {line}")
    print(f"{len(files) - differing} alike, {differing} differ")
    return 1 if differing or unsaid else 0


def main():
    if len(sys.argv) == 1:
        return try_all(pathlib.Path(__file__).resolve().parent)
    sys.stdout.buffer.write(explain_file(pathlib.Path(sys.argv[1]), sys.argv[2:]))
    return 0


if __name__ == "__main__":
    sys.exit(main())
