#!/usr/bin/env python3
"""Writes a graph of persons and rooms that meet and visit, of any size, and perhaps a question over it.

    bench/questions_script.py PERSONS [QUESTION] > SCRIPT

QUESTION is `rooms` (who was in a room together with somebody whose test was positive then) or `nobody` (when did a person
meet nobody). There is a room for each three persons, and there are ten edges for each object, half of them meetings and half
visits, each for up to 100 of 10,000 moments; a quarter of the persons is of high risk for a while, and a quarter tests positive
for a while. All is drawn by one sequence of numbers, so a size has one graph. Every line is accepted.

`ANSWERS` and `output` work the answers out by spans of moments, without itpg.
"""
import collections
import sys

LAST = 9_999
EDGES_PER_OBJECT = 10
QUESTIONS = {
    "rooms": "ask MATCH (x:Person)-/FWD/:visits/FWD/:Room/BWD/:visits/BWD/-(y:Person {test = 'pos'})",
    "nobody": "ask MATCH (x:Person)-/{NOT ?(FWD/:meets)}/-()",
}


class Draws:
    """Numbers as a linear congruential generator gives them."""

    def __init__(self, seed):
        self.state = seed

    def below(self, most):
        self.state = (self.state * 6364136223846793005 + 1442695040888963407) % 2**64
        return (self.state >> 33) % most


class Contacts:
    """The graph: edges as label, source, target and span; values as person, property, value and span."""

    def __init__(self, persons):
        draws = Draws(0)
        self.persons, self.objects = persons, persons + persons // 3
        self.edges = [self.edge(draws) for _ in range(EDGES_PER_OBJECT * self.objects)]
        self.values = [value for i in range(persons) for value in self.value(draws, i)]

    def edge(self, draws):
        source, target = draws.below(self.objects), draws.below(self.objects)
        label = "visits" if draws.below(2) else "meets"
        start = draws.below(9900)
        return label, source, target, (start, start + draws.below(100))

    def value(self, draws, person):
        kind = draws.below(4)
        if kind < 2:
            start = draws.below(9000)
            yield (person, "risk", "high", (start, start + 999)) if kind == 0 else \
                (person, "test", "pos", (start, start + 99))

    def lines(self):
        yield f"graph contacts 0 {LAST}"
        for i in range(self.objects):
            yield f"node n{i} {'Person' if i < self.persons else 'Room'}"
        for i in range(self.objects):
            yield f"live n{i} 0 {LAST}"
        for i, (label, source, target, (first, last)) in enumerate(self.edges):
            yield f"edge e{i} {label} n{source} n{target}"
            yield f"live e{i} {first} {last}"
        for person, prop, value, (first, last) in self.values:
            yield f"set n{person} {prop} '{value}' {first} {last}"


def joined(spans):
    """The runs of the moments that some span has."""
    found = []
    for first, last in sorted(spans):
        if found and first <= found[-1][1] + 1:
            found[-1][1] = max(last, found[-1][1])
        else:
            found.append([first, last])
    return found


def met(*spans):
    """The span that all have, as a list of one or none."""
    first, last = max(s[0] for s in spans), min(s[1] for s in spans)
    return [(first, last)] if first <= last else []


def without(spans):
    """The runs of the moments of the horizon that no span has."""
    at = 0
    for first, last in joined(spans):
        if at < first:
            yield at, first - 1
        at = last + 1
    if at <= LAST:
        yield at, LAST


def rooms(graph):
    """Pairs of persons, each with the spans at which both were in one room and the second tested positive."""
    positive = {person: span for person, prop, _, span in graph.values if prop == "test"}
    visits = collections.defaultdict(list)
    for label, source, target, span in graph.edges:
        if label == "visits" and source < graph.persons <= target:
            visits[target].append((source, span))
    pairs = collections.defaultdict(list)
    for room in visits.values():
        for x, first in room:
            for y, second in room:
                if y in positive:
                    pairs[x, y] += met(first, second, positive[y])
    return {objects: joined(spans) for objects, spans in pairs.items()}


def nobody(graph):
    """Persons, each with the spans at which they met nobody."""
    meetings = collections.defaultdict(list)
    for label, source, _, span in graph.edges:
        if label == "meets":
            meetings[source].append(span)
    return {(x,): list(without(meetings[x])) for x in range(graph.persons)}


ANSWERS = {"rooms": rooms, "nobody": nobody}


def row_texts(answer):
    """The rows of one object and its spans, or of two at the same moments."""
    for objects in sorted(answer):
        for first, last in answer[objects]:
            row = f"n{objects[0]} {first}..{last}"
            if len(objects) == 2:
                row += f" n{objects[1]} " + (f"{first}..{last}" if first == last else "t..t")
            yield row


def script(graph, question=None):
    asked = [QUESTIONS[question]] if question else []
    return "".join(line + "\n" for line in [*graph.lines(), *asked]).encode()


def output(graph, question=None):
    """What the script must write, and how many rows that are."""
    if not question:
        return b"", 0
    rows = list(row_texts(ANSWERS[question](graph)))
    number = sum(1 for _ in graph.lines()) + 1
    return "".join(line + "\n" for line in [f"line {number} rows {len(rows)}", *rows]).encode(), len(rows)


if __name__ == "__main__":
    sys.stdout.buffer.write(script(Contacts(int(sys.argv[1])), *sys.argv[2:3]))
