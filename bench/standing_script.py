#!/usr/bin/env python3
"""Writes the graph of persons and rooms of `questions_script.py`, some watches over it, and perhaps ticks.

    bench/standing_script.py PERSONS WATCHES TICKS script|output [ROUNDS]

writes the script, or what it must write. The watches have the two questions of `questions_script.py` in turn, so half of the
answers are of two times and half of one. At the first tick all of them is gained. Before the second a meeting and a visit are
reported late, so that each answer changes at some moments. Every line is accepted.

With ROUNDS each watch asks for moments below a bound of its own, so no two have the same question. Behind the ticks come so many
rounds: one edge that is reported late, a meeting or a visit by turns, and a tick.

What was gained and lost is worked out by spans of moments, without itpg.
"""
import copy
import sys

sys.dont_write_bytecode = True
from questions_script import ANSWERS, Contacts, LAST, QUESTIONS, row_texts  # noqa: E402


def late_edges(graph):
    """A meeting, and a visit of somebody to a room while the test is positive."""
    person, _, _, span = next(value for value in graph.values if value[1] == "test")
    return [("meets", 0, 1, (100, 199)), ("visits", person, graph.persons, span)]


def edge_lines(number, label, source, target, span):
    return [f"edge e{number} {label} n{source} n{target}", f"live e{number} {span[0]} {span[1]}"]


def round_edge(graph, number):
    """The edge that is reported in a round."""
    span = (100 + number, 199 + number)
    if number % 2 == 0:
        return "meets", number % graph.persons, (number + 1) % graph.persons, span
    positive = [value for value in graph.values if value[1] == "test"]
    person, _, _, span = positive[number % len(positive)]
    return "visits", person, graph.persons + number % (graph.objects - graph.persons), span


def questions_of(watches, bounded):
    """The name of each watch, its question, and the moment below which it asks, if that is bounded."""
    names = list(QUESTIONS)
    return [(f"w{i}", names[i % len(names)], LAST * (i + 1) // watches if bounded else None) for i in range(watches)]


def text_of(question, bound):
    text = QUESTIONS[question].removeprefix("ask ")
    return text if bound is None else text.replace("}", f", time < {bound}}}")


def edges_before(graph, ticks, rounds):
    """For each tick the edges that are reported before it."""
    late = [[], late_edges(graph)][:ticks]
    return late + [[round_edge(graph, number)] for number in range(rounds)]


def lines(graph, watches, ticks, rounds):
    yield from graph.lines()
    for name, question, bound in questions_of(watches, rounds > 0):
        yield f"watch {name} {text_of(question, bound)}"
    number = len(graph.edges)
    for edges in edges_before(graph, ticks, rounds):
        for edge in edges:
            yield from edge_lines(number, *edge)
            number += 1
        yield "tick"


def less(answer, base):
    """What the one answer has and the other hasn't."""
    return {objects: list(rest(spans, base.get(objects, ()))) for objects, spans in answer.items() if spans != base.get(objects)}


def rest(spans, others):
    """The runs of the moments that some of the spans has and none of the others; both rise."""
    for first, last in spans:
        for start, end in others:
            if first <= end and start <= last:
                if first < start:
                    yield first, start - 1
                first = end + 1
        if first <= last:
            yield first, last


def clipped(answer, bound):
    """The answer at the moments below the bound."""
    if bound is None:
        return answer
    kept = {objects: [(first, min(last, bound - 1)) for first, last in spans if first < bound] for objects, spans in answer.items()}
    return {objects: spans for objects, spans in kept.items() if spans}


def output(graph, watches, ticks, rounds):
    base = {question: {} for question in ANSWERS}
    graph = copy.copy(graph)
    for edges in edges_before(graph, ticks, rounds):
        graph.edges = graph.edges + edges
        now = {question: answer(graph) for question, answer in ANSWERS.items()}
        for name, question, bound in questions_of(watches, rounds > 0):
            gained = list(row_texts(clipped(less(now[question], base[question]), bound)))
            lost = list(row_texts(clipped(less(base[question], now[question]), bound)))
            yield f"tick {name} gained {len(gained)} lost {len(lost)}"
            yield from ("+ " + row for row in gained)
            yield from ("- " + row for row in lost)
        base = now


def main():
    persons, watches, ticks = map(int, sys.argv[1:4])
    rounds = int(sys.argv[5]) if len(sys.argv) > 5 else 0
    written = {"script": lines, "output": output}[sys.argv[4]]
    sys.stdout.writelines(line + "\n" for line in written(Contacts(persons), watches, ticks, rounds))


if __name__ == "__main__":
    main()
