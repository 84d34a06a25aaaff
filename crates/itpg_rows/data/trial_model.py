#!/usr/bin/env python3
"""A second opinion on trials: the summary of the trial of a number, worked out moment by moment.

    trial_model.py NUMBER [LIMIT]     writes the summary

It shares nothing with itpg, and knows no path: the three questions of a trial are answered as what they mean on its graph, where
each person and room is there all the time. It says nothing of `wide` but for answers that have themselves more rows than the limit.
"""
import sys

LAST = 9_999
PERSONS, NODES, EDGES = 150, 200, 2_000


def draws(state):
    """A function that draws a number below a bound."""

    def draw(bound):
        nonlocal state
        state = (state * 6364136223846793005 + 1442695040888963407) % 2**64
        return (state >> 33) % bound

    return draw


def graph_of(number):
    """The meetings and the visits as (source, target, first, last), and the moments of high risk and of positive tests."""
    draw = draws(number)
    meetings, visits, high, positive = [], [], {}, {}
    for _ in range(EDGES):
        source, target, kind, first, more = draw(200), draw(200), draw(2), draw(9_900), draw(100)
        (visits if kind else meetings).append((source, target, first, first + more))
    for person in range(PERSONS):
        kind = draw(4)
        if kind < 2:
            first = draw(9_000)
            (high, positive)[kind][person] = range(first, first + (1_000, 100)[kind])
    return meetings, visits, high, positive


def runs(moments):
    """The runs of consecutive moments, each as its first and its last."""
    found = []
    for moment in sorted(moments):
        if found and found[-1][1] == moment - 1:
            found[-1][1] = moment
        else:
            found.append([moment, moment])
    return found


def at_risk(meetings, high):
    """Whom somebody of high risk met, and the twelve moments after: rows as first, last, low at the first, high at the last."""
    days = {}
    for source, target, first, last in meetings:
        if source in high and target < PERSONS:
            both = set(range(first, last + 1)) & set(high[source])
            days.setdefault((source, target), set()).update(both)
    rows = []
    for moments in days.values():
        for first, last in runs(moments):
            # The high end moves up to the last moment of the graph, and then it stays.
            turn = LAST - 12
            if first < turn < last:
                rows += [(first, turn, first, LAST), (turn + 1, last, turn + 1, LAST)]
            else:
                rows.append((first, last, first, min(last + 12, LAST)))
    return rows


def in_contact(visits, positive):
    """Who was in a room together with somebody whose test was positive."""
    here = {}
    for source, target, first, last in visits:
        if target >= PERSONS and source < PERSONS:
            for moment in range(first, last + 1):
                here.setdefault((target, moment), set()).add(source)
    days = {}
    for (_, moment), persons in here.items():
        for other in persons:
            if other in positive and moment in positive[other]:
                for person in persons:
                    days.setdefault((person, other), set()).add(moment)
    return [(first, last, first, last) for moments in days.values() for first, last in runs(moments)]


def alone(meetings):
    """Who met nobody: rows as first and last."""
    rows = []
    for person in range(PERSONS):
        busy = {m for source, _, first, last in meetings if source == person for m in range(first, last + 1)}
        rows += [tuple(run) for run in runs(set(range(LAST + 1)) - busy)]
    return rows


def summary(number, limit=100_000):
    meetings, visits, high, positive = graph_of(number)
    lines = []
    for place, rows in enumerate((at_risk(meetings, high), in_contact(visits, positive), alone(meetings)), start=1):
        told = "wide" if len(rows) > limit else f"rows {len(rows)} sum {sum(map(sum, rows)) % 2**64}"
        lines.append(f"ask {place} {told}\n")
    return "".join(lines).encode()


if __name__ == "__main__":
    sys.stdout.buffer.write(summary(*map(int, sys.argv[1:])))
