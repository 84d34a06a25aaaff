#!/usr/bin/env python3
"""Writes a graph of persons who meet, of any size, and perhaps a question with a repetition over it.

    bench/repetition_script.py QUESTION SIZE edits|asked|answer

writes the edits, the edits and the question, or what the latter must write. Each QUESTION has a graph of its own:

    groups    SIZE groups of ten persons who live all the time, with thirty meetings in each group, drawn by one sequence of
              numbers, each for up to 20 of 1,000 moments. Who reaches whom by meetings one after another, and when?
    crowd     One group of SIZE persons with ten times as many meetings, else the same. Nearly everybody reaches everybody.
    chain     Four persons with SIZE lives of six moments each; in each life the first meets the second, a moment later he
              the third, and a moment later he the fourth. The same question.
    alive     Four persons with SIZE lives of 100 moments each. Up to when does one live?

Every line is accepted. The answers are worked out without itpg, moment by moment from the last one back.
"""
import collections
import sys

sys.dont_write_bytecode = True
from questions_script import Draws  # noqa: E402

MEET = "ask MATCH (x:Person)-/(FWD/:meets/FWD/NEXT*)[1,_]/-(y:Person)"
LIVE = "ask MATCH (x:Person)-/NEXT*/-(y:Person)"


class Persons:
    """Persons who all have the same lives, in their order, and the meetings: source, target and spans."""

    def __init__(self, count, lives, meetings, question):
        self.count, self.lives, self.meetings, self.question = count, lives, meetings, question

    def lines(self):
        yield f"graph meetings 0 {self.lives[-1][1]}"
        for x in range(self.count):
            yield f"node p{x} Person"
        for x in range(self.count):
            for first, last in self.lives:
                yield f"live p{x} {first} {last}"
        for i, (source, target, spans) in enumerate(self.meetings):
            yield f"edge m{i} meets p{source} p{target}"
            for first, last in spans:
                yield f"live m{i} {first} {last}"


def drawn(groups, group, meetings_each):
    """So many groups of so many persons, with so many meetings for each person of a group."""
    draws, meetings = Draws(0), []
    for first_of_group in range(0, groups * group, group):
        for _ in range(meetings_each * group):
            source, target, start = draws.below(group), draws.below(group), draws.below(980)
            meetings.append((first_of_group + source, first_of_group + target, [(start, start + draws.below(20))]))
    return Persons(groups * group, [(0, 999)], meetings, MEET)


def groups(size):
    return drawn(size, 10, 3)


def crowd(size):
    return drawn(1, size, 10)


def chain(size):
    lives = [(8 * i, 8 * i + 5) for i in range(size)]
    meetings = [(x, x + 1, [(first + x, first + x + 1) for first, _ in lives]) for x in range(3)]
    return Persons(4, lives, meetings, MEET)


def alive(size):
    return Persons(4, [(200 * i, 200 * i + 99) for i in range(size)], [], LIVE)


GRAPHS = {"groups": groups, "crowd": crowd, "chain": chain, "alive": alive}


def soonest(persons):
    """For each two persons the departures, from the last back, each with the soonest arrival and the end of that life.

    Who has arrived stays up to the end of the life, so the arrivals are all moments from the soonest one on.
    """
    met = collections.defaultdict(list)
    for source, target, spans in persons.meetings:
        for first, last in spans:
            for t in range(first, last + 1):
                met[t].append((source, target))
    found = collections.defaultdict(list)
    for first, last in reversed(persons.lives):
        arrival = [{} for _ in range(persons.count)]  # of each person who is at the moment, where and how soon she gets
        for t in range(last, first - 1, -1):
            for x in range(persons.count):
                arrival[x][x] = t
            while any([earlier(arrival[source], arrival[target]) for source, target in met[t]]):
                pass
            departing = collections.defaultdict(dict)
            for source, target in met[t]:
                earlier(departing[source], arrival[target])
            for x, ends in departing.items():
                for y, u in ends.items():
                    found[x, y].append((t, u, last))
    return found


def earlier(arrivals, others):
    """Takes over each arrival of the others that is sooner; whether there was one."""
    sooner = {y: u for y, u in others.items() if u < arrivals.get(y, u + 1)}
    arrivals.update(sooner)
    return bool(sooner)


def rows_of(departures):
    """The rows of departures that rise, each with its soonest and its last arrival."""
    at = 0
    while at < len(departures):
        t, low, last = departures[at]
        end, move = at, None
        while end + 1 < len(departures):
            before, after = departures[end], departures[end + 1]
            step = after[1] - before[1]
            if after[0] != before[0] + 1 or after[2] != last or step not in (0, 1) or move not in (None, step):
                break
            end, move = end + 1, step
        yield t, departures[end][0], (f"t{low - t:+}" if low > t else "t") if move else str(low), last
        at = end + 1


def meeting_rows(persons):
    found = soonest(persons)
    for x, y in sorted(found):
        for first, last, low, high in rows_of(found[x, y][::-1]):
            yield f"p{x} {first}..{last} p{y} {low}..{high}"


def living_rows(persons):
    for x in range(persons.count):
        for first, last in persons.lives:
            yield f"p{x} {first}..{last} p{x} t..{last}"


def written(persons, what):
    lines = list(persons.lines())
    if what == "edits":
        return lines
    if what == "asked":
        return [*lines, persons.question]
    rows = list((living_rows if persons.question == LIVE else meeting_rows)(persons))
    return [f"line {len(lines) + 1} rows {len(rows)}", *rows]


if __name__ == "__main__":
    question, size, what = sys.argv[1:]
    sys.stdout.write("".join(line + "\n" for line in written(GRAPHS[question](int(size)), what)))
