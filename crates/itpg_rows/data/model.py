#!/usr/bin/env python3
"""A second opinion on the scripts beside it: the plain machine, worked out moment by moment.

    model.py SCRIPT [LIMIT] [--json]     writes what the script must write
    model.py                    tries each script of this folder against its NAME.out and NAME.status, and the files
                                of the folder examples/ at the top, which are copies of files here

It shares nothing with itpg. A relation says of each object at each moment of the horizon which objects at which moments it
leads to, by the meaning of its path, and a repetition is walked step by step; rows are made from it and then tried against
the five conditions of a normal list; wide is told by the rows of each worked member. So it says nothing of horizons longer
than MOST_MOMENTS. A watch keeps the relation that the last tick worked out, and what was gained and lost are the points that
one relation leads to and the other doesn't. A `first` or `last` tries each pair of a relation, a `count` each object at each
moment. A pin keeps a whole copy of the graph. A `near` makes the graph near its object anew, asks there what is wide, and takes its
rows from the whole graph. Trials are worked out by `trial_model.py`, but for those with a limit of rows, and lines of JSON are read
and written by `json_model.py`.
"""
import copy
import functools
import itertools
import pathlib
import re
import sys

sys.dont_write_bytecode = True
import json_model  # noqa: E402
import trial_model  # noqa: E402

MOST_MOMENTS = 10_001
BOUND = 10**12
ALL = None  # the scope of all objects; another scope is a set of labels

sys.setrecursionlimit(20_000)
if hasattr(sys, "set_int_max_str_digits"):
    sys.set_int_max_str_digits(0)  # a line may have a number of 65,000 digits


class Fault(Exception):
    """A code word, and whether the line is refused or bad."""

    def __init__(self, word, refused=False):
        self.reply = f"{'refused' if refused else 'bad'} {word}"


class TooLong(Exception):
    """The horizon is too long for this model."""


def refuse(word, broken):
    if broken:
        raise Fault(word, refused=True)


# Tokens

TOKEN = re.compile(rb"[ \t]*(?:([A-Za-z][A-Za-z0-9_]*)|(-?[0-9]+)|'([ -&(-~]*)'|(-/|/-|>=|[(){}\[\]:,+*/?=<_]))")


def tokens_of(line):
    """The tokens of the bytes as pairs of a kind and a text, and how they end: None, 'byte' or 'text'."""
    found, at = [], 0
    while line[at:].strip(b" \t"):
        match = TOKEN.match(line, at)
        if not match:
            rest = line[at:].lstrip(b" \t")
            open_quote = rest[:1] == b"'" and re.fullmatch(rb"[ -&(-~]*", rest[1:])
            return found, "text" if open_quote else "byte"
        kind = ("word", "number", "quoted", "mark")[match.lastindex - 1]
        found.append((kind, match.group(match.lastindex).decode()))
        at = match.end()
    return found, None


def beyond(number):
    return abs(int(number)) > BOUND


# Query texts: paths and tests are tuples that begin with their name

NODE_EXISTS = ("and", ("node",), ("exists",))
AXES = {"FWD": "F", "BWD": "B", "NEXT": "N", "PREV": "P"}


class Reader:
    """Reads tokens by the grammar, one method for each rule."""

    def __init__(self, tokens):
        self.tokens, self.at, self.ranges = tokens, 0, []

    def peek(self, ahead=0):
        return self.tokens[self.at + ahead] if self.at + ahead < len(self.tokens) else (None, None)

    def take(self, kind, text=None):
        got = self.peek()
        if got[0] != kind or text is not None and got[1] != text:
            raise Fault("text")
        self.at += 1
        return got[1]

    def mark(self, text):
        if self.peek() != ("mark", text):
            return False
        self.at += 1
        return True

    def word(self, *texts):
        kind, text = self.peek()
        if kind != "word" or text not in texts:
            return None
        self.at += 1
        return text

    def query(self):
        self.take("word", "MATCH")
        name, path = self.pattern()
        names = [name]
        while self.mark("-/"):
            step = self.alt()
            self.take("mark", "/-")
            name, test = self.pattern()
            names.append(name)
            path = ("seq", ("seq", path, step), test)
        graph = self.take("word") if self.word("ON") else None
        if self.at < len(self.tokens):
            raise Fault("text")
        return names, path, graph

    def pattern(self):
        self.take("mark", "(")
        name = self.take("word") if self.peek()[0] == "word" else None
        test = NODE_EXISTS
        if self.mark(":"):
            test = ("and", test, ("label", self.take("word")))
        if self.mark("{"):
            test = ("and", test, self.either())
            self.take("mark", "}")
        self.take("mark", ")")
        return name, ("test", test)

    def alt(self):
        path = self.seq()
        while self.mark("+"):
            path = ("alt", path, self.seq())
        return path

    def seq(self):
        path = self.rep()
        while self.mark("/"):
            path = ("seq", path, self.rep())
        return path

    def rep(self):
        path = self.atom()
        if self.mark("*"):
            return ("repeat", path, 0, None)
        if self.mark("["):
            least, most = self.count(), None
            self.take("mark", ",")
            if not self.mark("_"):
                most = self.count()
                self.ranges.append((least, most))
            self.take("mark", "]")
            return ("repeat", path, least, most)
        return path

    def count(self):
        number = self.take("number")
        if number.startswith("-"):
            raise Fault("text")
        return int(number)

    def atom(self):
        axis = self.word(*AXES, *AXES.values())
        if axis in AXES:
            return ("seq", (AXES[axis],), ("test", ("exists",)))
        if axis:
            return (axis,)
        if self.mark(":"):
            return ("test", ("label", self.take("word")))
        if self.mark("{"):
            test = self.either()
            self.take("mark", "}")
            return ("test", test)
        if self.mark("?"):
            return ("test", ("cond", self.bracketed(self.alt)))
        return self.bracketed(self.alt)

    def bracketed(self, rule):
        self.take("mark", "(")
        inner = rule()
        self.take("mark", ")")
        return inner

    def either(self):
        test = self.both()
        while self.word("OR"):
            test = ("or", test, self.both())
        return test

    def both(self):
        test = self.unary()
        while self.mark(",") or self.word("AND"):
            test = ("and", test, self.unary())
        return test

    def unary(self):
        return ("not", self.prim()) if self.word("NOT") else self.prim()

    def prim(self):
        plain = self.word("NODE", "EDGE", "EXISTS")
        if plain:
            return (plain.lower(),)
        if self.word("time"):
            return self.bound()
        if self.mark(":"):
            return ("label", self.take("word"))
        if self.mark("?"):
            return ("cond", self.bracketed(self.alt))
        if self.peek() == ("mark", "("):
            return self.bracketed(self.either)
        if self.peek()[1] in ("NOT", "AND", "OR"):
            raise Fault("text")
        prop = self.take("word")
        self.take("mark", "=")
        return ("value", prop, self.take("quoted"))

    def bound(self):
        relation = next((mark for mark in ("<", "=", ">=") if self.mark(mark)), None)
        if not relation:
            raise Fault("text")
        number = int(self.take("number"))
        if relation == "<":
            return ("before", number)
        if relation == ">=":
            return ("not", ("before", number))
        return ("and", ("not", ("before", number)), ("before", number + 1))


def terms(term):
    inner = sum(terms(part) for part in term[1:] if isinstance(part, tuple))
    return inner + (term[0] != "test")


def read_query(tokens, command):
    """The query, or its first fault behind those of the line."""
    depth = 0
    for _, text in (token for token in tokens if token[0] == "mark"):
        depth += (text in "([{") - (text in ")]}")
        if depth > 64:
            raise Fault("deep")
    reader = Reader(tokens)
    names, path, graph = reader.query()
    fault_of_parts(tokens)
    if any(least > most for least, most in reader.ranges):
        raise Fault("range")
    first, last = names[0], names[-1] if len(names) > 1 else None
    if any(names[1:-1]) or not (first or last) or first and first == last:
        raise Fault("names")
    if terms(path) > 1024:
        raise Fault("terms")
    both = bool(first and last)
    if command in ("first", "last", "follow") and not both or command == "count" and both:
        raise Fault("names")
    return bool(first), bool(last), path, graph


def fault_of_parts(tokens):
    if any(kind == "number" and beyond(text) for kind, text in tokens):
        raise Fault("number")
    if any(kind in ("word", "quoted") and len(text) > 64 for kind, text in tokens):
        raise Fault("name")


# The graph, moment by moment

class Object:
    def __init__(self, name, labels, ends=None):
        self.name, self.labels, self.ends = name, frozenset(labels), ends
        self.stands, self.lives, self.values = True, set(), {}


def runs(moments):
    """The spans of consecutive moments, rising."""
    found = []
    for t in sorted(moments):
        if found and found[-1][1] == t - 1:
            found[-1][1] = t
        else:
            found.append([t, t])
    return [tuple(span) for span in found]


def value_runs(values):
    return sum(len(runs(t for t in values if values[t] == value)) for value in set(values.values()))


class Graph:
    def __init__(self):
        self.name, self.horizon, self.objects = None, None, []
        self.numbers = {}  # of the name of each standing object its number

    def moments(self):
        low, high = self.horizon
        if high - low >= MOST_MOMENTS:
            raise TooLong
        return range(low, high + 1)

    def standing(self):
        return [o for o, it in enumerate(self.objects) if it.stands]

    def find(self, name):
        return self.numbers.get(name)

    def add(self, name, *rest):
        self.numbers[name] = len(self.objects)
        self.objects.append(Object(name, *rest))

    def known(self, name):
        number = self.find(name)
        refuse("unknown", number is None)
        return self.objects[number]

    def span(self, low, high):
        refuse("backwards", low > high)
        refuse("horizon", low < self.horizon[0] or high > self.horizon[1])
        if high - low >= MOST_MOMENTS:
            raise TooLong
        return set(range(low, high + 1))

    def edges_at(self, node):
        return [it for it in self.objects if it.stands and it.ends
                and node in (self.objects[end] for end in it.ends)]

    def graph(self, name, low, high):
        refuse("again", self.name is not None)
        refuse("backwards", low > high)
        self.name, self.horizon = name, (low, high)

    def extend(self, low, high):
        refuse("backwards", low > high)
        refuse("narrow", low > self.horizon[0] or high < self.horizon[1])
        self.horizon = low, high

    def node(self, name, labels):
        refuse("taken", self.find(name) is not None)
        refuse("full", len(self.objects) >= 200_000)
        self.add(name, labels)

    def edge(self, name, labels, source, target):
        refuse("taken", self.find(name) is not None)
        ends = (self.find(source), self.find(target))
        refuse("unknown", None in ends)
        refuse("kind", any(self.objects[end].ends for end in ends))
        refuse("full", len(self.objects) >= 200_000)
        self.add(name, labels, ends)

    def live(self, name, low, high):
        it = self.known(name)
        span = self.span(low, high)
        refuse("ends", it.ends and not all(span <= self.objects[end].lives for end in it.ends))
        refuse("full", len(runs(it.lives | span)) > 4096)
        it.lives |= span

    def gone(self, name, low, high):
        it = self.known(name)
        span = self.span(low, high)
        refuse("held", not it.ends and any(edge.lives & span for edge in self.edges_at(it)))
        left = {prop: {t: v for t, v in values.items() if t not in span} for prop, values in it.values.items()}
        refuse("full", len(runs(it.lives - span)) > 4096 or any(value_runs(v) > 4096 for v in left.values()))
        it.lives -= span
        it.values = {prop: values for prop, values in left.items() if values}

    def set(self, name, prop, value, low, high):
        it = self.known(name)
        span = self.span(low, high)
        refuse("absent", not span <= it.lives)
        values = it.values.get(prop, {}) | dict.fromkeys(span, value)
        refuse("full", value_runs(values) > 4096 or len(it.values.keys() | {prop}) > 64)
        it.values[prop] = values

    def unset(self, name, prop, low, high):
        it = self.known(name)
        span = self.span(low, high)
        values = {t: v for t, v in it.values.get(prop, {}).items() if t not in span}
        refuse("full", value_runs(values) > 4096)
        it.values.pop(prop, None)
        if values:
            it.values[prop] = values

    def drop(self, name):
        it = self.known(name)
        refuse("incident", not it.ends and bool(self.edges_at(it)))
        self.drop_number(self.find(name))

    def drop_number(self, o):
        it = self.objects[o]
        it.stands, it.lives, it.values = False, set(), {}
        del self.numbers[it.name]


# What a path means: for each point the points that it leads to, as a number with a bit for each

class Meaning:
    def __init__(self, graph):
        self.graph, self.known = graph, {}
        self.moments, self.numbers = graph.moments(), graph.standing()
        self.width = len(self.moments) + 1  # the bit between two objects is no point, so no run goes over it
        self.points = {self.bit(o, t): (o, t) for o in self.numbers for t in self.moments}

    def bit(self, o, t):
        """The bit of an object at a moment, which stays the same until the horizon grows."""
        return o * self.width + t - self.moments[0]

    def point(self, x):
        """The object and the moment of a bit, of a dropped object too."""
        o, i = divmod(x, self.width)
        return o, self.moments[i]

    def holds(self, test, x):
        (o, t), kind = self.points[x], test[0]
        it = self.graph.objects[o]
        if kind == "node" or kind == "edge":
            return (it.ends is None) == (kind == "node")
        if kind == "label":
            return test[1] in it.labels
        if kind == "value":
            return it.values.get(test[1], {}).get(t) == test[2]
        if kind == "before":
            return t < test[1]
        if kind == "exists":
            return t in it.lives
        if kind == "cond":
            return x in self.of(test[1])
        if kind == "not":
            return not self.holds(test[1], x)
        both = [self.holds(part, x) for part in test[1:]]
        return all(both) if kind == "and" else any(both)

    def of(self, path):
        path = self.shortest(path)
        if path not in self.known:
            self.known[path] = {x: ends for x, ends in self.worked(path) if ends}
        return self.known[path]

    def shortest(self, path):
        """A path of the same meaning: who gets there by a walk that passes a point twice gets there by a shorter one."""
        if path[0] == "repeat" and path[2] == 0 and path[3] is not None and path[3] >= len(self.points):
            return (*path[:3], None)
        return path

    def worked(self, path):
        kind = path[0]
        if kind == "test":
            return ((x, 1 << x) for x in self.points if self.holds(path[1], x))
        if kind in "FB":
            return self.along_edges(kind)
        if kind in "NP":
            by = 1 if kind == "N" else -1
            return ((x, 1 << x + by) for x in self.points if x + by in self.points)
        if kind == "repeat":
            return self.repeated(*path[1:])
        first, second = self.of(path[1]), self.of(path[2])
        if kind == "alt":
            return ((x, first.get(x, 0) | second.get(x, 0)) for x in first | second)
        step = Step(second)
        return ((x, step(ends)) for x, ends in first.items())

    def along_edges(self, axis):
        led = {}
        for edge in self.numbers:
            source, target = self.graph.objects[edge].ends or (None, None)
            steps = [(source, edge), (edge, target)] if source is not None else []
            for o, p in steps if axis == "F" else [(p, o) for o, p in steps]:
                led.setdefault(o, set()).add(p)
        for x, (o, t) in self.points.items():
            yield x, sum(1 << self.bit(p, t) for p in led.get(o, ()))

    def repeated(self, body, least, most):
        """Where walks of at least `least` steps lead, and of at most `most` where that is a number."""
        step = Step(self.of(body))
        more = None if most is None else most - least
        return ((x, reached(after_steps(1 << x, step, least), step, more)) for x in self.points)


def bits(number):
    while number:
        yield (number & -number).bit_length() - 1
        number &= number - 1


class Step:
    """Leads from some points to all that one step leads to; both are numbers with a bit for each point."""

    def __init__(self, relation):
        self.relation, self.known = relation, {}

    def __call__(self, front):
        if front not in self.known:
            ends = 0
            for x in bits(front):
                ends |= self.relation.get(x, 0)
            self.known[front] = ends
        return self.known[front]


def after_steps(front, step, count):
    """The points at which walks of so many steps from some points end."""
    seen, fronts = {}, []
    while len(fronts) < count and front not in seen:
        seen[front] = len(fronts)
        fronts.append(front)
        front = step(front)
    if len(fronts) == count:
        return front
    first = seen[front]  # from here on the same points come round
    return fronts[first + (count - first) % (len(fronts) - first)]


def reached(front, step, most):
    """The points at which walks of at most so many steps from some points end, or of any number of steps."""
    found, steps = front, 0
    while front and (most is None or steps < most):
        front = step(front) & ~found
        found |= front
        steps += 1
    return found


# Normal rows: (source, target, from, to, low, high), where an end is ('fixed', n) or ('moving', k)

def end_at(end, t):
    return end[1] + (t if end[0] == "moving" else 0)


def continues(run, after):
    return after[0] - run[0] in (0, 1) and after[1] - run[1] in (0, 1)


def runs_by_departure(meaning, relation):
    """For each source and target the runs of arrivals at each departure."""
    found = {}
    for x, ends in relation.items():
        o, t = meaning.point(x)
        while ends:
            low = (ends & -ends).bit_length() - 1
            above = ends + (1 << low)
            high = (above & -above).bit_length() - 2
            ends &= above
            (p, first), (_, last) = meaning.point(low), meaning.point(high)
            found.setdefault((o, p), {}).setdefault(t, []).append((first, last))
    return found


def count_of_runs(relation):
    return sum((ends & ~(ends << 1)).bit_count() for ends in relation.values())


def less(relation, other):
    """What the first relation holds and the second doesn't."""
    left = {x: ends & ~other.get(x, 0) for x, ends in relation.items()}
    return {x: ends for x, ends in left.items() if ends}


def first_arrivals(meaning, relation):
    """Of each point the least moment at which it leads to each object."""
    kept = {}
    for x, ends in relation.items():
        least = {}
        for p, u in map(meaning.point, bits(ends)):
            least[p] = min(u, least.get(p, u))
        kept[x] = sum(1 << meaning.bit(p, u) for p, u in least.items())
    return kept


def last_departures(meaning, relation):
    """To each point the greatest moment from which each object leads there."""
    latest, kept = {}, {}
    for x, ends in relation.items():
        o, t = meaning.point(x)
        for y in bits(ends):
            latest[o, y] = max(t, latest.get((o, y), t))
    for (o, y), t in latest.items():
        kept[meaning.bit(o, t)] = kept.get(meaning.bit(o, t), 0) | 1 << y
    return kept


def count_rows(meaning, relation):
    """How many objects there are, for each run of moments at which they are equally many; without those at which none is."""
    rows = []
    for t in meaning.moments:
        number = sum(meaning.bit(o, t) in relation for o in meaning.numbers)
        if rows and rows[-1][1] == t - 1 and rows[-1][2] == number:
            rows[-1][1] = t
        elif number:
            rows.append([t, t, number])
    return rows


def normal_rows(meaning, relation):
    rows, found = [], runs_by_departure(meaning, relation)
    for (o, p), at in found.items():
        rest = {(t, run) for t in at for run in at[t]}
        for start in sorted(rest):
            if start not in rest:
                continue
            rest.remove(start)
            (t, run), moves = start, None
            while True:
                after = next((r for r in at.get(t + 1, ()) if continues(run, r)), None)
                move = after and (after[0] - run[0], after[1] - run[1])
                if after is None or moves not in (None, move):
                    break
                t, run, moves = t + 1, after, move
                rest.remove((t, run))
            ends = [("moving", edge - start[0]) if moves and moves[i] else ("fixed", edge)
                    for i, edge in enumerate(start[1])]
            rows.append((o, p, start[0], t, *ends))
    rows.sort(key=lambda row: (*row[:3], end_at(row[4], row[2])))
    assert_normal(found, rows)
    return rows


def assert_normal(found, rows):
    """The five conditions of a normal list, for the runs of a relation by source, target and departure."""
    held = set()
    for o, p, first, last, low, high in rows:
        for t in range(first, last + 1):
            run = (end_at(low, t), end_at(high, t))
            assert run in found[o, p].get(t, ()), "a row's arrivals are one run"
            assert (o, p, t, run) not in held, "each quadruple is in one row"
            held.add((o, p, t, run))
        run = (end_at(low, last), end_at(high, last))
        after = next((r for r in found[o, p].get(last + 1, ()) if continues(run, r)), None)
        moves = tuple(int(end[0] == "moving") for end in (low, high))
        assert first < last or moves == (0, 0), "a row of one moment has fixed ends"
        if after:
            assert first < last, "a row with a next run has two moments"
            assert (after[0] - run[0], after[1] - run[1]) != moves, "the next run moves otherwise"
    every = {(o, p, t, run) for (o, p), at in found.items() for t in at for run in at[t]}
    assert held == every, "the rows hold the relation"
    keys = [(*row[:3], end_at(row[4], row[2])) for row in rows]
    assert keys == sorted(set(keys)), "rows are in order"


# Scopes and worked members

def meet(a, b):
    """Of two lists the first: an object may have a label of each, so their common labels aren't what is within both."""
    return b if a is ALL else a


def join(a, b):
    return ALL if a is ALL or b is ALL else a | b


@functools.cache
def keeps(path):
    if path[0] == "repeat":
        return keeps(path[1])
    return path[0] in ("test", "N", "P") or path[0] in ("seq", "alt") and keeps(path[1]) and keeps(path[2])


def scope_of(test):
    kind = test[0]
    if kind == "label":
        return frozenset([test[1]])
    if kind == "cond":
        return scope(test[1], 0)
    if kind in ("and", "or"):
        return (meet if kind == "and" else join)(scope_of(test[1]), scope_of(test[2]))
    return ALL


@functools.cache
def scope(path, side):
    """The scope of a path's sources, or (side 1) of its targets."""
    if path[0] == "test":
        return scope_of(path[1])
    if path[0] == "alt":
        return join(scope(path[1], side), scope(path[2], side))
    if path[0] == "seq":
        near, far = path[1 + side], path[2 - side]
        return meet(scope(near, side), scope(far, side)) if keeps(near) else scope(near, side)
    if path[0] == "repeat" and path[2] > 0:
        return scope(path[1], side)
    return ALL


def conditions(test):
    if test[0] == "cond":
        return [test[1]]
    return [c for part in test[1:] if isinstance(part, tuple) for c in conditions(part)]


def chain(k):
    """The numbers on the way to k by doubling, and by one more where that is needed."""
    return [] if k == 0 else [1] if k == 1 else [*chain(k // 2), k // 2 * 2, k]


def narrowed(path, a, b):
    """The path with the scopes that its own labels leave of these two."""
    a, b = meet(a, scope(path, 0)), meet(b, scope(path, 1))
    return (path, meet(a, b), meet(b, a)) if keeps(path) else (path, a, b)


def passed(body, a, b):
    """The scope of all that a repetition of the body passes between two scopes."""
    return a if keeps(body) else join(join(a, b), meet(scope(body, 1), scope(body, 0)))


def parts(path, a, b):
    """The parts of a path between two narrowed scopes, each between scopes that are narrowed too."""
    kind = path[0]
    if kind == "test":
        return [narrowed(condition, a, ALL) for condition in conditions(path[1])]
    if kind == "alt":
        return [narrowed(path[1], a, b), narrowed(path[2], a, b)]
    if kind == "seq":
        middle = meet(scope(path[1], 1), scope(path[2], 0))
        if keeps(path[1]):
            middle = meet(middle, a)
        if keeps(path[2]):
            middle = meet(middle, b)
        return [narrowed(path[1], a, middle), narrowed(path[2], middle, b)]
    if kind == "repeat":
        within = passed(path[1], a, b)
        return [narrowed(path[1], within, within)]
    return []


def powers(path, a, b):
    """What a repetition between two narrowed scopes needs besides its body: the body so many times, and up to so many."""
    if path[0] != "repeat":
        return
    body, least, most = path[1:]
    within = passed(body, a, b)
    for k in chain(least):
        yield ("repeat", body, k, k), within, within
    for k in [2**j for j in range(61)] if most is None else chain(most - least):
        yield ("repeat", body, 0, k), within, within


def members(path, a, b):
    """The worked members of a path between two scopes: paths, each between two scopes."""
    own = narrowed(path, a, b)
    yield own
    for part in parts(*own):
        yield from members(*part)
    yield from powers(*own)


def cut(meaning, path, a, b):
    """The relation of a path between two scopes."""
    def within(o, labels):
        return labels is ALL or bool(meaning.graph.objects[o].labels & labels)
    relation = meaning.of(path)
    if a is not ALL:
        relation = {x: ends for x, ends in relation.items() if within(meaning.points[x][0], a)}
    if b is not ALL:
        targets = sum(1 << x for x, (o, _) in meaning.points.items() if within(o, b))
        relation = {x: ends & targets for x, ends in relation.items()}
    return relation


# What is near an object

MOST_STEPS = 1_000_000


def capped(number):
    return number if number <= MOST_STEPS else None


@functools.cache
def steps(path):
    """How many steps between an edge and an end of it a path can take, or None if they are unbounded."""
    kind = path[0]
    if kind in ("F", "B"):
        return 1
    if kind in ("N", "P"):
        return 0
    parts = [steps(part) for part in (conditions(path[1]) if kind == "test" else path[1:2] if kind == "repeat" else path[1:])]
    if None in parts:
        return None
    if kind == "test":
        return max(parts, default=0)
    if kind == "repeat":
        return 0 if parts == [0] else None if path[3] is None else capped(path[3] * parts[0])
    return capped(sum(parts)) if kind == "seq" else max(parts)


def reach(graph, start, most):
    """The numbers of the objects to which at most so many steps lead, with the ends of the edges among them."""
    beside = {o: set() for o in graph.standing()}
    for edge in beside:
        for end in graph.objects[edge].ends or ():
            beside[edge].add(end)
            beside[end].add(edge)
    found, front = {start}, {start}
    while front and most != 0:
        front = {p for o in front for p in beside[o]} - found
        found |= front
        most = most and most - 1
    return found | {end for o in found for end in graph.objects[o].ends or ()}


def near_graph(graph, start, most):
    """The graph in which nothing outside what is reached stands, exists or has a value."""
    left = copy.deepcopy(graph)
    for o in set(graph.standing()) - reach(graph, start, most):
        left.drop_number(o)
    return left


# Lines and replies

FORMS = {
    "graph": "nii", "extend": "ii", "node": "nl", "edge": "nlnn", "live": "nii", "gone": "nii", "set": "nnqii", "unset": "nnii", "drop": "n",
    "ask": None, "first": None, "last": None, "count": None, "watch": "n", "show": "n", "unwatch": "n", "tick": "",
    "open": "n", "close": "n", "in": "nn", "follow": "n", "near": "nn", "unfollow": "n",
}
NAMED_QUERIES = "watch", "follow"  # a name and a query text stand behind the word
QUESTIONS = [command for command in FORMS if FORMS[command] is None]
KINDS = {"word": "n", "number": "i", "quoted": "q"}
LABELS = "n(?:,n){0,7}"  # one to eight words parted by commas


def kinds_of(tokens):
    """A letter for the kind of each token, or the mark itself."""
    return "".join(KINDS.get(kind, text) for kind, text in tokens)


def values_of(command, parts):
    """What the form says: numbers and texts, and the labels of a node or an edge as a list behind its name."""
    values = [int(text) if kind == "number" else text for kind, text in parts]
    if command not in ("node", "edge"):
        return values
    commas = values.count(",")
    return [values[0], values[1:2 * commas + 2:2], *values[2 * commas + 2:]]


class Watch:
    def __init__(self, name, query):
        self.name, self.query, self.base = name, query, {}


class Machine:
    def __init__(self, limit):
        self.graph, self.limit, self.watches = Graph(), limit, []
        self.pins = {}  # of each name a copy of the graph
        self.follows = {}  # of each name its query

    def reply(self, number, line):
        """The lines of the reply."""
        line = line.removesuffix(b"\r")
        if len(line) > 65_536:
            raise Fault("long")
        if not line.strip(b" \t") or line.lstrip(b" \t").startswith(b"#"):
            return []
        tokens, end = tokens_of(line)
        if end == "byte":
            raise Fault("byte")
        if len(tokens) > 4096:
            raise Fault("tokens")
        if end or tokens[0][0] != "word" or tokens[0][1] not in FORMS:
            raise Fault("text")
        command, rest = tokens[0][1], tokens[1:]
        parts, query = self.parts(command, rest)
        fault_of_parts(parts)
        if query is not None:
            query = read_query(query, command)
        refuse("nograph", self.graph.name is None and command != "graph")
        if command in QUESTIONS or command in NAMED_QUERIES:
            refuse("graphname", query[3] is not None and query[3] != self.graph.name)
        if command in QUESTIONS:
            return self.answer(number, self.graph, query, command)
        values = values_of(command, parts)
        if command in ("open", "close", "in"):
            return self.session(number, command, values[0], query)
        if command == "follow":
            return self.follow(*values, query)
        if command in ("near", "unfollow"):
            return self.followed(number, *values)
        if command == "watch":
            return self.watch(*values, query)
        if command == "show":
            return self.answer(number, self.graph, self.watched(*values).query)
        if command == "unwatch":
            self.watches.remove(self.watched(*values))
            return []
        if command == "tick":
            return [text for watch in self.watches for text in self.tick(watch)]
        if command == "extend":
            return self.extend(*values)
        getattr(self.graph, command)(*values)
        return []

    def parts(self, command, rest):
        """The tokens of the form, and those of the query text behind them."""
        if command in QUESTIONS:
            return [], rest
        if command in NAMED_QUERIES and rest and rest[0][0] == "word":
            return rest[:1], rest[1:]
        if command == "in" and rest and rest[0][0] == "word" and rest[1:2] == [("word", "ask")]:
            return rest[:2], rest[2:]
        if command in (*NAMED_QUERIES, "in") or not re.fullmatch(FORMS[command].replace("l", LABELS), kinds_of(rest)):
            raise Fault("text")
        return rest, None

    def watched(self, name):
        found = [watch for watch in self.watches if watch.name == name]
        refuse("unknown", not found)
        return found[0]

    def watch(self, name, query):
        refuse("taken", any(watch.name == name for watch in self.watches))
        refuse("full", len(self.watches) >= 32)
        self.watches.append(Watch(name, query))
        return []

    def session(self, number, command, name, query):
        if command == "open":
            refuse("taken", name in self.pins)
            refuse("full", len(self.pins) >= 8)
            self.pins[name] = copy.deepcopy(self.graph)
            return []
        refuse("unknown", name not in self.pins)
        if command == "close":
            del self.pins[name]
            return []
        refuse("graphname", query[3] is not None and query[3] != self.pins[name].name)
        return self.answer(number, self.pins[name], query)

    def follow(self, name, query):
        refuse("taken", name in self.follows)
        refuse("full", len(self.follows) >= 8)
        self.follows[name] = query
        return []

    def followed(self, number, name, source=None):
        """The reply to a `near` with an object, and to an `unfollow` without one."""
        refuse("unknown", name not in self.follows)
        if source is None:
            del self.follows[name]
            return []
        refuse("unknown", self.graph.find(source) is None)
        return self.near(number, self.follows[name], self.graph.find(source))

    def near(self, number, query, start):
        path = query[2]
        if self.relation(near_graph(self.graph, start, steps(path)), query) is None:
            return [f"line {number} wide"]
        meaning = Meaning(self.graph)
        relation = {x: ends for x, ends in meaning.of(path).items() if meaning.point(x)[0] == start}
        rows = self.rows(self.graph, query, relation)
        return [f"line {number} rows {len(rows)}", *rows]

    def extend(self, low, high):
        """Widens the horizon. The bits of the points change, so the bases get the new ones."""
        before = Meaning(self.graph) if self.watches else None
        self.graph.extend(low, high)
        after = Meaning(self.graph) if self.watches else None
        for watch in self.watches:
            moved = {x: after.bit(*before.point(x)) for ends in ([*watch.base], *map(bits, watch.base.values())) for x in ends}
            watch.base = {moved[x]: sum(1 << moved[y] for y in bits(ends)) for x, ends in watch.base.items()}
        return []

    def answer(self, number, graph, query, command="ask"):
        relation, meaning, kind = self.relation(graph, query), Meaning(graph), "rows"
        if relation is None:
            return [f"line {number} wide"]
        if command == "count":
            texts, kind = [f"{low}..{high} {many}" for low, high, many in count_rows(meaning, relation)], "counts"
        else:
            kept = {"first": first_arrivals, "last": last_departures}.get(command)
            texts = self.rows(graph, query, kept(meaning, relation) if kept else relation)
        if command != "ask" and len(texts) > self.limit:
            return [f"line {number} wide"]
        return [f"line {number} {kind} {len(texts)}", *texts]

    def tick(self, watch):
        now = self.relation(self.graph, watch.query)
        if now is None:
            return [f"tick {watch.name} wide"]
        gained, lost = (self.rows(self.graph, watch.query, less(a, b)) for a, b in ((now, watch.base), (watch.base, now)))
        watch.base = now
        return [f"tick {watch.name} gained {len(gained)} lost {len(lost)}",
                *("+ " + row for row in gained), *("- " + row for row in lost)]

    def relation(self, graph, query):
        """The relation that answers the query, or None where that is wide; of one time each point leads to itself."""
        first, last, path, _ = query
        meaning = Meaning(graph)
        worked = {(meaning.shortest(member), *between) for member, *between in members(path, ALL, ALL)}
        if any(self.is_wide(meaning, *member) for member in worked):
            return None
        relation = meaning.of(path)
        if first and last:
            return relation
        points = relation if first else {x for ends in relation.values() for x in bits(ends)}
        return {x: 1 << x for x in points}

    def rows(self, graph, query, relation):
        meaning = Meaning(graph)
        if query[0] and query[1]:
            return [self.row(graph, *row) for row in normal_rows(meaning, relation)]
        times = {}
        for o, t in map(meaning.point, relation):
            times.setdefault(o, set()).add(t)
        return [f"{graph.objects[o].name} {low}..{high}" for o in sorted(times) for low, high in runs(times[o])]

    def is_wide(self, meaning, path, a, b):
        """Whether the relation of a path between two scopes has more normal rows than the limit."""
        relation = cut(meaning, path, a, b)
        # A row has one run at each of its departures, so there are no more rows than runs.
        return count_of_runs(relation) > self.limit and len(normal_rows(meaning, relation)) > self.limit

    def row(self, graph, o, p, low, high, *ends):
        names = [graph.objects[number].name for number in (o, p)]
        shown = [str(n) if kind == "fixed" else f"t{n:+}" if n else "t" for kind, n in ends]
        return f"{names[0]} {low}..{high} {names[1]} {shown[0]}..{shown[1]}"


def plain_line(line):
    """The plain line that asks for what a line of JSON asks for."""
    try:
        return json_model.plain_line(line)
    except json_model.Bad as bad:
        raise Fault(bad.code) from None


def run(script, limit=100_000, is_json=False):
    """What the script must write, and the exit status. The script and its output are lines of JSON if that is asked for."""
    machine, output, status = Machine(limit), [], 0
    lines = script.split(b"\n")
    for number, line in enumerate(lines if lines[-1] else lines[:-1], start=1):
        try:
            reply = machine.reply(number, plain_line(line) if is_json else line)
            failing = any(text.endswith(" wide") for text in reply)
        except Fault as fault:
            reply, failing = [f"line {number} {fault.reply}"], True
        output += reply
        status = status or int(failing)
    if is_json:
        output = json_model.json_output(output)
    return "".join(line + "\n" for line in output).encode(), status


def stale_copies(folder):
    """The names of the scripts and outputs in examples/ that aren't the same as here, where a script .jsonl has the ending .itpg."""
    examples = sorted(path for path in (folder.parents[2] / "examples").iterdir() if path.suffix in (".itpg", ".jsonl", ".out"))
    return [path.name for path in examples if path.read_bytes() != (folder / path.name.replace(".jsonl", ".itpg")).read_bytes()]


def script_of(path):
    """The script that the file has, or the one that its rows make (`src/made.rt` says how)."""
    if path.suffix != ".made":
        return path.read_bytes()
    made = []
    for row in path.read_text().splitlines():
        kind, count, first, step, text = row.split(" ", 4)
        numbers = (int(first) + i * int(step) for i in range(int(count)))
        made += [text.replace("%", str(number)) + "\n" * (kind == "lines") for number in numbers]
    return "".join(made).encode()


def number_in(path, otherwise):
    return int(path.read_text()) if path.exists() else otherwise


def options_in(words):
    """The limit of rows and the trial that the words ask for, and whether for lines of JSON; None where they are no sentence."""
    values = {}
    while words:
        name, equals, value = words[0].partition("=")
        is_flag = words[0] == "--json"
        if is_flag or equals:
            value, words = "1" if is_flag else value, words[1:]
        else:
            value, words = words[1] if words[1:] else "", words[2:]
        if not is_flag and name not in ("--max-rows", "--trial") or name in values or not re.fullmatch("[0-9]{1,20}", value):
            return None
        values[name] = int(value)
    limit, trial = values.get("--max-rows", 100_000), values.get("--trial")
    return (limit, trial, "--json" in values) if 1 <= limit <= 1_000_000 and (trial or 0) < 2**64 else None


def run_with(path):
    """What the script of this path must write with its words or its limit, and the exit status."""
    words = path.with_suffix(".words")
    options = options_in(words.read_text().split("\n")[:-1] if words.exists() else [])
    if options is None:
        return b"", 2
    limit, trial, is_json = options
    if trial is None:
        return run(script_of(path), number_in(path.with_suffix(".limit"), limit), is_json)
    if limit == 100_000:
        return trial_model.summary(trial), 0
    raise TooLong


def try_all(folder):
    same = differing = untried = 0
    for path in sorted([*folder.glob("*.itpg"), *folder.glob("*.made")]):
        wanted = path.with_suffix(".out").read_bytes(), number_in(path.with_suffix(".status"), 0)
        try:
            got = run_with(path)
        except TooLong:
            untried += 1
            print(f"{path.stem}: the horizon is too long for this model, or a trial has a limit")
            continue
        same, differing = same + (got == wanted), differing + (got != wanted)
        if got != wanted:
            pairs = itertools.zip_longest(wanted[0].decode().splitlines(), got[0].decode().splitlines())
            line = next((f"{w!r} in the file, {g!r} by the model" for w, g in pairs if w != g), f"status {got[1]}")
            print(f"{path.stem}: {line}")
    stale = stale_copies(folder)
    for name in stale:
        print(f"examples/{name} isn't the file of this name here")
    print(f"{same} alike, {differing} differ, {untried} not tried")
    return 1 if differing or stale else 0


def main():
    if len(sys.argv) == 1:
        return try_all(pathlib.Path(__file__).resolve().parent)
    words = [word for word in sys.argv[1:] if word != "--json"]
    output, status = run(script_of(pathlib.Path(words[0])), int(words[1]) if words[1:] else 100_000, "--json" in sys.argv)
    sys.stdout.buffer.write(output)
    return status


if __name__ == "__main__":
    sys.exit(main())
