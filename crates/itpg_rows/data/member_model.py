"""The members of a question: their texts, how many rows each has, and which relations are kept.

A member is a path between two scopes, as `model.py` has both. What is kept is worked out as docs/PROVED.md says: in a table of all
members seen so far, in order of first sight, each behind its parts. No script here fills such a table.
"""
from model import ALL, Meaning, cut, members, narrowed, normal_rows, parts, passed, powers

MOST_KEPT_ROWS = 4_000_000


# Texts

def path_text(path):
    kind = path[0]
    if kind == "test":
        return "{" + test_text(path[1]) + "}"
    if kind == "repeat":
        body, least, most = path[1:]
        return f"({path_text(body)}[{least},{'_' if most is None else most}])"
    if kind in ("seq", "alt"):
        return f"({path_text(path[1])}{'/' if kind == 'seq' else ' + '}{path_text(path[2])})"
    return kind


def test_text(test):
    kind = test[0]
    if kind in ("and", "or"):
        return f"({test_text(test[1])} {kind.upper()} {test_text(test[2])})"
    if kind == "not":
        return f"(NOT {test_text(test[1])})"
    if kind == "cond":
        return f"?({path_text(test[1])})"
    if kind == "label":
        return f":{test[1]}"
    if kind == "value":
        return f"{test[1]} = '{test[2]}'"
    if kind == "before":
        return f"time < {test[1]}"
    return kind.upper()


def scope_text(labels):
    return "all" if labels is ALL else "+".join(sorted(labels))


# Rows

class Counts:
    """How many normal rows members have on a graph."""

    def __init__(self, graph):
        self.graph, self.meaning, self.known = graph, Meaning(graph), {}

    def rows(self, member):
        path, a, b = member
        key = self.meaning.shortest(path), a, b
        if key not in self.known:
            self.known[key] = len(normal_rows(self.meaning, cut(self.meaning, *key)))
        return self.known[key]

    def most(self, member):
        """The most rows of what is worked out for the member besides its parts: of a repetition also the powers of its body."""
        return max(map(self.rows, [member, *powers(*member)]))

    def most_of_all(self, path):
        """The most rows of all that is worked out for a path between all objects."""
        return max(map(self.rows, members(path, ALL, ALL)))


def add_member(member, numbers):
    """Numbers the parts of the member and then itself, each once."""
    for part in parts(*member):
        add_member(part, numbers)
    numbers.setdefault(member, len(numbers))


def counts_told(numbers, counts, limit):
    """What is told of each numbered member: how many rows it has, or 'over' or 'unknown'."""
    told = {}
    for member in numbers:
        if any(told[part] in ("over", "unknown") for part in parts(*member)):
            told[member] = "unknown"
        else:
            told[member] = "over" if counts.most(member) > limit else counts.rows(member)
    return told


# What is kept

class Table:
    """The members that were seen so far, and how many rows are kept of some of them."""

    def __init__(self, numbers=(), kept=()):
        self.numbers, self.kept = dict(numbers), dict(kept)

    def copy(self):
        return Table(self.numbers, self.kept)

    def add(self, path):
        """The member of a path between all objects, which is seen from now on."""
        member = narrowed(path, ALL, ALL)
        add_member(member, self.numbers)
        return member

    def work(self, path, counts, limit):
        """Works out the relation of a path, and keeps it with all that it needs, up to the first that has too many rows."""
        needed = self.needed(self.add(path))
        for member in filter(needed.__contains__, self.numbers):
            if counts.most(member) > limit:
                return
            if sum(self.kept.values()) + counts.rows(member) <= MOST_KEPT_ROWS:
                self.kept[member] = counts.rows(member)

    def needed(self, member):
        """The member and what it needs, where a kept relation and all that it would need are not."""
        if member in self.kept:
            return set()
        return {member}.union(*map(self.needed, parts(*member)))

    def forget(self, touch):
        self.kept = {member: rows for member, rows in self.kept.items() if not meets(asked(*member), touch)}


def asked(path, a, b):
    """What the relation of a path between two narrowed scopes can depend on: kinds of facts, perhaps a property, and whose they are."""
    kind, facts = path[0], set()
    if kind == "test":
        facts = {("shape", None, a), *asked_of(path[1], a)}
    elif kind in "FB":
        facts = {("shape", None, a), ("shape", None, b)}
    elif kind in "NP":
        facts = {("shape", None, a)}
    elif kind == "repeat":
        facts = {("shape", None, passed(path[1], a, b))}
    return facts.union(*(asked(*part) for part in parts(path, a, b)))


def asked_of(test, a):
    """What a test of the objects of a scope asks besides, without its conditions."""
    if test[0] == "value":
        return {("value", test[1], a)}
    if test[0] == "exists":
        return {("live", None, a)}
    if test[0] == "cond":
        return set()
    return set().union(*(asked_of(part, a) for part in test[1:] if isinstance(part, tuple)))


def meets(facts, touch):
    """Whether an edit's touch, None for all there is or kinds of facts, a property and the object's labels, meets what is asked."""
    if touch is None:
        return True
    kinds, prop, labels = touch
    return any(kind in kinds and (prop is None or prop == of) and (scope is ALL or scope & labels) for kind, of, scope in facts)
