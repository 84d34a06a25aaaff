"""Writes edit_lists.txt: lists of edits with what each answers and the graph after it.

It has nothing of this project's code. A graph is kept as plain sets of moments, one value a moment: for each object the
moments at which it exists, and for each of its properties the value at each moment. Every rule is tried moment by moment, in
the order of the reference. After each edit the families are told as runs: maximal spans of moments, and of equal values.

Rows of the table, one line each:

    edit LINE        a line of a script
    is ANSWER        `all`, or `shape`, `live`, `gone` or `value` with the label, and the property of a value; or a rule's word
    graph STATE      the standing objects in order of number: NAME EXISTENCE RISK TEST, each family as its runs, or `-`
    end              the next list begins with no graph

    run: python3 edit_lists.py > edit_lists.txt
"""
import random

LO, HI = 0, 12
MORE = 80  # the horizon grows by less than this at each end
NAMES = ["a", "b", "c", "m", "k"]
PROPS = ["risk", "test"]
VALUES = ["low", "high"]


class Object:
    def __init__(self, name, label, ends):
        self.name, self.label, self.ends = name, label, ends
        self.live = set()
        self.values = {p: {} for p in PROPS}
        self.stands = True


class Model:
    def __init__(self):
        self.horizon = None
        self.objects = []

    def find(self, name):
        for o in self.objects:
            if o.stands and o.name == name:
                return o
        return None

    def edges_at(self, node):
        return [e for e in self.objects if e.stands and e.ends and node in e.ends]

    def step(self, words):
        what = words[0]
        if what == "graph":
            lo, hi = int(words[2]), int(words[3])
            if self.horizon:
                return "again"
            if lo > hi:
                return "backwards"
            self.horizon = range(lo, hi + 1)
            return "all"
        if self.horizon is None:
            return "nograph"
        if what == "extend":
            lo, hi = int(words[1]), int(words[2])
            if lo > hi:
                return "backwards"
            if any(not lo <= t <= hi for t in self.horizon):
                return "narrow"
            self.horizon = range(lo, hi + 1)
            return "all"
        if what in ("node", "edge"):
            name, label = words[1], words[2]
            if self.find(name):
                return "taken"
            ends = None
            if what == "edge":
                source, target = self.find(words[3]), self.find(words[4])
                if source is None or target is None:
                    return "unknown"
                if source.ends or target.ends:
                    return "kind"
                ends = (source, target)
            self.objects.append(Object(name, label, ends))
            return "shape " + label
        o = self.find(words[1])
        if o is None:
            return "unknown"
        if what == "drop":
            if self.edges_at(o):
                return "incident"
            o.stands = False
            return "shape " + o.label
        a, b = int(words[-2]), int(words[-1])
        if a > b:
            return "backwards"
        moments = range(a, b + 1)
        if any(t not in self.horizon for t in moments):
            return "horizon"
        if what == "live":
            if o.ends and any(t not in end.live for end in o.ends for t in moments):
                return "ends"
            o.live.update(moments)
            return "live " + o.label
        if what == "gone":
            if any(t in e.live for e in self.edges_at(o) for t in moments):
                return "held"
            for t in moments:
                o.live.discard(t)
                for p in PROPS:
                    o.values[p].pop(t, None)
            return "gone " + o.label
        prop = words[2]
        if what == "set":
            if any(t not in o.live for t in moments):
                return "absent"
            for t in moments:
                o.values[prop][t] = words[3].strip("'")
        else:
            for t in moments:
                o.values[prop].pop(t, None)
        return "value " + o.label + " " + prop

    def told(self):
        rows = []
        for o in self.objects:
            if o.stands:
                families = [runs({t: "" for t in o.live})] + [runs(o.values[p]) for p in PROPS]
                rows.append(" ".join([o.name] + [f or "-" for f in families]))
        return " | ".join(rows)


def runs(values):
    out = []
    for t in range(LO - MORE - 1, HI + MORE + 2):
        if t in values and (t - 1 not in values or values[t - 1] != values[t]):
            out.append([t, t, values[t]])
        elif t in values:
            out[-1][1] = t
    return ",".join((v + ":" if v else "") + f"{a}..{b}" for a, b, v in out)


def made_up(r, model):
    def span():
        lo, hi = (model.horizon[0], model.horizon[-1]) if model.horizon else (LO, HI)
        a = r.randint(lo, hi)
        b = a + r.choice([-1, 0, 0, 1, 2, 3, 5, 8])
        return f"{a} {b}"

    def node():
        return r.choice(NAMES[:3])

    def any_name():
        standing = [o.name for o in model.objects if o.stands]
        return r.choice(standing) if standing and r.random() < 0.9 else r.choice(NAMES)

    kind = r.random()
    if kind < 0.02:
        return f"graph g {r.randint(LO, HI)} {r.randint(LO, HI)}"
    if kind < 0.06:
        lo, hi = (model.horizon[0], model.horizon[-1]) if model.horizon else (LO, HI)
        return f"extend {lo - r.choice([-1, 0, 0, 1, 2, -30])} {hi + r.choice([-1, 0, 0, 1, 3])}"
    if kind < 0.12:
        return f"node {node()} {r.choice(['Person', 'Room'])}"
    if kind < 0.22:
        return f"edge {r.choice(NAMES[3:])} meets {any_name()} {node()}"
    if kind < 0.48:
        return f"live {any_name()} {span()}"
    if kind < 0.64:
        return f"gone {any_name()} {span()}"
    if kind < 0.84:
        return f"set {any_name()} {r.choice(PROPS)} '{r.choice(VALUES)}' {span()}"
    if kind < 0.95:
        return f"unset {any_name()} {r.choice(PROPS)} {span()}"
    return f"drop {any_name()}"


def main():
    r = random.Random(20261130)
    seen = {}
    for number in range(36):
        model = Model()
        lines = [] if number == 0 else [f"graph g {LO} {HI}", "node a Person", "node b Person", "live a 0 8", "live b 3 12", "edge m meets a b", "live m 4 7"]
        for place in range(len(lines) + 26):
            line = lines[place] if place < len(lines) else made_up(r, model)
            answer = model.step(line.split())
            seen[answer.split()[0]] = seen.get(answer.split()[0], 0) + 1
            print("edit " + line)
            print("is " + answer)
            print("graph " + model.told())
        print("end")
    wanted = "all shape live gone value nograph again taken unknown kind backwards horizon ends absent held incident narrow".split()
    missing = [w for w in wanted if w not in seen]
    assert not missing, missing


main()
