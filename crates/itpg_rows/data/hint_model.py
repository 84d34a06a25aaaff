"""The hints of a question, in the order in which they are written, worked out from their definitions."""
from member_model import path_text
from model import ALL, conditions, scope

MOST_ROWS = 100_000  # more rows than this need a limit of their own
FEW_ROWS = 10_000  # the limit for repetitions that are tried with fewer times
TRIED = 16  # how many more times than the least are tried

CASE = "; upper and lower case differ"
ENDS_ON_EDGE = ("the path can't end where it is asked to: a step FWD, BWD, F or B leads from a node to an edge, or from an edge to a node; "
                "write FWD/FWD to come to a node")
SELECTIVE_END_LAST = ("the path can start at every object, but only its end has a label; write it from that end, with BWD for FWD and PREV "
                      "for NEXT")
AT_ANY_MOMENT = ("the path leads nowhere only because FWD and BWD ask that what they come to exists at the moment; F and B go along an edge "
                 "at any moment; write F for FWD and B for BWD")

EXISTS = ("test", ("exists",))


def inner(term):
    """The paths and tests directly in a path or a test."""
    return [part for part in term[1:] if isinstance(part, tuple)]


# What a path asks for in vain

def asks_node(test):
    return test[0] == "node" or test[0] == "and" and (asks_node(test[1]) or asks_node(test[2]))


def asked_for(term):
    """What the tests of a path or of a test ask for, as they are read."""
    for part in inner(term):
        yield from asked_for(part)
    if term[0] == "label":
        yield "label", term[1]
    if term[0] == "value":
        yield "property", term[1]
        yield term
    if term[0] == "and" and asks_node(term[1]) and term[2][0] == "label":
        yield "round", term[2][1]


def missing(graph, wanted):
    """The hint that there is no such thing, if there is none."""
    kind, name = wanted[:2]
    standing = [graph.objects[o] for o in graph.standing()]
    having = [it for it in standing if name in it.labels]
    values = {value for it in standing for value in it.values.get(name, {}).values()}
    if kind == "label" and not having:
        return f"no object has the label {name}{CASE}"
    if kind == "round" and having and all(it.ends for it in having):
        return f"only edges have the label {name}, and a node is asked for; write (x)-/FWD/:{name}/FWD/-(y)"
    if kind == "property" and not values:
        return f"no object ever has a value of {name}{CASE}"
    if kind == "value" and values and wanted[2] not in values:
        return f"the property {name} has values, but never '{wanted[2]}'{CASE}"
    return None


# Between which kinds of objects a path can lead

BOTH = {"node", "edge"}
STAYS = {("node", "node"), ("edge", "edge")}


def leads(path):
    kind = path[0]
    if kind == "test":
        return {(k, k) for k in kinds(path[1])}
    if kind in "FB":
        return {("node", "edge"), ("edge", "node")}
    if kind in "NP":
        return STAYS
    if kind == "repeat":
        return STAYS | leads(path[1])
    first, second = leads(path[1]), leads(path[2])
    return first | second if kind == "alt" else {(a, d) for a, b in first for c, d in second if b == c}


def kinds(test):
    kind = test[0]
    if kind in BOTH:
        return {kind}
    if kind == "cond":
        return {a for a, _ in leads(test[1])}
    if kind in ("and", "or"):
        one, other = kinds(test[1]), kinds(test[2])
        return one & other if kind == "and" else one | other
    return BOTH


def by_form(graph, path):
    """The hints that no answer is needed for."""
    wanted = dict.fromkeys(asked_for(path))
    yield from filter(None, (missing(graph, one) for one in wanted))
    if not leads(path):
        yield ENDS_ON_EDGE
    if scope(path, 0) is ALL and scope(path, 1) is not ALL:
        yield SELECTIVE_END_LAST


# What needs answers

def relaxed(term):
    """The path, or the test, with F for FWD and B for BWD."""
    if term[0] == "seq" and term[1][0] in "FB" and term[2] == EXISTS:
        return term[1]
    return tuple(relaxed(part) if isinstance(part, tuple) else part for part in term)


def is_ruled_out(counts, path, limit):
    """Whether the path has no rows, and some without the tests of existence behind its steps along edges."""
    free = relaxed(path)
    fits = counts.most_of_all(path) <= limit and counts.most_of_all(free) <= limit
    return fits and not counts.meaning.of(path) and bool(counts.meaning.of(free))


def top_repetitions(path):
    if path[0] == "repeat":
        return [path]
    return [found for part in path[1:] for found in top_repetitions(part)] if path[0] in ("seq", "alt") else []


def times_enough(counts, path, limit):
    """After how many times a repetition leads no further, None if that isn't found."""
    body, least, most = path[1:]

    def ends(times):
        found = ("repeat", body, least, times)
        return counts.meaning.of(found) if counts.most_of_all(found) <= limit else None
    wanted = ends(most)
    tried = range(least, most if most is not None and most <= least + TRIED else least + TRIED + 1)
    if wanted is None or tried.stop == least + TRIED + 1 and ends(least + TRIED) != wanted:
        return None
    for times in tried:
        found = ends(times)
        if found is None or found == wanted:
            return None if found is None else times
    return None


def repetition_hints(counts, path, limit):
    for found in top_repetitions(path):
        times = times_enough(counts, found, min(limit, FEW_ROWS))
        if times is not None:
            yield f"{path_text(found)} adds nothing from {times} times on; write {path_text((*found[:3], times))}"


# Time that passes where no object exists

def begins_existing(path):
    return path == EXISTS or path[0] == "seq" and begins_existing(path[1])


def passes_freely(path, endless=False, existing=False):
    """Whether somewhere in a repetition without an upper end is an N or P behind which existence isn't asked for at once.

    `endless` is whether the path stands in such a repetition, `existing` whether existence is asked for behind it.
    """
    kind = path[0]
    if kind == "test":
        return any(passes_freely(condition, endless) for condition in conditions(path[1]))
    if kind == "repeat":
        return passes_freely(path[1], endless or path[3] is None)
    if kind == "seq":
        return passes_freely(path[1], endless, begins_existing(path[2])) or passes_freely(path[2], endless, existing)
    if kind == "alt":
        return passes_freely(path[1], endless, existing) or passes_freely(path[2], endless, existing)
    return kind in "NP" and endless and not existing


def horizon_hints(graph, path):
    moments = {t for o in graph.standing() for t in graph.objects[o].lives}
    if not moments or not passes_freely(path):
        return
    first, last = min(moments), max(moments)
    if (first, last) != graph.horizon:
        yield (f"no object exists before {first} or after {last}, where the path can pass time; "
               f"begin the graph with the horizon {first} {last}")


def limit_hints(counts, path, told):
    if any(rows in ("over", "unknown") for rows in told):
        return
    most = max(told)
    if most > MOST_ROWS and counts.most_of_all(path) <= most:
        yield f"some step to the answer has {most} rows; write --max-rows {most}"


def hints(graph, counts, path, told, limit):
    """The hints of a question on a graph, whose members are counted on it or on a part of it; of these rows are told."""
    yield from by_form(graph, path)
    if told[-1] == 0 and is_ruled_out(counts, path, limit):
        yield AT_ANY_MOMENT
    yield from repetition_hints(counts, path, limit)
    yield from horizon_hints(graph, path)
    yield from limit_hints(counts, path, told)
