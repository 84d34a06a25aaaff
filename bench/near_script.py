#!/usr/bin/env python3
"""Writes a ring of nodes, and questions from single nodes with edits between them.

    bench/near_script.py NODES NEARS STAGES script|output

writes the script, or what it must write. An edge leads from each node to the next, and adjoining edges share five moments, but for every
hundredth. What is near a node is nine objects: five nodes and the edges between them. NEARS nodes, as far from one another as they can be,
are asked for. Behind the graph come the first so many of these stages:

1. a `near` from each of the nodes
2. an edit in the middle between each two of them, which is near none
3. a `near` from each again
4. for each node an edit of the edge that leaves it, and a `near`

NODES must be at least ten times NEARS, and a multiple of it. Every line is accepted.
"""
import sys

LAST, APART, LONG = 999, 10, 15  # the greatest moment; how far edges that adjoin begin from one another; how many moments an edge has
FOLLOW = "follow f MATCH (x)-/(FWD/:meets/FWD)[1,2]/-(y)"


def span(edge):
    start = edge % 100 * APART
    return start, min(start + LONG - 1, LAST)


def edits(nodes):
    yield f"graph g 0 {LAST}"
    for i in range(nodes):
        yield f"node n{i} Person"
    for i in range(nodes):
        yield f"live n{i} 0 {LAST}"
    for i in range(nodes):
        yield f"edge e{i} meets n{i} n{(i + 1) % nodes}"
    for i in range(nodes):
        first, last = span(i)
        yield f"live e{i} {first} {last}"
    yield FOLLOW


def rows(node, nodes, cut):
    """The rows from a node, of whose edge the first moment is cut off or not: over one edge, and over two at once."""
    first, last = span(node)
    following = span((node + 1) % nodes)
    found = [((node + 1) % nodes, first + cut, last), ((node + 2) % nodes, max(first + cut, following[0]), min(last, following[1]))]
    return [f"n{node} {low}..{high} n{target} t..t" for target, low, high in sorted(found) if low <= high]


def lines(nodes, nears, stages):
    """The lines, each with the rows that it must write, or None if it writes nothing."""
    yield from ((line, None) for line in edits(nodes))
    asked = range(0, nodes, nodes // nears)
    if stages >= 1:
        yield from ((f"near f n{node}", rows(node, nodes, 0)) for node in asked)
    if stages >= 2:
        yield from ((f"set n{node + nodes // nears // 2} risk 'high' 0 {LAST}", None) for node in asked)
    if stages >= 3:
        yield from ((f"near f n{node}", rows(node, nodes, 0)) for node in asked)
    if stages >= 4:
        for node in asked:
            first, _ = span(node)
            yield f"gone e{node} {first} {first}", None
            yield f"near f n{node}", rows(node, nodes, 1)


def main():
    nodes, nears, stages = map(int, sys.argv[1:4])
    for number, (line, told) in enumerate(lines(nodes, nears, stages), 1):
        if sys.argv[4] == "script":
            print(line)
        elif told is not None:
            print(f"line {number} rows {len(told)}", *told, sep="\n")


if __name__ == "__main__":
    main()
