#!/usr/bin/env python3
"""Writes the graph of `ingest_script.py`, some pins of it, and edits after them.

    bench/pins_script.py NODES PINS ROUNDS script|output

writes the script, or what it must write. Behind the edits of that graph come PINS lines `open`, one after the other, and then ROUNDS
edits of each node. At the end the rooms of which the last edit speaks are asked for: on each pin's graph, where there are none, and on
the graph as it stands. Every line is accepted.
"""
import itertools
import sys

sys.dont_write_bytecode = True
from ingest_script import LAST, lines as graph_lines  # noqa: E402

PLACE = "MATCH (x:Room {place = 'r%d'})"


def edits(nodes, rounds):
    """Each node is given a value at the last moment, and another one in the next round."""
    return (f"set n{i} place 'r{number}' {LAST} {LAST}" for number in range(1, rounds + 1) for i in range(nodes))


def lines(nodes, pins, rounds):
    *graph, _ = graph_lines(nodes)
    place = PLACE % max(rounds, 1)
    return itertools.chain(
        graph, (f"open p{i}" for i in range(pins)), edits(nodes, rounds), (f"in p{i} ask {place}" for i in range(pins)), [f"ask {place}"])


def output(nodes, pins, rounds):
    before = sum(1 for _ in graph_lines(nodes)) - 1 + pins + nodes * rounds
    yield from (f"line {before + 1 + i} rows 0" for i in range(pins))
    rooms = range(0, nodes, 4) if rounds else []
    yield f"line {before + 1 + pins} rows {len(rooms)}"
    yield from (f"n{i} {LAST}..{LAST}" for i in rooms)


def main():
    written = {"script": lines, "output": output}[sys.argv[4]]
    sys.stdout.writelines(line + "\n" for line in written(*map(int, sys.argv[1:4])))


if __name__ == "__main__":
    main()
