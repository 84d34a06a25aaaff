#!/usr/bin/env python3
"""Writes the script that ingest is measured over: so many nodes, as many edges, their lives and values, and a question.

    bench/ingest_script.py NODES [--json] > SCRIPT

Every line is accepted. `crates/itpg_bench` makes the same script. With --json it is lines of JSON.
"""
import pathlib
import sys

sys.dont_write_bytecode = True
sys.path.insert(0, str(pathlib.Path(__file__).resolve().parent.parent / "crates/itpg_rows/data"))
import json_model  # noqa: E402

LAST = 999_999


def lines(nodes):
    yield f"graph g 0 {LAST}"
    for i in range(nodes):
        yield f"node n{i} {'Person' if i % 4 else 'Room'}"
    for i in range(nodes):
        yield f"live n{i} 0 {LAST}"
    for i in range(nodes):
        yield f"edge e{i} meets n{i} n{i * 7919 % nodes}"
    for i in range(nodes):
        start = i % 9000 * 100
        yield f"live e{i} {start} {start + 99}"
        yield f"live e{i} {start + 100} {start + 199}"
        yield f"gone e{i} {start + 99} {start + 100}"
        yield f"set n{i} risk 'high' {start} {start + 199}"
        yield f"set n{i} risk 'low' {start + 100} {start + 199}"
        yield f"unset n{i} risk {start} {start}"
    for i in range(0, nodes, 10):
        yield f"drop e{i}"
    yield "ask MATCH (x:Room)"


def script(nodes):
    return "".join(line + "\n" for line in lines(nodes)).encode()


def output(nodes):
    """What the script must write: a row for each room."""
    count = 1 + 9 * nodes + len(range(0, nodes, 10)) + 1
    rooms = range(0, nodes, 4)
    rows = "".join(f"n{i} 0..{LAST}\n" for i in rooms)
    return f"line {count} rows {len(rooms)}\n{rows}".encode()


def json_output(nodes):
    """The same as lines of JSON."""
    return "".join(line + "\n" for line in json_model.json_output(output(nodes).decode().splitlines())).encode()


if __name__ == "__main__":
    written = script(int(sys.argv[1]))
    sys.stdout.buffer.write(json_model.json_script(written) if "--json" in sys.argv else written)
