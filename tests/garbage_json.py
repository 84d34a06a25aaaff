"""Draws lines of JSON for `tests/garbage.py --json`."""
import re

import json_model

LINES = 200  # of a script
# What may stand under a member, as texts of JSON; most often what stands there in a good line.
NAMES = [f'"{name}"' for name in ["a", "b", "c", "d", "k", "m", "p", "q", "\\u0061", "n" * 64, "n" * 65]]
MOMENTS = [*"01234567", "-1", "8", "1000000000000", "1000000000001"]
LABELS = ['["P"]', '["meets"]', '["P","R","P"]', f"[{','.join(['7'] * 8)}]", *("[" + ",".join(['"P"'] * count) + "]" for count in (8, 9))]
MEMBERS = {
    "name": NAMES, "id": NAMES, "source": NAMES, "target": NAMES, "prop": NAMES, "labels": LABELS, "value": ['"v"', '""', '"a \\" b"', *NAMES],
    "line": [f'"{line}"' for line in ("tick", "ask MATCH (x)", "# \\u00e9", "show w\\r", "live a 0.5", "ask MATCH (x:P)-/NEXT/-(y)")],
    **dict.fromkeys(json_model.NUMBERS, MOMENTS),
}
ANY = [
    "null", "true", "{}", "[]", "[[]]", "1.0", "1e1", "-0", "01", "+1", "1e999", "-1e999", "1e-999", "NaN", "-Infinity", "1000000000001", "-1000000000001",
    "9223372036854775807", "9223372036854775808", "-9223372036854775808", "-9223372036854775809", "9" * 30, "9" * 400, '"a b"', '"1a"', '"it\'s"', '"é"',
    '"\\ud800"', '"\\ud83d\\ude00"', '"\\udc00a"', '"\\n"', '"\\x"', '"\\u00"', '"\t"', '"\x00"', '"\x7f"', f'"{"n" * 65}"', '"', "'a'",
    "[" * 126 + "]" * 126, "[" * 127 + "]" * 127, '{"a":' * 125 + "0" + "}" * 125,
]
TOKEN = re.compile(r'"(?:[^"\\]|\\.)*"|[0-9.eE+-]+|\w+|.', re.DOTALL)


def some_object(random):
    """An object, most often with the members that its `op` wants."""
    op = random.choice([*json_model.OPS, *json_model.OPS, "ask", "Live"])
    pairs = [("op", f'"{op}"')]
    for name in json_model.OPS.get(op, ["id"]):
        values = MEMBERS[name] if random.random() < 0.93 else [*ANY, *random.choice([*MEMBERS.values()])]
        pairs.append((name, random.choice(values)))
    if random.random() < 0.2:
        pairs.append((random.choice([*MEMBERS, "why", "op"]), random.choice([*ANY, *NAMES])))
    if random.random() < 0.15:
        pairs.append(random.choice(pairs))
    if random.random() < 0.3:
        random.shuffle(pairs)
    if random.random() < 0.08:
        del pairs[random.randrange(len(pairs))]
    blank = random.choice(["", "", "", " ", "\t", "\r"])
    inner = f"{blank},{blank}".join(f'"{name}"{blank}:{value}' for name, value in pairs)
    return f"{blank}{{{inner}}}{blank}".encode()


def bent(hostile, good):
    """A good line as one of JSON, most often with a few tokens of JSON changed."""
    random = hostile.random
    line = random.choice(good).encode() if random.random() < 0.5 else hostile.bent()
    text = (json_model.json_line(line) or b"{}").decode()
    others = [*ANY, *NAMES, *MOMENTS, *'{}[]:,"', *(f'"{name}"' for name in MEMBERS)]
    return "".join(hostile.bend(TOKEN.findall(text), lambda: random.choice(others), [0, 0, 1, 1, 2, 3])).encode().replace(b"\n", b" ")


def lines(hostile, graph, good):
    """A script: lines of JSON behind a small graph."""
    random = hostile.random
    kinds = [hostile.noise, *[lambda: some_object(random)] * 2, *[lambda: bent(hostile, good)] * 2]
    drawn = (random.choice(kinds)() + random.choice([b"\n", b"\n", b"\r\n"]) for _ in range(LINES))
    return json_model.json_script(graph) + b"".join(drawn)
