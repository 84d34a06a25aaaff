#!/usr/bin/env python3
"""Lines of JSON by their definition, each way from and to plain lines. It shares nothing with itpg.

    json_model.py < SCRIPT     writes a plain script as lines of JSON

A line that is read is given as the plain line that asks for the same, so `model.py` answers both. Python's `json` reads the texts,
with its differences from serde_json mended: constants such as NaN, numbers beyond all floats, lone surrogates, also in a
member that a later one replaces, and more than 127 brackets inside one another.
"""
import json
import math
import re
import sys

BOUND, MOST_BYTES, MOST_NAME, MOST_LABELS, MOST_DEPTH = 10**12, 65_536, 64, 8, 127
# Of each `op` the other members, in the order of the plain line.
OPS = {
    "graph": ["name", "lo", "hi"], "extend": ["lo", "hi"], "node": ["id", "labels"], "edge": ["id", "labels", "source", "target"],
    "live": ["id", "from", "to"], "gone": ["id", "from", "to"], "set": ["id", "prop", "value", "from", "to"],
    "unset": ["id", "prop", "from", "to"], "drop": ["id"], "text": ["line"],
}
NUMBERS = "lo", "hi", "from", "to"
WORD, VALUE = re.compile("[A-Za-z][A-Za-z0-9_]*"), re.compile("[ -&(-~]*")
OTHER_NUMBER = object()  # one that isn't a whole number of 64 bits with a sign


class Bad(Exception):
    """A line of JSON that is bad, with its code."""

    def __init__(self, code):
        self.code = code


# Reading

def number(text):
    if math.isinf(float(text)):
        raise ValueError("beyond all floats")
    is_whole = re.fullmatch("-?[0-9]{1,19}", text) and text != "-0" and -2**63 <= int(text) < 2**63
    return int(text) if is_whole else OTHER_NUMBER


def constant(text):
    raise ValueError(f"{text} is no JSON")


def check_texts(value):
    """`ValueError` if a text has a lone surrogate. Objects in the value were checked before."""
    for item in value if isinstance(value, list) else [value]:
        if isinstance(item, str):
            item.encode()
        elif isinstance(item, list):
            check_texts(item)


def members(pairs):
    for pair in pairs:
        check_texts(list(pair))
    return dict(pairs)


def depth(text):
    """How deep the brackets of a text of JSON stand inside one another."""
    deepest = now = 0
    for mark in re.findall(r'"(?:[^"\\]|\\.)*"|[][{}]', text):
        now += (mark in "[{") - (mark in "]}")
        deepest = max(deepest, now)
    return deepest


def value_of(line):
    """The value that serde_json reads, if it reads one."""
    text = line.decode()
    if depth(text) > MOST_DEPTH:
        raise ValueError("too deep")
    return json.loads(text, parse_int=number, parse_float=number, parse_constant=constant, object_pairs_hook=members)


def is_right(name, value):
    """Whether the value may stand under this name."""
    if name in NUMBERS:
        return type(value) is int
    if name == "labels":
        return isinstance(value, list) and 1 <= len(value) <= MOST_LABELS and all(is_right("id", label) for label in value)
    if not isinstance(value, str):
        return False
    return name == "line" or bool((VALUE if name == "value" else WORD).fullmatch(value))


def object_of(line):
    try:
        value = value_of(line)
    except (ValueError, RecursionError):
        raise Bad("text") from None
    op = value.get("op") if isinstance(value, dict) else None
    names = OPS.get(op) if isinstance(op, str) else None
    if names is None or set(value) != {"op", *names} or not all(is_right(name, value[name]) for name in names):
        raise Bad("text")
    return value


def plain_line(line):
    """The plain line that asks for what this line of JSON asks for, both without their LF. `Bad` if it is bad by its own members."""
    line = line.removesuffix(b"\r")
    if len(line) > MOST_BYTES:
        raise Bad("long")
    if not line.strip(b" \t"):
        return b""
    value = object_of(line)
    op = value["op"]
    if op == "text":
        return value["line"].encode()
    if any(abs(value[name]) > BOUND for name in OPS[op] if name in NUMBERS):
        raise Bad("number")
    texts = [text for name in OPS[op] if name not in NUMBERS for text in (value[name] if name == "labels" else [value[name]])]
    if any(len(text) > MOST_NAME for text in texts):
        raise Bad("name")
    written = {"labels": ",".join, "value": "'{}'".format}
    return " ".join([op, *(written.get(name, str)(value[name]) for name in OPS[op])]).encode()


# Writing

def compact(value):
    return json.dumps(value, ensure_ascii=False, separators=(",", ":"))


TOKEN = re.compile(rb"[ \t]*(?:([A-Za-z][A-Za-z0-9_]*)|(-?[0-9]+)|'([ -&(-~]*)'|(,))")
FORMS = {name: "i" for name in NUMBERS} | {"value": "q", "labels": "w(?:,w){0,7}"}


def moment_of(text):
    """The number of a number token, or one that is too great."""
    digits = text.lstrip("-").lstrip("0")[:20]
    return int(text[:text.count("-")] + (digits or "0"))


def edit_of(line):
    """The object of a plain line that reads as an edit, None of another."""
    line, at, kinds, found = line.removesuffix(b"\r").rstrip(b" \t"), 0, "", []
    while at < len(line) and (match := TOKEN.match(line, at)):
        kinds += "wiq,"[match.lastindex - 1]
        found.append(match[match.lastindex].decode())
        at = match.end()
    names = OPS.get(found[0]) if at == len(line) and kinds[:1] == "w" else None
    form = names and found[0] != "text" and re.fullmatch("w" + "".join(f"({FORMS.get(name, 'w')})" for name in names), kinds)
    if not form:
        return None
    value = {"op": found[0]}
    for i, name in enumerate(names, 1):
        part = found[form.start(i):form.end(i)]
        value[name] = part[::2] if name == "labels" else moment_of(part[0]) if name in NUMBERS else part[0]
    try:
        plain_line(compact(value).encode())
    except Bad:
        return None
    return value


def json_line(line, edits=True):
    """A plain line as one of JSON, both without their LF: an edit as its object, if `edits` says so, any other in a `text` object.
    None if no text of JSON has it: it isn't UTF-8, or the text is too long."""
    try:
        short = len(line.removesuffix(b"\r")) <= MOST_BYTES
        text = compact(edits and short and edit_of(line) or {"op": "text", "line": line.decode()}).encode()
    except UnicodeDecodeError:
        return None
    return text if len(text) <= MOST_BYTES or len(line.removesuffix(b"\r")) > MOST_BYTES else None


def json_script(script, edits=True):
    """A plain script as lines of JSON; None if it has a line that no text of JSON has."""
    *lines, last = script.split(b"\n")
    found = [*(json_line(line, edits) for line in lines), json_line(last, edits) if last else b""]
    return None if None in found else b"\n".join(found)


# Replies

ROW = re.compile(r"(?:([+-]) )?(\w+) (-?\d+)\.\.(-?\d+)(?: (\w+) (\S+?)\.\.(\S+))?")
COUNT = re.compile(r"(-?\d+)\.\.(-?\d+) (\d+)")
TICK = re.compile(r"tick (\w+) (?:wide|gained (\d+) lost (\d+))")
LINE = re.compile(r"line (\d+) (\w+)(?: (\w+))?")


def end_of(text):
    return {"moving": int(text[1:] or 0)} if text[0] == "t" else {"fixed": int(text)}


def end_text(end):
    (kind, at), = end.items()
    return str(at) if kind == "fixed" else f"t{at:+}" if at else "t"


def reply_of(text):
    """The object of a line of a plain reply that is no row."""
    if tick := TICK.fullmatch(text):
        counts = {"gained": int(tick[2]), "lost": int(tick[3])} if tick[2] else {"wide": True}
        return {"tick": tick[1], **counts}
    number, kind, told = LINE.fullmatch(text).groups()
    return {"line": int(number), kind: {"wide": True}.get(kind, int(told) if kind in ("rows", "counts") else told)}


def row_of(text):
    """The object of a row, or of a line of counts, of a plain reply."""
    if count := COUNT.fullmatch(text):
        return dict(zip(("from", "to", "count"), map(int, count.groups())))
    sign, name, low, high, target, *ends = ROW.fullmatch(text).groups()
    value = {"sign": sign} if sign else {}
    value |= {"id": name, "from": int(low), "to": int(high)}
    return value | ({"target": target, "low": end_of(ends[0]), "high": end_of(ends[1])} if target else {})


def rows_behind(value):
    """How many rows stand behind the head of a reply."""
    return sum(value.get(name, 0) for name in ("rows", "counts", "gained", "lost"))


def json_output(lines):
    """The lines of plain replies as lines of JSON."""
    left = 0
    for line in lines:
        value = row_of(line) if left else reply_of(line)
        left = left - 1 if left else rows_behind(value)
        yield compact(value)


def plain_text(value):
    """The line of a plain reply with the members of this object, which must be all of its members, in their order."""
    known = {
        "line refused": "line {line} refused {refused}", "line bad": "line {line} bad {bad}", "line wide": "line {line} wide",
        "line rows": "line {line} rows {rows}", "line counts": "line {line} counts {counts}", "tick wide": "tick {tick} wide",
        "tick gained lost": "tick {tick} gained {gained} lost {lost}", "from to count": "{from}..{to} {count}",
        "id from to": "{id} {from}..{to}", "id from to target low high": "{id} {from}..{to} {target} {low}..{high}",
    }
    sign = value.pop("sign") + " " if next(iter(value)) == "sign" else ""
    if value.get("wide", True) is not True:
        raise ValueError("wide is true")
    shown = {name: end_text(part) if name in ("low", "high") else part for name, part in value.items()}
    return sign + known[" ".join(value)].format(**shown)


def main():
    script = json_script(sys.stdin.buffer.read())
    if script is None:
        return "a line is no text of JSON"
    sys.stdout.buffer.write(script)
    return 0


if __name__ == "__main__":
    sys.exit(main())
