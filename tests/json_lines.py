#!/usr/bin/env python3
"""Compares lines of JSON with plain lines. It proves nothing and builds nothing.

    tests/json_lines.py PROGRAM [--scripts N] [--from SEED] [--edits M]

Each plain script of `crates/itpg_rows/data` and `examples/` but trials is run as it stands, and twice with `--json` as lines of JSON: an
edit is its object and any other line stands in a `text` object, or all do. So are N scripts drawn by `tests/kept.py`, of M edits (100)
each. Of each run with `--json`

- Python's `json` reads each reply line, and as compact text the value is that line, so no blank stands outside texts;
- its members in the plain form are the line in the same place of the first run's output, and it has no others;
- the status is that of the first run.

A script is passed over if no lines of JSON have it: a line isn't UTF-8, or is too long with the object around it. The scripts of the
folder that are lines of JSON must write what their files say, and their replies are read in the same way.

Lines and replies are also tried by `docs/json-lines.schema.json`: a line that is read is a `line` there, one that isn't, for another
reason than that it is too long or blank or no JSON, is none, and each reply is a `reply`. Here a small reader of schemas does it,
and over the scripts of JSON lines Python's `jsonschema` too, if it is installed.

It prints what differs and `S scripts, P passed over, L reply lines, D differ`; its exit status is 1 if D is above 0."""
import argparse
import json
import pathlib
import re
import subprocess
import sys

TOP = pathlib.Path(__file__).resolve().parent.parent
DATA = TOP / "crates/itpg_rows/data"
sys.dont_write_bytecode = True
sys.path[:0] = [str(DATA), str(TOP / "tests")]
import json_model  # noqa: E402
import kept  # noqa: E402
import model  # noqa: E402

try:
    import jsonschema
except ImportError:
    jsonschema = None

SCHEMA = json.loads((TOP / "docs/json-lines.schema.json").read_text())
MOST_TRIED = 100_000  # bytes of a script whose lines are tried by the schema
TYPES = {"object": dict, "array": list, "string": str, "integer": int}


class Differs(Exception):
    """How a run differs from what it must be."""


def insist(condition, told):
    if not condition:
        raise Differs(told)


# The schema

def fits(value, schema):
    """Whether the value fits the schema, which has no other words than these."""
    if "$ref" in schema:
        return fits(value, SCHEMA["$defs"][schema["$ref"].rpartition("/")[2]])
    if "oneOf" in schema:
        return sum(fits(value, other) for other in schema["oneOf"]) == 1
    if "enum" in schema or "const" in schema:
        allowed = schema.get("enum", [schema.get("const")])
        return any(type(value) is type(other) and value == other for other in allowed)
    if type(value) is not TYPES.get(schema.get("type")):
        return False
    if isinstance(value, dict):
        return set(schema["required"]) <= set(value) <= set(schema["properties"]) and all(
            fits(part, schema["properties"][name]) for name, part in value.items())
    if isinstance(value, list):
        return schema["minItems"] <= len(value) <= schema["maxItems"] and all(fits(item, schema["items"]) for item in value)
    if isinstance(value, str):
        others = schema.get("not", {}).get("pattern")
        return (schema.get("minLength", 0) <= len(value) <= schema.get("maxLength", len(value))
                and bool(re.search(schema.get("pattern", ""), value)) and not (others and re.search(others, value)))
    return schema.get("minimum", value) <= value <= schema.get("maximum", value)


def is_one(kind, value, everywhere=False):
    """Whether the value is a `line` or a `reply` by the schema."""
    schema = {"$ref": f"#/$defs/{kind}"}
    told = fits(value, schema)
    if everywhere and jsonschema:
        other = jsonschema.Draft202012Validator({**schema, "$defs": SCHEMA["$defs"]}).is_valid(value)
        insist(told == other, f"jsonschema takes {value} as a {kind}: {other}")
    return told


def try_line(number, line, everywhere=False):
    try:
        value, read = json_model.value_of(line.removesuffix(b"\r")), None
    except (ValueError, RecursionError):
        return
    try:
        read = json_model.plain_line(line)
    except json_model.Bad as bad:
        if bad.code == "long":
            return
    insist(is_one("line", value, everywhere) == (read is not None), f"line {number} {line[:80]}: by the schema it is {'none' if read is not None else 'one'}")


def try_script(script, everywhere=False):
    if len(script) < MOST_TRIED:
        for number, line in enumerate(script.split(b"\n"), 1):
            try_line(number, line, everywhere)


# The runs

def run(program, words, script):
    ran = subprocess.run([program, *words], input=script, capture_output=True, timeout=600)
    return ran.stdout.decode().split("\n")[:-1], ran.returncode


def read_reply(number, line, everywhere=False):
    """The plain line of a reply line."""
    value = json.loads(line)
    insist(json_model.compact(value) == line, f"reply line {number}: {line} isn't {json_model.compact(value)}")
    insist(is_one("reply", value, everywhere), f"reply line {number}: {line} is no reply by the schema")
    try:
        return json_model.plain_text(value)
    except (KeyError, ValueError, AttributeError):
        raise Differs(f"reply line {number}: {line} has other members") from None


def compare(program, words, plain, script):
    """Compares a plain script with itself as lines of JSON. Gives how many reply lines there were."""
    try_script(script)
    wanted, status = run(program, words, plain)
    texts = json_model.json_script(plain, edits=False)
    return sum(compare_run(run(program, [*words, "--json"], lines), wanted, status) for lines in (script, texts) if lines is not None)


def compare_run(ran, wanted, status):
    got, code = ran
    for number, (line, other) in enumerate(zip(got, wanted), 1):
        insist(read_reply(number, line) == other, f"reply line {number}: {line}, in plain lines {other}")
    insist(len(got) == len(wanted), f"{len(got)} reply lines, in plain lines {len(wanted)}")
    insist(code == status, f"status {code}, in plain lines {status}")
    return len(got)


def read_back(program, words, path):
    """Compares what a script of JSON lines writes with its files."""
    script = model.script_of(path)
    try_script(script, everywhere=True)
    got, code = run(program, words, script)
    for number, line in enumerate(got, 1):
        read_reply(number, line, everywhere=True)
    wanted = path.with_suffix(".out").read_text().split("\n")[:-1]
    insist((got, code) == (wanted, model.number_in(path.with_suffix(".status"), 0)), "it doesn't write what its files say")
    return len(got)


def words_of(path):
    """The words of a script, with its limit of rows."""
    words = path.with_suffix(".words")
    limit = path.with_suffix(".limit")
    found = words.read_text().split("\n")[:-1] if words.exists() else []
    return [*found, *(["--max-rows", limit.read_text().strip()] if limit.exists() else [])]


def stored():
    """The scripts of the folders that aren't trials: a name, whether its lines are of JSON, and what is compared."""
    for path in sorted([*DATA.glob("*.itpg"), *DATA.glob("*.made"), *(TOP / "examples").glob("*.itpg")]):
        words = words_of(path)
        if not any(word.startswith("--trial") for word in words):
            yield path.relative_to(TOP), words, path


def drawn(options):
    """Scripts drawn at random: a name, words, lines."""
    for seed in range(options.first, options.first + options.scripts):
        limit = kept.SMALL_LIMITS[seed // 2 % len(kept.SMALL_LIMITS)] if seed % 2 else 100_000
        lines = kept.Draw(seed, sets=seed % 3 == 0).script(options.edits)
        yield f"seed {seed}", ["--max-rows", str(limit)], "".join(line + "\n" for line in lines).encode()


class Count:
    """What was tried so far."""

    def __init__(self, program):
        self.program = program
        self.scripts = self.passed_over = self.replies = self.differ = 0

    def try_plain(self, name, words, plain):
        script = json_model.json_script(plain)
        if script is None:
            self.passed_over += 1
        else:
            self.try_one(name, lambda: compare(self.program, words, plain, script))

    def try_one(self, name, replies):
        self.scripts += 1
        try:
            self.replies += replies()
        except (Differs, json.JSONDecodeError) as wrong:
            self.differ += 1
            print(f"{name}: {wrong}", flush=True)


def main():
    parser = argparse.ArgumentParser()
    parser.add_argument("program")
    parser.add_argument("--from", type=int, default=0, dest="first")
    for word, value in (("scripts", 0), ("edits", 100)):
        parser.add_argument(f"--{word}", type=int, default=value)
    options = parser.parse_args()
    count = Count(options.program)
    for name, words, path in stored():
        if any(word.startswith("--json") for word in words):
            count.try_one(name, lambda words=words, path=path: read_back(options.program, words, path))
        else:
            count.try_plain(name, words, model.script_of(path))
    for name, words, script in drawn(options):
        count.try_plain(name, words, script)
    print(f"{count.scripts} scripts, {count.passed_over} passed over, {count.replies} reply lines, {count.differ} differ")
    return 1 if count.differ else 0


if __name__ == "__main__":
    sys.exit(main())
