#!/usr/bin/env python3
"""Checks what docs/PROVED.md says of places in the sources. Takes no prover and under a second.

    tests/proved_lines.py           prints each difference, and ends with status 1 if there is one
    tests/proved_lines.py --mend    first corrects each line number whose word the same file still defines

The page gives a place as `WORD` crates/FILE:LINE, and that line must define the word. Each file that it names must exist, and
so must each law and each clause of `serve`.
"""
import pathlib
import re
import sys

TOP = pathlib.Path(__file__).resolve().parent.parent
PAGE = TOP / "docs" / "PROVED.md"
SERVE = TOP / "crates" / "itpg_run" / "src" / "run.rt"

PLACE = re.compile(r"`([^`\s]+)`( \(?)(crates/[\w/]+\.(?:antt|rt)):(\d+)")
BARE_PLACE = re.compile(r"[\w/.]+\.(?:antt|rt|edit|py|md):\d+")
FILE = re.compile(r"crates/[\w/]+\.(?:antt|rt|py|md)\b")
SPECS = re.compile(r"`(\w+)/specs/(\w+)`")
LAW = re.compile(r"`((?:law_of|one|some|output|members_of|scopes_of)_\w+)`")
CLAUSES = re.compile(r"clauses of `serve`: (`[^.]*`)\.")


def defining_lines(path, word):
    """The numbers of the lines of a file on which the word is defined."""
    name = re.escape(word)
    if path.suffix == ".rt":
        pattern = rf"\b(?:fn|struct|enum|trait|const|ensures|ghost) {name}\b"
    else:
        pattern = rf"^\s*(?:(?:unfoldable|abbrev) )?pub (?:(?:record|data) {name}\b|{name} :)"
    lines = path.read_text(encoding="utf-8").splitlines()
    return [number for number, line in enumerate(lines, 1) if re.search(pattern, line)]


def mended(place):
    """A place with the nearest line that defines its word, if there is one."""
    word, between, file, line = place.groups()
    path = TOP / file
    found = defining_lines(path, word) if path.is_file() else []
    if not found:
        return place.group()
    nearest = min(found, key=lambda number: abs(number - int(line)))
    return f"`{word}`{between}{file}:{nearest}"


def wrong_places(text):
    """What is wrong with the places of the page."""
    for place in PLACE.finditer(text):
        word, _, file, line = place.groups()
        path = TOP / file
        if not path.is_file():
            continue
        found = defining_lines(path, word)
        if int(line) not in found:
            now = f"now {', '.join(map(str, found))}" if found else "nowhere in this file"
            yield f"{file}:{line} doesn't define {word}: {now}"
    bare = len(BARE_PLACE.findall(text)) - len(PLACE.findall(text))
    if bare:
        yield f"{bare} places have no word in backticks before them"


def wrong_names(text):
    """What the page names and the sources don't have."""
    files = set(FILE.findall(text)) | {f"crates/{crate}/specs/{name}.antt" for crate, name in SPECS.findall(text)}
    for file in sorted(files):
        if not (TOP / file).is_file():
            yield f"{file} isn't there"
    sources = "\n".join(path.read_text(encoding="utf-8") for path in TOP.glob("crates/*/src/*.rt"))
    for law in sorted(set(LAW.findall(text))):
        if not re.search(rf"\bpub fn {law}\b", sources):
            yield f"no crate has the law {law}"
    serve = SERVE.read_text(encoding="utf-8").partition("pub fn serve")[2].partition("\n{\n")[0]
    has = set(re.findall(r"ensures (\w+)", serve))
    listed = CLAUSES.search(text)
    says = set(re.findall(r"`(\w+)`", listed.group(1))) if listed else set()
    for clause in sorted(has ^ says):
        yield f"the clause {clause} of serve stands {'in run.rt' if clause in has else 'on the page'} alone"


def main():
    text = PAGE.read_text(encoding="utf-8")
    if "--mend" in sys.argv[1:]:
        text = PLACE.sub(mended, text)
        PAGE.write_text(text, encoding="utf-8")
    wrong = [*wrong_places(text), *wrong_names(text)]
    for line in wrong:
        print(line)
    print(f"{len(PLACE.findall(text))} places, {len(wrong)} wrong")
    return 1 if wrong else 0


if __name__ == "__main__":
    sys.exit(main())
