#!/usr/bin/env python3
"""Compares what is explained with what is replied, over whole programs. It proves nothing and builds nothing.

    tests/explained.py PROGRAM EXPLAIN [NAME ..]

Each script of `crates/itpg_rows/data` but trials and those of JSON, or each that is named, is run by itpg and by itpg-explain with its
words. The heads of all replies must be the same, in the same order, and the exit statuses. A question of which a wide member is named has
no answer, and its hints stand behind its head.

It prints what differs and `S scripts, D differ`; its exit status is 1 if D is above 0."""
import pathlib
import re
import subprocess
import sys

TOP = pathlib.Path(__file__).resolve().parent.parent
DATA = TOP / "crates/itpg_rows/data"
sys.dont_write_bytecode = True
sys.path[:0] = [str(DATA)]
import model  # noqa: E402

HEAD = re.compile(rb"line \d+ (rows|counts|wide|bad|refused)\b")
ANSWERED = re.compile(rb"line \d+ (rows|counts) ")


def words_of(path):
    """The words that a script is run with; None for a trial and for lines of JSON."""
    limit, words = path.with_suffix(".limit"), path.with_suffix(".words")
    if limit.exists():
        return [f"--max-rows={int(limit.read_text())}"]
    found = words.read_text().splitlines() if words.exists() else []
    return None if any(word.startswith(("--trial", "--json")) for word in found) else found


def run(program, words, script):
    ran = subprocess.run([program, *words], input=script, stdout=subprocess.PIPE, stderr=subprocess.DEVNULL)
    return ran.stdout.split(b"\n"), ran.returncode


def fault_of(replies, status, explained, own_status):
    """What differs, if something does."""
    heads = [line for line in replies if HEAD.match(line)]
    if heads != [line for line in explained if HEAD.match(line)]:
        return "the heads differ"
    if status != own_status:
        return f"status {own_status} in place of {status}"
    wide = False
    for line in explained:
        if line.startswith(b"explain "):
            wide, head = False, None
        elif line.startswith(b"wide member "):
            wide = True
        elif HEAD.match(line):
            head = line
            if wide and ANSWERED.match(line):
                return f"{line.decode()} isn't wide, and a member is"
        elif line.startswith(b"hint ") and head is None:
            return "a hint stands before a head"
    return None


def main():
    if len(sys.argv) < 3:
        print(__doc__, file=sys.stderr)
        return 2
    program, explain, *names = sys.argv[1:]
    scripts = differing = 0
    for path in sorted([*DATA.glob("*.itpg"), *DATA.glob("*.made")]):
        words = words_of(path)
        if words is None or names and path.stem not in names:
            continue
        scripts += 1
        script = model.script_of(path)
        fault = fault_of(*run(program, words, script), *run(explain, words, script))
        if fault:
            differing += 1
            print(f"{path.stem}: {fault}")
    print(f"{scripts} scripts, {differing} differ")
    return 1 if differing else 0


if __name__ == "__main__":
    sys.exit(main())
