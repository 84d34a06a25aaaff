#!/usr/bin/env python3
"""Tries what docs/SERVICE.md says of a process that is kept open. It proves nothing and builds nothing.

    tests/service.py PROGRAM

- The page shows examples/service.py as it is, and below it what that writes with the program.
- A reply comes while the input is open, one by one, also of lines of JSON. A last line without its end is answered when the input is closed.
- Each of the seven kinds of line that are always answered has one reply, and a comment has none.
- A row may begin as a head does.
- Behind a byte order mark the first line is `bad byte`, and as a line of JSON `bad text`.
- If nobody reads any more, lines without a reply are read on, and the next reply ends the run with status 4.

It prints what differs and `N tried, M differ`, and its exit status is 1 if M is above 0."""
import pathlib
import select
import subprocess
import sys
from subprocess import PIPE

TOP = pathlib.Path(__file__).resolve().parent.parent
PAGE, EXAMPLE = TOP / "docs" / "SERVICE.md", TOP / "examples" / "service.py"
COMMAND = "    $ examples/service.py crates/itpg/out/itpg\n"
SECONDS = 30
QUIET = 0.5  # how long no reply comes where none must
WRITE_FAULT = 4


class Kept:
    """A run whose input is kept open."""

    def __init__(self, program, *words):
        self.process = subprocess.Popen([program, *words], stdin=PIPE, stdout=PIPE, stderr=PIPE, bufsize=0)

    def send(self, text):
        self.process.stdin.write(text)

    def replies(self, size):
        """The next bytes of the output: as many as are asked for, or fewer if no more come."""
        got = b""
        while len(got) < size and select.select([self.process.stdout], [], [], SECONDS)[0]:
            piece = self.process.stdout.read(size - len(got))
            if not piece:
                break
            got += piece
        return got

    def is_quiet(self):
        return not select.select([self.process.stdout], [], [], QUIET)[0]

    def end(self):
        """What comes when the input is closed, and the status."""
        self.process.stdin.close()
        rest = b"" if self.process.stdout.closed else self.process.stdout.read()
        status = self.process.wait(SECONDS)
        self.process.stdout.close()
        self.process.stderr.close()
        return rest, status


def shown():
    """The example as the page has it, and the lines below the command that runs it."""
    text = PAGE.read_text()
    code = text.partition("```python\n")[2].partition("```\n")[0]
    lines = text.partition(COMMAND)[2].split("\n\n")[0].splitlines()
    return code, "".join(line[4:] + "\n" for line in lines)


def whole(program, script, *words):
    ran = subprocess.run([program, *words], input=script, stdout=PIPE, stderr=PIPE, timeout=SECONDS)
    return ran.stdout, ran.returncode


def example(program):
    code, output = shown()
    yield "the example on the page", code, EXAMPLE.read_text()
    ran = subprocess.run([sys.executable, EXAMPLE, program], stdout=PIPE, timeout=SECONDS, text=True)
    yield "what the example writes", output, ran.stdout


def one_by_one(program):
    kept = Kept(program)
    kept.send(b"graph g 0 9\nnode a T\nlive a 0 5\n")
    yield "no reply to edits that were made", True, kept.is_quiet()
    for number in range(4, 7):
        kept.send(b"ask MATCH (x)\n")
        reply = b"line %d rows 1\na 0..5\n" % number
        yield f"the reply to question {number}", reply, kept.replies(len(reply))
    kept.send(b"ask MATCH (x:U)")
    yield "no reply to a line without its end", True, kept.is_quiet()
    yield "what comes at the end", (b"line 7 rows 0\n", 0), kept.end()


def one_by_one_of_json(program):
    kept = Kept(program, "--json")
    kept.send(b'{"op":"graph","name":"g","lo":0,"hi":9}\n{"op":"node","id":"a","labels":["T"]}\n{"op":"live","id":"a","from":0,"to":5}\n')
    yield "no reply to edits of JSON that were made", True, kept.is_quiet()
    for number in range(4, 7):
        kept.send(b'{"op":"text","line":"ask MATCH (x)"}\n')
        reply = b'{"line":%d,"rows":1}\n{"id":"a","from":0,"to":5}\n' % number
        yield f"the reply of JSON to question {number}", reply, kept.replies(len(reply))
    kept.send(b'{"op":"text","line":"# a comment"}\n\n{"op":"text","line":"ask MATCH (x:U)"}')
    yield "no reply to a comment, a blank line and one of JSON without its end", True, kept.is_quiet()
    yield "what comes of JSON at the end", (b'{"line":9,"rows":0}\n', 0), kept.end()


def always_answered(program):
    begin = b"graph g 0 9\nnode a T\nlive a 0 5\nwatch w MATCH (x)\nopen s\nfollow f MATCH (x)-/N/-(y)\n"
    lines = {"ask MATCH (x)": "rows 1", "first MATCH (x)-/N/-(y)": "rows 1", "last MATCH (x)-/N/-(y)": "rows 1", "count MATCH (x)": "counts 1",
             "in s ask MATCH (x)": "rows 1", "show w": "rows 1", "near f a": "rows 1"}
    for line, told in lines.items():
        yield line, (f"line 7 {told}", 2, 0), head_of(program, begin + line.encode() + b"\n")
        word = line.split()[0]
        yield f"{line} without a graph", ("line 1 refused nograph", 1, 1), head_of(program, line.encode() + b"\n")
        yield f"{word} alone", ("line 1 bad text", 1, 1), head_of(program, word.encode() + b"\n")
    yield "a comment", (b"", 0), whole(program, b"# ask MATCH (x)\n")


def head_of(program, script):
    """The first line of an output, how many lines it has, and the status."""
    output, status = whole(program, script)
    lines = output.decode().splitlines()
    return lines[0] if lines else "", len(lines), status


def names(program):
    script = b"graph g 0 9\nnode line T\nlive line 3 4\nwatch tick MATCH (x)\nask MATCH (x)\ntick\n"
    yield "a row of the object `line`", (b"line 5 rows 1\nline 3..4\ntick tick gained 1 lost 0\n+ line 3..4\n", 0), whole(program, script)


def byte_order_mark(program):
    script = b"\xef\xbb\xbfgraph g 0 9\nnode a T\n# a comment\nask MATCH (x)\n"
    yield "a byte order mark", (b"line 1 bad byte\nline 2 refused nograph\nline 4 refused nograph\n", 1), whole(program, script)
    script = b'\xef\xbb\xbf{"op":"graph","name":"g","lo":0,"hi":9}\n{"op":"drop","id":"a"}\n'
    yield "a byte order mark before JSON", (b'{"line":1,"bad":"text"}\n{"line":2,"refused":"nograph"}\n', 1), whole(program, script, "--json")


def nobody_reads(program):
    kept = Kept(program)
    kept.process.stdout.close()
    kept.send(b"graph g 0 9\nnode a T\n")
    yield "lines without a reply, if nobody reads", (b"", 0), kept.end()
    kept = Kept(program)
    kept.process.stdout.close()
    kept.send(b"graph g 0 9\nask MATCH (x)\n")
    yield "a reply that nobody reads", WRITE_FAULT, kept.process.wait(SECONDS)
    yield "what is said of it", b"itpg: write fault\n", kept.process.stderr.read()
    kept.end()


def main():
    if len(sys.argv) != 2:
        print(__doc__, file=sys.stderr)
        return 2
    program = str(pathlib.Path(sys.argv[1]).resolve())
    tried = differ = 0
    for part in (example, one_by_one, one_by_one_of_json, always_answered, names, byte_order_mark, nobody_reads):
        try:
            for what, wanted, got in part(program):
                tried += 1
                if got != wanted:
                    differ += 1
                    print(f"{what}: {got!r} in place of {wanted!r}")
        except (OSError, subprocess.TimeoutExpired) as fault:
            tried, differ = tried + 1, differ + 1
            print(f"{part.__name__} stops behind {tried - 1} tries: {fault}")
    print(f"{tried} tried, {differ} differ")
    return 1 if differ else 0


if __name__ == "__main__":
    sys.exit(main())
