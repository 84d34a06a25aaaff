#!/usr/bin/env python3
"""Runs what the pages show and compares it, line by line, with what the built program writes.

    tests/docs.py [PROGRAM [EXPLAIN]]     they are crates/itpg/out/itpg and crates/itpg_explain/out/itpg_explain unless they are given

It proves nothing and builds nothing. It prints what differs and `N shown, M differ`, and its exit status is 1 if M is above 0.

Compared are each `examples/NAME.itpg` and `NAME.jsonl` with its `NAME.out`, and what README.md, examples/*.md and docs/*.md show by these conventions:

- A block whose line begins with `$ ./itpg` shows a command. The lines up to the next `$` are its whole output. A line `..` stands
  for any number of lines that the page leaves out. What stands behind a `|` gets the output, if it is installed.
- A script of lines of JSON is a file .jsonl, or a block whose lines have a member `op` first. It is run with `--json`.
- The page's script is the last file .itpg or .jsonl that it named outside a table, by a path from the top or from the page's folder. A command
  without a script has none, and its words are those of the page's script from then on.
- A block that begins with a reply (`line 12 rows 3`, `tick w wide`) is a part of that script's output. If the paragraph directly
  above it ends with a line `ask ..`, `near ..` and so on as code, or the block directly above it is one, that is line 12 of the
  script. Such a question has its replies directly below it.
- A block of script lines is taken from that script, in its order, perhaps with lines left out. Otherwise it is a script of its own:
  its whole output is the next block, and a `--max-rows N` named as code under the same heading is its words.
- A row of a table, or a sentence, may give replies as code, parted by commas: `tick w gained 1 lost 0`, `+ a 0..20`. They stand
  one after the other in the output. A cell of one script line beside them is a line of the script; by number if the reply has one.
- A table of codes has the code first (`bad text`; empty for that of the row above) and a cell `23: `, a line as code: line 23 of
  the page's script is that line, and its reply is that code. If words follow the code, the line begins with it. A cell that ends in
  a file .itpg beside that script says that some reply of that file is the code.

- A block whose first line is one of itpg-explain's (`hint ..`, `member 2 ..`) has lines, one after another, of what it writes of some
  script of the page, without blanks at their heads and with `M ms` for milliseconds.

Anything else, such as `line N wide` with N for a number, is not compared.
"""
import difflib
import pathlib
import re
import shlex
import shutil
import subprocess
import sys

TOP = pathlib.Path(__file__).resolve().parent.parent
ASKS = "ask", "first", "last", "count", "in", "near"
EDITS = "graph", "extend", "node", "edge", "live", "gone", "set", "unset", "drop"
COMMANDS = {*EDITS, *ASKS, "watch", "show", "unwatch", "tick", "open", "close", "follow", "unfollow"}
REPLY = re.compile(r"(line \d+ (rows \d+|counts \d+|wide|bad \w+|refused \w+)|tick (?!NAME\b)\w+ (gained \d+ lost \d+|wide)|ask \d (rows|wide)\b.*"
                   r'|\{"(line":\d|tick":"(?!NAME")).*)$')
OBJECT = '{"op":'  # how a line of JSON begins
EXPLAINED = re.compile(r"(explain \d+|path|member \d+|wide member \d+|means|hint) \S")
CODE = re.compile(r"(bad|refused) [a-z]+$")
CODES_IN_A_ROW = re.compile(r"`[^`]+`(?:, `[^`]+`)*")
SPAN = re.compile(r"`([^`]+)`")
LEFT_OUT = ".."
SECONDS = 600


class Program:
    """The built program. Each script is run once with the same words."""

    def __init__(self, path):
        self.path = str(path)
        self.known = {}

    def output(self, words, script):
        key = tuple(words), script
        if key not in self.known:
            ran = subprocess.run([self.path, *words], input=script, stdout=subprocess.PIPE, stderr=subprocess.PIPE, timeout=SECONDS)
            self.known[key] = ran.stdout.decode("ascii", "replace").splitlines()
        return self.known[key]

    def explained(self, words, script):
        """What itpg-explain writes, without blanks at the heads of lines and with `M ms` for milliseconds."""
        return [re.sub(r"\d+\.\d{3} ms", "M ms", line.lstrip()) for line in self.output(words, script)]


class Report:
    def __init__(self):
        self.shown = self.differ = 0

    def compare(self, where, shown, written, part=False):
        """Counts the shown lines as one thing, and prints how they differ from the lines that were written."""
        self.shown += 1
        if fits([LEFT_OUT, *shown, LEFT_OUT] if part else shown, written):
            return
        self.differ += 1
        print(f"{where} differs (- the page, + the program)")
        for line in difflib.unified_diff(shown, near(shown, written) if part else written, lineterm="", n=1):
            if not line.startswith(("---", "+++", "@@")):
                print(f"  {line[:200]}")

    def fail(self, where, why):
        self.shown += 1
        self.differ += 1
        print(f"{where} {why}")


def fits(shown, written):
    """Whether the written lines are the shown ones, with any lines in the place of each `..`."""
    pieces, piece = [], []
    for line in [*shown, LEFT_OUT]:
        if line == LEFT_OUT:
            pieces.append(piece)
            piece = []
        else:
            piece.append(line)
    if len(pieces) == 1:
        return pieces[0] == written
    first, *middle, last = pieces
    at, end = len(first), len(written) - len(last)
    if at > end or written[:at] != first or written[end:] != last:
        return False
    for piece in middle:
        while at + len(piece) <= end and written[at:at + len(piece)] != piece:
            at += 1
        if at + len(piece) > end:
            return False
        at += len(piece)
    return True


def piped(words, lines):
    """What a command makes of these lines; without words, the lines."""
    if not words:
        return lines
    return subprocess.run(words, input="".join(f"{line}\n" for line in lines), stdout=subprocess.PIPE, text=True, timeout=SECONDS).stdout.splitlines()


def near(shown, written):
    """The part of the output that a page means: it begins as the first shown line does."""
    head = " ".join(shown[0].split()[:2])
    for at, line in enumerate(written):
        if " ".join(line.split()[:2]) == head:
            return written[at:at + len(shown)]
    return []


def is_taken_from(lines, script):
    """Whether the lines stand in the script in this order, perhaps with others between them."""
    rest = iter(script)
    return all(any(line == other for other in rest) for line in lines)


def words_of(path):
    """The words that a script is run with by itself."""
    return ["--json"] if path.suffix == ".jsonl" else []


def is_script(lines):
    return all(line.startswith(OBJECT) for line in lines) or all(line.startswith("#") or line.split(" ")[0] in COMMANDS for line in lines)


def cells_of(row):
    """The cells of a table's row. A `|` in code parts no cells."""
    hidden = SPAN.sub(lambda span: span[0].replace("|", "\0"), row.strip().strip("|"))
    return [cell.strip().replace("\0", "|") for cell in hidden.split("|")]


def pieces_of(text):
    """The page as headings, blocks, tables and paragraphs: (number of the first line, kind, lines)."""
    kind, first, held, fenced = None, 0, [], False
    for number, line in enumerate([*text.splitlines(), ""], 1):
        if line.startswith("```"):
            now, line = "fence", ""
            fenced = not fenced
        elif fenced:
            now = "block"
        elif not line.strip():
            now = "blank"
        elif line.startswith("#"):
            now = "heading"
        elif line.startswith("    ") and kind != "text":
            now, line = "block", line[4:]
        elif line.startswith("|"):
            now = "table"
        else:
            now = "text"
        if now != kind or now == "heading":
            if held and kind in ("heading", "block", "table", "text"):
                yield first, kind, held
            kind, first, held = now, number, []
        held.append(line.rstrip())


class Page:
    def __init__(self, path, program, explain, report):
        self.path, self.program, self.explain, self.report = path, program, explain, report
        self.explained = []     # blocks of what itpg-explain writes
        self.run = []           # the scripts that were run, each with its words
        self.script = None      # the path of the page's script
        self.words = []         # the words that it is run with
        self.asked = None       # the question directly above
        self.above = None       # the kind of the piece directly above: a question in a block, a question as code, other lines
        self.limit = []         # the words that a script of the page's own is run with
        self.own = None         # where a script of the page's own stands, its words and its lines

    def read(self):
        for number, kind, lines in pieces_of(self.path.read_text()):
            where = f"{self.path.relative_to(TOP)}:{number}"
            replies = kind == "block" and bool(REPLY.match(lines[0]))
            if self.above == "ask block" and not replies or self.above == "ask" and kind == "block" and not replies:
                self.report.fail(where, "is no reply to the question above it")
            elif self.above == "lines" and replies:
                self.report.fail(where, "shows replies directly below lines that are no script")
            self.above = None
            if kind == "heading":
                self.end_own()
                self.limit = []
            elif kind == "text":
                self.read_text(where, " ".join(line.strip() for line in lines))
            elif kind == "table":
                self.read_table(number, lines)
            elif lines[0].startswith("$ "):
                self.read_commands(where, lines)
            elif replies:
                self.read_replies(where, lines)
            elif kind == "block" and EXPLAINED.match(lines[0]):
                self.explained.append((where, lines))
            else:
                self.read_block(where, lines)
        self.end_own()
        self.compare_explained()

    # What the page's script is

    def name(self, text):
        for found in re.findall(r"[\w./-]+\.(?:itpg|jsonl)\b", text):
            for folder in (TOP, self.path.parent):
                if (folder / found).is_file() and (folder / found) != self.script:
                    self.script, self.words = folder / found, words_of(folder / found)

    def script_lines(self):
        return [line.rstrip("\r") for line in self.script.read_bytes().decode("ascii", "replace").split("\n")]

    def output(self):
        return self.output_of(self.words, self.script.read_bytes())

    def output_of(self, words, script):
        if (words, script) not in self.run:
            self.run.append((words, script))
        return self.program.output(words, script)

    def compare_explained(self):
        """Compares each block of explained lines with what is written of the script of which it has most lines."""
        for where, shown in self.explained:
            written = [self.explain.explained(words, script) for words, script in self.run]
            self.report.compare(where, shown, max(written, key=lambda lines: len({*lines} & {*shown}), default=[]), part=True)

    # The pieces of a page

    def read_text(self, where, text):
        self.name(text)
        spans = SPAN.findall(text)
        self.asked = spans[-1] if text.endswith("`") and spans and spans[-1].split(" ")[0] in ASKS else None
        self.above = "ask" if self.asked else None
        for span in spans:
            if re.match(r"--max-rows[ =]\d+$", span):
                self.limit = re.split("[ =]", span)
        for group in CODES_IN_A_ROW.findall(text):
            replies = SPAN.findall(group)
            if REPLY.match(replies[0]) and self.script:
                self.report.compare(where, replies, self.output(), part=True)

    def read_commands(self, where, lines):
        commands = []
        for line in lines:
            if line.startswith("$ "):
                commands.append((line[2:], []))
            else:
                commands[-1][1].append(line)
        for command, shown in commands:
            words, _, file = command.partition("<")
            file, *pipe = file.split("|", 1)
            words, pipe = shlex.split(words), shlex.split("".join(pipe))
            if words[0] != "./itpg" or pipe and not shutil.which(pipe[0]):
                continue
            script = b""
            if file.strip():
                self.script, self.words = TOP / file.strip(), words[1:]
                if not self.script.is_file():
                    self.report.fail(where, f"names {file.strip()}, which is no file")
                    self.script = None
                    continue
                script = self.script.read_bytes()
            if shown:
                self.report.compare(f"{where} $ {command}", shown, piped(pipe, self.program.output(words[1:], script)))

    def read_block(self, where, lines):
        self.end_own()
        self.name("\n".join(lines))
        if not is_script(lines):
            self.above = "lines"
            return
        self.asked = lines[0] if len(lines) == 1 and lines[0].split(" ")[0] in ASKS else None
        self.above = "ask block" if self.asked else None
        if self.script and is_taken_from(lines, self.script_lines()):
            self.report.shown += 1
        else:
            self.own = where, [*self.limit, *["--json"] * lines[0].startswith(OBJECT)], lines

    def read_replies(self, where, lines):
        if self.own:
            _, words, script = self.own
            self.own = None
            self.report.compare(where, lines, self.output_of(words, "".join(f"{line}\n" for line in script).encode()))
        elif not self.script:
            self.report.fail(where, "shows replies, and names no script above them")
        else:
            self.report.compare(where, lines, self.output(), part=True)
            if self.asked:
                self.compare_line(where, int(lines[0].split()[1]), self.asked)
        self.asked = None

    def end_own(self):
        """A script of the page's own that no output follows."""
        if self.own:
            named = f"isn't taken from {self.script.relative_to(TOP)} and " if self.script else ""
            self.report.fail(self.own[0], f"{named}shows a script without its output")
        self.own = None

    def compare_line(self, where, number, line, begins=False):
        script = self.script_lines()
        there = script[number - 1] if number <= len(script) else ""
        self.report.compare(f"{where} line {number}", [line], [there[:len(line)] if begins else there])

    def read_table(self, number, rows):
        code = None
        for place, row in enumerate(rows):
            where = f"{self.path.relative_to(TOP)}:{number + place}"
            cells = cells_of(row)
            spans = SPAN.findall(cells[0])
            if spans:
                code = spans[0] if len(spans) == 1 and CODE.match(spans[0]) else None
            if not self.script:
                continue
            for cell in cells:
                numbered = re.match(r"(\d+): `([^`]+)`(.*)$", cell)
                beside = re.search(r"`(\w+\.itpg)`$", cell)
                if code and numbered:
                    self.report.compare(where, [f"line {numbered[1]} {code}"], self.output(), part=True)
                    self.compare_line(where, int(numbered[1]), numbered[2], begins=bool(numbered[3]))
                elif code and beside and (self.script.parent / beside[1]).is_file():
                    written = self.program.output([], (self.script.parent / beside[1]).read_bytes())
                    self.report.compare(where, [code], [line.split(" ", 2)[2] for line in written if line.startswith("line ")], part=True)
                elif CODES_IN_A_ROW.fullmatch(cell) and REPLY.match(SPAN.findall(cell)[0]):
                    self.read_row(where, cells, SPAN.findall(cell))

    def read_row(self, where, cells, replies):
        self.report.compare(where, replies, self.output(), part=True)
        for cell in cells:
            line = re.match(r"`([^`]+)`$", cell)
            if line and is_script([line[1]]) and not REPLY.match(line[1]):
                if replies[0].startswith("line "):
                    self.compare_line(where, int(replies[0].split()[1]), line[1])
                else:
                    self.report.compare(where, [line[1]], self.script_lines(), part=True)


def examples(program, report):
    for script in sorted([*(TOP / "examples").glob("*.itpg"), *(TOP / "examples").glob("*.jsonl")]):
        out = script.with_suffix(".out")
        where = str(script.relative_to(TOP))
        if out.is_file():
            report.compare(where, out.read_text().splitlines(), program.output(words_of(script), script.read_bytes()))
        else:
            report.fail(where, f"has no {out.name} beside it")


def main():
    built = [TOP / "crates/itpg/out/itpg", TOP / "crates/itpg_explain/out/itpg_explain"]
    paths = [pathlib.Path(path).resolve() for path in [*sys.argv[1:], *built[len(sys.argv) - 1:]]]
    missing = [path for path in paths if not path.is_file()]
    if len(paths) > 2 or missing:
        print(f"{missing[0]} is no file: build it first, or name the program" if len(paths) == 2 else __doc__, file=sys.stderr)
        return 2
    program, explain = map(Program, paths)
    report = Report()
    examples(program, report)
    for page in [TOP / "README.md", *sorted((TOP / "examples").glob("*.md")), *sorted((TOP / "docs").glob("*.md"))]:
        Page(page, program, explain, report).read()
    print(f"{report.shown} shown, {report.differ} differ")
    return 1 if report.differ else 0


if __name__ == "__main__":
    sys.exit(main())
