#!/usr/bin/env python3
"""Writes devices.txt: runs over devices that fail or end early, with the status and the output of each.

It has nothing of this project's code. The replies and the pieces below were written by hand from the rules.

Rows of the table, one line each. An output is the first LENGTH bytes of the whole output of the row's script, and then TEXT and a
line end, if there is a TEXT.

    read CHUNK CALL STATUS LENGTH            life_cut.itpg from a source that gives CHUNK bytes at a call and fails at this call
    cut BYTES CHUNK STATUS LENGTH TEXT       the first BYTES bytes of life_cut.itpg, CHUNK bytes at a call; nothing fails
    write CALL TAKE STATUS LENGTH            contact_study_with_a_watch.itpg to a sink that takes TAKE bytes of this call's piece and fails
    again CALL TAKE AGAIN LENGTH             the same script line by line through a session: each line is first tried over such a sink, and
                                             if that fails, handed to the session again over a sink that doesn't; so many lines are

    run: python3 devices.py > devices.txt
"""

# Of each line of life_cut.itpg its text, its reply, and the reply to what the line is from so many first bytes on. A part of a line
# that has fewer bytes than the first number is `bad text`.
LINES = [
    ("graph g 0 100", "", [(11, "")]),  # `graph g 0 1` is a graph
    ("node a Person", "", [(8, "")]),  # `node a P` is a node
    ("node b Person", "", [(8, "")]),
    ("live a 0 9", "", [(10, "")]),
    ("live a 10 20", "", [(11, "refused backwards"), (12, "")]),  # `live a 10 2` ends before it begins
    ("ask MATCH (x:Person)", "line 6 rows 1\na 0..20\n", [(20, "")]),
    ("gone a 5 6", "", [(10, "")]),
    ("ask MATCH (x:Person)", "line 8 rows 2\na 0..4\na 7..20\n", [(20, "")]),
]
SCRIPT = "".join(text + "\n" for text, _, _ in LINES)

# The replies to contact_study_with_a_watch.itpg in the pieces in which the program writes them: the head, then the rows. A tick writes
# the rows gained and the rows lost apart, also where there are none.
REPLIES = [
    ["line 34 rows 2\n", "p1 28..35 p2 40..t+12\np4 58..60 p6 70..t+12\n"],
    ["tick w gained 2 lost 0\n", "+ p1 28..35 p2 40..t+12\n+ p4 58..60 p6 70..t+12\n", ""],
    ["tick w gained 0 lost 1\n", "", "- p1 30..31 p2 40..t+12\n"],
    ["line 40 rows 3\n", "p1 28..29 p2 40..t+12\np1 32..35 p2 40..t+12\np4 58..60 p6 70..t+12\n"],
]
PIECES = [piece for reply in REPLIES for piece in reply]
TAKES = [0, 1, 5, 1000]  # no piece has 1000 bytes


def replied(count):
    """How many bytes the replies have to the lines that end in the first bytes of the script."""
    whole = SCRIPT[:count].count("\n")
    return sum(len(reply) for _, reply, _ in LINES[:whole])


def part_of_line(count):
    """The number of the line that the first bytes of the script end in, and how many bytes they have of it."""
    whole = SCRIPT[:count].count("\n")
    return whole + 1, count - sum(len(text) + 1 for text, _, _ in LINES[:whole])


def cut(count):
    """The status over the first bytes of the script, how many bytes of the whole output are written, and what else is."""
    number, size = part_of_line(count)
    if size == 0:
        return 0, replied(count), ""
    text, reply, parts = LINES[number - 1]
    if size == len(text):
        return 0, replied(count) + len(reply), ""
    code = next((code for least, code in reversed(parts) if size >= least), "bad text")
    return int(code != ""), replied(count), f" line {number} {code}" if code else ""


def reads():
    for chunk in (1, 2, 3, 7, 64, 65_536):
        calls = -(-len(SCRIPT) // chunk) + 1  # the last gives the end
        for call in range(1, calls + 2):
            got = min((call - 1) * chunk, len(SCRIPT))
            print("read", chunk, call, 3 if call <= calls else 0, replied(got))


def cuts():
    for count in range(len(SCRIPT) + 1):
        status, length, text = cut(count)
        for chunk in (1, 65_536):
            print(f"cut {count} {chunk} {status} {length}{text}")


def writes():
    for call in range(1, len(PIECES) + 2):
        written = len("".join(PIECES[:call - 1]))
        for take in TAKES:
            piece = PIECES[call - 1] if call <= len(PIECES) else ""
            print("write", call, take, 4 if call <= len(PIECES) else 0, written + min(take, len(piece)))


def main():
    assert len(SCRIPT) == 119 and SCRIPT[:87].count("\n") == 6
    reads()
    cuts()
    writes()
    for call in (1, 2, 3):
        for take in TAKES:
            again = sum(len(reply) >= call for reply in REPLIES)
            print("again", call, take, again, len("".join(PIECES)))


if __name__ == "__main__":
    main()
