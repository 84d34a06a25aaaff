"""Script lines, and what each asks for or its first fault.

Writes script_lines.txt. A case is the pieces of its line, then `is READING`. A piece is `text COUNT TEXT`, the text
written COUNT times, or `byte COUNT NUMBER`, this byte COUNT times.

    blank                          begin NAME LO HI                   ask FROM TO, and so first, last, count
    fault CODE                     node ID LABELS                     watch NAME FROM TO
    show NAME                      edge ID LABELS SOURCE TARGET       put ID PROP 'VALUE' FROM TO
    unwatch NAME                   live ID FROM TO                    clear ID PROP FROM TO
    tick                           gone ID FROM TO                    remove ID
    extend LO HI                   open NAME                          in NAME FROM TO
    unfollow NAME                  close NAME                         follow NAME FROM TO
    near NAME ID

The labels stand by rising name, each once, with commas between them. The two numbers of a query text are its first byte's place in the line and the place behind its last.

Each case of `by_hand` stands beside its reading, worked out from the rules; the reader below is by regular expressions,
and has to agree. The last cases are made up, and have their readings from it alone.
"""
import random
import re

TOKEN = re.compile(
    rb"(?P<w>[A-Za-z][A-Za-z0-9_]*)|(?P<i>-?[0-9]+)|'(?P<q>[\x20-\x26\x28-\x7e]*)'"
    rb"|(?P<m>-/|/-|>=|[(){}\[\]:,+*/?=<_])"
)
OPEN_QUOTE = re.compile(rb"'[\x20-\x26\x28-\x7e]*\Z")
FORMS = {
    b"graph": ("wii", "begin {} {} {}"),
    b"extend": ("ii", "extend {} {}"),
    b"node": ("wL", "node {} {}"),
    b"edge": ("wLww", "edge {} {} {} {}"),
    b"live": ("wii", "live {} {} {}"),
    b"gone": ("wii", "gone {} {} {}"),
    b"set": ("wwqii", "put {} {} '{}' {} {}"),
    b"unset": ("wwii", "clear {} {} {} {}"),
    b"drop": ("w", "remove {}"),
    b"show": ("w", "show {}"),
    b"unwatch": ("w", "unwatch {}"),
    b"tick": ("", "tick"),
    b"open": ("w", "open {}"),
    b"close": ("w", "close {}"),
    b"near": ("ww", "near {} {}"),
    b"unfollow": ("w", "unfollow {}"),
}


LABELS = "(w(?:,w){0,7})"


def value_of(number):
    digits = int(number.lstrip(b"-").lstrip(b"0") or b"0")
    return -digits if number.startswith(b"-") else digits


def reading_of(line):
    if line.endswith(b"\r"):
        line = line[:-1]
    if len(line) > 65536:
        return "fault long"
    if re.fullmatch(rb"[ \t]*(#.*)?", line, re.DOTALL):
        return "blank"
    tokens, at, fault = [], 0, None
    while True:
        at += len(re.match(rb"[ \t]*", line[at:]).group())
        if at == len(line):
            break
        found = TOKEN.match(line, at)
        if not found:
            fault = "text" if OPEN_QUOTE.match(line, at) else "byte"
            break
        tokens.append((found.lastgroup, found.group(found.lastgroup), found.end()))
        at = found.end()
    if fault == "byte":
        return "fault byte"
    if len(tokens) > 4096:
        return "fault tokens"
    if fault == "text" or not tokens or tokens[0][0] != "w":
        return "fault text"
    command, parts = tokens[0][1], tokens[1:]
    if command in (b"ask", b"first", b"last", b"count"):
        return f"{command.decode()} {tokens[0][2]} {len(line)}"
    if command in (b"watch", b"follow"):
        if not parts or parts[0][0] != "w":
            return "fault text"
        if len(parts[0][1]) > 64:
            return "fault name"
        return f"{command.decode()} {parts[0][1].decode()} {parts[0][2]} {len(line)}"
    if command == b"in":
        if len(parts) < 2 or parts[0][0] != "w" or parts[1][:2] != ("w", b"ask"):
            return "fault text"
        if len(parts[0][1]) > 64:
            return "fault name"
        return f"in {parts[0][1].decode()} {parts[1][2]} {len(line)}"
    kinds = "".join(text.decode() if kind == "m" else kind for kind, text, _ in parts)
    form = command in FORMS and re.fullmatch(FORMS[command][0].replace("L", LABELS), kinds)
    if not form:
        return "fault text"
    if any(kind == "i" and abs(value_of(text)) > 10**12 for kind, text, _ in parts):
        return "fault number"
    if any(kind != "i" and len(text) > 64 for kind, text, _ in parts):
        return "fault name"
    values = [value_of(text) if kind == "i" else text.decode() for kind, text, _ in parts]
    if form.groups():
        first, last = form.span(1)
        values[first:last] = [",".join(sorted(set(values[first:last:2])))]
    return FORMS[command][1].format(*values)


A64, A65 = "a" * 64, "a" * 65
MOST = 10**12

by_hand = [
    # blank lines and comments
    ([], "blank"),
    ([(3, " "), (2, "\t")], "blank"),
    ([(1, "\r")], "blank"),
    ([(1, " "), (1, "\r")], "blank"),
    ([(2, "\r")], "fault byte"),
    ([(1, "\r"), (1, " ")], "fault byte"),
    ([(1, "\n")], "fault byte"),
    ([(1, "#")], "blank"),
    ([(1, " "), (1, "\t"), (1, "# live"), (1, "\x00"), (1, "'"), (1, "\xff")], "blank"),
    ([(1, "# two"), (2, "\r")], "blank"),
    ([(1, "tick # x")], "fault byte"),
    # the twenty-three forms
    ([(1, "graph g -5 100")], "begin g -5 100"),
    ([(1, "extend -5 100")], "extend -5 100"),
    ([(1, "node a Person")], "node a Person"),
    ([(1, "edge m meets a b")], "edge m meets a b"),
    ([(1, "live a 0 20")], "live a 0 20"),
    ([(1, "gone a 5 6")], "gone a 5 6"),
    ([(1, "set a risk 'high' 0 9")], "put a risk 'high' 0 9"),
    ([(1, "unset a risk 3 8")], "clear a risk 3 8"),
    ([(1, "drop a")], "remove a"),
    ([(1, "ask MATCH (x:Person)")], "ask 3 20"),
    ([(1, "first MATCH (x)-/N/-(y)")], "first 5 23"),
    ([(1, "last MATCH (x)-/N/-(y)")], "last 4 22"),
    ([(1, "count MATCH (x:Person)")], "count 5 22"),
    ([(1, "watch w MATCH (x:Person)")], "watch w 7 24"),
    ([(1, "show w")], "show w"),
    ([(1, "unwatch w")], "unwatch w"),
    ([(1, "tick")], "tick"),
    ([(1, "open s")], "open s"),
    ([(1, "close s")], "close s"),
    ([(1, "in s ask MATCH (x:Person)")], "in s 8 25"),
    ([(1, "follow f MATCH (x:Person)")], "follow f 8 25"),
    ([(1, "near f a")], "near f a"),
    ([(1, "unfollow f")], "unfollow f"),
    # each with a CR, and with blanks round its tokens
    ([(1, "graph g 0 1"), (1, "\r")], "begin g 0 1"),
    ([(1, "extend 0 1"), (1, "\r")], "extend 0 1"),
    ([(1, "node a L"), (1, "\r")], "node a L"),
    ([(1, "ask x"), (1, "\r")], "ask 3 5"),
    ([(1, "count x"), (1, "\r")], "count 5 7"),
    ([(1, "watch w x"), (1, "\r")], "watch w 7 9"),
    ([(1, "show w"), (1, "\r")], "show w"),
    ([(1, "tick"), (1, "\r")], "tick"),
    ([(1, "open s"), (1, "\r")], "open s"),
    ([(1, "close s"), (1, "\r")], "close s"),
    ([(1, "in s ask x"), (1, "\r")], "in s 8 10"),
    ([(1, "in s ask"), (1, "\r")], "in s 8 8"),
    ([(1, "follow f x"), (1, "\r")], "follow f 8 10"),
    ([(1, "follow f"), (1, "\r")], "follow f 8 8"),
    ([(1, "near f a"), (1, "\r")], "near f a"),
    ([(1, "near f a"), (2, "\r")], "fault byte"),
    ([(1, "unfollow f"), (1, "\r")], "unfollow f"),
    ([(1, "tick"), (2, "\r")], "fault byte"),
    ([(1, "ask x"), (2, "\r")], "fault byte"),
    ([(1, "tick"), (1, "\r"), (1, "x")], "fault byte"),
    ([(2, " "), (1, "live"), (2, "\t"), (1, "a"), (1, " "), (1, "0  9"), (3, " ")], "live a 0 9"),
    ([(2, " "), (1, "ask"), (2, " "), (1, "x"), (2, "\t")], "ask 5 10"),
    ([(1, "\t"), (1, "watch  w"), (3, " ")], "watch w 9 12"),
    ([(1, "\t"), (1, "in  s"), (2, "\t"), (1, "ask"), (3, " ")], "in s 11 14"),
    ([(2, "\t"), (1, "follow   f"), (2, " ")], "follow f 12 14"),
    ([(1, " "), (1, "near"), (2, "\t"), (1, "f  a"), (1, "\t")], "near f a"),
    # tokens that need no blank between them
    ([(1, "set a p'v'0 9")], "put a p 'v' 0 9"),
    ([(1, "set a p'v'-1-2")], "put a p 'v' -1 -2"),
    ([(1, "live a-3-2")], "live a -3 -2"),
    ([(1, "extend-3-2")], "extend -3 -2"),
    ([(1, "extend0 1")], "fault text"),
    ([(1, "live a0 1")], "fault text"),
    ([(1, "ask(x)")], "ask 3 6"),
    ([(1, "first(x)")], "first 5 8"),
    ([(1, "watch w(x)")], "watch w 7 10"),
    ([(1, "ask'x'")], "ask 3 6"),
    ([(1, "ask")], "ask 3 3"),
    ([(1, "ask"), (1, " ")], "ask 3 4"),
    ([(1, "count")], "count 5 5"),
    ([(1, "watch w")], "watch w 7 7"),
    ([(1, "in s ask")], "in s 8 8"),
    ([(1, "in s ask"), (1, " ")], "in s 8 9"),
    ([(1, "in s ask(x)")], "in s 8 11"),
    ([(1, "in s ask'x'")], "in s 8 11"),
    ([(1, "in s ask7")], "fault text"),
    ([(1, "ins ask x")], "fault text"),
    ([(1, "follow f")], "follow f 8 8"),
    ([(1, "follow f"), (1, " ")], "follow f 8 9"),
    ([(1, "follow f(x)")], "follow f 8 11"),
    ([(1, "follow f'x'")], "follow f 8 11"),
    ([(1, "follow f-7")], "follow f 8 10"),
    ([(1, "followf x")], "fault text"),
    ([(1, "near f7")], "fault text"),
    ([(1, "nearf a")], "fault text"),
    # command words as names, and words that are nearly commands
    ([(1, "live live 0 9")], "live live 0 9"),
    ([(1, "node node edge")], "node node edge"),
    ([(1, "node extend extend")], "node extend extend"),
    ([(1, "edge set unset drop tick")], "edge set unset drop tick"),
    ([(1, "graph graph 0 0")], "begin graph 0 0"),
    ([(1, "set set set 'set' 0 0")], "put set set 'set' 0 0"),
    ([(1, "drop drop")], "remove drop"),
    ([(1, "show show")], "show show"),
    ([(1, "unwatch watch")], "unwatch watch"),
    ([(1, "watch ask ask")], "watch ask 9 13"),
    ([(1, "first first last")], "first 5 16"),
    ([(1, "open open")], "open open"),
    ([(1, "close in")], "close in"),
    ([(1, "in in ask ask")], "in in 9 13"),
    ([(1, "in ask ask ask ask")], "in ask 10 18"),
    ([(1, "node open close")], "node open close"),
    ([(1, "watch in ask x")], "watch in 8 14"),
    ([(1, "follow follow follow")], "follow follow 13 20"),
    ([(1, "follow near a")], "follow near 11 13"),
    ([(1, "near near near")], "near near near"),
    ([(1, "near follow unfollow")], "near follow unfollow"),
    ([(1, "unfollow near")], "unfollow near"),
    ([(1, "node follow unfollow")], "node follow unfollow"),
    ([(1, "in follow ask near")], "in follow 13 18"),
    ([(1, "Tick")], "fault text"),
    ([(1, "TICK")], "fault text"),
    ([(1, "ticks")], "fault text"),
    ([(1, "tic")], "fault text"),
    ([(1, "unse a p 0 9")], "fault text"),
    ([(1, "lives a 0 9")], "fault text"),
    ([(1, "Extend 0 9")], "fault text"),
    ([(1, "extends 0 9")], "fault text"),
    ([(1, "asks x")], "fault text"),
    ([(1, "lasts x")], "fault text"),
    ([(1, "Count x")], "fault text"),
    ([(1, "Open s")], "fault text"),
    ([(1, "opens s")], "fault text"),
    ([(1, "clos s")], "fault text"),
    ([(1, "In s ask x")], "fault text"),
    ([(1, "i s ask x")], "fault text"),
    ([(1, "inn s ask x")], "fault text"),
    ([(1, "in s Ask x")], "fault text"),
    ([(1, "in s asks x")], "fault text"),
    ([(1, "in s as x")], "fault text"),
    ([(1, "Follow f x")], "fault text"),
    ([(1, "follows f x")], "fault text"),
    ([(1, "follo f x")], "fault text"),
    ([(1, "Near f a")], "fault text"),
    ([(1, "nears f a")], "fault text"),
    ([(1, "nea f a")], "fault text"),
    ([(1, "unfollows f")], "fault text"),
    ([(1, "unfollo f")], "fault text"),
    ([(1, "un follow f")], "fault text"),
    ([(1, "foo")], "fault text"),
    ([(1, "7")], "fault text"),
    ([(1, "'tick'")], "fault text"),
    ([(1, "(tick)")], "fault text"),
    ([(1, "_tick")], "fault text"),
    # lists of labels: one to eight words parted by commas
    ([(1, "node a Staff,Person")], "node a Person,Staff"),
    ([(1, "node a B , A"), (1, "\t"), (1, ",C")], "node a A,B,C"),
    ([(1, "node a Staff,Staff")], "node a Staff"),
    ([(1, "node a H,G,F,E,D,C,B,A")], "node a A,B,C,D,E,F,G,H"),
    ([(1, "node a A"), (7, ",A")], "node a A"),
    ([(1, "node a B"), (7, ",A")], "node a A,B"),
    ([(1, "node a A,B,C,D,E,F,G,H,I")], "fault text"),
    ([(1, "node a A"), (8, ",A")], "fault text"),
    ([(1, "node a AB,A,a,A_,A1")], "node a A,A1,AB,A_,a"),
    ([(1, "edge m visits,meets a b")], "edge m meets,visits a b"),
    ([(1, "edge m meets,meets a b")], "edge m meets a b"),
    ([(1, "edge m H,G,F,E,D,C,B,A a b")], "edge m A,B,C,D,E,F,G,H a b"),
    ([(1, "edge m A,B,C,D,E,F,G,H,I a b")], "fault text"),
    ([(1, "node a ,A")], "fault text"),
    ([(1, "node a A,")], "fault text"),
    ([(1, "node a A,,B")], "fault text"),
    ([(1, "node a ,")], "fault text"),
    ([(1, "node a A;B")], "fault byte"),
    ([(1, "node a A,B C")], "fault text"),
    ([(1, "node a A,'B'")], "fault text"),
    ([(1, "node a A,7")], "fault text"),
    ([(1, "node a A+B")], "fault text"),
    ([(1, "node a,b A")], "fault text"),
    ([(1, "edge m A,B a")], "fault text"),
    ([(1, "edge m A, a b")], "fault text"),
    ([(1, "edge m A,B a b c")], "fault text"),
    ([(1, "edge m A a,b c")], "fault text"),
    ([(1, "edge m A a b,")], "fault text"),
    ([(1, "drop a,b")], "fault text"),
    ([(1, f"node a A,{A64}")], f"node a A,{A64}"),
    ([(1, f"node a A,{A65}")], "fault name"),
    ([(1, f"node a {A65},A")], "fault name"),
    ([(1, f"edge m A,{A65},B a b")], "fault name"),
    ([(1, f"edge m A,{A65} a")], "fault text"),
    ([(1, f"node a A,B,C,D,E,F,G,H,{A65}")], "fault text"),
    # too few parts, too many, and parts of another kind
    ([(1, "graph g 0")], "fault text"),
    ([(1, "graph g 0 1 2")], "fault text"),
    ([(1, "graph 0 1 g")], "fault text"),
    ([(1, "graph 'g' 0 1")], "fault text"),
    ([(1, "extend")], "fault text"),
    ([(1, "extend 0")], "fault text"),
    ([(1, "extend 0 1 2")], "fault text"),
    ([(1, "extend g 0 1")], "fault text"),
    ([(1, "extend '0' 1")], "fault text"),
    ([(1, "node a")], "fault text"),
    ([(1, "node a b c")], "fault text"),
    ([(1, "node a 'b'")], "fault text"),
    ([(1, "edge m meets a")], "fault text"),
    ([(1, "edge m meets a b c")], "fault text"),
    ([(1, "live a 0")], "fault text"),
    ([(1, "live a 0 9 9")], "fault text"),
    ([(1, "live a b 0 9")], "fault text"),
    ([(1, "gone a")], "fault text"),
    ([(1, "set a p v 0 9")], "fault text"),
    ([(1, "set a p 'v' 0")], "fault text"),
    ([(1, "set a p 'v' 0 9 9")], "fault text"),
    ([(1, "set a 'v' 0 9")], "fault text"),
    ([(1, "unset a p 'v' 0 9")], "fault text"),
    ([(1, "unset a 0 9")], "fault text"),
    ([(1, "drop")], "fault text"),
    ([(1, "drop a b")], "fault text"),
    ([(1, "watch")], "fault text"),
    ([(1, "watch 'w' x")], "fault text"),
    ([(1, "watch 7 x")], "fault text"),
    ([(1, "watch(w)")], "fault text"),
    ([(1, "show")], "fault text"),
    ([(1, "show a b")], "fault text"),
    ([(1, "show 7")], "fault text"),
    ([(1, "unwatch")], "fault text"),
    ([(1, "unwatch a b")], "fault text"),
    ([(1, "open")], "fault text"),
    ([(1, "open a b")], "fault text"),
    ([(1, "open 7")], "fault text"),
    ([(1, "open 's'")], "fault text"),
    ([(1, "open s MATCH (x)")], "fault text"),
    ([(1, "close")], "fault text"),
    ([(1, "close a b")], "fault text"),
    ([(1, "close (a)")], "fault text"),
    ([(1, "in")], "fault text"),
    ([(1, "in s")], "fault text"),
    ([(1, "in ask")], "fault text"),
    ([(1, "in ask x")], "fault text"),
    ([(1, "in ask MATCH (x)")], "fault text"),
    ([(1, "in s MATCH (x)")], "fault text"),
    ([(1, "in 's' ask x")], "fault text"),
    ([(1, "in 7 ask x")], "fault text"),
    ([(1, "in s 'ask' x")], "fault text"),
    ([(1, "in s 7 ask")], "fault text"),
    ([(1, "in s, t ask x")], "fault text"),
    ([(1, "in s t ask x")], "fault text"),
    ([(1, "in s watch w x")], "fault text"),
    ([(1, "in s first x")], "fault text"),
    ([(1, "in s count x")], "fault text"),
    ([(1, "in s show w")], "fault text"),
    ([(1, "in s tick")], "fault text"),
    ([(1, "follow")], "fault text"),
    ([(1, "follow 'f' x")], "fault text"),
    ([(1, "follow 7 x")], "fault text"),
    ([(1, "follow(f)")], "fault text"),
    ([(1, "near")], "fault text"),
    ([(1, "near f")], "fault text"),
    ([(1, "near f a b")], "fault text"),
    ([(1, "near f a,")], "fault text"),
    ([(1, "near f, a")], "fault text"),
    ([(1, "near f a 7")], "fault text"),
    ([(1, "near f 7")], "fault text"),
    ([(1, "near 7 a")], "fault text"),
    ([(1, "near f 'a'")], "fault text"),
    ([(1, "near 'f' a")], "fault text"),
    ([(1, "near f (a)")], "fault text"),
    ([(1, "near f a MATCH (x)")], "fault text"),
    ([(1, "unfollow")], "fault text"),
    ([(1, "unfollow a b")], "fault text"),
    ([(1, "unfollow 7")], "fault text"),
    ([(1, "in s near f a")], "fault text"),
    ([(1, "in s follow f x")], "fault text"),
    ([(1, "tick 1")], "fault text"),
    ([(1, "tick tick")], "fault text"),
    # bad bytes and open quotes
    ([(1, "live a 0 - 9")], "fault byte"),
    ([(1, "live a 0 -")], "fault byte"),
    ([(1, "ask a-b")], "fault byte"),
    ([(1, "last a-b")], "fault byte"),
    ([(1, "ask a>b")], "fault byte"),
    ([(1, "ask a>=b")], "ask 3 8"),
    ([(1, "ask x;")], "fault byte"),
    ([(1, "ask "), (1, "\xe9")], "fault byte"),
    ([(1, "ask "), (1, "\x00")], "fault byte"),
    ([(1, "ask x"), (1, "\x7f")], "fault byte"),
    ([(1, "ask 'a"), (1, "\t"), (1, "b'")], "fault byte"),
    ([(1, "ask 'a"), (1, "\x7f"), (1, "b'")], "fault byte"),
    ([(1, "ask 'a"), (1, "\x80"), (1, "b")], "fault byte"),
    ([(1, "ask 'a"), (1, "\r"), (1, "b'")], "fault byte"),
    ([(1, "ask 'a"), (1, "\r")], "fault text"),
    ([(1, "ask 'a"), (2, "\r")], "fault byte"),
    ([(1, "ask x 'open")], "fault text"),
    ([(1, "count x 'open")], "fault text"),
    ([(1, "ask x '")], "fault text"),
    ([(1, "watch w 'open")], "fault text"),
    ([(1, "in s ask a-b")], "fault byte"),
    ([(1, "in s ask x;")], "fault byte"),
    ([(1, "in s ask x 'open")], "fault text"),
    ([(1, "in 's ask x")], "fault text"),
    ([(1, "in s-t ask x")], "fault byte"),
    ([(1, "follow f a-b")], "fault byte"),
    ([(1, "follow f 'open")], "fault text"),
    ([(1, "follow 'f x")], "fault text"),
    ([(1, "near f a;")], "fault byte"),
    ([(1, "near f-a b")], "fault byte"),
    ([(1, "near f 'a")], "fault text"),
    ([(1, "set a p 'v 0 9")], "fault text"),
    ([(1, "set a p '' 0 9")], "put a p '' 0 9"),
    ([(1, "set a p 'in use # (~' 0 9")], "put a p 'in use # (~' 0 9"),
    ([(1, "set a p 'it''s' 0 9")], "fault text"),
    ([(1, "tick '")], "fault text"),
    ([(1, "'")], "fault text"),
    # numbers
    ([(1, f"live a -{MOST} {MOST}")], f"live a -{MOST} {MOST}"),
    ([(1, f"live a 0 {MOST + 1}")], "fault number"),
    ([(1, f"live a -{MOST + 1} 0")], "fault number"),
    ([(1, f"graph g {MOST + 1} {MOST + 1}")], "fault number"),
    ([(1, f"extend -{MOST} {MOST}")], f"extend -{MOST} {MOST}"),
    ([(1, f"extend 0 {MOST + 1}")], "fault number"),
    ([(1, f"extend -{MOST + 1} 0")], "fault number"),
    ([(1, f"gone a 0 {MOST + 1}")], "fault number"),
    ([(1, f"set a p 'v' 0 {MOST + 1}")], "fault number"),
    ([(1, f"set a p 'v' -{MOST + 1} 0")], "fault number"),
    ([(1, f"unset a p 0 {MOST + 1}")], "fault number"),
    ([(1, f"unset a p {MOST} -{MOST}")], f"clear a p {MOST} -{MOST}"),
    ([(1, "live a 0 18446744073709551616")], "fault number"),
    ([(1, "live a 0 "), (400, "9")], "fault number"),
    ([(1, "live a -0 0")], "live a 0 0"),
    ([(1, "live a 007 -0010")], "live a 7 -10"),
    ([(1, "live a 0 "), (65000, "0"), (1, "7")], "live a 0 7"),
    ([(1, "live a 0 "), (60, "0"), (1, f"{MOST}")], f"live a 0 {MOST}"),
    ([(1, "live a 0 "), (60, "0"), (1, f"{MOST + 1}")], "fault number"),
    ([(1, "live a 9 0")], "live a 9 0"),
    # names and values
    ([(1, f"node {A64} L")], f"node {A64} L"),
    ([(1, f"node {A65} L")], "fault name"),
    ([(1, f"node a {A64}")], f"node a {A64}"),
    ([(1, f"node a {A65}")], "fault name"),
    ([(1, f"graph {A64} 0 1")], f"begin {A64} 0 1"),
    ([(1, f"graph {A65} 0 1")], "fault name"),
    ([(1, f"edge {A64} {A64} {A64} {A64}")], f"edge {A64} {A64} {A64} {A64}"),
    ([(1, f"edge {A65} b c d")], "fault name"),
    ([(1, f"edge a {A65} c d")], "fault name"),
    ([(1, f"edge a b {A65} d")], "fault name"),
    ([(1, f"edge a b c {A65}")], "fault name"),
    ([(1, f"live {A64} 0 1")], f"live {A64} 0 1"),
    ([(1, f"live {A65} 0 1")], "fault name"),
    ([(1, f"gone {A65} 0 1")], "fault name"),
    ([(1, f"set {A64} {A64} '{A64}' 0 1")], f"put {A64} {A64} '{A64}' 0 1"),
    ([(1, f"set {A65} p 'v' 0 1")], "fault name"),
    ([(1, f"set a {A65} 'v' 0 1")], "fault name"),
    ([(1, f"set a p '{A65}' 0 1")], "fault name"),
    ([(1, f"unset {A65} p 0 1")], "fault name"),
    ([(1, f"unset a {A65} 0 1")], "fault name"),
    ([(1, f"drop {A64}")], f"remove {A64}"),
    ([(1, f"drop {A65}")], "fault name"),
    ([(1, f"show {A64}")], f"show {A64}"),
    ([(1, f"show {A65}")], "fault name"),
    ([(1, f"unwatch {A64}")], f"unwatch {A64}"),
    ([(1, f"unwatch {A65}")], "fault name"),
    ([(1, f"watch {A64} x")], f"watch {A64} 70 72"),
    ([(1, f"watch {A65} x")], "fault name"),
    ([(1, f"open {A64}")], f"open {A64}"),
    ([(1, f"open {A65}")], "fault name"),
    ([(1, f"close {A64}")], f"close {A64}"),
    ([(1, f"close {A65}")], "fault name"),
    ([(1, f"in {A64} ask x")], f"in {A64} 71 73"),
    ([(1, f"in {A65} ask x")], "fault name"),
    ([(1, f"in {A65} ask")], "fault name"),
    ([(1, f"follow {A64} x")], f"follow {A64} 71 73"),
    ([(1, f"follow {A65} x")], "fault name"),
    ([(1, f"follow {A65}")], "fault name"),
    ([(1, f"near {A64} a")], f"near {A64} a"),
    ([(1, f"near f {A64}")], f"near f {A64}"),
    ([(1, f"near {A65} a")], "fault name"),
    ([(1, f"near f {A65}")], "fault name"),
    ([(1, f"near {A65} {A65}")], "fault name"),
    ([(1, f"unfollow {A64}")], f"unfollow {A64}"),
    ([(1, f"unfollow {A65}")], "fault name"),
    ([(1, "show "), (60000, "a")], "fault name"),
    # what a query text may have
    ([(1, f"ask {A65} '{A65}' {MOST + 1}")], f"ask 3 {3 + 66 + 68 + 14}"),
    ([(1, f"watch w {A65} {MOST + 1}")], f"watch w 7 {7 + 66 + 14}"),
    ([(1, f"in s ask {A65} '{A65}' {MOST + 1}")], f"in s 8 {8 + 66 + 68 + 14}"),
    ([(1, f"follow f {A65} '{A65}' {MOST + 1}")], f"follow f 8 {8 + 66 + 68 + 14}"),
    ([(1, "ask )]} ((")], "ask 3 10"),
    ([(1, "in s ask )]} ((")], "in s 8 15"),
    ([(1, "follow f )]} ((")], "follow f 8 15"),
    # how many tokens
    ([(1, "ask"), (4095, "(")], "ask 3 4098"),
    ([(1, "ask"), (4096, "(")], "fault tokens"),
    ([(1, "watch w"), (4094, "(")], "watch w 7 4101"),
    ([(1, "watch w"), (4095, "(")], "fault tokens"),
    ([(1, "in s ask"), (4093, "(")], "in s 8 4101"),
    ([(1, "in s ask"), (4094, "(")], "fault tokens"),
    ([(1, "follow f"), (4094, "(")], "follow f 8 4102"),
    ([(1, "follow f"), (4095, "(")], "fault tokens"),
    ([(1, "ask"), (4095, "(-")], "fault byte"),
    ([(1, "ask "), (16000, "a-/")], "fault tokens"),
    ([(1, "ask "), (65000, "a")], "ask 3 65004"),
    # how many bytes
    ([(1, "#"), (65535, "x")], "blank"),
    ([(1, "#"), (65535, "x"), (1, "\r")], "blank"),
    ([(1, "#"), (65536, "x")], "fault long"),
    ([(1, "#"), (65536, "x"), (1, "\r")], "fault long"),
    ([(1, "#"), (65534, "x"), (2, "\r")], "blank"),
    ([(1, "#"), (65535, "x"), (2, "\r")], "fault long"),
    ([(65536, " ")], "blank"),
    ([(65536, " "), (1, "\r")], "blank"),
    ([(65537, " ")], "fault long"),
    ([(1, "tick"), (65532, " ")], "tick"),
    ([(1, "tick"), (65532, " "), (1, "\r")], "tick"),
    ([(1, "tick"), (65533, " ")], "fault long"),
    ([(1, "tick"), (65532, " "), (1, "\r"), (1, "x")], "fault long"),
    ([(1, "tick"), (65531, " "), (1, "\r"), (1, " ")], "fault long"),
    ([(1, "tick"), (65530, " "), (1, "\r"), (1, " ")], "fault byte"),
    ([(1, "ask "), (65532, "a")], "ask 3 65536"),
    ([(1, "ask "), (65532, "a"), (1, "\r")], "ask 3 65536"),
    ([(1, "ask "), (65533, "a")], "fault long"),
    ([(1, "in s ask "), (65527, "a")], "in s 8 65536"),
    ([(1, "in s ask "), (65527, "a"), (1, "\r")], "in s 8 65536"),
    ([(1, "in s ask "), (65528, "a")], "fault long"),
    ([(1, "follow f "), (65527, "a")], "follow f 8 65536"),
    ([(1, "follow f "), (65527, "a"), (1, "\r")], "follow f 8 65536"),
    ([(1, "follow f "), (65528, "a")], "fault long"),
    ([(1, "near f a"), (65528, " ")], "near f a"),
    ([(1, "near f a"), (65529, " ")], "fault long"),
    ([(70000, "x")], "fault long"),
    # lines of whole scripts
    ([(1, "# contacts"), (1, "\r")], "blank"),
    ([(1, "live a 0 20"), (1, "\r")], "live a 0 20"),
    ([(1, "graph g 0 1000000000001")], "fault number"),
    ([(1, "live a 0 99999999999999999999")], "fault number"),
    ([(1, f"node {A65} T")], "fault name"),
    ([(1, "node a"), (1, "\x01"), (1, " "), (1, "T")], "fault byte"),
    ([(1, "ask MATCH x")], "ask 3 11"),
    ([(1, "ask MATCH (x {risk = 'hi})")], "fault text"),
    ([(1, "ask MATCH (x:Person {risk = 'high'})-/FWD/:meets/FWD/NEXT[0,12]/-(y:Person)")], "ask 3 75"),
    ([(1, "ask"), (1, " "), (4096, "(")], "fault tokens"),
    ([(1, "ask"), (1, " "), (4095, "(")], "ask 3 4099"),
    # two faults, of which the earlier counts
    ([(65537, "!")], "fault long"),
    ([(65536, "!")], "fault byte"),
    ([(1, "# !")], "blank"),
    ([(4097, "("), (1, "!")], "fault byte"),
    ([(1, "ask"), (4096, "("), (1, "- ")], "fault byte"),
    ([(1, "ask"), (4096, "("), (1, "'a"), (1, "\x01")], "fault byte"),
    ([(1, "ask !"), (4096, "(")], "fault byte"),
    ([(1, "foo !")], "fault byte"),
    ([(1, "! 'open")], "fault byte"),
    ([(4097, "(")], "fault tokens"),
    ([(4096, "(")], "fault text"),
    ([(4097, "("), (1, "'open")], "fault tokens"),
    ([(1, "ask"), (4096, "("), (1, "'open")], "fault tokens"),
    ([(1, "ask"), (4095, "("), (1, "'open")], "fault text"),
    ([(1, f"live a 0 {MOST + 1} 9")], "fault text"),
    ([(1, f"foo {MOST + 1}")], "fault text"),
    ([(1, f"set a p 'v' {MOST + 1} 'open")], "fault text"),
    ([(1, f"{A65} x")], "fault text"),
    ([(1, f"show {A65} x")], "fault text"),
    ([(1, f"watch {A65} 'open")], "fault text"),
    ([(1, f"open {A65} x")], "fault text"),
    ([(1, f"in {A65} asks x")], "fault text"),
    ([(1, f"in {A65} {A65} x")], "fault text"),
    ([(1, f"in {A65} ask {MOST + 1}")], "fault name"),
    ([(1, f"in {A65} ask 'open")], "fault text"),
    ([(1, f"in s {A65} x")], "fault text"),
    ([(1, f"follow {A65} 'open")], "fault text"),
    ([(1, f"follow {A65} {MOST + 1}")], "fault name"),
    ([(1, f"follow {A65} a-b")], "fault byte"),
    ([(1, f"near {A65}")], "fault text"),
    ([(1, f"near {A65} a b")], "fault text"),
    ([(1, f"near f a {A65}")], "fault text"),
    ([(1, f"near {A65} {MOST + 1}")], "fault text"),
    ([(1, f"unfollow {A65} x")], "fault text"),
    ([(1, f"live {A65} 0 {MOST + 1}")], "fault number"),
    ([(1, f"set a p '{A65}' {MOST + 1} 0")], "fault number"),
    ([(1, f"graph {A65} -{MOST + 1} 0")], "fault number"),
    ([(1, f"live {A65} 0 - 9")], "fault byte"),
]


def made_up(rng):
    word = lambda: rng.choice(["a", "b1", "x_y", "live", "ask", "tick", "A", A64, A65, "e" * rng.randint(60, 70)])
    number = lambda: rng.choice(["0", "-0", "7", "-12", "0042", str(MOST), str(MOST + 1), f"-{MOST}", f"-{MOST + 1}"])
    quoted = lambda: rng.choice(["''", "'v'", "'in use'", f"'{A64}'", f"'{A65}'", "'v"])
    other = lambda: rng.choice(["(", ")", ":", "/-", "-/", "-", ">=", ">", "_", "!", "#", "\t", "\r", "\x1f", "\xc3"])
    labels = lambda: rng.choice([",", " , ", ", "]).join(word() for _ in range(rng.choice([1, 1, 2, 3, 8, 9])))
    kinds = {"w": word, "i": number, "q": quoted, "L": labels}
    command = rng.choice(sorted(FORMS)).decode()
    parts = [kinds[kind]() for kind in FORMS[command.encode()][0]]
    if rng.random() < 0.25:
        command, parts = rng.choice(["ask", "watch", "watch w", "graph g", "in", "in s", "in s ask", "follow", "follow f"]), [rng.choice([word, number, quoted, other])() for _ in range(rng.randint(0, 5))]
    for _ in range(rng.choice([0, 0, 0, 1, 1, 2])):
        at = rng.randint(0, len(parts))
        change = rng.randint(0, 2)
        if change == 0:
            parts.insert(at, rng.choice([word, number, quoted, other])())
        elif parts and change == 1:
            parts.pop(at % len(parts))
        elif parts:
            parts[at % len(parts)] = rng.choice([word, number, quoted, other])()
    blank = rng.choice([" ", " ", " ", "  ", "\t"])
    line = blank.join([command] + parts) + rng.choice(["", "", "", "\r", "\r\r", " "])
    return [(1, piece) for piece in re.findall(r"[!-~](?:[ -~]*[!-~])?|[^!-~]", line)]


def main():
    rng = random.Random(12)
    cases = list(by_hand)
    for _ in range(300):
        pieces = made_up(rng)
        line = "".join(text * count for count, text in pieces).encode("latin-1")
        cases.append((pieces, reading_of(line)))
    with open("script_lines.txt", "w") as out:
        for pieces, reading in cases:
            line = "".join(text * count for count, text in pieces).encode("latin-1")
            assert reading_of(line) == reading, (line[:100], reading_of(line), reading)
            for count, text in pieces:
                for part in re.findall(r"[!-~](?:[ -~]*[!-~])?|[^!-~]", text):
                    assert count == 1 or len(re.findall(r"[!-~](?:[ -~]*[!-~])?|[^!-~]", text)) == 1
                    kind = f"text {count} {part}" if "!" <= part[0] <= "~" else f"byte {count} {ord(part)}"
                    print(kind, file=out)
            print("is", reading, file=out)


main()
