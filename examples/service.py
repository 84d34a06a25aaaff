#!/usr/bin/env python3
"""Keeps one itpg open, and sends it edits and questions: examples/service.py PROGRAM"""
import sys
from subprocess import PIPE, Popen


class Itpg(Popen):
    sent = 0

    def replies_to(self, *lines):
        """All replies up to that of the last line, which must be one that is always answered."""
        self.stdin.writelines(line + "\n" for line in lines)
        self.stdin.flush()
        self.sent += len(lines)
        replies = [self.reply()]
        while not replies[-1][0].startswith(f"line {self.sent} "):
            replies.append(self.reply())
        return replies

    def reply(self):
        """The head of the next reply, and the rows that it counts. `StopIteration` if itpg has ended."""
        head = next(self.stdout).strip()
        count = sum(int(word) for word in head.split()[3::2] if word.isdigit())
        return [head] + [next(self.stdout).strip() for _ in range(count)]


with Itpg(sys.argv[1:], stdin=PIPE, stdout=PIPE, encoding="ascii") as itpg:
    print(itpg.replies_to("graph g 0 9", "node a Person", "live a 0 20", "live a 0 5", "ask MATCH (x)"))
    print(itpg.replies_to("watch w MATCH (x)", "live a 6 9", "tick", "ask MATCH (x:Nobody)"))
print(itpg.returncode)
