"""The states of a run file as the independent bench in Rust gives them, and the words for them once more."""

import re
import subprocess

HEAD = re.compile(r"after (\d+) head (\d+) phase (\d+) value (\w+) status (\w+) decision (\w+) lost((?: \d+)*)$")
ROUND = re.compile(r"round (\d+) lost (\d+) bound (\d+) (good|not good)$")


class Expected:
    """`heads` by (after, head): phase, value, status, decision, senders lost; `rounds` by number: lost, bound, good."""

    def __init__(self, text):
        self.heads, self.rounds = {}, {}
        for line in text.splitlines():
            head, of_round = HEAD.match(line), ROUND.match(line)
            if head:
                lost = tuple(map(int, head[7].split()))
                self.heads[int(head[1]), int(head[2])] = (int(head[3]), head[4], head[5], head[6], lost)
            else:
                self.rounds[int(of_round[1])] = (int(of_round[2]), int(of_round[3]), of_round[4])
        self.n = 1 + max(head for _, head in self.heads)
        self.last = max(after for after, _ in self.heads)

    def head_title(self, after, head):
        phase, value, status, decision, lost = self.heads[after, head]
        written = "no decision" if decision == "none" else "decision %s" % decision
        state = "phase %d, value %s, %s, %s" % (phase, value, status, written)
        if after == 0:
            return "head %d at the start: %s" % (head, state)
        listed = "lost to it: " + ", ".join(map(str, lost)) if lost else "nothing lost to it"
        return "head %d after round %d: %s; %s" % (head, after, state, listed)

    def round_title(self, number):
        lost, bound, good = self.rounds[number]
        return "round %d: %d ballot%s lost, bound %d, %s" % (number, lost, "s" * (lost != 1), bound, good)

    def heard(self, number, receiver):
        lost = self.heads[number, receiver][4]
        return [sender for sender in range(self.n) if sender not in lost]


def expected_of(comparer, path):
    with open(path, "rb") as file:
        ended = subprocess.run([comparer, "states"], stdin=file, stdout=subprocess.PIPE, check=True)
    return Expected(ended.stdout.decode())
