"""Runs as text, the form of which the top of tools/runfile explains."""

from run_file import MOST_HEADS, MOST_ROUNDS, Run


class Mistake(Exception):
    """What is wrong in the line that is looked at."""


# ---- Text to run

def run_of(text):
    """The run that a text tells."""
    parser = Parser()
    for number, line in enumerate(text.splitlines(), 1):
        words = line.split("#")[0].split()
        try:
            if words:
                parser.line(words)
        except Mistake as mistake:
            raise Mistake("line %d: %s" % (number, mistake))
    try:
        parser.end()
    except Mistake as mistake:
        raise Mistake("at the end: %s" % mistake)
    return parser.run


class Parser:
    def __init__(self):
        self.run = Run()
        self.times = 0
        self.lost = None
        self.coins = None

    def line(self, words):
        first, rest = words[0], words[1:]
        known = {"propose": self.propose, "need": self.need, "round": self.round,
                 "lost": self.loses, "coins": self.throw}
        if first not in known:
            raise Mistake("'%s' is none of %s" % (first, ", ".join(known)))
        if first == "propose" and self.run.proposals:
            raise Mistake("the proposals are there already")
        if first != "propose" and not self.run.proposals:
            raise Mistake("the proposals come first")
        if first in ("lost", "coins") and self.lost is None:
            raise Mistake("'%s' belongs to a round: a line 'round' comes before" % first)
        known[first](rest)

    def propose(self, rest):
        if not 2 <= len(rest) <= MOST_HEADS:
            raise Mistake("%d proposals: there are 2 to %d heads" % (len(rest), MOST_HEADS))
        self.run.proposals = bits(rest)

    def need(self, rest):
        n = len(self.run.proposals)
        if self.run.need:
            raise Mistake("the heads needed are there already")
        if len(rest) != 1:
            raise Mistake("need takes one number")
        need = whole(rest[0])
        if not n < 2 * need <= 2 * n:
            raise Mistake("need %d: of %d heads, %d to %d are needed" % (need, n, n // 2 + 1, n))
        self.run.need = need

    def round(self, rest):
        if not self.run.need:
            raise Mistake("the heads needed come before the rounds")
        self.end_round()
        if rest and (len(rest) != 2 or rest[1] != "times"):
            raise Mistake("a round is 'round' or 'round 5 times'")
        self.times = whole(rest[0]) if rest else 1
        if self.times < 1 or len(self.run.rounds) + self.times > MOST_ROUNDS:
            raise Mistake("rounds come 1 to %d times, %d in all" % (MOST_ROUNDS, MOST_ROUNDS))
        self.lost = [set() for _ in self.run.proposals]

    def loses(self, rest):
        receivers, colon, senders = " ".join(rest).partition(":")
        if not colon or not receivers.split() or not senders.split():
            raise Mistake("losses are 'lost RECEIVERS: SENDERS'")
        for receiver in self.heads(receivers):
            self.lost[receiver] |= self.heads(senders)

    def throw(self, rest):
        if self.coins is not None:
            raise Mistake("the coins of this round are there already")
        if len(rest) != len(self.run.proposals):
            raise Mistake("%d coins for %d heads" % (len(rest), len(self.run.proposals)))
        self.coins = bits(rest)

    def heads(self, words):
        """Numbers, ranges as 2-5, or 'all'."""
        n = len(self.run.proposals)
        found = set()
        for word in words.split():
            low, dash, high = ("0", "-", str(n - 1)) if word == "all" else word.partition("-")
            low, high = whole(low), whole(high if dash else low)
            if low > high:
                raise Mistake("'%s' is no range: the lower head comes first" % word)
            if high >= n:
                raise Mistake("there is no head %d: they are 0 to %d" % (high, n - 1))
            found |= set(range(low, high + 1))
        return found

    def end_round(self):
        if self.lost is not None:
            coins = self.coins or [0] * len(self.run.proposals)
            self.run.rounds += [(self.lost, coins)] * self.times
        self.lost = self.coins = None

    def end(self):
        if not self.run.proposals:
            raise Mistake("there are no proposals")
        if not self.run.need:
            raise Mistake("the heads needed are not told")
        self.end_round()


def whole(word):
    if not (word.isascii() and word.isdigit() and len(word) < 6):
        raise Mistake("'%s' is no number" % word)
    return int(word)


def bits(words):
    for word in words:
        if word not in ("0", "1"):
            raise Mistake("'%s' is neither 0 nor 1" % word)
    return [int(word) for word in words]


# ---- Bytes told one by one

def is_bytes(text):
    words = [line.split("#")[0].split() for line in text.splitlines()]
    return next((line[0] == "bytes" for line in words if line), False)


def bytes_of(text):
    data = b""
    for number, line in enumerate(text.splitlines(), 1):
        words = line.split("#")[0].split()
        if words and words[0] != "bytes":
            raise Mistake("line %d: '%s' in a text of bytes" % (number, words[0]))
        for word in words[1:]:
            if len(word) != 2 or any(sign not in "0123456789abcdefABCDEF" for sign in word):
                raise Mistake("line %d: '%s' is no byte: two hex digits" % (number, word))
            data += bytes([int(word, 16)])
    return data


# ---- Run to text

def text_of(run):
    lines = ["propose " + spaced(run.proposals), "need %d" % run.need]
    index = 0
    while index < len(run.rounds):
        lost, coins = run.rounds[index]
        times = 1
        while run.rounds[index + times:index + times + 1] == [(lost, coins)]:
            times += 1
        lines.append("round" if times == 1 else "round %d times" % times)
        lines += loss_lines(lost)
        if any(coins):
            lines.append("  coins " + spaced(coins))
        index += times
    return "\n".join(lines) + "\n"


def loss_lines(lost):
    """One line for all receivers with the same losses."""
    lines = []
    for receiver, senders in enumerate(lost):
        if senders and senders not in lost[:receiver]:
            alike = [other for other in range(len(lost)) if lost[other] == senders]
            lines.append("  lost %s: %s" % (ranges(alike, len(lost)), ranges(senders, len(lost))))
    return lines


def ranges(numbers, n):
    if len(numbers) == n:
        return "all"
    words = []
    for number in sorted(numbers):
        if number - 1 in numbers:
            words[-1] = words[-1].split("-")[0] + "-%d" % number
        else:
            words.append(str(number))
    return " ".join(words)


def spaced(numbers):
    return " ".join(str(number) for number in numbers)
