"""The head of source document 002, which keeps every ballot it ever heard.

Document 01 says that the three sets give the same result as the whole set,
counted by sender.  It is a second opinion: each accepted tick is compared with
it, and each honest vote is run with it from its start.
"""

from engine import BLANK, DECIDED, UNDECIDED, Ballot


class WholeSet:
    def __init__(self, head):
        self.n, self.phase, self.value = head.n, head.phase, head.value
        self.status, self.decision = head.status, head.decision
        self.all = {Ballot(sender, head.phase, value, UNDECIDED) for sender, value in head.heard}

    def tick(self, ballots, coin):
        self.all |= set(ballots)
        above = [x for x in self.all if x.phase > self.phase]
        if above:
            giver = min(above, key=lambda x: (-x.phase, x.sender))
            self.phase, self.value, self.status = giver.phase, giver.value, giver.status
        heard = {x.sender: x.value for x in self.all if x.phase == self.phase}
        if 2 * len(heard) > self.n:
            self.step(list(heard.values()), coin)
        if self.status == DECIDED:
            self.decision = self.value

    def step(self, values, coin):
        strong = [v for v in (0, 1) if 2 * values.count(v) > self.n]
        if self.phase % 2 == 1:
            self.value = strong[0] if strong else BLANK
        else:
            if strong:
                self.status = DECIDED
            present = [v for v in (0, 1) if v in values]
            self.value = present[0] if present else coin
        self.phase += 1

    def agrees_with(self, head):
        held = {(x.sender, x.value) for x in self.all if x.phase == self.phase}
        return (self.phase, self.value, self.status, self.decision, held) == \
            (head.phase, head.value, head.status, head.decision, set(head.heard))
