"""A model of the vote engine, written from document 01 and from document 02's W1 alone.

It is made to be read beside them: each of their sentences that decides
something stands here as a comment, and the lines under it do what it says.
It is slow on purpose.  A value is 0, 1 or "blank", not a code; what a head has
heard is a set of (sender, value) pairs, not three words of bits.

Every entry gives back the number, then what comes with it.  A reading and a
tick give W1's index between the two.
"""

from dataclasses import dataclass, replace
from typing import NamedTuple

BLANK = "blank"
NONE = "none"
UNDECIDED = "undecided"
DECIDED = "decided"

# The codes of document 01: value 0, 1 or 2 (blank); status 0 or 1 (decided);
# decision 0, 1 or 2 (none).
VALUE_OF_CODE = {0: 0, 1: 1, 2: BLANK}
STATUS_OF_CODE = {0: UNDECIDED, 1: DECIDED}
DECISION_OF_CODE = {0: 0, 1: 1, 2: NONE}
CODE_OF_VALUE = {0: 0, 1: 1, BLANK: 2}
CODE_OF_STATUS = {UNDECIDED: 0, DECIDED: 1}
CODE_OF_DECISION = {0: 0, 1: 1, NONE: 2}


class Ballot(NamedTuple):
    """Written in the order of document 01's table: (sender, phase, value, status)."""
    sender: int
    phase: int
    value: object
    status: str


@dataclass(frozen=True)
class Head:
    """The heard ballots are (sender, value) pairs.

    A sound head has at most one pair for a sender.  An unsound one may have
    more, and members that are not below n: it must come back as it came.
    """
    n: int
    own: int
    phase: int
    value: object
    status: str
    decision: object
    heard: frozenset


# A refused start gives a head with every field zero (value and decision 0,
# undecided).
ZERO_HEAD = Head(0, 0, 0, 0, UNDECIDED, 0, frozenset())

# A refusal comes with a ballot of zero fields.
ZERO_BALLOT = Ballot(0, 0, 0, UNDECIDED)


# ---------------------------------------------------------------- ballots

def phase_value_status_stand(phase, value, status):
    """The ballot rules by phase; a sound head obeys the same."""
    # Phase 0 never stands.
    if phase == 0:
        return False
    # Phase 1: value 0 or 1, undecided.
    if phase == 1:
        return value in (0, 1) and status == UNDECIDED
    # Phase 2: any value, undecided.
    if phase == 2:
        return value in (0, 1, BLANK) and status == UNDECIDED
    # Odd from 3: value 0 or 1, either status.
    if phase % 2 == 1:
        return value in (0, 1) and status in (UNDECIDED, DECIDED)
    # Even from 4: any value; blank only when undecided.
    if value == BLANK:
        return status == UNDECIDED
    return value in (0, 1) and status in (UNDECIDED, DECIDED)


def ballot_of(n, five):
    """The ballot of five bytes among n heads, or None where it breaks a rule."""
    # Five bytes: sender; value 0, 1 or 2 (blank); status 0 or 1 (decided);
    # phase, high byte first.
    sender = five[0]
    value_code = five[1]
    status_code = five[2]
    phase = 256 * five[3] + five[4]
    # A ballot carries a value that is 0, 1 or blank.
    if value_code not in VALUE_OF_CODE:
        return None
    if status_code not in STATUS_OF_CODE:
        return None
    value = VALUE_OF_CODE[value_code]
    status = STATUS_OF_CODE[status_code]
    if not phase_value_status_stand(phase, value, status):
        return None
    # Sender below n.
    if not sender < n:
        return None
    return Ballot(sender, phase, value, status)


def bytes_of(ballot):
    """The five bytes of a ballot."""
    return bytes([
        ballot.sender,
        CODE_OF_VALUE[ballot.value],
        CODE_OF_STATUS[ballot.status],
        ballot.phase // 256,
        ballot.phase % 256,
    ])


def read(n, data):
    """Reading one ballot takes n and the bytes."""
    # 1: reading one ballot: n not 2 to 32.
    if not 2 <= n <= 32:
        return 1, 0, ZERO_BALLOT
    # 5: one ballot read: not five bytes.
    if len(data) != 5:
        return 5, 0, ZERO_BALLOT
    # 6: a ballot breaks a ballot rule.  W1: the index, from 0, of the first
    # offending ballot; there is but one, and it stands at 0.
    ballot = ballot_of(n, data)
    if ballot is None:
        return 6, 0, ZERO_BALLOT
    return 0, 0, ballot


# ------------------------------------------------------------------ heads

def sound(head):
    """A head is sound when:"""
    # n is 2 to 32;
    if not 2 <= head.n <= 32:
        return False
    # own number below n;
    if not head.own < head.n:
        return False
    # its phase, value and status obey the same rules;
    if not phase_value_status_stand(head.phase, head.value, head.status):
        return False
    # decided means that the decision is there and equals the value;
    if head.status == DECIDED:
        if head.decision == NONE:
            return False
        if head.decision != head.value:
            return False
    # a decision means phase 3 or more;
    if head.decision != NONE and head.phase < 3:
        return False
    return sets_fit(head)


def sets_fit(head):
    # the three sets are disjoint,
    senders = [sender for sender, value in head.heard]
    if len(senders) != len(set(senders)):
        return False
    # with members below n;
    for sender in senders:
        if not sender < head.n:
            return False
    values = [value for sender, value in head.heard]
    # at an odd phase none is heard blank;
    if head.phase % 2 == 1 and BLANK in values:
        return False
    # at an even phase 0 and 1 are not both heard;
    if head.phase % 2 == 0 and 0 in values and 1 in values:
        return False
    # its own number, if heard, stands under its own value.
    for sender, value in head.heard:
        if sender == head.own and value != head.value:
            return False
    return True


def start(n, own, proposal):
    """Start one head."""
    # 1: start: n not 2 to 32;
    if not 2 <= n <= 32:
        return 1, ZERO_HEAD
    # start: own number not below n.
    if not own < n:
        return 1, ZERO_HEAD
    # 2: start: proposal above 1.
    if proposal > 1:
        return 2, ZERO_HEAD
    # It starts at phase 1, value = proposal, undecided, no decision, nothing
    # heard.
    return 0, Head(n, own, 1, proposal, UNDECIDED, NONE, frozenset())


def send(head):
    """The ballot that a head sends."""
    # 3: head not sound.  Of an unsound one refusal 3 and five zeros.
    if not sound(head):
        return 3, ZERO_BALLOT
    # A head sends its present phase, value and status.
    return 0, Ballot(head.own, head.phase, head.value, head.status)


# --------------------------------------------------------------- one tick

class Refused(Exception):
    """Carries the number that is given back, and the index."""

    # W1: other numbers (than 6, 7 and 8) give index 0.
    def __init__(self, number, index=0):
        super().__init__(number, index)
        self.number = number
        self.index = index


def tick(head, data, coin):
    """Given a head, a list of 0 to 64 ballots as bytes, and a coin.

    A refused tick gives back the head as it came, sound or not.
    The refusals stand in the order of their numbers, so the first that applies
    is the one that is given.  Each of 6, 7 and 8 looks through the list from
    its start, so the index is that of W1's first offending ballot.
    """
    try:
        refuse_call(head, data, coin)
        ballots = ballots_of(head, data)
        refuse_own(head, ballots)
        refuse_differing(head, ballots)
        return 0, 0, Steps(head, ballots, coin).after()
    except Refused as refused:
        return refused.number, refused.index, head


def refuse_call(head, data, coin):
    # 3: head not sound.
    if not sound(head):
        raise Refused(3)
    # 4: coin above 1, even if not needed.
    if coin > 1:
        raise Refused(4)
    # 5: list length not a multiple of 5, or over 320 bytes.
    if len(data) % 5 != 0:
        raise Refused(5)
    if len(data) > 320:
        raise Refused(5)


def ballots_of(head, data):
    # 6: a ballot breaks a ballot rule.  (A ballot below the phase too.)
    # W1: for 6 and 7 the first that breaks the rule.
    ballots = []
    for index in range(len(data) // 5):
        ballot = ballot_of(head.n, data[5 * index:5 * index + 5])
        if ballot is None:
            raise Refused(6, index)
        ballots.append(ballot)
    return ballots


def refuse_own(head, ballots):
    # 7: a ballot under the head's own number has a higher phase, or the same
    # phase and another value or status.
    for index, ballot in enumerate(ballots):
        if ballot.sender == head.own:
            if ballot.phase > head.phase:
                raise Refused(7, index)
            if ballot.phase == head.phase and ballot.value != head.value:
                raise Refused(7, index)
            if ballot.phase == head.phase and ballot.status != head.status:
                raise Refused(7, index)


def refuse_differing(head, ballots):
    held = dict(head.heard)
    # W1: for 8 the first that differs from an earlier one or from what is held.
    for index, ballot in enumerate(ballots):
        # 8: two ballots of one sender and phase differ;
        for earlier in ballots[:index]:
            if ballot.sender == earlier.sender and ballot.phase == earlier.phase:
                if ballot != earlier:
                    raise Refused(8, index)
        # or one at the present phase differs in value from what that sender is
        # held under.
        if ballot.phase == head.phase and ballot.sender in held:
            if ballot.value != held[ballot.sender]:
                raise Refused(8, index)


class Steps:
    """The four steps: phase, value, status and what was heard, as they change.

    The head stays as it came.
    """

    def __init__(self, head, ballots, coin):
        self.head = head
        self.ballots = ballots
        self.coin = coin
        self.phase = head.phase
        self.value = head.value
        self.status = head.status

    def after(self):
        """The head after the steps."""
        self.add_ballots()
        self.copy_highest()
        self.refuse_both_heard()
        # Step 3.  If the number of heads heard at the phase, doubled, exceeds
        # n, step:
        if self.heads_heard() * 2 > self.head.n:
            self.step()
        self.refuse_end()
        return replace(self.head, phase=self.phase, value=self.value, status=self.status,
                       decision=self.decision(), heard=frozenset(self.heard))

    def add_ballots(self):
        head = self.head
        # Step 1.  Add the ballots to what was heard.  Equal repeats count once:
        # this is a set.  Ballots below the present phase change nothing.
        self.everything_heard = {(head.phase, sender, value) for sender, value in head.heard}
        for ballot in self.ballots:
            if ballot.phase >= head.phase:
                self.everything_heard.add((ballot.phase, ballot.sender, ballot.value))

    def copy_highest(self):
        # Step 2.  If some ballot has a higher phase, take phase, value and
        # status from a ballot of the highest phase; among several senders the
        # lowest number gives it.
        self.higher = [ballot for ballot in self.ballots if ballot.phase > self.head.phase]
        if self.higher:
            highest_phase = max(ballot.phase for ballot in self.higher)
            of_highest_phase = [b for b in self.higher if b.phase == highest_phase]
            giver = min(of_highest_phase, key=lambda b: b.sender)
            self.phase = giver.phase
            self.value = giver.value
            self.status = giver.status
        # Heard sets now hold that phase's ballots only.
        self.heard = {(s, v) for p, s, v in self.everything_heard if p == self.phase}

    def refuse_both_heard(self):
        # 9: after step 2, phase even and both 0 and 1 heard.
        if self.phase % 2 == 0 and self.heads_with(0) > 0 and self.heads_with(1) > 0:
            raise Refused(9)

    def step(self):
        # 10: step 3 would need phase 65,536.
        if self.phase + 1 == 65536:
            raise Refused(10)
        if self.phase % 2 == 1:
            self.odd_step()
        else:
            self.even_step()
        # Then phase rises by one and the sets become empty.
        self.phase = self.phase + 1
        self.heard = set()

    def odd_step(self):
        # odd phase: if a value was heard from more than n/2 heads, take it,
        # else blank;
        if self.heads_with(0) > self.head.n / 2:
            self.value = 0
        elif self.heads_with(1) > self.head.n / 2:
            self.value = 1
        else:
            self.value = BLANK

    def even_step(self):
        half = self.head.n / 2
        # even phase: if a value 0 or 1 was heard from more than n/2 heads,
        # become decided;
        if self.heads_with(0) > half or self.heads_with(1) > half:
            self.status = DECIDED
        # then take the value 0 or 1 that was heard at all, else the coin.
        if self.heads_with(0) > 0:
            self.value = 0
        elif self.heads_with(1) > 0:
            self.value = 1
        else:
            self.value = self.coin

    def refuse_end(self):
        written = self.head.decision
        # 11: the end would be decided with a blank,
        if self.status == DECIDED and self.value == BLANK:
            raise Refused(11)
        # or with a value unlike the decision already written.
        if self.status == DECIDED and written != NONE and self.value != written:
            raise Refused(11)

    def decision(self):
        # Step 4.  If decided, the decision is the value.
        if self.status == DECIDED:
            return self.value
        # Step 2 can put status back to undecided.  The decision stays.
        return self.head.decision

    def heads_heard(self):
        return len({s for s, v in self.heard})

    def heads_with(self, wanted):
        return len({s for s, v in self.heard if v == wanted})


# ---------------------------------------------------------- C's 20 bytes

def record_of(head):
    """The record of 20 bytes."""
    # n, own number, phase (2, high byte first), value, status, decision (2 for
    # none), a zero byte,
    record = bytes([
        head.n,
        head.own,
        head.phase // 256,
        head.phase % 256,
        CODE_OF_VALUE[head.value],
        CODE_OF_STATUS[head.status],
        CODE_OF_DECISION[head.decision],
        0,
    ])
    # then the sets for 0, 1 and blank, 4 bytes each, high byte first, lowest
    # bit for head 0.
    for wanted in (0, 1, BLANK):
        word = sum(2 ** sender for sender, value in head.heard if value == wanted)
        record += word.to_bytes(4, "big")
    return record


def head_of(record):
    """The head that a record holds, or None.

    Another length or a byte outside these codes makes it unsound: None is such
    a record, which holds no head at all.
    """
    if len(record) != 20:
        return None
    if record[4] not in VALUE_OF_CODE:
        return None
    if record[5] not in STATUS_OF_CODE:
        return None
    if record[6] not in DECISION_OF_CODE:
        return None
    if record[7] != 0:
        return None
    heard = set()
    for place, wanted in ((8, 0), (12, 1), (16, BLANK)):
        word = int.from_bytes(record[place:place + 4], "big")
        for sender in range(32):
            if word // 2 ** sender % 2 == 1:
                heard.add((sender, wanted))
    return Head(record[0], record[1], 256 * record[2] + record[3],
                VALUE_OF_CODE[record[4]], STATUS_OF_CODE[record[5]],
                DECISION_OF_CODE[record[6]], frozenset(heard))


def c_start(record, n, own, proposal):
    """Start, called from C.  The record's old contents are not read."""
    number, head = start(n, own, proposal)
    # 1 and 2 come first; from C the record is unchanged.
    if number != 0:
        return number, record
    # 3: at a start from C, record not 20 bytes.
    if len(record) != 20:
        return 3, record
    return 0, record_of(head)


def c_tick(record, ballots, coin, former_index):
    """Tick, called from C.

    W1: the C entry passes the index on.  `former_index` is what the lent index
    holds before: it is written at every call and never read.
    """
    head = head_of(record)
    # 3: head not sound.  Other numbers (than 6, 7 and 8) give index 0.
    if head is None:
        return 3, 0, record
    number, index, after = tick(head, ballots, coin)
    # A refused tick gives back the head as it came.
    if number != 0:
        return number, index, record
    return 0, index, record_of(after)


def c_ballot(record, buffer):
    """The ballot that a head sends, written to a lent buffer."""
    # Either refusal leaves every byte of that buffer zero.
    zeros = bytes(len(buffer))
    head = head_of(record)
    # 3: head not sound.
    if head is None:
        return 3, zeros
    number, ballot = send(head)
    if number != 0:
        return number, zeros
    # Where a buffer is lent for it, a length other than five is 5, after 3.
    if len(buffer) != 5:
        return 5, zeros
    return 0, bytes_of(ballot)
