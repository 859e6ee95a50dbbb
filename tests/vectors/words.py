"""What cases are made of, in few letters: u and d as document 01 writes them, heads, lists."""

import engine
from engine import BLANK, DECIDED, NONE, UNDECIDED, Ballot, Head

u = UNDECIDED
d = DECIDED
blank = BLANK
none = NONE
LARGEST = 4294967295


def H(n, own, phase, value, status=u, decision=none, zeros=(), ones=(), blanks=()):
    """A head: its fields, and who is heard with 0, with 1 and with blank."""
    heard = {(sender, 0) for sender in zeros}
    heard |= {(sender, 1) for sender in ones}
    heard |= {(sender, BLANK) for sender in blanks}
    return Head(n, own, phase, value, status, decision, frozenset(heard))


def fresh(n, own=0, proposal=1):
    """A head as it starts, typed by hand and not by the model."""
    return H(n, own, 1, proposal)


def raw(n, own, phase, value, status, decision, zero=0, tail=bytes(12)):
    """A record by its bytes, also with bytes outside the codes."""
    return bytes([n, own, phase // 256, phase % 256, value, status, decision, zero]) + tail


def packed(ballots):
    """A list of ballots as document 01 writes them, or bytes as they are."""
    if isinstance(ballots, bytes):
        return ballots
    return b"".join(engine.bytes_of(Ballot(*ballot)) for ballot in ballots)


def with_one(ballots, index, ballot):
    """The list with one ballot more, which stands at that index."""
    return ballots[:index] + [Ballot(*ballot)] + ballots[index:]
