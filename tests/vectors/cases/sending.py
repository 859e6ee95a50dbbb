"""The ballot that a head sends, by value and from C."""

import engine
from engine import Head
from vector import B, b, note, section
from words import H, blank, d, fresh, none, raw, u


def cases():
    sendings()
    c_ballots()


def sendings():
    section("The ballot that a head sends")
    note("A head sends its present phase, value and status, under its own number.")
    B(fresh(3), 0, "0001000001")
    B(fresh(2, 1, 0), 0, "0100000001")
    B(H(3, 1, 2, blank), 0, "0102000002")
    B(H(3, 1, 300, 1, d, 1), 0, "010101012c")
    note("What is sent is the value and not the decision; what it heard is not sent.")
    B(H(3, 2, 3, 0, u, 1, zeros=[0, 1]), 0, "0200000003")
    B(H(32, 31, 65535, 0, d, 0, zeros=[31], ones=[0]), 0, "1f0001ffff")
    B(H(32, 0, 65534, blank, u, none, blanks=range(32)), 0, "000200fffe")
    note("Of an unsound head refusal 3 and five zeros: n 1, own number n.")
    B(H(1, 0, 1, 1), 3, "0000000000")
    B(H(3, 3, 1, 1), 3, "0000000000")
    note("Unsound by its decision or by its sets alone: the ballot itself would obey the rules.  3.")
    B(H(3, 1, 3, 1, d, none), 3)
    B(H(3, 1, 1, 1, u, 1), 3)
    B(H(3, 1, 1, 1, zeros=[2], ones=[2]), 3)
    B(H(3, 1, 1, 1, ones=[3]), 3)
    B(H(3, 1, 1, 1, zeros=[1]), 3)
    B(Head(0, 0, 0, 0, u, 0, frozenset()), 3)


def c_ballots():
    section("The ballot of a head, from C")
    full = bytes.fromhex("a1a2a3a4a5a6a7a8a9aaabac")
    note("A sound head and a buffer of five bytes.")
    b(fresh(3), full[:5], 0, "0001000001")
    b(H(32, 31, 65535, 1, d, 1), full[:5], 0, "1f0101ffff")
    note("""A head's phase, value and status obey the ballot rules: the limits at phases 1, 2, 3, 4.  A
            decided head has its value as decision here, an undecided one none.""")
    for phase, value, status, number in ((1, blank, u, 3), (1, 1, d, 3), (2, blank, u, 0), (2, 1, d, 3),
                                         (3, 0, u, 0), (3, 1, d, 0), (3, blank, u, 3),
                                         (4, blank, u, 0), (4, 0, d, 0), (4, blank, d, 3)):
        decision = value if status == d and value != blank else none
        b(H(3, 1, phase, value, status, decision), full[:5], number)
    note("A length other than five is 5, and every byte of the buffer is zero.")
    for length in (0, 4, 6):
        b(fresh(3), full[:length], 5, "00" * length)
    note("An unsound head is 3, and every byte of the buffer is zero, whatever its length: 3, then 5.")
    for length in (0, 4, 5, 12):
        b(H(3, 3, 1, 1), full[:length], 3, "00" * length)
    note("A record of another length is unsound: 3.")
    good = engine.record_of(fresh(3)) + bytes(20)
    for length in (0, 4, 19, 21, 40):
        b(good[:length], full[:5], 3, "0000000000")
    note("A byte outside the codes makes it unsound: value 3, status 2, decision 3, the zero byte 1.")
    b(raw(3, 0, 3, 3, 0, 2), full[:5], 3)
    b(raw(3, 0, 3, 1, 2, 1), full[:5], 3)
    b(raw(3, 0, 3, 1, 0, 3), full[:5], 3)
    b(raw(3, 0, 3, 1, 0, 2, zero=1), full[:5], 3)
    b(bytes.fromhex("ff" * 20), full[:12], 3)
