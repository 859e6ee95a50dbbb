"""Refusal 3: heads and records that are not sound."""

import engine
from engine import Head
from vector import T, note, section, t
from words import H, blank, d, fresh, none, raw, u


def cases():
    broken_fields()
    broken_sets()
    unsound_heads_come_back()
    c_soundness()


def broken_fields():
    section("Refusal 3: every clause of soundness broken alone, no ballots, coin 0")
    note("n is 2 to 32: 0, 1 and 33 are not.")
    unsound(H(0, 0, 1, 1))
    unsound(H(1, 0, 1, 1))
    unsound(H(33, 0, 1, 1))
    stands(H(2, 0, 1, 1))
    note("Own number below n.")
    unsound(H(3, 3, 1, 1))
    unsound(H(32, 32, 1, 1))
    stands(H(32, 31, 1, 1))
    note("Phase 0 never stands; an odd phase has no blank; phase 2 is undecided.")
    unsound(H(3, 0, 0, 1))
    unsound(H(3, 0, 1, blank))
    unsound(H(3, 0, 65535, blank))
    unsound(H(3, 0, 2, 1, d, 1))
    note("Even from 4: blank only when undecided; whatever the decision.")
    unsound(H(3, 0, 4, blank, d, none))
    stands(H(3, 0, 4, blank, u, 1))
    note("Decided means that the decision is there and equals the value.")
    unsound(H(3, 0, 3, 1, d, none))
    unsound(H(3, 0, 3, 1, d, 0))
    unsound(H(3, 0, 4, 0, d, 1))
    note("A decision means phase 3 or more.  While undecided it may be unlike the value.")
    unsound(H(3, 0, 1, 1, u, 1))
    unsound(H(3, 0, 2, 1, u, 0))
    stands(H(3, 0, 3, 1, u, 0))


def broken_sets():
    note("The three sets are disjoint: one head under 0 and 1, 1 and blank, 0 and blank; also head 31.")
    unsound(H(5, 0, 1, 1, zeros=[1], ones=[1]))
    unsound(H(5, 0, 2, 1, ones=[2], blanks=[2]))
    unsound(H(5, 0, 2, 0, zeros=[4], blanks=[4]))
    unsound(H(32, 0, 2, 1, ones=[31], blanks=[31]))
    note("Members below n, in each set; at n 32 the top bit is head 31 and stands.")
    unsound(H(3, 0, 1, 1, zeros=[3]))
    unsound(H(3, 0, 1, 1, ones=[3]))
    unsound(H(3, 0, 2, 1, blanks=[3]))
    unsound(H(31, 0, 1, 1, ones=[31]))
    unsound(H(31, 0, 2, blank, blanks=[31]))
    stands(H(32, 0, 1, 1, ones=[31]))
    note("At an odd phase none is heard blank.")
    unsound(H(5, 0, 1, 1, blanks=[2]))
    unsound(H(32, 0, 65535, 1, blanks=[31]))
    note("At an even phase 0 and 1 are not both heard; at an odd one they may be.")
    unsound(H(5, 0, 2, 1, zeros=[1], ones=[2]))
    unsound(H(32, 0, 65534, 1, zeros=[30], ones=[31]))
    stands(H(5, 0, 3, 1, zeros=[1], ones=[2]))
    note("Its own number, if heard, stands under its own value.")
    unsound(H(5, 0, 1, 1, zeros=[0]))
    unsound(H(5, 0, 2, 1, blanks=[0]))
    unsound(H(5, 0, 2, blank, ones=[0]))
    unsound(H(32, 31, 2, 1, blanks=[31]))
    stands(H(32, 31, 2, blank, blanks=[31]))


def unsound_heads_come_back():
    note("""An unsound head comes back as it came, also where the list alone would move it, and also
            with every bit of its sets.""")
    T(H(3, 0, 1, 1, ones=[3]), [(1, 5, 0, u)], 0, 3)
    T(H(255, 255, 65535, blank, d, 0, range(32), range(32), range(32)), [], 0, 3)
    T(Head(0, 0, 0, 0, u, 0, frozenset()), [], 0, 3)
    note("3 comes before 4, 5 and 6.")
    T(H(3, 0, 3, 1, d, none), b"\x03\x03\x03\x00\x00", 0, 3)
    T(H(3, 3, 1, 1), b"\x03\x03", 2, 3)
    T(H(1, 0, 1, 1), bytes(325), 0, 3)


def c_soundness():
    section("Records lent to a tick from C")
    good = engine.record_of(fresh(3)) + bytes(20)
    one = [(1, 1, 1, u)]
    note("A sound record of 20 bytes is ticked: n 3, sender 1 is now held under 1.")
    t(good[:20], one, 0, 0, gives="03 00 0001 01 00 02 00 00000000 00000002 00000000")
    note("Another length makes it unsound: 3, and the record is unchanged.")
    for length in (0, 4, 19, 21, 40):
        t(good[:length], one, 0, 3)
    note("A byte outside the codes: value 3, status 2, decision 3, the zero byte 1.")
    t(raw(3, 0, 3, 3, 0, 2), one, 0, 3)
    t(raw(3, 0, 3, 1, 2, 1), one, 0, 3)
    t(raw(3, 0, 3, 1, 0, 3), one, 0, 3)
    t(raw(3, 0, 3, 1, 0, 2, zero=1), one, 0, 3)
    t(bytes.fromhex("ff" * 20), one, 0, 3)
    note("Other clauses, from C: each unsound record is unchanged.")
    t(H(3, 3, 1, 1), one, 0, 3)
    t(H(3, 0, 3, 1, d, 0), one, 0, 3)
    t(H(5, 0, 1, 1, zeros=[1], ones=[1]), one, 0, 3)
    t(H(31, 0, 1, 1, ones=[31]), one, 0, 3)
    note("The sets are 4 bytes each, high byte first, lowest bit for head 0: n 32, senders 0, 8, 31.")
    t(fresh(32), [(0, 1, 1, u), (8, 1, 0, u), (31, 1, 1, u)], 0, 0,
      gives="20 00 0001 01 00 02 00 00000100 80000001 00000000")
    t(H(32, 31, 258, blank), [(16, 258, blank, u), (24, 258, blank, u)], 0, 0,
      gives="20 1f 0102 02 00 02 00 00000000 00000000 01010000")
    note("3 before 4 and 5 from C too, also where the record has no 20 bytes.")
    t(good[:19], b"\x01", 2, 3)
    t(raw(3, 0, 1, 1, 0, 2, zero=7), b"\x01", 256, 3)


def unsound(head):
    T(head, [], 0, 3)


def stands(head):
    T(head, [], 0, 0, "as before")
