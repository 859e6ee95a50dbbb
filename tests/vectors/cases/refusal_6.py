"""Refusal 6: a ballot breaks a ballot rule."""

from cases.reading import RULE_TEXT
from vector import T, note, section, t
from words import H, blank, d, fresh, none, packed, u


def cases():
    ballot_rules()
    senders()
    six_comes_first()


def ballot_rules():
    section("Refusal 6: a ballot breaks a ballot rule")
    note("""The ballot table in a list.  The head is at phase 3: ballots of phase 1 and 2 are below it,
            and change nothing where they stand; but the rules hold for them too.""")
    head = H(5, 0, 3, 1)
    note(RULE_TEXT[1] + "  0 stands; blank, decided, value code 3 and status code 2 do not.")
    T(head, bytes.fromhex("0200000001"), 0, 0, "as before")
    T(head, bytes.fromhex("0202000001"), 0, 6, index=0)
    T(head, bytes.fromhex("0201010001"), 0, 6, index=0)
    T(head, bytes.fromhex("0203000001"), 0, 6, index=0)
    T(head, bytes.fromhex("0201020001"), 0, 6, index=0)
    note(RULE_TEXT[2] + "  Blank stands; decided does not.")
    T(head, bytes.fromhex("0202000002"), 0, 0, "as before")
    T(head, bytes.fromhex("0201010002"), 0, 6, index=0)
    T(head, bytes.fromhex("0202010002"), 0, 6, index=0)
    note(RULE_TEXT[3] + "  Decided stands; blank and status code 2 do not.")
    T(head, bytes.fromhex("0201010003"), 0, 0, (3, 1, u, none), {2: 1})
    T(head, bytes.fromhex("0202000003"), 0, 6, index=0)
    T(head, bytes.fromhex("0201020003"), 0, 6, index=0)
    note(RULE_TEXT[4] + "  Decided 0 and blank stand; decided blank does not.")
    T(head, bytes.fromhex("0200010004"), 0, 0, (4, 0, d, 0), {2: 0})
    T(head, bytes.fromhex("0202000004"), 0, 0, (4, blank, u, none), {2: blank})
    T(head, bytes.fromhex("0202010004"), 0, 6, index=0)
    note("Phase 0 never stands, though it is below every phase.")
    T(head, bytes.fromhex("0201000000"), 0, 6, index=0)
    note("From phase 1: blank at 3, decided blank at 65,534.")
    T(fresh(3), bytes.fromhex("0102000003"), 0, 6, index=0)
    T(fresh(3), bytes.fromhex("010201fffe"), 0, 6, index=0)


def senders():
    note("Sender below n: 3 and 255 are not; at n 32 sender 31 stands and 32 does not.")
    T(fresh(3), bytes.fromhex("0301000001"), 0, 6, index=0)
    T(fresh(3), bytes.fromhex("ff01000001"), 0, 6, index=0)
    T(fresh(32), bytes.fromhex("1f01000001"), 0, 0, (1, 1, u, none), {31: 1})
    T(fresh(32), bytes.fromhex("2001000001"), 0, 6, index=0)
    note("A bad sender below the phase is 6 as well.")
    T(H(3, 0, 6, 1), bytes.fromhex("0301000001"), 0, 6, index=0)
    note("The last of 64 ballots.")
    good = packed([(1, 1, 1, u)])
    bad = packed([(1, 1, blank, u)])
    T(fresh(4), good * 63 + bad, 0, 6, index=63)


def six_comes_first():
    note("6 under the head's own number is 6 and not 7; a rule broken below its phase too.")
    T(fresh(3), [(0, 1, blank, u)], 0, 6, index=0)
    T(H(3, 0, 5, 1), [(0, 2, 1, d)], 0, 6, index=0)
    note("""Refusals go by number, not by ballot: a 7 at index 0 and a 6 at index 5 give 6 and 5; so
            do an 8, a 9 and an 11 with a 6 after them, with the index of the 6.""")
    T(fresh(3), [(0, 2, 1, u)] + [(1, 1, 1, u)] * 4 + [(1, 1, blank, u)], 0, 6, index=5)
    T(fresh(3), [(1, 1, 0, u), (1, 1, 1, u), (2, 1, blank, u)], 0, 6, index=2)
    T(H(3, 0, 2, 1), [(1, 2, 0, u), (2, 2, 1, u), (1, 1, 1, d)], 0, 6, index=2)
    T(H(3, 0, 3, 1, d, 1), [(2, 5, 0, d), (1, 3, blank, u)], 0, 6, index=1)
    note("7, 8 and 6 at once: the first number is 6.")
    T(fresh(3), [(0, 3, 1, u), (1, 1, 0, u), (1, 1, 1, u), (2, 2, 1, d)], 0, 6, index=3)
    note("From C: value code 3 below the phase.")
    t(H(5, 0, 3, 1), bytes.fromhex("0203000001"), 0, 6, index=0)
