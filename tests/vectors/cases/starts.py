"""Starts, by value and from C."""

import engine
from vector import S, note, s, section
from words import H, LARGEST, d


def cases():
    starts()
    c_starts()


def starts():
    section("Start")
    note("It starts at phase 1, value = proposal, undecided, no decision (2), nothing heard.")
    S(2, 0, 0, 0, "02 00 0001 00 00 02 00 00000000 00000000 00000000")
    S(2, 1, 1, 0, "02 01 0001 01 00 02 00 00000000 00000000 00000000")
    S(32, 31, 1, 0, "20 1f 0001 01 00 02 00 00000000 00000000 00000000")
    note("""n not 2 to 32: 1, and a head with every field zero: value and decision 0, undecided.  258
            would be 2 if it were cut to 8 bits, 65538 if to 16.""")
    for n in (0, 1, 33, 256, 257, 258, 65538, LARGEST):
        S(n, 0, 1, 1, "00" * 20)
    note("Own number not below n: 1.  Cut to 8 or 16 bits, some of these would be 0, 1 or 2.")
    for n, own in ((3, 3), (32, 32), (3, 256), (3, 257), (32, 65536), (32, LARGEST)):
        S(n, own, 1, 1, "00" * 20)
    note("Proposal above 1: 2.  Cut to 8 bits, 256 would be 0 and 257 would be 1.")
    for proposal in (2, 256, 257, 65537, LARGEST):
        S(3, 0, proposal, 2, "00" * 20)
    note("1 comes before 2: n, then own number, then both, each with a bad proposal.")
    S(1, 0, 2, 1)
    S(3, 3, 2, 1)
    S(LARGEST, LARGEST, LARGEST, 1)


def c_starts():
    section("Start from C")
    sent = bytes.fromhex("ff" * 20)
    counting = bytes(range(1, 41))
    note("""The record's old contents are not read: zeros, bytes outside the codes and a decided head
            are all written over.""")
    s(3, 0, 1, bytes(20), 0, "03 00 0001 01 00 02 00 00000000 00000000 00000000")
    s(32, 31, 0, sent, 0, "20 1f 0001 00 00 02 00 00000000 00000000 00000000")
    s(5, 4, 0, engine.record_of(H(3, 0, 9, 1, d, 1, ones=[2])), 0,
      "05 04 0001 00 00 02 00 00000000 00000000 00000000")
    note("1: n not 2 to 32, or own number not below n; the record is unchanged.")
    for n, own in ((1, 0), (33, 0), (258, 0), (3, 3), (3, 256), (2, LARGEST)):
        s(n, own, 1, counting[:20], 1)
    note("2: proposal above 1; the record is unchanged.")
    for proposal in (2, 256, 257):
        s(3, 0, proposal, counting[:20], 2)
    note("3: record not 20 bytes; it is unchanged, whatever its length.")
    for length in (0, 4, 19, 21, 40):
        s(3, 0, 1, counting[:length], 3)
    note("At a start from C: 1, 2, then 3.  A bad length hides neither 1 nor 2.")
    s(1, 0, 1, counting[:19], 1)
    s(3, 3, 2, counting[:21], 1)
    s(3, 0, 2, counting[:19], 2)
    s(3, 0, 256, b"", 2)
