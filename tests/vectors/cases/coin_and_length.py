"""Refusals 4 and 5: the coin, and the length of the list."""

import engine
from engine import Ballot
from vector import T, note, section, t
from words import H, LARGEST, blank, fresh, none, packed, u


def cases():
    coins()
    lengths()


def coins():
    section("Refusal 4: coin above 1, even if not needed")
    note("""No step follows in these, so the coin is not needed; 256 and 257 would be 0 and 1 if they
            were cut to 8 bits, 65536 if to 16.""")
    for coin in (2, 256, 257, 65536, 2147483648, LARGEST):
        T(fresh(3), [], coin, 4)
    note("Coin 1 is accepted, needed or not.")
    T(fresh(3), [], 1, 0, "as before")
    note("Not needed at a step where a value was heard at the even phase: still 4.")
    T(H(3, 0, 2, 1), [(1, 2, 1, u), (2, 2, blank, u)], 2, 4)
    note("Needed at an even phase where only blank was heard: 4.")
    T(H(3, 0, 2, 1), [(1, 2, blank, u), (2, 2, blank, u)], 257, 4)
    note("4 comes before 5, 6 and 10.")
    T(fresh(3), b"\x00", 2, 4)
    T(fresh(3), bytes(325), 2, 4)
    T(fresh(3), [(1, 65535, 1, u), (2, 65535, 1, u)], 2, 4)
    note("The same from C.")
    for coin in (2, 256):
        t(fresh(3), [], coin, 4)


def lengths():
    section("Refusal 5: list length not a multiple of 5, or over 320 bytes")
    one = engine.bytes_of(Ballot(1, 1, 1, u))
    head = fresh(4)
    held = {1: 1}
    note("0 and 5 bytes are lists; 1 and 4 are not.")
    T(head, b"", 0, 0, "as before")
    T(head, one, 0, 0, (1, 1, u, none), held)
    for length in (1, 4):
        T(head, (one * 2)[:length], 0, 5)
    note("320 bytes are a list of 64 ballots: equal repeats count once, no step.")
    T(head, one * 64, 0, 0, (1, 1, u, none), held)
    note("319 and 321 are no multiple of 5; 325 are over 320 bytes, though equal repeats.")
    T(head, (one * 64)[:319], 0, 5)
    T(head, (one * 65)[:321], 0, 5)
    T(head, one * 65, 0, 5)
    note("5 comes before 6 and 8: the ballots that stand whole in the list are not tested first.")
    T(head, bytes.fromhex("0103000001") + b"\x00", 0, 5)
    T(head, packed([(1, 1, 0, u), (1, 1, 1, u)]) + b"\x00\x00\x00\x00", 0, 5)
    T(head, bytes(325), 0, 5)
    note("The same from C.")
    t(head, one[:4], 0, 5)
    t(head, one * 64, 0, 0, (1, 1, u, none), held)
    t(head, one * 65, 0, 5)
