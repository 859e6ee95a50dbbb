"""W1 of document 02: the index, from 0, of the first offending ballot."""

import engine
from vector import T, note, section, t
from words import H, blank, d, fresh, none, packed, raw, u, with_one

# 63 ballots of phases 1 and 2, under every number but 0.  They change nothing in a head 0 of 32 at
# phase 3 or later.
GOOD = ([(k, 1, 1, u) for k in range(1, 32)] + [(k, 2, blank, u) for k in range(1, 32)]
        + [(1, 1, 1, u)])

# An 8 at index 1, a 7 at 2 and a 6 at 3, for a head 0 of 4 at its start.
ALL_THREE = packed([(1, 1, 1, u), (1, 1, 0, u), (0, 2, 1, u), (4, 1, 1, u)])


def cases():
    section("W1: the index, from 0, of the first offending ballot")
    one_of_64()
    one_of_64_from_c()
    several_break_a_rule()
    several_differ()
    a_pair()
    held_and_a_pair()
    own_ballots_below_the_phase()
    the_number_first()
    section("W1: other numbers give index 0")
    other_numbers()
    other_numbers_from_c()


def one_of_64():
    note("""For 6 and 7 the first that breaks the rule: the only one among 64, at 0, in the middle and
            at 63.""")
    for index in (0, 31, 63):
        T(H(32, 0, 3, 1), with_one(GOOD, index, (5, 1, blank, u)), 0, 6, index=index)
    for index in (0, 32, 63):
        T(H(32, 0, 3, 1), with_one(GOOD, index, (0, 3, 0, u)), 0, 7, index=index)
    note("For 8 the first that differs from what is held: at 0, in the middle and at 63.")
    for index in (0, 33, 63):
        T(H(32, 0, 3, 1, ones=[31]), with_one(GOOD, index, (31, 3, 0, u)), 0, 8, index=index)
    note("Or the first that differs from an earlier one: the pair at 5 and 40, and at 0 and 63.")
    ballots = with_one(GOOD[:62], 5, (20, 3, 0, u))
    T(H(32, 0, 5, 1), with_one(ballots, 40, (20, 3, 1, u)), 0, 8, index=40)
    T(H(32, 0, 5, 1), [(1, 3, 1, u)] + GOOD[:62] + [(1, 3, 1, d)], 0, 8, index=63)


def one_of_64_from_c():
    note("The C entry passes it on: each number at 63, the pair at 0 and 63, what is held at 0.")
    t(H(32, 0, 3, 1), GOOD + [(32, 1, 1, u)], 0, 6, index=63)
    t(H(32, 0, 3, 1), GOOD + [(0, 4, 1, u)], 0, 7, index=63)
    t(H(32, 0, 3, 1, ones=[31]), GOOD + [(31, 3, 0, u)], 0, 8, index=63)
    t(H(32, 0, 5, 1), [(1, 3, 1, d)] + GOOD[:62] + [(1, 3, 1, u)], 0, 8, index=63)
    t(H(32, 0, 3, 1, ones=[31]), [(31, 3, 0, u)] + GOOD, 0, 8, index=0)
    note("In the middle of five.")
    two = [(1, 1, 1, u), (2, 1, 1, u)]
    t(fresh(4), two + [(1, 2, 1, d)] + two, 0, 6, index=2)
    t(fresh(4), two + [(0, 1, 0, u)] + two, 0, 7, index=2)
    t(H(4, 0, 1, 1, ones=[3]), two + [(3, 1, 0, u)] + two, 0, 8, index=2)


def several_break_a_rule():
    note("Several break a ballot rule, by value, sender or phase: the first, whichever it is.")
    T(fresh(4), [(1, 1, 1, u), (2, 1, blank, u), (4, 1, 1, u), (2, 0, 1, u)], 0, 6, index=1)
    T(fresh(4), [(1, 1, 1, u), (2, 1, 1, u), (4, 1, 1, u), (2, 1, blank, u)], 0, 6, index=2)
    T(fresh(4), [(1, 1, 1, u), (2, 1, 1, u), (2, 0, 1, u), (4, 1, 1, u)], 0, 6, index=2)
    T(fresh(4), bytes(320), 0, 6, index=0)
    note("Several under the head's own number: another value first, another status, a higher phase.")
    T(H(4, 0, 3, 1), [(1, 3, 1, u), (0, 3, 0, u), (0, 4, 1, u), (0, 3, 1, d)], 0, 7, index=1)
    T(H(4, 0, 3, 1), [(0, 3, 1, u), (0, 3, 1, d), (0, 5, 1, u), (0, 3, 0, u)], 0, 7, index=1)
    T(H(4, 0, 3, 1), [(2, 3, 1, u), (1, 3, 1, u), (0, 65535, 1, u), (0, 3, 0, u)], 0, 7, index=2)
    note("From C.")
    t(fresh(4), [(1, 1, 1, u), (2, 1, blank, u), (4, 1, 1, u), (2, 0, 1, u)], 0, 6, index=1)
    t(H(4, 0, 3, 1), [(1, 3, 1, u), (0, 3, 0, u), (0, 4, 1, u), (0, 3, 1, d)], 0, 7, index=1)


def several_differ():
    note("Several differ: the first in the list that differs from an earlier one.")
    T(fresh(4), [(1, 1, 1, u), (1, 1, 0, u), (2, 1, 1, u), (2, 1, 0, u)], 0, 8, index=1)
    note("Not that of the pair that begins first: the second pair ends before it.  2 and not 3.")
    T(fresh(4), [(1, 1, 1, u), (2, 1, 1, u), (2, 1, 0, u), (1, 1, 0, u)], 0, 8, index=2)
    t(fresh(4), [(1, 1, 1, u), (2, 1, 1, u), (2, 1, 0, u), (1, 1, 0, u)], 0, 8, index=2)
    note("By status before another by value, and below the phase before another at it.")
    T(H(4, 0, 5, 1), [(1, 5, 1, u), (2, 3, 1, d), (2, 3, 1, u), (1, 5, 0, u)], 0, 8, index=2)


def a_pair():
    note("The pair's earlier ballot is never named, wherever the two stand.")
    T(fresh(4), [(1, 1, 1, u), (2, 1, 1, u), (3, 1, 1, u), (1, 1, 0, u), (2, 1, 1, u)], 0, 8,
      index=3)
    T(H(4, 0, 5, 1), [(3, 1, 1, u), (1, 4, 1, d), (1, 3, 0, u), (2, 4, 1, u), (1, 4, 1, u)], 0, 8,
      index=4)
    note("Equal repeats count too: an equal repeat and then another value.  2 and not 1.")
    T(fresh(4), [(1, 1, 1, u), (1, 1, 1, u), (1, 1, 0, u)], 0, 8, index=2)
    t(fresh(4), [(1, 1, 1, u), (1, 1, 1, u), (1, 1, 0, u)], 0, 8, index=2)
    note("Another value and the first again; three values.")
    T(fresh(4), [(1, 1, 1, u), (1, 1, 0, u), (1, 1, 1, u)], 0, 8, index=1)
    T(H(4, 0, 4, 1), [(1, 4, 0, u), (1, 4, 1, u), (1, 4, blank, u)], 0, 8, index=1)


def held_and_a_pair():
    head = H(4, 0, 1, 1, ones=[3])
    note("One differs from what is held, before a pair, between its two and after it.")
    T(head, [(2, 1, 1, u), (3, 1, 0, u), (1, 1, 1, u), (1, 1, 0, u)], 0, 8, index=1)
    T(head, [(1, 1, 1, u), (2, 1, 1, u), (3, 1, 0, u), (1, 1, 0, u)], 0, 8, index=2)
    T(head, [(2, 1, 1, u), (1, 1, 1, u), (1, 1, 0, u), (3, 1, 0, u)], 0, 8, index=2)
    note("The pair is of the sender that is held: what is held stands before the list.")
    T(head, [(3, 1, 0, u), (3, 1, 1, u)], 0, 8, index=0)
    T(head, [(3, 1, 1, u), (3, 1, 0, u)], 0, 8, index=1)
    note("Status is not held: the decided ballot does not differ, the undecided one after it does.")
    T(H(4, 0, 3, 1, ones=[3]), [(3, 3, 1, d), (3, 3, 1, u)], 0, 8, index=1)
    note("What is held is of the present phase: ballots of that sender below it are free of 8.")
    T(H(4, 0, 3, 1, ones=[3]), [(3, 2, 0, u), (3, 1, 0, u), (3, 3, 0, u)], 0, 8, index=2)
    note("From C: what is held before the pair, and the pair before what is held.")
    t(head, [(2, 1, 1, u), (3, 1, 0, u), (1, 1, 1, u), (1, 1, 0, u)], 0, 8, index=1)
    t(head, [(2, 1, 1, u), (1, 1, 1, u), (1, 1, 0, u), (3, 1, 0, u)], 0, 8, index=2)


def own_ballots_below_the_phase():
    head = H(4, 0, 5, 1)
    note("The head's own ballots below its phase, and as it sent them, are free of 7, but count.")
    T(head, [(0, 3, 0, d), (0, 4, blank, u), (0, 1, 0, u), (0, 5, 0, u)], 0, 7, index=3)
    T(head, [(0, 4, 1, d), (0, 5, 1, u), (0, 6, 1, u)], 0, 7, index=2)
    t(head, [(0, 3, 0, d), (0, 4, blank, u), (0, 1, 0, u), (0, 5, 0, u)], 0, 7, index=3)
    note("The same before a 6 and before an 8; and where two of them differ.")
    T(head, [(0, 3, 0, d), (0, 1, 0, u), (0, 2, 1, d)], 0, 6, index=2)
    T(head, [(0, 3, 0, d), (0, 4, blank, u), (1, 5, 1, u), (1, 5, 0, u)], 0, 8, index=3)
    T(head, [(0, 1, 0, u), (0, 2, 0, u), (0, 1, 1, u)], 0, 8, index=2)


def the_number_first():
    note("The number is chosen first, then the index of that number: 7 before 6 in the list.")
    T(fresh(4), [(0, 2, 1, u), (1, 1, 1, u), (2, 1, blank, u)], 0, 6, index=2)
    note("8 before 7, by a pair and by what is held.")
    T(fresh(4), [(1, 1, 0, u), (1, 1, 1, u), (2, 1, 1, u), (0, 1, 0, u)], 0, 7, index=3)
    T(H(4, 0, 1, 1, ones=[1]), [(1, 1, 0, u), (0, 2, 1, u)], 0, 7, index=1)
    note("8 before 6; 8 at 1, 7 at 2 and 6 at 3.")
    T(fresh(4), [(1, 1, 0, u), (1, 1, 1, u), (1, 1, blank, u)], 0, 6, index=2)
    T(fresh(4), [(1, 1, 0, u), (1, 1, 1, u), (0, 2, 1, u), (4, 1, 1, u)], 0, 6, index=3)
    note("The other way round: 6 at 0 and the others after it; 7 at 0 and an 8 after it.")
    T(fresh(4), [(4, 1, 1, u), (0, 2, 1, u), (1, 1, 1, u), (1, 1, 0, u)], 0, 6, index=0)
    T(fresh(4), [(0, 2, 1, u), (1, 1, 1, u), (1, 1, 0, u)], 0, 7, index=0)
    note("From C: a 7 at index 0 and a 6 at index 5; an 8 at index 1 and a 7 at index 3.")
    t(fresh(4), [(0, 2, 1, u)] + [(1, 1, 1, u)] * 4 + [(1, 1, blank, u)], 0, 6, index=5)
    t(fresh(4), [(1, 1, 0, u), (1, 1, 1, u), (2, 1, 1, u), (0, 1, 0, u)], 0, 7, index=3)


def other_numbers():
    note("3, 4 and 5, though an 8, a 7 and a 6 stand in the list at 1, 2 and 3.")
    T(H(4, 4, 1, 1), ALL_THREE, 0, 3, index=0)
    T(fresh(4), ALL_THREE, 2, 4, index=0)
    T(fresh(4), ALL_THREE + b"\x00", 0, 5, index=0)
    T(fresh(4), ALL_THREE * 17, 0, 5, index=0)
    note("9, 10 and 11, though a later ballot than the first brings them about.")
    T(H(5, 0, 2, 1), [(1, 2, blank, u), (2, 2, 0, u), (3, 2, 1, u)], 0, 9, index=0)
    T(fresh(3), [(1, 1, 1, u), (1, 65535, 1, u), (2, 65535, 1, u)], 0, 10, index=0)
    T(H(3, 0, 3, 1, d, 1), [(1, 3, 1, u), (2, 5, 0, d)], 0, 11, index=0)
    note("Accepted: with a step, without one, and 64 ballots that change nothing.")
    T(fresh(3), [(1, 1, 1, u), (2, 1, 1, u)], 0, 0, (2, 1, u, none), index=0)
    T(fresh(5), [(1, 1, 1, u), (2, 1, 1, u)], 0, 0, (1, 1, u, none), {1: 1, 2: 1}, index=0)
    T(H(32, 0, 3, 1), GOOD + [(0, 2, blank, u)], 0, 0, "as before", index=0)


def other_numbers_from_c():
    note("""From C the index is written at every call.  Where the bytes are no record too: by its
            length and by a code.""")
    t(engine.record_of(fresh(4))[:19], ALL_THREE, 0, 3, index=0)
    t(b"", ALL_THREE, 0, 3, index=0)
    t(raw(4, 0, 1, 3, 0, 2), ALL_THREE, 0, 3, index=0)
    note("3 of a record that holds an unsound head; 4 and 5.")
    t(H(4, 4, 1, 1), ALL_THREE, 0, 3, index=0)
    t(fresh(4), ALL_THREE, 2, 4, index=0)
    t(fresh(4), ALL_THREE + b"\x00", 0, 5, index=0)
    note("9, 10 and 11; and accepted.")
    t(H(5, 0, 2, 1), [(1, 2, blank, u), (2, 2, 0, u), (3, 2, 1, u)], 0, 9, index=0)
    t(fresh(3), [(1, 1, 1, u), (1, 65535, 1, u), (2, 65535, 1, u)], 0, 10, index=0)
    t(H(3, 0, 3, 1, d, 1), [(1, 3, 1, u), (2, 5, 0, d)], 0, 11, index=0)
    t(fresh(3), [(1, 1, 1, u), (2, 1, 1, u)], 0, 0, (2, 1, u, none), index=0)
    t(fresh(5), [], 0, 0, "as before", index=0)
