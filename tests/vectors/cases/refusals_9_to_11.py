"""Refusals 9, 10 and 11: what the steps would come to."""

from vector import T, note, section, t
from words import H, blank, d, fresh, none, u


def cases():
    both_heard()
    last_phase()
    unlike_decision()


def both_heard():
    section("Refusal 9: after step 2, phase even and both 0 and 1 heard")
    note("Whether or not a step follows: two of five, so none would.")
    T(H(5, 0, 2, 1), [(1, 2, 0, u), (2, 2, 1, u)], 0, 9)
    note("One held, one in the list.")
    T(H(5, 0, 2, 1, ones=[1]), [(2, 2, 0, u)], 0, 9)
    note("Where a step would follow, with a majority of one of them.")
    T(H(3, 0, 2, 1), [(0, 2, 1, u), (1, 2, 1, u), (2, 2, 0, u)], 0, 9)
    T(H(5, 0, 4, 1, blanks=[1, 2]), [(3, 4, 0, u), (4, 4, 1, d)], 0, 9)
    note("At an even phase that was copied.")
    T(fresh(5), [(1, 4, 0, u), (2, 4, 1, u)], 0, 9)
    T(fresh(32), [(30, 65534, 0, d), (31, 65534, 1, d)], 0, 9)
    note("At an odd phase both may be heard.")
    T(H(5, 0, 3, 1), [(1, 3, 0, u), (2, 3, 1, u)], 0, 0, (3, 1, u, none), {1: 0, 2: 1})
    note("""Tested on the sets after step 2: both at the present even phase, or one held and one in the
            list, but the list copies away: no 9.""")
    T(H(5, 0, 2, 1), [(1, 2, 0, u), (2, 2, 1, u), (3, 3, 1, u)], 0, 0, (3, 1, u, none), {3: 1})
    T(H(5, 0, 2, 1, ones=[1]), [(2, 2, 0, u), (3, 4, blank, u)], 0, 0, (4, blank, u, none), {3: blank})
    note("Both below the present phase, and both at an even phase between: no 9.")
    T(H(5, 0, 3, 1), [(1, 2, 0, u), (2, 2, 1, u)], 0, 0, "as before")
    T(fresh(5), [(1, 4, 0, u), (2, 4, 1, u), (3, 5, 0, u)], 0, 0, (5, 0, u, none), {3: 0})
    note("""9 comes before 11: decided with 0 is copied against the decision 1, and 1 is heard too; and
            a step that would give an unlike decision.""")
    T(H(5, 0, 3, 1, d, 1), [(1, 4, 0, d), (2, 4, 1, u)], 0, 9)
    T(H(3, 0, 4, 1, u, 1), [(1, 4, 0, u), (2, 4, 0, u), (0, 4, 1, u)], 0, 9)
    note("From C.")
    t(H(5, 0, 2, 1), [(1, 2, 0, u), (2, 2, 1, u)], 0, 9)
    t(H(32, 0, 2, 1, ones=[31]), [(30, 2, 0, u)], 0, 9)


def last_phase():
    section("Refusal 10: step 3 would need phase 65,536")
    last = H(3, 0, 65535, 1)
    note("At phase 65,535 with a quorum: all in the list, or one held and one in the list.")
    T(last, [(0, 65535, 1, u), (1, 65535, 1, u)], 0, 10)
    T(H(3, 0, 65535, 1, ones=[2]), [(1, 65535, 0, u)], 0, 10)
    T(H(32, 31, 65535, 0), [(k, 65535, 0, u) for k in range(17)], 0, 10)
    note("Only where a step follows: without a quorum phase 65,535 is as good as any.")
    T(last, [], 0, 0, "as before")
    T(H(32, 31, 65535, 0), [(k, 65535, 0, u) for k in range(16)], 0, 0, (65535, 0, u, none),
      {k: 0 for k in range(16)})
    note("Copying to 65,535 without a quorum is accepted, a decided ballot too.")
    T(fresh(3), [(2, 65535, 0, d)], 0, 0, (65535, 0, d, 0), {2: 0})
    T(H(3, 0, 65534, blank), [(2, 65535, 0, u)], 0, 0, (65535, 0, u, none), {2: 0})
    note("The step from 65,534 needs 65,535 only.")
    T(H(3, 0, 65534, 1), [(0, 65534, 1, u), (1, 65534, 1, u)], 0, 0, (65535, 1, d, 1))
    note("""10 comes before 11: a decided head that would step to blank; a decided 0 copied against the
            decision 1.""")
    T(H(3, 0, 65535, 1, d, 1), [(1, 65535, 0, u), (2, 65535, 1, u)], 0, 10)
    T(H(3, 0, 3, 1, d, 1), [(1, 65535, 0, d), (2, 65535, 0, d)], 0, 10)
    note("Without a quorum that same copy is 11 and not 10.")
    T(H(3, 0, 3, 1, d, 1), [(1, 65535, 0, d)], 0, 11)
    note("From C.")
    t(H(3, 0, 65535, 1, d, 1, zeros=[1], ones=[2]), [], 0, 10)


def unlike_decision():
    section("Refusal 11: the end would be decided with a blank, or with a value unlike the decision")
    note("Decided is copied, unlike the decision already written; with and without a quorum.")
    T(H(3, 0, 3, 0, d, 0), [(1, 4, 1, d)], 0, 11)
    T(H(3, 0, 3, 0, d, 0), [(1, 5, 1, d), (2, 5, 1, u)], 0, 11)
    note("Undecided is copied, unlike the decision: fine, the decision stays.")
    T(H(3, 0, 3, 0, d, 0), [(1, 4, 1, u)], 0, 0, (4, 1, u, 0), {1: 1})
    T(H(3, 0, 3, 0, d, 0), [(1, 5, 1, u), (2, 5, 1, u)], 0, 0, (6, 1, u, 0))
    note("The lowest number gives it: decided 0 of sender 2 is not copied, undecided 0 of sender 1 is.")
    T(H(5, 0, 3, 1, d, 1), [(2, 5, 0, d), (1, 5, 0, u)], 0, 0, (5, 0, u, 1), {1: 0, 2: 0})
    T(H(5, 0, 3, 1, d, 1), [(1, 5, 0, d), (2, 5, 0, u)], 0, 11)
    note("A majority at the even phase would decide 0 against the decision 1 already written.")
    T(H(3, 0, 4, 1, u, 1), [(1, 4, 0, u), (2, 4, 0, u)], 0, 11)
    note("Without the majority 0 is taken undecided, and the decision 1 stays.")
    T(H(3, 0, 4, 1, u, 1), [(1, 4, 0, u), (2, 4, blank, u)], 0, 0, (5, 0, u, 1))
    note("A head that came decided and steps to blank: 11; undecided it is accepted.")
    T(H(3, 0, 3, 1, d, 1), [(0, 3, 1, d), (1, 3, 0, u)], 0, 11)
    T(H(3, 0, 3, 1, u, 1), [(0, 3, 1, u), (1, 3, 0, u)], 0, 0, (4, blank, u, 1))
    note("A head that came decided and steps at an odd phase to the other value: 11.")
    T(H(3, 0, 5, 1, d, 1), [(1, 5, 0, u), (2, 5, 0, u)], 0, 11)
    note("At an even phase: a decided head takes the 0 heard at all, or the coin, against decision 1.")
    T(H(3, 0, 4, 1, d, 1), [(1, 4, 0, u), (2, 4, blank, u)], 0, 11)
    T(H(3, 0, 4, 1, d, 1), [(1, 4, blank, u), (2, 4, blank, u)], 0, 11)
    note("The coin 1 agrees with the decision 1; a step never puts status back.")
    T(H(3, 0, 4, 1, d, 1), [(1, 4, blank, u), (2, 4, blank, u)], 1, 0, (5, 1, d, 1))
    T(H(3, 0, 4, 1, d, 1), [(1, 4, 1, u), (2, 4, blank, u)], 0, 0, (5, 1, d, 1))
    T(H(3, 0, 3, 1, d, 1), [(1, 3, 1, u), (2, 3, 1, u)], 0, 0, (4, 1, d, 1))
    note("""Decided is copied at an even phase and only blank is heard besides: the 0 stays.  Where the
            giver is the blank one, the value is taken undecided.""")
    T(fresh(3), [(1, 6, 0, d), (2, 6, blank, u)], 1, 0, (7, 0, d, 0))
    T(fresh(3), [(1, 6, blank, u), (2, 6, 0, d)], 1, 0, (7, 0, u, none))
    note("""No decision is written yet: decided 0 is copied by its giver, and the step takes the 1 that
            a majority gave: the end is decided with 1, and that is its first decision.""")
    T(fresh(5), [(1, 5, 0, d), (2, 5, 1, u), (3, 5, 1, u), (4, 5, 1, u)], 0, 0, (6, 1, d, 1))
    note("From C.")
    t(H(3, 0, 3, 0, d, 0), [(1, 4, 1, d)], 0, 11)
    t(H(3, 0, 3, 1, d, 1), [(0, 3, 1, d), (1, 3, 0, u)], 0, 11)
