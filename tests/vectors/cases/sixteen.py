"""The sixteen ticks of document 01."""

from vector import S, T, note, section, t
from words import H, blank, d, none, u


def cases():
    section("The sixteen ticks of document 01")
    note("""Own number 0, proposal 1, coin 0 unless said.  The answers are typed by hand from the
            document's table.""")
    note("1: start: phase 1, value 1, u, none.")
    one = S(3, 0, 1, 0, "03 00 0001 01 00 02 00 00000000 00000000 00000000")
    assert one == H(3, 0, 1, 1, u, none)
    note("2: two of three heard 1: phase 2, value 1.")
    two = T(one, [(0, 1, 1, u), (1, 1, 1, u)], 0, 0, (2, 1, u, none))
    three_to_six()
    note("7: two of three heard with 1 at phase 2: phase 3, value 1, d, decision 1.")
    seven = T(two, [(0, 2, 1, u), (1, 2, 1, u)], 0, 0, (3, 1, d, 1))
    eight_to_sixteen(one, two, seven)
    from_c(two, seven)


def three_to_six():
    note("3: two of four, doubled, do not exceed four: phase 1, 0 and 1 held under 1.")
    start4 = H(4, 0, 1, 1)
    T(start4, [(0, 1, 1, u), (1, 1, 1, u)], 0, 0, (1, 1, u, none), {0: 1, 1: 1})
    note("4: three heard, no value from more than n/2 = 2 heads: phase 2, blank.")
    case4 = T(start4, [(0, 1, 1, u), (1, 1, 1, u), (2, 1, 0, u)], 0, 0, (2, blank, u, none))
    note("5: only blank heard at the even phase: the coin, 1: phase 3, value 1, u.")
    T(case4, [(0, 2, blank, u), (1, 2, blank, u), (2, 2, blank, u)], 1, 0, (3, 1, u, none))
    note("6: one head heard with 1: that value, and not the coin 0: phase 3, value 1, u.")
    T(case4, [(0, 2, blank, u), (1, 2, 1, u), (2, 2, blank, u)], 0, 0, (3, 1, u, none))


def eight_to_sixteen(one, two, seven):
    note("8: step 2 puts status back to undecided, the decision stays: phase 4, value 1, u, decision 1.")
    T(seven, [(1, 4, 1, u)], 0, 0, (4, 1, u, 1), {1: 1})
    note("9: decided with 0, unlike the decision 1 already written: 11.")
    T(seven, [(2, 5, 0, d)], 0, 11)
    note("10: phase 2 copied, blank heard with 1: the step gives phase 3, value 1, u.")
    T(one, [(1, 2, 1, u), (2, 2, blank, u)], 0, 0, (3, 1, u, none))
    note("11: no ballots: as before.")
    T(one, [], 0, 0, "as before")
    note("12: blank at phase 1 breaks a ballot rule: 6.")
    T(one, [(1, 1, blank, u)], 0, 6, index=0)
    note("13: two ballots of one sender and phase differ: 8.")
    T(one, [(1, 1, 0, u), (1, 1, 1, u)], 0, 8, index=1)
    note("14: phase even and both 0 and 1 heard: 9.")
    T(two, [(1, 2, 0, u), (2, 2, 1, u)], 0, 9)
    note("15: the step would need phase 65,536: 10; with the first alone, phase 65,535.")
    T(one, [(1, 65535, 1, u), (2, 65535, 1, u)], 0, 10)
    T(one, [(1, 65535, 1, u)], 0, 0, (65535, 1, u, none), {1: 1})
    note("16: decided is copied, then the step gives blank: 11.")
    T(one, [(1, 5, 0, d), (2, 5, 1, u)], 0, 11)


def from_c(two, seven):
    note("Cases 7, 8 and 9 from C: the decision is written, is kept, and 11 changes no byte.")
    t(two, [(0, 2, 1, u), (1, 2, 1, u)], 0, 0, (3, 1, d, 1),
      gives="03 00 0003 01 01 01 00 00000000 00000000 00000000")
    t(seven, [(1, 4, 1, u)], 0, 0, (4, 1, u, 1), {1: 1},
      gives="03 00 0004 01 00 01 00 00000000 00000002 00000000")
    t(seven, [(2, 5, 0, d)], 0, 11)
