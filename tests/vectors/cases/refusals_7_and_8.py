"""Refusals 7 and 8: ballots that contradict the head, each other, or what is held."""

from vector import T, note, section, t
from words import H, blank, d, fresh, none, u


def cases():
    own_ballots()
    two_differ()
    one_differs_from_what_is_held()


def own_ballots():
    section("Refusal 7: a ballot under the head's own number")
    note("Its own ballot of the present phase stands: same value, same status; it is heard.")
    T(fresh(4), [(0, 1, 1, u)], 0, 0, (1, 1, u, none), {0: 1})
    T(H(4, 3, 4, 1, d, 1), [(3, 4, 1, d)], 0, 0, (4, 1, d, 1), {3: 1})
    T(fresh(32, 31, 0), [(31, 1, 0, u)], 0, 0, (1, 0, u, none), {31: 0})
    note("A higher phase: 7, whatever value; by one and by far; own number 0, n - 1, 31.")
    T(fresh(3), [(0, 2, 1, u)], 0, 7, index=0)
    T(fresh(3, 2), [(2, 2, blank, u)], 0, 7, index=0)
    T(fresh(32, 31), [(31, 65535, 1, d)], 0, 7, index=0)
    note("The same phase and another value.")
    T(fresh(3), [(0, 1, 0, u)], 0, 7, index=0)
    T(H(3, 0, 2, blank), [(0, 2, 1, u)], 0, 7, index=0)
    note("The same phase and value, another status: both ways, odd and even.")
    T(H(3, 0, 3, 1), [(0, 3, 1, d)], 0, 7, index=0)
    T(H(3, 0, 3, 1, d, 1), [(0, 3, 1, u)], 0, 7, index=0)
    T(H(3, 0, 4, 1, u, 1), [(0, 4, 1, d)], 0, 7, index=0)
    note("""Below its phase its own ballots are free of 7, whatever value and status; they change
            nothing.""")
    T(H(3, 0, 4, 1), [(0, 3, 0, d), (0, 2, blank, u), (0, 1, 0, u)], 0, 0, "as before")
    note("""Higher means above the head's phase as it came: 7 also where another ballot is higher still
            and would be copied; and at the present phase also where the list would copy away.""")
    T(fresh(3), [(1, 5, 1, u), (0, 3, 1, u)], 0, 7, index=1)
    T(fresh(3), [(1, 5, 1, u), (0, 5, 1, u)], 0, 7, index=1)
    T(fresh(3), [(1, 5, 1, u), (0, 1, 0, u)], 0, 7, index=1)
    note("7 comes before 8, 9 and 11, wherever it stands in the list.")
    T(fresh(3), [(1, 1, 0, u), (1, 1, 1, u), (0, 1, 0, u)], 0, 7, index=2)
    T(fresh(3), [(0, 1, 0, u), (0, 1, 1, u)], 0, 7, index=0)
    T(H(3, 0, 1, 1, ones=[0]), [(0, 1, 0, u)], 0, 7, index=0)
    T(H(3, 0, 2, 1), [(1, 2, 0, u), (2, 2, 1, u), (0, 2, blank, u)], 0, 7, index=2)
    T(H(3, 0, 3, 1, d, 1), [(2, 5, 0, d), (0, 3, 0, d)], 0, 7, index=1)
    note("From C.")
    t(fresh(3), [(0, 2, 1, u)], 0, 7, index=0)


def two_differ():
    section("Refusal 8: two ballots of one sender and phase differ, or one differs from what is held")
    note("In value, at the present phase, odd and even.")
    T(fresh(4), [(1, 1, 1, u), (1, 1, 0, u)], 0, 8, index=1)
    T(H(4, 0, 2, 1), [(1, 2, 1, u), (1, 2, blank, u)], 0, 8, index=1)
    note("In status alone.")
    T(H(4, 0, 3, 1), [(1, 3, 1, u), (1, 3, 1, d)], 0, 8, index=1)
    T(fresh(4), [(1, 5, 1, d), (1, 5, 1, u)], 0, 8, index=1)
    note("Below the present phase, where ballots change nothing, a pair that differs is 8 as well.")
    T(H(4, 0, 3, 1), [(1, 1, 0, u), (1, 1, 1, u)], 0, 8, index=1)
    T(H(4, 0, 5, 1), [(1, 3, 1, u), (1, 3, 1, d)], 0, 8, index=1)
    note("The head's own ballots below its phase are free of 7, but not of 8.")
    T(H(4, 0, 3, 1), [(0, 1, 0, u), (0, 1, 1, u)], 0, 8, index=1)
    note("Between the present and the highest phase.")
    T(fresh(4), [(1, 3, 0, u), (2, 5, 1, u), (1, 3, 1, u)], 0, 8, index=2)
    note("The pair at the ends of 64 ballots, and at the start of them.")
    same = [(2, 1, 1, u)]
    T(fresh(4), [(1, 1, 1, u)] + same * 62 + [(1, 1, 0, u)], 0, 8, index=63)
    T(fresh(4), [(1, 1, 1, u), (1, 1, 0, u)] + same * 62, 0, 8, index=1)
    note("One sender at two phases may differ; two senders at one phase may differ.  No 8.")
    T(H(4, 0, 3, 1), [(1, 1, 0, u), (1, 2, blank, u), (1, 3, 1, u)], 0, 0, (3, 1, u, none), {1: 1})
    T(H(4, 0, 3, 1), [(1, 3, 1, u), (2, 3, 0, d)], 0, 0, (3, 1, u, none), {1: 1, 2: 0})
    T(H(4, 0, 300, 1), [(1, 44, 1, u), (1, 300, blank, u)], 0, 0, (300, 1, u, none), {1: blank})


def one_differs_from_what_is_held():
    note("At the present phase another value than the one that sender is held under.")
    T(H(4, 0, 1, 1, ones=[1]), [(1, 1, 0, u)], 0, 8, index=0)
    T(H(4, 0, 2, 1, ones=[1]), [(1, 2, blank, u)], 0, 8, index=0)
    T(H(4, 0, 2, 1, blanks=[1]), [(1, 2, 1, u)], 0, 8, index=0)
    T(H(32, 0, 1, 1, ones=[31]), [(31, 1, 0, u)], 0, 8, index=0)
    note("Compared at the phase before copying, even if the list then copies away.")
    T(H(4, 0, 1, 1, ones=[1]), [(1, 1, 0, u), (2, 4, 1, u)], 0, 8, index=0)
    note("Status is not held: the same value with another status is no 8.")
    T(H(4, 0, 3, 1, ones=[1]), [(1, 3, 1, d)], 0, 0, "as before")
    note("What is held is of the present phase: ballots of that sender below or above it may differ.")
    T(H(4, 0, 3, 1, ones=[1]), [(1, 1, 0, u), (1, 2, 0, u)], 0, 0, "as before")
    T(H(4, 0, 1, 1, ones=[1]), [(1, 3, 0, u)], 0, 0, (3, 0, u, none), {1: 0})
    note("8 comes before 9, 10 and 11.")
    T(H(5, 0, 2, 1, ones=[1]), [(1, 2, 0, u)], 0, 8, index=0)
    T(fresh(3), [(1, 65535, 1, u), (2, 65535, 1, u), (2, 65535, 1, d)], 0, 8, index=2)
    T(H(3, 0, 3, 1, d, 1), [(2, 5, 0, d), (2, 5, 1, d)], 0, 8, index=1)
    note("From C: in a list, and against what is held.")
    t(H(4, 0, 3, 1), [(1, 3, 1, u), (1, 3, 1, d)], 0, 8, index=1)
    t(H(4, 0, 1, 1, ones=[1]), [(1, 1, 0, u), (2, 4, 1, u)], 0, 8, index=0)
