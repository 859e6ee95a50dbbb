"""Steps 2 and 3: copying, quorums, and errors in them that look right."""

from vector import T, note, section, t
from words import H, blank, d, fresh, none, u


def cases():
    quorums()
    quorums_of_many()
    copying()
    old_ballots_are_left_behind()
    holding_a_quorum()
    holding_a_quorum_at_the_last_phases()
    errors_that_look_right()


def quorums():
    section("Step 3: the number of heads heard, doubled, exceeds n; more than n/2 heads")
    note("n 2, odd: one is not enough; two alike; two unlike give blank.")
    T(fresh(2), from_senders(1, [1]), 0, 0, (1, 1, u, none), {0: 1})
    T(fresh(2), from_senders(1, [1, 1]), 0, 0, (2, 1, u, none))
    T(fresh(2), from_senders(1, [1, 0]), 0, 0, (2, blank, u, none))
    note("n 2, even: two alike decide; one and a blank do not; two blanks take the coin.")
    T(H(2, 0, 2, 1), from_senders(2, [1, 1]), 0, 0, (3, 1, d, 1))
    T(H(2, 0, 2, blank), from_senders(2, [blank, 0]), 1, 0, (3, 0, u, none))
    T(H(2, 0, 2, blank), from_senders(2, [blank, blank]), 1, 0, (3, 1, u, none))
    note("n 3, odd: the head's own value 1 gives way to the majority; the head need not hear itself.")
    T(fresh(3), [(1, 1, 0, u), (2, 1, 0, u)], 0, 0, (2, 0, u, none))
    note("A head's own ballot counts only where it is heard: one other of three is no quorum.")
    T(fresh(3), [(2, 1, 1, u)], 0, 0, (1, 1, u, none), {2: 1})
    note("n 4, odd: two and two give blank; three alike are taken.")
    T(fresh(4), from_senders(1, [1, 1, 0, 0]), 0, 0, (2, blank, u, none))
    T(fresh(4), from_senders(1, [1, 0, 0, 0]), 0, 0, (2, 0, u, none))
    note("n 4, even: two ones of three do not decide; three do; blanks count for the step.")
    T(H(4, 0, 2, 1), from_senders(2, [1, 1, blank]), 0, 0, (3, 1, u, none))
    T(H(4, 0, 2, 1), from_senders(2, [1, 1, 1, blank]), 0, 0, (3, 1, d, 1))
    T(H(4, 0, 2, blank), from_senders(2, [blank, 0, 0, 0]), 1, 0, (3, 0, d, 0))
    note("A blank majority decides nothing: it takes the 1 that was heard at all.")
    T(H(4, 0, 2, blank), from_senders(2, [blank, blank, blank, 1]), 0, 0, (3, 1, u, none))
    note("n 5: three of five are a quorum and a majority.")
    T(fresh(5), from_senders(1, [1, 1, 1]), 0, 0, (2, 1, u, none))


def quorums_of_many():
    note("n 31: 15 are no quorum, 16 are.")
    T(fresh(31), from_senders(1, [0] * 15, first=16), 0, 0, (1, 1, u, none),
      {k: 0 for k in range(16, 31)})
    T(fresh(31), from_senders(1, [0] * 16, first=15), 0, 0, (2, 0, u, none))
    note("n 32: 16 are no quorum, 17 are; 17 of 32 are a majority, 16 are not; head 31 counts.")
    T(fresh(32), from_senders(1, [0] * 16, first=16), 0, 0, (1, 1, u, none),
      {k: 0 for k in range(16, 32)})
    T(fresh(32), from_senders(1, [0] * 17, first=15), 0, 0, (2, 0, u, none))
    T(fresh(32), from_senders(1, [1] * 16 + [0] * 16), 0, 0, (2, blank, u, none))
    T(fresh(32), from_senders(1, [1] * 17 + [0] * 15), 0, 0, (2, 1, u, none))
    T(H(32, 31, 2, 0), from_senders(2, [0] * 17, first=15), 1, 0, (3, 0, d, 0))
    T(H(32, 31, 2, blank), from_senders(2, [0] * 16 + [blank] * 16), 1, 0, (3, 0, u, none))
    T(H(32, 0, 2, blank), from_senders(2, [blank] * 31 + [1]), 0, 0, (3, 1, u, none))
    note("The coin is taken even against the head's own value, where only blank was heard.")
    T(H(3, 0, 2, 1), [(1, 2, blank, u), (2, 2, blank, u)], 0, 0, (3, 0, u, none))
    note("Held and new ballots are counted together, each sender once; then the sets become empty.")
    T(H(5, 0, 1, 1, ones=[0, 1]), [(0, 1, 1, u), (1, 1, 1, u)], 0, 0, "as before")
    T(H(5, 0, 2, 1, ones=[1, 2]), [(3, 2, 1, u)], 0, 0, (3, 1, d, 1))
    T(H(32, 0, 1, 1, ones=range(16)), [(31, 1, 0, u)], 0, 0, (2, blank, u, none))
    note("A decided ballot of the present phase is heard with its value; its status is not taken.")
    T(H(3, 0, 3, 1), [(1, 3, 0, d), (2, 3, 0, d)], 0, 0, (4, 0, u, none))
    T(H(3, 0, 3, 1), [(1, 3, 1, d)], 0, 0, (3, 1, u, none), {1: 1})


def copying():
    section("Step 2: taking phase, value and status from a ballot of the highest phase")
    note("Without a quorum: phase, value and status are taken, and that phase's ballots are held.")
    T(fresh(5), [(1, 2, 0, u)], 0, 0, (2, 0, u, none), {1: 0})
    T(fresh(32), [(31, 65534, 0, u)], 0, 0, (65534, 0, u, none), {31: 0})
    note("Phases are numbers of two bytes: 256 is above 255, also by a step, and 512 above 511.")
    T(H(5, 0, 255, 1), [(1, 256, 0, u)], 0, 0, (256, 0, u, none), {1: 0})
    T(H(3, 0, 255, 1), [(0, 255, 1, u), (1, 255, 1, u)], 0, 0, (256, 1, u, none))
    T(H(5, 0, 300, blank), [(1, 255, 0, d), (2, 299, 1, d)], 0, 0, "as before")
    T(fresh(5), [(1, 511, 1, u), (2, 512, blank, u)], 0, 0, (512, blank, u, none), {2: blank})
    note("Decided is copied: the decision is the value, without any step.")
    T(fresh(5), [(2, 3, 0, d)], 0, 0, (3, 0, d, 0), {2: 0})
    T(H(5, 0, 2, blank), [(2, 4, 1, d)], 0, 0, (4, 1, d, 1), {2: 1})
    note("Among several senders the lowest number gives it, in any order of the list.")
    three = [(1, 5, 1, u), (2, 5, 0, d), (3, 5, 0, u)]
    held = {1: 1, 2: 0, 3: 0}
    for order in ((0, 1, 2), (1, 0, 2), (2, 1, 0)):
        T(fresh(8), [three[k] for k in order], 0, 0, (5, 1, u, none), held)
    note("The same with the decided ballot under the lowest number, and at an even phase with blanks.")
    T(fresh(8), [(4, 5, 1, u), (3, 5, 0, d), (7, 5, 0, u)], 0, 0, (5, 0, d, 0), {3: 0, 4: 1, 7: 0})
    T(fresh(8), [(7, 6, 1, d), (4, 6, blank, u)], 0, 0, (6, blank, u, none), {4: blank, 7: 1})
    note("Lowest by number and not by bit or byte: 9 gives it before 10 and 31; n 32.")
    T(fresh(32), [(31, 3, 0, u), (10, 3, 0, u), (9, 3, 1, u)], 0, 0, (3, 1, u, none),
      {9: 1, 10: 0, 31: 0})
    note("The highest phase decides, not the lowest number: sender 1 has a lower phase.")
    T(fresh(5), [(1, 3, 0, u), (2, 5, 1, u)], 0, 0, (5, 1, u, none), {2: 1})
    T(fresh(5), [(1, 2, 0, u), (2, 3, 0, u), (3, 4, 0, u), (4, 5, 1, u)], 0, 0,
      (5, 1, u, none), {4: 1})
    note("One sender at three phases: its highest is taken.")
    T(fresh(5), [(1, 2, 0, u), (1, 4, blank, u), (1, 3, 1, u)], 0, 0, (4, blank, u, none), {1: blank})


def old_ballots_are_left_behind():
    note("""Heard sets now hold that phase's ballots only: two of four held at phase 1, one heard at
            phase 3: no quorum.  With the old ballots left there would be one.""")
    T(H(4, 0, 1, 1, ones=[0, 1]), [(2, 3, 1, u)], 0, 0, (3, 1, u, none), {2: 1})
    T(H(4, 0, 2, 1, ones=[0, 1]), [(2, 4, blank, u), (3, 4, blank, u)], 1, 0,
      (4, blank, u, none), {2: blank, 3: blank})
    note("""Ballots of the present phase that come with a higher one are not left either: phase 1 has a
            quorum, but step 2 comes before step 3.""")
    T(fresh(3), [(0, 1, 1, u), (1, 1, 1, u), (2, 2, 0, u)], 0, 0, (2, 0, u, none), {2: 0})
    note("The head's own ballot of the present phase is not carried to the copied one.")
    T(fresh(3), [(0, 1, 1, u), (1, 3, 1, u)], 0, 0, (3, 1, u, none), {1: 1})
    note("Copying and then the step at the copied phase, odd and even, with the giver outvoted.")
    T(fresh(5), [(1, 3, 1, u), (2, 3, 0, u), (3, 3, 0, u), (4, 3, 0, u)], 0, 0, (4, 0, u, none))
    T(fresh(5), [(1, 4, 0, u), (2, 4, 0, u), (3, 4, 0, d)], 1, 0, (5, 0, d, 0))
    note("""Ballots below the present phase change nothing: not the sets, not the phase; also in the
            company of ballots of the present phase.""")
    T(H(3, 0, 4, 1), [(1, 1, 0, u), (2, 1, 0, u), (1, 3, 0, d), (2, 3, 0, d)], 0, 0, "as before")
    T(H(5, 0, 3, 1), [(1, 1, 1, u), (2, 2, blank, u), (3, 3, 1, d)], 0, 0, (3, 1, u, none), {3: 1})
    note("From C: the copy is written to the record, decision and sets with it.")
    t(fresh(5), [(2, 3, 0, d)], 0, 0, (3, 0, d, 0), {2: 0},
      gives="05 00 0003 00 01 00 00 00000004 00000000 00000000")


def holding_a_quorum():
    section("Heads that already hold more than n/2: an empty list steps too")
    note("Odd phase, undecided.")
    T(H(3, 0, 1, 1, ones=[1, 2]), [], 0, 0, (2, 1, u, none))
    T(H(3, 0, 1, 1, zeros=[1], ones=[0]), [], 1, 0, (2, blank, u, none))
    T(H(32, 0, 1, 1, ones=range(15, 32)), [], 0, 0, (2, 1, u, none))
    note("Exactly half is held: no step.")
    T(H(4, 0, 2, 1, ones=[0, 3]), [], 1, 0, "as before")
    note("Even phase, undecided: a majority decides; only blanks with coin 0 and 1.")
    T(H(3, 0, 2, 1, ones=[0, 1]), [], 0, 0, (3, 1, d, 1))
    T(H(3, 0, 2, 1, blanks=[1, 2]), [], 0, 0, (3, 0, u, none))
    T(H(3, 0, 2, 1, blanks=[1, 2]), [], 1, 0, (3, 1, u, none))
    note("Odd phase, decided: the same value stands, blank is 11, the other value is 11.")
    T(H(3, 0, 3, 1, d, 1, ones=[0, 2]), [], 0, 0, (4, 1, d, 1))
    T(H(3, 0, 3, 1, d, 1, zeros=[1], ones=[0]), [], 0, 11)
    T(H(3, 0, 3, 1, d, 1, zeros=[1, 2]), [], 0, 11)
    note("Odd phase, undecided with a decision: blank and the other value are fine.")
    T(H(3, 0, 3, 1, u, 1, zeros=[1], ones=[0]), [], 0, 0, (4, blank, u, 1))
    T(H(3, 0, 3, 1, u, 1, zeros=[1, 2]), [], 0, 0, (4, 0, u, 1))
    note("Even phase, decided: blanks with the coin 0 are 11, with 1 accepted; a 0 heard is 11.")
    T(H(3, 0, 4, 1, d, 1, blanks=[1, 2]), [], 0, 11)
    T(H(3, 0, 4, 1, d, 1, blanks=[1, 2]), [], 1, 0, (5, 1, d, 1))
    T(H(3, 0, 4, 1, d, 1, zeros=[1], blanks=[2]), [], 1, 11)
    T(H(3, 0, 4, 0, d, 0, zeros=[0, 1]), [], 1, 0, (5, 0, d, 0))
    note("Even phase, undecided with a decision: only a majority against it is 11.")
    T(H(3, 0, 4, 1, u, 1, zeros=[1, 2]), [], 1, 11)
    T(H(3, 0, 4, 1, u, 1, zeros=[1], blanks=[2]), [], 1, 0, (5, 0, u, 1))
    T(H(3, 0, 4, blank, u, 1, blanks=[0, 2]), [], 0, 0, (5, 0, u, 1))
    T(H(3, 0, 4, blank, u, 1, ones=[1, 2]), [], 0, 0, (5, 1, d, 1))


def holding_a_quorum_at_the_last_phases():
    note("Phase 65,535: 10, also where 11 would apply; phase 65,534: a step, or 11.")
    T(H(3, 0, 65535, 1, ones=[0, 1]), [], 0, 10)
    T(H(3, 0, 65535, 1, d, 1, zeros=[1], ones=[2]), [], 0, 10)
    T(H(3, 0, 65534, 1, d, 1, ones=[0, 1]), [], 0, 0, (65535, 1, d, 1))
    T(H(3, 0, 65534, 1, d, 1, blanks=[1, 2]), [], 0, 11)
    note("The same with a list of old ballots only; and a higher ballot copies away first.")
    T(H(3, 0, 3, 1, ones=[1, 2]), [(1, 1, 0, u), (2, 2, blank, u)], 0, 0, (4, 1, u, none))
    T(H(3, 0, 3, 1, d, 1, zeros=[1, 2]), [(1, 4, blank, u)], 0, 0, (4, blank, u, 1), {1: blank})
    note("From C the step is written, and 11 changes nothing.")
    t(H(3, 0, 2, 1, blanks=[1, 2]), [], 1, 0, (3, 1, u, none))
    t(H(3, 0, 3, 1, d, 1, zeros=[1], ones=[0]), [], 0, 11)


def errors_that_look_right():
    section("Errors that look right: an answer changes under each")
    note("Half is enough: n 4 with two heard would step, and two of four would decide.")
    T(fresh(4), [(2, 1, 0, u), (3, 1, 0, u)], 0, 0, (1, 1, u, none), {2: 0, 3: 0})
    T(H(4, 0, 2, 1), [(0, 2, 1, u), (1, 2, 1, u), (2, 2, blank, u), (3, 2, blank, u)], 1, 0,
      (3, 1, u, none))
    note("A majority of those heard instead of all n: two of three heard, n 4 and n 5.")
    T(fresh(4), [(1, 1, 0, u), (2, 1, 0, u), (3, 1, 1, u)], 0, 0, (2, blank, u, none))
    T(H(5, 0, 4, 0), [(1, 4, 0, u), (2, 4, 0, u), (3, 4, blank, u)], 1, 0, (5, 0, u, none))
    note("A coin drawn although one value was heard.")
    T(H(4, 0, 2, blank), [(0, 2, blank, u), (1, 2, blank, u), (3, 2, 0, u)], 1, 0, (3, 0, u, none))
    note("""Ballots counted instead of senders: a repeat would make a quorum, a majority, a decision;
            in one list, or by a repeat of what is held.""")
    T(fresh(3), [(1, 1, 1, u), (1, 1, 1, u)], 0, 0, (1, 1, u, none), {1: 1})
    T(fresh(5), [(1, 1, 0, u), (1, 1, 0, u), (2, 1, 0, u), (3, 1, 1, u)], 0, 0, (2, blank, u, none))
    T(H(5, 0, 2, 1), [(1, 2, 1, u), (2, 2, 1, u), (2, 2, 1, u), (3, 2, blank, u)], 0, 0,
      (3, 1, u, none))
    T(H(5, 0, 1, 1, ones=[1, 2]), [(1, 1, 1, u), (3, 1, 0, u)], 0, 0, (2, blank, u, none))
    note("Status decided treated as lasting: undecided is copied, at an odd and an even phase.")
    T(H(3, 0, 3, 1, d, 1), [(1, 5, 1, u)], 0, 0, (5, 1, u, 1), {1: 1})
    T(H(3, 0, 4, 0, d, 0), [(2, 6, blank, u)], 0, 0, (6, blank, u, 0), {2: blank})
    note("The decision erased with it: kept, it refuses a decided 0.  11.")
    T(H(3, 0, 4, 0, u, 1), [(1, 5, 0, d)], 0, 11)
    note("Old ballots left after step 2: the sets of phase 2 would meet those of phase 4.")
    T(H(4, 0, 2, 1, ones=[0, 1]), [(2, 4, 0, u)], 0, 0, (4, 0, u, none), {2: 0})
    note("Old ballots left after step 3: the sets given back are empty.")
    T(H(4, 0, 1, 1, ones=[0, 1]), [(2, 1, 1, u)], 0, 0, (2, 1, u, none))


def from_senders(phase, values, status=u, first=0):
    return [(first + k, phase, value, status) for k, value in enumerate(values)]
