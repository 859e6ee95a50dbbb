"""Longer lists with forged ballots, by the fixed generator."""

from engine import Ballot
from generator import Generator
from vector import T, note, section, t
from words import H, blank, d, none, packed, u, with_one


def cases():
    section("Longer lists with forged ballots")
    dice = Generator(2024)
    none_forged(dice)
    one_forged(dice)
    differing(dice)
    both_heard(dice)
    last_phases(dice)
    against_a_decision(dice)
    from_c(dice)


def none_forged(dice):
    note("No forged one yet: 64 ballots of five phases around the head's own, n 32 and n 9.")
    for n, own in ((32, 31), (9, 4)):
        T(H(n, own, 5, 1, u, none), mixed(dice, n, own, (1, 2, 3, 4, 5), 64), 1, 0)
        T(H(n, own, 5, 1, u, none), mixed(dice, n, own, (4, 5, 6, 7, 8), 64), 0, 0)


def one_forged(dice):
    note("One ballot among 64 breaks a ballot rule, below, at and above the phase: 6.")
    for index, forged in ((7, (3, 1, blank, u)), (40, (32, 5, 1, u)), (63, (3, 8, blank, d))):
        ballots = mixed(dice, 32, 0, (1, 2, 3, 4, 5), 63)
        T(H(32, 0, 5, 1), with_one(ballots, index, forged), 0, 6, index=index)

    note("One ballot among 64 under the head's own number: 7.")
    for index, forged in ((0, (9, 6, 1, u)), (31, (9, 5, 0, u)), (63, (9, 5, 1, d))):
        ballots = mixed(dice, 32, 9, (4, 5), 63)
        T(H(32, 9, 5, 1), with_one(ballots, index, forged), 1, 7, index=index)

    note("The same with the head's own ballots as they were sent, of this phase and before: accepted.")
    own_ones = [Ballot(9, 5, 1, u), Ballot(9, 4, blank, u), Ballot(9, 1, 0, u)]
    T(H(32, 9, 5, 1), mixed(dice, 32, 9, (4, 5), 40) + own_ones + mixed(dice, 32, 9, (1, 2), 21), 1, 0)


def differing(dice):
    note("One pair among 64 differs in value or in status, below, at and above the phase: 8.")
    for phase, one, other in ((2, (20, 2, 0, u), (20, 2, blank, u)), (5, (20, 5, 0, u), (20, 5, 1, u)),
                              (8, (20, 8, 1, d), (20, 8, 1, u))):
        ballots = [x for x in mixed(dice, 32, 0, (2, 5, 8), 62) if (x.sender, x.phase) != (20, phase)]
        later = len(ballots)
        T(H(32, 0, 5, 1), with_one(with_one(ballots, 5, one), later, other), 1, 8, index=later)

    note("Among 60 one differs from what its sender is held under: 8.")
    ballots = [x for x in mixed(dice, 32, 0, (4, 5), 60) if x.sender != 31]
    T(H(32, 0, 5, 1, zeros=[31]), ballots + [Ballot(31, 5, 1, u)], 0, 8, index=len(ballots))


def both_heard(dice):
    note("Blank and 1 are heard at the even phase, and one forged 0: 9; at the odd phase no 9.")
    ballots = [x for x in mixed(dice, 32, 0, (3, 4), 60) if x.sender != 17]
    T(H(32, 0, 4, 1), with_one(ballots, 0, (17, 4, 0, u)), 0, 9)
    T(H(32, 0, 3, 1), with_one(ballots, 30, (17, 4, 0, u)), 0, 9)
    T(H(32, 0, 3, 1), mixed(dice, 32, 0, (2, 3), 60), 0, 0)


def last_phases(dice):
    note("Ballots of 65,534 and 65,535: a quorum at 65,535 is 10; 16 of them are not.")
    T(H(32, 0, 65534, 1), mixed(dice, 32, 0, (65534,), 20) +
      [Ballot(k, 65535, k % 2, u) for k in range(1, 32)], 0, 10)
    T(H(32, 0, 65534, 1), mixed(dice, 32, 0, (65534,), 40) +
      [Ballot(k, 65535, k % 2, u) for k in range(16, 32)], 0, 0, (65535, 0, u, none),
      {k: k % 2 for k in range(16, 32)})


def against_a_decision(dice):
    note("Decided ballots against a decision: 64 of them give 11, in either way; equal ones stand.")
    zeros = mixed(dice, 32, 0, (7, 9), 64, value=0)
    T(H(32, 0, 5, 1, u, 1), [x._replace(status=d) for x in zeros], 0, 11)
    T(H(32, 0, 5, 0, d, 0), [x._replace(status=d) for x in zeros], 0, 0)
    zeros = [Ballot(k, 6, 0, u) for k in range(1, 32)]
    T(H(32, 0, 5, 1, d, 1), zeros * 2, 1, 11)
    T(H(32, 0, 5, 0, d, 0), zeros * 2, 1, 0, (7, 0, d, 0))


def from_c(dice):
    note("From C: 64 ballots, accepted, and the same with the last one forged.")
    ballots = mixed(dice, 32, 31, (3, 4, 5), 63)
    t(H(32, 31, 3, 0), ballots + [ballots[0]], 1, 0)
    t(H(32, 31, 3, 0), ballots + [Ballot(31, 4, 0, u)], 1, 7, index=63)
    t(H(32, 31, 3, 0), packed(ballots) + bytes.fromhex("2001000003"), 1, 6, index=63)


def mixed(dice, n, own, phases, count, value=None):
    """Honest enough: one ballot for each sender and phase, own ones left out, repeated."""
    table = {}
    ballots = []
    for k in range(count):
        sender = (own + 1 + dice.below(n - 1)) % n
        phase = phases[dice.below(len(phases))]
        if (sender, phase) not in table:
            choice = (0, 1) if phase % 2 == 1 else (1, blank)
            said = choice[dice.below(2)] if value is None else value
            table[sender, phase] = Ballot(sender, phase, said, u)
        ballots.append(table[sender, phase])
    return ballots
