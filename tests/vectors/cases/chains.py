"""Chains of ticks: each goes on with the head that the last gave back."""

from vector import B, S, T, b, note, s, section, t
from words import blank, d, none, u


def cases():
    section("Chains: the head given back goes into the next line")
    over_half_propose_one_bit()
    coins_heal_a_split()
    two_heads()
    late_and_repeated()
    put_back()
    from_c()
    last_phases()
    many_heads()


def over_half_propose_one_bit():
    note("""Over half propose one bit and the first ticks are two rounds that lose nothing: every head
            decides that bit in them.  n 3, proposals 1 1 0.""")
    heads = [S(3, own, proposal, 0) for own, proposal in enumerate((1, 1, 0))]
    first = [(0, 1, 1, u), (1, 1, 1, u), (2, 1, 0, u)]
    second = [(0, 2, 1, u), (1, 2, 1, u), (2, 2, 1, u)]
    heads = [T(head, first, 0, 0, (2, 1, u, none)) for head in heads]
    heads = [T(head, second, 0, 0, (3, 1, d, 1)) for head in heads]


def coins_heal_a_split():
    note("""n 4, proposals 1 1 0 0: blank at phase 2, coins 1 1 1 0 at phase 2, so 1 has three of four
            at phase 3 and is decided at phase 4.  Head 3, whose coin was 0.""")
    head = S(4, 3, 0, 0)
    head = T(head, [(0, 1, 1, u), (1, 1, 1, u), (2, 1, 0, u), (3, 1, 0, u)], 0, 0, (2, blank, u, none))
    head = T(head, [(k, 2, blank, u) for k in range(4)], 0, 0, (3, 0, u, none))
    head = T(head, [(0, 3, 1, u), (1, 3, 1, u), (2, 3, 1, u), (3, 3, 0, u)], 0, 0, (4, 1, u, none))
    head = T(head, [(k, 4, 1, u) for k in range(4)], 0, 0, (5, 1, d, 1))


def two_heads():
    note("n 2, proposals 0 and 1: split, coins unlike, split again, coins alike, decided.  Head 0.")
    head = S(2, 0, 0, 0)
    head = T(head, [(0, 1, 0, u), (1, 1, 1, u)], 1, 0, (2, blank, u, none))
    head = T(head, [(0, 2, blank, u), (1, 2, blank, u)], 0, 0, (3, 0, u, none))
    head = T(head, [(0, 3, 0, u), (1, 3, 1, u)], 1, 0, (4, blank, u, none))
    head = T(head, [(0, 4, blank, u), (1, 4, blank, u)], 1, 0, (5, 1, u, none))
    head = T(head, [(0, 5, 1, u), (1, 5, 1, u)], 0, 0, (6, 1, u, none))
    head = T(head, [(0, 6, 1, u), (1, 6, 1, u)], 0, 0, (7, 1, d, 1))


def late_and_repeated():
    note("""n 5, own number 2: ballots come one at a time, late and repeated.  Repeats count once over
            ticks; late ones change nothing; a higher one is copied.""")
    head = S(5, 2, 0, 0)
    head = T(head, [(2, 1, 0, u)], 0, 0, (1, 0, u, none), {2: 0})
    head = T(head, [(2, 1, 0, u), (4, 1, 1, u), (2, 1, 0, u)], 0, 0, (1, 0, u, none), {2: 0, 4: 1})
    head = T(head, [(0, 1, 0, u)], 0, 0, (2, blank, u, none))
    head = T(head, [(1, 1, 1, u), (3, 1, 0, u), (2, 1, 0, u)], 0, 0, (2, blank, u, none))
    head = T(head, [(2, 2, blank, u), (0, 2, blank, u)], 0, 0, (2, blank, u, none), {0: blank, 2: blank})
    head = T(head, [(3, 4, 0, u)], 1, 0, (4, 0, u, none), {3: 0})
    head = T(head, [(1, 2, blank, u), (4, 3, 0, u), (3, 3, 0, u)], 0, 0, (4, 0, u, none), {3: 0})
    head = T(head, [(2, 4, 0, u), (4, 4, blank, u)], 1, 0, (5, 0, u, none))


def put_back():
    note("""n 3: decided, put back to undecided by a copy, refused ticks between that leave the head as
            it came, the decision kept all the way, decided again with the same value.""")
    head = S(3, 2, 0, 0)
    head = T(head, [(2, 1, 0, u), (1, 1, 0, u)], 1, 0, (2, 0, u, none))
    head = T(head, [(2, 2, 0, u), (1, 2, 0, u)], 1, 0, (3, 0, d, 0))
    head = T(head, [(1, 4, blank, u)], 1, 0, (4, blank, u, 0), {1: blank})
    head = T(head, [(0, 4, 1, u), (1, 4, 1, u)], 1, 8, index=1)
    head = T(head, [(0, 4, blank, u)], 1, 0, (5, 1, u, 0))
    head = T(head, [(0, 7, 1, d)], 1, 11)
    head = T(head, [(2, 5, 1, u), (1, 5, 0, u)], 1, 0, (6, blank, u, 0))
    head = T(head, [(1, 6, 1, u), (0, 6, 1, u)], 1, 11)
    head = T(head, [(1, 6, 0, u), (0, 6, 0, u)], 1, 0, (7, 0, d, 0))


def from_c():
    note("""From C, n 2: start, ballot, tick, a refused tick that leaves the record, tick, ballot, and
            on to the last phase.""")
    record = s(2, 1, 1, bytes.fromhex("5a" * 20), 0)
    buffer = bytes.fromhex("eeeeeeeeee")
    b(record, buffer, 0, "0101000001")
    record = t(record, [(0, 1, 1, u), (1, 1, 1, u)], 0, 0, (2, 1, u, none))
    record = t(record, [(1, 2, blank, u)], 0, 7, index=0)
    record = t(record, [(0, 2, 1, u), (1, 2, 1, u)], 0, 0, (3, 1, d, 1))
    b(record, buffer, 0, "0101010003")
    record = t(record, [(0, 65535, 1, d)], 0, 0, (65535, 1, d, 1), {0: 1})
    record = t(record, [(1, 65535, 1, d)], 0, 10)
    b(record, buffer, 0, "010101ffff")


def last_phases():
    note("The last phases, n 3: a copy to 65,533, two steps, then 10.")
    head = S(3, 1, 0, 0)
    head = T(head, [(2, 65533, 1, u)], 0, 0, (65533, 1, u, none), {2: 1})
    head = T(head, [(0, 65533, 1, u)], 0, 0, (65534, 1, u, none))
    head = T(head, [(0, 65534, 1, u), (1, 65534, 1, u)], 0, 0, (65535, 1, d, 1))
    head = T(head, [(1, 65535, 1, d)], 0, 0, (65535, 1, d, 1), {1: 1})
    head = T(head, [(0, 65535, 1, d)], 0, 10)


def many_heads():
    note("n 32, head 31 proposes 0, heads 0 to 16 propose 1: two rounds that lose nothing.")
    head = S(32, 31, 0, 0)
    head = T(head, [(k, 1, 1 if k < 17 else 0, u) for k in range(32)], 0, 0, (2, 1, u, none))
    head = T(head, [(k, 2, 1, u) for k in range(32)], 0, 0, (3, 1, d, 1))
    B(head, 0, "1f01010003")
