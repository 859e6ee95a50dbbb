"""The vectors: each function here puts one, and stops where the model errs.

The functions are named after the letters of line.py.  `expect` is the number,
typed by hand; so is `index` at every 6, 7 and 8 of a tick.  Many vectors also
carry, typed by hand, the whole head that is given back (`after`, `held`) or its
bytes (`gives`).
"""

import textwrap

import engine
from engine import Head
from line import (answer, four, length_of, list_groups, read_line, record_groups, write_answer,
                  write_line)
from whole_set import WholeSet
from words import packed

lines = []          # of stdin
answers = []        # of stdout
vectors = []        # (letter, arguments): what was tried


def section(title):
    lines.append("")
    lines.append("# ==== " + title)


def note(text):
    for part in textwrap.wrap(" ".join(text.split()), 94):
        lines.append("# " + part)


def R(n, data, expect, gives=None):
    # One ballot stands at index 0, and other numbers than 6 give index 0.
    number, given = put("R", (n, data), [four(n), data], expect, 0)
    agree(given, gives)
    # Every accepted ballot's bytes are the only ones for it.
    assert given == (data if number == 0 else bytes(5))


def S(n, own, proposal, expect, gives=None):
    groups = [four(n), four(own), four(proposal)]
    number, given = put("S", (n, own, proposal), groups, expect)
    agree(given, gives)
    if number != 0:
        assert given == bytes(20)
    return engine.head_of(given)


def T(head, ballots, coin, expect, after=None, held=None, index=None):
    data = packed(ballots)
    record = engine.record_of(head)
    assert engine.head_of(record) == head
    groups = record_groups(record) + [four(coin)] + list_groups(data)
    number, given = put("T", (record, data, coin), groups, expect, by_hand(expect, index))
    check_offender(head, data, coin, number, index)
    check_after(head, data, coin, number, engine.head_of(given), after, held)
    return engine.head_of(given)


def B(head, expect, gives=None):
    record = engine.record_of(head)
    number, given = put("B", (record,), record_groups(record), expect)
    agree(given, gives)


def s(n, own, proposal, record, expect, gives=None):
    groups = [four(n), four(own), four(proposal)] + record_groups(record)
    number, given = put("s", (record, n, own, proposal), groups, expect)
    agree(given, gives)
    if number != 0:
        assert given == record
    return given


def t(record, ballots, coin, expect, after=None, held=None, gives=None, index=None):
    data = packed(ballots)
    if isinstance(record, Head):
        record = engine.record_of(record)
    groups = [length_of(record)] + record_groups(record) + [four(coin)] + list_groups(data)
    number, given = put("t", (record, data, coin), groups, expect, by_hand(expect, index))
    agree(given, gives)
    check_offender(engine.head_of(record), data, coin, number, index)
    if number != 0:
        assert given == record
    else:
        check_after(engine.head_of(record), data, coin, number, engine.head_of(given), after, held)
    return given


def b(record, buffer, expect, gives=None):
    if isinstance(record, Head):
        record = engine.record_of(record)
    groups = [length_of(record)] + record_groups(record) + [buffer]
    number, given = put("b", (record, buffer), groups, expect)
    agree(given, gives)
    if number != 0:
        assert given == bytes(len(buffer))


def by_hand(expect, index):
    """The index of a tick: typed at 6, 7 and 8; other numbers give index 0, typed or not."""
    if expect in (6, 7, 8):
        assert index is not None, "no index is typed"
        return index
    assert index in (None, 0), index
    return 0


def put(letter, arguments, groups, expect, index=None):
    """One line of stdin and its line of stdout.  The number and the bytes given back."""
    number, found, given = answer(letter, arguments)
    assert number == expect, (letter, arguments, "model", number, "by hand", expect)
    assert found == index, (letter, arguments, number, "index", found, "by hand", index)
    line = write_line(letter, groups)
    assert read_line(line) == (letter, arguments)
    lines.append(line)
    answers.append(write_answer(letter, number, found, given))
    vectors.append((letter, arguments))
    return number, given


def agree(given, gives):
    """The bytes given back are those typed by hand."""
    if gives is not None:
        assert given == bytes.fromhex(gives), (given.hex(), gives)


def check_offender(head, data, coin, number, index):
    """At 6, 7 and 8 the list up to the offending ballot gives that number; without it, not."""
    if number in (6, 7, 8):
        assert engine.tick(head, data[:5 * index + 5], coin)[0] == number, (head, data, index)
        assert engine.tick(head, data[:5 * index], coin)[0] != number, (head, data, index)


def check_after(before, data, coin, number, given, after, held):
    """A refused tick gives back the head as it came; an accepted one what is typed."""
    if number != 0:
        assert given == before and after is None and held is None
        return
    assert engine.sound(given), given
    whole = WholeSet(before)
    whole.tick([engine.ballot_of(before.n, five) for five in list_groups(data)], coin)
    assert whole.agrees_with(given), (before, given)
    if after == "as before":
        assert given == before, (before, given)
    elif after is not None:
        wanted = Head(before.n, before.own, *after, frozenset((held or {}).items()))
        assert given == wanted, (given, wanted)
