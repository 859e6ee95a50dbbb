"""The form of the lines: a vector on standard input, its answer on standard output."""

import engine

# What stands before the vectors.
TOP = """\
# Vectors for the vote engine, from document 01 and document 02's W1.  Written by
# tests/vectors/make.py: edit that.
# A line is a letter and hex bytes; spaces mean nothing.  Numbers of 4 bytes, high byte first.
#   R n ballot                  reading one ballot
#   S n own proposal            start
#   T record coin list          one tick
#   B record                    the ballot that a head sends
#   s n own proposal record     start from C
#   t length record coin list   one tick from C; the lent index holds FF in every byte before
#   b length record buffer      the ballot of a head, from C
# An answer has the number; for R, T and t then the index of the first offending ballot, from 0;
# then the bytes given back."""

# What the lent index holds before a tick from C: every bit set.
FORMER_INDEX = 2 ** 64 - 1


def write_line(letter, groups):
    assert sum(len(group) for group in groups) <= 700
    return " ".join([letter] + [group.hex() for group in groups if len(group) > 0])


def read_line(line):
    """A line of stdin as its reader takes it: spaces mean nothing."""
    letter = line[0]
    data = bytes.fromhex(line[1:])

    def number_at(place):
        return int.from_bytes(data[place:place + 4], "big")

    if letter == "R":
        return letter, (number_at(0), data[4:])
    if letter == "S":
        return letter, (number_at(0), number_at(4), number_at(8))
    if letter == "T":
        return letter, (data[:20], data[24:], number_at(20))
    if letter == "B":
        return letter, (data,)
    if letter == "s":
        return letter, (data[12:], number_at(0), number_at(4), number_at(8))
    end = 1 + data[0]
    if letter == "t":
        return letter, (data[1:end], data[end + 4:], number_at(end))
    return letter, (data[1:end], data[end:])


def answer(letter, arguments, model=engine):
    """The number, the index and the bytes that stand on the line of stdout.

    R, T and t have an index; None stands for it where there is none.
    """
    if letter == "R":
        number, index, ballot = model.read(*arguments)
        return number, index, model.bytes_of(ballot)
    if letter == "T":
        record, data, coin = arguments
        number, index, head = model.tick(model.head_of(record), data, coin)
        return number, index, model.record_of(head)
    if letter == "t":
        return model.c_tick(*arguments, FORMER_INDEX)
    number, given = answer_without_index(letter, arguments, model)
    return number, None, given


def answer_without_index(letter, arguments, model):
    if letter == "S":
        number, head = model.start(*arguments)
        return number, model.record_of(head)
    if letter == "B":
        number, ballot = model.send(model.head_of(arguments[0]))
        return number, model.bytes_of(ballot)
    if letter == "s":
        return model.c_start(*arguments)
    if letter == "b":
        return model.c_ballot(*arguments)
    raise AssertionError(letter)


def write_answer(letter, number, index, given):
    """A line of stdout: number and index in two hex digits each, or as many as they need."""
    numbers = [number] if index is None else [number, index]
    return " ".join([letter] + ["%02x" % k for k in numbers] + [given.hex()])


def four(number):
    return number.to_bytes(4, "big")


def length_of(record):
    return bytes([len(record)])


def record_groups(record):
    """A record of 20 bytes field by field; any other length in one group."""
    if len(record) != 20:
        return [record]
    cuts = (0, 1, 2, 4, 5, 6, 7, 8, 12, 16, 20)
    return [record[a:b] for a, b in zip(cuts, cuts[1:])]


def list_groups(data):
    return [data[place:place + 5] for place in range(0, len(data), 5)]
