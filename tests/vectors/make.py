"""Writes the vectors and their answers for the vote engine.

    python3 tests/vectors/make.py DIR           writes DIR/stdin and DIR/stdout
    python3 tests/vectors/make.py --check DIR   only compares, and fails where
                                                a file differs

The answers come from engine.py, a model of document 01 and of document 02's W1.
So that the model is not only checked against itself, the number of each vector
is typed by hand in cases/, the index at each 6, 7 and 8 of a tick, and much else
that is given back.

The output is the same each time.  The only chance in it is the generator of
generator.py, with its seeds written in cases/.
"""

import os
import sys
from collections import Counter

sys.dont_write_bytecode = True

from cases import (chains, coin_and_length, forged, honest, offenders, reading, refusal_6,
                   refusals_7_and_8, refusals_9_to_11, sending, sixteen, soundness, starts, steps)
from line import TOP
from vector import answers, lines

# In the order of the lines.
PARTS = (sixteen, starts, reading, sending, soundness, coin_and_length, refusal_6, refusals_7_and_8,
         refusals_9_to_11, offenders, steps, chains, honest, forged)

# Which numbers each entry can give back, by document 01.
CAN_GIVE = {
    "R": {0, 1, 5, 6},
    "S": {0, 1, 2},
    "T": {0, 3, 4, 5, 6, 7, 8, 9, 10, 11},
    "B": {0, 3},
    "s": {0, 1, 2, 3},
    "t": {0, 3, 4, 5, 6, 7, 8, 9, 10, 11},
    "b": {0, 3, 5},
}


def main(arguments):
    if arguments[:1] in (["-h"], ["--help"]):
        print(__doc__)
        return 0
    check = arguments[:1] == ["--check"]
    if len(arguments) != 1 + check:
        print(__doc__)
        return 2
    make()
    texts = {"stdin": "\n".join([TOP] + lines) + "\n", "stdout": "\n".join(answers) + "\n"}
    differing = 0
    for name, text in texts.items():
        path = os.path.join(arguments[-1], name)
        if not check:
            write(path, text)
        elif not holds(path, text):
            print("differs: " + path)
            differing += 1
    print_table()
    print_indexes()
    print("%d vectors, the number of each typed by hand, and the index at 6, 7 and 8" % len(answers))
    return 1 if differing else 0


def make():
    for part in PARTS:
        part.cases()


def write(path, text):
    with open(path, "wb") as file:
        file.write(text.encode("ascii"))


def holds(path, text):
    try:
        with open(path, "rb") as file:
            return file.read() == text.encode("ascii")
    except OSError:
        return False


def print_table():
    """Counts by letter and by number; every number is reached where it can be."""
    counted = Counter((line[0], int(line[2:4], 16)) for line in answers)
    print("      " + "".join("%5d" % number for number in range(12)) + "  all")
    for letter in CAN_GIVE:
        row = [counted[letter, number] for number in range(12)]
        shown = ["%5d" % c if number in CAN_GIVE[letter] else "    -" for number, c in enumerate(row)]
        print("    %s " % letter + "".join(shown) + "%5d" % sum(row))
        assert {number for number, c in enumerate(row) if c > 0} == CAN_GIVE[letter], letter
    columns = [sum(counted[letter, number] for letter in CAN_GIVE) for number in range(12)]
    print("  all " + "".join("%5d" % count for count in columns) + "%5d" % len(answers))


def print_indexes():
    """Counts 6, 7 and 8 of ticks by the index: each is reached at 0, in the middle and at 63."""
    print("index     0   ..   63")
    for number in (6, 7, 8):
        indexes = [int(line.split(" ")[2], 16) for line in answers
                   if line[0] in "Tt" and int(line[2:4], 16) == number]
        row = indexes.count(0), sum(0 < index < 63 for index in indexes), indexes.count(63)
        print("%5d " % number + "".join("%5d" % count for count in row))
        assert min(row) > 0 and sum(row) == len(indexes), number


if __name__ == "__main__":
    sys.exit(main(sys.argv[1:]))
