"""Tries the vectors: under each error of seeded_errors.py, some answer must change.

    python3 tests/vectors/errors.py [-v]

An error that no vector shows is printed, and the exit is non-zero.  -v prints how
many vectors show each.
"""

import os
import sys
import types

sys.dont_write_bytecode = True

import engine
import make
from line import answer
from seeded_errors import ERRORS
from vector import vectors

HERE = os.path.dirname(os.path.abspath(__file__))


def answers_of(model):
    given = []
    for letter, arguments in vectors:
        try:
            given.append(answer(letter, arguments, model))
        except Exception as broken:     # an error may break on a vector: that shows too
            given.append(repr(broken))
    return given


def main():
    make.make()
    with open(os.path.join(HERE, "engine.py")) as file:
        source = file.read()
    right = answers_of(engine)
    missed = 0
    thin = 0
    for what, old, new in ERRORS:
        assert source.count(old) == 1, (what, source.count(old))
        model = types.ModuleType("engine_with_an_error")
        sys.modules[model.__name__] = model
        exec(compile(source.replace(old, new), what, "exec"), model.__dict__)
        shown = sum(1 for a, b in zip(right, answers_of(model)) if a != b)
        if shown == 0:
            print("not shown: " + what)
            missed += 1
        if shown == 1:
            thin += 1
        if "-v" in sys.argv:
            print("%5d  %s" % (shown, what))
    print("%d errors, %d shown by some vector, %d of them by one alone"
          % (len(ERRORS), len(ERRORS) - missed, thin))
    return 1 if missed else 0


if __name__ == "__main__":
    sys.exit(main())
