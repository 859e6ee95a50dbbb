"""Tells a vote round by round, from the states that the proved program bench prints.

    tools/trace [--rounds A-B] FILE
    tools/trace [--rounds A-B] < FILE

First the states at the start, then for each round what changed, and why where that one tick shows it:

    copied from head 2        it heard a higher phase; the highest, of the lowest number, was head 2's
    stepped, 3 of 5 heard     it heard so many at its phase in this round, over half;
                              or not over half now, and others before at the same phase
    heard nothing             every ballot was lost to it

A head that is not named is as it was: it heard no higher phase, and at its own not over half. With
--rounds only the rounds A to B are told. tools/picture draws the same.

Status 1 where the file is refused, with the number, the place and what it means on standard error; 2
where something else keeps it from being told.
"""

import sys

sys.dont_write_bytecode = True

import vote_command
from vote_trace import trace_of

if __name__ == "__main__":
    sys.exit(vote_command.main("trace", __doc__, trace_of))
