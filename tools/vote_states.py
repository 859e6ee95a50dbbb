"""The states of a vote after each of its rounds, every one of them printed by the proved program.

A report has the states after the last round.  So those after round r are in the report of the same
file cut to its first r rounds.  Whether round r is good is told by the good rounds of two reports.
"""

import re
from collections import namedtuple

from bench_program import Trouble
from run_file import cut_to, file_of

State = namedtuple("State", "phase value status decision")
Report = namedtuple("Report", "states bound good last_line")

FIRST_LINE = re.compile(r"heads (\d+) need (\d+) bound (\d+)$")
HEAD_LINE = re.compile(r"head (\d+) phase (\d+) value (0|1|blank) status (decided|undecided) decision (0|1|none)$")
LAST_LINE = re.compile(r"rounds (\d+) good (\d+) decided \d+$")


class Vote:
    """A run, and what its reports say of the states from after round `first` to after round `last`; 0 is the start.

    `reports` has them by the number of rounds, and that of the whole file.
    """

    def __init__(self, run, reports, first, last):
        self.run, self.first, self.last = run, first, last
        self.heads, self.need, self.rounds = len(run.proposals), run.need, len(run.rounds)
        self.bound, self.last_line = reports[self.rounds].bound, reports[self.rounds].last_line
        self.states = {after: reports[after].states for after in range(first, last + 1)}
        self.good = {number: reports[number].good > reports[number - 1].good
                     for number in range(first + 1, last + 1)}

    def lost(self, number):
        """For each receiver the senders whose ballots were lost to it in the round."""
        return self.run.rounds[number - 1][0]

    def heard(self, number):
        return [set(range(self.heads)) - senders for senders in self.lost(number)]


def vote_of(run, program, first, last, tell=lambda done, of_all: None):
    data = file_of(run)
    counts = sorted({*range(first, last + 1), len(run.rounds)})
    texts = program.reports([cut_to(data, count) for count in counts], lambda done: tell(done, len(counts)))
    reports = {count: report_in(text, run, count) for count, text in zip(counts, texts)}
    return Vote(run, reports, first, last)


def report_in(text, run, rounds):
    """The report of a run's first rounds, read line by line; nothing that is no report of them passes."""
    lines = text.splitlines()
    n = len(run.proposals)
    front = len(lines) == n + 2 and FIRST_LINE.match(lines[0])
    heads = [HEAD_LINE.match(line) for line in lines[1:-1]]
    end = front and LAST_LINE.match(lines[-1])
    if not end or not all(heads) or [int(head[1]) for head in heads] != list(range(n)):
        raise Trouble("what the program bench printed is no report of this file")
    if (int(front[1]), int(front[2]), int(end[1])) != (n, run.need, rounds):
        raise Trouble("what the program bench printed is the report of another file")
    states = [State(int(head[2]), head[3], head[4], head[5]) for head in heads]
    return Report(states, int(front[3]), int(end[2]), lines[-1])
