"""Tests of tools/picture and tools/trace that need no crate built: causes, reports misread, bad input, sizes.

    python3 tests/picture/without_program.py

The last line says how many answers are as expected.
"""

import glob
import os
import random
import re
import subprocess
import sys

sys.dont_write_bytecode = True

ROOT = os.path.normpath(os.path.join(os.path.dirname(os.path.abspath(__file__)), "..", ".."))
sys.path.insert(0, os.path.join(ROOT, "tools"))

from bench_program import Trouble
from drawn import Drawn
from picture_drawing import picture_of
from picture_marks import state_marks
from run_file import Run, cut_to, file_of
from tally import end, expect
from tick_cause import cause_of
from vote_states import Report, State, Vote, report_in

MOST_BYTES = 4 * 1000 * 1000
PHONE_WIDTH = 360


def run_of(n, rounds, lost):
    """Nothing of it matters but its size and what is lost."""
    run = Run()
    run.proposals, run.need = [head % 2 for head in range(n)], n // 2 + 1
    run.rounds = [(lost, [0] * n)] * rounds
    return run


# ---- Causes: the states before, whom head 0 hears, its state after, and the words

U1, U2, U3, D3, U4, U5 = [State(phase, "1", status, "none") for phase, status in (
    (1, "undecided"), (2, "undecided"), (3, "undecided"), (3, "decided"), (4, "undecided"), (5, "undecided"))]

CAUSES = [
    ([U1, U1, U1], [], U1, "heard nothing"),
    ([U1, U1, U1], [0], U1, ""),
    ([U1, U1, U1], [0, 1], U2, "stepped, 2 of 3 heard"),
    ([U1, U1, U1], [0, 1, 2], U2, "stepped, 3 of 3 heard"),
    ([U1, U1, U1], [1], U2, "stepped, 1 of 3 heard now and others before"),
    ([U3, U1, U3], [0, 1, 2], U4, "stepped, 2 of 3 heard"), # a late ballot does not count
    ([U4, U3, U3], [1, 2], U4, ""),
    ([U1, U2, U3], [0, 1, 2], U3, "copied from head 2"),
    ([U1, U3, U3, U3, U1, U1], [1, 2, 3], U3, "copied from head 1"), # half is not over half
    ([U1, U3, D3, U3], [3, 1], U3, "copied from head 1"),
    ([U1, D3, D3], [1, 2], U4, "copied from head 1, then stepped, 2 of 3 heard"),
    # None of these can be: then no cause is told.
    ([U1, U1, U3], [2], U5, ""),
    ([U1, U1, D3], [2], U3, ""),
    ([U1, U1, U3], [2], U4, ""),
]


def test_causes():
    for before, heard, after, words in CAUSES:
        expect("the cause of %r" % ((before, heard, after),), cause_of(before, 0, set(heard), after), words)


# ---- Files cut, and reports that are none

def test_cuts():
    chance = random.Random(1)
    for _ in range(50):
        n, rounds = chance.choice([2, 3, 9, 32]), chance.randrange(6)
        run = run_of(n, 0, [])
        run.rounds = [([{s for s in range(n) if chance.random() < 0.4} for _ in range(n)],
                       [chance.randrange(2) for _ in range(n)]) for _ in range(rounds)]
        data = file_of(run)
        for count in range(rounds + 1):
            run.rounds, whole = run.rounds[:count], run.rounds
            expect("a file cut to %d rounds" % count, cut_to(data, count), file_of(run))
            run.rounds = whole


GOOD_REPORT = """heads 2 need 2 bound 0
head 0 phase 2 value blank status undecided decision none
head 1 phase 1 value 1 status undecided decision none
rounds 1 good 0 decided 0
"""


def answer(text, rounds):
    try:
        return report_in(text, run_of(2, 1, [set(), set()]), rounds)
    except Trouble as trouble:
        return str(trouble)


def test_reports():
    states = [State(2, "blank", "undecided", "none"), State(1, "1", "undecided", "none")]
    expect("a report", answer(GOOD_REPORT, 1), Report(states, 0, 0, "rounds 1 good 0 decided 0"))
    other = "what the program bench printed is the report of another file"
    none = "what the program bench printed is no report of this file"
    expect("fewer rounds", answer(GOOD_REPORT, 0), other)
    expect("another need", answer(GOOD_REPORT.replace("need 2", "need 3"), 1), other)
    last_head = GOOD_REPORT.splitlines(True)[2]
    for old, new in (("head 1", "head 0"), ("blank", "2"), ("phase 1", "phase"), ("heads 2", "heads"),
                     ("rounds", "round"), (last_head, ""), (GOOD_REPORT, "refused 12 at 0\n")):
        expect("%r for %r" % (new, old), answer(GOOD_REPORT.replace(old, new), 1), none)


# ---- Bad input: one line, and nothing drawn

def called(tool, words):
    """Status, standard output, standard error."""
    command = [os.path.join(ROOT, "tools", tool)] + words
    ended = subprocess.run(command, input=b"", stdout=subprocess.PIPE, stderr=subprocess.PIPE)
    return ended.returncode, ended.stdout, ended.stderr.decode()


def from_folder(tool):
    """The same where standard input is a folder."""
    folder = os.open(ROOT, os.O_RDONLY)
    command = [os.path.join(ROOT, "tools", tool)]
    ended = subprocess.run(command, stdin=folder, stdout=subprocess.PIPE, stderr=subprocess.PIPE)
    os.close(folder)
    return ended.returncode, ended.stdout, ended.stderr.decode()


def test_bad_input():
    sample = os.path.join(ROOT, "samples", "%s.run")
    cut_off, no_rounds = sample % "05-head-cut-off", sample % "02-no-rounds"
    for words, status, line in [
            ([sample % "14-refused-12-cut"], 1, "refused 12 at 41: the file ends inside the coins"),
            (["/dev/zero"], 1, "refused 13 at 0: the count of heads is 0, not 2 to 32"),
            ([], 1, "refused 12 at 0: the file ends inside the count of heads"),
            (["no-such-file"], 2, "picture: there is no file no-such-file"),
            ([ROOT], 2, "picture: %s is a folder" % ROOT),
            (["--rounds", "3-4", cut_off], 2, "picture: there are no rounds 3-4: the file has rounds 1 to 3"),
            (["--rounds", "0-1", cut_off], 2, "picture: there are no rounds 0-1: the file has rounds 1 to 3"),
            (["--rounds", "2-1", cut_off], 2, "picture: there are no rounds 2-1: the file has rounds 1 to 3"),
            (["--rounds", "1-1", no_rounds], 2, "picture: there are no rounds 1-1: the file has no rounds"),
            (["--rounds", "1", cut_off], 2, "picture: --rounds takes two numbers, as 3-8, not '1'"),
            (["--round", "1-2"], 2, "picture: unrecognized arguments: --round (-h prints the usage)")]:
        expect("picture %s" % words, called("picture", words), (status, b"", line + "\n"))
        expect("trace %s" % words, called("trace", words), (status, b"", line.replace("picture:", "trace:") + "\n"))
    for tool in "picture", "trace":
        expect("%s < FOLDER" % tool, from_folder(tool), (2, b"", "%s: standard input: Is a directory\n" % tool))
        status, usage, error = called(tool, ["-h"])
        expect("%s -h" % tool, (status, b"tools/%s [--rounds A-B] FILE" % tool.encode() in usage, error), (0, True, ""))


def test_refused_samples():
    """The line of the bench, and what it means."""
    for path in sorted(glob.glob(os.path.join(ROOT, "samples", "*-refused-*.run"))):
        with open(path[:-4] + ".report") as report:
            line = report.read().strip()
        status, drawn, error = called("picture", [path])
        words = re.fullmatch(re.escape(line) + ": [a-z][^\n]+\n", error)
        expect(path, (status, drawn, words is not None), (1, b"", True))


# ---- Marks, of states that no vote has too

def test_marks():
    for value, shape in ("0", "zero"), ("1", "one"), ("blank", "blank"):
        for status, ring in ("undecided", []), ("decided", ["ring"]):
            for decision, flag in ("none", []), ("0", ["flag0"]), ("1", ["flag1"]):
                drawn = state_marks(State(7, value, status, decision))
                expect("the marks of %s, %s, %s" % (value, status, decision),
                       (re.findall('href="#([a-z0-9]+)"', drawn), drawn[-9:]), ([shape] + ring + flag, ">7</text>"))


# ---- Sizes, of votes whose states are made up

def made_up(n, rounds, lost, state):
    reports = {count: Report([state] * n, 0, count, "rounds %d good %d decided 0" % (count, count))
               for count in range(rounds + 1)}
    return Vote(run_of(n, rounds, lost), reports, 0, rounds)


def test_sizes():
    longest = State(257, "0", "decided", "0")
    every_second = [set(range(head % 2, 32, 2)) for head in range(32)]
    for n, lost in (32, every_second), (32, [set(range(32))] * 32), (9, [set()] * 9), (8, [set()] * 8):
        text = picture_of(made_up(n, 256, lost, longest))
        names = Drawn(text).root.findall(".//*[@class='name']")
        expect("%d heads, 256 rounds: %d bytes" % (n, len(text)), len(text) < MOST_BYTES, True)
        expect("%d heads, 256 rounds: names" % n, len(names), 8 * n)
    small = picture_of(made_up(3, 2, [set()] * 3, longest))
    expect("3 heads, 2 rounds: within a phone's width", int(re.search(r'width="(\d+)"', small)[1]) <= PHONE_WIDTH, True)


if __name__ == "__main__":
    test_causes()
    test_cuts()
    test_reports()
    test_bad_input()
    test_refused_samples()
    test_marks()
    test_sizes()
    sys.exit(end("picture and trace, without the program"))
