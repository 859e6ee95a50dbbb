"""Compares what tools/picture and tools/trace make of run files with the independent bench in Rust.

    compare.py COMPARER FOLDER

All sound samples, and the last 20 sound files of at most 40 rounds in the folder, which holds files and their reports.
tests/picture/run calls it.
"""

import functools
import glob
import os
import subprocess
import sys

sys.dont_write_bytecode = True

HERE = os.path.dirname(os.path.abspath(__file__))
ROOT = os.path.normpath(os.path.join(HERE, "..", ".."))
sys.path.insert(0, os.path.join(ROOT, "tools"))

import compare_pictures
import compare_traces
import seeded_errors
import tally
from bench_program import Program
from independent import expected_of
from picture_drawing import picture_of
from run_file import run_in
from vote_states import vote_of
from vote_trace import trace_of

SEEDED_FILES, MOST_ROUNDS = 20, 40
DRAWN, STORED = "05-head-cut-off.run", os.path.join("docs", "head-cut-off.svg")

TRACE_OF_TWO = """heads 5 need 4 bound 5
after 1
  heads 0-3: phase 2, value 1, undecided, no decision
  head 4: phase 1, value 0, undecided, no decision
round 2: 5 ballots lost, bound 5, good
  heads 0-3: phase 3, decided, decision 1; stepped, 4 of 5 heard
  head 4: heard nothing
round 3: 5 ballots lost, bound 5, good
  heads 0-3: phase 4; stepped, 4 of 5 heard
  head 4: heard nothing
rounds 3 good 3 decided 4
"""


def contents(path):
    with open(path, "rb") as file:
        return file.read()


def sound_files(folder):
    paths = sorted(glob.glob(os.path.join(folder, "*.run")))
    return [path for path in paths if not contents(path[:-4] + ".report").startswith(b"refused")]


def few_rounds(path):
    return len(run_in(contents(path)).rounds) <= MOST_ROUNDS


class Case:
    """A run file, drawn and told from the proved program's states, and what the independent bench has for it."""

    def __init__(self, program, comparer, path):
        run = run_in(contents(path))
        self.path = path
        self.vote = vote_of(run, program, 0, len(run.rounds))
        expected, report = expected_of(comparer, path), contents(path[:-4] + ".report").decode().splitlines()
        self.in_picture = functools.partial(compare_pictures.differences, expected=expected, report=report)
        self.in_trace = functools.partial(compare_traces.differences, expected=expected, report=report)

    def compare(self):
        tally.expect(self.path + ", the picture", self.in_picture(picture_of(self.vote)), [])
        tally.expect(self.path + ", the trace", self.in_trace(trace_of(self.vote)), [])


def case_of(cases, sample):
    return next(case for case in cases if case.path.endswith(sample + ".run"))


def seed_errors(put_back, catches_up, with_grid):
    """In a vote with lines, in one with grids, and in two traces."""
    of_lines = {**seeded_errors.LOSSES, **seeded_errors.PICTURE, **seeded_errors.LINES}
    of_grid = {**seeded_errors.LOSSES, **seeded_errors.GRID}
    of_trace = {**seeded_errors.LOSSES, **seeded_errors.TRACE}
    for what, errors, cases, picture in (("lines", of_lines, [put_back], True), ("grid", of_grid, [with_grid], True),
                                         ("trace", of_trace, [put_back, catches_up], False)):
        votes = [(case.vote, case.in_picture if picture else case.in_trace) for case in cases]
        missed = seeded_errors.missed(errors, votes, picture_of if picture else trace_of)
        tally.expect("errors missed with " + what, missed, [])


def called(tool, words):
    ended = subprocess.run([os.path.join(ROOT, "tools", tool)] + words, stdout=subprocess.PIPE)
    return ended.returncode, ended.stdout


def test_commands():
    """The commands themselves: the stored picture, and some of the rounds."""
    path = os.path.join(ROOT, "samples", DRAWN)
    status, drawn = called("picture", [path])
    tally.expect("%s as tools/picture draws it" % STORED, drawn == contents(os.path.join(ROOT, STORED)), True)
    with open("/dev/full", "wb") as full:
        ended = subprocess.run([os.path.join(ROOT, "tools", "picture"), path], stdout=full, stderr=subprocess.PIPE)
    tally.expect("a full disk", (ended.returncode, ended.stderr),
                 (2, b"picture: standard output: No space left on device\n"))
    status, some = called("picture", ["--rounds", "2-3", path])
    tally.expect("states in a picture of two rounds", (status, some.count(b"<title>head")), (0, 5 * 3))
    status, told = called("trace", ["--rounds", "2-3", path])
    tally.expect("a trace of two rounds", (status, told.decode()), (0, TRACE_OF_TWO))


def main(comparer, folder):
    samples = sound_files(os.path.join(ROOT, "samples"))
    seeded = [path for path in sound_files(folder) if few_rounds(path)][-SEEDED_FILES:]
    program = Program(contents(samples[0]))
    cases = [Case(program, comparer, path) for path in samples + seeded]
    for case in cases:
        case.compare()
    tally.expect("seeded files", len(seeded), SEEDED_FILES)
    with_grid = next(case for case in cases if case.vote.heads > 8 and 3 < case.vote.rounds < 40)
    seed_errors(case_of(cases, "09-status-put-back"), case_of(cases, "06-head-catches-up"), with_grid)
    test_commands()
    return tally.end("pictures")


if __name__ == "__main__":
    sys.exit(main(*sys.argv[1:]))
