"""What the commands tools/picture and tools/trace have in common: a run file in, a text out, and what can go wrong."""

import argparse
import os
import re
import sys

from bench_program import Program, Trouble
from run_file import Refusal, run_in
from vote_states import vote_of

LARGEST_FILE = 41001


def main(name, usage, text_of):
    """Reads the run file, writes `text_of` the vote, and gives the status."""
    try:
        words = parser(name, usage).parse_args()
        data = file_bytes(name, words.file)
        run = run_in(data)
        first, last = span(words.rounds, len(run.rounds))
        write(text_of(vote_of(run, Program(data), first, last, counter())))
    except Refusal as refusal:
        sys.stderr.write("refused %d at %d: %s\n" % refusal.args)
        return 1
    except Trouble as trouble:
        sys.stderr.write("%s: %s\n" % (name, trouble))
        return 2
    except KeyboardInterrupt:
        return 130
    return 0


class Parser(argparse.ArgumentParser):
    def error(self, message):
        raise Trouble("%s (-h prints the usage)" % message)


def parser(name, usage):
    words = Parser(prog=name, usage=argparse.SUPPRESS, description=usage, allow_abbrev=False,
                   formatter_class=argparse.RawDescriptionHelpFormatter, add_help=False)
    words.add_argument("-h", "--help", action="help", help=argparse.SUPPRESS)
    words.add_argument("--rounds", help=argparse.SUPPRESS)
    words.add_argument("file", nargs="?", help=argparse.SUPPRESS)
    return words


def file_bytes(name, path):
    """A byte more than the largest file has decides the refusal, whatever follows."""
    what = path or "standard input"
    if path is None and sys.stdin is None:
        raise Trouble("standard input is closed")
    if path is None and sys.stdin.isatty():
        sys.stderr.write("%s: reading a run file from standard input\n" % name)
    try:
        if path is None:
            return sys.stdin.buffer.read(LARGEST_FILE + 1)
        with open(path, "rb") as file:
            return file.read(LARGEST_FILE + 1)
    except FileNotFoundError:
        raise Trouble("there is no file %s" % what)
    except IsADirectoryError:
        raise Trouble("%s is a folder" % what)
    except OSError as error:
        raise Trouble("%s cannot be read: %s" % (what, error.strerror))


def span(words, rounds):
    """The columns of 'A-B', or of all rounds: from the states before round A to those after round B."""
    if words is None:
        return 0, rounds
    found = re.fullmatch(r"([0-9]{1,5})-([0-9]{1,5})", words)
    if not found:
        raise Trouble("--rounds takes two numbers, as 3-8, not '%s'" % words)
    first, last = int(found[1]), int(found[2])
    if not 1 <= first <= last <= rounds:
        have = "has rounds 1 to %d" % rounds if rounds else "has no rounds"
        raise Trouble("there are no rounds %s: the file %s" % (words, have))
    return first - 1, last


def counter():
    """Tells on a terminal how many reports are there."""
    if sys.stderr is None or not sys.stderr.isatty():
        return lambda done, of_all: None

    def tell(done, of_all):
        sys.stderr.write("\r%d of %d" % (done, of_all) if done < of_all else "\r\033[K")
        sys.stderr.flush()
    return tell


def write(text):
    """Not through sys.stdout: what stays in its buffer would fail once more at the end."""
    if sys.stdout is None:
        raise Trouble("standard output is closed")
    rest = text.encode()
    try:
        while rest:
            rest = rest[os.write(sys.stdout.fileno(), rest):]
    except OSError as error:
        raise Trouble("standard output: %s" % error.strerror)
