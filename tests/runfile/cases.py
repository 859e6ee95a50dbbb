"""Tests of tools/runfile; tests/runfile/run says how to call it."""

import glob
import os
import random
import subprocess
import sys

sys.dont_write_bytecode = True

TOOLS = os.path.join(os.path.dirname(os.path.abspath(__file__)), "..", "..", "tools")
SAMPLES = os.path.join(TOOLS, "..", "samples")
sys.path.insert(0, TOOLS)

import run_file
import run_text

passed = failed = 0


def expect(what, given, expected):
    global passed, failed
    if given == expected:
        passed += 1
        return
    failed += 1
    print("%s\n  expected %r\n  given    %r" % (what, expected, given))


def written(text):
    """The file's bytes, or the mistake."""
    try:
        if run_text.is_bytes(text):
            return run_text.bytes_of(text)
        return run_file.file_of(run_text.run_of(text))
    except run_text.Mistake as mistake:
        return str(mistake)


def read(data):
    """The text, or the bench's line of refusal."""
    try:
        return run_text.text_of(run_file.run_in(data))
    except run_file.Refusal as refusal:
        return "refused %d at %d\n" % refusal.args[:2]


# ---- Writing what was read gives the same bytes

def random_run(chance):
    run = run_file.Run()
    n = chance.choice([2, 3, 4, 5, 8, 31, 32])
    run.proposals = [chance.randrange(2) for _ in range(n)]
    run.need = chance.randrange(n // 2 + 1, n + 1)
    for _ in range(chance.choice([0, 1, 2, 5, 20])):
        rate = chance.choice([0, 0, 0.2, 0.5, 1])
        lost = [{s for s in range(n) if chance.random() < rate} for _ in range(n)]
        coins = [chance.randrange(2) for _ in range(n)]
        run.rounds += [(lost, coins)] * chance.choice([1, 1, 1, 3])
    return run


def test_random():
    chance = random.Random(1)
    for index in range(300):
        data = run_file.file_of(random_run(chance))
        text = read(data)
        expect("random file %d, read and written" % index, written(text), data)
        expect("random file %d, read again" % index, read(written(text)), text)


# ---- Texts

FRONT = "propose 1 1 0\nneed 2\n"

WRITTEN = [
    ("propose 1 0\nneed 2", "0002 0100 0001 02 0000 0000"),
    ("  # nothing\n\npropose 1 0 # two\n need 2\n", "0002 0100 0001 02 0000 0000"),
    (FRONT + "round\nlost 0: 1 2\ncoins 0 1 1",
     "0003 010100 0001 02 0001 00000006 00000000 00000000 0003 000101"),
    (FRONT + "round\nlost 0 2 : 1-2 0\nlost 2: 2",
     "0003 010100 0001 02 0001 00000007 00000000 00000007 0003 000000"),
    (FRONT + "round 2 times\nlost all: all",
     "0003 010100 0001 02 0002" + 6 * " 00000007" + "0006 000000000000"),
    ("bytes 00 0A # ten\n# eleven\nbytes 0b", "000a0b"),
    ("bytes # none", ""),
]

MISTAKES = [
    ("", "at the end: there are no proposals"),
    ("need 2", "line 1: the proposals come first"),
    ("propose 1", "line 1: 1 proposals: there are 2 to 32 heads"),
    ("propose" + 33 * " 1", "line 1: 33 proposals: there are 2 to 32 heads"),
    ("propose 1 2", "line 1: '2' is neither 0 nor 1"),
    ("propose 1 1\npropose 1 1", "line 2: the proposals are there already"),
    ("propose 1 1\n#\n", "at the end: the heads needed are not told"),
    ("propose 1 1 0 0\nneed 2", "line 2: need 2: of 4 heads, 3 to 4 are needed"),
    ("propose 1 1 0\nneed 4", "line 2: need 4: of 3 heads, 2 to 3 are needed"),
    ("propose 1 1 0\nneed two", "line 2: 'two' is no number"),
    ("propose 1 1 0\nneed", "line 2: need takes one number"),
    (FRONT + "need 2", "line 3: the heads needed are there already"),
    ("propose 1 1\nround", "line 2: the heads needed come before the rounds"),
    (FRONT + "rounds 3", "line 3: 'rounds' is none of propose, need, round, lost, coins"),
    (FRONT + "round 3", "line 3: a round is 'round' or 'round 5 times'"),
    (FRONT + "round 0 times", "line 3: rounds come 1 to 256 times, 256 in all"),
    (FRONT + "round\nround 256 times", "line 4: rounds come 1 to 256 times, 256 in all"),
    (FRONT + "lost 0: 1", "line 3: 'lost' belongs to a round: a line 'round' comes before"),
    (FRONT + "round\nlost 0 1", "line 4: losses are 'lost RECEIVERS: SENDERS'"),
    (FRONT + "round\nlost 0: 3", "line 4: there is no head 3: they are 0 to 2"),
    (FRONT + "round\nlost 3: 0", "line 4: there is no head 3: they are 0 to 2"),
    (FRONT + "round\nlost 2-1: 0", "line 4: '2-1' is no range: the lower head comes first"),
    (FRONT + "round\nlost 0: -1", "line 4: '' is no number"),
    (FRONT + "round\ncoins 0 1", "line 4: 2 coins for 3 heads"),
    (FRONT + "round\ncoins 0 1 1\ncoins 0 1 1", "line 5: the coins of this round are there already"),
    ("bytes 0", "line 1: '0' is no byte: two hex digits"),
    ("bytes 00\nneed 2", "line 2: 'need' in a text of bytes"),
]


def test_texts():
    for text, data in WRITTEN:
        expect(repr(text), written(text), bytes.fromhex(data))
    for text, mistake in MISTAKES:
        expect(repr(text), written(text), mistake)


# ---- Refused files, and all samples

PRINTED = bytes.fromhex("0003 010100 0001 02 0002" + 24 * "00" + "0006" + 6 * "00")


def test_refusals():
    first_bytes = {0: 13, 2: 14, 5: 13, 7: 14, 8: 13, 10: 14, 34: 13, 36: 14, 41: 14}
    for place, number in first_bytes.items():
        data = PRINTED[:place] + b"\xff" + PRINTED[place + 1:]
        expect("255 at %d" % place, read(data), "refused %d at %d\n" % (number, place))
    expect("a row's last byte", read(PRINTED[:17] + b"\x08" + PRINTED[18:]), "refused 14 at 14\n")
    for end in range(len(PRINTED)):
        expect("cut at %d" % end, read(PRINTED[:end]), "refused 12 at %d\n" % end)
    expect("a byte more", read(PRINTED + b"\0"), "refused 15 at 42\n")


def contents(path):
    with open(path, "rb") as file:
        return file.read()


def test_report(path):
    """A refused file has its refusal as report; any other comes back from its text."""
    data = contents(path)
    report = contents(path[:-4] + ".report").decode()
    if report.startswith("refused"):
        expect(path, read(data), report)
    else:
        expect(path, written(read(data)), data)


def test_samples():
    for path in sorted(glob.glob(os.path.join(SAMPLES, "*.run"))):
        text = contents(path[:-4] + ".txt").decode()
        expect(path + " of its text", written(text), contents(path))
        test_report(path)


# ---- The command

RUNFILE = os.path.join(TOOLS, "runfile")


def called(words, data=b"", **standard):
    """Status, standard output and standard error."""
    streams = {"stdin": subprocess.PIPE, "stdout": subprocess.PIPE, "stderr": subprocess.PIPE, **standard}
    with subprocess.Popen([RUNFILE] + words, **streams) as command:
        out, said = command.communicate(data if streams["stdin"] == subprocess.PIPE else None)
    return command.returncode, out, said.decode()


def test_command():
    text = b"propose 1 1 0\nneed 2\nround 2 times\n"
    first = os.path.join(SAMPLES, "01-printed-case")
    expect("write", called(["write"], text), (0, PRINTED, ""))
    expect("read", called(["read"], PRINTED), (0, text, ""))
    expect("write TEXT", called(["write", first + ".txt"]), (0, PRINTED, ""))
    expect("read FILE", called(["read", first + ".run"]), (0, text, ""))
    expect("write, a mistake", called(["write"], b"need 2"),
           (1, b"", "runfile: line 1: the proposals come first\n"))
    expect("read, a refusal", called(["read"], PRINTED[:-1]),
           (1, b"", "refused 12 at 41: the file ends inside the coins\n"))
    status, out, said = called(["--help"])
    expect("--help", (status, b"tools/runfile read FILE" in out, said), (0, True, ""))
    for words in [], ["print"], ["read", "a", "b"]:
        status, out, said = called(words)
        expect("usage, %s" % words, (status, out, said.startswith("usage: ")), (2, b"", True))


def test_trouble():
    """One line each, and status 2."""
    expect("no such file", called(["read", SAMPLES + "/none"]),
           (2, b"", "runfile: %s/none: No such file or directory\n" % SAMPLES))
    expect("a folder", called(["read", SAMPLES]), (2, b"", "runfile: %s: Is a directory\n" % SAMPLES))
    folder = os.open(SAMPLES, os.O_RDONLY)
    expect("a folder as standard input", called(["read"], stdin=folder),
           (2, b"", "runfile: standard input: Is a directory\n"))
    os.close(folder)
    with open("/dev/full", "wb") as full:
        expect("a full disk", called(["read"], PRINTED, stdout=full),
               (2, None, "runfile: standard output: No space left on device\n"))


def main(folders):
    test_random()
    test_texts()
    test_refusals()
    test_samples()
    test_command()
    test_trouble()
    for folder in folders:
        for path in sorted(glob.glob(os.path.join(folder, "*.run"))):
            test_report(path)
    print("runfile: %d as expected, %d not" % (passed, failed))
    return 1 if failed or not passed else 0


if __name__ == "__main__":
    sys.exit(main(sys.argv[1:]))
