"""Tries the comparison of files: each error listed here must change some report.

    python3 tests/independent/errors.py [-v]       over the 400 files that the gate compares
    python3 tests/independent/errors.py FOLDER     over those that 'tests/independent/files write' wrote

    python3 tests/independent/errors.py as NUMBER < FILE
                                                   the model with that error, from 0

Each error is one edit of the bench in Python, tests/vectors/bench.py and
tools/run_file.py: a text that stands exactly once in the two, and what the error
has in its place.  Without an error the model must print every report as it is.
An error that no file shows is printed, and the exit is non-zero.  -v prints how
many files show each.
"""

import functools
import os
import subprocess
import sys
import tempfile
import types

sys.dont_write_bytecode = True

HERE = os.path.dirname(os.path.abspath(__file__))
MODEL = os.path.join(HERE, "..", "vectors")
TOOLS = os.path.join(HERE, "..", "..", "tools")
sys.path.insert(0, MODEL)

import engine

# The same ticks come again under each error.
engine.tick = functools.lru_cache(maxsize=None)(engine.tick)

# Longer files take the model seconds; they are tried where no other shows an error.
LONG = 4000

# (what the error is, text of one of the two files, text in its place)
ERRORS = [
    # ---- the bound and the figures
    ("bound one too low", "+ need - 2\n", "+ need - 3\n"),
    ("bound one too high", "+ need - 2\n", "+ need - 1\n"),
    ("half of n rounded down in the bound", "(n + 1) // 2", "n // 2"),
    ("good only below the bound", "for senders in lost) <= bound:", "for senders in lost) < bound:"),
    ("own losses not counted as lost",
     "sum(len(senders) for senders in lost)",
     "sum(len(senders - {head}) for head, senders in enumerate(lost))"),
    ("receivers with a loss counted", "len(senders) for", "(senders != set()) for"),
    ("rounds before a good one counted too",
     "            good += 1\n",
     "            good = index + 1\n"),
    ("decided counted by status",
     "if head.decision != engine.NONE)\n    return text",
     "if head.status == engine.DECIDED)\n    return text"),
    ("decisions for 0 not counted",
     "if head.decision != engine.NONE)\n    return text",
     "if head.decision == 1)\n    return text"),
    ("decisions for 1 not counted",
     "if head.decision != engine.NONE)\n    return text",
     "if head.decision == 0)\n    return text"),
    ("all decided once need are",
     "    return text +",
     "    decided = n if decided >= need else decided\n    return text +"),
    ("rounds from 1 run", "% (rounds, good, decided)", "% (max(rounds, 1), good, decided)"),
    # ---- the round
    ("ballots formed after ticks",
     '        data = b"".join(ballots[s] for s in heard)',
     "        ballots = [engine.bytes_of(engine.send(head)[1]) for head in heads]\n"
     '        data = b"".join(ballots[s] for s in heard)'),
    ("own ballot always heard",
     "if s not in lost[receiver]]",
     "if s == receiver or s not in lost[receiver]]"),
    ("own ballot never heard",
     "if s not in lost[receiver]]",
     "if s != receiver and s not in lost[receiver]]"),
    ("bit set means heard", "if s not in lost[receiver]]", "if s in lost[receiver]]"),
    ("rows by sender", "if s not in lost[receiver]]", "if receiver not in lost[s]]"),
    ("highest bit for head 0", "if s not in lost[receiver]]", "if n - 1 - s not in lost[receiver]]"),
    ("rows with their low byte first",
     'body[place:place + 4], "big")',
     'body[place:place + 4], "little")'),
    ("the first round's rows in every round",
     "one_round(heads, lost, coins)\n        if",
     "one_round(heads, run.rounds[0][0], coins)\n        if"),
    ("coins head by head",
     "one_round(heads, lost, coins)\n        if",
     "one_round(heads, lost, [bit for _, bits in run.rounds for bit in bits][index::rounds])\n        if"),
    ("head 0's coin for all", "data, coins[receiver])", "data, coins[0])"),
    ("the coins of the next head",
     "data, coins[receiver])",
     "data, coins[(receiver + 1) % n])"),
    ("the first round's coins in every round",
     "one_round(heads, lost, coins)\n        if",
     "one_round(heads, lost, run.rounds[0][1])\n        if"),
    ("the last round not run",
     "for index in range(rounds):\n        lost, coins",
     "for index in range(max(rounds - 1, 0)):\n        lost, coins"),
    # ---- the text
    ("blank printed as 2", '"blank" if', '"2" if'),
    ("none printed as 2", '"none" if', '"2" if'),
    ("phase in one byte", "head.own, head.phase,", "head.own, head.phase % 256,"),
    ("one digit for the head's number", '"head %d phase', '"head %.1s phase'),
    ("no newline at a refusal", 'at %d\\n"', 'at %d"'),
    ("report before a refusal",
     '        return "refused',
     '        return "heads 0 need 0 bound 0\\nrefused'),
    # ---- the order of tests
    ("13 before 12 in a cut count",
     "        place = self.place\n",
     "        place = self.place\n"
     "        if place + 2 > len(self.data):\n"
     "            raise Refusal(13, place, what)\n"),
    ("a cut count read as far as it goes",
     "self.take(2, ",
     "self.take(min(2, max(1, len(self.data) - place)), "),
    ("12 before 13",
     "        if not low <= count <= high:\n",
     "        if not low <= count <= high:\n"
     "            if self.place == len(self.data):\n"
     "                raise Refusal(12, len(self.data), what)\n"),
    ("bytes tested before the body's length",
     "        body = self.take(length, what)\n        for index, byte in enumerate(body):\n",
     "        for index, byte in enumerate(self.data[start:start + length]):\n"
     "            if byte > 1:\n"
     "                raise Refusal(14, start + index, what)\n"
     "        body = self.take(length, what)\n"
     "        for index, byte in enumerate(body):\n"),
    ("rows tested before the body's length",
     '        body = self.take(4 * n * rounds, "the loss rows")\n',
     "        self.place += 4 * n * rounds\n        body = self.data[start:self.place]\n"),
    ("rows tested after the coins' count",
     "    rows = reader.rows(n, rounds)\n"
     '    reader.count(n * rounds, n * rounds, "coins")\n',
     '    reader.take(4 * n * rounds, "the loss rows")\n'
     '    reader.count(n * rounds, n * rounds, "coins")\n'
     "    reader.place -= 2 + 4 * n * rounds\n"
     "    rows = reader.rows(n, rounds)\n"
     "    reader.place += 2\n"),
    ("need tested last",
     "    if not n < 2 * run.need <= 2 * n:\n"
     '        raise Refusal(14, reader.place - 1, "need %d of %d heads" % (run.need, n))\n'
     '    rounds = reader.count(0, MOST_ROUNDS, "rounds")\n',
     '    rounds = reader.count(0, MOST_ROUNDS, "rounds")\n'
     "    if not n < 2 * run.need <= 2 * n:\n"
     '        raise Refusal(14, reader.place - 3, "need")\n'),
    ("15 before a coin's 14",
     '    coins = reader.bits(n * rounds, "the coins")\n',
     "    if len(data) > reader.place + n * rounds:\n"
     '        raise Refusal(15, reader.place + n * rounds, "")\n'
     '    coins = reader.bits(n * rounds, "the coins")\n'),
    ("15 not tested", "    if reader.place < len(data):\n", "    if False:\n"),
    ("15 only for two bytes and more",
     "    if reader.place < len(data):\n",
     "    if reader.place + 1 < len(data):\n"),
    # ---- places
    ("12 at the cut field", "raise Refusal(12, len(self.data),", "raise Refusal(12, self.place,"),
    ("12 at the cut count",
     "        place = self.place\n",
     "        place = self.place\n"
     "        if place + 2 > len(self.data):\n"
     "            raise Refusal(12, place, what)\n"),
    ("13 after the count", "raise Refusal(13, place,", "raise Refusal(13, place + 2,"),
    ("14 at the row's end",
     "raise Refusal(14, start + place,",
     "raise Refusal(14, start + place + 3,"),
    ("14 at the body's start", "raise Refusal(14, start + index,", "raise Refusal(14, start,"),
    ("14 by row number",
     "raise Refusal(14, start + place,",
     "raise Refusal(14, start + place // 4,"),
    ("14 at the last bad byte",
     "for index, byte in enumerate(body):",
     "for index, byte in reversed(list(enumerate(body))):"),
    ("15 at the file's length", "raise Refusal(15, reader.place,", "raise Refusal(15, len(data),"),
    ("15 at the last byte", "raise Refusal(15, reader.place,", "raise Refusal(15, len(data) - 1,"),
    # ---- the rules
    ("one head allowed", "reader.count(2, MOST_HEADS,", "reader.count(1, MOST_HEADS,"),
    ("33 heads allowed", "reader.count(2, MOST_HEADS,", "reader.count(2, MOST_HEADS + 1,"),
    ("32 heads refused", "reader.count(2, MOST_HEADS,", "reader.count(2, MOST_HEADS - 1,"),
    ("2 heads refused", "reader.count(2, MOST_HEADS,", "reader.count(3, MOST_HEADS,"),
    ("half is enough for need", "not n < 2 * run.need", "not n <= 2 * run.need"),
    ("need over half by one and more",
     "if not n < 2 * run.need <= 2 * n:",
     "if not n // 2 + 1 < run.need <= n:"),
    ("need above n allowed", "run.need <= 2 * n:", "run.need <= 2 * n + 2:"),
    ("need must be below n", "run.need <= 2 * n:", "run.need < 2 * n:"),
    ("need's high bit ignored",
     'reader.take(1, "the number needed")[0]',
     'reader.take(1, "the number needed")[0] & 127'),
    ("need's count not tested", "reader.count(1, 1,", "reader.count(0, 65535,"),
    ("need's count 0 allowed", "reader.count(1, 1,", "reader.count(0, 1,"),
    ("257 rounds allowed", "reader.count(0, MOST_ROUNDS,", "reader.count(0, MOST_ROUNDS + 1,"),
    ("256 rounds refused", "reader.count(0, MOST_ROUNDS,", "reader.count(0, MOST_ROUNDS - 1,"),
    ("no rounds refused", "reader.count(0, MOST_ROUNDS,", "reader.count(1, MOST_ROUNDS,"),
    ("counts with their low byte first",
     '"the count of " + what), "big")',
     '"the count of " + what), "little")'),
    ("counts of one byte",
     'int.from_bytes(self.take(2, "the count of " + what), "big")',
     'self.take(2, "the count of " + what)[1]'),
    ("coins' count not tested",
     "reader.count(n * rounds, n * rounds,",
     "reader.count(0, 65535,"),
    ("coins' count may be larger",
     "reader.count(n * rounds, n * rounds,",
     "reader.count(n * rounds, 65535,"),
    ("coins' count may be smaller",
     "reader.count(n * rounds, n * rounds,",
     "reader.count(0, n * rounds,"),
    ("coins' count is that of rounds",
     '    reader.count(n * rounds, n * rounds, "coins")\n',
     '    if reader.count(0, 65535, "coins") not in (rounds, n * rounds):\n'
     '        raise Refusal(13, reader.place - 2, "coins")\n'),
    ("bit n of a row allowed", "if row >> n:", "if row >> n >> 1:"),
    ("bit n - 1 of a row refused", "if row >> n:", "if row >> (n - 1):"),
    ("rows not tested", "if row >> n:", "if False:"),
    ("rows tested in their low byte and above n alone", "if row >> n:", "if row >> n & 255:"),
    ("shift by 32 is a shift by 0", "if row >> n:", "if row >> n % 32:"),
    ("2 allowed as a bit", "if byte > 1:", "if byte > 2:"),
    ("a bit's low bit taken", "if byte > 1:", "if byte & 1 != byte and byte != 2:"),
    # ---- the length of what is read
    ("41,001 bytes read", "    try:\n", "    data = data[:41001]\n    try:\n"),
    ("40,960 bytes read", "    try:\n", "    data = data[:40960]\n    try:\n"),
    ("4,096 bytes read", "    try:\n", "    data = data[:4096]\n    try:\n"),
    ("places and lengths in 15 bits", "    try:\n", "    data = data[:32768]\n    try:\n"),
    ("a long file is refused whole",
     "    try:\n",
     "    if len(data) > 41001:\n        return 'refused 15 at 41001\\n'\n    try:\n"),
]


def sources():
    texts = []
    for path in os.path.join(TOOLS, "run_file.py"), os.path.join(MODEL, "bench.py"):
        with open(path) as file:
            texts.append(file.read())
    return texts


def with_error(old, new):
    """The bench in Python with one edit, or none where `old` is empty."""
    texts = sources()
    if old:
        assert sum(text.count(old) for text in texts) == 1, (old, [text.count(old) for text in texts])
        texts = [text.replace(old, new) for text in texts]
    for name, text in zip(("run_file", "bench"), texts):
        module = types.ModuleType(name)
        exec(compile(text, name, "exec"), module.__dict__)
        sys.modules[name] = module      # bench takes its run_file from there
    return module


def printed(model, data):
    try:
        return model.report(data)
    except Exception as broken:     # an error may break on a file: that shows too
        return repr(broken)


def read_folder(folder):
    """Files with their reports, the long ones last."""
    pairs = []
    for name in sorted(os.listdir(folder)):
        if name.endswith(".run"):
            with open(os.path.join(folder, name), "rb") as file:
                data = file.read()
            with open(os.path.join(folder, name[:-4] + ".report")) as file:
                pairs.append((data, file.read()))
    return sorted(pairs, key=lambda pair: len(pair[0]) > LONG)


def shown_by(model, pairs):
    """How many files show the error; long ones count only where no short one does."""
    shown = 0
    for data, report in pairs:
        if len(data) > LONG and shown > 0:
            break
        shown += printed(model, data) != report
    return shown


def try_all(folder):
    pairs = read_folder(folder)
    right = with_error("", "")
    wrong = sum(printed(right, data) != report for data, report in pairs)
    missed = 0
    for what, old, new in ERRORS:
        shown = shown_by(with_error(old, new), pairs)
        if shown == 0:
            missed += 1
            print("not shown: " + what)
        elif "-v" in sys.argv:
            print("%5d  %s" % (shown, what))
    print("%d files, %d unlike the model; %d errors, %d shown by some file"
          % (len(pairs), wrong, len(ERRORS), len(ERRORS) - missed))
    return 1 if missed or wrong or not pairs else 0


def main(words):
    if len(words) == 2 and words[0] == "as":
        _, old, new = ERRORS[int(words[1])]
        sys.stdout.write(printed(with_error(old, new), sys.stdin.buffer.read()))
        return 0
    words = [word for word in words if word != "-v"]
    if len(words) == 1 and not words[0].startswith("-"):
        return try_all(words[0])
    if words:
        print(__doc__)
        return 0 if words[0] in ("-h", "--help") else 2
    with tempfile.TemporaryDirectory() as folder:
        subprocess.run(["bash", os.path.join(HERE, "files"), "write", folder], check=True)
        return try_all(folder)


if __name__ == "__main__":
    sys.exit(main(sys.argv[1:]))
