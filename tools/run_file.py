"""Run files as bytes: a run is written, or read and refused at the first fault."""

MOST_HEADS = 32
MOST_ROUNDS = 256


class Run:
    """Proposals, need, and rounds of (lost, coins).  `lost` has a set of senders for each receiver."""

    def __init__(self):
        self.proposals = []
        self.need = 0
        self.rounds = []


class Refusal(Exception):
    """The number, the place, and what is wrong."""


def file_of(run):
    n = len(run.proposals)
    data = count_bytes(n) + bytes(run.proposals)
    data += count_bytes(1) + bytes([run.need])
    data += count_bytes(len(run.rounds))
    for lost, _ in run.rounds:
        for senders in lost:
            data += sum(1 << sender for sender in senders).to_bytes(4, "big")
    data += count_bytes(n * len(run.rounds))
    for _, coins in run.rounds:
        data += bytes(coins)
    return data


def cut_to(data, rounds):
    """The file of the first rounds of a sound file: fewer rows and coins, and their counts corrected."""
    n = int.from_bytes(data[:2], "big")
    rows = 7 + n
    coins = len(data) - n * int.from_bytes(data[rows - 2:rows], "big")
    return (data[:rows - 2] + count_bytes(rounds) + data[rows:rows + 4 * n * rounds]
            + count_bytes(n * rounds) + data[coins:coins + n * rounds])


def run_in(data):
    """The run that a file holds."""
    run = Run()
    reader = Reader(data)
    n = reader.count(2, MOST_HEADS, "heads")
    run.proposals = reader.bits(n, "the proposals")
    reader.count(1, 1, "numbers needed")
    run.need = reader.take(1, "the number needed")[0]
    if not n < 2 * run.need <= 2 * n:
        raise Refusal(14, reader.place - 1, "need %d of %d heads" % (run.need, n))
    rounds = reader.count(0, MOST_ROUNDS, "rounds")
    rows = reader.rows(n, rounds)
    reader.count(n * rounds, n * rounds, "coins")
    coins = reader.bits(n * rounds, "the coins")
    if reader.place < len(data):
        raise Refusal(15, reader.place, "bytes after the last section")
    parts = [slice(n * index, n * index + n) for index in range(rounds)]
    run.rounds = [(rows[part], coins[part]) for part in parts]
    return run


class Reader:
    """Reads a file from its start and refuses it at the first fault."""

    def __init__(self, data):
        self.data = data
        self.place = 0

    def take(self, length, what):
        part = self.data[self.place:self.place + length]
        if len(part) < length:
            raise Refusal(12, len(self.data), "the file ends inside " + what)
        self.place += length
        return part

    def count(self, low, high, what):
        place = self.place
        count = int.from_bytes(self.take(2, "the count of " + what), "big")
        if not low <= count <= high:
            rule = str(low) if low == high else "%d to %d" % (low, high)
            raise Refusal(13, place, "the count of %s is %d, not %s" % (what, count, rule))
        return count

    def bits(self, length, what):
        start = self.place
        body = self.take(length, what)
        for index, byte in enumerate(body):
            if byte > 1:
                raise Refusal(14, start + index, "among %s, %d is neither 0 nor 1" % (what, byte))
        return list(body)

    def rows(self, n, rounds):
        start = self.place
        body = self.take(4 * n * rounds, "the loss rows")
        rows = []
        for place in range(0, len(body), 4):
            row = int.from_bytes(body[place:place + 4], "big")
            if row >> n:
                raise Refusal(14, start + place, "a loss row has a head from %d up" % n)
            rows.append({sender for sender in range(n) if row >> sender & 1})
        return rows


def count_bytes(count):
    return count.to_bytes(2, "big")
