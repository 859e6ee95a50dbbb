#!/usr/bin/env python3
"""Writes run files of the largest size, 32 heads and 256 rounds, into a folder.

    largest.py FOLDER

nothing-lost: every ballot reaches every head. half-lost: each ballot is lost to each head with
chance one half, so that heads stand at different phases. good-rounds: each round loses as many as a
good round may, 255. The same bytes at every call.
"""
import random
import sys
from pathlib import Path

HEADS, NEED, ROUNDS, BOUND = 32, 17, 256, 255


def counted(count, body):
    return count.to_bytes(2, "big") + body


def run_file(chance, rows_of_round):
    rows = b"".join(rows_of_round(chance) for _ in range(ROUNDS))
    coins = bytes(chance.getrandbits(1) for _ in range(HEADS * ROUNDS))
    return (
        counted(HEADS, bytes(head % 2 for head in range(HEADS)))
        + counted(1, bytes([NEED]))
        + counted(ROUNDS, rows)
        + counted(HEADS * ROUNDS, coins)
    )


def nothing_lost(_chance):
    return bytes(4 * HEADS)


def half_lost(chance):
    return chance.randbytes(4 * HEADS)


def good_round(chance):
    rows = [0] * HEADS
    for place in chance.sample(range(HEADS * HEADS), BOUND):
        rows[place // HEADS] |= 1 << place % HEADS
    return b"".join(row.to_bytes(4, "big") for row in rows)


def main():
    folder = Path(sys.argv[1])
    kinds = {"nothing-lost": nothing_lost, "half-lost": half_lost, "good-rounds": good_round}
    for name, rows_of_round in kinds.items():
        data = run_file(random.Random(1), rows_of_round)
        assert len(data) == 41001
        (folder / name).write_bytes(data)


main()
