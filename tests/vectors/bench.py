"""The bench of document 01 and W2: the report of a run file.

tools/run_file.py reads the file, and the heads are those of engine.py.
tests/independent/errors.py puts errors into this text and into that of
tools/run_file.py, one at a time.
"""

import engine
from run_file import Refusal, run_in


def report(data):
    try:
        run = run_in(data)
    except Refusal as refusal:
        return "refused %d at %d\n" % refusal.args[:2]
    n, need, rounds = len(run.proposals), run.need, len(run.rounds)
    bound = (n + 1) // 2 * (n - need) + need - 2
    heads = [engine.start(n, own, run.proposals[own])[1] for own in range(n)]
    good = 0
    for index in range(rounds):
        lost, coins = run.rounds[index]
        one_round(heads, lost, coins)
        if sum(len(senders) for senders in lost) <= bound:
            good += 1
    text = "heads %d need %d bound %d\n" % (n, need, bound)
    for head in heads:
        text += head_line(head)
    # W2: "The last figure counts heads whose decision is written."
    decided = sum(1 for head in heads if head.decision != engine.NONE)
    return text + "rounds %d good %d decided %d\n" % (rounds, good, decided)


def one_round(heads, lost, coins):
    n = len(heads)
    ballots = [engine.bytes_of(engine.send(head)[1]) for head in heads]
    for receiver in range(n):
        heard = [s for s in range(n) if s not in lost[receiver]]
        data = b"".join(ballots[s] for s in heard)
        number, index, heads[receiver] = engine.tick(heads[receiver], data, coins[receiver])
        assert (number, index) == (0, 0)


def head_line(head):
    value = "blank" if head.value == engine.BLANK else head.value
    status = "decided" if head.status == engine.DECIDED else "undecided"
    decision = "none" if head.decision == engine.NONE else head.decision
    return "head %d phase %d value %s status %s decision %s\n" % (
        head.own, head.phase, value, status, decision)
