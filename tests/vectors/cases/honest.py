"""Longer lists of honest votes, by the fixed generator."""

import engine
from generator import Generator
from vector import T, note, section
from whole_set import WholeSet
from words import none, packed


def cases():
    section("Longer lists of honest votes: ballots lost, late or repeated")
    note("""Ballots that these heads sent earlier in the vote, in any order: no tick is refused.  The
            lists are by the fixed generator.  Of each vote: the longest list of an undecided head that
            holds something and copies without a step; that steps without copying; and that steps to
            its decision.""")
    for n, seed in ((7, 14), (16, 15), (17, 16), (31, 17), (32, 18)):
        chosen = longest_of_each_kind(vote(n, seed, 40 * n))
        for kind in sorted(chosen):
            head, ballots, coin = chosen[kind]
            T(head, ballots, coin, 0)


def longest_of_each_kind(ticks):
    chosen = {}
    for head, ballots, coin, after in ticks:
        kind = kind_of(head, ballots, after)
        if kind and (kind not in chosen or len(ballots) > len(chosen[kind][1])):
            chosen[kind] = (head, ballots, coin)
    return chosen


def kind_of(head, ballots, after):
    if head.decision != none or ballots == []:
        return None
    copied = any(x.phase > head.phase for x in ballots)
    stepped = not after.heard
    if after.decision != none and stepped:
        return "decides"
    if copied and not stepped and head.heard:
        return "copies"
    if stepped and not copied:
        return "steps"
    return None


def vote(n, seed, ticks):
    """An honest vote: any order of ticks, ballots lost, late or repeated, any coin.

    Yields (head before, list, coin, head after) of every tick.  Checks demand 3
    on the way: no two decisions differ, each was proposed by some head, a
    written one stays, and no tick is refused.
    """
    dice = Generator(seed)
    proposals = [dice.below(2) for k in range(n)]
    heads = [engine.start(n, own, proposal)[1] for own, proposal in enumerate(proposals)]
    whole = [WholeSet(head) for head in heads]
    sent = [engine.send(head)[1] for head in heads]
    for count in range(ticks):
        own = dice.below(n)
        head = heads[own]
        ballots = some_sent(dice, sent, head.phase)
        coin = dice.below(2)
        number, index, after = engine.tick(head, packed(ballots), coin)
        assert (number, index) == (0, 0), (number, index)
        whole[own].tick(ballots, coin)
        assert whole[own].agrees_with(after)
        assert head.decision == none or after.decision == head.decision
        heads[own] = after
        sent.append(engine.send(after)[1])
        decisions = {h.decision for h in heads if h.decision != none}
        assert len(decisions) <= 1 and decisions <= set(proposals)
        yield head, ballots, coin, after


def some_sent(dice, sent, phase):
    """Mostly ballots of the present phase and above, so that votes move; some of any age."""
    new = [ballot for ballot in sent if ballot.phase >= phase]
    ballots = []
    for k in range(dice.below(65)):
        pool = new if new and dice.below(4) > 0 else sent
        ballots.append(pool[dice.below(len(pool))])
    return ballots
