"""Errors put into the tools, one at a time: each must be found by the comparison."""

from contextlib import contextmanager
from unittest import mock

import picture_ballots
import picture_drawing
import tick_cause
import vote_states
import vote_trace
import vote_words

STATE = vote_states.State


def exchanged(state):
    """A status as if the decision told it, and a decision as if the status did."""
    bit = state.value if state.value != "blank" else "0"
    return STATE(state.phase, state.value, "undecided" if state.decision == "none" else "decided",
                 bit if state.status == "decided" else "none")


def other_bit(state):
    return state._replace(value={"0": "1", "1": "0"}.get(state.value, state.value))


def wrapped(module, name, change):
    """The function, with its words changed before it is called."""
    right = getattr(module, name)
    return lambda: mock.patch.object(module, name, lambda *words: right(*change(*words)))


def answering(module, name, change):
    """The function, with its answer changed."""
    right = getattr(module, name)
    return lambda: mock.patch.object(module, name, lambda *words: change(right(*words)))


def of_vote(name, wrong):
    return lambda: mock.patch.object(vote_states.Vote, name, wrong)


def shifted(vote, number):
    return vote.run.rounds[max(number - 2, 0)][0]


def transposed(vote, number):
    lost = vote.run.rounds[number - 1][0]
    return [{sender for sender in range(vote.heads) if head in lost[sender]} for head in range(vote.heads)]


def complement(vote, number):
    return [set(range(vote.heads)) - senders for senders in vote.run.rounds[number - 1][0]]


LOSSES = {
    "lost and heard exchanged": of_vote("lost", complement),
    "the losses of the round before": of_vote("lost", shifted),
    "sender and receiver exchanged": of_vote("lost", transposed),
}

PICTURE = {
    "status and decision exchanged in the words": wrapped(vote_words, "state_words", lambda state: [exchanged(state)]),
    "status and decision exchanged in the marks": wrapped(
        picture_drawing, "state_marks", lambda state: [exchanged(state)]),
    "0 and 1 exchanged in the marks": wrapped(picture_drawing, "state_marks", lambda state: [other_bit(state)]),
    "titles of the round before": wrapped(
        picture_drawing, "head_words", lambda head, after, state, lost: (head, max(after - 1, 0), state, lost)),
    "a phase too high": wrapped(
        picture_drawing, "state_marks", lambda state: [state._replace(phase=state.phase + 1)]),
    "every round good": answering(
        picture_drawing, "round_words", lambda words: words.replace("not good", "good")),
}

LINES = {
    "lines of the ballots lost": of_vote("heard", lambda vote, number: vote.lost(number)),
    "the words of a line turned round": wrapped(
        picture_ballots, "heard_words", lambda number, sender, receiver: (number, receiver, sender)),
}

GRID = {
    "a grid's stroke one short": answering(
        picture_ballots, "side_by_side", lambda found: [(first, max(count - 1, 1)) for first, count in found]),
    "a grid's row of the head below": wrapped(
        picture_drawing, "grid_row", lambda places, column, head, lost: (places, column, max(head - 1, 0), lost)),
}

TRACE = {
    "status and decision exchanged in the changes": wrapped(
        vote_trace, "change_words", lambda before, own, heard, after: (before, own, heard, exchanged(after))),
    "copied and stepped without a look at the ballots": wrapped(
        vote_trace, "cause_of", lambda before, own, heard, after: (before, own, {own}, after)),
    "copied from the highest number": lambda: mock.patch.object(tick_cause, "min", max, create=True),
}


@contextmanager
def states_shifted(vote):
    """Each column has the states of the round before."""
    right = vote.states
    vote.states = {after: right[max(after - 1, 0)] for after in right}
    yield
    vote.states = right


def missed(errors, votes, text_of):
    """The names of the errors that show in none of the votes; each comes with its comparison."""
    names = []
    for name, seed in errors.items():
        with seed():
            shown = [differences(text_of(vote)) for vote, differences in votes]
        if not any(shown):
            names.append(name)
    for vote, differences in votes:
        with states_shifted(vote):
            if not differences(text_of(vote)):
                names.append("the states of the round before")
    return names
