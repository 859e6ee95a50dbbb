"""The words of a state and of a round, for titles and for the trace."""


def state_words(state):
    return ", ".join([phase_words(state), value_words(state), state.status, decision_words(state)])


def phase_words(state):
    return "phase %d" % state.phase


def value_words(state):
    return "value " + state.value


def decision_words(state):
    return "no decision" if state.decision == "none" else "decision " + state.decision


def head_words(head, after, state, lost):
    """Of one head after a round, with the senders that were lost to it; `after` 0 is the start."""
    if after == 0:
        return "head %d at the start: %s" % (head, state_words(state))
    ending = "lost to it: " + ", ".join(map(str, sorted(lost))) if lost else "nothing lost to it"
    return "head %d after round %d: %s; %s" % (head, after, state_words(state), ending)


def heard_words(number, sender, receiver):
    return "round %d: head %d hears head %d" % (number, receiver, sender)


def round_words(number, lost, bound, good):
    ballots = "1 ballot" if lost == 1 else "%d ballots" % lost
    return "round %d: %s lost, bound %d, %s" % (number, ballots, bound, "good" if good else "not good")


def column_words(after):
    return "after %d" % after if after else "start"
