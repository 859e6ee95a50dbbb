"""A vote as text: the states it starts from, and what changed in each round."""

from run_text import ranges
from tick_cause import cause_of
from vote_words import column_words, decision_words, phase_words, round_words, state_words, value_words


def trace_of(vote):
    lines = ["heads %d need %d bound %d" % (vote.heads, vote.need, vote.bound), column_words(vote.first)]
    lines += head_lines([state_words(state) for state in vote.states[vote.first]])
    for number in range(vote.first + 1, vote.last + 1):
        lost = sum(map(len, vote.lost(number)))
        lines.append(round_words(number, lost, vote.bound, vote.good[number]))
        lines += head_lines(changes(vote, number)) or ["  nothing changed"]
    return "\n".join(lines + [vote.last_line]) + "\n"


def changes(vote, number):
    """Words for each head, empty where there is nothing to say."""
    before, after, heard = vote.states[number - 1], vote.states[number], vote.heard(number)
    return [change_words(before, own, heard[own], after[own]) for own in range(vote.heads)]


def change_words(before, own, heard, after):
    fields = [phase_words, value_words, lambda state: state.status, decision_words]
    changed = ", ".join(field(after) for field in fields if field(after) != field(before[own]))
    return "; ".join(filter(None, [changed, cause_of(before, own, heard, after)]))


def head_lines(words):
    """One line for all heads with the same words."""
    lines = []
    for head, said in enumerate(words):
        if said and said not in words[:head]:
            alike = [other for other in range(len(words)) if words[other] == said]
            lines.append("  %s: %s" % (heads_words(alike, len(words)), said))
    return lines


def heads_words(heads, n):
    if len(heads) == n:
        return "all heads"
    return ("head " if len(heads) == 1 else "heads ") + ranges(heads, n)
