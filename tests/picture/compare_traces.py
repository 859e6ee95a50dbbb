"""Compares a trace with the states of the independent bench, word for word and head by head."""

import re

HEADS = re.compile(r"  (?:heads? ([0-9 -]+)|(all) heads): (.*)$")


def differences(text, expected, report):
    lines = text.splitlines()
    blocks = blocks_in(lines[1:-1])
    titles = ["start"] + [expected.round_title(number) for number in sorted(expected.rounds)]
    if [lines[0], lines[-1]] != [report[0], report[-1]] or [title for title, _ in blocks] != titles:
        return ["the first line, the last, or the line of a round differs"]
    return [difference for number, (_, told) in enumerate(blocks)
            for difference in block_differences(expected, number, told)][:3]


def blocks_in(lines):
    """The lines that begin a block, each with those under it."""
    blocks = []
    for line in lines:
        if line.startswith("  "):
            blocks[-1][1].append(line)
        else:
            blocks.append((line, []))
    return blocks


def block_differences(expected, number, lines):
    right = {head: words_of(expected, number, head) for head in range(expected.n)}
    right = {head: words for head, words in right.items() if words}
    if not right or lines == ["  nothing changed"]:
        return [] if not right and lines == ["  nothing changed"] else ["round %d: %r" % (number, lines)]
    told = {}
    for line in lines:
        named, every, words = HEADS.match(line).groups()
        for head in range(expected.n) if every else numbers(named):
            told[head] = "told twice" if head in told else words
    return ["round %d, head %d: '%s'" % (number, head, told.get(head))
            for head in range(expected.n) if told.get(head) != right.get(head)]


def words_of(expected, number, head):
    """What changed, and why; all of it at the start."""
    fields = field_words(expected.heads[number, head])
    if number == 0:
        return ", ".join(fields)
    before = field_words(expected.heads[number - 1, head])
    changed = ", ".join(word for word, old in zip(fields, before) if word != old)
    cause = cause_of(expected, number, head)
    return changed + "; " + cause if changed and cause else changed or cause


def field_words(fields):
    phase, value, status, decision, _ = fields
    written = "no decision" if decision == "none" else "decision " + decision
    return ["phase %d" % phase, "value " + value, status, written]


def cause_of(expected, number, head):
    """By the ballots heard and the phases before and after."""
    heard = expected.heard(number, head)
    if not heard:
        return "heard nothing"
    phases = [expected.heads[number - 1, sender][0] for sender in range(expected.n)]
    before, after = phases[head], expected.heads[number, head][0]
    reached = max([before] + [phases[sender] for sender in heard])
    at = [sender for sender in heard if phases[sender] == reached]
    copied = ["copied from head %d" % at[0]] if reached > before else []
    now = "stepped, %d of %d heard" % (len(at), expected.n)
    enough = "" if 2 * len(at) > expected.n else " now and others before"
    return ", then ".join(copied + [now + enough] * (after - reached))


def numbers(words):
    for word in words.split():
        low, _, high = word.partition("-")
        yield from range(int(low), int(high or low) + 1)
