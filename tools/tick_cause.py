"""Why a head changed in a round, as far as that one tick shows it.

Document 01's tick: a head copies a ballot of a higher phase, of the highest if there are several, and
of those the one of the lowest number. With over half of the heads heard at its phase it steps, and the
phase rises by one. So a higher phase among the ballots heard means that it copied, and a phase that is
one more than it would be without a step means that it stepped.
"""


def cause_of(before, own, heard, after):
    """In words, or '' where the tick does not show it.

    `before` has the states of all heads, which are their ballots too; `heard` the senders heard.
    """
    if not heard:
        return "heard nothing"
    highest = max(before[sender].phase for sender in heard)
    if highest > before[own].phase:
        return copied(before, heard, highest, after)
    if after.phase != before[own].phase + 1:
        return ""
    count = count_at(before, heard, before[own].phase)
    if 2 * count > len(before):
        return "stepped, %d of %d heard" % (count, len(before))
    # A head keeps whom it heard at its phase, so that several rounds together can make over half.
    return "stepped, %d of %d heard now and others before" % (count, len(before))


def copied(before, heard, highest, after):
    from_head = min(sender for sender in heard if before[sender].phase == highest)
    words = "copied from head %d" % from_head
    if after[:3] == before[from_head][:3]: # phase, value and status
        return words
    # Whom it heard at its old phase counts no more, so this round alone makes over half.
    count = count_at(before, heard, highest)
    if after.phase == highest + 1 and 2 * count > len(before):
        return words + ", then stepped, %d of %d heard" % (count, len(before))
    return ""


def count_at(before, heard, phase):
    return sum(before[sender].phase == phase for sender in heard)
