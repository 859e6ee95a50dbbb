"""The ballots of a round in a picture: lines of those heard for a few heads, a grid of those lost for more."""

from vote_words import heard_words


def lines(vote, places, column):
    """One for each ballot heard, from sender to receiver, in the colour of the value that it carries."""
    left, right = places.gap_left(column) + 1, places.gap_right(column) - 1
    drawn = []
    for receiver, senders in enumerate(vote.heard(column + 1)):
        for sender in sorted(senders):
            drawn.append('<path class="from%s" d="M%d %dL%d %d"><title>%s</title></path>\n' % (
                vote.states[column][sender].value, left, places.y(sender), right, places.y(receiver),
                heard_words(column + 1, sender, receiver)))
    return "".join(drawn)


def guides(places, column):
    """The rows of the heads, so that the eye keeps to one."""
    left, right = places.gap_left(column), places.gap_right(column)
    ways = "".join("M%d %dH%d" % (left, places.y(head), right) for head in range(places.n))
    return '<path class="guide" d="%s"/>\n' % ways


def grid_row(places, column, receiver, lost):
    """The grid has a row for each receiver and a square in it for each sender; those lost are dark.

    The row is drawn with its receiver's state, so that pointing at it says the same words. Its places
    count from the middle of that state.
    """
    left, top = places.grid(column)
    x = left - places.x(column + 1)
    y = top + receiver * places.cell + places.cell / 2 - places.y(receiver)
    way, reached = "M%d %gm" % (x, y), 0
    for first, count in side_by_side(lost):
        way += "%s%d 0h%d" % ("m" if reached else "", (first - reached) * places.cell, count * places.cell)
        reached = first + count
    return '<path class="lost" d="%s"/>' % way


def side_by_side(numbers):
    """The first of each stretch of numbers without a gap, and how many there are."""
    firsts = sorted(number for number in numbers if number - 1 not in numbers)
    lasts = sorted(number for number in numbers if number + 1 not in numbers)
    return [(first, last - first + 1) for first, last in zip(firsts, lasts)]
