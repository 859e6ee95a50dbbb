"""A vote as a picture: heads from top to bottom, rounds from left to right, in SVG."""

from picture_ballots import grid_row, guides, lines
from picture_legend import legend, legend_height
from picture_marks import definitions, state_marks, style
from picture_places import Places
from vote_words import column_words, head_words, round_words

FIGURES_HEIGHT = 60


def picture_of(vote):
    """In the order of the vote, so that a reader of the screen tells it round by round."""
    places = Places(vote.heads, vote.first, vote.last)
    parts = [front(vote, places), style(places), definitions(places), header(vote, places)]
    parts.append(column_drawn(vote, places, vote.first))
    for column in range(vote.first, vote.last):
        parts += [round_drawn(vote, places, column), column_drawn(vote, places, column + 1)]
    return "".join(parts + [legend(places, places.bottom + FIGURES_HEIGHT), "</svg>\n"])


def front(vote, places):
    width, height = places.width(), places.bottom + FIGURES_HEIGHT + legend_height(places)
    words = "A vote of %d heads: %s" % (vote.heads, vote.last_line)
    return ('<svg xmlns="http://www.w3.org/2000/svg" width="%d" height="%d" viewBox="0 0 %d %d">\n'
            '<title>%s</title>\n<rect width="%d" height="%d" fill="#fff"/>\n' % (
                width, height, width, height, words, width, height))


def header(vote, places):
    """Above all: the figures, the last line of the report, and which rounds are drawn if not all."""
    words = ["heads %d, need %d, bound %d, rounds %d" % (vote.heads, vote.need, vote.bound, vote.rounds),
             "at the end: " + vote.last_line]
    if (vote.first, vote.last) != (0, vote.rounds):
        words.append("drawn: rounds %d to %d" % (vote.first + 1, vote.last))
    kinds = [' class="strong"', "", ""]
    return "".join('<text%s x="%d" y="%d">%s</text>\n' % (kinds[index], places.margin, 24 + 20 * index, said)
                   for index, said in enumerate(words))


# ---- Between two columns: a round

def round_drawn(vote, places, column):
    """The ballots heard, and under them lost ballots of the bound, and a mark if the round is good."""
    number, x, y = column + 1, places.gap_middle(column), places.bottom + 12
    lost, good = sum(map(len, vote.lost(number))), vote.good[number]
    marks = '<text class="middle strong" x="%d" y="%d">round %d</text>' % (x, y, number)
    marks += '<text class="middle" x="%d" y="%d">%d lost, bound %d</text>' % (x, y + 16, lost, vote.bound)
    if good:
        marks += '<use href="#good" x="%d" y="%d"/>' % (x, y + 28)
    if not places.has_lines:
        marks = '<use href="#grid" x="%d" y="%d"/>' % places.grid(column) + marks
    ballots = lines(vote, places, column) if places.has_lines else guides(places, column)
    return '%s<g role="img"><title>%s</title>%s</g>\n' % (
        ballots, round_words(number, lost, vote.bound, good), marks)


# ---- A column of states

def column_drawn(vote, places, column):
    states = "".join(state_drawn(vote, places, column, head) for head in range(vote.heads))
    return '<g transform="translate(%d,0)"><text class="middle" y="%d">%s</text>\n%s%s</g>\n' % (
        places.x(column), places.top - 14, column_words(column), names(places, column), states)


def state_drawn(vote, places, column, head):
    """A state, and with it the grid's row of what was lost to the head in the round before."""
    state, lost = vote.states[column][head], vote.lost(column)[head] if column else set()
    has_row = lost and column > vote.first and not places.has_lines
    return '<g role="img" transform="translate(0,%d)"><title>%s</title>%s%s</g>\n' % (
        places.y(head), head_words(head, column, state, lost),
        grid_row(places, column - 1, head, lost) if has_row else "", state_marks(state))


def names(places, column):
    if column != places.first and not places.has_names(column):
        return ""
    x = -places.ring - 4 if column == places.first else places.ring + places.names - 4
    return "".join('<text class="name" x="%d" y="%d">head %d</text>\n' % (x, places.y(head) + 4, head)
                   for head in range(places.n))
