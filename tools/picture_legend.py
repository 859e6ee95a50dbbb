"""The legend of a picture."""

from picture_marks import state_marks
from vote_states import State

ENTRY_WIDTH, ENTRY_HEIGHT = 300, 44


def entries(places):
    """Marks, and what they say."""
    flag_down = 24 if places.has_lines else 12
    return [
        (state_marks(State(1, "0", "undecided", "none")), "value 0; the number is the phase"),
        (state_marks(State(1, "1", "undecided", "none")), "value 1"),
        (state_marks(State(2, "blank", "undecided", "none")), "value blank"),
        ('<use href="#ring"/>', "status decided"),
        ('<use href="#flag1" x="-10" y="%d"/>' % flag_down, "decision written; its bit"),
        lines_entry() if places.has_lines else grid_entry(),
        ('<use href="#good"/>', "good round: lost at most the bound"),
    ]


def lines_entry():
    ways = "".join('<path class="from%s" d="M-18 %dH18"/>' % way for way in (("0", -7), ("1", 0), ("blank", 7)))
    return ways, "a ballot heard, sender to receiver"


def grid_entry():
    cells = ('<rect x="-12" y="-12" width="24" height="24" fill="#fff" stroke="#777"/>'
             '<rect x="-12" y="-4" width="16" height="8"/>')
    return cells, "row: receiver; dark: sender lost to it"


def columns(places):
    return max(1, min(4, places.width() // ENTRY_WIDTH))


def legend_height(places):
    return ENTRY_HEIGHT * -(-len(entries(places)) // columns(places))


def legend(places, top):
    drawn = []
    for index, (marks, words) in enumerate(entries(places)):
        row, column = divmod(index, columns(places))
        x = places.margin + 26 + column * ENTRY_WIDTH
        y = top + row * ENTRY_HEIGHT + ENTRY_HEIGHT // 2
        drawn.append('<g role="img" transform="translate(%d,%d)"><title>%s</title>%s'
                     '<text x="32" y="4">%s</text></g>\n' % (x, y, words, marks, words))
    return "".join(drawn)
