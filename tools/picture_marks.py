"""The marks of a picture: what a value, a ring, a flag, a good round and a grid look like.

Orange and dark blue are told apart by those who see fewer colours, and on a black and white print by
their lightness; the circle, the square and the broken outline tell the values without any colour.
"""

ORANGE, BLUE, BLACK = "#f0a830", "#0b4f82", "#111"

STYLE = """
text{font:12px sans-serif;fill:%(black)s}
.name{text-anchor:end}
.middle,.state,.long{text-anchor:middle}
.strong{font-weight:bold}
.state{font-size:%(phase)dpx}
.long{font-size:%(long)dpx}
.flag{font-size:%(flag)dpx}
.white{fill:#fff}
"""

LINES_STYLE = """.from0,.from1,.fromblank{fill:none;stroke-width:1.3}
.from0{stroke:#b87400}
.from1{stroke:%(blue)s}
.fromblank{stroke:#555;stroke-dasharray:3 3}
"""

GRID_STYLE = """.guide{stroke:#ddd}
.lost{fill:none;stroke:%(black)s;stroke-width:%(cell)dpx}
"""


def style(places):
    phase, small = (13, 11) if places.has_lines else (11, 9)
    rules = STYLE + (LINES_STYLE if places.has_lines else GRID_STYLE)
    words = dict(black=BLACK, blue=BLUE, phase=phase, long=small, flag=small, cell=places.cell)
    return "<style>%s</style>\n" % (rules % words)


def definitions(places):
    """Every mark once, around the middle of its state; a state uses them."""
    half, side = places.half, places.half - 2 # the square lies inside the ring
    outline = 'stroke="%s" stroke-width="1.5"' % BLACK
    marks = [
        '<defs aria-hidden="true">',
        '<circle id="zero" r="%d" fill="%s" %s/>' % (half, ORANGE, outline),
        '<rect id="one" x="-%d" y="-%d" width="%d" height="%d" fill="%s" %s/>' % (
            side, side, 2 * side, 2 * side, BLUE, outline),
        '<circle id="blank" r="%d" fill="#fff" %s stroke-dasharray="4 3"/>' % (half, outline),
        '<circle id="ring" r="%d" fill="none" stroke="%s" stroke-width="2"/>' % (places.ring - 1, BLACK),
        flag(places, "0", ORANGE, ""),
        flag(places, "1", BLUE, " white"),
        '<path id="good" d="M-5 0l4 4l7-9" fill="none" stroke="%s" stroke-width="2.5"/>' % BLACK,
    ]
    if not places.has_lines:
        marks.append(grid(places))
    return "\n".join(marks + ["</defs>\n"])


def flag(places, bit, colour, ink):
    """A pole from the state's edge upwards, and at its top the bit."""
    x, foot, top, width, height = (10, -11, -35, 14, 13) if places.has_lines else (9, -5, -19, 10, 10)
    return ('<g id="flag%s"><path d="M%d %dV%d" stroke="%s" stroke-width="1.5"/>'
            '<rect x="%d" y="%d" width="%d" height="%d" fill="%s" stroke="%s"/>'
            '<text class="middle strong flag%s" x="%d" y="%d">%s</text></g>' % (
                bit, x, foot, top, BLACK, x, top, width, height, colour, BLACK,
                ink, x + width // 2, top + height - 2, bit))


def grid(places):
    """The ground of a grid, with a line at every fourth head for those who count."""
    side = places.n * places.cell
    fourths = range(4 * places.cell, side, 4 * places.cell)
    rules = "".join("M%d 0v%dM0 %dh%d" % (place, side, place, side) for place in fourths)
    return ('<g id="grid"><rect width="%d" height="%d" fill="#fff" stroke="#777"/>'
            '<path d="%s" stroke="#bbb" stroke-width=".5"/></g>' % (side, side, rules))


def state_marks(state):
    """The value, a ring where the status is decided, a flag where a decision is written, and the phase."""
    marks = [{"0": "zero", "1": "one", "blank": "blank"}[state.value]]
    if state.status == "decided":
        marks.append("ring")
    if state.decision != "none":
        marks.append("flag" + state.decision)
    size = "long" if state.phase > 99 else "state"
    ink = " white" if state.value == "1" else ""
    uses = "".join('<use href="#%s"/>' % mark for mark in marks)
    return '%s<text class="%s%s" y="4">%d</text>' % (uses, size, ink, state.phase)
