"""Compares a picture with the states of the independent bench: every title, and what is drawn with it."""

from drawn import SVG, Drawn

VALUE_MARKS = {"0": "#zero", "1": "#one", "blank": "#blank"}

LEGEND = [(["#zero"], "value 0; the number is the phase"), (["#one"], "value 1"), (["#blank"], "value blank"),
          (["#ring"], "status decided"), (["#flag1"], "decision written; its bit")]
LINES_ENTRY = ([], "a ballot heard, sender to receiver")
GRID_ENTRY = ([], "row: receiver; dark: sender lost to it")
GOOD_ENTRY = (["#good"], "good round: lost at most the bound")


def differences(text, expected, report):
    """In words, at most one of each kind."""
    drawn = Drawn(text)
    states = sorted((group for group in drawn.groups if group.title.startswith("head ")), key=lambda g: (g.x, g.y))
    if len(states) != expected.n * (expected.last + 1):
        return ["%d states are drawn" % len(states)]
    places = Places(states, expected)
    found = [whole_difference(drawn, expected), label_difference(drawn, places, expected, report)]
    found.append(first(state_difference(states, expected)))
    found.append(first(round_difference(drawn, places, expected)))
    if expected.n <= 8:
        found.append(line_difference(drawn, places, expected))
    else:
        found.append(first(grid_difference(drawn, states, expected)))
    return [difference for difference in found if difference]


class Places:
    """The columns and rows that the states stand in."""

    def __init__(self, states, expected):
        self.columns = [states[after * expected.n].x for after in range(expected.last + 1)]
        self.rows = [state.y for state in states[:expected.n]]

    def round_at(self, left, right):
        """The round between whose columns this is, or none."""
        return next((number for number in range(1, len(self.columns))
                     if self.columns[number - 1] < left <= right < self.columns[number]), None)


def whole_difference(drawn, expected):
    """The legend, and that nothing drawn is without words, and nothing comes from outside."""
    entries = [(group.marks, group.title) for group in drawn.groups if group.texts[-1] == group.title]
    if entries != LEGEND + [LINES_ENTRY if expected.n <= 8 else GRID_ENTRY, GOOD_ENTRY]:
        return "the legend is %r" % entries
    pairs = sum(len(expected.heard(number, head)) for number in expected.rounds for head in range(expected.n))
    titles = 1 + len(expected.heads) + len(expected.rounds) + pairs * (expected.n <= 8) + len(entries)
    if drawn.untitled or drawn.titles != titles:
        return "%d titles, without title %r" % (drawn.titles, drawn.untitled)
    if {SVG + "script", SVG + "image"} & drawn.tags or any(link[0] != "#" for link in drawn.links):
        return "something comes from outside"
    return None


def label_difference(drawn, places, expected, report):
    """The header, the columns' words at their columns, the heads' names at their rows."""
    figures = report[0].split() + report[-1].split()
    header = ["heads %s, need %s, bound %s, rounds %s" % tuple(figures[1:8:2]), "at the end: " + report[-1]]
    columns = [("after %d" % after if after else "start", x) for after, x in enumerate(places.columns)]
    names = [("head %d" % head, y) for head, y in enumerate(places.rows)]
    if [label.text for label in drawn.labels[:2]] != header:
        return "the header is %r" % drawn.labels[:2]
    if [(label.text, label.x) for label in drawn.labels[2:] if label.text[:4] != "head"] != columns:
        return "the words of the columns differ"
    given = [(label.text, label.y - 4) for label in drawn.labels[2:] if label.text[:4] == "head"]
    if given != names * (1 + max(0, (expected.last - 1) // 32)):
        return "the names of the heads differ"
    return None


def state_difference(states, expected):
    """Title, marks and phase of each state; its column and row tell whose it is."""
    for place, state in enumerate(states):
        after, head = divmod(place, expected.n)
        phase, value, status, decision, _ = expected.heads[after, head]
        marks = [VALUE_MARKS[value]] + ["#ring"] * (status == "decided")
        marks += ["#flag" + decision] * (decision != "none")
        if state.title != expected.head_title(after, head):
            yield "the state at column %d, row %d says '%s'" % (after, head, state.title)
        if (state.marks, state.texts) != (marks, [str(phase)]):
            yield "head %d after round %d has %r %r" % (head, after, state.marks, state.texts)


def round_difference(drawn, places, expected):
    rounds = [group for group in drawn.groups if group.title.startswith("round ")]
    if len(rounds) != len(expected.rounds):
        yield "%d rounds are drawn" % len(rounds)
    for number, group in enumerate(rounds, 1):
        lost, bound, good = expected.rounds[number]
        if {places.round_at(x, x) for x in group.across} != {number}:
            yield "round %d stands elsewhere" % number
        if group.title != expected.round_title(number):
            yield "round %d says '%s'" % (number, group.title)
        if group.texts != ["round %d" % number, "%d lost, bound %d" % (lost, bound)]:
            yield "under round %d stands %r" % (number, group.texts)
        if ("#good" in group.marks) != (good == "good"):
            yield "round %d has the marks %r" % (number, group.marks)


def line_difference(drawn, places, expected):
    """The lines by where they begin and end, with their words and the value in their colour."""
    given = set()
    for line in drawn.lines:
        number = places.round_at(line.left, line.right)
        sender, receiver = places.rows.index(line.top), places.rows.index(line.bottom)
        given.add((number, sender, receiver, line.kind, line.title))
    right = {(number, sender, receiver, "from" + expected.heads[number - 1, sender][1],
              "round %d: head %d hears head %d" % (number, receiver, sender))
             for number in expected.rounds for receiver in range(expected.n)
             for sender in expected.heard(number, receiver)}
    return "lines differ: %r" % sorted(given ^ right)[:2] if given != right else None


def grid_difference(drawn, states, expected):
    """The dark squares of each grid, by receiver and sender."""
    grids = [group.grids[0] for group in drawn.groups if group.grids]
    if len(grids) != len(expected.rounds):
        yield "%d grids are drawn" % len(grids)
    cell = drawn.grid_side() / expected.n
    for number, (left, top) in enumerate(grids, 1):
        for head in range(expected.n):
            strokes = states[number * expected.n + head].strokes
            dark = [((y - top) / cell - 0.5, (x - left) / cell + index)
                    for x, y, length in strokes for index in range(int(length / cell))]
            if dark != [(head, sender) for sender in expected.heads[number, head][4]]:
                yield "the grid of round %d has %r for head %d" % (number, dark, head)


def first(found):
    return next(found, None)
