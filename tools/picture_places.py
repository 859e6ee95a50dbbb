"""Where the things of a picture stand, in pixels."""

MOST_WITH_LINES = 8
NAMES_EVERY = 32
LEAST_WIDTH = 348 # the legend's; a phone shows it
GRID_SIDE = 96


class Places:
    """The picture of n heads from column `first` to column `last`; a column has the states after that round."""

    def __init__(self, n, first, last):
        self.n, self.first, self.last = n, first, last
        self.has_lines = n <= MOST_WITH_LINES
        # Half a state's width, half its ring's, and from one head to the next.
        self.half, self.ring, self.pitch = (15, 20, 56) if self.has_lines else (10, 13, 34)
        # The side of a grid's square for one ballot.
        self.cell = min(8, GRID_SIDE // n)
        self.gap = 48 + 8 * n if self.has_lines else max(60, self.cell * n) + 30
        self.margin = 12
        self.names = 54
        self.top = 112
        self.bottom = self.top + n * self.pitch

    def x(self, column):
        """The middle of a column. Names that are repeated at one stand to its right and move the next."""
        past = column - self.first
        repeated = max(0, (past - 1) // NAMES_EVERY)
        return self.margin + self.names + self.ring + past * (2 * self.ring + self.gap) + repeated * self.names

    def y(self, head):
        return self.top + head * self.pitch + self.pitch // 2

    def has_names(self, column):
        """Whether the heads' names are repeated at the column, so that they are never far."""
        return self.first < column < self.last and (column - self.first) % NAMES_EVERY == 0

    def gap_left(self, column):
        """Where the gap of the round after this column begins."""
        return self.x(column) + self.ring + (self.names if self.has_names(column) else 0)

    def gap_right(self, column):
        return self.x(column + 1) - self.ring

    def gap_middle(self, column):
        return (self.gap_left(column) + self.gap_right(column)) // 2

    def grid(self, column):
        """The upper left corner of the grid of the round after this column."""
        side = self.n * self.cell
        return self.gap_middle(column) - side // 2, (self.top + self.bottom - side) // 2

    def width(self):
        return max(self.x(self.last) + self.ring + 2 * self.margin, LEAST_WIDTH)
