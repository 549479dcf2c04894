"""What stands on a terminal: cells, where windows stand on it, and which lines of a buffer are seen."""
from prompt_toolkit.data_structures import Point
from prompt_toolkit.utils import get_cwidth

from wrapping import Wrapped, shown


def cells_of(text, style=""):
    """What is drawn for a text: characters, their style and columns."""
    cells = []
    for code in text:
        drawn = shown(code)
        if drawn and get_cwidth(drawn):
            cells.append((drawn, style, get_cwidth(drawn)))
        elif drawn and cells:
            cells[-1] = (cells[-1][0] + drawn, style, cells[-1][2])
    return cells


def columns_of(cells):
    return sum(cell[2] for cell in cells)


class Canvas:
    """What stands on the terminal, by row and column; None is the second column of a character."""

    def __init__(self, columns, rows):
        self.columns, self.rows = columns, rows
        self.cells = [[(" ", "")] * columns for _ in range(rows)]

    def put(self, y, x, cells, end=None):
        """Draws cells from a place on, up to a column."""
        end = self.columns if end is None else min(end, self.columns)
        for drawn, style, columns in cells:
            if not 0 <= y < self.rows or x + columns > end:
                return
            self.cells[y][x] = (drawn, style)
            if columns == 2:
                self.cells[y][x + 1] = None
            x += columns

    def line(self, y):
        """A row as prompt_toolkit has it: styles and texts."""
        return [(cell[1], cell[0].replace("\u00a0", " ")) for cell in self.cells[y] if cell]

    def cursor(self, y, x):
        """A place, counted in characters of its row."""
        y, x = min(max(y, 0), self.rows - 1), min(max(x, 0), self.columns - 1)
        return Point(sum(len(cell[0]) for cell in self.cells[y][:x] if cell), y)


def spread(places, whole, least):
    """Where the edges of windows stand on a terminal of another size: where so much is left to the last
    windows these alone grow or shrink, else all do."""
    last, inner = places[-1], places[-2] if len(places) > 1 else 0
    if not last or whole - inner >= min(last - inner, least):
        return {**{place: place for place in places}, last: whole}
    found, at = {0: 0}, 0
    for place in places[1:]:
        at = min(max(at + 1, place * whole // last), whole)
        found[place] = at
    return {**found, last: whole}


def fitted(windows, columns, rows):
    """The rectangle of each window on a terminal of so many columns and rows."""
    across = spread(sorted({0} | {at for it in windows.values() for at in (it.x, it.x + it.width)}), columns, 20)
    down = spread(sorted({0} | {at for it in windows.values() for at in (it.y, it.y + it.height)}), rows, 4)
    return {
        number: (across[it.x], down[it.y], across[it.x + it.width] - across[it.x], down[it.y + it.height] - down[it.y])
        for number, it in windows.items()
    }


def squeezed(cells, width):
    """A status line that fits: its longest blanks are shortened."""
    while cells and cells[-1][0] == " ":
        cells = cells[:-1]
    while columns_of(cells) > width:
        longest, at, size = 1, 0, 0
        for place, cell in enumerate(cells):
            size = size + 1 if cell[0] == " " else 0
            if size > longest:
                longest, at = size, place
        if longest == 1:
            return cells
        cells = cells[:at] + cells[at + 1 :]
    return cells


class View:
    """The lines of a buffer, and which of them are seen."""

    def __init__(self, width):
        self.text, self.runs, self.taken, self.past = Wrapped(width, get_cwidth), None, 0, 0
        self.floor = 0      # the first line behind the last clearing
        self.seen = 0       # how many lines the player has seen
        self.end = None     # where the lines that are shown end, where these aren't the last ones

    def take(self, window, most=None):
        """Takes what came to a window, up to so many of its runs; what is there already isn't broken into lines
        again."""
        if self.runs is not window.runs:
            if self.runs is None:
                for style, text in window.past:
                    self.text.add(style, text)
            else:
                for style, text in window.past[self.past + self.taken :]:
                    self.text.add(style, text)
            if window.past:
                self.text.add(0, "\n")
            self.floor = len(self.text.lines) - 1
            self.seen = max(self.seen, self.floor)
            self.runs, self.taken, self.past = window.runs, 0, len(window.past)
        fresh = window.runs[self.taken : most]
        for style, text in fresh:
            self.text.add(style, text)
        self.taken += len(fresh)

    def count(self):
        return len(self.text.lines)

    def page(self, height):
        """Goes on to the next page of what wasn't seen; says whether more is behind it."""
        page = max(height - 1, 1)
        if self.count() - self.seen <= max(height, 1):
            self.end, self.seen = None, self.count() - 1
            return False
        self.seen += page
        self.end = self.seen
        return True

    def turn_back(self, height):
        """Counts the page that is shown as one that wasn't seen."""
        if self.end is not None:
            self.seen = max(self.seen - max(height - 1, 1), 0)

    def scroll(self, pages, height):
        end = self.count() if self.end is None else self.end
        end += pages * max(height - 1, 1)
        self.end = None if end >= self.count() else max(end, min(height, self.count()))
