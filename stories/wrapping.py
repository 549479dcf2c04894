"""A story's text as a terminal can show it: characters with their widths, and lines broken at words."""
import unicodedata

NO_BREAKS = "\u00a0\u2007\u202f\u2060"
NON_JOINER = "\u200c"


def shown(character):
    """What is drawn for a character: nothing for a mark that has no form, ? for one that is none."""
    if " " <= character <= "~":
        return character
    kind = unicodedata.category(character)
    if kind == "Cf":
        return character if character == NON_JOINER else ""
    if character == "\t" or kind in ("Zs", "Zl", "Zp") and character != "\u3000":
        return "\u00a0" if character in NO_BREAKS else " "
    return "?" if kind in ("Cc", "Cs", "Co", "Cn") else character


def width_of(character):
    """How many columns a character takes."""
    if character <= "~":
        return 1
    if character == NON_JOINER or unicodedata.category(character) in ("Mn", "Me"):
        return 0
    return 2 if unicodedata.east_asian_width(character) in ("W", "F") else 1


class Wrapped:
    """The lines of a text in a width, broken as it comes. A line is a list of cells: what is drawn
    there, its style, and its columns."""

    def __init__(self, width, measure=width_of):
        self.width, self.measure = max(width, 1), measure
        self.lines, self.columns, self.is_broken = [[]], 0, False

    def add(self, style, text):
        for character in text:
            if character == "\n":
                self.lines.append([])
                self.columns, self.is_broken = 0, False
                continue
            drawn = shown(character)
            if drawn:
                self.put(drawn, style, self.measure(drawn))

    def put(self, drawn, style, columns):
        line = self.lines[-1]
        if columns == 0:
            if line:
                before, its_style, its_columns = line[-1]
                line[-1] = (before + drawn, its_style, its_columns)
            return
        if drawn == " " and not line and self.is_broken:
            return
        if self.columns + columns > self.width:
            rest = [] if drawn == " " else line[self.cut(line, columns):]
            self.lines[-1] = line[: len(line) - len(rest)]
            self.lines.append(rest)
            self.columns, self.is_broken = sum(cell[2] for cell in rest), True
            if drawn == " ":
                return
            line = rest
        line.append((drawn, style, columns))
        self.columns += columns

    @staticmethod
    def cut(line, columns):
        """Where a line is cut before a character of so many columns: behind a blank, or beside a
        character that stands for a word; a word that is as long as the line is cut at its end."""
        if columns == 2:
            return len(line)
        for at in range(len(line), 0, -1):
            if line[at - 1][0] == " " or line[at - 1][2] == 2:
                return at
        return len(line)


def wrapped(text, width):
    """The text with its lines broken at words."""
    lines = Wrapped(width)
    lines.add(0, text)
    return "\n".join("".join(cell[0] for cell in line) for line in lines.lines).replace("\u00a0", " ")
