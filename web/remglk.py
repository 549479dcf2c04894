"""A host's shows as RemGlk's updates, and a display's events as a host's moves.

web/README.md has the messages. Nothing here touches a socket."""

import json
import math
import pathlib
import re
import sys
from urllib.parse import quote, unquote

sys.path.append(str(pathlib.Path(__file__).resolve().parent.parent / "stories"))

from host import FAULTS, KEYS  # noqa: E402

STYLES = ("normal", "emphasized", "preformatted", "header", "subheader", "alert", "note", "blockquote", "input", "user1",
          "user2")  # fmt: skip
WINDOW_TYPES = {3: "buffer", 4: "grid"}
FILE_TYPES = ("data", "save", "transcript", "command")
FILE_MODES = {1: "write", 2: "read", 3: "readwrite", 5: "writeappend"}
CODES = {name.strip("{}").lower(): code for name, code in KEYS.items()}
TERMINATORS = {name: CODES[name] for name in ["escape", *(f"func{n}" for n in range(1, 13))]}
MOST_LETTERS = 1024
GREATEST = 0xFFFFFFFF
SAFE = "".join(chr(code) for code in range(0x21, 0x7F) if code != 0x25)
KEY = re.compile(r"[A-Za-z0-9]{1,32}")
CONTROL = re.compile(r"[\x00-\x1f\x7f-\x9f\ud800-\udfff]")


class Refused(Exception):
    """What is wrong with a message, for who sent it."""


def message_of(text):
    """A display's message, which is an object with a type."""
    try:
        message = json.loads(text)
    except (ValueError, RecursionError):
        raise Refused("this isn't JSON") from None
    if not isinstance(message, dict) or not isinstance(message.get("type"), str):
        raise Refused("a message is an object with a type")
    return message


def number_of(message, name, most=GREATEST):
    value = message.get(name)
    if isinstance(value, bool) or not isinstance(value, int) or not 0 <= value <= most:
        raise Refused(f"{name} is to be a number from 0 to {most}")
    return value


def text_in(message, name):
    value = message.get(name)
    if not isinstance(value, str):
        raise Refused(f"{name} is to be a text")
    return value


def key_of(message):
    value = message.get("key")
    if not isinstance(value, str) or not KEY.fullmatch(value):
        raise Refused("a key has 1 to 32 letters and digits")
    return value


def text_of(value, what):
    """A text of a player, within what a host takes."""
    if not isinstance(value, str):
        raise Refused(f"{what} is to be a text")
    if len(value) > MOST_LETTERS:
        raise Refused(f"{what} has more than {MOST_LETTERS:,} characters")
    if CONTROL.search(value):
        raise Refused(f"{what} has a control character")
    return "=" + quote(value, safe=SAFE)


def code_of(value):
    """The code of a key's name, or of one character."""
    if isinstance(value, str) and value in CODES:
        return CODES[value]
    if not isinstance(value, str) or len(value) != 1 or CONTROL.search(value):
        raise Refused("a key is one character, or a key's name")
    return ord(value)


def move_of(event):
    """A line of a host but for its session: the word, the number of the move, and the rest."""
    kind, n = event["type"], number_of(event, "gen")
    if kind == "line":
        text = text_of(event.get("value"), "the line")
        ending = event.get("terminator")
        if ending is not None and ending not in TERMINATORS:
            raise Refused("there is no such terminator")
        rest = f"{number_of(event, 'window')} {text}" + (f" {TERMINATORS[ending]}" if ending else "")
        return "LINE", n, rest
    if kind == "char":
        return "CHAR", n, f"{number_of(event, 'window')} {code_of(event.get('value'))}"
    if event.get("response") != "fileref_prompt":
        raise Refused("no such response is waited for")
    name = event.get("value")
    name = name.get("filename") if isinstance(name, dict) else name
    return "FILE", n, text_of("" if name is None else name, "the name")


class Measure:
    """What a display measures, in units of its own, and how many characters that is."""

    def __init__(self, metrics):
        if not isinstance(metrics, dict):
            raise Refused("metrics is to be an object")

        def read(*names, least, default):
            value = next((metrics[name] for name in names if metrics.get(name) is not None), default)
            fits = isinstance(value, (int, float)) and not isinstance(value, bool) and math.isfinite(value)
            if not fits or not least <= value <= 100_000:
                raise Refused(f"{names[0]} isn't a measure")
            return value

        self.width = read("width", least=0, default=80)
        self.height = read("height", least=0, default=24)
        self.margin = (read("gridmarginx", "marginx", "margin", least=0, default=0),
                       read("gridmarginy", "marginy", "margin", least=0, default=0))  # fmt: skip
        across = read("gridcharwidth", "charwidth", least=0.01, default=1)
        down = read("gridcharheight", "charheight", least=0.01, default=1)
        self.columns = fitting(self.width - self.margin[0], across)
        self.rows = fitting(self.height - self.margin[1], down)

    def place(self, window, columns, rows):
        """A window's rectangle, in parts of a screen of so many characters. What a display keeps free round
        a grid goes to the first row and column, where status lines are."""
        left, right = self.at(window.x, columns, 0), self.at(window.x + window.width, columns, 0)
        top, bottom = self.at(window.y, rows, 1), self.at(window.y + window.height, rows, 1)
        return {"left": left, "top": top, "width": right - left, "height": bottom - top}

    def at(self, place, all_of, axis):
        whole, margin = (self.width, self.height)[axis], self.margin[axis]
        return round(margin + place * (whole - margin) / all_of) if place and all_of else 0


def fitting(room, size):
    return max(1, min(255, math.floor(room / size + 1e-6)))


def unescaped(text):
    """The characters of a text of a show, which begins with =."""
    return unquote(text[1:], errors="strict")


class Window:
    def __init__(self, number, kind, x, y, width, height):
        self.number, self.kind = number, kind
        self.x, self.y, self.width, self.height = x, y, width, height


class Show:
    """A show, read. What is none is a ValueError."""

    def __init__(self, lines):
        try:
            self.read(lines)
        except (IndexError, TypeError) as cause:
            raise ValueError from cause

    def read(self, lines):
        self.windows, self.cleared, self.runs, self.rows = [], set(), {}, {}
        self.requests, self.prompt, self.ended = [], None, None
        for line in lines:
            word, *rest = line.split(" ")
            if word == "W":
                self.windows.append(Window(*map(int, rest)))
            elif word == "C":
                self.cleared.add(int(rest[0]))
            elif word == "T":
                self.runs.setdefault(int(rest[0]), []).append((int(rest[1]), unescaped(rest[2])))
            elif word == "G":
                self.rows.setdefault(int(rest[0]), []).append((int(rest[1]), unescaped(rest[2])))
            elif word == "I":
                self.requests.append((int(rest[0]), rest[1], *rest[2:]))
            elif word == "P":
                self.prompt = int(rest[0]), int(rest[1])
            elif word == "E":
                self.ended = " ".join(rest)

    @property
    def screen(self):
        """Columns and rows of the game's screen, which its windows fill, or None where it has no window."""
        if not self.windows:
            return None
        return (max(window.x + window.width for window in self.windows),
                max(window.y + window.height for window in self.windows))  # fmt: skip


def with_earlier(shows):
    """The lines of the last of these shows, with what the others have left in its buffers."""
    *_, last = shows
    there, left = {line.split(" ")[1] for line in last if line.startswith("W ")}, {}
    for line in (line for lines in shows for line in lines):
        word, _, rest = line.partition(" ")
        number = rest.partition(" ")[0]
        if word == "C":
            left[number] = [line]
        elif word == "T":
            left.setdefault(number, []).append(line)
    kept = [line for number, lines in left.items() if number in there for line in lines]
    return [line for line in last if not line.startswith(("C ", "T "))] + kept


def spans(pieces):
    return {"content": [{"style": style, "text": text} for style, text in pieces]} if pieces else {}


def style_of(number):
    return STYLES[number] if number < len(STYLES) else "normal"


def paragraphs(runs, cleared):
    """What a buffer was given, by its lines. The first goes on where the window's text ended."""
    lines = [[]]
    for style, text in runs:
        for more, piece in enumerate(text.split("\n")):
            if more:
                lines.append([])
            if piece:
                lines[-1].append((style_of(style), piece))
    made = [spans(line) for line in lines]
    return made if cleared else [{"append": True, **made[0]}, *made[1:]]


def windows_of(windows, measure, screen):
    made = []
    for window in windows:
        if window.kind not in WINDOW_TYPES:
            continue
        told = {"id": window.number, "type": WINDOW_TYPES[window.kind], "rock": 0,
                **measure.place(window, *screen)}  # fmt: skip
        if window.kind == 4:
            told |= {"gridwidth": window.width, "gridheight": window.height}
        made.append(told)
    return made


def content_of(show):
    made = []
    for window in show.windows:
        if window.kind == 4:
            lines = [{"line": y, **spans([("normal", text)] if text else [])} for y, text in
                     show.rows.get(window.number, [])]  # fmt: skip
            made.append({"id": window.number, "lines": lines})
        elif window.kind == 3 and (window.number in show.runs or window.number in show.cleared):
            cleared = window.number in show.cleared
            told = {"id": window.number, "text": paragraphs(show.runs.get(window.number, []), cleared)}
            made.append({**told, "clear": True} if cleared else told)
    return made


def input_of(show, gen, asked):
    """The requests of a show. `asked` has the numbers of updates since which requests have been open."""
    grids = {window.number: window for window in show.windows if window.kind == 4}
    made = []
    for number, kind, *rest in show.requests:
        told = {"id": number, "gen": asked.get((number, kind), gen), "type": kind}
        if kind == "line":
            told |= {"maxlen": int(rest[0]), "initial": unescaped(rest[1])}
        if number in grids:
            # A show doesn't have a grid's cursor.
            told |= {"xpos": 0, "ypos": max(grids[number].height - 1, 0)}
        made.append(told)
    return made


def update_of(show, n, measure, asked=(), watched=False):
    """The update behind move n. `gen` is the number of the next move."""
    gen = n + 1
    update = {"type": "update", "gen": gen}
    if show.windows or not show.ended:
        update["windows"] = windows_of(show.windows, measure, show.screen or (1, 1))
        update["content"] = content_of(show)
    update["input"] = [] if watched else input_of(show, gen, dict(asked))
    if show.prompt and not watched:
        usage, mode = show.prompt
        update["specialinput"] = {"type": "fileref_prompt", "filetype": FILE_TYPES[usage & 3],
                                  "filemode": FILE_MODES.get(mode, "read")}  # fmt: skip
    if show.ended:
        update["ended"] = show.ended
        word, _, code = show.ended.partition(" ")
        if word == "fault" and int(code) < len(FAULTS):
            update["why"] = FAULTS[int(code)]
    elif not show.requests and not show.prompt:
        update["ended"] = "stuck"
    if watched or "ended" in update:
        update["disable"] = True
    return update
