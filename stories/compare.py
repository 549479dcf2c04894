#!/usr/bin/env python3
"""Plays the same moves in storyhost and in glulxe, side by side, and compares what both show.

usage: compare.py STORY MOVES [--sizes SEED] [--host PROGRAM] [--glulxe PROGRAM] [--but FORM] [--keep]

Wants `apt-get install -y --no-install-recommends glulxe`. At each wait every window of the host's
show is compared with its rectangle of glulxe's screen, of 80 by 24 or, behind a move as {size 50 15}, of that size: a grid cell by cell, a buffer by
its text without its white space, since glulxe breaks lines for its screen: what glulxe shows is the
end of the host's text where that window waits for input, and else a part of it. Where the
moves made a transcript (the command script, and a file's name), that file's characters are compared
with the host's main window, each one. With --sizes the screen has another size, drawn by that number, before
some of the moves that are lines. The status is 0 where all agree.
"""
import argparse
import itertools
import os
import random
import re
import shutil
import sys
import tempfile

from host import CLEARED, HOST, SIZE, Host
from play import read_moves
from terminal import Program

COLUMNS, ROWS = 80, 24
SECONDS = 5         # in which glulxe draws anew on a screen of another size
MOST_PAGES = 200
# Keys of glulxe's Glk library: the screen drawn anew, the next page (nothing at a text's end), and
# the line that was begun taken away.
REDRAW, PAGE_DOWN, TAKE_AWAY = "\x0c", "\x16", "\x15"
TYPED = {"{Return}": "\r", "{Space}": " ", "{Escape}": "\x1b", "{Up}": "\x1bA", "{Down}": "\x1bB"}
# What an interpreter says of itself: docs/PROFILE.md has what gestalt tells.
OWN_NAME = re.compile(r"Interpreter ?version ?[0-9.]+ ?/ ?VM ?[0-9.]+ ?/")
# What is passed over, and what stands in its place.
PASSED = [(OWN_NAME, "(an interpreter)")]


def named(text):
    for form, word in PASSED:
        text = form.sub(word, text)
    return text


def solid(text):
    """The characters of a text but for its white space, and for what is passed over."""
    return named("".join(text.split()))


class Glulxe:
    """A story in glulxe, on a terminal of its own."""

    def __init__(self, story, folder, program="/usr/games/glulxe"):
        self.size = COLUMNS, ROWS
        words = [program, "-border", "no", "-defprompt", "no", os.path.abspath(story)]
        self.program = Program(words, folder, COLUMNS, ROWS + 1)
        self.program.settle()

    def message(self):
        """The screen's last line, where questions of the library itself stand."""
        columns, rows = self.size
        return self.program.screen.region(0, rows, columns, 1)[0].strip()

    def type(self, text):
        self.program.send(text)
        self.program.settle()

    def resize(self, columns, rows):
        """Another terminal, of which glulxe is told by a signal: it draws its windows then."""
        self.size = columns, rows
        self.program.resize(columns, rows + 1)
        self.program.read(SECONDS)
        self.program.settle()
        self.type(REDRAW)

    def give(self, kind, move, begun=""):
        """Types a move, after a line that the story began was taken away."""
        if size := SIZE.fullmatch(move):
            return self.resize(int(size[1]), int(size[2]))
        if begun:
            self.type(TAKE_AWAY)
        move = "" if move == "{empty}" and kind != "char" else move
        self.type(TYPED.get(move, move[:1]) if kind == "char" else move + "\r")
        if kind == "P" and self.message().startswith("Overwrite"):
            self.type("y")

    def rows(self, window):
        return self.program.screen.region(window.x, window.y, window.width, window.height)

    def whole(self):
        return self.program.screen.region(0, 0, *self.size)


def differences(host, other):
    """A text for each window that is shown otherwise."""
    found = []
    for number, window in sorted(host.windows.items()):
        rows = other.rows(window)
        if window.kind == 4:
            for row in range(window.height):
                ours = window.rows.get(row, "")
                if ours != rows[row]:
                    found.append(f"window {number}, row {row}:\n  host   |{ours}|\n"
                                 f"  glulxe |{rows[row]}|")
        elif window.kind == 3:
            at_end = number == host.wanted()[1]
            begun = host.begun() if at_end else ""
            ours, theirs = solid(window.text + begun), solid("".join(rows))
            same = ours.endswith(theirs) if at_end else theirs in ours
            if not same or ours and not theirs and window.width and window.height:
                end = ours[-len(theirs) :] if theirs else ours
                at = next((k for k in range(1, len(theirs) + 1)
                           if ours[-k:][:1] != theirs[-k]), 0)
                found.append(f"window {number}, {at} from its end:\n  host   |{end[-at - 20:][:60]}|"
                             f"\n  glulxe |{theirs[-at - 20:][:60]}|")
    return found


def agree(host, other):
    """Redraws glulxe's screen and turns its pages until all agree; returns what differs still."""
    found = differences(host, other)
    for key in [REDRAW] + MOST_PAGES * [PAGE_DOWN]:
        if not found or host.ended:
            break
        before = other.whole()
        other.type(key)
        if key == PAGE_DOWN and before == other.whole():
            break
        found = differences(host, other)
    return found


def compared_transcript(host, file):
    """Compares a transcript with the part of the main window's text that it is.

    Where the window was cleared the host doesn't show what was printed before in that turn, so
    there any characters of the transcript are passed over.
    """
    with open(file, encoding="latin-1", newline="") as it:
        theirs = named(it.read())
    if not theirs.startswith("Start of a transcript"):
        return None
    ours = named("".join(code if ord(code) < 256 else "?" for code in host.text))
    ours = ours[max(ours.find("Start of a transcript"), 0) :]
    at = count = 0
    for part, piece in enumerate(ours.split(CLEARED)):
        start = theirs.find(piece[:40], at) if part else 0
        same = os.path.commonprefix([piece, theirs[start:]]) if start >= 0 else ""
        at, count = max(start, 0) + len(same), count + len(same)
        if at == len(theirs):
            break
        if same != piece:
            return (f"transcript, character {at}:\n  host   |{piece[len(same):][:60]!r}|\n"
                    f"  glulxe |{theirs[at:][:60]!r}|")
    if at != len(theirs):
        return f"transcript: glulxe goes on |{theirs[at:][:60]!r}|"
    print(f"transcript: {count} of {len(theirs)} characters compared, all equal")
    return None


def with_sizes(host, moves, draw):
    """The moves, and before some of them sizes. Glulxe takes a size for a key where one is waited for."""
    for move in moves:
        if draw and host.wanted()[0] == "line" and draw.random() < 0.6:
            yield f"{{size {draw.randint(20, 94)} {draw.randint(7, 60)}}}"
        yield move


def main():
    words = argparse.ArgumentParser(usage=__doc__)
    words.add_argument("story")
    words.add_argument("moves")
    words.add_argument("--host", default=HOST)
    words.add_argument("--glulxe", default="/usr/games/glulxe")
    words.add_argument("--sizes", type=int, metavar="SEED", help="draw sizes of the screen")
    words.add_argument("--but", metavar="FORM", help="pass over what fits, in a text without white space")
    words.add_argument("--keep", action="store_true", help="keep glulxe's folder, and say where it is")
    given = words.parse_args()
    if given.but:
        PASSED.append((re.compile(given.but), "(passed over)"))
    folder = tempfile.mkdtemp(prefix="glulxe-")
    host, other = Host(given.story, given.host), Glulxe(given.story, folder, given.glulxe)
    bad = waits = 0
    move = "(opening)"
    draw = random.Random(given.sizes) if given.sizes is not None else None
    for turn, move in enumerate(itertools.chain(["(opening)"], with_sizes(host, read_moves(given.moves), draw))):
        if turn:
            if host.ended:
                break
            kind, begun = host.wanted()[0], host.begun()
            host.give(move)
            other.give(kind, move, begun)
        waits += 1
        for text in agree(host, other):
            bad += 1
            print(f"after move {turn}, {move}: {text}")
        if (host.ended == "quit") != other.message().startswith("Hit any key"):
            bad += 1
            print(f"after move {turn}, {move}: the host ended as {host.ended}, "
                  f"glulxe says |{other.message()}|")
            break
    host.finish()
    if not other.program.over:
        other.type(" ")
    other.program.finish()
    for name in sorted(os.listdir(folder)):
        if name.endswith(".txt"):
            text = compared_transcript(host, os.path.join(folder, name))
            if text:
                bad += 1
                print(text)
    print(f"{waits} waits compared, the host ended as {host.ended}, {bad} differences")
    if given.keep:
        print(folder)
    else:
        shutil.rmtree(folder)
    return bad != 0


if __name__ == "__main__":
    sys.exit(main())
