#!/usr/bin/env python3
"""Plays the same moves in glulxe and in storyhost, and writes what both used as a table.

usage: measure.py [--host PROGRAM] [--glulxe PROGRAM] [--part N]

Seconds are processor seconds, the system's included, from the program's start to its end; memory
is the most that was resident. With --part N each row does an Nth of its work. Where git is installed
(git.py says how), a second table has its seconds for the rows of long turns, without its start.
"""
import argparse
import os
import subprocess
import sys
import tempfile
import time

HERE = os.path.dirname(os.path.abspath(__file__))
STORIES = os.path.join(HERE, "../stories")
sys.path.insert(0, STORIES)

import git  # noqa: E402
from compare import Glulxe, solid  # noqa: E402
from host import HOST, Host  # noqa: E402
from terminal import peak_of  # noqa: E402

WALK = ["n", "look", "open cupboard", "take all from cupboard", "e", "examine clock", "wind clock",
        "examine chest", "w", "put matches in cupboard", "put candle in cupboard", "close cupboard",
        "ask ilse about hens", "inventory", "s", "examine rosemary", "w", "examine nest", "wait", "e"]
BUDGET = 1_000_000_000_000


class Row:
    """Moves of a story, how much work they are, and its unit."""

    def __init__(self, name, story, moves, work, unit):
        self.name, self.story, self.moves, self.work, self.unit = name, story, moves, work, unit


def rows(part, folder):
    def share(number):
        return max(number // part, 1)

    turns = share(25_000_000)
    loop = loop_story(folder, turns)
    grinds, counts, calls, hauls, walks = share(1000), share(9000), share(6000), share(4000), share(60)
    prints, filters = share(4000), share(8000)
    return [
        Row("The Well House, its moves", "cottage.ulx", WALK * walks, len(WALK) * walks, "moves"),
        Row("The Mill, `grind`", "mill.ulx", [f"grind {grinds}"], grinds, "rounds"),
        Row("strings to memory, `grind N prints`", "mill.ulx", [f"grind {prints} prints"], prints, "rounds"),
        # One move of it is too short a time to compare, and a greater number the story doesn't take.
        Row("strings to a filter, `grind N filters`", "mill.ulx", [f"grind {filters} filters"] * 4, filters * 4,
            "rounds"),
        Row("add, bitxor, sub, jnz", loop, [], turns * 4, "steps"),
        # A round of each loop has 6, 13 or 22 instructions, as `inform6 -a` lists them.
        Row("arithmetic, `count`", "mill.ulx", [f"count {counts}"], counts * 6000, "steps"),
        Row("calls, `calls`", "mill.ulx", [f"calls {calls}"], calls * 13000, "steps"),
        Row("words of memory, `haul`", "mill.ulx", [f"haul {hauls}"], hauls * 22000, "steps"),
    ]


class Used:
    """What a run used, and the end of the main window's text."""

    def __init__(self, usage, peak, text):
        self.seconds = usage.ru_utime + usage.ru_stime
        self.peak, self.text = peak, text


def in_glulxe(row, program):
    with tempfile.TemporaryDirectory() as folder:
        other = Glulxe(os.path.join(STORIES, row.story), folder, program)
        for move in row.moves:
            other.program.send(move + "\r")
            other.program.settle()
        text, peak = solid("".join(other.program.screen.region(0, 1, 80, 23))), other.program.peak()
        for word in ("quit\r", "yes\r"):
            if not other.message().startswith("Hit any key"):
                other.type(word)
        other.type(" ")
        other.program.finish()
        return Used(other.program.usage, peak, text)


def in_host(row, program):
    host = Host(os.path.join(STORIES, row.story), program, BUDGET)
    for move in row.moves:
        host.give(move)
    # Where the story ended by itself this is its process's peak with that of this script before it.
    text, peak = solid(host.text), 0 if host.ended else peak_of(host.process.pid)
    for move in [] if host.ended else ["quit", "yes"]:
        host.give(move)
    host.finish()
    peak = peak or host.usage.ru_maxrss
    if host.ended != "quit":
        raise SystemExit(f"measure.py: {row.name}: the host ended as {host.ended}")
    return Used(host.usage, peak, text)


def loop_story(folder, turns):
    """A story that runs so many rounds of four simple instructions, and quits."""
    story = os.path.join(folder, f"loop{turns}.ulx")
    subprocess.run([sys.executable, os.path.join(HERE, "loop_story.py"), story, str(turns)], check=True)
    return story


def beside_git(measured, folder):
    """The table of the rows of long turns, beside git."""
    print("\n| Work | seconds, git | storyhost | ratio |\n|---|---|---|---|")
    idle = loop_story(folder, 1)
    for row, ours in measured:
        if len(row.moves) <= 4:
            theirs = git.seconds(os.path.join(STORIES, row.story), row.moves, idle)
            print(f"| {row.name} | {theirs:.2f} | {ours:.2f} | {ours / theirs:.2f} |", flush=True)


def main():
    words = argparse.ArgumentParser(usage=__doc__)
    words.add_argument("--host", default=HOST)
    words.add_argument("--glulxe", default="/usr/games/glulxe")
    words.add_argument("--part", type=int, default=1)
    given = words.parse_args()
    print(time.strftime("%Y-%m-%d, "), f"{os.cpu_count()} processors, load {os.getloadavg()[0]:.1f}\n", sep="")
    print("| Work | seconds, glulxe | storyhost | ratio | a second, glulxe | storyhost | peak MB, glulxe "
          "| storyhost |")
    print("|---|---|---|---|---|---|---|---|")
    measured = []
    with tempfile.TemporaryDirectory() as folder:
        for row in rows(given.part, folder):
            theirs, ours = in_glulxe(row, given.glulxe), in_host(row, given.host)
            same = not row.moves or ours.text.endswith(theirs.text[-200:])
            print(f"| {row.name}: {row.work:,} {row.unit} | {theirs.seconds:.2f} | {ours.seconds:.2f} "
                  f"| {ours.seconds / theirs.seconds:.2f} | {row.work / theirs.seconds:,.0f} "
                  f"| {row.work / ours.seconds:,.0f} | {theirs.peak / 1024:.1f} "
                  f"| {ours.peak / 1024:.1f} |" + ("" if same else " the texts differ"), flush=True)
            measured.append((row, ours.seconds))
        if git.is_here():
            beside_git(measured, folder)


if __name__ == "__main__":
    main()
