#!/usr/bin/env python3
"""Compares `storyhost drill N` with a model of its own: the scripts by the generator's definition, and
the replies of the Echo story in its few words.

usage: drill.py [N ..]        the numbers 0, 1, 42 and 2^64 - 1 unless given

Each number is drilled twice, and both runs have to write what the model says. It ends with 1 where one
differs."""

import hashlib
import os
import pathlib
import subprocess
import sys

TOP = pathlib.Path(__file__).resolve().parent.parent
PROGRAM = pathlib.Path(os.environ.get("STORYHOST", TOP / "crates/storyhost/out/storyhost"))
SESSIONS, TURNS = 8, 1000
WORD64, MULTIPLIER = 2**64 - 1, 6364136223846793005


def words(start, stream):
    """The words of PCG's Lcg64Xsh32 from a start on a stream (O'Neill, 2014)."""
    increment = (stream << 1 | 1) & WORD64
    state = ((start + increment) * MULTIPLIER + increment) & WORD64
    while True:
        mixed = ((state >> 18 ^ state) >> 27) & 0xFFFFFFFF
        turn = state >> 59
        state = (state * MULTIPLIER + increment) & WORD64
        yield (mixed >> turn | mixed << (32 - turn)) & 0xFFFFFFFF


def script(number, session, turns):
    """What is asked: OPEN as (0, None), and moves as (their number, their text)."""
    source, sent, last = words(number, session), 0, (0, None)
    yield last
    for _ in range(turns):
        word = next(source)
        if word % 10 == 1:
            last = (sent + 2, "x")
        elif word % 10 > 1:
            sent += 1
            letters = (word // (i + 1) % 26 for i in range(word // 10 % 19 + 1))
            last = (sent, "".join(chr(97 + letter) for letter in letters))
        yield last


def told(number, session):
    """The line of a session."""
    count, shown, accepted, refused, digest = 0, "", 0, 0, hashlib.sha256()
    for move, text in script(number, session, TURNS):
        if move > count + 1:
            refused += 1
            digest.update(f"NO 5 {count}\n".encode())
            continue
        if accepted == 0 or move == count + 1:
            accepted += 1
            count = move
            typed = "" if text is None else f"T 1 8 ={text}%0A\n"
            said = "" if text is None else f"{text}%0A"
            shown = f"W 1 3 0 0 80 24\n{typed}T 1 0 ={said}>\nI 1 line 20 =\n.\n"
        digest.update(f"SHOW {session} {count}\n{shown}".encode())
    return f"{session} {accepted} {refused} {digest.hexdigest()}\n"


def main():
    numbers = [int(word) for word in sys.argv[1:]] or [0, 1, 42, WORD64]
    differ = 0
    for number in numbers:
        wanted = "".join(told(number, session) for session in range(SESSIONS)) + "done\n"
        for _ in range(2):
            run = subprocess.run([PROGRAM, "drill", str(number)], capture_output=True, text=True, check=False)
            if run.returncode != 0 or run.stdout != wanted:
                differ += 1
                print(f"drill {number}: status {run.returncode}, wrote {run.stdout!r}, wanted {wanted!r}")
    print(f"drill.py: {2 * len(numbers)} runs, {differ} differed")
    return 1 if differ else 0


if __name__ == "__main__":
    sys.exit(main())
