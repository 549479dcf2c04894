#!/usr/bin/env python3
"""The states that undo keeps of The Well House, as its snapshot has them: how many, and their bytes.

A session is given so many moves by `pipe`, each of which keeps a state; the snapshot behind the last 16th is read.

    bench/states.py [PROGRAM] [MOVES]"""

import pathlib
import struct
import subprocess
import sys
import tempfile

from measure import WALK

TOP = pathlib.Path(__file__).resolve().parent.parent
PROGRAM = TOP / "crates" / "storyhost" / "out" / "storyhost"
STORY = TOP / "stories" / "cottage.ulx"
GATES, AREAS, FRONT, SETTINGS = (10, 11), (4096, 8_392_720), 22, 52


class Bytes:
    """Bytes that are read one number or list after the other."""

    def __init__(self, all_of_them):
        self.all, self.at = all_of_them, 0

    def number(self):
        self.at += 4
        return struct.unpack_from(">I", self.all, self.at - 4)[0]

    def passed(self, count):
        self.at += count
        return count


def newest(file):
    """The bytes of the open snapshot with the most inputs, and how many inputs."""
    found = []
    for gate, area in zip(GATES, AREAS):
        if file[gate] == 1:
            _, inputs, length = struct.unpack_from(">QII", file, area)
            found.append((inputs, file[area + 16:area + 16 + length]))
    return max(found)


def states(snapshot):
    """The bytes of each state: of the contents of its memory, of its stack, and 8 a block."""
    read = Bytes(snapshot)
    read.passed(FRONT + 8)
    for _ in range(2):
        read.passed(read.number())
    read.passed(4)
    read.passed(8 * read.number())
    read.passed(SETTINGS)
    kept = []
    for _ in range(read.number()):
        memory, stack = (read.passed(read.number()) for _ in range(2))
        read.passed(4)
        kept.append((memory, stack, read.passed(8 * read.number())))
    return kept


def main():
    program = sys.argv[1] if len(sys.argv) > 1 else PROGRAM
    moves = int(sys.argv[2]) if len(sys.argv) > 2 else 112
    with tempfile.TemporaryDirectory(prefix="states-") as room:
        place = pathlib.Path(room) / "d"
        subprocess.run([program, "init", place], check=True, capture_output=True)

        def told(lines):
            return subprocess.run([program, "pipe", place, STORY], input=lines.encode(), capture_output=True,
                                  check=True).stdout.decode()

        window = next(line.split()[1] for line in told("OPEN 0 k 0 1 80 24\n").splitlines() if line.startswith("I "))
        lines = (WALK[n % len(WALK)].replace(" ", "%20") for n in range(moves))
        shown = told("".join(f"LINE 0 k {n} {window} ={line}\n" for n, line in enumerate(lines, 1)))
        if shown.count("SHOW 0 ") != moves:
            sys.exit("states.py: not every move was accepted")
        inputs, snapshot = newest((place / "snap00").read_bytes())
    kept = states(snapshot)
    weights = [sum(state) for state in kept]
    print(f"{inputs} moves: {len(kept)} states of {min(weights):,} to {max(weights):,} bytes, {sum(weights):,} in all, "
          f"of which {sum(state[0] for state in kept):,} are memory; the snapshot has {len(snapshot):,}")


main()
