#!/usr/bin/env python3
"""What a start costs a session that was played long.

One session of the Well House is given so many moves by `pipe`. Then hosts are started on the folder, and on
a copy that has its journal alone: how long it takes from the start to the reply to LAST, as the best of
some rounds, and how many bytes the snapshot file has and takes.

    bench/resume.py [MOVES] [FOLDER]"""

import pathlib
import shutil
import subprocess
import sys
import tempfile
import time

TOP = pathlib.Path(__file__).resolve().parent.parent
PROGRAM = TOP / "crates" / "storyhost" / "out" / "storyhost"
STORY = TOP / "stories" / "cottage.ulx"
ROUNDS = 5


def asked(folder, lines):
    """What `pipe` writes, and its seconds from its start to its end."""
    began = time.perf_counter()
    ran = subprocess.run([PROGRAM, "pipe", folder, STORY], input=lines, capture_output=True, check=True)
    return ran.stdout, time.perf_counter() - began


def started(folder):
    """The best time of a host that is asked for the last show alone, and that show."""
    rounds = [asked(folder, b"LAST 0 k\n") for _ in range(ROUNDS)]
    return rounds[0][0], min(seconds for _, seconds in rounds)


def main():
    moves = int(sys.argv[1]) if len(sys.argv) > 1 else 1000
    above = sys.argv[2] if len(sys.argv) > 2 else None
    with tempfile.TemporaryDirectory(prefix="resume-", dir=above) as room:
        whole, alone = pathlib.Path(room) / "whole", pathlib.Path(room) / "alone"
        subprocess.run([PROGRAM, "init", whole], check=True, capture_output=True)
        opened, _ = asked(whole, b"OPEN 0 k 0 1 80 24\n")
        window = next(line.split()[1] for line in opened.splitlines() if line.startswith(b"I "))
        told, _ = asked(whole, b"".join(b"LINE 0 k %d %s =look\n" % (n, window) for n in range(1, moves + 1)))
        if told.count(b"SHOW 0 ") != moves:
            raise SystemExit("bench: not every move was accepted")
        alone.mkdir()
        shutil.copy(whole / "journal", alone / "journal")
        there, quick = started(whole)
        same, slow = started(alone)
        if there != same:
            raise SystemExit("bench: the last show is another one without snapshots")
        file = (whole / "snap00").stat()
    print("| Start of a host, up to the reply to LAST | seconds |\n|---|---|")
    print(f"| with snapshots | {quick:.3f} |\n| with the journal alone | {slow:.3f} |")
    print(f"\n{moves:,} moves, best of {ROUNDS} rounds each; the snapshot file has {file.st_size:,} bytes and "
          f"takes {512 * file.st_blocks:,}")


main()
