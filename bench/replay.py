#!/usr/bin/env python3
"""What the transcripts of a whole evening cost.

64 sessions of The Well House are given so many moves by `pipe`. Then `replay` writes all games, on one processor and on
all that are there: the best time of some rounds each, and the peak of its memory, also of a folder with 17 games. Both
transcripts must be the same.

    bench/replay.py [MOVES] [FOLDER]"""

import os
import pathlib
import subprocess
import sys
import tempfile
import time

TOP = pathlib.Path(__file__).resolve().parent.parent
PROGRAM = pathlib.Path(os.environ.get("STORYHOST", TOP / "crates" / "storyhost" / "out" / "storyhost"))
STORY = TOP / "stories" / "cottage.ulx"
ROUNDS = 3


def play(folder, games, moves):
    """A folder with so many games of so many moves."""
    subprocess.run([PROGRAM, "init", folder], check=True, capture_output=True)
    told = subprocess.run([PROGRAM, "pipe", folder, STORY], input=b"OPEN 0 k 0 1 80 24\n", capture_output=True, check=True)
    window = next(line.split()[1] for line in told.stdout.splitlines() if line.startswith(b"I "))
    lines = [b"OPEN %d k 0 1 80 24\n" % session for session in range(1, games)]
    lines += [b"LINE %d k %d %s =look\n" % (session, n, window) for n in range(1, moves + 1) for session in range(games)]
    told = subprocess.run([PROGRAM, "pipe", folder, STORY], input=b"".join(lines), capture_output=True, check=True)
    if told.stdout.count(b"SHOW ") != games - 1 + games * moves:
        raise SystemExit("bench: not every move was accepted")


def peak_of(process):
    """The kilobytes of its memory at its peak so far: `wait4` would count those of this script, which began it."""
    with open(f"/proc/{process}/status") as told:
        return max((int(line.split()[1]) for line in told if line.startswith("VmHWM")), default=0)


def replayed(folder, processors):
    """The transcript, the seconds it took, and the kilobytes of memory at its peak, looked at with each piece of text."""
    began, pieces, peak = time.perf_counter(), [], 0
    child = subprocess.Popen([PROGRAM, "replay", folder, STORY], stdout=subprocess.PIPE,
                             preexec_fn=lambda: os.sched_setaffinity(0, processors))
    while piece := child.stdout.read1(65536):
        pieces.append(piece)
        peak = max(peak, peak_of(child.pid))
    if child.wait():
        raise SystemExit(f"bench: replay ended with {child.returncode}")
    return b"".join(pieces), time.perf_counter() - began, peak


def main():
    moves = int(sys.argv[1]) if len(sys.argv) > 1 else 1000
    above = sys.argv[2] if len(sys.argv) > 2 else None
    there = sorted(os.sched_getaffinity(0))
    with tempfile.TemporaryDirectory(prefix="replay-", dir=above) as room:
        few, many = pathlib.Path(room) / "few", pathlib.Path(room) / "many"
        play(few, 17, moves)
        play(many, 64, moves)
        one = [replayed(many, there[:1]) for _ in range(ROUNDS)]
        all_ = [replayed(many, there) for _ in range(ROUNDS)]
        seventeen = replayed(few, there)
        if len({text for text, _, _ in one + all_}) != 1:
            raise SystemExit("bench: the transcripts differ")
        size = len(one[0][0])
    slow, quick = min(it[1] for it in one), min(it[1] for it in all_)
    print("| Transcripts of 64 games | seconds | KiB at the peak |\n|---|---|---|")
    print(f"| one processor | {slow:.2f} | {max(it[2] for it in one):,} |")
    print(f"| {len(there)} processors | {quick:.2f} | {max(it[2] for it in all_):,} |")
    print(f"| {len(there)} processors, 17 games | {seventeen[1]:.2f} | {seventeen[2]:,} |")
    print(f"\n{moves:,} moves a game, {size:,} bytes, best of {ROUNDS} rounds each; {slow / quick:.2f} times as fast as on one")


main()
