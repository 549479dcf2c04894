#!/usr/bin/env python3
"""The memory of a host whose sessions are warm behind a restart.

64 sessions of The Well House are opened and given so many moves each; the host is stopped and started again, and each
is asked for its last show. Then the peak of the host's memory is read, and again behind one more move of each. Both are
told of a host with one session too, and what each further session takes: its own pages, its states for undo, its
windows, all.

    bench/warm.py [PROGRAM] [MOVES]"""

import pathlib
import subprocess
import sys
import tempfile

from measure import WALK

TOP = pathlib.Path(__file__).resolve().parent.parent
PROGRAM = TOP / "crates" / "storyhost" / "out" / "storyhost"
STORY = TOP / "stories" / "cottage.ulx"
SESSIONS = 64


class Host:
    """A host that is asked over standard input, line by line."""

    def __init__(self, program, folder):
        self.process = subprocess.Popen([program, "pipe", folder, STORY], stdin=subprocess.PIPE,
                                        stdout=subprocess.PIPE)

    def ask(self, line):
        """The reply to a line."""
        self.process.stdin.write(line.encode() + b"\n")
        self.process.stdin.flush()
        reply = []
        while not reply or reply[-1] != ".":
            text = self.process.stdout.readline().decode()
            if not text or text.startswith("NO "):
                sys.exit(f"warm.py: {line} was answered {text!r}")
            reply.append(text.rstrip("\n"))
        return reply

    def peak(self):
        """The most memory that it held, in kilobytes."""
        with open(f"/proc/{self.process.pid}/status") as file:
            return next(int(line.split()[1]) for line in file if line.startswith("VmHWM"))

    def end(self):
        self.process.stdin.close()
        self.process.wait()


def peaks_with(program, folder, sessions, moves):
    """The peaks of a host behind a restart: when it has shown so many sessions, and when each was given a move."""
    subprocess.run([program, "init", folder], check=True, capture_output=True)
    first = Host(program, folder)
    for session in range(sessions):
        shown = first.ask(f"OPEN {session} k 0 1 80 24")
        window = next(line.split()[1] for line in shown if line.startswith("I "))
        for move in range(moves):
            first.ask(f"LINE {session} k {move + 1} {window} ={WALK[move % len(WALK)].replace(' ', '%20')}")
    first.end()
    second = Host(program, folder)
    for session in range(sessions):
        second.ask(f"LAST {session} k")
    shown = second.peak()
    for session in range(sessions):
        second.ask(f"LINE {session} k {moves + 1} {window} =look")
    played = second.peak()
    second.end()
    return shown, played


def main():
    program = sys.argv[1] if len(sys.argv) > 1 else PROGRAM
    moves = int(sys.argv[2]) if len(sys.argv) > 2 else 1
    with tempfile.TemporaryDirectory(prefix="warm-") as room:
        many, one = (peaks_with(program, pathlib.Path(room) / str(count), count, moves) for count in (SESSIONS, 1))
    for what, most, least in zip(("behind LAST", "behind one more move"), many, one):
        print(f"{what}: {most:,} KB at most with {SESSIONS} sessions of {moves} moves, {least:,} KB with one: "
              f"{(most - least) / (SESSIONS - 1):.1f} KB a session")


if __name__ == "__main__":
    main()
