#!/usr/bin/env python3
"""Looks whether `replay` writes what players were shown, on the folders of killed hosts and on real files.

    drills/transcripts.py [ROUNDS] [--seed N] [--moves N]

- A round kills a host of `pipe` and one of `serve` while they play, sizes of the screen among the moves, as
  drills/crash.py does. `replay` of each folder must write, game by game, the line with the session and the place of
  its OPEN, and the shows that `run` writes for the same moves; and the folder must stand as it stood.
- A name under which nothing stands is no journal, and nothing is made of it. A journal that may not be written is
  read, as on a medium that is read-only. A folder that a host holds is refused with 6, and says why. An output that
  is closed in the middle is 5. On a terminal standard error has a line for each 16 games; the first texts are out
  while a long seventeenth game is still played.

It says how many games it compared, and ends with 1 where something is otherwise."""

import argparse
import contextlib
import os
import pathlib
import pty
import random
import shutil
import subprocess
import sys
import tempfile
import time

import crash
import folder as files

PROGRAM = crash.PROGRAM


class Otherwise(Exception):
    pass


def want(what, is_so, seen=""):
    if not is_so:
        raise Otherwise(f"{what}{f': {seen}' if seen else ''}")


def replay(folder, *stories, **more):
    return subprocess.run([PROGRAM, "replay", folder, *stories], capture_output=True, timeout=120, **more)


def standing(folder):
    """The files of a folder, with what they hold and when they were written."""
    return {one.name: (one.read_bytes(), one.stat().st_mtime_ns) for one in sorted(folder.iterdir())}


def wanted(folder, story, sessions):
    """The transcript of games that were played by these sessions, by their moves alone."""
    opened = {}
    for row in files.rows_of(files.journal_of(folder)):
        if row.kind == files.OPEN:
            opened.setdefault(row.session, []).append(row.place)
    text = ""
    for session in sessions:
        places = opened[session.number]
        want("one row for each OPEN", len(places) == len(session.games), places)
        for at, (place, moves) in enumerate(zip(places, session.games)):
            shows = crash.alone(story, moves)
            if at + 1 < len(session.games):
                shows.append("E closed\n.\n")
            text += f"GAME {session.number} {place}\n"
            text += "".join(f"SHOW {session.number} {n}\n{show}" for n, show in enumerate(shows))
    return text + "done\n"


def kill_and_compare(draw, room, moves, over_links):
    """Plays on a host that is killed, and compares its folder's transcript; how many games there were."""
    story, folder = room / "story.ulx", room / ("links" if over_links else "pipe")
    story.write_bytes(crash.echo_story())
    sessions = [
        crash.Session(s, [crash.draw_moves(draw, moves) for _ in range(2)]) for s in range(8 if over_links else 3)
    ]
    played = crash.play_links if over_links else crash.play
    played(draw, str(folder), str(story), sessions, 3, crash.Starts(False))
    before = standing(folder)
    ran = replay(folder, story)
    want("a transcript is written", ran.returncode == 0, ran.stderr)
    want("the transcript is what `run` shows of each game", ran.stdout.decode() == wanted(folder, story, sessions),
         f"its folder is {folder}")
    want("the folder stands as it stood", standing(folder) == before)
    return 2 * len(sessions)


def play(folder, story, moves_of):
    """A folder with a game of each session, with so many moves."""
    want("init", subprocess.run([PROGRAM, "init", folder], capture_output=True).stdout == b"ready\n")
    lines = []
    for session, moves in enumerate(moves_of):
        lines.append(f"OPEN {session} k{session} 0 7 80 24")
        lines += [f"LINE {session} k{session} {n} 1 =look" for n in range(1, moves + 1)]
    ran = subprocess.run([PROGRAM, "pipe", folder, story], input="".join(f"{line}\n" for line in lines).encode(),
                         stdout=subprocess.DEVNULL, timeout=600)
    want("the games are played", ran.returncode == 0)


@contextlib.contextmanager
def as_nobody(folder):
    """Words before a command that is to run as one who may not write there."""
    modes = {one: one.stat().st_mode for one in [folder, *folder.iterdir()]}
    for one in modes:
        one.chmod(0o555 if one.is_dir() else 0o444)
    try:
        yield {"user": "nobody"} if os.getuid() == 0 else {}
    finally:
        for one, mode in modes.items():
            one.chmod(mode)


def look_round(room):
    """What meets a keeper."""
    room.chmod(0o755)
    story, folder = room / "story.ulx", room / "keeper"
    story.write_bytes(crash.echo_story())
    play(folder, story, [3] * 40)
    before = standing(folder)

    ran = replay(room / "nothing", story)
    want("no journal", (ran.returncode, ran.stdout) == (8, b"bad journal\n"), ran)
    want("nothing is made of a wrong name", not (room / "nothing").exists())

    whole = replay(folder, story).stdout
    want("each session has its game", whole.count(b"GAME ") == 40)
    with as_nobody(folder) as who:
        ran = replay(folder, story, **who)
        want("a journal that may not be written is read", (ran.returncode, ran.stdout) == (0, whole), ran.stderr)

    host = crash.Host(str(folder), str(story))
    host.ask("LAST 0 k0")
    ran = replay(folder, story)
    want("a folder that a host holds is refused", (ran.returncode, ran.stdout) == (6, b""), ran.stdout[:80])
    want("and it is said why", b"another host may have the folder" in ran.stderr, ran.stderr)
    want("the host ends", host.end() == 0)

    reader, writer = os.pipe()
    ran = subprocess.Popen([PROGRAM, "replay", folder, story], stdout=writer, stderr=subprocess.DEVNULL)
    os.close(writer)
    front = os.read(reader, 100)
    os.close(reader)
    want("a closed output is 5, or all was out before", ran.wait(timeout=60) in (0, 5))
    want("what was written begins the transcript", whole.startswith(front))

    control, terminal = pty.openpty()
    ran = subprocess.run([PROGRAM, "replay", folder, story], stdout=subprocess.DEVNULL, stderr=terminal, timeout=60)
    told = os.read(control, 4096).decode().split("\r\n")[:-1]
    os.close(control)
    os.close(terminal)
    want("a terminal is told how far it is", told == [f"storyhost: {n} of 40 games" for n in (16, 32, 40)], told)

    want("the folder stands as it stood", {**standing(folder)} == before)


def look_at_time(room):
    """The first texts are out while a long game behind them is played."""
    story, folder = crash.TOP / "stories" / "cottage.ulx", room / "long"
    play(folder, story, [1] * 16 + [4000])
    began = time.monotonic()
    ran = subprocess.Popen([PROGRAM, "replay", folder, story], stdout=subprocess.PIPE)
    first = ran.stdout.readline()
    early = time.monotonic() - began
    rest = ran.stdout.read()
    late = time.monotonic() - began
    want("it ends well", ran.wait(timeout=60) == 0 and rest.endswith(b"done\n"))
    want("the first game stands first", first == b"GAME 0 16\n", first)
    want("the first texts don't wait for the seventeenth game", early < late / 2, f"{early:.3f} of {late:.3f} s")


def main():
    words = argparse.ArgumentParser()
    words.add_argument("rounds", type=int, nargs="?", default=5)
    words.add_argument("--seed", type=int, default=1)
    words.add_argument("--moves", type=int, default=40, help="of each of a session's two games")
    asked = words.parse_args()
    room = pathlib.Path(tempfile.mkdtemp(prefix="transcripts-"))
    compared = 0
    try:
        for number in range(asked.rounds):
            draw = random.Random(f"{asked.seed}/{number}")
            for over_links in (False, True):
                one = room / f"{number}{over_links}"
                one.mkdir()
                compared += kill_and_compare(draw, one, asked.moves, over_links)
        look_round(room)
        look_at_time(room)
    except (Otherwise, crash.Lost, OSError, subprocess.TimeoutExpired) as cause:
        print(f"transcripts: {cause}; see {room}")
        return 1
    shutil.rmtree(room)
    print(f"transcripts: {compared} games of hosts that were killed are what `run` shows; archives, wrong names, "
          "held folders and closed outputs are as they should be")
    return 0


if __name__ == "__main__":
    sys.exit(main())
