#!/usr/bin/env python3
"""An ordinary session of The Well House, over a restart.

    drills/session.py [PROGRAM]

A session is given 22 inputs: it looks round, saves to a file at the prompt, undoes, restores that file and
goes on, and twice its screen has another size. The host is killed (signal 9) behind the 17th reply and started again. Each show must be that of
`run` on the same inputs, and as the host is started again one input must stand behind the newest snapshot
of the game, read by `folder.py`. It ends with 1 where that isn't so."""

import pathlib
import re
import subprocess
import sys
import tempfile
import urllib.parse

import crash
import folder as files

STORY = crash.TOP / "stories" / "cottage.ulx"
INPUTS = (
    "look", "take rosemary", "save", "first", "n", "undo", "n", "take jug", "inventory", (50, 15), "restore", "first",
    "inventory", "look", "n", "wait", "s", "undo", "undo", (100, 30), "inventory", "look",
)  # fmt: skip
KILLED_BEHIND = 17


class Differs(Exception):
    pass


def asked_for(show):
    """What the show waits for: the window of a line, or None for the name of a file."""
    line = re.search(r"^I (\d+) line ", show, re.M)
    if line:
        return line.group(1)
    if re.search(r"^P ", show, re.M):
        return None
    raise Differs("the story waits for no line and no file")


def of_run(window, text):
    if isinstance(text, tuple):
        return "SIZE {} {}".format(*text)
    text = urllib.parse.quote(text, safe="")
    return f"FILE ={text}" if window is None else f"LINE {window} ={text}"


def of_pipe(n, line):
    """The request for a line of `run`."""
    word, _, rest = line.partition(" ")
    return f"{word} 0 k {n} {rest}"


def show_in(reply, n):
    head, _, show = reply.partition("\n")
    if head != f"SHOW 0 {n}":
        raise Differs(f"input {n} is answered by {head}")
    return show


def behind(room):
    """How many inputs stand behind the newest snapshot of the session's game."""
    return files.turns_to_play(list(files.areas_of(room, 0)), files.games_of(room)[0])


def played(room):
    """All shows of the session, and the inputs as `run` takes them."""
    crash.begin(str(room))
    host = crash.Host(str(room), str(STORY))
    shows, lines = [show_in(host.ask("OPEN 0 k 0 1 80 24"), 0)], []
    for n, text in enumerate(INPUTS, 1):
        window = asked_for(shows[-1])
        lines.append(of_run(window, text))
        shows.append(show_in(host.ask(of_pipe(n, lines[-1])), n))
        if n == KILLED_BEHIND:
            host.process.kill()
            host.end()
            if behind(room) != n - files.INTERVAL:
                raise Differs(f"{behind(room)} inputs stand behind the newest snapshot")
            host = crash.Host(str(room), str(STORY))
    crash.ends(host)
    return shows, lines


def alone(lines):
    ran = subprocess.run([crash.PROGRAM, "run", STORY], input="\n".join(lines) + "\n", capture_output=True, text=True)
    return [show + "\n.\n" for show in ran.stdout.split("\n.\n")[:-1]]


def main():
    if len(sys.argv) > 1:
        crash.PROGRAM = pathlib.Path(sys.argv[1]).resolve()
    with tempfile.TemporaryDirectory() as room:
        try:
            shows, lines = played(pathlib.Path(room) / "d")
            if shows != alone(lines):
                raise Differs("its shows aren't those of `run`")
        except (Differs, crash.Lost) as cause:
            print(f"session: {cause}")
            return 1
    names, sizes = (sum(line.startswith(word) for line in lines) for word in ("FILE", "SIZE"))
    print(f"session: {len(lines)} inputs, {names} of them names of files and {sizes} sizes of the screen, as by `run`; one turn "
          "behind the restart")
    return 0


if __name__ == "__main__":
    sys.exit(main())
