#!/usr/bin/env python3
"""Kills a host while it plays, starts it again, and looks whether a game is where it was left.

    drills/crash.py [ROUNDS] [--serve] [--pack] [--seed N] [--sessions N] [--moves N] [--story FILE] [--starts]

A round: `init` makes a folder, whose journal is marked as one of before in every other round or so; `pipe`
serves it; each session plays a game of lines and, among them, sizes of its screen, closes it and plays
another one, the requests are sent one after the other to sessions in turn, and the host is killed (signal
9) at moments drawn from the seed, up to three times on the way (a kill that comes late may pass the next
one's place); about half of the kills are aimed at an input behind which a snapshot is put. After each start
`LAST` must show the last request whose reply had been read, or the one that was under way; then that one is
sent again. Behind each fifth request a spectator asks for the session's last shows, which must be those
that its player got. With `--serve` it is `serve` with four workers, and each session's player, eight unless
told otherwise, has a connection and a thread of its own; all of them are at work when the host is killed.
At the end the host is started once more, and each session's shows must be those that `run` writes for the
same moves, each applied once.

Before each start it reads the folder by a reader of its own: which areas of the snapshot files are open, how
many inputs each session has behind the newest one of its game, which must be 16 at most, and how many puts
the kill met. Before every third start or so it then spoils an open area by hand: its gate is 0, or it is
torn too, or cut, or its bytes are no world's, or the file loses its header. The games must be the same. A
session whose file was spoiled may have more inputs to play, so it isn't counted in that round any more.

With `--pack` the folder is packed into another one before each start behind a kill, and that one takes its place; one
packing of three is killed before, and what it made is removed. The old journal must be as it was, and the
games the same; a CLOSE that was kept and is sent again is answered by `NO 2` then.

It says how many rounds it ran, how many kills met a move under way, and, with `--starts` start by start,
what stood in the folder. It ends with 1 where a round lost an acknowledged move or applied one twice, where
more than 16 inputs stood behind a snapshot, or where `init` doesn't make the snapshot files: then
the rounds are run all the same."""

import argparse
import collections
import hashlib
import os
import pathlib
import random
import shutil
import signal
import socket
import subprocess
import sys
import tempfile
import threading
import time

import folder as files

TOP = pathlib.Path(__file__).resolve().parent.parent
PROGRAM = pathlib.Path(os.environ.get("STORYHOST", TOP / "crates/storyhost/out/storyhost"))


class Lost(Exception):
    pass


def echo_story():
    lines = (TOP / "rows" / "stories" / "echo.hex").read_text().splitlines()
    bytes_of = bytes.fromhex(" ".join(line for line in lines if not line.startswith(("#", "size"))))
    return bytes_of.ljust(256, b"\0")


def reply_of(file):
    """A reply, or None where it doesn't come to its end."""
    reply, left = [], 1
    while left:
        text = file.readline()
        if not text.endswith(b"\n"):
            return None
        reply.append(text.decode())
        if text.startswith(b"SEEN "):
            left = int(text.split()[3]) - int(text.split()[2]) + 1
        elif text == b".\n" or text.startswith(b"NO "):
            left -= 1
    return "".join(reply)


class Host:
    """One run of `pipe`, which a timer may kill."""

    def __init__(self, folder, story):
        self.process = subprocess.Popen(
            [PROGRAM, "pipe", folder, story], stdin=subprocess.PIPE, stdout=subprocess.PIPE
        )

    def kill_in(self, seconds):
        def kill():
            time.sleep(seconds)
            self.process.send_signal(signal.SIGKILL)

        threading.Thread(target=kill, daemon=True).start()

    def ask(self, line):
        """The reply to a line, or None where the host is gone before all of it was read."""
        try:
            self.process.stdin.write(line.encode() + b"\n")
            self.process.stdin.flush()
        except BrokenPipeError:
            return None
        return reply_of(self.process.stdout)

    def end(self):
        try:
            self.process.stdin.close()
        except BrokenPipeError:
            pass
        self.process.stdout.close()
        return self.process.wait(timeout=60)


class Link:
    """One connection to `serve`, which is asked as `Host` is."""

    def __init__(self, port):
        try:
            self.socket = socket.create_connection(("127.0.0.1", port), timeout=60)
        except OSError:
            self.socket = None
            return
        self.input = self.socket.makefile("rb")

    def ask(self, line):
        if self.socket is None:
            return None
        try:
            self.socket.sendall(line.encode() + b"\n")
            return reply_of(self.input)
        except (ConnectionError, TimeoutError):
            return None

    def close(self):
        if self.socket is not None:
            self.input.close()
            self.socket.close()


class Server:
    """Runs of `serve` on one folder, one after the other. `runs` counts them."""

    def __init__(self, folder, story):
        self.words = [PROGRAM, "serve", folder, "0", "4", story]
        self.changed = threading.Condition()
        self.runs = 0
        self.start()

    def start(self):
        process = subprocess.Popen(self.words, stdin=subprocess.DEVNULL, stdout=subprocess.DEVNULL, stderr=subprocess.PIPE)
        told = process.stderr.readline().decode()
        if ":" not in told:
            raise Lost(f"serve didn't say where it serves, but: {told!r}")
        with self.changed:
            self.process, self.port = process, int(told.rpartition(":")[2])
            self.runs += 1
            self.changed.notify_all()

    def stop(self):
        self.process.kill()
        self.process.wait()
        self.process.stderr.close()

    def link_after(self, runs):
        """A connection to a run that is later than so many, and its number."""
        with self.changed:
            if not self.changed.wait_for(lambda: self.runs > runs, timeout=60):
                raise Lost("the host is gone although nobody killed it")
            return Link(self.port), self.runs


class Session:
    """What a player of one session knows. Moves are lines of `run`. A step is a request, and the number of the show
    that LAST has behind it, if any."""

    def __init__(self, number, games, packs=False):
        self.number, self.games, self.packs = number, games, packs
        self.steps = []
        for moves in games:
            self.steps.append((f"OPEN {number} k{number} 0 1 80 24", 0))
            for n, move in enumerate(moves, 1):
                word, _, rest = move.partition(" ")
                self.steps.append((f"{word} {number} k{number} {n} {rest}", n))
            self.steps.append((f"CLOSE {number} k{number} {len(moves) + 1}", None))
        self.steps.pop()
        self.shows = []

    def line(self, step):
        return self.steps[step][0]

    def shown_behind(self, step):
        return None if step < 0 else self.steps[step][1]

    def take(self, step, reply):
        head, _, show = reply.partition("\n")
        if head == "NO 2" and self.packs and self.line(step).startswith("CLOSE "):
            show = "E closed\n.\n"
        elif head.split()[:2] != ["SHOW", str(self.number)]:
            raise Lost(f"session {self.number}, {self.line(step)}: {head}")
        del self.shows[step:]
        self.shows.append(show)

    def is_watched(self, step):
        return step % 5 == 0

    def watch(self, host, step):
        """Behind a step a spectator gets the shows that the player got; False is that the host is gone."""
        n, word = self.shown_behind(step), hashlib.sha256(f"k{self.number}".encode()).hexdigest()[:16]
        first = max((n or 0) - 3, 0)
        reply, wanted = host.ask(f"WATCH {self.number} {word} {first}"), "NO 2\n"
        if n is not None:
            shows = [f"SHOW {self.number} {m}\n{self.shows[step - n + m]}" for m in range(first, n + 1)]
            wanted = f"SEEN {self.number} {first} {n}\n" + "".join(shows)
        if reply not in (None, wanted):
            raise Lost(f"session {self.number}: a spectator sees another game behind {self.line(step)}")
        return reply is not None

    def wanted(self, story):
        """The shows of all steps, played alone."""
        shows = []
        for moves in self.games:
            shows += [*alone(story, moves), "E closed\n.\n"]
        return shows[:-1]


class Starts:
    """What stood in a folder before each start of its host."""

    def __init__(self, tells):
        self.tells = tells
        self.made = True
        self.open = collections.Counter()
        self.spoils = collections.Counter()
        self.starts = self.met = self.behind = self.packed = 0

    def begin_round(self, folder):
        """Behind `init`."""
        self.folder, self.spoiled = pathlib.Path(folder), set()
        self.made = self.made and files.are_made(self.folder)

    def look(self, sessions):
        """Before a start, while no host runs."""
        self.starts += 1
        if not self.made:
            return
        games = files.games_of(self.folder)
        opened = behind = 0
        for session in sessions:
            areas = list(files.areas_of(self.folder, session.number))
            opened += sum(area.is_open for area in areas)
            if session.number in self.spoiled:
                continue
            self.met += sum(area.written and area.gate == 0 for area in areas)
            if session.number in games:
                behind = max(behind, files.turns_to_play(areas, games[session.number]))
        self.open[opened] += 1
        self.behind = max(self.behind, behind)
        if self.tells:
            print(f"crash: a start with {opened} areas open, at most {behind} inputs behind one")
        if behind > files.INTERVAL:
            raise Lost(f"{behind} inputs stand behind the newest snapshot")

    def spoil(self, draw, sessions):
        """Spoils an area, before a start."""
        if not self.made or draw.random() > 1 / 3:
            return
        done = files.spoil_one(draw, self.folder, [session.number for session in sessions])
        if done:
            session, way = done
            self.spoiled.add(session)
            self.spoils[way] += 1
            if self.tells:
                print(f"crash: {way}, of session {session}")

    def pack(self, draw, sessions):
        """Packs the folder, before a start, where sessions' folders are packed. No snapshot is there then."""
        if not sessions[0].packs:
            return
        pack_anew(draw, self.folder)
        self.packed += 1
        self.spoiled.update(session.number for session in sessions)

    def told(self):
        spoils = ", ".join(f"{count} {way}" for way, count in sorted(self.spoils.items()))
        return (
            f"{self.starts} starts with {min(self.open)} to {max(self.open)} areas open, at most "
            f"{self.behind} inputs behind one; {self.met} puts were met under way; {self.packed} packings; "
            f"spoiled: {spoils or 'none'}"
        )


def look_again(host, session):
    """After a start: whether the request behind the last acknowledged one was kept."""
    reply = host.ask(f"LAST {session.number} k{session.number}")
    if reply is None:
        raise Lost("the host is gone although nobody killed it")
    return is_one_more(session, reply)


def is_one_more(session, reply):
    """Whether LAST shows what stands behind the request after the last acknowledged one; if not, it must
    show what the latter was answered."""
    head, _, show = reply.partition("\n")
    words = head.split()
    if head != "NO 2" and words[:2] != ["SHOW", str(session.number)]:
        raise Lost(f"session {session.number}: LAST is answered by {head}")
    n = None if head == "NO 2" else int(words[2])
    step = len(session.shows) - 1
    if n == session.shown_behind(step):
        if n is not None and show != session.shows[-1]:
            raise Lost(f"session {session.number}: {session.line(step)} is shown otherwise than before")
        return False
    if step + 1 < len(session.steps) and n == session.shown_behind(step + 1):
        return True
    raise Lost(f"session {session.number}: {step + 1} requests were acknowledged, and LAST is answered by {head}")


def alone(story, moves):
    """The shows of `run` on these moves."""
    lines = "".join(f"{move}\n" for move in moves)
    ran = subprocess.run([PROGRAM, "run", story], input=lines.encode(), capture_output=True, timeout=60)
    shows, show = [], ""
    for line in ran.stdout.decode().splitlines(keepends=True):
        show += line
        if line == ".\n":
            shows, show = [*shows, show], ""
    return shows


def begin(folder):
    if subprocess.run([PROGRAM, "init", folder], capture_output=True).stdout != b"ready\n":
        raise Lost("init didn't write `ready`")


def age(draw, folder):
    """Makes the journal one of before now and then, which a host marks as it opens it."""
    if draw.random() < 1 / 2:
        files.write_at(pathlib.Path(folder) / "journal", 8, bytes([draw.choice((0, 0, 2, 255))]))


def pack_anew(draw, old):
    """Packs a folder into another one, which takes its place."""
    anew, journal = old.with_name("anew"), (old / "journal").read_bytes()
    words = [PROGRAM, "pack", old, anew]
    if draw.random() < 1 / 3:
        process = subprocess.Popen(words, stdout=subprocess.DEVNULL)
        time.sleep(draw.random() ** 2 * 0.05)
        process.kill()
        process.wait()
        shutil.rmtree(anew, ignore_errors=True)
    told = subprocess.run(words, capture_output=True).stdout
    if not told.startswith(b"packed "):
        raise Lost(f"pack writes {told!r}")
    if (old / "journal").read_bytes() != journal:
        raise Lost("pack changes the old journal")
    shutil.rmtree(old)
    anew.rename(old)


def draw_kills(draw, turns, kills):
    """So many turns at which the host is to be killed, and how soon behind their beginning."""
    due = [at for at, (session, step) in enumerate(turns) if falls_due(session.shown_behind(step))]
    drawn = {}
    for at in draw.sample(range(len(turns)), kills):
        if due and draw.random() < 0.5:
            drawn[draw.choice(due)] = draw.random() ** 2 * 0.004
        else:
            drawn[at] = draw.random() ** 3 * 0.02
    return sorted(drawn.items())


def falls_due(n):
    return bool(n) and n % files.INTERVAL == 0


def play(draw, folder, story, sessions, kills, starts):
    """Plays all games, with so many kills on the way at most; how many there were, and how many
    requests were kept though their reply wasn't read."""
    killed = met = 0
    begin(folder)
    age(draw, folder)
    starts.begin_round(folder)
    turns = [(session, step) for step in range(len(sessions[0].steps)) for session in sessions]
    stops = draw_kills(draw, turns, kills)
    host, at = Host(folder, story), 0
    while at < len(turns):
        session, step = turns[at]
        if stops and at == stops[0][0]:
            host.kill_in(stops.pop(0)[1])
            while at < len(turns):
                session, step = turns[at]
                reply = host.ask(session.line(step))
                if reply is None:
                    break
                session.take(step, reply)
                at += 1
                if session.is_watched(step) and not session.watch(host, step):
                    break
            host.process.kill()
            host.end()
            killed += 1
            starts.look(sessions)
            starts.spoil(draw, sessions)
            starts.pack(draw, sessions)
            host = Host(folder, story)
            for other in sessions:
                met += look_again(host, other)
            stops = [stop for stop in stops if stop[0] >= at]
            continue
        reply = host.ask(session.line(step))
        if reply is None:
            raise Lost("the host is gone although nobody killed it")
        session.take(step, reply)
        at += 1
        if session.is_watched(step) and not session.watch(host, step):
            raise Lost("the host is gone although nobody killed it")
    ends(host)
    starts.look(sessions)
    host = Host(folder, story)
    for session in sessions:
        look_again(host, session)
    ends(host)
    return killed, met


def ends(host):
    status = host.end()
    if status != 0:
        raise Lost(f"the host ended with status {status}")


def are_alive(players):
    return any(player.is_alive() for player in players)


def play_session(server, session, kept, lost):
    """Plays the games of one session over a connection of its own, whoever kills the host."""
    try:
        link, run = server.link_after(0)
        step = 0
        while step < len(session.steps):
            reply = link.ask(session.line(step))
            while reply is None:
                link.close()
                link, run = server.link_after(run)
                last = link.ask(f"LAST {session.number} k{session.number}")
                if last is None:
                    continue
                if is_one_more(session, last):
                    kept.append(step)
                reply = link.ask(session.line(step))
            session.take(step, reply)
            if session.is_watched(step):
                session.watch(link, step)
            step += 1
        link.close()
    except (Lost, ValueError) as cause:
        lost.append(cause)


def play_links(draw, folder, story, sessions, kills, starts):
    """The same over `serve`, with all sessions at work at once."""
    begin(folder)
    age(draw, folder)
    starts.begin_round(folder)
    server, kept, lost, killed = Server(folder, story), [], [], 0
    players = [
        threading.Thread(target=play_session, args=(server, session, kept, lost), daemon=True)
        for session in sessions
    ]
    for player in players:
        player.start()
    turns = sum(len(session.steps) for session in sessions)
    for answered in sorted(draw.sample(range(turns), kills)):
        while sum(len(session.shows) for session in sessions) < answered and are_alive(players):
            time.sleep(0.001)
        time.sleep(draw.random() * 0.005)
        if not are_alive(players):
            break
        server.stop()
        killed += 1
        starts.look(sessions)
        starts.spoil(draw, sessions)
        starts.pack(draw, sessions)
        server.start()
    for player in players:
        player.join(timeout=120)
    server.stop()
    if lost:
        raise lost[0]
    if are_alive(players):
        raise Lost("a player waits for ever")
    starts.look(sessions)
    host = Host(folder, story)
    for session in sessions:
        look_again(host, session)
    ends(host)
    return killed, len(kept)


def draw_words(draw, count):
    return ["".join(draw.choices("abcdefgh", k=draw.randint(1, 19))) for _ in range(count)]


def draw_moves(draw, count):
    """Lines for window 1 and, one in six or so, sizes of the screen."""
    return [f"SIZE {draw.randint(1, 255)} {draw.randint(1, 255)}" if draw.random() < 1 / 6 else f"LINE 1 ={word}"
            for word in draw_words(draw, count)]


def main():
    words = argparse.ArgumentParser()
    words.add_argument("rounds", type=int, nargs="?", default=30)
    words.add_argument("--seed", type=int, default=1)
    words.add_argument("--serve", action="store_true")
    words.add_argument("--pack", action="store_true")
    words.add_argument("--sessions", type=int)
    words.add_argument("--moves", type=int, default=40, help="of each of a session's two games")
    words.add_argument("--story")
    words.add_argument("--starts", action="store_true", help="tell what stood in the folder before each start")
    asked = words.parse_args()
    killed = met = 0
    starts = Starts(asked.starts)
    for number in range(asked.rounds):
        draw = random.Random(f"{asked.seed}/{number}")
        room = pathlib.Path(tempfile.mkdtemp(prefix="crash-"))
        story = room / "story.ulx"
        story.write_bytes(pathlib.Path(asked.story).read_bytes() if asked.story else echo_story())
        sessions = [
            Session(s, [draw_moves(draw, asked.moves) for _ in range(2)], asked.pack)
            for s in range(asked.sessions or (8 if asked.serve else 3))
        ]
        try:
            played = play_links if asked.serve else play
            kills, kept = played(draw, str(room / "d"), str(story), sessions, 3, starts)
            killed, met = killed + kills, met + kept
            if not files.is_second(files.journal_of(room / "d")):
                raise Lost("the journal isn't marked as of version 2")
            for session in sessions:
                if session.shows != session.wanted(str(story)):
                    raise Lost(f"session {session.number}: its shows aren't those of its moves played alone")
        except (Lost, subprocess.TimeoutExpired) as cause:
            print(f"crash: round {number} of seed {asked.seed}: {cause}; its folder is {room}")
            return 1
        shutil.rmtree(room)
    name = f"crash{' --serve' if asked.serve else ''}{' --pack' if asked.pack else ''}"
    print(f"{name}: {asked.rounds} rounds, {killed} kills, {met} requests were kept before their reply: none lost, none applied twice")
    if not starts.made:
        print(f"{name}: init makes no snapshot files, or others than docs/FORMATS.md has")
        return 1
    print(f"{name}: {starts.told()}")
    return 0


if __name__ == "__main__":
    sys.exit(main())
