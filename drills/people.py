#!/usr/bin/env python3
"""Plays as people do, and keeps a host as its keeper does, by scripts on the built program.

    drills/people.py

- 64 players at once on a host of four workers, by play.py's own requests, each over links of its own. While they
  play the journal is copied again and again; from each copy, put into a new folder, each game must go on from a
  move that its player had been shown, or from the one that was under way. keeper.py lists them all.
- keeper.py: a journal is damaged and repaired, which story files it wants is asked, and what its players were shown; a
  game is closed over the port, and a folder that is held as a host holds it is refused.
- Sizes of the screen whose answers are lost, by play.py's own requests: each is kept once, or not at all, and no line is
  given to a game that went on elsewhere meanwhile.
- stories/client.py, the small client, plays over a host that is killed and started again, and loses nothing.
- play.py on a terminal of 80 by 24 (tmux): a line is edited, a game saved and restored at its prompts, the terminal
  grows and shrinks, under a line that is half typed and at a prompt too, and its story is told the last size of many
  that follow each other; a page that is read stays; the text is looked back at, `quit` says what can be done, and a new game is begun; a host is
  killed under a line that is half typed, and before a size of the terminal; a wrong key, a failed story, and one that
  waits for nothing are told; a spectator looks at one of two games while the host is killed and started again, and the
  player's screen gets another size, until the game is closed.

Without tmux or python3-prompt-toolkit the last part is left out, and a word says so. It ends with 1 where something
is otherwise."""

import fcntl
import os
import pathlib
import random
import re
import shutil
import signal
import socket
import subprocess
import sys
import tempfile
import threading
import time

TOP = pathlib.Path(__file__).resolve().parent.parent
PROGRAM = pathlib.Path(os.environ.get("STORYHOST", TOP / "crates/storyhost/out/storyhost"))
os.environ["STORYHOST"] = str(PROGRAM)
STORIES = TOP / "stories"
sys.path.append(str(STORIES))

import folder as files  # noqa: E402
from host import Address, Pipe, Refused, Session, Stopped  # noqa: E402

COTTAGE, MILL = STORIES / "cottage.ulx", STORIES / "mill.ulx"
PLAYERS, MOVES, WORKERS = 64, 8, 4
LONGEST = 60        # seconds that anything may take on a machine that has much to do


class Otherwise(Exception):
    pass


def want(what, is_so, seen=""):
    if not is_so:
        raise Otherwise(f"{what}{f': {seen}' if seen else ''}")


def free_port():
    with socket.socket() as one:
        one.bind(("127.0.0.1", 0))
        return one.getsockname()[1]


def ran(*words, **more):
    return subprocess.run([str(word) for word in words], capture_output=True, text=True, timeout=LONGEST, **more)


def script(name, *words, **more):
    return ran(sys.executable, STORIES / name, *words, **more)


class Host:
    """`serve` on a folder, begun and killed."""

    def __init__(self, folder, *stories):
        self.port, self.folder, self.stories, self.process = free_port(), folder, stories, None
        if not folder.exists():
            want("init", ran(PROGRAM, "init", folder).returncode == 0)

    def start(self):
        words = [PROGRAM, "serve", self.folder, str(self.port), str(WORKERS), *self.stories]
        self.process = subprocess.Popen(words, stdin=subprocess.DEVNULL, stdout=subprocess.DEVNULL, stderr=subprocess.PIPE)
        said = self.process.stderr.readline().decode()
        want("serve says where it serves", ":" in said, said)
        # What it says later is read, so that it never waits for its reader.
        threading.Thread(target=self.process.stderr.read, daemon=True).start()
        return self

    def kill(self):
        if self.process:
            self.process.kill()
            self.process.wait()
            self.process = None

    def session(self, number, key):
        return Session(Address(f"127.0.0.1:{self.port}"), number, key, lambda text: None)


# Many players, and copies of the journal.

class Player(threading.Thread):
    """One of many: plays its moves, and knows what it was shown."""

    def __init__(self, host, number):
        super().__init__(daemon=True)
        self.session, self.number = host.session(number, f"k{number}"), number
        self.shown, self.longest, self.failed = None, 0.0, None

    def run(self):
        try:
            self.timed(self.session.play_on, 0, self.number, (80, 24))
            for move in range(MOVES):
                want(f"player {self.number}, move {move}", self.timed(self.session.give, "look"), self.session.note)
        except (Exception, SystemExit) as cause:    # A thread's end is told by its maker.
            self.failed = cause

    def timed(self, work, *given):
        began = time.monotonic()
        answer = work(*given)
        self.longest = max(self.longest, time.monotonic() - began)
        self.shown = self.session.count
        return answer


def many_players(room):
    host = Host(room / "many", COTTAGE).start()
    words = [sys.executable, STORIES / "keeper.py", "watch", host.folder]
    watch = subprocess.Popen(words, stdout=subprocess.PIPE, text=True)
    want("keeper.py watches", "watching" in watch.stdout.readline())
    try:
        players, copies = [Player(host, number) for number in range(PLAYERS)], []
        for player in players:
            player.start()
        while any(player.is_alive() for player in players):
            before = [player.shown for player in players]
            copies.append((before, files.journal_of(host.folder), [player.shown for player in players]))
            time.sleep(0.05)
        for player in players:
            want(f"player {player.number}", not player.failed, repr(player.failed))
            want(f"player {player.number} has all moves", player.session.count == MOVES, str(player.session.count))
        listed = script("keeper.py", host.folder, COTTAGE)
        want("keeper.py lists all games as going on", listed.stdout.count("goes on") == PLAYERS, listed.stdout + listed.stderr)
        taken = script("keeper.py", "close", host.folder, "9", f"127.0.0.1:{host.port}")
        want("keeper.py closes a game", "session 9 is closed" in taken.stdout, taken.stdout + taken.stderr)
        want("and it is gone", 9 not in files.games_of(host.folder))
        seen = ""
        while "session 9 (k9) is closed" not in seen:
            line = watch.stdout.readline()
            want("keeper.py watches on", line, seen)
            seen += line
        for words in "session 63 (k63) begins story 0", f"session 5 (k5) has its move {MOVES}":
            want("keeper.py watch tells each command", words in seen, words)
    finally:
        host.kill()
        watch.kill()
        watch.wait()
    draw = random.Random(1)
    chosen = [copies[0], *draw.sample(copies[1:], min(4, len(copies) - 1))]
    for at, (before, journal, behind) in enumerate(chosen):
        goes_on_from(room / f"copy{at}", before, journal, behind)
    return max(player.longest for player in players), len(copies), len(chosen)


def goes_on_from(folder, before, journal, behind):
    """A folder of a copy of the journal has each game as its player knew it while the copy was made."""
    want("init", ran(PROGRAM, "init", folder).returncode == 0)
    (folder / "journal").write_bytes(journal)
    link = Pipe(folder, str(COTTAGE), str(PROGRAM))
    for number in range(PLAYERS):
        session = Session(link, number, f"k{number}", lambda text: None)
        refusal = session.look()
        least, most = before[number], behind[number]
        if refusal == "NO 2" and least is None:
            continue
        is_between = not refusal and (least or 0) <= session.count <= (0 if most is None else most) + 1
        want(f"session {number} of a copy", is_between, f"{refusal or session.count}, shown {least} to {most}")
        want(f"session {number} of a copy goes on", session.give("look"), session.note)
    link.end()


# A keeper.

def keeper(room):
    folder = room / "many"
    mended = script("keeper.py", "repair", folder, room / "mended")
    want("a whole journal wants no repair", "nothing to repair" in mended.stdout, mended.stdout)
    asked = script("keeper.py", "wants", folder, MILL)
    want("a story that isn't there is named", asked.returncode == 1 and "NONE" in asked.stdout, asked.stdout)
    asked = script("keeper.py", "wants", folder, MILL, COTTAGE)
    want("one that is there, too", asked.returncode == 0 and "cottage.ulx" in asked.stdout, asked.stdout)
    told = script("keeper.py", "texts", folder, COTTAGE, "--session", "5")
    want("the text of a game", told.returncode == 0 and told.stdout.count(">look") == MOVES, told.stdout + told.stderr)
    told = script("keeper.py", "texts", folder, COTTAGE)
    want("the text of each game", told.stdout.count("==== session") == PLAYERS, told.stderr)
    told = script("keeper.py", "texts", folder, MILL)
    want("a story that isn't there", told.stdout.count("its story isn't among") == PLAYERS, told.stderr)
    rows = list(files.rows_of(files.journal_of(folder)))
    damaged = rows[-40].place
    files.write_at(folder / "journal", damaged + 2, b"\x09")
    host = ran(PROGRAM, "pipe", folder, COTTAGE, stdin=subprocess.DEVNULL)
    want("the host refuses it at the same place", host.stdout == f"bad journal {damaged}\n", host.stdout)
    listed = script("keeper.py", folder)
    want("keeper.py tells of damage", listed.returncode == 1 and f"at place {damaged}" in listed.stdout, listed.stdout)
    with open(folder / "journal", "rb+") as file:
        fcntl.flock(file, fcntl.LOCK_EX)
        refused = script("keeper.py", "repair", folder, room / "mended")
    want("a folder that is held is refused", refused.returncode == 1 and "a host runs" in refused.stderr, refused.stderr)
    mended = script("keeper.py", "repair", folder, room / "mended")
    want("a damaged one is copied", mended.returncode == 0, mended.stdout + mended.stderr)
    host = ran(PROGRAM, "pipe", room / "mended", COTTAGE, input="LAST 0 k0\n")
    want("the copy is a host's folder", host.returncode == 0 and host.stdout.startswith("SHOW 0 "), host.stdout[:80])
    want("and has what stood before", len(list(files.rows_of(files.journal_of(room / "mended")))) == len(rows) - 40)
    moves = {number: game.inputs for number, game in files.games_of(room / "mended").items()}
    number = max(moves, key=moves.get)
    done = script("keeper.py", "back", room / "mended", number, "2", room / "back")
    want("moves are taken back", done.returncode == 0, done.stdout + done.stderr)
    left = {number: game.inputs for number, game in files.games_of(room / "back").items()}
    want("of that game alone", left == {**moves, number: moves[number] - 2}, str(left))
    host = ran(PROGRAM, "pipe", room / "back", COTTAGE, input=f"LAST {number} k{number}\n")
    want("and it goes on", host.stdout.startswith(f"SHOW {number} {moves[number] - 2}\n"), host.stdout[:80])


# Sizes whose answers are lost.

class Lossy(Pipe):
    """A host that is gone at a size, before that is read or behind it."""
    is_lost_behind = None

    def exchange(self, line, say):
        behind, self.is_lost_behind = self.is_lost_behind, None
        if behind is None or not line.startswith("SIZE"):
            return super().exchange(line, say)
        if behind:
            super().exchange(line, say)
        raise Stopped()


def lost_sizes(room):
    for behind in False, True:
        link = Lossy(room / f"lost{behind}", str(COTTAGE), str(PROGRAM))
        link.begin_folder()
        player, other = (Session(link, 0, "k", lambda text: None) for _ in range(2))
        player.play_on(0, 1, (80, 24))
        link.is_lost_behind = behind
        want("a size whose answer is lost", not player.resize((50, 15)) and not player.wants_size((60, 20)))
        want("a line behind it", player.give("look") and player.count == 2, player.note)
        want("the size was told before", player.screen() == (50, 15) and player.wants_size((60, 20)), str(player.screen()))
        link.is_lost_behind = behind
        player.resize((60, 20))
        other.play_on(0, 1, (80, 24))
        want("another display plays on", other.give("wait"), other.note)
        want("a line isn't given to what wasn't seen", not player.give("inventory") and "another place" in player.note, player.note)
        want("and is given then", player.give("save"), player.note)
        want("a size at a prompt", not player.wants_size((70, 20)) and not player.resize((70, 20)) and player.give("first"))
        want("a size behind it", player.wants_size((70, 20)) and player.resize((70, 20)), player.note)
        want("each was kept once", sizes_told(room / f"lost{behind}", 0) == [(50, 15), *[(60, 20)] * behind, (70, 20)],
             sizes_told(room / f"lost{behind}", 0))
        link.end()


# The small client.

def small_client(room):
    moves = ["take rosemary", "smell rosemary", "look", "inventory", "drop rosemary", "examine bench", "inventory", "look"]
    host = Host(room / "small", COTTAGE).start()
    texts = []
    try:
        for session, is_killed in ((0, False), (1, True)):
            words = [sys.executable, STORIES / "client.py", str(host.port), str(session), "word"]
            client = subprocess.Popen(words, stdin=subprocess.PIPE, stdout=subprocess.PIPE, text=True)
            for at, move in enumerate(moves):
                if is_killed and at in (2, 5):
                    host.kill()
                client.stdin.write(move + "\n")
                client.stdin.flush()
                if not host.process:
                    time.sleep(0.1)
                    host.start()
            texts.append(client.communicate(timeout=LONGEST)[0])
            count = files.games_of(host.folder)[session].inputs
            want("the small client's moves are kept, each once", count == len(moves), str(count))
        want("the small client shows the same over a killed host", texts[0] == texts[1], texts[1])
        want("and what came of its moves", "You're carrying nothing" in texts[0], texts[0])
    finally:
        host.kill()


# Terminals.

class Terminal:
    """A terminal of tmux with a program, in which a person types."""

    def __init__(self, room, *words, columns=80, rows=24):
        self.words = ["tmux", "-u", "-S", str(room / "terminal"), "-f", "/dev/null"]
        self.tmux("kill-server", may_fail=True)
        words = " ".join(f"'{word}'" for word in words)
        line = f"LANG=C.UTF-8 STORYHOST='{PROGRAM}' XDG_DATA_HOME='{room}/own' {words}; echo \"status $?\"; sleep 1000"
        self.tmux("new-session", "-d", "-x", str(columns), "-y", str(rows), line)
        self.tmux("set", "-g", "status", "off")

    def tmux(self, *words, may_fail=False):
        done = ran(*self.words, *words)
        want(f"tmux {words[0]}", may_fail or done.returncode == 0, done.stderr)
        return done.stdout

    def screen(self):
        return self.tmux("capture-pane", "-p").rstrip("\n")

    def type(self, text, *keys):
        if text:
            self.tmux("send-keys", "-l", text)
        if keys:
            self.tmux("send-keys", *keys)

    def wait(self, form, what=""):
        """Waits until the screen has what fits this form."""
        until = time.monotonic() + LONGEST
        while time.monotonic() < until:
            seen = self.screen()
            if re.search(form, seen, re.S):
                return seen
            time.sleep(0.05)
        raise Otherwise(f"{what or 'the screen'} hasn't {form!r}:\n{seen}")

    def move(self, text, form):
        self.type(text, "Enter")
        return self.wait(form, text)

    def size(self, columns, rows):
        self.tmux("resize-window", "-x", str(columns), "-y", str(rows))

    def end(self):
        self.tmux("kill-server", may_fail=True)


def sizes_told(folder, session):
    """The sizes of the screen that a session's story was told behind its OPEN."""
    rows = [row for row in files.rows_of(files.journal_of(folder)) if row.session == session]
    return [tuple(row.payload) for row in rows if row.kind == files.SIZE]


def told(folder, session, size):
    """Waits until a session's story is told this size."""
    until = time.monotonic() + LONGEST
    while sizes_told(folder, session)[-1:] != [size]:
        want(f"{size} is told", time.monotonic() < until, sizes_told(folder, session))
        time.sleep(0.05)


def played_alone(room):
    """The Well House alone, kept in a folder of the player's."""
    words = (sys.executable, STORIES / "play.py", COTTAGE)
    terminal = Terminal(room, *words)
    try:
        terminal.wait(r"Garden +Score: 0 .*\n>", "the opening")
        terminal.type("examne bench", "C-a", "M-f", "Left", "Left")
        terminal.type("i", "C-e", "Enter")
        terminal.wait(r">examine bench\nOak under the moss", "an edited line")
        terminal.type("", "Up", "Enter")
        terminal.wait(r"Oak.*>examine bench\nOak", "an earlier line")
        terminal.move("save", r"Save the game under which name\?")
        terminal.move("first", r">save\nOk\.")
        terminal.move("save", r"so far: first.*Save the game under which name\? first")
        terminal.type("", "Enter")
        terminal.wait("there is a file first", "a file that is there")
        terminal.type("", "Escape")
        terminal.wait(r"Save failed\.", "Escape at a file prompt")
        terminal.move("restore", r"Restore which saved game\? first")
        terminal.type("", "Enter")
        terminal.wait(r">restore\nOk\.", "a restored game")
        folder, = [one for one in (room / "own/storyhost").iterdir() if one.is_dir()]
        terminal.type("loo")
        terminal.wait(r">loo$", "half a line")
        for columns, rows in (90, 30), (70, 20), (60, 18), (50, 16):
            terminal.size(columns, rows)
        terminal.wait(r"(?m)^ Garden +0/\d+ *$.*>loo$", "a small terminal's status line")
        want("the story is told the last size of many", sizes_told(folder, 0) == [(50, 15)], sizes_told(folder, 0))
        terminal.move("k", r">look\n\nGarden.*The house\n")
        terminal.move("save", r"Save the game under which name\?")
        terminal.size(100, 30)
        terminal.wait(r"Save the game under which name\? first$", "a prompt on a larger terminal")
        terminal.type("", "Escape")
        terminal.wait(r"^ Garden {50,}Score: 0.*Save failed\.", "a larger terminal behind a prompt")
        want("the size was told behind the prompt", sizes_told(folder, 0) == [(50, 15), (100, 29)], sizes_told(folder, 0))
        terminal.move("look", r"The house stands to the north with its door open, the well\n")
        terminal.size(80, 24)
        terminal.wait(r"door open, the well is east along the flagstones, and hens mutter behind the\n", "80 columns again")
        terminal.type("", "PageUp")
        terminal.wait(r"PageDown goes on", "PageUp")
        terminal.size(80, 20)
        terminal.wait(r"PageDown goes on[^\n]*$", "who looks back on another size")
        told(folder, 0, (80, 19))
        want("looks back still", "PageDown goes on" in terminal.screen(), terminal.screen())
        terminal.size(80, 24)
        for _ in range(3):
            terminal.move("look", r">look\n\nGarden")
        terminal.type("", "PageUp", "PageUp")
        terminal.wait(r"PageDown goes on", "PageUp")
        terminal.move("help", "What is wanted")
        terminal.type("", "Down")
        terminal.wait("> Words that work", "a menu")
        terminal.type("q")
        terminal.wait(r"You put the leaflet away\.\n\n>", "the menu's end")
        terminal.type("", "C-d")
        terminal.wait("The game is kept.*status 0", "control and D")
    finally:
        terminal.end()
    terminal = Terminal(room, *words, columns=60, rows=40)
    try:
        terminal.wait(r"^ Garden +0/\d+ *\n.*>look\n\nGarden.*You put the leaflet away\.\n\n>", "a game that goes on, below its last moves")
        want("its size was told first", sizes_told(folder, 0)[-1] == (60, 39), sizes_told(folder, 0))
        for columns in range(61, 71):
            terminal.size(columns, 40)
            told(folder, 0, (columns, 39))
        terminal.type("", "C-d")
        terminal.wait("The game is kept.*status 0", "control and D behind sizes")
    finally:
        terminal.end()
    terminal = Terminal(room, *words, columns=70, rows=40)
    try:
        terminal.wait(r"^ Garden +Score.*>look\n\nGarden.*You put the leaflet away\.\n\n>", "a game that goes on behind ten sizes")
        terminal.size(80, 24)
        terminal.wait(r"^ Garden +Score", "80 columns again")
        terminal.move("restore", r"so far: first")
        terminal.type("", "Enter")
        terminal.wait(r">restore\nOk\.", "a file of yesterday")
        terminal.move("quit", "Are you sure")
        terminal.move("yes", "the story is over. B takes the last move back, N begins a new game")
        terminal.type("b")
        terminal.wait("the last move is taken back", "a move that is taken back")
        terminal.move("no", r"no\n\n>")
        terminal.move("quit", "Are you sure")
        terminal.move("yes", "the story is over. B takes")
        terminal.type("n")
        terminal.wait(r"THE WELL HOUSE.*\n>", "a new game")
        terminal.type("", "C-c")
        terminal.wait("status 0", "control and C")
    finally:
        terminal.end()


def read_on(room):
    """A terminal that changes while a page is read, which stays."""
    terminal = Terminal(room, sys.executable, STORIES / "play.py", COTTAGE, "--unkept", columns=50, rows=9)
    try:
        page = r"Your aunt's letter.*least\.\n+\[more\]$"
        terminal.wait(page, "the first page")
        for columns, rows in (51, 8), (60, 9), (45, 8), (50, 9):
            terminal.size(columns, rows)
            terminal.wait(page, f"the page on {columns} by {rows}")
        terminal.type("", "Space")
        terminal.wait(r"\nTHE WELL HOUSE\n.*\[more\]$", "the second page")
        terminal.size(80, 24)
        terminal.wait(r"^ Garden {40,}Score: 0.*\nTHE WELL HOUSE\n.*\n>$", "all of it")
    finally:
        terminal.end()


def told_of_ends(room):
    """A story that fails, and one that waits for nothing."""
    terminal = Terminal(room, sys.executable, STORIES / "play.py", MILL, "--unkept")
    try:
        terminal.wait(r"\n>", "the opening")
        terminal.move("count 100000", r"the story failed: one turn took too\s+long. B takes the last move back")
        terminal.type("", "Enter")
        terminal.wait("status 0", "Return at the end")
    finally:
        terminal.end()
    lines = (TOP / "rows/stories/asks_for_a_character.hex").read_text().replace("D2 01", "D3 01").splitlines()
    story = room / "waits_for_nothing.ulx"
    story.write_bytes(bytes.fromhex(" ".join(line for line in lines if line[0] not in "#s")).ljust(256, b"\0"))
    terminal = Terminal(room, sys.executable, STORIES / "play.py", story, "--unkept")
    try:
        terminal.wait("waits for nothing that a player can give", "a story that waits for nothing")
        terminal.type("", "C-d")
        terminal.wait("status 0", "control and D at the end")
    finally:
        terminal.end()


def played_on_a_host(room):
    """Two players' terminals, one after the other, on a host that is killed under them."""
    host = Host(room / "evening", COTTAGE).start()
    words = (sys.executable, STORIES / "play.py", "--connect", f"127.0.0.1:{host.port}")
    terminal = Terminal(room, *words)
    try:
        terminal.move("", "0 to 63 is wanted|number of your session")
        terminal.move("5", "Its key")
        terminal.move("anna", r"Garden +Score: 0 .*\n>")
        terminal.type("take rose")
        terminal.wait("take rose", "half a line")
        host.kill()
        terminal.type("mary", "Enter")
        terminal.wait("the host has stopped; it is waited for", "a host that is gone")
        host.start()
        terminal.wait(r"Taken\..*the host had stopped; it is there again", "a host that is there again")
        want("the move was kept once", files.games_of(host.folder)[5].inputs == 1)
        host.kill()
        terminal.type("wai")
        terminal.size(60, 20)
        time.sleep(1)
        want("a size is no cause to wait for a host", "waited for" not in terminal.screen(), terminal.screen())
        host.start()
        terminal.type("t", "Enter")
        terminal.wait(r"^ Garden +0/\d+ *\n.*>wait\nTime passes\.", "a size and a line behind a stop")
        want("both were kept once", files.games_of(host.folder)[5].inputs == 3)
        want("the size was told", sizes_told(host.folder, 5) == [(60, 19)], sizes_told(host.folder, 5))
        terminal.size(100, 30)
        told(host.folder, 5, (100, 29))
        host.kill()
        host.start()
        terminal.move("look", r"^ Garden {60,}Score: 0 .*>look\n\nGarden")
        other = host.session(5, "anna")
        other.play_on(0, 1, (80, 24))
        want("another place plays on", other.give("drop rosemary"))
        terminal.move("inventory", r"not taken: this session was played on from another")
        terminal.type("", "Enter")
        terminal.wait("You're carrying nothing", "the same line again")
        terminal.type("", "C-d")
        terminal.wait(r"Session 5 is kept.*status 0", "leaving")
    finally:
        terminal.end()
        host.kill()
    host.start()
    try:
        wrong = script("play.py", "--connect", f"127.0.0.1:{host.port}", "--session", "5", "--key", "ben", stdin=subprocess.DEVNULL)
        want("a wrong key ends play.py", wrong.returncode == 1 and "(NO 3)" in wrong.stderr, wrong.stderr)
    finally:
        host.kill()


def watched_on_a_terminal(room):
    """A spectator's terminal beside two players, on a host that is killed."""
    host = Host(room / "watched", COTTAGE).start()
    word = script("play.py", "--tell", "--key", "anna").stdout.strip()
    words = (sys.executable, STORIES / "play.py", "--watch", "--connect", f"127.0.0.1:{host.port}", "--session", "5", "--word")
    anna, ben = host.session(5, "anna"), host.session(6, "ben")
    for player in anna, ben:
        player.play_on(0, 1, (80, 24))
    for move in ("take rosemary", *["wait"] * 9, "inventory"):
        want(move, anna.give(move), anna.note)
    terminal = Terminal(room, *words, word)
    try:
        terminal.wait(r">wait\n.*>inventory\nYou're carrying:\n  a sprig of rosemary.*you look at session 5, after 11 moves", "eight moves")
        want("a word", anna.give("drop rosemary"))
        terminal.wait(r">drop rosemary\nDropped\..*after 12 moves", "a new move")
        want("another's word", ben.give("examine hens"))
        terminal.type("take rosemary", "Enter")
        host.kill()
        terminal.wait("the host has stopped; it is waited for", "a host that is gone")
        host.start()
        want("a word behind a restart", anna.give("examine bench"), anna.note)
        seen = terminal.wait(r">examine bench\nOak.*after 13 moves", "a move behind the restart")
        want("another size", anna.resize((50, 10)), anna.note)
        terminal.wait(r"^ Garden +0/\d+ *\n.*after 14 moves", "a player's other screen")
        want("a size that is the screen's", not anna.wants_size((50, 10)))
        want("a spectator sees one game", "hens" not in seen.partition(">drop")[2], seen)
        anna.close()
        terminal.wait(r"session 5: the game was closed.*status 1", "a game that is closed")
        want("a spectator's keys aren't given", files.games_of(host.folder)[6].inputs == 1)
        wrong = script("play.py", *words[2:], "0" * 16, stdin=subprocess.DEVNULL)
        want("another word", wrong.returncode == 1 and "no game of that number with that word" in wrong.stderr, wrong.stderr)
    finally:
        terminal.end()
        host.kill()


def words_that_do_not_go_together(room):
    for words in (["--connect", "x:1", COTTAGE], [COTTAGE, "--session", "1"], [COTTAGE, COTTAGE, "--seed", "5"],
                  [COTTAGE, "--unkept", "--new"], [], [room / "no.ulx"], ["--connect", "x:1", "--dir", room]):
        done = script("play.py", *words, stdin=subprocess.DEVNULL)
        want(f"play.py {' '.join(map(str, words))} is refused", done.returncode == 2 and "error" in done.stderr, done.stderr)


def has_terminals():
    if not shutil.which("tmux"):
        return "tmux"
    try:
        sys.path.append("/usr/lib/python3/dist-packages")
        import prompt_toolkit  # noqa: F401
    except ImportError:
        return "python3-prompt-toolkit"
    return ""


def main():
    signal.signal(signal.SIGTERM, signal.default_int_handler)
    room = pathlib.Path(tempfile.mkdtemp(prefix="people-"))
    try:
        longest, copies, tried = many_players(room)
        keeper(room)
        small_client(room)
        lost_sizes(room)
        words_that_do_not_go_together(room)
        missing = has_terminals()
        if not missing:
            played_alone(room)
            read_on(room)
            told_of_ends(room)
            played_on_a_host(room)
            watched_on_a_terminal(room)
    except (Otherwise, Refused, OSError, subprocess.TimeoutExpired) as cause:
        print(f"people: {cause}; the folder is {room}")
        return 1
    shutil.rmtree(room)
    print(f"people: {PLAYERS} players on {WORKERS} workers, none waited above {longest:.2f} s; games went on from each of {tried} "
          f"of {copies} copies of the journal; keeper.py and client.py did as they say")
    print(f"people: {missing} isn't here, so terminals were NOT tried" if missing else "people: terminals did as they should")
    return 0


if __name__ == "__main__":
    sys.exit(main())
