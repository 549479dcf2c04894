#!/usr/bin/env python3
"""Plays a story through storyhost: by hand on a terminal, or the moves of a file.

usage: play.py STORY [--new | --close] [--unkept] [--seed N] [--budget N]
       play.py STORY MOVES [--budget N]
       play.py STORY [MOVES] --dir DIR --session N --key WORD [--new | --close] [--seed N] [--budget N]
       play.py --connect HOST:PORT --session N --key WORD [--story K] [--moves MOVES] [--new | --close] [--seed N]
       play.py --watch --connect HOST:PORT --session N --word WORD
       play.py --tell --key WORD
       each with [--host PROGRAM] [--plain] [--shows]

A story alone goes on where it was left: its game, with the files that it saves, is kept in a folder of
yours (~/.local/share/storyhost, or under XDG_DATA_HOME). --unkept plays one that is thrown away.

With --connect you play in a session of a host that answers at that address, which somebody else starts; K
is the number of its story, from 0. With --dir the session is one of the host whose folder that is
(`storyhost init DIR` made it), and this program starts the host. The same session and key go on where they
were left. Where they aren't given you are asked. Where the host stops it is waited for or started again,
and the last move is sent again; a move that was kept isn't played twice.

--new ends the session's game and begins another one; --close ends it and frees its number. The files that a
story saved go with its game. A new game has a seed of chance, unless it is given by --seed.

--watch looks at somebody's session from its last eight moves on, and shows each new one as it comes; it gives
no right to play. The word for that is made of the session's key: --tell says it to a player, and so does control
and T while the windows are drawn.

On a terminal the story's windows are drawn (screen.py, over Debian's python3-prompt-toolkit), and the story is told
the terminal's size, also as it changes. With --plain, without that library, or where input or output is no
terminal, each line of the input is a move, and the text is written as it comes, other windows before it.

MOVES is a file with one move a line; a blank line or one that begins with # is none. A move is given as the
story waits: as a line, as a file's name, or as a character. {Return}, {Up}, {Down}, {Escape}, {Space} and other
keys of Glk name characters, {empty} is a line or name of no characters, and {size 50 15} is another screen. With
--shows the shows are written as they come.
"""
import argparse
import fcntl
import hashlib
import os
import pathlib
import re
import secrets
import shutil
import sys
import tempfile
import time

from host import CLEARED, HOST, Address, Host, Pipe, Refused, Session, Watched, word_of
from wrapping import shown, wrapped

ALONE = (0, "player")       # the session and key of a game that is kept alone
PLAIN_SIZE = (80, 24)


def read_moves(name):
    with open(name, encoding="utf-8") as file:
        lines = [line.rstrip("\n") for line in file]
    return [line for line in lines if line.strip() and not line.startswith("#")]


def play(host, moves):
    """Gives the moves, and returns those that came after the end, or from one on that wasn't taken."""
    for at, move in enumerate(moves):
        if host.ended or host.is_stuck():
            return moves[at:]
        if not host.give(move):
            print(f"play.py: move {at + 1}, {move}: {host.note}", file=sys.stderr)
            return moves[at:]
    return []


def told(host, before):
    """Writes what came since: the other windows where they changed, and the main window's text but for
    its last line, which is the prompt and is given back."""
    if host.note:
        print("\n" + host.note)
        host.note = ""
    columns = shutil.get_terminal_size().columns
    for number, window in sorted(host.windows.items()):
        rows = [window.rows[row].rstrip() for row in sorted(window.rows)]
        text = "\n".join(rows) if window.kind == 4 else window.text
        if number != host.main and text.strip() and before.get(number) != text:
            print("\n" + "\n".join("    | " + line for line in wrapped(text, columns - 6).split("\n")))
        before[number] = text
    text = wrapped(host.text[before.get("told", 0) :].replace(CLEARED, "\n"), columns)
    before["told"] = len(host.text)
    above, _, last = text.rpartition("\n")
    print(above + "\n" if above or text.startswith("\n") else "", end="")
    if host.wanted()[0] == "P":
        names = host.names.get(host.prompt()[0])
        known = f" (names so far: {', '.join(names)})" if names else ""
        print(last)
        return f"{host.prompt_words()}{known} Nothing cancels: "
    if host.ended or host.is_stuck():
        print(last + f"\n[{host.end_words()}]")
        return ""
    return last


def typed(prompt):
    """A line of standard input behind this prompt, or None at its end; a terminal has the line editing of
    Python's readline."""
    if sys.stdin.isatty() and sys.stdout.isatty():
        try:
            return input(prompt)
        except EOFError:
            return None
    print(prompt, end="", flush=True)
    line = sys.stdin.readline()
    return line.removesuffix("\n") if line else None


def play_by_hand(host):
    """Takes moves from standard input until the story or the input is over."""
    before = {}
    prompt = told(host, before)
    while not host.ended and not host.is_stuck():
        kind = host.wanted()[0]
        line = typed(prompt)
        if line is None:
            break
        taken = host.give(line or ("{Return}" if kind == "char" else ""))
        before["told"] += len(line) + 1 if taken and kind == "line" else 0
        prompt = told(host, before)
    print()


def play_moves(host, moves, is_told):
    """Gives the moves, and writes the main window's text; the status is 0 where they end the story."""
    left = play(host, moves)
    host.finish()
    if is_told:
        text = host.text.replace(CLEARED, "\n----\n").strip("\n")
        # A terminal would take a story's control characters as its own.
        print("".join(code if code == "\n" else shown(code) for code in text) if sys.stdout.isatty() else text)
    if host.ended != "quit":
        waits = f"the story waits for more; {len(left)} moves weren't given" if left else "the story waits for more"
        print(f"play.py: {host.end_words() if host.ended or host.is_stuck() else waits}", file=sys.stderr)
        return 1
    if left:
        print(f"play.py: {len(left)} moves came after the end", file=sys.stderr)
    return 0


def look_on(host):
    """Writes what the shows of a session say, as they come, until its game is over."""
    before = {}
    while not host.ended:
        if host.more():
            print(told(host, before), end="", flush=True)
        elif host.is_stuck():
            break
        else:
            time.sleep(1)
    print()


def misfit_of_watching(given):
    """The same of words for who only looks or asks."""
    if given.tell:
        return "" if given.key and not (given.watch or given.file) else "--tell wants the session's --key, and plays nothing"
    if given.word and not given.watch:
        return "--word is for --watch: who plays has a --key"
    if given.watch and not (given.connect and given.session is not None and given.word):
        return "--watch wants --connect HOST:PORT, --session N and the session's --word"
    if given.watch and (given.file or given.moves or given.key or given.new or given.close or given.seed is not None):
        return "--watch only looks"
    return ""


def misfit(given):
    """Which of the words given don't go together, or nothing."""
    if given.tell or given.watch or given.word:
        return misfit_of_watching(given)
    alone = not (given.dir or given.connect)
    if given.connect and given.dir:
        return "--dir is for a host that this program starts, --connect for one that is there"
    if given.connect and given.file:
        return "with --connect the host has the story (--story K names one), and moves stand behind --moves"
    if not given.connect and not given.file:
        return "a story's file is wanted, or --connect"
    if given.story is not None and not given.connect:
        return "--story is the number of a story of a host, with --connect"
    if given.budget is not None and given.connect:
        return "--budget is the host's own: serve --budget"
    if alone and (given.session is not None or given.key is not None):
        return "--session and --key are for a host, with --dir or --connect"
    if given.unkept and (not alone or given.new or given.close):
        return "--unkept is for a story alone, and keeps nothing to begin anew or to close"
    if given.new and given.close:
        return "--new begins a game, --close ends one"
    if given.close and (given.moves or given.shows or given.seed is not None):
        return "--close plays nothing"
    if given.moves and alone and (given.new or given.close or given.unkept or given.seed is not None):
        return "moves alone play a new story that isn't kept, with seed 1; with --dir DIR they play a kept one"
    return ""


def natural(least, most):
    def read(text):
        if not text.isdecimal() or not least <= int(text) <= most:
            raise argparse.ArgumentTypeError(f"a number from {least} to {most} is wanted, not {text}")
        return int(text)

    return read


def key_of(text):
    if not re.fullmatch("[A-Za-z0-9]{1,32}", text):
        raise argparse.ArgumentTypeError(f"a key has 1 to 32 letters (A to Z, a to z) and digits, unlike {text!r}")
    return text


def watch_word_of(text):
    if not re.fullmatch("[0-9a-f]{16}", text):
        raise argparse.ArgumentTypeError(f"a word for spectators has 16 of 0-9 and a-f, unlike {text!r}")
    return text


def read_words():
    about, _, rest = __doc__.partition("\nusage: ")
    usage, _, more = rest.partition("\n\n")
    words = argparse.ArgumentParser(usage=usage, description=about, epilog=more, allow_abbrev=False,
                                    formatter_class=argparse.RawDescriptionHelpFormatter)
    words.add_argument("file", nargs="?", metavar="STORY", help="a Glulx story file")
    words.add_argument("moves", nargs="?", metavar="MOVES", help="a file of moves")
    words.add_argument("--moves", dest="moves_of_link", metavar="MOVES", help="the same, with --connect")
    words.add_argument("--dir", metavar="DIR", help="a host's folder")
    words.add_argument("--connect", metavar="HOST:PORT", help="where a host answers")
    words.add_argument("--story", type=natural(0, 63), metavar="K", help="which of the host's stories; 0 unless given")
    words.add_argument("--session", type=natural(0, 63), metavar="N", help="the session's number, 0 to 63")
    words.add_argument("--key", type=key_of, metavar="WORD", help="its key: letters and digits, kept from others")
    words.add_argument("--watch", action="store_true", help="look at a session and don't play")
    words.add_argument("--word", type=watch_word_of, metavar="WORD", help="the session's word for spectators")
    words.add_argument("--tell", action="store_true", help="say the word for spectators of the key's session")
    words.add_argument("--seed", type=natural(0, 2**64 - 1), metavar="N", help="the chance of a new game")
    words.add_argument("--budget", type=natural(1, 10**12), metavar="N", help="the ticks of a turn")
    words.add_argument("--new", action="store_true", help="begin another game")
    words.add_argument("--close", action="store_true", help="end the game")
    words.add_argument("--unkept", action="store_true", help="keep nothing")
    words.add_argument("--plain", action="store_true", help="draw no windows")
    words.add_argument("--shows", action="store_true", help="write what the host says")
    words.add_argument("--host", default=HOST, metavar="PROGRAM", help="the program storyhost")
    given = words.parse_args()
    if given.moves and given.moves_of_link:
        words.error("moves are given twice")
    given.moves = given.moves or given.moves_of_link
    wrong = misfit(given)
    if wrong:
        words.error(wrong)
    for name in (given.file, given.moves):
        if name and not os.access(name, os.R_OK):
            words.error(f"{name} can't be read" if os.path.exists(name) else f"{name} isn't there")
    return given


def asked(words, check):
    """What a person answers, once it passes."""
    if not sys.stdin.isatty():
        raise SystemExit("play.py: --session N and --key WORD are wanted")
    while True:
        try:
            return check(input(words).strip())
        except argparse.ArgumentTypeError as wrong:
            print(wrong)
        except EOFError:
            raise SystemExit(1) from None


class Place:
    """Where a game is kept: a session, its key, and the way to its host."""

    def __init__(self, given):
        self.given, self.is_asked, self.room = given, False, None
        self.is_own = not (given.connect or given.dir)      # the folder is this player's, and has one game
        self.number, self.key = given.session, given.key
        if given.connect or given.dir:
            self.folder = given.dir
            return
        self.number, self.key = ALONE
        if given.unkept:
            self.room = tempfile.TemporaryDirectory(prefix="storyhost-")
            self.folder = os.path.join(self.room.name, "game")
            return
        name = pathlib.Path(given.file)
        digest = hashlib.sha256(name.read_bytes()).hexdigest()[:8]
        kept = pathlib.Path(os.environ.get("XDG_DATA_HOME") or pathlib.Path.home() / ".local/share") / "storyhost"
        kept.mkdir(parents=True, exist_ok=True)
        self.folder = str(kept / f"{name.stem}-{digest}")
        self.lock = open(self.folder + ".lock", "w")
        try:
            fcntl.flock(self.lock, fcntl.LOCK_EX | fcntl.LOCK_NB)
        except OSError:
            raise SystemExit("play.py: this story is played in another terminal; --unkept plays it beside that, "
                             "and keeps nothing") from None

    def ask(self):
        """Asks for what is missing of the session and its key."""
        if self.number is None:
            self.is_asked = True
            self.number = asked("The number of your session, 0 to 63: ", natural(0, 63))
        if self.key is None:
            self.is_asked = True
            self.key = asked("Its key, a word that you keep (letters and digits): ", key_of)

    def ask_again(self):
        self.number, self.key = self.given.session, self.given.key
        self.ask()

    def session(self, say):
        given = self.given
        link = Address(given.connect) if given.connect else Pipe(self.folder, given.file, given.host, given.budget)
        if not given.connect and not given.dir:
            link.begin_folder()
        return Session(link, self.number, self.key, say, sys.stdout if given.shows else None)

    def seed(self):
        return secrets.randbelow(2**32) if self.given.seed is None else self.given.seed

    def game(self, size, say):
        """The session, as it waits for its player."""
        session, given = self.session(say), self.given
        story = given.story or 0
        is_new = session.play_on(story, self.seed(), size)
        if given.new and not is_new:
            session.anew(story, self.seed(), size)
        elif not is_new:
            session.recall()
        if given.seed is not None and not (is_new or given.new):
            session.note = "[this game goes on with its own seed: --seed is for a new one]"
        return session

    def anew(self, session, size):
        session.anew(self.given.story or 0, self.seed(), size)

    def spectators_words(self):
        """What a player may tell those who want to look at the game."""
        if not self.given.connect:
            return "[nobody else can look at this game: it isn't a session of a host that serves]"
        return f"[who may look types: play.py --watch --connect {self.given.connect} --session {self.number} --word {word_of(self.key)}]"

    def kept_words(self, host):
        """What a player is told who leaves."""
        if self.room or host is None:
            return ""
        if host.ended or host.is_stuck():
            return f"The game is over: {host.end_words()}. --new begins another one."
        if self.given.connect or self.given.dir:
            return f"Session {self.number} is kept on {self.given.connect or self.given.dir}: the same number and key go on."
        return "The game is kept: the same line goes on, --new begins another one."


class Look:
    """A session that is only looked at."""
    is_own = False

    def __init__(self, given):
        self.given = given

    def begun(self, say):
        given = self.given
        return Watched(Address(given.connect), given.session, given.word, say, sys.stdout if given.shows else None)

    def game(self, size, say):
        """The session, as it was seen first."""
        host = self.begun(say)
        host.more()
        return host

    def anew(self, session, size):
        pass


def watch(given, screen):
    """Shows a session until its spectator leaves or its game is over."""
    if screen:
        import onlooker
        onlooker.look(Look(given))
    else:
        look_on(Look(given).begun(say))
    return 0


def drawing(given):
    """The module that draws windows, where a person plays on a terminal that can show them."""
    is_terminal = sys.stdin.isatty() and sys.stdout.isatty() and os.environ.get("TERM", "dumb") != "dumb"
    if given.plain or given.shows or given.moves or not is_terminal:
        return None
    try:
        import screen
    except ImportError:
        print("[windows aren't drawn: that wants `apt-get install python3-prompt-toolkit`]")
        return None
    return screen


def say(text):
    print(text, file=sys.stderr)


def play_place(given, place, screen):
    """Plays what the words name, and says whether it ended well."""
    if given.close:
        session = place.session(say)
        session.close()
        session.finish()
        print("The game is closed." if place.key == ALONE[1] else f"Session {place.number} is closed, its number is free.")
        return 0
    if screen:
        words = place.kept_words(screen.play(place))
        if words:
            print(words)
        return 0
    host = place.game(PLAIN_SIZE, say)
    if given.moves:
        return play_moves(host, read_moves(given.moves), not given.shows)
    play_by_hand(host)
    host.finish()
    if sys.stdin.isatty():
        print(place.kept_words(host))
    return 0


def watched(given):
    try:
        return watch(given, drawing(given))
    except Refused as refusal:
        print(f"play.py: session {given.session}: {refusal}", file=sys.stderr)
        return 1


def main():
    given = read_words()
    if given.tell:
        print(word_of(given.key))
        return 0
    if given.watch:
        return watched(given)
    if given.moves and not (given.connect or given.dir):
        host = Host(given.file, given.host, given.budget, sys.stdout if given.shows else None)
        return play_moves(host, read_moves(given.moves), not given.shows)
    screen, place = drawing(given), Place(given)
    place.ask()
    while True:
        try:
            return play_place(given, place, screen)
        except Refused as refusal:
            print(f"play.py: session {place.number}: {refusal}", file=sys.stderr)
            if not (place.is_asked and refusal.reply in ("NO 2", "NO 3")):
                return 1
            place.ask_again()


if __name__ == "__main__":
    try:
        import readline  # noqa: F401  (a terminal's plain lines can be edited)
    except ImportError:
        pass
    try:
        sys.exit(main())
    except KeyboardInterrupt:
        sys.exit(130)
