"""A story in storyhost, alone or in a session of a host: its windows, what it waits for, and moves."""
import hashlib
import os
import pathlib
import re
import socket
import subprocess
import sys
import time
import unicodedata

TOP = pathlib.Path(__file__).resolve().parent.parent
sys.path.append(str(TOP / "drills"))

import folder as files  # noqa: E402

# Where the program stands, the proved one first; `./begin` makes the other one.
PROGRAMS = [TOP / "crates/storyhost/out/storyhost", TOP / "quick/storyhost"]
HOST = os.environ.get("STORYHOST") or str(next((it for it in PROGRAMS if it.is_file()), PROGRAMS[0]))
KEYS = {"{Left}": 0xFFFFFFFE, "{Right}": 0xFFFFFFFD, "{Up}": 0xFFFFFFFC, "{Down}": 0xFFFFFFFB,
        "{Return}": 0xFFFFFFFA, "{Delete}": 0xFFFFFFF9, "{Escape}": 0xFFFFFFF8, "{Tab}": 0xFFFFFFF7,
        "{PageUp}": 0xFFFFFFF6, "{PageDown}": 0xFFFFFFF5, "{Home}": 0xFFFFFFF4, "{End}": 0xFFFFFFF3,
        **{f"{{Func{n}}}": 0xFFFFFFF0 - n for n in range(1, 13)}, "{Space}": 32}
REFUSALS = {
    "1": "a key has 1 to 32 letters and digits, a line at most 1,024 characters",
    "2": "the session is free or has another key, or its number isn't 0 to 63",
    "3": "the session is in use, with another key: take another number, or the key of that game",
    "4": "the host has no story of that number",
    "5": "the session isn't so far on: it was closed and begun anew",
    "6": "this session was played on from another place",
    "7": "this session was played on from another place",
    "8": "the story doesn't wait for that",
    "9": "the story is over",
    "10": "this number has its 8,192 moves for good: take another one. The game can still be read",
    "11": "the host's disk failed, or is full; give the move again, or tell the keeper",
    "12": "the host wants memory; give the move again",
    "13": "the session was kept with another story file, which the host no longer has: tell the keeper",
    "14": "the line is too long: a letter with an accent takes six places of its 2,048",
}
FAULTS = (
    "", "a read outside its memory", "a write where it may not write", "its stack is full", "its stack is empty",
    "a local that isn't there", "an instruction that isn't there", "an operand that isn't there",
    "division by zero", "a quotient that is too large", "a search that makes no sense",
    "a block of memory that isn't one", "a call of what is no function", "a return to nowhere",
    "a throw to nowhere", "a text that isn't one", "no table of texts",
    "an instruction that this host lacks, as those for fractions", "a stop for those who look for faults",
    "a size of memory that can't be", "a call that this host lacks, as those of dates",
    "a window, a stream or a file that isn't there", "a call with words that can't be",
    "too much was printed in one turn", "one turn took too long",
)
# Why a story file is refused, by the words and the number of a `bad` line.
BAD_STORIES = {
    "image 1": "it is too short for a story", "image 2": "it is no Glulx story",
    "image 3": "it is of a version of Glulx that isn't played", "image 4": "its header makes no sense",
    "image 5": "it wants more than 16 MiB of memory, or 1 MiB of stack", "blorb 1": "it is no Blorb container",
    "blorb 2": "it is a container that was cut", "blorb 3": "it is a container without a story",
    "blorb 4": "it is a container of another kind of story",
}
# The usages and modes of a file prompt.
USAGES = {0: "data", 1: "saved game", 2: "transcript", 3: "commands"}
SAVED_GAME = 1
WRITE, READ = 1, 2
SIZE = re.compile(r"\{size ([0-9]+) ([0-9]+)\}")     # a move that gives the story another screen
GREATEST = 0xFFFFFFFF       # the greatest number of a command
SHOWS = 8                   # the most shows of a reply to a spectator
LOOKS_BACK = 4              # such replies at most, for the last moves in which something was printed
MOST_RECALLED = 1000        # moves of a game that a host is asked to play again for who comes back, which takes a second or so
SLOW = 3                    # seconds, after which a player is told that the host hasn't answered
# In the main window's text: what was printed in that turn before it was cleared isn't shown.
CLEARED = "\f"


class Stopped(Exception):
    """The host is gone."""


class Refused(Exception):
    """The session can't be played: its refusal, and the words for it."""

    def __init__(self, reply):
        super().__init__(refused(reply))
        self.reply = reply


def unescaped(text):
    """The characters of a text of a show, which begins with =."""
    out, at, data = bytearray(), 1, text.encode()
    while at < len(data):
        if data[at] == ord("%"):
            out.append(int(data[at + 1 : at + 3], 16))
            at += 3
        else:
            out.append(data[at])
            at += 1
    return out.decode("utf-8")


def escaped(text):
    """The text as a line's last word; a control character becomes a space."""
    plain = "".join(" " if unicodedata.category(code) == "Cc" else code for code in text)
    return "=" + "".join(
        chr(code) if 0x20 < code < 0x7F and code != 0x25 else f"%{code:02X}"
        for code in plain.encode("utf-8", "replace"))


def refused(reply):
    """The words of a refusal."""
    text = REFUSALS.get(code_of(reply))
    return f"{text} ({reply})" if text else reply


def bad_words(said, story):
    """The words for what the program says of a story file that it doesn't take, or of a journal."""
    word, _, rest = said.partition(" ")
    why = BAD_STORIES.get(rest.partition(" ")[2]) if word == "bad" else None
    if not why:
        return said
    with open(story, "rb") as file:
        first = file.read(4)
    if first and 1 <= first[0] <= 8:
        why = f"it is a story for the Z-machine, version {first[0]}, and only Glulx is played"
    return f"{story}: {why} ({said})"


def word_of(key):
    """The word by which spectators of a session with this key look at it; it gives no right to play."""
    return hashlib.sha256(key.encode()).hexdigest()[:16]


def code_of(reply):
    return reply.partition(" ")[2].partition(" ")[0]


def launched(words):
    """The program, with pipes for its streams."""
    pipes = {"stdin": subprocess.PIPE, "stdout": subprocess.PIPE, "stderr": subprocess.PIPE}
    try:
        return subprocess.Popen(words, **pipes, start_new_session=True)
    except OSError as cause:
        name = os.path.basename(sys.argv[0])
        raise SystemExit(f"{name}: {words[0]} can't be run ({cause.strerror}). ./begin builds a program to look "
                         "around with, README.md says how the proved one is built; --host names another") from None


def close(pipe):
    """Ends the input of a program, which may be gone."""
    try:
        pipe.close()
    except BrokenPipeError:
        pass


def is_whole(reply):
    """Whether the bytes of a reply come to its end: a refusal has one line, each show ends with a line of its own."""
    head, _, _ = reply.partition(b"\n")
    if head.startswith(b"NO "):
        return len(reply) > len(head)
    return reply.endswith(b"\n.\n") and reply.count(b"\n.\n") == shows_in(head.decode())


def shows_in(head):
    """How many shows a reply has that begins with this line."""
    word, *rest = head.split(" ")
    return int(rest[2]) - int(rest[1]) + 1 if word == "SEEN" else 1


def shows_of(lines):
    """The shows of a reply to a spectator, each without its first line."""
    shows, body = [], []
    for line in lines[1:]:
        body.append(line)
        if line == ".":
            shows.append(body[1:])
            body = []
    return shows


def recent_from(shows):
    """Where the last eight of these shows begin in which something was printed; None where there are fewer."""
    printed = [at for at, lines in enumerate(shows) if any(line.startswith("T ") for line in lines)]
    return printed[-SHOWS] if len(printed) >= SHOWS else None


def reply_of(file):
    """The lines of a reply, or None where it doesn't come to its end."""
    lines = []
    for data in file:
        if not data.endswith(b"\n"):
            return None
        lines.append(data.decode().rstrip("\n"))
        if len(lines) == 1 and lines[0].startswith(("NO ", "bad ", "not ")):
            return lines
        if lines[-1] == "." and lines.count(".") == shows_in(lines[0]):
            return lines
    return None


class Window:
    def __init__(self, kind, x, y, width, height):
        self.kind, self.x, self.y, self.width, self.height = kind, x, y, width, height
        self.runs = []      # of a buffer, since it was cleared: style and text
        self.past = []      # what stood there before
        self.known = 0      # how many of the runs are of turns that the player has seen before
        self.rows = {}      # of a grid

    @property
    def text(self):
        """What a buffer was given since it was cleared."""
        return "".join(text for _, text in self.runs)


class Game:
    """What a player sees of a story: its windows, the main window's text, and what it waits for."""

    def __init__(self, shows=None):
        self.shows, self.windows, self.main = shows, {}, None
        self.text = ""      # all that the main window was given, CLEARED where it was cleared
        self.waits, self.ended = [], None
        self.turn = 0       # which of the waiting windows is meant
        self.names = {}     # of files, by their usage, as far as they are known
        self.note = ""      # what a player is told of the host

    def show(self, lines):
        """Takes the lines of a show."""
        seen, waits, ended = {}, [], None
        for line in lines:
            word, *rest = line.split(" ")
            if word == "W":
                seen[int(rest[0])] = self.window(int(rest[0]), *map(int, rest[1:]))
            elif word == "C":
                window = seen[int(rest[0])]
                window.past, window.runs, window.known = [*window.past, *window.runs], [], 0
                self.add(int(rest[0]), CLEARED)
            elif word == "T":
                text = unescaped(rest[2])
                seen[int(rest[0])].runs.append((int(rest[1]), text))
                self.add(int(rest[0]), text)
            elif word == "G":
                seen[int(rest[0])].rows[int(rest[1])] = unescaped(rest[2])
            elif word == "E":
                ended = " ".join(rest)
            elif word in ("I", "P"):
                waits.append((word, *rest))
            elif word != ".":
                raise SystemExit(f"play.py: the host says: {line}")
        if seen or not ended:
            self.windows = seen
        self.waits, self.ended, self.turn = waits, ended, 0

    def window(self, number, kind, *place):
        made = Window(kind, *place)
        if number in self.windows:
            before = self.windows[number]
            made.runs, made.past, made.known = before.runs, before.past, before.known
        if self.main is None and kind == 3:
            self.main = number
        return made

    def add(self, number, text):
        if number == self.main:
            self.text += text

    def told(self, lines, mark=""):
        """Writes lines of a conversation, where they are asked for."""
        if self.shows:
            for line in lines:
                print(mark + line, file=self.shows)

    def wait(self):
        """The line of the show that says what is waited for."""
        return self.waits[self.turn % len(self.waits)] if self.waits else (None,)

    def wanted(self):
        """P where a file's name is wanted, else char or line, and the window."""
        word, *rest = self.wait()
        if word == "P":
            return "P", 0
        return (rest[1], int(rest[0])) if word else (None, 0)

    def prompt(self):
        """The usage and the mode of a file prompt."""
        return int(self.wait()[1]) & 15, int(self.wait()[2])

    def prompt_words(self):
        """What a file prompt asks for."""
        usage, mode = self.prompt()
        if usage == SAVED_GAME:
            return "Restore which saved game?" if mode == READ else "Save the game under which name?"
        named = USAGES.get(usage, "file")
        return f"Read which file of {named}?" if mode == READ else f"Write the {named} to which file?"

    def screen(self):
        """The columns and rows of the game's screen, which its windows fill; None where it has no window."""
        if not self.windows:
            return None
        return (max(it.x + it.width for it in self.windows.values()), max(it.y + it.height for it in self.windows.values()))

    def begun(self):
        """The line that the story began for the player, where a line is wanted."""
        return unescaped(self.wait()[4]) if self.wanted()[0] == "line" else ""

    def is_stuck(self):
        """Whether the story goes on and waits for nothing that a player can give."""
        return not self.waits and not self.ended

    def end_words(self):
        """How the game ended, for people."""
        if self.is_stuck():
            return "the story waits for nothing that a player can give, perhaps a timer: it can't go on"
        word, _, code = (self.ended or "").partition(" ")
        if word == "fault":
            known = code.isdecimal() and int(code) < len(FAULTS)
            return f"the story failed: {FAULTS[int(code)] if known else 'fault ' + code}"
        return "the game is closed" if word == "closed" else "the story is over"

    def give_line(self, text, key=0):
        window = self.wanted()[1]
        return self.put("LINE", f"{window} {escaped(text)}" + (f" {key}" if key else ""))

    def give_character(self, code):
        return self.put("CHAR", f"{self.wanted()[1]} {code}")

    def give_name(self, name):
        usage, mode = self.prompt()
        known = self.names.setdefault(usage, [])
        given = self.put("FILE", escaped(name))
        if given and name and mode != READ:
            self.names[usage] = [one for one in known if one != name] + [name]
        return given

    def give(self, move):
        """Gives a move as the story waits for it; says whether it was taken."""
        if size := SIZE.fullmatch(move):
            return self.put("SIZE", f"{size[1]} {size[2]}")
        kind = self.wanted()[0]
        move = "" if move == "{empty}" and kind != "char" else move
        if kind == "P":
            return self.give_name(move)
        if kind == "line":
            return self.give_line(move)
        return self.give_character(KEYS.get(move) or ord((move + " ")[0]))


class Host(Game):
    """A story in `storyhost run`."""

    def __init__(self, story, program=HOST, budget=None, shows=None):
        super().__init__(shows)
        words = [program, "run", story] + (["--budget", str(budget)] if budget else [])
        self.story, self.process, self.usage = story, launched(words), None
        self.read()

    def put(self, word, rest):
        self.told([f"{word} {rest}"], "< ")
        try:
            self.process.stdin.write(f"{word} {rest}\n".encode())
            self.process.stdin.flush()
        except BrokenPipeError:
            pass    # The program is gone, and reading tells why.
        return self.read()

    def read(self):
        """Takes a reply; says whether it is a show."""
        lines = reply_of(self.process.stdout)
        if lines is None or lines[0].startswith(("bad ", "not ")):
            self.finish()
            said = f"play.py: {bad_words(lines[0], self.story)}" if lines else self.process.stderr.read().decode().strip()
            raise SystemExit(said or f"play.py: the host ended with status {self.process.returncode}")
        self.told(lines)
        if lines[0].startswith("NO "):
            self.note = f"[not taken: {refused(lines[0])}]"
            return False
        self.show(lines)
        return True

    def finish(self):
        """Ends the input, and keeps what the program used."""
        if self.usage is None:
            close(self.process.stdin)
            _, self.status, self.usage = os.wait4(self.process.pid, 0)
            self.process.returncode = os.waitstatus_to_exitcode(self.status)


class Linked(Game):
    """A game over a link to its host."""

    def __init__(self, link, number, say, shows=None):
        super().__init__(shows)
        self.link, self.number, self.say = link, number, say
        self.count = None       # of the commands that were accepted, where the game was seen

    def exchange(self, line, is_patient=True):
        """The lines of the reply to a request. Where the host is gone it is started again, or waited for a
        minute, and the request is sent again: a host that has kept it shows it, and applies it once. To who isn't
        patient a host that is gone is `Stopped`."""
        for again in range(121):
            try:
                self.told([line], "< ")
                lines = self.link.exchange(line, self.say)
                break
            except (Stopped, OSError):
                self.link.end()
                self.host_stopped()
                if not is_patient:
                    raise Stopped() from None
                if self.count is None and again == 9:
                    raise SystemExit(f"play.py: no host answers at {self.link}. Is it started?") from None
                if not again:
                    self.say("[no host answers yet; it is waited for]" if self.count is None else
                             "[the host has stopped; it is waited for, a minute]")
                if self.count is not None:
                    self.note = "[the host had stopped; it is there again, and the game goes on]"
                time.sleep(0.5 if again else 0)
        else:
            raise SystemExit("play.py: the host is gone; what it has answered is kept")
        self.told(lines)
        return lines

    def last_shows(self, word, count):
        """The last shows of a session of so many moves, by its word for spectators, and a refusal where there is one:
        eight in which something was printed, since a size of the screen mostly prints nothing, and those between."""
        shows, first = [], count + 1
        for _ in range(LOOKS_BACK):
            if not first or recent_from(shows) is not None:
                break
            behind, first = first, max(first - SHOWS, 0)
            lines = self.exchange(f"WATCH {self.number} {word} {first}")
            if not lines[0].startswith("SEEN "):
                return [], lines[0]
            shows = shows_of(lines)[: behind - first] + shows
        return shows[recent_from(shows) or 0 :], None

    def host_stopped(self):
        """The host is gone; the next one may be another."""

    def finish(self):
        self.link.end()


class Session(Linked):
    """A session of a host, which keeps what was played."""

    def __init__(self, link, number, key, say, shows=None):
        super().__init__(link, number, say, shows)
        self.key = key
        self.size = None            # columns and rows of the screen, as the host was told last
        self.knows_size = True      # whether the host takes another size, as far as is known
        self.refused_behind = None  # the number of moves behind which it wasn't taken
        self.unanswered = None      # a size whose answer was lost: it may be the session's next move

    def play_on(self, story, seed, size):
        """Shows what the story said last; where the session is free, opens it. Says whether it did so."""
        refusal = self.look()
        if refusal == "NO 2":
            self.open(story, seed, size)
            return True
        self.must(refusal)
        self.size = self.screen()
        known = self.link.names(self.number)
        self.names = {usage: list(known) for usage in USAGES}
        return False

    def recall(self):
        """Shows the last eight moves in place of the last one, to who comes back: what the turns before have left on
        the screen stands there again. Of a long game, and where the host can't tell them, the last one stands alone."""
        if not 0 < self.count <= MOST_RECALLED:
            return
        shows, refusal = self.last_shows(word_of(self.key), self.count)
        if refusal:
            return
        self.windows, self.main, self.text = {}, None, ""
        *earlier, last = shows
        for show in earlier:
            self.show(show)
        for window in self.windows.values():
            window.known = len(window.runs)
        self.show(last)

    def anew(self, story, seed, size):
        """Ends the game and begins another one."""
        self.close()
        self.windows, self.main, self.text, self.count, self.names = {}, None, "", None, {}
        self.open(story, seed, size)

    def open(self, story, seed, size):
        self.must(self.ask(f"OPEN {self.number} {self.key} {story} {seed} {size[0]} {size[1]}"))
        self.size, self.refused_behind, self.unanswered = size, None, None

    def look(self):
        """Asks for the last show, and takes it where it is of another move than the one that was seen."""
        return self.ask(f"LAST {self.number} {self.key}")

    def put(self, word, rest):
        """Says whether the command was taken. Where it wasn't, the game is looked at again."""
        if self.unanswered:
            self.resize(self.unanswered, is_patient=True)
        refusal = self.ask(f"{word} {self.number} {self.key} {self.count + 1} {rest}")
        if refusal is None:
            return True
        before = self.count
        looked = self.look()
        if looked and code_of(looked) == "2":
            raise Refused(looked)
        if code_of(refusal) == "12" and self.count == before + 1:
            return True     # It was kept all the same, and its show is there now.
        self.note = f"[not taken: {refused(refusal)}]"
        return False

    def wants_size(self, size):
        """Whether the host is to be told this size of the screen: it wasn't told yet, and the story may take it."""
        is_new = size != self.size and self.count != self.refused_behind and not self.unanswered
        return self.knows_size and is_new and self.wanted()[0] in ("char", "line")

    def resize(self, size, is_patient=False):
        """Tells the host the size of the screen, which is a move; says whether it was taken. Where it wasn't the player,
        who has given nothing, is told nothing: a host of before doesn't know it (NO 1), and where the story doesn't
        wait for it (NO 8) it may be told behind the next move. Where it may have been kept it is told again before that."""
        turn, self.unanswered = self.turn, size
        try:
            refusal = self.ask(f"SIZE {self.number} {self.key} {self.count + 1} {size[0]} {size[1]}", is_patient)
        except Stopped:
            return False
        if refusal and code_of(refusal) == "12":
            return False
        self.unanswered = None
        if refusal:
            self.knows_size = code_of(refusal) != "1"
            self.refused_behind = self.count
            return False
        self.size, self.turn = size, turn
        return True

    def host_stopped(self):
        self.knows_size = True

    def back(self):
        """Takes the last move back, on a folder of this program's own: it goes on from its journal without that."""
        folder = self.link.folder
        self.finish()
        if not files.take_back(folder, self.number):
            raise SystemExit("play.py: there is no move to take back")
        self.windows, self.main, self.count = {}, None, None
        self.must(self.look())
        self.recall()
        self.note = "[the last move is taken back]"

    def close(self):
        """Ends the game of the session, and frees its number."""
        refusal = self.ask(f"CLOSE {self.number} {self.key} {GREATEST}")
        if code_of(refusal or "") != "5":
            raise Refused(refusal or "NO 10")
        self.must(self.ask(f"CLOSE {self.number} {self.key} {int(refusal.split()[2]) + 1}"))

    def must(self, refusal):
        if refusal:
            raise Refused(refusal)

    def ask(self, line, is_patient=True):
        """The refusal of a request, or None where its show was taken."""
        lines = self.exchange(line, is_patient)
        if lines[0].startswith("NO "):
            return lines[0]
        if not lines[0].startswith("SHOW "):
            raise SystemExit(f"play.py: the host says: {lines[0]}")
        count = int(lines[0].split()[2])
        if count != self.count or not line.startswith("LAST"):
            self.count = count
            self.show(lines[1:])
        return None


class Watched(Linked):
    """A session of a host as its spectators see it: from its last moves on, a show after the other."""

    def __init__(self, link, number, word, say, shows=None):
        super().__init__(link, number, say, shows)
        self.word = word

    def at(self, number):
        """The reply to a request for the shows from this number on."""
        return self.exchange(f"WATCH {self.number} {self.word} {number}")

    def more(self):
        """Takes the shows that weren't seen, at most eight; says whether there were any. Of a game that wasn't seen
        it begins with the last ones."""
        if self.count is None:
            return self.begin(self.at(GREATEST))
        lines = self.at(self.count + 1)
        if lines[0].startswith("NO 5 "):
            if int(lines[0].split()[2]) < self.count:
                self.windows, self.main, self.note = {}, None, "[another game was begun]"
                return self.begin(lines)
            return False
        self.must(lines)
        for show in shows_of(lines):
            self.show(show)
        self.count = int(lines[0].split()[3])
        return True

    def begin(self, lines):
        """Takes the last shows, by the refusal of a number that is too great, which tells how many moves there are."""
        if not lines[0].startswith("NO 5 "):
            self.must(lines)
        count = int(lines[0].split()[2])
        shows, refusal = self.last_shows(self.word, count)
        if refusal:
            self.must([refusal])
        for show in shows:
            self.show(show)
        self.count = count
        return True

    def must(self, lines):
        if code_of(lines[0]) == "2":
            over = "the game was closed" if self.count is not None else "there is no game of that number with that word"
            raise SystemExit(f"play.py: session {self.number}: {over} (NO 2)")
        if not lines[0].startswith("SEEN "):
            raise Refused(lines[0])


class Pipe:
    """A host of a folder, that this program starts."""

    def __init__(self, folder, story, program=HOST, budget=None):
        self.folder, self.program, self.process = pathlib.Path(folder), program, None
        self.words = [program, "pipe", str(folder), story] + (["--budget", str(budget)] if budget else [])

    def __str__(self):
        return str(self.folder)

    def begin_folder(self):
        """Makes the folder, where there is none."""
        if not (self.folder / "journal").exists():
            made = launched([self.program, "init", str(self.folder)])
            _, said = made.communicate()
            if made.returncode:
                raise SystemExit(f"play.py: {self.folder} can't be begun: {said.decode().strip()}")

    def names(self, session):
        """The names of files that were given in this session's game."""
        try:
            return files.names_of(self.folder, session)
        except (OSError, files.Damaged):
            return []

    def exchange(self, line, say):
        if self.process is None:
            self.process = launched(self.words)
        self.process.stdin.write(line.encode() + b"\n")
        self.process.stdin.flush()
        lines = reply_of(self.process.stdout)
        if lines is None or lines[0].startswith(("bad ", "not ")):
            self.end(lines[0] if lines else "")
            raise Stopped()
        return lines

    def end(self, said=""):
        """Ends the host; where it ends by itself with a status, that is the end of this program."""
        process, self.process = self.process, None
        if process is None:
            return
        close(process.stdin)
        said = said or process.stdout.read().decode().strip()
        if process.wait() > 0:
            cause = process.stderr.read().decode().strip()
            if said.startswith("bad journal"):
                raise SystemExit(f"play.py: {self.folder}: {said}. `keeper.py {self.folder}` says more")
            raise SystemExit(f"play.py: {bad_words(said, self.words[3])}" if said else cause)


class Address:
    """A host that answers at an address, which somebody else starts. Each request has a link of its
    own, since a link holds a worker of the host: so more people play than there are workers."""

    def __init__(self, address):
        host, _, port = address.rpartition(":")
        if not port.isdecimal() or int(port) > 65535:
            raise SystemExit(f"play.py: {address} is no address; one is 127.0.0.1:4000")
        self.address = (host.strip("[]") or "127.0.0.1", int(port))

    def __str__(self):
        return "{}:{}".format(*self.address)

    def names(self, session):
        return []

    def exchange(self, line, say):
        with socket.create_connection(self.address, timeout=10) as link:
            link.settimeout(SLOW)
            link.sendall(line.encode() + b"\n")
            got = b""
            while not is_whole(got):
                try:
                    piece = link.recv(65536)
                except TimeoutError:
                    say("[the host hasn't answered yet: the turn is long, or others hold all its workers]")
                    continue
                if not piece:
                    raise Stopped()
                got += piece
        return got.decode().split("\n")[:-1]

    def end(self):
        pass
