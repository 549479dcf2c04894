"""For tests, drills and measures of the gateway: a host, a gateway, and a player by script.

Whatever runs it wants Debian's python3-aiohttp."""

import asyncio
import json
import os
import pathlib
import signal
import socket
import subprocess
import sys
import tempfile
import time

try:
    import aiohttp
except ImportError:
    sys.exit("web: aiohttp isn't here; apt-get install python3-aiohttp, and run this with /usr/bin/python3")

TOP = pathlib.Path(__file__).resolve().parent.parent
PROGRAM = pathlib.Path(os.environ.get("STORYHOST", TOP / "crates" / "storyhost" / "out" / "storyhost"))
GATEWAY = TOP / "web" / "gateway.py"
COTTAGE = TOP / "stories" / "cottage.ulx"
UNIT = {"width": 80, "height": 24, "charwidth": 1, "charheight": 1}

sys.path.append(str(TOP / "stories"))

from host import KEYS, unescaped  # noqa: E402
from play import read_moves  # noqa: E402, F401

STYLE_NAMES = ("normal", "emphasized", "preformatted", "header", "subheader", "alert", "note", "blockquote", "input",
               "user1", "user2")  # fmt: skip


class Otherwise(Exception):
    """Something isn't as it should be."""


def free_port():
    with socket.create_server(("127.0.0.1", 0)) as door:
        return door.getsockname()[1]


def greatest_memory(process):
    """In MiB, so far."""
    with open(f"/proc/{process.pid}/status") as file:
        return next(int(line.split()[1]) for line in file if line.startswith("VmHWM")) / 1024


class Program:
    """A program that runs beside this one, and what it says on standard error."""

    def begin(self, words, is_there):
        """Starts it, and waits until it's there."""
        self.log = tempfile.TemporaryFile()
        self.process = subprocess.Popen(words, stdin=subprocess.DEVNULL, stdout=subprocess.DEVNULL, stderr=self.log)
        end = time.monotonic() + 60
        while not is_there():
            if self.process.poll() is not None or time.monotonic() > end:
                raise Otherwise(f"{words[0]} isn't there, and says: {self.said()!r}")
            time.sleep(0.005)

    def said(self):
        return os.pread(self.log.fileno(), 1 << 20, 0).decode()

    def kill(self):
        """Kills it, and gives what it said."""
        self.process.kill()
        self.process.wait()
        told = self.said()
        self.log.close()
        return told

    def memory(self):
        return greatest_memory(self.process)


class Host(Program):
    """A host on a port of its own, which may be killed and started again."""

    def __init__(self, folder, stories, workers=4, program=PROGRAM):
        self.folder, self.program, self.stories, self.workers = str(folder), str(program), stories, workers
        subprocess.run([self.program, "init", self.folder], check=True, capture_output=True)
        self.port = free_port()
        self.start()

    def start(self):
        words = [self.program, "serve", self.folder, str(self.port), str(self.workers), *map(str, self.stories)]
        self.begin(words, lambda: ":" in self.said())

    def move(self, folder):
        """Stops it, copies its folder as a keeper would, and starts it there, on another port."""
        self.process.terminate()
        self.process.wait()
        subprocess.run(["cp", "-a", "--sparse=always", self.folder, str(folder)], check=True)
        self.folder, self.port = str(folder), free_port()
        self.start()


class Gateway(Program):
    """A gateway on a port of its own, which may be killed and started again."""

    def __init__(self, hosts, *words):
        """`hosts` is the port of one, or the file of many."""
        self.port = free_port()
        which = ["--host", f"127.0.0.1:{hosts}"] if isinstance(hosts, int) else ["--hosts", str(hosts)]
        self.words = [sys.executable, str(GATEWAY), *which, "--listen", f"127.0.0.1:{self.port}", *words]
        self.start()

    def start(self):
        self.begin(self.words, lambda: "http://" in self.said())

    @property
    def address(self):
        return f"http://127.0.0.1:{self.port}"

    def read_again(self):
        self.process.send_signal(signal.SIGHUP)


class Player:
    """A display without a screen. Like a browser it answers pings also while nobody reads what came."""

    def __init__(self, client, address):
        self.client, self.address, self.gen, self.socket = client, address, 0, None
        self.notes, self.game, self.metrics = [], None, UNIT

    async def connect(self):
        self.socket = await self.client.ws_connect(self.address + "/socket", origin=self.address, max_msg_size=0)
        self.came, self.ended = asyncio.Queue(), None
        self.listening = asyncio.create_task(self.listen())
        self.stories = (await self.read("menu"))["stories"]

    async def listen(self):
        """Keeps each message as it comes, until the socket is closed; that is the last."""
        while True:
            message = await self.socket.receive()
            await self.came.put(message)
            if message.type not in (aiohttp.WSMsgType.TEXT, aiohttp.WSMsgType.BINARY):
                self.ended = message
                return

    async def receive(self):
        """The next message that came; the last again behind that."""
        if self.ended and self.came.empty():
            return self.ended
        return await asyncio.wait_for(self.came.get(), 60)

    async def send(self, message):
        await self.socket.send_str(json.dumps(message))

    async def read(self, *kinds):
        """The next message of these kinds. Notes and what tells of the game's place are passed over."""
        while True:
            message = await self.receive()
            if message.type != aiohttp.WSMsgType.TEXT:
                raise ConnectionError(f"the socket is closed ({message.data})")
            told = json.loads(message.data)
            if told["type"] in kinds:
                if told["type"] == "update":
                    self.gen = told["gen"]
                return told
            if told["type"] == "error":
                raise Otherwise(f"error in place of {kinds}: {told['message']}")
            if told["type"] == "note" and told["text"]:
                self.notes.append(told["text"])
            if told["type"] in ("begins", "session"):
                self.game, self.key = told["game"], told["key"]
            if told["type"] == "session":
                self.word = told["word"]

    async def init(self, **wanted):
        await self.send({"type": "init", "gen": self.gen, "metrics": self.metrics, **wanted})
        return await self.read("update")

    async def begin(self, key=None, seed=1, title=None):
        """Begins a game, of the first title and by a key of the gateway's unless told otherwise. Where it was asked for
        before, that game is found."""
        more = {"key": key or self.key, "game": self.game} if self.game else {"key": key} if key else {}
        return await self.init(begin={"title": title or self.stories[0]["title"], "seed": seed, **more})

    async def give(self, event):
        self.metrics = event.get("metrics", self.metrics)
        await self.send(event)
        return await self.read("update")

    async def close(self):
        if self.socket:
            await self.socket.close()
            await self.listening


def arrange_of(gen, columns, rows):
    """The event of a display that has room for so many characters."""
    return {"type": "arrange", "gen": gen, "metrics": {**UNIT, "width": columns, "height": rows}}


def event_of(update, move):
    """The event by which a display gives this move, as the update asks for it."""
    gen = update["gen"]
    text = "" if move == "{empty}" else move
    if "specialinput" in update:
        return {"type": "specialresponse", "gen": gen, "response": "fileref_prompt", "value": text}
    asked = update["input"][0]
    if asked["type"] == "line":
        return {"type": "line", "gen": gen, "window": asked["id"], "value": text}
    value = move.strip("{}").lower() if move in KEYS and move != "{Space}" else (move + " ")[0]
    return {"type": "char", "gen": gen, "window": asked["id"], "value": " " if move == "{Space}" else value}


def line_of(event):
    """The line of `run` for an event."""
    from host import escaped

    if event["type"] == "arrange":
        return f"SIZE {event['metrics']['width']} {event['metrics']['height']}"
    if event["type"] == "line":
        return f"LINE {event['window']} {escaped(event['value'])}"
    if event["type"] == "char":
        codes = {name.strip("{}").lower(): code for name, code in KEYS.items()}
        return f"CHAR {event['window']} {codes.get(event['value']) or ord(event['value'])}"
    return f"FILE {escaped(event['value'])}"


def shows_of_run(story, lines, program=PROGRAM):
    ran = subprocess.run([str(program), "run", str(story)], input="".join(line + "\n" for line in lines),
                         capture_output=True, text=True, timeout=120)  # fmt: skip
    return [show.split("\n") for show in ran.stdout.split("\n.\n")[:-1]]


def plain(runs):
    """Characters with their styles. A line's end has none in an update."""
    made = []
    for style, text in runs:
        for piece in text.replace("\n", "\0\n\0").split("\0"):
            if piece == "\n":
                made.append((None, piece))
            elif piece and made and made[-1][0] == style:
                made[-1] = style, made[-1][1] + piece
            elif piece:
                made.append((style, piece))
    return made


def told_by_show(lines):
    """What a show tells, without what a display isn't told."""
    told = {"windows": [], "cleared": [], "text": {}, "rows": {}, "asked": [], "file": None, "ended": None}
    for line in lines:
        word, *rest = line.split(" ")
        if word == "W" and rest[1] in "34":
            told["windows"].append(tuple(map(int, rest)))
        elif word == "C":
            told["cleared"].append(int(rest[0]))
        elif word == "T":
            told["text"].setdefault(int(rest[0]), []).append((STYLE_NAMES[int(rest[1])], unescaped(rest[2])))
        elif word == "G":
            told["rows"].setdefault(int(rest[0]), []).append(unescaped(rest[2]))
        elif word == "I":
            told["asked"].append((int(rest[0]), rest[1], *([int(rest[2]), unescaped(rest[3])] if rest[1] == "line" else [])))
        elif word == "P":
            told["file"] = int(rest[0]) & 3, int(rest[1])
        elif word == "E":
            told["ended"] = " ".join(rest)
    told["text"] = {number: plain(runs) for number, runs in told["text"].items()}
    return told


def told_by_update(update):
    """The same of an update to a display whose characters are one by one."""
    kinds, types, modes = {"buffer": 3, "grid": 4}, ("data", "save", "transcript", "command"), {"write": 1, "read": 2,
        "readwrite": 3, "writeappend": 5}  # fmt: skip
    told = {"windows": [], "cleared": [], "text": {}, "rows": {}, "asked": [], "file": None, "ended": None}
    for one in update.get("windows", []):
        told["windows"].append((one["id"], kinds[one["type"]], one["left"], one["top"], one["width"], one["height"]))
        if one["type"] == "grid" and (one["gridwidth"], one["gridheight"]) != (one["width"], one["height"]):
            raise Otherwise(f"a grid's size isn't that of its rectangle: {one}")
    for one in update.get("content", []):
        if "lines" in one:
            if [line["line"] for line in one["lines"]] != list(range(len(one["lines"]))):
                raise Otherwise("a grid's lines aren't in order")
            rows = ["".join(span["text"] for span in line.get("content", [])) for line in one["lines"]]
            if rows:
                told["rows"][one["id"]] = rows
            continue
        if one.get("clear"):
            told["cleared"].append(one["id"])
        runs = []
        for at, paragraph in enumerate(one["text"]):
            if bool(paragraph.get("append")) != (at == 0 and not one.get("clear")):
                raise Otherwise(f"a paragraph goes on where it shouldn't, or the other way: {paragraph}")
            runs += [("", "\n")] * bool(at) + [(span["style"], span["text"]) for span in paragraph.get("content", [])]
        if runs:
            told["text"][one["id"]] = plain(runs)
    for one in update["input"]:
        told["asked"].append((one["id"], one["type"], *([one["maxlen"], one["initial"]] if one["type"] == "line" else [])))
    if "specialinput" in update:
        told["file"] = types.index(update["specialinput"]["filetype"]), modes[update["specialinput"]["filemode"]]
    told["ended"] = update.get("ended")
    return told


def want_same(what, update, show):
    got, wanted = told_by_update(update), told_by_show(show)
    for name in wanted:
        if got[name] != wanted[name]:
            raise Otherwise(f"{what}: {name} is {got[name]!r} in place of {wanted[name]!r}")
