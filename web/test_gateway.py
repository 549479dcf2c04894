#!/usr/bin/python3
"""What the gateway does for many players, and with what is bad.

    web/test_gateway.py [PROGRAM] [--players N] [--moves N]

So many players, 64 unless told otherwise, play The Well House by script over four links, by the moves of
stories/cottage.moves or the first N of them: every update must be what `run` shows. Then bad messages, each
behind and before a look at the game, which must be as it was; browsers that vanish or read nothing; pages of
elsewhere; spectators, and displays that come back. Screen sizes are tried on a host of this script's own, since the
program answers `NO 1` to their lines: and that is tried too. It ends with 1 where something is otherwise. Wants
Debian's python3-aiohttp."""

import argparse
import asyncio
import contextlib
import hashlib
import json
import pathlib
import socket
import subprocess
import sys
import tempfile

import aiohttp
import players
from players import COTTAGE, PROGRAM, TOP, UNIT, Otherwise, Player, read_moves

KEY = "zKeyOfNobody9"


def want(what, got, wanted):
    if got != wanted:
        raise Otherwise(f"{what}: {got!r} in place of {wanted!r}")


async def connected(client, gateway):
    player = Player(client, gateway.address)
    await player.connect()
    return player


async def until_closed(player):
    """What comes until the socket is closed, but for what tells of the lobby."""
    got = []
    while True:
        message = await player.receive()
        if message.type != aiohttp.WSMsgType.TEXT:
            return [told for told in got if told["type"] != "menu"]
        got.append(json.loads(message.data))


# Many players

async def play_alone(client, gateway, number, moves):
    player = await connected(client, gateway)
    updates, lines = [await player.begin(f"{KEY}{number}")], []
    for move in moves:
        event = players.event_of(updates[-1], move)
        lines.append(players.line_of(event))
        updates.append(await player.give(event))
    await player.close()
    return updates, lines, player.game


async def many(client, gateway, count, moves, program):
    played = await asyncio.gather(*(play_alone(client, gateway, number, moves) for number in range(count)))
    want("how many games there are", len({game for _, _, game in played}), count)
    shows = players.shows_of_run(COTTAGE, played[0][1], program)
    for updates, lines, game in played:
        want(f"the moves of {game}", lines, played[0][1])
        want(f"the updates of {game}", len(updates), len(shows))
        for n, (update, show) in enumerate(zip(updates, shows)):
            want("the number", update["gen"], n + 1)
            players.want_same(f"{game}, move {n}", update, show)
    return len(shows) * count


# Bad messages

def bad_messages(gen, window):
    """Messages that change nothing, each with what it is."""
    line = {"type": "line", "gen": gen, "window": window, "value": "look"}
    yield "broken JSON", '{"type":"line",'
    yield "no object", "[1,2]"
    yield "very deep JSON", "[" * 16000
    yield "no type", "{}"
    yield "another type", json.dumps({"type": "shutdown", "gen": gen})
    yield "an event of before", json.dumps({**line, "gen": gen - 1, "value": "wait"})
    yield "an event of long before", json.dumps({**line, "gen": 0})
    yield "an event of later", json.dumps({**line, "gen": gen + 1})
    yield "a number that is none", json.dumps({**line, "gen": "1"})
    yield "a number with a sign", json.dumps({**line, "gen": -1})
    yield "a number past 32 bits", json.dumps({**line, "gen": 2**32})
    yield "true in place of a number", json.dumps({**line, "gen": True})
    yield "a text of 2,000 characters", json.dumps({**line, "value": "a" * 2000})
    yield "a text too long for a line", json.dumps({**line, "value": "é" * 1000})
    yield "a control character", json.dumps({**line, "value": "look\x07"})
    yield "a line feed", json.dumps({**line, "value": "look\nCLOSE 0 k 1"})
    yield "half a pair of UTF-16", '{"type":"line","gen":%d,"window":%d,"value":"\\ud800"}' % (gen, window)
    yield "a number as text", json.dumps({**line, "value": 7})
    yield "a window that isn't there", json.dumps({**line, "window": 99})
    yield "a window past 32 bits", json.dumps({**line, "window": 2**33})
    yield "a terminator that isn't one", json.dumps({**line, "terminator": "f13"})
    yield "a terminator that isn't asked for", json.dumps({**line, "terminator": "func1"})
    yield "a key in place of a line", json.dumps({"type": "char", "gen": gen, "window": window, "value": "a"})
    yield "two characters as a key", json.dumps({"type": "char", "gen": gen, "window": window, "value": "ab"})
    yield "a file's name without a prompt", json.dumps({"type": "specialresponse", "gen": gen, "response": "fileref_prompt",
                                                        "value": "x"})  # fmt: skip
    yield "another response", json.dumps({"type": "specialresponse", "gen": gen, "response": "x", "value": "x"})
    yield "a measure that is none", json.dumps({"type": "arrange", "gen": gen, "metrics": {"width": "wide"}})
    yield "a measure without end", '{"type":"arrange","gen":%d,"metrics":{"width":1e999}}' % gen
    yield "init again", json.dumps({"type": "init", "gen": 0, "metrics": UNIT, "resume": {"game": "host/1", "key": "k"}})
    yield "CLOSE of another number", json.dumps({"type": "close", "gen": gen + 5})


async def bad(client, gateway, program):
    player = await connected(client, gateway)
    first = await player.begin(KEY)
    session = {"game": player.game, "key": KEY}
    update = await player.give({"type": "line", "gen": 1, "window": first["input"][0]["id"], "value": "look"})
    window, count = update["input"][0]["id"], 0
    for what, text in bad_messages(update["gen"], window):
        await player.socket.send_str(text)
        told = await player.read("error")
        if not told["message"]:
            raise Otherwise(f"{what}: an error without words")
        await player.send({"type": "refresh"})
        want(f"the game behind {what}", await player.read("update"), update)
        count += 1
    await player.socket.send_bytes(b"\0\1\2")
    await player.read("error")
    want("the same event again", await player.give({"type": "line", "gen": 1, "window": window, "value": "look"}), update)
    await player.send({"type": "line", "gen": update["gen"], "window": window, "value": "x" * 20000})
    want("a message of 20,000 bytes", await until_closed(player), [])

    none, title = "there is no such game", player.stories[0]["title"]
    for what, wanted, told in (
            ("another key", {"resume": {**session, "key": "other"}}, none),
            ("a session that isn't there", {"resume": {"game": "host/64", "key": "k"}}, none),
            ("a host that isn't there", {"resume": {**session, "game": "elsewhere/0"}}, none),
            ("a name that is none", {"resume": {**session, "game": "host/0/0"}}, none),
            ("a session as a number", {"resume": {**session, "game": 0}}, "game is to be a text"),
            ("a key with a space", {"resume": {**session, "key": "a b"}}, "a key has 1 to 32 letters and digits"),
            ("a title that isn't there", {"begin": {"title": "No such", "seed": 1}}, "no host has this title"),
            ("a seed that is none", {"begin": {"title": title, "seed": 1.5}}, f"seed is to be a number from 0 to {2**64 - 1}"),
            ("nothing wanted", {}, "init is to say what it begins, resumes or watches")):  # fmt: skip
        other = await connected(client, gateway)
        await other.send({"type": "init", "gen": 0, "metrics": UNIT, **wanted})
        want(f"the answer to {what}", (await other.read("error"))["message"], told)
        await other.send({"type": "line", "gen": 1, "window": 1, "value": "look"})
        want(f"a line behind {what}", (await other.read("error"))["message"], "init comes first")
        await other.close()
        count += 1

    updates = [first, update]
    await flood(client, gateway, session, updates)
    await vanish(client, gateway, session, updates, window)
    await deaf(client, gateway, session, updates)
    return count + 5


def text_of(*updates):
    """What each buffer was given in these updates, one behind the other."""
    text = {}
    for update in updates:
        for part in update["content"]:
            if "text" in part:
                words = "\n".join("".join(span["text"] for span in line.get("content", [])) for line in part["text"])
                text[part["id"]] = ("" if part.get("clear") else text.get(part["id"], "")) + words
    return text


def want_back(what, got, *updates):
    """What a new display of a game is given: the last of these updates, and in buffers the text of all."""
    grids, *wanted = ([part for part in one["content"] if "lines" in part] for one in (got, updates[-1]))
    want(f"{what}: its grids", [grids], wanted)
    want(f"{what}: its text", text_of(got), text_of(*updates))
    want(what, {**got, "content": None}, {**updates[-1], "content": None})


async def want_game(client, gateway, session, what, updates):
    player = await connected(client, gateway)
    want_back(f"the game behind {what}", await player.init(resume=session), *updates)
    return player


async def flood(client, gateway, session, updates):
    """10,000 messages at once."""
    player = await want_game(client, gateway, session, "bad messages", updates)
    sent = 0
    while sent < 10000 and not player.socket._writer.transport.is_closing():
        with contextlib.suppress(ConnectionError):
            await player.send({"type": "line", "gen": 99, "window": 1, "value": "look"})
        sent += 1
    try:
        got = await until_closed(player)
    except ConnectionError:
        got = []
    if any(message["type"] == "update" for message in got):
        raise Otherwise("one of 10,000 messages of a wrong number was taken")


async def vanish(client, gateway, session, updates, window):
    """A browser that is gone in the middle: its move was kept once, or not."""
    player, gen = await want_game(client, gateway, session, "10,000 messages", updates), updates[-1]["gen"]
    move = {"type": "line", "gen": gen, "window": window, "value": "examine bench"}
    await player.send(move)
    player.socket._writer.transport.abort()
    player = await connected(client, gateway)
    now = await player.init(resume=session)
    if now["gen"] == gen:
        now = await player.give(move)
    want("the number behind a browser that vanished", now["gen"], gen + 1)
    await player.send({"type": "refresh"})
    updates.append(await player.read("update"))
    await player.close()


async def deaf(client, gateway, session, updates):
    """A browser that asks on and on and reads nothing holds nobody up."""
    link = socket.socket()
    link.setsockopt(socket.SOL_SOCKET, socket.SO_RCVBUF, 4096)
    link.setblocking(False)
    await asyncio.get_running_loop().sock_connect(link, ("127.0.0.1", gateway.port))
    _, writer = await asyncio.open_connection(sock=link)
    writer.write((f"GET /socket HTTP/1.1\r\nHost: x\r\nOrigin: {gateway.address}\r\nUpgrade: websocket\r\nConnection: Upgrade"
                  "\r\nSec-WebSocket-Version: 13\r\nSec-WebSocket-Key: AAAAAAAAAAAAAAAAAAAAAA==\r\n\r\n").encode())  # fmt: skip
    writer.transport.pause_reading()

    def framed(message):
        text = json.dumps(message).encode()
        return b"\x81" + bytes([0x80 | 126, len(text) >> 8, len(text) & 255]) + b"\0\0\0\0" + text

    writer.write(framed({"type": "init", "gen": 0, "metrics": UNIT, "resume": session, "filled": "x" * 200}))
    for _ in range(200):
        if not writer.transport.is_closing():
            writer.write(framed({"type": "refresh", "filled": "x" * 200}) * 4)
        await asyncio.sleep(0.01)
    player = await asyncio.wait_for(want_game(client, gateway, session, "a browser that reads nothing", updates), 10)
    await player.close()
    writer.transport.abort()


async def restart(client, gateway, host):
    """A host that is killed is waited for, and the player is told; the move is kept once."""
    player = await connected(client, gateway)
    update = await player.begin(KEY + "r")
    host.kill()
    event = {"type": "line", "gen": 1, "window": update["input"][0]["id"], "value": "take rosemary"}
    answer = asyncio.create_task(player.give(event))
    await asyncio.sleep(2)
    want("whether a move is answered without a host", answer.done(), False)
    await asyncio.to_thread(host.start)
    shows = players.shows_of_run(COTTAGE, [players.line_of(event)], host.program)
    players.want_same("the move given to a host that was away", await answer, shows[1])
    want("how often the player was told", [note.split(".")[0] for note in player.notes],
         ["The host has stopped", "The host is there again; the game goes on"])  # fmt: skip
    await player.close()


async def pages(client, gateway):
    """Pages of elsewhere are refused; files that aren't the page's aren't given."""
    for origin in (None, "http://evil.example", "null", f"http://127.0.0.1:{gateway.port + 1}", f"https://127.0.0.1:{gateway.port}"):
        try:
            await client.ws_connect(gateway.address + "/socket", origin=origin)
        except aiohttp.WSServerHandshakeError as cause:
            want(f"a page of {origin}", cause.status, 403)
        else:
            raise Otherwise(f"a page of {origin} is let in")
    for name, status in (("", 200), ("page.js", 200), ("page.css", 200), ("icon.svg", 200), ("gateway.py", 404),
                         ("..%2fREADME.md", 404), ("socket/x", 404)):  # fmt: skip
        async with client.get(f"{gateway.address}/{name}") as answer:
            want(f"/{name}", answer.status, status)
            if status == 200 and "default-src 'none'" not in answer.headers["Content-Security-Policy"]:
                raise Otherwise(f"/{name} has no policy")
    crowd = []
    try:
        for _ in range(gateway.most + 1):
            crowd.append(await client.ws_connect(gateway.address + "/socket", origin=gateway.address))
        raise Otherwise(f"{gateway.most} more browsers than may be are let in")
    except aiohttp.WSServerHandshakeError as cause:
        want("one browser too many", cause.status, 503)
    for one in crowd:
        await one.close()


# Sizes and spectators, before a stand-in

class StandIn:
    """A host of one story, which prints what it was given and its size. It knows the line WATCH, and SIZE unless told
    otherwise."""

    def __init__(self, knows_size=True):
        self.games, self.knows_size, self.sizes = {}, knows_size, 0

    async def start(self):
        self.server = await asyncio.start_server(self.serve, "127.0.0.1", 0)
        return self.server.sockets[0].getsockname()[1]

    async def serve(self, reader, writer):
        with contextlib.suppress(ConnectionError):
            while line := await reader.readline():
                self.heard(writer, line)
                writer.write(self.answer(line.decode().rstrip("\n")).encode())
                await writer.drain()
        writer.close()

    def heard(self, link, line):
        """A link has given a line."""

    def answer(self, line):
        word, s, key, *rest = line.split(" ")
        game = self.games.get(s)
        self.sizes += word == "SIZE"
        if word == "SIZE" and not self.knows_size:
            return "NO 1\n"
        if word == "OPEN":
            if game and game["line"] != line:
                return "NO 3\n"
            if rest[0] != "0":
                return "NO 4\n"
            shows = [self.show(int(rest[2]), int(rest[3]), "begun")]
            self.games[s] = {"line": line, "key": key, "lines": [line], "shows": shows, "size": rest[2:4]}
            return self.told(s, 0)
        if word == "WATCH":
            if not game or hashlib.sha256(game["key"].encode()).hexdigest()[:16] != key:
                return "NO 2\n"
            first, last = int(rest[0]), len(game["shows"]) - 1
            if first > last:
                return f"NO 5 {last}\n"
            last = min(last, first + 7)
            return f"SEEN {s} {first} {last}\n" + "".join(self.told(s, m) for m in range(first, last + 1))
        if not game or game["key"] != key:
            return "NO 2\n"
        if word == "LAST":
            return self.told(s, len(game["shows"]) - 1)
        n, count = int(rest[0]), len(game["shows"]) - 1
        if n < count:
            return f"NO 6 {count}\n"
        if n == count:
            return self.told(s, n) if game["lines"][-1] == line else "NO 7\n"
        if n > count + 1:
            return f"NO 5 {count}\n"
        if word == "SIZE":
            game["size"] = rest[1:]
        text = f"{word} {rest[-1].lstrip('=') if word == 'LINE' else ''}"
        game["lines"].append(line)
        game["shows"].append(self.show(*map(int, game["size"]), text))
        return self.told(s, n)

    def told(self, s, n):
        return f"SHOW {s} {n}\n{self.games[s]['shows'][n]}.\n"

    def show(self, columns, rows, text):
        return (f"W 1 3 0 1 {columns} {rows - 1}\nW 2 4 0 0 {columns} 1\nT 1 0 ={text.replace(' ', '%20')}%0A>\n"
                f"G 2 0 ={'x' * columns}\nI 1 line 20 =\n")  # fmt: skip


def size_of(update):
    return [(one["gridwidth"], one["gridheight"]) for one in update["windows"] if one["type"] == "grid"][0]


def places_in(update):
    return [(one["left"], one["top"], one["width"], one["height"]) for one in update["windows"]]


async def sizes(client):
    """A display that changes its size, on a host that knows SIZE."""
    host = StandIn()
    gateway = players.Gateway(await host.start())
    try:
        player = await connected(client, gateway)
        first = await player.begin("k")
        want("the first size", size_of(first), (80, 1))
        small = {"width": 401, "height": 300, "gridcharwidth": 10, "gridcharheight": 20, "gridmarginx": 1, "gridmarginy": 20}
        now = await player.give({"type": "arrange", "gen": 1, "metrics": small})
        want("the update of a size", (now["gen"], size_of(now)), (2, (40, 1)))
        want("where its windows are", places_in(now), [(0, 40, 401, 260), (0, 0, 401, 40)])
        want("since when the line is asked for", now["input"][0]["gen"], 1)
        again = await player.give({"type": "arrange", "gen": 2, "metrics": small})
        want("the same size again", (again["gen"], "content" in again), (2, False))
        late = await player.give({"type": "arrange", "gen": 1, "metrics": UNIT})
        want("a size that comes late", (late["gen"], "content" in late), (2, False))
        moved = await player.give({"type": "line", "gen": 2, "window": 1, "value": "go"})
        want("a move behind a size", (moved["gen"], moved["input"][0]["gen"]), (3, 3))
        other = await connected(client, gateway)
        want("a second display", (await other.init(resume={"game": player.game, "key": "k"}))["gen"], 3)
        want("its size", size_of(await other.read("update")), (80, 1))
        want("the moves of the session", [line.split(" ")[0] for line in host.games[player.game[5:]]["lines"]], ["OPEN", "SIZE", "LINE", "SIZE"])
        await other.close()
        back = await connected(client, gateway)
        back.gen = 4
        want("a display that comes back", (await back.init(resume={"game": player.game, "key": "k"}))["gen"], 4)
    finally:
        gateway.kill()
        host.server.close()


async def no_sizes(client):
    """The same on a host of before: it is asked once, and its games keep their screen."""
    host = StandIn(knows_size=False)
    gateway = players.Gateway(await host.start())
    try:
        player = await connected(client, gateway)
        await player.begin("k")
        for width in (400, 500):
            metrics = {"width": width, "height": 240, "charwidth": 10, "charheight": 20}
            now = await player.give({"type": "arrange", "gen": 1, "metrics": metrics})
            want("a size on a host of before", (now["gen"], size_of(now), "content" in now), (1, (80, 1), False))
            want("where its windows are", places_in(now), [(0, 10, width, 230), (0, 0, width, 10)])
        moved = await player.give({"type": "line", "gen": 1, "window": 1, "value": "go"})
        want("a move behind it", (moved["gen"], size_of(moved), host.sizes), (2, (80, 1), 1))
    finally:
        gateway.kill()
        host.server.close()


async def spectators(client):
    """Spectators on a host that knows WATCH: the last eight shows, and each that comes."""
    host = StandIn()
    gateway = players.Gateway(await host.start(), "--rate", "1000")
    try:
        player = await connected(client, gateway)
        update = await player.begin("k")
        updates = [update]
        for n in range(12):
            updates.append(await player.give({"type": "line", "gen": n + 1, "window": 1, "value": f"move {n}"}))
        watched = {"watch": {"game": player.game, "word": player.word}}
        crowd = [await connected(client, gateway) for _ in range(20)]
        for one in crowd:
            want("the oldest show of a spectator", (await one.init(**watched))["gen"], 6)
            for wanted in updates[6:]:
                got = await one.read("update")
                want("a show of a spectator", (got["gen"], got["content"], got["input"], got["disable"]),
                     (wanted["gen"], wanted["content"], [], True))  # fmt: skip
        await crowd[0].send({"type": "line", "gen": 13, "window": 1, "value": "x"})
        want("a spectator's move", (await crowd[0].read("error"))["message"], "a spectator only looks")
        updates.append(await player.give({"type": "line", "gen": 13, "window": 1, "value": "last"}))
        for one in crowd:
            want("the newest show", (await one.read("update"))["gen"], 14)
        wrong = await connected(client, gateway)
        await wrong.send({"type": "init", "gen": 0, "metrics": UNIT, "watch": {"game": player.game, "word": "0" * 16}})
        want("another word", [message["type"] for message in await until_closed(wrong)], ["error"])
    finally:
        gateway.kill()
        host.server.close()


async def known(client, gateway):
    """On the host itself a display of other sizes, also where a file's name is waited for; one that comes back, and a
    spectator."""
    player = await connected(client, gateway)
    updates = [await player.begin(KEY + "s")]
    updates.append(await player.give(players.arrange_of(1, 40, 12)))
    want("a size", (updates[1]["gen"], size_of(updates[1])), (2, (40, 1)))
    window = updates[0]["input"][0]["id"]
    want("the line that is asked for", (updates[1]["input"][0]["id"], updates[1]["input"][0]["gen"]), (window, 1))
    for text in ("look", "save"):
        updates.append(await player.give({"type": "line", "gen": updates[-1]["gen"], "window": window, "value": text}))
    now = await player.give(players.arrange_of(4, 60, 20))
    want("a size at a prompt", (now["gen"], "content" in now), (4, False))
    updates.append(await player.give({"type": "specialresponse", "gen": 4, "response": "fileref_prompt", "value": "first"}))
    updates.append(await player.give(players.arrange_of(5, 60, 20)))
    want("a size behind it", (updates[-1]["gen"], size_of(updates[-1])), (6, (60, 1)))
    for gen in range(6, 16):
        now = await player.give(players.arrange_of(gen, 60 + gen, 20))
        want("many sizes", (now["gen"], size_of(now)), (gen + 1, (60 + gen, 1)))
        updates.append(now)
    updates.append(await player.give({"type": "line", "gen": 16, "window": window, "value": "inventory"}))
    other = await connected(client, gateway)
    back = await other.init(resume={"game": player.game, "key": KEY + "s"})
    want("the number of a display that is new", back["gen"], updates[-1]["gen"])
    want("the text of a display that is new", text_of(back), text_of(*updates))
    spectator = await connected(client, gateway)
    await spectator.send({"type": "init", "gen": 0, "metrics": UNIT, "watch": {"game": player.game, "word": player.word}})
    for wanted in updates:
        got = await spectator.read("update")
        want("what a spectator sees", (got["gen"], got["content"]), (wanted["gen"], wanted["content"]))
    return "sizes of a display came to its story, and a spectator saw the same"


async def run(asked, room):
    moves = read_moves(TOP / "stories" / "cottage.moves")[: asked.moves]
    host = players.Host(room / "d", [COTTAGE], 4, asked.program)
    other = players.Host(room / "e", [COTTAGE], 4, asked.program)
    many_words = ("--rate", "100000", "--story", "The Well House")
    gateway, guarded = players.Gateway(host.port, *many_words), players.Gateway(other.port, "--players", "20", "--rate", "1000")
    guarded.most = 20
    try:
        async with aiohttp.ClientSession(connector=aiohttp.TCPConnector(limit=0)) as client:
            shows = await many(client, gateway, asked.players, moves, asked.program)
            count = await bad(client, guarded, asked.program)
            await restart(client, guarded, other)
            await pages(client, guarded)
            await sizes(client)
            await no_sizes(client)
            await spectators(client)
            said_known = await known(client, guarded)
    finally:
        memory = gateway.memory()
        host.kill()
        other.kill()
        said = gateway.kill() + guarded.kill()
    if KEY in said or "Error" in said:
        raise Otherwise(f"the gateways say {said!r}")
    print(f"test_gateway: {shows} updates of {asked.players} players over four links, as by `run`; {memory:.0f} MiB at most; {count} "
          f"bad things changed no game; {said_known}")  # fmt: skip


def main():
    words = argparse.ArgumentParser(usage=__doc__)
    words.add_argument("program", nargs="?", default=PROGRAM)
    words.add_argument("--players", type=int, default=64)
    words.add_argument("--moves", type=int)
    asked = words.parse_args()
    with tempfile.TemporaryDirectory(prefix="gateway-") as room:
        try:
            asyncio.run(run(asked, pathlib.Path(room)))
        except (Otherwise, ConnectionError, asyncio.TimeoutError, subprocess.TimeoutExpired) as cause:
            print(f"test_gateway: {cause!r}")
            return 1
    return 0


if __name__ == "__main__":
    sys.exit(main())
