#!/usr/bin/python3
"""What a gateway over many hosts does: its file of hosts, hosts that are full, gone, back, moved or that answer rubbish,
and two gateways behind haproxy.

    web/test_archive.py [PROGRAM]

Each file of hosts that is wrong must be refused with its line and what is wanted. Three hosts are begun: the first and the
second serve the Echo story, the third a container of it, which has its title in itself. Between them stand two gateways,
behind haproxy by docs/haproxy.cfg. Then hosts are filled, killed, started again, moved, and replaced by ones that answer
rubbish, while a player of another host goes on; a wrong file is read, and a right one. The units of docs/ are looked at by
`systemd-analyze verify`, where it is there. It ends with 1 where something is otherwise. Wants Debian's python3-aiohttp and
haproxy."""

import argparse
import asyncio
import contextlib
import pathlib
import shutil
import subprocess
import sys
import tempfile
import time

import aiohttp
import archives
import players
from hosts import Wrong, read_hosts, title_of
from players import PROGRAM, TOP, UNIT, Otherwise, Player
from test_gateway import StandIn, until_closed, want

from crash import echo_story  # of drills/, which players puts on the path

ECHO, BOX = "Echo", "A Box & a Lid"
NONE = "there is no such game"
KEY = "zKeyOfNobody9"
HOST = '[[host]]\nname = "a"\naddress = "127.0.0.1"\nport = 4000\nstories = ["x.ulx"]\n'
TITLES = '[titles]\n"x.ulx" = "X"\n'


# Files of hosts

def wrong_files():
    """Files that are wrong, each with what is told of it."""
    yield "", "line 1: at least one [[host]] is wanted"
    yield TITLES + HOST + "port = 4001\n", "line 8, column"
    yield TITLES + "[[host]\n", "line 3, column"
    yield TITLES + HOST.replace("4000", "70000"), "line 6: port is to be a number from 1 to 65535"
    yield TITLES + HOST.replace("4000", '"4000"'), "line 6: port is to be a number from 1 to 65535"
    yield TITLES + HOST.replace("port = 4000\n", ""), "line 3: port is to be a number from 1 to 65535"
    yield TITLES + HOST.replace('"a"', '"a/b"'), "line 4: name is to be 1 to 32 letters, digits, - and _"
    yield TITLES + HOST.replace('"127.0.0.1"', "127"), 'line 5: address is to be a text like "127.0.0.1"'
    yield TITLES + HOST + "\n" + HOST, "line 10: there is a host a before; each is to have a name of its own"
    yield TITLES + HOST + HOST.replace('"a"', '"b"') + "links = 17\n", "line 13: links is to be a number from 1 to 16"
    yield TITLES + HOST + "colour = 1\n", "line 8: a host has no colour; wanted are name, address, port, stories, and maybe links"
    yield "gateway = 1\n" + HOST, "line 1: there is no gateway; wanted are [[host]], for each host, and [titles]"
    yield TITLES + HOST.replace('["x.ulx"]', "[]"), "line 7: stories is to be a list of 1 to 64 names of files, in the order of the words of serve"
    yield TITLES + HOST.replace('["x.ulx"]', '["x.ulx", "d/x.ulx"]'), "line 7: a has two stories of the title X; each is to have a title of its own"
    yield HOST, 'line 5: x.ulx has no title that can be read: a line "x.ulx" = "A title" is wanted under [titles]'
    yield '[titles]\n"x.ulx" = 7\n' + HOST, 'line 1: [titles] is to have lines like "cottage.ulx" = "The Well House"'


def files(room):
    file, count = room / "wrong.toml", 0
    for text, told in wrong_files():
        file.write_text(text)
        try:
            read_hosts(file, 4)
        except Wrong as cause:
            if told not in str(cause) or not str(cause).startswith(str(file)):
                raise Otherwise(f"of {text!r} is told {cause}, and not {told}") from None
        else:
            raise Otherwise(f"{text!r} is taken")
        count += 1
    for bad in ("No title", b"\xff", None):
        file.unlink(missing_ok=True)
        if bad is not None:
            file.write_bytes(bad if isinstance(bad, bytes) else bad.encode())
        try:
            read_hosts(file, 4)
        except Wrong:
            count += 1
        else:
            raise Otherwise(f"{bad!r} is taken")
    want("the hosts of docs/hosts.toml", [host.name for host in read_hosts(TOP / "docs" / "hosts.toml", 4)], ["club", "school"])
    box = room / "box.gblorb"
    box.write_bytes(archives.blorb_of(echo_story(), "A Box &amp; a  Lid"))
    want("a container's title", title_of(box), BOX)
    for cut in (4, 20, 300):
        (room / "cut.gblorb").write_bytes(box.read_bytes()[:cut])
        file.write_text(HOST.replace("x.ulx", "cut.gblorb"))
        try:
            read_hosts(file, 4)
        except Wrong:
            count += 1
        else:
            raise Otherwise(f"a container that was cut at {cut} has a title")
    return count


def units(room, program):
    """The units of docs/, with the programs as they are here."""
    if not shutil.which("systemd-analyze"):
        return "systemd-analyze isn't here, so the units weren't looked at"
    for name, instance in (("storyhost@.service", "storyhost@club.service"),
                           ("storyhost-gateway@.service", "storyhost-gateway@8081.service")):  # fmt: skip
        text = (TOP / "docs" / name).read_text().replace("/usr/local/bin/storyhost", str(program))
        (room / instance).write_text(text)
        ran = subprocess.run(["systemd-analyze", "verify", str(room / instance)], capture_output=True, text=True)
        want(f"what systemd says of {name}", (ran.returncode, ran.stderr), (0, ""))
    return "systemd takes both units"


# The lobby

async def lobby_of(player, holds, what):
    """What the lobby says, once it says this."""
    end = time.monotonic() + 30
    while not holds(told := {one["title"]: (one["state"], one["free"]) for one in player.stories}):
        if time.monotonic() > end:
            raise Otherwise(f"{what}: the lobby says {told}")
        player.stories = (await player.read("menu"))["stories"]
    return told


async def begun(client, archive, title, address=None):
    """A player of a new game of this title."""
    player = Player(client, address or archive.address)
    await player.connect()
    player.update, player.moves, player.lines = await player.begin(title=title), 0, []
    return player


async def play(player, text):
    event = {"type": "line", "gen": player.update["gen"], "window": player.update["input"][0]["id"], "value": text}
    player.update = await player.give(event)
    player.lines.append(players.line_of(event))
    player.moves += 1


async def refusal(client, archive, **wanted):
    player = Player(client, archive.address)
    await player.connect()
    at = time.monotonic()
    await player.send({"type": "init", "gen": 0, "metrics": UNIT, **wanted})
    told = (await player.read("error"))["message"]
    await player.close()
    return told, time.monotonic() - at


async def strangers(client, archive, player):
    """Who has a key of another game, or none, learns nothing of what there is."""
    other = next(name for name in archive.hosts if not player.game.startswith(name))
    games = [(player.game, "k"), (f"{other}/0", player.key), ("nowhere/0", player.key), (f"{other}/64", player.key)]
    told = [await refusal(client, archive, resume={"game": game, "key": key}) for game, key in games]
    want("what is told of games of others", [text for text, _ in told], [NONE] * 4)
    if min(seconds for _, seconds in told) < 1:
        raise Otherwise(f"one of them is told sooner: {told}")
    text, _ = await refusal(client, archive, begin={"title": "Nothing", "seed": 1})
    want("a title of no host", text, "no host has this title")


async def fill(client, archive, player):
    """A host that is full is told as such; one game that ends makes room."""
    crowd = await asyncio.gather(*(begun(client, archive, BOX, archive.gateways[at % 2].address) for at in range(64)))
    want("the games of a host", {one.game for one in crowd}, {f"host3/{at}" for at in range(64)})
    looker = await looking(client, archive)
    await lobby_of(looker, lambda told: told[BOX] == ("full", 0) and told[ECHO][0] == "open", "a full host")
    told, _ = await refusal(client, archive, begin={"title": BOX, "seed": 1})
    want("a game of a full host", told, f"there is no room for a game of {BOX}: one has to be ended first")
    await crowd[5].send({"type": "close", "gen": crowd[5].update["gen"]})
    await crowd[5].read("closed")
    await lobby_of(looker, lambda told: told[BOX] == ("open", 1), "one game that ended")
    again = await begun(client, archive, BOX)
    want("the game that has room", again.game, crowd[5].game)
    await play(player, "while another host is full")
    for one in (*crowd[1:], again, looker):
        await one.close()
    return crowd[0]


async def looking(client, archive):
    looker = Player(client, archive.address)
    await looker.connect()
    return looker


async def gone(client, archive, player, of_gone):
    """A host that is gone is told as such, and hurts no other's players; its own wait until it's back."""
    archive.hosts["host3"].kill()
    looker = await looking(client, archive)
    await lobby_of(looker, lambda told: told[BOX] == ("away", 0) and told[ECHO][0] == "open", "a host that is gone")
    move = asyncio.create_task(play(of_gone, "while its host is gone"))
    waiting = await looking(client, archive)
    begin = asyncio.create_task(waiting.begin(title=BOX))
    for _ in range(5):
        at = time.monotonic()
        await play(player, "while another host is gone")
        if time.monotonic() - at > 1:
            raise Otherwise("a move waits for a host of others")
    await asyncio.sleep(2)
    want("whether a host that is gone answers", (move.done(), begin.done()), (False, False))
    await asyncio.to_thread(archive.hosts["host3"].start)
    await move
    want("how a player is told", [note.split(".")[0] for note in of_gone.notes],
         ["The host has stopped", "The host is there again; the game goes on"])  # fmt: skip
    want("how one is who begins", waiting.notes[0].split(".")[0], "The host has stopped")
    begin.cancel()
    await waiting.close()
    await lobby_of(looker, lambda told: told[BOX][0] == "full", "a host that is back")
    await looker.close()


async def moved(client, archive, player):
    """A host moves while a player plays there."""
    name = player.game.partition("/")[0]
    move = asyncio.create_task(asyncio.to_thread(archive.move, name))
    moves = 0
    while not move.done():
        await play(player, f"while the host moves {moves}")
        moves += 1
    await move
    await play(player, "at its new place")
    want("the number of moves", player.update["gen"], 1 + player.moves)


# Hosts that answer rubbish

LEFT_OUT = "is left out: what it answers isn't understood"
RUBBISH = [("words", b"HELLO\n" * 64, LEFT_OUT), ("otherSession", b"SHOW 99 0\n.\n" * 64, LEFT_OUT),
           ("noNumber", b"SHOW 0 x\n.\n" * 64, LEFT_OUT), ("noText", b"\xff\n" * 64, LEFT_OUT),
           ("noCause", b"NO\n" * 64, LEFT_OUT), ("otherCause", b"NO 99\n" * 64, LEFT_OUT), ("halfLine", b"x" * 100_000, "is waited for"),
           ("nothing", b"", "hasn't answered for 5 seconds")]  # fmt: skip


async def strange_host(name, said):
    """Begins a host that answers so; its part of a file of hosts."""

    async def answer(reader, writer):
        with contextlib.suppress(ConnectionError):
            await reader.readline()
            writer.write(said)
            if name != "halfLine":
                await reader.read(-1)
        writer.close()

    server = await asyncio.start_server(answer, "127.0.0.1", 0)
    return server, archives.part_of(name, server.sockets[0].getsockname()[1], ["s.ulx"])


async def rubbish(client, archive, player):
    """Hosts that answer so are left out, and told in the log."""
    begun_hosts = [await strange_host(name, said) for name, said, _ in RUBBISH]
    archive.write("".join(part for _, part in begun_hosts), {"s.ulx": "Strange"})
    archive.read_again()
    looker = await looking(client, archive)
    await lobby_of(looker, lambda told: told.get("Strange") == ("away", 0), "a title of strange hosts")
    for gateway in archive.gateways:
        for name, _, told in RUBBISH:
            await told_in_log(gateway, f"the host {name} {told}")
    await lobby_of(looker, lambda told: told.get("Strange") == ("away", 0), "a title of strange hosts")
    await play(player, "beside strange hosts")
    archive.write()
    archive.read_again()
    await lobby_of(looker, lambda told: "Strange" not in told, "hosts that aren't told any more")
    await looker.close()
    for server, _ in begun_hosts:
        server.close()


async def told_in_log(gateway, text):
    """Waits until a gateway has said this, in a line of its own."""
    end = time.monotonic() + 20
    while f"gateway: {text}\n" not in gateway.said():
        if time.monotonic() > end:
            raise Otherwise(f"a gateway says {gateway.said()!r}, and not {text!r}")
        await asyncio.sleep(0.05)


class Counted(StandIn):
    """A host that counts the links over which it was given moves."""

    def __init__(self):
        super().__init__()
        self.links = set()

    def heard(self, link, line):
        if line.startswith(b"LINE"):
            self.links.add(link)


async def read_again(client, archive, player):
    """A file that is wrong leaves all as it was; one that is right is taken, and no link is lost."""
    host = Counted()
    archive.write(archives.part_of("counted", await host.start(), ["c.ulx"], "links = 1\n"), {"c.ulx": "Counted"})
    archive.read_again()
    looker = await looking(client, archive)
    await lobby_of(looker, lambda told: told.get("Counted") == ("open", 64), "a host that was added")
    of_counted = await begun(client, archive, "Counted", archive.gateways[0].address)
    for at in range(5):
        await play(of_counted, f"move {at}")
        archive.read_again()
        await asyncio.sleep(0.1)
    want("the links over which moves came", len(host.links), 1)
    archive.write("port = \n")
    archive.read_again()
    line = archive.file.read_text().count("\n")
    for gateway in archive.gateways:
        await told_in_log(gateway, f"{archive.file}: Invalid value (at line {line}, column 8); the hosts stay as they were")
    await play(of_counted, "behind a wrong file")
    archive.write()
    archive.read_again()
    want("what comes of a game whose host isn't told any more", await until_closed(of_counted), [])
    told, _ = await refusal(client, archive, resume={"game": of_counted.game, "key": of_counted.key})
    want("what is told of it", told, NONE)
    await play(player, "behind that")
    await looker.close()
    host.server.close()


async def broken(client, archive):
    """A display whose connection breaks as its game begins finds that game, and begins no second one."""
    looker = await looking(client, archive)
    before = (await lobby_of(looker, lambda told: told[ECHO][0] == "open", "room"))[ECHO][1]
    for at in range(8):
        player = await looking(client, archive)
        await player.send({"type": "init", "gen": 0, "metrics": UNIT, "begin": {"title": ECHO, "seed": 9}})
        told = await player.read("begins")
        await asyncio.sleep(at * 0.002)
        player.socket._writer.transport.abort()
        again = await looking(client, archive)
        again.update = await again.init(begin={"title": ECHO, "seed": 9, "game": told["game"], "key": told["key"]})
        want("the game found again", (again.game, again.update["gen"]), (told["game"], 1))
        await again.close()
    await asyncio.sleep(1)
    archive.read_again()
    await lobby_of(looker, lambda told: told[ECHO][1] == before - 8, "eight games that were begun twice")
    await looker.close()


async def run(asked, room):
    count, units_said = files(room), units(room, asked.program)
    story = room / "echo.ulx"
    story.write_bytes(echo_story())
    archive = archives.Archive(room, 2, {story: ECHO}, program=asked.program, words=("--rate", "100000"))
    archive.add("host3", {room / "box.gblorb": None})
    try:
        async with aiohttp.ClientSession(connector=aiohttp.TCPConnector(limit=0)) as client:
            player = await begun(client, archive, ECHO)
            want("a key of the gateway's", (len(player.key), player.key.isalnum()), (32, True))
            looker = await looking(client, archive)
            told = await lobby_of(looker, lambda told: BOX in told and told[ECHO] == ("open", 127), "three hosts")
            want("a lobby", told, {ECHO: ("open", 127), BOX: ("open", 64)})
            await strangers(client, archive, player)
            of_full = await fill(client, archive, player)
            await gone(client, archive, player, of_full)
            await broken(client, archive)
            await moved(client, archive, player)
            await rubbish(client, archive, player)
            await read_again(client, archive, player)
            want("the moves of a player beside all that", player.update["gen"], 1 + player.moves)
    finally:
        said = archive.kill()
    if player.key in said or of_full.key in said or "Error" in said:
        raise Otherwise(f"the gateways say {said!r}")
    shows = players.shows_of_run(story, player.lines, asked.program)
    players.want_same("the last move", player.update, shows[-1])
    print(f"test_archive: {count} files of hosts were refused as they should be; {units_said}; hosts that were full, gone, back, "
          f"moved and strange, and files read again, hurt nobody else: {player.moves} moves beside them; no game was begun twice")


def main():
    words = argparse.ArgumentParser(usage=__doc__)
    words.add_argument("program", nargs="?", default=PROGRAM, type=pathlib.Path)
    asked = words.parse_args()
    asked.program = asked.program.resolve()
    with tempfile.TemporaryDirectory(prefix="archive-") as room:
        try:
            asyncio.run(run(asked, pathlib.Path(room)))
        except (Otherwise, ConnectionError, asyncio.TimeoutError, subprocess.TimeoutExpired) as cause:
            print(f"test_archive: {cause!r}")
            return 1
    return 0


if __name__ == "__main__":
    sys.exit(main())
