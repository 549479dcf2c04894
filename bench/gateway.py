#!/usr/bin/python3
"""What the gateway costs: a move's time in a browser beside that of a bare client, and its memory.

    bench/gateway.py [ROUNDS] [--seconds N] [--room FOLDER] [--program PROGRAM]

A host of four workers and The Well House. 64 players give a move each second or so, at moments drawn from a
seed: over WebSocket through the gateway and its four links; and, in turns with that, the same moves at the same
moments over four bare links, each with 16 of the sessions. A move's time is from its moment to the last byte of
its answer. Also one bare client that gives one move behind the other, alone on the host, and all 64 players
without pauses, both ways. The host's folder is in FOLDER, or where temporary files are: a move waits for two
syncs of that disk."""

import argparse
import asyncio
import os
import pathlib
import random
import statistics
import sys
import tempfile
import time

TOP = pathlib.Path(__file__).resolve().parent.parent
sys.path.append(str(TOP / "web"))

import aiohttp  # noqa: E402
import players  # noqa: E402

MOVES = ("look", "examine bench", "inventory", "n", "look", "s", "wait", "e", "w")
SESSIONS, LINKS = 64, 4
A_SECOND, NONE = (0.5, 1.5), (0, 0)     # seconds between two moves of a player


class Bare:
    """A session over a bare link, which others share."""

    def __init__(self, number, link):
        self.number, self.link, self.n = number, link, 0

    async def open(self):
        await self.link.ask(f"OPEN {self.number} k{self.number} 0 1 80 24")

    async def give(self, text):
        self.n += 1
        await self.link.ask(f"LINE {self.number} k{self.number} {self.n} 1 ={text.replace(' ', '%20')}")


class Link:
    def __init__(self, port):
        self.port, self.turn = port, asyncio.Lock()

    async def begin(self):
        self.reader, self.writer = await asyncio.open_connection("127.0.0.1", self.port)

    async def ask(self, line):
        async with self.turn:
            self.writer.write(line.encode() + b"\n")
            head = await self.reader.readline()
            if not head.startswith(b"SHOW"):
                raise SystemExit(f"bench: {line}: {head!r}")
            while await self.reader.readline() != b".\n":
                pass


class Browser:
    """A session through the gateway."""

    def __init__(self, number, client, gateway):
        self.number, self.display = number, players.Player(client, gateway.address)

    async def open(self):
        await self.display.connect()
        self.update = await self.display.begin(f"k{self.number}")

    async def give(self, text):
        window = self.update["input"][0]["id"]
        self.update = await self.display.give({"type": "line", "gen": self.update["gen"], "window": window, "value": text})


async def played(number, player, seconds, pause, start):
    """The times of one player's moves; a pause between two of them is drawn from the two numbers of `pause`."""
    draw, spent, due, at = random.Random(number), [], start, 0
    while True:
        due = max(due + draw.uniform(*pause), time.perf_counter() if not any(pause) else 0)
        if due - start > seconds:
            return spent
        await asyncio.sleep(due - time.perf_counter())
        await player.give(MOVES[at % len(MOVES)])
        at += 1
        spent.append(time.perf_counter() - due)


async def begun(all_players, at_once=1):
    """All of them, once they have begun their games, so many at once."""
    for first in range(0, len(all_players), at_once):
        await asyncio.gather(*(player.open() for player in all_players[first : first + at_once]))
    return all_players


async def crowd(all_players, seconds, pause):
    """The times of all players' moves."""
    start = time.perf_counter()
    times = await asyncio.gather(*(played(n, player, seconds, pause, start) for n, player in enumerate(all_players)))
    return [spent for some in times for spent in some]


async def by_links(asked, room, pause, count=SESSIONS):
    host = players.Host(room / "d", [players.COTTAGE], LINKS, asked.program)
    links = [Link(host.port) for _ in range(min(LINKS, count))]
    for link in links:
        await link.begin()
    all_players = await begun([Bare(n, links[n % len(links)]) for n in range(count)])
    times = await crowd(all_players, asked.seconds, pause)
    for link in links:
        link.writer.close()
    host.kill()
    return times


async def by_browsers(asked, room, pause):
    host = players.Host(room / "d", [players.COTTAGE], LINKS, asked.program)
    gateway = players.Gateway(host.port, "--rate", "100000")
    async with aiohttp.ClientSession(connector=aiohttp.TCPConnector(limit=0)) as client:
        before = spent_by(gateway)
        all_players = await begun([Browser(n, client, gateway) for n in range(SESSIONS)])
        times = await crowd(all_players, asked.seconds, pause)
        memory, spent = gateway.memory(), spent_by(gateway) - before
    gateway.kill()
    host.kill()
    return times, memory, 1000 * spent / (len(times) + SESSIONS)


def spent_by(program):
    """The processor seconds of a program."""
    fields = pathlib.Path(f"/proc/{program.process.pid}/stat").read_text().rpartition(")")[2].split()
    return (int(fields[11]) + int(fields[12])) / os.sysconf("SC_CLK_TCK")


def told(name, times, seconds):
    times = sorted(1000 * spent for spent in times)
    print(f"{name}: median {statistics.median(times):.1f} ms, 99 of 100 within {times[len(times) * 99 // 100]:.1f} ms, all within "
          f"{times[-1]:.0f} ms, {len(times) / seconds:.0f} moves a second", flush=True)  # fmt: skip
    return statistics.median(times)


def main():
    words = argparse.ArgumentParser(usage=__doc__)
    words.add_argument("rounds", type=int, nargs="?", default=3)
    words.add_argument("--seconds", type=float, default=10)
    words.add_argument("--room", type=pathlib.Path)
    words.add_argument("--program", default=players.PROGRAM)
    asked = words.parse_args()

    def run(way, *more):
        with tempfile.TemporaryDirectory(prefix="gateway-", dir=asked.room) as room:
            return asyncio.run(way(asked, pathlib.Path(room), *more))

    ratios, most = [], 0
    for _ in range(asked.rounds):
        told("one bare client alone, one move behind the other", run(by_links, NONE, 1), asked.seconds)
        bare = told("64 sessions by four bare links, a move a second each", run(by_links, A_SECOND), asked.seconds)
        times, memory, _ = run(by_browsers, A_SECOND)
        ratios.append(told("64 players by the gateway, the same moves", times, asked.seconds) / bare)
        most = max(most, memory)
    told("64 sessions by four bare links, without pauses", run(by_links, NONE), asked.seconds)
    times, memory, spent = run(by_browsers, NONE)
    told("64 players by the gateway, without pauses", times, asked.seconds)
    print(f"the gateway's median beside that of bare links: {' '.join(f'{ratio:.2f}' for ratio in ratios)} times; its memory at "
          f"most {max(most, memory):.0f} MiB; its processor time {spent:.2f} ms a move")


if __name__ == "__main__":
    main()
