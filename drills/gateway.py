#!/usr/bin/python3
"""Kills a host, or the gateway before it, while browsers play, and looks whether each game is where it was left.

    drills/gateway.py [KILLS] [--seed N] [--players N] [--program PROGRAM]

Eight players by script play games of the Echo story over WebSocket through a gateway of four links: each begins
a game, gives moves, sizes of its display among them, ends the game and begins another. KILLS times, 40 unless told otherwise, the host (signal 9)
or, in a third of the cases, the gateway is killed at a moment drawn from the seed, and started again. A player
whose connection went comes back as the page does: by the game's name and key, with the number that it has; where its
last move isn't kept it is sent again as it was. Each update must be the one that `run` shows for the same moves,
each applied once. It ends with 1 where it isn't so. Wants Debian's python3-aiohttp."""

import argparse
import asyncio
import pathlib
import random
import sys
import tempfile

import crash

sys.path.append(str(crash.TOP / "web"))

import aiohttp  # noqa: E402
import players  # noqa: E402
from players import Otherwise  # noqa: E402

GONE = (ConnectionError, aiohttp.ClientError, asyncio.TimeoutError)
MOST_MOVES = 40


class Player:
    """A player who plays games until the kills are done."""

    def __init__(self, number, drill):
        self.number, self.drill, self.draw = number, drill, random.Random(f"{drill.seed}/{number}")
        self.display, self.games, self.again, self.came_back = None, [], 0, 0

    async def play(self):
        while not self.drill.is_done or not self.games:
            await self.game(f"k{self.number}x{len(self.games)}")
            self.games.append(self.finished)

    async def game(self, key):
        """One game; what it was shown is in `finished`."""
        updates, lines = [await self.opened(key)], []
        self.wanted = {"resume": {"game": self.display.game, "key": key}}
        for word in crash.draw_words(self.draw, self.draw.randint(5, MOST_MOVES)):
            event = self.event(updates[-1], word)
            lines.append(players.line_of(event))
            updates.append(await self.answered(event))
            self.drill.answers += 1
        await self.ended(updates[-1]["gen"])
        self.finished = updates, lines

    def event(self, update, word):
        """A line or, one in six or so, another size of the display."""
        size = self.draw.randint(1, 255), self.draw.randint(1, 255)
        if self.draw.random() > 1 / 6 or size == (self.display.metrics["width"], self.display.metrics["height"]):
            return players.event_of(update, word)
        return players.arrange_of(update["gen"], *size)

    async def connect(self):
        """A connection, however long that takes: the gateway may be gone."""
        before = self.display or players.Player(None, "")
        while True:
            self.display = players.Player(self.drill.client, self.drill.address)
            self.display.gen, self.display.game, self.display.metrics = before.gen, before.game, before.metrics
            try:
                return await self.display.connect()
            except GONE:
                await asyncio.sleep(0.05)

    async def opened(self, key):
        """The first update of a game. Asked for again, the same game is found."""
        if not self.display or self.display.socket.closed:
            await self.connect()
        self.display.gen, self.display.game, self.display.metrics = 0, None, players.UNIT
        while True:
            try:
                return await self.display.begin(key, 1 + self.number)
            except GONE:
                await self.connect()

    async def answered(self, event):
        """The update behind an event, which is sent again where it wasn't kept."""
        sent = event
        while True:
            try:
                if sent:
                    update = await self.display.give(sent)
                else:
                    update = await self.display.init(**self.wanted)
                    self.came_back += 1
            except GONE:
                await self.connect()
                sent = None
                continue
            if update["gen"] == event["gen"] + 1:
                return update
            if update["gen"] != event["gen"] or sent:
                raise Otherwise(f"player {self.number}: move {event['gen']} is answered by update {update['gen']}")
            self.again += 1
            sent = event

    async def ended(self, gen):
        """Ends the game. Where the answer is lost the game is there, or is gone."""
        while True:
            try:
                await self.display.send({"type": "close", "gen": gen})
                return await self.display.read("closed")
            except GONE:
                await self.connect()
                try:
                    await self.display.init(**self.wanted)
                except Otherwise:
                    return None
                except GONE:
                    continue


class Drill:
    """Players at an address, and who kills the hosts and gateways behind it."""

    def __init__(self, seed, address, client):
        self.seed, self.address, self.client = seed, address, client
        self.answers, self.is_done, self.killed = 0, False, {"host": 0, "gateway": 0}

    async def kill(self, kills, draw_one):
        """Kills what is drawn, a kind and a program, at moments that are drawn too, and starts it again."""
        draw = random.Random(self.seed)
        for number in range(kills):
            until = self.answers + draw.randint(1, 30)
            while self.answers < until:
                await asyncio.sleep(0.001)
            await asyncio.sleep(draw.random() * 0.02)
            kind, one = await asyncio.to_thread(draw_one, draw, number)
            one.kill()
            await asyncio.sleep(draw.random() * 0.1)
            await asyncio.to_thread(one.start)
            self.killed[kind] += 1
        self.is_done = True

    def told(self, all_players, story, program):
        """What is to be told of players who were shown what `run` shows."""
        moves = sum([look(player, story, program) for player in all_players])
        games = sum(len(player.games) for player in all_players)
        again, back = sum(player.again for player in all_players), sum(player.came_back for player in all_players)
        kills = f"{self.killed['host']} kills of {{hosts}} and {self.killed['gateway']} of {{gateways}}"
        return (f"{kills}, {moves} moves in {games} games; players came back {back} times and gave {again} moves again: "
                "none lost, none applied twice")  # fmt: skip


def look(player, story, program):
    """Whether the player was shown what `run` shows."""
    moves = 0
    for updates, lines in player.games:
        shows = players.shows_of_run(story, lines, program)
        if len(shows) != len(updates):
            raise Otherwise(f"player {player.number}: {len(updates)} updates, and `run` has {len(shows)} shows")
        for n, (update, show) in enumerate(zip(updates, shows)):
            if update["gen"] != n + 1:
                raise Otherwise(f"player {player.number}: update {n} says {update['gen']}")
            players.want_same(f"player {player.number}, move {n}", update, show)
        moves += len(lines)
    return moves


async def run(asked, room):
    story = room / "story.ulx"
    story.write_bytes(crash.echo_story())
    host = players.Host(room / "d", [story], 4, asked.program)
    gateway = players.Gateway(host.port, "--rate", "100000")

    def draw_one(draw, _):
        return ("gateway", gateway) if draw.random() < 1 / 3 else ("host", host)

    try:
        async with aiohttp.ClientSession() as client:
            drill = Drill(asked.seed, gateway.address, client)
            all_players = [Player(number, drill) for number in range(asked.players)]
            await asyncio.gather(drill.kill(asked.kills, draw_one), *(player.play() for player in all_players))
    finally:
        host.kill()
        gateway.kill()
    print("gateway: " + drill.told(all_players, story, asked.program).format(hosts="the host", gateways="the gateway"))


def main():
    words = argparse.ArgumentParser(usage=__doc__)
    words.add_argument("kills", type=int, nargs="?", default=40)
    words.add_argument("--seed", type=int, default=1)
    words.add_argument("--players", type=int, default=8)
    words.add_argument("--program", default=players.PROGRAM)
    asked = words.parse_args()
    with tempfile.TemporaryDirectory(prefix="gateway-") as room:
        try:
            asyncio.run(run(asked, pathlib.Path(room)))
        except Otherwise as cause:
            print(f"gateway: seed {asked.seed}: {cause}")
            return 1
    return 0


if __name__ == "__main__":
    sys.exit(main())
