#!/usr/bin/python3
"""Kills hosts and gateways of an archive by turns while browsers play, moves a host to another place meanwhile, and looks
whether each game is where it was left.

    drills/archive.py [KILLS] [--seed N] [--players N] [--hosts N] [--program PROGRAM]

64 players by script play games of the Echo story over WebSocket, through haproxy (by docs/haproxy.cfg) and two gateways, on
four hosts that a file names: each begins a game, gives moves, ends the game and begins another. KILLS times, 40 unless told
otherwise, a host and a gateway are killed by turns (signal 9), at moments drawn from the seed, and started again. In the
middle one host is stopped, its folder copied, the copy started on another port, and the file's line changed (signal 1 to
the gateways). A player whose connection went comes back as the page does, by the game's name and key. Each update must be the one
that `run` shows for the same moves, each applied once; and at the end no session of any host may be in use, so that
none was begun twice. It ends with 1 where it isn't so. Wants Debian's python3-aiohttp and haproxy."""

import argparse
import asyncio
import pathlib
import sys
import tempfile

import crash
from gateway import Drill, Player

sys.path.append(str(crash.TOP / "web"))

import aiohttp  # noqa: E402
import archives  # noqa: E402
import players  # noqa: E402
from players import Otherwise  # noqa: E402


def in_use(host):
    """The sessions of a host that are in use, by an OPEN of a story that isn't there."""
    link = crash.Link(host.port)
    found = [session for session in range(64) if link.ask(f"OPEN {session} k 65535 0 1 1") != "NO 4\n"]
    link.close()
    return found


async def run(asked, room):
    story = room / "story.ulx"
    story.write_bytes(crash.echo_story())
    archive = archives.Archive(room, asked.hosts, {story: "Echo"}, program=asked.program, words=("--rate", "100000"))

    def draw_one(draw, number):
        if number == asked.kills // 2:
            archive.move("host1")
        return ("gateway", draw.choice(archive.gateways)) if number % 2 else ("host", draw.choice([*archive.hosts.values()]))

    try:
        async with aiohttp.ClientSession(connector=aiohttp.TCPConnector(limit=0)) as client:
            drill = Drill(asked.seed, archive.address, client)
            all_players = [Player(number, drill) for number in range(asked.players)]
            await asyncio.gather(drill.kill(asked.kills, draw_one), *(player.play() for player in all_players))
        left = {name: found for name, host in archive.hosts.items() if (found := in_use(host))}
    finally:
        archive.kill()
    told = drill.told(all_players, story, asked.program)
    if left:
        raise Otherwise(f"sessions are in use behind the last game: {left}")
    told = told.format(hosts=f"{asked.hosts} hosts", gateways="two gateways")
    print(f"archive: {told}, none begun twice; one host was moved")


def main():
    words = argparse.ArgumentParser(usage=__doc__)
    words.add_argument("kills", type=int, nargs="?", default=40)
    words.add_argument("--seed", type=int, default=1)
    words.add_argument("--players", type=int, default=64)
    words.add_argument("--hosts", type=int, default=4)
    words.add_argument("--program", default=players.PROGRAM)
    asked = words.parse_args()
    with tempfile.TemporaryDirectory(prefix="archive-") as room:
        try:
            asyncio.run(run(asked, pathlib.Path(room)))
        except Otherwise as cause:
            print(f"archive: seed {asked.seed}: {cause}")
            return 1
    return 0


if __name__ == "__main__":
    sys.exit(main())
