#!/usr/bin/python3
"""What an archive costs: many hosts on one machine, and players through two gateways.

    bench/archive.py [--hosts N] [--players N] [--seconds N] [--room FOLDER] [--program PROGRAM]
    bench/archive.py --moves N [--room FOLDER] [--program PROGRAM]

16 hosts of 64 games of The Well House, with five workers each. 1,024 players, or fewer, give moves by script, each
thinking 2 to 20 seconds between two of them, at moments drawn from a seed: over WebSocket through haproxy and two gateways of
two links to a host each; and then, on new hosts, the same moves at the same moments over four bare links to each host. A
move's time is from its moment to the last byte of its answer. The players are of one process, and all of it runs on this
machine. The hosts' folders are in FOLDER, or where temporary files are: a move waits for two syncs of that disk.

With --moves it measures one host instead: 64 games of The Well House of so many moves each, over four bare links, and how
many syncs of FOLDER's disk one program does in a second, and sixteen at once. Wants Debian's python3-aiohttp and haproxy."""

import argparse
import asyncio
import os
import pathlib
import resource
import sys
import tempfile
import threading
import time

from gateway import MOVES, Bare, Browser, Link, begun, crowd, spent_by, told

TOP = pathlib.Path(__file__).resolve().parent.parent
sys.path.append(str(TOP / "web"))

import aiohttp  # noqa: E402
import archives  # noqa: E402
import players  # noqa: E402

TITLES = {players.COTTAGE: "The Well House"}
THINKS = (2, 20)        # seconds
SLOW = 2                # seconds, that no move is to take
SESSIONS, LINKS, WORKERS, AT_ONCE = 64, 4, 5, 32


class Bench:
    def __init__(self, asked, room):
        self.asked, self.room = asked, room

    async def by_links(self):
        folders = [self.room / archives.name_of(at) for at in range(self.asked.hosts)]
        hosts = [players.Host(folder, TITLES, WORKERS, self.asked.program) for folder in folders]
        links = [[Link(host.port) for _ in range(LINKS)] for host in hosts]
        for link in sum(links, []):
            await link.begin()
        places = [(host, session) for session in range(SESSIONS) for host in range(len(hosts))][: self.asked.players]
        bare = [Bare(session, links[host][session % LINKS]) for host, session in places]
        times = await self.played("by bare links", bare, hosts)
        for link in sum(links, []):
            link.writer.close()
        for host in hosts:
            host.kill()
        return times

    async def by_gateways(self):
        words = ("--players", "600")
        archive = archives.Archive(self.room, self.asked.hosts, TITLES, WORKERS, program=self.asked.program, words=words)
        hosts, gateways = list(archive.hosts.values()), archive.gateways
        async with aiohttp.ClientSession(connector=aiohttp.TCPConnector(limit=0)) as client:
            browsers = [Browser(number, client, archive) for number in range(self.asked.players)]
            times = await self.played("through two gateways", browsers, [*hosts, *gateways, archive.proxy])
            print(f"memory at most: a host {max(host.memory() for host in hosts):.1f} MiB, a gateway "
                  f"{max(gateway.memory() for gateway in gateways):.0f} MiB, haproxy {archive.proxy.memory():.0f} MiB")  # fmt: skip
        archive.kill()
        return times

    async def played(self, name, all_players, programs):
        """The times of the moves. The processor time is of the moves alone, without the games' beginning."""
        began = time.perf_counter()
        await begun(all_players, AT_ONCE)
        took = time.perf_counter() - began
        print(f"{len(all_players)} games on {self.asked.hosts} hosts were begun {name} in {took:.1f} s", flush=True)
        before, own = [spent_by(program) for program in programs], time.process_time()
        times = await crowd(all_players, self.asked.seconds, THINKS)
        spent = sum(spent_by(program) for program in programs) - sum(before)
        told(f"{len(all_players)} players {name}", times, self.asked.seconds)
        slow, own = sum(one > SLOW for one in times), time.process_time() - own
        print(f"  {len(times)} moves, {slow} of them above {SLOW} s; processor seconds: {spent:.1f} of the programs, {own:.1f} of the "
              "players' script", flush=True)  # fmt: skip
        return times


    async def one_host(self):
        folder = self.room / "d"
        host = players.Host(folder, TITLES, WORKERS, self.asked.program)
        print(f"a host without a game: {holds(host)}; its folder {kept_by(folder.iterdir())}")
        links = [Link(host.port) for _ in range(LINKS)]
        for link in links:
            await link.begin()
        bare = await begun([Bare(session, links[session % LINKS]) for session in range(SESSIONS)])
        before, began = spent_by(host), time.perf_counter()
        for at in range(self.asked.moves):
            await asyncio.gather(*(one.give(MOVES[at % len(MOVES)]) for one in bare))
        moves = SESSIONS * self.asked.moves
        print(f"64 games of {self.asked.moves} moves: {moves / (time.perf_counter() - began):.0f} moves a second, "
              f"{1000 * (spent_by(host) - before) / moves:.2f} ms of a processor each; {holds(host)}; "
              f"its folder {kept_by(folder.iterdir())}, the journal {kept_by([folder / 'journal'])}")  # fmt: skip
        host.kill()
        began = time.perf_counter()
        host.start()
        started = time.perf_counter()
        links = [Link(host.port) for _ in range(LINKS)]
        for link in links:
            await link.begin()
        await asyncio.gather(*(links[session % LINKS].ask(f"LAST {session} k{session}") for session in range(SESSIONS)))
        print(f"started again in {started - began:.2f} s; each game's last show {time.perf_counter() - started:.2f} s later; "
              f"{host.memory():.1f} MiB")  # fmt: skip
        host.kill()
        one, many = syncs(self.room, 1), syncs(self.room, 16)
        print(f"syncs of 100 bytes in a second: {one:.0f} by one program, {many:.0f} by sixteen at once")


def kept_by(files):
    """The bytes of files, and how many of them a disk holds."""
    told = [file.stat() for file in files]
    return f"{sum(one.st_size for one in told):,} bytes, {sum(one.st_blocks for one in told) * 512:,} on the disk"


def holds(program):
    """What a program holds of the machine."""
    files, threads = (len(os.listdir(f"/proc/{program.process.pid}/{kind}")) for kind in ("fd", "task"))
    return f"{program.memory():.1f} MiB at most, {files} descriptors, {threads} threads"


def syncs(room, count, seconds=2):
    """How many times a second so many files can be written and synced."""
    done = []

    def go(at):
        with open(room / f"sync{at}", "wb", buffering=0) as file:
            end, times = time.perf_counter() + seconds, 0
            while time.perf_counter() < end:
                file.write(b"x" * 100)
                os.fdatasync(file.fileno())
                times += 1
        done.append(times)

    threads = [threading.Thread(target=go, args=(at,)) for at in range(count)]
    for thread in threads:
        thread.start()
    for thread in threads:
        thread.join()
    return sum(done) / seconds


def main():
    words = argparse.ArgumentParser(usage=__doc__)
    words.add_argument("--hosts", type=int, default=16)
    words.add_argument("--players", type=int, default=1024)
    words.add_argument("--seconds", type=float, default=120)
    words.add_argument("--moves", type=int)
    words.add_argument("--room", type=pathlib.Path)
    words.add_argument("--program", default=players.PROGRAM)
    asked = words.parse_args()
    most = resource.getrlimit(resource.RLIMIT_NOFILE)[1]
    resource.setrlimit(resource.RLIMIT_NOFILE, (most, most))
    print(f"load before: {os.getloadavg()[0]:.1f} on {os.cpu_count()} processors")
    for way in (Bench.one_host,) if asked.moves else (Bench.by_gateways, Bench.by_links):
        with tempfile.TemporaryDirectory(prefix="archive-", dir=asked.room) as room:
            asyncio.run(way(Bench(asked, pathlib.Path(room))))
    print(f"load behind: {os.getloadavg()[0]:.1f}")


if __name__ == "__main__":
    main()
