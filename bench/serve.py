#!/usr/bin/env python3
"""What `serve` does with many links.

Lines a second of eight links on eight sessions of the Mill (`grind`), with one worker and with two, in
turns of one run; the processor time of a host with 64 idle links on 64 sessions over five seconds; bytes
a second of LAST on a warm session beside an echo of the same bytes over TCP; the memory of a host
with 64 sessions of one story beside one with one session.

    bench/serve.py [ROUNDS]"""

import os
import pathlib
import socket
import subprocess
import sys
import tempfile
import threading
import time

TOP = pathlib.Path(__file__).resolve().parent.parent
PROGRAM = TOP / "crates" / "storyhost" / "out" / "storyhost"
MILL = TOP / "stories" / "mill.ulx"
COTTAGE = TOP / "stories" / "cottage.ulx"
TURNS = 12


class Host:
    def __init__(self, room, workers, story):
        self.folder = pathlib.Path(tempfile.mkdtemp(dir=room)) / "d"
        subprocess.run([PROGRAM, "init", self.folder], check=True, capture_output=True)
        self.process = subprocess.Popen(
            [PROGRAM, "serve", self.folder, "0", str(workers), story, "--budget", "1000000000000"],
            stdin=subprocess.DEVNULL, stdout=subprocess.DEVNULL, stderr=subprocess.PIPE,
        )
        self.port = int(self.process.stderr.readline().decode().rpartition(":")[2])

    def link(self):
        link = socket.create_connection(("127.0.0.1", self.port))
        return link, link.makefile("rb")

    def status(self, word):
        with open(f"/proc/{self.process.pid}/status") as file:
            return next(int(line.split()[1]) for line in file if line.startswith(word))

    def ticks(self):
        fields = pathlib.Path(f"/proc/{self.process.pid}/stat").read_text().rpartition(")")[2].split()
        return int(fields[11]) + int(fields[12])

    def end(self):
        self.process.kill()
        self.process.wait()


def ask(link, line):
    """The reply to a line, as it came."""
    link[0].sendall(line + b"\n")
    reply = b""
    while True:
        text = link[1].readline()
        reply += text
        if text == b".\n" or text.startswith(b"NO ") or not text:
            return reply


def opened(host, s):
    link = host.link()
    shown = ask(link, b"OPEN %d k 0 1 80 24" % s)
    if not shown.startswith(b"SHOW"):
        raise SystemExit(f"bench: {shown!r}")
    return link, [line.split()[1] for line in shown.splitlines() if line.startswith(b"I ")][0]


def ground(room, workers):
    """Seconds in which eight links have so many turns each."""
    host = Host(room, workers, MILL)

    def player(s):
        link, window = opened(host, s)
        for n in range(1, TURNS + 1):
            shown = ask(link, b"LINE %d k %d %s =grind%%2010" % (s, n, window))
            if not shown.startswith(b"SHOW"):
                raise SystemExit(f"bench: {shown!r}")
        link[0].close()

    players = [threading.Thread(target=player, args=(s,)) for s in range(8)]
    began = time.perf_counter()
    for thread in players:
        thread.start()
    for thread in players:
        thread.join()
    seconds = time.perf_counter() - began
    host.end()
    return seconds


def idle(room):
    """Processor seconds of a host whose 64 links say nothing for five seconds. 16 are taken, one by
    each worker; the others wait."""
    host = Host(room, 16, COTTAGE)
    for s in range(64):
        link, _ = opened(host, s)
        link[0].close()
        link[1].close()
    links = [host.link() for _ in range(64)]
    time.sleep(1)
    before = host.ticks()
    time.sleep(5)
    after = host.ticks()
    memory = host.status("VmRSS")
    for link, file in links:
        file.close()
        link.close()
    host.end()
    alone = Host(room, 16, COTTAGE)
    link, _ = opened(alone, 0)
    one = alone.status("VmRSS")
    alone.end()
    return (after - before) / os.sysconf("SC_CLK_TCK"), memory, one


def echo(text, count):
    """Seconds in which a plain echo of these bytes is read so many times."""
    door = socket.create_server(("127.0.0.1", 0))

    def answer():
        link, _ = door.accept()
        file = link.makefile("rb")
        while file.readline():
            link.sendall(text)

    threading.Thread(target=answer, daemon=True).start()
    link = socket.create_connection(door.getsockname())
    return timed((link, link.makefile("rb")), b"LAST 0 k", count)


def timed(link, line, count):
    began = time.perf_counter()
    for _ in range(count):
        ask(link, line)
    return time.perf_counter() - began


def main():
    rounds = int(sys.argv[1]) if len(sys.argv) > 1 else 5
    with tempfile.TemporaryDirectory(prefix="serve-") as room:
        one, two = [], []
        for _ in range(rounds):
            one.append(ground(room, 1))
            two.append(ground(room, 2))
        lines = 8 * TURNS
        print(f"eight links, one worker {lines / min(one):,.1f} lines a second, two {lines / min(two):,.1f}: "
              f"{min(one) / min(two):.2f} times")
        spent, many, few = idle(room)
        print(f"64 idle links: {spent:.2f} processor seconds in five; memory {many / 1024:.1f} MB with 64 sessions of "
              f"the Well House, {few / 1024:.1f} MB with one: {(many - few) / 63:.0f} KB a session")
        host = Host(room, 1, COTTAGE)
        link, _ = opened(host, 0)
        text = ask(link, b"LAST 0 k")
        count, plain, served = 20000, [], []
        for _ in range(rounds):
            plain.append(echo(text, count))
            served.append(timed(link, b"LAST 0 k", count))
        host.end()
        size = len(text) * count / 2**20
        print(f"LAST of {len(text)} bytes: {size / min(served):,.1f} MB a second, an echo of the same bytes "
              f"{size / min(plain):,.1f}: {min(plain) / min(served):.2f} times")


main()
