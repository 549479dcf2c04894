#!/usr/bin/python3
"""Lets players play the stories of a host, or of many, in browsers.

    web/gateway.py --host 127.0.0.1:4000 [--story NAME].. [--listen 127.0.0.1:8080] [--links N]
                   [--origin ADDRESS].. [--players N] [--rate N] [--pages FOLDER]
    web/gateway.py --hosts hosts.toml ..

Serves a page, and for each player a WebSocket that speaks RemGlk's JSON (web/README.md); asks each host over at
most N links, 4 unless told otherwise, whatever the number of players. `--story` names the host's stories, in
the order of its words. `--hosts` names a file that tells of many hosts (docs/HOSTING.md, "Many hosts"), which is
read again on signal 1 (HUP). It listens on this machine alone unless `--listen` says otherwise, and takes players
from pages of its own address and of each `--origin`, 256 at a time and 20 messages of each a second unless told
otherwise. Wants Debian's python3-aiohttp."""

import argparse
import asyncio
import pathlib
import signal
import socket
import sys
import time

try:
    from aiohttp import web
except ImportError:
    sys.exit("gateway: aiohttp isn't here; apt-get install python3-aiohttp, and run this with /usr/bin/python3")

from archive import Archive, say
from browser import Browser
from hosts import ONE_HOST, Told, Wrong, read_hosts
from watched import Watched

FOLDER = pathlib.Path(__file__).resolve().parent
KINDS = {".html": "text/html", ".js": "text/javascript", ".css": "text/css", ".svg": "image/svg+xml",
         ".png": "image/png", ".woff2": "font/woff2"}  # fmt: skip
HEADERS = {
    "Content-Security-Policy": "default-src 'none'; script-src 'self'; style-src 'self'; img-src 'self'; "
    "font-src 'self'; connect-src 'self'; base-uri 'none'; form-action 'none'; frame-ancestors 'none'",
    "X-Content-Type-Options": "nosniff",
    "Referrer-Policy": "no-referrer",
    "Cache-Control": "no-cache",
}
MOST_BYTES = 16_384         # of a message of a browser
SEND_BYTES = 131_072        # that the system keeps for a browser
SEND_SECONDS = 30           # in which a browser has to take a message


class Gateway:
    def __init__(self, asked, hosts):
        self.asked, self.archive, self.begun_with = asked, Archive(), hosts
        self.origins, self.most, self.rate = set(), asked.players, asked.rate
        self.pages = pages_of(asked.pages)
        self.browsers, self.watched = set(), {}

    def app(self):
        app = web.Application()
        app.router.add_get("/socket", self.socket)
        app.router.add_get("/{name:[A-Za-z0-9_.-]*}", self.page)
        app.on_startup.append(self.begin)
        app.on_shutdown.append(self.end)
        return app

    async def begin(self, app):
        self.archive.take(self.begun_with)
        self.sweeper = asyncio.create_task(self.sweep())

    async def end(self, app):
        self.sweeper.cancel()
        closing = [asyncio.create_task(browser.socket.close(code=1001)) for browser in self.browsers]
        if closing:
            await asyncio.wait(closing, timeout=1)
        self.archive.close()

    def read_again(self):
        """Takes the file of hosts as it is now. Where it is wrong all stays as it was. Games of a host that isn't
        told any more end here: their displays come back, and are told."""
        try:
            gone = self.archive.take(read_hosts(self.asked.hosts, self.asked.links))
        except Wrong as cause:
            return say(f"{cause}; the hosts stay as they were")
        say(f"{self.asked.hosts} is read again: {len(self.archive.hosts)} hosts")
        for browser in list(self.browsers):
            if browser.host in gone:
                browser.hang_up()

    async def sweep(self):
        """Ends connections of browsers that take nothing, and links that nobody wants; tells those who haven't
        begun what can be begun now."""
        while True:
            await asyncio.sleep(1)
            self.archive.end_idle()
            before, lobby = time.monotonic() - SEND_SECONDS, self.archive.lobby()
            for browser in list(self.browsers):
                if browser.sends_since is not None and browser.sends_since < before:
                    browser.hang_up()
                elif browser.is_in_lobby and browser.sends_since is None and browser.lobby != lobby:
                    browser.telling = asyncio.create_task(browser.tell_lobby())

    async def page(self, request):
        page = self.pages.get(request.match_info["name"])
        if page is None:
            raise web.HTTPNotFound(headers=HEADERS)
        kind, body = page
        return web.Response(body=body, content_type=kind, charset="utf-8" if kind.startswith("text/") else None,
                            headers=HEADERS)  # fmt: skip

    async def socket(self, request):
        if request.headers.get("Origin") not in self.origins:
            raise web.HTTPForbidden(text="this page isn't the gateway's own\n")
        if len(self.browsers) >= self.most:
            raise web.HTTPServiceUnavailable(text="there are as many players as may be\n")
        socket = web.WebSocketResponse(heartbeat=20, max_msg_size=MOST_BYTES, compress=False)
        await socket.prepare(request)
        browser = Browser(self, socket, request.transport)
        self.browsers.add(browser)
        try:
            await browser.play()
        finally:
            self.browsers.discard(browser)
        return socket

    def watched_at(self, host, session, word):
        """What spectators of a session look at, which is one for all of them."""
        place = host.name, session, word
        if place not in self.watched:
            self.watched[place] = Watched(host, session, word)
            self.watched[place].task = asyncio.create_task(self.watched[place].follow())
        return self.watched[place]

    def look_away(self, watched, spectator):
        """A spectator looks no more; where it was the last one nobody does."""
        watched.spectators.discard(spectator)
        if not watched.spectators:
            watched.task.cancel()
            self.watched.pop((watched.host.name, watched.session, watched.word), None)

    def told_moved(self, host, session):
        for watched in self.watched.values():
            if (watched.host, watched.session) == (host, session):
                watched.moved.set()


def pages_of(folder):
    """The files of a folder that a browser may have, by name."""
    pages = {file.name: (KINDS[file.suffix], file.read_bytes()) for file in folder.iterdir() if file.suffix in KINDS}
    if "page.html" not in pages:
        sys.exit(f"gateway: {folder} has no page.html")
    return {"": pages["page.html"], **pages}


def address_of(text):
    name, _, port = text.rpartition(":")
    if not port.isdecimal() or int(port) > 65535:
        raise argparse.ArgumentTypeError(f"{text} is no address; one is 127.0.0.1:4000")
    return name.strip("[]") or "127.0.0.1", int(port)


def origins_of(name, port, given):
    """The pages whose players are taken: those of the gateway's own address, and those that were given."""
    names = {f"[{name}]" if ":" in name else name, *(["localhost"] if name in ("127.0.0.1", "::1") else [])}
    own = {f"http://{name}" + ("" if port == 80 else f":{port}") for name in names}
    return own | {origin.rstrip("/") for origin in given}


def read_words():
    usage = "web/gateway.py --host ADDRESS ..  or  --hosts FILE ..; --help tells more"
    words = argparse.ArgumentParser(usage=usage, description=__doc__, formatter_class=argparse.RawDescriptionHelpFormatter)
    which = words.add_mutually_exclusive_group(required=True)
    which.add_argument("--host", type=address_of)
    which.add_argument("--hosts", type=pathlib.Path)
    words.add_argument("--listen", type=address_of, default=("127.0.0.1", 8080))
    words.add_argument("--links", type=int, choices=range(1, 17), default=4)
    words.add_argument("--story", action="append")
    words.add_argument("--origin", action="append", default=[])
    words.add_argument("--players", type=int, default=256)
    words.add_argument("--rate", type=int, default=20)
    words.add_argument("--pages", type=pathlib.Path, default=FOLDER)
    asked = words.parse_args()
    if asked.hosts and asked.story:
        words.error("--story is for --host; the titles of many hosts stand in their file")
    if len(set(asked.story or [])) < len(asked.story or []):
        words.error("each --story is to have a name of its own")
    return asked


def hosts_of(asked):
    """The hosts as the words tell them."""
    if asked.host:
        titles = {title: place for place, title in enumerate(asked.story or ["Story 0"])}
        return [Told(ONE_HOST, asked.host, asked.links, titles)]
    try:
        return read_hosts(asked.hosts, asked.links)
    except Wrong as cause:
        sys.exit(f"gateway: {cause}")


def door_at(name, port):
    """Where browsers come. The system keeps little of what a slow one doesn't take."""
    door = socket.create_server((name, port), family=socket.AF_INET6 if ":" in name else socket.AF_INET, backlog=128)
    door.setsockopt(socket.SOL_SOCKET, socket.SO_SNDBUF, SEND_BYTES)
    return door


def take_signals(gateway):
    """An event for the signals that end a gateway; signal 1 has it read its file of hosts again."""
    loop, stopped = asyncio.get_running_loop(), asyncio.Event()
    for number in (signal.SIGINT, signal.SIGTERM):
        loop.add_signal_handler(number, stopped.set)
    if gateway.asked.hosts:
        loop.add_signal_handler(signal.SIGHUP, gateway.read_again)
    return stopped


async def serve(asked):
    name, port = asked.listen
    gateway = Gateway(asked, hosts_of(asked))
    runner = web.AppRunner(gateway.app(), access_log=None)
    await runner.setup()
    stopped = take_signals(gateway)
    await gateway.archive.first_looks()
    try:
        door = door_at(name, port)
    except OSError as cause:
        sys.exit(f"gateway: {name}:{port} can't be listened on ({cause.strerror})")
    await web.SockSite(runner, door, shutdown_timeout=1).start()
    port = door.getsockname()[1]
    gateway.origins = origins_of(name, port, asked.origin)
    hosts = gateway.archive.hosts
    where = f"the host is at {asked.host[0]}:{asked.host[1]}" if asked.host else f"{len(hosts)} hosts: {', '.join(hosts)}"
    say(f"http://{name}:{port}/ is for browsers; {where}")
    await stopped.wait()
    await runner.cleanup()


if __name__ == "__main__":
    asyncio.run(serve(read_words()))
