"""The hosts behind a gateway: what is known of each, and which takes a new game.

What is known is what the hosts answer: a gateway that is begun anew finds it again."""

import asyncio
import contextlib
import random
import secrets
import string
import sys

from hosts import ONE_HOST
from links import Links, Strange, Unreached

SESSIONS = 64
LOOK_SECONDS = 10           # between two looks at which of a host's sessions are free
AWAY_SECONDS = 1            # the same, of a host that isn't there
BREATH_SECONDS = 0.25       # between two looks at a host at least
LOOKS_A_SECOND = 10         # of a gateway at most
ANSWER_SECONDS = 5          # in which a host answers a look
NO_STORY = 0xFFFF           # the number of a story that no host has
IN_USE, FREE, SPENT = "3", "4", "10"
LETTERS = string.ascii_letters + string.digits
KEY_LETTERS = 32            # as many as a host takes


class Full(Exception):
    """No host has room for a title."""


def say(text):
    print(f"gateway: {text}", file=sys.stderr, flush=True)


def new_key():
    return "".join(secrets.choice(LETTERS) for _ in range(KEY_LETTERS))


class Host:
    """A host: its links, its stories, and which of its sessions are in use."""

    def __init__(self, told):
        self.name, self.titles = told.name, told.titles
        self.called = "the host" if told.name == ONE_HOST else f"the host {told.name}"
        self.links = Links(told.address, told.links, self.tell)
        self.taken, self.spent = set(), set()   # sessions in use, as far as was seen; those that take no more commands
        self.is_strange = self.is_slow = False
        self.was_looked_at, self.looked, self.wants_look = asyncio.Event(), asyncio.Event(), asyncio.Event()
        self.watching = asyncio.Semaphore(1)
        self.refused_size = None                # how many links had broken as the host refused a size

    def tell(self, is_there):
        say(f"{self.called} is there again" if is_there else f"{self.called} is waited for")
        self.wants_look.set()

    def take(self, told):
        """Takes what a file tells of it now. Its links stay, unless it has moved."""
        self.titles = told.titles
        self.links.take(told.address, told.links)
        self.wants_look.set()

    @property
    def is_open(self):
        """Whether it answers, as far as is known, and is understood."""
        return self.was_looked_at.is_set() and self.links.is_there and not self.is_strange and not self.is_slow

    def free(self):
        return [session for session in range(SESSIONS) if session not in self.taken] if self.is_open else []

    async def ask(self, line, is_patient=True):
        try:
            return await self.links.ask(line, is_patient)
        except Strange:
            self.leave_out()
            raise

    def leave_out(self):
        if not self.is_strange:
            say(f"{self.called} is left out: what it answers isn't understood")
        self.is_strange = True

    async def keep_looking(self, pause):
        """Looks on and on, each `pause()` seconds, and sooner where that is wanted."""
        try:
            while True:
                self.wants_look.clear()
                await self.look()
                self.told_looked()
                await asyncio.sleep(BREATH_SECONDS)
                with contextlib.suppress(asyncio.TimeoutError):
                    await asyncio.wait_for(self.wants_look.wait(), pause() if self.is_open else AWAY_SECONDS)
        finally:
            self.told_looked()

    def told_looked(self):
        looked, self.looked = self.looked, asyncio.Event()
        looked.set()
        self.was_looked_at.set()

    async def next_look(self):
        """Waits until it was looked at again."""
        self.wants_look.set()
        await self.looked.wait()

    async def look(self):
        """Finds out which sessions are free. An OPEN of a story that isn't there changes nothing, and is refused in
        one way where the session is in use and in another where it is free."""
        lines = [f"OPEN {session} {'0' * KEY_LETTERS} {NO_STORY} 0 1 1" for session in range(SESSIONS)]
        try:
            replies = await asyncio.wait_for(self.links.ask_all(lines, is_patient=False), ANSWER_SECONDS)
            if any(reply.refusal not in (IN_USE, FREE) for reply in replies):
                raise Strange
        except Unreached:
            return
        except asyncio.TimeoutError:
            if self.links.is_there and not self.is_slow:
                say(f"{self.called} hasn't answered for {ANSWER_SECONDS} seconds")
            self.is_slow = self.links.is_there
            return
        except Strange:
            return self.leave_out()
        if self.is_strange or self.is_slow:
            say(f"{self.called} answers again")
        self.is_strange = self.is_slow = False
        self.taken = self.spent | {session for session, reply in enumerate(replies) if reply.refusal == IN_USE}

    async def size(self, session, key, n, columns, rows):
        """The one place that tells a host a screen's size: its reply, or None from a host of before, which
        answers NO 1."""
        if self.refused_size == self.links.broken:
            return None
        reply = await self.ask(f"SIZE {session} {key} {n} {columns} {rows}")
        if reply.refusal != "1":
            return reply
        self.refused_size = self.links.broken
        return None

    async def watch(self, session, word, first):
        """The one place that asks to see a session, at one link at a time: the host plays the game again for it."""
        async with self.watching:
            return await self.ask(f"WATCH {session} {word} {first}")


class Archive:
    """The hosts, by name."""

    def __init__(self):
        self.hosts, self.looks = {}, {}

    def take(self, all_told):
        """Takes the hosts as they are told now. Gives those that aren't told any more."""
        gone = [host for name, host in self.hosts.items() if name not in {told.name for told in all_told}]
        for host in gone:
            self.looks.pop(host.name).cancel()
            host.links.close()
        before, self.hosts = self.hosts, {}
        for told in all_told:
            host = self.hosts[told.name] = before.get(told.name) or Host(told)
            if told.name in before:
                host.take(told)
            else:
                self.looks[host.name] = asyncio.create_task(host.keep_looking(self.pause))
        return gone

    def pause(self):
        """The seconds between two looks at a host."""
        return max(LOOK_SECONDS, len(self.hosts) / LOOKS_A_SECOND)

    async def first_looks(self):
        """Waits a little, so that the first browser is told what there is."""
        with contextlib.suppress(asyncio.TimeoutError):
            await asyncio.wait_for(asyncio.gather(*(host.was_looked_at.wait() for host in self.hosts.values())), AWAY_SECONDS)

    def close(self):
        for look in self.looks.values():
            look.cancel()
        for host in self.hosts.values():
            host.links.close()

    def end_idle(self):
        for host in self.hosts.values():
            host.links.end_idle()

    def serving(self, title):
        return [host for host in self.hosts.values() if title in host.titles]

    def lobby(self):
        """The titles, each with how many games of it can be begun."""
        titles = dict.fromkeys(title for host in self.hosts.values() for title in host.titles)
        return [self.told(title) for title in titles]

    def told(self, title):
        serving = self.serving(title)
        free = sum(len(host.free()) for host in serving)
        state = "open" if free else "full" if any(host.is_open for host in serving) else "away"
        return {"title": title, "free": free, "state": state}

    async def room(self, title, passed):
        """A host and a session for a game of this title, as far as is known, but for hosts that were passed. Where
        no host is there one is waited for; where those that are there have no room, also at a second look, it is
        `Full`."""
        is_sure = False
        while True:
            serving = [host for host in self.serving(title) if host not in passed]
            await asyncio.gather(*(host.was_looked_at.wait() for host in serving))
            rooms = [(len(free), random.random(), host, free) for host in serving if (free := host.free())]
            if rooms:
                _, _, host, free = max(rooms)
                session = random.choice(free)
                host.taken.add(session)
                return host, session
            full = [host for host in serving if host.is_open]
            if not serving or full and is_sure:
                raise Full
            if full:
                await asyncio.gather(*(host.next_look() for host in full))
            else:
                await asyncio.sleep(BREATH_SECONDS)
            is_sure = bool(full)
