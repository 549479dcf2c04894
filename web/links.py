"""Links to a host: few of them, that many players share."""

import asyncio
import time

LONGEST_SHOW = 1 << 26      # bytes
IDLE_SECONDS = 2
AGAIN_SECONDS = 0.25


class Strange(ValueError):
    """What a host answers isn't understood."""


class Unreached(Exception):
    """Nothing listens where a host is to be."""


class Reply:
    """A refusal, or shows by the number of their move."""

    def __init__(self, head, shows=()):
        self.words, self.shows = head.split(" "), list(shows)

    @property
    def refusal(self):
        """The number of a refusal, or None."""
        return self.words[1] if self.words[0] == "NO" else None

    @property
    def show(self):
        return self.shows[0]


class Link:
    def __init__(self, address, reader, writer):
        self.address, self.reader, self.writer, self.used = address, reader, writer, time.monotonic()

    async def line(self):
        line = await self.reader.readline()
        if not line.endswith(b"\n"):
            raise EOFError
        return line[:-1].decode()

    async def show(self):
        lines, room = [], LONGEST_SHOW
        while (line := await self.line()) != ".":
            lines.append(line)
            room -= len(line) + 1
            if room < 0:
                raise Strange
        return lines

    async def ask(self, lines):
        """The replies to lines, in their order."""
        self.writer.write("".join(line + "\n" for line in lines).encode())
        await self.writer.drain()
        try:
            replies = [await self.reply(line.split(" ")[1]) for line in lines]
        except (ValueError, IndexError) as cause:
            raise Strange from cause
        self.used = time.monotonic()
        return replies

    async def reply(self, session):
        """One reply, which is to be of this session."""
        head = await self.line()
        word, *rest = head.split(" ")
        if word == "NO" and rest[0].isdecimal():
            return Reply(head)
        if word not in ("SHOW", "SEEN") or rest[0] != session:
            raise Strange
        if word == "SHOW":
            return Reply(head, [(int(rest[1]), await self.show())])
        return Reply(head, [await self.seen() for _ in range(int(rest[1]), int(rest[2]) + 1)])

    async def seen(self):
        number = int((await self.line()).split(" ")[2])
        return number, await self.show()

    def close(self):
        self.writer.close()


class Links:
    """At most so many links to a host, begun when they are wanted and ended when they aren't. `tell` is called
    with whether the host is there, where that changes."""

    def __init__(self, address, most, tell):
        self.address, self.most, self.room, self.tell = address, most, asyncio.Semaphore(most), tell
        self.idle, self.is_there = [], True
        self.broken = 0         # how many links have broken off: the host may be another since

    async def ask(self, line, is_patient=True):
        reply, = await self.ask_all([line], is_patient)
        return reply

    async def ask_all(self, lines, is_patient=True):
        """The replies to lines, in their order. Where the host goes it is waited for, and is sent the lines again. To
        who isn't patient a host that can't be reached before they were sent is `Unreached`."""
        async with self.room:
            while True:
                is_new = not self.idle
                try:
                    link = await self.begin() if is_new else self.idle.pop()
                    is_patient = True
                    return await self.ask_over(link, lines)
                except (OSError, EOFError) as cause:
                    if is_new:
                        self.note(False)
                    if not is_patient:
                        raise Unreached from cause
                    if is_new:
                        await asyncio.sleep(AGAIN_SECONDS)

    async def ask_over(self, link, lines):
        try:
            replies = await link.ask(lines)
        except BaseException:
            self.broken += 1
            link.close()
            raise
        if link.address == self.address:
            self.idle.append(link)
        else:
            link.close()
        self.note(True)
        return replies

    async def begin(self):
        address = self.address
        return Link(address, *await asyncio.open_connection(*address, limit=LONGEST_SHOW))

    def note(self, is_there):
        if is_there != self.is_there:
            self.is_there = is_there
            self.tell(is_there)

    def take(self, address, most):
        """Takes the host's address and the number of links as they are now. What waits goes to that address."""
        if most != self.most:
            self.most, self.room = most, asyncio.Semaphore(most)
        if address != self.address:
            self.address = address
            self.close()

    def end_idle(self):
        """Ends links that nobody wants, so that their workers are free for others."""
        before = time.monotonic() - IDLE_SECONDS
        for link in [link for link in self.idle if link.used < before]:
            self.idle.remove(link)
            link.close()

    def close(self):
        for link in self.idle:
            link.close()
        self.idle.clear()
