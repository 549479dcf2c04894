"""Sessions that spectators look at."""

import asyncio
import contextlib
import hashlib

from remglk import GREATEST

from host import LOOKS_BACK, SHOWS, recent_from  # of stories/, which remglk puts on the path

LOOK_SECONDS = 1            # between two looks at a session that is watched
MOST_SHOWS = LOOKS_BACK * SHOWS     # that who comes to a session is shown of it


def word_of(key):
    """What spectators of a session give: it is made of the key, which isn't told by it."""
    return hashlib.sha256(key.encode()).digest()[:8].hex()


def recent(shows):
    """Where the last eight of these shows begin in which something was printed, or None."""
    return recent_from([lines for _, lines in shows])


async def last_shows(host, session, word, moves):
    """A reply with the last shows of a session of so many moves, each with its number: eight in which something was
    printed, since a size of the screen mostly prints nothing, and those between."""
    shows, first, reply = [], moves + 1, None
    for _ in range(LOOKS_BACK):
        if not first or recent(shows) is not None:
            break
        behind, first = first, max(first - SHOWS, 0)
        reply = await host.watch(session, word, first)
        if reply.refusal:
            return reply
        shows = [(number, lines) for number, lines in reply.shows if number < behind] + shows
    reply.shows = shows[recent(shows) or 0 :]
    return reply


class Watched:
    """A session that spectators look at. The host is asked once for all of them."""

    def __init__(self, host, session, word):
        self.host, self.session, self.word = host, session, word
        self.shows, self.spectators = [], set()
        self.next = self.counted = None
        self.moved = asyncio.Event()

    async def follow(self):
        """Looks on until the session can't be seen, and gives the refusal."""
        while True:
            self.moved.clear()
            reply = await self.host.watch(self.session, self.word, GREATEST if self.next is None else self.next)
            if reply.refusal == "5":
                self.count(int(reply.words[2]))
                if self.next is None:
                    reply = await last_shows(self.host, self.session, self.word, self.counted)
            if reply.refusal not in (None, "5"):
                return reply
            for number, lines in reply.shows:
                self.next = number + 1
                self.give((number, lines))
            if not reply.shows and self.next == self.counted + 1:
                with contextlib.suppress(asyncio.TimeoutError):
                    await asyncio.wait_for(self.moved.wait(), LOOK_SECONDS)

    def count(self, moves):
        """The session has so many moves. Fewer than were seen: its number has another game."""
        self.counted = moves
        if self.next is not None and self.next > moves + 1:
            self.next, self.shows = None, []
            self.give(None)

    def give(self, seen):
        if seen:
            self.shows = [*self.shows, seen][-MOST_SHOWS:]
            self.shows = self.shows[recent(self.shows) or 0 :]
        for spectator in list(self.spectators):
            spectator.give(seen)
