"""A browser at the gateway: a player's, or a spectator's."""

import asyncio
import contextlib
import json
import re
import time
import traceback

from aiohttp import WSMsgType

from archive import IN_USE, SESSIONS, SPENT, Full, new_key, say
from links import Strange, Unreached
from remglk import Measure, Refused, Show, key_of, message_of, move_of, number_of, text_in, update_of, windows_of, with_earlier
from watched import MOST_SHOWS, last_shows, word_of

from host import MOST_RECALLED, REFUSALS  # of stories/, which remglk puts on the path

MOST_WAITING = 8            # messages of a browser that wait for their turn
BURST = 40                  # messages of a browser that are taken at once
NOTE_SECONDS = 1            # behind which a player is told that the host is waited for
WRONG_KEY_SECONDS = 1
MOST_UNSEEN = 16            # shows that wait for a spectator's browser
LATE = {"5", "6", "7"}
GAME = re.compile(r"([A-Za-z0-9_-]{1,32})/([0-9]|[1-9][0-9])")
NO_GAME = "there is no such game"
STOPPED = "The host has stopped. It is waited for, and what you gave is sent to it again."
AWAY = "The host has stopped. It is waited for."
THERE = "The host is there again; the game goes on."
BUSY = "The host is busy; what you gave waits for its turn."


def refused(reply):
    """What a player is told of a refusal."""
    told = {"type": "error", "message": REFUSALS.get(reply.refusal, f"the host answers NO {reply.refusal}")}
    return {**told, "late": True} if reply.refusal in LATE else told


class Rate:
    """How fast the messages of a browser are taken: so many a second, and BURST at once."""

    def __init__(self, rate):
        self.rate, self.left, self.at = rate, BURST, time.monotonic()

    async def turn(self):
        now = time.monotonic()
        self.left, self.at = min(BURST, self.left + (now - self.at) * self.rate) - 1, now
        if self.left < 0:
            await asyncio.sleep(-self.left / self.rate)


class Browser:
    """A browser: a player's, or a spectator's."""

    def __init__(self, gateway, socket, transport):
        self.gateway, self.socket, self.transport, self.rate = gateway, socket, transport, Rate(gateway.rate)
        self.waiting = asyncio.Queue(MOST_WAITING)
        self.host = self.session = self.key = self.measure = self.watched = None
        self.gen, self.windows, self.screen, self.asked = 0, [], None, {}
        self.tasks, self.sends_since = [], None
        self.lobby = self.telling = None        # what it was told last, and what tells it more

    async def play(self):
        await self.tell_lobby()
        self.tasks.append(asyncio.create_task(self.answer()))
        try:
            async for message in self.socket:
                if self.waiting.full():
                    await self.leave("too many messages at once")
                    break
                self.waiting.put_nowait(message)
        finally:
            tasks = [*self.tasks, *([self.telling] if self.telling else [])]
            for task in tasks:
                task.cancel()
            await asyncio.gather(*tasks, return_exceptions=True)

    @property
    def is_in_lobby(self):
        return self.session is None and not self.watched

    async def tell_lobby(self):
        self.lobby = self.gateway.archive.lobby()
        await self.send({"type": "menu", "stories": self.lobby})

    async def answer(self):
        """Answers the messages, one after the other."""
        while True:
            message = await self.waiting.get()
            await self.rate.turn()
            try:
                if message.type != WSMsgType.TEXT:
                    raise Refused("a message is a text")
                await self.take(message_of(message.data))
            except Refused as cause:
                await self.send({"type": "error", "message": str(cause)})
            except ValueError:
                await self.leave("what the host answers isn't understood")
            except Exception as cause:
                # The cause may hold what was typed, so its kind and place alone are told.
                place = traceback.extract_tb(cause.__traceback__)[-1]
                say(f"{type(cause).__name__} in line {place.lineno} of {place.name}")
                await self.leave("the gateway has failed")

    async def send(self, message):
        self.sends_since = time.monotonic()
        try:
            await self.socket.send_str(json.dumps(message))
        except OSError:
            self.hang_up()
        self.sends_since = None

    def hang_up(self):
        """Ends the connection of a browser that doesn't take what it is sent."""
        self.transport.abort()

    async def leave(self, cause):
        with contextlib.suppress(asyncio.TimeoutError, OSError):
            await asyncio.wait_for(self.socket.send_str(json.dumps({"type": "error", "message": cause})), 1)
            await asyncio.wait_for(self.socket.close(code=1008), 1)
        self.hang_up()

    async def take(self, message):
        kind = message["type"]
        if kind == "init":
            await self.init(message)
        elif self.watched:
            if kind != "arrange":
                raise Refused("a spectator only looks")
            self.measure = Measure(message.get("metrics"))
            await self.place()
        elif self.session is None:
            raise Refused("init comes first")
        elif kind in ("line", "char", "specialresponse"):
            await self.move(message)
        elif kind == "arrange":
            await self.arrange(message)
        elif kind == "refresh":
            await self.last()
        elif kind == "close":
            await self.close(number_of(message, "gen"))
        else:
            raise Refused("there is no such message")

    async def init(self, message):
        if self.session is not None or self.watched:
            raise Refused("init came before")
        self.measure = Measure(message.get("metrics"))
        for word, begin in (("begin", self.begin), ("resume", self.resume), ("watch", self.watch)):
            if isinstance(message.get(word), dict):
                return await begin(message[word], number_of(message, "gen") == 0)
        raise Refused("init is to say what it begins, resumes or watches")

    async def ask(self, line):
        return await self.wait_for(self.host.ask(line), self.host)

    async def wait_for(self, asking, host=None):
        """What comes of asking a host, or of looking for one. The player is told where it has to be waited for."""
        self.told, telling = None, None

        def tell():
            nonlocal telling
            telling = asyncio.create_task(self.tell_waits(host))

        later = asyncio.get_running_loop().call_later(NOTE_SECONDS, tell)
        try:
            return await asking
        finally:
            later.cancel()
            if telling:
                telling.cancel()
                await self.note(THERE if self.told == STOPPED else "", False)

    async def tell_waits(self, host):
        while True:
            text = BUSY if host and host.links.is_there else STOPPED
            if self.told in (None, BUSY) and text != self.told:
                self.told = text
                await self.note(text, text == STOPPED)
            await asyncio.sleep(NOTE_SECONDS)

    async def note(self, text, waits):
        await self.send({"type": "note", "text": text, "waits": waits})

    def place_of(self, wanted):
        """The host and the session of a game's name, or None where there is no such game."""
        named = GAME.fullmatch(text_in(wanted, "game"))
        host = self.gateway.archive.hosts.get(named[1]) if named else None
        return (host, int(named[2])) if host and int(named[2]) < SESSIONS else None

    async def begin(self, wanted, _):
        """Opens a game of a title on a host that has room. The display is told first where, and by which key; where
        it comes again with both, that game is found, if it was begun."""
        title, seed = text_in(wanted, "title"), number_of(wanted, "seed", 2**64 - 1)
        key = key_of(wanted) if "key" in wanted else new_key()
        if not self.gateway.archive.serving(title):
            raise Refused("no host has this title")
        place, passed = self.place_of(wanted) if "game" in wanted else None, set()
        comes_again = place and title in place[0].titles
        if not comes_again:
            place = await self.room(title, passed)
        while not await self.open(place, title, key, seed, passed, comes_again):
            place, comes_again = await self.room(title, passed), False

    async def room(self, title, passed):
        try:
            return await self.wait_for(self.gateway.archive.room(title, passed))
        except Full:
            cause = "its hosts refuse a new game; their keeper has to look" if passed else "one has to be ended first"
            raise Refused(f"there is no room for a game of {title}: {cause}") from None

    async def open(self, place, title, key, seed, passed, comes_again):
        """Tries to open a game there; whether it's there. A host that can't have it is passed. One that is gone is
        waited for where the game may have been begun before."""
        host, session = place
        await self.send({"type": "begins", "game": f"{host.name}/{session}", "key": key})
        line = f"OPEN {session} {key} {host.titles[title]} {seed} {self.measure.columns} {self.measure.rows}"
        try:
            reply = await self.wait_for(host.ask(line, is_patient=comes_again), host)
            if comes_again and reply.refusal == IN_USE:
                reply = await self.last_of(host, session, key)
        except (Unreached, Strange):
            return False
        if not reply.refusal:
            await self.seat(host, session, key, reply)
        elif reply.refusal == SPENT:
            host.spent.add(session)
        elif reply.refusal not in (IN_USE, "2"):
            host.taken.discard(session)
            passed.add(host)
            say(f"{host.called} answers NO {reply.refusal} to a new game of {title}")
        return not reply.refusal

    async def resume(self, wanted, is_new):
        """Shows what a session's story said last. A display that is new is shown the moves before that too, and
        has its size told to the host; one that comes again first has to see whether its last move was kept."""
        place, key = self.place_of(wanted), key_of(wanted)
        if place is None:
            await asyncio.sleep(WRONG_KEY_SECONDS)
            raise Refused(NO_GAME)
        self.host, session = place
        reply = await self.last_of(self.host, session, key)
        if reply.refusal == "2":
            raise Refused(NO_GAME)
        if reply.refusal:
            return await self.send(refused(reply))
        if is_new:
            await self.recall(session, key, reply)
        await self.seat(self.host, session, key, reply)
        if is_new:
            await self.tell_size(self.gen)

    async def recall(self, session, key, reply):
        """Puts what the moves before have left in its buffers before a last show, where the game isn't long."""
        n, _ = reply.show
        if n > MOST_RECALLED:
            return
        seen = await self.wait_for(last_shows(self.host, session, word_of(key), n), self.host)
        shows = [lines for _, lines in seen.shows]
        if shows and not seen.refusal:
            reply.shows = [(n, with_earlier([*shows[:-1], reply.show[1]]))]

    async def last_of(self, host, session, key):
        """What a session says last, to who has its key. Who hasn't is answered late."""
        reply = await self.wait_for(host.ask(f"LAST {session} {key}"), host)
        if reply.refusal == "2":
            await asyncio.sleep(WRONG_KEY_SECONDS)
        return reply

    async def seat(self, host, session, key, reply):
        self.host, self.session, self.key = host, session, key
        await self.send({"type": "session", "game": f"{host.name}/{session}", "key": key, "word": word_of(key)})
        await self.show(reply)

    async def show(self, reply, answered=None):
        """Sends a show. Requests that were open before and not answered keep their number, so that a
        display keeps what was typed."""
        n, lines = reply.show
        show, gen = Show(lines), n + 1
        kept = {request: since for request, since in self.asked.items() if request[0] != answered}
        self.asked = {request[:2]: kept.get(request[:2], gen) for request in show.requests}
        self.gen = gen
        if show.windows:
            self.windows, self.screen = show.windows, show.screen
        await self.send(update_of(show, n, self.measure, self.asked))

    async def move(self, message):
        word, n, rest = move_of(message)
        reply = await self.ask(f"{word} {self.session} {self.key} {n} {rest}")
        if reply.refusal:
            return await self.send(refused(reply))
        self.gateway.told_moved(self.host, self.session)
        await self.show(reply, message.get("window"))

    async def last(self):
        reply = await self.ask(f"LAST {self.session} {self.key}")
        if reply.refusal:
            return await self.send(refused(reply))
        self.asked = {}
        await self.show(reply)

    async def arrange(self, message):
        n, self.measure = number_of(message, "gen"), Measure(message.get("metrics"))
        if not await self.tell_size(n):
            await self.place()

    async def tell_size(self, n):
        """Tells the host the display's size; whether a show came of it. Where none did, the game keeps its
        screen: the story may be over, or wait for a file's name, or the host may be of before."""
        columns, rows = self.measure.columns, self.measure.rows
        if self.screen in (None, (columns, rows)):
            return False
        reply = await self.wait_for(self.host.size(self.session, self.key, n, columns, rows), self.host)
        if reply is None or reply.refusal:
            return False
        self.gateway.told_moved(self.host, self.session)
        await self.show(reply)
        return True

    async def place(self):
        """Sends the windows' places alone, on the display as it is now."""
        if self.screen:
            windows = windows_of(self.windows, self.measure, self.screen)
            await self.send({"type": "update", "gen": self.gen, "windows": windows})

    async def close(self, n):
        """Ends the game, and frees the session's number."""
        reply = await self.ask(f"CLOSE {self.session} {self.key} {n}")
        if reply.refusal:
            return await self.send(refused(reply))
        self.gateway.told_moved(self.host, self.session)
        self.host.taken.discard(self.session)
        self.session = None
        await self.send({"type": "closed"})

    async def watch(self, wanted, _):
        place, word = self.place_of(wanted), text_in(wanted, "word")
        if len(word) != 16 or set(word) - set("0123456789abcdef"):
            raise Refused("a session's word has 16 digits, 0 to 9 and a to f")
        if place is None:
            await asyncio.sleep(WRONG_KEY_SECONDS)
            raise Refused(NO_GAME)
        self.host, session = place
        self.watched = self.gateway.watched_at(self.host, session, word)
        self.unseen = asyncio.Queue(MOST_UNSEEN + MOST_SHOWS)
        for seen in self.watched.shows:
            self.unseen.put_nowait(seen)
        self.watched.spectators.add(self)
        self.tasks.append(asyncio.create_task(self.look_on()))

    def give(self, seen):
        """Takes a show for a spectator; one whose browser doesn't take them is sent away."""
        if self.unseen.full():
            self.hang_up()
        else:
            self.unseen.put_nowait(seen)

    async def look_on(self):
        watched, getting, is_there = self.watched, None, True
        try:
            while True:
                getting = getting or asyncio.ensure_future(self.unseen.get())
                done, _ = await asyncio.wait({getting, watched.task}, timeout=NOTE_SECONDS, return_when=asyncio.FIRST_COMPLETED)
                if is_there != self.host.links.is_there:
                    is_there = not is_there
                    await self.note(THERE if is_there else AWAY, not is_there)
                if getting in done:
                    await self.look(getting.result())
                    getting = None
                elif watched.task in done:
                    return await self.look_away(watched.task)
        finally:
            if getting:
                getting.cancel()
            self.gateway.look_away(watched, self)

    async def look(self, seen):
        if seen is None:
            return await self.send({"type": "anew"})
        n, lines = seen
        show = Show(lines)
        self.gen = n + 1
        if show.windows:
            self.windows, self.screen = show.windows, show.screen
        await self.send(update_of(show, n, self.measure, watched=True))

    async def look_away(self, task):
        """Tells a spectator why there is no more to see."""
        try:
            refusal = task.result().refusal
        except (ValueError, asyncio.CancelledError):
            return await self.leave("what the host answers isn't understood")
        if refusal == "2":
            await asyncio.sleep(WRONG_KEY_SECONDS)
        await self.leave(NO_GAME if refusal == "2" else REFUSALS.get(refusal, f"the host answers NO {refusal}"))
