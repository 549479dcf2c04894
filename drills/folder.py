"""What stands in a host's folder, read by docs/FORMATS.md alone ("The journal", "Snapshot files"), and
ways to spoil a snapshot file by hand. The drills, stories/play.py and stories/keeper.py read by it."""

import collections
import os
import struct

SESSIONS = 64
MOST_ROWS = 8_192
OPEN, LINE, CHAR, FILE, CLOSE, SIZE = 1, 2, 3, 4, 5, 6
# keys of a CHAR, and those that may end a line (with 0 for none): Func1 to Func12, Unknown to End
FUNCTIONS = range(0xFFFFFFE4, 0xFFFFFFF0)
KEYCODES = {*FUNCTIONS, *range(0xFFFFFFF3, 0x100000000)}
ENDS = {0, 0xFFFFFFF8, *FUNCTIONS}
JOURNAL_FRONT = bytes.fromhex("5354484A00000001")
JOURNAL_HEADER = JOURNAL_FRONT + b"\x01" + bytes(7)      # of version 2; byte 8 is anything else in version 1
SNAPSHOT_HEADER = bytes.fromhex("5354485300000001")
MADE = 4096
STARTS = (4096, 8_392_720)
GATES = (10, 11)
MOST_BYTES = 8_388_608
INTERVAL = 16

# a row of the journal, whose gate is at this place
Row = collections.namedtuple("Row", "place session kind payload")

# what an OPEN row says
Opening = collections.namedtuple("Opening", "key story digest seed columns rows budget")

# how many inputs a session in use had since its OPEN row, whose gate is at this place
Game = collections.namedtuple("Game", "place inputs")

# an area by its file's bytes; `written` where the file goes beyond its start
Area = collections.namedtuple("Area", "side gate place count length is_open written")


class Damaged(Exception):
    """A journal that is none (`place` is None), or is corrupt at a place."""

    def __init__(self, place, why):
        super().__init__(why)
        self.place = place


def opening_of(payload):
    """What an OPEN row's payload says."""
    size = payload[0] if payload else 0
    if len(payload) != 1 + size + 52:
        raise ValueError("an OPEN whose length isn't that of its fields")
    fields = struct.unpack(">H32sQBBQ", payload[1 + size :])
    return Opening(payload[1 : 1 + size].decode("ascii"), *fields)


def is_second(journal):
    """Whether a journal is of version 2, in which a session's screen may change."""
    return journal[8] == 1


def fault_of(kind, payload, takes_sizes):
    """What is wrong with a row by itself, or nothing."""
    try:
        if kind == OPEN:
            opening = opening_of(payload)
            if not (1 <= len(opening.key) <= 32 and opening.key.isalnum()):
                return "a key that is none"
            in_range = opening.columns and opening.rows and 1 <= opening.budget <= 10**12
            return "" if in_range else "a screen or a budget out of range"
        if kind in (LINE, FILE):
            text = payload[8:].decode() if kind == LINE else payload.decode()
            if len(text) > 1024 or any(code < " " or "\x7f" <= code <= "\x9f" for code in text):
                return "a text that is no player's"
            if kind == FILE:
                return ""
            return "" if struct.unpack_from(">I", payload, 4)[0] in ENDS else "a LINE with a key that ends no line"
        if kind == CHAR:
            code = struct.unpack(">II", payload)[1]
            known = code < 0xD800 or 0xE000 <= code < 0x110000 or code in KEYCODES
            return "" if known else "a CHAR that is neither a character nor a key"
        if kind == CLOSE:
            return "a CLOSE with a payload" if payload else ""
        if kind == SIZE and takes_sizes:
            return "" if len(payload) == 2 and all(payload) else "a size that is no screen's"
        return f"a row of kind {kind}"
    except (ValueError, struct.error) as cause:
        return str(cause)


def rows_of(journal):
    """The rows of a journal's bytes, one after the other; `Damaged` where the next one isn't whole."""
    if journal[:8] != JOURNAL_FRONT or journal[9:16] != bytes(7):
        raise Damaged(None, "it doesn't begin as a journal does" if journal else "it is empty")
    counts, used, at = collections.Counter(), set(), len(JOURNAL_HEADER)
    while True:
        if at >= len(journal):
            raise Damaged(at, "it ends before its closing gate")
        if journal[at] != 1:
            return
        if at + 5 > len(journal):
            raise Damaged(at, "its last row is cut")
        session, kind, length = struct.unpack_from(">BBH", journal, at + 1)
        payload = journal[at + 5 : at + 5 + length]
        counts[session] += 1
        why = "its last row is cut" if len(payload) < length else fault_of(kind, payload, is_second(journal))
        if not why and session >= SESSIONS:
            why = f"a session of number {session}"
        elif not why and (kind == OPEN) == (session in used):
            why = "an OPEN of a session in use" if kind == OPEN else "a row of a session that is free"
        elif not why and counts[session] > MOST_ROWS:
            why = f"more than {MOST_ROWS} rows of a session"
        if why:
            raise Damaged(at, why)
        if kind in (OPEN, CLOSE):
            used ^= {session}
        yield Row(at, session, kind, payload)
        at += 5 + length


def journal_of(folder):
    return (folder / "journal").read_bytes()


def names_of(folder, session):
    """The names of files that were given in the session's game, each once, the newest last."""
    names = {}
    for row in rows_of(journal_of(folder)):
        if row.session == session and row.kind == OPEN:
            names = {}
        elif row.session == session and row.kind == FILE and row.payload:
            names.pop(row.payload.decode(), None)
            names[row.payload.decode()] = True
    return list(names)


def games_of(folder):
    """The games of the sessions in use, by number."""
    games = {}
    for row in rows_of(journal_of(folder)):
        if row.kind == OPEN:
            games[row.session] = Game(row.place, 0)
        elif row.kind == CLOSE:
            del games[row.session]
        else:
            games[row.session] = games[row.session]._replace(inputs=games[row.session].inputs + 1)
    return games


def without_last(journal, session, moves):
    """The journal's bytes without the last moves of a session's game, sizes of its screen among them; none where it
    hasn't so many."""
    rows = list(rows_of(journal))
    inputs = []
    for at, row in enumerate(rows):
        if row.session == session:
            inputs = [] if row.kind in (OPEN, CLOSE) else [*inputs, at]
    if not 1 <= moves <= len(inputs):
        return None
    gone = set(inputs[-moves:])
    kept = [journal[row.place : row.place + 5 + len(row.payload)] for at, row in enumerate(rows) if at not in gone]
    return journal[: len(JOURNAL_HEADER)] + b"".join(kept) + b"\0"


def snapshot_file(folder, session):
    return folder / f"snap{session:02}"


def areas_of(folder, session):
    """Both areas of a session's snapshot file."""
    path = snapshot_file(folder, session)
    size = path.stat().st_size
    with open(path, "rb") as file:
        front = file.read(12)
        made = size >= MADE and front.startswith(SNAPSHOT_HEADER)
        for side, start in enumerate(STARTS):
            gate = front[GATES[side]] if len(front) == 12 else 0
            file.seek(start)
            place, count, length = struct.unpack(">QII", file.read(16).ljust(16, b"\0"))
            whole = length <= MOST_BYTES and start + 16 + length <= size
            yield Area(side, gate, place, count, length, made and gate == 1 and whole, size > start)


def turns_to_play(areas, game):
    """How many inputs are behind the newest open area of this game, or behind its OPEN."""
    counts = [area.count for area in areas if area.is_open and area.place == game.place]
    return game.inputs - max([count for count in counts if count <= game.inputs], default=0)


def are_made(folder):
    """Whether the folder has a snapshot file for each session, as `init` leaves it."""
    files = [snapshot_file(folder, session) for session in range(SESSIONS)]
    fresh = SNAPSHOT_HEADER.ljust(MADE, b"\0")
    return all(file.is_file() and file.read_bytes() == fresh for file in files)


def write_at(path, place, piece):
    with open(path, "r+b") as file:
        file.seek(place)
        file.write(piece)
        file.flush()
        os.fsync(file.fileno())


def close_area(draw, path, area):
    write_at(path, GATES[area.side], b"\0")


def tear_area(draw, path, area):
    """As a stop inside a put may leave it."""
    close_area(draw, path, area)
    size = 16 + area.length
    first = draw.randrange(size)
    write_at(path, STARTS[area.side] + first, draw.randbytes(draw.randint(1, size - first)))


def take_back(folder, session):
    """Takes the last row of a journal away, where it is a move of this session: its gate is shut, and before that the
    gate of a snapshot behind it. Says whether it was so."""
    rows = list(rows_of(journal_of(folder)))
    if not rows or rows[-1].session != session or rows[-1].kind in (OPEN, CLOSE):
        return False
    inputs = games_of(folder)[session].inputs
    path = snapshot_file(folder, session)
    for area in areas_of(folder, session) if path.exists() else ():
        if area.is_open and area.count >= inputs:
            write_at(path, GATES[area.side], b"\0")
    write_at(folder / "journal", rows[-1].place, b"\0")
    return True


def cut_area(draw, path, area):
    """It doesn't end inside the file any more, and what stands behind it is gone."""
    with open(path, "r+b") as file:
        file.truncate(STARTS[area.side] + draw.randrange(16 + area.length))


def lose_world(draw, path, area):
    """It stays open, with the bytes of no world."""
    write_at(path, STARTS[area.side] + 16, bytes(4))


def lose_header(draw, path, area):
    write_at(path, draw.randrange(8), b"\xff")


SPOILS = (close_area, tear_area, cut_area, lose_world, lose_header)


def spoil_one(draw, folder, sessions):
    """Spoils an open area of one of these sessions by one of these ways; the session's number and the
    way, or none where no area is open."""
    found = [(session, area) for session in sessions for area in areas_of(folder, session) if area.is_open]
    if not found:
        return None
    session, area = draw.choice(found)
    spoil = draw.choice(SPOILS)
    spoil(draw, snapshot_file(folder, session), area)
    return session, spoil.__name__
