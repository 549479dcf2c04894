#!/usr/bin/env python3
"""Works out what `disk_cases` must print, by the rules of disks, journals and snapshot files alone.

    drills/disk_cases.py [--write]

A case is a piece of work on a disk in memory, which of its device calls fail, counted from 0, and the choice
of a stop. This is a model of its own, written from docs/FORMATS.md, docs/HOSTING.md and the page of
`disk_model`: the calls that each piece of work makes, in order; what a disk reads as and what a stop may leave
of it; what a reader finds in such bytes; what a host answers over it; and what a packing does. It looks whether
crates/disk_cases/stdin has each case and crates/disk_cases/stdout what must come of it (`rt ci` compares the
second with what the program writes), and whether over all choices each case ends in each of the ways that the
table ENDS has, and in no other. With `--write` it writes both files. It ends with 1 where something is
otherwise."""

import pathlib
import struct
import sys

TOP = pathlib.Path(__file__).resolve().parent.parent
FOLDER = TOP / "crates" / "disk_cases"
CHOICES = range(32)
# Where a snapshot file has its second area an image has 8 megabytes, and 32 of them take too long.
FEW_CHOICES = (0, 5, 10, 14, 17, 21, 26, 31)


class Fault(Exception):
    """A device call that failed."""


class Bytes:
    """Bytes of which most are zeros."""

    def __init__(self, length=0, at=None):
        self.length, self.at = length, dict(at or {})

    def copy(self):
        return Bytes(self.length, self.at)

    def byte(self, place):
        return self.at.get(place, 0)

    def part(self, place, count):
        return bytes(self.byte(place + offset) for offset in range(count))

    def put(self, place, piece):
        for offset, byte in enumerate(piece):
            self.at[place + offset] = byte
        self.length = max(self.length, place + len(piece))


class Image:
    """What the choice of a stop leaves: an odd one has the greatest size, and in it writes that failed have
    landed. Its next four bits keep, at the places that are 0, 1, 2 and 3 modulo 4, what was written; of other
    places it has the synced byte, and 255 behind the synced ones."""

    def __init__(self, disk, choice):
        self.disk, self.choice = disk, choice
        ends = [place + count for place, count in disk.ranges]
        self.length = max([disk.synced.length] + ends) if choice % 2 else disk.synced.length

    def byte(self, place):
        if place >= self.length:
            return 0
        if self.choice >> (place % 4 + 1) & 1:
            return (self.disk.landed if self.choice % 2 else self.disk.seen).byte(place)
        return self.disk.synced.byte(place) if place < self.disk.synced.length else 255

    def part(self, place, count):
        return bytes(self.byte(place + offset) for offset in range(count))


class Disk:
    """A disk, and which of its calls fail."""

    def __init__(self, held, fails=()):
        self.synced, self.seen, self.landed = held.copy(), held.copy(), held.copy()
        self.ranges, self.fails, self.calls, self.faults = [], fails, 0, 0

    def is_good(self):
        self.calls += 1
        return self.calls - 1 not in self.fails

    def end(self, good):
        if not good:
            self.faults += 1
            raise Fault

    def look(self):
        self.end(self.is_good())

    def write(self, place, piece):
        good = self.is_good()
        self.ranges.append((place, len(piece)))
        self.landed.put(place, piece)
        if good:
            self.seen.put(place, piece)
        self.end(good)

    def sync(self):
        good = self.is_good()
        if good:
            self.synced, self.landed, self.ranges = self.seen.copy(), self.seen.copy(), []
        self.end(good)


# The journal: rows of one OPEN and one LINE are enough here.

HEADER = bytes.fromhex("5354484A0000000101") + bytes(7)
GATE, VERSION = 76, 8


def has_header(held):
    """Whether bytes begin with a header of either version."""
    return held.part(0, VERSION) + held.part(VERSION + 1, 7) == HEADER[:VERSION] + HEADER[VERSION + 1 :]


def row_of(command):
    """A row without its gate."""
    session, kind, words = command
    if kind == "CLOSE":
        return struct.pack(">BBH", session, 5, 0)
    if kind == "OPEN":
        # the story's digest isn't looked at: a host of the same story reads it
        payload = struct.pack(">B2sH32sQBBQ", 2, words.encode(), 0, bytes(32), 7, 80, 24, 50_000_000)
        return struct.pack(">BBH", session, 1, len(payload)) + payload
    payload = struct.pack(">II", 1, 0) + words.encode()
    return struct.pack(">BBH", session, 2, len(payload)) + payload


def command_in(kind, payload):
    """A command's name, and its key or text."""
    if kind == 5:
        return "CLOSE", ""
    return ("OPEN", payload[1:3].decode()) if kind == 1 else ("LINE", payload[8:].decode())


def rows_in(held):
    """The commands that bytes spell, and the place of the first gate that isn't 1."""
    rows, at = [], 16
    while held.byte(at) == 1:
        session, kind, length = struct.unpack(">BBH", held.part(at + 1, 4))
        payload = held.part(at + 5, length)
        rows.append((session, *command_in(kind, payload)))
        at += 5 + length
    return rows, at


class Journal:
    def __init__(self, disk):
        disk.sync()
        disk.look()
        disk.look()
        self.disk, self.uncertain = disk, False
        self.rows, self.gate = rows_in(disk.seen)
        if disk.seen.byte(self.gate) != 0:
            disk.write(self.gate, b"\0")
            disk.sync()
        if disk.seen.byte(VERSION) != 1:
            disk.write(VERSION, b"\1")
            disk.sync()

    def append(self, command):
        """The counts of faults before and after it, where it fails."""
        before = self.disk.faults
        try:
            if self.uncertain:
                self.disk.write(self.gate, b"\0")
                self.disk.sync()
                self.uncertain = False
            row = row_of(command)
            self.disk.write(self.gate + 1, row + b"\0")
            self.disk.sync()
            self.uncertain = True
            self.disk.write(self.gate, b"\1")
            self.disk.sync()
            self.uncertain = False
        except Fault:
            return before, self.disk.faults
        self.rows.append(command)
        self.gate += 1 + len(row)
        return None


def show(session, rows):
    """The head of a show of the Echo story, and its text in the plain style."""
    last = [row for row in rows if row[0] == session][-1]
    return f"SHOW {session} 0 =>" if last[1] == "OPEN" else f"SHOW {session} 1 ={last[2]}%0A>"


def answer(journal, line):
    """What a host answers to a line, over the rows of its journal."""
    words = line.split()
    session = int(words[1])
    of_session = [row for row in journal.rows if row[0] == session]
    if words[0] == "LAST":
        return show(session, journal.rows) if of_session and of_session[-1][1] != "CLOSE" else "NO 2"
    if words[0] == "OPEN":
        command = (session, "OPEN", words[2])
    else:
        command = (session, "LINE", words[5].removeprefix("="))
    if command[1] == "LINE" and not of_session:
        return "NO 2"
    if of_session and of_session[-1][1] == command[1]:
        return show(session, journal.rows) if of_session[-1] == command else "NO 7"
    fault = journal.append(command)
    return show(session, journal.rows) if fault is None else f"NO 11 {fault[0]} {fault[1]}"


def host(disk, lines):
    """The status and the replies of a host over a disk."""
    if not has_header(disk.seen):
        return "8"
    try:
        journal = Journal(disk)
    except Fault:
        return "6"
    return ", ".join(["0"] + [answer(journal, line) for line in lines])


OPEN, GO, NO = "OPEN 0 k1 0 7 80 24", "LINE 0 k1 1 1 =go", "LINE 0 k1 1 1 =no"
OTHER, LAST, OTHER_LAST = "OPEN 1 k2 0 7 80 24", "LAST 0 k1", "LAST 1 k2"

# what a journal has rows of, whether its second gate is torn, whether it is of version 1, and the lines that
# are answered
JOURNALS = {
    "open": ([OPEN, GO], False, False, [LAST]),
    "close": ([OPEN, GO], True, False, [LAST]),
    "append": ([OPEN], False, False, [GO]),
    "append-two": ([OPEN], False, False, [GO, OTHER]),
    "append-three": ([OPEN], False, False, [GO, OTHER, OTHER]),
    "migrate": ([OPEN, GO], False, True, [LAST]),
    "close-migrate": ([OPEN, GO], True, True, [LAST]),
    "migrate-append": ([OPEN], False, True, [GO]),
}


def held_of(image):
    held = Bytes()
    held.put(0, image.part(0, image.length))
    return held


def journal_case(work, fails, choice):
    """What comes of a case, and how many commands each session then has."""
    before, torn, older, lines = JOURNALS[work]
    made = Disk(Bytes())
    made.write(0, HEADER + b"\0")
    made.sync()
    host(made, before)
    if torn:
        made.write(GATE, b"\7")
        made.sync()
    if older:
        made.write(VERSION, b"\0")
        made.sync()
    disk = Disk(made.seen, fails)
    told = [host(disk, lines)]
    image = held_of(Image(disk, choice))
    told.append(f"version byte {image.byte(VERSION)}")
    for after in ([LAST, OTHER_LAST], [GO], [NO]):
        other = Disk(image)
        told.append(f"{host(other, after)}, {other.seen.length} bytes")
    rows = rows_in(image)[0]
    return "; ".join(told), tuple(sum(row[0] == session for row in rows) for session in (0, 1))


# A journal that is packed into another one: `top` asks for the new one's size, and `pack` does so again; then it
# reads the old one by two calls, and writes the new one by six.

PACKED = [(0, "OPEN", "k1"), (0, "LINE", "go"), (1, "OPEN", "k2"), (1, "CLOSE", "")]


def pack(old, new):
    """How the program ends, and what it writes."""
    try:
        new.look()
        new.look()
        old.look()
        old.look()
        rows, _ = rows_in(old.seen)
        closed = {row[0] for row in rows if row[1] == "CLOSE"}
        kept = [row for row in rows if row[0] not in closed]
        new.write(0, bytes(16))
        new.sync()
        new.write(16, b"".join(b"\1" + row_of(row) for row in kept) + b"\0")
        new.sync()
        new.write(0, HEADER)
        new.sync()
    except Fault:
        return "6 "
    return f"0 packed {len(kept)} of {len(rows)}"


def pack_case(work, fails, choice):
    """What comes of a case, and how many commands each session of the new journal then has, if it is one."""
    held = Bytes()
    held.put(0, HEADER + b"".join(b"\1" + row_of(row) for row in PACKED) + b"\0")
    old = Disk(held, fails if work == "pack-old" else ())
    new = Disk(Bytes(), () if work == "pack-old" else fails)
    told = [pack(old, new)]
    images = [held_of(Image(disk, choice)) for disk in (new, old)]
    for image in images:
        told.append(f"{host(Disk(image), [LAST, OTHER_LAST])}, {image.length} bytes")
    if not has_header(images[0]):
        return "; ".join(told), None
    rows = rows_in(images[0])[0]
    return "; ".join(told), tuple(sum(row[0] == session for row in rows) for session in (0, 1))


# Snapshot files.

FILE_HEADER = bytes.fromhex("5354485300000001")
GATES = (10, 11)
STARTS = (4096, 8_392_720)
PLACE = 16
CLOSED, UNSURE = "closed", "unsure"


def areas_in(held):
    """The open areas that bytes have, as count and bytes, by side; none where they have no header."""
    if held.length < 4096 or held.part(0, 8) != FILE_HEADER:
        return None
    areas = {}
    for side, start in enumerate(STARTS):
        place, count, length = struct.unpack(">QII", held.part(start, 16))
        if held.byte(GATES[side]) == 1 and length <= 8_388_608 and start + 16 + length <= held.length:
            areas[side] = (place, count, held.part(start + 16, length))
    return areas


class Store:
    def __init__(self, disk):
        disk.sync()
        for _ in range(4):
            disk.look()
        self.disk = disk
        areas = areas_in(disk.seen)
        self.is_made = areas is not None
        self.slots = [
            areas[side][:2] if areas and side in areas else UNSURE if disk.seen.byte(GATES[side]) else CLOSED
            for side in (0, 1)
        ]

    def put(self, count, piece):
        """The counts of faults before and after it, where it fails."""
        before = self.disk.faults
        known = [side for side in (0, 1) if isinstance(self.slots[side], tuple)]
        newest = max(known, key=lambda side: self.slots[side], default=None)
        side = 0 if newest is None else 1 - newest
        slot = self.slots[side]
        try:
            self.slots[side] = CLOSED if slot == CLOSED else UNSURE
            if slot != CLOSED:
                self.disk.write(GATES[side], b"\0")
            self.disk.sync()
            self.slots[side] = CLOSED
            self.disk.write(STARTS[side], struct.pack(">QII", PLACE, count, len(piece)))
            self.disk.write(STARTS[side] + 16, piece)
            self.disk.sync()
            self.slots[side] = UNSURE
            self.disk.write(GATES[side], b"\1")
            self.disk.sync()
            self.slots[side] = (PLACE, count)
        except Fault:
            return before, self.disk.faults
        return None


def told_fault(fault):
    return "ok" if fault is None else f"fault {fault[0]} {fault[1]}"


def newest_told(areas, most):
    counts = [(count, -side, piece) for side, (place, count, piece) in areas.items() if place == PLACE and count <= most]
    if not counts:
        return "none"
    count, _, piece = max(counts)
    return f"{count} {piece.decode()}"


def image_told(image):
    areas = areas_in(image)
    return "no header" if areas is None else f"{newest_told(areas, 47)}, {newest_told(areas, 48)}"


def new_file():
    disk = Disk(Bytes())
    disk.write(0, FILE_HEADER + bytes(4096 - 8))
    disk.sync()
    return disk.seen


def store_case(work, fails, choice):
    """What comes of a case, and what the image tells."""
    told = []
    if work == "make":
        disk = Disk(Bytes(), fails)
        try:
            disk.write(0, FILE_HEADER + bytes(4096 - 8))
            disk.sync()
            told.append("ok")
        except Fault:
            told.append(told_fault((0, disk.faults)))
    else:
        held, puts = new_file(), [(16, b"aaa"), (48, b"ccc")]
        if work == "put":
            made = Disk(held)
            store = Store(made)
            store.put(16, b"aaa")
            store.put(32, b"bbb")
            held, puts = made.seen, [(48, b"ccc")]
        disk = Disk(held, fails)
        store = Store(disk)
        told += [told_fault(store.put(count, piece)) for count, piece in puts]
    image = image_told(Image(disk, choice))
    return "; ".join(told + [image]), image


# The ways in which a case ends over all choices: for a journal how many commands the two sessions then have,
# for a snapshot file its newest areas. An opening makes the calls 0 to 2, and an append the next four; where
# a gate is uncertain two more before them, and so does an opening that finds a torn gate; one that finds a
# journal of version 1 makes two more behind these. The opening of a
# snapshot file makes the calls 0 to 4, a put six, or seven where the area's gate isn't known to be 0.
BEFORE, BOTH = (1, 0), (2, 0)
REPAIRED, ADDED = (1, 1), (2, 1)
OLD, NEW = "32 bbb, 32 bbb", "32 bbb, 48 ccc"
NONE, FIRST, SECOND = "none, none", "16 aaa, 16 aaa", "none, 48 ccc"
ENDS = {
    ("open", ()): {BOTH},
    ("open", (0,)): {BOTH},
    ("open", (1,)): {BOTH},
    ("open", (2,)): {BOTH},
    ("close", ()): {BEFORE},
    ("close", (0,)): {BEFORE},
    ("close", (1,)): {BEFORE},
    ("close", (2,)): {BEFORE},
    ("close", (3,)): {BEFORE},
    ("close", (4,)): {BEFORE},
    ("migrate", ()): {BOTH},
    ("migrate", (0,)): {BOTH},
    ("migrate", (1,)): {BOTH},
    ("migrate", (2,)): {BOTH},
    ("migrate", (3,)): {BOTH},
    ("migrate", (4,)): {BOTH},
    ("close-migrate", ()): {BEFORE},
    ("close-migrate", (0,)): {BEFORE},
    ("close-migrate", (1,)): {BEFORE},
    ("close-migrate", (2,)): {BEFORE},
    ("close-migrate", (3,)): {BEFORE},
    ("close-migrate", (4,)): {BEFORE},
    ("close-migrate", (5,)): {BEFORE},
    ("close-migrate", (6,)): {BEFORE},
    ("migrate-append", ()): {BOTH},
    ("migrate-append", (4,)): {BEFORE},
    ("migrate-append", (5,)): {BEFORE},
    ("migrate-append", (6,)): {BEFORE},
    ("migrate-append", (7,)): {BEFORE, BOTH},
    ("migrate-append", (8,)): {BEFORE, BOTH},
    ("append", ()): {BOTH},
    ("append", (3,)): {BEFORE},
    ("append", (4,)): {BEFORE},
    ("append", (5,)): {BEFORE, BOTH},
    ("append", (6,)): {BEFORE, BOTH},
    # the next append repairs the gate first, by two calls that may fail as well
    ("append-two", (5,)): {REPAIRED},
    ("append-two", (6,)): {REPAIRED},
    ("append-two", (6, 7)): {BEFORE, BOTH},
    # nor is the gate known here, but no choice draws a byte that a later write has replaced
    ("append-two", (5, 6)): {BEFORE},
    ("append-two", (5, 7)): {BEFORE},
    ("append-two", (6, 8)): {BEFORE},
    ("append-two", (6, 9)): {BEFORE},
    # the second of two appends fails, and the first one stands
    ("append-two", (7,)): {BOTH},
    ("append-two", (8,)): {BOTH},
    ("append-two", (9,)): {BOTH, ADDED},
    ("append-two", (10,)): {BOTH, ADDED},
    # behind a fault of an append's first two calls there is no repair: the next four calls are an append
    ("append-two", (3, 7)): {BEFORE, REPAIRED},
    ("append-two", (4, 8)): {BEFORE, REPAIRED},
    ("append-three", (5, 6)): {REPAIRED},
    ("append-three", (6, 7)): {REPAIRED},
    ("append-three", (6, 8)): {REPAIRED},
    # the new journal is none, or the whole one: its header is written last
    ("pack", ()): {BOTH},
    ("pack", (0,)): {None},
    ("pack", (1,)): {None},
    ("pack", (2,)): {None},
    ("pack", (3,)): {None},
    ("pack", (4,)): {None},
    ("pack", (5,)): {None},
    ("pack", (6,)): {None, BOTH},
    ("pack", (7,)): {None, BOTH},
    ("pack-old", (0,)): {None},
    ("pack-old", (1,)): {None},
    ("make", ()): {NONE},
    ("make", (0,)): {"no header", NONE},
    ("make", (1,)): {"no header", NONE},
    ("put", ()): {NEW},
    ("put", (5,)): {OLD},
    ("put", (6,)): {OLD},
    ("put", (7,)): {OLD},
    ("put", (8,)): {OLD},
    ("put", (9,)): {OLD},
    ("put", (10,)): {OLD, NEW},
    ("put", (11,)): {OLD, NEW},
    ("put-two", ()): {"16 aaa, 48 ccc"},
    ("put-two", (5,)): {SECOND},
    ("put-two", (6,)): {SECOND},
    ("put-two", (7,)): {SECOND},
    ("put-two", (8,)): {SECOND},
    ("put-two", (9,)): {SECOND},
    ("put-two", (10,)): {SECOND},
    # the second put closes the gate of the area whose opening failed, before it writes there
    ("put-two", (10, 11)): {NONE, FIRST},
    ("put-two", (10, 12)): {NONE},
    ("put-two", (10, 13)): {NONE},
    ("put-two", (10, 14)): {NONE},
    ("put-two", (10, 15)): {NONE},
    ("put-two", (10, 16)): {NONE, SECOND},
    ("put-two", (10, 17)): {NONE, SECOND},
}


def case_of(work):
    if work in JOURNALS:
        return journal_case
    return pack_case if work.startswith("pack") else store_case


def main():
    given, wanted, otherwise = [], [], []
    for (work, fails), ends in ENDS.items():
        found = set()
        large = work == "put" or (work, fails) == ("put-two", ())
        for choice in FEW_CHOICES if large else CHOICES:
            case = f"{work} {','.join(map(str, fails)) or '-'} {choice}"
            outcome, end = case_of(work)(work, fails, choice)
            given.append(case + "\n")
            wanted.append(f"{case}: {outcome}\n")
            found.add(end)
        if found != ends:
            otherwise.append(f"{work} {fails}: ends as {found} in place of {ends}")
    for name, lines in (("stdin", given), ("stdout", wanted)):
        if sys.argv[1:] == ["--write"]:
            (FOLDER / name).write_text("".join(lines))
        elif (FOLDER / name).read_text() != "".join(lines):
            otherwise.append(f"crates/disk_cases/{name} isn't what the rules give")
    print("\n".join(otherwise) or f"{len(given)} cases, each as the rules give it")
    return 1 if otherwise else 0


if __name__ == "__main__":
    sys.exit(main())
