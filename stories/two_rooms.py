#!/usr/bin/env python3
"""Writes Two Rooms, a small story for tests: a buffer with a status line above it, and lines of which the
first letter counts, look, go, dice, save, restore and undo. A state is saved for undo before each line,
as stories of Inform do.

usage: two_rooms.py FILE        the story file
       two_rooms.py --hex       its bytes, as `rows/stories/two_rooms.hex` has them
       two_rooms.py --rust      its bytes behind the header, as `top_tests` has them
"""
import struct
import sys

OPCODES = {
    "add": 0x10, "bitxor": 0x1A, "jump": 0x20, "jz": 0x22, "jnz": 0x23, "jeq": 0x24, "jne": 0x25,
    "copy": 0x40, "aload": 0x48, "aloadb": 0x4A, "streamchar": 0x70, "streamnum": 0x71, "streamstr": 0x72,
    "random": 0x110, "save": 0x123, "restore": 0x124, "saveundo": 0x125, "restoreundo": 0x126,
    "glk": 0x130, "setiosys": 0x149,
}  # fmt: skip
WINDOW_OPEN, WINDOW_CLEAR, MOVE_CURSOR, SET_WINDOW = 0x23, 0x2A, 0x2B, 0x2F
STREAM_ITERATE, STREAM_OPEN_FILE, STREAM_CLOSE = 0x40, 0x42, 0x44
FILEREF_CREATE_BY_PROMPT, FILEREF_DESTROY, SELECT, REQUEST_LINE = 0x62, 0x63, 0xC0, 0xD0
ROM, HEADER, STACK = 0x300, 36, 0x400
NONE, POP, PUSH = ("none",), ("sp",), ("sp",)


def ram(offset):
    """The word at this place of RAM, which is the last page and isn't in the file."""
    return ("ram", offset)


LINE, EVENT, LENGTH = 0x00, 0x20, ram(0x28)
MAIN, STATUS, ROOM, TURNS, LETTER = ram(0x30), ram(0x34), ram(0x38), ram(0x3C), ram(0x40)
FILE, STREAM, RESULT, ROCK = ram(0x44), ram(0x48), ram(0x4C), 0x50
SAVES = 301


class Code:
    """Instructions and texts one after the other, with labels that may stand behind their use."""

    def __init__(self):
        self.bytes, self.labels, self.uses = bytearray(), {}, []

    def at(self, label):
        self.labels[label] = HEADER + len(self.bytes)

    def operand(self, value):
        """The mode of an operand, its bytes, and the label whose number goes there."""
        if value == 0:
            return 0, b"", None
        if isinstance(value, int):
            return (1, struct.pack(">b", value), None) if -128 <= value < 128 else (2, struct.pack(">h", value), None)
        if isinstance(value, str):
            return 2, b"\0\0", value
        return {"none": (0, b"", None), "sp": (8, b"", None), "ram": (0xD, bytes(value[1:]), None)}[value[0]]

    def do(self, name, *values):
        """An instruction. A label is an address, but for the last operand of a jump."""
        code = OPCODES[name]
        self.bytes += bytes([code]) if code < 0x80 else struct.pack(">H", code + 0x8000)
        parts = [self.operand(value) for value in values]
        modes = [mode for mode, _, _ in parts] + [0]
        self.bytes += bytes(modes[i] | modes[i + 1] << 4 for i in range(0, len(parts), 2))
        for i, (_, data, label) in enumerate(parts):
            if label:
                jumps = name.startswith("j") and i == len(parts) - 1
                self.uses.append((len(self.bytes), label, jumps))
            self.bytes += data

    def glk(self, selector, *values, to=NONE):
        for value in reversed(values):
            self.do("copy", value, PUSH)
        self.do("glk", selector, len(values), to)

    def text(self, label, text):
        self.at(label)
        self.bytes += b"\xE0" + text.encode("ascii") + b"\0"

    def words(self, label, *labels):
        self.at(label)
        for word in labels:
            self.uses.append((len(self.bytes) + 2, word, False))
            self.bytes += bytes(4)

    def done(self):
        for place, label, jumps in self.uses:
            number = self.labels[label] - (HEADER + place if jumps else 0)
            self.bytes[place : place + 2] = struct.pack(">h", number)
        return bytes(self.bytes)


def asked_for_a_file(c, mode):
    """A stream on the file that the player names, for a saved game."""
    c.glk(FILEREF_CREATE_BY_PROMPT, 1, mode, 0, to=FILE)
    c.do("jz", FILE, "failed")
    c.glk(STREAM_OPEN_FILE, FILE, mode, SAVES, to=STREAM)
    c.glk(FILEREF_DESTROY, FILE)
    c.do("jz", STREAM, "failed")


def code():
    c = Code()
    c.bytes += b"\xC1\0\0"
    c.do("setiosys", 2, 0)
    c.glk(WINDOW_OPEN, 0, 0, 0, 3, 1, to=MAIN)
    c.glk(WINDOW_OPEN, MAIN, 0x12, 1, 4, 2, to=STATUS)
    c.glk(SET_WINDOW, MAIN)

    c.at("describe")
    c.do("aload", "rooms", ROOM, PUSH)
    c.do("streamstr", POP)
    c.at("prompt")
    c.glk(WINDOW_CLEAR, STATUS)
    c.glk(SET_WINDOW, STATUS)
    c.do("aload", "names", ROOM, PUSH)
    c.do("streamstr", POP)
    c.glk(MOVE_CURSOR, STATUS, 20, 0)
    c.do("streamnum", TURNS)
    c.glk(SET_WINDOW, MAIN)
    c.do("streamchar", ord(">"))
    c.glk(REQUEST_LINE, MAIN, ROM + LINE, 20, 0)
    c.glk(SELECT, ROM + EVENT)
    c.do("jz", LENGTH, "unknown")
    c.do("aloadb", ROM + LINE, 0, LETTER)
    c.do("jeq", LETTER, ord("u"), "undo")
    c.do("saveundo", PUSH)
    c.do("jeq", POP, -1, "undone")
    for letter, label in (("l", "turn"), ("g", "go"), ("d", "dice"), ("s", "save"), ("r", "restore")):
        c.do("jeq", LETTER, ord(letter), label)
    c.at("unknown")
    c.do("streamstr", "what")
    c.do("jump", "prompt")

    c.at("go")
    c.do("bitxor", ROOM, 1, ROOM)
    c.at("turn")
    c.do("add", TURNS, 1, TURNS)
    c.do("jump", "describe")

    c.at("dice")
    c.do("add", TURNS, 1, TURNS)
    c.do("random", 6, PUSH)
    c.do("streamstr", "rolled")
    c.do("streamnum", POP)
    c.do("streamstr", "line")
    c.do("jump", "prompt")

    c.at("undo")
    c.do("restoreundo", RESULT)
    c.at("failed")
    c.do("streamstr", "no")
    c.do("jump", "prompt")
    c.at("undone")
    c.do("streamstr", "taken_back")
    c.do("jump", "describe")

    c.at("save")
    asked_for_a_file(c, 1)
    c.do("save", STREAM, RESULT)
    c.do("jeq", RESULT, -1, "restored")
    c.glk(STREAM_CLOSE, STREAM, 0)
    c.do("jnz", RESULT, "failed")
    c.do("streamstr", "saved")
    c.do("jump", "prompt")

    # The stream of the save was closed since; the restore's has the same rock.
    c.at("restored")
    c.do("copy", 0, STREAM)
    c.at("search")
    c.glk(STREAM_ITERATE, STREAM, ROM + ROCK, to=STREAM)
    c.do("jne", ram(ROCK), SAVES, "search")
    c.glk(STREAM_CLOSE, STREAM, 0)
    c.do("streamstr", "back")
    c.do("jump", "describe")

    c.at("restore")
    asked_for_a_file(c, 2)
    c.do("restore", STREAM, RESULT)
    c.glk(STREAM_CLOSE, STREAM, 0)
    c.do("jump", "failed")

    c.text("hall", "Hall")
    c.text("cellar", "Cellar")
    c.text("in_hall", "A hall.\n")
    c.text("in_cellar", "A cellar.\n")
    c.text("what", "What?\n")
    c.text("rolled", "Rolled ")
    c.text("line", "\n")
    c.text("no", "No.\n")
    c.text("taken_back", "Undone.\n")
    c.text("saved", "Saved.\n")
    c.text("back", "Restored.\n")
    c.words("names", "hall", "cellar")
    c.words("rooms", "in_hall", "in_cellar")
    return c.done()


def story():
    behind = code()
    whole = HEADER + len(behind)
    assert whole <= ROM, f"{whole} bytes"
    head = [0x476C756C, 0x00030103, ROM, ROM, ROM + 256, STACK, HEADER, 0, 0]
    image = struct.pack(">9I", *head) + behind.ljust(ROM - HEADER, b"\0")
    head[8] = sum(struct.unpack(f">{ROM // 4}I", image)) & 0xFFFFFFFF
    return struct.pack(">9I", *head) + image[HEADER:]


def main(out):
    image, size = story(), len(code())
    if out == "--hex":
        print("# Two rooms with a status line; it is written by `stories/two_rooms.py`.")
        print(f"size {ROM}")
        print(*(f"{word:08X}" for word in struct.unpack(">9I", image[:HEADER])))
        behind = image[HEADER : HEADER + size]
        for at in range(0, size, 24):
            print(behind[at : at + 24].hex(" ").upper())
    elif out == "--rust":
        for word in struct.unpack(">9I", image[:HEADER]):
            print(f"0x{word >> 16:04X}_{word & 0xFFFF:04X},")
        behind = image[HEADER : HEADER + size]
        for at in range(0, size, 20):
            print("".join(f"\\x{byte:02X}" for byte in behind[at : at + 20]) + "\\")
    else:
        with open(out, "wb") as file:
            file.write(image)


main(sys.argv[1])
