#!/usr/bin/env python3
"""Counts the instructions that a program takes for a `saveundo`, and for one with a `restoreundo` behind it, by
callgrind: by pages that differ from the file, bytes changed in each, and where in the page they stand. The story has
256 KB of RAM (or as much as the pages want), whose first bytes stand in the file. A count is of a round of a loop
with the instruction less a round without. It is no time: it knows no cache.

    bench/undo.py [--rounds N] [--zeros] [--apart] [--spread] [--pages P,P..] [--bytes B,B..] PROGRAM [OTHER]
    bench/undo.py --story FILE [--rounds N] [--zeros] [--apart] [--spread] --pages P --bytes B    the story alone

With --zeros RAM stands past the file, so that it is zeros at first; with --apart the bytes that change are spread
evenly over the page, else they are neighbours; with --spread the pages are spread evenly over RAM, each the 43rd of
its row of 64 where they are few, else they are neighbours. Wants valgrind."""

import argparse
import os
import struct
import subprocess
import sys
import tempfile

RAM, PAGE, LEAST = 512, 256, 262_144
ADDRESS, LEFT, MORE = 0, 4, 8
PLAIN, SAVE, BOTH = "plain", "save", "both"


class Code:
    """Instructions one after the other."""

    def __init__(self):
        self.bytes, self.labels = bytearray([0xC1, 4, 3, 0, 0]), {}

    def at(self, label):
        self.labels[label] = len(self.bytes)

    def do(self, opcode, *operands):
        """An operand is a local's offset in a list, or a number of four bytes."""
        self.bytes += bytes([opcode]) if opcode < 0x80 else struct.pack(">H", opcode + 0x8000)
        modes = [9 if isinstance(operand, list) else 3 for operand in operands]
        modes += [0] * (len(modes) % 2)
        self.bytes += bytes(low + 16 * high for low, high in zip(modes[::2], modes[1::2]))
        for operand in operands:
            self.bytes += bytes(operand) if isinstance(operand, list) else struct.pack(">i", operand)

    def back(self, local, label):
        """A jump back to the label where the local isn't 0."""
        self.do(0x23, [local], self.labels[label] - (len(self.bytes) + 7) + 2)


def story(kind, rounds, pages, count, apart, spread, zeros):
    """The bytes of a story that changes so many bytes of so many pages and goes through a loop."""
    size = max(LEAST, pages * PAGE)
    step = PAGE // count if apart else 1
    stride = size // PAGE // pages if spread else 1
    code = Code()
    code.do(0x40, RAM + PAGE * min(40, stride - 1), [ADDRESS])
    code.do(0x40, pages, [LEFT])
    code.at("page")
    code.do(0x40, count, [MORE])
    code.at("byte")
    code.do(0x4E, [ADDRESS], 0, 0x5A)
    code.do(0x10, [ADDRESS], step, [ADDRESS])
    code.do(0x11, [MORE], 1, [MORE])
    code.back(MORE, "byte")
    code.do(0x10, [ADDRESS], PAGE * stride - count * step, [ADDRESS])
    code.do(0x11, [LEFT], 1, [LEFT])
    code.back(LEFT, "page")
    code.do(0x40, rounds, [ADDRESS])
    code.at("round")
    if kind != PLAIN:
        code.do(0x125, [LEFT])
    if kind == BOTH:
        # What is restored comes behind this with -1 in the local.
        code.do(0x23, [LEFT], 2 + 4)
        code.do(0x126, [MORE])
    code.do(0x11, [ADDRESS], 1, [ADDRESS])
    code.back(ADDRESS, "round")
    code.do(0x120)
    filed = b"" if zeros else bytes((place * 7 + 3) % 251 % 0x5A for place in range(size))
    header = b"Glul" + struct.pack(">8I", 0x00030103, RAM, RAM + len(filed), RAM + size, 4096, 36, 0, 0)
    return (header + code.bytes).ljust(RAM, b"\0") + filed


def counted(program, folder, *given):
    """The instructions of a run of such a story."""
    name, told = os.path.join(folder, "story.ulx"), os.path.join(folder, "told")
    with open(name, "wb") as file:
        file.write(story(*given))
    run = ["valgrind", "-q", "--tool=callgrind", f"--callgrind-out-file={told}", os.path.abspath(program), "run", name,
           "--budget", "1000000000000"]
    said = subprocess.run(run, stdin=subprocess.DEVNULL, stdout=subprocess.PIPE, check=False)
    if said.returncode:
        sys.exit(f"undo.py: {program} ended with {said.returncode}: {said.stdout.decode()}")
    with open(told) as file:
        return next(int(line.split()[1]) for line in file if line.startswith("totals:"))


def a_round(program, folder, kind, rounds, *rest):
    """The instructions of a round."""
    return (counted(program, folder, kind, rounds + 1, *rest) - counted(program, folder, kind, 1, *rest)) // rounds


def main():
    words = argparse.ArgumentParser(usage=__doc__)
    words.add_argument("--rounds", type=int, default=100)
    words.add_argument("--pages", default="4")
    words.add_argument("--bytes", default="4,32,256")
    words.add_argument("--apart", action="store_true")
    words.add_argument("--spread", action="store_true")
    words.add_argument("--zeros", action="store_true")
    words.add_argument("--story")
    words.add_argument("programs", nargs="*")
    given = words.parse_args()
    places = given.apart, given.spread, given.zeros
    if given.story:
        with open(given.story, "wb") as file:
            file.write(story(SAVE, given.rounds, int(given.pages), int(given.bytes), *places))
        return
    names = ["saveundo", "both ways"] + ["saveundo before", "both ways before"] * (len(given.programs) > 1)
    print("| Pages | Bytes in each | " + " | ".join(names) + " |")
    print("|---" * (2 + len(names)) + "|")
    with tempfile.TemporaryDirectory() as folder:
        for pages in map(int, given.pages.split(",")):
            for count in map(int, given.bytes.split(",")):
                rest, cells = (pages, count, *places), []
                for program in given.programs:
                    bare = a_round(program, folder, PLAIN, given.rounds, *rest)
                    cells += [a_round(program, folder, kind, given.rounds, *rest) - bare for kind in (SAVE, BOTH)]
                print(f"| {pages:,} | {count} | " + " | ".join(f"{cell:,}" for cell in cells) + " |", flush=True)


if __name__ == "__main__":
    main()
