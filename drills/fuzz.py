#!/usr/bin/env python3
"""Gives the program damaged images, tables of Glk calls, containers, saves, journals, snapshot files and lines, case by case
by numbers drawn from a seed, and looks how it takes them.

    drills/fuzz.py [CASES] [--seed N] [--first CASE]        2,000 cases unless told otherwise

Each run has to end within 20 processor seconds, with a status that docs/FORMATS.md names for it, one line on standard error but
with 0, at most 256 MiB, and replies that are shows or refusals, one for each line. What is played is played three
times, and the shows have to be the same: in one go by `run`, and in a session over a stop, where a snapshot serves from
the 16th input on. A story file is refused by `check` as by `run`. A damaged journal is refused at the place that
drills/folder.py finds in it, or opens; it and a folder with a damaged snapshot file answer twice the same. It says what
it tried and ends with 1 where something is otherwise: the number of such a case is told, with which `--first` plays it
again."""

import argparse
import collections
import os
import pathlib
import random
import re
import resource
import shutil
import signal
import struct
import subprocess
import sys
import tempfile
import time

import folder
from memory import story

TOP = pathlib.Path(__file__).resolve().parent.parent
PROGRAM = pathlib.Path(os.environ.get("STORYHOST", TOP / "crates/storyhost/out/storyhost"))
SECONDS, MOST_MEMORY = 20, 256
BUDGET, FEW_TICKS = 50_000_000, 200_000
FRONT = "464F524D0000012449465253524964780000001000000001457865630000000000000024474C554C00000100"
WORDS = [0, 1, 2, 0x7F, 0x80, 0xFF, 0x100, 0x7FFF, 0xFFFF, 0x10000, 0xFFFFFF, 0x1000000, 0x7FFFFFFF, 0x80000000, 0xFFFFFFFF]
SHOW_LINE = re.compile(r"W( \d+){6}|C \d+|T \d+ \d+ =[!-~]+|G \d+ \d+ =[!-~]*|E (quit|closed|fault \d+)|P \d+ \d+|I \d+ (char|line \d+ =[!-~]*)")
REFUSAL = re.compile(r"NO ([1-9]|10|13|14|[56] \d+)")
BAD_STORY = re.compile(r"bad 0 (image [1-5]|blorb [1-4])\n")


class Otherwise(Exception):
    pass


def limit():
    resource.setrlimit(resource.RLIMIT_CPU, (SECONDS, SECONDS + 1))


def spent():
    """The processor seconds of all runs so far."""
    used = resource.getrusage(resource.RUSAGE_CHILDREN)
    return used.ru_utime + used.ru_stime


def calls_of_rows():
    """The calls that rows have a story of calls_glk.hex make, as lists of numbers: the selector, the count, the arguments."""
    made = collections.defaultdict(list)
    for row in sorted((TOP / "rows").glob("*.row")):
        for line in row.read_text().splitlines():
            if line.startswith("call "):
                name, *numbers = line.split()[1:]
                selector, *given = (int(it.removeprefix("x"), 0) for it in numbers)
                by_count = numbers[1:2] and numbers[1][0] == "x"
                made[row, name].append([selector + 0x10000, *given] if by_count else [selector, len(given), *given])
    return list(made.values())


def replies_of(text):
    """The replies of a text, one by one; those of `run` have no line before the show."""
    replies, show = [], []
    for line in text.splitlines():
        if not show and REFUSAL.fullmatch(line):
            replies.append(line)
        elif line == ".":
            replies.append("\n".join(show))
            show = []
        elif SHOW_LINE.fullmatch(line) or (not show and re.fullmatch(r"SHOW \d+ \d+", line)):
            show.append(line)
        else:
            raise Otherwise(f"a reply has the line {line!r}")
    if show or not text.endswith("\n") and text:
        raise Otherwise("the last reply isn't whole")
    return replies


class Damage:
    """Ways to spoil bytes."""

    def __init__(self, draw):
        self.draw = draw

    def place(self, whole):
        """A place, for the most part of bytes that aren't 0."""
        for _ in range(self.draw.choice((0, 0, 1, 20))):
            at = self.draw.randrange(len(whole))
            if whole[at]:
                return at
        return self.draw.randrange(len(whole))

    def once(self, whole):
        draw, at = self.draw, self.place(whole)
        way = draw.randrange(16)
        if way < 6:
            whole[at] = draw.choice((draw.randrange(256), 0, 0xFF))
        elif way < 10:
            whole[at] ^= 1 << draw.randrange(8)
        elif way < 13:
            start = at // 4 * 4 + draw.choice((0, 0, 0, 1))
            whole[start : start + 4] = struct.pack(">I", draw.choice(WORDS))
        elif way == 13:
            other, count = draw.randrange(len(whole)), draw.randint(1, 32)
            whole[at : at + count] = whole[other : other + count]
        elif way == 14:
            del whole[at : at + draw.choice((1, 4, 256))]
        else:
            whole[at:at] = draw.randbytes(draw.choice((1, 4, 256)))

    def some(self, whole):
        whole = bytearray(whole)
        for _ in range(self.draw.choice((1, 1, 1, 2, 3, 8))):
            if whole:
                self.once(whole)
        if whole and self.draw.randrange(12) == 0:
            del whole[self.draw.randrange(len(whole)) :]
        return bytes(whole)


class Fuzz:
    def __init__(self, place):
        self.place, self.said, self.slowest = place, collections.Counter(), (0, "")
        self.stories = [story(file.stem) for file in sorted((TOP / "rows" / "stories").glob("*.hex"))]
        self.stories += [(TOP / "stories" / f"{name}.ulx").read_bytes() for name in ("workbench", "cottage", "mill")]
        self.echo, self.saver, self.caller = story("echo"), story("restores_a_changed_save"), story("calls_glk")
        self.tables = calls_of_rows()
        self.container = bytes.fromhex(FRONT) + story("hi")
        self.pieces = [b"OPEN", b"LINE", b"CHAR", b"FILE", b"SIZE", b"LAST", b"CLOSE", b"0", b"1", b"2", b"63", b"64", b"k", b"=go",
                       b"=%41", b"=%zz", b"=", b"65", b"4294967295", b"4294967296", b"80", b"24", b"", b"\xff", b"-1", b"01"]
        self.played = self.folder_of([b"OPEN 0 k 0 7 80 24", b"SIZE 0 k 1 40 10",
                                      *(b"LINE 0 k %d 1 =go%d" % (n, n) for n in range(2, 34))])
        self.kept = self.folder_of([b"OPEN 0 k 0 7 80 24", b"LINE 0 k 1 1 =a", b"OPEN 5 key 0 1 20 9", b"LINE 5 key 1 1 =bb",
                                    b"CLOSE 0 k 2", b"OPEN 0 q 0 2 80 24", b"LINE 0 q 1 1 =c", b"SIZE 0 q 2 255 1",
                                    b"OPEN 63 z 0 9 255 255", b"SIZE 63 z 1 1 1"])

    def ran(self, words, given=b"", statuses=(0,)):
        """The status and the output of a run."""
        before = spent()
        try:
            ran = subprocess.run([PROGRAM, *words], cwd=self.place, input=given, capture_output=True, timeout=60 * SECONDS,
                                 preexec_fn=limit)
        except subprocess.TimeoutExpired:
            raise Otherwise(f"{words[0]} waits for ever") from None
        if ran.returncode == -signal.SIGXCPU:
            raise Otherwise(f"{words[0]} doesn't end within {SECONDS} processor seconds")
        self.slowest = max(self.slowest, (spent() - before, words[0]))
        self.said[f"{words[0]} {ran.returncode}"] += 1
        if ran.returncode not in statuses:
            raise Otherwise(f"{words[0]} ends with {ran.returncode}: {ran.stderr[:200]!r}")
        if ran.stderr.count(b"\n") != (1 if ran.returncode else 0):
            raise Otherwise(f"{words[0]} ends with {ran.returncode} and writes {ran.stderr[:200]!r} on standard error")
        return ran.returncode, ran.stdout.decode("ascii")

    def pipe(self, name, lines, budget=BUDGET, statuses=(0,)):
        return self.ran(["pipe", name, "s.ulx", "--budget", str(budget)], b"".join(line + b"\n" for line in lines), statuses)

    def new_folder(self, name):
        shutil.rmtree(self.place / name, ignore_errors=True)
        (self.place / name).mkdir()
        (self.place / name / "journal").write_bytes(folder.JOURNAL_HEADER + b"\0")
        (self.place / name / "snap00").write_bytes(folder.SNAPSHOT_HEADER.ljust(folder.MADE, b"\0"))

    def folder_of(self, lines):
        """The journal and the snapshot file of session 0 that lines of the Echo story leave."""
        (self.place / "s.ulx").write_bytes(self.echo)
        self.new_folder("made")
        self.pipe("made", lines)
        return [(self.place / "made" / name).read_bytes() for name in ("journal", "snap00")]

    def put_folder(self, name, files):
        shutil.rmtree(self.place / name, ignore_errors=True)
        (self.place / name).mkdir()
        for file, whole in zip(("journal", "snap00"), files):
            (self.place / name / file).write_bytes(whole)

    def inputs(self, draw):
        """Inputs as `run` takes them."""
        window = draw.choice((1, 1, 1, 2, 3))
        for _ in range(draw.choice((3, 20, 40))):
            way = draw.randrange(22)
            text = draw.choice((b"go", b"look", b"n", b"save", b"restore", b"undo", b"dice", b"%C3%A9", b"", b"x" * 30))
            if way == 0:
                yield b"CHAR %d %d" % (window, draw.choice((65, 10, 0x1F600, 0xFFFFFFFE)))
            elif way == 1:
                yield b"FILE =" + draw.choice((b"", b"first", b"a%2Fb"))
            elif way < 4:
                yield b"SIZE %d %d" % (draw.choice((1, 2, 40, 80, 255)), draw.choice((1, 2, 10, 24, 255)))
            else:
                yield b"LINE %d =%s" % (window, text)

    def play(self, draw, whole, ticks):
        """Plays a story file in one go, and in a session over a stop."""
        (self.place / "s.ulx").write_bytes(whole)
        inputs = list(self.inputs(draw))
        given = b"".join(line + b"\n" for line in inputs)
        status, text = self.ran(["run", "s.ulx", "--budget", str(ticks)], given, (0, 3))
        checked, told = self.ran(["check", "s.ulx"], b"", (0, 3))
        if status != checked or status == 3 and not (text == told and BAD_STORY.fullmatch(text)):
            raise Otherwise(f"run ends with {status} and {text[:80]!r}, check with {checked} and {told[:80]!r}")
        if status == 3:
            return
        opening, *shows = replies_of(text)
        over = [at for at, reply in enumerate([opening, *shows]) if re.search(r"^E ", reply, re.M)]
        if not over and len(shows) != len(inputs) or over and over[0] != len(shows):
            raise Otherwise(f"{len(inputs)} inputs have {len(shows)} replies")
        lines, wanted, count = [b"OPEN 0 k 0 1 80 24"], [("SHOW 0 0\n" + opening).rstrip("\n")], 0
        for line, reply in zip(inputs, shows):
            word, rest = line.split(b" ", 1)
            lines.append(b"%s 0 k %d %s" % (word, count + 1, rest))
            count += not reply.startswith("NO ")
            wanted.append(reply if reply.startswith("NO ") else f"SHOW 0 {count}\n{reply}".rstrip("\n"))
        self.new_folder("d")
        cut = max(draw.randint(1, len(lines)), draw.randint(1, len(lines)))
        got = []
        for part in (lines[:cut], [b"LAST 0 k", *lines[cut:]]):
            got += replies_of(self.pipe("d", part, ticks)[1])
        last = [reply for reply in wanted[:cut] if reply.startswith("SHOW")][-1]
        if got != [*wanted[:cut], last, *wanted[cut:]]:
            raise Otherwise("a session over a stop is shown otherwise than in one go")
        self.said["games over a stop"] += 1
        self.said["games over a stop, behind 16 inputs"] += sum(reply.startswith("SHOW") for reply in wanted[1:cut]) >= 16

    def image(self, draw):
        whole = draw.choice(self.stories)
        for _ in range(draw.choice((1, 1, 3))):
            whole = Damage(draw).some(whole)
        self.play(draw, whole, BUDGET if draw.randrange(16) == 0 else FEW_TICKS)

    def calls(self, draw):
        calls = [list(call) for call in draw.choice(self.tables)[:120]]
        for _ in range(draw.choice((1, 1, 2, 4, 8))):
            way, at = draw.randrange(6), draw.randrange(len(calls))
            if way == 0 and len(calls) > 1:
                del calls[at]
            elif way == 1:
                calls.insert(at, list(draw.choice(draw.choice(self.tables))))
            elif way == 2:
                other = draw.randrange(len(calls))
                calls[at], calls[other] = calls[other], calls[at]
            elif calls[at][2:]:
                place = draw.randrange(2, len(calls[at]))
                near = calls[at][place] + draw.choice((-1, 1))
                calls[at][place] = draw.choice((near, near, draw.randrange(6), draw.choice(WORDS), 512, 520, 0x300))
        table = b"".join(struct.pack(">I", word & 0xFFFFFFFF) for call in calls for word in call)[:2560]
        self.play(draw, self.caller[:0x600] + table + self.caller[0x600 + len(table) :], FEW_TICKS)

    def a_container(self, draw):
        self.play(draw, Damage(draw).some(self.container), FEW_TICKS)

    def save(self, draw):
        whole = bytearray(self.saver)
        count = draw.choice((1, 1, 2, 3, 8, 25))
        table = [count, draw.choice((0, 1, 1))]
        for _ in range(count):
            table += draw.randrange(400), draw.choice((0, 1, 2, 4, 8, 0x10, 0x20, 0x7F, 0xFF, draw.randrange(256)))
        whole[0x280 : 0x280 + 2 * len(table)] = struct.pack(f">{len(table)}H", *table)
        self.play(draw, bytes(whole), FEW_TICKS)

    def twice(self, files, lines, statuses=(0,)):
        """What two folders with these files answer; the second is asked again then."""
        (self.place / "s.ulx").write_bytes(self.echo)
        for name in ("d", "e"):
            self.put_folder(name, files)
        first, second = (self.pipe(name, lines, statuses=statuses) for name in ("d", "e"))
        if first != second:
            raise Otherwise(f"the same folder answers {first!r} and {second!r}")
        return first

    def journal(self, draw):
        whole = Damage(draw).some(self.kept[0])
        lasts = [b"LAST 0 q", b"LAST 0 k", b"LAST 5 key", b"LAST 63 z"]
        status, text = self.twice([whole, self.kept[1]], lasts, (0, 8))
        try:
            list(folder.rows_of(whole))
            wanted = None
        except folder.Damaged as damage:
            wanted = "bad journal\n" if damage.place is None else f"bad journal {damage.place}\n"
        if (status == 8) != (wanted is not None) or status == 8 and text != wanted:
            raise Otherwise(f"a journal answers {status} and {text!r}, and {wanted!r} is wanted")
        if status == 0 and self.pipe("d", lasts)[1] != text:
            raise Otherwise("a folder that was opened is shown otherwise than before")
        if status == 0 and len(replies_of(text)) != 4:
            raise Otherwise("a line has no reply")

    def snapshot(self, draw):
        file = Damage(draw).some(self.played[1][: draw.choice((24, 4500, len(self.played[1])))])
        file += self.played[1][len(file) :] if draw.randrange(4) else b""
        lines = [b"LAST 0 k", b"LINE 0 k 34 1 =on", b"LAST 0 k"]
        replies = replies_of(self.twice([self.played[0], file], lines)[1])
        if len(replies) != 3 or not replies[0].startswith("SHOW 0 33\n"):
            raise Otherwise(f"a folder with a damaged snapshot file answers {replies!r}")

    def lines(self, draw):
        lines = []
        for count in range(draw.randint(2, 30)):
            line = draw.choice((b"OPEN 0 k 0 7 80 24", b"LAST 0 k", b"LINE 0 k %d 1 =go" % draw.randint(1, 5), b"CLOSE 0 k 3",
                                b"SIZE 0 k %d 40 %d" % (draw.randint(1, 5), draw.choice((0, 1, 10, 255, 256))),
                                b" ".join(draw.choice(self.pieces) for _ in range(draw.randint(0, 8))), b"x" * draw.choice((2047, 2048, 9000))))
            lines.append(Damage(draw).some(line).replace(b"\n", b"\t") if draw.randrange(3) == 0 else line)
        (self.place / "s.ulx").write_bytes(self.echo)
        cut, got = draw.randint(0, len(lines)), []
        for name, parts in (("d", [lines]), ("e", [lines[:cut], lines[cut:]])):
            self.new_folder(name)
            got.append([reply for part in parts for reply in replies_of(self.pipe(name, part)[1])])
        if got[0] != got[1] or len(got[0]) != len(lines):
            raise Otherwise(f"{len(lines)} lines have {len(got[0])} replies, and over a stop {len(got[1])}")

    def case(self, seed, number):
        kinds = (self.image, self.save, self.calls, self.journal, self.a_container, self.lines, self.image, self.snapshot)
        kind = kinds[number % len(kinds)]
        self.said[kind.__name__.replace("a_", "")] += 1
        kind(random.Random(f"{seed} {number}"))


def main():
    words = argparse.ArgumentParser()
    words.add_argument("cases", type=int, nargs="?", default=2000)
    words.add_argument("--seed", type=int, default=0)
    words.add_argument("--first", type=int, default=0)
    asked = words.parse_args()
    root = "/dev/shm" if os.access("/dev/shm", os.W_OK) else None
    wrong, most, began = 0, 0, time.monotonic()
    with tempfile.TemporaryDirectory(prefix="fuzz-", dir=root) as name:
        fuzz = Fuzz(pathlib.Path(name))
        for number in range(asked.first, asked.first + asked.cases):
            try:
                fuzz.case(asked.seed, number)
                before, most = most, resource.getrusage(resource.RUSAGE_CHILDREN).ru_maxrss // 1024
                if most > max(before, MOST_MEMORY):
                    raise Otherwise(f"a run took {most} MiB")
            except (Otherwise, UnicodeDecodeError) as cause:
                wrong += 1
                print(f"fuzz: case {number} of seed {asked.seed}: {cause}", flush=True)
    print("fuzz: " + ", ".join(f"{what}: {count}" for what, count in sorted(fuzz.said.items())))
    print(f"fuzz: {asked.cases} cases in {time.monotonic() - began:.0f} seconds, the slowest run {fuzz.slowest[0]:.2f} processor seconds"
          f" ({fuzz.slowest[1]}), at most {most} MiB, {wrong} otherwise")
    return 1 if wrong else 0


if __name__ == "__main__":
    sys.exit(main())
