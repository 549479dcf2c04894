#!/usr/bin/env python3
"""Refuses the program one request for memory in each run, the first, the second and so on until a run makes fewer,
and looks whether each reply is one that want of memory may give.

    drills/memory.py [--long] [--from N] [--every N]

A run is `pipe` over a folder of its own with a journal and a snapshot file. The program is run with the C library's
calls for memory replaced by some that count, of which the one of that number answers nothing; the kit's clang makes
them. The lines are an OPEN, a LINE and a LAST of the Echo story; with `--long` the 20 inputs of
rows/an_ordinary_session.row (two windows, a save, undo, a restore, a snapshot), two sizes of the screen and a CLOSE, each
line followed by a LAST and then given again. What each show has to be stands in the rows; which line is answered how by the rules of
docs/FORMATS.md. A run ends with 0 or 7. With 0 each line has one reply: the usual one for a history that some of the
lines before may be missing from, or `NO 12`; behind that the line's command may be accepted or not, and what is said
later has to fit one of the two. With 7 an end of the replies is missing. Then a host without such a refusal opens the
folder, and the LAST that it gives has to fit too.

Before that `run`, `check` and `init` are run so: each ends with 0 and all that it writes otherwise, or with 7 and a part of
it; and a folder that `init` left is begun by another `init`, or was begun. It ends with 1 where something is otherwise."""

import argparse
import os
import pathlib
import shutil
import subprocess
import sys
import tempfile

TOP = pathlib.Path(__file__).resolve().parent.parent
PROGRAM = pathlib.Path(os.environ.get("STORYHOST", TOP / "crates/storyhost/out/storyhost"))
CLANG = pathlib.Path("/opt/rattle/toolchain/bin/clang")
SECONDS = 60
COUNTING = r"""
typedef unsigned long size_t;
void *__libc_malloc(size_t), *__libc_calloc(size_t, size_t), *__libc_realloc(void *, size_t), *__libc_memalign(size_t, size_t);
void *mmap(void *, size_t, int, int, int, long);
char *getenv(const char *);
unsigned long strtoul(const char *, char **, int);
int open(const char *, int, ...);
static unsigned long *made, refused;
/* The count stands in the file REQUESTS_IN, which is there and has 8 bytes. */
static int is_refused(void) {
  if (!made) {
    refused = strtoul(getenv("REFUSED"), 0, 10);
    made = mmap(0, 8, 3, 1, open(getenv("REQUESTS_IN"), 2), 0);
  }
  return __sync_add_and_fetch(made, 1) == refused;
}
void *malloc(size_t n) { return is_refused() ? 0 : __libc_malloc(n); }
void *calloc(size_t n, size_t m) { return is_refused() ? 0 : __libc_calloc(n, m); }
void *realloc(void *p, size_t n) { return is_refused() ? 0 : __libc_realloc(p, n); }
void *aligned_alloc(size_t a, size_t n) { return is_refused() ? 0 : __libc_memalign(a, n); }
int posix_memalign(void **p, size_t a, size_t n) { return is_refused() || !(*p = __libc_memalign(a, n)) ? 12 : 0; }
"""


class Otherwise(Exception):
    pass


def story(name):
    """The bytes of a story file of the rows."""
    size, image = 0, bytearray()
    for line in (TOP / "rows" / "stories" / f"{name}.hex").read_text().splitlines():
        if line.startswith("size "):
            size = int(line.split()[1])
        elif line.startswith("at "):
            image = image.ljust(int(line.split()[1], 0), b"\0")
        elif not line.startswith("#"):
            image += bytes.fromhex(line)
    return bytes(image.ljust(size, b"\0"))


def lines_and_shows(row):
    """The commands of a row by their numbers, and the shows that it wants of them."""
    commands, shows, shown = {}, {}, None
    for line in (TOP / "rows" / f"{row}.row").read_text().splitlines():
        if line.startswith("> ") and not line.startswith("> LAST"):
            words = line[2:].split(" ")
            commands.setdefault(0 if words[0] == "OPEN" else int(words[3]), line[2:])
        elif line.startswith("< SHOW 0 "):
            shown = int(line.split()[3])
            shows[shown] = line[2:] + "\n"
        elif line.startswith("< ") and shown is not None:
            shows[shown] += line[2:] + "\n"
            shown = None if line == "< ." else shown
    return commands, shows


class Script:
    """Lines of one session, as a client that goes on whatever it is answered sends them."""

    def __init__(self, key, commands, shows, lines):
        self.key, self.commands, self.shows, self.lines = key, commands, shows, lines
        self.closing = max(commands) if commands[max(commands)].startswith("CLOSE") else None

    def answer(self, count, line):
        """The reply to a line where so many commands were accepted behind the OPEN (None before it), and the
        count then."""
        word, *rest = line.split(" ")
        number = 0 if word == "OPEN" else count if word == "LAST" else int(rest[2])
        if count == self.closing is not None and number != count:
            return "NO 2\n", count
        if count == self.closing is not None and word == "LAST":
            return "NO 2\n", count
        if count is None:
            return (self.shows[0], 0) if word == "OPEN" else ("NO 2\n", None)
        if word == "OPEN":
            return (self.shows[0] if count == 0 else "NO 3\n"), count
        if number > count + 1:
            return f"NO 5 {count}\n", count
        return (self.shows[number], number) if number >= count else (f"NO 6 {count}\n", count)

    def last(self, count):
        return self.answer(count, f"LAST 0 {self.key}")[0]


def after(script, counts, line, reply):
    """The counts that may be there behind a reply to a line."""
    if reply == "NO 12\n":
        return counts | {script.answer(count, line)[1] for count in counts}
    return {then for told, then in (script.answer(count, line) for count in counts) if told == reply}


def next_reply(text):
    """The first reply of a text, or None where it isn't whole."""
    end = text.find("\n.\n") + 3 if text.startswith("SHOW") else text.find("\n") + 1
    return text[:end] if end > (2 if text.startswith("SHOW") else 0) else None


def judge(script, status, text):
    """The counts that may be there behind a run."""
    counts = {None}
    for at, line in enumerate(script.lines):
        reply = next_reply(text)
        if reply is None:
            if status == 0:
                raise Otherwise(f"status 0, and line {at + 1} ({line}) has no reply but {text!r}")
            if text and not any(told.startswith(text) for count in counts for told in [script.answer(count, line)[0], "NO 12\n"]):
                raise Otherwise(f"line {at + 1} ({line}) has a part of no reply: {text!r}")
            return counts | {script.answer(count, line)[1] for count in counts}
        found = after(script, counts, line, reply)
        if not found:
            raise Otherwise(f"line {at + 1} ({line}), where {sorted(counts, key=str)} were accepted, has {reply!r}")
        counts, text = found, text[len(reply) :]
    if text:
        raise Otherwise(f"behind the last reply stands {text!r}")
    return counts


class Drill:
    def __init__(self, folder, script, image):
        self.folder, self.script = folder, script
        self.story, self.base, self.library = folder / "story.ulx", folder / "base", folder / "counting.so"
        self.story.write_bytes(image)
        (folder / "counting.c").write_text(COUNTING)
        words = ["-O1", "-fPIC", "-shared", "-nostdlib", "-o", self.library, folder / "counting.c"]
        subprocess.run([CLANG, *words], check=True)
        subprocess.run([PROGRAM, "init", self.base], check=True, stdout=subprocess.DEVNULL)
        for file in self.base.iterdir():
            if file.name not in ("journal", "snap00"):
                file.unlink()

    def run(self, words, lines, told):
        given = "".join(line + "\n" for line in lines).encode()
        return subprocess.run([PROGRAM, *words], input=given, capture_output=True, env=told, timeout=SECONDS)

    def counted(self, number, words, lines):
        """One run, with the request of that number refused, and how many requests were made."""
        made = self.folder / "made"
        made.write_bytes(bytes(8))
        ran = self.run(words, lines, {"LD_PRELOAD": str(self.library), "REFUSED": str(number), "REQUESTS_IN": str(made)})
        if ran.returncode not in (0, 7):
            raise Otherwise(f"status {ran.returncode}: {ran.stderr.decode(errors='replace')!r}")
        if ran.stderr.count(b"\n") != (1 if ran.returncode else 0):
            raise Otherwise(f"status {ran.returncode}, and standard error has {ran.stderr!r}")
        return ran, int.from_bytes(made.read_bytes(), "little")

    def refuse_each(self, *words):
        """Runs of a command that answers no requests, one for each request for memory."""
        lines = ["LINE 1 =go", "CHAR 1 65", "LINE 1 =on"]
        usual, made = self.counted(0, words, lines)
        for number in range(1, made + 1):
            shutil.rmtree(self.folder / "n", ignore_errors=True)
            ran, _ = self.counted(number, words, lines)
            if not usual.stdout.startswith(ran.stdout) or ran.returncode == 0 and ran.stdout != usual.stdout:
                raise Otherwise(f"{words[0]}, request {number}: {ran.stdout!r}")
            if words[0] == "init" and self.run(words, [], {}).stdout not in ((b"not empty\n",) if ran.stdout else (b"ready\n",)):
                raise Otherwise(f"init, request {number}: another init doesn't begin the folder")
        return made

    def refuse(self, number):
        """One run, with the request of that number refused: its status, and how many requests were made."""
        place = self.folder / "d"
        shutil.copytree(self.base, place)
        try:
            ran, made = self.counted(number, ["pipe", place, self.story], self.script.lines)
            counts = judge(self.script, ran.returncode, ran.stdout.decode())
            then = self.run(["pipe", place, self.story], [f"LAST 0 {self.script.key}"], {})
            if then.returncode or then.stdout.decode() not in {self.script.last(count) for count in counts}:
                raise Otherwise(f"where {sorted(counts, key=str)} may be accepted, the folder shows {then.stdout!r}")
            return ran, made
        finally:
            shutil.rmtree(place)


def echo_script():
    commands, shows = lines_and_shows("two_lines_of_one_session")
    return Script("k1", commands, shows, [*commands.values(), "LAST 0 k1"])


def asked_again(n, columns, rows):
    """The show of Two Rooms behind a size of its screen: it takes that for a line of nothing."""
    status = ("Cellar".ljust(20) + "3").ljust(columns).replace(" ", "%20")
    return (f"SHOW 0 {n}\nW 1 3 0 1 {columns} {rows - 1}\nW 2 4 0 0 {columns} 1\nT 1 0 =What?%0A>\nG 2 0 ={status}\n"
            "I 1 line 20 =\n.\n")


def long_script():
    commands, shows = lines_and_shows("an_ordinary_session")
    for n, columns, rows in (21, 30, 6), (22, 24, 5):
        commands[n], shows[n] = f"SIZE 0 k {n} {columns} {rows}", asked_again(n, columns, rows)
    commands[23], shows[23] = "CLOSE 0 k 23", "SHOW 0 23\nE closed\n.\n"
    return Script("k", commands, shows, [line for command in commands.values() for line in (command, "LAST 0 k", command)])


def main():
    words = argparse.ArgumentParser()
    words.add_argument("--long", action="store_true")
    words.add_argument("--from", dest="first", type=int, default=1)
    words.add_argument("--every", type=int, default=1)
    asked = words.parse_args()
    if not CLANG.exists():
        print(f"memory: {CLANG} isn't there, so memory was NOT refused")
        return 0
    script, image = (long_script(), story("two_rooms")) if asked.long else (echo_script(), story("echo"))
    wrong, ends, said, runs = 0, {0: 0, 7: 0}, 0, 0
    root = "/dev/shm" if os.access("/dev/shm", os.W_OK) else None
    with tempfile.TemporaryDirectory(prefix="memory-", dir=root) as name:
        drill = Drill(pathlib.Path(name), script, image)
        try:
            plain = 0 if asked.long else sum(drill.refuse_each(*words) for words in (
                ("run", drill.story), ("check", drill.story), ("init", drill.folder / "n")))
        except Otherwise as cause:
            print(f"memory: {cause}")
            return 1
        usual, made = drill.refuse(0)
        if usual.returncode or b"NO 12" in usual.stdout or judge(script, 0, usual.stdout.decode()) != {max(script.commands)}:
            print(f"memory: with nothing refused the run is otherwise: {usual.stdout!r}")
            return 1
        for number in range(asked.first, made + 1, asked.every):
            runs += 1
            try:
                ran, _ = drill.refuse(number)
                ends[ran.returncode] += 1
                said += b"NO 12" in ran.stdout
            except (Otherwise, subprocess.TimeoutExpired, UnicodeDecodeError) as cause:
                wrong += 1
                print(f"memory: request {number}: {cause}", flush=True)
    print(f"memory: {plain} requests of run, check and init; {made} requests of pipe, {runs} runs with one of them refused: {ends[7]} ended with 7, in {said} a line was"
          f" answered NO 12, {wrong} were otherwise")
    return 1 if wrong else 0


if __name__ == "__main__":
    sys.exit(main())
