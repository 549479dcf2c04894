#!/usr/bin/env python3
"""Looks at the system calls of the program: whether what it acknowledges was written and synced before.

    drills/synced.py [--program FILE]

`init`, `pipe` and `serve` run under `strace`. Before `ready` each file of the folder was written and then
synced, and each folder synced after the last of its files was made. Before each SHOW of an accepted request
stand four calls on the journal's own descriptor, each of which had ended well: a write behind the closing
gate, a sync, a write of the gate alone, a sync; a repeat makes none. A journal of before is synced, marked
and synced before its first row; each of these calls fails once, or has the host killed, and the next one goes on. A put makes its calls in order on the snapshot file's own descriptor: a zero
to the gate unless it is closed, a sync, the area's first 16 bytes, the others, a sync, the gate, a sync. The
listener of `serve` is at 127.0.0.1. It ends with 1 where something is otherwise, and says so and ends with 0
where `strace` isn't there or may not trace."""

import argparse
import collections
import os
import pathlib
import re
import shutil
import signal
import socket
import subprocess
import sys
import tempfile
import threading

import crash
import folder as files

CALLS = "openat,open,creat,mkdir,mkdirat,pwrite64,write,writev,sendto,sendmsg,fsync,fdatasync,sync_file_range,bind"
SYNCS = ("fsync", "fdatasync")
WRITES = ("write", "writev", "sendto", "sendmsg")
MOVES = 50
LINKS = 3

# a system call that ended, by the places in the list at which it began and ended
Call = collections.namedtuple("Call", "began ended name path words answer")


class Otherwise(Exception):
    pass


def calls_of(trace):
    """The calls of a trace in the order of their ends, those of all threads together."""
    under_way = {}
    for place, line in enumerate(trace.read_text(errors="replace").splitlines()):
        thread, _, rest = line.partition(" ")
        rest = rest.strip()
        began = place
        if rest.endswith("<unfinished ...>"):
            under_way[thread] = (place, rest.removesuffix("<unfinished ...>"))
            continue
        resumed = re.match(r"<\.\.\. \w+ resumed>(.*)", rest)
        if resumed:
            began, start = under_way.pop(thread)
            rest = start + resumed[1]
        whole = re.match(r"(\w+)\((.*)\)\s+= (-?\d+)(.*)$", rest)
        if whole:
            name, words, answer, behind = whole.groups()
            of = behind if name in ("openat", "open", "creat") else words
            path = re.match(r"\s*-?\d*<([^>]*)>", of) or re.match(r".*?<([^>]*)>", of)
            yield Call(began, place, name, path[1] if path else "", words.strip(), int(answer))


def run(words, lines, folder, number):
    """Runs the program under `strace` on these lines; the trace, and what it wrote."""
    trace = folder / f"trace{number}"
    done = subprocess.run(under(trace) + words, input=lines.encode(), stdout=subprocess.PIPE, check=False)
    if done.returncode != 0:
        raise Otherwise(f"{words[1]}: status {done.returncode}")
    return list(calls_of(trace)), done.stdout.decode()


def under(trace):
    return ["strace", "-f", "-y", "-s", "24", "-o", trace, "-e", f"trace={CALLS}"]


def place_of(call):
    """Where a `pwrite64` begins, and how many bytes it has."""
    count, place = re.search(r", (\d+), (\d+)$", call.words).groups()
    return int(place), int(count)


def is_byte(call, place, byte):
    """A write of this one byte at this place."""
    return call.name == "pwrite64" and place_of(call) == (place, 1) and f'"\\{byte}"' in call.words


def is_good_sync(call):
    return call.name in SYNCS and call.answer == 0


def is_good_write(call):
    return call.name == "pwrite64" and call.answer == place_of(call)[1]


def check_init(program, folder):
    """Whether all that `init` writes is synced before it says so."""
    root = folder / "made" / "here"
    calls, text = run([program, "init", root], "", folder, 0)
    if text != "ready\n":
        raise Otherwise(f"init: {text!r}")
    told = next(call.began for call in calls if call.name in WRITES and '"ready' in call.words)
    made = [str(path) for path in root.iterdir()]
    if len(made) != files.SESSIONS + 1:
        raise Otherwise(f"init makes {len(made)} files")
    for path in made:
        of_file = [call for call in calls if call.path == path and call.ended < told]
        written = [call for call in of_file if is_good_write(call)]
        synced = [call for call in of_file if is_good_sync(call)]
        if not written or not synced or synced[-1].began < written[-1].ended:
            raise Otherwise(f"{path} isn't synced behind its last write")
    last = max(call.ended for call in calls if call.path in made and "O_CREAT" in call.words)
    if not any(is_good_sync(call) and call.path == str(root) and last < call.began <= call.ended < told for call in calls):
        raise Otherwise(f"{root} isn't synced behind its last file")
    return root


def appends_of(calls, journal):
    """Where each append ends: a row past the gate, a sync, the gate, a sync, on one descriptor."""
    of_journal = [call for call in calls if call.path == journal and (call.name == "pwrite64" or call.name in SYNCS)]
    first = next((at for at, call in enumerate(of_journal) if call.name == "pwrite64"), len(of_journal))
    gate, ends = None, []
    for at in range(first, len(of_journal), 4):
        four = of_journal[at : at + 4]
        names = ["pwrite64" if call.name == "pwrite64" else "sync" for call in four]
        if names != ["pwrite64", "sync", "pwrite64", "sync"]:
            raise Otherwise(f"an append makes the calls {[call.name for call in four]}")
        row, row_sync, opening, last = four
        place, count = place_of(row)
        if gate is not None and place != gate + 1:
            raise Otherwise(f"a row at {place}, where the closing gate is {gate}")
        if not (is_good_write(row) and is_good_sync(row_sync) and is_good_sync(last) and is_byte(opening, place - 1, 1)):
            raise Otherwise(f"the append of the row at {place}")
        if any(later.began < earlier.ended for earlier, later in zip(four, four[1:])):
            raise Otherwise(f"the calls of the append at {place} overlap")
        gate = place + count - 1
        ends.append(last.ended)
    return ends


def check_puts(calls, path, wanted):
    """Whether a snapshot file is written by whole puts alone, each in the order of its steps."""
    of_file = [call for call in calls if call.path == path and (call.name == "pwrite64" or call.name in SYNCS)]
    first = next((at for at, call in enumerate(of_file) if call.name == "pwrite64"), 1)
    at, puts = first - 1 if not is_gate(of_file[first : first + 1]) else first, 0
    while at < len(of_file):
        closing = of_file[at : at + 1] if is_gate(of_file[at : at + 1]) else []
        steps = of_file[at + len(closing) : at + len(closing) + 6]
        if len(steps) < 6:
            raise Otherwise(f"{path}: half a put")
        ready, head, body, synced, gate, last = steps
        start, count = place_of(head) if head.name == "pwrite64" else (0, 0)
        in_order = (
            all(map(is_good_sync, (ready, synced, last)))
            and start in files.STARTS
            and count == 16
            and is_good_write(head)
            and is_good_write(body)
            and place_of(body)[0] == start + 16
            and is_gate([gate])
            and is_byte(gate, place_of(gate)[0], 1)
            and all(is_byte(call, place_of(gate)[0], 0) for call in closing)
        )
        if not in_order:
            raise Otherwise(f"{path}: a put makes the calls {[(call.name, call.words) for call in closing + steps]}")
        at += len(closing) + 6
        puts += 1
    if puts != wanted:
        raise Otherwise(f"{path}: {puts} puts in place of {wanted}")


def is_gate(calls):
    """A write of one byte before the areas."""
    return bool(calls) and calls[0].name == "pwrite64" and place_of(calls[0])[1] == 1 and place_of(calls[0])[0] < 16


def shows_of(calls):
    """Where each write begins that starts a SHOW."""
    return sorted(call.began for call in calls if call.name in WRITES and '"SHOW ' in call.words)


def lines_of(session):
    yield f"OPEN {session} k{session} 0 7 80 24"
    for move in range(1, MOVES + 1):
        word, rest = ("SIZE", "40 10") if move % 5 == 0 else ("LINE", f"1 =m{move}")
        yield f"{word} {session} k{session} {move} {rest}"


def check_pipe(program, root, story, folder):
    """Each SHOW of an accepted request behind its own append, and no append behind a repeat."""
    lines = list(lines_of(0))
    asked = lines + [lines[-1], "LAST 0 k0"]
    calls, text = run([program, "pipe", root, story], "".join(line + "\n" for line in asked), folder, 1)
    if text.count("SHOW 0 ") != len(asked):
        raise Otherwise("pipe: a request without its show")
    ends, shows = appends_of(calls, str(root / "journal")), shows_of(calls)
    if len(ends) != len(lines) or len(shows) != len(asked):
        raise Otherwise(f"pipe: {len(ends)} appends and {len(shows)} shows of {len(lines)} and {len(asked)}")
    for number, (end, show) in enumerate(zip(ends, shows)):
        if show < end or (number > 0 and end < shows[number - 1]):
            raise Otherwise(f"pipe: the SHOW of request {number} doesn't follow its append")
    check_puts(calls, str(root / "snap00"), MOVES // files.INTERVAL)


def play(port, session, replies):
    with socket.create_connection(("127.0.0.1", port), timeout=120) as link, link.makefile("rwb") as both:
        for line in lines_of(session):
            both.write(line.encode() + b"\n")
            both.flush()
            reply = b""
            while not reply.endswith(b"\n.\n") and not reply.startswith(b"NO "):
                part = both.readline()
                if not part:
                    return
                reply += part
            replies.append(reply)


def check_serve(program, root, story, folder):
    """No more shows than appends at any moment, and the listener at 127.0.0.1."""
    trace = folder / "trace2"
    words = under(trace) + [program, "serve", root, "0", "2", story]
    host = subprocess.Popen(words, stdin=subprocess.DEVNULL, stdout=subprocess.DEVNULL, stderr=subprocess.PIPE)
    port = int(host.stderr.readline().decode().rpartition(":")[2])
    replies = []
    players = [threading.Thread(target=play, args=(port, session, replies)) for session in range(1, LINKS + 1)]
    for player in players:
        player.start()
    for player in players:
        player.join()
    # the first word of a trace is the number of the process that it is of; `strace` ends with it
    os.kill(int(trace.read_text().partition(" ")[0]), signal.SIGTERM)
    host.wait(timeout=60)
    calls = list(calls_of(trace))
    wanted = LINKS * (MOVES + 1)
    if len(replies) != wanted or not all(reply.startswith(b"SHOW ") for reply in replies):
        raise Otherwise(f"serve: {len(replies)} replies in place of {wanted} shows")
    ends, shows = appends_of(calls, str(root / "journal")), shows_of(calls)
    if len(ends) != wanted or len(shows) != wanted:
        raise Otherwise(f"serve: {len(ends)} appends and {len(shows)} shows of {wanted}")
    for number, show in enumerate(shows):
        if sum(end < show for end in ends) <= number:
            raise Otherwise(f"serve: show {number} stands before its append")
    for session in range(1, LINKS + 1):
        check_puts(calls, str(root / f"snap{session:02}"), MOVES // files.INTERVAL)
    bound = [call for call in calls if call.name == "bind" and "AF_INET" in call.words]
    if not bound or not all('inet_addr("127.0.0.1")' in call.words for call in bound):
        raise Otherwise(f"serve listens at {[call.words for call in bound]}")


def check_older(program, story, folder, gate):
    """A journal of before is marked behind a sync, and behind its closing gate where that isn't 0, before any row."""
    root = folder / f"older{gate}"
    journal = root / "journal"
    subprocess.run([program, "init", root], stdout=subprocess.DEVNULL, check=True)
    files.write_at(journal, 8, b"\0")
    files.write_at(journal, 16, bytes([gate]))
    calls, text = run([program, "pipe", root, story], "OPEN 9 k 0 7 80 24\nSIZE 9 k 1 40 10\n", folder, 3 + gate)
    of_journal = [call for call in calls if call.path == str(journal) and (call.name == "pwrite64" or call.name in SYNCS)]
    written = [(16, 0), (8, 1)] if gate else [(8, 1)]
    opening = of_journal[: 1 + 2 * len(written)]
    in_order = all(map(is_good_sync, opening[::2])) and all(
        is_byte(call, place, byte) and is_good_write(call) for call, (place, byte) in zip(opening[1::2], written))
    if not in_order:
        raise Otherwise(f"a journal of before is opened by the calls {[(call.name, call.words) for call in opening]}")
    behind = [call for call in calls if call.began > opening[-1].ended]
    if text.count("SHOW 9 ") != 2 or len(appends_of(behind, str(journal))) != 2:
        raise Otherwise("a journal of before takes no rows behind its mark")


def check_marks(program, story, folder):
    """Each call by which a journal of before is marked fails, or has the host killed: the next host goes on as before."""
    root = folder / "marked"
    journal = root / "journal"
    subprocess.run([program, "init", root], stdout=subprocess.DEVNULL, check=True)
    words, asked = [program, "pipe", root, story], b"LAST 0 k\n"
    subprocess.run(words, input=b"OPEN 0 k 0 7 80 24\nLINE 0 k 1 1 =go\n", stdout=subprocess.DEVNULL, check=True)
    wanted = subprocess.run(words, input=asked, capture_output=True, check=True).stdout
    for call, number in ("fdatasync", 1), ("pwrite64", 1), ("fdatasync", 2):
        for what, status in ("error=EIO", 6), ("signal=KILL", -signal.SIGKILL):
            files.write_at(journal, 8, b"\0")
            met = ["strace", "-f", "-o", os.devnull, "-P", journal, "-e", f"trace={CALLS}", "-e", f"inject={call}:{what}:when={number}"]
            done = subprocess.run(met + words, input=asked, capture_output=True)
            if (done.returncode, done.stdout) != (status, b""):
                raise Otherwise(f"{call} {number} of a mark, {what}: status {done.returncode} and {done.stdout[:80]}")
            if subprocess.run(words, input=asked, capture_output=True).stdout != wanted or not files.is_second(journal.read_bytes()):
                raise Otherwise(f"behind {call} {number} of a mark, {what}: the next host isn't as before")


def may_trace():
    """Whether `strace` is there and the system lets it trace."""
    if not shutil.which("strace"):
        return False
    tried = subprocess.run(["strace", "-f", "-o", os.devnull, "true"], capture_output=True)
    return tried.returncode == 0


def main():
    words = argparse.ArgumentParser(description=__doc__.splitlines()[0])
    words.add_argument("--program", type=pathlib.Path, default=crash.PROGRAM)
    program = words.parse_args().program.resolve()
    if not may_trace():
        print("strace isn't here, or may not trace, so drills/synced.py was NOT run")
        return 0
    folder = pathlib.Path(tempfile.mkdtemp()).resolve()
    try:
        story = folder / "echo.ulx"
        story.write_bytes(crash.echo_story())
        root = check_init(program, folder)
        check_pipe(program, root, story, folder)
        check_serve(program, root, story, folder)
        for gate in 0, 9:
            check_older(program, story, folder, gate)
        check_marks(program, story, folder)
        print("synced: ok")
        return 0
    except Otherwise as why:
        print(f"synced: {why}")
        return 1
    finally:
        shutil.rmtree(folder)


if __name__ == "__main__":
    sys.exit(main())
