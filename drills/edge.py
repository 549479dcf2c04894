#!/usr/bin/env python3
"""What stands round a host: second hosts, folders that can't be had, and links that aren't players'.

    drills/edge.py [PROGRAM] [--tries N] [--times]

- 30 times two hosts are started at once on one folder, by the names that it has. One ends with 6; two
  players play on the other one, and a third host is refused meanwhile. Then it is killed (signal 9), the
  next one starts at once, and nothing that was acknowledged is missing.
- Two `init` at once begin one folder.
- A folder that isn't there, can't be written, or is something else: the status, a line with its name and
  the cause, and nothing is made. As root it is tried as an unprivileged user, and on a file system that
  is read-only, where the machine lets one mount such a one.
- Requests of HTTP, also with a body of requests, and a TLS hello get no answer and change nothing, and
  another link is answered meanwhile.
- Links that say nothing, or read nothing, hold all workers, and are let go: the next player is answered.
  A host that was stopped for a while (signals STOP and CONT) keeps its links.
- A host without a descriptor for one more link serves it once another link has ended.
- The log: the lines of standard error for links that end in several ways and for files that can't be written, each with
  its time, without a word of what was typed or a key.
- Words that aren't taken, and files that are no stories: what the one line of standard error ends with.
- `pipe` over streams that don't wait.

It ends with 1 where something is otherwise."""

import argparse
import contextlib
import email.utils
import http.client
import os
import pathlib
import resource
import shutil
import signal
import socket
import ssl
import struct
import subprocess
import sys
import tempfile
import threading
import time

import crash
import folder as files

STRANGER = 65534
HELD = "another host may have the folder"
MOVES = 7
IDLE = "STORYHOST_IDLE_SECONDS"
LOG = "STORYHOST_LOG"


class Otherwise(Exception):
    pass


def want(what, got, wanted):
    if got != wanted:
        raise Otherwise(f"{what}: {got!r} in place of {wanted!r}")


def shown(text):
    return f"T 1 8 ={text}%0A\nT 1 0 ={text}%0A>\nI 1 line 20 =\n.\n"


class Served:
    """One run of `serve`."""

    def __init__(self, folder, story, workers, cwd=None, preexec_fn=None, **environment):
        self.process = subprocess.Popen(
            [crash.PROGRAM, "serve", folder, "0", str(workers), story],
            cwd=cwd, env={**os.environ, **environment}, preexec_fn=preexec_fn,
            stdin=subprocess.DEVNULL, stdout=subprocess.PIPE, stderr=subprocess.PIPE,
        )  # fmt: skip
        self.told = None

    def begins(self):
        """Whether it serves; if not, it has ended."""
        self.told = self.process.stderr.readline().decode()
        return "serving on" in self.told

    def link(self):
        if self.told is None and not self.begins():
            raise Otherwise(f"serve says {self.told!r}")
        return crash.Link(int(self.told.rpartition(":")[2]))

    def kill(self):
        self.process.kill()
        self.process.wait()
        self.process.stdout.close()
        self.process.stderr.close()


@contextlib.contextmanager
def served(*words, **environment):
    host = Served(*words, **environment)
    try:
        yield host
    finally:
        host.kill()


def run(*words, **given):
    return subprocess.run([crash.PROGRAM, *words], capture_output=True, text=True, timeout=60, **given)


def begun(room, name="d"):
    want("init", (run("init", name, cwd=room).stdout, (room / name / "journal").stat().st_size), ("ready\n", 17))
    return room / name


def refused(what, ran, *words):
    """It ended with 6, wrote nothing, and one line of standard error has these words."""
    lines = ran.stderr.splitlines()
    if (ran.returncode, ran.stdout, len(lines)) != (6, "", 1) or any(word not in lines[0] for word in words):
        raise Otherwise(f"{what}: status {ran.returncode}, {ran.stdout!r}, {ran.stderr!r}")


def play(host, session, lost):
    """A player's game on a link of its own, each move acknowledged."""
    link = host.link()
    try:
        want("OPEN", link.ask(f"OPEN {session} k{session} 0 1 80 24")[:9], f"SHOW {session} 0\n")
        for n in range(1, MOVES + 1):
            line = f"LINE {session} k{session} {n} 1 =m{session}{n}"
            want(line, link.ask(line).partition("T")[2], shown(f"m{session}{n}")[1:])
    except (Otherwise, AttributeError) as cause:
        lost.append(cause)
    finally:
        link.close()


def two_hosts(room, story, tries):
    """Two hosts on one folder, by these names, from these folders."""
    (room / "link").symlink_to("d")
    (room / "aside").mkdir()
    names = [("d", room), ("link", room), ("aside/../d", room), ("../d", room / "aside"), (str(room / "d"), room)]
    fresh = begun(room)
    shutil.copytree(fresh, room / "fresh")
    for number in range(tries):
        shutil.rmtree(fresh)
        shutil.copytree(room / "fresh", fresh)
        (one, there), (two, here) = names[number % 5], names[(number + number // 5) % 5]
        hosts = [Served(one, story, 2, cwd=there), Served(two, story, 2, cwd=here)]
        try:
            # The line of the one that is refused comes with its end.
            goes_on = [host for host in hosts if host.begins()]
            want(f"hosts by {one} and {two} that serve", len(goes_on), 1)
            host = goes_on[0]
            other = hosts[1 - hosts.index(host)]
            out, rest = other.process.communicate(timeout=60)
            want("the other one", (other.process.returncode, out, rest), (6, b"", b""))
            if HELD not in other.told or "journal: " not in other.told:
                raise Otherwise(f"the other one says {other.told!r}")
            lost = []
            players = [threading.Thread(target=play, args=(host, s, lost)) for s in range(2)]
            for player in players:
                player.start()
            refused("a third host", run("pipe", two, story, cwd=here, input="LAST 0 k0\n"), "journal", HELD)
            for player in players:
                player.join()
            if lost:
                raise lost[0]
        finally:
            for host in hosts:
                host.kill()
        last = "".join(f"LAST {s} k{s}\n" for s in range(2))
        ran = run("pipe", one, story, cwd=there, input=last)
        shows = [f"SHOW {s} {MOVES}\nW 1 3 0 0 80 24\n" + shown(f"m{s}{MOVES}") for s in range(2)]
        want("the next host", (ran.returncode, ran.stdout), (0, "".join(shows)))


def two_inits(room, story):
    """Two `init` at once, by two names: one folder is begun."""
    met = 0
    for number in range(10):
        name = f"new{number}/club"
        words = [[crash.PROGRAM, "init", name], [crash.PROGRAM, "init", f"aside/../{name}"]]
        pipes = {"stdout": subprocess.PIPE, "stderr": subprocess.PIPE}
        inits = [subprocess.Popen(each, cwd=room, **pipes) for each in words]
        ends = sorted((init.communicate(timeout=60)[0], init.returncode) for init in inits)
        if ends[1] != (b"ready\n", 0) or ends[0] not in ((b"", 6), (b"not empty\n", 8)):
            raise Otherwise(f"two inits at once: {ends}")
        met += ends[0][1] == 6
        folder = room / name
        want("files", (len(list(folder.iterdir())), files.are_made(folder)), (65, True))
        want("journal", (folder / "journal").stat().st_size, 17)
        opened = run("pipe", name, story, cwd=room, input="OPEN 0 k 0 1 80 24\n")
        want("pipe behind them", (opened.returncode, opened.stdout[:9]), (0, "SHOW 0 0\n"))
    return met


def seen(room):
    """All that is there, with its size."""
    return sorted((str(path), path.lstat().st_size) for path in room.rglob("*"))


def commands(name, story):
    return ("init", name), ("pipe", name, story), ("serve", name, "0", "1", story)


def unprivileged():
    """How to run a program as a user whom rights bind, or None where the folder isn't open to one."""
    if os.geteuid():
        return {}
    given = {"user": STRANGER, "group": STRANGER, "extra_groups": []}
    try:
        return given if run("--version", **given).returncode == 0 else None
    except PermissionError:
        return None


def other_folders(room, story):
    """Folders that can't be had. Nothing is made, and the name and the cause are told. Whether rights
    were tried, too."""
    begun(room, "good")
    (room / "file").write_text("no folder\n")
    (room / "lost").symlink_to("nowhere")
    for name in "lostjournal", "folded":
        (room / name).mkdir()
    (room / "lostjournal" / "journal").symlink_to("nowhere")
    (room / "folded" / "journal").mkdir()
    shutil.copytree(room / "good", room / "closed")
    (room / "noentry").mkdir(mode=0o555)
    shutil.copytree(room / "good", room / "readable")
    for path in (room / "readable").iterdir():
        path.chmod(0o444)
    before = seen(room)
    (room / "closed").chmod(0)
    cases = [
        ("a file in its place", "file", "Not a directory", commands),
        ("a link that dangles", "lost", "leads nowhere", commands),
        ("a journal that is a link that dangles", "lostjournal", "leads nowhere", commands),
        ("a journal that is a folder", "folded", "Is a directory", commands),
    ]
    of_rights = [
        ("no right to the folder", "closed", "Permission denied", commands),
        ("no right to the files", "readable", "Permission denied", commands),
        ("no right to make files", "noentry", "Permission denied", lambda name, _: [("init", name)]),
        ("no right to make a folder", "noentry/club", "Permission denied", lambda name, _: [("init", name)]),
    ]
    user = unprivileged()
    for what, name, cause, those in cases + (of_rights if user is not None else []):
        for words in those(name, story):
            refused(f"{what}: {words[0]}", run(*words, cwd=room, **(user or {})), f"{name}/", cause)
    few = {"preexec_fn": lambda: resource.setrlimit(resource.RLIMIT_NOFILE, (40, 40))}
    refused("40 open files", run("pipe", "good", story, cwd=room, **few), "good/snap", "Too many open files")
    for name in "clbu", "new/evening/clbu":
        for words in commands(name, story)[1:]:
            ran = run(*words, cwd=room)
            want(f"{words[0]} of a name that isn't there", (ran.returncode, ran.stdout), (8, "bad journal\n"))
            want("and its words", f"{name}/journal: it isn't there" in ran.stderr, True)
    (room / "closed").chmod(0o755)
    want("what stands there", seen(room), before)
    return user is not None


# Mounts a folder over itself, for reading alone, and runs the words behind it.
MOUNT = 'mount --bind "$1" "$1" && mount -o remount,ro,bind "$1" && shift && exec "$@"'


def read_only(room, story):
    """A folder on a read-only file system, where one can be had."""
    (room / "still").mkdir()
    begun(room / "still", "club")
    before = seen(room)
    mounted = ["unshare", "--map-root-user", "--mount", "sh", "-c", MOUNT, "sh", str(room / "still")]
    try:
        if subprocess.run([*mounted, "true"], capture_output=True, timeout=60).returncode:
            return False
    except FileNotFoundError:
        return False
    for words in *commands("still/club", story), ("init", "still/other/club"):
        ran = subprocess.run([*mounted, crash.PROGRAM, *words], cwd=room, capture_output=True, text=True, timeout=60)
        refused(f"a read-only file system: {words[0]}", ran, words[1], "Read-only file system")
    want("what stands there", seen(room), before)
    return True


def said(link):
    """All that a link is sent until it ends."""
    got = b""
    link.settimeout(30)
    with contextlib.suppress(ConnectionError):
        while piece := link.recv(65536):
            got += piece
    return got


def stranger(host, pieces):
    """What comes back to a link that sends these pieces, a little apart, and then waits."""
    link = host.link().socket
    link.setsockopt(socket.IPPROTO_TCP, socket.TCP_NODELAY, 1)
    with link, contextlib.suppress(ConnectionError):
        for piece in pieces:
            link.sendall(piece)
            if len(pieces) > 1:
                time.sleep(0.05)
        return said(link)
    return b""


BODY = b"CLOSE 0 k 2\nLINE 0 k 2 1 =gone\nLAST 0 k\nOPEN 5 x 0 1 80 24\n"


def post(lines):
    return b"\r\n".join([*lines, b"Content-Length: %d" % len(BODY), b"", BODY])


STRANGERS = {
    **{f"{method} and its space": [method.encode() + b" "] for method in "PUT DELETE CONNECT TRACE PATCH PRI".split()},
    "GET": [b"GET / HTTP/1.1\r\nHost: 127.0.0.1\r\n\r\n"],
    "HEAD": [b"HEAD / HTTP/1.0\r\n\r\n"],
    "a form's POST": [post([b"POST / HTTP/1.1", b"Host: localhost", b"Content-Type: text/plain"])],
    "OPTIONS": [b"OPTIONS * HTTP/1.1\r\nHost: localhost\r\n\r\nLAST 0 k\n"],
    "a method in small letters": [b"post / HTTP/1.1\r\n\r\n" + BODY],
    "a POST in pieces": [b"P", b"OS", b"T / HTTP/1.1\r\n", b"\r\n" + BODY],
    "a field alone": [b"hOsT: localhost\r\n" + BODY],
    "a TLS hello": [b"\x16\x03\x01\x00\x20\x01\n\n\n" + BODY],
}  # fmt: skip


def strangers(room, story):
    begun(room, "web")
    with served(str(room / "web"), story, 2) as host:
        link = host.link()
        opened = link.ask("OPEN 0 k 0 1 80 24")
        want("OPEN", opened[:9], "SHOW 0 0\n")
        moved = link.ask("LINE 0 k 1 1 =here")
        before = (room / "web" / "journal").read_bytes()
        for what, pieces in STRANGERS.items():
            want(what, stranger(host, pieces), b"")
            want(f"another link behind {what}", link.ask("LAST 0 k"), moved)
        browser = http.client.HTTPConnection("127.0.0.1", host.link().socket.getpeername()[1], timeout=30)
        try:
            browser.request("POST", "/", BODY, {"Content-Type": "text/plain"})
            raise Otherwise(f"a browser was answered: {browser.getresponse().status}")
        except (http.client.RemoteDisconnected, ConnectionError):
            pass
        caller = host.link().socket
        try:
            ssl._create_unverified_context().wrap_socket(caller)
            raise Otherwise("a handshake of TLS was answered")
        except (ssl.SSLError, ConnectionError):
            pass
        want("another link", link.ask("LAST 0 k"), moved)
        want("the journal", (room / "web" / "journal").read_bytes(), before)
        # What begins as another protocol's method may still be a client's.
        slow = host.link()
        for piece in b"C", b"LOSE 0 k", b" 9\nO":
            slow.socket.sendall(piece)
            time.sleep(0.05)
        want("a client in pieces", slow.input.readline(), b"NO 5 1\n")
        slow.socket.sendall(b"PEN 0 k 0 1 80 24\n")
        want("its next line", slow.input.readline(), b"NO 3\n")
        slow.close()
        for line in b"GETS", b"OPTIONS", b"Host", b"P":
            other = host.link()
            other.socket.sendall(line + b"\n")
            want(f"{line} as a link's first line", other.input.readline(), b"NO 1\n")
            other.close()
        link.close()


def silent_links(room, story):
    begun(room, "quiet")
    bad = run("serve", "quiet", "0", "1", story, cwd=room, env={**os.environ, IDLE: "soon"})
    if bad.returncode != 9 or IDLE not in bad.stderr or bad.stdout:
        raise Otherwise(f"{IDLE}=soon: status {bad.returncode}, {bad.stderr!r}")
    with served(str(room / "quiet"), story, 2, **{IDLE: "3"}) as host:
        first = host.link()
        want("OPEN", first.ask("OPEN 0 k 0 1 80 24")[:9], "SHOW 0 0\n")
        opened = first.ask("LAST 0 k")
        for _ in range(4):
            time.sleep(0.8)
            want("a link that speaks at times", first.ask("LAST 0 k"), opened)
        first.close()
        quiet, half = host.link(), host.link()
        half.socket.sendall(b"LAST 0")
        time.sleep(0.3)
        began = time.monotonic()
        waiting = host.link()
        want("the next player", waiting.ask("LAST 0 k"), opened)
        if not 1 < time.monotonic() - began < 30:
            raise Otherwise(f"the next player was answered after {time.monotonic() - began:.1f} seconds")
        want("a silent link", (said(quiet.socket), said(half.socket)), (b"", b""))
        waiting.close()
        deaf = [host.link() for _ in range(2)]
        for link in deaf:
            fill(link)
        waiting = host.link()
        want("a player behind links that read nothing", waiting.ask("LAST 0 k"), opened)
        host.process.send_signal(signal.SIGSTOP)
        time.sleep(0.2)
        host.process.send_signal(signal.SIGCONT)
        time.sleep(0.2)
        want("a host that was stopped for a while", waiting.ask("LAST 0 k"), opened)
        for link in quiet, half, waiting, *deaf:
            link.close()


def fill(link):
    """Asks until nothing more is taken."""
    link.socket.settimeout(0.5)
    with contextlib.suppress(TimeoutError, ConnectionError):
        while True:
            link.socket.sendall(b"LAST 0 k\n" * 1000)


def no_descriptors(room, story):
    """No worker has one for its next link, and then each has."""
    begun(room, "full")
    with served(str(room / "full"), story, 4) as host:
        links = [host.link()]
        want("OPEN", links[0].ask("OPEN 0 k 0 1 80 24")[:9], "SHOW 0 0\n")
        opened = links[0].ask("LAST 0 k")
        links += [host.link() for _ in range(3)]
        for link in links:
            want("one of four links", link.ask("LAST 0 k"), opened)
        pid = host.process.pid
        usual = resource.prlimit(pid, resource.RLIMIT_NOFILE)
        resource.prlimit(pid, resource.RLIMIT_NOFILE, (3, usual[1]))
        for link in links:
            link.close()
        links = [host.link() for _ in range(4)]
        links[0].socket.sendall(b"LAST 0 k\n")
        links[0].socket.settimeout(0.5)
        with contextlib.suppress(TimeoutError):
            raise Otherwise(f"a link without a descriptor was answered: {links[0].socket.recv(9)!r}")
        links[0].socket.settimeout(60)
        resource.prlimit(pid, resource.RLIMIT_NOFILE, usual)
        # The first one is answered what it asked before.
        for link in links:
            want("a link that waited for a descriptor", link.ask("LAST 0 k"), opened)
        for link in links:
            link.close()


def events(host):
    """What the log of a host says, which is killed; each line has a time of these minutes."""
    host.process.kill()
    lines = [host.told, *host.process.stderr.read().decode().splitlines(keepends=True)]
    found = []
    for line in lines:
        date, name, event = line.partition(" storyhost: ")
        about = time.time() - email.utils.parsedate_to_datetime(date).timestamp() if name else None
        if about is None or not -2 < about < 600 or not event.endswith("\n"):
            raise Otherwise(f"a line of the log: {line!r}")
        found.append(event.rstrip("\n"))
    return found


def logged_links(room, story):
    """A host that is asked for all, one that is asked for nothing, and one that isn't asked."""
    begun(room, "told")
    bad = run("serve", "told", "0", "1", story, cwd=room, env={**os.environ, LOG: "all"})
    if bad.returncode != 9 or LOG not in bad.stderr or bad.stdout or bad.stderr.count("\n") != 1:
        raise Otherwise(f"{LOG}=all: status {bad.returncode}, {bad.stderr!r}")
    wanted = [
        "link 1 is let go: it speaks HTTP or TLS, so it is no client's",
        "link 2 is let go: Connection reset by peer (os error 104)",
        "link 3 is let go: it sent nothing for 1 s",
    ]
    for amount in "links", "none", None:
        with served(str(room / "told"), story, 1, **{IDLE: "1"}, **({LOG: amount} if amount else {})) as host:
            stranger(host, STRANGERS["GET"])
            link = host.link()
            link.ask("OPEN 0 secretkey 0 1 80 24")
            link.ask("LINE 0 secretkey 1 1 =secretword")
            link.socket.setsockopt(socket.SOL_SOCKET, socket.SO_LINGER, struct.pack("ii", 1, 0))
            link.close()
            want("a silent link", said(host.link().socket), b"")
            link = host.link()
            link.ask("LAST 0 secretkey")
            link.close()
            time.sleep(0.3)
            told = events(host)
        whole = [it for n, line in enumerate(wanted, 1) for it in (f"link {n} is taken", line)]
        whole += ["link 4 is taken", "link 4 has ended"]
        want(f"the log, {LOG}={amount}", told[1:], {"links": whole, "none": [], None: wanted}[amount])
        want("its first line", told[0], f"serving on 127.0.0.1:{host.told.rpartition(':')[2].strip()}")


def logged_files(room, story):
    """A host whose files may not grow: first the journal's, then a snapshot's."""
    begun(room, "small")
    ignored = lambda: signal.signal(signal.SIGXFSZ, signal.SIG_IGN)
    with served(str(room / "small"), story, 1, preexec_fn=ignored) as host:
        link, pid = host.link(), host.process.pid
        want("OPEN", link.ask("OPEN 0 k 0 1 80 24")[:9], "SHOW 0 0\n")
        usual = resource.prlimit(pid, resource.RLIMIT_FSIZE)
        resource.prlimit(pid, resource.RLIMIT_FSIZE, ((room / "small" / "journal").stat().st_size, usual[1]))
        want("a move on a full disk", link.ask("LINE 0 k 1 1 =one")[:5], "NO 11")
        want("a size on a full disk", link.ask("SIZE 0 k 1 40 10")[:5], "NO 11")
        # A snapshot has more bytes than the journal comes to.
        resource.prlimit(pid, resource.RLIMIT_FSIZE, (4000, usual[1]))
        for n in range(1, 18):
            want("a move", link.ask(f"LINE 0 k {n} 1 =m")[:4], "SHOW")
        link.close()
        told = events(host)
    journal, snap = (room / "small" / name for name in ("journal", "snap00"))
    want("the log", told[1:], [f"{file}: a write failed: File too large (os error 27)" for file in (journal, journal, snap)])


MISUSED = [
    (2, "", "no command is given"),
    (2, "plya x", '"plya" is no command'),
    (2, "serve d 0 17 s", 'WORKERS is a number from 1 to 16, and "17" isn\'t'),
    (2, "serve d x 4 s", 'PORT is a number from 0 to 65535, and "x" isn\'t'),
    (2, "serve d 0 4", "no STORY is given"),
    (2, "serve d 0 4 --links 0 s", '--links is a number from 1 to 4294967295, and "0" isn\'t'),
    (2, "pipe d s --budget", "no number is given behind --budget"),
    (2, "run s --seed 1", '"--seed" is no option here'),
    (2, "init d e", '"e" is a word too many'),
    (2, "drill -1", 'N is a number from 0 to 18446744073709551615, and "-1" isn\'t'),
    (3, "check z.z5", "z.z5: it is for the Z-machine, version 5, and only Glulx is played"),
    (3, "check text", "text: the file is no Glulx story"),
    (3, "run form", "form: the file is no Blorb container"),
]


def misuse(room, story):
    """Words that aren't taken, and files that are no stories."""
    (room / "z.z5").write_bytes(b"\5" + bytes(511))
    (room / "text").write_bytes(b"text" * 100)
    (room / "form").write_bytes(b"FORM" * 100)
    for status, words, wanted in MISUSED:
        ran = run(*words.split(), cwd=room)
        lines = ran.stderr.splitlines()
        if ran.returncode != status or len(lines) != 1 or not lines[0].endswith(f": {wanted}"):
            raise Otherwise(f"{words}: status {ran.returncode}, {ran.stderr!r}")


def streams_that_do_not_wait(room, story):
    begun(room, "streams")
    (asked, ask), (answer, answered) = os.pipe(), os.pipe()
    os.set_blocking(asked, False)
    os.set_blocking(answered, False)
    count = 4000
    with subprocess.Popen(
        [crash.PROGRAM, "pipe", str(room / "streams"), story], stdin=asked, stdout=answered, stderr=subprocess.PIPE
    ) as host:
        os.close(asked)
        os.close(answered)
        time.sleep(0.3)
        os.write(ask, b"OPEN 0 k 0 1 80 24\n")
        time.sleep(0.3)
        writer = threading.Thread(target=lambda: (os.write(ask, b"LAST 0 k\n" * count), os.close(ask)))
        writer.start()
        time.sleep(0.3)
        with open(answer, "rb") as file:
            got = file.read()
        writer.join()
        want("pipe over streams that don't wait", (host.wait(timeout=60), host.stderr.read()), (0, b""))
    want("its replies", got.count(b"SHOW 0 0\n"), count + 1)


def main():
    words = argparse.ArgumentParser()
    words.add_argument("program", nargs="?")
    words.add_argument("--tries", type=int, default=30)
    words.add_argument("--times", action="store_true", help="tell what each part took")
    asked = words.parse_args()
    room = pathlib.Path(tempfile.mkdtemp(prefix="edge-"))
    room.chmod(0o755)
    # A user without rights has to be able to run it.
    crash.PROGRAM = shutil.copy(asked.program or crash.PROGRAM, room / "storyhost")
    story = str(room / "story.ulx")
    pathlib.Path(story).write_bytes(crash.echo_story())
    times = []

    def timed(part, *given):
        began = time.monotonic()
        answer = part(room, story, *given)
        times.append(f"{part.__name__} {time.monotonic() - began:.1f}")
        return answer

    try:
        timed(two_hosts, asked.tries)
        met = timed(two_inits)
        tried = {"rights": timed(other_folders), "a read-only file system": timed(read_only)}
        timed(strangers)
        timed(silent_links)
        timed(no_descriptors)
        timed(logged_links)
        timed(logged_files)
        timed(misuse)
        timed(streams_that_do_not_wait)
    except (Otherwise, OSError, subprocess.TimeoutExpired) as cause:
        print(f"edge: {cause}; its folder is {room}")
        return 1
    shutil.rmtree(room)
    untried = "".join(f"; {what} can't be had here, so NOT tried" for what, was in tried.items() if not was)
    print(f"edge: {asked.tries} times two hosts on one folder: one was refused, no acknowledged move is missing; two init "
          f"at once began one folder 10 times ({met} met); folders that can't be had left as they were; strangers not "
          f"answered, silent links let go; the log and words that aren't taken as wanted{untried}")  # fmt: skip
    if asked.times:
        print(f"edge: seconds: {', '.join(times)}")
    return 0


if __name__ == "__main__":
    sys.exit(main())
