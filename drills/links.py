#!/usr/bin/env python3
"""Gives `serve` links as bad as they come, and looks whether other links are answered as before.

    drills/links.py [--long]

A host of two workers is served links that send no line feed, half a line and a reset, lines of 3,000
bytes, bytes of any kind, and a client that reads nothing; behind each of them a good link must get
the show of its session. Then more links than workers: they wait for their turn. A port in use is
status 9, and 17 workers are status 2. With `--long` a link sends 2^31 bytes without a line feed, and
must be ended by the limit of a connection. It ends with 1 where something is otherwise."""

import argparse
import os
import pathlib
import random
import shutil
import socket
import struct
import subprocess
import sys
import tempfile

TOP = pathlib.Path(__file__).resolve().parent.parent
PROGRAM = pathlib.Path(os.environ.get("STORYHOST", TOP / "crates/storyhost/out/storyhost"))
OPENED = b"SHOW 0 0\nW 1 3 0 0 80 24\nT 1 0 =>\nI 1 line 20 =\n.\n"


class Otherwise(Exception):
    pass


def want(what, got, wanted):
    if got != wanted:
        raise Otherwise(f"{what}: {got!r} in place of {wanted!r}")


def echo_story():
    lines = (TOP / "rows" / "stories" / "echo.hex").read_text().splitlines()
    bytes_of = bytes.fromhex(" ".join(line for line in lines if not line.startswith(("#", "size"))))
    return bytes_of.ljust(256, b"\0")


def start(folder, story, workers):
    words = [PROGRAM, "serve", folder, "0", str(workers), story]
    process = subprocess.Popen(words, stdin=subprocess.DEVNULL, stdout=subprocess.DEVNULL, stderr=subprocess.PIPE)
    told = process.stderr.readline().decode()
    if ":" not in told:
        raise Otherwise(f"serve didn't say where it serves, but: {told!r}")
    return process, int(told.rpartition(":")[2])


def connect(port):
    return socket.create_connection(("127.0.0.1", port), timeout=60)


def all_replies(port, sent):
    """What a link is answered that sends this and then ends."""
    with connect(port) as link:
        link.sendall(sent)
        link.shutdown(socket.SHUT_WR)
        got = b""
        while piece := link.recv(65536):
            got += piece
        return got


def good_link(port, behind):
    want(f"a good link behind {behind}", all_replies(port, b"LAST 0 k\n"), OPENED)


def bad_links(port):
    want("OPEN", all_replies(port, b"OPEN 0 k 0 1 80 24\n"), OPENED)

    want("a link without a line feed", all_replies(port, b"LAST 0 k"), b"")
    good_link(port, "no line feed")

    link = connect(port)
    link.sendall(b"LINE 0 k 1 1 =half a li")
    link.setsockopt(socket.SOL_SOCKET, socket.SO_LINGER, struct.pack("ii", 1, 0))
    link.close()
    good_link(port, "half a line and a reset")

    long = b"LINE 0 k 1 1 =" + b"a" * 3000 + b"\n"
    want("lines of 3,000 bytes", all_replies(port, long * 3 + b"LAST 0 k\n"), b"NO 14\n" * 3 + OPENED)

    draw = random.Random(1)
    noise = b"\n".join(bytes(draw.choices([b for b in range(256) if b != 10], k=draw.randint(0, 60))) for _ in range(400))
    want("bytes of any kind", all_replies(port, noise + b"\nLAST 0 k\n"), b"NO 1\n" * 400 + OPENED)


def deaf_link(port):
    """A client that asks on and on and reads nothing: its link alone waits."""
    link = connect(port)
    link.settimeout(3)
    try:
        while True:
            link.sendall(b"LAST 0 k\n" * 1000)
    except TimeoutError:
        pass
    good_link(port, "a client that reads nothing")
    link.close()
    good_link(port, "that client's end")


def many_links(port):
    """More links than workers: the third is answered once one of the first two has ended."""
    first, second, third = connect(port), connect(port), connect(port)
    for link in first, second:
        link.sendall(b"LAST 0 k\n")
        want("one of two links", link.recv(65536), OPENED)
    third.sendall(b"LAST 0 k\n")
    third.settimeout(1)
    try:
        raise Otherwise(f"a third link of two workers was answered: {third.recv(65536)!r}")
    except TimeoutError:
        pass
    first.close()
    third.settimeout(60)
    want("the third link, once the first has ended", third.recv(65536), OPENED)
    second.close()
    third.close()


def long_link(port):
    link = connect(port)
    piece, sent = b"a" * (1 << 20), 0
    try:
        while sent < 1 << 32:
            link.sendall(piece)
            sent += len(piece)
    except OSError:
        pass
    if not (1 << 31) - (1 << 20) <= sent <= (1 << 31) + (64 << 20):
        raise Otherwise(f"a link of one endless line was ended after {sent} bytes")
    link.close()
    good_link(port, "2^31 bytes")


def main():
    words = argparse.ArgumentParser()
    words.add_argument("--long", action="store_true")
    asked = words.parse_args()
    room = pathlib.Path(tempfile.mkdtemp(prefix="links-"))
    folder, story = str(room / "d"), str(room / "story.ulx")
    pathlib.Path(story).write_bytes(echo_story())
    subprocess.run([PROGRAM, "init", folder], check=True, capture_output=True)
    server = None
    try:
        server, port = start(folder, story, 2)
        bad_links(port)
        deaf_link(port)
        many_links(port)
        if asked.long:
            long_link(port)
        again = subprocess.run([PROGRAM, "serve", str(room / "e"), str(port), "1", story], capture_output=True, timeout=60)
        want("serve from a folder that was never begun", again.returncode, 8)
        subprocess.run([PROGRAM, "init", str(room / "e")], check=True, capture_output=True)
        again = subprocess.run([PROGRAM, "serve", str(room / "e"), str(port), "1", story], capture_output=True, timeout=60)
        want("a port in use", again.returncode, 9)
        crowd = subprocess.run([PROGRAM, "serve", folder, "0", "17", story], capture_output=True, timeout=60)
        want("17 workers", crowd.returncode, 2)
    except (Otherwise, OSError, subprocess.TimeoutExpired) as cause:
        print(f"links: {cause}; the folder is {room}")
        return 1
    finally:
        if server is not None:
            server.kill()
            server.wait()
    shutil.rmtree(room)
    print("links: bad links ended alone, good ones were answered")
    return 0


sys.exit(main())
