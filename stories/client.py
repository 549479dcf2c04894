#!/usr/bin/env python3
"""The smallest client that loses nothing, by docs/FORMATS.md ("Requests of a connection", "Shows"): lines of standard
input are moves, and the text of all windows is written as it comes.

usage: client.py PORT SESSION KEY [STORY]"""
import socket
import sys
import time
from urllib.parse import quote, unquote

PORT, SESSION, KEY = int(sys.argv[1]), sys.argv[2], sys.argv[3]


def ask(request):
    """The lines of the reply. A link for each request: a host that stops is waited for and asked again, and a
    request that it has kept is answered as before, and not done twice."""
    while True:
        try:
            with socket.create_connection(("127.0.0.1", PORT)) as link, link.makefile(newline="\n") as replies:
                link.sendall(request.encode() + b"\n")
                lines = []
                for line in replies:
                    lines.append(line.rstrip("\n"))
                    if lines[-1] == "." or lines[0].startswith("NO "):
                        return lines
        except OSError:
            pass
        time.sleep(0.2)


def shown(lines):
    """Writes a show; gives the number of the session's moves, and the lines that say what is waited for."""
    for line in lines[1:]:
        word, *rest = line.split(" ")
        if word in ("T", "G"):      # a run of text in a style; a row of a grid
            print(unquote(rest[2][1:]), end="\n" if word == "G" else "", flush=True)
        elif word == "E":
            print(f"\n[{' '.join(rest)}]")
    return int(lines[0].split()[2]), [line.split(" ") for line in lines if line[:2] in ("I ", "P ")]


def command(wait, n, text):
    """What the text is to the story: a name of a file, a line, or a character (of none Return)."""
    if wait[0] == "P":
        return f"FILE {SESSION} {KEY} {n} ={quote(text, safe='')}"
    if wait[2] == "line":
        return f"LINE {SESSION} {KEY} {n} {wait[1]} ={quote(text, safe='')}"
    return f"CHAR {SESSION} {KEY} {n} {wait[1]} {ord(text[0]) if text else 0xFFFFFFFA}"


reply = ask(f"LAST {SESSION} {KEY}")
if reply[0] == "NO 2":
    reply = ask(f"OPEN {SESSION} {KEY} {sys.argv[4] if len(sys.argv) > 4 else 0} {time.time_ns()} 80 24")
while reply[0].startswith("SHOW "):
    count, waits = shown(reply)
    move = sys.stdin.readline() if waits else ""
    if not move:
        sys.exit(0)
    reply = ask(command(waits[0], count + 1, move.rstrip("\n")))
    if reply[0].startswith("NO "):      # it wasn't taken: where the game stands is asked
        print(f"[{reply[0]}]")
        reply = ask(f"LAST {SESSION} {KEY}")
sys.exit(f"client.py: {reply[0]}")
