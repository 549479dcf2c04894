#!/usr/bin/env python3
"""What a host's journal costs.

Accepted inputs a second of `pipe` on the Echo story, beside a loop that makes the same writes and
syncs on the same file system: two of each an input, and, unless it leaves them out, four writes and three
syncs more for a snapshot of the same length behind every 16th input. All take turns in one run; each
figure is the best of its rounds. Then journals of as many rows as there may be, 64 sessions of 8,192 each, with short lines and
with lines of 1,024 characters: how long `pipe` takes to open it, and what memory it then holds besides
what it holds over an empty one; and how long `pack` takes to pack it, and what memory.

    bench/journal.py [INPUTS] [FOLDER]"""

import hashlib
import os
import pathlib
import subprocess
import sys
import tempfile
import time

TOP = pathlib.Path(__file__).resolve().parent.parent
PROGRAM = pathlib.Path(os.environ.get("STORYHOST", TOP / "crates" / "storyhost" / "out" / "storyhost"))
ROUNDS = 5
GATE, AREA = 10, 4096


def echo_story():
    lines = (TOP / "rows" / "stories" / "echo.hex").read_text().splitlines()
    digits = " ".join(line for line in lines if not line.startswith(("#", "size")))
    return bytes.fromhex(digits).ljust(256, b"\0")


def served(folder, inputs):
    """Seconds of `pipe` for so many inputs, from its start to its end, and a snapshot's length."""
    (folder / "echo.ulx").write_bytes(echo_story())
    subprocess.run([PROGRAM, "init", folder / "d"], check=True, capture_output=True)
    lines = b"OPEN 0 k 0 7 80 24\n" + b"".join(
        b"LINE 0 k %d 1 =go\n" % n for n in range(1, inputs + 1)
    )
    # Input and output in memory, so that no other process takes part.
    with tempfile.TemporaryFile(dir="/dev/shm") as given, tempfile.TemporaryFile(dir="/dev/shm") as told:
        given.write(lines)
        given.seek(0)
        began = time.perf_counter()
        subprocess.run([PROGRAM, "pipe", folder / "d", folder / "echo.ulx"], stdin=given, stdout=told)
        seconds = time.perf_counter() - began
        told.seek(0)
        if told.read().count(b"SHOW 0 ") != inputs + 1:
            raise SystemExit("bench: not every input was accepted")
    length = (folder / "d" / "snap00").read_bytes()[AREA + 12 : AREA + 16]
    return seconds, int.from_bytes(length, "big")


def put(file, area):
    """The writes and syncs of a snapshot: its gate is closed, its area written, its gate opened."""
    os.pwrite(file, b"\0", GATE)
    os.fdatasync(file)
    os.pwrite(file, area[:16], AREA)
    os.pwrite(file, area[16:], AREA + 16)
    os.fdatasync(file)
    os.pwrite(file, b"\1", GATE)
    os.fdatasync(file)


def written(folder, inputs, area):
    """Seconds of the same writes and syncs alone: a row of 15 bytes and its next gate, then its gate; and
    the areas of snapshots, where there are any."""
    file = os.open(folder / "plain", os.O_RDWR | os.O_CREAT)
    beside = os.open(folder / "beside", os.O_RDWR | os.O_CREAT)
    row = bytes.fromhex("00 02 00 0A 00 00 00 01 00 00 00 00 67 6F 00".replace(" ", ""))
    end = 76
    began = time.perf_counter()
    for n in range(1, inputs + 1):
        os.pwrite(file, row, end + 1)
        os.fdatasync(file)
        os.pwrite(file, b"\1", end)
        os.fdatasync(file)
        end += len(row)
        if area and n % 16 == 0:
            put(beside, area)
    seconds = time.perf_counter() - began
    os.close(file)
    os.close(beside)
    return seconds


def longest(text):
    """The bytes of a journal of as many rows as may be: in each session an OPEN, and this line."""
    opening = (b"\1k\0\0" + hashlib.sha256(echo_story()).digest() + (7).to_bytes(8, "big") + bytes([80, 24])
               + (50_000_000).to_bytes(8, "big"))
    line = (1).to_bytes(4, "big") + bytes(4) + text
    journal = bytearray(bytes.fromhex("5354484A0000000101") + bytes(7))
    for row in range(8192):
        kind, payload = (2, line) if row else (1, opening)
        for session in range(64):
            journal += bytes([1, session, kind]) + len(payload).to_bytes(2, "big") + payload
    return bytes(journal + b"\0")


def opened(room, journal):
    """Seconds that `pipe` takes to open this journal, and kilobytes that it holds."""
    folder = room / f"d{len(journal)}"
    folder.mkdir()
    (folder / "journal").write_bytes(journal)
    (room / "echo.ulx").write_bytes(echo_story())
    began = time.perf_counter()
    process = subprocess.Popen([PROGRAM, "pipe", folder, room / "echo.ulx"], stdin=subprocess.PIPE,
                               stdout=subprocess.PIPE)
    process.stdin.write(b"LAST 0 no\n")
    process.stdin.flush()
    if process.stdout.readline() != b"NO 2\n":
        raise SystemExit("bench: the journal is refused")
    seconds = time.perf_counter() - began
    with open(f"/proc/{process.pid}/status") as file:
        peak = next(int(line.split()[1]) for line in file if line.startswith("VmHWM"))
    process.stdin.close()
    process.wait()
    return seconds, peak


def packed(room, journal):
    """Seconds that `pack` takes for this journal once it was opened, and kilobytes that it holds."""
    old = room / f"d{len(journal)}"
    began = time.perf_counter()
    process = subprocess.Popen([PROGRAM, "pack", old, room / "new"], stdout=subprocess.DEVNULL)
    _, status, used = os.wait4(process.pid, 0)
    if status or (room / "new" / "journal").read_bytes() != (old / "journal").read_bytes():
        raise SystemExit("bench: not every row was kept")
    return time.perf_counter() - began, used.ru_maxrss


def main():
    inputs = int(sys.argv[1]) if len(sys.argv) > 1 else 1000
    above = sys.argv[2] if len(sys.argv) > 2 else None
    rows, both, host = [], [], []
    for _ in range(ROUNDS):
        with tempfile.TemporaryDirectory(prefix="journal-", dir=above) as room:
            seconds, length = served(pathlib.Path(room), inputs)
            host.append(seconds)
            both.append(written(pathlib.Path(room), inputs, bytes(16 + length)))
            rows.append(written(pathlib.Path(room), inputs, b""))
    print("| Work | inputs a second |\n|---|---|")
    print(f"| the writes and syncs of rows | {inputs / min(rows):,.0f} |")
    print(f"| those of rows and of snapshots of {length} bytes | {inputs / min(both):,.0f} |")
    print(f"| `pipe` on the Echo story | {inputs / min(host):,.0f} |")
    print(f"\nratio {min(both) / min(host):.2f}, {inputs:,} inputs, best of {ROUNDS} rounds each")
    print("\n| Journal | MB | seconds | memory, MB | times its size | `pack`, seconds | times its size |")
    print("|---|---|---|---|---|---|---|")
    for text in (b"take all from cupboard", b"x" * 1024):
        with tempfile.TemporaryDirectory(prefix="journal-", dir=above) as room:
            journal = longest(text)
            _, empty = opened(pathlib.Path(room), journal[:16] + b"\0")
            seconds, peak = opened(pathlib.Path(room), journal)
            shorter, most = packed(pathlib.Path(room), journal)
        size, taken = len(journal) / 2**20, (peak - empty) / 1024
        print(f"| 524,288 rows, lines of {len(text):,} characters | {size:.1f} | {seconds:.2f} "
              f"| {taken:.1f} | {taken / size:.1f} | {shorter:.2f} | {most / 1024 / size:.1f} |")


main()
