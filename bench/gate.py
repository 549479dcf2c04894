#!/usr/bin/env python3
"""Runs the gate's first step from nothing, and tells the processor seconds of each of its pieces.

    bench/gate.sh [OUT]              `rt ci --anew` in a copy of the checkout
    bench/gate.sh OUT CRATE..        these crates and those below, without what `rt` has kept: a figure and no gate

A piece is a crate's proof and library, its tests, or its edits. Seconds are those that the system counted for
`rattle`'s processes below that `rt ci`, user and system, as they were last seen: they are looked for every half second,
so that a piece may miss that much. What a kept piece cost isn't known, so it has no number. Machines differ, so each is
also told as a multiple of one proof of `story_text` in the same run. OUT, a new folder unless it is named, gets the log
(`gate.log`) and the table (`table.md`), which is written anew every 20 seconds. The status is that of `rt ci`."""

import os
import pathlib
import shutil
import subprocess
import sys
import tempfile
import time

TOP = pathlib.Path(__file__).resolve().parent.parent
TICKS = os.sysconf("SC_CLK_TCK")
KINDS = ("proof", "tests", "edits")
UNIT = "story_text"


def words_of(process):
    return (process / "cmdline").read_bytes().decode("utf-8", "replace").split("\0")


def fields_of(process):
    """What the system tells of a process, from its state on."""
    return (process / "stat").read_text().rsplit(")", 1)[1].split()


def kind_of(words):
    """A program's proof is a check as well, whose result `-o` keeps for both compilers."""
    if words[1] == "check" and "-o" not in words:
        return "edits"
    return "tests" if "--test" in words else "proof"


def is_below(process, gate):
    while process.name not in ("0", gate):
        process = process.parent / fields_of(process)[1]
    return process.name == gate


def look(gate, seen):
    """Adds what stands now of the processes that prove below the gate's."""
    for process in pathlib.Path("/proc").glob("[0-9]*"):
        try:
            words = words_of(process)
            if words[0].endswith("/rattle") and "--crate-name" in words and is_below(process, gate):
                fields = fields_of(process)
                crate = words[words.index("--crate-name") + 1]
                seen[process.name, fields[19]] = crate, kind_of(words), sum(map(int, fields[11:15])) / TICKS
        except (OSError, IndexError):
            continue


def table_of(seen):
    """The pieces by crate, dearest first, with their sums."""
    sums = {}
    for crate, kind, seconds in seen.values():
        sums.setdefault(crate, dict.fromkeys(KINDS, 0))[kind] += seconds
    unit = sums.get(UNIT, {"proof": 0})["proof"]
    multiple = lambda seconds: f"{seconds / unit:.1f}" if unit else ""
    lines = [f"| Crate | {' | '.join(KINDS)} | in proofs of `{UNIT}` |", "|---|---|---|---|---|"]
    for crate, row in sorted(sums.items(), key=lambda it: -sum(it[1].values())):
        cells = [str(round(row[kind])) if row[kind] else "" for kind in KINDS]
        lines.append(f"| `{crate}` | {' | '.join(cells)} | {multiple(sum(row.values()))} |")
    of_kind = [sum(row[kind] for row in sums.values()) for kind in KINDS]
    minutes = [str(round(seconds / 60)) for seconds in of_kind]
    lines.append(f"| in minutes, {sum(of_kind) / 60:.0f} in all | {' | '.join(minutes)} | {multiple(sum(of_kind))} |")
    return "\n".join(lines) + "\n"


def copy_to(repository):
    shutil.copytree(TOP / "crates", repository / "crates", ignore=shutil.ignore_patterns("out"))
    for file in ("crates.txt", "HANDLES"):
        shutil.copy(TOP / file, repository)
    (repository / ".git").mkdir()


def main(out=None, *crates):
    out = pathlib.Path(out or tempfile.mkdtemp(prefix="gate-")).resolve()
    copy_to(out / "repository")
    seen, began, written = {}, time.time(), 0
    with (out / "gate.log").open("w") as log:
        ran = subprocess.Popen(
            ["rt", "ci", "--anew", *crates], cwd=out / "repository", stdout=log, stderr=log, stdin=subprocess.DEVNULL
        )
        while ran.poll() is None:
            look(str(ran.pid), seen)
            if time.time() - written > 20:
                written = time.time()
                (out / "table.md").write_text(table_of(seen))
            time.sleep(0.5)
    (out / "table.md").write_text(table_of(seen))
    print(table_of(seen), f"It took {(time.time() - began) / 60:.0f} minutes; log and table in {out}.", sep="\n")
    print((out / "gate.log").read_text().rstrip("\n").rsplit("\n", 1)[-1])
    return ran.returncode


if __name__ == "__main__":
    if sys.argv[1:2] in (["-h"], ["--help"]):
        sys.exit(__doc__)
    sys.exit(main(*sys.argv[1:]))
