#!/usr/bin/env python3
"""Counts the instructions that one program or two take for the work of the bench, by callgrind.

A count is of the program's whole run less that of a run in which the story begins and quits, so it is the
moves' own, and the same each time. It is no time: it knows no cache and no branch that was guessed wrong. A
second program may be an older one; it is to take the words `run FILE --budget N` and the lines of `run`.
Wants valgrind. With --part N each row does an Nth of its work; 20 takes some minutes.

    bench/instructions.py [--part N] [--keep FOLDER] PROGRAM [OTHER]"""

import argparse
import os
import sys
import tempfile

HERE = os.path.dirname(os.path.abspath(__file__))
sys.path.insert(0, HERE)

from measure import BUDGET, STORIES, rows  # noqa: E402
from host import Host  # noqa: E402


def counted(program, story, moves, folder, name):
    """The instructions of a run with these moves, and what the story's main window showed."""
    told, script = os.path.join(folder, name), os.path.join(folder, "counted.sh")
    with open(script, "w") as file:
        file.write(f"#!/bin/sh\nexec valgrind -q --tool=callgrind --callgrind-out-file='{told}' "
                   f"'{os.path.abspath(program)}' \"$@\"\n")
    os.chmod(script, 0o755)
    host = Host(os.path.join(STORIES, story), script, BUDGET)
    for move in moves:
        host.give(move)
    text = host.text
    for move in [] if host.ended else ["quit", "yes"]:
        host.give(move)
    host.finish()
    if host.ended != "quit":
        raise SystemExit(f"instructions.py: {name}: the story ended as {host.ended}")
    with open(told) as file:
        return next(int(line.split()[1]) for line in file if line.startswith("totals:")), text


def main():
    words = argparse.ArgumentParser(usage=__doc__)
    words.add_argument("--part", type=int, default=20)
    words.add_argument("--keep")
    words.add_argument("programs", nargs="+")
    given = words.parse_args()
    print("| Work | instructions |" + " other | ratio |" * (len(given.programs) > 1))
    print("|---|---|" + "---|---|" * (len(given.programs) > 1))
    with tempfile.TemporaryDirectory() as folder:
        kept, begun = given.keep or folder, {}
        os.makedirs(kept, exist_ok=True)
        for place, row in enumerate(rows(given.part, folder)):
            counts, texts = [], []
            for which, program in enumerate(given.programs):
                if row.moves and (row.story, which) not in begun:
                    begun[row.story, which], _ = counted(program, row.story, [], kept, f"begun.{place}.{which}")
                count, text = counted(program, row.story, row.moves, kept, f"row.{place}.{which}")
                counts.append(count - begun.get((row.story, which), 0))
                texts.append(text)
            cells = " | ".join(f"{count:,}" for count in counts)
            cells += f" | {counts[0] / counts[1]:.3f}" if len(counts) > 1 else ""
            same = "" if len(set(texts)) == 1 else " the texts differ"
            print(f"| {row.name}: {row.work:,} {row.unit} | {cells} |{same}", flush=True)


if __name__ == "__main__":
    main()
