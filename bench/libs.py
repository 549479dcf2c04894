#!/usr/bin/env python3
"""Builds the libraries of this checkout, lowest first, and checks its programs: of the crates named with those below
them, or of all.

    bench/libs.py [--jobs N] [--logs FOLDER] [CRATE..]
    bench/libs.py --lacking CRATE..       only names the libraries below that would have to be built

`rt check` locks a crate with all that lie below it, so that two of them in one checkout wait for each other. Here a
crate is built by a process of its own, which locks that crate alone, once the libraries below it are built; of those
that can be built it takes the one with the longest chain above it first, by several jobs where others can't. What each says stands in FOLDER/CRATE.log,
the folder being a new one unless it is named. A library that a checkout on this machine built of the same sources is
taken from there, as `rt` does it. Where one fails those above it are left out, and the status is 1."""

import argparse
import fcntl
import functools
import os
import pathlib
import subprocess
import sys
import tempfile
import threading
import time

from kit import load_rt

TOP = pathlib.Path(__file__).resolve().parent.parent


def crates_of(rt):
    """All crates of the checkout, lowest first, as `rt check` sees them."""
    made = rt.rtlib.Crate.__init__

    def make(crate, *given, **named):
        made(crate, *given, **named)
        rt.read_files(crate)

    rt.rtlib.Crate.__init__ = make
    return rt.rtlib.crates_below(str(TOP / "crates"))


def build(name, jobs):
    """Builds one crate over libraries that stand built, by so many jobs. Returns rt's status."""
    rt = load_rt()
    if hasattr(rt, "share_work"):
        rt.share_work(True)
    rt.rtlib.Crate.stamp = functools.cache(rt.rtlib.Crate.stamp)
    crate = next(it for it in crates_of(rt) if it.name == name)
    os.chdir(crate.folder)
    held = os.open(crate.folder, os.O_RDONLY)
    fcntl.flock(held, fcntl.LOCK_EX)
    if crate.makes_rlib():
        return crate.build_rlib(["--jobs", jobs], anew=False)
    return crate.check(["--jobs", jobs])


def is_there(rt, crate):
    """Whether a library stands built here or, of the same sources, where it can be taken from."""
    stamp = crate.stamp()
    places = rt.places_of(crate) if hasattr(rt, "places_of") else []
    elsewhere = [folder for folder, said in places if said == stamp]
    return any(rt.rtlib.text_of(f"{it}/out/rlib/stamp") == stamp for it in [crate.folder, *elsewhere])


class Libraries:
    """Crates to be built, and how those that ended did."""

    def __init__(self, crates, names, logs, jobs):
        wanted = {below for it in crates if not names or it.name in names for below in [it, *it.below()]}
        self.left = [it for it in crates if it in wanted]
        self.logs, self.count, self.running, self.ended, self.jobs = logs, len(self.left), 0, {}, jobs
        self.turn, self.above = threading.Condition(), {}
        for crate in reversed(crates):
            above = [self.above[it.name] for it in crates if crate in it.deps]
            self.above[crate.name] = crate.count(rb"\n") + max(above, default=0)

    def take(self):
        """Waits for a crate that can be built, and takes it; None where none is left."""
        with self.turn:
            while self.left:
                lost = next((it for it in self.left if any(self.ended.get(dep.name) for dep in it.deps)), None)
                if lost:
                    self.left.remove(lost)
                    self.end(lost, 1, "not built, since a library below it failed")
                    continue
                ready = [it for it in self.left if all(dep.name in self.ended for dep in it.deps)]
                if ready:
                    crate = max(ready, key=lambda it: self.above[it.name])
                    self.left.remove(crate)
                    self.running += 1
                    return crate, max(1, self.jobs // (self.running + len(ready) - 1))
                self.turn.wait()
        return None

    def end(self, crate, status, how):
        with self.turn:
            self.ended[crate.name] = status
            self.running -= how.startswith(("ok", "FAILED"))
            print(time.strftime("%H:%M:%S"), crate.name, how, f"({len(self.ended)} of {self.count})", flush=True)
            self.turn.notify_all()

    def work(self):
        """Builds crates, one after the other, until none is left."""
        while taken := self.take():
            crate, jobs = taken
            began, words = time.time(), [sys.executable, __file__, "--one", crate.name, str(jobs)]
            with (self.logs / f"{crate.name}.log").open("w") as log:
                status = subprocess.run(words, stdout=log, stderr=log, stdin=subprocess.DEVNULL).returncode
            self.end(crate, status, f"{f'FAILED, status {status},' if status else 'ok'} {time.time() - began:.0f} s")


def main(jobs, logs, lacking, names):
    rt = load_rt()
    crates = crates_of(rt)
    unknown = set(names) - {it.name for it in crates}
    if unknown:
        sys.exit(f"there is no crate {' '.join(sorted(unknown))}")
    if lacking:
        below = {it for crate in crates if crate.name in names for it in crate.below()}
        print(*[it.name for it in crates if it in below and not is_there(rt, it)])
        return 0
    logs = pathlib.Path(logs or tempfile.mkdtemp(prefix="libs-"))
    logs.mkdir(parents=True, exist_ok=True)
    libraries = Libraries(crates, names, logs, jobs)
    lanes = [threading.Thread(target=libraries.work) for _ in range(jobs)]
    for it in lanes:
        it.start()
    for it in lanes:
        it.join()
    failed = [name for name, status in libraries.ended.items() if status]
    print(f"{libraries.count - len(failed)} built, {len(failed)} failed; logs in {logs}")
    return 1 if failed else 0


def words():
    parser = argparse.ArgumentParser(description=__doc__, formatter_class=argparse.RawDescriptionHelpFormatter)
    parser.add_argument("--jobs", type=int, default=1, help="crates side by side")
    parser.add_argument("--logs", help="a folder for what each said")
    parser.add_argument("--lacking", action="store_true", help="build nothing, and name what isn't built")
    parser.add_argument("names", nargs="*", metavar="CRATE")
    return vars(parser.parse_args())


if __name__ == "__main__":
    sys.exit(build(*sys.argv[2:]) if sys.argv[1:2] == ["--one"] else main(**words()))
