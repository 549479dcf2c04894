#!/usr/bin/env python3
"""Proves one function of a crate without building a library below it: the prover takes the libraries that stand built
in out/, and reads the others as sources, by the words of `rt`'s quick pass. Sources take memory: the more of them lie
below, the more (a crate above vm_exec and glk_dispatch takes some 5 GB where none is built).

    bench/one.py CRATE PATH [rattle's flags]

PATH is a function, a module or a type by its path below the crate, as in `rt check --only`; it may come more than once,
as PATH,PATH. What was checked is kept in crates/CRATE/out/one, so that a second run is much faster; it keeps to itself,
and takes nothing from an `rt check`. It is no verdict: it says nothing of the functions that PATH doesn't lead to, and
proves those of sources below that PATH leads to."""

import os
import pathlib
import resource
import subprocess
import sys
import time

from kit import load_rt

TOP = pathlib.Path(__file__).resolve().parent.parent


def with_built(crate, words):
    """The words, with each library that stands built in the place of its sources."""
    built = {it.name: it.rlib for it in crate.below() if it.makes_rlib() and it.is_built()}
    found, at = [], 0
    while at < len(words):
        name = words[at + 1].partition(":")[0] if words[at] == "--lib" else None
        if name in built:
            found += ["--extern", f"{name}={built[name]}", "-L", f"dependency={os.path.dirname(built[name])}"]
        else:
            found += words[at : at + 2] if name else words[at : at + 1]
        at += 2 if name else 1
    return found


def main(name, paths, flags):
    rtlib = load_rt().rtlib
    folder = TOP / "crates" / name
    if not (folder / "src").is_dir():
        sys.exit(f"there is no crate {name}")
    crate = rtlib.Crate(str(folder), str(TOP), {}, name=name)
    only = [word for path in paths.split(",") for word in ("--only", path)]
    kept = folder / "out" / "one"
    kept.mkdir(parents=True, exist_ok=True)
    words = crate.words([*only, "--jobs", "1", "--incremental", str(kept), *flags], as_source=True)
    words = with_built(crate, words)
    began = time.time()
    status = subprocess.run([rtlib.RATTLE, "check", *words], cwd=folder, stdin=subprocess.DEVNULL).returncode
    used = resource.getrusage(resource.RUSAGE_CHILDREN)
    seconds, memory = used.ru_utime + used.ru_stime, used.ru_maxrss / 1_000_000
    print(f"no verdict; status {status}, {time.time() - began:.0f} s, {seconds:.0f} of a processor, {memory:.1f} GB")
    return 1 if status < 0 else status


if __name__ == "__main__":
    if len(sys.argv) < 3:
        sys.exit(__doc__)
    sys.exit(main(sys.argv[1], sys.argv[2], sys.argv[3:]))
