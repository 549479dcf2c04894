#!/usr/bin/env python3
"""Looks at the texts that `rt ci` refuses before it proves anything, in a few seconds: before a landing, and after a merge.

    bench/texts.py

Each file of src, specs and proofs has to be in the layout (`rt fmt` puts it there), and each edit of must-fail and
wrong-bodies has to change its files as they are: each of its texts stands there once. It says what isn't so, and ends with 1 then.
`rt ci glk_numbers` looks at the rest of the texts: files that no check reads, and handles."""

import pathlib
import sys

from kit import load_rt

TOP = pathlib.Path(__file__).resolve().parent.parent


def main():
    rt, is_good, edits = load_rt(), True, 0
    for crate in sorted(it for it in (TOP / "crates").iterdir() if (it / "src").is_dir()):
        sys.stdout.flush()
        is_good &= rt.rtlib.fmt(str(crate), "--check", sys.stdout) == 0
        for edit in [*crate.glob("must-fail/*.edit"), *crate.glob("wrong-bodies/*.edit")]:
            _, fault = rt.read_edit(str(edit), str(crate))
            edits += 1
            if fault:
                print(f"{edit.relative_to(TOP)}: {fault}")
                is_good = False
    print(f"{edits} edits were looked at; {'all texts are good' if is_good else 'NOT all texts are good'}")
    return 0 if is_good else 1


if __name__ == "__main__":
    sys.exit(main())
