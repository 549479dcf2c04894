#!/usr/bin/env python3
"""The table of docs/FAILURES.md of what a refused call leaves: each public call of each crate that may refuse, read from
the sources, with the clauses that say it.

    bench/refusals.py            looks whether the table stands there as the sources have it
    bench/refusals.py --write    writes it
    bench/refusals.py --open     lists the calls that change something, may refuse and have no such clause

A call may refuse where it answers a `Result`, an `Option`, one of the types of REFUSING, or a status. It has nothing to change
where no argument is a `&mut`: then a refusal takes what it was given by value, and its answer tells what comes back.
Else a clause says what a refusal leaves where it has a word of the state after the call (`.new`) and isn't bound to
an answer that is none (`IfOk`, `OnOk`, `IfSome`, ..). Calls of a trait have the clauses of the trait."""

import collections
import pathlib
import re
import sys

TOP = pathlib.Path(__file__).resolve().parent.parent
PAGE = TOP / "docs" / "FAILURES.md"
BEGIN, END = "<!-- refusals -->\n", "<!-- end of refusals -->\n"
# answers that are refusals among others, and the call that answers a status
REFUSING, BY_STATUS = {"Got", "Put", "Next", "Served", "Worked", "Ended"}, {"top"}
TESTS = {"machine_tests", "line_tests", "disk_tests", "cell_tests", "work_tests", "snap_tests", "world_tests", "top_tests",
         "disk_cases", "turn_cell_uses", "storyhost", "story_make", "host_drill"}
GOOD = re.compile(r"\s*(IfOk|OnOk|IsOkAnd|IfSome|OnSome|IsSomeAnd|IfTook)\b")

Call = collections.namedtuple("Call", "name answer refuses changes clauses")


def exported(crate):
    """The names that a crate's root hands out."""
    names = set()
    for line in re.findall(r"pub use ([^;]+);", (crate / "src" / "lib.rt").read_text()):
        front, brace, rest = line.partition("{")
        names |= set(re.findall(r"\w+", rest)) if brace else {re.findall(r"\w+", front)[-1]}
    for item in re.findall(r"^pub (?:struct|enum|trait|fn) (\w+)", (crate / "src" / "lib.rt").read_text(), re.M):
        names.add(item)
    return names


def closing(text, at, pair):
    """The place behind the bracket that closes the one at this place."""
    depth = 0
    for place in range(at, len(text)):
        depth += (text[place] == pair[0]) - (text[place] == pair[1])
        if depth == 0:
            return place + 1
    raise ValueError(text[at : at + 60])


def signature(text, at):
    """The arguments and the answer of the function whose name begins here, and the place of its clauses."""
    name = re.match(r"\w+", text[at:])
    place = at + name.end()
    if text[place] == "<":
        place = closing(text.replace("->", "  "), place, "<>")
    end = closing(text, place, "()")
    answer = re.match(r"\s*->\s*([^{;]*?)(?=\s*(?:where\b|requires\b|ensures\b|ghost\b|//|\{|;))", text[end:], re.S)
    return name[0], text[place:end], answer[1] if answer else "", end + (answer.end() if answer else 0)


def clauses(text, at):
    """The labels and texts of the clauses behind a signature."""
    found, place = [], at
    while True:
        gap = re.compile(r"\s+|//[^\n]*\n|where\b[^{;]*?(?=requires|ensures|\{)|,").match(text, place)
        if gap and gap.end() > place:
            place = gap.end()
            continue
        head = re.compile(r"(requires|ensures|returns|decreases)\s*(\w+)?\s*").match(text, place)
        if not head:
            return found
        end = closing(text, head.end(), "{}")
        if head[1] == "ensures":
            found.append((head[2] or "", text[head.end() + 1 : end - 1]))
        place = end


def of_refusal(label, clause):
    return (".new" in clause or "new" in label) and not GOOD.match(clause)


def calls_of(crate):
    names = exported(crate)
    for file in sorted((crate / "src").rglob("*.rt")):
        text = re.sub(r"(?m)^\s*///.*$", "", file.read_text())
        blocks = [(0, len(text), None, "")]
        for head in re.finditer(r"(?m)^(pub )?(impl|trait)\b([^{]*?)\{", text):
            opened = text.index("{", head.end() - 1)
            what = head[3]
            of = re.search(r"(?:for\s+)?(\w+)(?:<[^{]*)?\s*(?:where.*)?$", what.strip(), re.S)
            name = re.match(r"(?:<[^>]*>)?\s*(\w+)", what.strip())[1] if head[2] == "trait" else None
            if head[2] == "impl" and not re.search(r"\bfor\b", what):
                body = re.sub(r"^<.*?>\s+(?=\w)", "", what.strip(), flags=re.S)
                name = re.match(r"(\w+)", body)[1]
            if name:
                blocks.append((opened, closing(text, opened, "{}"), name, head[2]))
        for found in re.finditer(r"(?m)^([ \t]*)(pub )?(?:const )?(?:unsafe )?fn (?=\w)", text):
            inside = [block for block in blocks if block[0] <= found.start() < block[1]]
            _, _, owner, kind = inside[-1]
            if owner is None and (found[1] or not found[2]) or kind == "impl" and not found[2]:
                continue
            name, arguments, answer, behind = signature(text, found.end())
            if (owner or name) not in names or owner == "Stop":
                continue
            refuses = bool({"Result", "Option", *REFUSING} & set(re.findall(r"\w+", answer))) or name in BY_STATUS
            shown = f"{owner}::{name}" if owner else name
            yield Call(shown, answer, refuses, "&mut" in arguments, clauses(text, behind))


def labels(call):
    return [label or "no label" for label, clause in call.clauses if of_refusal(label, clause)]


def table():
    lines = ["| Crate | May refuse, and has nothing to change | May refuse, and leaves by these clauses | Refuses nothing |", "|---|---|---|---|"]
    missing = []
    for crate in sorted((TOP / "crates").iterdir()):
        if crate.name in TESTS or not (crate / "src" / "lib.rt").is_file():
            continue
        calls = list(calls_of(crate))
        none = [f"`{call.name}`" for call in calls if call.refuses and not call.changes]
        some = [f"`{call.name}` ({', '.join(labels(call))})" for call in calls if call.refuses and call.changes and labels(call)]
        missing += [f"{crate.name}: {call.name} -> {call.answer}" for call in calls if call.refuses and call.changes and not labels(call)]
        some += [f"`{call.name}` (no clause)" for call in calls if call.refuses and call.changes and not labels(call)]
        rest = sum(not call.refuses for call in calls)
        if calls:
            lines.append(f"| `{crate.name}` | {', '.join(none)} | {', '.join(some)} | {rest} calls |")
    return "\n".join(lines) + "\n", missing


def main():
    found, missing = table()
    if sys.argv[1:] == ["--open"]:
        print("\n".join(missing))
        return 1 if missing else 0
    page = PAGE.read_text()
    if BEGIN not in page:
        print(found)
        return 1
    front, rest = page.split(BEGIN)
    whole = front + BEGIN + found + END + rest.split(END)[1]
    if sys.argv[1:] == ["--write"]:
        PAGE.write_text(whole)
    elif whole != page:
        print("refusals: the table of docs/FAILURES.md isn't what the sources have (bench/refusals.py --write)")
        return 1
    return 0


if __name__ == "__main__":
    sys.exit(main())
