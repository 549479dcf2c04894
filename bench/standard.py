#!/usr/bin/env python3
"""What docs/STANDARD.md has of the sources: the tables of all opcodes and of all Glk selectors, each with the lines of
its definition and of its code; and, in the rows of the standards' sections, the files of the definitions.

    bench/standard.py            looks whether they stand there as the sources have them
    bench/standard.py --write    writes them

An opcode's number and operands are a row of vm_operand's `Opcode`, what it does an equation of a chapter of vm_exec's
`Rows`, its code an arm of the function of that chapter. A selector is a row of glk_dispatch's `Selector`, with the name
that stories/infglk.h has for it, and its equation and arm stand in the files of its class. Behind an equation stand the
words that it cites, behind an arm the functions that it calls, each with its own line.

In a section's row the column In has the specs file of each definition, the source file of that name where there is one,
and behind it those that were put there by hand."""

import pathlib
import re
import sys

TOP = pathlib.Path(__file__).resolve().parent.parent
PAGE = TOP / "docs" / "STANDARD.md"
OPERAND, EXEC, GLK = (TOP / "crates" / crate for crate in ("vm_operand", "vm_exec", "glk_dispatch"))
# words of many equations, which the page names above its tables
COMMON = {"goes", "puts", "operation_coded", "gives", "within", "over_glk_alone", "slots"}


def text_of(file):
    return file.read_text(encoding="utf-8")


def lines_of(file):
    return text_of(file).splitlines()


def link(text, file, line):
    return f"[{text}](../{file.relative_to(TOP)}#L{line})"


def first(file, pattern):
    """The number of the first line of a file in which this stands, or None."""
    for number, line in enumerate(lines_of(file), 1):
        if re.search(pattern, line):
            return number
    return None


def needed(file, pattern):
    number = first(file, pattern)
    if number is None:
        sys.exit(f"standard: {file.relative_to(TOP)} has no line {pattern}")
    return number


def definition_line(file, word):
    return first(file, rf"^(?:abbrev |unfoldable )?(?:pub )?{re.escape(word)} :")


def imports(file):
    """The specs file of each word that a specs file imports, and of each name that it gives a module."""
    words, modules = {}, {}
    for crate, path, names, alias in re.findall(
            r"(?m)^use Rattle\.(\w+)\.specs\.([\w.]+?)(?:\.\{([^}]*)\}| as (\w+))$", text_of(file)):
        found = (TOP / "crates" / crate / "specs").joinpath(*path.split(".")).with_suffix(".antt")
        if found.is_file():
            modules.update({alias: found} if alias else {})
            words.update({word.strip(): found for word in names.split(",") if names})
    return words, modules


def equation(file, work, name):
    """The line of an equation of this name, or of the one for all names, and what stands behind its `=`."""
    lines = lines_of(file)
    for wanted in (rf"\(?(?:\w+\.)?{name}(?: \w+\))?", r"\w"):
        for number, line in enumerate(lines, 1):
            found = re.match(rf"{work} {wanted} [a-z ]+=(.*)", line)
            if found:
                body = [found[1]]
                for further in lines[number:]:
                    if not further.startswith(" "):
                        break
                    body.append(further)
                return number, " ".join(body)
    sys.exit(f"standard: {file.relative_to(TOP)} has no equation of {work} {name}")


def words_of(file, body, name):
    """A link for each word that an equation cites: to the word's own equation of this name, if it has one."""
    words, modules = imports(file)
    links = {}
    for module, word in re.findall(r"(?:\b(\w+)\.)?\b([a-z]\w*)\b", body):
        home = modules.get(module) if module else words.get(word, file)
        if word in COMMON or home is None or definition_line(home, word) is None:
            continue
        own = first(home, rf"^{word} {name} ")
        links[word] = link(f"`{word}`", home, own or definition_line(home, word))
    return list(links.values())


def arm(file, begin, kind, name):
    """The first arm for this name behind a line of a file: its line, and what it does."""
    lines = lines_of(file)
    for number in range(begin, len(lines) + 1):
        if not re.search(rf"\b{kind}::{name}\b", lines[number - 1]):
            continue
        indent = re.match(" *", lines[number - 1])[0]
        text = lines[number - 1]
        for line in lines[number:]:
            inside = line.startswith((indent + " ", indent + "}", indent + ")"))
            if not line.startswith(indent) or "=>" in text and not inside:
                break
            text += line
        return number, text.partition("=>")[2]
    return None, ""


def function(folder, file, call, name):
    """Where the function of a call stands: in the file of the call, or in the one of its crate that hands it out."""
    indent = "    " if call == "self." else ""
    found = [(file, first(file, rf"^{indent}(?:pub(?:\(crate\))? )?fn {name}\b"))]
    for home in sorted((folder / "src").rglob("*.rt")):
        if home != file:
            found.append((home, first(home, rf"^{indent}pub(?:\(crate\))? fn {name}\b")))
    found = [(home, at) for home, at in found if at]
    if len(found) > 1 and found[0][0] != file:
        sys.exit(f"standard: {name} stands in more than one file of {folder.relative_to(TOP)}")
    return found[0] if found else (None, None)


def code_of(folder, file, kind, name, whole):
    """Links to the arm of this name in a chapter's function, or to that function, and to those that the arm calls."""
    begin = needed(file, rf"fn {whole}\b")
    number, text = arm(file, begin, kind, name)
    if number is None:
        return [link(f"`{whole}`", file, begin)]
    links = {"": link(f"{file.name}:{number}", file, number)}
    for call, called in re.findall(r"(self\.|(?<![\w:.]))([a-z]\w*)\(", text):
        home, at = function(folder, file, call, called)
        if home:
            links[called] = link(f"`{called}`", home, at)
    return list(links.values())


def defined(file, number, words):
    return f"{link(f'{file.stem}:{number}', file, number)}{': ' if words else ''}{', '.join(words)}"


def opcodes():
    """The rows of the table of opcodes, by number."""
    table = OPERAND / "specs" / "Opcode.antt"
    kinds = dict(re.findall(r"(?m)^abbrev pub (\w+_row) : (\w+) → OpcodeRow", text_of(table)))
    chapters = {}
    for file in sorted((EXEC / "specs" / "Rows").glob("*.antt")):
        for work, kind in re.findall(r"(?m)^unfoldable pub (\w+_work) : (\w+) → Machine", text_of(file)):
            chapters[kind] = file, work
    rows = []
    for at, line in enumerate(lines_of(table), 1):
        found = re.match(r"(\w+_row) (\w+) = row (0x[0-9A-F]+) (.*)", line)
        if not found or found[1] not in kinds:
            continue
        kind, name = kinds[found[1]], found[2]
        file, work = chapters[kind]
        number, body = equation(file, work, name)
        source = EXEC / "src" / f"{file.stem.lower()}.rt"
        whole = re.search(r"fn (\w+_op)\(", text_of(source))[1]
        code = code_of(EXEC, source, kind, name, whole)
        for part in ("arithmetic.rt", "branches.rt"):
            own, _ = arm(OPERAND / "src" / part, 1, kind, name)
            code += [link(f"{part}:{own}", OPERAND / "src" / part, own)] if own else []
        operands = " ".join(re.findall(r"\b[LS]\b", found[4]))
        shown = defined(file, number, words_of(file, body, name))
        cells = [f"{link(found[3], table, at)} `{name.lower()}`", operands, shown, ", ".join(code)]
        rows.append((int(found[3], 16), f"| {' | '.join(cells)} |"))
    head = ["| Opcode | Operands | Definition | Code |", "|---|---|---|---|"]
    return head + [row for _, row in sorted(rows)]


def names_of_calls():
    """The name of each selector by stories/infglk.h."""
    header = text_of(TOP / "stories" / "infglk.h")
    calls = re.findall(r"\[ (glk_\w+) _vararg_count r;\s*@glk \$(\w+) ", header)
    return {int(number, 16): name for name, number in calls}


def selectors():
    """The rows of the table of selectors, by number, and one for those that do nothing."""
    table = GLK / "specs" / "Selector.antt"
    names, modules, rows = names_of_calls(), {}, []
    for module, kind, alias in re.findall(r"declared\.(\w+)\.(\w+)\.TheVariants as (\w+)", text_of(table)):
        modules[alias] = module, kind
    works = {}
    for file in sorted((GLK / "specs").glob("*.antt")):
        for work, kind in re.findall(r"(?m)^unfoldable pub (\w+_work) : (\w+) → GlkCall", text_of(file)):
            works[kind] = file, work
    for at, line in enumerate(lines_of(table), 1):
        found = re.search(r"\((0x[0-9A-F]+), (\d+), (\w+)\.(\w+)(?: \w+)?\)", line)
        if not found:
            continue
        selector, count, alias, name = found.groups()
        module, kind = modules[alias]
        file, work = works[kind]
        number, body = equation(file, work, name)
        source = GLK / "src" / f"{module}.rt"
        whole = re.search(r"fn (do_\w+)\(", text_of(source))[1]
        shown = defined(file, number, words_of(file, body, name))
        code = code_of(GLK, source, kind, name, whole)
        cells = [f"{link(selector, table, at)} `{names[int(selector, 16)]}`", count, shown, ", ".join(code)]
        rows.append((int(selector, 16), f"| {' | '.join(cells)} |"))
    head = ["| Selector | Arguments | Definition | Code |", "|---|---|---|---|"]
    nothing, call, code = needed(table, r"^is_nothing "), GLK / "specs" / "Call.antt", GLK / "src" / "selector.rt"
    last = [link("the ranges", table, nothing) + " of timers, mouse, images, sounds and hyperlinks", "any",
            defined(call, needed(call, r"^call_work Nothing "), []),
            link("`is_nothing`", code, needed(code, r"^fn is_nothing\b"))]
    return head + [row for _, row in sorted(rows)] + [f"| {' | '.join(last)} |"]


def file_of(crate, name):
    """The specs file of `Module`, `Module.word` or `Module.{word, word}`, and its words."""
    path, _, words = name.partition(".{")
    words = [word.strip() for word in words.rstrip("}").split(",")] if words else []
    parts = path.split(".")
    for cut in range(len(parts), 0, -1):
        file = (TOP / "crates" / crate / "specs").joinpath(*parts[:cut]).with_suffix(".antt")
        if file.is_file():
            return file, parts[cut:] + words
    return None, []


def definitions_of(cell):
    """The crate and the name of each definition in a cell; a crate stands before its first name."""
    crate = None
    for name in re.findall(r"`([^`]+)`", cell):
        named = re.fullmatch(r"(\w+): (.+)", name)
        if named:
            crate, name = named.groups()
        if crate and re.match(r"[A-Z]", name):
            yield crate, name


def cells_of(line):
    """The cells of a section's row that has a definition, or None."""
    cells = [cell.strip() for cell in line.strip().strip("|").split(" | ")]
    return cells if len(cells) == 5 and cells[1] != "Definition" else None


def source_of(file):
    """The source file with the name of a specs file, or None."""
    crate = TOP / "crates" / file.relative_to(TOP / "crates").parts[0]
    snake = re.sub(r"(?<!^)(?=[A-Z])", "_", file.stem).lower()
    found = [crate / "src" / f"{stem}.rt" for stem in (snake, snake.replace("_", ""))]
    return next((source for source in found if source.is_file()), None)


def files_of(definitions, cell):
    """The column In of a row with these definitions, where it had this before."""
    specs, code = {}, {}
    for crate, name in definitions_of(definitions):
        file, _ = file_of(crate, name)
        if file:
            specs[file] = None
            source = source_of(file)
            code.update({source: None} if source else {})
    for path in re.findall(r"\]\(\.\./(\S+\.rt)\)", cell):
        code[TOP / path] = None
    shown = [[f"[{text}](../{file.relative_to(TOP)})" for text, file in part] for part in
             ([(file.stem, file) for file in specs], [(file.name, file) for file in code])]
    return "; ".join(", ".join(part) for part in shown if part)


def indexed(page):
    lines = []
    for line in page.splitlines():
        cells = cells_of(line)
        lines.append(f"| {' | '.join([*cells[:3], files_of(cells[1], cells[3]), cells[4]])} |" if cells else line)
    return "\n".join(lines) + "\n"


def placed(page, name, lines):
    begin, end = f"<!-- {name} -->\n", f"<!-- end of {name} -->\n"
    if page.count(begin) != 1 or page.count(end) != 1:
        sys.exit(f"standard: docs/STANDARD.md has no place for its table of {name}")
    front, rest = page.split(begin)
    return front + begin + "\n".join(lines) + "\n" + end + rest.split(end)[1]


def main():
    page = text_of(PAGE)
    whole = placed(placed(indexed(page), "opcodes", opcodes()), "selectors", selectors())
    if sys.argv[1:] == ["--write"]:
        PAGE.write_text(whole, encoding="utf-8")
    elif whole != page:
        print("standard: docs/STANDARD.md isn't what the sources have (bench/standard.py --write)")
        return 1
    return 0


if __name__ == "__main__":
    sys.exit(main())
