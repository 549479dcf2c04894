#!/usr/bin/env python3
"""For those who keep a host's folder: what is in it, a copy without its damage, a game that is to be closed.

usage: keeper.py DIR [STORY ..] [--host PROGRAM]    the sessions: number, key, story, moves, how far; with story
                                                    files also which they are, and whether each game is over
       keeper.py wants DIR FILE ..                  which of some files the folder's journal wants, and in what order
       keeper.py watch DIR                          tells each command that a host keeps there from now on, with the time
       keeper.py texts DIR STORY .. [--session N]   writes the main window's text of each game that was played there, or
                                                    of those of a session, with the files in the order of the host's words
       keeper.py close DIR SESSION HOST:PORT        ends a game of a host that runs there, with the key of the journal
       keeper.py repair DIR COPY                    writes a copy of DIR without what is damaged, and says what is lost
       keeper.py back DIR SESSION MOVES COPY        writes a copy of DIR without the last moves of a session's game, as
                                                    where a story has failed, or its player said `quit`; a size of
                                                    the screen that its player's terminal told is a move, too

Listing only reads, also while a host runs, and so does `texts`. To tell whether a game is over, or its text, the journal
is copied, and the program plays the copy. `repair` and `back` leave DIR as it is, want a COPY that isn't there, and refuse while a host runs on DIR.
All reading is by docs/FORMATS.md ("The journal", "Snapshot files"), with drills/folder.py."""

import argparse
import collections
import contextlib
import fcntl
import hashlib
import os
import pathlib
import struct
import subprocess
import sys
import tempfile
import time

from host import CLEARED, HOST, Address, Game, Pipe, Refused, Session, bad_words, files, refused
from wrapping import wrapped

# A game of the journal: where and how it was opened, its inputs so far, and how many rows its number has.
Kept = collections.namedtuple("Kept", "place opening inputs rows")


class Wrong(Exception):
    """What the keeper is told in place of an answer."""


def image_of(path):
    """The bytes of a story file that its digest is of: those inside a Blorb container, or all."""
    whole = path.read_bytes()
    if whole[:4] != b"FORM":
        return whole
    at = 12
    while at + 8 <= len(whole):
        name, size = whole[at : at + 4], struct.unpack_from(">I", whole, at + 4)[0]
        if name == b"RIdx":
            for entry in range(struct.unpack_from(">I", whole, at + 8)[0]):
                usage, number, start = struct.unpack_from(">4sII", whole, at + 12 + 12 * entry)
                if (usage, number) == (b"Exec", 0):
                    return whole[start + 8 : start + 8 + struct.unpack_from(">I", whole, start + 4)[0]]
        at += 8 + size + size % 2
    raise Wrong(f"{path}: a container without a story")


def digests_of(names):
    """The files by the digest of their story."""
    found = {}
    for name in names:
        path = pathlib.Path(name)
        try:
            found[hashlib.sha256(image_of(path)).digest()] = path
        except (OSError, struct.error) as cause:
            raise Wrong(f"{path}: {getattr(cause, 'strerror', None) or 'cut'}") from None
    return found


def journal_of(folder):
    try:
        return files.journal_of(folder)
    except OSError as cause:
        raise Wrong(f"{folder / 'journal'}: {cause.strerror}") from None


def games_of(journal):
    """The games of the sessions in use; the rows of each number; the damage, where there is one."""
    games, rows, damage = {}, collections.Counter(), None
    try:
        for row in files.rows_of(journal):
            rows[row.session] += 1
            if row.kind == files.OPEN:
                games[row.session] = Kept(row.place, files.opening_of(row.payload), 0, 0)
            elif row.kind == files.CLOSE:
                del games[row.session]
            else:
                games[row.session] = games[row.session]._replace(inputs=games[row.session].inputs + 1)
    except files.Damaged as found:
        damage = found
    return {number: game._replace(rows=rows[number]) for number, game in sorted(games.items())}, rows, damage


def is_served(folder):
    """Whether a host holds the folder's journal, as the system tells without a lock of our own."""
    about = (folder / "journal").stat()
    place = f"{os.major(about.st_dev):02x}:{os.minor(about.st_dev):02x}:{about.st_ino}"
    try:
        return any(place in line.split() for line in pathlib.Path("/proc/locks").read_text().splitlines())
    except OSError:
        return False


@contextlib.contextmanager
def held(folder):
    """Holds the folder as a host holds it, so that none begins meanwhile."""
    with open(folder / "journal", "rb+") as file:
        try:
            fcntl.flock(file, fcntl.LOCK_EX | fcntl.LOCK_NB)
        except BlockingIOError:
            raise Wrong(f"a host runs on {folder}; end it first") from None
        yield


def ago(moment):
    minutes = int(max(time.time() - moment, 0) / 60)
    return f"{minutes} min ago" if minutes < 120 else f"{minutes // 60} h ago" if minutes < 2880 else f"{minutes // 1440} d ago"


def snapshot_words(folder, session, game):
    """How old the newest snapshot of a game is."""
    try:
        areas = list(files.areas_of(folder, session))
        changed = files.snapshot_file(folder, session).stat().st_mtime
    except OSError as cause:
        return f"none: {cause.strerror}"
    if not any(it.is_open and it.place == game.place and it.count <= game.inputs for it in areas):
        return "none"
    return f"{files.turns_to_play(areas, game)} moves, {ago(changed)}"


def ends_of(folder, games, stories, program):
    """How each game stands, by a host on a copy of the journal that is asked for its last show. The journal alone
    is copied: while a host runs a snapshot's copy may be of no moment at all."""
    wanted = {game.opening.story: stories.get(game.opening.digest) for game in games.values()}
    some = next((path for path in wanted.values() if path), None)
    if some is None:
        return {}
    words = [str(wanted.get(number) or some) for number in range(max(wanted) + 1)]
    found = {}
    with tempfile.TemporaryDirectory(prefix="keeper-") as room:
        link = Pipe(pathlib.Path(room) / "copy", words[0], program)
        link.words = [program, "pipe", str(link.folder), *words]
        link.begin_folder()
        (link.folder / "journal").write_bytes(journal_of(folder))
        for number, game in games.items():
            session = Session(link, number, game.opening.key, lambda text: None)
            refusal = session.look()
            if refusal:
                found[number] = refused(refusal)
            else:
                found[number] = session.end_words() if session.ended or session.is_stuck() else "goes on"
        link.end()
    return found


def listed(given):
    folder, stories = given.dir, digests_of(given.files)
    games, rows, damage = games_of(journal_of(folder))
    ends = ends_of(folder, games, stories, given.host) if stories and not damage else {}
    table = [("session", "key", "story", "moves", "behind its snapshot", "bytes", "stands")]
    for number, game in games.items():
        path = stories.get(game.opening.digest)
        snapshot = files.snapshot_file(folder, number)
        size = snapshot.stat().st_blocks * 512 if snapshot.exists() else 0
        named = path.name if path else f"{game.opening.digest.hex()[:12]}.."
        full = f" (its number has {game.rows} of {files.MOST_ROWS} rows)" if game.rows > files.MOST_ROWS - 500 else ""
        table.append((number, game.opening.key, f"{game.opening.story}: {named}", game.inputs,
                      snapshot_words(folder, number, game), size, ends.get(number, "not asked") + full))
    widths = [max(len(str(line[at])) for line in table) for at in range(len(table[0]))]
    for line in table:
        print("  ".join(str(cell).ljust(width) for cell, width in zip(line, widths)).rstrip())
    about = (folder / "journal").stat()
    served = ", a host runs on it" if is_served(folder) else ""
    free = [number for number in range(files.SESSIONS) if number not in games and rows[number] < files.MOST_ROWS]
    print(f"{len(games)} games; the journal has {about.st_size} bytes, the last of them {ago(about.st_mtime)}{served}; the "
          f"first free number is {free[0] if free else 'none'}")
    for number, count in sorted(rows.items()):
        if count >= files.MOST_ROWS:
            print(f"session {number} has its {files.MOST_ROWS} rows and takes no further one (NO 10)")
    if games and not stories:
        print("(whether a game is over is told where the story files are given, too)")
    if damage:
        print(f"DAMAGED: {damage} (at place {damage.place}). `keeper.py repair {folder} COPY` saves what is before it")
        return 1
    return 0


def wants(given):
    stories = digests_of(given.files)
    games, _, _ = games_of(journal_of(given.dir))
    digests = {}
    for number, game in games.items():
        digests.setdefault((game.opening.story, game.opening.digest), []).append(str(number))
    if not digests:
        print("no game is kept: any story will do")
    missing = 0
    for (story, digest), sessions in sorted(digests.items()):
        path = stories.get(digest)
        missing += path is None
        print(f"story {story}: {path or 'NONE of these files; its image has the SHA-256 digest ' + digest.hex()}"
              f" (of session{'s' if len(sessions) > 1 else ''} {', '.join(sessions)})")
    twice = [story for story, count in collections.Counter(story for story, _ in digests).items() if count > 1]
    for story in twice:
        print(f"story {story} is wanted as more than one file: games of one of them answer NO 13 at a time")
    return 1 if missing or twice else 0


def games_shown(lines):
    """Each game of a transcript: its session, its place in the journal, and what came of its shows, or none where its
    story isn't there."""
    number = place = game = None
    show = []
    for line in lines:
        word, _, rest = line.partition(" ")
        if word in ("GAME", "done") and number is not None:
            yield number, place, game
        if word == "GAME":
            number, place, game = *map(int, rest.split(" ")), Game()
        elif word == "NO":
            game = None
        elif word == "SHOW":
            show = []
        elif line == ".":
            game.show(show)
        else:
            show.append(line)


def texts(given):
    with tempfile.TemporaryDirectory(prefix="keeper-") as room:
        (pathlib.Path(room) / "journal").write_bytes(journal_of(given.dir))
        ran = subprocess.run([given.host, "replay", room, *given.files], capture_output=True, text=True)
    said = ran.stdout.strip()
    if ran.returncode == 8:
        raise Wrong(f"the journal is damaged ({said}). `keeper.py repair` first")
    if ran.returncode:
        raise Wrong(bad_words(said, given.files[int(said.split()[1])]) if ran.returncode == 3 else ran.stderr.strip())
    for number, place, game in games_shown(ran.stdout.splitlines()):
        if given.session in (None, number):
            print(f"==== session {number}, the game from place {place} of the journal\n")
            lines = wrapped(game.text.replace(CLEARED, "\n----\n"), 80).strip("\n").split("\n") if game else [
                "its story isn't among these files, or not at its place"]
            print("\n".join(line.rstrip() for line in lines), end="\n\n")
    return 0


def watch(given):
    """A line for each row that is added, with its time: whose it is, and nothing of what was typed."""
    keys, counts, told, changed = {}, {}, None, None
    while True:
        about = (given.dir / "journal").stat()
        if (about.st_mtime_ns, about.st_size) == changed:
            time.sleep(0.3)
            continue
        changed = about.st_mtime_ns, about.st_size
        try:
            rows = list(files.rows_of(journal_of(given.dir)))
        except files.Damaged as damage:
            raise Wrong(f"the journal is damaged: {damage}") from None
        for row in rows[told or 0 :]:
            if row.kind == files.OPEN:
                opening = files.opening_of(row.payload)
                keys[row.session], counts[row.session] = opening.key, 0
                done = f"begins story {opening.story}"
            else:
                counts[row.session] += 1
                done = "is closed" if row.kind == files.CLOSE else f"has its move {counts[row.session]}"
                if row.kind == files.SIZE:
                    done += ", a screen of {} by {}".format(*row.payload)
            if told is not None:
                now = time.strftime("%Y-%m-%d %H:%M:%S")
                print(f"{now} session {row.session} ({keys[row.session]}) {done}", flush=True)
        if told is None:
            print(f"watching {given.dir}, which has {len(rows)} rows", flush=True)
        told = len(rows)


def close(given):
    games, _, _ = games_of(journal_of(given.dir))
    if given.session not in games:
        raise Wrong(f"session {given.session} has no game in {given.dir}")
    session = Session(Address(given.address), given.session, games[given.session].opening.key, lambda text: None)
    try:
        session.close()
    except Refused as refusal:
        raise Wrong(f"session {given.session}: {refusal}. Is {given.dir} the folder of the host at {given.address}?") from None
    print(f"session {given.session} is closed, after {games[given.session].inputs} moves")
    return 0


def repair(given):
    folder, copy = given.dir, given.copy
    journal = journal_of(folder)
    if copy.exists():
        raise Wrong(f"{copy} is there already; a new name is wanted")
    games, _, damage = games_of(journal)
    if damage is None:
        print(f"the journal of {folder} is whole: nothing to repair")
        return 0
    if damage.place is None:
        raise Wrong(f"{folder / 'journal'} is no journal: {damage}. Go back to a backup, or `storyhost init` a new folder")
    with held(folder):
        copy.mkdir(parents=True)
        for name in ("journal", *(f"snap{number:02}" for number in range(files.SESSIONS))):
            if (folder / name).exists():
                subprocess.run(["cp", "--sparse=always", folder / name, copy / name], check=True)
    with open(copy / "journal", "r+b") as file:
        file.truncate(damage.place)
        file.seek(damage.place)
        file.write(b"\0")
    lost = [reset(copy, number, games.get(number)) for number in range(files.SESSIONS)]
    print(f"{copy} has {len(games)} games: " + ", ".join(f"session {number} with {game.inputs} moves"
                                                         for number, game in games.items()))
    print(f"Lost are the {len(journal) - damage.place} bytes from place {damage.place} on ({damage}): what any session was"
          f" given later. Snapshots of later moments that were closed: {sum(lost)}.")
    return 0


def back(given):
    folder, copy = given.dir, given.copy
    if copy.exists():
        raise Wrong(f"{copy} is there already; a new name is wanted")
    with held(folder):
        try:
            journal = files.without_last(journal_of(folder), given.session, given.moves)
        except files.Damaged as damage:
            raise Wrong(f"the journal is damaged: {damage}. `keeper.py repair` first") from None
    if journal is None:
        raise Wrong(f"session {given.session} hasn't {given.moves} moves")
    Pipe(copy, "", given.host).begin_folder()
    (copy / "journal").write_bytes(journal)
    print(f"{copy} has all games, session {given.session} without its last {given.moves}. It has no snapshots: the first"
          " line of each game waits for all its moves")
    return 0


def reset(folder, session, game):
    """Closes the areas of a snapshot file that are of no moment of this game; says how many."""
    closed = 0
    with contextlib.suppress(FileNotFoundError):
        for area in files.areas_of(folder, session):
            if area.is_open and not (game and area.place == game.place and area.count <= game.inputs):
                files.close_area(None, files.snapshot_file(folder, session), area)
                closed += 1
    return closed


def main():
    about, _, rest = __doc__.partition("\n\nusage: ")
    usage, _, more = rest.partition("\n\n")
    tasks = {"wants": wants, "watch": watch, "texts": texts, "close": close, "repair": repair, "back": back}
    task = sys.argv[1] if len(sys.argv) > 1 and sys.argv[1] in tasks else None
    words = argparse.ArgumentParser(usage=usage, description=about, epilog=more,
                                    formatter_class=argparse.RawDescriptionHelpFormatter)
    if task:
        words.add_argument("task")
    words.add_argument("dir", type=pathlib.Path)
    if task in ("close", "back"):
        words.add_argument("session", type=int)
    if task == "close":
        words.add_argument("address")
    if task == "back":
        words.add_argument("moves", type=int)
    if task in ("repair", "back"):
        words.add_argument("copy", type=pathlib.Path)
    if task in ("wants", "texts", None):
        words.add_argument("files", nargs="+" if task else "*")
    if task == "texts":
        words.add_argument("--session", type=int)
    words.add_argument("--host", default=HOST)
    given = words.parse_args()
    try:
        return tasks.get(task, listed)(given)
    except KeyboardInterrupt:
        return 130
    except (Wrong, OSError) as cause:
        print(f"keeper.py: {cause}", file=sys.stderr)
        return 1


if __name__ == "__main__":
    sys.exit(main())
