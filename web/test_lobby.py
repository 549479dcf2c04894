#!/usr/bin/python3
"""An archive in a browser: the lobby, the links of a game, a host that moves and gateways that are killed while it is played.

    web/test_lobby.py [PROGRAM] [--pictures FOLDER]

Two hosts serve The Well House and The Workbench, a third The Mill from a container with a title of its own, a fourth a small
story. Before them stand two gateways, behind haproxy. The third host is filled and the fourth killed: the lobby has to say
so. Then The Well House is begun by the keyboard and played by the first moves of stories/cottage.moves; on the way its host
moves, each gateway is killed once, and another browser comes back to the game by its link alone, a third one looks on by
the other link, and links of no game are tried. Behind each move every window of the page must have the text of `run`. With
--pictures it leaves pictures. Wants what test_page.py does, and haproxy. It ends with 1 where something is otherwise."""

import argparse
import pathlib
import sys
import tempfile

import archives
from players import COTTAGE, PROGRAM, TOP, Otherwise, read_moves
from test_page import LARGE, PHONE, WORKBENCH, Game, Page, by_keyboard, links_of, see, see_menu, watch

from selenium.common.exceptions import WebDriverException

from crash import Link, echo_story  # of drills/, which players puts on the path
from host import Host as Run

HOUSE, WORK, MILL, SMALL = "The Well House", "The Workbench", "The Mill", "A Small Story"
MOVES = 24
OPEN = "return [...document.querySelectorAll('#titles button:enabled')].map((one) => one.textContent)"
ROWS = "return [...document.querySelectorAll('#titles li')].map((row) => [...row.children].map((one) => one.textContent))"


def rows_of(page):
    """The lobby's titles, each with what is told of it."""
    return dict(page.driver.execute_script(ROWS))


def begun_archive(room, program):
    """Two hosts of two stories, one of a container, and one of a small story."""
    archive = archives.Archive(room, 2, {COTTAGE: HOUSE, WORKBENCH: WORK}, program=program)
    mill, small = room / "mill.gblorb", room / "small.ulx"
    mill.write_bytes(archives.blorb_of((TOP / "stories" / "mill.ulx").read_bytes(), MILL))
    small.write_bytes(echo_story())
    archive.add("host3", {mill: None})
    archive.add("host4", {small: SMALL})
    return archive


def fill(host):
    """Begins a game in each session of a host."""
    link = Link(host.port)
    for session in range(64):
        if not link.ask(f"OPEN {session} k 0 1 80 24").startswith("SHOW"):
            raise Otherwise(f"session {session} can't be begun")
    link.close()


def lobby(page, archive, pictures):
    see_menu(page)
    page.wait("four titles", lambda: rows_of(page) == {HOUSE: "128 free", WORK: "128 free", MILL: "64 free", SMALL: "64 free"})
    page.picture(pictures, "lobby")
    fill(archive.hosts["host3"])
    archive.hosts["host4"].kill()
    away = "its host is away"
    page.wait("a full host and one that is gone", lambda: rows_of(page)[MILL] == "full" and rows_of(page)[SMALL] == away)
    page.picture(pictures, "lobby-full")
    if (can_be_begun := page.driver.execute_script(OPEN)) != [HOUSE, WORK]:
        raise Otherwise(f"the lobby lets {can_be_begun} be begun")
    archive.hosts["host4"].start()
    page.wait("the host that is back", lambda: rows_of(page)[SMALL] == "64 free")


def play(page, game, archive, pictures):
    """The first moves, while hosts and gateways go and come."""

    def move_host():
        archive.move(page.driver.execute_script("return game.resume.game").partition("/")[0])

    def kill(gateway):
        gateway.kill()
        gateway.start()

    meanwhile = {6: move_host, 10: lambda: kill(archive.gateways[0]), 14: lambda: kill(archive.gateways[1])}
    second = None
    for at, move in enumerate(read_moves(TOP / "stories" / "cottage.moves")[:MOVES]):
        game.give(move, meanwhile.get(at))
        if at == 3:
            second = watch(archive.address, page)
    see(second, game)
    second.picture(pictures, "watch")
    second.driver.quit()
    page.picture(pictures, "archive")


def links(page, game, archive, pictures):
    """Another browser comes back by the link alone; links of no game open none."""
    own, _ = links_of(page)
    page.find("about-open").click()
    page.picture(pictures, "links")
    page.find("about-close").click()
    other = Page(archive.address, PHONE)
    try:
        other.picture(pictures, "lobby-phone")
        for link, told in ((own[:-1] + ("a" if own[-1] != "a" else "b"), "That can't be done: there is no such game."),
                           (own.replace("/host", "/nowhere"), "That can't be done: there is no such game."),
                           ("http://elsewhere.example/", "That is no link of a game.")):  # fmt: skip
            other.submit("link", text=link)
            other.wait(f"{link} is refused", lambda: other.note() == told)
        other.submit("link", text=own)
        other.wait("the game is there, and has its size", lambda: other.gen() == page.gen() + 1 and other.is_ready())
        back = Game(other, game.run)
        back.whole = False
        back.measured()
        back.look("coming back by the link")
        back.give("inventory")
        if "#" in other.driver.current_url or other.complaints():
            raise Otherwise(f"the address is {other.driver.current_url}; the browser says {other.complaints()}")
    finally:
        other.driver.quit()
    return own.rpartition("/")[2]


def run(asked, room):
    archive = begun_archive(room, asked.program)
    page = Page(archive.address, LARGE)
    try:
        lobby(page, archive, asked.pictures)
        by_keyboard(page, HOUSE)
        page.wait("the story is begun", page.is_ready)
        game = Game(page, Run(str(COTTAGE), str(asked.program)))
        game.measured()
        game.look("begin")
        play(page, game, archive, asked.pictures)
        key = links(page, game, archive, asked.pictures)
        if complaints := page.complaints():
            raise Otherwise(f"the browser says: {complaints}")
    finally:
        page.driver.quit()
        said = archive.kill()
    if key in said:
        raise Otherwise("the gateways' log has a key")
    print(f"test_lobby: {MOVES} moves of The Well House, as by `run`, while its host moved and each gateway was killed; a full host "
          f"and one that was gone were told; one browser came back by the link; a spectator saw the same")  # fmt: skip


def main():
    words = argparse.ArgumentParser(usage=__doc__)
    words.add_argument("program", nargs="?", default=PROGRAM, type=pathlib.Path)
    words.add_argument("--pictures", type=pathlib.Path)
    asked = words.parse_args()
    asked.program = asked.program.resolve()
    with tempfile.TemporaryDirectory(prefix="lobby-") as room:
        try:
            run(asked, pathlib.Path(room))
        except (Otherwise, WebDriverException) as cause:
            print(f"test_lobby: {cause}")
            return 1
    return 0


if __name__ == "__main__":
    sys.exit(main())
