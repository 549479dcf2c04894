#!/usr/bin/python3
"""Plays The Well House to its end in a browser, and looks whether the page shows what `run` does.

    web/test_page.py [PROGRAM] [--pictures FOLDER]

Begins the game from the menu and gives the moves of stories/cottage.moves by the keyboard, menu windows among
them, and between them a saved game that is restored. On the way the display's size changes, under a line that is half
typed and where a file's name is waited for, too; the host is killed with a move under way and started again, so is the
gateway, the page is loaded anew and comes back from its menu, and meanwhile a second browser watches. The Workbench is
played too. Behind each move every window of the page must have the text of `run`, which is told the same sizes. Then the
game is ended, and the story's text may not have become markup. With --pictures it leaves pictures of three sizes.
Wants Debian's chromium, chromium-driver, python3-selenium and python3-aiohttp. It ends with 1 where something
is otherwise."""

import argparse
import pathlib
import sys
import tempfile
import time

from players import COTTAGE, PROGRAM, TOP, Gateway, Host, Otherwise, read_moves

try:
    from selenium import webdriver
    from selenium.common.exceptions import WebDriverException
    from selenium.webdriver.common.by import By
    from selenium.webdriver.common.keys import Keys
except ImportError:
    sys.exit("test_page: apt-get install chromium chromium-driver python3-selenium, and run it with /usr/bin/python3")

from host import Host as Run  # noqa: E402
from remglk import Measure  # noqa: E402

SECONDS = 60
NAMES = {"{Return}": Keys.RETURN, "{Space}": Keys.SPACE, "{Up}": Keys.UP, "{Down}": Keys.DOWN, "{Escape}": Keys.ESCAPE}
WORKBENCH = TOP / "stories" / "workbench.ulx"
BARS = 84       # pixels of the page's bars
LARGE, MIDDLE, PHONE = (1100, 740), (820, 1000), (390, 760)
LOOKED_ON = (15, 18, 20, 22, 24, 34, 38)    # the moves behind which a second browser has to show what was played
# What happens before a move of the story, by its place.
SAVED = ["save", "first", "drop rosemary", "restore", "first", "inventory"]
MARKUP = "<b>hens</b><img src=x onerror=alert(1)>"
WINDOWS = """
return [...document.querySelectorAll("#windows .window")].map((box) => ({
  type: box.classList.contains("grid") ? "grid" : "buffer",
  text: box.classList.contains("grid") ? [...box.children].map((line) => line.textContent).join("\\n")
    : [...box.querySelectorAll("p:not(.aside)")].map((line) => line.textContent).join("\\n"),
  left: box.offsetLeft, top: box.offsetTop, width: box.offsetWidth, height: box.offsetHeight}));
"""
# Whether the field of a line, where there is one, is inside its window.
IS_PROMPT_SEEN = """
const field = document.querySelector("#windows .buffer input");
if (!field) return true;
const place = field.getBoundingClientRect(), box = field.closest(".window").getBoundingClientRect();
return place.top >= box.top - 1 && place.bottom <= box.bottom + 1;
"""


class Page:
    """A browser with the page."""

    def __init__(self, address, size, dark=False):
        words = webdriver.ChromeOptions()
        for word in ("--headless=new", "--no-sandbox", "--disable-gpu", "--disable-dev-shm-usage", "--hide-scrollbars"):
            words.add_argument(word)
        words.set_capability("goog:loggingPrefs", {"browser": "ALL"})
        words.binary_location = "/usr/bin/chromium"
        service = webdriver.chrome.service.Service("/usr/bin/chromedriver")
        self.driver = webdriver.Chrome(service=service, options=words)
        self.dark(dark)
        self.resize(size)
        self.driver.get(address)

    def cdp(self, name, **parts):
        return self.driver.execute_cdp_cmd(name, parts)

    def dark(self, is_dark):
        value = "dark" if is_dark else "light"
        self.cdp("Emulation.setEmulatedMedia", features=[{"name": "prefers-color-scheme", "value": value}])

    def resize(self, size):
        self.cdp("Emulation.setDeviceMetricsOverride", width=size[0], height=size[1], deviceScaleFactor=1, mobile=False)

    def find(self, name):
        return self.driver.find_element(By.ID, name)

    def wait(self, what, holds, seconds=SECONDS):
        end = time.monotonic() + seconds
        while not holds():
            if time.monotonic() > end:
                raise Otherwise(f"{what}: not so after {seconds} seconds; the page says {self.note()!r}")
            time.sleep(0.02)

    def note(self):
        return self.driver.execute_script("return (document.getElementById('game').hidden ? document.getElementById("
                                          "'menu-note') : document.getElementById('note')).textContent")  # fmt: skip

    def gen(self):
        return self.driver.execute_script("return gen")

    def is_ready(self):
        return self.driver.execute_script("return gen > 0 && !pending && !isArranging && socket && socket.readyState === 1")

    def windows(self):
        return self.driver.execute_script(WINDOWS)

    def type(self, text):
        """Keys go to whatever has the focus, as a person's do."""
        webdriver.ActionChains(self.driver).send_keys(text).perform()

    def blank(self):
        """Takes away the line that a story began."""
        keys = webdriver.ActionChains(self.driver).key_down(Keys.CONTROL).send_keys("a").key_up(Keys.CONTROL)
        keys.send_keys(Keys.BACKSPACE).perform()

    def submit(self, form, **fields):
        for name, text in fields.items():
            field = self.find(f"{form}-{name}")
            field.clear()
            field.send_keys(text)
        self.find(form).find_element(By.CSS_SELECTOR, "button").click()

    def picture(self, folder, name):
        if folder:
            folder.mkdir(parents=True, exist_ok=True)
            self.driver.save_screenshot(str(folder / f"{name}.png"))

    def complaints(self):
        return [entry["message"] for entry in self.driver.get_log("browser") if "WebSocket connection" not in entry["message"]]


def words_of(text):
    return text.split()


class Game:
    """The page and `run`, move by move."""

    def __init__(self, page, run):
        self.page, self.run, self.whole = page, run, True

    def give(self, move, meanwhile=None):
        page = self.page
        page.wait("the page takes a move", page.is_ready)
        before, kind = page.gen(), self.run.wanted()[0]
        if kind == "char":
            page.type(NAMES.get(move, move))
        elif kind == "P":
            page.type(move + Keys.RETURN)
        else:
            if self.run.begun():
                page.blank()
            page.type(("" if move == "{empty}" else move) + Keys.RETURN)
        self.run.give(move)
        if meanwhile:
            meanwhile()
        page.wait(f"move {move!r} is answered", lambda: page.gen() > before)
        self.look(move)

    def size(self, size):
        """The display has another size, which is a move."""
        before = self.page.gen()
        resized(self.page, size)
        self.measured()
        self.look("another size")
        if self.page.gen() != before + 1:
            raise Otherwise(f"a display of {size} took {self.page.gen() - before} moves")

    def measured(self):
        """`run` gets the screen that the display has."""
        measure = Measure(self.page.driver.execute_script("return measure()"))
        self.run.put("SIZE", f"{measure.columns} {measure.rows}")

    def look(self, move):
        """Whether each window of the page has what `run` shows. A page that was loaded anew has of a
        buffer what came since."""
        shown = {kind: [] for kind in ("buffer", "grid")}
        for window in self.page.windows():
            shown[window["type"]].append(window)
        for kind, number in (("buffer", 3), ("grid", 4)):
            wanted = [window for _, window in sorted(self.run.windows.items()) if window.kind == number]
            if len(wanted) != len(shown[kind]):
                raise Otherwise(f"behind {move!r}: {len(shown[kind])} {kind} windows in place of {len(wanted)}")
            for got, window in zip(shown[kind], wanted):
                text = window.text if kind == "buffer" else "\n".join(window.rows[row] for row in sorted(window.rows))
                same = words_of(got["text"]) == words_of(text) if kind == "grid" else got["text"] == text
                if kind == "buffer" and not self.whole:
                    same = text.endswith(got["text"]) and got["text"].strip()
                if not same:
                    raise Otherwise(f"behind {move!r}: a {kind} is\n{got['text'][-600:]!r}\nin place of\n{text[-600:]!r}")


def look_at_places(page, size):
    """Whether the windows fill the display, and their letters fit."""
    box = page.find("windows").rect
    windows = page.windows()
    right = max(window["left"] + window["width"] for window in windows)
    bottom = max(window["top"] + window["height"] for window in windows)
    if abs(right - box["width"]) > 1.5 or abs(bottom - box["height"]) > 1.5 or box["width"] > size[0]:
        raise Otherwise(f"at {size} the windows end at {right}, {bottom} of {box['width']}, {box['height']}")
    wide = page.driver.execute_script(
        "return [...document.querySelectorAll('#windows .grid:not(.tall) div')].some((line) => line.scrollWidth > line.clientWidth + 1)")
    if wide or page.driver.execute_script("return document.documentElement.scrollWidth > innerWidth"):
        raise Otherwise(f"at {size} a line is wider than its window")


def resized(page, size):
    page.resize(size)
    time.sleep(0.6)
    page.wait("the page has told its size", page.is_ready)
    look_at_places(page, size)
    if not page.driver.execute_script(IS_PROMPT_SEEN):
        raise Otherwise(f"at {size} the line that is typed is out of sight")


def links_of(page):
    """The links of a game: who plays comes back by the first, and others look on by the second."""
    page.find("about-open").click()
    links = [page.find(name).get_attribute("value") for name in ("about-play", "about-watch")]
    page.find("about-close").click()
    return links


def watch(address, page):
    """A second browser looks on, by the link alone."""
    _, link = links_of(page)
    second = Page(address, MIDDLE, dark=True)
    try:
        second.submit("link", text=link)
        second.wait("the spectator is answered", lambda: second.gen() > 0)
    except BaseException:
        second.driver.quit()
        raise
    return second


def see(second, game):
    """Whether the spectator sees the last move, and in each window what `run` shows."""
    gen = game.page.gen()
    second.wait("the spectator sees the last move", lambda: second.gen() == gen)
    if second.driver.find_elements(By.CSS_SELECTOR, "#windows input"):
        raise Otherwise("a spectator is asked for a move")
    seen = Game(second, game.run)
    seen.whole = False
    seen.look("what a spectator sees")


def by_keyboard(page, title):
    """Begins a game of this title by the keyboard alone."""
    for _ in range(12):
        if page.driver.switch_to.active_element.text == title:
            return page.type(Keys.RETURN)
        page.type(Keys.TAB)
    raise Otherwise(f"the button of {title} isn't reached by the keyboard")


def see_menu(page):
    page.wait("the menu has its titles", lambda: page.driver.execute_script(
        "return !!document.querySelector('#titles button:enabled')"))  # fmt: skip


def by_link(page, game):
    """The game by its link alone, in a browser that keeps nothing of it: its last eight moves are there. The address
    doesn't show the key."""
    link, _ = links_of(page)
    page.driver.execute_script("localStorage.clear()")
    page.driver.get("about:blank")
    page.driver.get(link)
    page.wait("the page came back by the link", page.is_ready)
    game.look("coming back by the link")
    texts = [window["text"] for window in page.windows() if window["type"] == "buffer"]
    if texts[0].count("\n>") != 8:
        raise Otherwise(f"who comes back doesn't see eight moves: {texts[0]!r}")
    if "#" in page.driver.current_url:
        raise Otherwise(f"the address is {page.driver.current_url}")


def size_at_a_prompt(page, game):
    """A story that waits for a file's name takes no size, and is told it behind the name."""
    game.give("save")
    before = page.gen()
    resized(page, MIDDLE)
    if page.gen() != before:
        raise Otherwise("a size was taken where a file's name is waited for")
    game.give("second")
    page.wait("the size is told behind the name", lambda: page.gen() == before + 2 and page.is_ready())
    game.measured()
    game.look("a size behind a prompt")
    game.size(LARGE)


def play(address, host, gateway, story, program, pictures):
    pages = [Page(address, LARGE)]
    try:
        return play_in(pages, address, host, gateway, story, program, pictures)
    finally:
        for page in pages:
            page.driver.quit()


def play_in(pages, address, host, gateway, story, program, pictures):
    page = pages[0]
    see_menu(page)
    page.picture(pictures, "menu")
    run = Run(str(story), str(program))
    by_keyboard(page, "The Well House")
    page.wait("the story is begun", page.is_ready)
    game = Game(page, run)
    game.measured()
    game.look("begin")
    key = links_of(page)[0].rpartition("/")[2]
    moves = read_moves(TOP / "stories" / "cottage.moves")

    def stop_host():
        """The host is killed with the move under way, or just behind it. The spectator is told, too."""
        host.kill()
        time.sleep(1.5)
        pages[1].wait("the spectator is told that the host is gone", lambda: "has stopped" in pages[1].note())
        host.start()
        pages[1].wait("the spectator is told that the host is there", lambda: "there again" in pages[1].note())

    for at, move in enumerate(moves):
        meanwhile = None
        if at == 6:
            for other in SAVED:
                game.give(other)
            page.picture(pictures, "large")
        if at == 8:
            size_at_a_prompt(page, game)
        if at == 12:
            page.type("half a line")
            game.size(PHONE)
            if page.driver.switch_to.active_element.get_attribute("value") != "half a line":
                raise Otherwise("what was typed is gone behind another size")
            page.blank()
        if at == 14:
            page.picture(pictures, "phone")
            pages.append(watch(address, page))
        if at == 16:
            game.give(MARKUP)
            if page.driver.find_elements(By.CSS_SELECTOR, "#windows img, #windows b"):
                raise Otherwise("a text has become markup")
        if at == 20:
            host.kill()
            host.start()
        if at == 22:
            meanwhile = stop_host
        if at == 30:
            game.size(MIDDLE)
            page.dark(True)
            page.picture(pictures, "middle")
            page.dark(False)
        if at == 34:
            gateway.kill()
            time.sleep(0.5)
            gateway.start()
        if at == 40:
            page.driver.refresh()
            page.driver.find_element(By.CSS_SELECTOR, "#kept-games button").click()
            page.wait("the page came back", page.is_ready)
            game.whole = False
            game.look("the page's coming back")
            by_link(page, game)
        if at == 46:
            game.size(LARGE)
        before = page.gen()
        game.give(move, meanwhile)
        if page.gen() != before + 1:
            raise Otherwise(f"{move!r} took more than one move of the session")
        if at in LOOKED_ON:
            see(pages[1], game)
            pages[1].picture(pictures, f"watch-{at}")
        if move == "help":
            look_at_places(page, LARGE)
            page.picture(pictures, "help")
    if run.ended != "quit" or page.note() != "The story is over.":
        raise Otherwise(f"at the end `run` says {run.ended}, the page {page.note()!r}")
    moves_taken = page.gen() - 1
    page.find("about-open").click()
    page.find("end").click()
    page.wait("the game is ended", lambda: page.note() == "The game is ended.")
    if page.driver.execute_script("return localStorage.getItem('storyhost.games')") != "[]":
        raise Otherwise("the ended game is kept in the browser")
    complaints = page.complaints()
    if complaints:
        raise Otherwise(f"the browser says: {complaints}")
    return moves_taken, key


def play_workbench(address, program):
    """The Workbench to its end, on a page of 80 by 24 characters, since it tells its screen's size: lines and keys
    in grids, lines that it begins, many windows."""
    page = Page(address, LARGE)
    try:
        see_menu(page)
        width, height = page.driver.execute_script("const size = charSize(); return [size.width, size.height]")
        page.resize((int(80 * width) + 2, int(24 * height) + 2 + BARS))
        by_keyboard(page, "The Workbench")
        page.wait("the story is begun", page.is_ready)
        run = Run(str(WORKBENCH), str(program))
        game, moves = Game(page, run), read_moves(WORKBENCH.with_suffix(".moves"))
        game.look("begin")
        given = 0
        while not run.ended:
            game.give(moves[given])
            given += 1
        if run.ended != "quit" or page.note() != "The story is over.":
            raise Otherwise(f"at the end `run` says {run.ended}, the page {page.note()!r}")
        return given
    finally:
        page.driver.quit()


def main():
    words = argparse.ArgumentParser(usage=__doc__)
    words.add_argument("program", nargs="?", default=PROGRAM, type=pathlib.Path)
    words.add_argument("--pictures", type=pathlib.Path)
    asked = words.parse_args()
    with tempfile.TemporaryDirectory(prefix="page-") as room:
        host = Host(pathlib.Path(room) / "d", [COTTAGE, WORKBENCH], program=asked.program.resolve())
        gateway = Gateway(host.port, "--story", "The Well House", "--story", "The Workbench")
        try:
            others = play_workbench(gateway.address, asked.program.resolve())
            moves, key = play(gateway.address, host, gateway, COTTAGE, asked.program.resolve(), asked.pictures)
        except (Otherwise, WebDriverException) as cause:
            print(f"test_page: {cause}")
            return 1
        finally:
            host.kill()
            said = gateway.kill()
    if key in said:
        print("test_page: the gateway's log has a key")
        return 1
    print(f"test_page: {moves} moves to The Well House's end and {others} to The Workbench's, as by `run`, "
          "and a spectator saw the same through five sizes of the display, and stops of host and gateway")  # fmt: skip
    return 0


if __name__ == "__main__":
    sys.exit(main())
