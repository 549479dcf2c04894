"""A story's windows on a terminal, drawn where the story has put them, and a player's lines and keys, over
Debian's python3-prompt-toolkit. It draws in the terminal's own colours."""
import asyncio
import signal
import sys
import threading
from collections import deque

# ruff: noqa: E402
# Debian keeps its packages here, also where another Python is the first one.
sys.path.append("/usr/lib/python3/dist-packages")

from prompt_toolkit.application import Application
from prompt_toolkit.buffer import Buffer
from prompt_toolkit.document import Document
from prompt_toolkit.key_binding import KeyBindings
from prompt_toolkit.key_binding.key_processor import KeyPress
from prompt_toolkit.keys import Keys
from prompt_toolkit.layout import DynamicContainer, Layout
from prompt_toolkit.layout import Window as Area
from prompt_toolkit.layout.controls import BufferControl, UIContent, UIControl

from drawing import Canvas, View, cells_of, columns_of, fitted, squeezed
from host import KEYS, WRITE
from wrapping import wrapped

BUFFER, GRID = 3, 4
LEAST_SIZE = (40, 12)
RESIZE_SECONDS = 0.3    # behind the last of many sizes of the terminal, until the host is told it
INPUT = 8       # the style in which a line that is typed stands
# How a style of Glk is drawn: emphasized, header, subheader, alert, note and input stand out.
STYLES = {1: "underline", 3: "bold", 4: "bold", 5: "reverse", 6: "italic", INPUT: "bold"}
# A character of a player, as moves name it, for each key of the terminal that is none.
NAMED = {
    Keys.Left: "{Left}", Keys.Right: "{Right}", Keys.Up: "{Up}", Keys.Down: "{Down}", Keys.ControlM: "{Return}",
    Keys.ControlJ: "{Return}", Keys.ControlH: "{Delete}", Keys.Delete: "{Delete}", Keys.Escape: "{Escape}",
    Keys.ControlI: "{Tab}", Keys.PageUp: "{PageUp}", Keys.PageDown: "{PageDown}", Keys.Home: "{Home}",
    Keys.End: "{End}", **{f"f{n}": f"{{Func{n}}}" for n in range(1, 13)},
}
LEAVES = (Keys.ControlC, Keys.ControlD, Keys.SIGINT)
SCROLLS = {Keys.PageUp: -1, Keys.ShiftPageUp: -1, Keys.ControlPageUp: -1,
           Keys.PageDown: 1, Keys.ShiftPageDown: 1, Keys.ControlPageDown: 1}


class Screen:
    """A person at a terminal who plays a story of a host."""

    def __init__(self, place):
        self.place, self.host, self.failure = place, None, None
        self.busy, self.keys, self.mode = True, deque(), "start"
        self.remark = "[the story is begun, or where it is kept played to where it was]"
        self.views, self.size, self.places = {}, (80, 24), {}
        self.resizing = None    # what will tell the host the terminal's size
        self.windows, self.wants = {}, (None, 0)    # as they are drawn, while the host is asked too
        self.line = Buffer(multiline=False, on_text_changed=self.limit)
        self.name = Buffer(multiline=False)
        self.typing = Typing(self)
        self.waiting = Waiting(self)
        self.areas = {it: Area(it, wrap_lines=False) for it in (self.typing, self.waiting)}
        self.app = Application(
            layout=Layout(DynamicContainer(lambda: self.areas[self.control()])), full_screen=True,
            include_default_pygments_style=False, mouse_support=False,
        )
        self.app.ttimeoutlen, self.app.timeoutlen = 0.05, 0.3
        self.processor = self.app.key_processor
        self.take_keys = self.processor.process_keys
        self.processor.process_keys = self.process_keys

    # The player's keys.

    def control(self):
        return self.typing if self.mode in ("line", "file") else self.waiting

    def process_keys(self):
        """Takes keys one after the other; while the host is asked all wait but those that leave."""
        self.keys.extend(self.processor.input_queue)
        self.processor.input_queue.clear()
        while self.keys and not self.busy:
            self.processor.input_queue.append(self.keys.popleft())
            self.take_keys()
        if self.busy and any(press.key in LEAVES for press in self.keys):
            self.leave()

    def pasted(self, text):
        """What is pasted counts as typed, a line after the other."""
        lines = text.replace("\r\n", "\n").replace("\r", "\n")
        presses = [KeyPress(Keys.ControlM if code == "\n" else code, code) for code in lines]
        self.keys.extendleft(reversed(presses))

    def tell(self):
        """Tells the player by which words others may look at the game."""
        self.say(self.place.spectators_words())

    def leave(self):
        if not self.app.is_done:
            self.app.exit()

    def scroll(self, pages):
        view = self.views.get(self.scrolled())
        if view:
            view.scroll(pages, self.places[self.scrolled()][3])
            self.app.invalidate()

    def scrolled(self):
        """The window whose text is looked back at: the one that waits, or the largest one."""
        if self.wants[1] in self.views:
            return self.wants[1]
        return max(self.views, key=lambda it: self.places[it][2] * self.places[it][3], default=0)

    def unscroll(self):
        for view in self.views.values():
            view.end = None

    def limit(self, buffer):
        """A line has at most as many characters as the story takes."""
        self.unscroll()
        if self.busy or self.mode != "line":
            return
        most = int(self.host.wait()[3])
        if len(buffer.text) > most:
            self.remark = f"[the story takes {most} characters]"
            buffer.document = Document(buffer.text[:most], min(buffer.cursor_position, most))

    def entered(self):
        """The line or the name is given."""
        if self.mode == "line":
            self.ask(self.host.give_line, self.line.text)
        elif self.is_known(self.name.text) and not self.remark.startswith("[there is"):
            self.remark = f"[there is a file {self.name.text}: Return writes over it, Escape cancels]"
        else:
            self.ask(self.host.give_name, self.name.text)

    def is_known(self, name):
        usage, mode = self.host.prompt()
        return mode == WRITE and name in self.host.names.get(usage, [])

    def ended(self, code):
        """A key that may end a line; most stories ask for none."""
        if self.mode == "file":
            if code == KEYS["{Escape}"]:
                self.ask(self.host.give_name, "")
        else:
            self.ask(self.host.give_line, self.line.text, code)

    def next_name(self):
        """Another window that waits for a line; at a file prompt the next name that is known."""
        if self.mode == "line":
            self.host.turn += 1
            self.wait()
            return
        names = self.host.names.get(self.host.prompt()[0])
        if names:
            at = names.index(self.name.text) if self.name.text in names else 0
            self.name.document = Document(names[at - 1])

    def character(self, move):
        """A key where the story waits for one, or where a page, or the end, waits for the player."""
        self.unscroll_unless_more()
        if self.mode == "more":
            self.turn_page()
        elif self.mode == "char":
            self.ask(self.host.give, move)
        elif self.mode == "over" and move in ("n", "N"):
            self.ask(self.place.anew, self.host, self.game_size())
        elif self.mode == "over" and move in ("b", "B") and self.place.is_own:
            self.ask(self.host.back)
        elif self.mode == "over" and move == "{Return}":
            self.leave()

    def unscroll_unless_more(self):
        if self.mode != "more":
            self.unscroll()

    # The host.

    def game_size(self):
        """The columns and rows of a game on this terminal: its last row is for remarks. On a very small one it is
        larger, and is drawn together."""
        columns, rows = self.size
        return max(min(columns, 255), LEAST_SIZE[0]), max(min(rows - 1, 255), LEAST_SIZE[1])

    def say(self, text):
        self.remark = text
        self.app.invalidate()

    def ask(self, work, *given):
        """Asks the host for something, while keys wait."""
        self.busy, self.remark = True, ""
        self.app.create_background_task(self.asked(work, given))

    async def asked(self, work, given):
        before, loop = self.host, asyncio.get_running_loop()
        answer = loop.create_future()

        def run():
            try:
                told = work(*given), None
            except BaseException as cause:      # It is raised again behind the screen's end.
                told = None, cause
            try:
                loop.call_soon_threadsafe(answer.set_result, told)
            except RuntimeError:
                pass    # The player has left meanwhile.

        threading.Thread(target=run, daemon=True).start()
        value, self.failure = await answer
        if self.failure:
            self.leave()
            return
        if before is None:
            self.host = value
        self.busy = False
        if work in (self.place.anew, getattr(before, "back", None)):
            self.views = {}
        if work == getattr(before, "resize", None):
            self.arranged()
        else:
            if value is not False:
                self.line.reset(append_to_history=bool(self.mode == "line" and self.line.text))
                self.name.reset()
            self.shown(value is not False)
        self.process_keys()

    def shown(self, is_new=True):
        """Behind a show: what it says is paged, and then what the story waits for is asked."""
        self.remark, self.host.note = self.host.note or ("" if is_new else self.remark), ""
        self.take_windows()
        self.turn_page()

    def arranged(self):
        """Behind another size: what was typed stays, and who looks back goes on so."""
        self.remark, self.host.note = self.host.note or self.remark, ""
        self.take_windows()
        if any(view.end is not None for view in self.views.values()):
            self.wait()
        else:
            self.turn_page()

    def take_windows(self):
        self.windows = dict(self.host.windows)
        self.views = {number: view for number, view in self.views.items() if number in self.windows}
        self.fit()

    def resized(self):
        """The terminal has another size. Of many that follow each other the host is told the last one."""
        if self.resizing:
            self.resizing.cancel()
        self.resizing = asyncio.get_running_loop().call_later(RESIZE_SECONDS, self.resizes_no_more)

    def resizes_no_more(self):
        self.resizing = None
        self.tell_size()

    def tell_size(self):
        """Tells the host the terminal's size, where it is to be told. It is a move, which goes behind the one that is
        under way, and behind the last page."""
        size = self.game_size()
        if self.host and not (self.busy or self.resizing) and self.mode in ("line", "char") and self.host.wants_size(size):
            self.busy = True
            self.app.create_background_task(self.asked(self.host.resize, (size,)))

    def fit(self):
        """Puts the windows of the game on this terminal, also where the game has another size."""
        columns, rows = self.size
        self.places = fitted(self.windows, columns, max(rows - 1, 1))
        for number, window in self.windows.items():
            if window.kind != BUFFER:
                continue
            view, width = self.views.get(number), max(self.places[number][2], 1)
            if view is None or view.text.width != width:
                fresh = View(width)
                fresh.take(window, window.known)
                fresh.seen = fresh.count() - 1 if window.known else fresh.floor
                fresh.take(window)
                if view:
                    fresh.seen = fresh.count() - 1
                if view and view.end is not None:       # Who reads on, or looks back, stays about there.
                    fresh.end = view.end * fresh.count() // view.count()
                    fresh.seen = fresh.end if self.mode == "more" else fresh.seen
                self.views[number] = fresh
            else:
                view.take(window)

    def show_page_again(self):
        """Shows the page that a player reads, which ends where it did, or further down if all fits now."""
        for number, view in self.views.items():
            view.turn_back(self.places[number][3])
        self.turn_page()

    def turn_page(self):
        """Shows the next page of each buffer, or waits for the player once all was shown."""
        more = [view.page(self.places[number][3]) for number, view in self.views.items() if self.places[number][3]]
        if any(more):
            self.turn_to("more")
        else:
            self.wait()

    def wait(self):
        """Waits for what the story waits for."""
        self.wants = self.host.wanted()
        kind = self.wants[0]
        if kind is None:
            self.turn_to("over")
        elif kind == "P":
            names = self.host.names.get(self.host.prompt()[0])
            self.turn_to("file")
            self.name.document = Document(names[-1] if names else "")
        elif kind == "char":
            self.turn_to("char")
        else:
            self.turn_to("line")
            if not self.line.text:
                self.line.document = Document(self.host.begun())
        self.tell_size()

    def turn_to(self, mode):
        self.mode = mode
        self.typing.buffer = self.name if mode == "file" else self.line
        self.app.layout.focus(self.areas[self.control()])
        self.app.invalidate()

    # What is drawn.

    def content(self, columns, rows):
        """All that stands on the terminal."""
        if (columns, rows) != self.size:
            self.size = columns, rows
            if self.host:
                self.fit()
                if self.mode == "more":
                    self.show_page_again()
            self.resized()
        canvas, place = Canvas(columns, rows), (rows - 1, 0)
        for number, window in sorted(self.windows.items()):
            if window.kind == GRID:
                self.draw_grid(canvas, window, *self.places[number])
        for number, window in sorted(self.windows.items()):
            if window.kind == BUFFER and self.places[number][2] and self.places[number][3]:
                end = self.draw_buffer(canvas, number, *self.places[number])
                place = end if number == self.scrolled() else place
        if self.wants[1] in self.windows and self.windows[self.wants[1]].kind == GRID:
            place = self.draw_typed(canvas, *self.end_of_grid(self.wants[1]))
        place = self.draw_remark(canvas) or place
        return UIContent(canvas.line, rows, cursor_position=canvas.cursor(*place), show_cursor=self.mode != "start")

    def draw_grid(self, canvas, window, x, y, width, height):
        style = "reverse" if window.height == 1 else ""
        for row in range(height):
            cells = cells_of(window.rows.get(row, ""), style)
            cells = squeezed(cells, width) if window.height == 1 else cells
            canvas.put(y + row, x, cells_of(" " * width, style), x + width)
            canvas.put(y + row, x, cells, x + width)

    def draw_buffer(self, canvas, number, x, y, width, height):
        """Draws the lines of a buffer, with what is typed behind them; gives the cursor's place."""
        view = self.views[number]
        lines, end, cursor = view.text.lines, view.end, None
        if end is None:
            lines, cursor = self.with_typed(number, lines, width)
            end = len(lines)
        top = max(end - height, 0)
        if view.end is None:
            top = max(top, min(view.floor, end - 1))
        top = max(top, end - height + 1) if view.end is not None and height > 1 else top
        for row, line in enumerate(lines[top:end]):
            canvas.put(y + row, x, [(drawn, STYLES.get(style, ""), size) for drawn, style, size in line], x + width)
        if view.end is not None:
            words = "[more]" if self.mode == "more" else "[PageDown goes on]"
            canvas.put(y + height - 1, x, cells_of(words, "reverse"), x + width)
            return y + height - 1, min(x + len(words), x + width - 1)
        row, column = cursor or (len(lines) - 1, columns_of(lines[-1]))
        return y + row - top, min(x + column, x + width - 1)

    def with_typed(self, number, lines, width):
        """The lines, the typed one behind the last of them, and the cursor's row and column."""
        if self.mode != "line" or self.wants[1] != number:
            return lines, None
        lines, at = [*lines[:-1], list(lines[-1])], None
        used = columns_of(lines[-1])
        for place, code in enumerate(self.line.text + " "):
            for cell in cells_of(code, INPUT) or [("", INPUT, 0)]:
                if used + cell[2] > width:
                    lines.append([])
                    used = 0
                if place == self.line.cursor_position and at is None:
                    at = len(lines) - 1, used
                if cell[0]:
                    lines[-1].append(cell)
                    used += cell[2]
        return lines, at

    def end_of_grid(self, number):
        """Behind the last text of a grid, where a line is typed, and up to which column it may go."""
        x, y, width, height = self.places[number]
        rows = self.windows[number].rows
        row = max((row for row, text in rows.items() if text.strip() and row < height), default=0)
        cells = cells_of(rows.get(row, "").rstrip(), "")
        column = columns_of(cells) + 1 if cells else 0
        return y + row, x + min(column, max(width - 2, 0)), x + width

    def draw_typed(self, canvas, y, x, end, buffer=None):
        """Draws what is typed in one row, its end where it is longer; gives the cursor's place."""
        if buffer is None and self.mode != "line":
            return y, min(x, end - 1)
        buffer = buffer or self.line
        before = cells_of(buffer.text[: buffer.cursor_position], STYLES[INPUT])
        after = cells_of(buffer.text[buffer.cursor_position :], STYLES[INPUT])
        while before and columns_of(before) > end - x - 1:
            before = before[1:]
        canvas.put(y, x, cells_of(" " * (end - x)), end)
        canvas.put(y, x, before + after, end)
        return y, x + columns_of(before)

    def draw_remark(self, canvas):
        """Draws the last rows; gives the cursor's place where a name is typed there."""
        y, columns = canvas.rows - 1, canvas.columns
        text = self.remark
        if self.mode == "over" and not self.busy:
            back = "B takes the last move back, " if self.place.is_own else ""
            text = f"[{self.host.end_words()}. {back}N begins a new game; this one's files go with it. Return leaves]"
        if self.mode != "file" or self.busy:
            self.draw_words(canvas, y, text)
            return None
        if not text:
            names = self.host.names.get(self.host.prompt()[0])
            text = f"[so far: {', '.join(names)}; Tab takes one, Escape cancels]" if names else "[Escape cancels]"
        self.draw_words(canvas, y - 1, text)
        words = cells_of(self.host.prompt_words() + " ", "reverse")
        canvas.put(y, 0, cells_of(" " * columns))
        canvas.put(y, 0, words)
        return self.draw_typed(canvas, y, min(columns_of(words), columns - 2), columns, self.name)

    def draw_words(self, canvas, y, text):
        """Draws a remark whose last line stands in this row."""
        lines = wrapped(text, canvas.columns).split("\n") if text else []
        for row, line in enumerate(lines, y - len(lines) + 1):
            canvas.put(row, 0, cells_of(line.ljust(canvas.columns), "reverse"))

    def play(self):
        def begin():
            size = self.app.output.get_size()
            self.size = size.columns, size.rows
            loop = asyncio.get_running_loop()
            for number in (signal.SIGTERM, signal.SIGHUP):
                loop.add_signal_handler(number, self.leave)
            self.ask(self.place.game, self.game_size(), self.say)
            self.remark = "[the story is begun, or where it is kept played to where it was]"

        self.app.run(pre_run=begin)
        self.farewell()
        if self.failure:
            raise self.failure
        if self.host and not self.busy:
            self.host.finish()

    def farewell(self):
        """Leaves the last page of the text on the terminal."""
        if self.host and self.scrolled() in self.views:
            lines = self.views[self.scrolled()].text.lines[-(self.size[1] - 4) :]
            print("\n".join("".join(cell[0] for cell in line).replace("\u00a0", " ") for line in lines).strip("\n"))


def common_keys(screen):
    """What keys do wherever the game stands."""
    keys = KeyBindings()
    keys.add(Keys.ControlC, eager=True)(lambda event: screen.leave())
    keys.add(Keys.SIGINT, eager=True)(lambda event: screen.leave())
    keys.add(Keys.ControlT, eager=True)(lambda event: screen.tell())
    keys.add(Keys.ControlZ, eager=True)(lambda event: event.app.suspend_to_background())
    keys.add(Keys.BracketedPaste, eager=True)(lambda event: screen.pasted(event.data))
    return keys


class Typing(BufferControl):
    """Where a line or a name is typed, with the editing of prompt_toolkit."""

    def __init__(self, screen):
        self.screen, keys = screen, common_keys(screen)

        @keys.add(Keys.ControlD, eager=True)
        def leave(event):
            if event.current_buffer.text:
                event.current_buffer.delete()
            else:
                screen.leave()

        keys.add(Keys.ControlM, eager=True)(lambda event: screen.entered())
        keys.add(Keys.ControlJ, eager=True)(lambda event: screen.entered())
        keys.add(Keys.ControlI, eager=True)(lambda event: screen.next_name())
        for key, move in NAMED.items():
            if move == "{Escape}" or move.startswith("{Func"):
                keys.add(key)(lambda event, move=move: screen.ended(KEYS[move]))
        for key, pages in SCROLLS.items():
            keys.add(key, eager=True)(lambda event, pages=pages: screen.scroll(pages))
        super().__init__(buffer=screen.line, key_bindings=keys)

    def create_content(self, width, height, preview_search=False):
        self.buffer.load_history_if_not_yet_loaded()
        return self.screen.content(width, height)


class Waiting(UIControl):
    """Where a key is waited for, or the host."""

    def __init__(self, screen):
        self.screen, self.keys = screen, common_keys(screen)
        self.keys.add(Keys.ControlD, eager=True)(lambda event: screen.leave())
        self.keys.add(Keys.Any)(lambda event: self.typed(event.data))
        for key, move in NAMED.items():
            self.keys.add(key, eager=True)(lambda event, key=key, move=move: self.named(key, move))
        for key, pages in SCROLLS.items():
            if key not in NAMED:
                self.keys.add(key, eager=True)(lambda event, pages=pages: screen.scroll(pages))

    def typed(self, text):
        if text and text.isprintable():
            self.screen.character("{Space}" if text == " " else text)

    def named(self, key, move):
        """The story gets PageUp and PageDown where it waits for a key; elsewhere they look back."""
        if key in SCROLLS and self.screen.mode == "over":
            self.screen.scroll(SCROLLS[key])
        else:
            self.screen.character(move)

    def is_focusable(self):
        return True

    def get_key_bindings(self):
        return self.keys

    def create_content(self, width, height):
        return self.screen.content(width, height)


def play(place):
    """Plays the story of a place on the terminal, and gives the game as the player left it."""
    screen = Screen(place)
    screen.play()
    return screen.host
