"""A session's windows on a terminal of somebody who only looks, drawn as a player's are."""
import asyncio

from screen import Screen

SECONDS = 1     # between two looks


class Onlooker(Screen):
    """A person at a terminal who looks at a session of a host."""

    def ask(self, work, *given):
        """Asks the host for something; what was remarked stays."""
        self.busy = True
        self.app.create_background_task(self.asked(work, given))

    def turn_page(self):
        """Shows the end of each buffer, but for one that was scrolled back, and looks again later."""
        for view in self.views.values():
            view.seen = view.count()
        self.mode = "over"      # PageUp and PageDown look back
        self.app.layout.focus(self.areas[self.control()])
        self.app.invalidate()
        self.app.create_background_task(self.later())

    async def later(self):
        await asyncio.sleep(SECONDS)
        self.ask(self.host.more)

    def character(self, move):
        """A spectator gives the story nothing."""

    def tell(self):
        """The word is the spectator's own."""

    def resized(self):
        """The game's size is its player's."""

    def draw_remark(self, canvas):
        host = self.host
        if host is None:
            text = self.remark
        else:
            ended = host.end_words() if host.ended or host.is_stuck() else ""
            seen = f"you look at session {host.number}, after {host.count} moves"
            text = f"[{seen}. {ended or 'Control and C leaves'}]"
            text = text if ended or len(text) <= canvas.columns else f"[{seen}]"
            text = f"{self.remark}\n{text}" if self.remark else text
        self.draw_words(canvas, canvas.rows - 1, text)


def look(place):
    """Shows a session on the terminal until its spectator leaves."""
    screen = Onlooker(place)
    screen.remark = "[the session's last moves are asked for]"
    screen.play()
    return screen.host
