"""A story in git, an interpreter that keeps what it has decoded, on a screen that nobody sees.

Wants, on Debian: apt-get install -y --no-install-recommends gargoyle-free xvfb xdotool"""

import os
import shutil
import subprocess
import tempfile
import time

PROGRAM = "/usr/libexec/gargoyle/git"
TICKS = os.sysconf("SC_CLK_TCK")
QUIET = 1.5     # seconds without work after which it waits for its player


def is_here():
    """Whether all that this needs is installed."""
    return os.access(PROGRAM, os.X_OK) and all(map(shutil.which, ("Xvfb", "xdotool")))


class Screen:
    """An X server that draws into memory."""

    def __enter__(self):
        told, tells = os.pipe()
        self.server = subprocess.Popen(["Xvfb", "-displayfd", str(tells), "-screen", "0", "800x600x24"],
                                       pass_fds=[tells], stderr=subprocess.DEVNULL)
        os.close(tells)
        with os.fdopen(told) as number:
            self.name = f":{number.readline().strip()}"
        return self

    def __exit__(self, *_):
        self.server.terminate()
        self.server.wait()


class Git:
    """A story in git on a screen."""

    def __init__(self, story, screen, folder):
        self.around = {**os.environ, "DISPLAY": screen.name, "HOME": folder, "XDG_RUNTIME_DIR": folder}
        self.process = subprocess.Popen([PROGRAM, os.path.abspath(story)], env=self.around,
                                        stdout=subprocess.DEVNULL, stderr=subprocess.DEVNULL)
        self.settle()

    def looked_at(self):
        """Whether it waits, and its processor seconds since its start, the system's included."""
        with open(f"/proc/{self.process.pid}/stat") as file:
            fields = file.read().rsplit(")", 1)[1].split()
        return fields[0] == "S", sum(map(int, fields[11:13])) / TICKS

    def spent(self):
        return self.looked_at()[1]

    def settle(self):
        """Waits until it does nothing any more."""
        seen, since = None, time.monotonic()
        while time.monotonic() - since < QUIET:
            time.sleep(0.05)
            waits, now = self.looked_at()
            if now != seen or not waits:
                seen, since = now, time.monotonic()

    def ask(self, *words):
        return subprocess.run(["xdotool", *words], env=self.around, check=True, capture_output=True, text=True)

    def type(self, move):
        window = self.ask("search", "--onlyvisible", "--pid", str(self.process.pid)).stdout.split()[-1]
        self.ask("windowfocus", "--sync", window)
        self.ask("type", move)
        self.ask("key", "Return")
        self.settle()

    def end(self):
        self.process.kill()
        self.process.wait()


def seconds(story, moves, idle):
    """The processor seconds of the moves, or of a story that ends by itself beside one that ends at once."""
    with Screen() as screen, tempfile.TemporaryDirectory() as folder:
        if not moves:
            return whole(story, screen, folder) - whole(idle, screen, folder)
        git = Git(story, screen, folder)
        before = git.spent()
        for move in moves:
            git.type(move)
        after = git.spent()
        git.end()
        return after - before


def whole(story, screen, folder):
    git = Git(story, screen, folder)
    spent = git.spent()
    git.end()
    return spent
