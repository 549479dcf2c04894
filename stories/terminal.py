"""A program on a terminal of its own, and what stands on its screen.

The terminal is a VT52, the plainest that Debian's ncurses-base describes: no colours, no regions.
"""
import codecs
import fcntl
import os
import pty
import select
import struct
import termios


class Screen:
    """The characters of a VT52's screen, by row and column."""

    def __init__(self, columns, rows):
        self.resize(columns, rows)
        self.reader = codecs.getincrementaldecoder("utf-8")("replace")
        self.pending = ""

    def resize(self, columns, rows):
        """Another size, on which nothing stands yet."""
        self.columns, self.rows = columns, rows
        self.x = self.y = 0
        self.cells = [[" "] * columns for _ in range(rows)]

    def feed(self, data):
        self.pending += self.reader.decode(data)
        while self.pending:
            taken = self.take(self.pending)
            if taken == 0:
                return
            self.pending = self.pending[taken:]

    def take(self, text):
        """Does the first character or sequence of the text, and returns its length, or 0."""
        if text[0] != "\x1b":
            self.put(text[0])
            return 1
        if len(text) < 2 or text[1] == "Y" and len(text) < 4:
            return 0
        if text[1] == "Y":
            self.y = min(ord(text[2]) - 32, self.rows - 1)
            self.x = min(ord(text[3]) - 32, self.columns - 1)
            return 4
        self.escape(text[1])
        return 2

    def escape(self, code):
        if code == "H":
            self.x = self.y = 0
        elif code == "A":
            self.y = max(self.y - 1, 0)
        elif code == "B":
            self.y = min(self.y + 1, self.rows - 1)
        elif code == "C":
            self.x = min(self.x + 1, self.columns - 1)
        elif code == "D":
            self.x = max(self.x - 1, 0)
        elif code == "I":
            if self.y:
                self.y -= 1
            else:
                self.cells.insert(0, [" "] * self.columns)
                self.cells.pop()
        elif code in "JK":
            self.cells[self.y][self.x:] = [" "] * (self.columns - self.x)
            if code == "J":
                for row in range(self.y + 1, self.rows):
                    self.cells[row] = [" "] * self.columns

    def put(self, code):
        if code == "\r":
            self.x = 0
        elif code == "\b":
            self.x = max(self.x - 1, 0)
        elif code == "\t":
            self.x = min((self.x // 8 + 1) * 8, self.columns - 1)
        elif code == "\n":
            if self.y + 1 < self.rows:
                self.y += 1
            else:
                self.cells.pop(0)
                self.cells.append([" "] * self.columns)
        elif code >= " ":
            self.cells[self.y][self.x] = code
            self.x = min(self.x + 1, self.columns - 1)

    def region(self, x, y, width, height):
        """The rows of a rectangle, as texts."""
        return ["".join(row[x : x + width]) for row in self.cells[y : y + height]]


# The kernel's call for the number of a terminal (termios has no name for it).
NUMBER_OF_TERMINAL = 0x80045430
# The calls in which a program waits for its terminal: poll, select, pselect6, ppoll; and a read of it.
WAITING, READ, INPUT = {"7", "23", "270", "271"}, "0", "0x0"


class Program:
    """A program with a terminal of this size, begun in this folder."""

    def __init__(self, words, folder, columns=80, rows=24):
        self.screen = Screen(columns, rows)
        self.number, self.end = pty.fork()
        if self.number == 0:
            resize(0, columns, rows)
            os.chdir(folder)
            os.environ.update(TERM="vt52", LANG="C.UTF-8", LC_ALL="C.UTF-8")
            os.execvp(words[0], words)
        number = struct.unpack("i", fcntl.ioctl(self.end, NUMBER_OF_TERMINAL, bytes(4)))[0]
        self.typed = os.open(f"/dev/pts/{number}", os.O_RDWR | os.O_NOCTTY)
        self.over = False
        self.usage = None
        self.wanted = 0     # bytes that it has read in all once it has taken what was typed

    def has_read(self):
        """How many bytes the program has read, from its terminal and from files."""
        with open(f"/proc/{self.number}/io") as file:
            return int(file.readline().split()[1])

    def is_waiting(self):
        """Whether the program has taken all that was typed, and waits for more."""
        unread = struct.unpack("i", fcntl.ioctl(self.typed, termios.FIONREAD, bytes(4)))[0]
        if unread or self.has_read() < self.wanted:
            return False
        with open(f"/proc/{self.number}/syscall") as file:
            call, *given = file.read().split()
        return call in WAITING or call == READ and given[0] == INPUT

    def is_gone(self):
        with open(f"/proc/{self.number}/stat") as file:
            return file.read().rpartition(")")[2].split()[0] == "Z"

    def read(self, seconds):
        """Reads what comes within this time; says whether something came."""
        if self.over:
            return False
        if not select.select([self.end], [], [], seconds)[0]:
            return False
        try:
            data = os.read(self.end, 65536)
        except OSError:
            data = b""
        if not data:
            self.finish()
            return False
        self.screen.feed(data)
        return True

    def settle(self):
        """Reads until the program waits for more and has nothing more to say, or is over."""
        while not self.over:
            waiting, gone = self.is_waiting(), self.is_gone()
            if self.read(0 if waiting or gone else 0.002):
                continue
            if gone:
                self.finish()
            elif waiting:
                return

    def send(self, text):
        if not self.over:
            data = text.encode()
            self.wanted = self.has_read() + len(data)
            os.write(self.end, data)

    def resize(self, columns, rows):
        """The terminal has another size, of which the program is told by a signal."""
        if not self.over:
            resize(self.end, columns, rows)
        self.screen.resize(columns, rows)

    def finish(self):
        """Waits for the end, and keeps what the program used."""
        if not self.over:
            self.over = True
            os.close(self.end)
            os.close(self.typed)
            self.usage = os.wait4(self.number, 0)[2]

    def peak(self):
        """The most memory that it held, in kilobytes."""
        return peak_of(self.number)


def resize(end, columns, rows):
    fcntl.ioctl(end, termios.TIOCSWINSZ, struct.pack("HHHH", rows, columns, 0, 0))


def peak_of(number):
    """The most memory that a process held, in kilobytes, as the kernel tells while it is there."""
    with open(f"/proc/{number}/status") as file:
        return next(int(line.split()[1]) for line in file if line.startswith("VmHWM"))
