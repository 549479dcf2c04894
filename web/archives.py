"""For tests, drills and measures of an archive: hosts, the file that tells of them, gateways, and haproxy before
them. It wants Debian's haproxy where there is more than one gateway."""

import pathlib
import shutil
import socket
import struct

from players import PROGRAM, TOP, Gateway, Host, Program, free_port

HAPROXY = TOP / "docs" / "haproxy.cfg"


def has_haproxy():
    return bool(shutil.which("haproxy", path="/usr/sbin:/usr/bin"))


def is_listened_on(port):
    with socket.socket() as one:
        return one.connect_ex(("127.0.0.1", port)) == 0


class Proxy(Program):
    """haproxy by the configuration of docs/, on ports of its own."""

    def __init__(self, room, port, gateways):
        text = HAPROXY.read_text().replace("127.0.0.1:8080", f"127.0.0.1:{port}")
        for place, gateway in zip((8081, 8082), gateways):
            text = text.replace(f"127.0.0.1:{place}", f"127.0.0.1:{gateway.port}")
        self.file = room / "haproxy.cfg"
        self.file.write_text(text)
        self.begin(["/usr/sbin/haproxy", "-db", "-f", str(self.file)], lambda: is_listened_on(port))


class Archive:
    """Hosts a, b, c and so on, each with these stories, of which a title is known by file; and gateways over them, two of
    them behind haproxy."""

    def __init__(self, room, count, titles, workers=5, gateways=2, program=PROGRAM, words=()):
        self.room, self.titles, self.file = pathlib.Path(room), dict(titles), pathlib.Path(room) / "hosts.toml"
        self.workers, self.program = workers, program
        self.hosts = {name_of(at): Host(self.room / name_of(at), titles, workers, program) for at in range(count)}
        self.write()
        port = free_port()
        self.address = f"http://127.0.0.1:{port}"
        self.gateways = [Gateway(self.file, "--links", "2", "--origin", self.address, *words) for _ in range(gateways)]
        self.proxy = Proxy(self.room, port, self.gateways)

    def add(self, name, titles):
        """One more host, of other stories."""
        self.hosts[name] = Host(self.room / name, titles, self.workers, self.program)
        self.titles |= titles
        self.write()
        self.read_again()

    def write(self, more="", titles=()):
        """Writes the file of the hosts as they are now, with more of both kinds behind them."""
        named = "".join(f'"{file}" = "{title}"\n' for file, title in {**self.titles, **dict(titles)}.items() if title)
        hosts = "".join(part_of(name, host.port, host.stories) for name, host in self.hosts.items())
        self.file.write_text(f"[titles]\n{named}\n{hosts}{more}")

    def read_again(self):
        for gateway in self.gateways:
            gateway.read_again()

    def move(self, name):
        """Moves a host, as to another machine: stop, copy, start, and the changed line of the file."""
        host = self.hosts[name]
        host.move(f"{host.folder}-moved")
        self.write()
        self.read_again()

    def kill(self):
        """Ends all of it, and gives what the gateways said."""
        self.proxy.kill()
        said = "".join(gateway.kill() for gateway in self.gateways)
        for host in self.hosts.values():
            host.kill()
        return said


def name_of(at):
    return f"host{at + 1}"


def part_of(name, port, stories, more=""):
    """A host's part of a file of hosts."""
    return f'[[host]]\nname = "{name}"\naddress = "127.0.0.1"\nport = {port}\nstories = {[str(file) for file in stories]}\n{more}'


def blorb_of(image, title):
    """A container of a story, with its title in its metadata."""
    metadata = ('<?xml version="1.0" encoding="UTF-8"?>'
                '<ifindex version="1.0" xmlns="http://babel.ifarchive.org/protocol/iFiction/">'
                f"<story><bibliographic><title>{title}</title></bibliographic></story></ifindex>").encode()  # fmt: skip

    def chunk(name, data):
        return name + struct.pack(">I", len(data)) + data + b"\0" * (len(data) % 2)

    first = 12 + 8 + 16     # of the story's chunk: the form's head, and an index of one entry
    index = chunk(b"RIdx", struct.pack(">I4sII", 1, b"Exec", 0, first))
    body = b"IFRS" + index + chunk(b"GLUL", image) + chunk(b"IFmd", metadata)
    return b"FORM" + struct.pack(">I", len(body)) + body
