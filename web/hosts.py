"""The hosts of an archive, as a file of hosts tells them (docs/HOSTING.md, "Many hosts"). Nothing here touches a
socket."""

import pathlib
import re
import struct
import tomllib
import xml.etree.ElementTree as xml
from dataclasses import dataclass

ONE_HOST = "host"           # the name of one that is alone
NAME = re.compile(r"[A-Za-z0-9_-]{1,32}")
HEAD = re.compile(r"\s*\[\[\s*host\s*\]\]")
WORKERS = 16                # of a host at most
MOST_STORIES = 64           # of a host
SMALL = 1 << 20             # bytes of a container's metadata at most


class Wrong(Exception):
    """What is wrong with a file of hosts, with its line, and what is wanted there."""


@dataclass
class Told:
    """A host as it is told: its stories' titles, each with its place among the words of `serve`."""

    name: str
    address: tuple
    links: int
    titles: dict


def read_hosts(path, links):
    """The hosts of a file, each with at most so many links unless it says otherwise."""
    try:
        text = pathlib.Path(path).read_text(encoding="utf-8")
        told = tomllib.loads(text)
    except OSError as cause:
        raise Wrong(f"{path}: {cause.strerror}") from None
    except UnicodeDecodeError:
        raise Wrong(f"{path}: it isn't UTF-8") from None
    except tomllib.TOMLDecodeError as cause:
        raise Wrong(f"{path}: {cause}") from None
    return File(path, text, told, links).hosts()


class File:
    """A file of hosts, with its lines."""

    def __init__(self, path, text, told, links):
        self.path, self.told, self.links = pathlib.Path(path), told, links
        self.lines = text.split("\n")
        self.heads = [at for at, line in enumerate(self.lines) if HEAD.match(line)]

    def wrong(self, wanted, key=None, host=None):
        """What is wanted, with the line of this key in this host's part, or of the part."""
        first = 0 if host is None else self.heads[host] if host < len(self.heads) else 0
        last = next((at for at in self.heads if at > first), len(self.lines))
        pattern = re.compile(r"\s*\[?\s*[\"']?%s[\"']?\s*[=\].]" % re.escape(key)) if key else HEAD
        at = next((at for at in range(first, last) if pattern.match(self.lines[at])), first)
        return Wrong(f"{self.path}, line {at + 1}: {wanted}")

    def hosts(self):
        for key in self.told:
            if key not in ("host", "titles"):
                raise self.wrong(f"there is no {key}; wanted are [[host]], for each host, and [titles]", key)
        titles, hosts = self.told.get("titles", {}), self.told.get("host")
        if not isinstance(titles, dict) or not all(is_title(title) for title in titles.values()):
            raise self.wrong('[titles] is to have lines like "cottage.ulx" = "The Well House"', "titles")
        if not isinstance(hosts, list) or not hosts:
            raise self.wrong("at least one [[host]] is wanted")
        made = {}
        for number, told in enumerate(hosts):
            host = self.host(told, number, titles)
            if host.name in made:
                raise self.wrong(f"there is a host {host.name} before; each is to have a name of its own", "name", number)
            made[host.name] = host
        return list(made.values())

    def host(self, told, number, titles):
        if not isinstance(told, dict):
            raise self.wrong("[[host]] is wanted, and name, address, port and stories below it", "host")
        for key in told:
            if key not in ("name", "address", "port", "stories", "links"):
                raise self.wrong(f"a host has no {key}; wanted are name, address, port, stories, and maybe links", key, number)

        def read(key, wanted, holds, *default):
            value = told.get(key, *default)
            if not holds(value):
                raise self.wrong(f"{key} is to be {wanted}", key, number)
            return value

        name = read("name", "1 to 32 letters, digits, - and _", lambda value: isinstance(value, str) and NAME.fullmatch(value))
        address = read("address", 'a text like "127.0.0.1"', lambda value: isinstance(value, str) and value)
        port = read("port", "a number from 1 to 65535", lambda value: is_number(value, 65535))
        links = read("links", f"a number from 1 to {WORKERS}", lambda value: is_number(value, WORKERS), self.links)
        stories = read("stories", f"a list of 1 to {MOST_STORIES} names of files, in the order of the words of serve",
                       lambda value: isinstance(value, list) and 0 < len(value) <= MOST_STORIES
                       and all(isinstance(file, str) and file for file in value))  # fmt: skip
        return Told(name, (address, port), links, self.titles(stories, titles, name, number))

    def titles(self, stories, titles, name, number):
        """The titles of a host's stories."""
        made = {}
        for place, file in enumerate(stories):
            title = titles.get(file) or titles.get(pathlib.PurePath(file).name)
            if title is None:
                try:
                    title = title_of(self.path.parent / file)
                except (OSError, ValueError, struct.error, xml.ParseError):
                    raise self.wrong(f'{file} has no title that can be read: a line "{file}" = "A title" is wanted under '
                                     "[titles]", "stories", number) from None  # fmt: skip
            if title in made:
                raise self.wrong(f"{name} has two stories of the title {title}; each is to have a title of its own", "stories",
                                 number)  # fmt: skip
            made[title] = place
        return made


def is_number(value, most):
    return isinstance(value, int) and not isinstance(value, bool) and 1 <= value <= most


def is_title(value):
    return isinstance(value, str) and 0 < len(value) <= 200 and value.isprintable()


def title_of(path):
    """The title of a Blorb file, from its metadata (chunk IFmd, a text of the Treaty of Babel's form)."""
    with open(path, "rb") as file:
        form, _, kind = struct.unpack(">4sI4s", file.read(12))
        if (form, kind) != (b"FORM", b"IFRS"):
            raise ValueError
        while True:
            name, size = struct.unpack(">4sI", file.read(8))
            if name == b"IFmd":
                break
            file.seek(size + size % 2, 1)
        if size > SMALL:
            raise ValueError
        title = xml.fromstring(file.read(size)).findtext(".//{*}bibliographic/{*}title")
    title = " ".join((title or "").split())
    if not is_title(title):
        raise ValueError
    return title
