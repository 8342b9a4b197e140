"""Files of snmpd.conf, and those that their lines name."""
from __future__ import annotations

import errno
import os
import stat
from typing import Iterator, List

from .items import Include, Item, read_items
from .lines import LEFT_OUT, ORDER, OTHER, REFUSED, Note
from .words import is_text

LIMIT = 16777216  # octets of a file
_DEPTH = 16  # how deep files may name one another, as in snmpd
_FILES_MOST = 4096
_CHUNK = 65536

_READ = Note(OTHER, "read in its place")
_SEVERAL = Note(ORDER, "several files, read by name; snmpd takes them as the folder gives them")
_UNREAD = Note(REFUSED, "can't be read")
_TOO_DEEP = Note(REFUSED, "too many files, or too many in one another")
_NOT_FOLLOWED = Note(LEFT_OUT, "not followed: name the files on the command line")
_CAUSES = {
    errno.ENOENT: "there is no such file",
    errno.EACCES: "it may not be read",
    errno.EPERM: "it may not be read",
    errno.EISDIR: "it is a folder",
}


class Unread(Exception):
    """Why a file can't be read, in words for who named it."""


def _cause(fault: OSError) -> Unread:
    if fault.errno == errno.ENOMEM:
        raise MemoryError
    return Unread(_CAUSES.get(fault.errno or 0, "a read failed"))


def _octets_at(descriptor: int) -> bytes:
    """All that is left, at most LIMIT octets."""
    octets = bytearray()
    while True:
        chunk = os.read(descriptor, _CHUNK)
        if not chunk:
            return bytes(octets)
        octets += chunk
        if len(octets) > LIMIT:
            raise Unread(f"it is over {LIMIT} octets")


def _read_file(path: bytes) -> bytes:
    descriptor = os.open(path, os.O_RDONLY | os.O_CLOEXEC)
    try:
        return _octets_at(descriptor)
    finally:
        os.close(descriptor)


def read_named(name: bytes) -> bytes:
    """The octets of a file of the command line, or of standard input where the name is `-`."""
    try:
        return _octets_at(0) if name == b"-" else _read_file(name)
    except OSError as fault:
        raise _cause(fault) from None


def _read_regular(path: bytes) -> bytes:
    """The octets of a regular file. Anything else, such as a FIFO, isn't opened: nobody may ever write to it."""
    try:
        if stat.S_ISREG(os.stat(path).st_mode):
            return _read_file(path)
    except OSError as fault:
        raise _cause(fault) from None
    raise Unread("it is no file")


def _names_in(folder: bytes) -> List[bytes]:
    """The names of the folder's files that snmpd reads, in their order."""
    try:
        names = os.listdir(folder)
    except OSError as fault:
        raise _cause(fault) from None
    return sorted(it for it in names if it.endswith(b".conf") and not it.startswith(b".") and is_text(it))


class Sources:
    """Files, by number, and what their lines make."""

    def __init__(self) -> None:
        self.names: List[bytes] = []
        self.items: List[Item] = []

    def put(self, name: bytes, text: bytes) -> List[Item]:
        """Puts a file after those that are there. Returns what its lines make."""
        self.names.append(name)
        return list(read_items(len(self.names) - 1, text))

    def follow(self, follows: bool) -> None:
        """Reads the files that lines name, in the places of those lines, and those that they name, up to a depth."""
        for _ in range(_DEPTH if follows else 0):
            if not any(isinstance(item.made, Include) for item in self.items):
                return
            self.items = [other for item in self.items for other in self._followed(item)]
        rest = _TOO_DEEP if follows else _NOT_FOLLOWED
        self.items = [it._replace(made=rest) if isinstance(it.made, Include) else it for it in self.items]

    def _followed(self, item: Item) -> Iterator[Item]:
        """The item, or those of the files that its line names."""
        if not isinstance(item.made, Include):
            yield item
            return
        name = item.made.name
        if not is_text(name):
            yield item._replace(made=_UNREAD)
        elif item.made.is_folder:
            yield from self._folder(item, name if name.endswith(b"/") else name + b"/")
        else:
            yield from self._file(item, self._path(item, name))

    def _path(self, item: Item, name: bytes) -> bytes:
        """The path of a file that a line names: beside the file of the line, where it doesn't begin with a slash."""
        if item.place is None or name.startswith(b"/"):
            return name
        folder, slash, _ = self.names[item.place[0]].rpartition(b"/")
        return folder + slash + name

    def _file(self, item: Item, path: bytes) -> Iterator[Item]:
        if len(self.names) >= _FILES_MOST:
            yield item._replace(made=_TOO_DEEP)
            return
        try:
            text = _read_regular(path)
        except Unread:
            yield item._replace(made=_UNREAD)
            return
        yield item._replace(made=_READ)
        yield from self.put(path, text)

    def _folder(self, item: Item, folder: bytes) -> Iterator[Item]:
        try:
            names = _names_in(folder)
        except Unread:
            yield item._replace(made=_UNREAD)
            return
        for name in names:
            yield from self._file(item, folder + name)
        if len(names) > 1:
            yield item._replace(made=_SEVERAL)
