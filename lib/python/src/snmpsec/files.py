"""Files of a station, its engine's boots and saved clocks, by the rules of lib/examples/files.c. Not proved.

Whoever changes such a file locks PATH.lock, reads the file, and puts a new one in its place. So no boots and no pair
of an engine go back, whatever runs at the same time or is killed. What isn't as it should be is an OSError or a
ValueError that names the file.
"""
from __future__ import annotations

import contextlib
import fcntl
import os
import re
import secrets
import stat
import time
from typing import Iterator, Union

from . import NO_CLOCKS, BadClocks, Manager

__all__ = ["BOOTS_LATCHED", "LOCK_SECONDS", "Path", "clocks_at", "engine_boots", "read_clocks", "save_clocks"]

Path = Union[str, "os.PathLike[str]"]
BOOTS_LATCHED = 2147483647
LOCK_SECONDS = 5.0
_PAUSE = 0.01  # seconds from one try of a lock to the next
_MOST_BOOTS, _MOST_CLOCKS = 64, 16 << 20  # octets
_LEFT_OVER = re.compile(r"[0-9A-Za-z]{6}")


def _read(path: Path, most: int, is_own: bool = True) -> bytes:
    """The octets of a regular file, at most so many; of this user's or root's, if it is the own one. A FIFO isn't
    waited for."""
    handle = os.open(path, os.O_RDONLY | os.O_CLOEXEC | os.O_NONBLOCK | os.O_NOCTTY)
    try:
        status = os.fstat(handle)
        if not stat.S_ISREG(status.st_mode):
            raise OSError(f"{path}: not a regular file")
        if is_own and status.st_uid not in (0, os.geteuid()):
            raise OSError(f"{path}: the file is another user's")
        with open(handle, "rb", closefd=False) as file:
            octets = file.read(most + 1)
    finally:
        os.close(handle)
    if len(octets) > most:
        raise OSError(f"{path}: too long")
    return octets


def _check_folder(handle: int, name: str) -> None:
    """Others can't put files into the folder, rename them or remove them."""
    status = os.fstat(handle)
    if status.st_uid not in (0, os.geteuid()):
        raise OSError(f"{name}: the folder is another user's: name a file in a folder of your own")
    if status.st_mode & (stat.S_IWGRP | stat.S_IWOTH):
        raise OSError(f"{name}: other users may write to the folder: chmod go-w it, or name a file in a folder that "
                      "only you may write to")


def _wait_for(lock: int, path: Path) -> None:
    until = time.monotonic() + LOCK_SECONDS
    while True:
        try:
            fcntl.flock(lock, fcntl.LOCK_EX | fcntl.LOCK_NB)
            return
        except BlockingIOError:
            if time.monotonic() >= until:
                raise BlockingIOError(f"{path}: another process uses it") from None
        time.sleep(_PAUSE)


def _remove_left_over(folder: int, base: str) -> None:
    """What a process that was killed left of the file's replacement."""
    for name in os.listdir(folder):
        if name.startswith(f"{base}.new.") and _LEFT_OVER.fullmatch(name, len(base) + len(".new.")):
            with contextlib.suppress(OSError):
                os.unlink(name, dir_fd=folder)


@contextlib.contextmanager
def _locked(path: Path) -> Iterator[int]:
    """Holds PATH.lock, which stays, and gives the folder. BlockingIOError: another process has it for 5 seconds."""
    name, base = os.path.split(os.fspath(path))
    with contextlib.ExitStack() as held:
        folder = os.open(name or ".", os.O_RDONLY | os.O_DIRECTORY | os.O_CLOEXEC)
        held.callback(os.close, folder)
        _check_folder(folder, name or ".")
        flags = os.O_RDWR | os.O_CREAT | os.O_NOFOLLOW | os.O_NONBLOCK | os.O_CLOEXEC
        lock = os.open(f"{os.fspath(path)}.lock", flags, 0o600)
        held.callback(os.close, lock)
        with contextlib.suppress(PermissionError):  # (an older one may be open to all, who could hold it)
            os.fchmod(lock, 0o600)
        _wait_for(lock, path)
        _remove_left_over(folder, base)
        yield folder


def _replace(path: Path, octets: bytes, folder: int) -> None:
    """Puts a file with these octets instead of PATH: whoever reads it finds the old octets or the new ones, also
    after a crash."""
    name = f"{os.fspath(path)}.new.{secrets.token_hex(3)}"
    with open(os.open(name, os.O_WRONLY | os.O_CREAT | os.O_EXCL | os.O_CLOEXEC, 0o600), "wb") as file:
        try:
            file.write(octets)
            file.flush()
            os.fsync(file.fileno())
            os.replace(name, path)
        except BaseException:
            with contextlib.suppress(OSError):
                os.unlink(name)
            raise
    os.fsync(folder)


def _boots_before(path: Path) -> int:
    text = _read(path, _MOST_BOOTS) if os.path.lexists(path) else b"0\n"
    digits = text[:-1]
    if not (text.endswith(b"\n") and 1 <= len(digits) <= 10 and digits.isdigit() and int(digits) <= BOOTS_LATCHED):
        raise ValueError(f"{path}: no number from 0 to {BOOTS_LATCHED}. If the greatest boots that the engine had are known, write them there; else "
                         "give the engine another ID, or all its users other passwords, and remove the file")
    return int(digits)


@contextlib.contextmanager
def engine_boots(path: Path) -> Iterator[int]:
    """Counts the boots of an engine up by one in its file, and holds the file's lock (RFC 3414, section 2.2).
    BlockingIOError: another process has it for 5 seconds. A file that isn't there counts as 0. At 2147483647 the boots
    stay as they are."""
    with _locked(path) as folder:
        boots = min(_boots_before(path) + 1, BOOTS_LATCHED)
        _replace(path, b"%d\n" % boots, folder)
        yield boots


def read_clocks(path: Path) -> bytes:
    """The saved text of a file of another station, at most 16 MiB."""
    return _read(path, _MOST_CLOCKS, is_own=False)


def _own_clocks(path: Path) -> bytes:
    text = _read(path, _MOST_CLOCKS) if os.path.lexists(path) else NO_CLOCKS
    try:
        Manager(b"", text).close()
    except BadClocks as fault:
        raise BadClocks(f"{path}: {fault}") from None
    return text


def clocks_at(path: Path) -> bytes:
    """The saved text that a station begins with: that of its file, or of no clocks if there is no file. What would
    keep it from saving is an error."""
    with _locked(path):
        return _own_clocks(path)


def save_clocks(path: Path, saved: bytes) -> None:
    """Joins a saved text into a station's file, which has then of each engine the greater pair of both. BadClocks: the
    file has other text, and stays."""
    with _locked(path) as folder, Manager(b"", saved, int(time.time())) as joined:
        joined.absorb(_own_clocks(path), int(time.time()))
        octets = joined.saved()
        if len(octets) > _MOST_CLOCKS:
            raise OSError(f"{path}: too many clocks for {_MOST_CLOCKS} octets")
        _replace(path, octets, folder)
