"""The configuration's text: tables of TOML, a comment with its place before each."""
from __future__ import annotations

import re
from typing import Iterator, List, Tuple

from .choices import LEVEL_NAMES
from .items import Place
from .tables import HeldAccess, HeldFamily, HeldGroup, HeldUser, Kept

_CONTROL = re.compile(rb"[\0-\x1f\x7f]")
_ODD = re.compile(r'["\\]|[^ -~]')
_MOST_SHORT = 0xFFFF  # of the characters that have four digits
Keys = List[Tuple[str, str]]


def _escaped(found: re.Match[str]) -> str:
    character = found[0]
    if character in '"\\':
        return "\\" + character
    number = ord(character)
    return f"\\u{number:04X}" if number <= _MOST_SHORT else f"\\U{number:08X}"


def quoted(octets: bytes) -> str:
    """A text between quotes, as a basic string of TOML in ASCII."""
    return '"' + _ODD.sub(_escaped, octets.decode()) + '"'


def place_text(names: List[bytes], place: Place) -> bytes:
    """The name of the file and the number of the line, a question mark for each control character."""
    if place is None:
        return b"built in"
    return _CONTROL.sub(b"?", names[place[0]]) + b":%d" % place[1]


def _named(**names: bytes) -> Keys:
    return [(key.replace("_", "-"), quoted(name)) for key, name in names.items()]


def _user(held: HeldUser) -> Keys:
    user, keys = held.user, _named(name=held.user.name)
    if user.hash is not None and user.auth is not None:
        keys += _named(auth=user.hash.encode(), auth_password=user.auth)
    if user.cipher == "aes128" and user.priv is not None:
        keys += _named(priv_password=user.priv)
    return keys


def _group(held: HeldGroup) -> Keys:
    return [("model", str(held.row.model)), *_named(name=held.row.name, group=held.row.group)]


def _access(held: HeldAccess, has_none: bool) -> Keys:
    row = held.row
    keys = _named(group=row.group, prefix=row.prefix)
    keys.append(("model", str(row.model)))
    keys += _named(level=LEVEL_NAMES[row.level].encode(), match=b"prefix" if row.is_prefix else b"exact")
    views = {"read": row.read, "write": row.write, "notify": row.notify}
    return keys + _named(**{key: view for key, view in views.items() if view and (has_none or view != b"none")})


def _family(held: HeldFamily) -> Keys:
    row = held.row
    keys = _named(view=row.view, subtree=".".join(map(str, row.subtree)).encode())
    keys.append(("include", "true" if row.is_included else "false"))
    return keys + ([("mask", f'"{row.mask.hex()}"')] if row.mask else [])


def _left_out(names: List[bytes], kept: Kept) -> bytes:
    """A comment on each user that isn't one of the configuration."""
    return b"".join(
        b"# %b: user %b is left out: %b\n" % (place_text(names, it.place), quoted(it.name).encode(), it.why.encode())
        for it in kept.left_out
    )


def _blocks(names: List[bytes], kept: Kept) -> Iterator[Tuple[bytes, str, Keys]]:
    """The comment, the table and the keys of each row. `none` isn't a view where no view has that name."""
    has_none = any(held.row.view == b"none" for held in kept.families)
    for user in kept.users:
        yield place_text(names, user.place), "user", _user(user)
    for context in kept.contexts:
        yield b"context", "context", _named(name=context)
    for group in kept.groups:
        yield place_text(names, group.place), "group", _group(group)
    for access in kept.access:
        yield place_text(names, access.place), "access", _access(access, has_none)
    for family in kept.families:
        yield place_text(names, family.place), "family", _family(family)


def configuration(names: List[bytes], kept: Kept) -> bytes:
    """The text of a configuration, given the names of the files that its rows are from."""
    blocks = [
        b"# %b\n" % comment + f"[[{table}]]\n".encode() + "".join(f"{key} = {value}\n" for key, value in keys).encode()
        for comment, table, keys in _blocks(names, kept)
    ]
    left_out = _left_out(names, kept)
    return b"\n".join([left_out] * bool(left_out) + blocks)
