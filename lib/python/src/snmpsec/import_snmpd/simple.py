"""`rouser` and its like, and the lines that snmpd makes of them."""
from __future__ import annotations

import re
from typing import Iterator, NamedTuple, Optional, Tuple

from .lines import UNDEFINED, Fault, refused
from .rows import take_types
from .words import VIEW_WORDS, Types, contexts_of, go_on, take_or, take_word

USER, GROUP, COMMUNITY = "user", "group", "community"
_READ = Types(frozenset((b"read",)), False)
_READ_WRITE = Types(frozenset((b"read", b"write")), False)
_NAME_MOST = 255
_WORD_MOST = 2559
_GROUP_OCTETS = 28  # of a user's name that are in the name of its group

# What lines of a directive are for, and the types of views that it gives, where its lines don't name them.
SIMPLE = {
    b"rouser": (USER, _READ),
    b"rwuser": (USER, _READ_WRITE),
    b"authuser": (USER, None),
    b"authgroup": (GROUP, None),
    b"rocommunity": (COMMUNITY, _READ),
    b"rocommunity6": (COMMUNITY, _READ),
    b"rwcommunity": (COMMUNITY, _READ_WRITE),
    b"rwcommunity6": (COMMUNITY, _READ_WRITE),
    b"authcommunity": (COMMUNITY, None),
}
MadeLine = Tuple[bytes, bytes]  # a directive, and what follows it


class Simple(NamedTuple):
    """What a simple line says."""

    kind: str
    types: Types
    name: bytes
    model: bytes
    level: bytes
    oid: Optional[bytes]  # a view of the line's own, all below this
    view: bytes  # or else the view of this name
    context: bytes
    is_prefix: bool


def _take_model(text: bytes, option: bytes, other: bytes) -> Tuple[bytes, bytes, Optional[bytes]]:
    """The model after an option or else the other one, the name, and what follows."""
    word, rest = take_word(text, _NAME_MOST)
    if word != option:
        return other, word, rest
    if rest is not None:
        model, rest = take_word(rest, _WORD_MOST)
    if rest is None:
        raise refused("missing a word")
    return (model, *take_word(rest, _NAME_MOST))


def _take_named(kind: str, text: bytes) -> Tuple[bytes, bytes, bytes, Optional[bytes]]:
    """The name, the words for the model and the level, and what follows. A community's source is passed over."""
    if kind == COMMUNITY:
        model, name, rest = _take_model(text, b"-v", b"any")
        _, rest = take_or(rest, _WORD_MOST, b"default")
        return name, {b"1": b"v1", b"2c": b"v2c"}.get(model.lower(), model), b"noauth", rest
    model, name, rest = _take_model(text, b"-s", b"usm")
    level, rest = take_or(rest, _WORD_MOST, b"auth")
    return name, model, level, rest


def _take_view(text: Optional[bytes]) -> Tuple[Optional[bytes], bytes, Optional[bytes]]:
    """The identifier of the line's own view, or else the name of a view, and what follows."""
    if text is None:
        return None, b"_all_", None
    if not text.startswith(b"-V "):
        oid, rest = take_word(text, _WORD_MOST)
        return oid, b"", rest
    after = go_on(text[3:])
    if after is None:
        raise Fault(UNDEFINED, "a word is missing")
    view, rest = take_word(after, _WORD_MOST)
    return None, view, rest


def simple_line(kind: str, given: Optional[Types], text: bytes) -> Simple:
    """What a simple line says, given what follows its directive, and the types of views where the directive gives them.
    """
    types, rest = (given, text) if given is not None else take_types(text)
    name, model, level, after = _take_named(kind, rest)
    oid, view, after = _take_view(after)
    context, is_prefix = (b"", True) if after is None else contexts_of(take_word(after, _WORD_MOST)[0])
    return Simple(kind, types, name, model, level, oid, view, context, is_prefix)


def _groups(simple: Simple, number: int, group: bytes) -> Iterator[MadeLine]:
    if simple.kind == USER:
        yield b"group", b'%b %b "%b"' % (group, simple.model, simple.name)
    elif simple.kind == COMMUNITY:
        model = simple.model.lower()
        for version in (model,) if model in (b"v1", b"v2c") else (b"v1", b"v2c"):
            yield b"group", b"%b %b comm%d" % (group, version, number)


def _rights(simple: Simple, group: bytes, view: bytes) -> Iterator[MadeLine]:
    types = simple.types.words
    match = b"prefix" if simple.is_prefix else b"exact"
    row = b" ".join((group, simple.context or b'""', simple.model, simple.level, match))
    if b"read" in types and types <= _READ_WRITE.words:
        other = view if b"write" in types else b"none"
        yield b"access", b" ".join((row, view, other, other))
        return
    for word in VIEW_WORDS:
        if word in types:
            yield b"setaccess", b" ".join((row, word, view))


def lines_of(simple: Simple, number: int) -> Iterator[MadeLine]:
    """The lines that snmpd makes of the simple line of this number, from 1: of its view, its group, and what it gives.
    """
    group, own = simple.name, b"viewUSM%d" % number
    if simple.kind == USER:
        group = b"grp" + re.sub(rb"[^0-9A-Za-z]", b"_", simple.name[:_GROUP_OCTETS])
    elif simple.kind == COMMUNITY:
        group, own = b"grpcomm%d" % number, b"viewComm%d" % number
    if simple.oid is not None:
        yield b"view", b"%b included %b" % (own, simple.oid)
    yield from _groups(simple, number, group)
    yield from _rights(simple, group, simple.view if simple.oid is None else own)
