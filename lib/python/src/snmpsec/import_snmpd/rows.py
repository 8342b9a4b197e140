"""The rows of lines `group`, `access`, `setaccess`, `authaccess` and `view`."""
from __future__ import annotations

import re
from typing import List, NamedTuple, Optional, Tuple

from .lines import IGNORED, LEFT_OUT, UNDEFINED, Fault, refused
from .words import (
    ANY,
    AUTH_NO_PRIV,
    NO_AUTH_NO_PRIV,
    VIEW_WORDS,
    Types,
    contexts_of,
    is_prefix_word,
    level_of,
    model_of,
    take_tokens,
    take_word,
    types_of,
)

NAME_MOST = 32  # octets of a name (RFC 3415, section 4)
_VIEW_ROOM = 33  # octets of a view's name that snmpd has room for; no view has such a name
_TYPES_MOST = 1023
_ARCS_MOST = 128
_MASK_ROOM = 34  # octets of a mask that snmpd has room for
_NUMBER = re.compile(rb"0[xX](?P<hex>[0-9A-Fa-f]+)|0(?P<octal>[0-7]+)|(?P<decimal>0|[1-9][0-9]*)")
_BASES = {"hex": 16, "octal": 8, "decimal": 10}
_DIGITS_MOST = 11  # of a number below 4,294,967,296, in octal
_MASK_OCTET = re.compile(rb"[\t-\r ]*(?P<sign>[-+]?)(?:0[xX](?=[0-9A-Fa-f]))?(?P<digits>[0-9A-Fa-f]+)")
_LONG_OCTET = re.compile(rb"[0-9A-Fa-f]{3}")


class GroupRow(NamedTuple):
    """A row of vacmSecurityToGroupTable."""

    model: int
    name: bytes
    group: bytes


class AccessRow(NamedTuple):
    """A row of vacmAccessTable."""

    group: bytes
    prefix: bytes
    model: int
    level: int
    is_prefix: bool
    read: bytes
    write: bytes
    notify: bytes

    @property
    def views(self) -> Tuple[bytes, bytes, bytes]:
        return self.read, self.write, self.notify


class FamilyRow(NamedTuple):
    """A row of vacmViewTreeFamilyTable. In the mask of its line three hex digits may follow one another."""

    view: bytes
    subtree: Tuple[int, ...]
    mask: bytes
    is_included: bool
    has_long_octet: bool = False


class Setting(NamedTuple):
    """Views that a line sets, and the messages for which it does."""

    group: bytes
    context: bytes
    model: int
    level: int
    is_prefix: bool
    types: Types
    view: bytes


class _Conditions(NamedTuple):
    group: bytes
    context: bytes
    model: int
    level: int
    is_prefix: bool


def group_row(text: bytes) -> GroupRow:
    """The row of a line `group GROUP MODEL NAME`, given what follows the directive."""
    words: List[bytes] = []
    rest: Optional[bytes] = text
    for _ in range(3):
        if rest is None:
            raise Fault(UNDEFINED, "a word is missing")
        word, rest = take_word(rest, NAME_MOST)
        words.append(word)
    if not all(words):
        raise refused("missing a word")
    group, model, name = words
    return GroupRow(_model(model), name, group)


def _model(word: bytes) -> int:
    model = model_of(word)
    if model is None:
        raise refused("bad security model")
    return model


def _level(word: bytes) -> int:
    level = level_of(word)
    if level is None:
        raise refused("bad security level")
    return level


def _conditions(text: bytes) -> Tuple[_Conditions, bytes]:
    """The conditions that a line begins with, and what follows them."""
    tokens, rest = take_tokens(text, 5)
    if len(tokens) < 5:
        raise refused("missing a word")
    group, context, model, level, match = tokens
    number, at_least, is_prefix = _model(model), _level(level), is_prefix_word(match)
    if is_prefix is None:
        raise refused("bad prefix match parameter")
    name = b"" if context in (b'""', b"''") else context
    return _Conditions(group, name, number, at_least, is_prefix), rest


def _view_name(token: bytes) -> bytes:
    if len(token) > _VIEW_ROOM:
        raise refused("view name too long")
    return token if len(token) <= NAME_MOST else b""


def _check_index(*names: bytes) -> None:
    if any(len(name) > NAME_MOST for name in names):
        raise refused("failed to create the entry")


def access_row(text: bytes) -> AccessRow:
    """The row of a line `access GROUP CONTEXT MODEL LEVEL MATCH READ WRITE NOTIFY`."""
    conditions, rest = _conditions(text)
    tokens, _ = take_tokens(rest, 3)
    if len(tokens) < 3:
        raise refused("missing a view")
    read, write, notify = map(_view_name, tokens)
    _check_index(conditions.group, conditions.context)
    return AccessRow(*conditions, read, write, notify)


def set_access(text: bytes) -> Setting:
    """What a line `setaccess GROUP CONTEXT MODEL LEVEL MATCH TYPE VIEW` sets."""
    conditions, rest = _conditions(text)
    tokens, _ = take_tokens(rest, 2)
    if len(tokens) < 2:
        raise refused("missing a view")
    view = _view_name(tokens[1])
    if tokens[0] not in VIEW_WORDS:
        raise refused("illegal view name")
    _check_index(conditions.group, conditions.context)
    return Setting(*conditions, Types(frozenset(tokens[:1]), False), view)


def take_types(text: bytes) -> Tuple[Types, bytes]:
    """The types of views that a line names, and what follows them."""
    word, rest = take_word(text, _TYPES_MOST)
    if rest is None:
        raise refused("missing a word")
    return types_of(word), rest


def _group_and_view(text: bytes) -> Tuple[bytes, int, bytes, bytes]:
    """The group, the model after `-s` or else any, the view, and what follows."""
    tokens, rest = take_tokens(text, 2)
    if len(tokens) < 2:
        raise refused("missing a word")
    group, second = tokens
    if second.lower() != b"-s":
        return group, ANY, second, rest
    words, rest = take_tokens(rest, 1)
    if not words:
        raise refused("missing a word")
    model = _model(words[0])
    views, rest = take_tokens(rest, 1)
    if not views:
        raise refused("missing a view")
    return group, model, views[0], rest


def auth_access(text: bytes) -> Setting:
    """What a line `authaccess TYPES GROUP [-s MODEL] VIEW [LEVEL [CONTEXT]]` sets."""
    types, rest = take_types(text)
    group, model, token, rest = _group_and_view(rest)
    view = _view_name(token)
    tokens, _ = take_tokens(rest, 2)
    level = NO_AUTH_NO_PRIV if model in (1, 2) else AUTH_NO_PRIV
    if tokens:
        level = _level(tokens[0])
    context, is_prefix = contexts_of(tokens[1] if len(tokens) > 1 else b"")
    _check_index(group, context)
    return Setting(group, context, model, level, is_prefix, types, view)


def _arc_of(text: bytes) -> Optional[int]:
    """The number that a text writes, octal after a 0, and hex after 0x; 2^32 for one that is too large for an arc."""
    found = _NUMBER.fullmatch(text)
    if found is None:
        return None
    base = str(found.lastgroup)
    digits = found[base].lstrip(b"0")
    if len(digits) > _DIGITS_MOST:
        return 1 << 32
    return min(int(digits or b"0", _BASES[base]), 1 << 32)


def _subtree_of(text: bytes) -> Tuple[int, ...]:
    """The arcs that a text writes. One of 2^32 is no arc: no variable is below it."""
    parts = text[1 if text.startswith(b".") else 0:].split(b".", _ARCS_MOST)
    arcs = [_arc_of(part) for part in parts]
    if len(parts) > _ARCS_MOST or None in arcs:
        raise Fault(LEFT_OUT, "the subtree isn't in numbers")
    return tuple(arc for arc in arcs if arc is not None)


def _mask_octet(token: bytes) -> int:
    found = _MASK_OCTET.match(token)
    if found is None:
        raise refused("invalid MASK")
    octet = int(found["digits"][-2:], 16)
    return -octet % 256 if found["sign"] == b"-" else octet


def _mask_octets(text: bytes) -> bytes:
    """The octets that a text writes, cut at spaces, dots and colons: of each token the hex digits that it begins with."""
    tokens = [it for it in re.split(rb"[ .:]+", text.lstrip(b" .:"), maxsplit=_MASK_ROOM + 1) if it]
    octets = bytes(_mask_octet(token) for token in tokens[:_MASK_ROOM])
    if len(tokens) > _MASK_ROOM:
        raise refused("MASK too long")
    return octets


def family_row(text: bytes) -> FamilyRow:
    """What a line `view VIEW included|excluded SUBTREE [MASK]` makes."""
    tokens, mask = take_tokens(text, 3)
    if len(tokens) < 3:
        raise refused("missing a word")
    view, kind, subtree = tokens
    if kind not in (b"included", b"excluded"):
        raise refused("TYPE must be included/excluded?")
    arcs = _subtree_of(subtree[:-1] if subtree.endswith(b".") else subtree)
    octets = _mask_octets(mask)
    _check_index(view)
    if max(arcs) >= 1 << 32:
        raise Fault(IGNORED, "no variable is below the subtree")
    held = octets[: (len(arcs) + 7) // 8]
    return FamilyRow(view, arcs, held, kind == b"included", _LONG_OCTET.search(mask) is not None)
