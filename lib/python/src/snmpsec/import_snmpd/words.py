"""How lines of snmpd.conf are cut: into words, which quotes hold together, and into tokens, which they don't."""
from __future__ import annotations

import re
from typing import FrozenSet, List, NamedTuple, Optional, Tuple

BLANKS = b"\t\n\v\f\r "
NO_AUTH_NO_PRIV, AUTH_NO_PRIV, AUTH_PRIV = 1, 2, 3
ANY = 0
VIEW_WORDS = (b"read", b"write", b"notify", b"log", b"execute", b"net")

_MODELS = {b"any": ANY, b"v1": 1, b"v2c": 2}
_EXACT_MODELS = {b"usm": 3, b"tsm": 4}
_LEVELS = {
    b"noauth": NO_AUTH_NO_PRIV,
    b"noauthnopriv": NO_AUTH_NO_PRIV,
    b"auth": AUTH_NO_PRIV,
    b"authnopriv": AUTH_NO_PRIV,
    b"priv": AUTH_PRIV,
    b"authpriv": AUTH_PRIV,
}
_GAPS = b" \t\n"
_GAP = re.compile(rb"[ \t\n]")
_ESCAPED = re.compile(rb"\\(.)", re.S)
# An octet after a backslash, or what ends the word. Where the match is one octet long the word ends.
_ENDS = {
    b"": re.compile(rb"\\.|[\t-\r ]", re.S),
    b'"': re.compile(rb'\\.|"', re.S),
    b"'": re.compile(rb"\\.|'", re.S),
}


class Types(NamedTuple):
    """Types of views, and whether there is a word among them that is for none."""

    words: FrozenSet[bytes]
    is_unknown: bool


def go_on(text: bytes) -> Optional[bytes]:
    """What the text goes on with after its blanks. None: nothing, or a comment."""
    rest = text.lstrip(BLANKS)
    return None if not rest or rest.startswith(b"#") else rest


def _end(text: bytes, quote: bytes) -> int:
    """How many octets stand before the end of the word."""
    for found in _ENDS[quote].finditer(text):
        if found.end() - found.start() == 1:
            return found.start()
    return len(text)


def take_word(text: bytes, most: int) -> Tuple[bytes, Optional[bytes]]:
    """The word that the text begins with, of which at most so many octets are held, and what its line goes on with.

    It ends at the next blank, or at the same quote where it begins with one. An octet after a backslash is as it is.
    """
    quote = text[:1] if text[:1] in (b'"', b"'") else b""
    inside = text[len(quote):]
    end = _end(inside, quote)
    return _ESCAPED.sub(rb"\1", inside[:end])[:most], go_on(inside[end + len(quote):])


def take_or(text: Optional[bytes], most: int, other: bytes) -> Tuple[bytes, Optional[bytes]]:
    """The next word, or else this one."""
    return (other, None) if text is None else take_word(text, most)


def take_tokens(text: bytes, count: int) -> Tuple[List[bytes], bytes]:
    """The first tokens, which spaces, tabs and line feeds cut: so many, or all that there are; and what follows."""
    tokens: List[bytes] = []
    while len(tokens) < count:
        text = text.lstrip(_GAPS)
        if not text:
            break
        gap = _GAP.search(text)
        end = gap.start() if gap else len(text)
        tokens.append(text[:end])
        text = text[end + 1:]
    return tokens, text


def model_of(word: bytes) -> Optional[int]:
    """The security model that a word names."""
    return _MODELS.get(word.lower(), _EXACT_MODELS.get(word))


def level_of(word: bytes) -> Optional[int]:
    """The security level that a word names, in either case."""
    return _LEVELS.get(word.lower())


def is_prefix_word(word: bytes) -> Optional[bool]:
    """Whether the word says that a context is a prefix."""
    return {b"exact": False, b"0": False, b"prefix": True}.get(word)


def contexts_of(word: bytes) -> Tuple[bytes, bool]:
    """The context that a word names, and whether it is a prefix: a star ends the word then."""
    return (word[:-1], True) if word.endswith(b"*") else (word, False)


def types_of(word: bytes) -> Types:
    """The types of views that a word names, cut at commas, bars and colons."""
    parts = {part for part in re.split(rb"[,|:]", word) if part}
    return Types(frozenset(parts & set(VIEW_WORDS)), not parts <= set(VIEW_WORDS))


def is_text(octets: bytes) -> bool:
    """Whether they are UTF-8."""
    try:
        octets.decode()
    except UnicodeDecodeError:
        return False
    return True
