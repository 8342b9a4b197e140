"""What a line of snmpd.conf is: nothing, the beginning of a section, or a directive with the text after it."""
from __future__ import annotations

from typing import NamedTuple, Optional, Union

from .words import go_on, take_word

SNMPD, SNMP = b"snmpd", b"snmp"
REFUSED, UNDEFINED, LEFT_OUT, IGNORED, DIFFERS, ORDER, OTHER = (
    "refused by snmpd",
    "undefined",
    "left out",
    "ignored",
    "differs",
    "order",
    "other",
)
_DIRECTIVE_MOST = 1023  # octets of a directive that snmpd has room for


class Note(NamedTuple):
    """Of what kind a note on a line is, and its reason, where the kind doesn't say it."""

    kind: str
    why: str
    user: Optional[bytes] = None  # whom the line would make


class Begins(NamedTuple):
    """A section begins: its name is alone in brackets."""

    section: bytes


class Directive(NamedTuple):
    """A directive, in the section in force or the one in brackets before it."""

    section: bytes
    word: bytes
    text: Optional[bytes]


class Fault(Exception):
    """Why a line makes no row."""

    def __init__(self, kind: str, why: str, user: Optional[bytes] = None) -> None:
        super().__init__(why)
        self.note = Note(kind, why, user)


def refused(why: str) -> Fault:
    return Fault(REFUSED, why)


Line = Union[None, Note, Begins, Directive]
_UNCLOSED = Note(REFUSED, "section without a closing bracket")
_NO_SECTION = Note(REFUSED, "no such section")


def _section_line(name: bytes, rest: Optional[bytes]) -> Line:
    if name not in (SNMPD, SNMP):
        return _NO_SECTION
    if rest is None:
        return Begins(name)
    return Directive(name, *take_word(rest, _DIRECTIVE_MOST))


def read_line(text: bytes, section: bytes) -> Line:
    """What a line is, without its line feed, where this section is in force. What follows an octet 0 isn't read."""
    rest = go_on(text.partition(b"\0")[0])
    if rest is None:
        return None
    word, after = take_word(rest, _DIRECTIVE_MOST)
    if not word.startswith(b"["):
        return Directive(section, word, after)
    if len(word) < 2 or not word.endswith(b"]"):
        return _UNCLOSED
    return _section_line(word[1:-1], after)
