"""What each line of a file makes, with its place and the word that it begins with."""
from __future__ import annotations

from typing import Callable, Dict, Iterator, List, NamedTuple, Optional, Tuple, Union

from .lines import LEFT_OUT, OTHER, REFUSED, SNMP, SNMPD, Begins, Directive, Fault, Note, read_line
from .rows import AccessRow, FamilyRow, GroupRow, Setting, access_row, auth_access, family_row, group_row, set_access
from .simple import SIMPLE, Simple, lines_of, simple_line
from .users import Created, user_of
from .words import BLANKS, is_text

Place = Optional[Tuple[int, int]]  # the number of a file, from 0, and of a line, from 1; None: snmpd has it built in
Row = Union[GroupRow, AccessRow, FamilyRow, Setting]


class Include(NamedTuple):
    """A line asks for a file, or for those of a folder."""

    name: bytes
    is_folder: bool


Made = Union[Row, Created, Simple, Include, Note]


class Item(NamedTuple):
    """A line that makes something, and the directive's word, which may be empty."""

    place: Place
    word: bytes
    made: Made


_READERS: Dict[bytes, Callable[[bytes], Union[Row, Created]]] = {
    b"group": group_row,
    b"access": access_row,
    b"view": family_row,
    b"setaccess": set_access,
    b"authaccess": auth_access,
    b"createuser": user_of,
}
_MAPPINGS = (b"com2sec", b"com2sec6", b"com2secunix")
_SAVED = (b"usmuser", b"vacmview", b"vacmgroup", b"vacmaccess", b"vacmauthaccess")
_INCLUDES = (b"include", b"includesearch", b"includefile", b"includedir")

_BARE = Note(REFUSED, "nothing after it")
_ELSE = Note(OTHER, "")
_NOT_TEXT = Note(LEFT_OUT, "a name isn't UTF-8")
_MAPPING = Note(LEFT_OUT, "a community's name here is that of a group row of model 1 or 2")
_SAVED_ROW = Note(LEFT_OUT, "a row that snmpd itself has saved")
_UNCLEAR = Note(REFUSED, "includeFile, includeDir or includeSearch, and a name, are wanted")
_SEARCH = Note(LEFT_OUT, "name the file on the command line")


def _names_files(word: bytes) -> bool:
    """Whether the word names other files: in either case, but for its first letter."""
    return word.startswith(b"i") and word.lower() in _INCLUDES


def is_known(word: bytes) -> bool:
    """Whether the word is that of a directive on users or access, or one that names other files."""
    low = word.lower()
    return low in _READERS or low in SIMPLE or low in _MAPPINGS or low in _SAVED or _names_files(word)


def _include(word: bytes, name: Optional[bytes]) -> Union[Include, Note]:
    kind = word.lower()
    if name is None or kind == b"include":
        return _UNCLEAR
    return _SEARCH if kind == b"includesearch" else Include(name, kind == b"includedir")


def _texts(made: Made) -> Iterator[bytes]:
    """The names of a row, which have to be UTF-8."""
    if isinstance(made, GroupRow):
        yield from (made.group, made.name)
    elif isinstance(made, AccessRow):
        yield from (made.group, made.prefix, *made.views)
    elif isinstance(made, FamilyRow):
        yield made.view
    elif isinstance(made, Setting):
        yield from (made.group, made.context, made.view)
    elif isinstance(made, Created):
        yield from (it for it in (made.name, made.auth, made.priv) if it is not None)


def _made(directive: bytes, text: bytes) -> Made:
    """What a line of this directive, in small letters, makes, given what follows it without the blanks at its end."""
    if directive in _MAPPINGS:
        return _MAPPING
    if directive in _SAVED:
        return _SAVED_ROW
    made: Made
    try:
        if directive in SIMPLE:
            made = simple_line(*SIMPLE[directive], text)
        elif directive in _READERS:
            made = _READERS[directive](text)
        else:
            return _ELSE
    except Fault as fault:
        return fault.note
    return made if all(map(is_text, _texts(made))) else _NOT_TEXT


def _directive(line: Directive) -> Made:
    if _names_files(line.word):
        return _include(line.word, line.text)
    if line.text is None:
        return _BARE
    if line.section == SNMP:
        return _ELSE
    return _made(line.word.lower(), line.text.rstrip(BLANKS))


def read_items(file: int, text: bytes) -> Iterator[Item]:
    """What the lines of the file of this number make. The section `[snmpd]` is in force at the start."""
    section = SNMPD
    for number, octets in enumerate(text.split(b"\n"), 1):
        line = read_line(octets, section)
        if isinstance(line, Begins):
            section = line.section
        elif isinstance(line, Directive):
            yield Item((file, number), line.word, _directive(line))
        elif line is not None:
            yield Item((file, number), b"", line)


def meant(items: List[Item]) -> Iterator[Item]:
    """The items, in which those of the lines that a simple line stands for follow it."""
    count = 0
    for item in items:
        yield item
        if isinstance(item.made, Simple):
            count += 1
            for directive, text in lines_of(item.made, count):
                yield item._replace(made=_made(directive, text))
