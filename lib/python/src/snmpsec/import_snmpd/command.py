"""The command line of `import-snmpd`.

A line of words that isn't one goes to the program that has the other commands: its parser says what is wrong with it,
and has the help. SNMPSEC_ASKED is the path of that program, which `snmpsec` hands over.
"""
from __future__ import annotations

import errno
import os
from typing import List, NamedTuple, Optional, Tuple

from .choices import NoAnswer, differences
from .included import Sources, Unread, read_named
from .items import Item, is_known, meant
from .notes import Notes, Told, line_notes
from .printed import configuration
from .rows import NAME_MOST
from .tables import Tables, kept_of
from .words import is_text

_NAME = b"import-snmpd"
_NONE_KNOWN = b"no line is known as one of snmpd.conf on users or access, so there is no configuration"


class Words(NamedTuple):
    """What a command line asks for."""

    files: List[bytes]
    contexts: List[bytes]
    options: List[bytes]


class Printed(NamedTuple):
    out: bytes
    err: bytes
    status: int


class Complaint(Exception):
    """Lines for standard error. The status is 2."""

    def __init__(self, *lines: bytes) -> None:
        super().__init__()
        self.text = b"".join(b"snmpsec: %b\n" % line for line in lines)


def words_of(given: List[bytes]) -> Optional[Words]:
    """The words of a command line, in which `--why` may stand before the command. None: it isn't one, or asks for help.
    """
    words, rest = Words([], [], []), iter(given)
    command = next(rest, b"")
    if (next(rest, b"") if command == b"--why" else command) != _NAME:
        return None
    for word in rest:
        if word == b"--":
            words.files.extend(rest)
        elif word.startswith(b"--context="):
            words.contexts.append(word[len(b"--context="):])
        elif word == b"--context":
            words.contexts.append(next(rest, b"--"))
            if words.contexts[-1].startswith(b"-") and words.contexts[-1] != b"-":
                return None
        elif word in (b"--strict", b"--no-include", b"--why") and word not in words.options:
            words.options.append(word)
        elif word.startswith(b"-") and word != b"-":
            return None
        else:
            words.files.append(word)
    is_wrong = not words.files or words.files.count(b"-") > 1 or not all(map(is_text, given))
    return None if is_wrong else words


def _contexts(names: List[bytes]) -> List[bytes]:
    """The contexts of these names, each once, after the one without a name."""
    if any(len(name) > NAME_MOST for name in names):
        raise Complaint(b"bad word NAME")
    return list(dict.fromkeys([b"", *names]))


def _sources(words: Words) -> Sources:
    """The files in their order, and those that they name. The first file that isn't read ends it."""
    sources = Sources()
    for name in words.files:
        try:
            text = read_named(name)
        except Unread as fault:
            raise Complaint(b"cannot read " + name, b"%b: %b" % (name, str(fault).encode())) from None
        sources.items += sources.put(name, text)
    sources.follow(b"--no-include" not in words.options)
    return sources


def _asked() -> str:
    return os.environ.get("SNMPSEC_ASKED") or os.environ.get("SNMPSEC_PROGRAM") or "snmpsec"


def _ask(config: bytes, variable: str) -> bytes:
    """Who may read the variable by a configuration, which has no name and no secret of the files."""
    import subprocess

    words = [_asked(), "who-sees", "-", variable, "read"]
    try:
        done = subprocess.run(words, input=config, stdout=subprocess.PIPE, check=False)
    except OSError as fault:
        raise _unrun(words[0], fault) from None
    if done.returncode not in (0, 1):
        raise NoAnswer
    return done.stdout


def _saved_users(notes: List[Told]) -> bytes:
    """The line that says first how many lines `usmUser` there are."""
    count = sum(told.word == b"usmUser" for told in notes)
    have = b"line has" if count == 1 else b"lines have"
    text = b"snmpsec: %d usmUser %b localised keys, which can't be taken over: give such users by createUser\n"
    return text % (count, have) if count else b""


def _all_notes(names: List[bytes], items: List[Item], contexts: List[bytes]) -> Tuple[bytes, List[Told]]:
    """The configuration, and the notes on lines, on the rows that snmpd holds, and on those that count."""
    tables = Tables(items)
    kept, notes = kept_of(items, tables, contexts), Notes(names)
    told: List[Told] = [*line_notes(items), *notes.changes(tables), *notes.users(items)]
    told += [*notes.groups(tables, kept), *notes.access(tables, kept), *notes.families(tables, kept)]
    told += notes.sharers(items)
    told += notes.differences(differences(tables, kept, _ask))
    return configuration(names, kept), told


def _import(words: Words) -> Printed:
    contexts = _contexts(words.contexts)
    sources = _sources(words)
    directives = {item.word for item in sources.items if item.word}
    if directives and not any(map(is_known, directives)):
        return Printed(b"", b"snmpsec: %b\n" % _NONE_KNOWN, 1)
    out, told = _all_notes(sources.names, list(meant(sources.items)), contexts)
    err = _saved_users(told) + b"".join(map(Notes(sources.names).line, told))
    is_told = b"--strict" in words.options and any(it.is_serious for it in told)
    return Printed(out, err, 1 if is_told else 0)


def _write(descriptor: int, text: bytes) -> None:
    rest = memoryview(text)
    while rest:
        rest = rest[os.write(descriptor, rest):]


def _print(printed: Printed) -> int:
    """Writes what is printed. A write that fails gives status 2. Where nobody reads any more nothing is said of it."""
    try:
        _write(1, printed.out)
    except OSError as fault:
        return 2 if fault.errno == errno.EPIPE else _print(Printed(b"", b"snmpsec: cannot write\n", 2))
    try:
        _write(2, printed.err)
    except OSError:
        return 2
    return printed.status


def _unrun(program: str, fault: OSError) -> Complaint:
    return Complaint(b"%b can't be run: %b" % (os.fsencode(program), str(fault.strerror).encode()))


def _answer(given: List[bytes]) -> Printed:
    """What is printed for a command line. One that is wrong goes to the program that has the parser."""
    words = words_of(given)
    if words is not None:
        return _import(words)
    program = os.environ["SNMPSEC_ASKED"] = _asked()
    try:
        os.execvp(program, [b"snmpsec", *given])
    except OSError as fault:
        raise _unrun(program, fault) from None


def run(given: List[bytes]) -> int:
    """Runs the command line, with the name of the command, and returns the status."""
    try:
        printed = _answer(given)
    except Complaint as complaint:
        printed = Printed(b"", complaint.text, 2)
    except NoAnswer:
        told = Complaint(os.fsencode(_asked()) + b" didn't say which access rows RFC 3415 chooses")
        printed = Printed(b"", told.text, 2)
    except MemoryError:
        printed = Printed(b"", b"snmpsec: out of memory\n", 2)
    except Exception as fault:  # no traceback: it would show what the files have
        printed = Printed(b"", b"snmpsec: import-snmpd has a fault: %b\n" % type(fault).__name__.encode(), 2)
    return _print(printed)
