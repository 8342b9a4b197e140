"""What `snmpsec sees` prints of a name, and how much of an area its lines include."""
import re
import unicodedata
from typing import NamedTuple

LEVELS = ["noAuthNoPriv", "authNoPriv", "authPriv"]
VIEWS = ["read", "write", "notify"]
ANY = None  # an arc that may be any number
ANOTHER = -1  # a number that no line has at this place
LINE = re.compile(
    r'(?P<level>\w+) (?P<view>\w+) (?P<context>"(?:[^"\\]|\\.)*"|[^ ]+) (?:(?P<sign>[+-]) (?P<subtree>[0-9*.]+)|\w+)'
)


class Line(NamedTuple):
    includes: bool
    arcs: tuple


def word(name):
    """A name as the program prints it; what no eye can see, or what turns the order of writing, is written as \\uXXXX
    too."""
    quoted = name in ("", "@") or any(it in " \"'\\" or unicodedata.category(it)[0] in "CZ" for it in name)
    if not quoted:
        return name
    return '"' + "".join("\\" + it if it in '"\\' else plain(it) for it in name) + '"'


def plain(text):
    """The text with what can't be seen written as \\uXXXX, but for blanks and line feeds."""
    hidden = lambda it: it not in " \n" and unicodedata.category(it)[0] in "CZ"
    return "".join(("\\u%04X" if ord(it) < 0x10000 else "\\U%08X") % ord(it) if hidden(it) else it for it in text)


def context_word(name):
    return "@" if name == "" else word(name)


def name_of(printed):
    """The context of a word that the program prints."""
    if printed == "@":
        return ""
    if not printed.startswith('"'):
        return printed
    return re.sub(r"\\(?:u([0-9A-F]{4})|(.))", lambda it: chr(int(it[1], 16)) if it[1] else it[2], printed[1:-1])


def read(text):
    """The lines of each level, view and context, in their order. Where an answer stands in their place, there are
    none."""
    lines = {}
    for printed in text.split("\n")[:-1]:
        it = LINE.fullmatch(printed)
        if it is None:
            raise ValueError(f"no line that sees prints: {printed}")
        found = lines.setdefault((it["level"], it["view"], name_of(it["context"])), [])
        if it["sign"]:
            found.append(
                Line(it["sign"] == "+", tuple(ANY if arc == "*" else int(arc) for arc in it["subtree"].split(".")))
            )
    return lines


def extent(lines, area):
    """`all`, `part` or `nothing`: how many of the variables that begin with the arcs of the area the lines include.

    The last line that fits a variable decides on it. All variables are gone through, arc by arc: behind the area an arc
    is each number that some line has there, or another one, since all others are alike.
    """
    answers, done = set(), set()
    waiting = [(0, frozenset(range(len(lines))))]
    while waiting and len(answers) < 2:
        place, fitting = state = waiting.pop()
        if state in done:
            continue
        done.add(state)
        ended = [it for it in fitting if len(lines[it].arcs) <= place]
        longer = [it for it in fitting if len(lines[it].arcs) > place]
        if place >= len(area):
            answers.add(bool(ended) and lines[max(ended)].includes)
            numbers = {lines[it].arcs[place] for it in longer} - {ANY} | {ANOTHER} if longer else ()
        else:
            numbers = (area[place],)
        for number in numbers:
            waiting.append(
                (place + 1, frozenset(ended + [it for it in longer if lines[it].arcs[place] in (ANY, number)]))
            )
    if len(answers) == 2:
        return "part"
    return "all" if True in answers else "nothing"
