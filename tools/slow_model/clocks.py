"""Saved clocks and their join (README, `merge-clocks`)."""
import re

MOST = 0x7FFFFFFF
LATEST = 0xFFFFFFFFFFFFFFFF
DECIMAL = re.compile(rb"0|[1-9][0-9]*")
ENGINE = re.compile(rb"(?:[0-9a-f]{2}){5,32}")


class FaultyLine(Exception):
    def __init__(self, number):
        super().__init__(number)
        self.number = number


def decimal(text, most):
    if not DECIMAL.fullmatch(text) or len(text) > 20 or int(text) > most:
        return None
    return int(text)


def entry(line, version, moment):
    """The engine and its mark that a line without its line feed says, or None."""
    words = line.split(b" ")
    if len(words) != (4 if version == 2 else 3) or not ENGINE.fullmatch(words[0]):
        return None
    boots, time = (decimal(word, MOST) for word in words[1:3])
    seen = decimal(words[3], LATEST) if version == 2 else moment
    if boots is None or time is None or seen is None:
        return None
    return bytes.fromhex(words[0].decode()), (boots, time, seen)


def read(text, moment):
    """The marks of a saved text: from an engine to boots, time and the moment at which they were seen."""
    *lines, rest = text.split(b"\n")
    headings = {b"snmp-clocks 1": 1, b"snmp-clocks 2": 2}
    if not lines or lines[0] not in headings:
        raise FaultyLine(1)
    marks, last = {}, None
    for number, line in enumerate(lines[1:], 2):
        found = entry(line, headings[lines[0]], moment)
        if found is None or (last is not None and found[0] <= last):
            raise FaultyLine(number)
        last = found[0]
        marks[last] = found[1]
    if rest:
        raise FaultyLine(len(lines) + 1)
    return marks


def above(mark):
    """Marks in their order: by the pair, and of equal pairs the earlier moment is above."""
    boots, time, seen = mark
    return boots, time, -seen


def join(marks, engine, mark):
    marks[engine] = max(marks[engine], mark, key=above) if engine in marks else mark


def saved(marks):
    lines = [f"{engine.hex()} {boots} {time} {seen}\n" for engine, (boots, time, seen) in sorted(marks.items())]
    return "snmp-clocks 2\n" + "".join(lines)


def merge(files, moment):
    """What `merge-clocks` prints for the named texts, and its status."""
    held = {}
    for name, text in files:
        try:
            marks = read(text, moment)
        except FaultyLine as fault:
            return f"refused clocks {name} line {fault.number}\n", 1
        for engine, mark in marks.items():
            join(held, engine, mark)
    return saved(held), 0
