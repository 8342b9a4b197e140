"""Pasted hex, and which files are it (docs/formats.md, `datagrams`)."""
import re

from . import captures

PAIR = rb"(?:0[xX]|\\x)?([0-9a-fA-F]{2})"
PART = re.compile(rb"[ \t\r\n:,\"-]|\\\r?\n|" + PAIR)
NUMBERS = {
    number.to_bytes(4, order) for number in (captures.MICROSECONDS, captures.NANOSECONDS) for order in ("big", "little")
}
NUMBERS.add(captures.SECTION.to_bytes(4, "big"))


def parts(text):
    """The parts that a text begins with, and where they end."""
    found, at = [], 0
    while part := PART.match(text, at):
        found.append(part[1])
        at = part.end()
    return found, at


def pasted(name, text, moment):
    """What `datagrams` prints of pasted hex, and its status."""
    found, at = parts(text)
    pairs = [it for it in found if it is not None]
    if at == len(text) and pairs:
        return f"{moment} {b''.join(pairs).decode().lower()}\n", "", 0
    before = text[:at].split(b"\n")
    return f"refused datagrams {name} line {len(before)} column {len(before[-1]) + 1}\n", "", 1


def datagrams(name, octets, form, ports, moment):
    """What `datagrams` prints of a file, on both streams, and its status."""
    if form == "pcap" or form is None and octets[:4] in NUMBERS:
        return captures.datagrams(name, octets, ports)
    return pasted(name, octets, moment)
