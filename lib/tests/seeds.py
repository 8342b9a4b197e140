#!/usr/bin/env python3
"""Writes inputs of tests/fuzz.c to begin with, one a file: seeds.py FOLDER. They are the captured datagrams of
examples/replay, PDUs of each kind, a configuration and saved clocks."""
import pathlib
import sys

REPLAY = pathlib.Path(__file__).parents[2] / "examples/replay"
AGENT, MANAGER, CONFIGURATION, CLOCKS, AGENT_SIGNED, AGENT_SEALED, MANAGER_SIGNED, MANAGER_SEALED = range(8)
ENGINE = bytes.fromhex("80001f880478")


def tlv(tag, content):
    return bytes([tag, 0x81, len(content)]) + content


def scoped(tag, second, third, bindings):
    numbers = b"\2\1\1" + bytes([2, 1, second, 2, 1, third])
    return tlv(0x30, tlv(4, ENGINE) + tlv(4, b"") + tlv(tag, numbers + tlv(0x30, bindings)))


def binding(name, tag, content):
    return tlv(0x30, tlv(6, bytes.fromhex(name)) + tlv(tag, content))


def seeds():
    for line in (REPLAY / "captured.log").read_text().splitlines():
        datagram = bytes.fromhex(line.split()[1])
        yield from ((AGENT, datagram), (MANAGER, datagram))
    values = [
        (2, b"\5"),
        (4, b"text"),
        (5, b""),
        (6, b"\x2b\6"),
        (0x40, b"\x7f\0\0\1"),
        (0x41, b"\1"),
        (0x43, b"\0\xff"),
        (0x46, b"\1" * 8),
        (0x82, b""),
    ]
    bindings = b"".join(binding("2b060102010101" + f"{n:02x}", *value) for n, value in enumerate(values))
    for tag in range(0xA0, 0xA9):
        for kind in (AGENT_SIGNED, AGENT_SEALED, MANAGER_SIGNED, MANAGER_SEALED):
            yield kind, scoped(tag, 0, 2, bindings)
    yield CONFIGURATION, (REPLAY / "config.toml").read_bytes()
    yield CONFIGURATION, (REPLAY.parent / "access.toml").read_bytes()
    yield CLOCKS, b"snmp-clocks 2\n0102030405 1 2 3\n80001f880478 5 100 1000\n"
    yield CLOCKS, b"snmp-clocks 1\n0102030405 1 2\n"


def main():
    folder = pathlib.Path(sys.argv[1])
    folder.mkdir(parents=True, exist_ok=True)
    for number, (kind, octets) in enumerate(seeds()):
        (folder / f"seed{number:03}").write_bytes(bytes([kind]) + octets)


main()
