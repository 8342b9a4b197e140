#!/usr/bin/env python3
"""Messages to an agent on 127.0.0.1, in hex: messages.py PORT KIND [TIMES]

With TIMES the message is sent so often, each time after its answer, and how many answers came is printed in its place.

KIND is signed (an authNoPriv GetRequest of sysDescr.0), device (an authPriv one of sysName.0, in the context `pdu` of a
gateway), bulk (a GetBulkRequest of 92 octets without authentication, of columns that begin before all rows), columns
(one of some 50 KB), discovery, or forged (the signed one with a bit of its code turned). They are within the time
window for 150 seconds."""
import sys

import snmpsec
from raw import Words, connected, exchanged, known
from spell import AUTH, NO_AUTH, PRIV, REPORTABLE, Security, scoped, spelled

GET, BULK, DESCRIPTION, NAME = 0xA0, 0xA5, (1, 3, 6, 1, 2, 1, 1, 1, 0), (1, 3, 6, 1, 2, 1, 1, 5, 0)
FLAGS = {1: NO_AUTH, 2: AUTH, 3: AUTH | PRIV}


def of_user(at, level, tag, third, bindings, context=b""):
    security = known(at, Words([f"user={'plain' if level == 1 else 'sha'}", f"level={level}"]))
    text = scoped(security.engine, context, tag, 77, 0, third, bindings)
    return spelled(security, text, FLAGS[level] | REPORTABLE)


def bulk(at, size):
    """As long as this, or a few octets shorter."""
    empty = len(of_user(at, 1, BULK, 1000, b""))
    return of_user(at, 1, BULK, 1000, snmpsec.binding((1, 3), 5) * max(1, (size - empty) // 7))


def forged(message):
    at = message.index(b"\x04\x03sha\x04\x0c") + 7
    return message[:at] + bytes([message[at] ^ 1]) + message[at + 1 :]


def main():
    at, kind = connected(sys.argv[1]), sys.argv[2]
    kinds = {
        "signed": lambda: of_user(at, 2, GET, 0, snmpsec.binding(DESCRIPTION, 5)),
        "device": lambda: of_user(at, 3, GET, 0, snmpsec.binding(NAME, 5), b"pdu"),
        "bulk": lambda: bulk(at, 92),
        "columns": lambda: bulk(at, 50000),
        "discovery": lambda: spelled(Security(), scoped(b"", b"", GET, 1, 0, 0, b""), REPORTABLE),
        "forged": lambda: forged(of_user(at, 2, GET, 0, snmpsec.binding(DESCRIPTION, 5))),
    }
    message = kinds[kind]()
    if len(sys.argv) > 3:
        print(sum(exchanged(at, message) is not None for _ in range(int(sys.argv[3]))))
    else:
        print(message.hex())


main()
