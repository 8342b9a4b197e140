#!/usr/bin/env python3
"""A fake agent on 127.0.0.1, which answers a GetRequest with one thing wrong: fake.py PORT WRONG

WRONG is nothing, level (it answers at noAuthNoPriv), context (in another context), id (with another request-id), or
status=N (an error-status). Or the answer is right, and before it comes what anybody may send: junk (an octet, and
none), flipped (the answer with a bit turned), echo (the request), old (five authentic answers to another request), late
(nothing, the first time that a request comes), or never (junk alone). It runs until it is killed."""
import socket
import sys

import snmpsec
from spell import AUTH, NO_AUTH, Security, read, scoped, spelled

AGENT = Security(engine=bytes.fromhex("80001f8804616b65"), boots=5, time=1000)
UNKNOWN_ENGINES, NOT_IN_WINDOWS = ((1, 3, 6, 1, 6, 3, 15, 1, 1, n, 0) for n in (4, 2))


def report(asked, counter, flags):
    text = scoped(AGENT.engine, b"", 0xA8, asked.request_id, 0, 0, snmpsec.binding(counter, 0x41, b"\1"))
    return spelled(AGENT._replace(user=asked.security.user), text, flags, asked.message_id)


def response(asked, wrong):
    values = b"".join(snmpsec.binding(one.name, 4, b"fake") for one in snmpsec.bindings(asked.list))
    status = int(wrong.removeprefix("status=")) if wrong.startswith("status=") else 0
    context = b"another" if wrong == "context" else asked.context
    text = scoped(AGENT.engine, context, 0xA2, asked.request_id + (wrong == "id"), status, 0, values)
    flags = NO_AUTH if wrong == "level" else asked.flags & 3
    return spelled(AGENT._replace(user=asked.security.user), text, flags, asked.message_id)


def answer(asked, wrong):
    if asked.security.engine != AGENT.engine:
        return report(asked, UNKNOWN_ENGINES, NO_AUTH)
    if asked.flags & 1 and asked.security.boots != AGENT.boots:
        return report(asked, NOT_IN_WINDOWS, AUTH)
    return response(asked, wrong)


def before(asked, datagram, wrong):
    """What comes before the answer."""
    flipped = bytearray(answer(asked, wrong))
    flipped[len(flipped) // 2] ^= 1
    old = asked._replace(request_id=asked.request_id - 1, message_id=asked.message_id - 1)
    junk = [b"\0", b""]
    return {
        "junk": junk,
        "never": junk,
        "flipped": [bytes(flipped)],
        "echo": [datagram],
        "old": [answer(old, wrong)] * 5,
    }.get(wrong, [])


def main():
    at, wrong, seen = socket.socket(socket.AF_INET, socket.SOCK_DGRAM), sys.argv[2], set()
    at.bind(("127.0.0.1", int(sys.argv[1])))
    while True:
        datagram, client = at.recvfrom(65536)
        if wrong == "late" and datagram not in seen:
            seen.add(datagram)
            continue
        asked = read(datagram)
        told = [] if wrong == "never" else [answer(asked, wrong)]
        for one in before(asked, datagram, wrong) + told:
            at.sendto(one, client)


main()
