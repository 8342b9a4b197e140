#!/usr/bin/env python3
"""Stands between a sender of Informs and their receiver on 127.0.0.1, and makes trouble: inform_proxy.py PORT
RECEIVER-PORT FILE

FILE has words, which are read anew for each datagram: nothing; forged (before each answer comes the answer with its
last octet changed, and a Report without authentication that says the user is unknown); twice (each answer comes twice);
late (each answer comes 1.5 seconds later); other (each answer but those to discoveries comes from the address of nobody
that was asked); lost (the first Report with authentication doesn't come). It runs until it is killed."""
import pathlib
import select
import socket
import sys
import time

import snmpsec
from spell import NO_AUTH, Security, children, scoped, signed, spelled

UNKNOWN_USERS, REPORT, COUNTER = (1, 3, 6, 1, 6, 3, 15, 1, 1, 3, 0), 0xA8, 0x41


def header(datagram):
    """The msgID of a message, and its security parameters."""
    _, first, (_, parameters), _ = children(children(datagram)[0][1])
    engine, boots, now, user, _, _ = (content for _, content in children(children(parameters)[0][1]))
    return signed(children(first[1])[0][1]), Security(engine, signed(boots), signed(now), user)


def is_authentic(datagram):
    """Whether a message has authentication."""
    _, (_, first), _, _ = children(children(datagram)[0][1])
    return children(first)[2][1][0] & 1 == 1


def report(datagram):
    """A Report on a message without authentication, as anybody can send it."""
    number, security = header(datagram)
    bindings = snmpsec.binding(UNKNOWN_USERS, COUNTER, b"\x01")
    return spelled(security, scoped(security.engine, b"", REPORT, 0, 0, 0, bindings), NO_AUTH, message_id=number)


def changed(answer):
    return answer[:-1] + bytes([answer[-1] ^ 1])


class Proxy:
    def __init__(self, port, receiver, words):
        self.near, self.far, self.nobody = (socket.socket(socket.AF_INET, socket.SOCK_DGRAM) for _ in range(3))
        self.near.bind(("127.0.0.1", port))
        self.far.connect(("127.0.0.1", receiver))
        self.words, self.asked, self.waiting, self.has_lost = pathlib.Path(words), {}, [], False

    def answered(self, answer):
        """When the datagrams that an answer becomes are sent, from where, and to whom."""
        words, now = self.words.read_text().split(), time.monotonic()
        if "lost" in words and not self.has_lost and is_authentic(answer):
            self.has_lost = True
            return []
        asked, sender = self.asked[header(answer)[0]]
        from_it = self.nobody if "other" in words and header(asked)[1].engine else self.near
        forged = [changed(answer), report(asked)] if "forged" in words and header(asked)[1].engine else []
        return [
            (now + 1.5 * ("late" in words), from_it, sender, it) for it in forged + [answer] * (1 + ("twice" in words))
        ]

    def step(self):
        ready = select.select([self.near, self.far], [], [], 0.1)[0]
        if self.near in ready:
            asked, sender = self.near.recvfrom(65535)
            self.asked[header(asked)[0]] = asked, sender
            self.far.send(asked)
        if self.far in ready:
            try:
                self.waiting += self.answered(self.far.recv(65535))
            except ConnectionRefusedError:
                pass
        for it in [it for it in self.waiting if it[0] <= time.monotonic()]:
            self.waiting.remove(it)
            it[1].sendto(it[3], it[2])


def main():
    proxy = Proxy(int(sys.argv[1]), int(sys.argv[2]), sys.argv[3])
    while True:
        proxy.step()


main()
