"""A manager and an agent over UDP, on 127.0.0.1: over_udp.py window|many|inform|trap CONFIG PORT USER LEVEL [ENGINE-ID-HEX]

window asks an agent with boots and times that are off by so much from the agent's, prints what comes back, and at the end how many
reports of usmStatsNotInTimeWindows came in all. many discovers an agent, learns its time and asks 200 requests before it takes an answer, all of them
by the calls for many requests at once, and prints how many Responses were told to the request with their own request-id. inform sends an InformRequest (RFC 3416, section 4.2.7) and prints what comes back.
trap sends an SNMPv2-Trap of the engine. Not proved.
"""
import os
import pathlib
import socket
import sys
import time

import snmpsec
from snmpsec import Level, Part, Pdu

UP_TIME, TRAP_OID, SYS_DESCR = (1, 3, 6, 1, 2, 1, 1, 3, 0), (1, 3, 6, 1, 6, 3, 1, 1, 4, 1, 0), (1, 3, 6, 1, 2, 1, 1, 1, 0)
WARM_START = bytes.fromhex("2b0601060301010502")
QUESTION = snmpsec.binding(SYS_DESCR, 5)
RESTARTED = snmpsec.binding(UP_TIME, 0x43, b"\x64") + snmpsec.binding(TRAP_OID, 6, WARM_START)
NOT_IN_WINDOWS = "report of counter 2"
OFF_BY = [(0, 149), (0, 150), (0, 151), (-1, 0), (1, 0)]
ROUNDS = 10


def salt():
    return int.from_bytes(os.urandom(8), "big")


class Asker:
    """A user at a level with a socket, and a manager that takes all that comes back."""

    def __init__(self, config, port, user, level):
        self.config, self.user, self.level, self.reports = config, user, level, 0
        self.id = int.from_bytes(os.urandom(3), "big")
        self.socket = socket.socket(socket.AF_INET, socket.SOCK_DGRAM)
        self.socket.connect(("127.0.0.1", port))
        self.socket.settimeout(2)
        self.reader = snmpsec.Manager(config)
        self.reader.discover(self.id)
        assert self.exchange(self.reader) == "report of counter 4"
        self.engine = self.reader.part(Part.ENGINE)

    def exchange(self, manager):
        """What comes back on the manager's message."""
        self.socket.send(manager.message())
        refusal = self.reader.take(0, self.socket.recv(65536))
        if refusal:
            return f"refused: {refusal}"
        if self.reader.info().pdu == Pdu.RESPONSE:
            return "answered"
        assert self.reader.info().pdu == Pdu.REPORT
        told = f"report of counter {snmpsec.bindings(self.reader.part(Part.BINDINGS))[0].name[-2]}"
        self.reports += told == NOT_IN_WINDOWS
        return told

    def asked(self, manager, at, pdu, octets):
        """What comes back on a request that is written at a moment."""
        self.id += 1
        manager.request(at, pdu, engine=self.engine, user=self.user, level=self.level, octets=octets, salt=salt(), message_id=self.id)
        return self.exchange(manager)

    def learned(self):
        """The engine's boots and time."""
        self.asked(self.reader, 0, Pdu.GET, QUESTION)
        return self.reader.clock(self.engine)


def after_a_tick(asker):
    """The engine's boots and time when its time has just gone on, so that it stays for some requests."""
    first = asker.learned()
    while True:
        pair = asker.learned()
        if pair != first:
            return pair
        time.sleep(0.005)


def off_by(asker, holders):
    """What comes back of each request. A holder's time is the moment at which it writes."""
    for _ in range(ROUNDS):
        pair = after_a_tick(asker)
        told = [asker.asked(holders[boots], pair.time + seconds, Pdu.GET, QUESTION) for boots, seconds in OFF_BY]
        if asker.learned() == pair:
            return told
    sys.exit("the engine's time went on in each round")


def window(asker):
    boots = asker.learned().boots
    clocks = {off: snmpsec.NO_CLOCKS + f"{asker.engine.hex()} {boots + off} 0 0\n".encode() for off, _ in OFF_BY}
    told = off_by(asker, {off: snmpsec.Manager(asker.config, text) for off, text in clocks.items()})
    for (boots, seconds), what in zip(OFF_BY, told):
        print(f"boots {boots:+d} time {seconds:+d}: {what}")
    print(f"reports of counter 2: {asker.reports}")


def answered(manager, channel):
    """What answers come to the manager's message, until a second passes without any."""
    while True:
        try:
            datagram = channel.recv(65536)
        except TimeoutError:
            return
        if manager.take(int(time.time()), datagram) is None:
            found = manager.answered()
            if found:
                yield found, manager.info().request_id


def many(asker):
    asker.socket.settimeout(5)
    sent = {}
    with snmpsec.Manager(asker.config) as manager:
        def ask(level, octets, request_id):
            token = manager.ask(int(time.time()), Pdu.GET, engine=engine, user=asker.user, level=level, octets=octets, salt=salt(),
                                message_id=asker.id, request_id=request_id)
            sent[token] = manager.message()
            asker.socket.send(sent[token])
            return token

        discovery = manager.ask_discovery(asker.id)
        asker.socket.send(manager.message())
        found, _ = next(answered(manager, asker.socket))
        assert found == snmpsec.Answered(discovery, False, 4, False) and manager.give_up(discovery)
        engine = manager.part(Part.ENGINE)
        if asker.level > Level.NO_AUTH_NO_PRIV:
            unsealed = ask(Level.AUTH_NO_PRIV, b"", 1)
            found, _ = next(answered(manager, asker.socket))
            assert found == snmpsec.Answered(unsealed, False, 2, True) and manager.give_up(unsealed)
        waits = {ask(asker.level, QUESTION, request_id): request_id for request_id in range(1000, 1200)}
        right = 0
        asker.socket.settimeout(1)
        for _ in range(5):  # (a socket has room for some of them only, so what has no answer is sent again)
            right += sum(found.is_response and waits.pop(found.token) == request_id for found, request_id in answered(manager, asker.socket))
            if not waits:
                break
            for token in waits:
                asker.socket.send(sent[token])
        print(f"{right} answered, {len(waits)} wait")


def inform(asker):
    asker.learned()
    print(asker.asked(asker.reader, 0, Pdu.INFORM, RESTARTED))


def trap(config, port, user, level, engine):
    with snmpsec.Agent(config, engine, 1, 0) as agent, socket.socket(socket.AF_INET, socket.SOCK_DGRAM) as sender:
        agent.notify(0, user=user, level=level, octets=RESTARTED, salt=salt(), message_id=1, request_id=1, context_engine=engine)
        sender.sendto(agent.message(), ("127.0.0.1", port))


def main():
    what, path, port, user, level = sys.argv[1:6]
    words = pathlib.Path(path).read_bytes(), int(port), user.encode(), Level(int(level))
    if what == "trap":
        trap(*words, bytes.fromhex(sys.argv[6]))
    else:
        {"window": window, "many": many, "inform": inform}[what](Asker(*words))


main()
