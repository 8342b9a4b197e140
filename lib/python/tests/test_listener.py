"""The listener under what strangers, old traps and copies do to it: python3 test_listener.py, with the library
installed or named by SNMPSEC_LIBRARY.

The senders are agents and managers of the library, whose messages are made beforehand."""
import asyncio
import json
import pathlib
import secrets
import signal
import socket
import subprocess
import tempfile
import threading
import time
import tracemalloc
import unittest

from test_aio import ENGINE, Quiet, config
from test_files import WITH_PASSWORDS, pairs, words

import snmpsec
from snmpsec import Agent, Level, Manager, Pdu, Refusal, binding, targets
from snmpsec.aio import Client, Listener, Target
from snmpsec.notifications import SNMP_TRAP_OID, SYS_UP_TIME, Dropped
from snmpsec.values import BadValue, ObjectId, TimeTicks, Variable

SENDER = bytes.fromhex("80001f8804736e64")
WARM_START = ObjectId("1.3.6.1.6.3.1.1.5.2")
UPTIME, NAMED = binding(SYS_UP_TIME, 0x43, b"\7"), binding(SNMP_TRAP_OID, 6, bytes.fromhex("2b0601060301010502"))
BAD_NAME = ObjectId("1.3.6.1.2.1.4.20.1.1.9")


def notice(level=Level.AUTH_PRIV, octets=b""):
    numbers = {"salt": secrets.randbits(64), "message_id": secrets.randbits(31), "request_id": secrets.randbits(31)}
    return {"user": b"ann", "level": level, "octets": UPTIME + NAMED + octets, **numbers}


def trap(sender, level=Level.AUTH_PRIV, octets=b""):
    sender.notify(int(time.monotonic()), context_engine=SENDER, **notice(level, octets))
    return sender.message()


def inform(level=Level.AUTH_PRIV, octets=b"", of=config):
    """An Inform to a listener that has just started for the first time."""
    now = int(time.time())
    with Manager(of(), b"snmp-clocks 2\n%s 1 0 %d\n" % (ENGINE.hex().encode(), now)) as manager:
        manager.request(now, Pdu.INFORM, engine=ENGINE, **notice(level, octets))
        return manager.message()


class Listening(Quiet):
    async def asyncSetUp(self):
        await super().asyncSetUp()
        folder = tempfile.TemporaryDirectory()
        self.addCleanup(folder.cleanup)
        self.folder = pathlib.Path(folder.name)
        self.at = socket.socket(socket.AF_INET, socket.SOCK_DGRAM)
        self.addCleanup(self.at.close)
        self.at.setblocking(False)
        self.at.bind(("127.0.0.1", 0))

    def listener(self, of=config, **more):
        return Listener(of(), engine=ENGINE, boots=self.folder / "boots", host="127.0.0.1", port=0, **more)

    def sender(self, boots=1, of=config):
        it = Agent(of(), SENDER, boots, int(time.monotonic()))
        self.addCleanup(it.close)
        return it

    async def told(self, listener, *datagrams):
        """What is reported of these, until a last trap is."""
        for it in (*datagrams, trap(self.last)):
            await asyncio.get_running_loop().sock_sendto(self.at, it, listener.address)
        return await asyncio.wait_for(self.until_last(listener), 10)

    async def until_last(self, listener):
        found = []
        async for it in listener:
            if it.engine == self.last_engine:
                return found
            found.append(it)

    def acknowledged(self):
        """How many datagrams have come back."""
        count = 0
        while True:
            try:
                self.at.recv(65535)
            except BlockingIOError:
                return count
            count += 1

    last_engine = SENDER + b"-last"

    @property
    def last(self):
        it = Agent(config(), self.last_engine, 1, int(time.monotonic()))
        self.addCleanup(it.close)
        return it


class Levels(Listening):
    async def test_the_least_level_is_the_highest_of_the_user(self):
        async with self.listener() as listener:
            sender = self.sender()
            datagrams = [make(level) for level in Level for make in (lambda it: trap(sender, it), inform)]
            found = await self.told(listener, *datagrams)
            told = [(it.level, it.is_inform) for it in found]
            self.assertEqual(told, [(Level.AUTH_PRIV, False), (Level.AUTH_PRIV, True)])
            self.assertEqual((listener.dropped, self.acknowledged()), ({Dropped.LOW_LEVEL: 4}, 1))

    async def test_of_a_user_without_a_privacy_password(self):
        def public():
            return targets.configuration("ann", "sha256", b"maplesyrup")

        async with self.listener(public) as listener:
            for level in Level.NO_AUTH_NO_PRIV, Level.AUTH_NO_PRIV:
                self.at.sendto(inform(level, of=public), listener.address)
            found = await asyncio.wait_for(anext(listener), 10)
            self.assertEqual((found.level, listener.dropped), (Level.AUTH_NO_PRIV, {Dropped.LOW_LEVEL: 1}))

    async def test_a_lower_least_level(self):
        async with self.listener(least_level=Level.NO_AUTH_NO_PRIV, sources=["192.0.2.1", "127.0.0.1"]) as listener:
            sender = self.sender()
            datagrams = [make(level) for level in Level for make in (lambda it: trap(sender, it), inform)]
            found = await self.told(listener, *datagrams)
            self.assertEqual([it.level for it in found], [level for level in Level for _ in range(2)])
            self.assertEqual((listener.dropped, self.acknowledged()), ({}, 3))

    async def test_without_authentication_from_an_address_that_is_not_named(self):
        async with self.listener(least_level=Level.NO_AUTH_NO_PRIV, sources=["192.0.2.1"]) as listener:
            datagrams = [make(level) for level in Level for make in (lambda it: trap(self.sender(), it), inform)]
            found = await self.told(listener, *datagrams)
            self.assertEqual({it.level for it in found}, {Level.AUTH_NO_PRIV, Level.AUTH_PRIV})
            self.assertEqual((listener.dropped, self.acknowledged()), ({Dropped.ADDRESS: 2}, 2))

    async def test_outside_of_the_notify_view(self):
        rows = ("[[context]]\nname = ''\n[[group]]\nmodel = 3\nname = 'ann'\ngroup = 'few'\n[[access]]\ngroup = 'few'\nprefix = ''\nmodel = 3\n"
                "level = 'authPriv'\nmatch = 'prefix'\nnotify = 'few'\n"
                "[[family]]\nview = 'few'\nsubtree = '1.3.6.1.2.1.1'\ninclude = true\n"
                "[[family]]\nview = 'few'\nsubtree = '1.3.6.1.6.3'\ninclude = true\n")
        hidden = binding(ObjectId("1.3.6.1.4.1.9.1"), 2, b"\7")
        async with self.listener(lambda: bytearray(bytes(config()) + rows.encode())) as listener:
            found = await self.told(listener, trap(self.sender(), octets=hidden), inform(octets=hidden), inform())
            self.assertEqual([it.is_inform for it in found], [True])
            self.assertEqual((listener.dropped, self.acknowledged()), ({Dropped.VIEW: 2}, 1))

    async def test_what_is_refused_is_counted_by_its_reason(self):
        wrong = targets.configuration("ann", "sha256", b"wrongpassword", b"syrupmaple")
        eve = targets.configuration("eve", "sha256", b"maplesyrup", b"syrupmaple")
        async with self.listener() as listener:
            with Agent(wrong, SENDER, 1, 0) as forger, Agent(eve, SENDER, 1, 0) as stranger:
                forged = trap(forger)
                stranger.notify(0, context_engine=SENDER, **{**notice(), "user": b"eve"})
                self.assertEqual(await self.told(listener, forged, forged, stranger.message(), b"junk"), [])
            expected = {Refusal.WRONG_DIGEST: 2, Refusal.UNKNOWN_USER: 1, Refusal.NOT_MESSAGE: 1}
            self.assertEqual(listener.dropped, expected)


class Copies(Listening):
    async def test_a_trap_of_before_the_last_boots(self):
        clocks = self.folder / "clocks"
        old = trap(self.sender(4))
        async with self.listener(clocks=clocks) as listener:
            await self.told(listener, trap(self.sender(5)))
            self.assertEqual(pairs(clocks.read_bytes())[SENDER.hex()][0], 5, "saved as it is learned")
        async with self.listener(clocks=clocks) as listener:
            self.assertEqual(await self.told(listener, old), [])
            self.assertEqual(listener.dropped, {Refusal.NOT_IN_WINDOW: 1})

    async def test_clocks_of_another_station_stay(self):
        clocks = self.folder / "clocks"
        async with self.listener(clocks=clocks) as listener:
            clocks.write_bytes(snmpsec.NO_CLOCKS + b"8000000001 7 9 20\n")
            await self.told(listener, trap(self.sender(5)))
        self.assertEqual({engine: boots for engine, (boots, _) in pairs(clocks.read_bytes()).items()},
                         {"8000000001": 7, SENDER.hex(): 5, self.last_engine.hex(): 1})

    async def test_copies(self):
        async with self.listener() as listener:
            datagrams = [trap(self.sender()), inform()]
            found = await self.told(listener, *datagrams, *datagrams, *datagrams)
            self.assertEqual([it.is_inform for it in found], [False, True])
            self.assertEqual((listener.dropped, self.acknowledged()), ({Dropped.COPY: 4}, 3))

    def test_how_many_are_remembered(self):
        now = int(time.time())
        with snmpsec.Receiver(config(), engine=ENGINE, boots=1, started=now, most=2) as receiver:
            traps = [trap(self.sender()) for _ in range(3)]
            told = [receiver.take(now, b"", it, salt).event for salt, it in enumerate((*traps, traps[0]))]
        expected = [snmpsec.NotifyEvent.TRAP] * 2 + [snmpsec.NotifyEvent.NO_ROOM, snmpsec.NotifyEvent.COPY]
        self.assertEqual(told, expected)


class Values(Listening):
    async def test_a_value_that_is_none(self):
        names = [ObjectId((*BAD_NAME, n)) for n in range(3)]
        bad = binding(names[0], 0x40, b"192.0.2.7") + binding(names[1], 0x47, b"") + binding(names[2], 4, b"right")
        expected = [Variable(*it) for it in zip(names, [BadValue(0x40, b"192.0.2.7"), BadValue(0x47, b""), b"right"])]
        async with self.listener() as listener, Client(config()) as client:
            found = await self.told(listener, trap(self.sender(), octets=bad), inform(octets=bad))
            self.assertEqual([it.variables[2:] for it in found], [expected] * 2)
            self.assertEqual([(it.name, it.uptime) for it in found], [(WARM_START, TimeTicks(7))] * 2)
            self.assertEqual(self.acknowledged(), 1)
            await client.inform(Target(*listener.address, "ann"), WARM_START)

    async def test_what_waits_is_bounded_in_octets(self):
        long = b"".join(binding((1, 3, 6, 1, 2, n), 4, b"") for n in range(1, 5001))
        async with self.listener() as listener:
            sender = self.sender()
            tracemalloc.start()
            self.addCleanup(tracemalloc.stop)
            for _ in range(100):
                listener.datagram_received(trap(sender, octets=long), ("127.0.0.1", 9))
            self.assertLess(tracemalloc.get_traced_memory()[0], 6 << 20)
            self.assertGreater(listener.dropped[Dropped.NO_ROOM], 10)
            found = await anext(listener)
            self.assertEqual(len(found.variables), 5002)


class Commands(unittest.TestCase):
    def test_lines_and_counts(self):
        for least, levels in ("", [3]), ("--least-level nanp --source 127.0.0.1", [1, 2, 3]), ("--least-level authNoPriv --json", [2, 3]):
            with tempfile.TemporaryDirectory() as folder, Agent(config(), SENDER, 1, int(time.monotonic())) as sender:
                self.lines_and_counts(least.split(), levels, pathlib.Path(folder), sender)

    def lines_and_counts(self, more, levels, folder, sender):
        with socket.socket(socket.AF_INET, socket.SOCK_DGRAM) as free:
            free.bind(("127.0.0.1", 0))
            at = free.getsockname()
        files = ["--boots", folder / "boots", "--clocks", folder / "clocks"]
        line = words("listen", "--engine", ENGINE.hex(), *files, *more, f"127.0.0.1:{at[1]}")
        pipes = {"stdout": subprocess.PIPE, "stderr": subprocess.PIPE, "text": True}
        with subprocess.Popen(line, env=WITH_PASSWORDS, **pipes) as ran:
            limit = threading.Timer(60, ran.kill)
            limit.start()
            self.addCleanup(limit.cancel)
            self.wait_until_bound(at[1])
            with socket.socket(socket.AF_INET, socket.SOCK_DGRAM) as out:
                for level in Level:
                    out.sendto(trap(sender, level, octets=binding(BAD_NAME, 0x40, b"")), at)
                out.sendto(b"junk", at)
                printed = [self.level_of(ran) for _ in levels]
                ran.send_signal(signal.SIGUSR1)
                dropped = {ran.stderr.readline() for _ in range(1 + (len(levels) < 3))}
            ran.terminate()
            self.assertEqual(ran.wait(10), 0)
            self.assertEqual(printed, [["", "noAuthNoPriv", "authNoPriv", "authPriv"][it] for it in levels])
            low = {f"snmpsec-listen: dropped {3 - len(levels)}: below the least level\n"} if len(levels) < 3 else set()
            self.assertEqual(dropped, {"snmpsec-listen: dropped 1: it is no SNMPv3 message\n"} | low)
            self.assertEqual(set(ran.stderr), dropped)
        self.assertEqual(pairs((folder / "clocks").read_bytes())[SENDER.hex()][0], 1)

    def level_of(self, ran):
        line = ran.stdout.readline()
        if line.startswith("{"):
            told = json.loads(line)
            bad = {"name": str(BAD_NAME), "type": "BadValue", "value": None, "tag": 0x40, "hex": ""}
            self.assertEqual(told["variables"][2], bad)
            return told["level"]
        lines = [ran.stdout.readline() for _ in range(3)]
        self.assertEqual(lines[2], f"    .{BAD_NAME} = Bad value: tag 40, no octets\n")
        fields = line.split()
        return fields[fields.index("level") + 1]

    def wait_until_bound(self, port):
        for _ in range(1000):
            if f":{port:04X} " in pathlib.Path("/proc/net/udp").read_text():
                return
            time.sleep(0.02)
        self.fail("nobody listens")


if __name__ == "__main__":
    unittest.main()
