"""The client among devices that answer for others, values that are none, and calls that are cancelled: python3
test_hostile.py, with the library installed or named by SNMPSEC_LIBRARY."""
import asyncio
import contextlib
import gc
import itertools
import json
import os
import pathlib
import random
import secrets
import types
import unittest

from test_aio import ACCESS, ENGINE, SYSTEM, Network, Quiet, config
from test_files import WITH_PASSWORDS, words

import snmpsec
from snmpsec import Level, Part, Pdu, Refusal, binding
from snmpsec.aio import Client, NoAnswer, Target
from snmpsec.values import BadValue, Counter32, Counter64, ObjectId, TimeTicks, Variable, decode

NAME = ObjectId((*SYSTEM, 5, 0))
RIGHT = [Variable(NAME, b"router")]


def message_id(datagram):
    """That of a message of at most 127 octets (RFC 3412, section 6)."""
    at = datagram.index(b"\2\1\3\x30") + 5
    assert datagram[at] == 2
    return int.from_bytes(datagram[at + 2 : at + 2 + datagram[at + 1]], "big")


class Impostor(Network):
    """A device that is asked, and another one that has heard each request and answers first, from its own address."""

    def __init__(self, **more):
        super().__init__(**more)
        self.other = Network(**more)
        self.other.variables[NAME] = b"forged"

    async def __aenter__(self):
        await super().__aenter__()
        await self.other.__aenter__()
        return self

    async def __aexit__(self, *_):
        await self.other.__aexit__()
        await super().__aexit__()

    def datagram_received(self, datagram, address):
        self.other.datagram_received(datagram, address)
        asyncio.get_running_loop().call_later(0.05, super().datagram_received, datagram, address)


class Moved(Network):
    """A device that answers from another address than it is asked at."""

    async def __aenter__(self):
        await super().__aenter__()
        self.asked = self.transport
        await super().__aenter__()
        self.transport, self.asked = self.asked, self.transport
        return self

    async def __aexit__(self, *_):
        self.asked.close()
        await super().__aexit__()

    def send(self, message, address):
        self.asked.sendto(message, address) if self.answers_from_there(message) else super().send(message, address)

    def answers_from_there(self, message):
        return self.agent.info() is not None and self.agent.info().pdu == Pdu.GET


class Others(Quiet):
    def target(self, device, **more):
        return Target("127.0.0.1", device.port, **{"user": "ann"} | more)

    async def test_no_other_device_answers(self):
        async with Impostor() as device, Client(config()) as client:
            for level in Level.NO_AUTH_NO_PRIV, Level.NO_AUTH_NO_PRIV:
                self.assertEqual(await client.get(self.target(device, level=level), NAME), RIGHT)
            self.assertGreaterEqual(len(device.other.requests), 2, "it has answered")

    async def test_what_is_authentic_may_come_from_elsewhere(self):
        async with Moved() as device, Client(config(), timeout=0.5, retries=1) as client:
            self.assertEqual(await client.get(self.target(device), NAME), RIGHT)
            with self.assertRaises(NoAnswer):
                await client.get(self.target(device, level=Level.NO_AUTH_NO_PRIV), NAME)

    @unittest.skipUnless(pathlib.Path("/proc/net/if_inet6").exists(), "the system has no IPv6")
    async def test_two_interfaces_are_two_peers(self):
        async with Client(config()) as client:
            one, two = [await client._peer(Target(f"fe80::1%{n}")) for n in (1, 2)]
            self.assertIsNot(one, two)
            self.assertIs(await client._peer(Target("fe80::1%1")), one)
            client._take(b"junk", ("fe80::1", 161, 7, 2))
            self.assertEqual((one.refusal, two.refusal), (None, Refusal.NOT_MESSAGE))

    async def test_numbers_are_drawn_at_random(self):
        async with contextlib.AsyncExitStack() as held:
            client = await held.enter_async_context(Client(config()))
            devices = [await held.enter_async_context(Network(engine=ENGINE + bytes([n]))) for n in range(20)]
            discoveries, requests = [], []
            for it in devices:
                take, heard = it.agent.take, it.respond
                it.agent.take = lambda now, datagram, take=take: (discoveries.append(datagram), take(now, datagram))[1]
                it.respond = lambda now, of=it.agent, go=heard: (requests.append(of.info().request_id), go(now))[1]
                for _ in range(10):
                    await client.get(self.target(it, level=Level.NO_AUTH_NO_PRIV), NAME)
            discoveries = [message_id(it) for it in discoveries if len(it) < 100 and ENGINE not in it]
            self.assertEqual((len(discoveries), len(requests)), (20, 200))
            for numbers in discoveries, requests:
                self.assertGreater(min(abs(a - b) for a, b in zip(numbers, numbers[1:])), 100)
                self.assertNotEqual(numbers, sorted(numbers))


@types.coroutine
def cancelled_at(awaited, coroutine):
    """What a coroutine returns that is cancelled where it waits for the time with this number, from 0."""
    steps = coroutine.__await__()
    try:
        future = next(steps)
        for n in itertools.count():
            if n == awaited:
                asyncio.current_task().cancel()
            try:
                yield future
            except BaseException as fault:
                future = steps.throw(fault)
            else:
                future = next(steps)
    except StopIteration as done:
        return done.value


class Cancelled(Quiet):
    async def asyncSetUp(self):
        await super().asyncSetUp()
        self.chance = random.Random(3)

    def tables(self, client):
        return {name: len(it) for name, it in vars(client).items() if hasattr(it, "__len__")}

    def resident(self):
        gc.collect()
        return int(pathlib.Path("/proc/self/statm").read_text().split()[1]) * os.sysconf("SC_PAGE_SIZE")

    async def calls(self, client, targets, count, at_once, most_steps):
        """Calls, so many at once, which are cancelled after some steps of the loop: how many weren't answered."""
        cancelled = 0
        for n in range(count // at_once):
            tasks = [asyncio.create_task(client.get(self.chance.choice(targets), NAME)) for _ in range(at_once)]
            for _ in range(n % most_steps):
                await asyncio.sleep(0)
            for it in tasks:
                it.cancel()
            found = await asyncio.gather(*tasks, return_exceptions=True)
            cancelled += sum(isinstance(it, asyncio.CancelledError) for it in found)
            self.assertTrue(all(isinstance(it, (asyncio.CancelledError, list)) for it in found))
        return cancelled

    async def test_nothing_stays_of_calls_that_are_cancelled(self):
        async with Network() as device, Client(config(), at_once=100) as client:
            targets = [Target("127.0.0.1", device.port, "ann", level) for level in Level]
            targets.append(Target("127.0.0.1", 9, "ann"))
            self.assertEqual(await client.get(targets[2], NAME), RIGHT)
            cancelled = await self.calls(client, targets, 20_000, 500, 12)
            cancelled += await self.calls(client, targets, 600, 10, 60)
            tables, resident = self.tables(client), self.resident()
            cancelled += await self.calls(client, targets, 80_000, 500, 12)
            cancelled += await self.calls(client, targets, 3_000, 10, 60)
            self.assertGreater(cancelled, 100_000)
            self.assertEqual(self.tables(client), tables)
            self.assertLess(self.resident() - resident, 4 << 20)
            self.assertEqual(await client.get(targets[0], NAME), RIGHT)

    async def test_at_any_await(self):
        is_cancelled = []
        async with Network() as device:
            target = Target("127.0.0.1", device.port, "ann")
            for at_once, awaited in itertools.product((1, 2), range(7)):
                async with Client(config(), at_once=at_once) as client:
                    first = asyncio.create_task(client.get(target, NAME))
                    await asyncio.sleep(0)
                    second = asyncio.ensure_future(cancelled_at(awaited, client.get(target, NAME)))
                    found = await asyncio.gather(first, second, return_exceptions=True)
                    self.assertEqual(found[0], RIGHT)
                    is_cancelled.append(isinstance(found[1], asyncio.CancelledError))
                    self.assertTrue(is_cancelled[-1] or found[1] == RIGHT)
                    self.assertEqual(await client.get(target, NAME), RIGHT)
                    [peer] = client._by_address.values()
                    self.assertEqual((client._waiting, client._requests, client._room._value), ({}, {}, at_once))
                    self.assertEqual((peer.discovery, peer.turn.locked()), (None, False))
        self.assertGreaterEqual(is_cancelled.count(True), 5, "for room, the look-up, the turn and the answer")

    async def test_nor_of_one_that_is_cancelled_as_its_answer_comes(self):
        async with Network() as device, Client(config()) as client:
            target, hear = Target("127.0.0.1", device.port, "ann"), client._hear
            await client.get(target, NAME)
            before = self.tables(client)
            for _ in range(100):
                task = asyncio.create_task(client.get(target, NAME))
                client._hear = lambda *what, task=task: (hear(*what), task.cancel())
                with self.assertRaises(asyncio.CancelledError):
                    await task
            self.assertEqual(self.tables(client), before)


class Values(Quiet):
    def test_values_of_their_types(self):
        for tag, content, value in ((0x41, "ff" * 4, Counter32((1 << 32) - 1)), (2, "80000000", -(1 << 31)),
                                    (0x43, "00ffffffff", TimeTicks((1 << 32) - 1)),
                                    (0x46, "ff" * 8, Counter64((1 << 64) - 1))):
            self.assertEqual(decode(tag, bytes.fromhex(content)), value)
        for tag, content in ((0x41, "ff"), (0x41, "0100000000"), (0x46, "01" + "00" * 8), (2, ""), (2, "0080000000"),
                             (5, "00"), (0x81, "00"), (6, ""), (6, "2b81"), (6, "2b" + "01" * 127), (0x40, "c00002"),
                             (0x47, "00")):
            with self.subTest(tag=tag, content=content):
                self.assertEqual(decode(tag, bytes.fromhex(content)), BadValue(tag, bytes.fromhex(content)))

    async def test_a_bad_value_is_one_value(self):
        names = [ObjectId((*SYSTEM, 9, n)) for n in range(3)]
        expected = [Variable(names[0], b"first"), Variable(names[1], BadValue(0x40, b"abc")), Variable(names[2], 3)]
        octets = binding(names[0], 4, b"first") + binding(names[1], 0x40, b"abc") + binding(names[2], 2, b"\3")
        printed = ['STRING: "first"', "Bad value: tag 40, 61 62 63", "INTEGER: 3"]
        async with Network() as device, Client(config()) as client:
            device.respond = lambda now: device.agent.respond(now, octets, secrets.randbits(64))
            target = Target("127.0.0.1", device.port, "ann")
            self.assertEqual(await client.get(target, *names), expected)
            lines = [f".{name} = {value}" for name, value in zip(names, printed)]
            self.assertEqual(await self.got(device, *names), (lines, 1))
            found, status = await self.got(device, "--json", *names)
            types = [json.loads(it)["type"] for it in found]
            self.assertEqual((types, status), (["OCTET STRING", "BadValue", "INTEGER"], 1))

    async def got(self, device, *more):
        """The lines of snmpsec-get, and its status."""
        line = words("get", f"127.0.0.1:{device.port}", *more)
        ran = await asyncio.create_subprocess_exec(*line, env=WITH_PASSWORDS, stdout=asyncio.subprocess.PIPE)
        found, _ = await asyncio.wait_for(ran.communicate(), 20)
        return found.decode().splitlines(), ran.returncode


if __name__ == "__main__":
    unittest.main()
