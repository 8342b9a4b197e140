"""The client and the listener over UDP on 127.0.0.1: python3 test_aio.py, with the library installed or named by SNMPSEC_LIBRARY.

The device is an agent of the library; what is on its way can be lost, repeated and late. Exchanges with other implementations are in lib/tests."""
import asyncio
import doctest
import gc
import pathlib
import random
import secrets
import tempfile
import time
import unittest

import snmpsec
from snmpsec import Agent, BadClocks, Level, Part, Pdu, View, aio, commands, names, printing, targets, values
from snmpsec.aio import Client, ErrorStatus, Listener, NoAnswer, NotIncreasing, ReportReceived, Target, TrapSender
from snmpsec.values import END_OF_MIB_VIEW, NO_SUCH_OBJECT, Counter64, ObjectId, TimeTicks, Variable, encode

ENGINE = bytes.fromhex("80001f880461696f")
ACCESS = """
[[user]]
name = "ann"
auth = "sha256"
auth-password = "maplesyrup"
priv-password = "syrupmaple"
[[context]]
name = ""
[[group]]
model = 3
name = "ann"
group = "all"
[[access]]
group = "all"
prefix = ""
model = 3
level = "noAuthNoPriv"
match = "exact"
read = "mib"
write = "mib"
[[family]]
view = "mib"
subtree = "1.3.6.1"
include = true
"""
SYSTEM = ObjectId("1.3.6.1.2.1.1")
TABLE = ObjectId("1.3.6.1.2.1.2.2.1")
ROWS = {ObjectId((*TABLE, column, row)): Counter64(column * row) for column in range(1, 6) for row in range(1, 101)}
VARIABLES = {ObjectId((*SYSTEM, 3, 0)): TimeTicks(77), ObjectId((*SYSTEM, 5, 0)): b"router", **ROWS}


class Network(asyncio.DatagramProtocol):
    """A device behind a network that loses, repeats and delays datagrams in both directions."""

    def __init__(self, boots=1, lost=0.0, repeated=0.0, late=0.0, config=ACCESS, engine=ENGINE):
        self.lost, self.repeated, self.late, self.engine, self.config = lost, repeated, late, engine, config
        self.chance, self.variables, self.requests, self.sent = random.Random(7), dict(VARIABLES), [], []
        self.begin(boots)

    def begin(self, boots):
        self.agent = Agent(self.config.encode(), self.engine, boots, int(time.monotonic()))

    async def __aenter__(self):
        transport, _ = await asyncio.get_running_loop().create_datagram_endpoint(lambda: self, local_addr=("127.0.0.1", 0))
        self.transport = transport
        return self

    async def __aexit__(self, *_):
        self.transport.close()
        self.agent.close()

    @property
    def port(self):
        return self.transport.get_extra_info("sockname")[1]

    def times(self):
        return 0 if self.chance.random() < self.lost else 2 if self.chance.random() < self.repeated else 1

    def datagram_received(self, datagram, address):
        for _ in range(self.times()):
            asyncio.get_running_loop().call_later(self.chance.random() * self.late, self.answer, datagram, address)

    def answer(self, datagram, address):
        if self.transport.is_closing():
            return
        now = int(time.monotonic())
        if self.agent.take(now, datagram) is None:
            why = self.agent.unhandled()
            self.agent.refuse(now, why, secrets.randbits(64)) if why else self.respond(now)
        message = self.agent.message()
        self.sent.append(message)
        for _ in range(self.times() if message else 0):
            asyncio.get_running_loop().call_later(self.chance.random() * self.late, self.send, message, address)

    def send(self, message, address):
        if not self.transport.is_closing():
            self.transport.sendto(message, address)

    def respond(self, now):
        info, asked = self.agent.info(), snmpsec.bindings(self.agent.part(Part.BINDINGS))
        self.requests.append((info.pdu, info.level))
        if info.pdu == Pdu.SET:
            self.variables.update((ObjectId(one.name), values.decode(one.tag, one.content)) for one in asked)
            found = [(ObjectId(one.name), values.decode(one.tag, one.content)) for one in asked]
        elif info.pdu == Pdu.GET:
            found = [(ObjectId(one.name), self.variables.get(ObjectId(one.name), NO_SUCH_OBJECT)) for one in asked]
        else:
            found = [self.after(ObjectId(one.name), n) for one in asked for n in range(info.max_repetitions if info.pdu == Pdu.GET_BULK else 1)]
        octets = b"".join(snmpsec.binding(name, *encode(value)) for name, value in found)
        self.agent.respond_front(now, octets, secrets.randbits(64), min(self.agent.max_size(), 1472))

    def after(self, name, n):
        later = sorted(it for it in self.variables if it > name)
        return (later[n], self.variables[later[n]]) if n < len(later) else (later[-1] if later else name, END_OF_MIB_VIEW)


def config(password=b"maplesyrup", privacy=b"syrupmaple"):
    return targets.configuration("ann", "sha256", password, privacy)


class Quiet(unittest.IsolatedAsyncioTestCase):
    """Tests in which asyncio logs nothing, as it does of what nobody catches, and in debug mode of what is slow."""

    async def asyncSetUp(self):
        asyncio.get_running_loop().set_debug(False)
        logged = self.assertNoLogs("asyncio")
        logged.__enter__()
        self.addCleanup(logged.__exit__, None, None, None)

    async def asyncTearDown(self):
        gc.collect()
        await asyncio.sleep(0)


class Asking(Quiet):
    def target(self, device, **more):
        return Target("127.0.0.1", device.port, **{"user": "ann"} | more)

    async def test_values_at_each_level(self):
        async with Network() as device, Client(config()) as client:
            for level in Level:
                found = await client.get(self.target(device, level=level), "1.3.6.1.2.1.1.5.0", (1, 3, 6, 1, 2, 1, 1, 9, 9))
                self.assertEqual(found, [((1, 3, 6, 1, 2, 1, 1, 5, 0), b"router"), ((1, 3, 6, 1, 2, 1, 1, 9, 9), NO_SUCH_OBJECT)])
                self.assertEqual(device.requests[-1], (Pdu.GET, level))
            self.assertEqual(await client.get_next(self.target(device), SYSTEM), [Variable(ObjectId((*SYSTEM, 3, 0)), TimeTicks(77))])
            self.assertEqual(len(await client.get_bulk(self.target(device), TABLE, max_repetitions=7)), 7)

    async def test_a_set(self):
        async with Network() as device, Client(config()) as client:
            name = ObjectId((*SYSTEM, 5, 0))
            self.assertEqual(await client.set(self.target(device), {name: b"switch"}), [Variable(name, b"switch")])
            self.assertEqual(device.variables[name], b"switch")

    async def test_a_walk(self):
        async with Network() as device, Client(config()) as client:
            self.assertEqual([it async for it in client.walk(self.target(device), TABLE)], sorted(ROWS.items()))
            self.assertEqual([it async for it in client.walk(self.target(device), "1.3.6.1.2.1.9")], [])
            self.assertLess(len(device.requests), 30)

    async def test_a_walk_that_goes_back(self):
        async with Network() as device, Client(config()) as client:
            device.after = lambda name, n: (ObjectId((*TABLE, 1, 1 + n % 3)), 7)
            with self.assertRaises(NotIncreasing):
                [it async for it in client.walk(self.target(device), TABLE)]

    async def test_a_network_that_loses_repeats_and_delays(self):
        for lost in 0.01, 0.1, 0.5:
            async with Network(lost=lost, repeated=0.2, late=0.02) as device, Client(config(), timeout=0.1, retries=60) as client:
                asked = sorted(ROWS)[:40]
                found = await asyncio.gather(*(client.get(self.target(device), name) for name in asked))
                self.assertEqual(found, [[(name, ROWS[name])] for name in asked])

    async def test_a_restart(self):
        async with Network() as device, Client(config()) as client:
            await client.get(self.target(device), SYSTEM)
            device.begin(2)
            self.assertEqual(await client.get(self.target(device), (*SYSTEM, 5, 0)), [(ObjectId((*SYSTEM, 5, 0)), b"router")])
            self.assertEqual(client._manager.clock(ENGINE).boots, 2)

    async def test_why_there_is_no_answer(self):
        async with Network() as device:
            for wrong, user, counter in ((config(b"wrongpassword"), "ann", 5), (targets.configuration("eve", "sha256", b"maplesyrup"), "eve", 3)):
                async with Client(wrong, timeout=0.05, retries=1) as client:
                    with self.assertRaises(NoAnswer) as caught:
                        await client.get(self.target(device, user=user, level=Level.AUTH_NO_PRIV), SYSTEM)
                    self.assertEqual(caught.exception.report, counter)
                    self.assertEqual(client._waiting, {})
            async with Client(config(), timeout=0.05, retries=1) as client:
                with self.assertRaises(NoAnswer):
                    await client.get(Target("127.0.0.1", 9, "ann"), SYSTEM)
                with self.assertRaises(ReportReceived) as caught:
                    await client.get(self.target(device, context_engine=b"elsewhere"), SYSTEM)
            self.assertEqual({level for _, level in device.requests}, set())

    async def test_an_error_status(self):
        async with Network() as device, Client(config()) as client:
            device.respond = lambda now: device.agent.respond(now, device.agent.part(Part.BINDINGS), 1, 16, 1)
            with self.assertRaises(ErrorStatus) as caught:
                await client.set(self.target(device), [((*SYSTEM, 5, 0), b"x")])
            self.assertEqual(str(caught.exception), "authorizationError (error-status 16) at 1.3.6.1.2.1.1.5.0")

    async def test_clocks_of_two_stations(self):
        async with Network(boots=5) as device, Client(config()) as one, Client(config()) as two:
            await one.get(self.target(device), SYSTEM)
            with tempfile.TemporaryDirectory() as folder:
                path = pathlib.Path(folder, "clocks")
                one.save(path)
                two.load(path)
            self.assertEqual(two._manager.clock(ENGINE), one._manager.clock(ENGINE))
            with self.assertRaises(BadClocks):
                two.absorb(b"no clocks")

    async def test_what_one_station_has_seen_to_be_old_no_other_accepts(self):
        async with Network(boots=1) as device, Client(config()) as north, Client(config()) as south:
            await north.get(self.target(device), SYSTEM)
            old = device.sent[-1]
            self.assertIsNone(Client(config())._manager.take(int(time.time()), old))
            device.begin(2)
            await south.get(self.target(device), SYSTEM)
            with tempfile.TemporaryDirectory() as folder:
                south.save(f"{folder}/south.clocks")
                north.load(f"{folder}/south.clocks")
                north.load(f"{folder}/south.clocks")
            for station in north, south:
                self.assertEqual(station._manager.take(int(time.time()), old), snmpsec.Refusal.NOT_IN_WINDOW)
                await station.get(self.target(device), SYSTEM)

    async def test_many_devices_over_one_socket(self):
        async with Client(config()) as client:
            devices = [await Network(engine=ENGINE + bytes([n])).__aenter__() for n in range(20)]
            found = await asyncio.gather(*(client.get(self.target(it), (*SYSTEM, 5, 0)) for it in devices for _ in range(5)))
            self.assertEqual(found, [[(ObjectId((*SYSTEM, 5, 0)), b"router")]] * 100)
            self.assertEqual(len(client._sockets), 1)
            for it in devices:
                await it.__aexit__()


class Notified(Quiet):
    async def test_traps_and_informs(self):
        with tempfile.TemporaryDirectory() as folder:
            boots, other = pathlib.Path(folder, "listener.boots"), pathlib.Path(folder, "sender.boots")
            async with Listener(config(), engine=ENGINE, boots=boots, host="127.0.0.1", port=0) as notifications, Client(config()) as client:
                target = Target(*notifications.address, "ann")
                await client.inform(target, "1.3.6.1.6.3.1.1.5.1", {"1.3.6.1.2.1.1.5.0": b"router"}, uptime=1.5)
                came = await asyncio.wait_for(notifications.__anext__(), 5)
                self.assertTrue(came.is_inform)
                self.assertEqual((came.user, came.level, came.name, came.uptime), ("ann", Level.AUTH_PRIV, (1, 3, 6, 1, 6, 3, 1, 1, 5, 1), 150))
                self.assertEqual(came.variables[2], ((1, 3, 6, 1, 2, 1, 1, 5, 0), b"router"))
                with TrapSender(config(), engine=ENGINE + b"2", boots=other) as sender:
                    sender.send(target, "1.3.6.1.6.3.1.1.5.2")
                came = await asyncio.wait_for(notifications.__anext__(), 5)
                self.assertEqual((came.is_inform, came.engine, came.name), (False, ENGINE + b"2", (1, 3, 6, 1, 6, 3, 1, 1, 5, 2)))
                with self.assertRaises(BlockingIOError):
                    Listener(config(), engine=ENGINE, boots=boots)
            self.assertEqual((boots.read_bytes(), other.read_bytes()), (b"1\n", b"1\n"))

    async def test_a_trap_with_a_wrong_password(self):
        with tempfile.TemporaryDirectory() as folder:
            async with Listener(config(), engine=ENGINE, boots=f"{folder}/boots", host="127.0.0.1", port=0) as notifications:
                with TrapSender(config(b"wrongpassword"), engine=ENGINE + b"2", boots=f"{folder}/other") as sender:
                    sender.send(Target(*notifications.address, "ann"), "1.3.6.1.6.3.1.1.5.2")
                with self.assertRaises(asyncio.TimeoutError):
                    await asyncio.wait_for(notifications.__anext__(), 0.2)

    def test_boots_that_are_no_number(self):
        with tempfile.TemporaryDirectory() as folder:
            path = pathlib.Path(folder, "boots")
            path.write_text("many\n")
            with self.assertRaises(ValueError):
                TrapSender(config(), engine=ENGINE, boots=path)
            self.assertEqual(path.read_text(), "many\n")


def load_tests(loader, tests, pattern):
    for module in (values, printing, names, targets, commands, aio):
        tests.addTests(doctest.DocTestSuite(module))
    return tests


if __name__ == "__main__":
    unittest.main()
