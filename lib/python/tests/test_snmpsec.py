"""What net-snmp's tools sent each other, an agent and a manager that talk, keys, faults, files and threads: python3 test_snmpsec.py, with the
library installed or named by SNMPSEC_LIBRARY, and the folder of examples/replay in SNMPSEC_REPLAY where it is elsewhere."""
import hmac
import os
import pathlib
import tempfile
import threading
import unittest

import snmpsec
from snmpsec import Access, Agent, AuthProtocol, Level, Manager, Part, Pdu, Refusal, View

FOLDER = pathlib.Path(os.environ.get("SNMPSEC_REPLAY") or pathlib.Path(__file__).resolve().parents[3] / "examples/replay")
CONFIG = (FOLDER / "config.toml").read_bytes()
LOG = [(int(moment), bytes.fromhex(octets)) for moment, octets in map(str.split, (FOLDER / "captured.log").read_text().splitlines())]
ENGINE = bytes.fromhex("80001f8880c932472d51b8036b00000000")
NOW, BOOTS, TIME = 1000, 5, 900
NAME = (1, 3, 6, 1, 2, 1, 1, 1, 0)
ASKED, HELLO = snmpsec.binding(NAME, 5), snmpsec.binding(NAME, 4, b"hello")
LEVELS = {Level.NO_AUTH_NO_PRIV: "noAuthNoPriv", Level.AUTH_NO_PRIV: "authNoPriv", Level.AUTH_PRIV: "authPriv"}

# a configuration of its own, whose user may read the group system
ALLOWING = b"""
[[user]]
name = "ann"
auth = "sha256"
auth-password = "maplesyrup"
priv-password = "syrupmaple"
[[context]]
name = ""
[[group]]
model = 3
name = "ann"
group = "all"
[[access]]
group = "all"
prefix = ""
model = 3
level = "noAuthNoPriv"
match = "exact"
read = "system"
[[family]]
view = "system"
subtree = "1.3.6.1.2.1.1"
include = true
"""


def ask(manager, message_id, user, level, **more):
    manager.request(NOW, Pdu.GET, **({"engine": ENGINE, "user": user, "level": level, "octets": ASKED, "salt": message_id,
                                      "message_id": message_id} | more))
    return manager.message()


class KeptOutside(unittest.TestCase):
    """Requests that wait outside of their agent for their Responses."""

    LATER = NOW + 40

    def setUp(self):
        self.agent, self.other, self.manager = Agent(CONFIG, ENGINE, BOOTS, NOW - TIME), Agent(CONFIG, ENGINE, BOOTS, NOW - TIME), Manager(CONFIG)
        for it in (self.agent, self.other, self.manager):
            self.addCleanup(it.close)
        self.agent.take(NOW, ask(self.manager, 1, b"ann", Level.AUTH_NO_PRIV))
        self.assertIsNone(self.manager.take(NOW, self.agent.message()))

    def kept(self, message_id, level=Level.AUTH_PRIV):
        request = ask(self.manager, message_id, b"ann", level)
        self.assertIsNone(self.agent.take(NOW, request))
        return request, self.agent.keep()

    def test_many_are_answered_out_of_order(self):
        waiting = [self.kept(message_id, list(LEVELS)[message_id % 3]) for message_id in range(100, 160)]
        self.assertIsNone(self.agent.info())
        self.assertRaises(snmpsec.NothingTaken, self.agent.keep)
        while waiting:
            request, kept = waiting.pop(len(waiting) // 3)
            salt = len(waiting)
            self.assertIsNone(self.other.take(NOW, request))
            self.assertEqual((self.other.info(), self.other.max_size()), (kept.info(), kept.max_size()))
            self.assertEqual([self.other.part(part) for part in Part], [kept.part(part) for part in Part])
            self.other.respond(self.LATER, HELLO, salt)
            with kept:
                kept.respond(self.agent, self.LATER, HELLO, salt)
            self.assertEqual(self.other.message(), self.agent.message())
            self.assertIsNone(self.manager.take(self.LATER, self.agent.message()))
            self.assertRaises(ValueError, kept.info)

    def test_another_configuration_counts_on(self):
        request, kept = self.kept(100)
        before = self.agent.counters()
        with self.assertRaises(snmpsec.BadConfiguration) as refused:
            self.agent.reconfigure(b"[[user]]\nname = 'ann'\nauht = 'md5'\n")
        self.assertEqual(snmpsec.ConfigReason.UNLISTED_KEY, refused.exception.fault.reason)
        self.agent.reconfigure(b"")
        self.assertEqual(before, self.agent.counters())
        self.assertRaises(snmpsec.Refused, kept.respond, self.agent, self.LATER, HELLO, 1)
        self.assertEqual(Refusal.UNKNOWN_USER, self.agent.take(NOW, request))
        self.assertEqual(before.unknown_users + 1, self.agent.counters().unknown_users)
        self.agent.reconfigure_from_file(FOLDER / "config.toml")
        kept.respond(self.agent, self.LATER, HELLO, 1)
        self.assertIsNone(self.manager.take(self.LATER, self.agent.message()))

    def test_what_is_kept_goes_back(self):
        _, first = self.kept(100)
        _, second = self.kept(200)
        self.assertRaises(snmpsec.NothingTaken, self.agent.access, View.READ, NAME)
        self.agent.restore(first)
        self.agent.restore(second)
        self.assertEqual(200, self.agent.info().message_id)
        self.assertEqual(Access.NO_SUCH_CONTEXT, self.agent.access(View.READ, NAME))
        self.assertRaises(ValueError, second.info)
        self.assertRaises(ValueError, self.agent.restore, second)

    def test_another_agent_answers_within_a_limit(self):
        _, kept = self.kept(100)
        self.agent.close()
        long = snmpsec.binding(NAME, 4, bytes(600))
        with Agent(CONFIG, ENGINE, BOOTS + 1, NOW) as agent, kept:
            with self.assertRaises(snmpsec.Refused) as refused:
                kept.respond_within(agent, self.LATER, long, 1, 484)
            self.assertEqual(Refusal.TOO_LARGE, refused.exception.refusal)
            self.assertIsNone(agent.message())
            self.assertEqual(0, kept.respond_front(agent, self.LATER, long, 2, 484))
            self.assertEqual(1, kept.respond_front(agent, self.LATER, long, 3, 2000))
            self.assertRaises(snmpsec.BadArgument, kept.respond, agent, self.LATER, HELLO, 4, error_status=1 << 31)
            self.assertRaises(snmpsec.BadBindings, kept.respond, agent, self.LATER, b"junk", 5)
            self.assertIsNone(self.manager.take(self.LATER, agent.message()))
            self.assertTrue(self.manager.reply().is_response)
        self.assertRaises(ValueError, kept.respond, self.agent, self.LATER, HELLO, 6)

    def test_threads_keep_and_answer(self):
        kept = [self.kept(message_id)[1] for message_id in range(100, 140)]

        def answer(some):
            for it in some:
                it.respond(self.agent, self.LATER, HELLO, it.info().message_id)
                self.agent.restore(it)

        threads = [threading.Thread(target=answer, args=(kept[i::4],)) for i in range(4)]
        for thread in threads:
            thread.start()
        for thread in threads:
            thread.join()
        self.assertIsNotNone(self.agent.info())
        for it in kept:
            self.assertRaises(ValueError, it.info)


class Many(unittest.TestCase):
    """Many requests at once, which an agent answers in any order."""

    def setUp(self):
        self.agent, self.manager = Agent(CONFIG, ENGINE, BOOTS, NOW - TIME), Manager(CONFIG)
        self.addCleanup(self.agent.close)
        self.addCleanup(self.manager.close)

    def ask(self, request_id, level=Level.NO_AUTH_NO_PRIV):
        return self.manager.ask(NOW, Pdu.GET, engine=ENGINE, user=b"ann", level=level, octets=ASKED, salt=request_id, message_id=7,
                                request_id=request_id)

    def response(self):
        self.assertIsNone(self.agent.take(NOW, self.manager.message()))
        self.agent.respond(NOW, HELLO, 1)
        return self.agent.message()

    def report(self):
        self.assertIsNotNone(self.agent.take(NOW, self.manager.message()))
        self.assertIsNone(self.manager.take(NOW, self.agent.message()))
        return self.manager.answered()

    def test_each_response_is_of_its_request(self):
        responses = {}
        for request_id in range(1, 101):
            token = self.ask(request_id)
            responses[token] = self.response()
        self.assertEqual(list(responses), list(range(7, 107)))
        self.assertTrue(self.manager.give_up(50))
        self.assertFalse(self.manager.give_up(50))
        for token, response in reversed(responses.items()):
            self.assertIsNone(self.manager.take(NOW, response))
            found = None if token == 50 else snmpsec.Answered(token, True, None, False)
            self.assertEqual(self.manager.answered(), found)
            self.assertIsNone(self.manager.answered())

    def test_a_report_ends_no_request(self):
        self.assertIsNone(self.manager.answered())
        discovery = self.manager.ask_discovery(7)
        self.assertEqual(self.report(), snmpsec.Answered(discovery, False, 4, False))
        self.assertEqual(self.manager.answered(), snmpsec.Answered(discovery, False, 4, False))
        token = self.ask(1, Level.AUTH_PRIV)
        self.assertEqual(self.report(), snmpsec.Answered(token, False, 2, True))
        self.assertTrue(self.manager.give_up(discovery) and self.manager.give_up(token))
        self.assertIsNone(self.manager.answered())

    def test_what_an_unknown_device_is_sent(self):
        device, sent = snmpsec.Device(Level.AUTH_PRIV), []
        while device.step not in (snmpsec.Step.ANSWERED, snmpsec.Step.DENIED):
            sent.append(device.step)
            if device.step == snmpsec.Step.SEND_DISCOVERY:
                self.manager.ask_discovery(7)
            else:
                self.ask(len(sent), Level.AUTH_NO_PRIV if device.step == snmpsec.Step.SEND_TIME_REQUEST else Level.AUTH_PRIV)
            refused = self.agent.take(NOW, self.manager.message())
            if refused is None:
                self.agent.respond(NOW, HELLO, 1)
            self.assertIsNone(self.manager.take(NOW, self.agent.message()))
            device.hear(self.manager.answered(), self.manager.clock(ENGINE) is not None)
        self.assertEqual(sent, [snmpsec.Step.SEND_DISCOVERY, snmpsec.Step.SEND_TIME_REQUEST, snmpsec.Step.SEND_REQUEST])
        self.assertEqual((device.step, device.counter), (snmpsec.Step.ANSWERED, None))

    def test_anybodys_report_ends_no_request(self):
        device = snmpsec.Device(Level.AUTH_PRIV, snmpsec.Known.CLOCK)
        for counter in range(10):
            self.assertEqual(device.hear(snmpsec.Answered(1, False, counter, False), True), snmpsec.Step.WAIT)
            self.assertEqual((device.counter, device.is_authentic), (counter, False))
        not_in_window = snmpsec.Answered(1, False, 2, True)
        self.assertEqual(device.hear(not_in_window, True), snmpsec.Step.SEND_REQUEST)
        self.assertEqual(device.hear(not_in_window, True), snmpsec.Step.DENIED)
        self.assertEqual((device.counter, device.is_authentic), (2, True))

    def test_as_many_wait_as_may(self):
        for _ in range(65536):
            self.manager.ask_discovery(7)
        with self.assertRaisesRegex(snmpsec.TooManyRequests, "65,536"):
            self.manager.ask_discovery(7)
        self.assertTrue(self.manager.give_up(8))
        self.assertEqual(self.manager.ask_discovery(7), 65543)


class Captured(unittest.TestCase):
    def test_an_agent_answers_the_requests(self):
        accepted = 0
        with Agent(CONFIG, ENGINE, 1, NOW - 3) as agent:
            self.assertEqual((agent.info(), agent.message(), agent.part(Part.USER)), (None, None, None))
            self.assertIs(agent.take(NOW, LOG[0][1]), Refusal.UNKNOWN_ENGINE)
            self.assertEqual(agent.counters().unknown_engines, 1)
            self.assertEqual(len(agent.message()), len(LOG[1][1]))
            for _, datagram in LOG:
                if agent.take(NOW, datagram) is None and agent.info().pdu == Pdu.GET:
                    accepted += 1
                    self.answer(agent, accepted)
        self.assertEqual(accepted, 5)

    def answer(self, agent, salt):
        names = snmpsec.bindings(agent.part(Part.BINDINGS))
        self.assertEqual((agent.part(Part.ENGINE), agent.part(Part.CONTEXT_NAME)), (ENGINE, b""))
        self.assertIs(agent.access(View.READ, NAME), Access.NO_SUCH_CONTEXT)
        self.assertIs(agent.user_access(b"ann", Level.NO_AUTH_NO_PRIV, b"", View.READ, NAME), Access.NO_SUCH_CONTEXT)
        agent.respond(NOW, b"".join(snmpsec.binding(one.name, 4, b"hello") for one in names), salt)
        self.assertTrue(agent.message())
        with self.assertRaises(snmpsec.BadBindings):
            agent.respond(NOW, b"no", salt)

    def test_a_manager_tells_what_replay_prints(self):
        printed = (FOLDER / "printed.txt").read_text().splitlines()
        with Manager(CONFIG, (FOLDER / "begin.clocks").read_bytes()) as manager:
            for i, (moment, datagram) in enumerate(LOG):
                refusal, info = manager.take(moment, datagram), manager.info()
                told = f"refused {int(refusal)}" if refusal else f"accepted {LEVELS[info.level]} {info.pdu:x}"
                self.assertTrue(printed[i].startswith(f"{i + 1} {moment} {told}"), printed[i])
            self.assertEqual(manager.saved().decode().splitlines(), printed[len(LOG) :])
            self.assertEqual(manager.clock(ENGINE), (1, 3))


class Exchange(unittest.TestCase):
    def discover(self, agent, manager):
        manager.discover(1)
        self.assertIs(agent.take(NOW, manager.message()), Refusal.UNKNOWN_ENGINE)
        self.assertIsNone(manager.take(NOW, agent.message()))
        self.assertEqual(manager.reply(), (False, 4))
        self.assertEqual(manager.part(Part.ENGINE), ENGINE)

    def learn(self, agent, manager, message):
        self.assertIsNone(manager.clock(ENGINE))
        self.assertIs(agent.take(NOW, message), Refusal.NOT_IN_WINDOW)
        self.assertEqual(agent.counters().not_in_windows, 1)
        self.assertIsNone(manager.take(NOW, agent.message()))
        self.assertEqual(manager.reply().report_of, 2)
        self.assertEqual(manager.clock(ENGINE), (BOOTS, TIME))

    def respond(self, agent, manager):
        agent.respond(NOW, HELLO, 7)
        self.assertIsNone(manager.take(NOW, agent.message()))
        self.assertTrue(manager.reply().is_response)
        self.assertEqual(snmpsec.bindings(manager.part(Part.BINDINGS)), [(NAME, 4, b"hello")])

    def notify(self, agent, manager, user, level):
        agent.notify(NOW, user=user, level=level, octets=HELLO, salt=99, message_id=9, request_id=8, context_engine=ENGINE)
        self.assertIsNone(manager.take(NOW, agent.message()))
        self.assertEqual(manager.info(), (level, Pdu.TRAP, 8, 0, 0, 9))
        self.assertEqual(manager.part(Part.BINDINGS), HELLO)

    def test_each_user_is_answered_at_each_level(self):
        for user in (b"ann", b"bob", b"sam"):
            for level in Level:
                with self.subTest(user=user, level=level), Agent(CONFIG, ENGINE, BOOTS, NOW - TIME) as agent, Manager(CONFIG) as manager:
                    self.discover(agent, manager)
                    if level > Level.NO_AUTH_NO_PRIV:
                        self.learn(agent, manager, ask(manager, 2, user, level))
                    self.assertIsNone(agent.take(NOW, ask(manager, 3, user, level)))
                    self.assertEqual(agent.info(), (level, Pdu.GET, 3, 0, 0, 3))
                    self.respond(agent, manager)
                    self.notify(agent, manager, user, level)

    def test_who_may_see_what(self):
        with Agent(ALLOWING, ENGINE, BOOTS, NOW) as agent, Manager(ALLOWING) as manager:
            self.assertIsNone(agent.take(NOW, ask(manager, 1, b"ann", Level.NO_AUTH_NO_PRIV)))
            self.assertTrue(agent.allows(View.READ, NAME))
            self.assertIs(agent.access(View.READ, NAME), Access.ALLOWED)
            self.assertIs(agent.access(View.WRITE, NAME), Access.NO_SUCH_VIEW)
            self.assertFalse(agent.access(View.READ, (1, 3, 7)))
            self.assertFalse(agent.allows(View.READ, (1, 3, 7)))
            self.assertEqual(agent.next(View.READ, NAME), NAME)
            self.assertEqual(agent.next(View.READ, (1, 3, 5)), (1, 3, 6, 1, 2, 1, 1))
            self.assertIsNone(agent.next(View.READ, (1, 3, 7)))
            self.assertIsNone(agent.next(View.WRITE, NAME))
            self.assertTrue(agent.user_access(b"ann", Level.AUTH_PRIV, b"", View.READ, NAME))
            self.assertIs(agent.user_access(b"eve", Level.AUTH_PRIV, b"", View.READ, NAME), Access.NO_GROUP_NAME)

    def test_clocks_are_saved_beside_the_request(self):
        with Manager(CONFIG, snmpsec.NO_CLOCKS + b"0102030405 1 9 7\n", NOW) as manager:
            manager.absorb(b"snmp-clocks 1\n0102030405 1 8\n0102030406 2 3\n", NOW)
            manager.discover(1)
            request = manager.message()
            self.assertEqual(manager.saved(), snmpsec.NO_CLOCKS + b"0102030405 1 9 7\n0102030406 2 3 1000\n")
            self.assertEqual(manager.message(), request)
            self.assertIsNone(manager.reply())
            with self.assertRaises(snmpsec.BadClocks):
                manager.absorb(b"no", NOW)
        many = snmpsec.NO_CLOCKS + b"".join(b"010203%04x 1 2 3\n" % i for i in range(5000))
        with Manager(CONFIG, many, NOW) as manager:
            self.assertGreater(len(many), snmpsec.LARGEST)
            self.assertEqual(manager.saved(), many)


class Sealed(unittest.TestCase):
    """ScopedPDUs that are sealed under any header, as no well-behaved manager sends them."""

    HEADER = {"engine": ENGINE, "boots": BOOTS, "time": TIME, "user": b"ann", "level": Level.AUTH_PRIV, "salt": 1, "message_id": 7}
    LEAST, GREATEST = -(1 << 31), (1 << 31) - 1

    def setUp(self):
        self.agent, self.manager = Agent(CONFIG, ENGINE, BOOTS, NOW - TIME), Manager(CONFIG)
        for it in (self.agent, self.manager):
            self.addCleanup(it.close)

    def scoped(self, **more):
        return snmpsec.scoped_pdu(**({"pdu": Pdu.GET_BULK, "octets": ASKED, "request_id": -1, "context_engine": ENGINE} | more))

    def sealed(self, scoped, **more):
        self.manager.seal(scoped, **(self.HEADER | more))
        return self.manager.message()

    def test_an_agent_reads_what_was_sealed(self):
        scoped = self.scoped(error_status=self.LEAST, error_index=self.GREATEST)
        for level in Level:
            self.assertIsNone(self.agent.take(NOW, self.sealed(scoped, level=level, max_size=484)))
            self.assertEqual((level, Pdu.GET_BULK, -1, self.LEAST, self.GREATEST, 7), self.agent.info())
            self.assertEqual((484, ASKED), (self.agent.max_size(), self.agent.part(Part.BINDINGS)))
            self.assertIsNone(self.manager.clock(ENGINE))
        self.assertEqual((1, 0), (self.agent.fits(NOW, HELLO, 484), self.agent.fits(NOW, snmpsec.binding(NAME, 4, bytes(600)), 484)))
        self.assertRaises(snmpsec.BadBindings, self.agent.fits, NOW, b"junk", 484)
        self.agent.respond(NOW, HELLO, 2)
        self.assertIsNone(self.manager.take(NOW, self.agent.message()))
        self.assertEqual((-1, 7), (self.manager.info().request_id, self.manager.info().message_id))
        self.assertIsNone(self.manager.reply())

    def test_it_is_reported_where_it_asks_for_that(self):
        for is_reportable in (False, True):
            late = self.sealed(self.scoped(), time=TIME + 151, is_reportable=is_reportable)
            self.assertIs(Refusal.NOT_IN_WINDOW, self.agent.take(NOW, late))
            self.assertEqual(is_reportable, self.agent.message() is not None)

    def test_what_is_out_of_range(self):
        scoped = self.scoped()
        for more in ({"max_size": 483}, {"max_size": 1 << 31}, {"message_id": 1 << 31}, {"boots": 1 << 31}, {"time": 1 << 31}, {"level": 4},
                     {"user": bytes(33)}, {"time": -1}):
            self.assertRaises(snmpsec.BadArgument, self.sealed, scoped, **more)
        self.assertRaises(snmpsec.BadArgument, self.sealed, scoped[:-1])
        for more in ({"request_id": 1 << 31}, {"error_status": self.LEAST - 1}, {"pdu": 0xA4}):
            self.assertRaises(snmpsec.BadArgument, self.scoped, **more)
        self.assertRaises(snmpsec.BadBindings, self.scoped, octets=b"junk")
        for raised in (lambda: self.scoped(context_name=bytes(snmpsec.LARGEST)), lambda: self.sealed(scoped, engine=bytes(snmpsec.LARGEST))):
            with self.assertRaises(snmpsec.Refused) as refused:
                raised()
            self.assertIs(Refusal.TOO_LARGE, refused.exception.refusal)
        with self.assertRaises(snmpsec.Refused) as refused:
            self.sealed(scoped, user=b"eve")
        self.assertIs(Refusal.UNKNOWN_USER, refused.exception.refusal)


class Faults(unittest.TestCase):
    def test_each_has_its_name(self):
        with self.assertRaises(snmpsec.BadConfiguration) as raised:
            Agent(b"no", ENGINE, 1, 0)
        self.assertEqual(raised.exception.fault.reason, snmpsec.ConfigReason.NO_TOML)
        misspelt = ALLOWING + b'[[user]]\nname = "bob"\nauht = "md5"\n'
        with self.assertRaisesRegex(snmpsec.BadConfiguration, "user 1: auht: not a key of this table, the nearest is auth") as raised:
            Manager(misspelt)
        self.assertEqual(raised.exception.fault[:4], (snmpsec.ConfigTable.USER_TABLE, 1, snmpsec.ConfigReason.UNLISTED_KEY, snmpsec.ConfigKey.NO_KEY))
        self.assertEqual(raised.exception.fault.text, snmpsec.config_fault(bytearray(misspelt)).text)
        self.assertIsNone(snmpsec.config_fault(ALLOWING))
        for engine in (b"1234", bytes(8), b"\xff" * 8):
            with self.assertRaises(snmpsec.BadArgument):
                Agent(CONFIG, engine, 1, 0)
        with self.assertRaisesRegex(snmpsec.BadClocks, "saves no clocks"):
            Manager(CONFIG, b"no")
        for name in ((3, 1), (1, 1 << 32), (1, -1)):
            with self.assertRaises(snmpsec.BadArgument):
                snmpsec.binding(name, 4)
        with self.assertRaises(snmpsec.BadBindings):
            snmpsec.bindings(b"no")
        self.assertTrue(issubclass(snmpsec.BadArgument, ValueError) and issubclass(snmpsec.NothingTaken, LookupError))

    def test_of_an_agent_and_a_manager(self):
        with Agent(CONFIG, ENGINE, BOOTS, 0) as agent, Manager(CONFIG) as manager:
            with self.assertRaises(snmpsec.NothingTaken):
                agent.access(View.READ, NAME)
            with self.assertRaises(snmpsec.NothingTaken):
                agent.respond(NOW, HELLO, 1)
            with self.assertRaises(snmpsec.Refused) as told:
                ask(manager, 1, b"eve", Level.AUTH_PRIV)
            self.assertIs(told.exception.refusal, Refusal.UNKNOWN_USER)
            self.assertEqual(str(told.exception), "its user isn't known")
            for message_id, more in ((1 << 31, {}), (-1, {}), (1, {"salt": 1 << 64}), (1, {"engine": b"1"}), (1, {"engine": bytes(33)})):
                with self.subTest(message_id=message_id, more=more), self.assertRaises(snmpsec.BadArgument):
                    ask(manager, message_id, b"ann", Level.AUTH_PRIV, **more)
            with self.assertRaises(snmpsec.BadBindings):
                ask(manager, 1, b"ann", Level.AUTH_PRIV, octets=b"no")
            with self.assertRaises(snmpsec.BadArgument):
                agent.take(-1, b"")
            with self.assertRaises(TypeError):
                agent.take("now", b"")
        with self.assertRaisesRegex(ValueError, "closed"):
            agent.take(NOW, b"")
        agent.close()


# Of the password maplesyrup the key, and that key localised to the engine 00..02 (RFC 3414, sections A.3.1 and A.3.2; the third row by
# hashlib); and of a key of octets 0b how many they are and the code of Hi There (RFC 2202, sections 2 and 3; RFC 4231, section 4.2).
VECTORS = {
    AuthProtocol.MD5: ("9faf3283884e92834ebc9847d8edd963", "526f5eed9fcce26f8964c2930787d82b", 16, "9294727a3638bb1c13f48ef8"),
    AuthProtocol.SHA1: ("9fb5cc0381497b3793528939ff788d5d79145211", "6695febc9288e36282235fc7151f128497b38f3f", 20, "b617318655057264e28bc0b6"),
    AuthProtocol.SHA256: ("ab51014d1e077f6017df2b12bee5f5aa72993177e9bb569c4dff5a4ca0b4afac",
                          "8982e0e549e866db361a6b625d84cccc11162d453ee8ce3a6445c2d6776f0f8b", 20,
                          "b0344c61d8db38535ca8afceaf0bf12b881dc200c9833da7"),
}

# NIST SP 800-38A, section F.3.13: the initialization vector 00 01 to 0f is boots, time and salt. Each front is sealed to the front.
KEY = bytes.fromhex("2b7e151628aed2a6abf7158809cf4f3c")
SALT = bytes(range(8, 16))
PLAIN = bytes.fromhex("6bc1bee22e409f96e93d7e117393172aae2d8a571e03ac9c9eb76fac45af8e51")
SEALED = bytes.fromhex("3b3fd92eb72dad20333449f8e83cfb4ac8a64537a0b3a93fcde3cdad9f1ce58b")


class Keys(unittest.TestCase):
    def test_keys_and_codes(self):
        for protocol, (key, localised, key_len, code) in VECTORS.items():
            self.assertEqual(snmpsec.password_key(protocol, b"maplesyrup").hex(), key)
            self.assertEqual(snmpsec.localise(protocol, bytes.fromhex(key), bytes(11) + b"\2").hex(), localised)
            self.assertEqual(snmpsec.mac(protocol, b"\x0b" * key_len, b"Hi ", 0, b"There").hex(), code)
            for zeros in range(25):
                whole = hmac.new(ENGINE, b"front" + bytes(zeros) + b"back", protocol.name.lower()).digest()
                self.assertEqual(snmpsec.mac(protocol, ENGINE, b"front", zeros, b"back"), whole[: len(code) // 2])

    def test_sealed_texts(self):
        for length in range(len(PLAIN) + 1):
            self.assertEqual(snmpsec.seal_text(KEY, 0x00010203, 0x04050607, SALT, PLAIN[:length]), SEALED[:length])
            self.assertEqual(snmpsec.open_text(KEY, 0x00010203, 0x04050607, SALT, SEALED[:length]), PLAIN[:length])
        zeros = bytearray(20)
        self.assertEqual(snmpsec.open_text(KEY, 1, 2, SALT, snmpsec.seal_text(KEY, 1, 2, SALT, zeros)), bytes(20))
        self.assertEqual(zeros, bytes(20))

    def refuses(self, call, *arguments):
        with self.assertRaises(snmpsec.BadArgument):
            call(*arguments)

    def test_what_is_out_of_range(self):
        for protocol in (0, 1, 4, 6, 0x10002):
            self.refuses(snmpsec.password_key, protocol, b"maplesyrup")
            self.refuses(snmpsec.localise, protocol, KEY, ENGINE)
            self.refuses(snmpsec.mac, protocol, KEY, b"", 0, b"")
        for protocol in AuthProtocol:
            self.refuses(snmpsec.password_key, protocol, b"maplesy")
            self.refuses(snmpsec.localise, protocol, bytes(33), ENGINE)
            self.refuses(snmpsec.localise, protocol, KEY, ENGINE[:4])
            self.refuses(snmpsec.localise, protocol, KEY, bytes(33))
            self.refuses(snmpsec.mac, protocol, bytes(33), b"", 0, b"")
            self.refuses(snmpsec.mac, protocol, KEY, b"", 25, b"")
            self.refuses(snmpsec.mac, protocol, KEY, b"", -1, b"")
        for call in (snmpsec.seal_text, snmpsec.open_text):
            for key_len, salt_len in ((15, 8), (17, 8), (0, 8), (16, 7), (16, 9), (16, 0)):
                self.refuses(call, bytes(key_len), 1, 2, bytes(salt_len), PLAIN)
            self.refuses(call, KEY, 1 << 32, 2, SALT, PLAIN)


class Files(unittest.TestCase):
    def test_a_path_of_each_kind(self):
        with tempfile.TemporaryDirectory() as folder:
            path = pathlib.Path(folder, "agent.toml")
            path.write_bytes(CONFIG)
            for one in (path, str(path)):
                Agent.from_file(one, ENGINE, 1, 0).close()
                Manager.from_file(one).close()
            with self.assertRaises(IsADirectoryError):
                Agent.from_file(folder, ENGINE, 1, 0)
            with self.assertRaises(FileNotFoundError):
                Agent.from_file(path.with_name("none"), ENGINE, 1, 0)

    def test_what_is_nested_deep_is_refused_and_brackets_in_texts_are_not(self):
        many = b"[" * 12 + b"{" * 12
        text = (b'# ' + many + b' "\n[[user]]\nname = "' + many + b'\\"]"\nauth = \'md5\' # \'\nauth-password = """\n' + many + b'"" ' + b"." * 99
                + b"\n'''\"\"\"\npriv-password = '''" + many * 3 + b"'\n''' # \"\n")
        self.assertIsNone(snmpsec.config_fault(text))
        self.assertIsNone(snmpsec.config_fault(b"user = [" + b", ".join(b'{ name = "u%d" }' % n for n in range(99)) + b"]\n"))
        for deep in (b"a." * 17 + b"a = 1\n", b"[" + b"b." * 9 + b"b]\n" + b"a." * 9 + b"a = 1", b"a = " + b"[\n" * 17, b"a = " + b"{ b.c = " * 9):
            fault = snmpsec.config_fault(text + deep)
            self.assertEqual((fault.reason, fault.text.partition(":")[0]), (snmpsec.ConfigReason.NO_TOML, "refused config toml\nnested more than 16 deep"))
            with self.assertRaises(snmpsec.BadConfiguration):
                Manager(text + deep)
        self.assertEqual(snmpsec.config_fault(b"a." * 15 + b"a = 1\n").reason, snmpsec.ConfigReason.BAD_TOP)

    def test_what_can_be_written_to_is_handed_in_as_it_lies(self):
        config = bytearray(CONFIG)
        for lent in (config, memoryview(config), memoryview(config)[1:-1], memoryview(bytearray(8)).cast("I")):
            octets, size = snmpsec._lent(lent)
            octets[0] = b"#"
            self.assertEqual((size, bytes(memoryview(lent).cast("B"))[:1]), (memoryview(lent).nbytes, b"#"))
        for copied in (memoryview(CONFIG), memoryview(config)[::2]):
            self.assertEqual(snmpsec._lent(copied), (copied.tobytes(), len(copied)))
        self.assertIs(snmpsec._lent(CONFIG)[0], CONFIG)
        Agent(memoryview(bytearray(CONFIG)), memoryview(ENGINE), 1, 0).close()

    def test_a_bytearray_is_handed_in_as_it_lies(self):
        Agent(bytearray(CONFIG), bytearray(ENGINE), 1, 0).close()
        with self.assertRaises(snmpsec.BadArgument):
            Agent(bytearray(CONFIG), bytearray(4), 1, 0)


class Threads(unittest.TestCase):
    def together(self, work):
        faults = []

        def run():
            try:
                work()
            except Exception as fault:  # noqa: BLE001
                faults.append(fault)

        threads = [threading.Thread(target=run) for _ in range(4)]
        for thread in threads:
            thread.start()
        return threads, faults

    def test_four_on_one_agent(self):
        with Agent(CONFIG, ENGINE, 1, NOW - 3) as agent:

            def work():
                for _ in range(20):
                    for _, datagram in LOG:
                        agent.take(NOW, datagram)
                        agent.message()
                        agent.part(Part.BINDINGS)

            threads, faults = self.together(work)
            for thread in threads:
                thread.join()
            self.assertEqual(faults, [])
            self.assertEqual(agent.counters().unknown_engines, 4 * 20 * 6)

    def test_a_close_beside_calls(self):
        agent = Agent(CONFIG, ENGINE, BOOTS, 0)
        threads, faults = self.together(lambda: [agent.take(NOW, b"no message") for _ in range(100000)])
        agent.close()
        for thread in threads:
            thread.join()
        self.assertLessEqual({str(fault) for fault in faults}, {"closed"})


if __name__ == "__main__":
    unittest.main()
