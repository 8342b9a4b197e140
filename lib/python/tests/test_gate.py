"""A gateway between a manager of the library and a device that speaks SNMPv2c: python3 test_gate.py, with the library as test_snmpsec.py finds it."""
import pathlib
import tempfile
import unittest

import snmpsec
from snmpsec import Ended, Gate, GateEvent, Level, Manager, Misfit, Part, Pdu, Refusal, datagram_user, gate_fault
from test_snmpsec import ALLOWING, BOOTS, HELLO, NOW, TIME, ask

GATE = b"""
[gate]
engine = "80001f8804676174652d31"
boots = "/var/lib/boots"
listen = ["192.0.2.1:161", "[2001:db8::1]:161"]
[[device]]
context = "pdu"
address = "10.1.0.7:161"
community = "reads"
[[user]]
name = "ann"
auth = "sha256"
auth-password = "maplesyrup"
priv-password = "syrupmaple"
[[group]]
model = 3
name = "ann"
group = "all"
[[access]]
group = "all"
prefix = ""
model = 3
level = "noAuthNoPriv"
match = "prefix"
read = "all"
write = "all"
[[family]]
view = "all"
subtree = "1.3.6.1"
include = true
"""
# two views that no family row has, of which rows name the first twice
VIEWS = GATE + b"".join(
    b"[[access]]\ngroup = 'all'\nprefix = '%d'\nmodel = 3\nlevel = 'authPriv'\nmatch = 'exact'\nread = '%s'\n" % (number, view)
    for number, view in enumerate((b"none", b"other one", b"all", b"none", b""))
)
GATE_ENGINE, MOMENT = bytes.fromhex("80001f8804676174652d31"), 1000 * NOW


def element(tag, *parts):
    """An element with fewer than 128 octets."""
    content = b"".join(parts)
    return bytes([tag, len(content)]) + content


def answered(asked, octets):
    """The Response of a device to a datagram, of these bindings: its front, up to the PDU, and its request-id are copied."""
    pdu = 7 + asked[6]
    front, number = asked[2:pdu], asked[pdu + 2 : pdu + 4 + asked[pdu + 3]]
    return element(0x30, front, element(0xA2, number, bytes.fromhex("020100020100"), element(0x30, octets)))


class Gateway(unittest.TestCase):
    """A manager asks a device that speaks SNMPv2c, through a gateway."""

    def setUp(self):
        self.gate, self.manager = Gate(GATE, BOOTS, NOW - TIME), Manager(ALLOWING)
        self.addCleanup(self.gate.close)
        self.addCleanup(self.manager.close)

    def ask(self, number, level, context=b"pdu"):
        return ask(self.manager, number, b"ann", level, engine=GATE_ENGINE, context_name=context)

    def learn(self):
        request = self.ask(1, Level.AUTH_NO_PRIV)
        self.assertEqual(datagram_user(request), b"ann")
        self.assertEqual(self.gate.take_client(MOMENT, b"client", request), Refusal.NOT_IN_WINDOW)
        self.manager.take(NOW, self.gate.message())
        self.assertEqual(self.manager.reply(), snmpsec.Reply(False, 2))
        self.assertEqual(self.gate.counters().not_in_windows, 1)

    def test_a_request_goes_to_its_device_and_back(self):
        self.learn()
        for number, level in (2, Level.NO_AUTH_NO_PRIV), (3, Level.AUTH_PRIV):
            message = self.ask(number, level)
            self.assertEqual(self.gate.take_client(MOMENT, b"client", message), GateEvent.BEGINS)
            self.assertEqual(self.gate.take_client(MOMENT, bytearray(b"client"), message), GateEvent.JOINS)
            self.assertEqual(self.gate.waiting(), 1)
            sent = self.gate.next(MOMENT, 10 * number, number)
            self.assertEqual((sent.event, sent.device, sent.client, sent.why), (GateEvent.TO_DEVICE, 0, None, None))
            self.assertEqual((sent.again, sent.ended), (False, None))
            self.assertIn(b"reads", sent.datagram)
            self.assertGreater(self.gate.due(), MOMENT)
            answer = answered(sent.datagram, HELLO)
            self.assertEqual(self.gate.take_device(MOMENT, 0, answer), GateEvent.ANSWERS)
            self.assertEqual(self.gate.answer()[1:], (None, None, 0))
            self.assertEqual(self.gate.take_device(MOMENT, 0, answer), GateEvent.NOT_WAITED_FOR)
            self.assertEqual(self.gate.take_device(MOMENT, 0, b"junk"), GateEvent.UNREADABLE)
            for more in (1, 2):
                sent = self.gate.next(MOMENT, 10 * number + more, 1)
                self.assertEqual((sent.event, sent.client, sent.device), (GateEvent.TO_CLIENT, b"client", None))
                self.assertEqual((sent.error_status, sent.error_index, sent.ended), (0, 0, Ended.BY_ANSWER))
                self.assertIsNone(self.manager.take(NOW, sent.datagram))
                self.assertEqual(self.manager.part(Part.BINDINGS), HELLO)
            self.assertIsNone(self.gate.next(MOMENT, 10 * number + 3, 1))
            self.assertIsNone(self.gate.due())

    def test_an_answer_of_another_name_is_told(self):
        self.learn()
        self.gate.take_client(MOMENT, b"client", self.ask(2, Level.AUTH_PRIV))
        other = snmpsec.binding((1, 3, 6, 1), 4, b"router")
        self.assertEqual(self.gate.take_device(MOMENT, 0, answered(self.gate.next(MOMENT, 1, 1).datagram, other)), GateEvent.ANSWERS)
        self.assertEqual(self.gate.answer()[1:], (Misfit.OTHER_NAME, 1, 0))
        sent = self.gate.next(MOMENT, 2, 2)
        self.assertEqual((sent.error_status, sent.error_index), (5, 0))

    def test_a_message_has_its_pdu(self):
        self.learn()
        asked = self.ask(2, Level.AUTH_PRIV)
        for event in (GateEvent.BEGINS, GateEvent.JOINS):
            self.assertEqual(self.gate.take_client(MOMENT, b"client", asked), event)
            self.assertEqual(self.gate.pdu(), Pdu.GET)

    def test_a_request_has_its_client(self):
        self.learn()
        with self.assertRaises(snmpsec.NothingTaken):
            self.gate.asker()
        for number, client in (2, b"one"), (3, b""), (4, bytes(range(200))):
            asked = self.ask(number, Level.AUTH_PRIV)
            for event in (GateEvent.BEGINS, GateEvent.JOINS):
                self.assertEqual(self.gate.take_client(MOMENT, client, asked), event)
                self.assertEqual(self.gate.asker(), client)
                self.assertEqual(self.gate.lines(), [])

    def test_a_request_of_no_device_has_a_line(self):
        self.learn()
        self.gate.take_client(MOMENT, b"client", self.ask(2, Level.AUTH_PRIV, context=b"plant 7"))
        self.assertEqual(self.gate.next(MOMENT, 3, 3).event, GateEvent.TO_CLIENT)
        self.assertEqual(self.gate.lines("192.0.2.9:7"), ["unhandled, user ann from 192.0.2.9:7, context plant\\x207: snmpUnknownContexts"])
        self.assertEqual(self.gate.take_client(MOMENT, b"client", b"0"), snmpsec.Refusal.NOT_MESSAGE)
        self.assertEqual(self.gate.lines("192.0.2.9:7", b"0"), ["refused 1 NOT_MESSAGE from 192.0.2.9:7 user (none) (not authenticated)"])

    def test_bindings_that_are_hidden_are_counted(self):
        self.learn()
        self.gate.take_client(MOMENT, b"client", self.ask(2, Level.AUTH_PRIV))
        outside = snmpsec.binding((1, 0, 8802), 4, b"router")
        answer = answered(self.gate.next(MOMENT, 1, 1).datagram, HELLO + 2 * outside)
        self.assertEqual(self.gate.take_device(MOMENT, 0, answer), GateEvent.ANSWERS)
        self.assertEqual(self.gate.answer()[1:], (Misfit.TOO_MANY, None, 2))

    def test_a_device_is_given_up(self):
        self.learn()
        self.gate.take_client(MOMENT, b"client", self.ask(2, Level.AUTH_PRIV))
        now, events = MOMENT, []
        for number in range(100):
            sent = self.gate.next(now, number, number)
            if sent is not None:
                events.append(sent.event)
                continue
            now = self.gate.due()
            if now is None:
                break
        self.assertEqual(events, [GateEvent.TO_DEVICE] * 3 + [GateEvent.GIVEN_UP, GateEvent.UNANSWERED])

    def test_another_context_is_reported(self):
        self.learn()
        self.gate.take_client(MOMENT, b"client", self.ask(2, Level.AUTH_PRIV, context=b"other"))
        sent = self.gate.next(MOMENT, 1, 1)
        self.assertEqual((sent.error_status, sent.error_index), (None, None))
        self.assertEqual((sent.ended, sent.unhandled), (Ended.UNHANDLED, snmpsec.Unhandled.UNKNOWN_CONTEXTS))
        self.manager.take(NOW, sent.datagram)
        self.assertEqual(self.manager.report().counter, snmpsec.Unhandled.UNKNOWN_CONTEXTS)
        self.assertEqual(self.gate.counts().unknown_contexts, 1)

    def test_what_a_configuration_says(self):
        for gate in (self.gate, Gate.read(GATE)):
            self.assertEqual(gate.boots_path(), "/var/lib/boots")
            self.assertEqual(gate.listen(), ["192.0.2.1:161", "[2001:db8::1]:161"])
            [device] = gate.devices()
            self.assertEqual((device.context, device.address), (b"pdu", "10.1.0.7:161"))
            self.assertEqual(device.note, "access 0 gives a write view, and it has no write-community")
            self.assertEqual(gate.views_without_family(), [])
        for gate in (Gate(VIEWS, BOOTS, 0), Gate.read(VIEWS)):
            self.assertEqual(gate.views_without_family(), [b"none", b"other one"])

    def test_a_refused_configuration_has_its_cause(self):
        text = GATE.replace(b"address", b"adress")
        with self.assertRaisesRegex(snmpsec.BadConfiguration, "refused config device 0 BadKey\n"):
            Gate(text, 1, 0)
        with self.assertRaisesRegex(snmpsec.BadConfiguration, "refused config device 0 BadKey\n"):
            Gate.read(text)
        self.assertIn("the nearest is address", gate_fault(text))
        self.assertIsNone(gate_fault(GATE))
        with self.assertRaises(snmpsec.BadArgument):
            Gate(GATE, 1 << 31, 0)
        with self.assertRaises(snmpsec.BadArgument):
            self.gate.next(1 << 64, 1, 1)

    def test_a_file(self):
        with tempfile.TemporaryDirectory() as folder:
            path = pathlib.Path(folder, "gate.toml")
            path.write_bytes(GATE)
            with Gate.from_file(path, 1, 0) as gate:
                self.assertEqual(len(gate.devices()), 1)
            with self.assertRaises(ValueError):
                gate.due()


if __name__ == "__main__":
    unittest.main()
