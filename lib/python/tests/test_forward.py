"""A device's Trap goes to two receivers, as a Trap and as an Inform: python3 test_forward.py, with the library as test_snmpsec.py finds it."""
import unittest

import snmpsec
from snmpsec import (Access, Agent, BadConfiguration, Forwarder, ForwardEvent, Gate, InformMessage, Level, Manager, Part, Pdu, ReceiverTaken, Refusal,
                     TrapTaken)
from test_gate import GATE
from test_snmpsec import ALLOWING, BOOTS, ENGINE, NOW, TIME

FORWARD = GATE.replace(b'read = "all"', b'notify = "all"').replace(b'write = "all"\n', b"").replace(b"[[device]]", b"""traps = ["0.0.0.0:162"]
[[receiver]]
address = "192.0.2.50:162"
user = "ann"
level = "authPriv"
[[receiver]]
address = "192.0.2.51:162"
user = "ann"
level = "authPriv"
kind = "inform"
[[device]]""", 1)
MOMENT = 1000 * NOW
# coldStart of a device with the community "reads"
TRAP = bytes.fromhex("303f0201010405") + b"reads" + bytes.fromhex("a7330201070201000201003028300d06082b06010201010300430105"
                                                                   "3017060a2b06010603010104010006092b0601060301010501")
MESSAGES = (InformMessage.DISCOVERY, InformMessage.TIME, InformMessage.ITSELF)


class Forwarding(unittest.TestCase):
    """The devices' side is octets; the receivers are a manager and an agent of the library."""

    def setUp(self):
        self.forwarder, self.receiver = Forwarder(FORWARD, BOOTS, NOW - TIME), Agent(ALLOWING, ENGINE, 3, NOW - 50)
        self.addCleanup(self.forwarder.close)
        self.addCleanup(self.receiver.close)

    def begun(self):
        """The Trap that goes to the first receiver, and the Inform that begins for the second."""
        self.assertEqual(self.forwarder.take_trap(0, TRAP), TrapTaken(ForwardEvent.WAITS, 0))
        self.assertEqual((self.forwarder.waiting(), self.forwarder.due()), (1, 0))
        trap, inform = self.forwarder.next(MOMENT, 1, 1), self.forwarder.next(MOMENT, 2, 2)
        self.assertEqual((trap.event, trap.receiver, trap.notification, trap.inform), (ForwardEvent.TO_RECEIVER, 0, 0, None))
        self.assertEqual((inform.event, inform.receiver, inform.notification, inform.datagram), (ForwardEvent.INFORM_BEGINS, 1, 0, None))
        self.assertEqual((self.forwarder.waiting(), self.forwarder.informs()), (0, 1))
        return trap.datagram, inform.inform

    def answer(self, datagram):
        """What the second receiver's engine sends back."""
        if self.receiver.take(NOW, datagram) is None:
            self.assertEqual(self.receiver.info().pdu, Pdu.INFORM)
            self.assertEqual(self.receiver.part(Part.CONTEXT_NAME), b"pdu")
            self.receiver.respond(NOW, self.receiver.part(Part.BINDINGS), 7)
        return self.receiver.message()

    def test_a_trap_goes_to_the_first_receiver(self):
        trap, _ = self.begun()
        with Manager(ALLOWING) as manager:
            self.assertIsNone(manager.take(NOW, trap))
            self.assertEqual((manager.info().pdu, manager.info().level, manager.part(Part.CONTEXT_NAME)), (Pdu.TRAP, Level.AUTH_PRIV, b"pdu"))

    def test_an_inform_is_acknowledged_by_the_second(self):
        _, inform = self.begun()
        for number, message in enumerate(MESSAGES):
            sent = self.forwarder.next(MOMENT, 10 + number, 10 + number)
            self.assertEqual((sent.event, sent.message, sent.inform, sent.receiver), (ForwardEvent.INFORM_TO_RECEIVER, message, inform, 1))
            self.assertIsNone(self.forwarder.next(MOMENT, 20, 20), "it waits for an answer")
            answer = self.answer(sent.datagram)
            self.assertEqual(self.forwarder.take_receiver(MOMENT, 0, answer), ReceiverTaken(ForwardEvent.NO_ANSWER, None, 0), "another receiver's")
            event = ForwardEvent.ACKNOWLEDGED if message is InformMessage.ITSELF else ForwardEvent.HEARD
            self.assertEqual(self.forwarder.take_receiver(MOMENT, 1, answer), ReceiverTaken(event, inform, 0))
            self.assertEqual(self.forwarder.take_receiver(MOMENT, 1, answer).event, ForwardEvent.NO_ANSWER, "a second time it isn't one")
        self.assertEqual((self.forwarder.informs(), self.forwarder.due()), (0, None))

    def test_an_inform_that_nobody_answers_is_given_up(self):
        _, inform = self.begun()
        for number in range(3):
            sent = self.forwarder.next(MOMENT + 5000 * number, 10 + number, 10 + number)
            self.assertEqual((sent.event, sent.message), (ForwardEvent.INFORM_TO_RECEIVER, InformMessage.DISCOVERY))
            self.assertEqual(self.forwarder.due(), MOMENT + 5000 * (number + 1))
        given_up = self.forwarder.next(MOMENT + 15000, 20, 20)
        self.assertEqual((given_up.event, given_up.inform, given_up.receiver, given_up.counter), (ForwardEvent.INFORM_GIVEN_UP, inform, 1, 0))
        self.assertIsNone(self.forwarder.due())

    def test_a_forged_answer_ends_nothing(self):
        _, inform = self.begun()
        for number in range(2):
            self.forwarder.take_receiver(MOMENT, 1, self.answer(self.forwarder.next(MOMENT, 10 + number, 10 + number).datagram))
        sent = self.forwarder.next(MOMENT, 12, 12)
        answer = bytearray(self.answer(sent.datagram))
        answer[-1] ^= 1
        self.assertIs(self.forwarder.take_receiver(MOMENT, 1, answer), Refusal.WRONG_DIGEST)
        answer[-1] ^= 1
        self.assertEqual(self.forwarder.take_receiver(MOMENT, 1, answer), ReceiverTaken(ForwardEvent.ACKNOWLEDGED, inform, 0))

    def test_an_engine_that_refuses_its_user_ends_it(self):
        _, inform = self.begun()
        with Agent(ALLOWING.replace(b"ann", b"bob"), ENGINE, 3, NOW - 50) as other:
            self.receiver.close()
            self.receiver = other
            sent = self.forwarder.next(MOMENT, 10, 10)
            self.forwarder.take_receiver(MOMENT, 1, self.answer(sent.datagram))
            taken = self.forwarder.take_receiver(MOMENT, 1, self.answer(self.forwarder.next(MOMENT, 11, 11).datagram))
            self.assertEqual(taken, ReceiverTaken(ForwardEvent.HEARD, inform, 0), "anybody can have sent a Report without authentication")
            events = [self.forwarder.next(MOMENT + 5000 * number, 20 + number, 20 + number) for number in range(1, 4)]
            self.assertEqual((events[-1].event, events[-1].counter), (ForwardEvent.INFORM_GIVEN_UP, 3), "it is reported as a hint")

    def test_what_is_no_notification_is_told(self):
        for device, datagram, event in ((0, b"no message", ForwardEvent.UNREADABLE), (1, TRAP, ForwardEvent.OTHER_COMMUNITY),
                                        (0, TRAP.replace(b"\xa7\x33", b"\xa6\x33"), ForwardEvent.NOT_TRAP)):
            self.assertEqual(self.forwarder.take_trap(device, datagram), TrapTaken(event, None))
        self.assertIs(self.forwarder.take_receiver(MOMENT, 1, b"no message"), Refusal.NOT_MESSAGE)
        self.assertIsNone(self.forwarder.next(MOMENT, 1, 1))

    def test_the_configuration_says_who_is_notified_how(self):
        with Gate(FORWARD, BOOTS, NOW) as gate:
            self.assertEqual(gate.traps(), ["0.0.0.0:162"])
            self.assertEqual(gate.receivers(), [snmpsec.GateReceiver("192.0.2.50:162", b"ann", "authPriv", "trap"),
                                                snmpsec.GateReceiver("192.0.2.51:162", b"ann", "authPriv", "inform")])
            self.assertEqual([gate.may_notify(1, 0, name) for name in ((1, 3, 6, 1, 2), (1, 3, 5))], [Access.ALLOWED, Access.NOT_IN_VIEW])
            with self.assertRaises(snmpsec.NothingTaken):
                gate.may_notify(2, 0, (1, 3))
        with self.assertRaisesRegex(BadConfiguration, "kind"):
            Forwarder(FORWARD.replace(b'kind = "inform"', b'kind = "letter"'), BOOTS, NOW)


if __name__ == "__main__":
    unittest.main()
