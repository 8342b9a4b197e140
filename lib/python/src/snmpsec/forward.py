"""Traps of devices that speak SNMPv2c, sent on to receivers that speak SNMPv3, as Traps or as Informs, without sockets. Not proved; the library decides.

    with Forwarder.from_file("gate.toml", boots, started) as forwarder:
        forwarder.take_trap(device, datagram)               # what becomes of a device's Trap
        forwarder.take_receiver(now, receiver, datagram)    # what a receiver says to an Inform, or to what was asked before it
        while (sent := forwarder.next(now, salt, ask_id)) is not None: ..
        forwarder.due()                                     # when next has something to do by time alone, or None

The configuration is a gateway's, and so are the boots. Moments are milliseconds from one beginning. What has come is taken before `next` is called. A
salt never comes twice, also not after a restart, and neither does an ask_id.
"""
from __future__ import annotations

import ctypes
from enum import IntEnum
from typing import NamedTuple, Optional, Union

from . import BadConfiguration, Buffer, NothingTaken, Path, Refusal, _done, _Handled, _calls, _octets, _ranged, _refusal, wiped
from .gate import gate_fault

__all__ = ["ForwardEvent", "Forwarded", "Forwarder", "InformMessage", "ReceiverTaken", "TrapTaken"]


class ForwardEvent(IntEnum):
    """What becomes of a datagram, and what goes out."""

    #: A device's isn't a message of SNMPv2c; has no SNMPv2-Trap; its second binding isn't snmpTrapOID.0; or it hasn't the device's community.
    UNREADABLE = 20
    NOT_TRAP = 21
    NO_TRAP_OID = 22
    OTHER_COMMUNITY = 23
    #: No receiver may be notified of it; as many wait as may; or it waits to be sent.
    FOR_NOBODY = 24
    NO_ROOM = 25
    WAITS = 26
    #: A Trap goes to a receiver, or isn't sent to it.
    TO_RECEIVER = 27
    UNSENT = 30
    #: A receiver's is no answer to what is waited for; is one to what was sent last for an Inform, which goes on; acknowledges an Inform; or its engine
    #: refuses it.
    NO_ANSWER = 50
    HEARD = 51
    ACKNOWLEDGED = 52
    DENIED = 53
    #: A notification begins to wait for its acknowledgement; a datagram goes to a receiver for an Inform; as many Informs wait as may; an Inform was
    #: sent as often as it may be; or nothing can be sealed for its receiver.
    INFORM_BEGINS = 54
    INFORM_TO_RECEIVER = 55
    INFORM_NO_ROOM = 56
    INFORM_GIVEN_UP = 57
    INFORM_UNSENT = 60


class InformMessage(IntEnum):
    """What a receiver is sent for an Inform (RFC 3414, section 4): its engine is discovered, is asked for its time, and gets the Inform."""

    DISCOVERY = 1
    TIME = 2
    ITSELF = 3


class TrapTaken(NamedTuple):
    """What became of a device's datagram, and with WAITS the number of the notification."""

    event: ForwardEvent
    notification: Optional[int]


class ReceiverTaken(NamedTuple):
    """What became of a receiver's datagram, for an Inform, if it is one's answer. DENIED has the counter that the Report told (1 to 9), or 0."""

    event: ForwardEvent
    inform: Optional[int]
    counter: int


class Forwarded(NamedTuple):
    """What `next` did for a receiver: of a notification, of an Inform, or with INFORM_BEGINS of both. TO_RECEIVER and INFORM_TO_RECEIVER have the
    datagram, UNSENT and INFORM_UNSENT say why, and INFORM_GIVEN_UP has the counter (1 to 9) of a Report that anybody can have sent, or 0."""

    event: ForwardEvent
    receiver: int
    notification: Optional[int]
    inform: Optional[int]
    message: Optional[InformMessage]
    datagram: Optional[bytes]
    counter: int
    why: Optional[Refusal]


_OF_NOTIFICATIONS = {ForwardEvent.TO_RECEIVER, ForwardEvent.UNSENT, ForwardEvent.INFORM_BEGINS, ForwardEvent.INFORM_NO_ROOM}
_OF_INFORMS = {ForwardEvent.HEARD, ForwardEvent.ACKNOWLEDGED, ForwardEvent.DENIED, ForwardEvent.INFORM_BEGINS, ForwardEvent.INFORM_TO_RECEIVER,
               ForwardEvent.INFORM_GIVEN_UP, ForwardEvent.INFORM_UNSENT}


class Forwarder(_Handled):
    """A forwarder of a gateway's configuration in TOML, with its boots, whose agent started at a moment in seconds."""

    _kind = "forward"

    def __init__(self, config: Buffer, boots: int, started: int):
        super().__init__(config, _ranged(boots), _ranged(started, 64))

    @classmethod
    def from_file(cls, path: Path, boots: int, started: int) -> "Forwarder":
        return wiped(path, lambda config: cls(config, boots, started))

    @staticmethod
    def _refused(config: Buffer, words: str) -> BadConfiguration:
        return BadConfiguration(gate_fault(config) or words)

    def take_trap(self, device: int, datagram: Buffer) -> TrapTaken:
        """Takes a datagram of the device at this position, from 0. That it came from this device rests on the caller."""
        number = _calls.Enumeration()
        _done(self._call("take_trap", _ranged(device, 64), *_octets(datagram), ctypes.byref(number)))
        event = ForwardEvent(number.value)
        return TrapTaken(event, self._numbers().notification if event is ForwardEvent.WAITS else None)

    def take_receiver(self, now: int, receiver: int, datagram: Buffer) -> Union[ReceiverTaken, Refusal]:
        """Takes a datagram of the receiver at this position, from 0."""
        number = _calls.Enumeration()
        answer = self._call("take_receiver", _ranged(now, 64), _ranged(receiver, 64), *_octets(datagram), ctypes.byref(number))
        refusal = _refusal(answer)
        if refusal is not None:
            return refusal
        event, info = ForwardEvent(number.value), self._numbers()
        return ReceiverTaken(event, info.inform if event in _OF_INFORMS else None, info.counter)

    def next(self, now: int, salt: int, ask_id: int) -> Optional[Forwarded]:
        """Does the first thing that is due, or None. It is called until then, each time with another salt and ask_id."""
        number, why = _calls.Enumeration(), ctypes.c_int()
        _done(self._call("next", _ranged(now, 64), _ranged(salt, 64), _ranged(ask_id), ctypes.byref(number), ctypes.byref(why)))
        if not number.value:
            return None
        event, info = ForwardEvent(number.value), self._numbers()
        return Forwarded(event, info.receiver, info.notification if event in _OF_NOTIFICATIONS else None, info.inform if event in _OF_INFORMS else None,
                         InformMessage(info.message) if info.message else None, self.message(), info.counter,
                         Refusal(why.value) if why.value else None)

    def due(self) -> Optional[int]:
        """The moment from which on `next` has something to do by time alone, or None."""
        at = ctypes.c_uint64()
        try:
            _done(self._call("due", ctypes.byref(at)))
        except NothingTaken:
            return None
        return at.value

    def waiting(self) -> int:
        """How many notifications wait to be sent."""
        return int(self._numbers().waiting)

    def informs(self) -> int:
        """How many Informs wait to be acknowledged."""
        return int(self._numbers().informs)

    def _numbers(self) -> _calls.ForwardInfo:
        out = _calls.ForwardInfo()
        _done(self._call("numbers", ctypes.byref(out)))
        return out
