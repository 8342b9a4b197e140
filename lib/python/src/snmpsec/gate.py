"""A gateway from managers that speak SNMPv3 to devices that speak SNMPv2c, without its sockets. Not proved; the library decides.

    with Gate.from_file("gate.toml", boots, started) as gate:
        gate.take_client(now, address, datagram)    # a Refusal, and its report is the message; or what becomes of it
        gate.take_device(now, device, datagram)
        while (sent := gate.next(now, salt, ask_id)) is not None: ..
        gate.due()                                  # when next has something to do by time alone, or None

Moments are milliseconds from one beginning. What has come is taken before `next` is called, devices' datagrams first. The contextName of a request
names its device. A salt never comes twice, also not after a restart, and neither does an ask_id.
"""
from __future__ import annotations

import ctypes
from enum import IntEnum
from typing import List, NamedTuple, Optional, Sequence, Union

from . import (Access, BadConfiguration, Buffer, NothingTaken, Path, Pdu, Refusal, Refused, Unhandled, _arcs, _copied, _Counting, _done, _calls, _Object,
               _octets, _ranged, _refusal, wiped)
from ._library import CALLS

__all__ = ["Ended", "Gate", "GateAnswer", "GateDevice", "GateEvent", "GateReceiver", "GateSent", "Misfit", "datagram_user", "gate_fault"]

_BAD_CONFIGURATION = -6
_LINES = 4096  # octets


class GateEvent(IntEnum):
    """What becomes of a datagram, and what goes out."""

    #: A client's begins a request; asks again what waits; has no room; or is a repeated Set whose outcome isn't known.
    BEGINS = 20
    JOINS = 21
    NO_ROOM = 22
    SET_OF_BEFORE = 23
    #: A device's is the answer to what it was asked; nothing waits for it; or it is no Response of SNMPv2c.
    ANSWERS = 24
    NOT_WAITED_FOR = 25
    UNREADABLE = 26
    #: A datagram goes to a client, or to a device; a device is given up; a message isn't answered.
    TO_CLIENT = 27
    TO_DEVICE = 28
    GIVEN_UP = 29
    UNANSWERED = 30


class Misfit(IntEnum):
    """Why the bindings of a device's answer don't answer what it was asked: the first of these from the left."""

    #: It has fewer bindings than were asked, or more.
    TOO_FEW = 1
    TOO_MANY = 2
    #: A binding has another name than the one asked; in a walk its name isn't after the one asked, or after the one before it.
    OTHER_NAME = 3
    NOT_AFTER = 4
    #: It has no value, or one that isn't spelled as its tag has it; or a value behind endOfMibView.
    NO_VALUE = 5
    AFTER_END = 6


class Ended(IntEnum):
    """How a request ended of which a message is answered, or isn't."""

    #: By what its device answered, or an error of the gateway's own; by what its datagram was told before, a Set that came again; its device was asked as often
    #: as it may be for one request.
    BY_ANSWER = 1
    REPEATED = 2
    ROUNDS_USED_UP = 3
    #: No application answers it; it was given up, and nothing is said of it.
    UNHANDLED = 4
    IN_SILENCE = 5


class GateAnswer(NamedTuple):
    """A device's answer to what it was asked for a request: why it doesn't fit, if it has no error and doesn't, and the number of its binding from 1, or
    None; and how many of its bindings are hidden from the request's user, whose read view doesn't have their names: 0 for an answer to a Set."""

    request: int
    misfit: Optional[Misfit]
    binding: Optional[int]
    hidden: int


class GateSent(NamedTuple):
    """What `next` did, for a request. TO_CLIENT has the client and the datagram, and error-status and error-index of the Response, or None where it is a
    Report; TO_DEVICE the device's position and the datagram, and whether it is asked the same again; GIVEN_UP the device, and UNANSWERED why, if there is a
    refusal. TO_CLIENT and UNANSWERED tell how the request ended, and why no application answers it, if none does."""

    event: GateEvent
    request: int
    device: Optional[int]
    client: Optional[bytes]
    datagram: Optional[bytes]
    why: Optional[Refusal]
    error_status: Optional[int]
    error_index: Optional[int]
    ended: Optional[Ended] = None
    unhandled: Optional[Unhandled] = None
    again: bool = False


class GateDevice(NamedTuple):
    """A device as the configuration says: its contextName, its address, and what about it is probably a mistake."""

    context: bytes
    address: str
    note: Optional[str]


class GateReceiver(NamedTuple):
    """Who is sent notifications, as the configuration says: an address, a user, a level in words, and "trap" or "inform"."""

    address: str
    user: bytes
    level: str
    kind: str


class _Text(IntEnum):
    """What a configuration says."""

    BOOTS = 0
    LISTEN = 1
    CONTEXT = 2
    ADDRESS = 3
    NOTE = 4
    TRAPS = 5
    RECEIVER = 6
    RECEIVER_USER = 7
    RECEIVER_LEVEL = 8
    RECEIVER_KIND = 9
    VIEW_WITHOUT_FAMILY = 10


def gate_fault(config: Buffer) -> Optional[str]:
    """Why a text is refused as a gateway's configuration, in two lines: the refusal, and what is wrong. None where it isn't."""
    written, room = ctypes.c_size_t(), _LINES
    while True:
        out = ctypes.create_string_buffer(room)
        answer = CALLS["gate_fault"](*_octets(config), out, room, ctypes.byref(written))
        if answer == _BAD_CONFIGURATION:
            return out.raw[: written.value].decode(errors="replace").rstrip("\n")
        if written.value <= room:
            _done(answer)
            return None
        room = written.value


def datagram_user(datagram: Buffer) -> Optional[bytes]:
    """The msgUserName of a datagram, for a log, or None. Nobody has shown that it is the sender's."""
    try:
        return _copied(CALLS["datagram_user"], *_octets(datagram), room=32)
    except Refused:
        return None


class Gate(_Counting):
    """A gateway of a configuration in TOML, with its boots, whose agent started at a moment in seconds."""

    _kind = "gate"

    def __init__(self, config: Buffer, boots: int, started: int):
        super().__init__(config, _ranged(boots), _ranged(started, 64))

    @classmethod
    def from_file(cls, path: Path, boots: int, started: int) -> "Gate":
        return wiped(path, lambda config: cls(config, boots, started))

    @classmethod
    def read(cls, config: Buffer) -> "Gate":
        """What a configuration says, for boots_path, listen and devices. No password is hashed, so it takes little time. This gateway has no users and no
        devices, and answers nobody."""
        gate = cls.__new__(cls)
        _Object.__init__(gate, cls._handle_of("read", config))
        return gate

    @staticmethod
    def _refused(config: Buffer, words: str) -> BadConfiguration:
        return BadConfiguration(gate_fault(config) or words)

    def take_client(self, now: int, client: Buffer, datagram: Buffer) -> Union[GateEvent, Refusal]:
        """Takes a client's datagram; its address is any octets that tell it from others. Of what is refused the report is the message, if there is
        one."""
        event = _calls.Enumeration()
        answer = self._call("take_client", _ranged(now, 64), *_octets(client, datagram), ctypes.byref(event))
        return _refusal(answer) or GateEvent(event.value)

    def pdu(self) -> Pdu:
        """By which PDU the message asks that the last call took, where that was BEGINS or JOINS."""
        return Pdu(self._numbers().pdu)

    def asker(self) -> bytes:
        """The client that asks the request that the last call was about, while that waits."""
        return _copied(self._call, "asker", self._numbers().request)

    def lines(self, client: str = "", datagram: Buffer = b"") -> List[str]:
        """What a log may have of the last call, mostly nothing. `client` is the client's address as a text, and `datagram` what the call took. The words
        are for people, and may change."""
        kinds = _calls.Written()
        _done(self._call("lines", ctypes.byref(kinds)))
        words = _octets(client.encode(), datagram)
        return [_copied(self._call, "line", 1 << bit, *words).decode() for bit in range(32) if kinds.value >> bit & 1]

    def take_device(self, now: int, device: int, datagram: Buffer) -> GateEvent:
        """Takes a datagram of the device at this position, from 0."""
        event = _calls.Enumeration()
        _done(self._call("take_device", _ranged(now, 64), _ranged(device, 64), *_octets(datagram), ctypes.byref(event)))
        return GateEvent(event.value)

    def answer(self) -> GateAnswer:
        """What the answer is that the last call took, where that was ANSWERS."""
        info = self._numbers()
        return GateAnswer(info.request, Misfit(info.misfit) if info.misfit else None, info.binding or None, info.hidden)

    def next(self, now: int, salt: int, ask_id: int) -> Optional[GateSent]:
        """Does the first thing that is due, or None. It is called until then, each time with another salt and ask_id."""
        number, why = _calls.Enumeration(), ctypes.c_int()
        _done(self._call("next", _ranged(now, 64), _ranged(salt, 64), _ranged(ask_id), ctypes.byref(number), ctypes.byref(why)))
        if not number.value:
            return None
        event, info = GateEvent(number.value), self._numbers()
        device = info.device if event in (GateEvent.TO_DEVICE, GateEvent.GIVEN_UP) else None
        client = _copied(self._call, "client") if event is GateEvent.TO_CLIENT else None
        status, index = (info.status, info.index) if client is not None and not info.is_report else (None, None)
        return GateSent(event, info.request, device, client, self.message(), Refusal(why.value) if why.value else None, status, index,
                        Ended(info.ended) if info.ended else None, Unhandled(info.unhandled) if info.unhandled else None, bool(info.again))

    def due(self) -> Optional[int]:
        """The moment from which on `next` has something to do by time alone, or None."""
        at = ctypes.c_uint64()
        try:
            _done(self._call("due", ctypes.byref(at)))
        except NothingTaken:
            return None
        return at.value

    def waiting(self) -> int:
        """How many requests wait."""
        return int(self._numbers().waiting)

    def _numbers(self) -> _calls.GateInfo:
        out = _calls.GateInfo()
        _done(self._call("numbers", ctypes.byref(out)))
        return out

    def _setting(self, text: _Text, position: int) -> Optional[bytes]:
        try:
            return _copied(self._call, "setting", text, position)
        except NothingTaken:
            return None

    def boots_path(self) -> str:
        """The path of the boots file."""
        return (self._setting(_Text.BOOTS, 0) or b"").decode()

    def _settings(self, text: _Text) -> List[bytes]:
        found: List[bytes] = []
        while (setting := self._setting(text, len(found))) is not None:
            found.append(setting)
        return found

    def _addresses(self, text: _Text) -> List[str]:
        return [address.decode() for address in self._settings(text)]

    def listen(self) -> List[str]:
        """The addresses at which it takes requests, each with its port."""
        return self._addresses(_Text.LISTEN)

    def traps(self) -> List[str]:
        """The addresses at which Traps of devices are taken, each with its port."""
        return self._addresses(_Text.TRAPS)

    def receivers(self) -> List[GateReceiver]:
        """Who is sent notifications, at the positions by which a Forwarder names them."""
        found: List[GateReceiver] = []
        for number, address in enumerate(self._addresses(_Text.RECEIVER)):
            user, level, kind = (self._setting(text, number) or b"" for text in (_Text.RECEIVER_USER, _Text.RECEIVER_LEVEL, _Text.RECEIVER_KIND))
            found.append(GateReceiver(address, user, level.decode(), kind.decode()))
        return found

    def may_notify(self, receiver: int, device: int, name: Sequence[int]) -> Access:
        """Whether the receiver may be notified of the variable of this name in the device's context (RFC 3415, section 3)."""
        answer = _calls.Enumeration()
        _done(self._call("may_notify", _ranged(receiver, 64), _ranged(device, 64), *_arcs(name), ctypes.byref(answer)))
        return Access(answer.value)

    def views_without_family(self) -> List[bytes]:
        """The read views that access rows name and no family row has, each once. Nobody sees anything by them."""
        return self._settings(_Text.VIEW_WITHOUT_FAMILY)

    def devices(self) -> List[GateDevice]:
        """The devices, at the positions by which the calls name them."""
        found: List[GateDevice] = []
        while (address := self._setting(_Text.ADDRESS, len(found))) is not None:
            note = self._setting(_Text.NOTE, len(found))
            found.append(GateDevice(self._setting(_Text.CONTEXT, len(found)) or b"", address.decode(), note.decode() if note else None))
        return found
