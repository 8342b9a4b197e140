"""A receiver of notifications, without sockets. Not proved; the library decides.

    with Receiver(config, engine=engine, boots=boots, started=now, sources=[b"192.0.2.1"]) as receiver:
        taken = receiver.take(now, source, datagram, salt)      # what becomes of a datagram from this address
        receiver.message()                                      # what is to be sent back, or None
        receiver.info(), receiver.part(Part.BINDINGS)           # of a TRAP or an INFORM

Moments are seconds from the beginning that saved clocks have, 1970, and don't go back. A salt never comes twice, also not after a restart.
"""
from __future__ import annotations

import ctypes
from enum import IntEnum
from typing import Dict, NamedTuple, Optional, Sequence, Union

from . import (NO_CLOCKS, Buffer, Clock, Info, Level, NothingTaken, Part, Refusal, _calls, _copied, _done, _Handled, _Keeping, _octets, _or_none, _ranged,
               _slice)

__all__ = ["Notified", "NotifyEvent", "Receiver"]

_REMEMBERED = 1 << 16


class NotifyEvent(IntEnum):
    """What becomes of a datagram."""

    #: It is reported; the message is the acknowledgement of an Inform.
    TRAP = 1
    INFORM = 2
    #: It is refused; the message is its Report, or the Response tooBig, if there is one.
    REFUSED = 3
    #: It is accepted, but it is no notification; is below the least level; has no authentication and comes from another address; isn't in its user's
    #: notify view.
    OTHER_PDU = 19
    LOW_LEVEL = 20
    OTHER_ADDRESS = 21
    OUTSIDE_VIEW = 22
    #: It was reported before, and the message is the acknowledgement of an Inform; as many are remembered as may be.
    COPY = 23
    NO_ROOM = 24


class Notified(NamedTuple):
    """What became of a datagram, and why it is refused."""

    event: NotifyEvent
    why: Optional[Refusal]


class Receiver(_Keeping, _Handled):
    """A receiver with the users and the access of a configuration in TOML, and an engine of its own.

    Without `least_level` that is for each user the highest level for which the user has passwords. Notifications at noAuthNoPriv are taken from
    `sources` alone. `most` are remembered at once: when so many are, no other one is reported.
    """

    _kind = "listener"

    def __init__(self, config: Buffer, *, engine: Buffer, boots: int, started: int, clocks: Buffer = NO_CLOCKS, least_level: Optional[Level] = None,
                 sources: Sequence[Buffer] = (), most: int = _REMEMBERED):
        settings = _calls.ListenerSettings(0 if least_level is None else least_level, _ranged(boots), _ranged(started, 64), _ranged(started, 64),
                                           _ranged(most, 64), _slice(engine), _slice(clocks))
        addresses = (_calls.Octets * len(sources))(*map(_slice, sources))
        super().__init__(config, ctypes.byref(settings), addresses, len(sources))

    def take(self, now: int, source: Buffer, datagram: Buffer, salt: int) -> Notified:
        """Takes a datagram from this address."""
        event, why = _calls.Enumeration(), ctypes.c_int()
        _done(self._call("take", _ranged(now, 64), *_octets(source, datagram), _ranged(salt, 64), ctypes.byref(event), ctypes.byref(why)))
        return Notified(NotifyEvent(event.value), Refusal(why.value) if why.value else None)

    def info(self) -> Optional[Info]:
        """The numbers of the notification that was reported last, or None if the last datagram wasn't."""
        return _or_none(self._info)

    def part(self, part: Part) -> Optional[bytes]:
        """A part of it, or None."""
        return _or_none(self._part, part)

    def dropped(self) -> Dict[Union[Refusal, NotifyEvent], int]:
        """How many datagrams weren't reported, by the reason."""
        reasons = [*Refusal, *(it for it in NotifyEvent if it >= NotifyEvent.OTHER_PDU)]
        return {it: count for it in reasons if (count := self._count(it))}

    def _count(self, reason: int) -> int:
        out = ctypes.c_uint64()
        _done(self._call("count", reason, ctypes.byref(out)))
        return out.value

    def saved(self) -> bytes:
        """The saved text of the clocks of senders, which is the message then."""
        return _copied(self._call, "save")

    def clock(self, engine: Buffer) -> Optional[Clock]:
        """The boots and time that are held of a sender's engine, or None."""
        out = _calls.Clock()
        try:
            _done(self._call("clock", *_octets(engine), ctypes.byref(out)))
        except NothingTaken:
            return None
        return Clock(out.boots, out.time)
