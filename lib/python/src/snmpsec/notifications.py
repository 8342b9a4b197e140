"""Notifications: a receiver, and a sender of traps (RFC 3413, sections 3.3 and 3.4), by asyncio. Not proved."""
from __future__ import annotations

import asyncio
import contextlib
import ipaddress
import secrets
import socket
import time
from collections import Counter, deque
from dataclasses import dataclass
from enum import Enum
from functools import cached_property
from typing import Any, AsyncIterator, Deque, Dict, Iterable, List, Mapping, Optional, Tuple, Union

from . import NO_CLOCKS, Agent, Buffer, Level, NotifyEvent, Part, Receiver, Refusal, binding, bindings
from .files import Path, clocks_at, engine_boots, save_clocks
from .targets import Target
from .values import Name, ObjectId, TimeTicks, Value, Variable, decode, encode

__all__ = ["Dropped", "Listener", "Notification", "SNMP_TRAP_OID", "SYS_UP_TIME", "TrapSender", "Variables", "listed",
           "notified", "variables_of"]

Variables = Union[Mapping[Name, Value], Iterable[Tuple[Name, Value]]]
SYS_UP_TIME, SNMP_TRAP_OID = ObjectId("1.3.6.1.2.1.1.3.0"), ObjectId("1.3.6.1.6.3.1.1.4.1.0")
_PARTS = Part.USER, Part.ENGINE, Part.CONTEXT_ENGINE, Part.CONTEXT_NAME, Part.BINDINGS
_MOST_WAITING, _MOST_OCTETS = 4096, 4 << 20


def listed(variables: Variables) -> List[Tuple[ObjectId, Value]]:
    pairs = variables.items() if isinstance(variables, Mapping) else variables
    return [(ObjectId(name), value) for name, value in pairs]


def variables_of(octets: bytes) -> List[Variable]:
    """The variables of a message that was accepted."""
    return [Variable(ObjectId.of_arcs(one.name), decode(one.tag, one.content)) for one in bindings(octets)]


def notified(notification: Name, variables: Variables, uptime: float) -> List[Tuple[ObjectId, Value]]:
    """The bindings of a notification: its time and its name come first (RFC 3416, section 4.2.6)."""
    return [(SYS_UP_TIME, TimeTicks(int(uptime * 100) % (1 << 32))), (SNMP_TRAP_OID, ObjectId(notification)), *listed(variables)]


def _source(host: str) -> bytes:
    """The octets by which an address is known: as `ipaddress` writes it, without an interface, and IPv4 as IPv4."""
    it = ipaddress.ip_address(host.partition("%")[0])
    return str(it.ipv4_mapped or it if isinstance(it, ipaddress.IPv6Address) else it).encode()


@dataclass(frozen=True)
class Notification:
    """A notification that was accepted: from which address it came, and of which user at which level. `engine` is the
    sender's engine of a trap; an Inform is of the receiver's. `octets` are its bindings as they came, and `variables`
    what they say, which is read when it is asked for. `name` and `uptime` are the values of snmpTrapOID.0 and
    sysUpTime.0, if it has them."""

    address: Tuple[str, int]
    is_inform: bool
    user: str
    level: Level
    engine: bytes
    context_engine: bytes
    context_name: bytes
    octets: bytes

    @cached_property
    def variables(self) -> List[Variable]:
        return variables_of(self.octets)

    @property
    def name(self) -> Optional[ObjectId]:
        return next((it.value for it in self.variables if it.name == SNMP_TRAP_OID and isinstance(it.value, ObjectId)), None)

    @property
    def uptime(self) -> Optional[TimeTicks]:
        return next((it.value for it in self.variables if it.name == SYS_UP_TIME and isinstance(it.value, TimeTicks)), None)


class Dropped(Enum):
    """Why a datagram isn't reported that the library doesn't refuse."""

    LOW_LEVEL = "below the least level"
    ADDRESS = "without authentication, from another address"
    VIEW = "outside of its user's notify view"
    COPY = "a copy"
    OTHER = "not a notification"
    NO_ROOM = "no room"

    def __str__(self) -> str:
        return self.value


_DROPPED = {NotifyEvent.OTHER_PDU: Dropped.OTHER, NotifyEvent.LOW_LEVEL: Dropped.LOW_LEVEL, NotifyEvent.OTHER_ADDRESS: Dropped.ADDRESS,
            NotifyEvent.OUTSIDE_VIEW: Dropped.VIEW, NotifyEvent.COPY: Dropped.COPY, NotifyEvent.NO_ROOM: Dropped.NO_ROOM}


class Listener(asyncio.DatagramProtocol):
    """Receives notifications: traps as a manager, and Informs as the engine that they are sent to (RFC 3414, section
    1.5.1), each of which is acknowledged once it waits to be read. At most 4,096 wait, of datagrams of 4 MiB at most;
    a later one is dropped, so that its sender sends it again.

    The library decides what is reported. A notification is at `least_level` or above it; without `least_level`, at the
    highest level for which its user has passwords. At noAuthNoPriv it comes from one of the addresses `sources`. If the
    configuration gives its user a notify view, it is in that. Of copies one is reported, and each copy of an Inform is
    acknowledged. `dropped` counts what isn't told, by its Refusal or why it is Dropped.

    `engine` is the receiver's own engine ID, and `boots` the file that counts its boots, which nobody else may use.
    `clocks` is the file of what is known of the senders' engines. New boots are saved before a notification is reported,
    and all of it at the end.
    """

    def __init__(self, config: Buffer, *, engine: bytes, boots: Path, host: str = "0.0.0.0", port: int = 162,
                 clocks: Optional[Path] = None, least_level: Optional[Level] = None, sources: Iterable[str] = ()):
        self._local, self._clocks = (host, port), clocks
        self._held = contextlib.ExitStack()
        self._came: Deque[Tuple[int, Notification]] = deque()
        self._octets = 0  # of the datagrams of what came
        self._without_room = 0
        self._last_count: Mapping[Union[Refusal, NotifyEvent], int] = {}
        self._wakes = asyncio.Event()
        self._is_ended = self._is_unsaved = False
        self._boots: Dict[bytes, int] = {}
        self._transport: Optional[asyncio.DatagramTransport] = None
        self._since = time.time() - time.monotonic()  # (so that moments don't go back)
        named = [_source(it) for it in sources]
        with contextlib.ExitStack() as held:
            saved = NO_CLOCKS if clocks is None else clocks_at(clocks)
            count = held.enter_context(engine_boots(boots))
            self.receiver: Receiver = held.enter_context(Receiver(
                config, engine=engine, boots=count, started=self._now(), clocks=saved, least_level=least_level, sources=named))
            self._held = held.pop_all()

    def _now(self) -> int:
        return int(self._since + time.monotonic())

    async def __aenter__(self) -> Listener:
        family = socket.AF_INET6 if ":" in self._local[0] else socket.AF_INET
        self._transport, _ = await asyncio.get_running_loop().create_datagram_endpoint(lambda: self, local_addr=self._local, family=family)
        return self

    async def __aexit__(self, *_: object) -> None:
        self.close()

    def end(self) -> None:
        """Closes the socket. What waits can be read, and then the iteration ends."""
        self._is_ended = True
        self._wakes.set()
        if self._transport is not None:
            self._transport.close()

    def close(self) -> None:
        """Closes the socket, saves the clocks and wipes the keys."""
        self.end()
        self._counted()
        clocks, self._clocks, self._is_unsaved = self._clocks, None, False
        with self._held:
            if clocks is not None:
                save_clocks(clocks, self.receiver.saved())

    @property
    def dropped(self) -> Counter[Union[Refusal, Dropped]]:
        """How many datagrams weren't reported, by the reason. A discovery, which is answered, is an UNKNOWN_ENGINE."""
        told = {_DROPPED[why] if isinstance(why, NotifyEvent) else why: count for why, count in self._counted().items()}
        return Counter(told) + Counter({Dropped.NO_ROOM: self._without_room})

    def _counted(self) -> Mapping[Union[Refusal, NotifyEvent], int]:
        with contextlib.suppress(ValueError):  # (it is closed)
            self._last_count = self.receiver.dropped()
        return self._last_count

    @property
    def address(self) -> Tuple[str, int]:
        """Where it listens."""
        assert self._transport is not None, "it listens within its block"
        host, port = self._transport.get_extra_info("sockname")[:2]
        return host, port

    def __aiter__(self) -> AsyncIterator[Notification]:
        return self

    async def __anext__(self) -> Notification:
        while not self._came or self._is_unsaved:
            if self._is_unsaved:
                await self._save()
            elif self._is_ended:
                raise StopAsyncIteration
            else:
                self._wakes.clear()
                await self._wakes.wait()
        size, notification = self._came.popleft()
        self._octets -= size
        return notification

    async def _save(self) -> None:
        assert self._clocks is not None
        self._is_unsaved = False
        try:
            await asyncio.get_running_loop().run_in_executor(None, save_clocks, self._clocks, self.receiver.saved())
        except BaseException:
            self._is_unsaved = True
            raise

    # -- what comes

    def datagram_received(self, datagram: bytes, address: Tuple[Any, ...]) -> None:
        if self._is_ended:
            return
        if len(self._came) >= _MOST_WAITING or self._octets + len(datagram) > _MOST_OCTETS:
            self._without_room += 1
            return
        taken = self.receiver.take(self._now(), _source(address[0]), datagram, secrets.randbits(64))
        message = self.receiver.message()
        if message is not None and self._transport is not None:
            self._transport.sendto(message, address)
        if taken.event in (NotifyEvent.TRAP, NotifyEvent.INFORM):
            self._tell(taken.event is NotifyEvent.INFORM, len(datagram), address)

    def _tell(self, is_inform: bool, size: int, address: Tuple[Any, ...]) -> None:
        info = self.receiver.info()
        assert info is not None, "it was reported"
        user, engine, *parts = [self.receiver.part(it) or b"" for it in _PARTS]
        if not is_inform:
            self._learn(engine)
        self._octets += size
        place = address[0], address[1]
        self._came.append((size, Notification(place, is_inform, user.decode(errors="replace"), info.level, engine, *parts)))
        self._wakes.set()

    def _learn(self, engine: bytes) -> None:
        """What a trap taught is to be saved, if its engine has other boots than those that were saved."""
        clock = self.receiver.clock(engine)
        if self._clocks is not None and clock is not None and self._boots.get(engine) != clock.boots:
            self._boots[engine], self._is_unsaved = clock.boots, True


class TrapSender:
    """Sends traps, as the engine that they are of (RFC 3416, section 4.2.6; RFC 3414, section 1.5.1). Nothing says whether a trap arrived."""

    def __init__(self, config: Buffer, *, engine: bytes, boots: Path):
        with contextlib.ExitStack() as held:
            count = held.enter_context(engine_boots(boots))
            self.engine, self.started = engine, time.monotonic()
            self.agent: Agent = held.enter_context(Agent(config, engine, count, int(self.started)))
            self._held = held.pop_all()

    def __enter__(self) -> TrapSender:
        return self

    def __exit__(self, *_: object) -> None:
        self.close()

    def close(self) -> None:
        """Wipes the keys."""
        self._held.close()

    def send(self, target: Target, notification: Name, variables: Variables = ()) -> None:
        """Sends a trap to a target: the notification's name, and what it is about."""
        octets = b"".join(binding(name, *encode(value)) for name, value in notified(notification, variables, time.monotonic() - self.started))
        numbers = secrets.randbits(31), secrets.randbits(31)
        self.agent.notify(int(time.monotonic()), user=target.user.encode(), level=target.level, octets=octets, salt=secrets.randbits(64),
                          message_id=numbers[0], request_id=numbers[1], context_engine=target.context_engine or self.engine,
                          context_name=target.context)
        family, kind, protocol, _, address = socket.getaddrinfo(target.host, target.port, type=socket.SOCK_DGRAM)[0]
        with socket.socket(family, kind, protocol) as out:
            out.sendto(self.agent.message() or b"", address)
