"""A client of SNMPv3 and a receiver of notifications, by asyncio. Not proved; the library accepts and writes each message.

    config = configuration("ann", auth="sha256", auth_password=b"maplesyrup", priv_password=b"syrupmaple")
    async with Client(config) as client:
        router = Target("192.0.2.7", user="ann")
        [(name, value)] = await client.get(router, "1.3.6.1.2.1.1.5.0")
        async for name, value in client.walk(router, "1.3.6.1.2.1.2.2"):
            ..

    async with Listener(config, engine=b"\x80\0\x1f\x88\4me", boots="listener.boots") as notifications:
        async for it in notifications:
            ..

One client asks many devices over one socket, and each of them for many things at once. An engine that isn't known is discovered first, and its boots
and time are learned (RFC 3414, section 4). A request that has no answer is sent again, with the same msgID and request-id. What a device doesn't do is
an SnmpError: NoAnswer, ReportReceived, ErrorStatus, OtherVariables, NotIncreasing or WalkLimit.
"""
from __future__ import annotations

import asyncio
import contextlib
import secrets
import socket
import time
from functools import lru_cache
from typing import Any, AsyncIterator, Dict, List, NamedTuple, Optional, Sequence, Tuple

from . import (NO_CLOCKS, Answered, Buffer, Device, Info, Known, Level, Manager, Part, Pdu, Refusal, Step, binding,
               wiped)
from .files import Path, read_clocks, save_clocks
from .notifications import Listener, Notification, TrapSender, Variables, listed, notified, variables_of
from .targets import (TOO_BIG, ErrorStatus, NoAnswer, NotIncreasing, OtherVariables, ReportReceived, SnmpError, Target,
                      WalkLimit, configuration)
from .values import END_OF_MIB_VIEW, Exceptional, Name, ObjectId, Value, Variable, encode

__all__ = ["Client", "ErrorStatus", "Listener", "NoAnswer", "NotIncreasing", "Notification", "OtherVariables",
           "ReportReceived", "SnmpError", "Target", "TrapSender", "WalkLimit", "configuration"]

_UNKNOWN_ENGINES, _MOST_REPETITIONS = 4, 100
_LARGEST, _RECEIVED, _AT_A_TIME = 65507, 4 << 20, 64


@lru_cache(1 << 14)
def _asked(name: Name) -> Tuple[ObjectId, bytes]:
    """A variable's name, and the binding that asks for it."""
    own = ObjectId(name)
    return own, binding(own, 5)


def _misfit(pdu: Pdu, names: Sequence[ObjectId], found: Sequence[Variable], numbers: Tuple[int, int]) -> Optional[str]:
    """What a Response without an error has instead of what was asked (RFC 3416, sections 4.2.1 to 4.2.5)."""
    if pdu is Pdu.GET_BULK:
        single = min(numbers[0], len(names))
        most = single + (len(names) - single) * numbers[1]
        return f"{len(found)} variables instead of at most {most}" if len(found) > most else None
    if len(found) != len(names):
        return f"{len(found)} variables instead of {len(names)}"
    for asked, (name, value) in zip(names, found):
        if pdu is not Pdu.GET_NEXT and name != asked:
            return f"{name} instead of {asked}"
        if value is END_OF_MIB_VIEW and pdu is Pdu.GET or isinstance(value, Exceptional) and pdu is Pdu.SET:
            return f"an exception for {name} that no such answer has"
    return None


def _see_increase(names: Sequence[ObjectId], found: Sequence[Variable], non_repeaters: int) -> None:
    """NotIncreasing: a name isn't greater than the one before it, of its column (RFC 3416, sections 4.2.2 and 4.2.3)."""
    before = list(names)
    single, columns = min(non_repeaters, len(names)), len(names) - min(non_repeaters, len(names))
    for n, (name, value) in enumerate(found):
        at = n if n < single else single + (n - single) % columns
        if name < before[at] or name == before[at] and value is not END_OF_MIB_VIEW:
            raise NotIncreasing(name, before[at])
        before[at] = name


class _Peer:
    """What is known of an address: how to reach it, its engine, whether the engine's boots and time are held, and why its last datagram was refused."""

    def __init__(self, family: int, address: Tuple[Any, ...]):
        self.family, self.address = family, address
        self.engine: Optional[bytes] = None
        self.holds_clock = False
        self.refusal: Optional[Refusal] = None
        self.turn = asyncio.Lock()  # of discovery
        self.discovery: Optional[Manager] = None  # what asks for its engine, under a msgID that nobody can know


def _place(address: Tuple[Any, ...]) -> Tuple[Any, ...]:
    """What tells an address from others: the host, the port and the interface, which a link-local address of IPv6 has
    (RFC 4007, section 6)."""
    return (*address[:2], *address[3:])


class _Response(NamedTuple):
    error_status: int
    error_index: int
    octets: bytes


class _Waiting:
    """A request on its way: whom it asks, what it waits for, its Response, what is to be done since something was heard
    of it, and what ends with that or with the time."""

    __slots__ = ("peer", "state", "response", "step", "future")

    def __init__(self, peer: _Peer, state: Device):
        self.peer, self.state = peer, state
        self.response: Optional[_Response] = None
        self.step: Optional[Step] = None
        self.future: Optional[asyncio.Future[None]] = None

    def wake(self) -> None:
        if self.future is not None and not self.future.done():
            self.future.set_result(None)


class Client:
    """Asks devices by SNMPv3, with the users of a configuration in TOML. Each datagram goes out at most 1 + `retries` times, `timeout` seconds apart; at
    most `at_once` requests are on their way.

    `clocks` is a saved text: what another station, or this one before, knows of engines (the files of `snmpsec merge-clocks`). A client is closed at
    the end of its block, or by `close`; its keys are wiped then.
    """

    def __init__(self, config: Buffer, *, clocks: Buffer = NO_CLOCKS, timeout: float = 1.0, retries: int = 3, at_once: int = 1024):
        self.timeout, self.retries = timeout, retries
        self._manager = Manager(config, clocks, int(time.time()))
        self._room = asyncio.Semaphore(at_once)
        self._peers: Dict[Tuple[str, int], _Peer] = {}
        self._by_address: Dict[Tuple[Any, ...], _Peer] = {}
        self._sockets: Dict[int, socket.socket] = {}
        self._requests: Dict[int, _Peer] = {}  # by request-id
        self._waiting: Dict[Tuple[Manager, int], _Waiting] = {}
        self._first_id = secrets.randbits(31)
        self._salt = secrets.randbits(64)
        self._turn = asyncio.Lock()
        self._loop: Optional[asyncio.AbstractEventLoop] = None

    @classmethod
    def from_file(cls, path: Path, **settings: Any) -> Client:
        """A client with the users of a file. What is read is overwritten then."""
        return wiped(path, lambda config: cls(config, **settings))

    async def __aenter__(self) -> Client:
        return self

    async def __aexit__(self, *_: object) -> None:
        self.close()

    def close(self) -> None:
        """Closes the sockets and wipes the keys. What waits ends with CancelledError."""
        for own in self._sockets.values():
            if self._loop is not None and not self._loop.is_closed():
                self._loop.remove_reader(own)
            own.close()
        for waiting in self._waiting.values():
            if waiting.future is not None:
                waiting.future.cancel()
        self._sockets.clear()
        self._manager.close()

    # -- clocks, which stations share

    def saved(self) -> bytes:
        """What is known of engines, as a saved text: for each engine the greatest boots and time that were authenticated."""
        return self._manager.saved()

    def save(self, path: Path) -> None:
        """Joins the saved text into a file, as `snmpsec merge-clocks` does, whoever else does so."""
        save_clocks(path, self.saved())

    def absorb(self, text: Buffer) -> None:
        """Joins in what another station knows. BadClocks: it is no saved text."""
        self._manager.absorb(text, int(time.time()))

    def load(self, path: Path) -> None:
        """Joins in a file of another station, or of this one before."""
        self.absorb(read_clocks(path))

    # -- requests

    async def get(self, target: Target, *names: Name) -> List[Variable]:
        """The values of variables, in their order (RFC 3416, section 4.2.1). A variable that isn't there has a value of Exceptional."""
        return await self._ask_names(target, Pdu.GET, names)

    async def get_next(self, target: Target, *names: Name) -> List[Variable]:
        """For each name the next variable after it (RFC 3416, section 4.2.2)."""
        found = await self._ask_names(target, Pdu.GET_NEXT, names)
        _see_increase([ObjectId(name) for name in names], found, len(names))
        return found

    async def get_bulk(self, target: Target, *names: Name, non_repeaters: int = 0, max_repetitions: int = 10) -> List[Variable]:
        """The next variables after each name, repetition by repetition (RFC 3416, section 4.2.3)."""
        found = await self._ask_names(target, Pdu.GET_BULK, names, (non_repeaters, max_repetitions))
        _see_increase([ObjectId(name) for name in names], found, non_repeaters)
        return found

    async def set(self, target: Target, variables: Variables) -> List[Variable]:
        """Sets variables, all or none (RFC 3416, section 4.2.5), and returns what the Response has. After NoAnswer it may have been done."""
        return await self._ask_variables(target, Pdu.SET, listed(variables))

    async def inform(self, target: Target, notification: Name, variables: Variables = (), *, uptime: float = 0.0) -> None:
        """Sends an InformRequest, and waits until it is acknowledged (RFC 3416, section 4.2.7): the notification's name, and what it is about."""
        await self._ask_variables(target, Pdu.INFORM, notified(notification, variables, uptime))

    async def walk(self, target: Target, root: Name, *, max_repetitions: int = _MOST_REPETITIONS,
                   limit: Optional[int] = None) -> AsyncIterator[Variable]:
        """The variables below a name, in their order. It asks by GetBulkRequests, first for few variables and then for more, up to `max_repetitions`;
        where an answer is too big, or doesn't come, for fewer. NotIncreasing: the device goes back. WalkLimit: it has
        more variables than the limit, perhaps without end."""
        begin = last = ObjectId(root)
        size, count = min(10, max_repetitions), 0
        while True:
            try:
                found = await self._ask_names(target, Pdu.GET_BULK, [last], (0, size))
            except (ErrorStatus, NoAnswer) as fault:
                if size == 1 or isinstance(fault, ErrorStatus) and fault.status != TOO_BIG:
                    raise
                size = max(1, size // 2)
                continue
            for name, value in found:
                if value is END_OF_MIB_VIEW or not name.is_below(begin):
                    return
                if name <= last:
                    raise NotIncreasing(name, last)
                if count == limit:
                    raise WalkLimit(target, count)
                last, count = name, count + 1
                yield Variable(name, value)
            if not found:
                raise NotIncreasing(last, last)
            size = min(2 * size, max_repetitions) if len(found) == size else max(1, len(found))

    # -- what goes out

    async def _ask_names(self, target: Target, pdu: Pdu, names: Sequence[Name], numbers: Tuple[int, int] = (0, 0)) -> List[Variable]:
        asked = [_asked(name if isinstance(name, str) else tuple(name)) for name in names]
        return await self._ask(target, pdu, [own for own, _ in asked], b"".join(it for _, it in asked), numbers)

    async def _ask_variables(self, target: Target, pdu: Pdu, variables: Sequence[Tuple[ObjectId, Value]]) -> List[Variable]:
        octets = b"".join(binding(name, *encode(value)) for name, value in variables)
        return await self._ask(target, pdu, [name for name, _ in variables], octets, (0, 0))

    async def _ask(self, target: Target, pdu: Pdu, names: Sequence[ObjectId], octets: bytes,
                   numbers: Tuple[int, int]) -> List[Variable]:
        async with self._room:
            peer = self._peers.get((target.host, target.port)) or await self._peer(target)
            response = await self._answer(target, peer, pdu, octets, numbers)
        if response.error_status:
            at = response.error_index
            raise ErrorStatus(response.error_status, at, names[at - 1] if 0 < at <= len(names) else None)
        found = variables_of(response.octets)
        why = None if pdu is Pdu.INFORM else _misfit(pdu, names, found, numbers)
        if why is not None:
            raise OtherVariables(target, why)
        return found

    async def _answer(self, target: Target, peer: _Peer, pdu: Pdu, octets: bytes, numbers: Tuple[int, int]) -> _Response:
        """Sends what is to be sent until the request is answered."""
        turn = None if peer.holds_clock else peer.turn
        if turn is not None:
            await turn.acquire()
        request_id = self._new_request_id(peer)
        try:
            waiting = _Waiting(peer, Device(target.level, self._known(peer)))
            step = waiting.state.step
            while True:
                if step is Step.SEND_REQUEST and turn is not None:
                    turn.release()
                    turn = None
                manager, token = self._write(step, target, peer, pdu, octets, request_id, numbers)
                step = await self._exchange(target, waiting, manager, token)
                if step is Step.ANSWERED and waiting.response is not None:
                    return waiting.response
                if step is Step.DENIED:
                    raise ReportReceived(target, waiting.state.counter)
        finally:
            del self._requests[request_id]
            if turn is not None:
                turn.release()

    def _new_request_id(self, peer: _Peer) -> int:
        """One that no other request has that waits, and that nobody can guess who was asked before."""
        while (number := secrets.randbits(31)) in self._requests:
            pass
        self._requests[number] = peer
        return number

    def _known(self, peer: _Peer) -> Known:
        if peer.engine is None:
            return Known.NOTHING
        peer.holds_clock = peer.holds_clock or self._manager.clock(peer.engine) is not None
        return Known.CLOCK if peer.holds_clock else Known.ENGINE

    def _write(self, step: Step, target: Target, peer: _Peer, pdu: Pdu, octets: bytes, request_id: int,
               numbers: Tuple[int, int]) -> Tuple[Manager, int]:
        """What is sent next: the manager that has written it, and its token."""
        if step is Step.SEND_DISCOVERY:
            peer.discovery = Manager(b"")
            return peer.discovery, peer.discovery.ask_discovery(secrets.randbits(31))
        level = target.level
        if step is Step.SEND_TIME_REQUEST:
            pdu, octets, numbers, level = Pdu.GET, b"", (0, 0), Level.AUTH_NO_PRIV
        return self._manager, self._manager.ask(
            int(time.time()), pdu, engine=peer.engine or b"", user=target.user.encode(), level=level, octets=octets,
            salt=self._next_salt(), message_id=self._first_id, request_id=request_id, error_status=numbers[0],
            error_index=numbers[1], context_engine=target.context_engine, context_name=target.context)

    def _next_salt(self) -> int:
        """It begins at a random number, and counts on, so that none comes again (RFC 3826, section 3.1.2.1)."""
        self._salt = (self._salt + 1) % (1 << 64)
        return self._salt

    async def _exchange(self, target: Target, waiting: _Waiting, manager: Manager, token: int) -> Step:
        """Sends the manager's message until something is to be done."""
        loop, peer, message = asyncio.get_running_loop(), waiting.peer, manager.message()
        assert message is not None
        self._waiting[manager, token], waiting.step = waiting, None
        try:
            for _ in range(1 + self.retries):
                waiting.future = loop.create_future()
                timer = loop.call_later(self.timeout, waiting.wake)
                self._send(peer, message)
                try:
                    await waiting.future
                finally:
                    timer.cancel()
                if waiting.step is not None:  # (it may have been heard of just as its time ended)
                    return waiting.step
            if waiting.state.counter == _UNKNOWN_ENGINES:
                peer.engine, peer.holds_clock = None, False  # the next request discovers it
            raise NoAnswer(target, waiting.state.counter, peer.refusal, peer.engine is not None)
        finally:
            del self._waiting[manager, token]
            manager.give_up(token)
            if manager is peer.discovery:
                peer.discovery = None
                manager.close()

    async def _peer(self, target: Target) -> _Peer:
        """What is known of the target's address. It is looked up, and a socket is there of its family."""
        place = target.host, target.port
        async with self._turn:
            loop = asyncio.get_running_loop()
            found = await loop.getaddrinfo(target.host, target.port, type=socket.SOCK_DGRAM)
            family, _, _, _, address = found[0]
            if family not in self._sockets:
                own = self._sockets[family] = socket.socket(family, socket.SOCK_DGRAM)
                own.setblocking(False)
                own.setsockopt(socket.SOL_SOCKET, socket.SO_RCVBUF, _RECEIVED)
                loop.add_reader(own, self._receive, own)
                self._loop = loop
            return self._peers.setdefault(place, self._by_address.setdefault(_place(address), _Peer(family, address)))

    # -- what comes

    def _receive(self, own: socket.socket) -> None:
        """Takes what has come, as far as the loop may be kept from other work."""
        for _ in range(_AT_A_TIME):
            try:
                datagram, address = own.recvfrom(_LARGEST)
            except OSError:
                return
            self._take(datagram, address)

    def _send(self, peer: _Peer, message: bytes) -> None:
        with contextlib.suppress(BlockingIOError):  # (it is sent again, as if it had been lost)
            self._sockets[peer.family].sendto(message, peer.address)

    def _take(self, datagram: bytes, address: Tuple[Any, ...]) -> None:
        peer = self._by_address.get(_place(address))
        if peer is None or peer.discovery is None or not self._answers(peer.discovery, datagram, peer):
            self._answers(self._manager, datagram, peer)

    def _answers(self, manager: Manager, datagram: bytes, peer: Optional[_Peer]) -> bool:
        """Whether the datagram answers what the manager asks. What isn't authentic can be anybody's, unless it is of
        the peer that was asked."""
        refusal = manager.take(int(time.time()), datagram)
        if refusal is not None and peer is not None and manager is self._manager:
            peer.refusal = refusal
        info = manager.info()
        if info is None:
            return False
        if info.pdu == Pdu.RESPONSE and info.level is Level.NO_AUTH_NO_PRIV:
            if peer is None or self._requests.get(info.request_id) is not peer:
                return False  # (the library would end the request)
        answered = manager.answered()
        waiting = self._waiting.get((manager, answered.token)) if answered else None
        if answered is None or waiting is None:
            return False
        if not (answered.is_response or answered.is_authentic or waiting.peer is peer):
            return False
        self._hear(manager, info, answered, waiting)
        return True

    def _hear(self, manager: Manager, info: Info, answered: Answered, waiting: _Waiting) -> None:
        """A message answers what was sent last of a request. What came first counts."""
        if waiting.step is not None:
            return
        peer = waiting.peer
        if answered.is_response:
            waiting.response = _Response(info.error_status, info.error_index, manager.part(Part.BINDINGS) or b"")
        elif answered.report_of == _UNKNOWN_ENGINES and peer.engine is None:
            engine = manager.part(Part.ENGINE) or b""
            if not engine.strip(engine[:1]) and engine[:1] in (b"\0", b"\xff"):  # (RFC 3411, section 5)
                peer.refusal = Refusal.UNKNOWN_ENGINE
                return
            peer.engine = engine
        step = waiting.state.hear(answered, self._known(peer) is Known.CLOCK)
        if step is not Step.WAIT:
            waiting.step = step
            waiting.wake()
