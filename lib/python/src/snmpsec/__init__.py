"""SNMPv3 user security and view access: an agent, a manager and a gateway, and keys, codes and sealed texts, by libsnmpsec.so.0. Not proved.

    with Agent.from_file("agent.toml", engine, boots, started) as agent:
        refusal = agent.take(now, datagram)     # None where it is accepted
        if refusal is None and agent.allows(View.READ, (1, 3, 6, 1, 2, 1, 1, 1, 0)): ..
        agent.message()                         # the report or the Response, or None

        kept = agent.keep()                     # one that is answered later, beside any number of others
        kept.respond(agent, now, octets, salt)

    with Manager.from_file("agent.toml") as manager:
        manager.discover(message_id)
        manager.message()                       # the request that is to be sent
        manager.take(now, datagram)
        manager.reply()                         # Reply(is_response, report_of)

snmpsec.gate has the gateway, and snmpsec.forward what sends Traps of its devices on. Five functions keep nothing: they are for programs that spell messages themselves. A message that came is checked by take.

    key = localise(AuthProtocol.SHA1, password_key(AuthProtocol.SHA1, b"maplesyrup"), engine)
    sealed = seal_text(key[:16], boots, time, salt, text)
    text = open_text(key[:16], boots, time, salt, sealed)
    code = mac(AuthProtocol.SHA1, key, front, 12, back)     # of what stands before and behind the code

scoped_pdu and Manager.seal make messages that no well-behaved manager sends, for programs that test agents.

A handle may be used by several threads: each call waits for the one before it. Two calls that belong together, as take and message, want a lock of
yours, or a handle for each thread. Handles share nothing. In a forked child of a process with threads no handle is used.

What a call doesn't do is an Error: Refused with its Refusal where a message can't be written, BadArgument, NothingTaken, NotAsked, BadBindings,
BadConfiguration, BadClocks or TooManyRequests. Want of memory is MemoryError, and a closed handle ValueError.

Keys that these functions give back are Python's, which nothing wipes. A configuration's passwords are wiped where from_file reads it, or where
it is a bytearray, or a memoryview of one, that you overwrite: no copy is made of what can be written to. bytes can't be wiped, nor can the copy
that is made of a memoryview that is read-only or whose octets don't lie one after another.
"""
from __future__ import annotations

import contextlib
import ctypes
import operator
import os
import threading
from enum import IntEnum
from typing import Any, Callable, Iterator, List, NamedTuple, Optional, Sequence, Tuple, TypeVar, Union

from . import _calls
from ._calls import Octets as _Slice
from ._library import CALLS

__version__ = "0.1.0"
__all__ = ["Access", "Agent", "Answered", "AuthProtocol", "BadArgument", "BadBindings", "BadClocks", "BadConfiguration", "Binding", "Clock", "ConfigFault",
           "ConfigKey", "ConfigReason", "ConfigTable", "Counters", "Counts", "Device", "Ended", "Error", "ForwardEvent", "Forwarded", "Forwarder", "Gate", "GateAnswer",
           "GateDevice", "GateEvent", "GateReceiver", "GateSent", "Info", "InformMessage", "Kept", "Known", "LARGEST", "Level", "Manager", "Misfit", "NO_CLOCKS",
           "NotAsked", "NothingTaken", "Notified", "NotifyEvent", "Part", "Pdu", "Receiver", "ReceiverTaken", "Refusal", "Refused", "Reply", "Report", "Status", "Step", "TooManyRequests", "TrapTaken",
           "Unhandled", "View", "binding", "bindings", "config_fault", "datagram_user", "gate_fault", "localise", "mac", "open_text",
           "password_key", "scoped_pdu", "seal_text", "status_of", "value_is", "version"]

Buffer = Union[bytes, bytearray, memoryview]
Path = Union[str, "os.PathLike[str]"]
LARGEST, LARGEST_KEY = 65507, 32
_ROOM = 2048  # for most messages
_Made = TypeVar("_Made")
_MOST_ARCS = 128
NO_CLOCKS = b"snmp-clocks 2\n"


class Level(IntEnum):
    NO_AUTH_NO_PRIV = 1
    AUTH_NO_PRIV = 2
    AUTH_PRIV = 3


class View(IntEnum):
    READ = 0
    WRITE = 1
    NOTIFY = 2


class Access(IntEnum):
    """isAccessAllowed (RFC 3415, section 3). True where access is allowed, so `if agent.access(..)` doesn't mislead."""

    ALLOWED = 0
    NOT_IN_VIEW = 1
    NO_SUCH_VIEW = 2
    NO_ACCESS_ENTRY = 3
    NO_GROUP_NAME = 4
    NO_SUCH_CONTEXT = 5

    def __bool__(self) -> bool:
        return self is Access.ALLOWED


class Unhandled(IntEnum):
    """Why nothing answers a message (RFC 3412, section 4.2.2; RFC 3413, section 3.2)."""

    HANDLED = 0
    NO_REQUEST = 1
    UNKNOWN_PDU_HANDLERS = 7
    UNAVAILABLE_CONTEXTS = 8
    UNKNOWN_CONTEXTS = 9


class Status(IntEnum):
    """What becomes of a variable (RFC 3413, section 3.2): an error-status, the exception's tag, or one that no message has."""

    NO_ERROR = 0
    NO_ACCESS = 6
    AUTHORIZATION_ERROR = 16
    NO_SUCH_OBJECT = 128
    NOT_SEEN = 256
    UNKNOWN_CONTEXT = 257


class Pdu(IntEnum):
    GET = 0xA0
    GET_NEXT = 0xA1
    RESPONSE = 0xA2
    SET = 0xA3
    GET_BULK = 0xA5
    INFORM = 0xA6
    TRAP = 0xA7
    REPORT = 0xA8


class Part(IntEnum):
    BINDINGS = 0
    USER = 1
    CONTEXT_ENGINE = 2
    CONTEXT_NAME = 3
    ENGINE = 4


class AuthProtocol(IntEnum):
    MD5 = 2
    SHA1 = 3
    SHA256 = 5


class Refusal(IntEnum):
    NOT_MESSAGE = 1
    BAD_VERSION = 2
    NOT_SECURITY = 3
    NOT_SCOPED = 4
    UNKNOWN_ENGINE = 6
    UNKNOWN_USER = 7
    UNSUPPORTED_LEVEL = 8
    WRONG_DIGEST = 9
    NOT_IN_WINDOW = 10
    DECRYPTION_ERROR = 11
    BAD_SCOPED = 12
    BAD_PDU = 13
    CLOCK_EXHAUSTED = 15
    TOO_LARGE = 16
    UNKNOWN_MODEL = 17
    INVALID_FLAGS = 18

    def __str__(self) -> str:
        return _words(self)


class Error(Exception):
    """What a call doesn't do."""


class Refused(Error):
    """A message can't be written: `refusal` says why."""

    def __init__(self, refusal: Refusal):
        super().__init__(str(refusal))
        self.refusal = refusal


class BadArgument(Error, ValueError): ...


class NothingTaken(Error, LookupError): ...


class NotAsked(Error): ...


class BadBindings(Error, ValueError): ...


class ConfigTable(IntEnum):
    """The tables of a configuration."""

    NO_TABLE = 0
    USER_TABLE = 1
    CONTEXT_TABLE = 2
    GROUP_TABLE = 3
    ACCESS_TABLE = 4
    FAMILY_TABLE = 5


class ConfigReason(IntEnum):
    """Why a configuration is refused."""

    NO_TOML = 1
    BAD_TOP = 2
    UNLISTED_KEY = 3
    MISSING_KEY = 4
    BAD_VALUE = 5
    BAD_USER = 6
    SHORT_PASSWORD = 7
    DUPLICATE_USER = 8
    BAD_ROW = 9
    DUPLICATE_ROW = 10


class ConfigKey(IntEnum):
    """The keys of rows."""

    NO_KEY = 0
    KEY_NAME = 1
    KEY_AUTH = 2
    KEY_AUTH_PASSWORD = 3
    KEY_PRIV_PASSWORD = 4
    KEY_MODEL = 5
    KEY_GROUP = 6
    KEY_PREFIX = 7
    KEY_LEVEL = 8
    KEY_MATCH = 9
    KEY_READ = 10
    KEY_WRITE = 11
    KEY_NOTIFY = 12
    KEY_VIEW = 13
    KEY_SUBTREE = 14
    KEY_INCLUDE = 15
    KEY_MASK = 16


class ConfigFault(NamedTuple):
    """Where a configuration is refused and why: the row at this position, from 0, of the table, and the key that is missing or whose value isn't what
    is wanted. `text` is what `snmpsec check-config` tells: the refusal, and what is wrong and what is wanted."""

    table: ConfigTable
    position: int
    reason: ConfigReason
    key: ConfigKey
    text: str


class BadConfiguration(Error, ValueError):
    """The text is no configuration; `fault` says where and why."""

    def __init__(self, words: str, fault: Optional[ConfigFault] = None):
        super().__init__(words)
        self.fault = fault


class BadClocks(Error, ValueError): ...


class TooManyRequests(Error, RuntimeError):
    """65,536 requests wait for their answers."""


class Info(NamedTuple):
    """The numbers of the message that is kept; of a GET_BULK the fourth and fifth are non-repeaters and max-repetitions."""

    level: Level
    pdu: int
    request_id: int
    error_status: int
    error_index: int
    message_id: int

    @property
    def non_repeaters(self) -> int:
        return self.error_status

    @property
    def max_repetitions(self) -> int:
        return self.error_index


class Counters(NamedTuple):
    """usmStats (RFC 3414, section 5)."""

    unsupported_levels: int
    not_in_windows: int
    unknown_users: int
    unknown_engines: int
    wrong_digests: int
    decryption_errors: int


class Counts(NamedTuple):
    """Messages that weren't answered, or were refused without a report (RFC 3412, section 5; RFC 3413, section 4.1.2; RFC 3418)."""

    unknown_pdu_handlers: int
    unavailable_contexts: int
    unknown_contexts: int
    bad_versions: int
    asn_parse_errors: int
    unknown_security_models: int
    invalid_messages: int
    silent_drops: int


class Report(NamedTuple):
    """What a Report tells: its counter (1 to 6 as in Counters, the numbers of Unhandled, 0 of none), the counter's value where it has one, and
    whether it came with authentication; without, it can be anybody's."""

    counter: int
    value: Optional[int]
    is_authenticated: bool


class Reply(NamedTuple):
    """What a message is to the request: its Response, a Report of a counter (1 to 6 as in Counters, 0 of none), or neither."""

    is_response: bool
    report_of: Optional[int]


class Answered(NamedTuple):
    """Which request that was asked a message answers: its token, and whether it is its Response or a Report of a counter (1 to 6 as in Counters,
    the numbers of Unhandled, 0 of none). A Report that isn't authentic can be anybody's."""

    token: int
    is_response: bool
    report_of: Optional[int]
    is_authentic: bool


class Step(IntEnum):
    """What is to be done for a request of a device."""

    SEND_DISCOVERY = 0
    SEND_TIME_REQUEST = 1
    SEND_REQUEST = 2
    WAIT = 3
    ANSWERED = 4
    DENIED = 5


class Known(IntEnum):
    """What is known of a device: nothing, its engine ID, or boots and time of its engine too."""

    NOTHING = 0
    ENGINE = 1
    CLOCK = 2


class Clock(NamedTuple):
    boots: int
    time: int


class Binding(NamedTuple):
    name: tuple[int, ...]
    tag: int
    content: bytes


_FAULTS = {-1: BadArgument, -2: NothingTaken, -3: NotAsked, -4: BadBindings, -6: BadConfiguration, -7: BadClocks, -8: TooManyRequests}
_SHORT_BUFFER, _OUT_OF_MEMORY = -5, 14


def _words(answer: int) -> str:
    return str(CALLS["strerror"](answer), "ascii")


def version() -> str:
    """The version of the library that is loaded."""
    return str(CALLS["version"](), "ascii")


def _refusal(answer: int) -> Optional[Refusal]:
    """None where it is done, a refusal of a message, or raises the fault."""
    if answer == 0:
        return None
    if answer == _OUT_OF_MEMORY:
        raise MemoryError
    if answer > 0:
        return Refusal(answer)
    raise _FAULTS.get(answer, Error)(_words(answer))


def _done(answer: int) -> None:
    refusal = _refusal(answer)
    if refusal is not None:
        raise Refused(refusal)


def _lent(octets: Buffer) -> Tuple[Any, int]:
    """What can be written to is handed in as it lies there, so that no copy is left of what its owner wipes; and how many octets it has."""
    if isinstance(octets, bytes):
        return octets, len(octets)
    with memoryview(octets) as view:
        if view.readonly or not view.c_contiguous:
            return view.tobytes(), view.nbytes
        return (ctypes.c_char * view.nbytes).from_buffer(octets), view.nbytes


def _octets(*many: Buffer) -> List[Any]:
    return [part for octets in many for part in _lent(octets)]


def wiped(path: Path, use: Callable[[bytearray], _Made]) -> _Made:
    """What `use` makes of the file's octets, which are overwritten then: a configuration has passwords."""
    with open(path, "rb", buffering=0) as file:
        octets = bytearray(os.fstat(file.fileno()).st_size)
        if file.readinto(octets) != len(octets) or file.read(1):
            raise OSError(f"{path}: it changed while it was read")
    try:
        return use(octets)
    finally:
        octets[:] = bytes(len(octets))


def _or_none(told: Callable[..., _Made], *arguments: Any) -> Optional[_Made]:
    """What is reported, or None where there is nothing."""
    try:
        return told(*arguments)
    except NothingTaken:
        return None


def _slice(octets: Buffer) -> _Slice:
    return _Slice(bytes(octets), len(octets))


def _ranged(value: int, bits: int = 32) -> int:
    """ctypes would cut a number to so many bits."""
    if not 0 <= operator.index(value) < 1 << bits:
        raise BadArgument(f"{value} isn't from 0 to {(1 << bits) - 1}")
    return value


def _signed(value: int) -> int:
    """The same, of a number of 32 bits with sign."""
    return _ranged(operator.index(value) + (1 << 31)) - (1 << 31)


def _arcs(name: Sequence[int]) -> Tuple[Any, int]:
    return (ctypes.c_uint32 * len(name))(*map(_ranged, name)), len(name)


def _copied(call: Callable[..., Any], *arguments: Any, room: int = _ROOM) -> bytes:
    """The octets that a call writes. There is room for most messages, and where more is wanted, as for a saved text, the call is made again."""
    written = ctypes.c_size_t()
    while True:
        out = ctypes.create_string_buffer(room)
        answer = call(*arguments, out, room, ctypes.byref(written))
        if answer != _SHORT_BUFFER or written.value <= room:
            _done(answer)
            return ctypes.string_at(out, written.value)
        room = written.value


def config_fault(config: Buffer) -> Optional[ConfigFault]:
    """Why a text is refused as a configuration, or None where it isn't."""
    place, written, room = _calls.ConfigPlace(), ctypes.c_size_t(), 4096
    while True:
        out = ctypes.create_string_buffer(room)
        answer = CALLS["config_fault"](*_octets(config), ctypes.byref(place), out, room, ctypes.byref(written))
        if answer != _SHORT_BUFFER or written.value <= room:
            break
        room = written.value
    if answer != -6:
        _done(answer)
        return None
    text = out.raw[: written.value].decode(errors="replace").rstrip("\n")
    return ConfigFault(ConfigTable(place.table), place.position, ConfigReason(place.reason), ConfigKey(place.key), text)


def binding(name: Sequence[int], tag: int, content: Buffer = b"") -> bytes:
    """A variable binding, as octets."""
    return _copied(CALLS["binding_write"], *_arcs(name), _ranged(tag, 8), *_octets(content))


def scoped_pdu(pdu: Pdu, octets: Buffer, *, request_id: int, error_status: int = 0, error_index: int = 0, context_engine: Buffer = b"",
               context_name: Buffer = b"") -> bytes:
    """A scopedPDU of these bindings, as octets: what `Manager.seal` seals. Its numbers have 32 bits with sign, so that they may be negative."""
    said = _calls.Scoped(pdu, _signed(request_id), _signed(error_status), _signed(error_index), _slice(context_engine), _slice(context_name),
                           _slice(octets))
    return _copied(CALLS["scoped_write"], ctypes.byref(said))


def bindings(octets: Buffer) -> list[Binding]:
    """The bindings that the octets are."""
    return list(_bindings(bytes(octets)))


def _bindings(octets: bytes) -> Iterator[Binding]:
    at, one = ctypes.c_size_t(), _calls.BindingRead()
    base = ctypes.c_char_p(octets)
    begin = ctypes.cast(base, ctypes.c_void_p).value or 0
    while at.value < len(octets):
        _done(CALLS["binding_read"](base, len(octets), ctypes.byref(at), ctypes.byref(one)))
        place = (one.content or 0) - begin
        yield Binding(tuple(one.arcs[: one.arcs_len]), one.tag, octets[place : place + one.content_len])


def value_is(tag: int, content: Buffer) -> bool:
    """Whether this is the content of a value with this tag (RFC 2578, section 7.1; RFC 3416, section 3)."""
    return bool(CALLS["value_is"](_ranged(tag, 8), *_octets(content)))


def status_of(access: Access, pdu: Pdu) -> Status:
    """What becomes of a variable, by the answer on access and the PDU that asks (RFC 3413, section 3.2)."""
    out = _calls.Enumeration()
    _done(CALLS["status_of"](access, pdu, ctypes.byref(out)))
    return Status(out.value)


def password_key(protocol: AuthProtocol, password: Buffer) -> bytes:
    """The key of a password, the same for all engines (RFC 3414, section A.2; RFC 7860, section 5). The password has 8 octets or more."""
    return _copied(CALLS["password_key"], protocol, *_octets(password), room=LARGEST_KEY)


def localise(protocol: AuthProtocol, key: Buffer, engine: Buffer) -> bytes:
    """The key localised to an engine (RFC 3414, section 2.6; RFC 7860, section 5)."""
    return _copied(CALLS["localise"], protocol, *_octets(key, engine), room=LARGEST_KEY)


def mac(protocol: AuthProtocol, key: Buffer, front: Buffer, zeros: int, back: Buffer) -> bytes:
    """The code, under a localised key, of front, this many zero octets (in the code's own place) and back, joined."""
    return _copied(CALLS["mac"], protocol, *_octets(key, front), _ranged(zeros, 64), *_octets(back), room=LARGEST_KEY)


def _changed(call: Callable[..., Any], key: Buffer, boots: int, time: int, salt: Buffer, text: Buffer) -> bytes:
    out = ctypes.create_string_buffer(bytes(text), max(len(text), 1))
    _done(call(*_octets(key), _ranged(boots), _ranged(time), *_octets(salt), out, len(text)))
    return out.raw[: len(text)]


def seal_text(key: Buffer, boots: int, time: int, salt: Buffer, text: Buffer) -> bytes:
    """The text sealed by AES-128 in cipher feedback mode (RFC 3826). A salt never comes twice for a key, which is your duty."""
    return _changed(CALLS["seal"], key, boots, time, salt, text)


def open_text(key: Buffer, boots: int, time: int, salt: Buffer, text: Buffer) -> bytes:
    """The text that was sealed with these. It can't tell a wrong key."""
    return _changed(CALLS["open"], key, boots, time, salt, text)


_Handle = TypeVar("_Handle", bound="_Object")


class _Object:
    """What the library makes, and is freed by its _free."""

    _kind = ""
    _handle: Optional[ctypes.c_void_p] = None

    def __init__(self, handle: ctypes.c_void_p):
        self._lock = threading.Lock()
        self._handle = handle

    @contextlib.contextmanager
    def _lent(self) -> Iterator[ctypes.c_void_p]:
        """The handle, while nobody else uses it. Where two are lent the agent's is lent first."""
        with self._lock:
            if not self._handle:
                raise ValueError("closed")
            yield self._handle

    def _call(self, name: str, *arguments: Any) -> Any:
        with self._lock:
            if not self._handle:
                raise ValueError("closed")
            return CALLS[f"{self._kind}_{name}"](self._handle, *arguments)

    def close(self) -> None:
        """Frees the handle, with what it holds wiped. Calls after it are ValueError."""
        if self._handle is None:
            return
        with self._lock:
            handle, self._handle = self._handle, None
            if handle:
                CALLS[f"{self._kind}_free"](handle)

    def __enter__(self: _Handle) -> _Handle:
        return self

    def __exit__(self, *_: object) -> None:
        self.close()

    def __del__(self) -> None:
        self.close()


class _Handled(_Object):
    """What an agent, a manager and a gateway have in common."""

    def __init__(self, config: Buffer, *arguments: Any):
        super().__init__(self._handle_of("new", config, *arguments))

    @classmethod
    def _handle_of(cls, call: str, config: Buffer, *arguments: Any) -> ctypes.c_void_p:
        handle = ctypes.c_void_p()
        try:
            _done(CALLS[f"{cls._kind}_{call}"](*_octets(config), *arguments, ctypes.byref(handle)))
        except BadConfiguration as refused:
            raise cls._refused(config, str(refused)) from None
        return handle

    @staticmethod
    def _refused(config: Buffer, words: str) -> BadConfiguration:
        fault = config_fault(config)
        return BadConfiguration(fault.text if fault else words, fault)

    def message(self) -> Optional[bytes]:
        """The message to be sent, or None."""
        return _or_none(_copied, self._call, "message")


class _Counting(_Handled):
    """What an agent and a gateway count."""

    def counters(self) -> Counters:
        out = _calls.Counters()
        _done(self._call("counters", ctypes.byref(out)))
        return Counters(*(getattr(out, name) for name, _ in out._fields_))

    def counts(self) -> Counts:
        out = _calls.Counts()
        _done(self._call("counts", ctypes.byref(out)))
        return Counts(*(getattr(out, name) for name, _ in out._fields_))


class _Keeping(_Object):
    """What is said of a message that was accepted; NothingTaken where there is none."""

    def _info(self) -> Info:
        out = _calls.Info()
        _done(self._call("info", ctypes.byref(out)))
        return Info(Level(out.level), out.pdu, out.request_id, out.error_status, out.error_index, out.message_id)

    def _part(self, part: Part) -> bytes:
        return _copied(self._call, "part", part)

    def _max_size(self) -> int:
        out = _calls.Written()
        _done(self._call("max_size", ctypes.byref(out)))
        return out.value


class _Held(_Keeping, _Handled):
    """What an agent and a manager have in common."""

    def take(self, now: int, datagram: Buffer) -> Optional[Refusal]:
        """None where the datagram is accepted, and kept; else why it is refused."""
        return _refusal(self._call("take", _ranged(now, 64), *_octets(datagram)))

    def info(self) -> Optional[Info]:
        """The numbers of what is kept, or None."""
        return _or_none(self._info)

    def part(self, part: Part) -> Optional[bytes]:
        """A part of what is kept, or None."""
        return _or_none(self._part, part)

    def max_size(self) -> Optional[int]:
        """How many octets the sender of what is kept takes (msgMaxSize), or None."""
        return _or_none(self._max_size)


class Agent(_Held, _Counting):
    """An agent of a configuration in TOML, with its engine ID and boots, that started at a moment in seconds."""

    _kind = "agent"

    def __init__(self, config: Buffer, engine: Buffer, boots: int, started: int):
        super().__init__(config, *_octets(engine), _ranged(boots), _ranged(started, 64))

    @classmethod
    def from_file(cls, path: Path, engine: Buffer, boots: int, started: int) -> "Agent":
        return wiped(path, lambda config: cls(config, engine, boots, started))

    def reconfigure(self, config: Buffer) -> None:
        """Users and tables become those of a changed configuration. The engine ID, the boots, the moment of the start, all counters, what is kept and
        the message stay. On an error, as BadConfiguration, nothing changes."""
        try:
            _done(self._call("reconfigure", *_octets(config)))
        except BadConfiguration as refused:
            raise self._refused(config, str(refused)) from None

    def reconfigure_from_file(self, path: Path) -> None:
        wiped(path, self.reconfigure)

    def access(self, view: View, name: Sequence[int]) -> Access:
        """Whether the sender of what is kept may see the variable, or why not."""
        out = _calls.Enumeration()
        _done(self._call("access", view, *_arcs(name), ctypes.byref(out)))
        return Access(out.value)

    def allows(self, view: View, name: Sequence[int]) -> bool:
        return bool(self.access(view, name))

    def next(self, view: View, name: Sequence[int]) -> Optional[Tuple[int, ...]]:
        """The least name, at or after this one, that the sender of what is kept may see (RFC 3416, section 4.2.2), or None.

        An agent that walks goes on there, and steps over no variable that is hidden."""
        out, written = (_calls.Written * _MOST_ARCS)(), ctypes.c_size_t()
        _done(self._call("next", view, *_arcs(name), out, _MOST_ARCS, ctypes.byref(written)))
        return tuple(it.value for it in out[: written.value]) or None

    def user_access(self, user: Buffer, level: Level, context: Buffer, view: View, name: Sequence[int]) -> Access:
        """What `access` returns, for a user at a level in a context."""
        out = _calls.Enumeration()
        _done(self._call("user_access", _slice(user), level, _slice(context), view, *_arcs(name), ctypes.byref(out)))
        return Access(out.value)

    def respond(self, now: int, octets: Buffer, salt: int, error_status: int = 0, error_index: int = 0) -> None:
        """Writes the Response to what is kept, as the message."""
        _done(self._call("respond", _ranged(now, 64), _ranged(error_status), _ranged(error_index), *_octets(octets), _ranged(salt, 64)))

    def respond_within(self, now: int, octets: Buffer, salt: int, limit: int, error_status: int = 0, error_index: int = 0) -> None:
        """The same where it has at most `limit` octets; else it is Refused as TOO_LARGE. A Response without bindings fits into 484 if
        contextEngineID and contextName have at most 32 octets each."""
        _done(self._call("respond_within", _ranged(now, 64), _ranged(error_status), _ranged(error_index), *_octets(octets), _ranged(salt, 64),
                         _ranged(limit)))

    def respond_front(self, now: int, octets: Buffer, salt: int, limit: int, error_status: int = 0, error_index: int = 0) -> int:
        """The Response with as many of the bindings, from the first on, as have room in `limit` octets, and how many they are."""
        count = ctypes.c_size_t()
        _done(self._call("respond_front", _ranged(now, 64), _ranged(error_status), _ranged(error_index), *_octets(octets), _ranged(salt, 64),
                         _ranged(limit), ctypes.byref(count)))
        return count.value

    def fits(self, now: int, octets: Buffer, limit: int, error_status: int = 0, error_index: int = 0) -> int:
        """How many of the bindings, from the first on, have room in that Response, as `respond_front` would say. Nothing is sealed or written."""
        count = ctypes.c_size_t()
        _done(self._call("fits", _ranged(now, 64), _ranged(error_status), _ranged(error_index), *_octets(octets), _ranged(limit),
                         ctypes.byref(count)))
        return count.value

    def unhandled(self) -> Optional[Unhandled]:
        """Why nothing answers what is kept, or None where it is to be answered (RFC 3412, section 4.2.2; RFC 3413, section 3.2)."""
        out = _calls.Enumeration()
        _done(self._call("unhandled", ctypes.byref(out)))
        why = Unhandled(out.value)
        return None if why == Unhandled.HANDLED else why

    def refuse(self, now: int, why: Unhandled, salt: int) -> None:
        """Counts what is kept as one that isn't answered, and writes the report on it, where its PDU asks for an answer."""
        _done(self._call("refuse", _ranged(now, 64), why, _ranged(salt, 64)))

    def silent_drop(self) -> None:
        """Counts what is kept in snmpSilentDrops: even its answer without bindings is too long (RFC 3416, section 4.2.1)."""
        _done(self._call("silent_drop"))

    def keep(self) -> "Kept":
        """Takes what is kept out of the agent, which keeps no message then, until the next take. The message that is to be sent stays."""
        out = _calls.Other()
        _done(self._call("keep", ctypes.byref(out)))
        return Kept(ctypes.c_void_p(out.value))

    def restore(self, kept: "Kept") -> None:
        """Puts it back, and closes it: the agent keeps it, instead of what it kept, as if it had been accepted last. So access, next, unhandled and
        refuse are asked of a message that waited."""
        with self._lent() as agent, kept._lent() as other:
            _done(CALLS["agent_restore"](agent, _calls.Other(other.value)))
            kept._handle = None

    def notify(self, now: int, *, user: Buffer, level: Level, octets: Buffer, salt: int, message_id: int, request_id: int,
               context_engine: Buffer, context_name: Buffer = b"") -> None:
        """Writes an SNMPv2-Trap, as the message."""
        notice = _calls.Notice(_ranged(message_id), _ranged(request_id), level, _slice(user), _slice(context_engine), _slice(context_name),
                                 _slice(octets), _ranged(salt, 64))
        _done(self._call("notify", _ranged(now, 64), ctypes.byref(notice)))


class Kept(_Keeping):
    """A message that an agent accepted, kept outside of it by `Agent.keep`: any number may wait for their Responses, which are written in any order.
    Its text lies in memory as it was decrypted until it is closed, and is wiped then."""

    _kind = "kept"

    def info(self) -> Info:
        """Its numbers."""
        return self._info()

    def part(self, part: Part) -> bytes:
        """A part of it."""
        return self._part(part)

    def max_size(self) -> int:
        """How many octets its sender takes (msgMaxSize)."""
        return self._max_size()

    def respond(self, agent: Agent, now: int, octets: Buffer, salt: int, error_status: int = 0, error_index: int = 0) -> None:
        """Writes the Response to it, as the agent's message. What the agent keeps stays. The agent may be another one than that which accepted it,
        as one that was made of a new configuration."""
        self._answer("respond", agent, now, octets, salt, error_status, error_index)

    def respond_within(self, agent: Agent, now: int, octets: Buffer, salt: int, limit: int, error_status: int = 0, error_index: int = 0) -> None:
        """The same where it has at most `limit` octets; else it is Refused as TOO_LARGE."""
        self._answer("respond_within", agent, now, octets, salt, error_status, error_index, _ranged(limit))

    def respond_front(self, agent: Agent, now: int, octets: Buffer, salt: int, limit: int, error_status: int = 0, error_index: int = 0) -> int:
        """The Response with as many of the bindings, from the first on, as have room in `limit` octets, and how many they are."""
        count = ctypes.c_size_t()
        self._answer("respond_front", agent, now, octets, salt, error_status, error_index, _ranged(limit), ctypes.byref(count))
        return count.value

    def _answer(self, name: str, agent: Agent, now: int, octets: Buffer, salt: int, error_status: int, error_index: int, *more: Any) -> None:
        with agent._lent() as other:
            _done(self._call(name, _calls.Other(other.value), _ranged(now, 64), _ranged(error_status), _ranged(error_index), *_octets(octets),
                             _ranged(salt, 64), *more))


class Device:
    """One request of a device whose engine ID, or whose boots and time, may be unknown (RFC 3414, section 4): `step` is what is to be done, and
    `counter` the counter of the last Report that says why the request is refused or, where it isn't authentic, is likely to have no answer."""

    def __init__(self, level: Level, known: Known = Known.NOTHING):
        self._device, step = _calls.Device(), _calls.Enumeration()
        _done(CALLS["device_begin"](ctypes.byref(self._device), level, known, ctypes.byref(step)))
        self.step = Step(step.value)

    def hear(self, answered: Answered, holds_clock: bool) -> Step:
        """What is to be done once a message answered what was sent last. The request is sent again once, after an authentic Report that it was
        outside of the time window, and never at another level. A Report that isn't authentic ends nothing."""
        heard = _calls.AnsweredRead(0 if answered.is_response else 2, answered.report_of or 0, answered.is_authentic, answered.token)
        step = _calls.Enumeration()
        _done(CALLS["device_hear"](ctypes.byref(self._device), ctypes.byref(heard), holds_clock, ctypes.byref(step)))
        self.step = Step(step.value)
        return self.step

    @property
    def counter(self) -> Optional[int]:
        return None if self._device.counter < 0 else self._device.counter

    @property
    def is_authentic(self) -> bool:
        """Whether the Report of `counter` came with authentication; without, it can be anybody's."""
        return bool(self._device.is_authentic)


class Manager(_Held):
    """A manager with the users of a configuration in TOML, that begins with the clocks of a saved text."""

    _kind = "manager"

    def __init__(self, config: Buffer, clocks: Buffer = NO_CLOCKS, now: int = 0):
        super().__init__(config, *_octets(clocks), _ranged(now, 64))

    @classmethod
    def from_file(cls, path: Path, clocks: Buffer = NO_CLOCKS, now: int = 0) -> "Manager":
        return wiped(path, lambda config: cls(config, clocks, now))

    def reply(self) -> Optional[Reply]:
        """What is kept is to the request that was written last; None where nothing is kept or nothing was asked."""
        return self._reply("reply")

    def take_reply(self) -> Optional[Reply]:
        """The same, and where it is the Response the request isn't waited for any more."""
        return self._reply("take_reply")

    def report(self) -> Optional[Report]:
        """What is kept tells, where it is a Report on the request that was written last."""
        out = _calls.Report()
        try:
            _done(self._call("report", ctypes.byref(out)))
        except NothingTaken:
            return None
        return Report(out.counter, out.value if out.has_value else None, out.is_authenticated)

    def _reply(self, call: str) -> Optional[Reply]:
        out = _calls.Reply()
        try:
            _done(self._call(call, ctypes.byref(out)))
        except NothingTaken:
            return None
        return Reply(out.kind == 0, out.counter if out.kind == 2 else None)

    def discover(self, message_id: int) -> None:
        """Writes the request by which an engine is discovered, as the message."""
        _done(self._call("discover", _ranged(message_id)))

    def request(self, now: int, pdu: Pdu, *, engine: Buffer, user: Buffer, level: Level, octets: Buffer, salt: int, message_id: int,
                request_id: Optional[int] = None, error_status: int = 0, error_index: int = 0, context_engine: Optional[Buffer] = None,
                context_name: Buffer = b"") -> None:
        """Writes a request, as the message. One is waited for at a time; `ask` has many."""
        asked = _calls.Request(pdu, _ranged(message_id), _ranged(message_id if request_id is None else request_id), _ranged(error_status),
                                 _ranged(error_index), level, _slice(engine), _slice(user),
                                 _slice(engine if context_engine is None else context_engine), _slice(context_name), _slice(octets), _ranged(salt, 64))
        _done(self._call("request", _ranged(now, 64), ctypes.byref(asked)))

    def seal(self, scoped: Buffer, *, engine: Buffer, boots: int, time: int, user: Buffer, level: Level, salt: int, message_id: int,
             max_size: int = LARGEST, is_reportable: bool = True) -> None:
        """Seals a scopedPDU under any header, as the message, for programs that test agents. No answer to it is waited for, and the clocks stay."""
        sealing = _calls.Sealing(_ranged(message_id), _ranged(max_size), is_reportable, level, _slice(engine), _slice(user), _ranged(boots),
                                   _ranged(time), _slice(scoped), _ranged(salt, 64))
        _done(self._call("seal", ctypes.byref(sealing)))

    def ask(self, now: int, pdu: Pdu, *, engine: Buffer, user: Buffer, level: Level, octets: Buffer, salt: int, message_id: int,
            request_id: int, error_status: int = 0, error_index: int = 0, context_engine: Optional[Buffer] = None,
            context_name: Buffer = b"") -> int:
        """Writes a request, as the message, that waits for its answer beside all others that were asked, and returns its token.

        The first request of all has `message_id`, which is to be random; each later one has the next that none has that waits."""
        asked = _calls.Request(pdu, _ranged(message_id), _ranged(request_id), _ranged(error_status), _ranged(error_index), level, _slice(engine),
                                 _slice(user), _slice(engine if context_engine is None else context_engine), _slice(context_name), _slice(octets),
                                 _ranged(salt, 64))
        token = ctypes.c_uint64()
        _done(self._call("ask", _ranged(now, 64), ctypes.byref(asked), ctypes.byref(token)))
        return token.value

    def ask_discovery(self, message_id: int) -> int:
        """Writes the request by which an engine is discovered, as `ask` does. It waits until it is given up."""
        token = ctypes.c_uint64()
        _done(self._call("ask_discovery", _ranged(message_id), ctypes.byref(token)))
        return token.value

    def answered(self) -> Optional[Answered]:
        """Which request that was asked the message answers that is kept, or None. A Response ends its request, and is reported once."""
        out = _calls.Answered()
        try:
            _done(self._call("answered", ctypes.byref(out)))
        except NothingTaken:
            return None
        return None if out.kind == 1 else Answered(out.token, out.kind == 0, out.counter if out.kind == 2 else None, out.is_authentic)

    def give_up(self, token: int) -> bool:
        """The request isn't waited for any more. False where it doesn't wait."""
        try:
            _done(self._call("give_up", _ranged(token, 64)))
        except NothingTaken:
            return False
        return True

    def absorb(self, text: Buffer, now: int) -> None:
        """Joins in the clocks of a saved text."""
        _done(self._call("absorb", *_octets(text), _ranged(now, 64)))

    def saved(self) -> bytes:
        """The saved text of the clocks. The message stays."""
        return _copied(self._call, "save")

    def clock(self, engine: Buffer) -> Optional[Clock]:
        """The boots and time that are held of an engine, or None."""
        out = _calls.Clock()
        try:
            _done(self._call("clock", *_octets(engine), ctypes.byref(out)))
        except NothingTaken:
            return None
        return Clock(out.boots, out.time)


from .gate import Ended, Gate, GateAnswer, GateDevice, GateEvent, GateReceiver, GateSent, Misfit, datagram_user, gate_fault  # noqa: E402  (it needs what stands above)
from .forward import ForwardEvent, Forwarded, Forwarder, InformMessage, ReceiverTaken, TrapTaken  # noqa: E402
from .receiver import Notified, NotifyEvent, Receiver  # noqa: E402
