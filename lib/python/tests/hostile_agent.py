"""An agent on 127.0.0.1 that knows the keys of its users, and whose answers are wrong in one way, which is data."""
import asyncio
import functools
import hashlib
import itertools
import os
import pathlib
import socket
import sys
from typing import Any, Callable, NamedTuple, Optional, Sequence, Union

import snmpsec
from snmpsec.values import ObjectId, encode

sys.path.insert(0, str(pathlib.Path(__file__).resolve().parents[2] / "tests"))
from spell import AUTH, NO_AUTH, PRIV, PROTOCOL, Security, number, read, tlv  # noqa: E402

__all__ = ["AUTH", "Agent", "Answer", "BOOTS", "Keys", "LATCH", "NAME", "NO_AUTH", "PRIV", "Plus", "REPORT", "RESPONSE",
           "SYSTEM", "TIME", "USERS", "VALUES", "bound", "element", "number", "report", "right", "sealed", "tlv"]

GET, NEXT, RESPONSE, SET, BULK, REPORT = 0xA0, 0xA1, 0xA2, 0xA3, 0xA5, 0xA8
UNKNOWN_ENGINES, NOT_IN_WINDOWS, NO_OBJECT, END = 4, 2, 0x80, 0x82
USM_STATS, SYSTEM = (1, 3, 6, 1, 6, 3, 15, 1, 1), ObjectId("1.3.6.1.2.1.1")
VALUES = {ObjectId((*SYSTEM, n, 0)): f"value {n}".encode() for n in (1, 4, 6)}
NAME = ObjectId((*SYSTEM, 5, 0))
VALUES[NAME] = b"router"
USERS = """
[[user]]
name = "ann"
auth = "sha1"
auth-password = "maplesyrup"
priv-password = "another-one"
[[user]]
name = "bob"
auth = "sha1"
auth-password = "a-third-one"
priv-password = "a-fourth-one"
"""
BOOTS, TIME = 7, 5000
LATCH = (1 << 31) - 1  # the greatest boots and time (RFC 3414, section 2.2.2)
_engines = itertools.count(1)


@functools.lru_cache(None)
def _key(password):
    return snmpsec.password_key(PROTOCOL, password.encode())


@functools.lru_cache(4096)
def _localised(password, engine):
    return hashlib.sha1(_key(password) + engine + _key(password)).digest()


class Keys(Security):
    """A user's passwords, whose keys are made once."""

    def key(self):
        return _localised(self.password, self.engine)


class Plus(NamedTuple):
    """What differs from the right number by so much."""

    much: int


Field = Union[int, bytes, Plus]  # bytes are the element itself
Change = Optional[Callable[[bytes], bytes]]


class Answer(NamedTuple):
    """How an answer differs from one that is spelled well. What is None is as the request has it."""

    message_id: Field = Plus(0)
    max_size: Field = 65507
    flags: Optional[int] = None
    model: Field = 3
    version: Field = 3
    engine: Optional[bytes] = None
    boots: Field = Plus(0)
    time: Field = Plus(0)
    user: Optional[bytes] = None
    keys: Keys = Keys()
    context_engine: Optional[bytes] = None
    context: Optional[bytes] = None
    tag: int = RESPONSE
    request_id: Field = Plus(0)
    status: Field = 0
    index: Field = 0
    list: Union[bytes, Callable[[Any], bytes], None] = None  # the bindings, or how they are made of the request
    scoped: Change = None  # the scopedPDU, before it is sealed
    data: Change = None  # what was sealed
    salt: Optional[bytes] = None
    code: Change = None  # the right code
    shape: Change = None  # the whole, before its code is made
    spoil: Change = None  # what is sent
    is_elsewhere: bool = False  # it comes from another port
    times: int = 1


def element(field, right=0):
    if isinstance(field, bytes):
        return field
    return number(right + field.much if isinstance(field, Plus) else field)


def bound(name, value, tag=None):
    """A binding of a value, or of any content with a tag."""
    return tlv(0x30, tlv(*encode(ObjectId(name))) + tlv(*(encode(value) if tag is None else (tag, value))))


def report(counter, name=None):
    """The bindings of a Report on one of usmStats (RFC 3414, section 5)."""
    return bound(name or (*USM_STATS, counter, 0), b"\1", 0x41)


def right(asked):
    """The bindings of the right Response."""
    names = [one.name for one in snmpsec.bindings(asked.list)]
    if asked.tag == SET:
        return asked.list
    if asked.tag == GET:
        return b"".join(bound(name, VALUES[name]) if name in VALUES else bound(name, b"", NO_OBJECT) for name in names)
    most = asked.index if asked.tag == BULK else 1
    later = [(name, VALUES[name]) for name in sorted(VALUES) if name > names[0]][:most]
    return b"".join(bound(*it) for it in later) or bound(names[0], b"", END)


def sealed(it, asked, engine):
    """The answer to what an agent of this engine was asked, as it is sent."""
    flags = asked.flags & 3 if it.flags is None else it.flags
    its = it.keys._replace(engine=engine if it.engine is None else it.engine)
    boots, time = element(it.boots, BOOTS), element(it.time, TIME)
    salt, data = _data(it, flags & 2, its, [int.from_bytes(one[2:], "big") % (1 << 32) for one in (boots, time)],
                       _scoped(it, asked, its.engine))
    header = element(it.message_id, asked.message_id) + element(it.max_size) + tlv(4, bytes([flags]))
    header += element(it.model)
    user = asked.security.user if it.user is None else it.user
    front = tlv(4, its.engine) + boots + time + tlv(4, user)
    zeros = bytes(len(it.code(bytes(12))) if it.code else 12 if flags & 1 else 0)
    whole = element(it.version) + tlv(0x30, header) + tlv(4, tlv(0x30, front + tlv(4, zeros) + tlv(4, salt))) + data
    whole = it.shape(tlv(0x30, whole)) if it.shape else tlv(0x30, whole)
    if zeros:
        at = whole.index(front + tlv(4, zeros)) + len(front) + 2
        code = snmpsec.mac(PROTOCOL, its.key(), whole[:at], len(zeros), whole[at + len(zeros) :])
        whole = whole[:at] + (it.code(code) if it.code else code) + whole[at + len(zeros) :]
    return it.spoil(whole) if it.spoil else whole


def _scoped(it, asked, engine):
    contents = asked.list if it.list is None else it.list(asked) if callable(it.list) else it.list
    pdu = element(it.request_id, asked.request_id) + element(it.status) + element(it.index) + tlv(0x30, contents)
    context_engine = engine if it.context_engine is None else it.context_engine
    text = tlv(4, context_engine) + tlv(4, asked.context if it.context is None else it.context) + tlv(it.tag, pdu)
    return it.scoped(tlv(0x30, text)) if it.scoped else tlv(0x30, text)


def _data(it, is_sealed, its, clock, text):
    """The salt, and the scopedPDU as it is sent."""
    if not is_sealed:
        return it.salt or b"", text
    salt = os.urandom(8) if it.salt is None else it.salt
    octets = snmpsec.seal_text(its.cipher_key(), *clock, salt.ljust(8, b"\0")[:8], text)
    return salt, tlv(4, it.data(octets) if it.data else octets)


class Agent:
    """Answers what is wrong at a stage of the exchange, and then what is right if it is `honest`. At the other stages
    it answers what is right alone. Each has an address and an engine ID of its own."""

    def __init__(self, wrong: Callable[[int], Sequence[Answer]], stage: str, honest: bool):
        self.wrong, self.stage, self.honest, self.heard = wrong, stage, honest, 0
        number = next(_engines)
        self.engine = b"\x80\0\x1f\x88\4" + number.to_bytes(4, "big")
        self.host = f"127.1.{number >> 8}.{number & 255}"

    async def __aenter__(self):
        self.here, self.elsewhere = (socket.socket(socket.AF_INET, socket.SOCK_DGRAM) for _ in range(2))
        for it in self.here, self.elsewhere:
            it.setblocking(False)
            it.bind((self.host, 0))
        asyncio.get_running_loop().add_reader(self.here, self.take)
        return self

    async def __aexit__(self, *_):
        asyncio.get_running_loop().remove_reader(self.here)
        self.here.close()
        self.elsewhere.close()

    @property
    def port(self):
        return self.here.getsockname()[1]

    def stage_of(self, asked):
        if asked.security.engine != self.engine:
            return "discovery"
        is_timely = asked.security.boots == BOOTS and abs(asked.security.time - TIME) <= 150
        return "request" if is_timely or not asked.flags & 1 else "time"

    def take(self):
        datagram, address = self.here.recvfrom(65536)
        self.hear(read(datagram, Keys()), address)

    def hear(self, asked, address):
        stage = self.stage_of(asked)
        truth = {
            "discovery": Answer(tag=REPORT, flags=NO_AUTH, list=report(UNKNOWN_ENGINES)),
            "time": Answer(tag=REPORT, flags=AUTH, list=report(NOT_IN_WINDOWS)),
            "request": Answer(list=right),
        }[stage]
        answers = [*self.wrong(self.heard), *[truth] * self.honest] if stage == self.stage else [truth]
        self.heard += stage == self.stage
        for it, message in [(it, sealed(it, asked, self.engine)) for it in answers for _ in range(it.times)]:
            (self.elsewhere if it.is_elsewhere else self.here).sendto(message, address)
