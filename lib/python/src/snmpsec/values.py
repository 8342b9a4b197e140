"""Names and values of SNMP as Python's types (RFC 2578, section 7.1). Not proved.

    >>> ObjectId("1.3.6.1.2.1.1.5.0")
    ObjectId('1.3.6.1.2.1.1.5.0')
    >>> decode(*encode(Counter64(18446744073709551615)))
    Counter64(18446744073709551615)
    >>> decode(*encode(b"router"))
    b'router'
    >>> decode(*encode(IPv4Address("192.0.2.7")))
    IPv4Address('192.0.2.7')
    >>> decode(*encode(-129))
    -129

An INTEGER is an int, an OCTET STRING is bytes, an IpAddress is an IPv4Address, and NULL is None. The exceptions of a Response (RFC 3416, section 3)
are values of Exceptional, each of which is false. What isn't a value of its tag is a BadValue.
"""
from __future__ import annotations

from enum import Enum
from ipaddress import IPv4Address
from typing import NamedTuple, Sequence, Tuple, Union

__all__ = ["BadValue", "Counter32", "Counter64", "END_OF_MIB_VIEW", "Exceptional", "Gauge32", "NO_SUCH_INSTANCE",
           "NO_SUCH_OBJECT", "Name", "ObjectId", "Opaque", "TimeTicks", "Value", "Variable", "decode", "encode"]

_MOST_ARCS = 128


class ObjectId(Tuple[int, ...]):
    """The name of an object: its arcs, 1 to 128 numbers from 0 to 4294967295 (RFC 2578, section 3.5).

    >>> ObjectId(".1.3.6.1") == (1, 3, 6, 1)
    True
    >>> str(ObjectId((1, 3, 6, 1)))
    '1.3.6.1'
    """

    __slots__ = ()

    def __new__(cls, name: Name) -> ObjectId:
        if isinstance(name, ObjectId):
            return name
        arcs = [_arc(word) for word in name.removeprefix(".").split(".")] if isinstance(name, str) else list(name)
        if not 1 <= len(arcs) <= _MOST_ARCS or not all(isinstance(arc, int) and 0 <= arc < 1 << 32 for arc in arcs):
            raise ValueError(f"{name!r} isn't 1 to {_MOST_ARCS} numbers from 0 to 4294967295")
        return tuple.__new__(cls, arcs)

    @classmethod
    def of_arcs(cls, arcs: Tuple[int, ...]) -> ObjectId:
        """The name of arcs that are right, as the library gives them."""
        return tuple.__new__(cls, arcs)

    def __str__(self) -> str:
        return ".".join(map(str, self))

    def __repr__(self) -> str:
        return f"ObjectId({str(self)!r})"

    def is_below(self, beginning: Sequence[int]) -> bool:
        """Whether the name begins with these arcs."""
        return self[: len(beginning)] == tuple(beginning)


Name = Union[str, Sequence[int]]


def _arc(word: str) -> int:
    if not (word.isascii() and word.isdecimal()):
        raise ValueError(f"{word!r} isn't a number: a name is numbers with dots between them, as 1.3.6.1.2.1.1.5.0")
    return int(word)


class _Number(int):
    """A number without a sign, of so many bits."""

    bits = 32

    def __new__(cls, value: int) -> _Number:
        if not 0 <= value < 1 << cls.bits:
            raise ValueError(f"{value} isn't from 0 to {(1 << cls.bits) - 1}")
        return super().__new__(cls, value)

    def __repr__(self) -> str:
        return f"{type(self).__name__}({int(self)})"

    def __str__(self) -> str:
        return int.__repr__(self)


class Counter32(_Number):
    """A counter that begins again at 0 after 4294967295 (RFC 2578, section 7.1.6)."""


class Gauge32(_Number):
    """A gauge, or an Unsigned32 (RFC 2578, sections 7.1.7 and 7.1.11)."""


class TimeTicks(_Number):
    """Hundredths of a second (RFC 2578, section 7.1.8)."""


class Counter64(_Number):
    """A counter of 64 bits (RFC 2578, section 7.1.10)."""

    bits = 64


class Opaque(bytes):
    """Octets of an older encoding (RFC 2578, section 7.1.9)."""

    def __repr__(self) -> str:
        return f"Opaque({super().__repr__()})"


class BadValue(NamedTuple):
    """What came instead of a value: the content isn't that of a value with the tag, or no value has the tag (RFC 3416,
    section 3).

    >>> decode(0x40, b"192.0.2.7")
    BadValue(tag=64, content=b'192.0.2.7')
    """

    tag: int
    content: bytes


class Exceptional(Enum):
    """What stands instead of a value (RFC 3416, section 3)."""

    NO_SUCH_OBJECT = 0x80
    NO_SUCH_INSTANCE = 0x81
    END_OF_MIB_VIEW = 0x82

    def __bool__(self) -> bool:
        return False


NO_SUCH_OBJECT, NO_SUCH_INSTANCE, END_OF_MIB_VIEW = Exceptional.NO_SUCH_OBJECT, Exceptional.NO_SUCH_INSTANCE, Exceptional.END_OF_MIB_VIEW

Value = Union[int, bytes, ObjectId, IPv4Address, Exceptional, BadValue, None]


class Variable(NamedTuple):
    """A variable binding: the name of a variable and its value."""

    name: ObjectId
    value: Value


_INTEGER, _OCTETS, _NULL, _OBJECT_ID, _ADDRESS, _OPAQUE = 0x02, 0x04, 0x05, 0x06, 0x40, 0x44
_NUMBERS = {0x41: Counter32, 0x42: Gauge32, 0x43: TimeTicks, 0x46: Counter64}
_EXCEPTIONS = {it.value: it for it in Exceptional}
_NUMBER_TAGS = {kind: tag for tag, kind in _NUMBERS.items()}


def _minimal(value: int, signed: bool) -> bytes:
    """The number in as few octets as there may be (X.690, section 8.3). A number without a sign has its first bit 0."""
    length = (value + (value < 0)).bit_length() // 8 + 1
    return value.to_bytes(length, "big", signed=signed or value >= 0)


def _arcs_content(name: Sequence[int]) -> bytes:
    if len(name) < 2 or name[0] > 2 or name[0] < 2 and name[1] > 39:
        raise ValueError(f"{'.'.join(map(str, name))} can't be written as a value: its first two arcs aren't those of an OBJECT IDENTIFIER")
    out = bytearray()
    for arc in (name[0] * 40 + name[1], *name[2:]):
        groups = [arc & 127]
        while arc := arc >> 7:
            groups.append(arc & 127 | 128)
        out += bytes(reversed(groups))
    return bytes(out)


def encode(value: Value) -> Tuple[int, bytes]:
    """The tag and the content of a value. TypeError: it is of no type that a value has. ValueError: it is out of the range of its type.

    >>> encode(TimeTicks(128))
    (67, b'\\x00\\x80')
    """
    if isinstance(value, Exceptional):
        return value.value, b""
    if value is None:
        return _NULL, b""
    if isinstance(value, _Number):
        return _NUMBER_TAGS[type(value)], _minimal(int(value), True)
    if isinstance(value, int) and not isinstance(value, bool):
        if not -(1 << 31) <= value < 1 << 31:
            raise ValueError(f"{value} isn't from -2147483648 to 2147483647")
        return _INTEGER, _minimal(value, True)
    if isinstance(value, (bytes, bytearray)):
        return _OPAQUE if isinstance(value, Opaque) else _OCTETS, bytes(value)
    if isinstance(value, ObjectId):
        return _OBJECT_ID, _arcs_content(value)
    if isinstance(value, IPv4Address):
        return _ADDRESS, value.packed
    raise TypeError(f"{value!r} is no value of SNMP: an int, bytes, an ObjectId, an IPv4Address, a Counter32 and so on are")


def _arcs_of(content: bytes) -> ObjectId:
    """ValueError: an arc begins with the octet 80, which says nothing (X.690, section 8.19.2), or is too great."""
    arcs, arc, begins = [], 0, True
    for octet in content:
        if begins and octet == 128:
            raise ValueError
        arc, begins = arc << 7 | octet & 127, octet < 128
        if begins:
            arcs.append(arc)
            arc = 0
    first = min(arcs[0] // 40, 2)
    return ObjectId((first, arcs[0] - first * 40, *arcs[1:]))


def _number_of(tag: int, content: bytes) -> int:
    """ValueError: it is out of the range of its type. A number without a sign may lack the octet that says so, as some
    devices send it."""
    value = int.from_bytes(content, "big", signed=True)
    if tag == _INTEGER:
        if -(1 << 31) <= value < 1 << 31:
            return value
        raise ValueError
    kind = _NUMBERS[tag]
    return kind(value % (1 << kind.bits) if len(content) * 8 == kind.bits else value)


def decode(tag: int, content: bytes) -> Value:
    """The value of a tag and a content, as a message has them that was accepted; a BadValue if there is no such
    value."""
    try:
        if content and (tag == _INTEGER or tag in _NUMBERS):
            return _number_of(tag, content)
        if tag == _OCTETS:
            return content
        if tag == _OBJECT_ID and content and content[-1] < 128:
            return _arcs_of(content)
        if tag == _ADDRESS and len(content) == 4:
            return IPv4Address(content)
        if tag == _OPAQUE:
            return Opaque(content)
        if not content and (tag == _NULL or tag in _EXCEPTIONS):
            return _EXCEPTIONS.get(tag)
    except ValueError:
        pass
    return BadValue(tag, content)
