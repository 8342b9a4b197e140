"""Values as net-snmp's tools print them with `-On` and without MIBs, and as JSON. Not proved.

    >>> print(line(Variable(ObjectId("1.3.6.1.2.1.1.5.0"), b"router")))
    .1.3.6.1.2.1.1.5.0 = STRING: "router"
    >>> print(line(Variable(ObjectId("1.3.6.1.2.1.1.3.0"), TimeTicks(12345678))))
    .1.3.6.1.2.1.1.3.0 = Timeticks: (12345678) 1 day, 10:17:36.78
"""
from __future__ import annotations

from ipaddress import IPv4Address
from typing import Any, Dict, List

from .values import BadValue, Counter32, Counter64, Exceptional, Gauge32, ObjectId, Opaque, TimeTicks, Value, Variable

__all__ = ["as_json", "line", "words"]

_MISSING = {
    Exceptional.NO_SUCH_OBJECT: "No Such Object available on this agent at this OID",
    Exceptional.NO_SUCH_INSTANCE: "No Such Instance currently exists at this OID",
    Exceptional.END_OF_MIB_VIEW: "No more variables left in this MIB View (It is past the end of the MIB tree)",
}
_NAMES = {Counter32: "Counter32", Counter64: "Counter64", Gauge32: "Gauge32"}
_BLANKS = frozenset(b"\t\n\v\f\r")
_LINE = 16  # octets


def _duration(hundredths: int) -> str:
    seconds, rest = divmod(hundredths, 100)
    days, seconds = divmod(seconds, 86400)
    clock = f"{seconds // 3600}:{seconds // 60 % 60:02}:{seconds % 60:02}.{rest:02}"
    return f"{days} day{'s' * (days != 1)}, {clock}" if days else clock


def _is_text(octets: bytes) -> bool:
    return all(0x20 <= it < 0x7F or it in _BLANKS for it in octets)


def _hex(octets: bytes) -> str:
    """Pairs of hex digits with blanks behind them, 16 octets a line."""
    lines: List[str] = [octets[at : at + _LINE].hex(" ").upper() + " " for at in range(0, len(octets), _LINE)]
    return "\n".join(lines)


def words(value: Value) -> str:
    """The type of a value and the value."""
    if isinstance(value, Exceptional):
        return _MISSING[value]
    if value is None:
        return "NULL"
    if isinstance(value, BadValue):
        return f"Bad value: tag {value.tag:02X}, {value.content.hex(' ').upper() or 'no octets'}"
    if isinstance(value, TimeTicks):
        return f"Timeticks: ({value}) {_duration(value)}"
    if isinstance(value, (Counter32, Counter64, Gauge32)):
        return f"{_NAMES[type(value)]}: {value}"
    if isinstance(value, int):
        return f"INTEGER: {value}"
    if isinstance(value, Opaque):
        return f"OPAQUE: {_hex(value)}"
    if isinstance(value, bytes):
        if not value:
            return '""'
        if _is_text(value):
            return 'STRING: "' + value.decode().replace("\\", "\\\\").replace('"', '\\"') + '"'
        return f"Hex-STRING: {_hex(value)}"
    if isinstance(value, ObjectId):
        return f"OID: .{value}"
    return f"IpAddress: {value}"


def line(variable: Variable) -> str:
    """The line of a variable, as `snmpget -On` prints it."""
    return f".{variable.name} = {words(variable.value)}"


def _type(value: Value) -> str:
    if isinstance(value, bytes) and not isinstance(value, Opaque):
        return "OCTET STRING"
    if value is None or isinstance(value, Exceptional):
        return "NULL" if value is None else "".join(it if n == 0 else it.capitalize() for n, it in enumerate(value.name.lower().split("_")))
    return {ObjectId: "OBJECT IDENTIFIER", IPv4Address: "IpAddress", int: "INTEGER"}.get(type(value), type(value).__name__)


def as_json(variable: Variable) -> Dict[str, Any]:
    """A variable as an object: name, type and value. Octets are text where they are UTF-8, and always hex besides.

    >>> as_json(Variable(ObjectId("1.3.6.1.2.1.1.5.0"), b"router"))
    {'name': '1.3.6.1.2.1.1.5.0', 'type': 'OCTET STRING', 'value': 'router', 'hex': '726f75746572'}
    >>> as_json(Variable(ObjectId("1.3.6.1.2.1.1.9.9"), Exceptional.NO_SUCH_OBJECT))
    {'name': '1.3.6.1.2.1.1.9.9', 'type': 'noSuchObject', 'value': None}
    >>> as_json(Variable(ObjectId("1.3.6.1.2.1.1.3.0"), BadValue(0x43, b"")))
    {'name': '1.3.6.1.2.1.1.3.0', 'type': 'BadValue', 'value': None, 'tag': 67, 'hex': ''}
    """
    value = variable.value
    made: Dict[str, Any] = {"name": str(variable.name), "type": _type(value), "value": None}
    if isinstance(value, BadValue):
        made.update(tag=value.tag, hex=value.content.hex())
    elif isinstance(value, bytes):
        try:
            made["value"] = value.decode()
        except UnicodeDecodeError:
            pass
        made["hex"] = value.hex()
    elif isinstance(value, int):
        made["value"] = int(value)
    elif isinstance(value, (ObjectId, IPv4Address)):
        made["value"] = str(value)
    return made
