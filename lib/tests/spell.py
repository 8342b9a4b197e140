"""SNMPv3 messages spelled by hand, for raw.py and fake.py, which say what no well-behaved program says. The keys, the
codes and the sealed texts are the library's. The hash is SHA-1."""
import os
from typing import NamedTuple

import snmpsec

PROTOCOL, ZEROS = snmpsec.AuthProtocol.SHA1, bytes(12)
NO_AUTH, AUTH, PRIV, REPORTABLE = 0, 1, 3, 4  # msgFlags


class Security(NamedTuple):
    """Under which engine, with its boots and time, and for whom a message is."""

    engine: bytes = b""
    boots: int = 0
    time: int = 0
    user: bytes = b""
    password: str = "maplesyrup"
    privacy: str = "another-one"

    def key(self):
        return snmpsec.localise(PROTOCOL, snmpsec.password_key(PROTOCOL, self.password.encode()), self.engine)

    def cipher_key(self):
        return self._replace(password=self.privacy).key()[:16]


class Message(NamedTuple):
    """What was read of a message."""

    message_id: int
    max_size: int
    flags: int
    security: Security
    context_engine: bytes
    context: bytes
    tag: int
    request_id: int
    status: int
    index: int
    list: bytes


def tlv(tag, content):
    size = len(content)
    if size < 128:
        return bytes([tag, size]) + content
    digits = size.to_bytes((size.bit_length() + 7) // 8, "big")
    return bytes([tag, 0x80 | len(digits)]) + digits + content


def number(value):
    size = 1
    while not -(1 << (8 * size - 1)) <= value < 1 << (8 * size - 1):
        size += 1
    return tlv(2, value.to_bytes(size, "big", signed=True))


def children(octets):
    """The tag and the content of each element."""
    at, found = 0, []
    while at < len(octets):
        tag, size, body = octets[at], octets[at + 1], at + 2
        if size > 127:
            body += size & 127
            size = int.from_bytes(octets[at + 2 : body], "big")
        found.append((tag, octets[body : body + size]))
        at = body + size
    return found


def signed(content):
    return int.from_bytes(content, "big", signed=True)


def scoped(engine, context, tag, request_id, second, third, bindings):
    numbers = number(request_id) + number(second) + number(third)
    return tlv(0x30, tlv(4, engine) + tlv(4, context) + tlv(tag, numbers + tlv(0x30, bindings)))


def spelled(security, text, flags, message_id=1, max_size=65507, model=3, version=3):
    """The message of a ScopedPDU, sealed and signed as the flags say."""
    salt = os.urandom(8) if flags & 2 else b""
    if flags & 2:
        text = tlv(4, snmpsec.seal_text(security.cipher_key(), security.boots, security.time, salt, text))
    header = tlv(0x30, number(message_id) + number(max_size) + tlv(4, bytes([flags])) + number(model))

    def whole(code):
        front = tlv(4, security.engine) + number(security.boots) + number(security.time) + tlv(4, security.user)
        return tlv(0x30, number(version) + header + tlv(4, tlv(0x30, front + tlv(4, code) + tlv(4, salt))) + text)

    if not flags & 1:
        return whole(b"")
    unsigned = whole(ZEROS)
    at = unsigned.index(tlv(4, ZEROS)) + 2
    return whole(snmpsec.mac(PROTOCOL, security.key(), unsigned[:at], len(ZEROS), unsigned[at + len(ZEROS) :]))


def read(datagram, passwords=Security()):
    """A message's parts, opened by the passwords where it is sealed."""
    _, header, (_, parameters), data = children(children(datagram)[0][1])
    message_id, max_size, flags = (content for _, content in children(header[1])[:3])
    engine, boots, time, user, _, salt = (content for _, content in children(children(parameters)[0][1]))
    security = passwords._replace(engine=engine, boots=signed(boots), time=signed(time), user=user)
    text = tlv(*data)
    if flags[0] & 2:
        text = snmpsec.open_text(security.cipher_key(), security.boots, security.time, salt, data[1])
    (_, context_engine), (_, context), (tag, pdu) = children(children(text)[0][1])
    request_id, status, index, bindings = (content for _, content in children(pdu))
    return Message(
        signed(message_id),
        signed(max_size),
        flags[0],
        security,
        context_engine,
        context,
        tag,
        signed(request_id),
        signed(status),
        signed(index),
        bindings,
    )
