"""What a manager answers to a log of datagrams (RFC 3412 section 7.2, RFC 3414 section 3.2, RFC 7860, RFC 3826)."""
import functools
import hashlib
import hmac

from . import clocks
from .ber import Element, Fault
from .messages import MOST, NAMES, Message, Pdu, Refused, Scoped, message_lines, refusing, scoped_lines, text_of

LEVEL_WORDS = {1: "noAuthNoPriv", 2: "authNoPriv", 3: "authPriv"}
CODE_OCTETS = {"md5": 12, "sha1": 12, "sha256": 24}
WINDOW = 150


@functools.cache
def password_key(name, password):
    repeated = (password * (1048576 // len(password) + 1))[:1048576]
    return hashlib.new(name, repeated).digest()


def localised(name, password, engine):
    key = password_key(name, password)
    return hashlib.new(name, key + engine + key).digest()


# ---- AES-128 (FIPS 197), one block enciphered


def doubled(octet):
    return (octet << 1) ^ (0x11B if octet & 0x80 else 0)


def product(a, b):
    total = 0
    while b:
        total ^= a if b & 1 else 0
        a, b = doubled(a), b >> 1
    return total


def sbox_of(octet):
    inverse = next((y for y in range(256) if product(octet, y) == 1), 0)
    bits = 0x63
    for shift in range(5):
        bits ^= (inverse << shift | inverse >> (8 - shift)) & 0xFF
    return bits


SBOX = [sbox_of(octet) for octet in range(256)]


@functools.cache
def schedule(key):
    words, power = [key[k : k + 4] for k in range(0, 16, 4)], 1
    for k in range(4, 44):
        word = words[-1]
        if k % 4 == 0:
            word = bytes(SBOX[octet] for octet in word[1:] + word[:1])
            word = bytes([word[0] ^ power]) + word[1:]
            power = doubled(power)
        words.append(bytes(a ^ b for a, b in zip(words[k - 4], word)))
    return [b"".join(words[k : k + 4]) for k in range(0, 44, 4)]


def mixed(column):
    a, b, c, d = column
    return [
        doubled(x) ^ doubled(y) ^ y ^ z ^ w for x, y, z, w in ((a, b, c, d), (b, c, d, a), (c, d, a, b), (d, a, b, c))
    ]


def enciphered(key, block):
    rounds = schedule(key)
    state = [a ^ b for a, b in zip(block, rounds[0])]
    for number in range(1, 11):
        state = [SBOX[state[(k + 4 * (k % 4)) % 16]] for k in range(16)]
        if number < 10:
            state = [octet for k in range(0, 16, 4) for octet in mixed(state[k : k + 4])]
        state = [a ^ b for a, b in zip(state, rounds[number])]
    return bytes(state)


def fed_back(key, iv, text, is_opening):
    made, block = b"", iv
    for k in range(0, len(text), 16):
        part = text[k : k + 16]
        after = bytes(a ^ b for a, b in zip(part, enciphered(key, block)))
        made += after
        block = part if is_opening else after
    return made


def iv_of(security):
    return security.boots.to_bytes(4, "big") + security.time.to_bytes(4, "big") + security.salt


# ---- a manager


class Manager:
    """`users`: from a name to the hash's name, the password and the privacy password, each None where there is none."""

    def __init__(self, users, marks):
        self.users, self.marks = users, dict(marks)

    def right_code(self, message):
        """Whether the field of the code holds what the message with zeros in its place gives."""
        security = message.security
        name, password, _ = self.users[security.user]
        field = security.auth
        zeros = message.octets[: field.start] + bytes(field.stop - field.start) + message.octets[field.stop :]
        code = hmac.digest(localised(name, password, security.engine), zeros, name)[: CODE_OCTETS[name]]
        return field.content == code

    def look_at_the_user(self, message):
        security = message.security
        if not 5 <= len(security.engine) <= 32:
            raise Refused(6)
        if security.user == b"" and not message.has_auth:
            return
        if security.user not in self.users:
            raise Refused(7)
        _, password, private = self.users[security.user]
        if message.level() > 1 + (password is not None) + (private is not None):
            raise Refused(8)
        if message.has_auth and not self.right_code(message):
            raise Refused(9)

    def learn(self, message, now):
        security = message.security
        clocks.join(self.marks, security.engine, (security.boots, security.time, now))

    def look_at_the_window(self, message, now):
        boots, time, seen = self.marks[message.security.engine]
        notion = min(time + max(now - seen, 0), MOST)
        late = message.security.boots == boots and message.security.time + WINDOW < notion
        if boots == MOST or message.security.boots < boots or late:
            raise Refused(10)

    def opened(self, message):
        security = message.security
        if len(security.salt) != 8:
            raise Refused(11)
        name, _, private = self.users[security.user]
        key = localised(name, private, security.engine)[:16]
        text = fed_back(key, iv_of(security), message.data.content, True)
        return refusing(12, lambda: Scoped(text, 0, Element(text, 0, len(text)).stop))

    def known(self, octets):
        """A message whose user and code were looked at."""
        message = Message(octets)
        message.look_inside()
        self.look_at_the_user(message)
        return message

    def inside(self, message):
        """The scoped PDU of such a message, and the PDU in it."""
        scoped = self.opened(message) if message.has_privacy else message.scoped
        return scoped, refusing(13, Pdu, scoped.data)

    def take(self, now, octets):
        message = self.known(octets)
        if message.has_auth:
            self.learn(message, now)
            self.look_at_the_window(message, now)
        return message.level(), self.inside(message)[1].tag

    def answer(self, now, octets):
        try:
            level, tag = self.take(now, octets)
        except Refused as refused:
            return f"refused {refused.number} {NAMES[refused.number]}"
        return f"accepted {LEVEL_WORDS[level]} {tag:02x}"


def open_message(users, octets):
    """What `open` prints of a datagram by these users, and its status."""
    manager = Manager(users, {})
    try:
        message = manager.known(octets)
        scoped, pdu = manager.inside(message)
    except Refused as refused:
        return refused.line(), 1
    return text_of([*message_lines(message), f"level {LEVEL_WORDS[message.level()]}", *scoped_lines(scoped, pdu)]), 0


def replay(users, beginning, entries):
    """What `replay` prints of the moments and datagrams of a log."""
    manager = Manager(users, beginning)
    lines = [f"{number} {now} {manager.answer(now, octets)}\n" for number, (now, octets) in enumerate(entries, 1)]
    return "".join(lines) + clocks.saved(manager.marks)
