"""The messages in captured/, which net-snmp sent for the user `oak` with SHA-1 and AES, and others made of them."""
import functools
import hashlib
import hmac
import os

from cryptography.hazmat.primitives.ciphers import Cipher, algorithms

try:
    from cryptography.hazmat.decrepit.ciphers.modes import CFB
except ImportError:
    from cryptography.hazmat.primitives.ciphers.modes import CFB

TOP = os.path.dirname(os.path.dirname(os.path.abspath(__file__)))
REPEATED = 1048576
CODE_OCTETS = 12

# The engine, its boots and time, and the user's passwords.
ENGINE = bytes.fromhex("80001f880302fc00000001")
BOOTS, TIME = 1, 3
AUTH_PASSWORD, PRIV_PASSWORD = PASSWORDS = (b"oaktreepass", b"oakprivpass")


def element(tag, *contents):
    content = b"".join(contents)
    size = len(content)
    if size < 128:
        return bytes([tag, size]) + content
    octets = size.to_bytes((size.bit_length() + 7) // 8, "big")
    return bytes([tag, 0x80 | len(octets)]) + octets + content


def unsigned(number):
    return element(0x02, number.to_bytes(number.bit_length() // 8 + 1, "big"))


@functools.cache
def captured(octets):
    with open(os.path.join(TOP, "bench", "captured", f"message_of_{octets}_octets.hex"), encoding="ascii") as text:
        return bytes.fromhex(text.read())


@functools.cache
def master_key(password):
    return hashlib.sha1((password * (REPEATED // len(password) + 1))[:REPEATED]).digest()


@functools.cache
def key(password, engine):
    master = master_key(password)
    return hashlib.sha1(master + engine + master).digest()


def code(zeroed, engine=ENGINE):
    return hmac.digest(key(AUTH_PASSWORD, engine), zeroed, "sha1")[:CODE_OCTETS]


@functools.cache
def places(text):
    """Where the code, the salt and the sealed octets of a captured message begin: each is an OCTET STRING behind the
    user's name."""
    at = text.index(b"oak") + 5
    salt = at + CODE_OCTETS + 2
    sealed = salt + 8
    return at, salt, sealed + {0x82: 4, 0x81: 3}.get(text[sealed + 1], 2)


def cipher(text, engine=ENGINE):
    _, salt, _ = places(text)
    iv = BOOTS.to_bytes(4, "big") + TIME.to_bytes(4, "big") + text[salt : salt + 8]
    return Cipher(algorithms.AES(key(PRIV_PASSWORD, engine)[:16]), CFB(iv))


def decrypted(text):
    opening = cipher(text).decryptor()
    return opening.update(text[places(text)[2] :]) + opening.finalize()


def pdu(text):
    """The PDU of a captured message: what follows the two contexts in its ScopedPDU."""
    scoped = decrypted(text)
    context = element(0x04, ENGINE) + element(0x04)
    return scoped[scoped.index(context) + len(context) :]


def coded(text, engine=ENGINE):
    """The message with the code of its octets."""
    at = places(text)[0]
    front, back = text[:at], text[at + CODE_OCTETS :]
    return front + code(front + bytes(CODE_OCTETS) + back, engine) + back


@functools.cache
def of_engine(octets, number):
    """The captured message of this many octets as the engine of this number, from 1 to 255, would have sent it: 1 sent
    it."""
    text, engine = captured(octets), ENGINE[:-1] + bytes([number])
    sealing = cipher(text, engine).encryptor()
    sealed = sealing.update(decrypted(text)) + sealing.finalize()
    return coded(text[: places(text)[2]].replace(ENGINE, engine, 1) + sealed, engine)


def read(text, at):
    """The places of an element's content and of its end."""
    size, body = text[at + 1], at + 2
    if size >= 128:
        body += size - 128
        size = int.from_bytes(text[at + 2 : body], "big")
    return body, body + size


def elements(text, at, end):
    found = []
    while at < end:
        found.append(text[at : read(text, at)[1]])
        at = read(text, at)[1]
    return found


def with_first_bindings(whole, count):
    """The PDU with so many of its bindings."""
    *numbers, listed = elements(whole, read(whole, 0)[0], len(whole))
    bindings = elements(listed, read(listed, 0)[0], len(listed))
    return element(whole[0], *numbers, element(0x30, *bindings[:count]))


@functools.cache
def of_bindings(count):
    """A message of the engine with so many bindings: the first ones of the longer captured message, of which the other
    message has one."""
    text = captured(2473)
    _, salt, _ = places(text)
    scoped = element(0x30, element(0x04, ENGINE), element(0x04), with_first_bindings(pdu(text), count))
    header = element(0x30, unsigned(3), unsigned(65507), element(0x04, b"\x07"), unsigned(3))
    fields = [
        unsigned(BOOTS),
        unsigned(TIME),
        element(0x04, b"oak"),
        element(0x04, bytes(CODE_OCTETS)),
        element(0x04, text[salt : salt + 8]),
    ]
    sealing = cipher(text).encryptor()
    sealed = sealing.update(scoped) + sealing.finalize()
    return coded(
        element(
            0x30,
            unsigned(3),
            header,
            element(0x04, element(0x30, element(0x04, ENGINE), *fields)),
            element(0x04, sealed),
        )
    )


@functools.cache
def in_the_open(octets):
    """The captured message of this many octets at authNoPriv."""
    header = element(0x30, unsigned(3), unsigned(65507), element(0x04, b"\x01"), unsigned(3))
    fields = [
        element(0x04, ENGINE),
        unsigned(BOOTS),
        unsigned(TIME),
        element(0x04, b"oak"),
        element(0x04, bytes(CODE_OCTETS)),
        element(0x04),
    ]
    return coded(element(0x30, unsigned(3), header, element(0x04, element(0x30, *fields)), decrypted(captured(octets))))


def is_right(text):
    return hmac.compare_digest(text, coded(text))
