"""Messages of SNMPv3 with the user-based model, by hashlib, hmac and `cryptography`: RFC 3412, RFC 3414, RFC 3826
and RFC 7860.

Nothing of this repository is used, so that what is written here is another program's word.
"""

import hashlib
import hmac

from cryptography.hazmat.decrepit.ciphers.modes import CFB
from cryptography.hazmat.primitives.ciphers import Cipher, algorithms

ENGINE = bytes(11) + b"\x02"
SALT = bytes(range(8))
HASHES = {"md5": 12, "sha1": 12, "sha256": 24}
# A user's name, hash and whether it has a privacy password.
USERS = {
    b"ann": ("md5", True),
    b"bob": ("sha1", True),
    b"sam": ("sha256", True),
    b"joe": ("md5", False),
    b"guest": (None, False),
}
PASSWORD = b"maplesyrup"


def element(tag, content):
    size = len(content)
    if size < 128:
        return bytes([tag, size]) + content
    octets = size.to_bytes((size.bit_length() + 7) // 8, "big")
    return bytes([tag, 128 + len(octets)]) + octets + content


def integer(number, tag=2):
    size = (number.bit_length() if number >= 0 else (number + 1).bit_length()) // 8 + 1
    return element(tag, number.to_bytes(size, "big", signed=True))


def identifier(text):
    arcs = [int(arc) for arc in text.split(".")]
    octets = b""
    for arc in [arcs[0] * 40 + arcs[1], *arcs[2:]]:
        groups = [arc % 128]
        while arc >= 128:
            arc //= 128
            groups.append(arc % 128 + 128)
        octets += bytes(reversed(groups))
    return element(6, octets)


def binding(name, tag, content=b""):
    return element(0x30, identifier(name) + element(tag, content))


def pdu(tag, number, bindings=b"", status=0, index=0):
    return element(tag, integer(number) + integer(status) + integer(index) + element(0x30, bindings))


def scoped_pdu(data, engine=ENGINE, name=b""):
    return element(0x30, element(4, engine) + element(4, name) + data)


def localised(hash_name, engine):
    """The key of the password, localised (RFC 3414, section A.2)."""
    whole = PASSWORD * (1048576 // len(PASSWORD) + 1)
    key = hashlib.new(hash_name, whole[:1048576]).digest()
    return hashlib.new(hash_name, key + engine + key).digest()


def hash_of(user):
    """An unknown user, and one without a password, is written as `ann` would be."""
    return USERS.get(user, ("md5", True))[0] or "md5"


def message(level, number, user, scoped, boots=0, time=0, reportable=True, engine=ENGINE, salt=SALT, spoiled=False):
    """A message at level 1, 2 or 3. `spoiled` changes the last octet of its code."""
    flags = {1: 0, 2: 1, 3: 3}[level] + (4 if reportable else 0)
    header = element(0x30, integer(number) + integer(65507) + element(4, bytes([flags])) + integer(3))
    key = localised(hash_of(user), engine) if level > 1 else b""
    size = HASHES[hash_of(user)] if level > 1 else 0
    data = scoped
    if level == 3:
        iv = boots.to_bytes(4, "big") + time.to_bytes(4, "big") + (salt + bytes(8))[:8]
        sealing = Cipher(algorithms.AES(key[:16]), CFB(iv)).encryptor()
        data = element(4, sealing.update(scoped) + sealing.finalize())
    fields = element(4, engine) + integer(boots) + integer(time) + element(4, user)
    last = element(4, salt if level == 3 else b"")

    def whole(code):
        security = element(4, element(0x30, fields + element(4, code) + last))
        return element(0x30, integer(3) + header + security + data)

    if level == 1:
        return whole(b"")
    code = bytearray(hmac.new(key, whole(bytes(size)), hash_of(user)).digest()[:size])
    if spoiled:
        code[-1] ^= 1
    return whole(bytes(code))


def report(number, user, request_id, counter, boots=7, time=1000, value=1, engine=ENGINE):
    """The report of a counter, for the message with this msgID and user."""
    name = f"1.3.6.1.6.3.15.1.1.{counter}.0"
    said = pdu(0xA8, request_id, element(0x30, identifier(name) + integer(value, 0x41)))
    level = 2 if counter == 2 else 1
    return message(level, number, user, scoped_pdu(said, engine), boots, time, False, engine)


def discovery(number=1):
    return message(1, number, b"", scoped_pdu(pdu(0xA0, number), b""), engine=b"")
