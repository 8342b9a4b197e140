"""What would tell a user's secrets in the memory of a process: passwords, keys, AES round keys and the states of hashes
over keys.

Each is octets by which it is found, with a name and how often it stands in a handle that has the user. The hashes are
written here once more, since hashlib doesn't show a state after one block. Not proved."""
import hashlib
import math
import struct
from typing import NamedTuple

MASK = 0xFFFFFFFF


class Needle(NamedTuple):
    name: str
    octets: bytes
    in_handle: int


def left(x, n):
    return ((x << n) | (x >> (32 - n))) & MASK


def right(x, n):
    return left(x, 32 - n)


def added(a, b):
    return [(x + y) & MASK for x, y in zip(a, b)]


def md5_state(block):
    """The state after the first block (RFC 1321, section 3.4)."""
    turns = [7, 12, 17, 22] * 4 + [5, 9, 14, 20] * 4 + [4, 11, 16, 23] * 4 + [6, 10, 15, 21] * 4
    begin, words = [0x67452301, 0xEFCDAB89, 0x98BADCFE, 0x10325476], struct.unpack("<16I", block)
    a, b, c, d = begin
    for i in range(64):
        f, g = [
            ((b & c) | (~b & d), i),
            ((d & b) | (~d & c), (5 * i + 1) % 16),
            (b ^ c ^ d, (3 * i + 5) % 16),
            (c ^ (b | (~d & MASK)), 7 * i % 16),
        ][i // 16]
        f = (f + a + (int(abs(math.sin(i + 1)) * 2**32) & MASK) + words[g]) & MASK
        a, d, c, b = d, c, b, (b + left(f, turns[i])) & MASK
    return added(begin, (a, b, c, d))


def sha1_state(block):
    """The state after the first block (FIPS 180-4, section 6.1.2)."""
    begin, words = [0x67452301, 0xEFCDAB89, 0x98BADCFE, 0x10325476, 0xC3D2E1F0], list(struct.unpack(">16I", block))
    for i in range(16, 80):
        words.append(left(words[i - 3] ^ words[i - 8] ^ words[i - 14] ^ words[i - 16], 1))
    a, b, c, d, e = begin
    for i in range(80):
        f, k = [
            ((b & c) | (~b & d), 0x5A827999),
            (b ^ c ^ d, 0x6ED9EBA1),
            ((b & c) | (b & d) | (c & d), 0x8F1BBCDC),
            (b ^ c ^ d, 0xCA62C1D6),
        ][i // 20]
        a, b, c, d, e = (left(a, 5) + (f & MASK) + e + k + words[i]) & MASK, a, left(b, 30), c, d
    return added(begin, (a, b, c, d, e))


def root_bits(n, prime):
    """The first 32 bits behind the point of the prime's nth root."""
    low, high = 0, 1 << 40
    while low < high:
        middle = (low + high + 1) // 2
        low, high = (middle, high) if middle**n <= prime << (32 * n) else (low, middle - 1)
    return low & MASK


def sha256_state(block):
    """The state after the first block (FIPS 180-4, section 6.2.2)."""
    primes = [n for n in range(2, 312) if all(n % k for k in range(2, n))]
    begin, keys, words = (
        [root_bits(2, p) for p in primes[:8]],
        [root_bits(3, p) for p in primes],
        list(struct.unpack(">16I", block)),
    )
    for i in range(16, 64):
        s0 = right(words[i - 15], 7) ^ right(words[i - 15], 18) ^ (words[i - 15] >> 3)
        s1 = right(words[i - 2], 17) ^ right(words[i - 2], 19) ^ (words[i - 2] >> 10)
        words.append((words[i - 16] + s0 + words[i - 7] + s1) & MASK)
    a, b, c, d, e, f, g, h = begin
    for i in range(64):
        one = (
            h + (right(e, 6) ^ right(e, 11) ^ right(e, 25)) + ((e & f) ^ (~e & MASK & g)) + keys[i] + words[i]
        ) & MASK
        two = ((right(a, 2) ^ right(a, 13) ^ right(a, 22)) + ((a & b) ^ (a & c) ^ (b & c))) & MASK
        a, b, c, d, e, f, g, h = (one + two) & MASK, a, b, c, (d + one) & MASK, e, f, g
    return added(begin, (a, b, c, d, e, f, g, h))


STATES = {"md5": md5_state, "sha1": sha1_state, "sha256": sha256_state}


def times(a, b):
    """The product in GF(2^8) (FIPS 197, section 4.2)."""
    product = 0
    while b:
        product ^= a * (b & 1)
        a, b = (a << 1) ^ (0x11B * (a >> 7)), b >> 1
    return product


def substituted(octet):
    """SubBytes (FIPS 197, section 5.1.1)."""
    inverse = next((b for b in range(256) if times(octet, b) == 1), 0)
    doubled = inverse | inverse << 8
    return (inverse ^ doubled >> 7 ^ doubled >> 6 ^ doubled >> 5 ^ doubled >> 4 ^ 0x63) & 0xFF


def round_keys(key):
    """The ten round keys behind the key itself (FIPS 197, section 5.2)."""
    words, factor = [list(key[4 * i : 4 * i + 4]) for i in range(4)], 1
    for i in range(4, 44):
        word = list(words[i - 1])
        if i % 4 == 0:
            word = [substituted(octet) for octet in word[1:] + word[:1]]
            word[0] ^= factor
            factor = times(factor, 2)
        words.append([a ^ b for a, b in zip(words[i - 4], word)])
    return [bytes(sum(words[4 * i : 4 * i + 4], [])) for i in range(1, 11)]


def password_key(name, password):
    """RFC 3414, section A.2."""
    return hashlib.new(name, (password * (2**20 // len(password) + 1))[: 2**20]).digest()


def as_words(octets):
    """The octets as words that a little-endian machine keeps of big-endian ones."""
    return struct.pack(f"<{len(octets) // 4}I", *struct.unpack(f">{len(octets) // 4}I", octets))


def of_key(name, kind, local):
    yield Needle(f"Kul {name}", local[:16], 1 if kind == "auth" else 2)
    yield Needle(f"Kul {name} as words", as_words(local)[:16], 0)
    if kind == "priv":
        for key in round_keys(local[:16]):
            yield Needle("AES round key", key, 1)
            yield Needle("AES round key as words", as_words(key), 0)
    for what, pad in (("inner", 0x36), ("outer", 0x5C)):
        block = bytes(octet ^ pad for octet in local.ljust(64, b"\0"))
        state = STATES[name](block)
        yield Needle(f"padded Kul {name}", block[:16], 0)
        yield Needle(f"{what} state of Kul {name}", struct.pack(f"<{len(state)}I", *state)[:16], int(kind == "auth"))


def needles(users, engine):
    """Those of users (NAME, HASH, {"auth": PASSWORD, "priv": PASSWORD}) whose keys are localised to an engine. The
    privacy key stands twice in a handle, once as the first of its round keys."""
    for _, name, passwords in users:
        for kind, password in passwords.items():
            key = password_key(name, password.encode())
            yield Needle("password", password.encode(), 0)
            yield Needle(f"Ku {name}", key[:16], 1)
            yield Needle(f"Ku {name} as words", as_words(key)[:16], 0)
            yield from of_key(name, kind, hashlib.new(name, key + engine + key).digest())
