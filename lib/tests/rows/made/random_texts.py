"""Prints the digests that crates/tests_engine/src/aes.rt asks for: of 10,000 texts that OpenSSL seals and opens.

Run it with Python's `cryptography`, which calls OpenSSL:
    python3 made/random_texts.py
Keys, initialization vectors, lengths (0 to 300) and texts are drawn in turn from a linear congruential generator.
"""

from cryptography.hazmat.decrepit.ciphers.modes import CFB
from cryptography.hazmat.primitives.ciphers import Cipher, algorithms

WORD = 2**64
TEXTS = 10000
state = 1


def octet():
    """The high octet of the next state of a linear congruential generator (Knuth's MMIX)."""
    global state
    state = (state * 6364136223846793005 + 1442695040888963407) % WORD
    return state >> 56


def octets(count):
    return bytes(octet() for _ in range(count))


def digest(so_far, text):
    """FNV-1a, 64 bits."""
    for each in text:
        so_far = (so_far ^ each) * 0x100000001B3 % WORD
    return so_far


sealed = opened = 0xCBF29CE484222325
for _ in range(TEXTS):
    key, iv = octets(16), octets(16)
    high, low = octet(), octet()
    text = octets((high * 256 + low) % 301)
    cipher = Cipher(algorithms.AES(key), CFB(iv))
    sealing, opening = cipher.encryptor(), cipher.decryptor()
    sealed = digest(sealed, sealing.update(text) + sealing.finalize())
    opened = digest(opened, opening.update(text) + opening.finalize())
print(f"sealed {sealed:#018x}, opened {opened:#018x}")
