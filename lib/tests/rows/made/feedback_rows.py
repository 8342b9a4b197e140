"""Prints rows of keys.rows: keys, initialization vectors and ciphertexts that OpenSSL gives.

Run it with Python's `cryptography`, which calls OpenSSL:
    python3 made/feedback_rows.py
Row n is the CFB (segments of 128 bits) of AES-128 over the first n octets of a fixed text, octet i of
which is (37 * i + 11) modulo 256. Keys and initialization vectors are the halves of SHA-256 of the row's
number in four octets, high octet first.
"""

import hashlib

from cryptography.hazmat.decrepit.ciphers.modes import CFB
from cryptography.hazmat.primitives.ciphers import Cipher, algorithms

ROWS = 100
TEXT = bytes((37 * i + 11) % 256 for i in range(ROWS - 1))


def row(n):
    seed = hashlib.sha256(n.to_bytes(4, "big")).digest()
    key, iv = seed[:16], seed[16:]
    sealing = Cipher(algorithms.AES(key), CFB(iv)).encryptor()
    cipher = sealing.update(TEXT[:n]) + sealing.finalize()
    key, iv, plain, cipher = (octets.hex() or "-" for octets in (key, iv, TEXT[:n], cipher))
    return f"cfb_seal {key} {iv} {plain} -> {cipher}\ncfb_open {key} {iv} {cipher} -> {plain}"


for n in range(ROWS):
    print(row(n))
