#!/usr/bin/env python3
"""Requests a second of an agent on 127.0.0.1: requests.py PORT USER PASSWORD [SECONDS]

It discovers the engine, signs one authNoPriv GetRequest of sysDescr.0 (HMAC-SHA-96), and sends it again and again with
16 on the way, which an agent answers within the time window. Needs nothing but Python.
"""
import hashlib
import hmac
import socket
import sys
import time


def tlv(tag, content):
    n = len(content)
    head = bytes([n]) if n < 128 else bytes([0x81, n]) if n < 256 else bytes([0x82, n >> 8, n & 255])
    return bytes([tag]) + head + content


def number(n):
    return tlv(2, n.to_bytes(n.bit_length() // 8 + 1, "big"))


def message(flags, engine, boots, at, user, code, pdu):
    header = tlv(0x30, number(77) + number(65507) + tlv(4, bytes([flags])) + number(3))
    security = tlv(0x30, tlv(4, engine) + number(boots) + number(at) + tlv(4, user) + tlv(4, code) + tlv(4, b""))
    return tlv(0x30, number(3) + header + tlv(4, security) + tlv(0x30, tlv(4, engine) + tlv(4, b"") + pdu))


def children(octets):
    at, found = 0, []
    while at < len(octets):
        size, body = octets[at + 1], at + 2
        if size > 127:
            body += size & 127
            size = int.from_bytes(octets[at + 2 : body], "big")
        found.append(octets[body : body + size])
        at = body + size
    return found


def asked(sock, user, password):
    """A signed GetRequest of sysDescr.0 that the agent behind the socket answers within the time window."""
    empty = tlv(0xA0, number(1) + number(0) + number(0) + tlv(0x30, b""))
    sock.send(message(4, b"", 0, 0, b"", b"", empty))
    fields = children(children(children(children(sock.recv(65536))[0])[2])[0])
    engine, boots, at = fields[0], int.from_bytes(fields[1], "big"), int.from_bytes(fields[2], "big")
    key = hashlib.sha1((password * (1048576 // len(password) + 1))[:1048576]).digest()
    key = hashlib.sha1(key + engine + key).digest()
    name = tlv(6, bytes.fromhex("2b06010201010100"))
    pdu = tlv(0xA0, number(1) + number(0) + number(0) + tlv(0x30, tlv(0x30, name + tlv(5, b""))))
    unsigned = message(5, engine, boots, at, user, bytes(12), pdu)
    code = hmac.new(key, unsigned, "sha1").digest()[:12]
    return message(5, engine, boots, at, user, code, pdu)


def connected(port):
    sock = socket.socket(socket.AF_INET, socket.SOCK_DGRAM)
    sock.connect(("127.0.0.1", port))
    sock.settimeout(2)
    return sock


def main():
    port, user, password = int(sys.argv[1]), sys.argv[2].encode(), sys.argv[3].encode()
    seconds = float(sys.argv[4]) if len(sys.argv) > 4 else 5
    sock = connected(port)
    signed = asked(sock, user, password)
    for _ in range(16):
        sock.send(signed)
    count, end = 0, time.monotonic() + seconds
    while time.monotonic() < end:
        answer = sock.recv(65536)
        assert b"\x2b\x06\x01\x02\x01\x01\x01\x00" in answer, answer.hex()
        count += 1
        sock.send(signed)
    print(f"{count / seconds:.0f} requests a second")


if __name__ == "__main__":
    main()
