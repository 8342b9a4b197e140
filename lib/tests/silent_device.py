#!/usr/bin/env python3
"""Requests to a device that doesn't answer, and then to one that does, without authentication: silent_device.py PORT
ENGINE CONTEXT SILENT COUNT

It sends the gateway at 127.0.0.1:PORT, whose engine ID is ENGINE in hex, 200 requests for the device SILENT, each of
another name. Then it asks the device CONTEXT for sysDescr.0 COUNT times, and prints how many were answered within a
second."""
import socket
import sys

from spell import NO_AUTH, REPORTABLE, Security, scoped, spelled, tlv

GET, SILENT_REQUESTS = 0xA0, 200


def request(engine, context, number, last):
    name = bytes([0x2B, 6, 1, 2, 1, 1, 1, last])
    binding = tlv(0x30, tlv(6, name) + tlv(5, b""))
    text = scoped(engine, context, GET, number, 0, 0, binding)
    return spelled(Security(engine, user=b"plain"), text, NO_AUTH | REPORTABLE, number)


def main():
    port, engine, context, silent, count = sys.argv[1:]
    engine = bytes.fromhex(engine)
    sender = socket.socket(socket.AF_INET, socket.SOCK_DGRAM)
    sender.settimeout(1)
    sender.connect(("127.0.0.1", int(port)))
    for number in range(SILENT_REQUESTS):
        sender.send(request(engine, silent.encode(), 1000 + number, number % 128))
    answered = 0
    for number in range(int(count)):
        sender.send(request(engine, context.encode(), number + 1, 0))
        try:
            answered += b"value 1" in sender.recv(65535)
        except TimeoutError:
            pass
    print(f"{answered} of {count}")


main()
