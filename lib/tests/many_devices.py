#!/usr/bin/env python3
"""Whether answers that lie in sockets are read before requests are given up: many_devices.py GATE-PORT DEVICE-PORT
GATE DEVICE COUNT

GATE and DEVICE are processes; the contexts c0, c1 .. name the devices. Each of them is asked while DEVICE is stopped,
which then answers while GATE is stopped, until the time of all requests is over. Prints how many clients get a
value."""
import asyncio
import os
import signal
import sys

from snmpsec.aio import Client, SnmpError, Target, configuration

LAST = 8.0  # seconds that a gateway waits for an answer, by its configuration


def waiting_at(port):
    """How many octets wait in the socket of this port."""
    with open("/proc/net/udp", encoding="ascii") as it:
        rows = [line.split() for line in it][1:]
    return sum(int(row[4].split(":")[1], 16) for row in rows if row[1].endswith(f":{port:04X}"))


async def until_quiet(*ports, filled=True):
    """Waits until as much has waited at these ports for half a second, at the first of them something or nothing."""
    before = None
    while before is None or before != (now := [*map(waiting_at, ports)]) or bool(now[0]) != filled or any(now[1:]):
        before = [*map(waiting_at, ports)]
        await asyncio.sleep(0.5)


async def value_of(client, port, context):
    try:
        return await client.get(Target("127.0.0.1", port, user="sha256", context=context), "1.3.6.1.2.1.1.1.0")
    except SnmpError as fault:
        return print(fault, file=sys.stderr)


async def main():
    gate_port, device_port, gate, device, count = map(int, sys.argv[1:])
    config = configuration("sha256", auth="sha256", auth_password=b"maplesyrup", priv_password=b"a-third-one")
    async with Client(config, timeout=4 * LAST, retries=0) as client:
        await value_of(client, gate_port, b"c0")
        os.kill(device, signal.SIGSTOP)
        asked = [asyncio.create_task(value_of(client, gate_port, b"c%d" % n)) for n in range(count)]
        await until_quiet(device_port, gate_port)
        os.kill(gate, signal.SIGSTOP)
        os.kill(device, signal.SIGCONT)
        await until_quiet(device_port, filled=False)
        await asyncio.sleep(LAST)
        os.kill(gate, signal.SIGCONT)
        print(sum(bool(it) for it in await asyncio.gather(*asked)))


asyncio.run(main())
