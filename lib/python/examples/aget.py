#!/usr/bin/env python3
"""GetRequests by asyncio: aget.py CONFIG HOST PORT USER LEVEL OID..

Each OID is asked for at the same time, by a request of its own. A line has its name, the tag of its value and the value in hex."""
import argparse
import asyncio

from snmpsec import Error, Level
from snmpsec.aio import Client, SnmpError, Target
from snmpsec.values import BadValue, ObjectId, encode


async def main() -> None:
    parser = argparse.ArgumentParser(description=__doc__.splitlines()[0])
    for word in ("config", "host", "port", "user", "level"):
        parser.add_argument(word, type=int if word in ("port", "level") else str)
    parser.add_argument("name", nargs="+", type=ObjectId)
    asked = parser.parse_args()
    target = Target(asked.host, asked.port, asked.user, Level(asked.level))
    async with Client.from_file(asked.config) as client:
        for found in await asyncio.gather(*(client.get(target, name) for name in asked.name)):
            for name, value in found:
                tag, content = value if isinstance(value, BadValue) else encode(value)
                print(name, f"{tag:02x}", content.hex())


if __name__ == "__main__":
    try:
        asyncio.run(main())
    except (SnmpError, OSError, Error) as fault:
        raise SystemExit(f"aget: {fault}")
