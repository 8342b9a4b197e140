#!/usr/bin/env python3
"""Looks for keys, passwords and communities in the memory of a gateway: look_gate.py [--gcore] PROGRAM PRELOADED
GATE-PORT DEVICE-PORT

The program is begun with users of each hash, before a device of ours (device.py), and is asked by each of them at each
level. While it runs, no password stands anywhere, and keys on its heap alone; after a SIGHUP with other passwords none
of the old keys; and none of all that, nor a community, once it has ended (PRELOADED is tests/ended.c, which stops it
then). It prints what differs; the status is 1 if anything does. Not proved."""
import argparse
import asyncio
import os
import pathlib
import signal
import subprocess
import sys
import tempfile
import time

import look
import needles
from device import READS, WRITES
from snmpsec import Level
from snmpsec.aio import Client, Target

ENGINE = bytes.fromhex("80001f8804676174652d31")
HEAD = """[gate]
engine = "{engine}"
boots = "{folder}/boots"
listen = ["127.0.0.1:{port}"]
[[device]]
context = "pdu"
address = "127.0.0.1:{device}"
community = "{reads}"
write-community = "{writes}"
[[access]]
group = "all"
prefix = ""
match = "prefix"
model = 3
level = "noAuthNoPriv"
read = "all"
write = "all"
[[family]]
view = "all"
subtree = "1.3.6.1"
include = true
"""
USER = """[[user]]
name = "{name}"
auth = "{auth}"
auth-password = "{words[auth]}"
priv-password = "{words[priv]}"
"""
GROUP = """[[group]]
model = 3
name = "{name}"
group = "all"
"""
HASHES = (("ann", "md5"), ("bob", "sha1"), ("sam", "sha256"))


def users_of(turn):
    """The users with their passwords of this turn."""
    return [
        (name, auth, {"auth": f"{name}'s {turn} word", "priv": f"{name}'s other {turn} word"}) for name, auth in HASHES
    ]


def text_of(users, **places):
    head = HEAD.format(engine=ENGINE.hex(), reads=READS.decode(), writes=WRITES.decode(), **places)
    return head + "".join((USER + GROUP).format(name=name, auth=auth, words=words) for name, auth, words in users)


def secrets_of(users):
    return list(needles.needles(users, ENGINE))


async def ask(users, port):
    """Each user asks at each level, and one of them sets."""
    config = "".join(USER.format(name=name, auth=auth, words=words) for name, auth, words in users).encode()
    async with Client(config, timeout=2.0, retries=2) as client:
        for name, _, _ in users:
            for level in Level:
                device = Target("127.0.0.1", port, name, level, b"pdu")
                [(_, value)] = await client.get(device, "1.3.6.1.2.1.1.1.0")
                assert value == b"value 1", value
        await client.set(device, [("1.3.6.1.2.1.1.4.0", b"a contact")])


class Found:
    """What stands in the memory of a process, on its heap and elsewhere."""

    def __init__(self, pid, folder, is_core):
        pages = list(look.regions(pid))
        self.heap = b"|".join(octets for name, octets in pages if name in look.HEAP)
        self.elsewhere = b"|".join(octets for name, octets in pages if name not in look.HEAP)
        self.core = look.core(pid, folder) if is_core else b""
        self.wrong = 0

    def refuse(self, when, secrets, places):
        """None of the secrets stands in these places."""
        for place in places:
            for secret in secrets:
                count = getattr(self, place).count(secret.octets)
                if count:
                    self.wrong += 1
                    print(f"FAILED {when}: {secret.name} stands {count} times: {place}")

    def count(self, secrets):
        return sum(self.heap.count(it.octets) for it in secrets)


def running(found, when, users):
    """While it runs: passwords nowhere, keys on the heap alone, and some of them there, so that a look finds what there
    is."""
    secrets = secrets_of(users)
    kept = [it for it in secrets if it.in_handle]
    found.refuse(when, [it for it in secrets if it.name == "password"], ("heap", "elsewhere", "core"))
    found.refuse(when, secrets, ("elsewhere",))
    if not found.count(kept):
        found.wrong += 1
        print(f"FAILED {when}: no key is found at all")
    return found


def ended(found, when, users):
    found.refuse(when, [*secrets_of(users), *COMMUNITIES], ("heap", "elsewhere", "core"))
    return found


COMMUNITIES = [needles.Needle("community", READS, 0), needles.Needle("write-community", WRITES, 0)]


def wait_for(what, tries=200):
    for _ in range(tries):
        if what():
            return
        time.sleep(0.05)
    sys.exit("FAILED the gateway doesn't begin, or doesn't read its file anew")


def main():
    parser = argparse.ArgumentParser(description=__doc__.split("\n\n")[0])
    parser.add_argument("--gcore", action="store_true")
    parser.add_argument("program")
    parser.add_argument("preloaded")
    parser.add_argument("port", type=int)
    parser.add_argument("device", type=int)
    given, first, second, wrong = parser.parse_args(), users_of("first"), users_of("second"), 0
    with tempfile.TemporaryDirectory() as folder:
        os.chmod(folder, 0o700)
        config, boots = pathlib.Path(folder, "gate.toml"), pathlib.Path(folder, "boots")
        config.write_text(text_of(first, folder=folder, port=given.port, device=given.device))
        with subprocess.Popen(
            [given.program, config],
            env={**os.environ, "LD_PRELOAD": given.preloaded},
            stdin=subprocess.PIPE,
            stdout=subprocess.PIPE,
            stderr=subprocess.DEVNULL,
            text=True,
        ) as gate:
            wait_for(lambda: boots.exists() and boots.read_text() == "1\n")
            asyncio.run(ask(first, given.port))
            wrong += running(Found(gate.pid, folder, False), "in use", first).wrong
            config.write_text(text_of(second, folder=folder, port=given.port, device=given.device))
            gate.send_signal(signal.SIGHUP)
            wait_for(lambda: boots.read_text() == "2\n")
            asyncio.run(ask(second, given.port))
            wrong += running(Found(gate.pid, folder, False), "read anew", second).wrong
            found = Found(gate.pid, folder, given.gcore)
            found.refuse("read anew, of the old", secrets_of(first), ("heap", "elsewhere", "core"))
            wrong += found.wrong
            gate.send_signal(signal.SIGTERM)
            if gate.stdout.readline() != "closed\n":
                sys.exit("FAILED it doesn't end")
            wrong += ended(Found(gate.pid, folder, given.gcore), "ended", second).wrong
            gate.stdin.write("\n")
            gate.stdin.flush()
        if gate.returncode:
            wrong += 1
            print(f"FAILED it ended with {gate.returncode}")
    print(f"{len(secrets_of(first)) + len(COMMUNITIES)} secrets looked for, {wrong} stand where they may not")
    sys.exit(wrong > 0)


main()
