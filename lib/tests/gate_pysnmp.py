#!/usr/bin/env python3
"""What pysnmp gets through a gateway, by each user at each level, beside what it gets from the device itself by
SNMPv2c: gate_pysnmp.py GATE-PORT DEVICE-PORT COMMUNITY CONTEXT

It prints what differs, and how many exchanges were compared; the status is 1 if any differs. Debian's package is
python3-pysnmp4."""
import sys
import warnings

warnings.simplefilter("ignore")
from pysnmp.hlapi import (
    CommunityData,
    ContextData,
    ObjectIdentity,
    ObjectType,
    OctetString,
    SnmpEngine,
    UdpTransportTarget,
    UsmUserData,
    bulkCmd,  # noqa: E402
    getCmd,
    nextCmd,
    setCmd,
    usmAesCfb128Protocol,
    usmHMAC192SHA256AuthProtocol,
    usmHMACMD5AuthProtocol,
    usmHMACSHAAuthProtocol,
)

GATE, DEVICE, COMMUNITY, CONTEXT = int(sys.argv[1]), int(sys.argv[2]), sys.argv[3], sys.argv[4]
USERS = {
    "md": (usmHMACMD5AuthProtocol, "syrupmaple"),
    "sha": (usmHMACSHAAuthProtocol, "another-one"),
    "sha256": (usmHMAC192SHA256AuthProtocol, "a-third-one"),
}
SYSTEM, UP_TIME = "1.3.6.1.2.1.1", "1.3.6.1.2.1.1.3.0"


def users():
    """Each user at each level, with an engine of its own: a user of pysnmp's engine has one level."""
    yield "plain 1", UsmUserData("plain")
    for name, (hash_of, word) in USERS.items():
        yield f"{name} 2", UsmUserData(name, "maplesyrup", authProtocol=hash_of)
        yield f"{name} 3", UsmUserData(
            name, "maplesyrup", word, authProtocol=hash_of, privProtocol=usmAesCfb128Protocol
        )


class Side:
    """A way to ask: at a port, as somebody, in a context."""

    def __init__(self, port, who, context):
        self.parts = (
            SnmpEngine(),
            who,
            UdpTransportTarget(("127.0.0.1", port), timeout=3, retries=1),
            ContextData(contextName=context),
        )

    def ask(self, command, numbers, names):
        objects = [ObjectType(ObjectIdentity(name)) for name in names]
        return shown(next(command(*self.parts, *numbers, *objects, lookupMib=False)))

    def walk(self, command, *numbers):
        found = []
        for told in command(
            *self.parts, *numbers, ObjectType(ObjectIdentity(SYSTEM)), lookupMib=False, lexicographicMode=False
        ):
            found.append(shown(told))
        return found

    def set(self, name, value):
        return shown(next(setCmd(*self.parts, ObjectType(ObjectIdentity(name), OctetString(value)), lookupMib=False)))


def shown(told):
    fault, status, index, bindings = told
    if fault:
        return str(fault)
    return (
        int(status),
        int(index),
        [
            (str(name), type(value).__name__, "" if str(name) == UP_TIME else value.prettyPrint())
            for name, value in bindings
        ],
    )


def exchanges(side):
    """What is compared."""
    yield "get", side.ask(getCmd, (), [f"{SYSTEM}.1.0", f"{SYSTEM}.5.0", f"{SYSTEM}.99.0"])
    yield "getnext", side.ask(nextCmd, (), [SYSTEM, f"{SYSTEM}.5.0"])
    yield "getbulk", side.ask(bulkCmd, (1, 4), [SYSTEM, f"{SYSTEM}.4"])
    yield "walk by GetNext", side.walk(nextCmd)
    yield "walk by GetBulk", side.walk(bulkCmd, 0, 7)


def main():
    device, count, differ = dict(exchanges(Side(DEVICE, CommunityData(COMMUNITY), ""))), 0, 0
    for name, who in users():
        side = Side(GATE, who, CONTEXT)
        for what, found in exchanges(side):
            count += 1
            if found != device[what]:
                differ += 1
                print(f"differs: {name} {what}: {found} instead of {device[what]}")
        if name != "plain 1":
            count += 1
            told = side.set(f"{SYSTEM}.4.0", name)
            if told != (0, 0, [(f"{SYSTEM}.4.0", "OctetString", name)]):
                differ += 1
                print(f"differs: {name} set: {told}")
            device = dict(exchanges(Side(DEVICE, CommunityData(COMMUNITY), "")))
    print(f"{count} exchanges compared, {differ} differ")
    sys.exit(differ > 0)


main()
