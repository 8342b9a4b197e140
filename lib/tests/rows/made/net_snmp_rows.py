"""Writes net_snmp.rows: what net-snmp's agent answers to its own manager, and to messages of messages.py.

Run it in the folder of the rows, with net-snmp (`snmpd` and `snmpget`) and Python's `cryptography`:
    python3 made/net_snmp_rows.py > net_snmp.rows
It starts an agent of its own, in a folder of its own, on the loopback address. Each run has other numbers and moments.
"""

import os
import pathlib
import socket
import subprocess
import tempfile
import threading
import time

from messages import ENGINE, binding, discovery, message, pdu, scoped_pdu
from stations import SETTING, agent, refused as told

AGENT, PROXY = ("127.0.0.1", 16161), ("127.0.0.1", 16162)
CONFIG = f"""exactEngineID 0x{ENGINE.hex()}
createUser ann MD5 maplesyrup AES maplesyrup
createUser sam SHA-256 maplesyrup AES maplesyrup
createUser joe MD5 maplesyrup
createUser guest
rouser ann noauth
rouser sam noauth
agentAddress udp:{AGENT[0]}:{AGENT[1]}
sysDescr a router
"""
SECRETS = {"ann": ["-a", "MD5"], "sam": ["-a", "SHA-256"]}


def ask(text):
    """The agent's answer to a datagram."""
    with socket.socket(socket.AF_INET, socket.SOCK_DGRAM) as agent:
        agent.settimeout(5)
        agent.sendto(text, AGENT)
        return agent.recvfrom(70000)[0]


def forward(proxy, seen):
    """Hands datagrams on, and keeps them with their answers."""
    while True:
        text, manager = proxy.recvfrom(70000)
        if not text:
            return
        seen.append((text, ask(text)))
        proxy.sendto(seen[-1][1], manager)


def snmpget(user, level, environment):
    """What net-snmp's manager sends for sysDescr.0, each with the answer."""
    seen = []
    with socket.socket(socket.AF_INET, socket.SOCK_DGRAM) as proxy:
        proxy.bind(PROXY)
        thread = threading.Thread(target=forward, args=(proxy, seen))
        thread.start()
        secrets = [*SECRETS[user], "-A", "maplesyrup", "-x", "AES", "-X", "maplesyrup"]
        place = f"{PROXY[0]}:{PROXY[1]}"
        command = ["snmpget", "-v3", "-l", level, "-u", user, *secrets, place, "1.3.6.1.2.1.1.1.0"]
        subprocess.run(command, env=environment, check=True, capture_output=True)
        proxy.sendto(b"", PROXY)
        thread.join()
    return seen


def fields(text):
    """The boots, the time and the salt of a message."""
    at = text.index(ENGINE) + len(ENGINE)
    found = []
    for _ in range(5):
        size = text[at + 1]
        found.append(text[at + 2 : at + 2 + size])
        at += 2 + size
    boots, moment, _, _, salt = found
    return int.from_bytes(boots, "big"), int.from_bytes(moment, "big"), salt


def get(number, tag=0xA0):
    return scoped_pdu(pdu(tag, number, binding("1.3.6.1.2.1.1.1.0", 5)))


def refused():
    """A refusal of each kind, at each level at which it can be, with the answer."""
    boots, now, _ = fields(ask(message(1, 1, b"ann", get(1))))
    right, late = {"boots": boots, "time": now}, {"boots": boots + 1, "time": now}
    cases = [("UnknownUser", level, b"tom", {}) for level in (1, 2, 3)]
    cases += [("UnsupportedLevel", level, user, right) for level, user in ((2, b"guest"), (3, b"guest"), (3, b"joe"))]
    for user in (b"ann", b"sam"):
        cases += [("WrongDigest", level, user, {**right, "spoiled": True}) for level in (2, 3)]
        cases += [("NotInWindow", level, user, late) for level in (2, 3)]
        cases += [("DecryptionError", 3, user, {**right, "salt": bytes(7)})]
    for number, (why, level, user, given) in enumerate(cases, 1):
        text = message(level, number, user, get(number + 100), **given)
        yield why, text, ask(text)
    for tag in (0xA1, 0xA3, 0xA5, 0xA6):
        text = message(1, tag, b"tom", get(tag, tag))
        yield "UnknownUser", text, ask(text)


def exchanges(environment):
    rows = []
    for user in ("ann", "sam"):
        for level in ("noAuthNoPriv", "authNoPriv", "authPriv"):
            found = snmpget(user, level, environment)[0]
            rows.append(("UnknownEngine", *found))
    text = discovery()
    rows.append(("UnknownEngine", text, ask(text)))
    rows.extend(refused())
    return rows


def reported(rows):
    for why, text, answer in rows:
        boots, now, _ = fields(answer)
        assert boots == 1
        yield f"agent_take {now} {text.hex()} -> {told(why)} report {answer.hex()}"


def write(rows):
    counts = [0] * 6
    for _, _, answer in rows:
        at = answer.index(bytes.fromhex("2b060106030f0101"))
        counts[answer[at + 8] - 1] += 1
    print(
        "# What net-snmp's agent answered to its own manager and to others: timestamps, datagrams, and its report on each.\n#"
    )
    print(
        "# Written by made/net_snmp_rows.py, with net-snmp 5.9.3, whose agent had boots 1. The rows are as in agent.rows."
    )
    print(SETTING)
    agent(boots=1)
    print("\n".join(reported(rows)))
    print("counters -> counters", *counts)


def main():
    with tempfile.TemporaryDirectory() as folder:
        room = pathlib.Path(folder)
        (room / "snmpd.conf").write_text(CONFIG)
        environment = {**os.environ, "MIBS": "", "SNMPCONFPATH": str(room / "none"), "SNMP_PERSISTENT_DIR": str(room)}
        command = ["snmpd", "-f", "-Lf", "/dev/null", "-C", "-c", str(room / "snmpd.conf"), "-p", str(room / "pid")]
        with subprocess.Popen(command, env=environment) as agent:
            time.sleep(3)
            try:
                write(exchanges(environment))
            finally:
                agent.terminate()


main()
