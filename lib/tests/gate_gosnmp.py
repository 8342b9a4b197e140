#!/usr/bin/env python3
"""What gosnmp gets through a gateway, by each user at each level, beside what it gets from the device itself by
SNMPv2c: gate_gosnmp.py GATE-PORT DEVICE-PORT COMMUNITY CONTEXT WEB-PORT

It asks by the Prometheus exporter for SNMP (prometheus-snmp-exporter), which walks by gosnmp. It prints what differs,
and how many scrapes were compared; the status is 1 if any differs."""
import json
import re
import shutil
import subprocess
import sys
import tempfile
import time
import urllib.request

GATE, DEVICE, COMMUNITY, CONTEXT, WEB = sys.argv[1:]
USERS = {"md": ("MD5", "syrupmaple"), "sha": ("SHA", "another-one"), "sha256": ("SHA256", "a-third-one")}
WALK = {
    "walk": ["1.3.6.1.2.1.1.9", "1.3.6.1.2.1.2.2.1.4"],
    "get": ["1.3.6.1.2.1.1.7.0"],
    "max_repetitions": 5,
    "timeout": "4s",
    "retries": 3,
    "metrics": [
        {"name": "services", "oid": "1.3.6.1.2.1.1.7", "type": "gauge", "help": "x"},
        {
            "name": "described",
            "oid": "1.3.6.1.2.1.1.9.1.3",
            "type": "DisplayString",
            "help": "x",
            "indexes": [{"labelname": "row", "type": "gauge"}],
        },
        {
            "name": "mtu",
            "oid": "1.3.6.1.2.1.2.2.1.4",
            "type": "gauge",
            "help": "x",
            "indexes": [{"labelname": "row", "type": "gauge"}],
        },
    ],
}


def auths():
    """By a name: the version and how it is authenticated."""
    yield "device", {"version": 2, "auth": {"community": COMMUNITY}}
    secured = {"context_name": CONTEXT}
    yield "plain1", {"version": 3, "auth": {**secured, "username": "plain", "security_level": "noAuthNoPriv"}}
    for user, (hash_of, word) in USERS.items():
        auth = {**secured, "username": user, "password": "maplesyrup", "auth_protocol": hash_of}
        yield f"{user}2", {"version": 3, "auth": {**auth, "security_level": "authNoPriv"}}
        yield f"{user}3", {
            "version": 3,
            "auth": {**auth, "security_level": "authPriv", "priv_protocol": "AES", "priv_password": word},
        }


def config(is_split):
    """Its configuration, in JSON, which is YAML. From version 0.23 on the authentication stands beside the modules."""
    if is_split:
        return {
            "auths": {name: {"version": it["version"], **it["auth"]} for name, it in auths()},
            "modules": {"walk": WALK},
        }
    return {name: {**WALK, **it} for name, it in auths()}


def is_split():
    told = subprocess.run(
        [shutil.which("prometheus-snmp-exporter"), "--version"],
        stdout=subprocess.PIPE,
        stderr=subprocess.STDOUT,
        text=True,
        check=False,
    ).stdout
    found = re.search(r"version (\d+)\.(\d+)", told)
    return bool(found) and (int(found[1]), int(found[2])) >= (0, 23)


def scraped(name, port, split):
    words = f"auth={name}&module=walk" if split else f"module={name}"
    url = f"http://127.0.0.1:{WEB}/snmp?target=127.0.0.1:{port}&{words}"
    try:
        with urllib.request.urlopen(url, timeout=20) as it:
            text = it.read().decode()
    except OSError as fault:
        return [f"{fault}: {getattr(fault, 'read', bytes)().decode()[:600]}"]
    return sorted(line for line in text.splitlines() if line.startswith(("services", "described", "mtu")))


def shown(lines):
    """What the users may see of this by own_gate.sh: of ifEntry the row 7 alone."""
    return [it for it in lines if not it.startswith("mtu") or 'row="7"' in it]


def unmoved(lines, *others):
    """These lines without the variables of which one of the others has something else: a device lives."""
    moving = {it.rpartition(" ")[0] for it in set(others[0]).symmetric_difference(others[1])}
    return [it for it in lines if it.rpartition(" ")[0] not in moving]


def wait_for_web():
    for _ in range(100):
        try:
            urllib.request.urlopen(f"http://127.0.0.1:{WEB}/", timeout=1).close()
            return
        except OSError:
            time.sleep(0.1)
    sys.exit("the exporter doesn't begin")


def main():
    split, differ, count = is_split(), 0, 0
    with tempfile.NamedTemporaryFile("w", suffix=".yml") as file:
        json.dump(config(split), file)
        file.flush()
        words = ["prometheus-snmp-exporter", f"--config.file={file.name}", f"--web.listen-address=127.0.0.1:{WEB}"]
        with subprocess.Popen(words, stdout=subprocess.DEVNULL, stderr=subprocess.DEVNULL) as exporter:
            try:
                wait_for_web()
                own = scraped("device", DEVICE, split)
                if len(own) < 5:
                    sys.exit(f"the device itself gives {own}")
                for name, _ in auths():
                    if name == "device":
                        continue
                    found, before, count = scraped(name, GATE, split), own, count + 1
                    own = scraped("device", DEVICE, split)
                    if unmoved(found, before, own) != shown(unmoved(own, before, own)):
                        differ += 1
                        print(f"differs: {name}: {found} instead of {shown(own)}")
            finally:
                exporter.kill()
    print(f"{count} scrapes compared, {differ} differ")
    sys.exit(differ > 0)


main()
