#!/usr/bin/env python3
"""Looks for keys in the memory of a process that stops for it: look.py [--gcore] [--locked] PROGRAM..

The program (tests/hold.c or tests/hold.py) is run with a configuration and an engine ID as further words. It writes a
word and waits for a line: `began`, `used` when each key stands in both of its handles, `closed` when nothing may be
left, and other words in between, where what is on the heap isn't counted. With --gcore a core is looked at too, which
has the registers; with --locked no key may stand in it at any time. It prints what differs from that; the status is 1
if anything does. Not proved."""
import argparse
import os
import pathlib
import subprocess
import sys
import tempfile

import needles

ENGINE = bytes.fromhex("80001f880478")
USERS = [(name, auth, {"auth": f"{name}'s first word", "priv": f"{name}'s second word"}) for name, auth in
         (("ann", "md5"), ("bob", "sha1"), ("sam", "sha256"))]
WANTED = list(needles.needles(USERS, ENGINE))
HANDLES = 2  # an agent and a manager
HEAP = ("[heap]", "")  # and what malloc maps beside it
TEXT = "".join(
    f'[[user]]\nname = "{name}"\nauth = "{auth}"\nauth-password = "{words["auth"]}"\npriv-password = "{words["priv"]}"\n\n'
    for name, auth, words in USERS
)


def regions(pid):
    """The writable pages, and whether they may have keys: the heap, and what malloc maps beside it."""
    with open(f"/proc/{pid}/mem", "rb") as memory:
        for line in pathlib.Path(f"/proc/{pid}/maps").read_text().splitlines():
            part = line.split(None, 5)
            name = part[5] if len(part) > 5 else ""
            if "w" not in part[1] or name.startswith("[v"):
                continue
            begin, end = (int(word, 16) for word in part[0].split("-"))
            try:
                memory.seek(begin)
                yield name, memory.read(end - begin)
            except OSError:
                pass


def core(pid, folder):
    subprocess.run(["gcore", "-o", f"{folder}/core", str(pid)], capture_output=True, check=True)
    path = pathlib.Path(f"{folder}/core.{pid}")
    octets = path.read_bytes()
    path.unlink()
    return octets


def judged(word, counts, where, may_be_there):
    """How many of the needles stand otherwise than they may."""
    wrong = 0
    for needle, count in zip(WANTED, counts):
        held = needle.in_handle * HANDLES if may_be_there and word != "closed" else 0
        least, most = held if word == "used" else 0, held
        if not least <= count <= most:
            print(f"FAILED {word}: {needle.name} stands {count} times {where}, expected {least} to {most}")
            wrong += 1
    return wrong


def look(word, pid, folder, options):
    pages = list(regions(pid))
    found = {"on the heap": (b"|".join(octets for name, octets in pages if name in HEAP), True),
             "elsewhere": (b"|".join(octets for name, octets in pages if name not in HEAP), False)}
    if options.gcore:
        found["in a core"] = core(pid, folder), not options.locked
    wrong, told = 0, []
    for where, (octets, may_be_there) in found.items():
        counts = [octets.count(needle.octets) for needle in WANTED]
        wrong += judged(word, counts, where, may_be_there)
        told.append(f"{sum(counts)} {where}")
    print(f"{word}: {', '.join(told)}")
    return wrong


def main():
    parser = argparse.ArgumentParser(description=__doc__.partition("\n")[0])
    parser.add_argument("--gcore", action="store_true")
    parser.add_argument("--locked", action="store_true")
    parser.add_argument("program", nargs="+")
    options, wrong, seen = parser.parse_args(), 0, []
    with tempfile.TemporaryDirectory() as folder:
        config = pathlib.Path(folder, "config.toml")
        config.write_text(TEXT)
        with subprocess.Popen(
            [*options.program, config, ENGINE.hex()], stdin=subprocess.PIPE, stdout=subprocess.PIPE, text=True
        ) as process:
            for line in process.stdout:
                seen.append(line.strip())
                wrong += look(seen[-1], process.pid, folder, options)
                process.stdin.write("\n")
                process.stdin.flush()
        if process.returncode or "closed" not in seen:
            print(f"FAILED it ended with {process.returncode} after {seen}")
            wrong += 1
    sys.exit(wrong > 0)


if __name__ == "__main__":
    main()
