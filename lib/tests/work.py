#!/usr/bin/env python3
"""Runs tests/work.c under callgrind, and judges how the instructions of calls grow: work.py PROGRAM

What is asked of each is what snmpsec.h says of work. It prints the instructions by size; the status is 1 if any grow
more."""
import collections
import pathlib
import subprocess
import sys
import tempfile

# Instructions at most: whatever the size, and for each octet of the datagram, or list, beside.
OF_OCTETS = {"take": (25000, 60), "take-signed": (50000, 140), "take-sealed": (50000, 140), "part": (2000, 2),
             "respond": (50000, 180), "respond-signed": (50000, 180), "respond-sealed": (50000, 180),
             "respond_front": (80000, 60), "respond_front-signed": (80000, 60), "respond_front-sealed": (80000, 60)}
# The most for a number of rows, as a multiple of those for 10; and for each family with a mask.
OF_ROWS = {"access": 2, "take-users": 1.2, "take-users-masked": 1.2}
OF_MASKED = (5000, 200)


def counted(program):
    """The instructions of each call by its name and its size."""
    found = collections.defaultdict(dict)
    with tempfile.TemporaryDirectory() as folder:
        subprocess.run(
            ["valgrind", "-q", "--tool=callgrind", "--instr-atstart=no", "--callgrind-out-file=out", program],
            cwd=folder,
            check=True,
        )
        for path in sorted(pathlib.Path(folder).glob("out.*")):
            lines = path.read_text().splitlines()
            trigger = next((line for line in lines if line.startswith("desc: Trigger: ")), "")
            total = next(int(line.split()[1]) for line in lines if line.startswith(("totals: ", "summary: ")))
            if "Client Request: " in trigger:
                name, size = trigger.rpartition("Client Request: ")[2].split()
                found[name][int(size)] = total
    return found


def judged(found):
    wrong = [f"{name} wasn't counted" for name in (*OF_OCTETS, *OF_ROWS, "access-masked") if not found[name]]
    for name, (fixed, each) in {**OF_OCTETS, "access-masked": OF_MASKED}.items():
        wrong += [f"{name} {size}: {count}" for size, count in found[name].items() if count > fixed + each * size]
    for name, times in OF_ROWS.items():
        wrong += [f"{name} {size}: {count}" for size, count in found[name].items() if count > times * found[name][10]]
    return wrong


def main():
    found = counted(sys.argv[1])
    for name, counts in found.items():
        print(f"{name}: " + ", ".join(f"{count} at {size}" for size, count in sorted(counts.items())))
    wrong = judged(found)
    for line in wrong:
        print(f"FAILED {line}")
    sys.exit(bool(wrong))


main()
