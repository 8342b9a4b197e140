#!/usr/bin/env python3
"""Compares what the example agent answers with RFC 3416, over tables and views that are made from a seed:
made_tables.py AGENT PORT [TABLES [SEED]]

AGENT is the program. A table has 0 to 30 variables whose names begin with 1.3 and go on with 1 to 4 arcs of 0 to 4, and
the view is one of tools/made_views.py, below 1.3. Each agent is asked by 10 requests of 0 to 4 names: Get, GetNext and
GetBulk (RFC 3416, sections 4.2.1 to 4.2.3). Where a name has no variable that may be seen, noSuchObject and
noSuchInstance are taken as one: which of them is due lies with the device.

Each answer that differs is printed. The last line is 'N passed, M failed', of answers, and the status is 1 if one
failed."""
import os
import pathlib
import random
import signal
import subprocess
import sys
import tempfile
import time

sys.dont_write_bytecode = True
sys.path.insert(0, str(pathlib.Path(__file__).resolve().parents[2] / "tools"))
import snmpsec
from made_views import NAMES, PLACES, compares, dotted, names_in, view_of  # noqa: E402
from raw import connected, exchanged
from spell import NO_AUTH, Security, read, scoped, spelled

ENGINE = "80001f8804706c61696e"
REQUESTS, MOST_VARIABLES, MOST_NAMES, MOST_REPETITIONS = 10, 30, 4, 6
GET, GET_NEXT, GET_BULK = 0xA0, 0xA1, 0xA5
MISSING, END_OF_MIB_VIEW = (0x80, b""), (0x82, b"")
TOP = (1, 3)
TRIES = 100  # so often, 10 ms apart, a new agent is asked


def below(name):
    return TOP + tuple(name)


def family(row):
    """A row of the view, below 1.3: its mask has two bits more in front."""
    subtree, mask, include = row
    bits = "11" + "".join(str(int(compares(mask, at))) for at in range(8))
    octets = bytes(int(bits[at:at + 8].ljust(8, "1"), 2) for at in (0, 8))
    text = f"[[family]]\nview = 'v'\nsubtree = '{dotted(below(subtree))}'\ninclude = {str(include).lower()}\n"
    return text + (f"mask = '{octets.hex()}'\n" if mask else "")


CONFIG = """[[user]]
name = 'ann'
[[context]]
name = ''
[[group]]
model = 3
name = 'ann'
group = 'g'
[[access]]
group = 'g'
prefix = ''
match = 'exact'
model = 3
level = 'noAuthNoPriv'
read = 'v'
"""


class Device:
    """A table's values by name, and which of them may be seen."""

    def __init__(self, rng, inside):
        names = rng.sample(NAMES, rng.randint(0, MOST_VARIABLES))
        self.values = {below(name): (2, bytes([place])) for place, name in enumerate(names)}
        self.seen = sorted(below(name) for name in names if inside >> PLACES[name] & 1)

    def table(self):
        return "".join(f"{dotted(name)} i {content[0]}\n" for name, (_, content) in self.values.items())

    def get(self, name):
        return name, self.values[name] if name in self.seen else MISSING

    def get_next(self, name):
        after = [it for it in self.seen if it > name]
        return (after[0], self.values[after[0]]) if after else (name, END_OF_MIB_VIEW)

    def get_bulk(self, names, non_repeaters, most):
        """Up to a repetition in which all values are endOfMibView."""
        answers, asked = [self.get_next(name) for name in names[:non_repeaters]], names[non_repeaters:]
        for _ in range(most if asked else 0):
            row = [self.get_next(name) for name in asked]
            answers, asked = answers + row, [name for name, _ in row]
            if all(value == END_OF_MIB_VIEW for _, value in row):
                break
        return answers


def request_of(rng, device):
    """The PDU's tag and numbers, its names, and what is due."""
    near = [*device.values] or [below(name) for name in NAMES]
    names = [
        rng.choice(near) if rng.random() < 0.7 else below(rng.choice(NAMES)) for _ in range(rng.randint(0, MOST_NAMES))
    ]
    tag = rng.choice((GET, GET_NEXT, GET_BULK))
    if tag == GET_BULK:
        non_repeaters, most = rng.randint(0, MOST_NAMES + 1), rng.randrange(MOST_REPETITIONS)
        return tag, non_repeaters, most, names, device.get_bulk(names, non_repeaters, most)
    return tag, 0, 0, names, [(device.get if tag == GET else device.get_next)(name) for name in names]


def answered(at, request_id, tag, second, third, names):
    """The variables of the answer, or what came in their place."""
    bindings = b"".join(snmpsec.binding(name, 5) for name in names)
    text = scoped(bytes.fromhex(ENGINE), b"", tag, request_id, second, third, bindings)
    came = exchanged(at, spelled(Security(engine=bytes.fromhex(ENGINE), user=b"ann"), text, NO_AUTH, request_id))
    if came is None:
        return "no answer"
    message = read(came)
    if (message.tag, message.request_id, message.status, message.index) != (0xA2, request_id, 0, 0):
        return f"tag {message.tag:02x}, request-id {message.request_id}, status {message.status}, index {message.index}"
    found = [(one.name, (one.tag, one.content)) for one in snmpsec.bindings(message.list)]
    return [(name, MISSING if value[0] in (0x80, 0x81) else value) for name, value in found]


def wait_for(at, port):
    """Asks until the agent answers."""
    for _ in range(TRIES):
        try:
            if answered(at, 1, GET, 0, 0, []) == []:
                return
        except ConnectionRefusedError:
            pass
        time.sleep(0.01)
    sys.exit(f"no agent answers at port {port}")


def compared(agent, port, folder, seed, number):
    """How many answers were as they are due, and how many not."""
    rng = random.Random(f"{seed} {number}")
    rows = view_of(rng)
    device = Device(rng, names_in(rows))
    pathlib.Path(folder, "config").write_text(CONFIG + "".join(map(family, rows)))
    pathlib.Path(folder, "table").write_text(device.table())
    words = [
        agent,
        "--unauthenticated",
        "100",
        f"{folder}/config",
        f"{folder}/table",
        ENGINE,
        f"{folder}/boots",
        str(port),
    ]
    failed = 0
    with subprocess.Popen(words, stdout=subprocess.DEVNULL) as running:
        at = connected(port)
        try:
            wait_for(at, port)
            for k in range(REQUESTS):
                *asked, due = request_of(rng, device)
                found = answered(at, 2 + k, *asked)
                if found != due:
                    failed += 1
                    print(f"FAILED table {number}, request {k}: {asked}\n  due   {due}\n  found {found}")
        finally:
            at.close()
            running.send_signal(signal.SIGTERM)
    return REQUESTS - failed, failed


def main():
    agent, port, tables, seed = (
        sys.argv[1],
        int(sys.argv[2]),
        int((sys.argv[3:4] or [1000])[0]),
        (sys.argv[4:5] or ["1"])[0],
    )
    passed = failed = 0
    with tempfile.TemporaryDirectory() as folder:
        for number in range(tables):
            more_passed, more_failed = compared(agent, port, folder, seed, number)
            passed, failed = passed + more_passed, failed + more_failed
    print(f"{passed} passed, {failed} failed")
    return 1 if failed else 0


sys.exit(main())
