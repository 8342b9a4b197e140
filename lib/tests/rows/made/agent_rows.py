"""Writes agent.rows: datagrams, what an agent answers to each, and its reports.

Run it in the folder of the rows, with Python's `cryptography`:
    python3 made/agent_rows.py > agent.rows
The answers are RFC 3412's and RFC 3414's; the octets are made by messages.py.
"""

from messages import ENGINE, binding, discovery, message, pdu, report, scoped_pdu
from stations import SETTING, agent, refused as told

HEAD = """# Agents: what they answer to datagrams, and what they report. snmp_agent.
#
#   user NAME PROTOCOL:PASSWORD PRIVACY_PASSWORD          users -> loaded
#   context, group, access, family, load                 the rows of the tables of access, as in access.rows
#   agent ENGINE BOOTS STARTED                            an agent of the users and the tables
#   agent_take NOW DATAGRAM -> accepted, or refused NUMBER NAME PLACE and the report on it
#   counters -> the six usmStats in their order
#
# Written by made/agent_rows.py. The answers are RFC 3412's and RFC 3414's."""

CONFIRMED = (0xA0, 0xA1, 0xA3, 0xA5, 0xA6)
COUNTERS = {
    "UnsupportedLevel": 1,
    "NotInWindow": 2,
    "UnknownUser": 3,
    "UnknownEngine": 4,
    "WrongDigest": 5,
    "DecryptionError": 6,
}


class Table:
    """The rows that one agent takes in turn, with its counters."""

    def __init__(self, about, boots=7):
        self.about, self.boots, self.rows, self.counts = about, boots, [], [0] * 6

    def add(self, text, why=None, now=1000, number=0, user=b"", request_id=0, reported=True):
        said = None
        if why in COUNTERS:
            counter = COUNTERS[why]
            self.counts[counter - 1] += 1
            if reported:
                said = report(number, user, request_id, counter, 7, now, self.counts[counter - 1])
        self.rows.append((text, now, why, said))

    def write(self):
        print(f"\n# {self.about}")
        agent(self.boots)
        for text, now, why, said in self.rows:
            report_on = f" report {said.hex()}" if said else " no report"
            print(f"agent_take {now} {text.hex()} -> {told(why) + report_on if why else 'accepted'}")
        print("counters -> counters", *self.counts)


def get(number, tag=0xA0):
    return scoped_pdu(pdu(tag, number, binding("1.3.6.1.2.1.1.1.0", 5)))


def refused(table, reportable):
    """Each refusal with a counter, at each level at which it can be."""
    other = ENGINE[:-1] + b"\x03"
    cases = [("UnknownEngine", level, b"ann", {"engine": other}) for level in (1, 2, 3)]
    cases += [("UnknownUser", level, b"tom", {}) for level in (1, 2, 3)]
    cases += [("UnsupportedLevel", level, user, {}) for level, user in ((2, b"guest"), (3, b"guest"), (3, b"joe"))]
    for user in (b"ann", b"sam"):
        cases += [("WrongDigest", level, user, {"spoiled": True}) for level in (2, 3)]
        cases += [("NotInWindow", level, user, {"boots": 8}) for level in (2, 3)]
        cases += [("DecryptionError", 3, user, {"salt": bytes(7)})]
    for number, (why, level, user, changes) in enumerate(cases, 1):
        given = {"boots": 7, "time": 1000, "reportable": reportable, **changes}
        text = message(level, number, user, get(number + 100), **given)
        table.add(text, why, 1000, number, user, 0 if level == 3 else number + 100, reportable)


def tags(table, level, user, why):
    """The PDUs of each kind, and one that can't be read."""
    for tag in range(0xA0, 0xA9):
        text = message(level, tag, user, get(tag, tag), 8, 1000)
        table.add(text, why, 1000, tag, user, 0 if tag == 0xA4 else tag, tag in CONFIRMED or tag == 0xA4)


def changed(table):
    def at(place, octet):
        text = bytearray(discovery())
        text[place] = octet
        return bytes(text)

    table.add(at(4, 0x01), "BadVersion")
    table.add(at(12, 0x80), "NotMessage@10")
    table.add(at(13, 0x00), "NotMessage@10")
    table.add(at(17, 0x02), "InvalidFlags")
    table.add(at(17, 0x0C), "UnknownEngine", number=1, request_id=1)
    table.add(at(20, 0x02), "UnknownModel")
    table.add(at(29, 0xFF), "NotSecurity@27")
    table.add(at(39, 0x04), "NotScoped@39")
    table.add(at(45, 0xA4), "UnknownEngine", number=1)


def uncounted(table):
    for user in (b"ann", b"sam"):
        table.add(message(3, 1, user, b"", 7, 1000), "BadScoped@0")
        table.add(message(3, 2, user, get(2, 0xA4), 7, 1000), "BadPdu@18")
        table.add(message(2, 3, user, get(3), 7, 1000), "ClockExhausted", 2147483648)
    table.add(message(1, 4, b"guest", get(4, 0xA4)), "BadPdu@74")


def window(table):
    for user in (b"ann", b"sam"):
        for level in (2, 3):
            for number, (boots, time) in enumerate(((7, 850), (7, 1150), (7, 849), (7, 1151), (6, 1000), (8, 1000)), 1):
                why = "NotInWindow" if number > 2 else None
                text = message(level, number, user, get(number), boots, time)
                table.add(text, why, 1000, number, user, 0 if level == 3 else number)


def replayed(table):
    for user in (b"ann", b"sam"):
        text = message(2, 9, user, get(9), 7, 1000)
        for now, why in ((850, None), (1150, None), (849, "NotInWindow"), (1151, "NotInWindow"), (1000, None)):
            table.add(text, why, now, 9, user, 9)


def requests(table):
    get_request = message(1, 2, b"ann", get(2))
    table.add(get_request)
    table.add(message(1, 3, b"tom", get(3)), "UnknownUser", 1000, 3, b"tom", 3)
    for user in (b"ann", b"sam"):
        for level in (1, 2, 3):
            table.add(message(level, level, user, get(5), 7, 1000))


TABLES = [
    (Table("A GetRequest, and one at each level."), requests),
    (
        Table("Each refusal with a counter, at each level at which it can be, of messages that ask for reports."),
        lambda t: refused(t, True),
    ),
    (Table("These messages, which don't ask for reports."), lambda t: refused(t, False)),
    (
        Table("PDUs of each kind in messages of a user that isn't known, and the obsolete one, which can't be read."),
        lambda t: tags(t, 1, b"tom", "UnknownUser"),
    ),
    (
        Table("PDUs of each kind in messages with authentication that are outside the window."),
        lambda t: tags(t, 2, b"sam", "NotInWindow"),
    ),
    (Table("A discovery with one octet changed."), changed),
    (Table("Refusals that have no counter, and no report."), uncounted),
    (Table("The pairs at the ends of the window, and those next to them."), window),
    (Table("One message at the first and the last second of its window, and at those next to them."), replayed),
]

print(HEAD + "\n" + SETTING, end="")
for table, fill in TABLES:
    fill(table)
    table.write()
