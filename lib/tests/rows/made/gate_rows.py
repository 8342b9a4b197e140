"""Writes gate_devices.rows: a gateway before a device that misbehaves in 30 ways.

Run it in the folder of the rows:
    python3 made/gate_rows.py > gate_devices.rows
What is answered is what RFC 3416 says of it; the octets are made by tools/plain_gateway.py.
"""

import sys

sys.path.insert(0, "../../../tools")

import plain_gateway as plain  # noqa: E402
from made_devices import Variables, spelled  # noqa: E402
from plain_gateway import GET, GET_BULK, GET_NEXT, REPORT, RESPONSE, SET  # noqa: E402

HEAD = """# A gateway before a device that misbehaves in 30 ways: what it is asked, and what its client is answered.
#
#   The rows of gate.rows.
#
# Written by made/gate_rows.py. The answers are RFC 3416's, section 4.2.
"""

ENGINE = b"\x80\x00\x1f\x88\x04gate"
USER = plain.User(b"guest", None, b"", False, ENGINE)
TABLE = (1, 3, 6, 1, 4, 1, 9)
TABLES = (
    "[[group]]|model=3|name='guest'|group='g'|"
    "[[access]]|group='g'|prefix=''|match='prefix'|model=3|level='noAuthNoPriv'|read='v'|write='v'|"
    "[[family]]|view='v'|subtree='1.3.6.1'|include=true|[[family]]|view='v'|subtree='1.3.6.1.4.1.9.2'|include=false|"
)
DEVICES = (b"odd", 65507), (b"even", 65507), (b"small", 484)
VIEW = plain.View([((1, 3, 6, 1), b"", True), ((*TABLE, 2), b"", False)])
LIMITS = dict(
    waiting=1024,
    waiting_per_device=256,
    joined=16,
    rounds=64,
    again=1000,
    tries=3,
    last=5000,
    gather=500,
    gathered=262028,
    long_answers=0,
    report_unreachable=0,
)
VARIABLES = Variables(
    {(*TABLE, column, row): (2, bytes([column * 16 + row])) for column in (1, 2, 3) for row in (1, 2, 3)}
)
KINDS = {GET: "get", GET_NEXT: "get_next", GET_BULK: "get_bulk"}
BACK = (1, 3, 6, 1, 2, 1, 1, 1, 0)


class Odd:
    """One gateway, whose rows are printed as they come."""

    def __init__(self, **limits):
        tables = plain.Tables(
            [name for name, _ in DEVICES], {b"guest": "g"}, [("g", b"", False, 0, "v", "v")], {"v": VIEW}
        )
        devices = [plain.Device(name, b"public", b"write", most, 32, 100, 32) for name, most in DEVICES]
        self.gate = plain.Gateway(ENGINE, 1, 0, tables, devices, {**LIMITS, **limits})
        self.now, self.number, self.asked = 1000, 0, []

    def row(self, words, answer):
        print(f"{words} -> {answer}")
        return answer

    def make(self, tag, names, second=0, third=0, context=b"odd"):
        """Makes a request."""
        self.number += 1
        octets = spelled([(name, (2, b"\x05") if tag == SET else (5, b"")) for name in names])
        pdu, numbers = (tag, self.number, second, third, octets), (self.number, 65507, 4, 1, 0)
        datagram = plain.level_message(
            USER, 0, ENGINE, numbers, plain.scoped_of(ENGINE, context, plain.pdu_of(*pdu)), b""
        )
        self.message = plain.Message("c", USER, 0, ENGINE, context, pdu, (self.number, 65507, 1, 0), datagram)

    def request(self, tag, names, second=0, third=0, context=b"odd"):
        """Sends a request, and asks the device."""
        self.make(tag, names, second, third, context)
        self.take()

    def come(self):
        """Sends the last request, or sends it again."""
        words = f"take_client {self.now} 'c {self.message.datagram.hex()}"
        self.row(words, self.gate.take_client(self.now, self.message))

    def take(self):
        """Sends the last request, or sends it again, and asks the device."""
        self.come()
        self.send()

    def send(self):
        """Sends all that goes out."""
        said = ""
        while said != "nothing":
            self.number += 1
            before = len(self.gate.log)
            salt = self.number.to_bytes(8, "big")
            said = self.row(f"next {self.now} {salt.hex()} {self.number}", self.gate.next(self.now, salt, self.number))
            for what, request, *parts in self.gate.log[before:]:
                if what == "asks" and parts[1]:
                    self.asked.append((request.device, parts[2], parts[3]))

    def due(self, place=-1):
        """What is due of an ask: the bindings, or those of the Set."""
        _, _, (tag, second, third, octets) = self.asked[place]
        names = [name for name, _ in plain.bindings_in(octets)]
        if tag == SET:
            return plain.bindings_in(octets)
        return VARIABLES.answers(KINDS[tag], second, third if tag == GET_BULK else 1, names)

    def answer(
        self,
        bindings=None,
        status=0,
        index=0,
        place=-1,
        version=1,
        tag=RESPONSE,
        community=None,
        device=None,
        number=None,
        cut=0,
    ):
        """Answers an ask, and sends what goes out."""
        of_device, of_ask, ask = self.asked[place]
        list_octets = spelled(self.due(place) if bindings is None else bindings)
        community = community or (b"write" if ask[0] == SET else b"public")
        octets = plain.community_message(
            community, plain.pdu_of(tag, of_ask if number is None else number, status, index, list_octets), version
        )
        octets = octets[: len(octets) - cut]
        device = of_device if device is None else device
        self.row(f"take_device {self.now} {device} {octets.hex()}", self.gate.take_device(self.now, device, octets))
        self.send()

    def wait(self, milliseconds):
        self.now += milliseconds
        self.send()


ONE, TWO, HIDDEN, LAST = (*TABLE, 1, 1), (*TABLE, 1, 2), (*TABLE, 2, 1), (*TABLE, 3, 3)


def values(bindings, tag=4, content=b"odd"):
    return [(name, (tag, content)) for name, _ in bindings]


def silent(it):
    it.request(GET, [ONE])
    for _ in range(3):
        it.wait(1000)


def late(it):
    it.request(GET, [ONE])
    it.wait(1500)
    it.answer()


def too_late(it):
    silent(it)
    it.answer()


def twice(it):
    it.request(GET, [ONE])
    it.answer()
    it.answer(values(it.due()))


def in_turn(it):
    it.request(GET, [ONE])
    it.request(GET, [TWO])
    it.answer(place=-1)
    it.answer(place=-2)


def other_number(it):
    it.request(GET, [ONE])
    it.answer(number=7777)
    it.answer()


def number_of_other(it):
    it.request(GET, [ONE])
    it.request(GET, [TWO])
    it.answer(number=it.asked[-2][1])
    it.answer(place=-1)


def other_device(it):
    it.request(GET, [ONE])
    it.answer(values(it.due()), device=1)
    it.answer()


def other_community(it):
    it.request(GET, [ONE])
    it.answer(community=b"write")
    it.answer()


def version_1(it):
    it.request(GET, [ONE])
    it.answer(version=0)
    it.answer()


def a_report(it):
    it.request(GET, [ONE])
    it.answer(tag=REPORT)
    it.answer()


def cut(it):
    it.request(GET, [ONE])
    it.answer(cut=3)
    it.answer()


def other_names(it):
    it.request(GET, [ONE, TWO])
    it.answer([(LAST, value) for _, value in it.due()])


def swapped(it):
    it.request(GET, [ONE, TWO])
    it.answer(it.due()[::-1])


def a_hidden_name(it):
    it.request(GET, [ONE, HIDDEN])
    it.answer([*it.due(), (HIDDEN, (2, b"\x21"))])


def same(it):
    it.request(GET_NEXT, [ONE])
    it.answer([(ONE, (4, b"odd"))])


def back(it):
    it.request(GET_NEXT, [TWO])
    it.answer([(BACK, (4, b"odd"))])


def hidden_end(it):
    it.request(GET_NEXT, [(*TABLE, 3, 9)])
    it.answer([(HIDDEN, plain.END)])


def no_such_object(it):
    it.request(GET_NEXT, [ONE])
    it.answer([(TWO, plain.NO_SUCH_OBJECT)])


def no_value(it):
    it.request(GET, [ONE])
    it.answer([(ONE, (0x40, b"\1"))])


def fewer(it):
    it.request(GET_NEXT, [ONE, TWO])
    it.answer(it.due()[:1])


def more(it):
    it.request(GET_NEXT, [ONE])
    it.answer([*it.due(), (LAST, (4, b"odd"))])


def none(it):
    it.request(GET, [ONE])
    it.answer([])


def no_such_name(it):
    it.request(GET_NEXT, [ONE, LAST])
    it.answer(values(it.due(), 5, b""), status=2, index=2)
    it.answer()


def gen_err(it):
    it.request(GET, [ONE, HIDDEN, TWO])
    it.answer(status=5, index=2)


def no_access(it):
    it.request(GET, [ONE])
    it.answer(status=6, index=1)
    it.request(SET, [ONE])
    it.answer(status=6, index=1)


def other_error(it):
    it.request(SET, [ONE, TWO])
    it.answer(status=77, index=-5)


def too_big(it):
    it.request(GET_BULK, [TABLE, (*TABLE, 3)], 0, 3)
    it.answer([], status=1)
    it.answer([], status=1)
    it.answer([], status=1)
    it.answer()
    it.wait(5000)


def silent_bulk(it):
    it.request(GET_BULK, [TABLE], 0, 3)
    it.answer([])
    it.answer()
    it.wait(600)
    it.answer()


def behind_the_end(it):
    it.request(GET_BULK, [(*TABLE, 3, 2)], 0, 3)
    it.answer([it.due()[0], it.due()[1], (LAST, (4, b"odd"))])


def names_too_many(it):
    it.request(GET, [ONE] * plain.MOST_VARIABLES)
    it.answer()
    it.request(GET, [ONE] * (plain.MOST_VARIABLES + 1))
    it.request(SET, [ONE] * (plain.MOST_VARIABLES + 1))
    it.answer()


def asks_too_long(it):
    it.request(GET, [ONE] * 36, context=b"small")
    it.request(GET_BULK, [ONE] * 36, 0, 2, context=b"small")
    it.request(SET, [ONE] * 36, context=b"small")
    it.take()


def a_set_without_room(it):
    for _ in range(LIMITS["joined"] + 1):
        it.request(SET, [ONE])
    it.answer()
    it.take()
    it.answer()
    it.take()


def a_new_set_beside_one_of_before(it):
    it.request(SET, [ONE])
    it.answer()
    it.come()
    it.make(SET, [ONE])
    it.come()
    it.send()
    it.answer()


WAYS = (
    silent,
    late,
    too_late,
    twice,
    in_turn,
    other_number,
    number_of_other,
    other_device,
    other_community,
    version_1,
    a_report,
    cut,
    other_names,
    swapped,
    a_hidden_name,
    same,
    back,
    hidden_end,
    no_such_object,
    no_value,
    fewer,
    more,
    none,
    no_such_name,
    gen_err,
    no_access,
    other_error,
    too_big,
    silent_bulk,
    behind_the_end,
    names_too_many,
    asks_too_long,
    a_set_without_room,
    a_new_set_beside_one_of_before,
)


def a_silent_device_leaves_room(it):
    for row in (1, 2, 3):
        it.request(GET, [(*TABLE, 1, row)])
    it.request(SET, [ONE])
    it.request(GET, [ONE], context=b"even")
    it.answer()
    it.wait(10000)
    it.request(SET, [ONE])


def say_devices():
    for name, most in DEVICES:
        print(f"device '{name.decode()} 'public 'write {most} 32 32")
    print(f"gate {ENGINE.hex()} 1 0")


print(HEAD)
print("user guest - -\nusers -> loaded")
print(f"tables '{TABLES}\nlimits " + " ".join(str(LIMITS[it]) for it in plain.CONFIGURED))
say_devices()
odd = Odd()
for way in WAYS:
    print(f"\n# {way.__name__.replace('_', ' ')}")
    way(odd)
    odd.wait(10000)
print(f"\nwaiting -> {len(odd.gate.requests)}")

print("\n# a silent device leaves room\nshare 2")
say_devices()
a_silent_device_leaves_room(Odd(waiting_per_device=2))
