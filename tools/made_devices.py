"""Devices that are made from a seed, and ways in which they behave and misbehave: what check-walk and check-gate
share.

A device has variables whose names have 2 to 4 arcs of 0 to 4. It answers as RFC 3416 says, sections 4.2.1 to 4.2.3, or
in one of the 30 ways of WAYS, 21 of which are wrong at some time.
"""
from made_views import NAMES

SPELLED = [name for name in NAMES if len(name) > 1 and name[0] < 3]
NO_SUCH_OBJECT, NO_SUCH_INSTANCE, END = (0x80, b""), (0x81, b""), (0x82, b"")
TOO_BIG, NO_SUCH_NAME, GEN_ERR = 1, 2, 5
VALUES = ((2, b"\x07"), (4, b"text"), (4, b""), (0x40, b"\x0a\0\0\1"), (0x41, b"\x09"), (0x43, b"\x01\0"))


def element(tag, content):
    length = len(content)
    octets = (
        bytes([length])
        if length < 0x80
        else bytes([0x81, length])
        if length < 0x100
        else bytes([0x82, *length.to_bytes(2, "big")])
    )
    return bytes([tag]) + octets + content


def arc(number):
    octets = [number & 127]
    while number := number >> 7:
        octets.insert(0, number & 127 | 128)
    return bytes(octets)


def spelled(bindings):
    """The content of variable-bindings."""
    names = (element(6, arc(name[0] * 40 + name[1]) + b"".join(map(arc, name[2:]))) for name, _ in bindings)
    return b"".join(element(0x30, name + element(*value)) for name, (_, value) in zip(names, bindings))


class Variables:
    """A device that behaves: RFC 3416, sections 4.2.1 to 4.2.3."""

    def __init__(self, values):
        self.values, self.names = values, sorted(values)

    def get(self, name):
        known = any(name[:2] == it[:2] for it in self.names)
        return name, self.values.get(name, NO_SUCH_INSTANCE if known else NO_SUCH_OBJECT)

    def next(self, name):
        later = next((it for it in self.names if it > name), None)
        return (later, self.values[later]) if later else (name, END)

    def bulk(self, names, singles, most):
        answers, asked = [self.next(name) for name in names[:singles]], names[singles:]
        for _ in range(most if asked else 0):
            row = [self.next(name) for name in asked]
            answers, asked = answers + row, [name for name, _ in row]
            if all(value == END for _, value in row):
                break
        return answers

    def answers(self, kind, singles, most, names):
        if kind == "get_bulk":
            return self.bulk(names, singles, most)
        return [self.get(name) if kind == "get" else self.next(name) for name in names]


# ---- how a device answers: each is given the exchange, the ask and what is due, and returns error-status, error-index
# and bindings


def good(_, ask, due):
    return 0, 0, due


def cut(it, ask, due):
    return 0, 0, due[: it.rng.randint(1, len(due))] if ask.kind == "get_bulk" and due else due


def one_row(_, ask, due):
    return 0, 0, due[: len(ask.names)]


def one_binding(_, ask, due):
    return 0, 0, due[:1] if ask.kind == "get_bulk" else due


def small(it, _, due):
    return (TOO_BIG, 0, []) if len(due) > it.number else (0, 0, due)


def silent_above(it, ask, due):
    return 0, 0, [] if ask.kind == "get_bulk" and len(due) > it.number else due


def version_1(_, ask, due):
    ends = [place for place, (_, value) in enumerate(due[: len(ask.names)]) if value[0] >= 0x80]
    return (NO_SUCH_NAME, ends[0] + 1, [(name, (5, b"")) for name in ask.names]) if ends else (0, 0, due)


def end_elsewhere(it, _, due):
    return 0, 0, [(it.rng.choice(SPELLED), value) if value == END else (name, value) for name, value in due]


def end_with_content(_, ask, due):
    return 0, 0, [(name, (END[0], b"\1")) if value == END else (name, value) for name, value in due]


def other_names(it, _, due):
    return 0, 0, [(it.rng.choice(SPELLED), value) for _, value in due]


def swapped(_, ask, due):
    return 0, 0, due[::-1]


def same(_, ask, due):
    return 0, 0, [(ask.names[place % len(ask.names)], value) for place, (_, value) in enumerate(due)]


def back(_, ask, due):
    return 0, 0, [((0, 0), value) for _, value in due]


def gen_err(it, ask, _):
    return GEN_ERR, it.rng.randint(1, len(ask.names)), []


def other_error(it, ask, _):
    return it.rng.choice((-1, 3, 13, 18, 2**31 - 1)), it.rng.choice((-1, 0, 1, len(ask.names) + 1)), []


def always_too_big(_, ask, due):
    return TOO_BIG, 0, []


def no_such_name(it, ask, _):
    return NO_SUCH_NAME, it.rng.randint(0, len(ask.names) + 1), []


def fewer(_, ask, due):
    return 0, 0, due[:-1]


def more(it, _, due):
    return 0, 0, due + [(it.rng.choice(SPELLED), (2, b"\1"))]


def none(_, ask, due):
    return 0, 0, []


def junk(it, _, due):
    return 0, 0, it.rng.randbytes(20)


def torn(it, _, due):
    octets = spelled(due)
    return 0, 0, octets[: it.rng.randint(0, len(octets))]


def bits(it, _, due):
    octets = bytearray(spelled(due))
    if octets:
        octets[it.rng.randrange(len(octets))] ^= 1 << it.rng.randrange(8)
    return 0, 0, bytes(octets)


def exceptions(it, _, due):
    return 0, 0, [(name, it.rng.choice((NO_SUCH_OBJECT, NO_SUCH_INSTANCE, END, value))) for name, value in due]


def no_values(it, _, due):
    return (
        0,
        0,
        [(name, it.rng.choice(((5, b""), (2, b""), (0x47, b"\1"), (0x40, b"\1"), value))) for name, value in due],
    )


def behind_the_end(it, _, due):
    return 0, 0, due + [(it.rng.choice(SPELLED), (2, b"\1")) for _ in range(it.rng.randrange(3))]


def row_again(_, ask, due):
    return 0, 0, due[: len(ask.names)] * 3 if ask.kind == "get_bulk" else due


def by_column(_, ask, due):
    repeaters = len(ask.names) - ask.singles
    rest = due[ask.singles :]
    return 0, 0, due[: ask.singles] + [one for place in range(repeaters) for one in rest[place::repeaters]]


def at_random(it, _, due):
    return (
        0,
        0,
        [(it.rng.choice(SPELLED), it.rng.choice(VALUES + (END,))) for _ in range(it.rng.randint(0, len(due) + 1))],
    )


def sometimes(it, ask, due):
    return it.rng.choice(WAYS[:-1])(it, ask, due)


BEHAVE = (good, cut, one_row, one_binding, small, silent_above, version_1, end_elsewhere, end_with_content)
WAYS = BEHAVE + (
    other_names,
    swapped,
    same,
    back,
    gen_err,
    other_error,
    always_too_big,
    no_such_name,
    fewer,
    more,
    none,
    junk,
    torn,
    bits,
    exceptions,
    no_values,
    behind_the_end,
    row_again,
    by_column,
    at_random,
    sometimes,
)
IN_OCTETS = junk, torn, bits, sometimes  # what these say isn't known here
