"""SNMPv3 messages (RFC 3412 section 6, RFC 3414 section 2.4, RFC 3416 section 3), and what `show` prints."""
from .ber import Children, Element, Fault, element, identifier_of, integer

MOST = 0x7FFFFFFF
LARGEST = 65507
PDU_TAGS = [0xA0, 0xA1, 0xA2, 0xA3, 0xA5, 0xA6, 0xA7, 0xA8]
NAMES = {
    1: "NotMessage",
    2: "BadVersion",
    3: "NotSecurity",
    4: "NotScoped",
    5: "NotPdu",
    6: "UnknownEngine",
    7: "UnknownUser",
    8: "UnsupportedLevel",
    9: "WrongDigest",
    10: "NotInWindow",
    11: "DecryptionError",
    12: "BadScoped",
    13: "BadPdu",
    16: "TooLarge",
    17: "UnknownModel",
    18: "InvalidFlags",
}


class Refused(Exception):
    def __init__(self, number, place=None):
        super().__init__(number, place)
        self.number, self.place = number, place

    def line(self):
        where = "" if self.place is None else f" at {self.place}"
        return f"refused {self.number} {NAMES[self.number]}{where}\n"


def refusing(number, read, *words):
    """What `read` gives, its fault told as this refusal."""
    try:
        return read(*words)
    except Fault as fault:
        raise Refused(number, fault.place) from None


class Message:
    """The outer layout."""

    def __init__(self, octets):
        self.octets = octets
        refusing(1, self._read)

    def _read(self):
        whole = Element(self.octets, 0, len(self.octets))
        if whole.tag != 0x30:
            raise Fault(0)
        parts = Children(self.octets, whole.start, whole.stop)
        if parts.integer(-MOST - 1, MOST) != 3:
            raise Refused(2)
        header = parts.inside([0x30])
        self.id = header.integer(0, MOST)
        self.max_size = header.integer(484, MOST)
        flags = header.one([0x04])
        if len(flags.content) != 1:
            raise Fault(flags.at)
        self.flags = flags.content[0]
        self.model = header.integer(1, MOST)
        header.end()
        self.parameters = parts.one([0x04])
        self.data = parts.one([0x30, 0x04])
        parts.end()
        if whole.stop != len(self.octets):
            raise Fault(whole.stop)

    @property
    def has_auth(self):
        return bool(self.flags & 1)

    @property
    def has_privacy(self):
        return bool(self.flags & 2)

    def level(self):
        return 1 + self.has_auth + self.has_privacy

    def look_inside(self):
        """The model, the flags, msgData and the security parameters, in this order."""
        if self.model != 3:
            raise Refused(17)
        if self.has_privacy and not self.has_auth:
            raise Refused(18)
        if self.data.tag != (0x04 if self.has_privacy else 0x30):
            raise Refused(4, self.data.at)
        self.scoped = None if self.has_privacy else refusing(4, Scoped, self.octets, self.data.at, self.data.stop)
        self.security = refusing(3, Security, self.parameters)


class Security:
    def __init__(self, parameters):
        whole = Children(parameters.octets, parameters.start, parameters.stop)
        fields = whole.inside([0x30])
        self.engine = fields.one([0x04]).content
        self.boots = fields.integer(0, MOST)
        self.time = fields.integer(0, MOST)
        user = fields.one([0x04])
        if len(user.content) > 32:
            raise Fault(user.at)
        self.user = user.content
        self.auth = fields.one([0x04])
        self.salt = fields.one([0x04]).content
        fields.end()
        whole.end()

    def spelling(self):
        return element(
            0x30,
            element(0x04, self.engine),
            integer(self.boots),
            integer(self.time),
            element(0x04, self.user),
            element(0x04, self.auth.content),
            element(0x04, self.salt),
        )


class Scoped:
    """A scoped PDU that stands from `at` on."""

    def __init__(self, octets, at, end):
        whole = Element(octets, at, end)
        if whole.tag != 0x30:
            raise Fault(at)
        parts = Children(octets, whole.start, whole.stop)
        self.engine = parts.one([0x04]).content
        self.name = parts.one([0x04]).content
        self.data = parts.one()
        parts.end()

    def spelling(self, pdu):
        return element(0x30, element(0x04, self.engine), element(0x04, self.name), pdu.spelling())


class Pdu:
    def __init__(self, data):
        if data.tag not in PDU_TAGS:
            raise Fault(data.at)
        self.tag = data.tag
        parts = Children(data.octets, data.start, data.stop)
        self.numbers = [parts.integer(-MOST - 1, MOST) for _ in range(3)]
        bindings = parts.inside([0x30])
        self.bindings = []
        while bindings.at != bindings.stop:
            binding = bindings.inside([0x30])
            name = binding.one([0x06])
            arcs = identifier_of(name.content)
            if arcs is None:
                raise Fault(name.at)
            self.bindings.append((name.content, arcs, binding.one()))
            binding.end()
        parts.end()

    def spelling(self):
        bindings = [
            element(0x30, element(0x06, name), element(value.tag, value.content)) for name, _, value in self.bindings
        ]
        return element(self.tag, *map(integer, self.numbers), element(0x30, *bindings))


def shown(octets):
    return octets.hex() or "-"


def canonical(message, pdu):
    header = element(
        0x30,
        integer(message.id),
        integer(message.max_size),
        element(0x04, bytes([message.flags & 7])),
        integer(message.model),
    )
    data = element(0x04, message.data.content) if pdu is None else message.scoped.spelling(pdu)
    return element(0x30, integer(3), header, element(0x04, message.security.spelling()), data)


def flag_words(flags):
    return " ".join(word for bit, word in ((1, "auth"), (2, "priv"), (4, "reportable")) if flags & bit) or "-"


def message_lines(message):
    """The lines of the header and of the security parameters."""
    security = message.security
    return [
        f"id {message.id}",
        f"max-size {message.max_size}",
        f"flags {flag_words(message.flags)}",
        f"engine {shown(security.engine)}",
        f"boots {security.boots}",
        f"time {security.time}",
        f"user {shown(security.user)}",
        f"auth {shown(security.auth.content)}",
        f"privacy {shown(security.salt)}",
    ]


def scoped_lines(scoped, pdu):
    """The lines of a scoped PDU."""
    lines = [
        f"context-engine {shown(scoped.engine)}",
        f"context {shown(scoped.name)}",
        f"pdu {pdu.tag:02x} " + " ".join(map(str, pdu.numbers)),
    ]
    for _, arcs, value in pdu.bindings:
        lines.append(f"binding {'.'.join(map(str, arcs))} {value.tag:02x} {shown(value.content)}")
    return lines


def text_of(lines):
    return "".join(f"{line}\n" for line in lines)


def show(octets):
    """What `snmpsec show` prints of a datagram, and its status."""
    try:
        message = Message(octets)
        message.look_inside()
        pdu = None if message.has_privacy else refusing(5, Pdu, message.scoped.data)
        text = canonical(message, pdu)
        if len(text) > LARGEST:
            raise Refused(16)
    except Refused as refused:
        return refused.line(), 1
    contents = [f"sealed {shown(message.data.content)}"] if pdu is None else scoped_lines(message.scoped, pdu)
    return text_of([*message_lines(message), *contents, f"canonical {text.hex()}"]), 0
