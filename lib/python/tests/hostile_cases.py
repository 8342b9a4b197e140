"""What a hostile agent answers, and what a client must say of it: the rows of test_hostile_agent.py."""
import os
from typing import Callable, NamedTuple, Sequence, Tuple, Union

from hostile_agent import (AUTH, LATCH, NAME, NO_AUTH, PRIV, REPORT, RESPONSE, SYSTEM, Answer, Keys, Plus, bound,
                           number, report, right, tlv)

from snmpsec import Level
from snmpsec.values import ObjectId

OTHER, ROOT = ObjectId((*SYSTEM, 6, 0)), ObjectId((*SYSTEM, 5))
ROUTER = f'.{NAME} = STRING: "router"'
FORGED = f'.{NAME} = STRING: "forged"'
NONE = "no answer from {at}: "
SILENT = NONE + "nothing came from there: another address or port, a filter on the way, or a device that isn't running"
KNOWN = (NONE + "it answered before; many devices drop what they can't decrypt (the privacy password), and requests "
         "for a context that they don't have")
REPORTS = {
    1: "usmStatsUnsupportedSecLevels, the device has no password of the user for this level",
    2: "usmStatsNotInTimeWindows, the boots or the time aren't the engine's: two devices may have one engine ID",
    3: "usmStatsUnknownUserNames, the device doesn't have this user",
    4: "usmStatsUnknownEngineIDs, the device has another engine ID",
    5: "usmStatsWrongDigests, the authentication password or its hash isn't that of the device",
    6: "usmStatsDecryptionErrors, the privacy password or its cipher isn't that of the device",
}
ALL, ONE, GETS, PAIR, WALK, NEXT = ("get", "set", "walk"), ("get", "set"), ("get",), ("pair",), ("walk",), ("next",)


def refused(why):
    return f"{NONE}its last datagram was refused: {why}"


def likely(counter):
    return f"{NONE}probably {REPORTS[counter]}"


def denied(counter):
    return "{at} refuses the request: " + REPORTS.get(counter, "a Report of a counter that isn't known")


NOT_MESSAGE, NOT_SECURITY = refused("it is no SNMPv3 message"), refused("its security parameters can't be read")
BAD_SCOPED = refused("what was decrypted is no scoped PDU: mostly another privacy password")
BAD_PDU, UNSEALED = refused("its PDU can't be read"), refused("it can't be decrypted")
BAD_VERSION, UNKNOWN_MODEL = refused("its version isn't 3"), refused("its security model isn't the user-based one")
WRONG_DIGEST = refused("its digest is wrong: mostly another password")
NOT_IN_WINDOW = refused("it isn't in the time window")
UNKNOWN_ENGINE = refused("its engine ID isn't known")


class Case(NamedTuple):
    """What the agent answers at a stage of the exchange; what the client says if nothing else comes, and if the right
    answer comes after it: the lines of the variables, and why there is no more, by each of the calls."""

    name: str
    wrong: Union[Answer, Sequence[Answer], Callable[[int], Sequence[Answer]]]
    alone: str
    followed: str = ROUTER
    calls: Tuple[str, ...] = ALL
    level: Level = Level.AUTH_PRIV
    stage: str = "request"
    beyond: str = ""  # why the client can't do that today, if the right answer comes after it

    def answers(self, heard):
        """What it answers when it is asked for this many times before."""
        if isinstance(self.wrong, Answer):
            return [self.wrong]
        return self.wrong(heard) if callable(self.wrong) else self.wrong


def final(name, wrong, said, calls=ALL, **more):
    """A case in which what came first counts, whatever comes after it."""
    return Case(name, wrong, said, said, calls, **more)


def forged(asked):
    """Bindings that fit what was asked, whose values aren't those of the device."""
    return right(asked).replace(b"router", b"forged")


def lie(**how):
    """A Response that would tell another value if it were accepted."""
    return Answer(**{"list": forged} | how)


def told(counter, **how):
    return Answer(**{"tag": REPORT, "list": report(counter)} | how)


IDENTITY = [
    Case("another request-id", lie(request_id=Plus(1)), KNOWN),
    Case("a request-id of 0", lie(request_id=0), KNOWN),
    Case("a negative request-id", lie(request_id=-1), KNOWN),
    Case("a request-id of 5 octets", lie(request_id=b"\2\5\1\0\0\0\0"), BAD_PDU),
    Case("a request-id of no octets", lie(request_id=b"\2\0"), BAD_PDU),
    Case("another msgID", lie(message_id=Plus(1)), KNOWN),
    Case("the msgID of the request before", lie(message_id=Plus(-1)), KNOWN),
    Case("a negative msgID", lie(message_id=-1), NOT_MESSAGE),
    Case("a msgID of 5 octets", lie(message_id=1 << 31), NOT_MESSAGE),
    Case("another engine ID", lie(engine=b"\x80\0\x1f\x88\4other"), KNOWN),
    Case("no engine ID", lie(engine=b""), UNKNOWN_ENGINE),
    Case("a huge engine ID", lie(engine=b"\x80" + bytes(999)), UNKNOWN_ENGINE),
    Case("another contextEngineID", lie(context_engine=b"\x80\0\x1f\x88\4other"), KNOWN),
    Case("another context", lie(context=b"other"), KNOWN),
    Case("another user, with its own right code",
         lie(user=b"bob", keys=Keys(password="a-third-one", privacy="a-fourth-one")), KNOWN),
    Case("another user, with the code of this one", lie(user=b"bob"), WRONG_DIGEST),
    Case("a user that isn't configured", lie(user=b"eve"), refused("its user isn't known")),
    Case("no user", lie(user=b""), refused("its user isn't known")),
    Case("a user name of 33 octets", lie(user=b"a" * 33), NOT_SECURITY),
    Case("authNoPriv instead of authPriv", lie(flags=AUTH), KNOWN),
    Case("noAuthNoPriv instead of authPriv", lie(flags=NO_AUTH), KNOWN),
    Case("noAuthNoPriv instead of authNoPriv", lie(flags=NO_AUTH), KNOWN, level=Level.AUTH_NO_PRIV),
    Case("authPriv instead of authNoPriv", lie(flags=PRIV), KNOWN, level=Level.AUTH_NO_PRIV),
    Case("authPriv instead of noAuthNoPriv", lie(flags=PRIV), KNOWN, level=Level.NO_AUTH_NO_PRIV),
    Case("privacy without authentication", lie(flags=2), refused("its flags ask for privacy without authentication")),
    Case("another port at noAuthNoPriv", lie(is_elsewhere=True), KNOWN, level=Level.NO_AUTH_NO_PRIV),
    final("another port at authNoPriv", lie(is_elsewhere=True), FORGED, GETS, level=Level.AUTH_NO_PRIV),
]

HEADERS = [
    Case("version 0", lie(version=0), BAD_VERSION),
    Case("version 1", lie(version=1), BAD_VERSION),
    Case("version 2", lie(version=2), BAD_VERSION),
    Case("version 4", lie(version=4), BAD_VERSION),
    Case("SNMPv2c", lie(spoil=lambda _: tlv(0x30, number(1) + tlv(4, b"public") + tlv(RESPONSE, b""))), BAD_VERSION),
    Case("SNMPv1", lie(spoil=lambda _: tlv(0x30, number(0) + tlv(4, b"public") + tlv(RESPONSE, b""))), BAD_VERSION),
    Case("security model 1", lie(model=1), UNKNOWN_MODEL),
    Case("security model 2", lie(model=2), UNKNOWN_MODEL),
    Case("security model 0", lie(model=0), NOT_MESSAGE),
    Case("the greatest security model", lie(model=LATCH), UNKNOWN_MODEL),
    Case("msgMaxSize 0", lie(max_size=0), NOT_MESSAGE),
    Case("msgMaxSize 483", lie(max_size=483), NOT_MESSAGE),
    final("msgMaxSize 484, which is allowed", lie(max_size=484), FORGED, GETS),
    Case("a negative msgMaxSize", lie(max_size=-1), NOT_MESSAGE),
    Case("a msgMaxSize of 5 octets", lie(max_size=1 << 31), NOT_MESSAGE),
]

CODES = [
    Case("a wrong code", lie(code=lambda code: bytes([code[0] ^ 1]) + code[1:]), WRONG_DIGEST),
    Case("a code of another password", lie(keys=Keys(password="another-password")), WRONG_DIGEST),
    Case("a code of zeros", lie(code=lambda code: bytes(12)), WRONG_DIGEST),
    Case("a code of 11 octets", lie(code=lambda code: code[:11]), WRONG_DIGEST),
    Case("a code of 13 octets", lie(code=lambda code: code + b"\0"), WRONG_DIGEST),
    Case("a code of no octets", lie(code=lambda code: b""), WRONG_DIGEST),
    Case("a salt of 7 octets", lie(salt=bytes(7)), UNSEALED),
    Case("a salt of 9 octets", lie(salt=bytes(9)), UNSEALED),
    Case("no salt", lie(salt=b""), UNSEALED),
    Case("sealed garbage", lie(data=lambda it: os.urandom(len(it))), BAD_SCOPED),
    Case("sealed text of no octets", lie(data=lambda it: b""), BAD_SCOPED),
    Case("sealed by another password", lie(keys=Keys(privacy="another-password")), BAD_SCOPED),
    Case("one octet of the sealed text cut", lie(data=lambda it: it[:-1]), BAD_SCOPED),
]


def reports():
    """Each of usmStats, without authentication, which anybody can send, and with it."""
    for counter in range(1, 7):
        yield Case(f"a Report of {counter} at noAuthNoPriv", told(counter, flags=NO_AUTH), likely(counter))
        yield Case(f"50 such Reports of {counter}", told(counter, flags=NO_AUTH, times=50), likely(counter),
                   calls=GETS)
        yield final(f"a Report of {counter} at authNoPriv", told(counter, flags=AUTH), denied(counter))
        yield final(f"a Report of {counter} at authPriv", told(counter), denied(counter))


OTHER_REPORT = bound((*SYSTEM, 9, 0), b"\1", 0x41)
REPORTED = [
    *reports(),
    Case("a Report of another counter at noAuthNoPriv", told(0, flags=NO_AUTH, list=OTHER_REPORT), KNOWN),
    final("a Report of another counter", told(0, list=OTHER_REPORT), denied(0)),
    final("a Report without bindings", told(0, list=b""), denied(0)),
    final("a Report of two counters", told(0, list=report(1) + report(3)), denied(0)),
    final("a Report of a counter that is text", told(0, list=bound((1, 3, 6, 1, 6, 3, 15, 1, 1, 3, 0), b"x")),
          denied(3)),
    Case("a Report for another msgID", told(3, message_id=Plus(1)), KNOWN),
    final("a Report with another request-id", told(3, request_id=Plus(1)), denied(3)),
    Case("a Report of another engine", told(3, engine=b"\x80\0\x1f\x88\4other"), likely(3)),
    Case("a Report from another port at noAuthNoPriv", told(3, flags=NO_AUTH, is_elsewhere=True), KNOWN),
    Case("a GetRequest instead of a Response", lie(tag=0xA0), KNOWN),
    Case("a trap instead of a Response", lie(tag=0xA7), KNOWN),
    Case("an Inform instead of a Response", lie(tag=0xA6), KNOWN),
    Case("a PDU of no type", lie(tag=0xA9), BAD_PDU),
    Case("a PDU of version 1", lie(tag=0xA4), BAD_PDU),
]


def instead(found, asked=1):
    return f"{{at}} answers with {found} instead of {asked}"


ERRORS = [
    final("tooBig without bindings", lie(status=1, list=b""), "tooBig (error-status 1)"),
    final("tooBig with bindings", lie(status=1), "tooBig (error-status 1)", ONE),
    final("tooBig at an index", lie(status=1, index=1), f"tooBig (error-status 1) at {NAME}", ONE),
    final("an error-status at an index", lie(status=17, index=1), f"notWritable (error-status 17) at {NAME}", ONE),
    final("an error-status that isn't one", lie(status=19), "error-status 19"),
    final("a negative error-status", lie(status=-1), "error-status -1"),
    final("the greatest error-status", lie(status=LATCH), f"error-status {LATCH}"),
    Case("an error-status of 5 octets", lie(status=1 << 31), BAD_PDU),
    Case("an error-status of no octets", lie(status=b"\2\0"), BAD_PDU),
    final("an error-index beyond the bindings", lie(status=5, index=2), "genErr (error-status 5)"),
    final("a negative error-index", lie(status=5, index=-1), "genErr (error-status 5)"),
    final("the greatest error-index", lie(status=5, index=LATCH), "genErr (error-status 5)"),
    Case("an error-index of 5 octets", lie(status=5, index=1 << 31), BAD_PDU),
    final("an error-index without an error", lie(index=1), FORGED, GETS),
]

EXCEPTION = f"{{at}} answers with an exception for {NAME} that no such answer has"
FITTING = [
    final("no bindings", lie(list=b""), instead("0 variables"), ONE),
    final("one binding more", lie(list=lambda it: forged(it) + bound(OTHER, b"x")), instead("2 variables"), ONE),
    final("the binding twice", lie(list=lambda it: forged(it) * 2), instead("2 variables"), ONE),
    final("another name", lie(list=bound(OTHER, b"x")), instead(OTHER, NAME), ONE),
    final("a name that begins with the one that was asked", lie(list=bound((*NAME, 0), b"x")),
          instead(f"{NAME}.0", NAME), ONE),
    final("300 bindings", lie(list=b"".join(bound((*SYSTEM, 5, n), b"x") for n in range(300))),
          instead("300 variables"), ONE),
    final("endOfMibView for a Get", lie(list=bound(NAME, b"", 0x82)), EXCEPTION, ONE),
    final("an exception for a Set", lie(list=bound(NAME, b"", 0x80)), EXCEPTION, ("set",)),
]


def bad(tag, content):
    return f".{NAME} = Bad value: tag {tag:02X}, {content.hex(' ').upper() or 'no octets'}"


def bad_values():
    """What no value of its type has."""
    rows = {
        "a Counter32 of 5 octets": (0x41, b"\1\0\0\0\0"),
        "a Counter32 of 6 octets": (0x41, b"\0" + b"\xff" * 5),
        "a negative Counter32": (0x41, b"\xff"),
        "a Counter64 of 10 octets": (0x46, b"\1" + bytes(9)),
        "an IpAddress of 3 octets": (0x40, b"\xc0\0\2"),
        "an IpAddress of 5 octets": (0x40, b"\xc0\0\2\1\1"),
        "an INTEGER of no octets": (2, b""),
        "an INTEGER of 5 octets": (2, b"\1\0\0\0\0"),
        "an OBJECT IDENTIFIER of no octets": (6, b""),
        "an OBJECT IDENTIFIER that begins with 80": (6, b"\x80\x2b"),
        "an OBJECT IDENTIFIER with 80 before an arc": (6, b"\x2b\x80\6"),
        "an OBJECT IDENTIFIER that is cut": (6, b"\x2b\x81"),
        "an OBJECT IDENTIFIER with an arc of 33 bits": (6, b"\x2b\x90" + b"\x80" * 4 + b"\1"),
        "a NULL with octets": (5, b"\0"),
        "noSuchObject with octets": (0x80, b"\0"),
        "a tag of no type": (0x47, b"\1"),
        "a constructed OCTET STRING": (0x24, b"\4\1x"),
        "a SEQUENCE": (0x30, b"\5\0"),
    }
    for name, (tag, content) in rows.items():
        yield final(name, lie(list=bound(NAME, content, tag)), bad(tag, content), GETS)


def named(octets):
    """A list of one binding whose name has this content."""
    return tlv(0x30, tlv(6, octets) + tlv(5, b""))


VALUED = [
    *bad_values(),
    Case("a tag of two octets", lie(list=bound(NAME, b"\1", 0x1F)), BAD_PDU),
    Case("a name of no octets", lie(list=named(b"")), BAD_PDU),
    Case("a name that begins with 80", lie(list=named(b"\x80\x2b\6")), BAD_PDU),
    Case("a name that is cut", lie(list=named(b"\x2b\x86")), BAD_PDU),
    Case("a name of 129 arcs", lie(list=named(b"\x2b" + b"\1" * 127)), BAD_PDU),
    Case("a name with an arc of 33 bits", lie(list=named(b"\x2b\x90\x80\x80\x80\0")), BAD_PDU),
    Case("a binding that is an INTEGER", lie(list=number(5)), BAD_PDU),
    Case("a binding of three", lie(list=tlv(0x30, tlv(6, b"\x2b\6") + tlv(5, b"") * 2)), BAD_PDU),
    Case("a binding without a value", lie(list=tlv(0x30, tlv(6, b"\x2b\6"))), BAD_PDU),
]


def opened(octets):
    """The element with an indefinite length (X.690, section 8.1.3.6)."""
    return octets[:1] + b"\x80" + octets[2 + (octets[1] & 127) * (octets[1] > 127) :] + b"\0\0"


def longer(octets):
    """The element with a length of more octets than it needs, which is allowed."""
    size = octets[2 : 2 + (octets[1] & 127)] if octets[1] > 127 else octets[1:2]
    return octets[:1] + bytes([0x84]) + size.rjust(4, b"\0") + octets[2 + (octets[1] & 127) * (octets[1] > 127) :]


ENCODING = [
    Case("an indefinite length", lie(shape=opened), NOT_MESSAGE),
    Case("an indefinite length that is sealed", lie(scoped=opened), BAD_SCOPED),
    Case("an indefinite length at authNoPriv", lie(scoped=opened), NOT_MESSAGE, level=Level.AUTH_NO_PRIV),
    final("a long length, which is allowed", lie(shape=longer), FORGED, GETS),
    Case("a length of 5 octets", lie(shape=lambda it: it[:1] + b"\x85\0" + longer(it)[2:]), NOT_MESSAGE),
    Case("octets after the message, with a right code", lie(shape=lambda it: it + b"\0"), NOT_MESSAGE),
    Case("octets after the message", lie(spoil=lambda it: it + b"\0"), NOT_MESSAGE),
    final("1,000 octets after the scopedPDU", lie(scoped=lambda it: it + bytes(1000)), FORGED, GETS),
    Case("octets after the scopedPDU at authNoPriv", lie(scoped=lambda it: it + b"\0"), NOT_MESSAGE,
         level=Level.AUTH_NO_PRIV),
    Case("a datagram that lacks its last octet", lie(spoil=lambda it: it[:-1]), NOT_MESSAGE),
    Case("half a datagram", lie(spoil=lambda it: it[: len(it) // 2]), NOT_MESSAGE),
    Case("an empty datagram", lie(spoil=lambda it: b""), NOT_MESSAGE),
    Case("one octet", lie(spoil=lambda it: it[:1]), NOT_MESSAGE),
    Case("65,507 octets of nothing", lie(spoil=lambda it: bytes(65507)), NOT_MESSAGE),
    Case("16,000 SEQUENCEs in each other", lie(spoil=lambda it: b"\x30\x80" * 16000), NOT_MESSAGE),
    Case("the request itself", lie(spoil=lambda it: it, tag=0xA0, list=None), KNOWN),
    final("each answer 50 times", lie(times=50), FORGED, GETS),
    Case("text", lie(spoil=lambda it: b"HTTP/1.0 400 Bad Request\r\n"), NOT_MESSAGE),
]

CLOCKS = [
    final("boots that went up", lie(boots=Plus(1)), FORGED, GETS),
    Case("boots that went back", lie(boots=Plus(-1)), NOT_IN_WINDOW),
    final("a time that went up", lie(time=Plus(1000)), FORGED, GETS),
    Case("a time that went back by 151 seconds", lie(time=Plus(-200)), NOT_IN_WINDOW),
    final("a time that went back a little", lie(time=Plus(-100)), FORGED, GETS),
    # (they are learned before it is judged: RFC 3414, section 3.2, step 7b)
    final("the greatest boots", lie(boots=LATCH), NOT_IN_WINDOW),
    final("the greatest time", lie(time=LATCH), FORGED, GETS),
    Case("negative boots", lie(boots=-1), NOT_SECURITY),
    Case("a negative time", lie(time=-1), NOT_SECURITY),
    Case("boots of 5 octets", lie(boots=1 << 31), NOT_SECURITY),
    Case("a time of no octets", lie(time=b"\2\0"), NOT_SECURITY),
]


def found(**how):
    """A Report by which an engine is discovered."""
    return Answer(**{"tag": REPORT, "flags": NO_AUTH, "list": report(4)} | how)


DISCOVERY = [
    Case("a discovery without an answer", [], SILENT, stage="discovery"),
    Case("an engine ID of no octets", found(engine=b""), UNKNOWN_ENGINE, stage="discovery"),
    Case("an engine ID of 4 octets", found(engine=b"four"), UNKNOWN_ENGINE, stage="discovery"),
    Case("an engine ID of 33 octets", found(engine=b"\x80" * 33), UNKNOWN_ENGINE, stage="discovery"),
    Case("an engine ID of 30,000 octets", found(engine=b"\x80" * 30000), UNKNOWN_ENGINE, stage="discovery"),
    Case("an engine ID of zeros", found(engine=bytes(12)), UNKNOWN_ENGINE, stage="discovery"),
    Case("an engine ID of ff", found(engine=b"\xff" * 12), UNKNOWN_ENGINE, stage="discovery"),
    Case("another engine ID at each discovery", lambda n: [found(engine=b"\x80\0\x1f\x88\5" + n.to_bytes(4, "big"))],
         likely(4), stage="discovery", beyond="the library's state of a request takes the first engine ID that comes"),
    Case("a discovery that isn't ours", found(message_id=Plus(1)), SILENT, stage="discovery"),
    Case("a discovery from another port", found(is_elsewhere=True), SILENT, stage="discovery"),
    Case("a discovery by a Report of another counter", found(list=report(3)), likely(3), stage="discovery"),
    Case("a discovery by a Response", found(tag=RESPONSE), SILENT, stage="discovery"),
    Case("a discovery without bindings", found(list=b""), SILENT, stage="discovery"),
    Case("a discovery in the name of a user", found(user=b"ann", flags=AUTH), SILENT, stage="discovery"),
    Case("50 discoveries", found(times=50), ROUTER, stage="discovery"),
    Case("a discovery with the greatest boots", found(boots=LATCH, time=LATCH), ROUTER, stage="discovery"),
    Case("a discovery that is cut", found(spoil=lambda it: it[:-3]), NOT_MESSAGE, stage="discovery"),
]


def timely(**how):
    """A Report by which an engine's boots and time are learned."""
    return Answer(**{"tag": REPORT, "flags": AUTH, "list": report(2)} | how)


TIMES = [
    Case("the time without authentication", timely(flags=NO_AUTH), likely(2), stage="time"),
    Case("the time of another engine", timely(engine=b"\x80\0\x1f\x88\4other"), likely(2), stage="time"),
    Case("a time with a wrong code", timely(code=lambda code: bytes(12)), WRONG_DIGEST, stage="time"),
    final("the greatest boots at first", timely(boots=LATCH), NOT_IN_WINDOW, stage="time"),
    Case("boots of 0", timely(boots=0, time=0), denied(2), stage="time"),
    Case("a Report of unknown users at first", timely(list=report(3), flags=NO_AUTH), likely(3), stage="time"),
    Case("a Report of wrong digests at first", timely(list=report(5), flags=NO_AUTH), likely(5), stage="time"),
    Case("no time", [], KNOWN, stage="time"),
]


BOTH = f'{ROUTER}\n.{OTHER} = STRING: "value 6"'
PAIRS = [
    final("two in the other order", lie(list=bound(OTHER, b"x") + bound(NAME, b"x")), instead(OTHER, NAME), PAIR),
    final("one of two", lie(list=bound(NAME, b"x")), instead("1 variables", 2), PAIR),
    final("the first of two twice", lie(list=bound(NAME, b"x") * 2), instead(NAME, OTHER), PAIR),
    final("three of two", lie(list=lambda it: right(it) + bound(NAME, b"x")), instead("3 variables", 2), PAIR),
    final("a bad value beside a good one", lie(list=bound(NAME, b"", 2) + bound(OTHER, b"value 6")),
          bad(2, b"") + BOTH[len(ROUTER) :], PAIR),
    final("an error-status of the second", lie(status=6, index=2), f"noAccess (error-status 6) at {OTHER}", PAIR),
    final("nothing wrong, for two", lie(list=right), BOTH, PAIR),
]


def back(name, before):
    return f"the device answers with {name} after {before}: its names don't increase"


def rows(*values):
    """Rows of the column that is walked: these numbers of rows, each of text."""
    return b"".join(bound((*ROOT, n), b"router") for n in values)


def told_rows(*numbers):
    return "".join(f'.{ROOT}.{n} = STRING: "router"\n' for n in numbers)


def walked(name, contents, said):
    return final(name, lie(list=contents), said, WALK)


def nexts(name, contents, said):
    return final(name, lie(list=contents), said, NEXT)


FIRST, SECOND = NAME, f"{ROOT}.1"
WALKS = [
    walked("a walk with the name that was asked", bound(ROOT, b"x"), back(ROOT, ROOT)),
    walked("a walk with one name twice", rows(0, 0), told_rows(0) + back(FIRST, FIRST)),
    walked("a walk that goes back", rows(1, 0), told_rows(1) + back(FIRST, SECOND)),
    walked("a walk in a circle", rows(0, 1, 2), told_rows(0, 1, 2) + back(FIRST, f"{ROOT}.2")),
    walked("a walk without bindings", b"", back(ROOT, ROOT)),
    walked("a walk with more than was asked", lambda it: rows(*range(it.index + 1)),
           instead("11 variables", "at most 10")),
    walked("a walk with a bad value", bound(NAME, b"", 2) + bound((*ROOT, 1), b"router") + bound(OTHER, b"x"),
           f"{bad(2, b'')}\n" + told_rows(1).rstrip()),
    walked("a walk that leaves and comes back", rows(0) + bound(OTHER, b"x") + rows(1), told_rows(0).rstrip()),
    walked("a walk that ends and goes on", rows(0) + bound(NAME, b"", 0x82) + rows(1), told_rows(0).rstrip()),
    final("a walk with an error later", lambda n: [lie(list=rows(0)) if n == 0 else lie(status=5, index=1)],
          told_rows(0) + f"genErr (error-status 5) at {NAME}", WALK),
    nexts("the name that was asked as the next", bound(ROOT, b"x"), back(ROOT, ROOT)),
    nexts("a smaller name as the next", bound((*SYSTEM, 4, 0), b"x"), back(f"{SYSTEM}.4.0", ROOT)),
    nexts("two next names", rows(0, 1), instead("2 variables")),
    nexts("no next name", b"", instead("0 variables")),
    nexts("the end, which is allowed", bound(ROOT, b"", 0x82),
          f".{ROOT} = No more variables left in this MIB View (It is past the end of the MIB tree)"),
]
