"""Writes exchange.rows: what managers and agents send to each other, and what is decided on requests.

Run it in the folder of the rows, with Python's `cryptography`:
    python3 made/exchange_rows.py > exchange.rows
The answers are RFC 3412's, RFC 3414's and RFC 3415's; the octets are made by messages.py.
"""

from messages import ENGINE, SALT, binding, discovery, element, identifier, integer, message, pdu, report, scoped_pdu
from stations import LEVELS, SETTING, SHOWN, agent, refused

HEAD = """# What managers and agents send to each other, and what agents decide and answer: snmp_manager and snmp_agent.
#
#   The rows of manager.rows and of agent.rows, and of an agent:
#   agent_read NOW DATAGRAM -> what an accepted message says
#   respond NOW DATAGRAM PDU -> the Response to an accepted message, with status 0, index 0 and the bindings of the PDU
#   respond_within: within the most octets of a datagram      respond_kept: to a copy of the message
#   fronts NOW DATAGRAM PDU -> whole COUNT: how many of the beginnings of the bindings are written where they have just room
#   decide NOW DATAGRAM -> what is decided on the names of a request
#   may NAME LEVEL CONTEXT VIEW ARCS -> the answer on access, and its number     allows NOW DATAGRAM VIEW ARCS: for the sender
#   notify NOW ID ENGINE USER LEVEL CONTEXT PDU -> an SNMPv2-Trap with the bindings of the PDU
#   unhandled NOW DATAGRAM -> why nothing answers what is accepted     refuse NOW DATAGRAM -> whether a report is written on it
#   count -> snmpUnknownPDUHandlers and snmpUnknownContexts
#   status_of TAG -> what becomes of a variable, for each answer on access in the order of their numbers
#   reply_to_earlier NOW DATAGRAM -> what an accepted message is to the request before the last
#
# Written by made/exchange_rows.py. The answers are RFC 3412's, RFC 3414's and RFC 3415's."""

ENGINE_WORD = ENGINE.hex()
SALT_WORD = SALT.hex()
SYS_DESCR = "1.3.6.1.2.1.1.1.0"
NONE = "'snmp-clocks_2|"


def said(tag, number):
    return pdu(tag, number, binding(SYS_DESCR, 5))


def second(user, level, tag):
    """The second request of an exchange, at the timestamp 1010."""
    pair = (0, 0) if level == 1 else (7, 1010)
    return message(level, 4, user, scoped_pdu(said(tag, 4)), *pair)


def asking(kind, now, number, user, level, tag, text):
    words = f"{now} {number} {ENGINE_WORD} {user.decode()} {LEVELS[level]} - {SALT_WORD} {said(tag, number).hex()}"
    print(f"{kind} {words} -> {text.hex()}")


def exchange(user, level, tag):
    """A request of a manager that holds no pair, the report on it, a second request, and the Response to that."""
    first = message(level, 3, user, scoped_pdu(said(tag, 3)))
    print(f"manager {NONE}")
    agent()
    asking("request", 1000, 3, user, level, tag, first)
    if level == 1:
        print(f"agent_take 1000 {first.hex()} -> accepted")
    else:
        told = report(3, user, 0 if level == 3 else 3, 2).hex()
        print(f"agent_take 1000 {first.hex()} -> {refused('NotInWindow')} report {told}")
        print(f"reply 1000 {told} -> Report(2)\npair {ENGINE_WORD} -> 7 1000")
    again = second(user, level, tag)
    asking("request", 1010, 4, user, level, tag, again)
    contexts = f"context {ENGINE_WORD} '"
    print(
        f"agent_read 1010 {again.hex()} -> accepted {SHOWN[level]} id 4 engine {ENGINE_WORD} user '{user.decode()} {contexts} "
        f"data 18 {said(tag, 4).hex()} tag {tag:02x} request 4"
    )
    response = message(level, 4, user, scoped_pdu(said(0xA2, 4)), 7, 1010, False).hex()
    for kind in ("respond", "respond_within", "respond_kept"):
        print(f"{kind} 1010 {again.hex()} {said(0xA0, 1).hex()} -> {response}")
    print(f"reply 1010 {response} -> Response\nreply_to_earlier 1010 {response} -> NotForIt")


def trap(user, level):
    """A trap, which a manager that holds no pair takes, and learns at a level with authentication."""
    text = message(level, 5, user, scoped_pdu(said(0xA7, 5)), 7, 1000, False).hex()
    words = f"1000 5 {ENGINE_WORD} {user.decode()} {LEVELS[level]} - {said(0xA7, 5).hex()}"
    print(f"notify {words} -> {text}")
    print(f"manager {NONE}\ntake_one 1000 {text} -> accepted {SHOWN[level]} a7")
    print(f"pair {ENGINE_WORD} -> {'none' if level == 1 else '7 1000'}")


def decided(decision, user, level, tag, *names, engine=ENGINE, context=b""):
    data = pdu(tag, 6, b"".join(binding(name, 5) for name in names))
    text = message(level, 6, user, scoped_pdu(data, engine, context), 7, 1000)
    print(f"decide 1000 {text.hex()} -> {decision}")


EXCHANGES = [(user, level, 0xA0) for user in (b"ann", b"bob", b"sam") for level in (1, 2, 3)]
EXCHANGES += [(user, level, 0xA6) for user in (b"ann", b"sam") for level in (1, 2, 3)]

print(HEAD + "\n" + SETTING)
print(
    "# Requests and Informs of users with each hash at each level: a report of the agent's boots and time at a level with"
)
print("# authentication, and the Response to a second request.")
for each in EXCHANGES:
    exchange(*each)

print("\n# An engine is discovered by its report.")
print(f"manager {NONE}")
agent()
told = report(1, b"", 1, 4).hex()
print(
    f"discover 1 -> {discovery().hex()}\nagent_take 1000 {discovery().hex()} -> {refused('UnknownEngine')} report {told}"
)
print(f"reply 1000 {told} -> Report(4)\npair {ENGINE_WORD} -> none")
name = element(0x30, identifier("1.3.6.1.6.3.15.1.1.4.0") + integer(1, 0x41))
print(
    f"take 1000 {told} -> accepted NoAuthNoPriv id 1 engine {ENGINE_WORD} user ' context {ENGINE_WORD} ' data 18 "
    f"{pdu(0xA8, 1, name).hex()} tag a8 request 1"
)

print("\n# A longer code is at the same place: SHA-256's has 24 octets, those of the others 12.")
for user in (b"ann", b"bob", b"sam"):
    text = message(2, 2, user, scoped_pdu(said(0xA0, 2)))
    assert len(text) == (123 if user == b"sam" else 111)
    print(f"manager {NONE}")
    asking("request", 1000, 2, user, 2, 0xA0, text)

print("\n# SNMPv2-Traps for users with each hash at each level. They count nothing.")
agent()
for user in (b"ann", b"bob", b"sam"):
    for level in (1, 2, 3):
        trap(user, level)
print("counters -> counters 0 0 0 0 0 0")

print(
    "\n# A trap is refused for its clock, its user, its level and its length, in this order. Its context has a name of 65,507 octets."
)
agent()
for now, user, level, why in (
    (2147483648, "eve", 3, "ClockExhausted"),
    (2147483647, "eve", 3, "UnknownUser"),
    (2147483647, "joe", 3, "UnsupportedLevel"),
    (2147483647, "joe", 2, "TooLarge"),
    (2147483647, "eve", 1, "TooLarge"),
):
    print(f"notify {now} 5 {ENGINE_WORD} {user} {LEVELS[level]} 63*65507 {said(0xA7, 5).hex()} -> {refused(why)}")
text = message(2, 5, b"joe", scoped_pdu(said(0xA7, 5)), 7, 2147483647, False).hex()
print(f"notify 2147483647 5 {ENGINE_WORD} joe authNoPriv - {said(0xA7, 5).hex()} -> {text}")

print(
    "\n# GetRequests and SetRequests are decided for each name in order, and other PDUs aren't decided by name (RFC 3415)."
)
agent()
for user in (b"ann", b"sam"):
    for level in (1, 2, 3):
        decided("ByName([AccessAllowed])", user, level, 0xA0, SYS_DESCR)
decided("ByName([])", b"ann", 1, 0xA0)
decided("ByName([AccessAllowed, NotInView])", b"ann", 1, 0xA0, SYS_DESCR, "2.1")
decided("ByName([NotInView, AccessAllowed])", b"sam", 2, 0xA0, "2.1", SYS_DESCR)
decided("ByName([NoSuchView])", b"ann", 1, 0xA3, SYS_DESCR)
decided("ByName([NoSuchView])", b"sam", 3, 0xA3, SYS_DESCR)
decided("ByName([NoAccessEntry])", b"joe", 1, 0xA0, SYS_DESCR)
decided("ByName([AccessAllowed])", b"joe", 2, 0xA0, SYS_DESCR)
decided("ByName([NoGroupName])", b"guest", 1, 0xA0, SYS_DESCR)
decided("ByName([NoSuchContext])", b"ann", 1, 0xA0, SYS_DESCR, context=b"x")
decided("ByName([AccessAllowed])", b"ann", 1, 0xA0, SYS_DESCR, engine=b"elsewhere")
for tag in (0xA1, 0xA2, 0xA5, 0xA6, 0xA7, 0xA8):
    decided("NotByName", b"ann", 1, tag, SYS_DESCR)
decided("NotByName", b"sam", 3, 0xA1, SYS_DESCR)

print("\n# What a user may see, and the sender of a message.")
ACCESS = ("AccessAllowed", "NotInView", "NoSuchView", "NoAccessEntry", "NoGroupName", "NoSuchContext")
for user, level, context, view, arcs, answer in (
    ("ann", 1, "-", "read", "1.3.6", 0),
    ("sam", 3, "-", "read", "2.1", 1),
    ("ann", 1, "-", "write", "1.3.6", 2),
    ("ann", 1, "-", "notify", "1.3.6", 1),
    ("sam", 1, "-", "notify", "1.3.6.1.6.3", 0),
    ("joe", 1, "-", "read", "1.3.6", 3),
    ("joe", 3, "-", "read", "1.3.6", 0),
    ("guest", 1, "-", "read", "1.3.6", 4),
    ("ann", 1, "x", "read", "1.3.6", 5),
    ("-", 1, "-", "read", "1.3.6", 4),
):
    print(f"may {user} {LEVELS[level]} {context} {view} {arcs} -> {ACCESS[answer]} {answer}")
request = message(1, 2, b"ann", scoped_pdu(said(0xA0, 2))).hex()
for view, arcs, answer in (
    ("read", "1.3.6.1.2", 0),
    ("read", "2.1", 1),
    ("write", "1.3.6.1.2", 2),
    ("notify", "1.3.6.1.2", 1),
    ("notify", "1.3.6.1.6", 0),
):
    print(f"allows 1000 {request} {view} {arcs} -> {ACCESS[answer]} {answer}")

print("\n# A request is handled, and an Inform is counted and reported as one of no handler (RFC 3413, section 3.3).")
agent()
for user, level, tag in EXCHANGES:
    text = second(user, level, tag).hex()
    if tag == 0xA6:
        print(f"unhandled 1010 {text} -> Some(UnknownPduHandlers)\nrefuse 1010 {text} -> true")
    else:
        print(f"unhandled 1010 {text} -> None")
print(f"count -> {sum(tag == 0xA6 for _, _, tag in EXCHANGES)} 0")

print("\n# What becomes of a variable in a GetRequest, a SetRequest and a GetNextRequest (RFC 3413, section 3.2).")
for tag, hidden in (("a0", "NoSuchObject"), ("a3", "NoAccess"), ("a1", "NotSeen")):
    print(f"status_of {tag} -> status NoError {hidden}" + " AuthorizationError" * 3 + " UnknownContext")

print(
    "\n# A Response has as many bindings as have room: nine, whose contents have 0 to 8 octets, and each beginning of them."
)
agent()
bindings = b"".join(binding(SYS_DESCR, 4, b"contents"[:size]) for size in range(9))
for user, level, tag in EXCHANGES:
    print(f"fronts 1010 {second(user, level, tag).hex()} {pdu(0xA2, 1, bindings).hex()} -> whole 10")
