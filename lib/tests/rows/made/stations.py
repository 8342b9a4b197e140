"""Rows of the users and the tables of access that the agents of agent.rows and exchange.rows have, and refusals as rows tell them."""

from messages import ENGINE

NUMBERS = {
    "NotMessage": 1,
    "BadVersion": 2,
    "NotSecurity": 3,
    "NotScoped": 4,
    "NotPdu": 5,
    "UnknownEngine": 6,
    "UnknownUser": 7,
    "UnsupportedLevel": 8,
    "WrongDigest": 9,
    "NotInWindow": 10,
    "DecryptionError": 11,
    "BadScoped": 12,
    "BadPdu": 13,
    "ClockExhausted": 15,
    "TooLarge": 16,
    "UnknownModel": 17,
    "InvalidFlags": 18,
}
LEVELS = {1: "noAuthNoPriv", 2: "authNoPriv", 3: "authPriv"}
SHOWN = {1: "NoAuthNoPriv", 2: "AuthNoPriv", 3: "AuthPriv"}

# `ann`, `bob` and `sam` with a password for each purpose, `joe` with one for authentication, `guest` with none.
# `ann` and `sam` at any level, and `joe` with authentication, read all that is below 1, are notified of what is below 1.3.6.1.6, and
# write nothing. No other user is in a group.
SETTING = """
user ann md5:maplesyrup maplesyrup
user bob sha1:maplesyrup maplesyrup
user sam sha256:maplesyrup maplesyrup
user joe md5:maplesyrup -
user guest - -
users -> loaded
context -
group 3 ann g
group 3 sam g
group 3 joe h
access g - 3 noAuthNoPriv prefix v - n
access h - 3 authNoPriv prefix v - n
family v 1 - included
family n 1.3.6.1.6 - included
"""


def refused(why):
    """A refusal by its name and its place, as `NotMessage@10`."""
    name, _, place = why.partition("@")
    return f"refused {NUMBERS[name]} {name}" + (f" {place}" if place else "")


def agent(boots=7):
    """An agent that started at the timestamp 0."""
    print(f"load -> loaded\nagent {ENGINE.hex()} {boots} 0")
