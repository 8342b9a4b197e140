"""Who is asked and as whom, and what a device doesn't do. Not proved."""
from __future__ import annotations

from typing import NamedTuple, Optional

from . import Buffer, Level, Refusal
from .values import ObjectId

__all__ = ["ERROR_STATUS", "ErrorStatus", "NoAnswer", "NotIncreasing", "OtherVariables", "REPORTS", "ReportReceived",
           "SnmpError", "TOO_BIG", "Target", "WalkLimit", "configuration"]

TOO_BIG = 1

# RFC 3414, section 5, and RFC 3412, section 5: the counter of a Report, and what it mostly comes from
REPORTS = {
    1: ("usmStatsUnsupportedSecLevels", "the device has no password of the user for this level"),
    2: ("usmStatsNotInTimeWindows", "the boots or the time aren't the engine's: two devices may have one engine ID"),
    3: ("usmStatsUnknownUserNames", "the device doesn't have this user"),
    4: ("usmStatsUnknownEngineIDs", "the device has another engine ID"),
    5: ("usmStatsWrongDigests", "the authentication password or its hash isn't that of the device"),
    6: ("usmStatsDecryptionErrors", "the privacy password or its cipher isn't that of the device"),
    7: ("snmpUnknownPDUHandlers", "the device doesn't answer such requests for this contextEngineID"),
    8: ("snmpUnavailableContexts", "the context can't be asked now"),
    9: ("snmpUnknownContexts", "the device has no context of this name"),
}
# RFC 3416, section 3
ERROR_STATUS = ("noError", "tooBig", "noSuchName", "badValue", "readOnly", "genErr", "noAccess", "wrongType", "wrongLength", "wrongEncoding", "wrongValue",
                "noCreation", "inconsistentValue", "resourceUnavailable", "commitFailed", "undoFailed", "authorizationError", "notWritable",
                "inconsistentName")


class SnmpError(Exception):
    """What a device doesn't do."""


class NoAnswer(SnmpError):
    """No answer came in time. `report` is the counter of a Report that came without authentication, which anybody can send, and `refusal` why the last
    datagram from the device was refused: each may be the cause. `is_known`: it answered before."""

    def __init__(self, target: Target, report: Optional[int], refusal: Optional[Refusal], is_known: bool):
        super().__init__(f"no answer from {target}: {_likely(report, refusal, is_known)}")
        self.target, self.report, self.refusal = target, report, refusal


class ReportReceived(SnmpError):
    """The device refuses the request, and its Report is authentic."""

    def __init__(self, target: Target, report: Optional[int]):
        super().__init__(f"{target} refuses the request: {_report_words(report or 0)}")
        self.target, self.report = target, report


class ErrorStatus(SnmpError):
    """The Response has an error-status (RFC 3416, section 3). `name` is the variable of its error-index, if there is one."""

    def __init__(self, status: int, index: int, name: Optional[ObjectId]):
        word = f"{ERROR_STATUS[status]} (error-status {status})" if 0 <= status < len(ERROR_STATUS) else f"error-status {status}"
        super().__init__(f"{word} at {name}" if name else word)
        self.status, self.index, self.name = status, index, name


class NotIncreasing(SnmpError):
    """A device that walks answers with a name that isn't greater than the one before (RFC 3416, section 4.2.2)."""

    def __init__(self, name: ObjectId, before: ObjectId):
        super().__init__(f"the device answers with {name} after {before}: its names don't increase")
        self.name, self.before = name, before


class OtherVariables(SnmpError):
    """The Response doesn't have the variables that were asked, or has what no such Response has."""

    def __init__(self, target: Target, why: str):
        super().__init__(f"{target} answers with {why}")
        self.target = target


class WalkLimit(SnmpError):
    """A walk has more variables than its limit."""

    def __init__(self, target: Target, limit: int):
        super().__init__(f"{target} has more than {limit} variables there")
        self.target, self.limit = target, limit


def _likely(report: Optional[int], refusal: Optional[Refusal], is_known: bool) -> str:
    if report:
        return f"probably {_report_words(report)}"
    if refusal:
        return f"its last datagram was refused: {refusal}"
    if is_known:
        return "it answered before; many devices drop what they can't decrypt (the privacy password), and requests for a context that they don't have"
    return "nothing came from there: another address or port, a filter on the way, or a device that isn't running"


def _report_words(counter: int) -> str:
    name, why = REPORTS.get(counter, ("a Report of a counter that isn't known", ""))
    return f"{name}, {why}" if why else name


class Target(NamedTuple):
    """Who is asked, and as whom: an address, a user of the configuration, a level and a context (RFC 3413, section 4.1.2). Without `context_engine`
    the context is one of the device's own engine."""

    host: str
    port: int = 161
    user: str = ""
    level: Level = Level.AUTH_PRIV
    context: bytes = b""
    context_engine: Optional[bytes] = None

    def __str__(self) -> str:
        return f"[{self.host}]:{self.port}" if ":" in self.host else f"{self.host}:{self.port}"


def _quoted(text: str) -> str:
    """A TOML basic string."""
    return '"' + "".join(it if it not in '"\\' and it.isprintable() else f"\\U{ord(it):08x}" for it in text) + '"'


def configuration(user: str, auth: Optional[str] = None, auth_password: Optional[Buffer] = None, priv_password: Optional[Buffer] = None) -> bytearray:
    """A configuration with one user: its hash (`md5`, `sha1`, `sha256`) and its passwords, of 8 octets or more. Overwrite it after use.

    >>> configuration("ann", "sha256", b"maplesyrup").decode()
    '[[user]]\\nname = "ann"\\nauth = "sha256"\\nauth-password = "maplesyrup"\\n'
    """
    text = bytearray(f"[[user]]\nname = {_quoted(user)}\n".encode())
    if auth is not None:
        text += f"auth = {_quoted(auth)}\n".encode()
    for key, password in (("auth-password", auth_password), ("priv-password", priv_password)):
        if password is not None:
            text += f"{key} = {_quoted(bytes(password).decode())}\n".encode()
    return text
