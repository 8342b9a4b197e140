"""The commands snmpsec-get, -next, -bulk, -walk, -set, -trap and -listen. Not proved; the library accepts and writes each message.

Status 0: it was done. 1: the device didn't answer, refused it, or sent a value that isn't one. 2: the command line is
wrong, or a file can't be used.
"""
from __future__ import annotations

import argparse
import asyncio
import getpass
import json
import os
import re
import signal
import sys
from ipaddress import IPv4Address
from typing import Any, Awaitable, Callable, Dict, List, Optional, Sequence, Tuple

from . import NO_CLOCKS, Error, Level, wiped
from .aio import Client, Listener, Notification, SnmpError, Target, TrapSender, configuration
from .files import clocks_at
from .names import name_of
from .printing import as_json, line
from .values import BadValue, Counter32, Counter64, Gauge32, ObjectId, TimeTicks, Value, Variable

__all__ = ["bulk", "get", "get_next", "listen", "set_variables", "trap", "walk"]

LEVELS = {"noAuthNoPriv": Level.NO_AUTH_NO_PRIV, "authNoPriv": Level.AUTH_NO_PRIV, "authPriv": Level.AUTH_PRIV, "nanp": Level.NO_AUTH_NO_PRIV,
          "anp": Level.AUTH_NO_PRIV, "ap": Level.AUTH_PRIV}
HASHES = {"MD5": "md5", "SHA": "sha1", "SHA-1": "sha1", "SHA1": "sha1", "SHA-256": "sha256", "SHA256": "sha256"}
CIPHERS = ("AES", "AES-128", "AES128")
PASSWORDS = {"auth": "SNMPSEC_AUTH_PASSWORD", "priv": "SNMPSEC_PRIV_PASSWORD"}
EPILOG = """Passwords are read from the file of --config, from the environment (SNMPSEC_AUTH_PASSWORD, SNMPSEC_PRIV_PASSWORD), or from the terminal.
-A and -X take them from the command line, where other users of the machine can read them, only with --insecure-passwords.
Status 0: it was done; 1: no answer, a refusal, or a value that isn't one; 2: the command line or a file is wrong."""
SET_FORM = "NAME TYPE VALUE: i integer, u unsigned, c counter, t ticks, a address, o object, s text, x hex, d decimal octets, n null"
Work = Callable[[argparse.Namespace], Awaitable[int]]


class Usage(Exception):
    """The command line or a file is wrong."""


def _parser(name: str, what: str) -> argparse.ArgumentParser:
    parser = argparse.ArgumentParser(prog=f"snmpsec-{name}", description=what, epilog=EPILOG, formatter_class=argparse.RawDescriptionHelpFormatter)
    parser.add_argument("-u", metavar="USER", default="", dest="user", help="security name")
    parser.add_argument("-l", metavar="LEVEL", choices=sorted(LEVELS), default="authPriv", dest="level", help="noAuthNoPriv, authNoPriv or authPriv")
    parser.add_argument("-a", metavar="HASH", choices=sorted(HASHES), default="SHA-256", dest="hash", help="MD5, SHA or SHA-256")
    parser.add_argument("-A", metavar="PASSWORD", dest="auth", help="authentication password")
    parser.add_argument("-x", metavar="CIPHER", choices=CIPHERS, default="AES", dest="cipher", help="AES")
    parser.add_argument("-X", metavar="PASSWORD", dest="priv", help="privacy password")
    parser.add_argument("-n", metavar="CONTEXT", default="", dest="context", help="contextName")
    parser.add_argument("--insecure-passwords", action="store_true", help="allow -A and -X")
    parser.add_argument("--config", metavar="FILE", help="a configuration in TOML that has the user")
    parser.add_argument("--json", action="store_true", help="print a JSON object a line")
    return parser


def _asking(name: str, what: str) -> argparse.ArgumentParser:
    parser = _parser(name, what)
    parser.add_argument("-t", metavar="SECONDS", type=float, default=1.0, dest="timeout", help="how long an answer is waited for (1)")
    parser.add_argument("-r", metavar="COUNT", type=int, default=5, dest="retries", help="how often a request is sent again (5)")
    parser.add_argument("--clocks", metavar="FILE",
                        help="the saved clocks of engines, which are read before; what was learned is joined in after")
    parser.add_argument("host", metavar="HOST[:PORT]", help="a device: a name, an address, or [IPV6]:PORT")
    return parser


def place_of(word: str, port: int = 161) -> Tuple[str, int]:
    """The host and the port of a word. Usage: it isn't one.

    >>> place_of("[2001:db8::1]:1161"), place_of("2001:db8::1"), place_of("router:1161"), place_of("udp:router")
    (('2001:db8::1', 1161), ('2001:db8::1', 161), ('router', 1161), ('router', 161))
    """
    word = re.sub(r"^udp6?:(?=[^:])", "", word)
    found = re.fullmatch(r"\[(?P<bracketed>[^]]+)\](?::(?P<port6>\d+))?|(?P<host>[^:]+)(?::(?P<port4>\d+))?|(?P<plain>[0-9A-Fa-f:.]+(?:%\w+)?)", word)
    if found is None:
        raise Usage(f"{word}: a host is a name, an address, HOST:PORT or [IPV6]:PORT")
    number = int(found["port6"] or found["port4"] or port)
    if not 0 < number < 65536:
        raise Usage(f"{word}: a port is a number from 1 to 65535")
    return found["bracketed"] or found["host"] or found["plain"], number


def _password(given: argparse.Namespace, kind: str) -> bytearray:
    """From the environment, the command line if that is allowed, or the terminal."""
    on_line: Optional[str] = getattr(given, kind)
    if on_line is not None and not given.insecure_passwords:
        raise Usage(f"-{'A' if kind == 'auth' else 'X'}: other users of the machine can read the command line. Set {PASSWORDS[kind]}, use --config, or "
                    "allow it by --insecure-passwords")
    word = on_line if on_line is not None else os.environ.get(PASSWORDS[kind])
    if word is None:
        if not sys.stdin.isatty():
            raise Usage(f"there is no password: set {PASSWORDS[kind]}, or use --config")
        word = getpass.getpass(f"{'Authentication' if kind == 'auth' else 'Privacy'} password: ")
    return bytearray(word.encode())


def _wipe(octets: Optional[bytearray]) -> None:
    if octets is not None:
        octets[:] = bytes(len(octets))


def _with_configuration(given: argparse.Namespace, use: Callable[[bytearray], Any]) -> Any:
    """What `use` makes of the configuration, which is overwritten then."""
    if not given.user:
        raise Usage("-u: a user is missing")
    if given.config is not None:
        return wiped(given.config, use)
    level = LEVELS[given.level]
    auth = _password(given, "auth") if level >= Level.AUTH_NO_PRIV else None
    priv = _password(given, "priv") if level is Level.AUTH_PRIV else None
    config = configuration(given.user, HASHES[given.hash] if auth is not None else None, auth, priv)
    try:
        return use(config)
    finally:
        for octets in (config, auth, priv):
            _wipe(octets)


def _target(given: argparse.Namespace, port: int = 161) -> Target:
    host, number = place_of(given.host, port)
    return Target(host, number, given.user, LEVELS[given.level], given.context.encode())


def _client(given: argparse.Namespace) -> Client:
    clocks = NO_CLOCKS if given.clocks is None else clocks_at(given.clocks)
    client: Client = _with_configuration(given, lambda config: Client(config, clocks=clocks, timeout=given.timeout, retries=given.retries))
    return client


def _print(variables: Sequence[Variable], is_json: bool) -> bool:
    """Whether none is a BadValue."""
    for it in variables:
        print(json.dumps(as_json(it)) if is_json else line(it))
    return not any(isinstance(it.value, BadValue) for it in variables)


async def _with_client(given: argparse.Namespace, work: Callable[[Client, Target], Awaitable[bool]]) -> int:
    async with _client(given) as client:
        try:
            return 0 if await work(client, _target(given)) else 1
        finally:
            if given.clocks is not None:
                client.save(given.clocks)


def _run(parser: argparse.ArgumentParser, work: Work) -> int:
    """The status of a command: what is wrong is one line on standard error."""
    given = parser.parse_args()
    try:
        return asyncio.run(work(given))  # type: ignore[arg-type]
    except SnmpError as fault:
        print(f"{parser.prog}: {fault}", file=sys.stderr)
        return 1
    except BrokenPipeError:
        os.dup2(os.open(os.devnull, os.O_WRONLY), 1)  # (so that the interpreter's own flush is silent)
        return 1
    except KeyboardInterrupt:
        return 130
    except (Usage, Error, OSError, ValueError) as fault:
        print(f"{parser.prog}: {fault}", file=sys.stderr)
        return 2


def _names(given: argparse.Namespace) -> List[ObjectId]:
    return [name_of(word) for word in given.names]


def _reads(name: str, what: str, ask: Callable[[Client, Target, argparse.Namespace], Awaitable[List[Variable]]], **more: Any) -> int:
    parser = _asking(name, what)
    for option, how in more.items():
        parser.add_argument(f"-{option}", **how)
    parser.add_argument("names", metavar="NAME", nargs="+", help="a variable, as 1.3.6.1.2.1.1.5.0 or sysName.0")

    async def work(given: argparse.Namespace) -> int:
        async def once(client: Client, target: Target) -> bool:
            return _print(await ask(client, target, given), given.json)

        return await _with_client(given, once)

    return _run(parser, work)


def get() -> int:
    """snmpsec-get: the values of variables."""
    return _reads("get", "Print the values of variables.", lambda client, target, given: client.get(target, *_names(given)))


def get_next() -> int:
    """snmpsec-next: the next variable after each name."""
    return _reads("next", "Print the next variable after each name.", lambda client, target, given: client.get_next(target, *_names(given)))


def bulk() -> int:
    """snmpsec-bulk: the next variables after each name, by one GetBulkRequest."""
    return _reads(
        "bulk", "Print the next variables after each name, by one GetBulkRequest.",
        lambda client, target, given: client.get_bulk(target, *_names(given), non_repeaters=given.non_repeaters, max_repetitions=given.repetitions),
        N={"metavar": "COUNT", "type": int, "default": 0, "dest": "non_repeaters", "help": "non-repeaters (0)"},
        M={"metavar": "COUNT", "type": int, "default": 10, "dest": "repetitions", "help": "max-repetitions (10)"})


def walk() -> int:
    """snmpsec-walk: the variables below a name."""
    parser = _asking("walk", "Print the variables below a name, by GetBulkRequests.")
    parser.add_argument("name", metavar="NAME", nargs="?", default="1.3.6.1.2.1", help="where to begin (1.3.6.1.2.1)")
    parser.add_argument("--limit", metavar="COUNT", type=int, help="end with status 1 after so many variables, if there are more")

    async def work(given: argparse.Namespace) -> int:
        root = name_of(given.name)

        async def through(client: Client, target: Target) -> bool:
            found = [_print([it], given.json) async for it in client.walk(target, root, limit=given.limit)]
            return all(found) if found else _print(await client.get(target, root), given.json)

        return await _with_client(given, through)

    return _run(parser, work)


_TYPES: Dict[str, Callable[[str], Value]] = {
    "i": int,
    "u": lambda word: Gauge32(int(word)),
    "c": lambda word: Counter32(int(word)),
    "C": lambda word: Counter64(int(word)),
    "t": lambda word: TimeTicks(int(word)),
    "a": IPv4Address,
    "o": name_of,
    "s": lambda word: word.encode("utf-8", "surrogateescape"),
    "x": lambda word: bytes.fromhex(word.removeprefix("0x")),
    "d": lambda word: bytes(map(int, re.split(r"[ .]+", word))),
    "n": lambda word: None,
}


def value_of(kind: str, word: str) -> Value:
    """The value of a word by the letter of its type.

    >>> value_of("x", "00ff"), value_of("t", "100")
    (b'\\x00\\xff', TimeTicks(100))
    """
    if kind not in _TYPES:
        raise Usage(f"{kind}: a type is one of {' '.join(_TYPES)}")
    try:
        return _TYPES[kind](word)
    except ValueError as fault:
        raise Usage(f"{kind} {word}: {fault}") from None


def _given_variables(words: Sequence[str]) -> List[Tuple[ObjectId, Value]]:
    if len(words) % 3:
        raise Usage(f"after {words[-1]}: each variable is {SET_FORM}")
    return [(name_of(words[at]), value_of(words[at + 1], words[at + 2])) for at in range(0, len(words), 3)]


def set_variables() -> int:
    """snmpsec-set: sets variables, all or none."""
    parser = _asking("set", "Set variables, all or none, and print what the device answers.")
    parser.add_argument("words", metavar="NAME TYPE VALUE", nargs="+", help=SET_FORM)

    async def work(given: argparse.Namespace) -> int:
        variables = _given_variables(given.words)

        async def once(client: Client, target: Target) -> bool:
            return _print(await client.set(target, variables), given.json)

        return await _with_client(given, once)

    return _run(parser, work)


def _engine(word: Optional[str]) -> bytes:
    try:
        engine = bytes.fromhex((word or "").removeprefix("0x"))
    except ValueError:
        engine = b""
    if not 5 <= len(engine) <= 32:
        raise Usage("--engine: an engine ID is 5 to 32 octets in hex (RFC 3411, section 5); each engine has one of its own")
    return engine


def _own_engine(parser: argparse.ArgumentParser) -> None:
    parser.add_argument("--engine", metavar="HEX", help="the own engine ID, 5 to 32 octets in hex")
    parser.add_argument("--boots", metavar="FILE", help="the file that counts the boots of the own engine")


def _boots(given: argparse.Namespace) -> str:
    if given.boots is None:
        raise Usage("--boots: a file is missing that counts the engine's boots. It has to stay from one start to the next")
    boots: str = given.boots
    return boots


def trap() -> int:
    """snmpsec-trap: sends a trap, or an Inform."""
    parser = _asking("trap", "Send a notification: a trap of the own engine, or an Inform, which the receiver acknowledges.")
    _own_engine(parser)
    parser.add_argument("--inform", action="store_true", help="send an Inform; it needs neither --engine nor --boots")
    parser.add_argument("notification", metavar="NOTIFICATION", help="its name, as 1.3.6.1.6.3.1.1.5.1")
    parser.add_argument("words", metavar="NAME TYPE VALUE", nargs="*", help=SET_FORM)

    async def work(given: argparse.Namespace) -> int:
        variables, name, target = _given_variables(given.words), name_of(given.notification), _target(given, 162)
        if given.inform:
            async def inform(client: Client, _: Target) -> bool:
                await client.inform(target, name, variables)
                return True

            return await _with_client(given, inform)
        engine, boots = _engine(given.engine), _boots(given)
        with _with_configuration(given, lambda config: TrapSender(config, engine=engine, boots=boots)) as sender:
            sender.send(target, name, variables)
        return 0

    return _run(parser, work)


def _level_word(level: Level) -> str:
    return next(word for word, it in LEVELS.items() if it is level)


def _print_notification(it: Notification, is_json: bool) -> None:
    kind, level = "inform" if it.is_inform else "trap", _level_word(it.level)
    host, port = it.address
    if is_json:
        told = {"kind": kind, "from": host, "port": port, "user": it.user, "level": level,
                "engine": it.context_engine.hex(), "context": it.context_name.decode(errors="replace"),
                "variables": [as_json(one) for one in it.variables]}
        print(json.dumps(told), flush=True)
        return
    print(f"{kind} from {host} port {port} user {it.user} level {level} engine {it.context_engine.hex()}")
    for one in it.variables:
        print(f"    {line(one)}")
    sys.stdout.flush()


def _print_dropped(listener: Listener) -> None:
    for it in [f"{count}: {why}" for why, count in listener.dropped.most_common()] or ["0"]:
        print(f"snmpsec-listen: dropped {it}", file=sys.stderr, flush=True)


async def _print_notifications(listener: Listener, count: Optional[int], is_json: bool) -> None:
    """Until so many have come, or SIGTERM."""
    loop = asyncio.get_running_loop()
    loop.add_signal_handler(signal.SIGUSR1, _print_dropped, listener)
    loop.add_signal_handler(signal.SIGTERM, listener.end)
    left = count
    async for it in listener:
        _print_notification(it, is_json)
        left = None if left is None else left - 1
        if left == 0:
            return


def listen() -> int:
    """snmpsec-listen: prints the notifications that come."""
    parser = _parser("listen", "Print the notifications that come, and acknowledge Informs. What is dropped is "
                     "counted: SIGUSR1 prints the counts.")
    _own_engine(parser)
    parser.add_argument("--count", metavar="COUNT", type=int, help="end after so many")
    parser.add_argument("--least-level", metavar="LEVEL", choices=sorted(LEVELS), help="drop notifications below this "
                        "level (the highest level for which their user has passwords)")
    parser.add_argument("--source", metavar="ADDRESS", action="append", default=[], dest="sources",
                        help="accept notifications at noAuthNoPriv from this address; it may be given again")
    parser.add_argument("--clocks", metavar="FILE",
                        help="the saved clocks of the senders, which are read before and saved as they are learned")
    parser.add_argument("host", metavar="[ADDRESS:]PORT", nargs="?", default="0.0.0.0:162", help="where to listen (0.0.0.0:162)")

    async def work(given: argparse.Namespace) -> int:
        engine, boots = _engine(given.engine), _boots(given)
        host, port = ("0.0.0.0", int(given.host)) if given.host.isdecimal() else place_of(given.host, 162)
        least = None if given.least_level is None else LEVELS[given.least_level]
        listener: Listener = _with_configuration(given, lambda config: Listener(
            config, engine=engine, boots=boots, host=host, port=port, clocks=given.clocks, least_level=least,
            sources=given.sources))
        async with listener:
            try:
                await _print_notifications(listener, given.count, given.json)
            finally:
                _print_dropped(listener)
        return 0

    return _run(parser, work)
