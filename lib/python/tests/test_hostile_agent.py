"""The client and its commands, asked of an agent that answers wrongly: python3 test_hostile_agent.py, with the library
installed or named by SNMPSEC_LIBRARY. The cases are in hostile_cases.py."""
import asyncio
import contextlib
import gc
import io
import multiprocessing
import os
import pathlib
import re
import runpy
import sys
import tempfile
import time
import traceback
import unittest
from concurrent.futures import ProcessPoolExecutor

import hostile_cases
from hostile_agent import NAME, SYSTEM, USERS, Agent, Answer, bound, right, sealed
from hostile_cases import OTHER, ROOT, ROUTER, lie
from test_aio import Quiet

from snmpsec import commands
from snmpsec.aio import Client, NoAnswer, NotIncreasing, SnmpError, Target, WalkLimit
from snmpsec.printing import line
from snmpsec.values import ObjectId

CASES = [case for name, its in vars(hostile_cases).items() if name.isupper() and isinstance(its, list) for case in its]
EXAMPLE = pathlib.Path(__file__).resolve().parent.parent / "examples" / "aget.py"
LEVELS = {1: "noAuthNoPriv", 2: "authNoPriv", 3: "authPriv"}
PATIENT, HASTY = (2.0, 0), (0.4, 1)  # seconds, and how often a request is sent again
SIZES = 4  # for how many variables a walk asks one after another, if no answer comes: 10, 5, 2, 1
AT_ONCE, PROCESSES = 40, 8
SLACK, OF_COMMANDS = 1, 5  # seconds; a command also makes its keys, and waits for a processor
COMMANDS = {
    "get": (commands.get, [str(NAME)]),
    "pair": (commands.get, [str(NAME), str(OTHER)]),
    "set": (commands.set_variables, [str(NAME), "s", "router"]),
    "next": (commands.get_next, [str(ROOT)]),
    "walk": (commands.walk, [str(ROOT)]),
}


async def said(client, call, target):
    """What the client says, in the words of the commands."""
    lines = []
    try:
        if call == "walk":
            async for it in client.walk(target, ROOT):
                lines.append(line(it))
        else:
            asked = {
                "get": lambda: client.get(target, NAME),
                "pair": lambda: client.get(target, NAME, OTHER),
                "set": lambda: client.set(target, {NAME: b"router"}),
                "next": lambda: client.get_next(target, ROOT),
            }[call]
            lines += map(line, await asked())
    except SnmpError as fault:
        lines.append(str(fault))
    return "\n".join(lines)


def resident():
    return int(pathlib.Path("/proc/self/statm").read_text().split()[1]) * os.sysconf("SC_PAGE_SIZE")


def longest(call, honest):
    """How many seconds a call may wait for answers."""
    (timeout, retries), tries = PATIENT if honest else HASTY, SIZES if call == "walk" else 1
    return timeout * (1 + retries) * tries


def as_printed(call, words):
    """What a command prints, and its status. It runs in a process that has run others before."""
    command, names = COMMANDS[call]
    sys.argv = ["snmpsec", *words, *names]
    with contextlib.redirect_stdout(io.StringIO()) as out, contextlib.redirect_stderr(io.StringIO()) as err:
        try:
            status = command()
        except BaseException:
            return traceback.format_exc(), "", 99
    return out.getvalue(), err.getvalue(), status


def example(words):
    """What the example aget.py prints, or why it ends."""
    sys.argv = ["aget", *words]
    with contextlib.redirect_stdout(io.StringIO()) as out:
        try:
            runpy.run_path(str(EXAMPLE), run_name="__main__")
        except SystemExit as fault:
            return str(fault)
        except BaseException:
            return traceback.format_exc()
    return out.getvalue().rstrip()


def in_octets(said):
    """What the example prints, of what the commands say."""
    if not said.startswith("."):
        return f"aget: {said}"
    name, _, value = said[1:].partition(" = ")
    if bad := re.match(r"Bad value: tag (..), (.*)", value):
        return f"{name} {bad[1].lower()} {bad[2].replace('no octets', '').replace(' ', '').lower()}".rstrip()
    return f"{name} 04 {value.removeprefix('STRING: ')[1:-1].encode().hex()}"


class Hostile(Quiet):
    maxDiff = None

    async def each(self, at_once, slack, ask, work):
        """Asks the agents of many cases, some at once, and sees that what is said is what it has to be."""
        room, wrong = asyncio.Semaphore(at_once), []

        async def check(case, call, honest):
            async with room, Agent(case.answers, case.stage, honest) as agent:
                begun, expected = time.monotonic(), case.followed if honest else case.alone
                found = await ask(case, call, honest, agent)
                took, expected = time.monotonic() - begun, expected.format(at=f"{agent.host}:{agent.port}")
                is_beyond = honest and bool(case.beyond)
                if (found == expected) is is_beyond or took > longest(call, honest) + slack:
                    wrong.append(f"{case.name}, {call}, {took:.1f} s: expected {expected!r}, found {found!r}")

        await asyncio.gather(*(check(*it) for it in work))
        self.assertEqual(wrong, [])

    async def test_the_library(self):
        async def ask(case, call, honest, agent):
            return await said(clients[honest], call, Target(agent.host, agent.port, "ann", case.level))

        clients = [Client(USERS.encode(), timeout=timeout, retries=retries) for timeout, retries in (HASTY, PATIENT)]
        async with clients[0], clients[1]:
            work = [(it, call, honest) for it in CASES for call in it.calls for honest in (True, False)]
            await self.each(AT_ONCE, SLACK, ask, work)
            for it in clients:
                self.assertEqual((it._waiting, it._requests, it._room._value), ({}, {}, 1024))
                self.assertTrue(all(peer.discovery is None for peer in it._by_address.values()))

    async def test_the_commands(self):
        loop = asyncio.get_running_loop()

        async def ask(case, call, honest, agent):
            timeout, retries = PATIENT if honest else HASTY
            words = ["-u", "ann", "-l", LEVELS[case.level], "-t", str(timeout), "-r", str(retries), "--config", path]
            words.append(f"{agent.host}:{agent.port}")
            out, err, status = await loop.run_in_executor(pool, as_printed, call, words)
            is_fault = bool(err) or "Bad value" in out
            if status != int(is_fault):
                return f"status {status}: {out}{err}"
            return (out + err.removeprefix("snmpsec-" + call.replace("pair", "get") + ": ")).removesuffix("\n")

        async with self.processes() as (pool, path):
            work = [(it, it.calls[0], False) for it in CASES] + [(it, it.calls[-1], True) for it in CASES]
            await self.each(PROCESSES, OF_COMMANDS, ask, work)

    async def test_the_example(self):
        loop = asyncio.get_running_loop()

        async def ask(case, call, honest, agent):
            words = [path, agent.host, str(agent.port), "ann", str(int(case.level)), str(NAME)]
            found = await loop.run_in_executor(pool, example, words)
            expected = case.followed.format(at=f"{agent.host}:{agent.port}")
            return expected if found == in_octets(expected) else found

        async with self.processes() as (pool, path):
            work = [(it, "get", True) for it in CASES if "get" in it.calls and it.followed != hostile_cases.NOT_IN_WINDOW]
            await self.each(PROCESSES, OF_COMMANDS, ask, work)

    @contextlib.asynccontextmanager
    async def processes(self):
        """Processes that have begun, and the path of a file with the users."""
        loop, context = asyncio.get_running_loop(), multiprocessing.get_context("spawn")
        with tempfile.TemporaryDirectory() as folder, ProcessPoolExecutor(PROCESSES, context) as pool:
            path = os.path.join(folder, "users.toml")
            with open(path, "w", encoding="utf-8") as it:
                it.write(USERS)
            await asyncio.gather(*(loop.run_in_executor(pool, time.sleep, 0.5) for _ in range(PROCESSES)))
            yield pool, path


class Endless(Agent):
    """It has rows without end."""

    def __init__(self):
        super().__init__(lambda _: [Answer(list=self.rows)], "request", False)
        self.last = 0

    def rows(self, asked):
        numbers = range(self.last, self.last + asked.index)
        self.last += asked.index
        return b"".join(bound((*ROOT, n), b"router") for n in numbers)


class Late(Agent):
    """It answers what is right, once it is asked again."""

    def __init__(self):
        super().__init__(lambda _: [], "request", False)
        self.asked = []

    def hear(self, asked, address):
        super().hear(asked, address)
        if self.stage_of(asked) == "request":
            self.asked.append(asked)
            for it, text in zip(self.asked, (b"late", b"router")) if len(self.asked) > 1 else ():
                self.here.sendto(sealed(Answer(list=bound(NAME, text)), it, self.engine), address)


class Beside(Quiet):
    """What a row of data doesn't say."""

    def target(self, agent):
        return Target(agent.host, agent.port, "ann")

    async def test_a_walk_without_end(self):
        async with Endless() as agent, Client(USERS.encode()) as client:
            found = []
            with self.assertRaisesRegex(WalkLimit, "has more than 1000 variables there"):
                async for it in client.walk(self.target(agent), ROOT, limit=1000):
                    found.append(it.name)
            self.assertEqual(found, [ObjectId((*ROOT, n)) for n in range(1000)])
        async with Endless() as agent, Client(USERS.encode()) as client:
            with self.assertRaises(WalkLimit):
                [it async for it in client.walk(self.target(agent), ROOT, limit=0)]

    async def test_a_walk_of_just_its_limit(self):
        async with Agent(lambda _: [], "request", True) as agent, Client(USERS.encode()) as client:
            found = [it async for it in client.walk(self.target(agent), ROOT, limit=1)]
            self.assertEqual([line(it) for it in found], [ROUTER])

    async def test_columns(self):
        rows = [(*SYSTEM, 4, n, row) for row in (1, 2) for n in (1, 2)]
        for names, fits in ((rows, True), (rows[:3], True), (rows[:2] * 2, False), (rows[::-1], False)):
            answer = Answer(list=b"".join(bound(name, b"x") for name in names))
            async with Agent(lambda _: [answer], "request", False) as agent, Client(USERS.encode()) as client:
                asked = client.get_bulk(self.target(agent), *((*SYSTEM, 4, n) for n in (1, 2)), max_repetitions=2)
                if fits:
                    self.assertEqual([it.name for it in await asked], names)
                else:
                    with self.assertRaises(NotIncreasing):
                        await asked

    async def test_an_answer_that_comes_after_its_request_was_given_up(self):
        async with Late() as agent, Client(USERS.encode(), timeout=0.3, retries=0) as client:
            with self.assertRaises(NoAnswer):
                await client.get(self.target(agent), NAME)
            self.assertEqual(await said(client, "get", self.target(agent)), ROUTER)
            self.assertEqual(len(agent.asked), 2)

    async def test_what_comes_just_as_its_time_ends_counts(self):
        for case in Answer(list=right), hostile_cases.timely():
            async with Agent(lambda n: [case] if n == 0 else [], "request", False) as agent:
                async with Client(USERS.encode(), timeout=0.5, retries=0) as client:
                    hear = client._hear
                    client._hear = lambda *what: (what[-1].wake(), hear(*what))
                    agent.wrong = lambda n, case=case: [case if n == 0 else Answer(list=right)]
                    self.assertEqual(await said(client, "get", self.target(agent)), ROUTER)

    async def test_a_flood_leaves_nothing(self):
        floods = [lie(request_id=number, times=1000) for number in (1, 2)] + [lie(code=lambda _: bytes(12), times=1000)]
        floods += [lie(spoil=lambda it: it[:-1], times=1000), hostile_cases.told(3, flags=0, times=1000)]
        async with Agent(lambda _: floods, "request", True) as agent, Client(USERS.encode(), timeout=5) as client:
            await client.get(self.target(agent), NAME)
            gc.collect()
            tables, before = {name: len(it) for name, it in vars(client).items() if hasattr(it, "__len__")}, resident()
            for _ in range(4):
                self.assertEqual(await said(client, "get", self.target(agent)), ROUTER)
            gc.collect()
            self.assertLess(resident() - before, 2 << 20)
            self.assertEqual({name: len(it) for name, it in vars(client).items() if hasattr(it, "__len__")}, tables)

    async def test_hostile_agents_hold_up_no_other(self):
        silent = [it for it in CASES if it.stage == "request" and it.alone.startswith(hostile_cases.NONE)][:60]
        async with contextlib.AsyncExitStack() as held:
            agents = [await held.enter_async_context(Agent(it.answers, it.stage, False)) for it in silent]
            honest = await held.enter_async_context(Agent(lambda _: [], "request", True))
            client = await held.enter_async_context(Client(USERS.encode(), timeout=3, retries=0))
            tasks = [asyncio.create_task(said(client, "get", self.target(it))) for it in agents]
            begun = time.monotonic()
            self.assertEqual(await said(client, "get", self.target(honest)), ROUTER)
            self.assertLess(time.monotonic() - begun, 2)
            for it in tasks:
                it.cancel()
            await asyncio.gather(*tasks, return_exceptions=True)
            self.assertEqual((client._waiting, client._requests), ({}, {}))


if __name__ == "__main__":
    unittest.main()
