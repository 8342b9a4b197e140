"""The files of a station, boots and clocks, from many processes at once: python3 test_files.py, with the library
installed or named by SNMPSEC_LIBRARY.

lib/tests/boots.sh has the same of the files of the programs in C."""
import asyncio
import contextlib
import fcntl
import functools
import os
import pathlib
import random
import signal
import socket
import subprocess
import sys
import tempfile
import time
import unittest
from unittest import mock

from test_aio import SYSTEM, Network, Quiet, config

import snmpsec
from snmpsec import Manager, files
from snmpsec.files import engine_boots, save_clocks

NAME = f"{'.'.join(map(str, SYSTEM))}.5.0"
ENGINE = "80001f8804747261"
WITH_PASSWORDS = {**os.environ, "SNMPSEC_AUTH_PASSWORD": "maplesyrup", "SNMPSEC_PRIV_PASSWORD": "syrupmaple"}


def words(command, *more):
    """The command line of a command of the package as user ann."""
    program = f"import sys; from snmpsec import commands; sys.argv[0] = 'snmpsec'; sys.exit(commands.{command}())"
    return [sys.executable, "-c", program, "-u", "ann", *map(str, more)]


def ended(command, *more):
    """The status and the standard error of a command, which ends within 20 seconds."""
    how = {"capture_output": True, "text": True, "timeout": 20, "check": False}
    ran = subprocess.run(words(command, *more), env=WITH_PASSWORDS, **how)
    return ran.returncode, ran.stderr


def pairs(text):
    """The boots and time of each engine of a saved text."""
    rows = [line.split() for line in text.decode().splitlines()[1:]]
    return {engine: (int(boots), int(seconds)) for engine, boots, seconds, _ in rows}


class Folder(unittest.TestCase):
    def setUp(self):
        folder = tempfile.TemporaryDirectory()
        self.addCleanup(folder.cleanup)
        self.folder = pathlib.Path(folder.name)
        self.path = self.folder / "file"

    def names(self):
        return sorted(it.name for it in self.folder.iterdir())


class Locks(Folder):
    def test_the_lock_and_the_file_are_the_users_alone(self):
        (self.folder / "file.lock").touch(0o644)
        before = os.umask(0)
        self.addCleanup(os.umask, before)
        with engine_boots(self.path) as boots:
            self.assertEqual(boots, 1)
        self.assertEqual([it.stat().st_mode & 0o777 for it in (self.path, self.folder / "file.lock")], [0o600, 0o600])

    def test_a_lock_that_is_a_link_is_refused(self):
        (self.folder / "file.lock").symlink_to(self.folder / "elsewhere")
        with self.assertRaisesRegex(OSError, "file.lock"), engine_boots(self.path):
            pass
        self.assertEqual(self.names(), ["file.lock"])

    def test_a_lock_is_waited_for(self):
        with open(self.folder / "file.lock", "wb") as other:
            fcntl.flock(other, fcntl.LOCK_EX)
            freed = mock.Mock(side_effect=lambda _: fcntl.flock(other, fcntl.LOCK_UN))
            with mock.patch("snmpsec.files.time.sleep", freed), engine_boots(self.path) as boots:
                self.assertEqual(boots, 1)
            freed.assert_called_once()

    def test_and_given_up(self):
        with engine_boots(self.path), mock.patch.object(files, "LOCK_SECONDS", 0.1):
            with self.assertRaisesRegex(BlockingIOError, "file: another process uses it"), engine_boots(self.path):
                pass

    def test_a_folder_that_others_may_write_to_is_refused(self):
        for mode in 0o1777, 0o775, 0o720:
            self.folder.chmod(mode)
            with self.assertRaisesRegex(OSError, "other users may write to the folder"), engine_boots(self.path):
                pass
        self.assertEqual(self.names(), [])
        self.folder.chmod(0o700)

    def test_what_a_killed_process_left_is_removed(self):
        for name in "file.new.a1B2c3", "file.new.other-file", "another.new.a1B2c3":
            (self.folder / name).touch()
        save_clocks(self.path, snmpsec.NO_CLOCKS)
        self.assertEqual(self.names(), ["another.new.a1B2c3", "file", "file.lock", "file.new.other-file"])


class Kinds(Folder):
    """What is no regular file of this user is refused at once, by its name and with status 2."""

    def refused(self, why):
        place, engine = ["127.0.0.1:9", NAME], ["--engine", ENGINE, "--boots"]
        for command, *more in ("get", *place, "--clocks"), ("trap", *place, *engine), ("listen", *engine):
            self.assertEqual(ended(command, *more, self.path), (2, f"snmpsec-{command}: {self.path}: {why}\n"))

    def test_a_fifo(self):
        os.mkfifo(self.path)
        self.refused("not a regular file")

    def test_a_device(self):
        self.path.symlink_to("/dev/zero")
        self.refused("not a regular file")

    def test_a_folder(self):
        self.path.mkdir()
        self.refused("not a regular file")

    @unittest.skipIf(os.geteuid(), "only root gives a file away")
    def test_another_users_file(self):
        self.path.write_text("41\n")
        os.chown(self.path, 65534, 65534)
        self.refused("the file is another user's")
        self.assertEqual(self.path.read_text(), "41\n")

    def test_a_text_that_saves_no_clocks_stays(self):
        self.path.write_text("no clocks\n")
        told = ended("get", "127.0.0.1:9", NAME, "--clocks", self.path)
        self.assertEqual(told, (2, f"snmpsec-get: {self.path}: the text saves no clocks\n"))
        with self.assertRaises(snmpsec.BadClocks):
            save_clocks(self.path, snmpsec.NO_CLOCKS)
        self.assertEqual(self.path.read_text(), "no clocks\n")


class AtOnce(Folder, Quiet):
    """Commands at one file, many at a time, of which every third is killed at random."""

    async def asyncSetUp(self):
        await super().asyncSetUp()
        self.room, self.chance, self.seen = asyncio.Semaphore(8), random.Random(5), None

    async def status(self, line, end_after):
        """That of a command, which is killed after so many seconds."""
        async with self.room:
            ran = await asyncio.create_subprocess_exec(*line(), env=WITH_PASSWORDS, stdout=subprocess.DEVNULL)
            if end_after is not None:
                with contextlib.suppress(asyncio.TimeoutError):
                    await asyncio.wait_for(ran.wait(), end_after)
                with contextlib.suppress(ProcessLookupError):
                    ran.kill()
            return await ran.wait()

    async def fifty(self, lines, look, *beside):
        """The statuses of 50 commands, while what is beside goes on and the file is looked at."""
        tasks = [asyncio.create_task(it) for it in (self.watch(look), *beside)]
        ends = [self.chance.uniform(0.2, 1.5) if n % 3 == 0 else None for n in range(50)]
        found = await asyncio.gather(*(self.status(line, end) for line, end in zip(lines, ends)))
        for it in tasks:
            self.assertFalse(it.done(), "a look at the file failed")
            it.cancel()
        await asyncio.gather(*tasks, return_exceptions=True)
        self.assertEqual(set(found), {0, -signal.SIGKILL})
        return found

    async def watch(self, look):
        while True:
            if self.path.exists():
                self.seen = look(self.path.read_bytes())
            await asyncio.sleep(0.002)

    def clocks(self, text):
        """The file reads, and no engine's pair is less than it was."""
        Manager(b"", text).close()
        now = pairs(text)
        for engine, pair in (self.seen or {}).items():
            self.assertGreaterEqual(now.get(engine, ()), pair)
        return now

    def boots(self, text):
        self.assertRegex(text, rb"\A[1-9][0-9]*\n\Z")
        self.assertGreaterEqual(int(text), self.seen or 0)
        return int(text)

    async def restarts(self, devices):
        while True:
            await asyncio.sleep(1)
            it = self.chance.choice(devices)
            it.boots += 1
            it.agent.close()
            it.begin(it.boots)

    async def test_clocks(self):
        async with contextlib.AsyncExitStack() as held:
            made = [Network(engine=bytes.fromhex(ENGINE) + bytes([n])) for n in range(10)]
            devices = [await held.enter_async_context(it) for it in made]
            learned = []
            for it in devices:
                it.boots = 1

            def line(n):
                device = devices[n % 10]
                learned.append((n, device.engine.hex(), device.boots))
                place = f"127.0.0.1:{device.port}"
                return words("get", "-l", "authNoPriv", "--clocks", self.path, "-t", "2", place, NAME)

            lines = [functools.partial(line, n) for n in range(50)]
            found = await self.fifty(lines, self.clocks, self.restarts(devices))
        save_clocks(self.path, snmpsec.NO_CLOCKS)  # (removes what those left that were killed)
        last = self.clocks(self.path.read_bytes())
        for n, engine, boots in learned:
            if found[n] == 0:
                self.assertGreaterEqual(last[engine][0], boots, "what a command learned is lost")
        self.assertEqual(self.names(), ["file", "file.lock"])

    async def test_boots(self):
        self.room = asyncio.Semaphore(3)  # (each has the lock while it hashes its password)
        with socket.socket(socket.AF_INET, socket.SOCK_DGRAM) as at:
            at.bind(("127.0.0.1", 0))
            found = await self.fifty([lambda: self.trap(at)] * 50, self.boots)
            sent = self.boots_of(at)
        self.assertEqual(len(set(sent)), len(sent), "boots came twice")
        self.assertEqual(sent, sorted(sent), "boots went back")
        self.assertGreaterEqual(len(sent), found.count(0))
        self.assertGreaterEqual(self.boots(self.path.read_bytes()), sent[-1])

    async def test_six_traps_are_sent(self):
        with socket.socket(socket.AF_INET, socket.SOCK_DGRAM) as at:
            at.bind(("127.0.0.1", 0))
            found = await asyncio.gather(*(self.status(lambda: self.trap(at), None) for _ in range(6)))
            self.assertEqual(found, [0] * 6)
            self.assertEqual((self.boots_of(at), self.path.read_text()), ([1, 2, 3, 4, 5, 6], "6\n"))

    def trap(self, at):
        own = ["--engine", ENGINE, "--boots", self.path]
        return words("trap", "-l", "authNoPriv", f"127.0.0.1:{at.getsockname()[1]}", NAME, *own)

    def boots_of(self, at):
        """The boots of the traps that have come, which a manager accepts."""
        at.setblocking(False)
        found = []
        with Manager(config()) as manager, contextlib.suppress(BlockingIOError):
            while True:
                self.assertIsNone(manager.take(int(time.time()), at.recv(65535)))
                found.append(manager.clock(bytes.fromhex(ENGINE)).boots)
        return found


if __name__ == "__main__":
    unittest.main()
