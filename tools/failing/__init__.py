"""Programs of which one call fails. It needs a C compiler (`cc`) and glibc."""

import os
import pathlib
import subprocess


class Failing:
    """Runs programs with the library of calls.c, which is built in the folder `room`."""

    def __init__(self, room):
        self.room = pathlib.Path(room)
        self.library = self.room / "calls.so"
        source = pathlib.Path(__file__).with_name("calls.c")
        subprocess.run(["cc", "-shared", "-fPIC", "-O2", "-o", self.library, source], check=True)

    def run(self, words, seconds=60, **numbers):
        """What the program did, where the call that is named has failed, as growth=3 names the third growth of
        memory."""
        named = {name.upper(): str(number) for name, number in numbers.items()}
        environment = {**os.environ, "LD_PRELOAD": str(self.library), **named}
        return subprocess.run(words, env=environment, capture_output=True, timeout=seconds)

    def counted(self, words, name):
        """What the program did with no call failing, and its numbers of growths and of transfers."""
        counts = self.room / f"{name}.counts"
        counts.unlink(missing_ok=True)
        done = self.run(words, counts=counts)
        numbers = counts.read_text().split() if counts.exists() else ["0", "0"]
        return done, *map(int, numbers)
