#!/usr/bin/env python3
"""The system calls of a log of strace that a unit's SystemCallFilter doesn't allow: filtered_calls.py UNIT LOG

It asks systemd-analyze which calls a set has. It prints those that are missing, and the status is 1 if any is."""
import pathlib
import re
import subprocess
import sys


def sets():
    """The calls, and the other sets, of each set."""
    text = subprocess.run(
        ["systemd-analyze", "syscall-filter", "--no-pager"], check=True, capture_output=True, text=True
    ).stdout
    found, name = {}, None
    for line in text.splitlines():
        word = line.strip()
        if line.startswith("@"):
            name = word
            found[name] = set()
        elif line.startswith(" ") and name and word and not word.startswith("#"):
            found[name].add(word)
    return found


def calls_of(name, known):
    if not name.startswith("@"):
        return {name}
    return {call for it in known.get(name, ()) for call in calls_of(it, known)}


def allowed(unit):
    known = sets()
    calls = calls_of("@default", known)
    for words in re.findall(r"^SystemCallFilter=(.*)$", unit, re.M):
        named = {call for word in words.lstrip("~").split() for call in calls_of(word, known)}
        calls = calls - named if words.startswith("~") else calls | named
    return calls


def main():
    unit, log = (pathlib.Path(word).read_text(errors="replace") for word in sys.argv[1:])
    made = set(re.findall(r"^(?:\d+ +)?([a-z0-9_]+)\(", log, re.M))
    missing = sorted(made - allowed(unit))
    print("\n".join(missing) if missing else f"{len(made)} kinds of calls, each allowed")
    sys.exit(bool(missing))


main()
