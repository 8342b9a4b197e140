#!/usr/bin/env python3
"""Runs tests/secrets.c under valgrind's memcheck, and judges each branch and each address that depends on a secret:
judge_secrets.py PROGRAM

It prints what isn't allowed, and how many functions there were; the status is 1 if anything isn't allowed, or if
memcheck sees nothing at all."""
import collections
import subprocess
import sys
import tempfile
import xml.etree.ElementTree as xml

# Whether a code is right is public: one branch says it.
CODES = ("usm_core::users::Users::open_layout",)
# What was opened is read as any message is.
READERS = ("snmp_ber::", "snmp_message::", "snmp_msg::", "snmp_incoming::")
# By the part of secrets.c: where something may depend on a secret, as names of functions or what they begin with.
ALLOWED = {
    "a_branch_on_a_secret": ("a_branch_on_a_secret",),
    "signed_requests_are_taken": CODES,
    "forged_requests_are_taken": CODES,
    "signed_responses_are_taken": CODES,
    "sealed_requests_are_taken": CODES + READERS,
    "sealed_traps_are_taken": CODES + READERS,
}
OF_C = {"memmove", "memcpy", "bcmp", "memcmp"}  # which a function called


def seen(program):
    """What depends on a secret: for each part of secrets.c the functions in which it does, each with the places."""
    with tempfile.NamedTemporaryFile() as log:
        words = [
            "valgrind",
            "-q",
            "--error-limit=no",
            "--num-callers=4",
            "--xml=yes",
            f"--xml-file={log.name}",
            program,
        ]
        ran = subprocess.run(words, check=False)
        if ran.returncode:
            sys.exit(f"FAILED {program} ends with {ran.returncode}")
        found, part = collections.defaultdict(lambda: collections.defaultdict(set)), ""
        for one in xml.parse(log.name).getroot():
            text = one.findtext("text", "")
            if one.tag == "clientmsg" and text.startswith("begin "):
                part = text.split()[1]
                found[part].update()
            elif one.tag == "error":
                frames = [
                    (frame.findtext("fn", "???"), frame.findtext("ip")) for frame in one.find("stack").iter("frame")
                ]
                name, address = next(frame for frame in [*frames, ("???", "")] if frame[0] not in OF_C)
                found[part][name].add(address)
        return found


def faults(part, names):
    """What of a part isn't allowed. A library without names shows none, and then a code's comparison has a place for
    each of two lengths."""
    allowed = ALLOWED.get(part, ())
    for name, places in names.items():
        is_nameless = name == "???" and allowed and (allowed != CODES or len(places) <= 2)
        if not is_nameless and not any(name.startswith(it) for it in allowed):
            yield f"{part}: {name}, {len(places)} places"


def main():
    found = seen(sys.argv[1])
    wrong = [fault for part, names in found.items() for fault in faults(part, names)]
    wrong += [
        f"{part}: nothing was seen"
        for part in ALLOWED
        if not found[part] and part in ("a_branch_on_a_secret", "signed_requests_are_taken")
    ]
    for fault in wrong:
        print(f"FAILED {fault}")
    print(
        f"{len(found)} parts, {sum(map(len, found.values()))} functions with something that depends on a secret, {len(wrong)} not allowed"
    )
    sys.exit(bool(wrong))


main()
