#!/usr/bin/env python3
"""An agent and a manager of a file, from Python, that stop for a look at the memory (look.py): hold.py CONFIG
ENGINE-HEX. Not proved."""
import os
import sys

import snmpsec


def look(word):
    os.write(1, word + b"\n")
    os.read(0, 8)


config, engine = sys.argv[1], bytes.fromhex(sys.argv[2])
look(b"began")
with snmpsec.Agent.from_file(config, engine, 1, 0), snmpsec.Manager.from_file(config):
    look(b"made")
look(b"closed")
