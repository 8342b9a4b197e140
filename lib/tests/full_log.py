#!/usr/bin/env python3
"""Runs a program whose standard error nobody reads: full_log.py FILE PROGRAM..

It is a pipe of 4,096 octets, which is full at the start. Once FILE is there, what the program wrote is printed."""
import contextlib
import fcntl
import os
import pathlib
import subprocess
import sys
import time

read_end, write_end = os.pipe()
fcntl.fcntl(write_end, fcntl.F_SETPIPE_SZ, 4096)
os.set_blocking(write_end, False)
with contextlib.suppress(BlockingIOError):
    while True:
        os.write(write_end, b"full\n" * 100)
with contextlib.suppress(BlockingIOError):
    while True:
        os.write(write_end, b"\n")
os.set_blocking(write_end, True)
with subprocess.Popen(sys.argv[2:], stderr=write_end):
    os.close(write_end)
    while not pathlib.Path(sys.argv[1]).exists():
        time.sleep(0.05)
    while text := os.read(read_end, 4096):
        sys.stdout.buffer.write(text)
        sys.stdout.flush()
