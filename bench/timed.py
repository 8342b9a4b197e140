"""The program that these scripts time: times.c over the proved archive, which does a subject's work again and again.
"""
import atexit
import os
import re
import resource
import shutil
import subprocess
import sys
import tempfile

TOP = os.path.dirname(os.path.dirname(os.path.abspath(__file__)))
ARCHIVE = f"{TOP}/crates/snmp_c/out/libsnmp_c.a"


def library_sources():
    """The C of the library, as lib/CMakeLists.txt lists it."""
    with open(f"{TOP}/lib/CMakeLists.txt", encoding="utf-8") as listed:
        return [
            f"{TOP}/lib/{it}"
            for it in re.search(r"^set\(library_sources (.*)\)$", listed.read(), re.MULTILINE)[1].split()
        ]


def build(*run):
    """Proves and builds the archive where it is out of date, compiles the program over it, tries this run of it, and
    answers its path."""
    ran = subprocess.run(
        [f"{TOP}/tools/build", "snmp_c"], cwd=TOP, stdin=subprocess.DEVNULL, capture_output=True, text=True
    )
    if ran.returncode:
        sys.exit(f"{sys.argv[0]}: the archive is not built\n{ran.stdout}{ran.stderr}")
    room = tempfile.mkdtemp(prefix="times-")
    atexit.register(shutil.rmtree, room)
    program = f"{room}/times"
    flags = ["-std=gnu11", "-O2", f"-I{TOP}/lib/include", "-o", program]
    subprocess.run(
        [os.environ.get("CC", "cc"), *flags, f"{TOP}/bench/times.c", *library_sources(), ARCHIVE], check=True
    )
    line_of(program, *run)
    return program


def line_of(program, *run):
    """The line that a run prints."""
    words = [program, *map(str, run)]
    ran = subprocess.run(words, stdin=subprocess.DEVNULL, capture_output=True, text=True)
    if ran.returncode != 0:
        sys.exit(f"{sys.argv[0]}: {' '.join(words)}: status {ran.returncode}\n{ran.stderr}")
    return ran.stdout.strip()


def spent(program, *run):
    """The seconds of the processor that a run takes, and the line that it prints."""
    before = resource.getrusage(resource.RUSAGE_CHILDREN).ru_utime
    line = line_of(program, *run)
    return resource.getrusage(resource.RUSAGE_CHILDREN).ru_utime - before, line
