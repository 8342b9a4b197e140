"""Runs `import-snmpd`: `python3 -m snmpsec.import_snmpd FILE..`, or this folder by its path, with the command among the
words. The package snmpsec, which needs the library, isn't loaded then."""
import importlib
import os
import signal
import sys

if __name__ == "__main__":
    if sys.version_info < (3, 9):
        os.write(2, b"snmpsec: import-snmpd needs python3 3.9 or later\n")
        sys.exit(2)
    signal.signal(signal.SIGINT, signal.SIG_DFL)
    package, words = __package__, ["import-snmpd", *sys.argv[1:]]
    if not package:
        sys.path[0], package = os.path.split(os.path.dirname(os.path.abspath(__file__)))
        words = sys.argv[1:]
    command = importlib.import_module(package + ".command")
    sys.exit(command.run([os.fsencode(word) for word in words]))
