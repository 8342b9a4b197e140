"""The library, and the calls of _calls.py on it. Not proved."""
import ctypes
import os
import pathlib

from ._calls import SIGNATURES

SONAME = "libsnmpsec.so.0"


def _found() -> str:
    """SNMPSEC_LIBRARY, else the one in the wheel, else the system's."""
    beside = pathlib.Path(__file__).with_name(SONAME)
    return os.environ.get("SNMPSEC_LIBRARY") or (str(beside) if beside.exists() else SONAME)


# CDLL gives the interpreter's lock back while a call runs, so threads with handles of their own run side by side.
_loaded = ctypes.CDLL(_found())
CALLS = {}
for _name, (_result, _arguments) in SIGNATURES.items():
    CALLS[_name] = getattr(_loaded, f"snmpsec_{_name}")
    CALLS[_name].restype, CALLS[_name].argtypes = _result, _arguments
