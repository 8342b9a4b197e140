"""Names of objects by a MIB, where net-snmp's `snmptranslate` or pysnmp is installed. Not proved."""
from __future__ import annotations

import importlib
import shutil
import subprocess
from typing import Optional

from .values import ObjectId

__all__ = ["name_of"]


def name_of(word: str) -> ObjectId:
    """The name of a word: numbers with dots, or a name of a MIB, as sysName.0 or SNMPv2-MIB::sysName.0. net-snmp's `snmptranslate` looks it up in its
    MIBs, and then pysnmp in those that it has compiled. ValueError: it is no name.

    >>> name_of(".1.3.6.1.2.1.1.5.0")
    ObjectId('1.3.6.1.2.1.1.5.0')
    """
    if word.removeprefix(".").replace(".", "").isdecimal():
        return ObjectId(word)
    program, modules = shutil.which("snmptranslate"), _modules_of_pysnmp()
    found = (_by_snmptranslate(program, word) if program else None) or (_by_pysnmp(modules, word) if modules else None)
    if found is not None:
        return found
    if program or modules:
        asked = " and ".join([*["snmptranslate"] * bool(program), *["pysnmp"] * bool(modules)])
        raise ValueError(f"{word}: {asked} knows no object of this name; MIBs may be missing (apt-get install snmp-mibs-downloader)")
    raise ValueError(f"{word} isn't numbers with dots, and without net-snmp's snmptranslate or pysnmp no other name is known (apt-get install snmp)")


def _by_snmptranslate(program: str, word: str) -> Optional[ObjectId]:
    looked_up = subprocess.run([program, "-On", "-IR", "--", word], stdout=subprocess.PIPE, stderr=subprocess.DEVNULL, text=True, check=False)
    return None if looked_up.returncode else ObjectId(looked_up.stdout.strip())


def _modules_of_pysnmp() -> Optional[tuple[object, object]]:
    """What reads pysnmp's compiled MIBs, or None."""
    try:
        return importlib.import_module("pysnmp.smi.builder"), importlib.import_module("pysnmp.smi.view")
    except ImportError:
        return None


def _by_pysnmp(modules: tuple[object, object], word: str) -> Optional[ObjectId]:
    builder, view = modules
    module, _, name = word.rpartition("::")
    label, *arcs = name.split(".")
    try:
        made = builder.MibBuilder()  # type: ignore[attr-defined]
        made.loadModules(*([module] if module else ["SNMPv2-MIB", "IF-MIB"]))
        oid, _, _ = view.MibViewController(made).getNodeNameByDesc(label, module)  # type: ignore[attr-defined]
        return ObjectId((*oid, *map(int, arcs)))
    except Exception:  # pysnmp's own errors, and those of a module that it can't load
        return None
