"""The kit's command rt as a module, for the tools that prove many crates, or many wrong bodies, side by side."""
import collections
import contextlib
import hashlib
import importlib.machinery
import importlib.util
import os
import shutil
import subprocess
import sys
import tempfile

sys.dont_write_bytecode = True

PROOF = 4_500_000_000  # octets of memory that a proof takes, at most
MARK = "unproved_build"  # the symbol that each executable has which tools/unproved makes


# What the tools use of rt's own code, which the kit promises nobody. tools/check-kit sees that all of it is there.
OF_COMMAND = ("Crate", "free", "handles_of", "in_lanes", "main", "need", "processors", "read_files", "run")
OF_LIBRARY = (
    "Crate",
    "KIT",
    "PARTS",
    "RATTLE",
    "crates_below",
    "files_of",
    "guarded",
    "kit_sources",
    "lock",
    "text_of",
)
OF_CRATE = (
    "allowed",
    "below",
    "build_rlib",
    "build_static",
    "call",
    "check",
    "ci",
    "compile",
    "count",
    "folder",
    "has_tests",
    "is_built",
    "is_program",
    "is_static",
    "link",
    "makes_rlib",
    "name",
    "of_kit",
    "prove",
    "rlib",
    "sources_below",
    "stamp",
    "words",
)


class Kit:
    """rt's own code, for the tools: it reads crates.txt, knows the words of a check, and what may run side by side. It
    counts on the memory that proofs take: its own figure is up to three times as much, and leaves processors
    idle."""

    def __init__(self):
        path = os.path.realpath(
            shutil.which("rt") or sys.exit("there is no command rt: the Rattle kit isn't on the path")
        )
        sys.path.insert(0, os.path.dirname(path))
        loader = importlib.machinery.SourceFileLoader("rt_main", path)
        self.rt = importlib.util.module_from_spec(importlib.util.spec_from_loader("rt_main", loader))
        loader.exec_module(self.rt)
        expected = self.rt.need
        self.rt.need = lambda crate: min(PROOF, expected(crate))
        inside = self.rt.rtlib
        self.folder, self.rattle, self.parts = inside.KIT, inside.RATTLE, inside.PARTS
        self.text_of, self.files_of, self.guarded, self.kit_sources = (
            inside.text_of,
            inside.files_of,
            inside.guarded,
            inside.kit_sources,
        )
        self.free, self.processors, self.in_lanes, self.lock = (
            self.rt.free,
            self.rt.processors,
            self.rt.in_lanes,
            inside.lock,
        )

    def over_crates(self, cuts_libraries=False):
        """For a tool that works on crates: they are as rt ci has them. If it cuts libraries, they are built as their
        statements alone."""
        rt = self.rt
        rt.rtlib.Crate = rt.Crate
        # (the links that they make are held to the handles that are allowed)
        rt.Crate.allowed = rt.handles_of(os.getcwd())
        made = rt.Crate.__init__

        def make(crate, *words, **named):
            made(crate, *words, **named)
            rt.read_files(crate)

        rt.Crate.__init__ = make
        if cuts_libraries:
            rt.Crate.cuts_libraries = True
        # (its first call sets a signal's handler, which only the main thread may)
        self.guarded()
        return self

    def need(self, crate):
        """The octets of memory that a proof of the crate takes, at most."""
        return self.rt.need(crate)

    def run_tests(self, crate):
        """Runs the tests of a crate that are built. Returns whether they pass."""
        return self.rt.run(crate, True)

    def gate(self, words):
        """Runs the kit's gate with these words; its status. It keeps a static library as it was checked, of which rt
        ci itself keeps nothing."""
        proves = self.rt.Crate.ci

        def ci(crate, flags, tests):
            return check_static(self, crate, flags) if crate.is_static and not tests else proves(crate, flags, tests)

        self.rt.Crate.ci = ci
        return self.rt.main(["ci", *words])

    def crates(self, names):
        """The crates of these names, or all of the repository."""
        crates = self.rt.rtlib.crates_below(os.getcwd())
        lost = sorted({*names} - {it.name for it in crates})
        if lost:
            sys.exit(f"crates.txt names no crate {lost[0]}")
        return [it for it in crates if not names or it.name in names]


def sums_of(kit, crate):
    """The sums of all that an executable of the crate is made of, in the form of sha256sum, by paths from the top: the
    kit, and the crate's sources and those below it. Proofs and wrong bodies change nothing in what is made."""
    files = [f"{kit.folder}/KIT-ID"]
    for it in [crate, *crate.below()]:
        parts = (f"{it.folder}/{part}/" for part in ("src", "specs"))
        files += sorted(file for part in parts for file in kit.files_of(it.folder) if file.startswith(part))
    return "".join(
        f"{sum_of(file)}  {os.path.relpath(file) if file.startswith(os.getcwd()) else file}\n" for file in files
    )


def sum_of(file):
    with open(file, "rb") as it:
        return hashlib.sha256(it.read()).hexdigest()


def are_these(program):
    """Whether the executable is there, and its sums are those of the sources as they are now."""
    if not os.path.isfile(program) or not os.path.exists(f"{program}.sums"):
        return False
    with open(f"{program}.sums", encoding="utf-8") as it:
        lines = [line.rstrip("\n").split("  ", 1) for line in it]
    return all(os.path.isfile(file) and sum_of(file) == sum for sum, file in lines)


KEEPER = """#!/bin/sh
[ ! -e module.bc ] || cp module.bc '{to}'
exec '{clang}' "$@"
"""

def toolchain_with(kit, made, script):
    """Makes the kit's toolchain again in the folder, with this script instead of clang; in it {clang} is the kit's."""
    real = f"{kit.folder}/toolchain"
    os.makedirs(f"{made}/bin")
    os.symlink(f"{real}/lib", f"{made}/lib")
    for it in os.listdir(f"{real}/bin"):
        if it != "clang":
            os.symlink(f"{real}/bin/{it}", f"{made}/bin/{it}")
    with open(f"{made}/bin/clang", "w", encoding="utf-8") as it:
        it.write(script.replace("{clang}", f"{real}/bin/clang"))
    os.chmod(f"{made}/bin/clang", 0o755)


@contextlib.contextmanager
def module_kept(kit, crate, to):
    """While it lasts, the crate is compiled by a clang that first copies the module that it is given to the file."""
    real, call = f"{kit.folder}/toolchain", crate.call
    with tempfile.TemporaryDirectory(prefix="toolchain-") as room:
        made = f"{room}/toolchain"
        toolchain_with(kit, made, KEEPER.replace("{to}", os.path.abspath(to)))
        crate.call = lambda *words: call(*(made if it == real else it for it in words))
        try:
            yield
        finally:
            del crate.call


class Timed(subprocess.Popen):
    """A process whose seconds of the processor are added to those of the folder that it runs in, once it has ended."""

    spent = collections.Counter()

    def __init__(self, *words, **named):
        self.folder = named.get("cwd")
        super().__init__(*words, **named)

    def _try_wait(self, wait_flags):
        try:
            pid, status, used = os.wait4(self.pid, wait_flags)
        except ChildProcessError:
            return self.pid, 0
        if pid:
            Timed.spent[self.folder] += used.ru_utime + used.ru_stime
        return pid, status


def built_from(kit, crate):
    """What the library is built from, as it stands now: the sources, and the libraries below it."""
    sums = []
    for dep in crate.below():
        lines = (kit.text_of(f"{dep.rlib}/format") or "").split("\n")
        sums += [f"{dep.name} {line}" for line in lines if line.startswith("sum ")] or [f"{dep.name} isn't there"]
    return "\n".join([crate.stamp(), *sums])


def write(file, text):
    with open(file, "w", encoding="utf-8") as it:
        it.write(text)


def note_built(crate, built):
    """Notes beside the library from what it was built."""
    write(f"{crate.folder}/out/rlib/sources", built)


def checked_of(crate):
    """Where a static library is kept as it was checked."""
    return f"{crate.folder}/out/checked"


def check_static(kit, crate, flags):
    """Proves a static library as rt ci does, and keeps it as it was checked; the status of the command."""
    checked = checked_of(crate)
    os.makedirs(os.path.dirname(checked), exist_ok=True)
    status = crate.prove(["check", *crate.words(flags, keeps=False), "-o", checked])
    if not status:
        write(f"{checked}.sources", built_from(kit, crate))
    return status


def build_static(kit, crate, flags):
    """Compiles a static library as rt ci has checked it. If rt ci hasn't, or something changed since, it is proved
    first. Returns the status of the command."""
    checked = checked_of(crate)
    if kit.text_of(f"{checked}.sources") != built_from(kit, crate):
        return crate.build_static(flags)
    words = crate.words(flags, keeps=False)
    for flag in {"--logic-built", "--jobs"} & {*words}:
        at = words.index(flag)
        words = [*words[:at], *words[at + 2 :]]
    words += ["--crate-checked", checked, "--toolchain", f"{kit.folder}/toolchain", "--backend", "llvm"]
    return crate.call(kit.rattle, "build", *words, "-o", f"out/lib{crate.name}.a")


def is_noted(kit, crate):
    """Whether the library is there, and is noted to be built from what stands now."""
    return os.path.exists(f"{crate.rlib}/format") and kit.text_of(f"{crate.folder}/out/rlib/sources") == built_from(
        kit, crate
    )


def is_there(kit, crate):
    """Whether the library is built: by what rt or these tools note of it, or as rt ci leaves it, which is newer than
    each source of it or below it."""
    files = [file for it in [crate, *crate.below()] for file in kit.files_of(it.folder)]
    made = f"{crate.rlib}/format"
    return (
        crate.is_built()
        or is_noted(kit, crate)
        or os.path.exists(made)
        and os.path.getmtime(made) > max(map(os.path.getmtime, files))
    )


def build_library(kit, crate, flags):
    """Proves a library and builds it over the libraries below it as they lie there; the status of the command. It is
    built as its statements alone, but over one that keeps its work that can't be."""
    built = built_from(kit, crate)
    keeps = any(os.path.isdir(f"{it.folder}/out/incremental") for it in [crate, *crate.below()])
    status = crate.build_rlib(flags, anew=not keeps)
    if not status:
        note_built(crate, built)
    return status
