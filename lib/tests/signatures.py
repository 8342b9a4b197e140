#!/usr/bin/env python3
"""Has the C compiler compare what tools/write-calls writes: the header with the Python module and the Rust crate. And
proved.h with the exports of crates/snmp_c: signatures.py [LIBRARY [CC..]]

Each signature becomes a declaration beside the header's, and each field and number an assertion, so the compiler
refuses what differs. Where the shared library is named, its names are compared too, with those of the header and of
debian/libsnmpsec0.symbols. It prints what differs and how many were compared; the status is 1 if any differs. The
Python module wants the library, by SNMPSEC_LIBRARY or installed."""
import ctypes
import enum
import pathlib
import re
import subprocess
import sys

LIB = pathlib.Path(__file__).resolve().parents[1]
sys.path.insert(0, str(LIB / "python/src"))
import snmpsec  # noqa: E402
from snmpsec import _calls, forward, gate, receiver  # noqa: E402

HEADER = (LIB / "include/snmpsec.h").read_text()
DECLARED = set(re.findall(r"\bsnmpsec_(\w+)\(", HEADER))
# what a wrapper builds from other calls, or has of its own
NOT_IN_PYTHON = {"agent_allows", "agent_user_allows", "wipe"}
NOT_IN_RUST = {"agent_allows", "agent_user_allows", "error_name"}

STRUCTS = {
    "Octets": "octets",
    "Info": "info",
    "Counters": "counters",
    "Counts": "counts",
    "Report": "report",
    "Reply": "reply",
    "Answered": "answered",
    "AnsweredRead": "answered",
    "Device": "device",
    "Clock": "clock",
    "ConfigPlace": "config_place",
    "GateInfo": "gate_info",
    "ForwardInfo": "forward_info",
    "ListenerSettings": "listener_settings",
    "Notice": "notice",
    "Request": "request",
    "Sealing": "sealing",
    "Scoped": "scoped",
    "BindingRead": "binding",
}
# structs that a call only reads
READ = {"Octets", "Notice", "Request", "Sealing", "Scoped", "AnsweredRead", "ListenerSettings"}


def snake(name):
    return re.sub(r"(?<=[a-z0-9])(?=[A-Z])", "_", name).upper()


def declared(name, result, arguments):
    return f"{result} snmpsec_{name}({', '.join(arguments) or 'void'});"


def handle_of(name):
    return f"snmpsec_{name.split('_')[0]} *"


def other_of(name):
    """The handle of another kind that a call takes or writes: a message that is kept, or its agent."""
    return "snmpsec_kept *" if name.startswith("agent_") else "snmpsec_agent *"


# ---- Python

PYTHON_TYPES = {
    None: "void",
    ctypes.c_bool: "bool",
    ctypes.c_int: "int",
    ctypes.c_uint: "uint32_t",
    ctypes.c_uint8: "uint8_t",
    ctypes.c_uint64: "uint64_t",
    ctypes.c_size_t: "size_t",
    ctypes.c_char_p: "const uint8_t *",
    ctypes.POINTER(ctypes.c_char): "uint8_t *",
    ctypes.POINTER(ctypes.c_size_t): "size_t *",
    ctypes.POINTER(ctypes.c_uint64): "uint64_t *",
    ctypes.POINTER(ctypes.c_int): "int *",
    ctypes.POINTER(ctypes.c_uint32): "const uint32_t *",
    ctypes.POINTER(_calls.Enumeration): "uint32_t *",
    ctypes.POINTER(_calls.Written): "uint32_t *",
    _calls.Octets: "snmpsec_octets",
}
for _name, _c in STRUCTS.items():
    PYTHON_TYPES[ctypes.POINTER(getattr(_calls, _name))] = f"{'const ' * (_name in READ)}snmpsec_{_c} *"
PYTHON_NAMES = {
    "ALLOWED": "ACCESS_ALLOWED",
    "GET": "GET_REQUEST",
    "GET_NEXT": "GET_NEXT_REQUEST",
    "SET": "SET_REQUEST",
    "GET_BULK": "GET_BULK_REQUEST",
    "INFORM": "INFORM_REQUEST",
    "RESPONSE": "RESPONSE_PDU",
    "REPORT": "REPORT_PDU",
}


def python_signatures():
    for name, (result, arguments) in _calls.SIGNATURES.items():
        of = {**PYTHON_TYPES, ctypes.c_void_p: handle_of(name), ctypes.POINTER(ctypes.c_void_p): handle_of(name) + "*",
              _calls.Other: other_of(name), ctypes.POINTER(_calls.Other): other_of(name) + "*"}
        yield declared(
            name, "const char *" if result is ctypes.c_char_p else of[result], [of[one] for one in arguments]
        )


def python_fields():
    for python, c in STRUCTS.items():
        struct = getattr(_calls, python)
        yield f"sizeof(snmpsec_{c}) == {ctypes.sizeof(struct)}"
        for name, *_ in struct._fields_:
            place = getattr(struct, name)
            yield f"offsetof(snmpsec_{c}, {name}) == {place.offset} && sizeof(((snmpsec_{c} *)0)->{name}) == {place.size}"


PYTHON_PREFIXES = {
    snmpsec.Known: "KNOWN_",
    gate.GateEvent: "GATE_",
    gate._Text: "GATE_",
    gate.Misfit: "MISFIT_",
    gate.Ended: "ENDED_",
    forward.ForwardEvent: "FORWARD_",
    forward.InformMessage: "INFORM_",
    receiver.NotifyEvent: "LISTENER_",
}


def python_numbers():
    for kind in {**vars(gate), **vars(snmpsec)}.values():
        if isinstance(kind, type) and issubclass(kind, enum.IntEnum) and kind is not enum.IntEnum:
            for one in kind:
                prefix = PYTHON_PREFIXES.get(kind, "")
                name = f"{prefix}{one.name}" if prefix else PYTHON_NAMES.get(one.name, one.name)
                yield f"SNMPSEC_{name} == {int(one)}"
    for number, fault in snmpsec._FAULTS.items():
        yield f"SNMPSEC_{snake(fault.__name__)} == {number}"
    yield f"SNMPSEC_SHORT_BUFFER == {snmpsec._SHORT_BUFFER} && SNMPSEC_OUT_OF_MEMORY == {snmpsec._OUT_OF_MEMORY}"
    yield f"SNMPSEC_LARGEST == {snmpsec.LARGEST} && SNMPSEC_LARGEST_KEY == {snmpsec.LARGEST_KEY}"


# ---- Rust

RUST = "".join(path.read_text() for path in sorted((LIB / "rust/src").glob("*.rs")))
RUST_TYPES = {
    "": "void",
    "bool": "bool",
    "i32": "int32_t",
    "u8": "uint8_t",
    "u32": "uint32_t",
    "u64": "uint64_t",
    "usize": "size_t",
    "c_char": "char",
    "c_void": "void",
    **{name: f"snmpsec_{c}" for name, c in STRUCTS.items()},
}


def of_rust(kind, name):
    """A type of Rust in C, in a call of this name."""
    kind = re.sub(r"<[^>]*>", "", kind).strip()
    if kind.startswith("*mut "):
        inner = of_rust(kind[5:], name)
        return inner if kind in ("*mut Opaque", "*mut Other") else f"{inner} *"
    if kind.startswith("*const "):
        return f"const {of_rust(kind[7:], name)} *"
    handles = {"Opaque": handle_of, "Other": other_of}
    return handles[kind](name) if kind in handles else RUST_TYPES[kind]


def rust_signatures():
    for name, arguments, result in re.findall(r"pub fn snmpsec_(\w+)\(([^)]*)\)(?:\s*->\s*([^;]+))?;", RUST):
        yield declared(
            name,
            of_rust(result, name),
            [of_rust(one.split(":")[1], name) for one in arguments.split(",") if one.strip()],
        )


def rust_structs():
    """The structs as C has them, and what is asserted of them."""
    text, facts = "", []
    for name, body in re.findall(
        r"#\[repr\(C\)\](?:\s*#\[[^\]]*\])*\s*pub struct (\w+)(?:<'a>)? \{(.*?)\}", RUST, re.S
    ):
        if name == "Opaque":
            continue
        fields = [
            (field, kind) for field, kind in re.findall(r"(\w+): ([^\n]+),", body) if not kind.startswith("PhantomData")
        ]
        arrays = {field: re.fullmatch(r"\[(\w+); (\d+)\]", kind) for field, kind in fields}
        lines = [
            f"{RUST_TYPES[found[1]]} {field}[{found[2]}];"
            if (found := arrays[field])
            else f"{of_rust(kind, name)} {field};"
            for field, kind in fields
        ]
        text += f"struct rust_{name} {{ {' '.join(lines)} }};\n"
        c = f"snmpsec_{STRUCTS[name]}"
        facts.append(f"sizeof({c}) == sizeof(struct rust_{name})")
        facts += [
            f"offsetof({c}, {field}) == offsetof(struct rust_{name}, {field}) && sizeof((({c} *)0)->{field}) == sizeof(((struct rust_{name} *)0)->{field})"
            for field, _ in fields
        ]
    return text, facts


def rust_numbers():
    """Those of enums and of constants, and of the errors."""
    names = {"ALLOWED": "ACCESS_ALLOWED"}
    found = re.findall(r"^    (\w+) = (0x[0-9A-F]+|\d+),", RUST, re.M)
    found += [(name, number) for number, name in re.findall(r"(-\d+) => Error::(\w+),", RUST)]
    found += re.findall(r"Error::(\w+) => (-\d+),", RUST)
    for name, number in found:
        yield f"SNMPSEC_{names.get(snake(name), snake(name))} == {number}"
    for name, number in re.findall(r"const (\w+): usize = ([\d_]+);", RUST):
        yield f"SNMPSEC_{name} == {number.replace('_', '')}"


# ---- the exports of the archive

EXPORT_TYPES = {
    "*mut u8": ["void *"],
    "&mut *mut u8": ["void **"],
    "&[u8]": ["const uint8_t *", "size_t"],
    "&mut [u8]": ["uint8_t *", "size_t"],
    "&[u32]": ["const uint32_t *", "size_t"],
    "&mut [u32]": ["uint32_t *", "size_t"],
    "&mut [i32]": ["int32_t *", "size_t"],
    "&mut [i64]": ["int64_t *", "size_t"],
    "&mut [u64]": ["uint64_t *", "size_t"],
    "&mut [usize]": ["size_t *", "size_t"],
    "&mut usize": ["size_t *"],
    "&mut u32": ["uint32_t *"],
    "&mut u64": ["uint64_t *"],
    "u32": ["uint32_t"],
    "i32": ["int32_t"],
    "u64": ["uint64_t"],
    "usize": ["size_t"],
    "Global": [],
}
# the structs of the archive, as proved.h names them
ARCHIVE_STRUCT = re.compile(
    r"^#\[repr\(C\)\]\n(?:#[^\n]*\n)*pub struct (\w+)(?:<'a>)? \{\n(.*?)^\}", re.MULTILINE | re.DOTALL
)
FIELD_TYPES = {
    "&'a [u8]": "proved_octets",
    "&'a [u32]": "proved_arcs",
    "&'a [NotifyingSource<'a>]": "proved_notifying_sources",
    "bool": "bool",
}


def c_name(struct):
    return f"proved_{snake(struct).lower()}"


def archive_text(crates):
    return "".join(path.read_text() for path in sorted((LIB / "../crates").glob(f"{crates}/src/*.rt")))


def archive_structs():
    """A declaration of each struct of the archive under a name of its own, and that its fields lie as in proved.h."""
    texts, facts = [], []
    for name, body in ARCHIVE_STRUCT.findall(archive_text("*")):
        c = c_name(name)
        EXPORT_TYPES[f"&{name}"] = EXPORT_TYPES[f"&{name}<'_>"] = [f"const {c} *"]
        EXPORT_TYPES[f"&mut {name}"] = [f"{c} *"]
        fields = re.findall(r"^    pub (\w+): (.*),$", body, re.M)
        own = "".join(f" {(FIELD_TYPES.get(kind) or ''.join(EXPORT_TYPES.get(kind, [])) or c_name(kind))} {field};" for field, kind in fields)
        texts.append(f"typedef struct {{{own} }} archive_{c};")
        facts.append(f"sizeof({c}) == sizeof(archive_{c})")
        facts += [
            f"offsetof({c}, {field}) == offsetof(archive_{c}, {field})"
            f" && sizeof((({c} *)0)->{field}) == sizeof(((archive_{c} *)0)->{field})"
            for field, _ in fields
        ]
    return "\n".join(texts) + "\n", facts


def exports():
    for name, arguments, result in re.findall(
        r'pub (?:unsafe )?extern "C" fn proved_(\w+)\(([^)]*)\)\s*->\s*(\w+)', archive_text("snmp_c")
    ):
        kinds = [
            kind for one in arguments.split(",") if one.strip() for kind in EXPORT_TYPES[one.split(":")[1].strip()]
        ]
        yield name, f"{RUST_TYPES.get(result, 'int64_t')} proved_{name}({', '.join(kinds)});"


# ---- compared

def names_differ(what, found, expected):
    """How many names are in one alone, which are printed."""
    for name in sorted(found ^ expected):
        print(f"{what}: {name} is {'missing' if name in expected else 'no such call'}")
    return len(found ^ expected)


def named(declarations):
    return {re.search(r"\bsnmpsec_(\w+)\(", one)[1] for one in declarations}


def library_differs(library):
    """The names that the shared library shows, and those of the package's list."""
    told = subprocess.run(["nm", "-D", "--defined-only", library], capture_output=True, text=True, check=True).stdout
    shown = {word.split("@")[0] for word in re.findall(r" [A-Z] (\S+)", told)} - {"SNMPSEC_0"}
    listed = set(re.findall(r"^ (\w+)@SNMPSEC_0 ", (LIB / "debian/libsnmpsec0.symbols").read_text(), re.M)) - {
        "SNMPSEC_0"
    }
    wanted = {f"snmpsec_{name}" for name in DECLARED}
    return names_differ("the library", shown, wanted) + names_differ("debian/libsnmpsec0.symbols", listed, wanted)


def main():
    library, compiler = sys.argv[1:2], sys.argv[2:] or ["cc"]
    python, rust = list(python_signatures()), list(rust_signatures())
    structs, fields = rust_structs()
    archived, places = archive_structs()
    facts = [*python_fields(), *python_numbers(), *fields, *rust_numbers(), *places]
    of_archive = dict(exports())
    text = "#include <stddef.h>\n#include <snmpsec.h>\n#include <proved.h>\n" + structs + archived
    text += (
        "\n".join([*python, *rust, *of_archive.values(), *(f'_Static_assert({fact}, "{fact}");' for fact in facts)])
        + "\n"
    )
    words = [
        *compiler,
        "-std=c11",
        "-Wall",
        "-Werror",
        "-fsyntax-only",
        f"-I{LIB}/include",
        f"-I{LIB}/src",
        "-x",
        "c",
        "-",
    ]
    judged = subprocess.run(words, input=text, text=True, capture_output=True)
    print(judged.stderr, end="")
    differ = max(judged.stderr.count(" error: "), int(judged.returncode != 0))
    differ += names_differ("Python", named(python), DECLARED - NOT_IN_PYTHON) + names_differ(
        "Rust", named(rust), DECLARED - NOT_IN_RUST
    )
    proved = set(re.findall(r"\bproved_(\w+)\(", (LIB / "src/proved.h").read_text()))
    differ += names_differ("proved.h", proved, set(of_archive))
    if library:
        differ += library_differs(library[0])
    print(
        f"{len(python)} signatures of Python, {len(rust)} of Rust, {len(of_archive)} of the archive and {len(facts)} fields and numbers compared, {differ} differ"
    )
    sys.exit(differ > 0)


main()
