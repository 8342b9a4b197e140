"""What tools/unproved makes of a static library: a program that calls each of its exports, whose module then shows
these exports and no `main`."""
import os
import re
import shutil

PREFIX = "proved_"  # of the name of each export
EXPORT = re.compile(
    r'^#\[unsafe\(no_mangle\)\]\npub (?:unsafe )?extern "C" fn (' + PREFIX + r"\w+)\((.*?)\)(?: -> \w+)?\n",
    re.MULTILINE | re.DOTALL,
)
STRUCT = re.compile(
    r"^#\[repr\(C\)\]\n(?:#[^\n]*\n)*pub struct (\w+)(?:<'a>)? \{\n(.*?)^\}", re.MULTILINE | re.DOTALL
)
FIELD = re.compile(r"^    pub (\w+): (.*),$", re.MULTILINE)
SLICE, PLACE, NUMBER = (
    re.compile(r"&(mut )?\[(\w+)\]"),
    re.compile(r"&mut (\*mut u8|\w+)"),
    re.compile(r"[iu](?:32|64)|usize"),
)
BY_REFERENCE = re.compile(r"&(mut )?(\w+)(?:<'_>)?")
GIVEN = {"Global": "alloc", "*mut u8": "at"}
HEAD = """
use std::alloc::Global;
use std::env;
use std::ptr;
"""
# Which export is called isn't known before the program runs, so none is left out.
MAIN = """
fn main(rt: HostRuntime) {{
    let alloc = rt.alloc();
    let at = ptr::null_mut::<u8>();
    let Ok(words) = env::args(&rt) else {{ return; }};
    let words: Result<Vec<String>, _> = words.collect(alloc);
    let Ok(words) = words else {{ return; }};
    let n = words.len();
    let mut sum = 0i64;
{calls}
    if sum != 0 {{ let _ = println!(rt; "{{sum}}"); }}
}}
"""


def nothing(kind, structs):
    """A value of this type of a field: zeros, and slices without elements."""
    if kind in structs:
        path, fields = structs[kind]
        values = ", ".join(f"{name}: {nothing(its, structs)}" for name, its in fields)
        return f"{path}::{kind} {{ {values} }}"
    if kind.startswith("&"):
        return "&[]"
    return "false" if kind == "bool" else f"0{kind}"


def argument(place, kind, structs):
    """The line before a call that makes this argument, and how the call names it."""
    own = f"a{place}"
    found = BY_REFERENCE.fullmatch(kind)
    if found and found[2] in structs:
        return f"let {found[1] or ''}{own} = {nothing(found[2], structs)}; ", f"&{found[1] or ''}{own}"
    if kind in GIVEN:
        return "", GIVEN[kind]
    if NUMBER.fullmatch(kind):
        return "", f"n as {kind}"
    if found := SLICE.fullmatch(kind):
        return f"let {found[1] or ''}{own} = [0{found[2]}; 1]; ", f"&{found[1] or ''}{own}"
    found = PLACE.fullmatch(kind)
    return f"let mut {own} = {'at' if found[1] == '*mut u8' else f'0{found[1]}'}; ", f"&mut {own}"


def texts_of(folder):
    """Each module of the crate in the folder, and its text."""
    for file in sorted(it for it in os.listdir(f"{folder}/src") if it.endswith(".rt")):
        with open(f"{folder}/src/{file}", encoding="utf-8") as it:
            yield file.removesuffix(".rt"), it.read()


def structs_of(folder):
    """The structs that C sees, of this crate and of those beside it: the path of each, and its fields with their
    types."""
    beside, own = os.path.split(os.path.abspath(folder))
    crates = [it for it in sorted(os.listdir(beside)) if os.path.isdir(f"{beside}/{it}/src")]
    found = (
        (f"crate::{module}" if crate == own else crate, it)
        for crate in crates
        for module, text in texts_of(f"{beside}/{crate}")
        for it in STRUCT.finditer(text)
    )
    return {it[1]: (path, FIELD.findall(it[2])) for path, it in found}


def exports_of(folder):
    """Each export of the crate in the folder: its module, its name, and the types of its parameters."""
    for module, text in texts_of(folder):
        for found in EXPORT.finditer(text):
            kinds = [" ".join(part.split(":", 1)[1].split()) for part in found[2].split(",") if part.strip()]
            yield module, found[1], kinds


def caller(module, name, kinds, structs):
    """A function that calls the export."""
    made = [argument(place, kind, structs) for place, kind in enumerate(kinds)]
    before, words = "".join(it for it, _ in made), ", ".join(it for _, it in made)
    head = f"fn call_{name}(alloc: Global, at: *mut u8, n: usize) -> i64"
    return f"{head} {{ {before}(unsafe {{ crate::{module}::{name}({words}) }}) as i64 }}\n"


def write_program(folder, to):
    """Writes a copy of the crate in which a `main` calls each export. Returns the path of its root."""
    for part in ("src", "specs"):
        shutil.copytree(f"{folder}/{part}", f"{to}/{part}")
    root = f"{to}/src/main.rt"
    os.rename(f"{to}/src/lib.rt", root)
    exports, structs = list(exports_of(folder)), structs_of(folder)
    calls = "\n".join(
        f"    if n == {place} {{ sum = sum.wrapping_add(call_{name}(alloc, at, n)); }}"
        for place, (_, name, _) in enumerate(exports)
    )
    with open(root, "a", encoding="utf-8") as it:
        it.write(HEAD + "".join(caller(*export, structs) for export in exports) + MAIN.format(calls=calls))
    return root


def show_exports(text, crate, mark):
    """The module's text, in LLVM's language, in which a linker sees the crate's exports and the mark, and no `main`.
    The mark's value is its name too, which stays in a library whose symbols are stripped."""
    own = rf'@"{crate}::\w+::({PREFIX}\w+)"'
    text = re.sub(rf"^define internal ([^@\n]*{own}\()", r"define \1", text, flags=re.MULTILINE)
    text = re.sub(r"^define (\w+) @main\(", r"define internal \1 @main(", text, flags=re.MULTILINE)
    return re.sub(own, r"@\1", text) + f'\n@{mark} = constant [{len(mark)} x i8] c"{mark}"\n'
