"""docs/rules, the index by rule, as data: the rules, and what their names stand for in the sources.

`tools/check-rules` sees that each name exists, and `tools/site` shows what it stands for.
"""
import difflib
import functools
import pathlib
import re

from wrong_text import Edit, Sources, edits_of, wrong_bodies_of

TOP = pathlib.Path(__file__).resolve().parent.parent
CRATES = TOP / "crates"
FIELDS = {
    "Section": "section", "Definition": "definition", "Promised by": "function",
    "Source": "source", "Test": "test", "Wrong bodies": "wrong",
}
HEAD = re.compile(
    r"(?m)^(?:(?P<impl>(?:pub )?(?:impl|trait|enum|struct)\b.*)"
    r"|(?P<indent> *)(?P<pub>pub )?(?:const |final )?(?:unsafe )?(?:extern .C. )?fn (?P<name>\w+))"
)


def is_of_tests(crate):
    return crate.startswith("tests_") or crate.endswith("_tests")


def sources(crate):
    """The source files of a crate, without its tests."""
    if is_of_tests(crate):
        return []
    found = sorted((CRATES / crate / "src").rglob("*.rt"))
    return [f for f in found if "tests" not in f.relative_to(CRATES / crate / "src").parts and f.name != "tests.rt"]


def functions_of(text):
    """(type or '', name, whether it is public, its text up to the next function, where it begins) of each function in a
    file."""
    found = []
    owner = ""
    for line in HEAD.finditer(text):
        if line["impl"]:
            if line["impl"].startswith(("impl", "pub trait", "trait")):
                head = re.sub(r"<[^<>]*>", "", re.sub(r"<[^<>]*>", "", line["impl"]))
                words = re.findall(r"\w+", head.split(" where ")[0])
                words = [w for w in words if w not in ("pub", "impl", "trait")]
                owner = words[words.index("for") + 1] if "for" in words else words[0]
            continue
        found.append((owner if line["indent"] else "", line["name"], bool(line["pub"]), line.start()))
    ends = [f[3] for f in found[1:]] + [len(text)]
    return [(o, n, p, text[s:e], s) for (o, n, p, s), e in zip(found, ends)]


def exported(crate):
    """The names that a library's root gives out."""
    root = CRATES / crate / "src" / "lib.rt"
    if not root.exists():
        return None
    text = root.read_text()
    names = set(re.findall(r"\w+", " ".join(re.findall(r"(?s)pub use [\w:]+::\{(.*?)\};", text))))
    names |= set(re.findall(r"pub use [\w:]+::(\w+);", text))
    names |= {"mod " + m for m in re.findall(r"(?m)^pub mod (\w+);", text)}
    names |= {"fn " + n for o, n, p, *_ in functions_of(text) if p and not o}
    return names


@functools.cache
def public_functions(crate):
    """(whether it is given out, text, file, number of its first line from 0) of each function, by its name."""
    names = exported(crate)
    found = {}
    for path in sources(crate):
        module, whole = path.stem, path.read_text()
        for owner, name, public, text, start in functions_of(whole):
            full = f"{owner}::{name}" if owner else name
            if names is None:
                given = public
            elif owner:
                given = public and (owner in names)
            else:
                given = public and (name in names or f"mod {module}" in names or module == "lib")
            found.setdefault(full, []).append((given, text, path, whole.count("\n", 0, start)))
    return found


def module_of(crate, word):
    """The file of a definition that a rule of the crate names, and the definition's own name, '' for the whole
    module."""
    owner, _, rest = word.rpartition(":")
    module, _, name = rest.partition(".")
    return CRATES / (owner or crate) / "specs" / (module.replace(".", "/") + ".antt"), name


def start_of_definition(text, name):
    return re.search(rf"(?m)^\s*(?:abbrev |unfoldable |pub |record |data )*{re.escape(name)}\b", text)


def has_definition(crate, word):
    path, name = module_of(crate, word)
    return path.exists() and (not name or start_of_definition(path.read_text(), name) is not None)


def belongs(lines, at, first, name):
    """Whether the line is of the definition that begins at the line `first`: indented more, or one of its equations."""
    indent = len(lines[first]) - len(lines[first].lstrip())
    line = lines[at]
    return line.startswith(" " * (indent + 1)) or re.match(rf" {{{indent}}}{re.escape(name)}(?!\w)", line) is not None


def definition(crate, word):
    """(file, number of the first line from 0, text) of a definition: the comment above it, its type and its
    equations."""
    path, name = module_of(crate, word)
    text = path.read_text()
    if not name:
        return path, 0, text.rstrip()
    found = start_of_definition(text, name)
    lines = text.split("\n")
    first = text.count("\n", 0, found.end()) - found[0].strip().count("\n")
    last = first
    for at in range(first + 1, len(lines)):
        if lines[at] and not belongs(lines, at, first, name):
            break
        last = at if lines[at] else last
    begin = first
    while begin and re.match(r" *--(?! ----)", lines[begin - 1]):
        begin -= 1
    begin = first if begin == 0 else begin  # (the words at the head of a module are of all of it)
    return path, begin, "\n".join(lines[begin : last + 1])


def words_of(path):
    """The comment that a module of definitions begins with, in paragraphs."""
    lines = []
    for line in path.read_text().splitlines():
        if not line.startswith("--"):
            break
        lines.append(line[2:].strip())
    return "\n".join(lines)


@functools.cache
def imported(path):
    """The definitions that the contracts of a source file can name: the crate and the module of each name."""
    found = {}
    for crate, module, names in re.findall(r"ghost use Rattle\.(\w+)\.specs\.([\w.]+)\.\{(.*?)\};", path.read_text()):
        if (CRATES / crate / "specs").is_dir() and ".declared" not in f".{module}":
            found.update({it.strip(): f"{crate}:{module}.{it.strip()}" for it in names.split(",")})
    return found


def named_in(path, contract):
    """The definitions of the project's own that a contract in a source file names, as a rule names them."""
    there = imported(path)
    found = [there[it] for it in re.findall(r"[\w◌]+", contract) if it in there]
    return [it for it in dict.fromkeys(found) if has_definition("", it)]


@functools.cache
def sources_of(crate):
    """The sources of a crate as the wrong bodies read them."""
    folder = CRATES / crate
    return Sources({str(it.relative_to(folder)): it.read_text() for it in (folder / "src").rglob("*.rt")})


class Place:
    """A function in the sources: its file, the number of its first line from 0, its contract's clauses and its text."""

    def __init__(self, crate, text, path, first):
        self.path, self.head = path, first
        lines = path.read_text().split("\n")
        spans = (
            sources_of(crate).functions(str(path.relative_to(CRATES / crate)))
            if path.is_relative_to(CRATES / crate)
            else []
        )
        it = next((it for it in spans if it.first == first), None)
        # (a method of a trait without a body ends at its semicolon)
        body, last = (it.body, it.last) if it else (first, first + text.partition(";")[0].count("\n"))
        self.first = first
        while self.first and re.match(r"\s*(///|#\[)", lines[self.first - 1]):
            self.first -= 1
        self.text = "\n".join(lines[self.first : last + 1])
        self.contract = clauses_of("\n".join(lines[first : body + 1]))
        self.signature = signature_of("\n".join(lines[first : body + 1]))


def end_of_braces(text, at):
    """The place after the brace that closes the one at `at`."""
    depth = 0
    for place in range(at, len(text)):
        depth += {"{": 1, "}": -1}.get(text[place], 0)
        if not depth:
            return place + 1
    return len(text)


def clauses_of(head):
    """(ghost, requires or ensures, its name or '', its text with the comment above it) of each clause in a function's
    head."""
    found, end = [], 0
    for it in re.finditer(r"(?m)^((?: *//.*\n)*)( *)(requires|ensures|ghost)\*?(?: (\w+))?:? \{", head):
        if it.start() >= end:
            end = end_of_braces(head, it.end() - 1)
            found.append((it[3], it[4] or "", head[it.start() : end]))
    return found


def signature_of(head):
    """The head of a function up to its contract."""
    contract = re.search(r"(?m)^(?: *//.*\n)* *(?:requires|ensures|ghost)\b", head)
    return (head[: contract.start()] if contract else head).rstrip("\n {")


def places_of(crate, name):
    """The functions that have this name in a crate."""
    return [Place(crate, text, path, first) for _, text, path, first in public_functions(crate)[name]]


@functools.cache
def test_functions():
    """The file and the number of the line, from 0, of each function in the tests, by its name."""
    found = {}
    for path in sorted(CRATES.glob("*/src/**/*.rt")):
        if "tests" in path.parts or path.name == "tests.rt" or is_of_tests(path.relative_to(CRATES).parts[0]):
            text = path.read_text()
            for it in re.finditer(r"(?m)^[ ]*fn (\w+)", text):
                found[it[1]] = path, text.count("\n", 0, it.start())
    return found


def files_of_rows():
    """The files of rows of data: those that are asked of the library and the program, and the others."""
    return [*sorted((TOP / "lib" / "tests" / "rows").glob("*.rows")), *sorted(CRATES.glob("tests_rows/data/*.rows"))]


def kinds_of_rows(path):
    return set(re.findall(r"(?m)^([a-z]\S*)", path.read_text()))


def test_names():
    found = set(test_functions())
    for path in (TOP / "tests" / "cli").glob("*.t"):
        found.add(path.name)
    for path in files_of_rows():
        # a file of rows, and each kind of row in it
        found |= {path.name} | {f"{path.name} {kind}" for kind in kinds_of_rows(path)}
    return found


def rows_of(path, kind):
    """The groups of rows in a file that have a row of this kind, each with its comment."""
    groups = re.split(r"\n\s*\n", path.read_text())
    return [it.strip("\n") for it in groups if re.search(rf"(?m)^{re.escape(kind)}(\s|$)", it)]


@functools.cache
def edits(crate):
    """The wrong bodies of a crate, by name: pairs of texts with their files. Those of must-fail are among them."""
    found = dict(wrong_bodies_of(CRATES / crate))
    for path in sorted((CRATES / crate / "must-fail").glob("*.edit")):
        first, _, rest = path.read_text().partition("\n")
        found[path.stem] = edits_of(f"{first}\nwrong: {path.stem}\n{rest}")[path.stem]
    return found


def difference(crate, name):
    """The functions that a wrong body is in, and what it changes as a diff."""
    sources_there = sources_of(crate)
    edit = Edit(name, edits(crate)[name], sources_there)
    made = edit.put_into({}, sources_there) or {}
    lines = []
    for path, text in made.items():
        told = [*difflib.unified_diff(sources_there.texts[path].split("\n"), text.split("\n"), n=2, lineterm="")]
        lines += [f"--- {path}"] + [
            it if not it.startswith("@@") else re.sub(r"^@@ -(\d+).*", r"@@ line \1 @@", it) for it in told[2:]
        ]
    return [it.path for it in edit.owners], "\n".join(lines)


def blocks(text):
    """The rules of a page: a heading each, and behind it fields, each a point of a list."""
    for block in re.split(r"(?m)^## ", text)[1:]:
        rule, _, rest = block.partition("\n")
        cells = {name: "" for name in FIELDS.values()}
        for point in re.findall(r"(?m)^- ((?:.+\n?)(?:  .+\n?)*)", rest):
            name, _, said = point.partition(": ")
            cells[FIELDS.get(name, name)] = re.sub(r"\s+", " ", said)
        yield rule, cells


def names_in(cell):
    """The names in back quotes."""
    return re.findall(r"`([^`]+)`", cell)


def promises(cell):
    """(function, names of its clauses) of each function in the field `Promised by`."""
    for part in cell.split(";"):
        words = names_in(part)
        if words:
            yield words[0], words[1:]


class Rule:
    """A rule: its crate, its sentence and the names in its fields."""

    def __init__(self, crate, sentence, cells):
        self.crate, self.sentence, self.section = crate, sentence, cells["section"]
        self.definitions, self.promises = names_in(cells["definition"]), [*promises(cells["function"])]
        self.sources, self.tests, self.wrong = (
            names_in(cells["source"]),
            names_in(cells["test"]),
            names_in(cells["wrong"]),
        )


def pages():
    """The pages of docs/rules, one for each crate."""
    return [it for it in sorted((TOP / "docs" / "rules").glob("*.md")) if it.stem != "README"]


def rules_of(path):
    """The rules of a page."""
    return [Rule(path.stem, sentence, cells) for sentence, cells in blocks(path.read_text())]
