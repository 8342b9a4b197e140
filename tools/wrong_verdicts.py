"""What the verdict on a wrong body rests on, as a sum, and the verdicts that are kept in crates/*/wrong/verdicts.

That the prover refuses a wrong body says that it doesn't find this body to meet this contract. So the verdict rests
on the function with its contract, as the edit leaves it, on the contracts of what it calls, on the definitions that
these cite, and on the kit. It rests on no lemma and no answer: they can't make a false goal true. Nor does it rest
on the bodies of other functions, or on comments.

The sum is over the texts that the function reaches by names: the heads of the functions that it names, and types,
constants, traits and definitions, with what each of these names. A name counts as the imports of its file resolve
it, else in its own crate, and a definition's in its own file. The head of a method is reached if the function names
it, and its type is named anywhere; that of a trait if its type is."""
import collections
import functools
import hashlib
import os
import re

from wrong_text import Sources, parts_of_block

TOKEN = re.compile(r"[A-Za-z_][\w'\-]*|[^\s\w(){}\[\],;:.\"'#◌]+")
IMPORT = re.compile(r"(?m)^ *(?:pub(?:\([a-z]+\))? )?(?:ghost )?use ([^;{\n]*(?:\{[^;]*?\}(?=;?$))?);?$\n?")
INLINE = re.compile(r"\b([a-z]\w*)((?:::\w+)+)")
NOTHING_SAID = re.compile(
    r"(?m)^ *//.*\n|^ *--.*\n|^\s*\n|\bpub(?:\([a-z ]+\))? "
)  # comments, empty lines, and who may name an item
ITEM = re.compile(r"(?m)^(?:unsafe )?(struct|enum|trait|const|static|type|impl)\b(?: (\w+))?")
ITEMS = re.compile(r"(?m)\n(?=(?:#\[|(?:struct|enum|trait|const|static|type|impl|unsafe|mod)\b))")
DEFINITIONS = re.compile(r"\n\s*\n(?=\S)")
DEFINED = re.compile(r"(?m)^ *(?:(?:abbrev|unfoldable|unfolding|record|data|module|private) )*([^\s:(){}]+)")
PRINTING = {
    "fmt",
    "to_string",
    "format",
    "write",
    "writeln",
    "print",
    "println",
    "Display",
    "Debug",
}  # what calls a Display or a Debug


def parts_of(text):
    """The parts of a text between its outermost commas."""
    depth, part = 0, ""
    for it in text:
        depth += (it == "{") - (it == "}")
        if it == "," and not depth:
            yield part
            part = ""
        else:
            part += it
    if part.strip():
        yield part


def paths_of(text, before=""):
    """What a text after `use` imports: for each its name in the file, and its path."""
    for part in parts_of(text):
        head, brace, inside = " ".join(part.split()).partition("{")
        if brace:
            yield from paths_of(inside.rpartition("}")[0], before + head)
        elif head:
            path, _, name = head.partition(" as ")
            yield (name or re.split(r"::|\.", path)[-1]).strip("◌"), before + path


def plain(text):
    """A source without its comments, its imports and its empty lines."""
    return NOTHING_SAID.sub("", IMPORT.sub("", text))


class Scope:
    """A file: what its imports name, and the module that it is, if it is one of definitions."""

    def __init__(self, crate, path, text):
        self.crate, self.paths = crate, collections.defaultdict(set)
        self.module = (
            path.removeprefix("specs/").removesuffix(".antt").replace("/", ".") if path.startswith("specs/") else None
        )
        for it in IMPORT.finditer(text):
            for name, to in paths_of(it[1]):
                self.paths[name].add(to)


class Text:
    """A text that may be reached, and its file."""

    def __init__(self, scope, text):
        self.scope, self.text, self.tokens = scope, text, {*TOKEN.findall(text)}

    @functools.cached_property
    def sum(self):
        """The sum of the text, and of what the names in it mean."""
        texts, paths = self.named
        return hashlib.sha256(
            "\0".join([self.text, *sorted(paths), *sorted(it.text for it in texts)]).encode()
        ).hexdigest()

    @functools.cached_property
    def named(self):
        """The types, constants, traits and definitions that the text names, and the paths that it imports from the kit.
        """
        scope, crate, found, leaves = self.scope, self.scope.crate, [], set()
        for it in self.tokens:
            for path in scope.paths.get(it, ()):
                home = crate.below.get(crate_of(path, crate.name))
                found += home.resolve(path, self.tokens) if home else ()
                leaves.update([path] * (not home))
            if it not in scope.paths:
                found += crate.defined.get((scope.module, it), ()) if scope.module else crate.items.get(it, ())
        for home, path in INLINE.findall(self.text):
            found += [
                made
                for it in path.split("::")[1:]
                if home in crate.below
                for made in crate.below[home].lookup("items", it)
            ]
        return [*dict.fromkeys(found)], leaves

    def functions(self):
        """The functions beside types that the text names, wherever below its crate."""
        scope, below, own = self.scope, self.scope.crate.below, self.scope.crate.name
        wanted = {(own, it) for it in self.tokens}
        for it in self.tokens & {*scope.paths}:
            for path in scope.paths[it]:
                # (its last part is the function, or a module whose functions the text names)
                wanted |= {(crate_of(path, own), name) for name in {path.rpartition("::")[2], *self.tokens}}
        wanted |= {(home, name) for home, path in INLINE.findall(self.text) for name in path.split("::")[1:]}
        return [made for home, name in wanted if home in below for made in below[home].lookup("functions", name)]


class Crate:
    """The texts of a crate: its functions and other items by name, its methods by type and name, and its definitions by
    module and name."""

    def __init__(self, name, texts, below):
        self.name, self.sources, self.below = name, Sources(texts), {name: self, **below}
        self.functions, self.items, self.methods, self.defined, self.modules = (
            collections.defaultdict(list) for _ in range(5)
        )
        self.scopes = {
            path: Scope(self, path, text) for path, text in texts.items() if path.startswith(("src/", "specs/"))
        }
        for path in self.scopes:
            if path.startswith("specs/"):
                self.read_definitions(path, texts[path])
            elif path in self.sources.texts:
                self.read_source(path, texts[path])

    def read_source(self, path, text):
        lines, inside = text.split("\n"), set()
        for it in self.sources.functions(path):
            made = Text(self.scopes[path], self.head_of(it, it.body))
            (self.put_method(made, it.block, it.name) if it.block else self.functions[it.name].append(made))
            inside.update(range(it.first, it.last + 1))
        for block in ITEMS.split(
            "\n" + plain("\n".join(line for at, line in enumerate(lines) if at not in inside) + "\n")
        ):
            item = ITEM.search(block)
            if item and item[1] == "impl":
                self.put_method(Text(self.scopes[path], block), block, "")
            elif item:
                self.items[item[2]].append(Text(self.scopes[path], block))

    def head_of(self, function, last):
        """The text of a function up to this line, with the head of the impl or trait that it stands in."""
        lines = self.sources.texts[function.file].split("\n")[function.first : last + 1]
        return plain(f"{function.block}\n" + "\n".join(lines) + "\n")

    def put_method(self, text, block, name):
        of, trait, _ = parts_of_block(block)
        calls = PRINTING if trait in ("Display", "Debug") else {name} if not trait and name else {""}
        # (an impl for each type that meets a bound, or for a slice, is reached by its trait)
        of = of if re.fullmatch(r"\w\w+", of) else trait
        for it in calls:
            self.methods[of, it].append(text)

    def read_definitions(self, path, text):
        for block in DEFINITIONS.split(IMPORT.sub("", text)):
            made = Text(self.scopes[path], plain(block + "\n"))
            for name in {*DEFINED.findall(made.text)}:
                self.modules[name].append(made)
                self.defined[self.scopes[path].module, name].append(made)

    def lookup(self, kind, name):
        """The texts of this name: of this crate, or else of those below it, whose items it may give on."""
        own = getattr(self, kind).get(name)
        return own or [text for it in self.below.values() for text in getattr(it, kind).get(name, ())]

    def resolve(self, path, tokens):
        """The texts that an import of the path from this crate names, in a text with these tokens."""
        parts = re.split(r"::|\.", path)
        if "specs" not in parts:
            # (a module, of whose items the text names some)
            return [text for it in parts for text in self.lookup("items", it)] or [
                text for it in tokens for text in self.items.get(it, ())
            ]
        inside = parts[parts.index("specs") + 1 :]
        if inside[0] in ("declared", "contracts"):
            return [text for it in inside if it[:1].isupper() for text in self.lookup("items", it)]
        name, module, whole = inside[-1].strip("◌"), ".".join(inside[:-1]), ".".join(inside)
        if f"specs/{whole.replace('.', '/')}.antt" in self.scopes:
            return [text for it in tokens for text in self.defined.get((whole, it), ())]
        return self.defined.get((module, name)) or self.lookup("modules", name)

    @functools.cached_property
    def all_methods(self):
        """The methods of this crate and those below it: for each type or trait, by name, and by no name those of its
        traits."""
        made = collections.defaultdict(lambda: collections.defaultdict(list))
        for it in self.below.values():
            for (of, name), texts in it.methods.items():
                made[of][name] += texts
        return made


def crate_of(path, own):
    """The name of the crate that an imported path is of."""
    first, _, rest = path.partition("." if path.startswith("Rattle.") else "::")
    return rest.partition(".")[0] if first == "Rattle" else own if first in ("crate", "super", "self") else first


def reached(crate, starts):
    """All texts that these functions reach."""
    found, seen = set(), set()
    called = {""}.union(*(it.tokens for it in starts))
    todo = [*starts, *(made for it in starts for made in it.functions())]
    while todo:
        text = todo.pop()
        if text in found:
            continue
        found.add(text)
        todo += text.named[0]
        for of in text.tokens - seen:
            seen.add(of)
            methods = crate.all_methods.get(of, {})
            todo += [made for name in methods.keys() & called for made in methods[name]]
    return found


def sum_of(crate, edit, version):
    """The sum of all that the verdict on a wrong body of the crate rests on, with this version of the kit."""
    owners = edit.owners or crate.sources.all_functions()
    starts = [Text(crate.scopes[it.file], crate.head_of(it, it.last)) for it in owners]
    starts += [Text(crate.scopes[path], new) for path, _, new in edit.pairs]
    words = [version, repr(edit.pairs), *sorted({it.sum for it in reached(crate, starts)})]
    return hashlib.sha256("\n".join(words).encode()).hexdigest()[:32]


def read_verdicts(folder):
    """The verdicts that are kept in a crate's folder: by the wrong body's name the sum, and how it was refused."""
    try:
        with open(f"{folder}/wrong/verdicts", encoding="utf-8") as it:
            lines = [line.split() for line in it if not line.startswith("#")]
    except FileNotFoundError:
        return {}
    return {name: (sum, how) for name, how, sum in lines}


HEAD = "# Each wrong body that was refused, what refused it, and the sum of what this rests on (tools/wrong-bodies).\n"


def write_verdicts(folder, verdicts):
    lines = (f"{name} {how} {sum}\n" for name, (sum, how) in sorted(verdicts.items()))
    with open(f"{folder}/wrong/verdicts", "w", encoding="utf-8") as it:
        it.write(HEAD + "".join(lines))


class Lot:
    """One in so many, drawn from the sum of all sources and verdicts. So it is the same in a clone, in an export and
    before a commit."""

    ONE_IN = 20

    def __init__(self, files):
        own = hashlib.sha256()
        for path in sorted(files):
            with open(path, "rb") as it:
                own.update(f"{path} {hashlib.sha256(it.read()).hexdigest()}\n".encode())
        self.seed = own.hexdigest()

    def has(self, name):
        return int(hashlib.sha256(f"{self.seed} {name}".encode()).hexdigest(), 16) % self.ONE_IN == 0
