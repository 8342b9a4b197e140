"""The pages of docs/rules: one for each rule, one for each crate, and the list by section of the standards."""
import re
import textwrap

import rules
from site_parts.folder import code, plain

MOST_ROWS = 24  # lines of rows that are shown of a test
LONG = 40  # lines of a function that is folded
# the head of a page that isn't in the sidebar: with all rules there, each page would take long
ALONE = "---\norphan: true\n---\n\n"
STANDARD = re.compile(r"(RFC \d+|X\.690|FIPS \d+|SP [\w-]+|draft-\S+|IEEE \S+)\s*(.*)")
NO_CLAUSE = "This function has no clause of its own. A method of a trait has the trait's contract. What others do is shown by tests."
OPENING = "`./prove` checks that each function below keeps its contract for all inputs. The definitions say what the contract's words mean."


def slugs_of(sentences):
    """The names of the pages of rules, from their sentences."""
    found = []
    for it in sentences:
        slug = re.sub(r"[^a-z0-9]+", "-", it.lower()).strip("-")[:60].strip("-")
        count = sum(re.fullmatch(rf"{slug}(-\d+)?", other) is not None for other in found)
        found.append(f"{slug}-{count + 1}" if count else slug)
    return found


def sections_of(cell):
    """(standard, section or '') of each place that the field `Section` names. ('own', '') is ours."""
    found, standard = [], None
    for part in re.split(r"[,;]\s*", cell):
        part = part.removeprefix("beside ")
        named = STANDARD.match(part)
        if named:
            standard, part = named.groups()
        elif part.startswith("own") or not standard:
            standard = None
            found.append(("own", ""))
            continue
        for section in re.split(r" and ", part) if "step" not in part else [part]:
            found.append((standard, section.split(" ")[0]))
    return found


def with_standards(cell):
    """The field `Section` with a link to each section of an RFC."""
    def linked(found):
        at = f"#section-{found[2]}" if found[2] and found[2][0].isdigit() else ""
        return f"[{found[0]}](https://www.rfc-editor.org/rfc/rfc{found[1]}{at})"

    return re.sub(r"RFC (\d+)(?: ([\dA-Z][\d.]*\d|\d))?", linked, cell)


class Page:
    """The page of a rule."""

    def __init__(self, folder, rule, page):
        self.folder, self.rule, self.page = folder, rule, page
        self.crate = rules.CRATES / rule.crate

    def file(self, words, path, line=None):
        return f'<a href="{self.folder.to_file(self.page, path, line)}">{words}</a>'

    def place(self, path, line):
        return self.file(f"`{path.relative_to(rules.TOP)}`, line {line + 1}", path, line)

    def definitions(self):
        yield "## Definition\n"
        if not self.rule.definitions:
            yield "The rule names no definition.\n"
        seen = set()
        for word in self.rule.definitions:
            path, first, text = rules.definition(self.rule.crate, word)
            yield f"### `{word}`\n\n{self.place(path, first)}\n"
            yield code(textwrap.dedent(text), "agda")
            if path not in seen and rules.words_of(path):
                yield f"<details><summary>The module in words</summary>\n\n{plain(rules.words_of(path))}\n\n</details>\n"
            seen.add(path)

    def contract(self, place, clauses):
        """The head of a function with the clauses that the rule is about."""
        others = [
            name or "without a name"
            for kind, name, _ in place.contract
            if kind == "ensures" and clauses and name not in clauses
        ]
        yield code(textwrap.dedent("\n".join([place.signature, *self.clauses(place, clauses)])), "rust")
        if not place.contract:
            yield f"{NO_CLAUSE}\n"
        if others:
            yield f"It has other clauses too: {', '.join(f'`{it}`' for it in others)}.\n"

    def further(self, places):
        """The definitions that the contracts name, and the rule doesn't."""
        own = {it if ":" in it else f"{self.rule.crate}:{it}" for it in self.rule.definitions}
        found = {}
        for _, clauses, there in places:
            for place in there:
                words = "\n".join([place.signature, *self.clauses(place, clauses)])
                found.update({it: None for it in rules.named_in(place.path, words) if it not in own})
        if found:
            yield "<details><summary>Further definitions that these contracts name</summary>\n"
            for word in found:
                path, first, text = rules.definition("", word)
                yield f"`{word.removeprefix(f'{self.rule.crate}:')}`, {self.place(path, first)}\n\n{code(textwrap.dedent(text), 'agda')}"
            yield "</details>\n"

    def clauses(self, place, names):
        """The clauses that the rule names, or all if it names none, and what has to hold before."""
        return [text for kind, name, text in place.contract if kind != "ensures" or not names or name in names]

    def contracts(self, places):
        yield "## Contract\n"
        for name, clauses, found in places:
            yield f"### `{name}`\n"
            for place in found:
                yield f"{self.place(place.path, place.head)}\n"
                yield from self.contract(place, clauses)
        yield from self.further(places)

    def bodies(self, places):
        yield "## Source\n"
        for name, _, found in places:
            for place in found:
                state = "" if place.text.count("\n") > LONG else " open"
                where = self.place(place.path, place.head).replace("`", "")
                yield f"<details{state}><summary><code>{name}</code> in {where}</summary>\n"
                yield f"{code(textwrap.dedent(place.text), 'rust')}\n</details>\n"
        files = [self.file(f"`{it}`", self.crate / it) for it in self.rule.sources]
        yield f"The whole files: {', '.join(files)}\n"

    def test(self, word):
        """A test: a file, a kind of rows, a transcript or a function."""
        name, _, kind = word.partition(" ")
        rows = next((it for it in rules.files_of_rows() if it.name == name), rules.TOP / name)
        transcript = rules.TOP / "tests/cli" / name
        if rows.is_file() and kind:
            lines = "\n\n".join(rules.rows_of(rows, kind)).split("\n")
            more = f" The first {MOST_ROWS} of {len(lines)} lines:" if len(lines) > MOST_ROWS else ""
            yield f"Rows `{kind}` of {self.file(f'`{name}`', rows)}, in their groups.{more}\n"
            yield code("\n".join(lines[:MOST_ROWS]), "text")
        elif rows.is_file():
            yield f"Rows: {self.file(f'`{name}`', rows)}\n"
        elif name.endswith(".t") and transcript.is_file():
            first = plain(" ".join(transcript.read_text().split("\n\n")[0].split()))
            yield f"Transcript {self.file(f'`{name}`', transcript)}: {first}\n"
        elif word in rules.test_functions():
            path, line = rules.test_functions()[word]
            yield f"`#[test]` {self.file(f'`{word}`', path, line)}\n"
        else:
            yield f"File {self.file(f'`{word}`', rules.TOP / word)}\n"

    def tests(self):
        yield "## Tests\n"
        if not self.rule.tests:
            yield "The rule names no test.\n"
        for word in self.rule.tests:
            yield from self.test(word)

    def wrong_bodies(self):
        yield "## Wrong bodies\n"
        yield "The prover refuses each of these changes.\n" if self.rule.wrong else "The rule names no wrong body.\n"
        for name in self.rule.wrong:
            owners, lines = rules.difference(self.rule.crate, name)
            yield f"### `{name}`\n"
            if owners:
                yield f"In {', '.join(f'`{it}`' for it in dict.fromkeys(owners))}:\n"
            yield code(lines, "diff")

    def text(self, before, after):
        around = [f"[{words}]({slug}.md)" for words, slug in (("Rule before", before), ("Rule after", after)) if slug]
        crate = f"[{self.rule.crate}]({self.folder.to_page(self.page, f'docs/rules/{self.rule.crate}')})"
        places = [(name, clauses, rules.places_of(self.rule.crate, name)) for name, clauses in self.rule.promises]
        return "\n".join([
            f"{ALONE}# {self.rule.sentence}\n",
            " · ".join([f"Crate {crate}", f"Section: {with_standards(self.rule.section)}", *around]) + "\n",
            f"{OPENING}\n",
            *self.definitions(), *self.contracts(places), *self.bodies(places), *self.tests(), *self.wrong_bodies(),
        ])


def with_rules(text, crate, slugs):
    """The page of a crate, with a link to the page of each rule under its heading."""
    names = iter(slugs)
    link = (
        lambda found: f"{found[0]}\n\n[Definition, contract, source, tests and wrong bodies]({crate}/{next(names)}.md)"
    )
    return ALONE + re.sub(r"(?m)^## .*$", link, text)


def number_of(section):
    return [(int(it), "") if it.isdigit() else (0, it) for it in section.split(".")]


def by_section(found):
    """The page of the rules by section: `found` has (rule, page) of each."""
    sections = {}
    for rule, page in found:
        for key in dict.fromkeys(sections_of(rule.section)):
            sections.setdefault(key[0], {}).setdefault(key[1], []).append((rule, page))
    lines = [
        "# Rules by section",
        "",
        "Each rule under the sections of the standards that it is of. A rule can be under several.",
        "",
    ]
    named = lambda it: (it == "own", not it.startswith("RFC"), number_of(it.rpartition(" ")[2]))
    for standard in sorted(sections, key=named):
        lines += [f"## {'Of no standard' if standard == 'own' else standard}", ""]
        for section in sorted(sections[standard], key=number_of):
            lines += [f"### {standard}, section {section}", ""] if section else []
            for rule, page in sections[standard][section]:
                lines.append(f"- [{rule.sentence}]({page.removeprefix('docs/rules/')}.md) ({rule.crate})")
            lines.append("")
    return "\n".join(lines)


def write_all(folder):
    """Writes the pages of all rules, and the list by section. Returns the pages of the rules of each crate."""
    found, slugs = [], {}
    for path in rules.pages():
        there = rules.rules_of(path)
        names = slugs[path.stem] = slugs_of([it.sentence for it in there])
        for rule, slug, before, after in zip(there, names, ["", *names], [*names[1:], ""]):
            page = f"docs/rules/{path.stem}/{slug}"
            folder.write(page, Page(folder, rule, page).text(before, after))
            found.append((rule, page))
    folder.write("docs/rules/by-section", by_section(found))
    return slugs
