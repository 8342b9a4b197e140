"""The folder that Sphinx reads: its pages, and the files of the repository that pages link to."""
import html
import os
import pathlib
import re
import shutil
import string

PARTS = pathlib.Path(__file__).resolve().parent
LINK = re.compile(r"(!?)\[([^\[\]]*)\]\(([^()\s]+)\)")
FENCED = re.compile(r"(?ms)(^ *```.*?^ *```$)")
LARGEST = 2**20  # octets of a file that is shown as text


def code(text, language, *options):
    """A block of code. What the highlighter can't read stays as it is."""
    fence = "`" * max(3, 1 + max(map(len, re.findall(r"`+", text)), default=0))
    return "\n".join([f"{fence}{{code-block}} {language}", ":force:", *options, "", text, fence, ""])


def plain(text):
    """Words of a comment as Markdown: only what is in back quotes is marked."""
    pieces = re.split(r"(`[^`\n]+`)", text)
    return "".join(it if it.startswith("`") else re.sub(r"([\\*_<>\[\]|~#`$])", r"\\\1", it) for it in pieces)


class Folder:
    """The sources of the pages. `docs` has the page of each document, by its path in the repository; `faults` are dead
    links."""

    def __init__(self, top, made, docs):
        self.top, self.docs = top, docs
        self.source, self.extra = made / "source", made / "extra"
        self.shown, self.faults = set(), []
        for it in (self.source, self.extra):
            it.mkdir()

    def write(self, page, text):
        path = self.source / f"{page}.md"
        path.parent.mkdir(parents=True, exist_ok=True)
        path.write_text(text, encoding="utf-8")

    def to_page(self, page, other):
        """The link from one page to another, as Markdown has it."""
        return os.path.relpath(f"{other}.md", os.path.dirname(page) or ".")

    def to_file(self, page, path, line=None):
        """The link from a page to a file of the repository, at a line that is counted from 0."""
        path = str(path.relative_to(self.top) if isinstance(path, pathlib.Path) else path)
        self.show(path)
        at = f"#L{line + 1}" if line is not None else ""
        return "../" * page.count("/") + f"files/{path}.html{at}"

    def show(self, path):
        """Makes the page of a file: its lines, or the names of what is in it if it is a folder."""
        if path in self.shown:
            return
        self.shown.add(path)
        there, to = self.top / path, self.extra / "files" / f"{path}.html"
        to.parent.mkdir(parents=True, exist_ok=True)
        if there.is_dir():
            text = "\n".join(
                html.escape(it.name) for it in sorted(there.iterdir()) if it.name not in ("out", "__pycache__")
            )
        elif there.stat().st_size > LARGEST or b"\0" in there.read_bytes():
            text = "This file isn't a text that can be shown here."
        else:
            lines = there.read_text(encoding="utf-8", errors="replace").split("\n")
            text = "\n".join(f'<span id="L{n}">{html.escape(it)}</span>' for n, it in enumerate(lines, 1))
        page = string.Template((PARTS / "file.html").read_text())
        up = "../" * (path.count("/") + 1)
        to.write_text(page.substitute(path=html.escape(path), top=f"{up}index.html", text=text), encoding="utf-8")

    def linked(self, page, path, found):
        """A link of a document as its page has it."""
        image, words, target = found.groups()
        target, mark, fragment = target.partition("#")
        if not target or re.match(r"\w+:", target):
            return found[0]
        there = os.path.normpath(os.path.join(os.path.dirname(path), target))
        if os.path.isdir(self.top / there) and f"{there}/README.md" in self.docs:
            there += "/README.md"
        if there in self.docs:
            return f"[{words}]({self.to_page(page, self.docs[there])}{mark}{fragment})"
        if not (self.top / there).exists():
            self.faults.append(f"{path}: a link leads to {there}, which isn't there")
            return words
        if image:
            to = self.source / there
            to.parent.mkdir(parents=True, exist_ok=True)
            shutil.copyfile(self.top / there, to)
            return f"![{words}]({os.path.relpath(there, os.path.dirname(page) or '.')})"
        return f'<a href="{self.to_file(page, there)}">{words}</a>'

    def with_links(self, page, path, text):
        """The text of a document with its links as they are among the pages."""
        pieces = FENCED.split(text)
        return "".join(
            it if n % 2 else LINK.sub(lambda found: self.linked(page, path, found), it) for n, it in enumerate(pieces)
        )
