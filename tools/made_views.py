"""Views of few arcs that are made from a seed, and the program that is asked about them: what check-next and check-walk
share.

A view has 1 to 8 family rows whose subtrees have 1 to 4 arcs of 0 to 2, with masks: rows at random, holes in holes,
excluded siblings, and rows of one length whose wildcards cover one another."""
import argparse
import itertools
import os
import pathlib
import re
import subprocess
import sys
import tempfile

TOP = pathlib.Path(__file__).resolve().parent.parent
PROGRAM = TOP / "lib/out/rows"  # tools/rows-program makes it
LIBRARIES = TOP / "crates/tests_rows/out/tests_rows"  # what is answered by no export
LONGEST, ARCS, FREE = 4, 3, 2  # arcs of a name, arcs that rows have, and further ones
NAMES = sorted(
    itertools.chain.from_iterable(
        itertools.product(range(ARCS + FREE), repeat=count) for count in range(1, LONGEST + 1)
    )
)
PLACES = {name: place for place, name in enumerate(NAMES)}
CHUNK = 1000
CLOSING = re.compile(r"(\d+) passed, (\d+) failed")
# sets of names are numbers whose bits are the places of names: those with an arc at a position, and those of at least
# so many arcs
WITH_ARC = {
    (at, arc): sum(1 << place for place, name in enumerate(NAMES) if name[at : at + 1] == (arc,))
    for at in range(LONGEST)
    for arc in range(ARCS)
}
AT_LEAST = [sum(1 << place for place, name in enumerate(NAMES) if len(name) >= count) for count in range(LONGEST + 1)]


def compares(mask, at):
    """A mask that is too short is extended by ones."""
    return at >= 8 * len(mask) or mask[at // 8] >> (7 - at % 8) & 1


def names_under(row):
    """The names that the row's subtree has, in its mask's sense."""
    subtree, mask, _ = row
    under = AT_LEAST[len(subtree)]
    for at, arc in enumerate(subtree):
        if compares(mask, at):
            under &= WITH_ARC[at, arc]
    return under


def names_in(rows):
    """The names of the view: of the rows that have a name the longest decides, and of those of one length the greatest."""
    inside = 0
    for row in sorted(rows, key=lambda it: (len(it[0]), it[0])):
        under = names_under(row)
        inside = inside & ~under | (under if row[2] else 0)
    return inside


def subtree_of(rng, shortest=1, longest=LONGEST):
    return tuple(rng.randrange(ARCS) for _ in range(rng.randint(shortest, longest)))


def mask_of(rng, wild):
    """No mask, or one of an octet in which each bit is 0 so often."""
    return bytes([sum((rng.random() >= wild) << bit for bit in range(8))]) if rng.random() < 0.8 else b""


def at_random(rng):
    return [(subtree_of(rng), mask_of(rng, 0.4), rng.random() < 0.5) for _ in range(rng.randint(1, 8))]


def holes(rng):
    """Each row is below the one before it, and says the contrary."""
    subtree, include = subtree_of(rng, 1, 2), rng.random() < 0.8
    rows = []
    while len(subtree) <= LONGEST:
        rows.append((subtree, mask_of(rng, 0.2), include))
        subtree, include = subtree + (rng.randrange(ARCS),), not include
    return rows + at_random(rng)[:2]


def siblings(rng):
    """One is included, and all below it are excluded or nearly all."""
    above = subtree_of(rng, 1, LONGEST - 1)
    excluded = [(above + (arc,), mask_of(rng, 0.1), rng.random() < 0.1) for arc in range(ARCS)]
    return [(above, mask_of(rng, 0.2), True), *excluded, *at_random(rng)[: rng.randint(0, 3)]]


def alike(rng):
    """Rows of one length that have names in common."""
    count = rng.randint(1, LONGEST)
    return [(subtree_of(rng, count, count), mask_of(rng, 0.6), rng.random() < 0.6) for _ in range(rng.randint(2, 8))]


def view_of(rng):
    """Rows of different subtrees, as a table has them."""
    rows = rng.choice((at_random, holes, siblings, alike))(rng)
    return list({row[0]: row for row in rows}.values())


def dotted(name):
    return ".".join(map(str, name))


def tables(rows):
    """The tables of a user who may read a view of these rows, in TOML."""
    lines = [
        "[[context]]|name=''|[[group]]|model=3|name='ann'|group='g'",
        "[[access]]|group='g'|prefix=''|model=3|level='noAuthNoPriv'|match='prefix'|read='v'",
    ]
    for subtree, mask, include in rows:
        shown = f"|mask='{mask.hex()}'" if mask else ""
        lines.append(f"[[family]]|view='v'|subtree='{dotted(subtree)}'{shown}|include={'true' if include else 'false'}")
    return f"tables '{'|'.join(lines)}|"


def compared(program, file, lines):
    """What the program says of these rows of data, line by line, and how many of them passed and failed."""
    with tempfile.TemporaryDirectory() as folder:
        pathlib.Path(folder, file).write_text("".join(f"{line}\n" for line in lines))
        environment = {"SNMPSEC_PROGRAM": str(TOP / "snmpsec"), **os.environ}
        ran = subprocess.run(
            [program, file],
            cwd=folder,
            env=environment,
            stdin=subprocess.DEVNULL,
            capture_output=True,
            text=True,
            check=False,
        )
    *said, last = (ran.stdout + ran.stderr).splitlines() or [""]
    closing = CLOSING.fullmatch(last)
    if not closing or ran.returncode > 1:
        sys.exit(f"{program}: status {ran.returncode}\n{ran.stdout}{ran.stderr}")
    return [line for line in said if not line.startswith(f"{file} ")], int(closing[1]), int(closing[2])


def compare_all(said_of_tool, what, count, file, lines_of, program=PROGRAM):
    """Runs the program over the rows of each of so many cases, and returns the status of the tool."""
    parser = argparse.ArgumentParser(description=said_of_tool.partition("\n")[0])
    parser.add_argument(
        f"--{what}", dest="count", metavar="COUNT", type=int, default=count, help=f"so many {what} ({count})"
    )
    parser.add_argument("--seed", metavar="NUMBER", type=int, default=1, help=f"another seed makes other {what} (1)")
    parser.add_argument("program", nargs="?", default=str(program))
    given = parser.parse_args()
    passed = failed = 0
    for first in range(0, given.count, CHUNK):
        numbers = range(first, min(first + CHUNK, given.count))
        rows = (line for number in numbers for line in lines_of(given.seed, number))
        said, more_passed, more_failed = compared(os.path.abspath(given.program), file, rows)
        passed, failed = passed + more_passed, failed + more_failed
        for line in said:
            print(f"FAILED {line}")
    print(f"{passed} passed, {failed} failed")
    return 1 if failed else 0
