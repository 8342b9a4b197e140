"""What a reader of a configuration should look at: what is allowed there, and hardly can be meant."""
from .seen import context_word, plain

BEGIN = "snmpsec: "


def of_program(told):
    """The hints of `snmpsec check-config --why`, a line each."""
    for line in told.split("\n")[:-1]:
        yield plain(line.removeprefix(BEGIN))


def of_contexts(rows):
    """What is odd of contexts, which the program doesn't tell."""
    if not rows["context"]:
        yield "no context: each question is answered noSuchContext"
    names = [it["name"] for it in rows["context"]]
    for place, row in enumerate(rows["access"]):
        begins = row["match"] == "prefix"
        if not any(it.encode().startswith(row["prefix"].encode()) if begins else it == row["prefix"] for it in names):
            yield f"access {place}: no context has its prefix {context_word(row['prefix'])}"


def looks(rows, told):
    """A line for each thing to look at, of the rows of a configuration that is accepted, and of what the program tells
    of it."""
    yield from of_program(told)
    yield from of_contexts(rows)
