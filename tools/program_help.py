"""The commands of the program, with their words and options, as its own help tells them."""
import re
import subprocess
from dataclasses import dataclass


@dataclass
class Word:
    name: str
    about: str
    may_miss: bool
    may_be_many: bool


@dataclass
class Option:
    name: str
    value: str  # the name of its value, or nothing
    about: str


@dataclass
class Command:
    name: str
    about: str
    words: list
    options: list


def help_of(program, *words):
    """The help of all, or of a command, which stands on standard error."""
    asked = [*words, "--help"] if words else ["manual"]
    ran = subprocess.run([program, *asked], stdin=subprocess.DEVNULL, capture_output=True, text=True, check=False)
    return ran.stderr if words else ran.stdout


def command_of(name, about, text):
    told = dict(re.findall(r"^  [<[]([A-Z]+)[]>](?:\.\.\.)? +(\S.*)$", text, re.M))
    usage = re.search(r"^Usage: .*$", text, re.M)[0].replace("[OPTIONS]", "")
    words = [
        Word(it, told[it], opening == "[", bool(many))
        for opening, it, many in re.findall(r"([<[])([A-Z]+)[]>](\.\.\.)?", usage)
    ]
    options = re.findall(r"^ +(?:-\w, )?(--[a-z-]+)(?: <([A-Z]+)>)? +(\S.*)$", text, re.M)
    return Command(name, about, words, [Option(*it) for it in options if it[0] != "--help"])


def commands_of(program):
    """The commands in the order of help, but for help itself."""
    listed = re.findall(
        r"^  ([a-z][a-z-]*)  +(\S.*)$", help_of(program).partition("Commands:")[2].partition("Options:")[0], re.M
    )
    return [command_of(name, about, help_of(program, name)) for name, about in listed if name != "help"]
