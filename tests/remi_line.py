"""The command line of remi a second time: what it asks for, or the fault that is told.

What a subcommand takes, and which options there are, is read out of the help text, which is what `remi help` prints.
"""

import os
import re
from pathlib import Path
from typing import NamedTuple

from second import Profile

HELP = (Path(__file__).parent.parent / "crates/remi/stdout").read_text()
LINES = dict(re.findall(r"^(?=  remi (\w+))(.*\n)", HELP, re.M))
SYNOPSES = {name: words.split() for name, words in re.findall(r"^  remi (\w+) +((?:\[?[A-Z]+\.{0,2}\]? )*) *[a-z]", HELP, re.M)}
VALUED = re.findall(r"^  (-\S+) [A-Z]+ ", HELP, re.M)
ENDING = "--"
FLAGS = {option for line in re.findall(r"^  ((?:-[-\w]* )+)", HELP, re.M) for option in line.split()} - {*VALUED, ENDING}
ASKING = {"-h", "--help"}
NUMBERS = ("Q", "M", "X", "INDEX", "WORDS", "ROW")
ROW = "row"
STANDARD = "-"
MOST_ARGUMENT = 4096
ODD = re.compile("[\0-\x1f\x7f-\x9f\u061c\u200e\u200f\u2028-\u202e\u2066-\u2069\ud800-\udfff\\\\]")


def takers(listed):
    """The subcommands that a list in the help text names, as `read, write` or `all but help`."""
    names = set(re.findall(r"\w+", listed.removeprefix("all but ")))
    return set(SYNOPSES) - names if listed.startswith("all but ") else names


OPTIONS = {option: takers(listed) for option, listed in re.findall(r"^  (-\S+) .*\((.*)\)$", HELP, re.M)}


def escaped(name):
    """A name or an argument as it is printed: each byte of what is odd, and each byte that is no UTF-8, as two hexadecimal digits."""
    return ODD.sub(lambda odd: "".join(f"\\x{byte:02x}" for byte in os.fsencode(odd[0])), name)


class Fault(Exception):
    """What is wrong with a command line, told behind the words that were read."""

    def __init__(self, what, words=()):
        see = f" {words[0]}" if words and words[0] in SYNOPSES else ""
        super().__init__(f"remi: {what}; see remi help{see}")


class Call(NamedTuple):
    """What a command line asks for. `row` is the number of a published profile where one is named in place of a profile."""

    name: str
    profile: Profile | None = None
    row: int | None = None
    words: dict = {}
    inputs: list = []
    output: str | None = None
    options: dict = {}


def scanned(arguments):
    """The words and the options of a command line."""
    words, options, left, ended = [], {}, list(enumerate(arguments, 1)), False

    def taken():
        place, argument = left.pop(0)
        if len(os.fsencode(argument)) > MOST_ARGUMENT:
            raise Fault(f"argument {place} is longer than {MOST_ARGUMENT} bytes", words)
        return argument

    while left:
        argument = taken()
        if ended or argument == STANDARD or argument[:1] != "-":
            words.append(argument)
        elif argument == ENDING:
            ended = True
        elif argument in FLAGS:
            options[argument] = True
        elif argument not in VALUED:
            raise Fault(f"{escaped(argument)} is no option", words)
        elif argument in options:
            raise Fault(f"{argument} stands twice", words)
        elif not left:
            raise Fault(f"nothing follows {argument}", words)
        else:
            options[argument] = taken()
    return words, options


def subcommand(word):
    if word not in SYNOPSES:
        raise Fault(f"{escaped(word)} is no subcommand")
    return word


def number(word, words):
    if not re.fullmatch("[0-9]+", word):
        raise Fault(f"{escaped(word)} is no number", words)
    return int(word)


def given(words, synopsis):
    """The words behind a subcommand, by what they are; of a profile its three numbers, or the number of its row."""
    left, found = words[1:], {}

    def taken(what):
        if not left:
            raise Fault("a word is missing", words)
        return number(left.pop(0), words) if what in NUMBERS else left.pop(0)

    for what in synopsis:
        bare = what.strip("[].")
        if what == "PROFILE" and left[:1] == [ROW]:
            left.pop(0)
            found[ROW] = taken("ROW")
        elif what == "PROFILE":
            found[what] = Profile(*(taken(each) for each in ("Q", "M", "X")))
        elif what.endswith(".."):
            found[bare] = [taken(bare), *left]
            left.clear()
        elif left or what[0] != "[":
            found[bare] = taken(bare)
    if left:
        raise Fault(f"{escaped(left[0])} is one word too many", words)
    return found


def files_of(found, synopsis, options):
    """The files that are read, in the order of their words and then the table, and the file that is written."""
    names = [what for what in synopsis if what != "PROFILE" and what.strip("[]") not in (*NUMBERS, "SUBCOMMAND")]
    words = [found[what.strip(".")] for what in names if what[0] != "["]
    read = [name for word in words for name in (word if isinstance(word, list) else [word])]
    written = [found.get(what.strip("[]")) for what in names if what[0] == "["]
    return read + [name for option, name in options.items() if option == "-t"], written[0] if written else None


def parsed(arguments):
    """What a command line asks for."""
    words, options = scanned(arguments)
    if options.keys() & ASKING:
        return Call("help", words={"SUBCOMMAND": subcommand(words[0])} if words else {})
    if "--version" in options:
        return Call("version")
    if not words:
        raise Fault("no subcommand")
    name = subcommand(words[0])
    for option, names in OPTIONS.items():
        if option in options and name not in names:
            raise Fault(f"{name} takes no {option}", words)
    synopsis = SYNOPSES[name][: 1 if name == "table" and "-t" in options else None]
    found = given(words, synopsis)
    if "SUBCOMMAND" in found:
        subcommand(found["SUBCOMMAND"])
    if "-n" in options:
        options["-n"] = number(options["-n"], words)
    inputs, output = files_of(found, synopsis, options)
    if inputs.count(STANDARD) > 1:
        raise Fault(f"{STANDARD} stands for two files that are read", words)
    return Call(name, found.pop("PROFILE", None), found.pop(ROW, None), found, inputs, output, options)
