"""What the programs that write test cases share: the cases with their answers, profiles, lent tables, runs of cells, a digest of limbs.

A script is the number of its cases, and then the cases, each with its length in bytes before it: numbers of seven digits, and a byte behind
them. In a case only the numbers count; the words say what they are. It begins with its call, and with the call's number where a program runs
several.
"""

import re
import sys
from collections import defaultdict
from pathlib import Path

import replies
import second

LIMB_MARK, CELL_MARK = 1000003, 200
LARGE = 18446744073709551600
CRATES = Path(__file__).parent.parent / "crates"
script, answers, met = [], [], defaultdict(set)

# What calls_run runs, by its number in a script, 1 for the first; all are calls but the long stream.
CALLS = (
    *("build_table", "shipped_table", "index_of_word", "word_of_index", "find_pattern", "published_profile", "rate_of_words"),
    *("write_stream", "read_stream", "join_streams", "turn_stream", "long_stream", "reply_text"),
)

# A long stream gives the number of writing it.
NUMBERS = {**replies.NUMBERS, "long_stream": {0, 7}}


def case(call, given, reply, *shown):
    """A case: the call, what it is given, and what is printed of its answer, which is the reply and what else is shown."""
    met[call].add(reply.number)
    script.append(f"{1 + CALLS.index(call)} {call} {given}" if call in CALLS else f"{call} {given}")
    answers.append("".join(f" {number}" for number in (*reply, *shown)))


def written(call, given, answer):
    """A case of a call that writes, with all that was lent."""
    case(call, given, answer.reply, answer.count, *answer.lent)


def print_chosen(program):
    """The script or the answers, as the command says, if every number that the calls can give is among them and the program has room."""
    if set(met) != (set(CALLS) if program == "calls_run" else {"list_code"}):
        sys.exit(f"{program}: the cases are of {', '.join(sorted(met))}")
    for call, numbers in met.items():
        if numbers != NUMBERS[call]:
            sys.exit(f"{call}: the cases give {sorted(numbers)}, and not {sorted(NUMBERS[call])}")
    source = (CRATES / program / "src/main.rt").read_text()
    room = int(re.search(r"let mut text = \[0; (\d+)\];", source)[1])
    longest = max(map(len, script)) + 1
    if longest > room:
        sys.exit(f"a case has {longest} bytes, and {program} has room for {room}")
    lines = [f"{len(script):7}", *(f"{len(case) + 1:7} {case}" for case in script)] if sys.argv[1] == "script" else answers
    print("\n".join(lines))


def digest(numbers):
    total = 0
    for number in numbers:
        total = ((total * 65599 + number % 2**32) * 65599 + number // 2**32) % 4294967291
    return total


def profile(p):
    """A profile as it stands in a script."""
    return " ".join(map(str, p))


class Table:
    """A table that is built for a profile, with something added to one limb, lent over its first limbs."""

    def __init__(self, p, row=0, limb=0, added=0, lent=None):
        limbs = second.build(p, [0] * 1300).lent
        limbs[10 * row + limb] = (limbs[10 * row + limb] + added) % 2**64
        lent = 10 * (p.m + 1) if lent is None else lent
        self.limbs = limbs[:lent]
        self.text = f"table {profile(p)} damage {row} {limb} {added} lent {lent}"


def runs(cells):
    found = []
    for cell in cells:
        if found and found[-1][0] == cell:
            found[-1][1] += 1
        else:
            found.append([cell, 1])
    return f"runs {len(found)} " + " ".join(f"{level} {times}" for level, times in found)
