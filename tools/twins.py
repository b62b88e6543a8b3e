#!/usr/bin/env python3
"""Functions that differ only in a type, a number or names.

    python3 tools/twins.py

Reads every function of crates/*/src, without its comments and its contract. Types, numbers and bytes in quotes count as one word each, and every
other name counts by where it first stands in the function. Prints each group of functions, of four lines or more, whose words are then the same.
"""

import re
from pathlib import Path

ROOT = Path(__file__).resolve().parent.parent
FUNCTION = re.compile(r"^( *)((?:pub(?:\(\w+\))? )?(?:extern \"C\" )?fn (\w+)(?:.|\n)*?)\n(?:(?: *(?:requires|ensures).*\n)*)(?:\1\{\n)?((?:.|\n)*?)^\1\}", re.M)
WORD = re.compile(r'b?"(?:[^"\\]|\\.)*"|b?\'(?:[^\'\\]|\\.)\'|\w+|[^\s\w]')
KEPT = set("fn pub let mut if else while for in return match true false as self Ok Err Some None".split())
TYPES = set("u8 u16 u32 u64 u128 usize i32 bool".split())


def shape(text):
    """The words of a function, its names by the order in which they come."""
    names, found = {}, []
    for word in WORD.findall(re.sub(r"//[^\n]*", "", text)):
        if word in TYPES or word[0] in "0123456789\"'" or word[:2] in ('b"', "b'"):
            found.append("#")
        elif word in KEPT or not re.match(r"\w", word):
            found.append(word)
        else:
            found.append(names.setdefault(word, f"n{len(names)}"))
    return " ".join(found)


groups = {}
for path in sorted(ROOT.glob("crates/*/src/**/*.rt")):
    for head in FUNCTION.finditer(path.read_text()):
        if head[4].count("\n") >= 2:
            groups.setdefault(shape(head[2] + " { " + head[4]), []).append(f"{path.relative_to(ROOT)}: {head[3]}")
for group in sorted(group for group in groups.values() if len(group) > 1):
    print(", ".join(group))
