#!/usr/bin/env python3
"""Brings the names of this repository's own definitions and lemmas to the spelling of today's Rattle.

usage: tools/respell.py [--list] FOLDER     rewrites crates/, the edits and the pages below FOLDER in place; --list only prints the names

Words are in snake case, types and facts in camel case; in the name of a lemma a dash stands before the name of a definition or
of a word of the library, and an underscore before any other word. Functions of src/, exported names and strings stay.
It was run once, on the commit that port.py had made.
"""

import os
import re
import sys

NAME = re.compile(r"[^\W\d][\w'\-]*")
DECLARED = re.compile(r"^(\s*)((?:(?:abbrev|unfoldable|pub|data|record|ruleset) )*)([^\W\d][\w'\-]*)((?: *[({][^:]*:[^)}]*[)}])*) *:(?!=)(.*)$")
# Words of the library that stand in names of lemmas.
LIBRARY = set("length take drop append reverse replicate get_or set add sub mul div mod pow suc cond slice_index slice_set".split())
# Names of the library that were spelt otherwise.
OTHERWISE = {"getD": "get_or"}
# Names that fall together with another, or would hide a word, and what stands for them.
BY_HAND = {
    "bits-of-limb": "bits_of_row_limb",
    "left_over": "left_over_lem",
    "stays_within": "stays_within_lem",
    "noWords": "words_of_none",
}


def snake(word):
    return re.sub(r"(?<=[a-z0-9'])([A-Z])", lambda m: "_" + m[1].lower(), word)


def capital(word):
    return word[0].upper() + word[1:]


def antt_files(top):
    for folder, dirs, files in os.walk(os.path.join(top, "crates")):
        dirs[:] = sorted(d for d in dirs if d != "out")
        for f in sorted(files):
            if f.endswith(".antt"):
                yield os.path.join(folder, f)


def signature(lines, i):
    """The text of the declaration that begins at line i, up to the line that defines it."""
    depth = len(lines[i]) - len(lines[i].lstrip())
    text = lines[i]
    for line in lines[i + 1 :]:
        if not line.strip() or len(line) - len(line.lstrip()) <= depth or re.match(r"\s*unfolding ", line):
            break
        text += " " + line.strip()
    return text


def declared(top):
    """Every name that is declared in specs/ or in a file of lemmas: whether it is a type, whether it is a lemma, and its file."""
    found = {}
    for path in antt_files(top):
        if path.endswith("/Proof.antt"):
            continue
        with open(path) as f:
            lines = f.read().split("\n")
        for i, line in enumerate(lines):
            m = DECLARED.match(line)
            if not m or line.lstrip().startswith(("--", "use ")):
                continue
            words, name = m[2].split(), m[3]
            is_type = bool(re.search(r"(^|[ →:(])Type 0( where.*)?$", signature(lines, i).rstrip())) and "record" not in words and "data" not in words
            made = "abbrev" in words or "unfoldable" in words or "record" in words or "data" in words
            old = found.get(name, (False, False))
            found[name] = (old[0] or is_type, old[1] or made)
    return found


def kit_names(top):
    """The names that are imported from the library."""
    found = set()
    own = {c for c in os.listdir(os.path.join(top, "crates"))}
    for path in antt_files(top):
        with open(path) as f:
            for line in f:
                m = re.match(r"\s*(?:pub )?use ([\w.+'\-]+)\.\{(.*)\}", line)
                if m and not (m[1].startswith("Rattle.") and m[1].split(".")[1] in own):
                    found |= {w.split(" as ")[-1].strip() for w in m[2].split(",")}
    return found


def camel_locals(top):
    """Variables in camel case."""
    found = set()
    for path in antt_files(top):
        with open(path) as f:
            for line in f:
                if not line.lstrip().startswith(("--", "use ")):
                    found |= {n for n in NAME.findall(line) if re.match(r"[a-z]+[A-Z]\w*$", n)}
    return found


def spelt(name, found, simple):
    """The new spelling of one name."""
    if name in BY_HAND:
        return BY_HAND[name]
    is_type = found.get(name, (False, False))[0]
    if "-" not in name:
        if name[0].isupper():
            return name
        return capital(re.sub(r"_(\w)", lambda m: m[1].upper(), name)) if is_type else snake(name)
    parts = [OTHERWISE.get(p, simple.get(p, snake(p))) for p in name.split("-")]
    if is_type:
        return "".join(capital(re.sub(r"_(\w)", lambda m: m[1].upper(), p)) for p in parts)
    text = parts[0]
    for before, part in zip(name.split("-")[1:], parts[1:]):
        is_name = part[:1].isupper() or part in LIBRARY or before in simple and simple[before] != before
        text += ("-" if is_name else "_") + part
    return text


def mapping(top):
    found = declared(top)
    kit = kit_names(top)
    own = {n: v for n, v in found.items() if n not in kit}
    simple = {n: spelt(n, own, {}) for n in own if "-" not in n}
    made = dict(simple)
    for n in own:
        if "-" in n:
            made[n] = spelt(n, own, simple)
    taken = {b for a, b in made.items() if "-" not in a} | kit
    for a in sorted(made):
        if "-" in a and made[a] in taken:
            made[a] += "_lem"
    for a in camel_locals(top) - set(made) - kit:
        made[a] = snake(a)
    return {a: b for a, b in made.items() if a != b}


def turn_antt(text, names):
    return NAME.sub(lambda m: names.get(m[0], m[0]), text)


def ghost_spans(text):
    """Where a source file speaks of ghost names: its `ghost use` lines, its clauses and its comments."""
    spans = [m.span() for m in re.finditer(r"ghost use [^;]*;|//[^\n]*", text)]
    for m in re.finditer(r"\b(?:requires|ensures|ghost|invariant)\*?(?: \w+)?:? \{", text):
        depth, i = 1, m.end()
        while depth:
            depth += {"{": 1, "}": -1}.get(text[i], 0)
            i += 1
        spans.append((m.end(), i - 1))
    return sorted(spans)


def turn_source(text, names):
    out, at = "", 0
    for a, b in ghost_spans(text):
        if a < at:
            continue
        out += text[at:a] + turn_antt(text[a:b], names)
        at = b
    return out + text[at:]


def turn_page(text, names):
    """In a page the names stand between backquotes."""
    return re.sub(r"`[^`\n]+`", lambda m: turn_antt(m[0], names), text)


def main(argv):
    only_list = argv[:1] == ["--list"]
    top = argv[-1]
    names = mapping(top)
    if only_list:
        for a, b in sorted(names.items()):
            print(a, b)
        return 0
    for folder, dirs, files in os.walk(top):
        dirs[:] = [d for d in dirs if d not in ("out", ".git", "target")]
        for f in files:
            path = os.path.join(folder, f)
            turn = None
            if f.endswith(".antt"):
                turn = lambda text: turn_antt(text, names)
            elif f.endswith(".rt"):
                turn = lambda text: turn_source(text, names)
            elif f.endswith(".edit"):
                turn = lambda text: turn_antt(text, names)
            elif f.endswith(".md") and f not in ("PORT.md",):
                turn = lambda text: turn_page(text, names)
            if turn:
                with open(path) as it:
                    old = it.read()
                new = turn(old)
                if new != old:
                    with open(path, "w") as it:
                        it.write(new)
    return 0


if __name__ == "__main__":
    raise SystemExit(main(sys.argv[1:]))
