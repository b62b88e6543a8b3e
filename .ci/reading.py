"""The crates as the scripts of the gate read them: the files of specs with what they bring in and define, the structs and functions of the
sources, the lines of crates.txt, and the tables of a page. What they cannot read they refuse, so that nothing is passed over."""

import re
import sys
from dataclasses import dataclass, field
from functools import cache
from pathlib import Path

ROOT = Path(__file__).resolve().parent.parent
APART = r"\s(){}.;,@\"«»"
MARKED = r"((?:(?:unfoldable|abbrev|axiom|pub) )*)"
HEAD = re.compile(
    r"^( *)pub (?:extern \"C\" )?fn (\w+)(?:<(?:[^(){}]|\([^()]*\))*?>)?\(((?:[^()]|\([^()]*\))*)\)(?: -> ([^\n{]+?))?"
    r"(?: \{|\n((?: *(?:requires|ensures)(?: \w+)? \{.*\}\n)+) *\{|\nwhere\n(?: +[^\n]*,\n)+ *\{)$",
    re.M,
)


@dataclass
class Item:
    """A definition or a law: its marks, what it is (record, data, or a name with clauses), what is said of it, and its clauses."""

    name: str
    marks: list
    kind: str
    statement: str
    clauses: str = ""

    def is_definition(self):
        """Records and data, and what is marked so that others see its clauses. All else may be a law."""
        return self.kind != "named" or bool({"abbrev", "unfoldable"} & set(self.marks))


@dataclass
class Spec:
    """A file of specs: its path, the name and the module of each name that it brings in, and its items."""

    path: Path
    brought: dict = field(default_factory=dict)
    items: dict = field(default_factory=dict)


def refuse(path, line):
    sys.exit(f"{path.relative_to(ROOT)}: the gate cannot read this form: {line.strip()}")


def bare(text, comment="--"):
    """A text without comments and quoted text; the lines stay."""
    text = re.sub(r"\{-.*?-\}", lambda found: "\n" * found[0].count("\n"), text, flags=re.S) if comment == "--" else text
    return re.sub(rf'"(?:[^"\\\n]|\\.)*"|{comment}[^\n]*', lambda found: '""' if found[0].startswith('"') else "", text)


def words(text):
    """The names in a text, without projections (`.count`) and the labels of record fields and implicit arguments (`count = `)."""
    text = re.sub(rf"([{{;]\s*)[^{APART}]+ = ", r"\1", text)
    return set(re.findall(rf"(?<![^{APART.replace('.', '')}])[^{APART}]+", text))


def brought_by(line):
    """What a `use` line brings in: from each name to its module and its name there; nothing where the line has another form."""
    if whole := re.fullmatch(r"(?:ghost )?use ([^{}\s]+)\.(\w+) as (\w+);?", line.strip()):
        return {whole[3]: (whole[1], whole[2])}
    found = re.fullmatch(r"(?:ghost )?use ([^{}\s]+)\.\{([^{}]+)\};?", line.strip())
    if not found:
        return None
    names = [part.strip().split(" as ") for part in found[2].split(",") if part.strip()]
    return {pair[-1]: (found[1], pair[0]) for pair in names}


def chunks(lines):
    """Lines in groups, each a line at the margin of the first with those that stand further in, or close a bracket, behind it."""
    margin = len(lines[0]) - len(lines[0].lstrip()) if lines else 0
    group = []
    for line in lines:
        if group and not line[margin].isspace() and line[margin] not in ")}":
            yield group
            group = []
        group.append(line)
    if group:
        yield group


def take_items(spec, lines, given=""):
    """Takes the items of a block of a file; `given` are the parameters of the sections around it."""
    last = None
    for group in chunks(lines):
        first, text = group[0].strip(), "\n".join(group)
        if re.match(r"(pub )?mod \w+$|infix[lr]? \d|(pub )?ruleset \w+ = ", first):
            continue
        if first.startswith("use "):
            spec.brought |= brought_by(" ".join(text.split())) or refuse(spec.path, first)
        elif first.startswith("module _"):
            end = next(i for i, line in enumerate(group) if line.rstrip().endswith(" where"))
            take_items(spec, group[end + 1 :], given + "\n".join(group[: end + 1]).replace("module _", "").removesuffix("where"))
        elif found := re.match(rf"{MARKED}(record|data) ([^{APART}]+)", first):
            spec.items[found[3]] = last = Item(found[3], found[1].split(), found[2], given + text)
        elif found := re.match(rf"{MARKED}([^{APART}]+) :(?: |$)", first):
            spec.items[found[2]] = last = Item(found[2], found[1].split(), "named", given + text)
        elif last and (first.startswith("unfolding ") or re.match(rf"{re.escape(last.name)}(?![^{APART}])", first) or set(last.name.split("_")) & words(first)):
            last.clauses += text + "\n"
        else:
            refuse(spec.path, first)


@cache
def spec_at(path):
    """A file of specs, read."""
    spec = Spec(path)
    if not path.exists():
        sys.exit(f"there is no {path.relative_to(ROOT)}")
    take_items(spec, [line for line in bare(path.read_text()).splitlines() if line.strip()])
    return spec


def specs():
    """All files of specs."""
    return [spec_at(path) for path in sorted(ROOT.glob("crates/*/specs/**/*.antt"))]


def crate_of(module):
    """The crate of this repository that a module belongs to; none where it is the toolchain's."""
    found = re.match(r"Rattle\.(\w+)\.", module)
    return found[1] if found and (ROOT / "crates" / found[1]).is_dir() else None


def file_of(module):
    """The file of this repository that a module is: a file of specs or of laws, or the source that declares a struct. None where it is the toolchain's."""
    crate = crate_of(module)
    if crate is None:
        return None
    place = module.split(".")[2:]
    if place[:2] != ["specs", "declared"]:
        return ROOT.joinpath("crates", crate, *place).with_suffix(".antt")
    inner = ROOT / "crates" / crate / "src" / "/".join(place[2:-1])
    tried = [inner.with_suffix(".rt")] if place[2:-1] else [inner / "lib.rt", inner / "main.rt"]
    return next((file for file in tried if file.exists()), tried[0])


def source_scope(path):
    """What the `ghost use` and `use` lines of a source bring in: names of specs with their modules, and names of other crates with their paths."""
    ghosts, plain = {}, {}
    for line in bare(path.read_text(), "//").splitlines():
        if line.strip().startswith("ghost use "):
            ghosts |= brought_by(line) or refuse(path, line)
        elif found := re.match(r"use ([\w:]+)::(?:(\w+)|\{([^{}]*)\});", line):
            for name in re.findall(r"\w+", found[2] or found[3]):
                plain[name] = found[1].split("::")
    return ghosts, plain


def functions():
    """Every `pub fn`: from its path to its file, its parameters, the type of its result and its contract."""
    found = {}
    for path in sorted(ROOT.glob("crates/*/src/*.rt")):
        text = path.read_text()
        module = [path.parts[-3]] + ([] if path.stem in ("lib", "main") else [path.stem])
        for head in HEAD.finditer(text):
            owner = re.findall(r"^impl(?:<[^{]*?>)? (\w+)(?:<[^{]*?>)?(?: \{|\n)", text[: head.start()], re.M)[-1:] if head[1] else []
            contract = re.findall(r"(requires|ensures)(?: \w+)? \{ (.*) \}", head[5] or "")
            found["::".join(module + owner + [head[2]])] = path, re.findall(r"(\w+): ([^,]+)", head[3]), head[4] or "", contract
        if len(HEAD.findall(text)) != len(re.findall(r"\bpub (?:extern \"C\" )?fn ", text)):
            sys.exit(f"{path.relative_to(ROOT)}: a `pub fn` whose contract the gate cannot read")
    return found


def types_in(path, text):
    """The structs and enums of this repository that Rust types in a source name."""
    scope = source_scope(path)[1]
    text = re.sub(r"\b(Option|Result)<", "<", text)
    for place, name in re.findall(r"((?:\w+::)*)\b([A-Z]\w*[a-z]\w*)\b", text):
        owner = (place.split("::")[:-1] or scope.get(name, ["crate"]))[0]
        folder = path.parent if owner in ("crate", "super") else ROOT / "crates" / owner / "src"
        found = [file for file in sorted(folder.glob("*.rt")) if re.search(rf"\b(struct|enum|type|trait) {name}\b", bare(file.read_text(), "//"))]
        found = [path] if path in found else found
        if folder.is_dir() and len(found) != 1:
            sys.exit(f"{path.relative_to(ROOT)}: it is not plain which type {name} is")
        yield from ((file, name) for file in found)


def types_held(path, name):
    """The types that the fields of a struct in a source, or the variants of an enum, hold, or that an alias stands for; none for a trait."""
    text = bare(path.read_text(), "//")
    if alias := re.search(rf"^(?:pub )?type {name}\b[^=]*= (.*?);", text, re.M | re.S):
        return set(types_in(path, alias[1]))
    held = re.search(rf"^(?:pub )?(?:struct|enum) {name}\b(?:<[^{{(;]*>)?(\([^\n]*\);|;| \{{.*?^\}})", text, re.M | re.S)
    return set(types_in(path, re.sub(r"^ +[A-Z]\w*", "", held[1], flags=re.M))) if held else set()


def rows(page, heading):
    """The rows of the tables under a heading of a page, each as its columns."""
    parts = (ROOT / page).read_text().split(f"\n## {heading}\n")
    lines = parts[1].split("\n## ")[0].splitlines() if len(parts) == 2 else []
    found = [row.strip().strip("|").split("|") for row in lines if row.startswith("| ")]
    return found or sys.exit(f'{page} has no table under a heading "{heading}"')


def quoted(text):
    return re.findall(r"`([^`]+)`", text)


@cache
def lines_of_crates(root=ROOT):
    """The lines of crates.txt: from each crate to the crates and libraries named for it."""
    lines = (line.split("#")[0] for line in (root / "crates.txt").read_text().splitlines())
    return {name.split()[0]: below.split() for name, below in (line.split(":") for line in lines if ":" in line)}


def crates_under(name, root=ROOT):
    """All crates and libraries under a crate: those of its line, those of their lines, and so on."""
    found, left = set(), [name]
    while left:
        new = set(lines_of_crates(root).get(left.pop(), [])) - found
        found |= new
        left += new
    return found
