"""The cases in which the program remi is held to tests/remi.py.

    python3 tests/remi_cases.py [--no-status] COMMAND...

COMMAND starts the program; its last word is the program's path. With --no-status it is a program whose exit status is always 0.
tests/remi_trial.py says what is compared. What cannot be tried by the user who runs this is named in the last line.
"""

import os
import random
import subprocess
import sys
import threading
from errno import EBADF, EFBIG, EPIPE

import second
from remi import remi
from remi_disk import FULL, NULL, ZERO, Who, device, file, folder, link, pipe, same, socket
from remi_line import OPTIONS, SYNOPSES
from remi_trial import ADMIN, PAGE, ROOT, SECONDS, WHO, Trials, entry_of, feeding, spelt
from replies import TOLD
from second import Profile

trials = Trials(sys.argv[1:])
case = trials.case

# Every number that each subcommand can tell, 12 for a row that there is not among them, and what is told of a code that is too large.
ROW_REFUSED = {12}
NUMBERS = {name: told | ROW_REFUSED if "PROFILE" in SYNOPSES[name] else told for name, told in TOLD.items()}
NUMBERS["list"] |= {"too many"}
del NUMBERS["help"]

# Every line that standard error can have, by what stands at its end or in its middle.
FAULTS = ["no subcommand", "is no subcommand", "is no option", "nothing follows -t", "nothing follows -n", "-t stands twice", "-n stands twice"]
FAULTS += ["a word is missing", "is one word too many", "is no number", "is longer than 4096 bytes", "- stands for two files that are read"]
FAULTS += [f"{name} takes no {option}" for option, names in OPTIONS.items() for name in SYNOPSES if name not in names]
TROUBLES = ["is read here too and is left as it is", "is no regular file and is left as it is", "exists and is left as it is; -f writes over it"]
TROUBLES += ["cannot read ", "cannot write ", "cannot write standard output: ", "cannot read standard input: "]


def both(arguments, files, **how):
    """A case told as text and as JSON."""
    case(arguments, files, **how)
    case([*arguments, "--json"], files, **how)


def stream(p, n, chance):
    """The cells of n words with messages by chance."""
    s = second.message_length(p)
    return bytes(second.stream_of(p, [second.word_of(p, 1 + chance.randrange(2**s)) for _ in range(n)]))


def bits(p, n, chance):
    """The bytes of n messages by chance."""
    count = n * second.message_length(p)
    return (chance.getrandbits(count) << -count % 8).to_bytes(-(-count // 8), "big") if count else b""


def table(p):
    return b"".join(limb.to_bytes(8, "little") for limb in second.table_of(p))


def changed(data, place, value):
    return data[:place] + bytes([value]) + data[place + 1 :]


def profiles(*numbers):
    return [Profile(*of) for of in numbers]


ROW = {row.profile: number for number, row in enumerate(second.ROWS)}
SMALL = profiles((2, 3, 1), (2, 12, 3), (3, 4, 2), (4, 1, 1), (4, 5, 1), (4, 6, 8), (32, 1, 8))
LARGE = profiles((4, 14, 1), (8, 22, 2), (16, 111, 1), (32, 108, 2), (32, 117, 1), (5, 40, 7), (32, 128, 8), (2, 128, 1))
FULL_SIZE = profiles((2, 3, 1), (4, 1, 1), (4, 14, 1), (32, 117, 1), (32, 128, 8))
SILENT = profiles((2, 1, 1), (3, 1, 1))
SHORT, TAKE, LARGEST = Profile(4, 5, 1), Profile(4, 14, 1), Profile(32, 128, 8)


def good(chance):
    """Every subcommand on good input, and on streams of a word too many."""
    for p in SMALL + LARGE:
        s, all_words = second.message_length(p), second.count(p)
        profile = ["row", ROW[p]] if p in ROW else [p]
        lent = ["-t", "lent"]
        for n in [0, 1, 2, 3] + [256, 257] * (p in FULL_SIZE):
            files = {"a": stream(p, n, chance), "b": stream(p, 2, chance), "bits": bits(p, n, chance), "lent": table(p)}
            both(["read", *profile, "a", "out"], files)
            case(["read", *profile, "a", *lent], files)
            both(["check", *profile, "a", "b"], files)
            both(["write", *profile, "bits", "out"], files)
            case(["write", *profile, "bits", "out", "-n", n * s, *lent], files)
            both(["turn", *profile, "a", "out"], files)
            both(["find", p.q, p.x, "a"], files)
            both(["join", *profile, "a", "b", "out"], files)
            case(["join", *profile, "b", "a"], files)
            both(["rate", *profile, n], files)
        files |= {"a": stream(p, 128, chance), "b": stream(p, 128, chance)} if p in FULL_SIZE else {}
        case(["join", *profile, "a", "b", "out"], files)
        for index in sorted({0, 1, all_words // 3, all_words - 1}):
            word = bytes(second.word_of(p, index))
            both(["word", *profile, index, "out"], files)
            both(["word", *profile, f"00{index}", *lent], files)
            both(["index", *profile, "word"], files | {"word": word})
            both(["index", *profile, "word", *lent], files | {"word": word})
        both(["table", *profile], files)
        both(["table", *profile, "out"], files)
        both(["table", *profile, *lent], files)
        case(["table", *profile, "-t", "longer"], {"longer": table(p) + b"more than the rows"})
        both(["list", *profile], files)
    for row in range(40):
        both(["profiles", row], {})
    both(["profiles"], {})


def refusals_by_profile(p, files, tables):
    """Profiles out of range or without messages, rows that there are not, and tables, for each subcommand that takes them."""
    takes = {
        "read": ["a", "out"],
        "check": ["a", "word", "a"],
        "write": ["bits", "out", "-n", 3 * second.message_length(p)],
        "join": ["a", "a", "out"],
        "turn": ["a", "out"],
        "index": ["word"],
        "word": [7, "out"],
        "table": [],
        "rate": [3],
        "list": [],
    }
    wrong = [{"q": 1}, {"q": 33}, {"m": 0}, {"m": 129}, {"x": 0}, {"x": 9}]
    out_of_range = [p._replace(**number) for number in wrong] + profiles((0, 0, 0), (10**30, 999, 10**200))
    for name, words in takes.items():
        for profile in [["row", 40], ["row", 2**64], *([of] for of in out_of_range + SILENT)]:
            both([name, *profile, *words], files)
        for lent in tables if name in OPTIONS["-t"] else ():
            both([name, p, *words, "-t", lent], files | tables)


def refusals(chance):
    """Every number that each subcommand can tell."""
    for p in profiles((4, 5, 1), (4, 14, 2), (3, 9, 8)):
        s = second.message_length(p)
        files = {"a": stream(p, 3, chance), "word": bytes(second.word_of(p, 7)), "bits": bits(p, 3, chance)}
        limb = 8 * 10 * (p.m // 2)
        tables = {"right": table(p), "short": table(p)[:-1], "wrong": changed(table(p), limb, table(p)[limb] ^ 1), "empty": b""}
        refusals_by_profile(p, files, tables | {"other": table(p._replace(x=1 if p.x > 1 else 2))})
        for word in (second.count(p), 10**100, 10**4000):
            both(["word", p, word, "out"], files)
        for words in (256, 257, 10**30):
            both(["rate", p, words], {})
        for count in (0, s, 2 * s, 3 * s - 1, 3 * s + 1, 257 * s, 8 * len(files["bits"]) + s, 10**30):
            both(["write", p, "bits", "-n", count], files)
        for length in range(0, 2 * s // 8 + 2):
            both(["write", p, "ones"], {"ones": b"\xff" * length})
            case(["write", p, "ones", "out", "-n", 8 * length // s * s], {"ones": b"\xff" * length})
    for levels, reach in [(1, 1), (33, 1), (4, 0), (4, 9), (0, 0)]:
        both(["find", levels, reach, "a"], files)
    both(["list", 4, 7, 1], {})
    both(["profiles", 40], {})
    both(["profiles", 2**64 - 1], {})
    both(["profiles", 10**30], {})


def places(chance):
    """Faults at the start, in the middle and at the end of a dump, in words and bridges, and in the second stream of a join."""
    for p in profiles((4, 5, 1), (4, 7, 2), (3, 4, 8)):
        cells, whole, top = stream(p, 4, chance), p.m + p.x, p.q - 1
        last = len(cells) - 1
        damaged = [changed(cells, place, p.q) for place in (0, 1, 7, 8, 9, len(cells) // 2, last - 9, last - 8, last - 7, last)]
        damaged += [changed(cells, p.m, 255), changed(changed(cells, last, p.q), 3, p.q + 1)]
        bridges = [start + i for start in range(p.m, len(cells), whole) for i in {0, p.x - 1}]
        damaged += [changed(cells, place, 1) for place in bridges]
        for word in range(4):
            pattern = [top, 0, top] + [0] * (p.m - 3)
            for put in (pattern, pattern[::-1], [0] * p.m, [top] * p.m, [top] * (p.m - 1) + [0]):
                words = [list(cells) for _, cells in second.words_of(p, cells)]
                words[word] = put
                damaged.append(bytes(second.stream_of(p, words)))
        for dump in damaged:
            files = {"dump": dump, "right": cells}
            both(["read", p, "dump", "out"], files)
            both(["check", p, "right", "dump"], files)
            both(["turn", p, "dump", "out"], files)
            both(["join", p, "dump", "right", "out"], files)
            both(["join", p, "right", "dump", "out"], files)
            both(["find", p.q, p.x, "dump"], files)
            both(["index", p, "word"], {"word": dump[: p.m]})
            both(["index", p, "word"], {"word": dump[-p.m :]})


NO_NUMBERS = ["x1", "1x", "", "-1", "+1", " 1", "1 ", "1\n", "0x1", "1.0", "\u0661", "-", "--", "-f", "9" * 4097]
TAIL = ["-t", "-n", "-t lent", "-t -f", "-t ", "-t lent -t a", "-t lent -t", "-t lent -f", "-f -t lent", "-t lent out", "-t -- -f", "-t -", "-t -t"]
TAIL += ["-n 45", "-n x", "-n ", "-n -1", "-n 9 -n 18", "-n 9 -n", "-n 0018 -f", "-n " + "9" * 4097, "-n 9 -t lent", "-n 9 out", "-n -n", "-n --"]
TAIL += ["-f", "-f -f", "-f -t", "-f out", "-q", "--", "-- -f", "-- -- --", "-ft", "-tlent", "-n9", "---", "-F", "-f=1", "--f", "- -"]
TAIL += ["--json", "--json --json", "--JSON", "--jso", "--json=1", "-h", "--help", "-h -q", "-q -h", "--help -t", "-h out more", "--version"]
TAIL += ["-h --version"]
TAIL += ["--version -q", "--version -f -n x more", "-- -h", "-- --help", "-- --version", "-t --help", "-n --version", "-h --json", "-V", "--versions"]
ANYWHERE = [["-f"], ["-t", "lent"], ["--json"], ["--"], ["-h"], ["-n", 18], ["-t", "lent", "-f", "--"], ["--version"], ["-q"], ["-t"], ["-n"]]
LINES = [[], [""], ["-"], ["--"], ["--", "--"], ["-f"], ["-t"], ["-n"], ["-t", "lent"], ["-n", 3], ["--json"], ["-f", "help"], ["--json", "help"]]
LINES += [["--help"], ["-h"], ["--help", "-h"], ["--version"], ["--version", "--json"], ["--version", "x"], ["--help", "x"], ["x", "--help"]]
LINES += [["-h", ""]]
LINES += [["-h", "--", "-q"], ["-h", "read", "x"], ["help"], ["help", "-h"], ["-h", "help"], ["help", "help"], ["help", "--version"], ["-h", "-q"]]
LINES += [["help", "x"], ["help", ""], ["help", "read", "x"], ["help", "x", "read"], ["help", "-t", "x"], ["help", "-f"], ["help", "-n", 3]]
LINES += [["help", "--json"]]
LINES += [["help", "-n", 3, "-t", 3, "-f", "--json"], ["help", "--json", "-n", 3], ["help", "x", "y", "-f"], ["help", "-q"], ["help", "--", "-f"]]
LINES += [["A" * 4097], ["A" * 4096], ["read", "A" * 4097], ["x", "A" * 4097], ["-" * 4097], ["-" * 4096], ["--", "A" * 4097], ["-h", "A" * 4097]]
LINES += [["help", "A" * 4097], ["read", "-t", "A" * 4097], ["read", "-t", "x", "-t", "A" * 4097], ["-n", "\u00e9" * 2049], ["\u00e9" * 2048]]
LINES += [["word", "row", 50, "x"], ["rate", "row", 50, "x"], ["write", "row", 50, "bits", "-n", "x"], ["join", "row", 50, "-", "-"]]
LINES += [["reads", SHORT, "a"], ["READ", SHORT, "a"], ["rea", SHORT, "a"], [SHORT, "read", "a"], ["--", "read", SHORT, "a"]]
LINES += [["read", "--", SHORT, "a"]]
LINES += [["-f", "read", SHORT, "a"], ["-q", "read"], ["read", "-q"], ["x", "-q"], ["-t", "read"], ["-t", "lent", "-t", "read"], ["-n", "read", "-n"]]
LINES += [["-q", "-t"], ["-t", "read", "read", "-q"], ["read", "-n", 3, "-f", "-t"], ["find", "--json", "-n", 3, "-t", 3, "-f"]]
LINES += [["read", "-n", "x", "-q"]]
LINES += [["rate", SHORT, "x", "-n", "x"], ["write", SHORT, "-n", "x"], ["write", SHORT, "-", "-t", "-", "-n", "x"]]
LINES += [["write", SHORT, "-", "-t", "-", "-n", 9]]
NAMES = ["A" * length for length in (250, 251, 255, 256, 4090, 4095, 4096)]
NAMES += ["with blank", "./a", "./-", "folder/../a", ".//a", "folder//", "a/", "new/"]
NAMES += ["caf\u00e9", "\udcff\udc80", "a/x", "folder/missing/x", "./" * 2000 + "a", "./" * 2000 + "new", ".", "folder/..", "folder", ""]
NAMES += ["{DATA}/a", "{DATA}/new"]
LONG_NAMES = ["./" * 2047 + "a", "./" * 2047 + "-f"]


def line_cases(name, given, files):
    """Lines of one subcommand with words left out, words too many, odd words, and options anywhere."""
    words = list(spelt(given))
    for kept in range(len(words) + 1):
        case([name, *words[:kept]], files)
        case([name, *words[:kept], "--json"], files)
    case([name, *words, "more"], files)
    case([name, *words, ""], files)
    for place in range(len(words) + 2):
        for option in ANYWHERE:
            case([*[name, *words][:place], *option, *[name, *words][place:]], files)
    for place, word in enumerate(words):
        for odd in NO_NUMBERS if word.isdigit() else ["A" * 4097]:
            case([name, *words[:place], odd, *words[place + 1 :]], files)
    for options in TAIL:
        case([name, *words, *options.split(" ")], files)
    if "PROFILE" in SYNOPSES[name]:
        case([name, "row"], files)
        for row in (["row", "x"], ["row", ""], ["Row", 3], ["row", "007"], ["row", "-"], ["row", "-1"], ["row", "row"]):
            case([name, *row, *given[1:]], files)
    case(["help", name], files)
    case([name, "-h"], files)


def lines(chance):
    """Wrong command lines, help and version, and options anywhere."""
    p = SHORT
    files = {"a": stream(p, 2, chance), "bits": bytes(9), "lent": table(p), "-f": b"", "5": bytes(5), "--": table(p), "-t": b"", "folder": folder()}
    right = {
        "read": [p, "a", "out"],
        "check": [p, "a", "5"],
        "write": [p, "bits", "out"],
        "find": [4, 1, "a"],
        "join": [p, "a", "a", "out"],
        "turn": [p, "a", "out"],
        "index": [p, "a"],
        "word": [p, 108, "out"],
        "table": [p, "out"],
        "rate": [p, 3],
        "profiles": [3],
        "list": [p],
        "help": ["read"],
    }
    for name, given in right.items():
        line_cases(name, given, files)
    for line in LINES:
        case(line, files)
    for name in NAMES:
        named = name.replace("{DATA}", str(trials.data))
        both(["read", p, named], files)
        both(["read", p, "a", "-t", named], files)
        both(["word", p, 108, named], files)
        both(["word", p, 108, named, "-f"], files)
    for name in LONG_NAMES:
        both(["read", p, name], files)
        both(["read", p, "a", "-t", name], files)


def loaded(chance):
    """Files that are damaged, missing, closed, or no files, wherever one is read."""
    p = TAKE
    cells, word = stream(p, 24, chance), bytes(second.word_of(p, 1234567))
    of_cells = {
        "empty": b"",
        "short": cells[:-1],
        "over": cells + b"\0",
        "above": changed(cells, 100, 4),
        "most": bytes(65536),
        "long": bytes(65537),
        "longer": bytes(70000),
        "folder": folder(),
        "folder/shut": folder(0o600),
        "closed": file(b"", 0),
        "nowhere": link("nothing"),
        "round": link("round"),
        "led": link("folder/../right"),
        "socket": socket(),
    } | devices()
    small = {"right": cells, "bits": bytes(81), "lent": table(p)}
    files = of_cells | small | {"word": word, "longest": bytes(20448), "too-long": bytes(20449)}
    for name in [*of_cells, "missing", "folder/missing", "missing/missing", "right/missing", "folder/shut/missing", "nowhere/x", "round/x"]:
        loaded_everywhere(p, name, files)
    for name in ("longest", "too-long"):
        both(["write", Profile(32, 128, 1), name, "out"], files)
        both(["write", p, name, "out"], files)
        both(["write", p, name, "out", "-n", 54], files)
    for words in (["read", p, "fed"], ["check", p, "right", "fed", "right"], ["turn", p, "fed", "fed"], ["turn", p, "fed", "fed", "-f"]):
        both(words, small | {"fed": pipe()}, fed={"fed": cells})


def loaded_everywhere(p, name, files):
    """A name in every place where a file is read."""
    both(["read", p, name, "out"], files)
    both(["check", p, name], files)
    both(["check", p, name, "right", name], files)
    both(["turn", p, name, "out"], files)
    both(["join", p, name, "right", "out"], files)
    both(["join", p, "right", name, "out"], files)
    case(["join", p, name, "missing", "out"], files)
    both(["find", 4, 1, name], files)
    both(["index", p, name], files)
    both(["write", p, name, "out"], files)
    case(["write", p, name, "out", "-n", 54], files)
    lent = [["read", p, "right", "out"], ["check", p, "right", "empty"], ["write", p, "bits", "out"], ["index", p, "word"]]
    for words in [*lent, ["word", p, 5, "out"], ["rate", p, 5], ["table", p]]:
        both([*words, "-t", name], files)
    both(["read", p._replace(q=99), name, "out"], files)
    case(["read", p, "missing", "-t", name], files)
    both(["read", "row", 40, name, "out"], files)


def devices():
    """Nodes of devices, where they can be made."""
    return {"null": device(NULL), "zero": device(ZERO), "full": device(FULL)} if trials.nodes else {}


def outputs(p):
    """Every subcommand that writes a file, without the file's name."""
    return [["read", p, "right"], ["write", p, "bits"], ["turn", p, "right"], ["join", p, "right", "right"], ["word", p, 5], ["table", p]]


def saved(chance):
    """Files in the way of an output, folders that are closed, and disks that have no room at all."""
    p = TAKE
    small = {"right": stream(p, 24, chance), "bits": bytes(81), "lent": table(p)}
    there = small | {
        "file": b"as it was",
        "folder": folder(),
        "folder/file": b"as it was too",
        "shut": folder(0o555),
        "shut/file": b"as it was there",
        "dark": folder(0o666),
        "link": link("nothing"),
        "to-file": link("file"),
        "to-folder": link("folder"),
        "to-input": link("right"),
        "round": link("round"),
        "closed": file(b"", 0),
        "pipe": pipe(),
        "socket": socket(),
        "left.part": b"left over",
        "file.part": b"older",
        "new.part": folder(),
    } | devices()
    names = [name for name in there if name not in small and ".part" not in name]
    names += ["left", "new", "folder/new", "to-folder/new", "missing/new", "", "missing/", "file/", "file/new", "dark/new", "shut/new", "round/new"]
    names += ["folder/"]
    for words in outputs(p):
        for over in ([], ["-f"]):
            for name in names:
                both([*words, name, *over], there)
            case([*words, "new", *over], small, closed=True)
            case([*words, "file", *over], small | {"file": b"old"}, closed=True)
            for full in trials.no_room():
                both([*words, "new", *over], small, full=full)
                case([*words, "file", *over], small | {"file": b"old"}, full=full)


def no_room(chance):
    """Disks and limits that have room for a part of an output, or for all."""
    p, empty = TAKE, {"none": b"", "right": stream(LARGEST, 256, chance), "file": b"old"}
    for full in trials.no_room():
        case(["turn", p, "none", "new"], empty, full=full)
        case(["turn", LARGEST, "right", "new"], empty, full=full)
        case(["turn", LARGEST, "right", "new"], empty, full=full, room=2 * PAGE)
        case(["turn", LARGEST, "right", "file", "-f"], empty, full=full, room=2 * PAGE)
    case(["turn", LARGEST, "right", "file", "-f"], empty, full=EFBIG, room=34807)
    case(["turn", LARGEST, "right", "file", "-f"], empty, full=EFBIG, room=34808)
    case(["turn", LARGEST, "right"], empty, closed=True)


def same_files(chance):
    """Outputs that are read too, under the same name, another spelling or another name, by a link, and by the standard streams."""
    p = SHORT
    cells = stream(p, 3, chance)
    files = {"a": cells, "again": same("a"), "b": stream(p, 2, chance), "bits": bytes(9), "t": table(p), "t2": same("t"), "led": link("a")}
    files |= {"folder": folder(), "folder/a": same("a"), "bits2": same("bits"), "copy": cells, "b2": same("b"), "more": b"", "by": link("more")}
    reading = [(["read", p, "a"], "a"), (["turn", p, "a"], "a"), (["turn", p, "led"], "a"), (["join", p, "a", "b"], "a")]
    reading += [(["join", p, "b", "a"], "a")]
    reading += [(["join", p, "a", "b"], "b"), (["write", p, "bits"], "bits"), (["read", p, "a", "-t", "t"], "t")]
    reading += [(["write", p, "bits", "-t", "t"], "t")]
    reading += [(["word", p, 5, "-t", "t"], "t"), (["read", p, "a", "-t", "t2"], "t")]
    names = {"a": ["a", "again", "./a", "folder/a", "folder/../a", "led", "copy"], "b": ["b", "b2"], "bits": ["bits", "bits2"], "t": ["t", "t2"]}
    for words, name in reading:
        for output in names[name]:
            for over in ([], ["-f"]):
                case([*words, output, *over], files)
        case([*words, names[name][-1], "-f", "--json"], files)
        case([*words, "-"], files, stdout=name)
        case([*words, "-", "-f", "--json"], files, stdout=names[name][1])
        case([*words, "-"], files, stdout="more")
        case([*words, "more", "-f"], files, stdout="more")
    for over in ([], ["-f"]):
        for output in (*names["a"], "-", "new"):
            both(["turn", p, "-", output, *over], files, stdin="a")
            both(["read", p, "b", output, "-t", "-", *over], files, stdin="a")
        both(["turn", p, "-", "-", *over], files, stdin="a", stdout="again")
        both(["turn", p, "-", "-", *over], files, stdin="a", stdout="copy")
        both(["turn", p, "a", "-", *over], files, stdin="a", stdout="b")
        both(["read", p, "a", "-", "-t", "-", *over], files, stdin="t", stdout="t2")
    case(["turn", p, "a"], files, stdout="a")
    case(["turn", p, "-"], files, stdin="a", stdout="a")
    case(["turn", p, "fed", "-"], {"fed": pipe(), "out": b""}, fed={"fed": cells}, stdout="out")
    if trials.nodes:
        both(["turn", p, "-", "-"], devices(), stdin="null", stdout="null")
        both(["turn", p, "null", "-"], devices(), stdout="null")
        both(["turn", p, "-", "null", "-f"], devices(), stdin="null")
        both(["turn", p, "-", "-"], devices() | {"a": cells}, stdin="a", stdout="null")


MODES = [0o640, 0o600, 0o444, 0o400, 0o222, 0o000, 0o777, 0o4755, 0o2755, 0o1666, 0o7777]


def modes(chance):
    """A replaced file keeps its mode, and its owner and group where that can be; a new one has what the mask leaves."""
    p = SHORT
    files = {"right": stream(p, 3, chance), "bits": bytes(9)}
    for mode in MODES:
        for words in outputs(p):
            case([*words, "old", "-f"], files | {"old": file(b"old", mode)})
        case(["turn", p, "right", "old"], files | {"old": file(b"old", mode)})
        case(["turn", p, "right", "old", "-f"], files | {"old": file(b"old", mode), "other": same("old")})
        case(["turn", p, "right", "old", "-f"], files | {"old": file(b"old", mode)}, umask=0o077)
    for umask in (0, 0o002, 0o027, 0o077):
        case(["turn", p, "right", "new"], files, umask=umask)
        case(["turn", p, "right", "new", "-f"], files, umask=umask)
    others = [ADMIN, Who(1, 1), Who(1, WHO.group), Who(WHO.user, 1), WHO] if ROOT else []
    for owner in others:
        for mode in MODES:
            old = files | {"old": file(b"old", mode, owner)}
            case(["turn", p, "right", "old", "-f"], old)
            case(["turn", p, "right", "old", "-f"], old, who=ADMIN)
        case(["turn", p, "old", "out"], {"old": file(files["right"], 0o600, owner)})
        case(["turn", p, "old", "out"], {"old": file(files["right"], 0o600, owner)}, who=ADMIN)
    if ROOT:
        as_admin(p, files)


def as_admin(p, files):
    """The program run by root: what is closed to others is open to it, but the checks of an output are the same."""
    there = files | {"file": file(b"old", 0), "link": link("file"), "pipe": pipe(), "folder": folder(0), "again": same("right")} | devices()
    for words in outputs(p):
        for over in ([], ["-f"]):
            for name in [*there, "folder/new", "new", "-"]:
                both([*words, name, *over], there, who=ADMIN)
            case([*words, "new", *over], files, who=ADMIN, closed=True)


def left_overs(chance):
    """What a program that was killed leaves, and files of the names that an older one used, are no hindrance."""
    p = SHORT
    files = {"right": stream(p, 3, chance), "bits": bytes(9)}
    claim = {".remi-claim": folder(0o700), ".remi-claim/out": b"half"}
    left = [claim, {".remi-claim": folder(0o700)}, {".remi-1-0": folder(0o700), ".remi-1-0/out": b"half"}, {"out.part": b"half"}]
    left += [{".remi-claim": folder(0), ".remi-claim/other": file(b"", 0)}, claim | {".remi-1-0": folder(), ".remi-claim/folder": folder()}]
    left += [{f".remi-{number}-{k}": folder(0o700) for number in (1, 2) for k in range(3)} | claim]
    left += [{f".remi-claim{file}": entry for file, entry in [("", folder(0o755, ADMIN)), ("/out", file(b"half", 0o600, ADMIN))]}] * ROOT
    for there in left:
        for words in outputs(p):
            case([*words, "out"], files | there)
            case([*words, "out", "-f"], files | there | {"out": b"old"})
        case(["turn", p, "right", "out"], files | there | {"out": b"old"})
        case(["turn", p, "right", "right", "-f"], files | there)
        case(["turn", p, "right", "-"], files | there)
        case(["turn", p, "bits", "out"], files | there)
        case(["turn", p, "right", "out"], files | there, closed=True)
        case(["turn", p, "right", "out"], files | there, full=EFBIG)
        if not any(name.startswith(".remi-claim/") for name in there):
            case(["turn", p, "right", "out"], files | there, left_over=True)
        inside = {f"folder/{name}": entry for name, entry in there.items()}
        case(["turn", p, "right", "folder/out"], files | {"folder": folder()} | inside)
        case(["turn", p, "right", "folder/out"], files | {"folder": folder()} | inside | claim)
    for words in outputs(p):
        case([*words, "out"], files, left_over=True)


def failing(chance):
    """Standard output and standard error that are closed, broken, full, or have no room for all."""
    p = SHORT
    files = {"right": stream(p, 3, chance), "wrong": bytes([9]), "bits": bytes(9), "told": b""} | devices()
    telling = [["read", p, "right"], ["read", p, "wrong"], ["check", p, "right", "wrong", "missing"], ["write", p, "bits"], ["find", 4, 1, "right"]]
    telling += [["join", p, "right", "right"], ["turn", p, "right"], ["index", p, "wrong"], ["word", p, 5], ["table", p], ["rate", p, 5]]
    telling += [["profiles"]]
    telling += [["profiles", 3], ["list", 2, 3, 1], ["list", 4, 14, 1], ["read", "row", 40, "right"], ["read", p, "missing"]]
    telling += [["read", p, "right", "new"]]
    telling += [["turn", p, "right", "told"], ["turn", p, "right", "-"], ["turn", p, "wrong", "-"], ["read", p, "missing", "-"]]
    silent = [["help"], ["help", "read"], ["-h"], ["--version"], ["read", "-h"], ["read"], ["x"], []]
    for words in [*telling, *([*line, "--json"] for line in telling), *silent]:
        for error in (EBADF, EPIPE, *["full"] * trials.nodes):
            case(words, files, stdout=error)
            case(words, files, stderr=error)
            case(words, files, stdout=error, stderr=error)
        case(words, files, stdin=EBADF)
        case(words, files, stdin=EBADF, stdout=EBADF, stderr=EBADF)
        if "right" not in words[-2:]:
            for room in (0, 1, 20):
                case(words, files, stdout="told", full=EFBIG, room=room)
                case(words, files, stderr="told", full=EFBIG, room=room)
    for words in outputs(p):
        for error in (EBADF, EPIPE, *["full"] * trials.nodes):
            both([*words, "out"], files, stdout=error)
            both([*words, "-"], files, stdout=error)
            both([*words, "-"], files, stderr=error)
        for room in (0, 1, 4):
            both([*words, "-"], files, stdout="told", full=EFBIG, room=room)


def standard(chance):
    """The name - for standard input and standard output, wherever a file is named."""
    p = SHORT
    cells, damaged = stream(p, 3, chance), changed(stream(p, 3, chance), 7, 4)
    files = {"a": cells, "-": stream(p, 2, chance), "bits": bytes(9), "t": table(p), "folder": folder(), "closed": file(b"", 0), "word": bytes(5)}
    reads = [["read", p, "-"], ["check", p, "-"], ["check", p, "a", "-", "missing"], ["turn", p, "-"], ["join", p, "-", "a"], ["join", p, "a", "-"]]
    reads += [["find", 4, 1, "-"], ["index", p, "-"], ["write", p, "-"], ["read", p, "a", "-t", "-"], ["check", p, "a", "a", "-t", "-"]]
    reads += [["rate", p, 5, "-t", "-"]]
    reads += [["write", p, "bits", "-t", "-"], ["index", p, "word", "-t", "-"], ["word", p, 5, "-t", "-"], ["table", p, "-t", "-"]]
    for words in reads:
        for data in (cells, damaged, b"", bytes(5), bytes(9), table(p), bytes(65536), bytes(65537), bytes(70000), "a", "t", "folder", EBADF):
            both(words, files, stdin=data)
        output = [["-"]] * (words[0] in ("read", "write", "join", "turn", "word"))
        for more in output + [["./-"], ["./-", "-f"]] * bool(output):
            both([*words, *more], files, stdin=cells)
            both([*words, *more], files, stdin=damaged)
            both([*words, *more], files, stdin=table(p))
    writes = [["read", p, "a"], ["write", p, "bits"], ["turn", p, "a"], ["join", p, "a", "./-"], ["word", p, 5], ["table", p], ["turn", p, "missing"]]
    for words in writes:
        both([*words, "-"], files)
        both([*words, "-", "-f"], files)
        both([*words, "--", "-"], files)
        both([*words, "./-"], files)
        both([*words, "./-", "-f"], files)
    both(["read", p._replace(q=40), "a", "-"], files)
    both(["read", "row", 40, "a", "-"], files)
    both(["word", p, 10**9, "-"], files)
    twice = [["read", p, "-", "-t", "-"], ["join", p, "-", "-"], ["join", p, "-", "-", "-"], ["check", p, "-", "-"], ["check", p, "-", "a", "-"]]
    twice += [["check", p, "-", "-t", "-"], ["write", p, "-", "-t", "-"], ["index", p, "-", "-t", "-"], ["check", p, "--", "-", "-"]]
    for words in twice:
        both(words, files, stdin=cells)
    both(["check", p, "-", "./-"], files, stdin=cells)
    case(["read", p, "a", "-", "-"], files)


ODD_NAMES = ["new\nline", "\x1b[31mred", "tab\there", "\x7f", "\r", "\u0085", "\u009b31m", "\u202etxt", "\u061c", "\u200e\u200f", "\u2028\u2029"]
ODD_NAMES += ["\u2066\u2069"]
ODD_NAMES += ["back\\slash", "\\x41", "\\", "it's", 'quo"te', "`$(x)`", "\u00a0", "\u00ad\ufeff\u200b\u2065\u206a\u2027\u202f\u061b"]
ODD_NAMES += ["\u65e5\u672c", "\U0001f600"]
ODD_BYTES = [b"\x80", b"\xff\xfe", b"caf\xe9", b"\xc0\x80", b"\xc1\xbf", b"\xe0\x9f\xbf", b"\xed\xa0\x80", b"\xed\xbf\xbf", b"\xee\x80\x80"]
ODD_BYTES += [b"\xf0\x8f\xbf\xbf"]
ODD_BYTES += [b"\xf4\x8f\xbf\xbf", b"\xf4\x90\x80\x80", b"\xf5\x80\x80\x80", b"\xe2\x82", b"\xe2\x82x", b"\xe2\xe2\x82\xac", b"\xf0\x9f\x98"]
ODD_BYTES += [b"\xf0\x9f\x98\xc3\xa9"]
ODD_BYTES += [b"\xc3", b"\xc3\xc3\xa9", b"a\xf8\x88\x80\x80\x80z", b"\xc2\x80\xc2\x9f\xc2\xa0", b"\xe2\x80\xaa\xe2\x80\xae\xe2\x80\xaf"]
ODD_BYTES += [b"\xef\xbf\xbf", b"\xdf\xbf"]
ODD_BYTES += [bytes(range(1, 47)), bytes(range(48, 128)), bytes(range(128, 192)), bytes(range(192, 256))]


def names(chance):
    """Names that could mislead who reads them, in every place where a name is printed."""
    p = SHORT
    cells = stream(p, 3, chance)
    damaged = changed(cells, 7, 4)
    together = "".join(ODD_NAMES[:16])
    for name in [*ODD_NAMES, together, *map(os.fsdecode, ODD_BYTES)]:
        good, wrong, missing, to = f"{name}.good", f"{name}.wrong", f"{name}.missing", f"{name}.link"
        files = {good: cells, wrong: damaged, name: table(p), "a": cells, "folder": folder(), f"folder/{name}": cells, to: link(name)}
        lines = [["turn", p, good, missing], ["read", p, wrong], ["check", p, good, wrong, missing, "-t", name], [f"-{name}"], ["rate", p, name]]
        for line in lines + everywhere(p, name, good, wrong, missing, to) * (name in (together, *ODD_NAMES[12:15], os.fsdecode(ODD_BYTES[0]))):
            both(line, files)


def everywhere(p, name, good, wrong, missing, to):
    """Lines that have a table's name, a good and a damaged dump, a missing file and a link in every place that is printed."""
    lines = [["read", p, good, "out"], ["read", p, missing], ["turn", p, good, good], ["turn", p, "a", good], ["turn", p, "a", to]]
    lines += [["turn", p, good, wrong, "-f"]]
    lines += [["turn", p, good, f"{missing}/x"], ["turn", p, f"folder/{name}"], ["find", 4, 1, wrong], ["index", p, good], ["join", p, good, wrong]]
    lines += [["join", p, wrong, good], ["join", p, good, good, missing], ["join", p, good, name], ["write", p, good]]
    lines += [["write", p, name, missing, "-n", 9]]
    lines += [["read", p, good, "-t", name], ["read", p, good, "-t", missing], ["read", p, good, "-t", wrong], ["table", p, missing]]
    lines += [["table", p, good]]
    lines += [["table", p, "-t", name], ["word", p, 5, missing, "-t", name], ["index", p, good, "-t", name], ["rate", p, 5, "-t", name]]
    lines += [["read", p, good, "-"]]
    lines += [[name], ["help", name], [f"--{name}"], ["read", f"-{name}"], ["read", p, "a", "out", name], ["profiles", name], ["read", "row", name]]
    return lines + [["write", p, "a", "-n", name], ["read", p, f"{name}/x"], ["-h", name], ["help", "read", name]]


def checked(chance):
    """Many files, one and none; each is told of before the next is opened, and trouble in its place."""
    p = TAKE
    right, dark = stream(p, 3, chance), changed(stream(p, 3, chance), 20, 4)
    kinds = {"right": right, "dark": dark, "zeros": bytes(p.m), "tops": bytes([3] * p.m), "short": right[1:], "bridge": changed(right, p.m, 1)}
    kinds |= {"closed": file(b"", 0), "folder": folder(), "link": link("right"), "nowhere": link("nothing"), "t": table(p), "t2": table(LARGEST)}
    both(["check", p], kinds)
    both(["check", p, *kinds], kinds)
    both(["check", p, *kinds, *kinds, "-t", "t"], kinds)
    both(["check", *kinds], kinds)
    for lent in kinds:
        both(["check", p, "right", "dark", "-t", lent], kinds)
    for name in kinds:
        both(["check", p, name], kinds)
        both(["check", p, name, "right"], kinds, merged=True)
        both(["check", p, "missing", name], kinds, merged=True)
    many = {f"{kind}{number}": chance.choice([right, dark, right[1:], bytes(p.m)]) for number in range(75) for kind in "abcd"}
    both(["check", "row", ROW[p], *many], many)
    both(["check", p, *many, "missing", *many], many, merged=True)
    told_in_time(p, right)


def told_in_time(p, cells):
    """What is told of a file is written out before the next one is opened, which is a pipe that no one writes to until then."""
    files = {"cells": entry_of(cells), "pipe": entry_of(pipe())}
    arguments = list(spelt(["check", p, "cells", "pipe"]))
    trials.prepare(files)
    with trials.started(arguments, stdout=subprocess.PIPE, stderr=subprocess.PIPE) as program:
        late = threading.Timer(SECONDS, program.kill)
        late.start()
        first = program.stdout.readline()
        feeder = feeding(trials.data / "pipe", cells)
        out, err = program.communicate()
        late.cancel()
        feeder.join(SECONDS)
    right = remi(arguments, files, WHO, fed={"pipe": cells})
    trials.compare(arguments, right, right.files, program.returncode, first + out, err)


def by_chance(chance, times):
    """Profiles, damage, tables and options by chance."""
    for _ in range(times):
        drawn = Profile(chance.randint(2, 32), chance.randint(3, 30), chance.randint(1, 8))
        p = chance.choice(SMALL + LARGE[:3] + [drawn] * 10)
        s = second.message_length(p)
        n = chance.choice([0, 1, 2, 3, 5, 8])
        dump, data, lent = map(bytearray, (stream(p, n, chance), bits(p, n, chance), table(p)))
        for _ in range(chance.choice([0, 0, 1, 1, 2, 5])):
            if dump:
                dump[chance.randrange(len(dump))] = chance.choice([0, p.q - 1, p.q - 1, chance.randrange(p.q), p.q, 255])
            if data:
                data[-1] ^= chance.choice([0, 0, 1])
        fault = chance.choice(["none", "none", "reach", "limb", "short"])
        if fault == "reach":
            lent = bytearray(table(p._replace(x=chance.randint(1, 8))))
        elif fault == "limb":
            lent[chance.randrange(len(lent))] ^= 1 << chance.randrange(8)
        elif fault == "short":
            del lent[chance.randrange(len(lent)) :]
        if chance.random() < 0.2:
            dump = dump + b"\0" if chance.random() < 0.5 else dump[:-1]
        word = bytes(dump[: p.m]) if chance.random() < 0.7 else bytes(chance.choices(range(p.q), k=p.m))
        files = {"dump": bytes(dump), "bits": bytes(data), "lent": bytes(lent), "word": word}
        files["more"] = stream(p, chance.choice([0, 1, 2]), chance)
        if chance.random() < 0.3:
            files["out"] = b"there before"
        line_by_chance(chance, p, n * s, n, files)


def line_by_chance(chance, p, count, n, files):
    """A command line on these files, its options at places by chance."""
    out = [chance.choice(["out", "out", "-", "dump"])] * (chance.random() < 0.7)
    takes = {
        "read": ["dump", *out],
        "check": chance.choices(["dump", "more", "word", "missing", "-"], k=chance.randint(1, 4)),
        "write": ["bits", *out],
        "find": ["dump"],
        "join": [*chance.sample(["dump", "more"], 2), *out],
        "turn": ["dump", *out],
        "index": ["word"],
        "word": [chance.randrange(second.count(p) + 2), *out],
        "table": out,
        "rate": [chance.choice([n, 256, 257, chance.randrange(1000)])],
        "list": [],
    }
    name = chance.choice([*takes, "read", "read", "write", "join"])
    words = [[word] for word in [name, *((p.q, p.x) if name == "find" else spelt([p])), *takes[name]]]
    options = [["-f"], ["-t", "lent"], ["-t", "lent"], ["-n", count + chance.choice([0, 0, 0, 1])], ["--json"], ["--json"]]
    for option in chance.sample(options, chance.choice([0, 1, 1, 2, 3])):
        words.insert(chance.randrange(len(words) + 1), option)
    case([word for part in words for word in part], files, stdin=files["dump"])


def not_met():
    """What the cases should have told, and did not."""
    for name, numbers in NUMBERS.items():
        for how in (False, True):
            missing = numbers ^ trials.numbers[name, how]
            if missing:
                yield f"{name}{' --json' * how}: {sorted(missing, key=str)}"
    for line in [*(f"{fault};" for fault in FAULTS), *TROUBLES]:
        if not any(line in told for told in trials.errors):
            yield line


GROUPS = [good, refusals, places, lines, loaded, saved, no_room, same_files, modes, left_overs, failing, standard, names, checked]
for number, group in enumerate(GROUPS):
    group(random.Random(number))
by_chance(random.Random(20), 600)
missing = list(not_met())
if missing or trials.different:
    sys.exit("\n".join([*(f"no case tells this: {line}" for line in missing), f"{trials.different} of {trials.cases} cases differ"]))
tried = "every subcommand, number, fault and trouble met, as text and as JSON"
left_out = ["files of other owners, and a program run by root"] * (not ROOT)
left_out += ["nodes of devices"] * (not trials.nodes) + ["a full disk"] * (not trials.mounts) + ["the exit status"] * (not trials.with_status)
print(f"remi: {trials.cases} cases, {tried}" + (f"; not tried here: {', '.join(left_out)}" if left_out else ""))
