"""The program remi a second time, over tests/second.py: what it prints, its exit status, and which files are there afterwards.

It shares no code with the crates. tests/remi_line.py reads the command line, and tests/remi_disk.py has the files and the standard streams.
"""

import json
import os
import re
import subprocess
from collections import Counter
from functools import cache
from pathlib import Path
from typing import NamedTuple

import second
from remi_disk import Disk, Trouble
from remi_line import HELP, LINES, STANDARD, Fault, escaped, parsed

WORKSPACE = Path(__file__).parent.parent / "rust/Cargo.toml"
DONE, REFUSED, FAILED = 0, 1, 2
MOST_CELLS, MOST_BYTES = 65536, 20448
AMONG_CELLS = {10, 11, 13, 14, 15, 16}
TOO_MANY = "too many"


class Refused(Exception):
    """A call is refused: its reply, what is told under it, and what is told of it as JSON."""

    def __init__(self, reply, about="", fields=None):
        super().__init__(second.in_words(reply))
        self.number, self.about = reply.number, about
        self.fields = {"number": reply.number, "place": reply.place, "told": str(self)} | (fields or {})


class Result(NamedTuple):
    """What a run prints and leaves, and the numbers that it tells."""

    out: bytes
    err: bytes
    status: int
    files: dict
    numbers: set


@cache
def version():
    """The line that names the version of the program and of the kit."""
    own = re.search(r'^\[workspace\.package\]\n(?:.+\n)*?version = "(.*)"$', WORKSPACE.read_text(), re.M)[1]
    kit = subprocess.run(["rt", "version"], check=True, capture_output=True, text=True).stdout
    return f"remi {own}, {kit.strip()}\n"


def usage(name):
    """The use of one subcommand: the help text without its first two lines and the lines of the others."""
    return "".join(line for line in HELP.splitlines(keepends=True)[2:] if line == LINES[name] or line not in LINES.values())


def shown(name):
    """The name of a file that is read, as it is printed."""
    return "standard input" if name == STANDARD else escaped(name)


def in_json(name):
    return STANDARD if name == STANDARD else escaped(name)


def counted(count, most):
    """How many there are, as JSON tells it: none where there are more than a call takes."""
    return count if count <= most else None


def about_length(reply, name, count, most, what):
    more = "more than " if count > most else ""
    return f"  {shown(name)}: {more}{min(count, most)} {what}\n" if reply.number == 7 else ""


def around(name, cells, place):
    """The cells around a place, up to eight on each side."""
    near = range(max(place - 8, 0), min(place + 9, len(cells)))
    levels = " ".join(f"[{cells[i]}]" if i == place else str(cells[i]) for i in near)
    return f"  cells {near[0]} to {near[-1]} of {shown(name)}: {levels}\n"


def spot(p, place):
    """Which word or bridge of a stream a place lies in."""
    word, cell = divmod(place, p.m + p.x)
    start = place - cell
    if cell < p.m:
        return f"  cell {cell} of word {word}, which is cells {start} to {start + p.m - 1}\n"
    return f"  cell {cell - p.m} of the bridge behind word {word}, which is cells {start + p.m} to {start + p.m + p.x - 1}\n"


def about_cells(reply, name, cells, profile=None):
    """What is told of refused cells: their number, or those around the place; with a profile they are a stream."""
    if reply.number < 10:
        return about_length(reply, name, len(cells), MOST_CELLS, "cells")
    return around(name, cells, reply.place) + (spot(profile, reply.place) if profile else "")


def spotted(reply, profile=None):
    """The place of refused cells, as JSON tells it."""
    if reply.number not in AMONG_CELLS:
        return {}
    if profile is None:
        return {"at": reply.place}
    word, cell = divmod(reply.place, profile.m + profile.x)
    return {"at": reply.place, "word": word, "bridge": cell >= profile.m}


def listed(line):
    """A line of a list, as JSON tells it."""
    index, levels, message = line.split()
    return {"index": int(index), "levels": list(map(int, levels.split(","))), "message": None if message == "-" else int(message)}


class Run:
    """One run of the program: each subcommand tells what there is to tell, and answers the exit status. `numbers` takes the numbers that are told."""

    def __init__(self, call, disk, numbers):
        self.call, self.disk, self.numbers, self.untold = call, disk, numbers, False
        self.words, self.profile = call.words, call.profile
        self.json, self.told = "--json" in call.options, disk.err if call.output == STANDARD else disk.out
        self.lent_fields = {"table": in_json(call.options["-t"])} if "-t" in call.options else {}

    def status(self):
        """Runs it. Where something cannot be told, the call is not done."""
        status = self.outcome()
        return FAILED if self.untold else status

    def outcome(self):
        """Tells the outcome, whatever it is."""
        try:
            if self.call.row is not None:
                published = second.published(self.call.row)
                if published.reply.number:
                    raise Refused(published.reply)
                self.profile = published.profile
            return getattr(self, self.call.name)()
        except Refused as refused:
            self.tell(f"{refused}\n{refused.about}", REFUSED, refused.fields)
            return REFUSED
        except Trouble as trouble:
            return self.report(trouble)

    def tell(self, text, status=DONE, fields=None):
        """Tells something, as text or as JSON; there are no fields for what is told as text only. What cannot be told is reported,
        and then nothing more is told."""
        fields = fields or {}
        self.numbers |= {fields.get("number", fields.get("told"))} - {None}
        if self.json and fields:
            text = json.dumps({"command": self.call.name, "status": status} | fields, separators=(",", ":"), ensure_ascii=False) + "\n"
        error = 0 if self.untold else self.told.write(text.encode())
        self.untold |= error != 0
        if error and self.told is self.disk.out:
            self.disk.err.write(f"cannot write standard output: {os.strerror(error)}\n".encode())

    def report(self, trouble):
        """Tells what could not be done with a file."""
        self.disk.err.write(f"{trouble}\n".encode())
        if self.json:
            self.tell("", FAILED, {"trouble": in_json(trouble.name)})
        return FAILED

    def settle(self, reply, about="", fields=None):
        """Goes on if a call is done."""
        if reply.number:
            raise Refused(reply, about, (fields or {}) | self.lent_fields)

    def done(self, text, fields, content=b""):
        """Tells of a call that is done, its output saved where it is named."""
        output = self.call.output
        if output is not None:
            self.disk.save(output, bytes(content), "-f" in self.call.options)
            text += f", in {'standard output' if output == STANDARD else escaped(output)}"
            fields = fields | {"output": in_json(output)}
        self.tell(f"done: {text}\n", DONE, {"number": 0, "place": 0} | fields | self.lent_fields)
        return DONE

    def load(self, what="CELLS"):
        return self.words[what], list(self.disk.load(self.words[what]))

    def lent(self):
        """The table that -t names, or one that is built; of a profile out of range there is none."""
        if "-t" not in self.call.options:
            return [] if second.refused_profile(self.profile) else second.table_of(self.profile)
        data = self.disk.load(self.call.options["-t"])
        return [int.from_bytes(data[i : i + 8], "little") for i in range(0, len(data) - 7, 8)]

    def settle_cells(self, reply, name, cells, profile=None):
        """Goes on if a call on one file of cells is done."""
        fields = {"cells": counted(len(cells), MOST_CELLS)} | spotted(reply, profile) | {"input": in_json(name)}
        self.settle(reply, about_cells(reply, name, cells, profile), fields)

    def dump(self, name, cells, table):
        """The bits of a dump: how many, their bytes, and what is told of them as JSON."""
        reply, bits, data = second.read(self.profile, table, cells, [0] * MOST_BYTES)
        self.settle_cells(reply, name, cells, self.profile)
        return bits, data[: -(-bits // 8)], {"cells": len(cells), "bits": bits, "input": in_json(name)}

    def read(self):
        name, cells = self.load()
        bits, data, fields = self.dump(name, cells, self.lent())
        return self.done(f"{len(cells)} cells read as {bits} bits", fields, data)

    def check(self):
        table, statuses, numbers = self.lent(), [], Counter()
        for name in self.words["CELLS"]:
            statuses.append(self.check_one(name, table, numbers))
        parts = [f"{statuses.count(DONE)} done"] * (DONE in statuses)
        parts += [f"{count} refused {number}" for number, count in sorted(numbers.items())]
        parts += [f"{statuses.count(FAILED)} not read"] * (FAILED in statuses)
        kinds = {kind: statuses.count(status) for kind, status in [("done", DONE), ("refused", REFUSED), ("not_read", FAILED)]}
        self.tell(f"{len(statuses)} files: {', '.join(parts)}\n", max(statuses), {"files": len(statuses)} | kinds)
        return max(statuses)

    def check_one(self, name, table, numbers):
        """Tells of one file of check; `numbers` counts the refusals."""
        try:
            cells = list(self.disk.load(name))
            bits, _, fields = self.dump(name, cells, table)
            told = f"{shown(name)}: done, {len(cells)} cells read as {bits} bits\n"
            self.tell(told, DONE, {"number": 0, "place": 0} | fields | self.lent_fields)
            return DONE
        except Refused as refused:
            numbers[refused.number] += 1
            self.tell(f"{shown(name)}: {refused}\n", REFUSED, refused.fields)
            return REFUSED
        except Trouble as trouble:
            return self.report(trouble)

    def write(self):
        (name, data), table = self.load("BITS"), self.lent()
        held = 8 * len(data)
        over = held % (second.rate(self.profile, table, 1).bits or 1)
        bits = self.call.options.get("-n", held - over if over < 8 else held)
        reply, count, cells = second.write(self.profile, table, data, bits, [0] * MOST_CELLS)
        about = about_length(reply, name, len(data), MOST_BYTES, "bytes")
        self.settle(reply, about, {"bytes": counted(len(data), MOST_BYTES), "input": in_json(name)})
        fields = {"bits": bits, "cells": count, "input": in_json(name)}
        return self.done(f"{bits} bits written as {count} cells", fields, cells[:count])

    def find(self):
        name, cells = self.load()
        self.settle_cells(second.find(self.words["Q"], self.words["X"], cells), name, cells)
        return self.done(f"no forbidden pattern in {len(cells)} cells", {"cells": len(cells), "input": in_json(name)})

    def join(self):
        streams = [self.load("FIRST"), self.load("SECOND")]
        first, then = (cells for _, cells in streams)
        reply, count, joined = second.join(self.profile, first, then, [0] * (2 * MOST_CELLS))
        late = reply.place >= len(first)
        local = reply._replace(place=reply.place - len(first)) if late else reply
        of_names = {what: in_json(name) for what, (name, _) in zip(("first", "second"), streams)}
        place = {"file": ("first", "second")[late]} | spotted(local, self.profile) if reply.number in AMONG_CELLS else {}
        lengths = {f"{what}_cells": counted(len(cells), MOST_CELLS) for what, (_, cells) in zip(of_names, streams)}
        refused = streams if reply.number < 10 else [streams[late]]
        self.settle(reply, "".join(about_cells(local, *stream, self.profile) for stream in refused), lengths | place | of_names)
        text = f"{len(first)} cells and {len(then)} cells joined as {count} cells"
        return self.done(text, lengths | {"cells": count} | of_names, joined[:count])

    def turn(self):
        name, cells = self.load()
        reply, count, turned = second.turn(self.profile, cells, [0] * MOST_CELLS)
        self.settle_cells(reply, name, cells, self.profile)
        return self.done(f"{count} cells turned", {"cells": count, "input": in_json(name)}, turned[:count])

    def index(self):
        name, cells = self.load()
        reply, index = second.index(self.profile, self.lent(), cells)
        self.settle_cells(reply, name, cells)
        return self.done(f"index {index}", {"index": str(index), "input": in_json(name)})

    def word(self):
        limbs = second.limbs_of(min(self.words["INDEX"], 2**640 - 1))
        reply, count, cells = second.word(self.profile, self.lent(), limbs, [0] * 128)
        self.settle(reply)
        return self.done(f"word {','.join(map(str, cells[:count]))}", {"word": cells[:count]}, cells[:count])

    def table(self):
        m, limbs = self.profile.m, self.lent()
        self.settle(second.refused_profile(self.profile) or second.refused_table(self.profile, limbs) or second.DONE)
        if "-t" in self.call.options:
            return self.done("the table belongs", {})
        if self.call.output is not None:
            return self.done(f"{m + 1} rows", {"rows": m + 1}, b"".join(limb.to_bytes(8, "little") for limb in limbs))
        counts = [second.count(second.with_length(self.profile, i)) for i in range(m + 1)]
        lines = "".join(f"\nN({i}) = {n}" for i, n in enumerate(counts))
        return self.done(f"{m + 1} rows, N(0) to N({m}){lines}", {"rows": m + 1, "counts": list(map(str, counts))})

    def rate(self):
        words = self.words["WORDS"]
        reply, bits, cells = second.rate(self.profile, self.lent(), words)
        self.settle(reply)
        return self.done(f"{words} words carry {bits} bits in {cells} cells", {"words": words, "bits": bits, "cells": cells})

    def profiles(self):
        for row in [self.words["ROW"]] if "ROW" in self.words else range(len(second.ROWS)):
            reply, p, s = second.published(row)
            self.settle(reply)
            fields = {"number": 0, "place": 0, "row": row} | p._asdict() | {"s": s}
            if not self.untold:
                self.tell(f"row {row}: q {p.q}, m {p.m}, x {p.x}, s {s}\n", DONE, fields)
        return DONE

    def list(self):
        self.settle(second.refused_profile(self.profile) or second.DONE)
        text = second.printed(second.line_of(self.profile))
        if text == f"{TOO_MANY}\n":
            self.tell(text, REFUSED, {"told": TOO_MANY})
            return REFUSED
        first, *lines = text.splitlines()
        counts = dict(zip(("q", "m", "x", "words", "bits"), map(int, first.split())))
        self.tell(text, DONE, {"number": 0, "place": 0} | counts | {"list": [listed(line) for line in lines]})
        return DONE

    def help(self):
        self.tell(usage(self.words["SUBCOMMAND"]) if "SUBCOMMAND" in self.words else HELP)
        return DONE

    def version(self):
        self.tell(version())
        return DONE


def remi(arguments, files, who, **how):
    """What is printed on standard output and on standard error, the exit status, and the files afterwards; `how` as a disk takes it."""
    disk, numbers = Disk(files, who, **how), set()
    try:
        status = Run(parsed(arguments), disk, numbers).status()
    except Fault as fault:
        disk.err.write(f"{fault}\n".encode())
        status = FAILED
    return Result(*disk.printed(), status, disk.after(), numbers)
