"""The files and the standard streams that remi meets, a second time: what a reader of each name gets, and what writing leaves behind.

A directory is a dictionary from names to entries. A name is looked up part by part, as the system does it; an error is an OSError with the number
that the system gives. Two names of one file are one entry under both, and an entry tells which file it is.
"""

import os
from errno import EACCES, EILSEQ, EISDIR, ELOOP, ENAMETOOLONG, ENOENT, ENOSPC, ENOTDIR, ENXIO
from typing import NamedTuple

from remi_line import STANDARD, escaped

MOST_PART, MOST_PATH, MOST_LINKS = 255, 4095, 40
READ, WRITE, SEARCH = 4, 2, 1
PLAIN_MODE, NINE_BITS, NOT_THE_GROUP = 0o666, 0o777, 0o707
NULL, ZERO, FULL = (1, 3), (1, 5), (1, 7)
ENDLESS = bytes(70000)
CLAIM, MOVED = ".remi-claim", ".remi-PID-K"


class Who(NamedTuple):
    """Who runs the program, or owns a file."""

    user: int
    group: int


class Entry(NamedTuple):
    """What stands under a name. `held`: the bytes of a file, where a link leads to, the numbers of a device, the other name of the same file."""

    kind: str
    held: object = b""
    mode: int = 0o644
    owner: Who | None = None


def file(content, mode=0o644, owner=None):
    return Entry("file", content, mode, owner)


def folder(mode=0o777, owner=None):
    return Entry("folder", b"", mode, owner)


def link(target):
    return Entry("link", target, 0)


def pipe(mode=0o666):
    return Entry("pipe", b"", mode)


def socket(mode=0o666):
    return Entry("socket", b"", mode)


def device(numbers, mode=0o666, owner=None):
    return Entry("device", numbers, mode, owner)


def same(name):
    """A second name of a file."""
    return Entry("same", name)


class Trouble(Exception):
    """What could not be done with a file, and the file's name."""

    def __init__(self, name, line):
        super().__init__(line)
        self.name = name


def stop_at(error):
    """Stops where there is an error."""
    if error:
        raise OSError(error, os.strerror(error))


class Stream:
    """A standard stream: the entry behind it, what it took, and the error that it gives once it has no room."""

    def __init__(self, entry=None, error=0, room=0):
        self.entry, self.error, self.room, self.taken = entry, error, room, bytearray()

    def write(self, text):
        """Takes what there is room for; gives the error where that is not all."""
        fits = text[: self.room] if self.error else text
        self.taken += fits
        self.room -= len(fits)
        return self.error if len(fits) < len(text) else 0


class Disk:
    """The files of the folder `place`, in which the program runs, and its standard streams.

    A stream is the bytes of a pipe (standard input) or a pipe that is looked at (None), the error number that it gives, or the name of the file
    behind it; `merged`: both outputs are one. `closed`: no file can be made in the folder. `full`: the error that a file of more than `room` bytes
    gives. `fed`: what the pipes hold, by their names.
    """

    def __init__(self, files, who, place="", stdin=b"", stdout=None, stderr=None, merged=False, closed=False, full=0, room=0, fed=(), umask=0):
        self.who, self.place, self.full, self.room, self.fed, self.umask = who, place, full, room, dict(fed), umask
        self.files, self.read = {"": folder(0o555 if closed else 0o777, who)}, []
        for name, entry in files.items():
            self.files[name] = self.files[entry.held] if entry.kind == "same" else entry._replace()
        self.stdin, self.out = stdin, self.stream(stdout)
        self.err = self.out if merged else self.stream(stderr)

    def stream(self, behind):
        """A standard stream for writing."""
        if not isinstance(behind, str):
            return Stream(None, behind or 0)
        entry = self.files[behind]
        if entry.kind == "device":
            return Stream(entry, ENOSPC if entry.held == FULL else 0)
        return Stream(entry, self.full, max(self.room - len(entry.held), 0))

    def printed(self):
        """What is seen of standard output and standard error: nothing where a file stands behind it, or where it is merged with the other."""
        out, err = (b"" if stream.entry else bytes(stream.taken) for stream in (self.out, self.err))
        return out, b"" if self.err is self.out else err

    def after(self):
        """The files as they are left: what a stream took stands in the file behind it."""
        left = {}
        for name, entry in self.files.items():
            taken = [bytes(stream.taken) for stream in (self.out, self.err) if stream.entry is entry and entry.kind == "file"]
            left[name] = entry._replace(held=entry.held + b"".join(taken)) if taken else entry
        del left[""]
        return left

    def may(self, entry, what):
        """Whether the one who runs the program may read, write or search."""
        user, group = entry.owner
        shift = 6 if user == self.who.user else 3 if group == self.who.group else 0
        return self.who.user == 0 or bool(entry.mode >> shift & what)

    def enter(self, key):
        """Stops where no folder stands under a key, or one that may not be searched."""
        if key not in self.files:
            stop_at(ENOENT)
        if self.files[key].kind != "folder":
            stop_at(ENOTDIR)
        if not self.may(self.files[key], SEARCH):
            stop_at(EACCES)

    def key(self, name, follow):
        """Where a name leads. A link at its end is followed if that is asked for, one before the end always. Only UTF-8 is a name."""
        if not name or len(os.fsencode(name)) > MOST_PATH:
            stop_at(ENAMETOOLONG if name else ENOENT)
        if any("\ud800" <= part <= "\udfff" for part in name):
            raise OSError(EILSEQ, "invalid filename")
        key, left, links = "", name.removeprefix(f"{self.place}/").split("/"), 0
        while left:
            part = left.pop(0)
            self.enter(key)
            if len(os.fsencode(part)) > MOST_PART:
                stop_at(ENAMETOOLONG)
            if part == "..":
                key = key.rpartition("/")[0]
            elif part not in ("", "."):
                before, key = key, f"{key}/{part}".strip("/")
                entry = self.files.get(key)
                if entry and entry.kind == "link" and (left or follow):
                    key, left, links = before, entry.held.split("/") + left, links + 1
            if links > MOST_LINKS:
                stop_at(ELOOP)
        return key

    def opened(self, name):
        """What is read under a name."""
        entry = self.files.get(self.key(name, follow=True))
        if entry is None:
            stop_at(ENOENT)
        if not self.may(entry, READ):
            stop_at(EACCES)
        if entry.kind == "socket":
            stop_at(ENXIO)
        return entry

    def content(self, name):
        """The bytes that are read under a name."""
        if name == STANDARD and isinstance(self.stdin, bytes):
            return self.stdin
        if name == STANDARD and isinstance(self.stdin, int):
            stop_at(self.stdin)
        entry = self.files[self.stdin] if name == STANDARD else self.opened(name)
        if entry.kind == "folder":
            stop_at(EISDIR)
        self.read.append(entry)
        if entry.kind == "device":
            return b"" if entry.held == NULL else ENDLESS
        return self.fed[name] if entry.kind == "pipe" else entry.held

    def load(self, name):
        """The bytes of a file that is read, whole."""
        try:
            return self.content(name)
        except OSError as error:
            shown = "standard input" if name == STANDARD else escaped(name)
            raise Trouble(name, f"cannot read {shown}: {error.strerror}") from None

    def save(self, name, content, over):
        """The bytes of a file that is written, whole; one that is there is replaced only if `over`."""
        shown = "standard output" if name == STANDARD else escaped(name)
        try:
            key = self.key(name, follow=False) if name != STANDARD else None
            entry = self.files.get(key) if name != STANDARD else self.out.entry
            if any(entry is read for read in self.read) and (name != STANDARD or entry.kind == "file"):
                raise Trouble(name, f"{shown} is read here too and is left as it is")
            if name == STANDARD:
                return stop_at(self.out.write(content))
            if entry and entry.kind != "file":
                raise Trouble(name, f"{shown} is no regular file and is left as it is")
            if entry and not over:
                raise Trouble(name, f"{shown} exists and is left as it is; -f writes over it")
            self.make(key, content, entry)
        except OSError as error:
            raise Trouble(name, f"cannot write {shown}: {error.strerror}") from None

    def make(self, key, content, before):
        """Makes a file in its folder. It has the mode of the one that was there, and its owner and group where that can be; where the group cannot be
        kept, it may do nothing."""
        parent = key.rpartition("/")[0]
        self.enter(parent)
        stop_at(0 if self.may(self.files[parent], WRITE) else EACCES)
        stop_at(self.full if len(content) > self.room else 0)
        self.move_claim(parent)
        if not before:
            self.files[key] = file(content, PLAIN_MODE & ~self.umask, self.who)
        elif self.who.user == 0 or before.owner == self.who:
            self.files[key] = file(content, before.mode, before.owner)
        elif before.owner.group == self.who.group:
            self.files[key] = file(content, before.mode & NINE_BITS, self.who)
        else:
            self.files[key] = file(content, before.mode & NOT_THE_GROUP, self.who)

    def move_claim(self, parent):
        """A claim that was left over is moved aside with what it holds; an empty one gives way."""
        claim, moved = (f"{parent}/{name}".strip("/") for name in (CLAIM, MOVED))
        held = [key for key in self.files if key.startswith(f"{claim}/")]
        for key in [claim] * (claim in self.files) + held:
            entry = self.files.pop(key)
            if held:
                self.files[moved + key.removeprefix(claim)] = entry
