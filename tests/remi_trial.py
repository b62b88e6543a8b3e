"""Trials of the program remi against tests/remi.py: each case runs both on the same files.

Standard output, standard error, the exit status and everything in the directory afterwards are compared: the kind of each name, the bytes, mode and
owner of files, the target of links, the numbers of devices. Where root runs the cases, the program runs as nobody unless a case says otherwise.
"""

import atexit
import ctypes
import json
import os
import re
import resource
import shutil
import socket as sockets
import stat
import subprocess
import sys
import tempfile
import threading
from collections import defaultdict
from errno import EBADF, EFBIG, ENOSPC, EPIPE
from pathlib import Path

from remi import remi
from remi_disk import MOVED, NULL, Entry, Who, device, file, folder
from remi_line import SYNOPSES
from second import Profile

ROOT = os.getuid() == 0
ADMIN, NOBODY = Who(0, 0), Who(65534, 65534)
WHO = NOBODY if ROOT else Who(os.getuid(), os.getgid())
PAGE = os.sysconf("SC_PAGE_SIZE")
MASK = 0o022
ADDING = os.O_WRONLY | os.O_APPEND
SECONDS = 30
MOST_SHOWN = 20
NO_STATUS = "--no-status"
KINDS = {stat.S_IFREG: "file", stat.S_IFDIR: "folder", stat.S_IFLNK: "link", stat.S_IFIFO: "pipe", stat.S_IFSOCK: "socket", stat.S_IFCHR: "device"}
TEMPORARY = re.compile(r"(^|/)\.remi-[\d-]+(?=/|$)")


class Trials:
    """The trials of one program: how many there were, what was told in them, and what differed."""

    def __init__(self, words):
        """The words that start the program, after --no-status where its exit status is always 0."""
        self.work = Path(tempfile.mkdtemp())
        self.data = self.work / "data"
        self.with_status = words[0] != NO_STATUS
        *command, program = words if self.with_status else words[1:]
        self.command = [*command, shutil.copy(program, self.work / "remi")]
        self.work.chmod(0o711)
        self.data.mkdir()
        if ROOT:
            os.chown(self.data, *WHO)
        atexit.register(shutil.rmtree, self.work, ignore_errors=True)
        self.mounts, self.nodes = self.can_mount(), self.can_make_nodes()
        self.cases, self.different, self.there = 0, 0, {}
        self.numbers, self.errors = defaultdict(set), set()

    def can_mount(self):
        """Whether a file system can be mounted that this process alone sees."""
        if not ROOT or ctypes.CDLL(None).unshare(0x20000):  # CLONE_NEWNS
            return False
        tried = 'mount --make-rprivate / && mount -t tmpfs none "$1" && umount "$1"'
        return subprocess.run(["sh", "-c", tried, "sh", self.data], capture_output=True).returncode == 0

    def can_make_nodes(self):
        """Whether the node of a device can be made and used."""
        try:
            fill(self.work, {"null": device(NULL, owner=WHO)})
            (self.work / "null").write_bytes(b"gone")
            return True
        except OSError:
            return False

    def no_room(self):
        """The ways in which a disk has no room that can be had here."""
        return [EFBIG] + [ENOSPC] * self.mounts

    def case(self, arguments, files, who=WHO, left_over=False, **how):
        """Runs both; `how` as a disk takes it. `left_over`: a folder has the name that the program makes first."""
        arguments, files = list(spelt(arguments)), {name: entry_of(content) for name, content in files.items()}
        full = how.get("full") == ENOSPC
        self.prepare(files, how.get("closed", False), how.get("room", 0) if full else None)
        status, out, err = self.run(arguments, who, left_over, **how)
        self.there = found(self.data, files)
        if full:
            subprocess.run(["umount", self.data], check=True)
        before = files | {MOVED: folder(0o777 & ~MASK, who)} if left_over else files
        right = remi(arguments, before, who, **{"place": str(self.data), "umask": MASK} | how)
        self.compare(arguments, right, self.there, status, out, err)
        if full:
            self.there = found(self.data, {})

    def prepare(self, files, closed=False, room=None):
        """Makes the directory, on a disk of its own where there is to be room for only so many bytes more."""
        if room is not None:
            size = room + sum(-(-len(entry.held) // PAGE) * PAGE for entry in files.values() if entry.kind == "file")
            subprocess.run(["mount", "-t", "tmpfs", "-o", f"size={size},mode=0777", "none", self.data], check=True)
            fill(self.data, files)
        elif self.there != files:
            self.data.chmod(0o777)
            empty(self.data)
            fill(self.data, files)
        self.data.chmod(0o555 if closed else 0o777)

    def started(self, arguments, who=WHO, umask=MASK, **how):
        """The program, started."""
        user = {"user": who.user, "group": who.group, "extra_groups": []} if ROOT else {}
        words = [*self.command, *map(os.fsencode, arguments)]
        return subprocess.Popen(words, cwd=self.data, umask=umask, restore_signals=False, **user, **how)

    def run(self, arguments, who, left_over, stdin=b"", stdout=None, stderr=None, merged=False, full=0, room=0, fed=(), umask=MASK, **_):
        """Runs the program: its exit status, standard output and standard error."""

        def first():
            if full == EFBIG:
                resource.setrlimit(resource.RLIMIT_FSIZE, (room, room))
            if left_over:
                os.mkdir(f".remi-{os.getpid()}-0")
            for number, stream in enumerate((stdin, stdout, stderr)):
                if stream == EBADF:
                    os.close(number)

        feeders = [feeding(self.data / name, content) for name, content in dict(fed).items()]
        streams = {"stdin": self.stream(stdin, os.O_RDONLY), "stdout": self.stream(stdout, ADDING), "stderr": self.stream(stderr, ADDING)}
        opened = [stream for stream in streams.values() if stream != subprocess.PIPE]
        streams |= {"stderr": subprocess.STDOUT} if merged else {}
        with self.started(arguments, who, umask, preexec_fn=first, **streams) as program:
            for stream in opened:
                os.close(stream)
            try:
                out, err = program.communicate(stdin if isinstance(stdin, bytes) else None, timeout=SECONDS)
            except subprocess.TimeoutExpired:
                program.kill()
                out, err = program.communicate()
        for feeder in feeders:
            feeder.join(SECONDS)
        return program.returncode, out or b"", err or b""

    def stream(self, what, flags):
        """What stands behind a standard stream: a pipe, one that is broken, or a file."""
        if what == EPIPE:
            end, broken = os.pipe()
            os.close(end)
            return broken
        return os.open(self.data / what, flags) if isinstance(what, str) else subprocess.PIPE

    def compare(self, arguments, right, files, status, out, err):
        """Counts a case, and shows what differs."""
        self.cases += 1
        in_json = "--json" in arguments
        self.numbers[next((word for word in arguments if word in SYNOPSES), ""), in_json] |= right.numbers
        self.errors |= set(right.err.decode().splitlines())
        differs = []
        for name, expected, got in [
            ("exit status", right.status if self.with_status else 0, status),
            ("standard output", right.out, out),
            ("standard error", right.err, err),
            ("files", right.files, files),
            ("JSON", [], list(inconsistent(out + err, right.status)) if in_json else []),
        ]:
            differs += [f"{name}, expected:", shown(expected, got), "got:", shown(got, expected)] if expected != got else []
        if differs:
            line = " ".join(word if len(word) < 200 else f"{word[:20]}.. ({len(word)} bytes)" for word in map(ascii, arguments))
            print(f"remi {line}", *differs, sep="\n", file=sys.stderr)
            self.different += 1
        if self.different == MOST_SHOWN:
            sys.exit(f"{self.different} of {self.cases} cases differ; no more are tried")


def spelt(arguments):
    """The words of a command line, in which a profile is three words."""
    for word in arguments:
        yield from map(str, (word.q, word.m, word.x) if isinstance(word, Profile) else (word,))


def entry_of(content):
    """An entry; bytes are those of a plain file."""
    entry = file(content) if isinstance(content, bytes) else content
    return entry if entry.kind in ("link", "same") else entry._replace(owner=entry.owner or WHO)


def fill(place, files):
    """Makes the files of a directory."""
    for name, entry in files.items():
        path = place / name
        if entry.kind == "file":
            path.write_bytes(entry.held)
        elif entry.kind == "folder":
            path.mkdir()
        elif entry.kind == "link":
            path.symlink_to(entry.held)
        elif entry.kind == "same":
            os.link(place / entry.held, path)
        elif entry.kind == "pipe":
            os.mkfifo(path)
        elif entry.kind == "socket":
            with sockets.socket(sockets.AF_UNIX) as one:
                one.bind(os.fsencode(path))
        else:
            os.mknod(path, stat.S_IFCHR, os.makedev(*entry.held))
    for name, entry in reversed(files.items()):
        if entry.owner:
            if ROOT:
                os.chown(place / name, *entry.owner)
            (place / name).chmod(entry.mode)


def empty(place):
    """Removes everything in a directory."""
    for path in place.iterdir():
        if path.is_dir() and not path.is_symlink():
            path.chmod(0o700)
            empty(path)
            path.rmdir()
        else:
            path.unlink()


def found(place, before=None, under=""):
    """The directory as it is. With the files of before, what the program made and left has one name, whatever numbers that bears."""
    files = {}
    for path in place.iterdir():
        name, seen = under + path.name, path.lstat()
        held, mode = b"", stat.S_IMODE(seen.st_mode)
        kind = KINDS[stat.S_IFMT(seen.st_mode)]
        if kind in ("file", "folder") and not ROOT:
            path.chmod(0o700)
        if kind == "folder":
            files |= found(path, before, f"{name}/")
        held = path.read_bytes() if kind == "file" else os.readlink(path) if kind == "link" else b""
        if kind == "device":
            held = (os.major(seen.st_rdev), os.minor(seen.st_rdev))
        if kind in ("file", "folder") and not ROOT:
            path.chmod(mode)
        files[name] = Entry(kind, held, 0 if kind == "link" else mode, None if kind == "link" else Who(seen.st_uid, seen.st_gid))
    if under or before is None:
        return files
    return {name if name in before else TEMPORARY.sub(rf"\1{MOVED}", name, count=1): entry for name, entry in files.items()}


def feeding(path, content):
    """Writes to a pipe once someone reads from it."""
    feeder = threading.Thread(target=path.write_bytes, args=(content,), daemon=True)
    feeder.start()
    return feeder


def inconsistent(printed, status):
    """The objects that are no JSON, or whose numbers do not agree with each other and with the exit status."""
    greatest = 0
    for line in printed.splitlines():
        if line.startswith(b"{"):
            told = json.loads(line)
            number, place, own = told.get("number", 0), told.get("place", 0), told["status"]
            right = 2 if "trouble" in told else 1 if number or "told" in told else own if "files" in told else 0
            greatest = max(greatest, own)
            if own != right or number and not told["told"].startswith(f"refused {number} at {place}: "):
                yield line
    if greatest not in (status, 0) and status != 2:
        yield printed


def shown(value, other):
    """A value in which something differs; of files those that differ."""
    if isinstance(value, dict):
        return "\n".join(f"{name!a}: {entry!a}"[:1000] for name, entry in sorted(value.items()) if other.get(name) != entry)
    text = isinstance(value, bytes) and value.endswith(b"\n")
    return (value.decode(errors="backslashreplace") if text else repr(value))[:4000]
