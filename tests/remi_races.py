"""Programs remi that write to one name at the same moment, that are killed or stand still while they write, and whose calls are interrupted.

    python3 tests/remi_races.py [--no-status] COMMAND...

COMMAND starts the program, as for tests/remi_cases.py. What each run must print comes from tests/remi.py. A program that is started directly is
killed and interrupted by tests/remi_kill.c, which is compiled here and put before its C library.
"""

import fcntl
import os
import shutil
import signal
import subprocess
import sys
import termios
import time
from itertools import count, cycle
from pathlib import Path

import second
from remi import FAILED, remi
from remi_disk import file
from remi_trial import MASK, SECONDS, WHO, Trials, entry_of, found, spelt
from second import Profile

trials = Trials(sys.argv[1:])
PROFILE = Profile(4, 14, 1)
OVER = ["-f"]
TWO, EIGHT = 200, 20


def streams(number):
    """So many streams of the most words, each of one word with bridges, all of them different."""
    return [bytes(second.stream_of(PROFILE, [second.word_of(PROFILE, 1 + index)] * 256)) for index in range(number)]


def expected(arguments, files, stdin=b""):
    """What a run must print, and the files that it leaves."""
    return remi(arguments, files, WHO, stdin=stdin, umask=MASK)


def printed(result):
    """The exit status, standard output and standard error of a run."""
    return result.status if trials.with_status else 0, result.out, result.err


def fail(*lines):
    sys.exit("\n".join(ascii(line)[:300] for line in lines))


def waiting(arguments, cells):
    """A program that has read all that it gets on its standard input, and the end of the pipe that is to be closed for it to go on."""
    end, ours = os.pipe()
    program = trials.started(arguments, stdin=end, stdout=subprocess.PIPE, stderr=subprocess.PIPE)
    os.close(end)
    os.write(ours, cells)
    return program, ours


def released(programs):
    """What the programs answer that are let go together."""
    for _, ours in programs:
        while int.from_bytes(fcntl.ioctl(ours, termios.FIONREAD, bytes(4)), sys.byteorder):
            time.sleep(0)
    for _, ours in programs:
        os.close(ours)
    answers = []
    for program, _ in programs:
        out, err = program.communicate(timeout=SECONDS)
        answers.append((program.returncode, out, err))
    return answers


def race(options, before, cells):
    """Programs that turn these cells to one name: those without -f leave a file as it is, those with it all write, and one file is there, whole."""
    lines = [list(spelt(["turn", PROFILE, "-", "out", *option])) for option in options]
    trials.prepare(before)
    answers = released([waiting(line, one) for line, one in zip(lines, cells)])
    there = trials.there = found(trials.data, before)
    fresh = [expected(line, before if OVER == option else {}, one) for line, one, option in zip(lines, cells, options)]
    late = [expected(line, fresh[0].files, one) for line, one in zip(lines, cells)]
    first = [answer == printed(right) for answer, right in zip(answers, fresh)]
    known = all(is_first or answer == printed(right) for is_first, answer, right in zip(first, answers, late))
    plain = [number for number, option in enumerate(options) if option != OVER and first[number]]
    over = [number for number, option in enumerate(options) if option == OVER]
    winners = over or plain
    if not known or len(plain) > 1 or not winners or there not in [fresh[number].files for number in winners]:
        fail(f"{len(options)} programs with {options}", *answers, *there.items())


def races():
    """Two programs, and eight, that write to one name at the same moment."""
    old = {"out": entry_of(file(b"old", 0o640))}
    kinds = cycle([([[], []], {}), ([OVER, OVER], {}), ([[], OVER], {}), ([OVER, []], {}), ([OVER, OVER], old), ([[], []], {})])
    for number, (options, before) in zip(range(TWO), kinds):
        race(options, before, streams(2)[:: 1 if number % 4 < 2 else -1])
    for number in range(EIGHT):
        race([[]] * 8 if number % 2 else [OVER, []] * 4, {}, streams(8))


def library():
    """The library that kills and interrupts, compiled; none where that cannot be, or where it would not come before the program's own."""
    if len(trials.command) > 1 or not shutil.which("cc"):
        return None
    path, source = trials.work / "remi_kill.so", Path(__file__).with_name("remi_kill.c")
    subprocess.run(["cc", "-O1", "-shared", "-fPIC", "-fno-builtin", source, "-o", path, "-ldl"], check=True)
    return path


def started(arguments, **settings):
    """The program, started with the library before its own if there are settings."""
    library = {"LD_PRELOAD": str(LIBRARY)} if settings else {}
    how = os.environ | library | {f"REMI_{name}": str(value) for name, value in settings.items()}
    return trials.started(arguments, env=how, stdin=subprocess.DEVNULL, stdout=subprocess.PIPE, stderr=subprocess.PIPE)


def answer(program):
    """The exit status, standard output and standard error of a program that runs to its end."""
    with program:
        out, err = program.communicate(timeout=SECONDS)
    return program.returncode, out, err


WRITING = {
    "a new file": ([], {}),
    "over a file": (OVER, {"out": file(b"old", 0o640)}),
}


def visible(files):
    """The files but those in folders of programs that write."""
    return {name: entry for name, entry in files.items() if not name.startswith(".remi-")}


def kill(line, before, settings):
    """Kills the program while it writes: the output is there as it was or new, whole. Tries again; whether the program was killed."""
    trials.prepare(before)
    seen = answer(started(line, **settings))
    trials.there = there = found(trials.data)
    right = expected(line, before)
    killed = seen[0] == -signal.SIGKILL
    if killed and visible(there) not in (visible(before), visible(right.files)):
        fail(f"remi {' '.join(line)}, {settings}", *there.items())
    if killed:
        again(line, there, settings)
    elif seen != printed(right) or found(trials.data, before) != right.files:
        fail(f"remi {' '.join(line)}, not killed by {settings}", *seen, *there.items())
    return killed


def again(line, before, settings):
    """After a kill the same line does what it would do if only the output were there; a claim that was left over is moved aside."""
    seen = answer(started(line))
    trials.there = there = found(trials.data, before)
    right = expected(line, before)
    if seen != printed(right) or there != right.files:
        fail(f"remi {' '.join(line)} once more after {settings}", *seen, *before.items(), "afterwards", *there.items())


def kills():
    """Kills before and after each call, for each way of writing; how many there were."""
    cells, done = streams(1)[0], 0
    for options, before in WRITING.values():
        files = {name: entry_of(entry) for name, entry in ({"cells": cells} | before).items()}
        line = list(spelt(["turn", PROFILE, "cells", "out", *options]))
        number = 1
        while kill(line, files, {"KILL_BEFORE": number}):
            done += 1 + kill(line, files, {"KILL_AFTER": number})
            number += 1
    return done


def stop(first, second, before, number):
    """A program stands still after a call, and another writes to the same name meanwhile; whether it stood still.

    The other does what it would do alone. Then the first says that it is done, that there is a file, or that its place was taken, as is the case.
    """
    trials.prepare(before)
    program = started(first, STOP_AFTER=number)
    stopped = os.waitid(os.P_PID, program.pid, os.WSTOPPED | os.WEXITED | os.WNOWAIT).si_code == os.CLD_STOPPED
    between = visible(found(trials.data))
    seen = answer(started(second))
    program.send_signal(signal.SIGCONT)
    seen_first = answer(program)
    trials.there = there = found(trials.data, before)
    alone, right = expected(first, before), expected(second, between)
    in_place = between == visible(alone.files)
    late = expected(first, right.files)
    taken = FAILED * trials.with_status, b"", b"cannot write out: another program took its place\n"
    outcomes = [(printed(alone), right.files)] if in_place else [(printed(late), late.files), (taken, right.files)]
    if seen != printed(right) or (seen_first, visible(there)) not in outcomes:
        fail(f"remi {' '.join(first)}, stopped after call {number}, and {' '.join(second)}", *seen_first, *seen, *there.items())
    return stopped


def stops():
    """Programs that stand still after each call while another one writes; how many there were."""
    files, old, done = dict(zip("ab", map(entry_of, streams(2)))), {"out": entry_of(file(b"old", 0o640))}, 0
    for *options, there in [([], [], {}), ([], OVER, {}), (OVER, [], {}), (OVER, OVER, {}), (OVER, OVER, old)]:
        lines = [list(spelt(["turn", PROFILE, name, "out", *option])) for name, option in zip("ab", options)]
        done += next(number for number in count() if not stop(*lines, files | there, number + 1))
    return done


def interruptions():
    """Lines whose calls are all interrupted once, or read and write a few bytes at a time, and do what they do without; how many there were."""
    cells, right = streams(2), bytes(second.stream_of(PROFILE, [second.word_of(PROFILE, 5)] * 3))
    table = b"".join(limb.to_bytes(8, "little") for limb in second.table_of(PROFILE))
    files = {"a": cells[0], "b": right, "bits": bytes(27), "t": table, "wrong": bytes([9]), "out": file(b"old", 0o640)}
    files = {name: entry_of(entry) for name, entry in files.items()}
    p, done = PROFILE, 0
    lines = [["read", p, "a", "new"], ["check", p, "a", "b", "wrong", "missing", "-t", "t"], ["write", p, "bits", "new"]]
    lines += [["turn", p, "b", "out", "-f"]]
    lines += [["join", p, "b", "b", "-"], ["turn", p, "b", "-"], ["turn", p, "b", "out"], ["find", 4, 1, "wrong"], ["index", p, "wrong"]]
    lines += [["word", p, 5, "new"]]
    lines += [["table", p], ["table", p, "new"], ["rate", p, 5, "-t", "t"], ["profiles"], ["list", 2, 3, 1], ["help"], ["help", "read"]]
    lines += [["--version"], ["x"]]
    for line in [*lines, *([*line, "--json"] for line in lines)]:
        line = list(spelt(line))
        for settings in ({"INTERRUPTED": 1}, {"SHORT": 7}, {"INTERRUPTED": 1, "SHORT": 100}):
            trials.prepare(files)
            seen = answer(started(line, **settings))
            trials.there = found(trials.data, {})
            result = expected(line, files)
            if seen != printed(result) or trials.there != result.files:
                fail(f"remi {' '.join(line)}, {settings}", *seen, *trials.there.items())
            done += 1
    return done


races()
print(f"remi: {TWO} races of two writers and {EIGHT} of eight, each with one file left, whole")
LIBRARY = library()
if LIBRARY:
    print(f"remi: killed at {kills()} points of {len(WRITING)} ways of writing; overtaken at {stops()} points; {interruptions()} runs interrupted")
else:
    print("remi: not killed, overtaken or interrupted, as there is no cc here or the program is not started directly")
