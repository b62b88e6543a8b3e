"""Runs the listing program on lines of every kind, and holds what it prints to what the second program prints.

python3 tests/listing_program.py COMMAND...

COMMAND starts the program. The lines are codes of every q up to the first that is too large, profiles in and out of range, good lines damaged in
every place, lines with something behind them, drawn bytes, and inputs longer than the program reads; some come in pieces, one byte at a time.
"""

import subprocess
import sys
import time
from itertools import product
from random import Random

import second
from second import Profile, line_of

random = Random(41)
COMMAND = sys.argv[1:]
GOOD = [b"2 3 1\n", b"10 2 8\n", b"32 1 1\n", b"0 0 0\n", b"100 99 9\n", b"999 999 99\n", b"999 999 999\n"]
PUT = b"\0\t\n\r +-/0159:;a\x80\xb2\xff"
BEHIND = [b"\0", b"\n", b" ", b"0", b"1", b"\n\n", b" " * 20, b"0" * 20, b"x" * 70000]


def codes():
    """For each q, with one reach, the codes that are listed and the first that is not; for q = 2 and q = 4 with every reach."""
    for q, x in product(range(2, 33), range(1, 9)):
        if q in (2, 4) or x == 1 + q % 8:
            p = Profile(q, 1, x)
            while second.count(p) <= 4096:
                yield line_of(p)
                p = second.with_length(p, p.m + 1)
            yield line_of(p)


def ranges():
    for numbers in product((0, 1, 2, 32, 33, 100, 999), (0, 1, 128, 129, 999), (0, 1, 8, 9, 10, 999)):
        yield line_of(Profile(*numbers))


def damaged():
    """Each front of a good line, each byte taken out, changed, or another put before it; and a good line with something behind it."""
    for good in GOOD:
        for place in range(len(good) + 1):
            yield good[:place]
            yield good[:place] + good[place + 1 :]
            for byte in PUT:
                yield good[:place] + bytes([byte]) + good[place:]
                yield good[:place] + bytes([byte]) + good[place + 1 :]
        for behind in [*BEHIND, good]:
            yield good + behind
    for numbers in (b"02 3 1", b"2 03 1", b"2 3 01", b"00 3 1", b"0002 3 1", b"1000 3 1", b"2 1000 1", b"2 3 1000", b"2 3", b"2 3 1 1", b"2,3,1"):
        yield numbers + b"\n"


def drawn():
    for _ in range(200):
        yield bytes(random.choice(b"0123456789 \n") for _ in range(random.randint(0, 30)))
        yield bytes(random.randrange(256) for _ in range(random.randint(0, 30)))


def whole(data):
    """Runs the program on an input that comes at once."""
    return subprocess.run(COMMAND, input=data, capture_output=True)


def piecewise(data):
    """Runs the program on an input that comes one byte at a time."""
    with subprocess.Popen(COMMAND, stdin=subprocess.PIPE, stdout=subprocess.PIPE, stderr=subprocess.PIPE, bufsize=0) as program:
        for byte in data:
            program.stdin.write(bytes([byte]))
            time.sleep(0.005)
        said = program.communicate()
        return subprocess.CompletedProcess(COMMAND, program.returncode, *said)


def held(run, data):
    """Stops where the program does not print what the second program prints, or ends or says anything else."""
    ran, right = run(data), second.printed(data).encode()
    if (ran.returncode, ran.stdout, ran.stderr) != (0, right, b""):
        sys.exit(f"list_code, on {data[:60]}: status {ran.returncode}, printed {ran.stdout[:90]} and not {right[:90]}, said {ran.stderr[:90]}")


inputs = list(dict.fromkeys(data for part in (codes, ranges, damaged, drawn) for data in part()))
for data in inputs:
    held(whole, data)
for data in [*GOOD, b"2 4 1", b"2 25 8\n", b"999 999 9999"]:
    held(piecewise, data)
print(f"list_code: {len(inputs)} inputs, each printed as the second program prints it")
