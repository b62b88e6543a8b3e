"""The inputs that the program listing_run lists, and what it must print, worked out by the second program.

python3 tests/listing.py script     writes the cases, one to a line
python3 tests/listing.py answers    writes the answers, a short text behind its answer
python3 tests/listing.py program    writes what the listing program prints for its standard input
"""

import sys
from itertools import product
from random import Random

import second
from cases import CELL_MARK, answers, case, digest, print_chosen, runs
from second import Profile, line_of

random = Random(23)
ROOM, SHORT = 262144, 200
GOOD = [b"2 3 1\n", b"10 2 8\n", b"32 1 1\n", b"0 0 0\n", b"999 999 999\n"]
BYTES = b"\0\t\n\r +-/0159:;a\x80\xb2\xff"


def listing(data, room=ROOM, shown=None):
    """A case; the lent text is shown to a hundred bytes behind what is printed, as far as it goes."""
    text = second.printed(data)
    shown = min(room, len(text) + 100) if shown is None else shown
    answer = second.list_code(data, bytes([CELL_MARK]) * room)
    case("list_code", f"room {room} shown {shown} {runs(data)}", answer.reply, answer.count, digest(answer.lent[:shown]))
    if 0 < answer.count < SHORT:
        answers.append(text.removesuffix("\n"))


def every_code():
    """Every profile whose code is listed, and each next longer word."""
    for q, x in product(range(2, 33), range(1, 9)):
        p = Profile(q, 1, x)
        while second.count(p) <= 4096:
            listing(line_of(p))
            p = second.with_length(p, p.m + 1)
        listing(line_of(p))


def out_of_range():
    for numbers in product((0, 1, 2, 32, 33, 100, 999), (0, 1, 128, 129, 999), (0, 1, 8, 9, 10, 999)):
        listing(line_of(Profile(*numbers)))


def damaged():
    """Each byte of a good line changed, taken out, or another put before it; bytes put behind."""
    for good in GOOD:
        for place in range(len(good) + 1):
            listing(good[:place])
            listing(good[:place] + good[place + 1 :])
            for byte in BYTES:
                listing(good[:place] + bytes([byte]) + good[place:])
                listing(good[:place] + bytes([byte]) + good[place + 1 :])
        for behind in (good, good[:-1], b"\n\n", b" " * 20, b"0" * 20, good * 4):
            listing((good + behind)[:40])
    for numbers in (b"02 3 1", b"2 03 1", b"2 3 01", b"00 3 1", b"0002 3 1", b"1000 3 1", b"2 1000 1", b"2 3 1000", b"2 3", b"2 3 1 1", b"2,3,1"):
        listing(numbers + b"\n")
        listing(numbers)


def drawn(times):
    for _ in range(times):
        listing(bytes(random.choice(b"0123456789 \n") for _ in range(random.randint(0, 13))))
        listing(bytes(random.randrange(256) for _ in range(random.randint(0, 13))))


def rooms():
    """Lent texts that are too short, and the whole of one that is not."""
    for room in (0, 1, 13, 100, 69999, 262143):
        for data in (b"2 3 1\n", b"2 25 8\n", b"1 1 1\n", b"32 128 8\n", b""):
            listing(data, room, room)
    for data in (b"2 3 1\n", b"2 24 7\n", b"2 25 8\n", b"16 3 8\n", b"1 1 1\n", b"32 128 8\n", b""):
        listing(data, ROOM, ROOM)


if sys.argv[1] == "program":
    sys.stdout.write(second.printed(sys.stdin.buffer.read()))
    sys.exit()
for part in (every_code, out_of_range, damaged, lambda: drawn(200), rooms):
    part()
print_chosen("listing_run")
