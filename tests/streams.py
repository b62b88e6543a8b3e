"""The cases of the calls on streams."""

from itertools import product, starmap
from random import Random

import second
from cases import CELL_MARK, LARGE, Table, case, digest, profile, runs, written
from second import Profile

LONGEST_STREAM, LONGEST_MESSAGES = 35000, 20480
random = Random(30)


def write(p, data, bits, room, table=None):
    table = table or Table(p)
    answer = second.write(p, table.limbs, data, bits, [CELL_MARK] * room)
    written("write_stream", f"{profile(p)} {table.text} {runs(data)} bits {bits} room {room}", answer)


def read(p, cells, room, table=None):
    table = table or Table(p)
    answer = second.read(p, table.limbs, list(cells), [CELL_MARK] * room)
    written("read_stream", f"{profile(p)} {table.text} {runs(cells)} room {room}", answer)


def join(p, a, b, room):
    answer = second.join(p, list(a), list(b), [CELL_MARK] * room)
    written("join_streams", f"{profile(p)} first {runs(a)} second {runs(b)} room {room}", answer)


def turn(p, cells, room):
    answer = second.turn(p, list(cells), [CELL_MARK] * room)
    written("turn_stream", f"{profile(p)} {runs(cells)} room {room}", answer)


def drawn(seed, n):
    data = []
    for _ in range(n):
        seed = (seed * 1103515245 + 12345) % 2**31
        data.append(seed // 65536 % 256)
    return data


def long_stream(p, seed, words, place=LARGE, level=0):
    """Drawn messages are written, one cell is changed, and the stream is read, turned and joined with itself."""
    table, bits = Table(p), words * second.message_length(p)
    data = drawn(seed, -(-bits // 8))
    first = second.write(p, table.limbs, data, bits, [CELL_MARK] * LONGEST_STREAM)
    cells = first.lent[: first.count]
    if place < len(cells):
        cells[place] = level
    then = [
        second.read(p, table.limbs, cells, [CELL_MARK] * LONGEST_MESSAGES),
        second.turn(p, cells, [CELL_MARK] * LONGEST_STREAM),
        second.join(p, cells, cells, [CELL_MARK] * LONGEST_STREAM),
    ]
    shown = [number for answer in then for number in (*answer.reply, answer.count, digest(answer.lent))]
    text = f"{profile(p)} {table.text} seed {seed} bytes {len(data)} bits {bits} change {place} to {level}"
    case("long_stream", text, first.reply, first.count, digest(first.lent), *shown)


SMALL, ONE, SHORT = Profile(2, 3, 1), Profile(2, 1, 1), Profile(4, 5, 1)
ONE_OF_FOUR = Profile(4, 1, 1)


def small_profiles():
    """Every message and every run of cells, legal or not, of small profiles."""
    for byte in range(0, 256, 16):
        write(SMALL, [byte], 4, 9)
    for cells in product(range(2), repeat=7):
        read(SMALL, cells, 3)
        turn(SMALL, cells, 8)
    for a, b in product(product(range(2), repeat=3), repeat=2):
        join(SMALL, a, b, 9)
    for cells in product(range(3), repeat=3):
        turn(ONE, cells, 3)
        join(ONE, cells, [1], 6)
        join(ONE, [1], cells, 6)
        read(ONE, cells, 3)
    for cells in product(range(5), repeat=3):
        read(ONE_OF_FOUR, cells, 1)
        turn(ONE_OF_FOUR, cells, 4)


def story():
    """A stream of reach 1 is lent with a table of reach 2: refused 6 at row 4, and not a bit is given."""
    for row in second.ROWS[:5]:
        p, s = row.profile, row.s
        longer, zeros = p._replace(x=2), [0] * (-(-s // 8))
        cells = second.write(p, second.table_of(p), zeros, s, [0] * p.m).lent
        read(p, cells, 40, Table(longer))
        read(p, cells, 40)
        read(longer, cells, 40, Table(p))
        write(p, zeros, s, p.m, Table(longer))


def lowest_numbers():
    """Each number of each call with its place, and the lowest where several apply."""
    edges = product((1, 2, 32, 33), (0, 1, 128, 129), (0, 1, 8, 9))
    for p in starmap(Profile, (*edges, (LARGE, LARGE, LARGE), (32, LARGE, LARGE), (32, 128, LARGE))):
        fits = second.refused_profile(p) is None
        table = Table(p) if fits else Table(SMALL)
        write(p, [255], 3, 0, table)
        read(p, [40] * 5, 0, table)
        join(p, [40] * (p.m if fits else 4), [], 0)
        turn(p, [40] * 5, 0)
        if fits:
            write(p, [], 0, 3, table)
            read(p, [], 3, table)
            join(p, [], [], 2)
            turn(p, [], 2)
    for q, m in product((2, 3, 4), (1, 2)):
        p = Profile(q, m, 1)
        write(p, [1], 500, 0, Table(p, 0, 0, 1))
        read(p, [9], 0, Table(p, 0, 0, 0, 5))
    for lent in (0, 59, 60):
        write(SHORT, [255], 7, 0, Table(SHORT, 5, 9, 1, lent))
        read(SHORT, [9], 0, Table(SHORT, 5, 9, 1, lent))
    write_counts()
    cell_faults()


def write_counts():
    for bits in (0, 1, 8, 9, 10, 17, 18, 19, 27, 9 * 256, 9 * 257, 2**32, LARGE, 2**64 - 1):
        for data in ([], [3], [3, 255], [53, 128, 0, 0, 255]):
            write(SHORT, data, bits, 20)
    for bits, byte in product(range(2, 17, 2), (128, 64, 32, 16, 8, 4, 2, 1, 255)):
        write(SMALL, [byte, byte, byte], bits, 60)
    for room in range(10):
        write(SMALL, [48], 4, room)
        write(SMALL, [49], 4, room)


def cell_faults():
    p = Profile(4, 5, 2)
    good = second.stream_of(p, [[0, 1, 2, 3, 3], [3, 3, 0, 1, 1], [2, 0, 3, 3, 0]])
    for place, level in product(range(len(good)), (0, 1, 3, 4, 255)):
        bad = good[:place] + [level] + good[place + 1 :]
        read(p, bad, 4)
        turn(p, bad, 19)
        join(p, bad, good[:12], 40)
        join(p, good[:12], bad, 40)
    for room in range(4):
        read(p, [9] * 19, room)
    for room in (0, 18, 19, 20):
        turn(p, [9] * 19, room)
        join(p, [9] * 5, [9] * 12, room)
    join(p, [3, 0, 3, 0, 0], [0, 0, 4, 0, 0], 12)
    join(p, [3, 3, 3, 3, 3, 0, 0, 3, 3, 3, 3, 3], [3, 0, 0, 3, 0], 30)
    read(SMALL, [1, 1, 0, 0, 0, 0, 0], 1)
    read(SHORT, [3] * 5 + [3] + [3] * 5, 9)


def many_words():
    """256 words and 257, in one stream and in two."""
    p = ONE_OF_FOUR
    for n in (255, 256, 257, 258):
        cells = second.stream_of(p, [[random.choice((1, 2))] for _ in range(n)])
        read(p, cells, 40)
        turn(p, cells, 520)
        for k in (0, 1, 128, 256, n):
            if k <= n:
                join(p, cells[: second.cells_of(p, k)], cells[len(cells) - second.cells_of(p, n - k) :], 520)
        write(p, [170] * 33, n, 520)
    tops = [1] * 511
    for cells in (tops, tops + [1, 1], tops + [1]):
        turn(ONE, cells, 520)
        join(ONE, cells, [], 520)


def drawn_streams(times):
    for _ in range(times):
        p = Profile(random.randint(2, 32), random.randint(1, 24), random.randint(1, 8))
        s = second.message_length(p)
        n = random.randint(0, 3)
        if s == 0:
            continue
        text = "".join(random.choice("01") for _ in range(n * s))
        data = second.bytes_of(text)
        write(p, data + [255], n * s, second.cells_of(p, n) + 3)
        cells = second.write(p, second.table_of(p), data, n * s, [0] * second.cells_of(p, n)).lent
        read(p, cells, len(data) + 2)
        join(p, cells, cells[::-1], 2 * len(cells) + p.x)
        if cells:
            place = random.randrange(len(cells))
            changed = cells[:place] + [random.choice((0, p.q - 1, p.q, random.randrange(p.q)))] + cells[place + 1 :]
            read(p, changed, len(data) + 2)
            turn(p, changed, len(cells) + 1)


def long_streams():
    for row in (0, 4, 9, 14, 19, 39):
        long_stream(second.ROWS[row].profile, 7 + row, 8)
    for p in starmap(Profile, ((4, 97, 1), (4, 14, 1), (32, 128, 8), (2, 128, 1))):
        for words in (128, 256, 257):
            long_stream(p, words, words)
        long_stream(p, 5, 128, 127 * (p.m + p.x) + p.m // 2, p.q)
        long_stream(p, 6, 128, 100 * (p.m + p.x) + p.m, 1)


def every_case():
    for part in (small_profiles, story, lowest_numbers, many_words, lambda: drawn_streams(120), long_streams):
        part()
