"""The cases of the calls on tables, words, runs of cells and profiles."""

from itertools import product, starmap
from random import Random

import second
from cases import CELL_MARK, LARGE, LIMB_MARK, Table, case, digest, profile, runs, written
from second import Profile

random = Random(20)


def rows(answer):
    """A table's output: a digest of all 1,400 limbs that the program holds, and the last row written."""
    held = answer.lent + [LIMB_MARK] * (1400 - len(answer.lent))
    return answer.reply, answer.count, digest(held), *held[max(answer.count - 10, 0) : answer.count]


def build(p, room):
    case("build_table", f"{profile(p)} room {room}", *rows(second.build(p, [LIMB_MARK] * room)))


def shipped(m, room):
    case("shipped_table", f"{m} room {room}", *rows(second.shipped(m, [LIMB_MARK] * room)))


def index(p, cells, table=None):
    table = table or Table(p)
    answer = second.index(p, table.limbs, list(cells))
    case("index_of_word", f"{profile(p)} {table.text} {runs(cells)}", answer.reply, *second.limbs_of(answer.index))


def word(p, number, room=None, table=None):
    table, room = table or Table(p), p.m if room is None else room
    limbs = second.limbs_of(number)
    answer = second.word(p, table.limbs, limbs, [CELL_MARK] * room)
    written("word_of_index", f"{profile(p)} {table.text} index {' '.join(map(str, limbs))} room {room}", answer)


def find(q, x, cells):
    case("find_pattern", f"{q} {x} {runs(cells)}", second.find(q, x, cells))


def published(row):
    answer = second.published(row)
    of = answer.profile
    case("published_profile", f"{row}", answer.reply, of.q, of.x, of.m, answer.s)


def rate(p, n, table=None):
    table = table or Table(p)
    case("rate_of_words", f"{profile(p)} {table.text} words {n}", *second.rate(p, table.limbs, n))


EDGES = list(starmap(Profile, product((1, 2, 32, 33), (0, 1, 128, 129), (0, 1, 8, 9))))
LARGEST = [Profile(LARGE, LARGE, LARGE), Profile(32, LARGE, LARGE), Profile(32, 128, LARGE)]
SMALL, SHORT = Profile(2, 3, 1), Profile(4, 5, 1)
ROOM = 1303


def tables():
    for p in EDGES:
        build(p, ROOM)
    for row in second.ROWS:
        build(row.profile, 10 * (row.profile.m + 1))
    build(Profile(4, 9, 1), 100)
    build(Profile(4, 9, 1), 99)
    for p in LARGEST:
        build(p, 0)
    for m, room in product((0, 1, 2, 9, 77, 128, 129, LARGE), (0, 10, 19, 20, 100, 1289, 1290, ROOM)):
        shipped(m, room)


def drawn_words(p, times):
    """The first two words, the last two, and some between: each index and its word."""
    n = second.count(p)
    for number in {0, 1, n - 2, n - 1, *(random.randrange(n) for _ in range(times))}:
        if number >= 0:
            word(p, number, p.m + 3)
            index(p, second.word_of(p, number))


def every_word(p):
    """Every run of m cells, legal or not, and the word of every index, and one more."""
    for cells in product(range(p.q), repeat=p.m):
        index(p, cells)
    for number in range(second.count(p) + 1):
        word(p, number)


def words():
    every_word(SMALL)
    every_word(Profile(3, 3, 2))
    every_word(Profile(2, 5, 2))
    for p in EDGES:
        if second.refused_profile(p):
            index(p, [0], Table(SMALL))
            word(p, 0, 1, Table(SMALL))
        else:
            drawn_words(p, 2)
    for row in second.ROWS:
        drawn_words(row.profile, 1)
    for _ in range(40):
        drawn_words(Profile(random.randint(2, 32), random.randint(1, 128), random.randint(1, 8)), 1)


def mistakes():
    """The five mistakes that document 01 expects, where they show in a call on one word."""
    index(Profile(4, 4, 1), [1, 0, 0, 0])
    index(Profile(4, 6, 2), [0, 1, 1, 3, 0, 2])
    index(Profile(4, 6, 2), [2, 0, 3, 3, 2, 0])
    index(SHORT, [0, 1, 2, 3, 3])
    index(SHORT, [1, 3, 0, 0, 1])
    word(SHORT, 108)
    word(SHORT, 107)
    find(4, 1, [0, 1, 2, 3, 0, 3, 0, 0, 1])
    for m in range(1, 8):
        for x, other in ((1, 2), (2, 1), (2, 5), (8, 3)):
            index(Profile(4, m, x), [0] * m, Table(Profile(4, m, other)))
    build(Profile(4, 9, 1), ROOM)
    rate(Profile(4, 9, 1), 1)


def word_refusals():
    """Every number of index and word, the lowest where several apply, and a short output before a high index."""
    good, count = Table(SHORT), second.count(SHORT)
    for lent in (0, 1, 59):
        index(SHORT, [9] * 4, Table(SHORT, 5, 9, 1, lent))
        word(SHORT, 2**640 - 1, 4, Table(SHORT, 5, 9, 1, lent))
    index(SHORT, [9] * 4, Table(SHORT, 3, 2, 7))
    word(SHORT, 2**640 - 1, 4, Table(SHORT, 3, 2, 7))
    index(SHORT, [0, 1, 2, 3, 3], Table(SHORT, 6, 0, 7, 70))
    for cells in ([], [9] * 4, [0] * 6, [3, 0, 3, 0, 4], [4, 0, 0, 0, 0], [3, 0, 3, 0, 0], [0, 0, 3, 2, 3], [3, 0, 3, 1, 3], [0, 255, 3, 1, 3]):
        index(SHORT, cells, good)
    for number in (count - 1, count, 2**64, 2**576, 2**639 + 5, 2**640 - 1):
        for room in (0, 4, 5, 9):
            word(SHORT, number, room, good)
    index(Profile(4, 4, 1), [3, 2, 2, 3])
    index(Profile(4, 4, 2), [3, 2, 2, 3])
    index(Profile(4, 3, 1), [3, 2, 3])


def damaged_tables():
    """A table damaged in each row and limb: refused 6 at that row, whatever was added."""
    middle, longest = Profile(4, 14, 1), Profile(32, 128, 1)
    for row, limb in product(range(15), range(10)):
        index(middle, [0] * 14, Table(middle, row, limb, random.choice((1, 2**32, 2**63, 2**64 - 1)) % LARGE))
    for row in (0, 64, 127, 128):
        word(longest, 0, 128, Table(longest, row, random.randrange(10), 1))


def legal_run(q, x, length):
    """Cells without a pattern: runs of tops that stand far enough apart, and drawn cells between them."""
    cells = []
    while len(cells) < length:
        cells += [q - 1] * random.randint(1, 3) + [random.randrange(q - 1)] * random.randint(x + 1, x + 1 + length // 8)
    return cells[:length]


def finder():
    for q, x in product((1, 2, 32, 33), (0, 1, 8, 9)):
        find(q, x, [0, 1, 0, 1, 40])
        find(q, x, [])
    for q, x in ((2, 1), (4, 1), (4, 2), (32, 8), (2, 8)):
        for length in (1, 2, 15, 64, 4095, 65535, 65536, 65537):
            cells = legal_run(q, x, length)
            find(q, x, cells)
            find(q, x, cells[:-1] + [q])
            place = random.randrange(length)
            for distance in range(1, x + 3):
                changed = cells[:]
                if place + distance < length:
                    changed[place], changed[place + distance] = q - 1, q - 1
                    changed[place + 1 : place + distance] = [0] * (distance - 1)
                find(q, x, changed)
                if distance == x + 1:
                    find(q, x, changed[:-1] + [255])
    for _ in range(100):
        q, x = random.randint(2, 5), random.randint(1, 8)
        find(q, x, [random.randrange(q) if random.random() < 0.5 else 0 for _ in range(random.randint(0, 40))])


def catalogue():
    middle = Profile(4, 97, 1)
    for row in (*range(42), LARGE):
        published(row)
    for row in second.ROWS:
        rate(row.profile, 256)
    for n in (0, 1, 2, 256, 257, LARGE):
        rate(middle, n)
        rate(middle, n, Table(Profile(4, 97, 2)))
        rate(middle, n, Table(middle, lent=979))
    for p in EDGES:
        rate(p, 3, Table(p) if second.refused_profile(p) is None else Table(SMALL))
    for q, m in product((2, 3, 4, 5), (1, 2, 3)):
        rate(Profile(q, m, 1), 5)
        rate(Profile(q, m, 1), 500, Table(Profile(q, m, 1), 0, 0, 1, 9))


def every_case():
    for part in (tables, words, mistakes, word_refusals, damaged_tables, finder, catalogue):
        part()
