"""The second program: document 01's calls, answered a second time.

It shares no code with the crates. A word is legal if no forbidden pattern is found in it; counts, indices and words come from listing
where there are few words. Where there are many, counts come from the printed recursion, an index from the printed weights, and a word
from the counts of the words that begin as it does. Bits are text of the digits 0 and 1. Of a stream's cells all faults are gathered, and the
least is given. Each answer has its reply first; then what else the call gives, and what it leaves in the output that it was lent.
"""

import re
from functools import cache
from itertools import product
from typing import NamedTuple

LISTABLE = 4096


class Profile(NamedTuple):
    """Levels, word length, reach."""

    q: int
    m: int
    x: int


class Reply(NamedTuple):
    """Why a call is refused, and where; of replies the least is the one to give."""

    number: int
    place: int


DONE = Reply(0, 0)

# What each number means, and what stands at its place where it has one.
WORDS = {
    1: ("q outside its range, 2 to 32",),
    2: ("m outside its range, 1 to 128",),
    3: ("x outside its range, 1 to 8",),
    4: ("no words that carry messages",),
    5: ("table shorter than 10(m+1) limbs",),
    6: ("table does not belong", "first wrong row"),
    7: ("input length that fits no word, stream or bit count, or is over the most",),
    8: ("bit after the last message bit is 1", "bit at"),
    9: ("lent output too short",),
    10: ("cell at or above q", "cell at"),
    11: ("forbidden pattern", "top at"),
    12: ("index at or above N(m), or list row at or above 40",),
    13: ("wrong bridge cell", "cell at"),
    14: ("word of all 0", "word at"),
    15: ("index above 2^s", "word at"),
    16: ("word of all top", "word at"),
}


def refused(number, place=0):
    return Reply(number, place)


class Written(NamedTuple):
    reply: Reply
    count: int
    lent: list


class Indexed(NamedTuple):
    reply: Reply
    index: int


class Published(NamedTuple):
    reply: Reply
    profile: Profile
    s: int


class Rated(NamedTuple):
    reply: Reply
    bits: int
    cells: int


PUBLISHED = {
    4: ("14/27 26/50 49/95 77/149 97/188", "20/38 38/72 57/108 76/144 96/182"),
    8: ("18/53 26/77 44/131 71/211 103/307", "22/65 32/95 52/154 73/216 108/320"),
    16: ("18/71 27/107 45/179 66/263 111/443", "24/95 34/135 51/203 73/291 100/399"),
    32: ("19/94 29/144 49/244 70/349 117/584", "25/124 36/179 56/279 77/384 108/539"),
}
LENGTHS = [(q, x, *map(int, row.split("/"))) for x in (1, 2) for q, rows in PUBLISHED.items() for row in rows[x - 1].split()]
ROWS = [Published(DONE, Profile(q, m, x), s) for q, x, m, s in LENGTHS]


def first_pattern(p, cells):
    """The place of the first top of the leftmost forbidden pattern, or None."""
    top = p.q - 1
    for place, cell in enumerate(cells):
        if cell != top:
            continue
        for closing in range(place + 1, min(place + p.x + 2, len(cells))):
            if cells[closing] >= top:
                if closing > place + 1 and cells[closing] == top:
                    return place
                break
    return None


@cache
def listed(p):
    """The legal words of m cells in level order."""
    return [word for word in product(range(p.q), repeat=p.m) if first_pattern(p, word) is None]


def with_length(p, m):
    """The profile with words of another length."""
    return p._replace(m=m)


@cache
def count(p):
    """N(m), the number of legal words."""
    if p.q**p.m <= LISTABLE:
        return len(listed(p))
    one, two, last = (with_length(p, p.m - less) for less in (1, 2, p.x + 2))
    ending = (p.q - 1) ** (p.x + 1) * count(last) if last.m >= 0 else (p.q - 1) ** one.m
    return p.q * count(one) - (p.q - 1) * count(two) + ending


def weight(p, distance, i):
    """The weight of a cell with i cells to its right and the nearest top `distance` to its left (0: none)."""
    g = p.x - distance + 1 if 1 <= distance <= p.x else 0
    return (p.q - 1) ** g * count(with_length(p, i - g)) if g <= i else (p.q - 1) ** i


def index_of(p, word):
    if p.q**p.m <= LISTABLE:
        return listed(p).index(tuple(word))
    total, last_top = 0, None
    for place, level in enumerate(word):
        total += level * weight(p, 0 if last_top is None else place - last_top, p.m - 1 - place)
        if level == p.q - 1:
            last_top = place
    return total


@cache
def endings(p, since_top):
    """How many ways there are to go on for m cells, `since_top` cells behind a top (None: none near)."""
    if p.m == 0:
        return 1
    fewer = with_length(p, p.m - 1)
    total = (p.q - 1) * endings(fewer, None if since_top is None or since_top >= p.x else since_top + 1)
    if since_top is None or since_top == 0:
        total += endings(fewer, 0)
    return total


def word_of(p, index):
    """The legal word with so many before it."""
    if p.q**p.m <= LISTABLE:
        return list(listed(p)[index])
    word, since_top = [], None
    while len(word) < p.m:
        for level in range(p.q):
            if level == p.q - 1:
                after = 0
            else:
                after = None if since_top is None or since_top >= p.x else since_top + 1
            if level == p.q - 1 and since_top not in (None, 0):
                raise AssertionError("no word has this index")
            ways = endings(with_length(p, p.m - len(word) - 1), after)
            if index < ways:
                break
            index -= ways
        word.append(level)
        since_top = after
    return word


def message_length(p):
    carrying = count(p) - 2
    return 0 if carrying < 1 else carrying.bit_length() - 1


def limbs_of(number):
    return [number >> 64 * i & 2**64 - 1 for i in range(10)]


def number_of(limbs):
    return sum(limb << 64 * i for i, limb in enumerate(limbs))


def table_of(p):
    return [limb for i in range(p.m + 1) for limb in limbs_of(count(with_length(p, i)))]


def refused_profile(p):
    if not 2 <= p.q <= 32:
        return refused(1)
    if not 1 <= p.m <= 128:
        return refused(2)
    if not 1 <= p.x <= 8:
        return refused(3)
    return None


def refused_table(p, table):
    if len(table) < 10 * (p.m + 1):
        return refused(5)
    for i in range(p.m + 1):
        if table[10 * i : 10 * i + 10] != limbs_of(count(with_length(p, i))):
            return refused(6, i)
    return None


def refused_message_call(p, table):
    return refused_profile(p) or (refused(4) if message_length(p) == 0 else None) or refused_table(p, table)


def refused_cells(p, cells):
    for place, cell in enumerate(cells):
        if cell >= p.q:
            return refused(10, place)
    place = first_pattern(p, cells)
    return None if place is None else refused(11, place)


def written(refusal, answer, lent):
    if refusal:
        return Written(refusal, 0, lent)
    return Written(DONE, len(answer), answer + lent[len(answer) :])


def build(p, lent):
    refusal = refused_profile(p) or (refused(9) if len(lent) < 10 * (p.m + 1) else None)
    return written(refusal, [] if refusal else table_of(p), lent)


def shipped(m, lent):
    return build(Profile(4, m, 1), lent)


def index(p, table, cells):
    refusal = refused_profile(p) or refused_table(p, table) or (refused(7) if len(cells) != p.m else None) or refused_cells(p, cells)
    return Indexed(refusal, 0) if refusal else Indexed(DONE, index_of(p, cells))


def word(p, table, limbs, lent):
    refusal = refused_profile(p) or refused_table(p, table) or (refused(9) if len(lent) < p.m else None)
    refusal = refusal or (refused(12) if number_of(limbs) >= count(p) else None)
    return written(refusal, [] if refusal else word_of(p, number_of(limbs)), lent)


def find(q, x, cells):
    p = Profile(q, 1, x)  # a length in range: the finder asks for none
    return refused_profile(p) or (refused(7) if len(cells) > 65536 else None) or refused_cells(p, cells) or DONE


def published(row):
    return ROWS[row] if row < len(ROWS) else Published(refused(12), Profile(0, 0, 0), 0)


def rate(p, table, n):
    refusal = refused_message_call(p, table) or (refused(7) if n > 256 else None)
    return Rated(refusal, 0, 0) if refusal else Rated(DONE, n * message_length(p), n * (p.m + p.x))


def cells_of(p, n):
    """How many cells n words are."""
    return n * p.m + (n - 1) * p.x if n else 0


def words_in(p, cells):
    """How many words so many cells are; None where no stream has that length."""
    return next((n for n in range(cells + 1) if cells_of(p, n) == cells), None)


def refused_length(p, cells):
    n = words_in(p, len(cells))
    return refused(7) if n is None or n > 256 else None


def bridge(p, before, after):
    return [p.q - 1 if (before, after) == (p.q - 1, p.q - 1) else 0] * p.x


def stream_of(p, words):
    cells = []
    for word in words:
        cells += (bridge(p, cells[-1], word[0]) if cells else []) + word
    return cells


def words_of(p, cells):
    """The words of a stream, each with its place."""
    return [(start, cells[start : start + p.m]) for start in range(0, len(cells), p.m + p.x)]


def faults(p, cells):
    """Every cell at or above q, pattern in a word and wrong bridge cell of a stream."""
    found = [refused(10, place) for place, cell in enumerate(cells) if cell >= p.q]
    for start, word in words_of(p, cells):
        place = first_pattern(p, word)
        found += [] if place is None else [refused(11, start + place)]
    for start in range(p.m, len(cells), p.m + p.x):
        right = bridge(p, cells[start - 1], cells[start + p.x])
        found += [refused(13, start + i) for i in range(p.x) if cells[start + i] != right[i]]
    return found


def silent(p, cells):
    """Every word of a stream of legal words that carries no message."""
    found = []
    for start, word in words_of(p, cells):
        found += [refused(14, start)] if set(word) == {0} else []
        found += [refused(15, start)] if index_of(p, word) > 2 ** message_length(p) else []
        found += [refused(16, start)] if set(word) == {p.q - 1} else []
    return found


def least(found):
    return min(found, default=None)


def text_of(numbers, digits):
    return "".join(format(number, f"0{digits}b") for number in numbers)


def bytes_of(text):
    """The bytes of a text of bits, with zero bits to the end of the last."""
    return [int(text[i : i + 8].ljust(8, "0"), 2) for i in range(0, len(text), 8)]


def write(p, table, data, bits, lent):
    refusal = refused_message_call(p, table)
    if refusal:
        return written(refusal, [], lent)
    s, text = message_length(p), text_of(data[: -(-bits // 8)], 8)
    n = bits // s
    refusal = refused(7) if bits % s or n > 256 or -(-bits // 8) > len(data) else None
    refusal = refusal or (refused(8, text.index("1", bits)) if "1" in text[bits:] else None)
    refusal = refusal or (refused(9) if len(lent) < cells_of(p, n) else None)
    if refusal:
        return written(refusal, [], lent)
    messages = [int(text[k * s : k * s + s], 2) for k in range(n)]
    return written(None, stream_of(p, [word_of(p, message + 1) for message in messages]), lent)


def read(p, table, cells, lent):
    refusal = refused_message_call(p, table) or refused_length(p, cells)
    if refusal:
        return written(refusal, [], lent)
    s, words = message_length(p), words_of(p, cells)
    refusal = refused(9) if len(lent) < -(-len(words) * s // 8) else None
    refusal = refusal or least(faults(p, cells)) or least(silent(p, cells))
    if refusal:
        return written(refusal, [], lent)
    text = text_of([index_of(p, word) - 1 for _, word in words], s)
    return written(None, bytes_of(text), lent)._replace(count=len(text))


def join(p, a, b, lent):
    refusal = refused_profile(p)
    if refusal:
        return written(refusal, [], lent)
    words = [words_in(p, len(cells)) for cells in (a, b)]
    refusal = refused(7) if None in words or sum(words) > 256 else None
    joined = a + (bridge(p, a[-1], b[0]) if a and b else []) + b
    refusal = refusal or (refused(9) if len(lent) < len(joined) else None)
    if refusal:
        return written(refusal, [], lent)
    found = faults(p, a) + [fault._replace(place=len(a) + fault.place) for fault in faults(p, b)]
    return written(least(found), joined, lent)


def turn(p, cells, lent):
    refusal = refused_profile(p) or refused_length(p, cells)
    refusal = refusal or (refused(9) if len(lent) < len(cells) else None) or least(faults(p, cells))
    return written(refusal, cells[::-1], lent)


def line_of(p):
    """The line for a profile that the listing program reads."""
    return f"{p.q} {p.m} {p.x}\n".encode()


@cache
def printed(data):
    """What the listing program prints for the bytes that it reads."""
    number = b"(0|[1-9][0-9]{0,2})"
    line = re.fullmatch(number + b" " + number + b" " + number + b"\n", data)
    if not line:
        return "refused line\n"
    p = Profile(*map(int, line.groups()))
    refusal = refused_profile(p)
    if refusal:
        return f"refused {refusal.number}\n"
    if count(p) > 4096:
        return "too many\n"
    s = message_length(p)
    lines = [f"{p.q} {p.m} {p.x} {count(p)} {s}"]
    for i in range(count(p)):
        message = i - 1 if s and 1 <= i <= 2**s else "-"
        lines.append(f"{i} {','.join(map(str, word_of(p, i)))} {message}")
    return "".join(f"{line}\n" for line in lines)


def list_code(data, lent):
    return written(refused(9) if len(lent) < 262144 else None, printed(data).encode(), lent)


def in_words(reply):
    """What a person is told of a reply."""
    if reply.number == 0:
        return "done"
    meaning, *named = WORDS.get(reply.number, ("number that has no meaning",))
    return f"refused {reply.number} at {reply.place}: {meaning}" + "".join(f" ({name} {reply.place})" for name in named)


def reply_text(reply, lent):
    return written(refused(9) if len(lent) < 256 else None, list(in_words(reply).encode()), lent)
