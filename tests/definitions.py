"""What the definitions of the code must compute to, found by brute force.

Shares nothing with the crates: words are listed with itertools, patterns are looked for pair of tops by pair of tops, and the index of a
word is its place in the list. Prints a file of claims, one theorem each, that the checker has to prove by computing both sides.
"""

import itertools
import random

from second import Profile

HEADER = """\
-- What an independent program found, claimed of the definitions.
use Rattle.std.specs.Prelude.{◌≡◌, true, false, [], ◌∷◌, refl}
use Rattle.patterns.specs.Pattern.{pattern_free}
use Rattle.patterns.specs.Walk.{walk}
use Rattle.patterns.specs.Stream.{bridge, stream_of, joined, turned}
use Rattle.listing.specs.Listing.{all_words, listed, count_of, before, index_in, word_of}
use Rattle.code.specs.Code.{published, legal, N, index, word}
use Rattle.code.specs.Formulas.{counts_down_from, count_by_recursion, weighted_from, index_by_weights}
use Rattle.code.specs.Messages.{message_length}
"""

OPENED = (
    "pattern_free walk bridge stream_of joined all_words listed count_of before index_in word_of legal N index word "
    "counts_down_from count_by_recursion weighted_from message_length"
)


def has_pattern(cells, p):
    tops = [i for i, c in enumerate(cells) if c == p.q - 1]
    return any(1 <= b - a - 1 <= p.x for a, b in zip(tops, tops[1:]))


def words(p):
    return [w for w in itertools.product(range(p.q), repeat=p.m) if not has_pattern(w, p)]


def message_length(n):
    s = 0
    while 2 ** (s + 1) <= n - 2:
        s += 1
    return s


def bridged(parts, p):
    cells = []
    for part in parts:
        if cells and part:
            cells += [p.q - 1 if cells[-1] == part[0] == p.q - 1 else 0] * p.x
        cells += part
    return cells


def shown(cells):
    return "(" + " ∷ ".join([str(c) for c in cells] + ["[]"]) + ")"


def truth(fact):
    return "true" if fact else "false"


def levels_and_reach(p):
    """What the definitions take of a profile besides the length of a word."""
    return f"{p.q} {p.x}"


def claims_of_codes(draw):
    for p in itertools.starmap(Profile, itertools.product(range(2, 6), range(1, 6), (1, 2, 3, 5))):
        if p.q**p.m > 700:
            continue
        found, of = words(p), levels_and_reach(p)
        yield f"N {of} {p.m} ≡ {len(found)}"
        yield f"count_by_recursion {of} {p.m} ≡ {len(found)}"
        yield f"message_length {of} {p.m} ≡ {message_length(len(found))}"
        for i in draw.sample(range(len(found)), min(3, len(found))):
            yield f"index {of} {shown(found[i])} ≡ {i}"
            yield f"index_by_weights {of} {shown(found[i])} ≡ {i}"
            yield f"word {of} {p.m} {i} ≡ {shown(found[i])}"


def claims_of_cells(draw):
    for _ in range(150):
        p = Profile(q=draw.randrange(2, 5), x=draw.randrange(1, 4), m=1)
        of, top = levels_and_reach(p), p.q - 1
        cells = [draw.choice((top, draw.randrange(p.q))) for _ in range(draw.randrange(1, 10))]
        legal = truth(not has_pattern(cells, p))
        yield f"legal {of} {shown(cells)} ≡ {legal}"
        yield f"walk (published {of}) 0 {shown(cells)} ≡ {legal}"
        length = draw.randrange(1, 4)
        parts = [[draw.choice((0, top)) for _ in range(length)] for _ in range(draw.randrange(0, 5))]
        stream = bridged(parts, p)
        listed = "(" + " ∷ ".join([shown(part) for part in parts] + ["[]"]) + ")"
        yield f"stream_of (published {of}) {listed} ≡ {shown(stream)}"
        yield f"joined (published {of}) {shown(stream)} {shown(cells)} ≡ {shown(bridged([stream, cells], p))}"
        yield f"turned {shown(stream)} ≡ {shown(stream[::-1])}"


print(HEADER)
draw = random.Random(1)
for number, claim in enumerate(itertools.chain(claims_of_codes(draw), claims_of_cells(draw))):
    print(f"claim_{number} : {claim}\nunfolding {OPENED}\nclaim_{number} = refl\n")
