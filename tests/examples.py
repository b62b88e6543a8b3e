"""The files of examples/, written by tests/second.py alone: python3 tests/examples.py DIRECTORY.

Two takes of a scene, each a stream of 24 words of the published profile of row 0 (q = 4, m = 14, x = 1) with the bits that it carries,
which are a text; the first take with a cell damaged; the second take in cells of a longer reach; the tables of both reaches; a single word.
"""

import sys
from pathlib import Path

import second
from second import Profile

TAKES = {
    "take1": b"Scene 12 take 1, boom and two radio mics, rain on the roof, keep it as wild track",
    "take2": b"Scene 12 take 2, boom and two radio mics, rain is over, a lorry passes at the end",
}
SHORT, LONG = Profile(4, 14, 1), Profile(4, 14, 2)


def stream(p, data, bits):
    written = second.write(p, second.table_of(p), data, bits, [0] * 65536)
    assert written.reply == second.DONE, written.reply
    return written.lent[: written.count]


def damaged(cells):
    """The cells with the first change of one cell of word 5, inside the word, to top that makes a forbidden pattern."""
    p = SHORT
    start = 5 * (p.m + p.x)
    for place in range(start + 1, start + p.m - 1):
        changed = cells[:place] + [p.q - 1] + cells[place + 1 :]
        if second.read(p, second.table_of(p), changed, [0] * 20448).reply.number == 11:
            return changed
    raise AssertionError("no change of one cell makes a pattern")


def cut(data, bits):
    """The first so many bits, with zero bits to the end of the last byte."""
    return bytes(second.bytes_of(second.text_of(data, 8)[:bits]))


def files():
    found = {}
    for name, text in TAKES.items():
        assert len(text) == 81
        found[f"{name}.bits"], found[f"{name}.cells"] = text, stream(SHORT, text, 648)
    found["damaged.cells"] = damaged(found["take1.cells"])
    bits = 648 - 648 % second.message_length(LONG)
    found["long-reach.cells"] = stream(LONG, cut(TAKES["take2"], bits), bits)
    for name, p in (("long-reach", LONG), ("reach1", SHORT)):
        found[f"{name}.table"] = b"".join(limb.to_bytes(8, "little") for limb in second.table_of(p))
    found["word.cells"] = second.word_of(Profile(4, 5, 1), 108)
    return found


for name, content in files().items():
    (Path(sys.argv[1]) / name).write_bytes(bytes(content))
