"""The cases of the text of a reply: every number with places short and long, and every room."""

from itertools import product

import second
from cases import CELL_MARK, LARGE, written
from second import Reply


def reply_text(number, place, room):
    answer = second.reply_text(Reply(number, place), [CELL_MARK] * room)
    written("reply_text", f"{number} at {place} room {room}", answer)


def every_case():
    for number, place in product((*range(21), 99, 100, 254, 255), (0, 9, 345, LARGE)):
        reply_text(number, place, 256)
    for number, room in product((0, 7, 11, 255), (0, 1, 120, 255, 256, 257, 300)):
        reply_text(number, 81, room)
