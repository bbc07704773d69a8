"""Requests about plans as sheets, built from what the check and the planner are about. All else is as small as its type allows.

Entries are told apart by the text of their description, since a character has 7 bits: with 0 to 8 of them a message ends at every bit of a byte.
"""

from least import frame, sequence
from plan_requests import CHECK, EVENTS, LISTS, MAKE, SIGNS, as_cell, list_cells, plan_cells, whole_bytes
from sheets import MOST_BYTES, sheet_of

LIST_KINDS = (EVENTS, SIGNS)
HEADER = frame("rsiFrame")
HEADER_CELLS = sheet_of(HEADER)
# Bits, by the lists of components: the frame and an RSI without moy, elevation and lists; moy; elevation; the count of a list; the least
# entry; a description of 7-bit characters without any, which has its index and its size; and a character.
HEADER_BITS, MOY_BITS, ELEVATION_BITS, COUNT_BITS, LEAST_BITS, TEXT_BITS, CHARACTER_BITS = 143, 20, 16, (3, 4), (37, 31), 10, 7
# what is lent where nothing else is said: cells that no plan has
ROOM = 140


def entry(kind, text=0, **given):
    """A least event or sign with a text of so many characters, which has none with 0."""
    return sequence(LISTS[kind].item, description=(0, [65] * text) if text else None, **given)


def entries(kind, *texts):
    return [entry(kind, text) for text in texts]


def bits_with(kind, *texts):
    """The bits of a message of entries with such texts."""
    own = [LEAST_BITS[kind] + (TEXT_BITS + CHARACTER_BITS * text if text else 0) for text in texts]
    return HEADER_BITS + COUNT_BITS[kind] + sum(own)


def bytes_with(kind, *texts):
    return whole_bytes(bits_with(kind, *texts))


def canaries(count):
    """Cells to lend, each of which is told from all others."""
    return [-1000 - place for place in range(count)]


# ----------------------------------------------------------------------------------------------
# Requests


def check_cells(kind, entries, plan, limit=MOST_BYTES, header=HEADER_CELLS):
    """The four sheets of a check, from the cells of each."""
    return [CHECK, as_cell(kind), as_cell(limit)], header, entries, plan


def check(kind, entries, plan, limit=MOST_BYTES, header=HEADER):
    """The four sheets of a check, from trees and a list of messages."""
    return check_cells(kind, list_cells(kind, entries), plan_cells(plan), limit, sheet_of(header))


def make_cells(kind, entries, limit=MOST_BYTES, header=HEADER_CELLS, room=ROOM):
    return [MAKE, as_cell(kind), as_cell(limit)], header, entries, canaries(room)


def make(kind, entries, limit=MOST_BYTES, header=HEADER, room=ROOM):
    return make_cells(kind, list_cells(kind, entries), limit, sheet_of(header), room)


def planned(plan, room=ROOM):
    """The answer with a plan in the front of the lent cells."""
    cells = plan_cells(plan)
    return (0, 0, len(cells), *cells, *canaries(room)[len(cells):])


def refused(number, place, cells=0, room=ROOM):
    """The answer without a plan: the lent cells are as they were."""
    return (number, place, cells, *canaries(room))
