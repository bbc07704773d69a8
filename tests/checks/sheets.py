"""Frames as trees and as sheets, for the judges that the tests hold the library's checks to.

A tree is as in tests/cases/generate.py: a number is an int, a sequence a dictionary of the components that are there, a choice a pair of index
and value, a list a list. A tree is laid out as the cells of a sheet, and a sheet is taken apart as a tree, by the field lists of source 000
(tests/asn1/types.txt) and document 01's rules for the sheet. None of the project's code is called.
"""

import os
import sys

HERE = os.path.dirname(os.path.abspath(__file__))
sys.path.insert(0, os.path.join(HERE, "..", "cases"))
# nothing is left behind in the folder of the cases
sys.dont_write_bytecode = True
from generate import FRAME, MOST_BYTES, T, length_of

MOST_BITS = 8 * MOST_BYTES
# sheets with fewer cells are never above 2,048 bytes, since a cell has at most 32 bits
CELLS_OF_A_LONG_ONE = MOST_BITS // 32


def name_of(frame):
    """Which message a frame has in it, as rsiFrame."""
    return FRAME.alternatives[frame[0]][0]


def is_long(sheet, frame):
    """Whether a message has more than 2,048 bytes."""
    return len(sheet) > CELLS_OF_A_LONG_ONE and length_of("MessageFrame", frame) > MOST_BITS


# ----------------------------------------------------------------------------------------------
# From trees to sheets


def put_cells(name, tree, cells):
    of = T[name]
    if of.kind in ("integer", "enumerated"):
        cells.append(tree)
    elif of.kind == "sequence":
        cells.extend(int(component in tree) for component, _, optional in of.components if optional)
        for component, part, _ in of.components:
            if component in tree:
                put_cells(part, tree[component], cells)
    elif of.kind == "choice":
        cells.append(tree[0])
        put_cells(of.alternatives[tree[0]][1], tree[1], cells)
    else:
        if of.least != of.most:
            cells.append(len(tree))
        if T[of.item].kind == "integer":
            cells.extend(tree)
            return
        for one in tree:
            put_cells(of.item, one, cells)


def sheet_of(frame):
    """The cells of a frame."""
    cells = []
    put_cells("MessageFrame", frame, cells)
    return cells


# ----------------------------------------------------------------------------------------------
# From sheets to trees


class NoValue(Exception):
    """A sheet is no value. place: its first wrong cell; its length where cells lack; else its first spare cell. spare: whether it is that."""

    def __init__(self, cells, place, spare=False):
        super().__init__("no value at cell %d" % place)
        self.cells, self.place, self.spare = cells, place, spare


class Taking:
    """Takes a sheet apart, cell by cell."""

    def __init__(self, cells):
        self.cells, self.next = cells, 0

    def cell(self, lowest, highest):
        if self.next == len(self.cells) or not lowest <= self.cells[self.next] <= highest:
            raise NoValue(self.cells, self.next)
        self.next += 1
        return self.cells[self.next - 1]

    def numbers(self, of, count):
        """The numbers of a string, all at once."""
        part = self.cells[self.next:self.next + count]
        if len(part) < count or not all(of.lowest <= cell <= of.highest for cell in part):
            # one by one up to the place
            return [self.cell(of.lowest, of.highest) for _ in range(count)]
        self.next += count
        return part

    def tree(self, name):
        of = T[name]
        if of.kind == "integer":
            return self.cell(of.lowest, of.highest)
        if of.kind == "enumerated":
            return self.cell(0, len(of.items) - 1)
        if of.kind == "sequence":
            here = {component: self.cell(0, 1) for component, _, optional in of.components if optional}
            return {component: self.tree(part) for component, part, _ in of.components if here.get(component, 1)}
        if of.kind == "choice":
            index = self.cell(0, len(of.alternatives) - 1)
            return (index, self.tree(of.alternatives[index][1]))
        size = of.least if of.least == of.most else self.cell(of.least, of.most)
        item = T[of.item]
        return self.numbers(item, size) if item.kind == "integer" else [self.tree(of.item) for _ in range(size)]


def taken(cells):
    """The frame that a sheet is, or a NoValue where it is none: wrong cells, too few or too many. Its bytes may be any number."""
    taking = Taking(cells)
    try:
        frame = taking.tree("MessageFrame")
    except NoValue as why:
        return why.with_traceback(None)
    return frame if taking.next == len(cells) else NoValue(cells, taking.next, spare=True)


def frame_of(cells):
    """The frame that a sheet is, or None where it is none."""
    frame = taken(cells)
    return None if isinstance(frame, NoValue) else frame
