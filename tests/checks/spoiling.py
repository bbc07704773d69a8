"""Sheets that are no value, made from sheets that are: in each of several ways, and by chance."""

# numbers that are outside of many ranges, or just outside of one
WRONG_CELLS = [-1, 1, 2, 3, 8, 16, 17, 32, 33, 255, 256, 65535, 65536, 2**31, 2**32, 2**63 - 1, -2**63]


def spoiled_ways(cells, outside):
    """Each way by its name, with the sheet and the place where it is no value any more. outside: a number that the last cell can't be."""
    count, middle = len(cells), len(cells) // 2
    yield "empty", [], 0
    yield "a cell too many", cells + [0], count
    yield "cut by a cell", cells[:-1], count - 1
    yield "cut in the middle", cells[:middle], middle
    yield "its first cell alone", cells[:1], 1
    yield "the last cell out of range", cells[:-1] + [outside], count - 1
    yield "the frame's index out of range", [5] + cells[1:], 0
    yield "the lowest number in the middle", cells[:middle] + [-2**63] + cells[middle + 1:], middle
    yield "the value twice", cells + cells, count


def spoiled(cells, chance):
    """A sheet with a wound by chance, most often no value any more."""
    at = chance.between(0, len(cells) - 1)
    wound = chance.between(0, 5)
    if wound == 0:
        return cells[:at]
    if wound == 1:
        return cells + [chance.one_of([0, 1, -1, 255])]
    if wound == 2:
        return cells[:at] + cells[at + 1:]
    if wound == 3:
        return cells[:at] + [chance.one_of([0, 1, 2, 255])] + cells[at:]
    return cells[:at] + [chance.one_of(WRONG_CELLS)] + cells[at + 1:]
