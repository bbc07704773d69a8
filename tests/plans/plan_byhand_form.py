"""Requests about plans of which something handed in is not of its form, or the limit is none, each with the answer that was worked out by hand.

Number 7 for the one and 4 for the other, both at place 0, and in this order before all else.
"""

from least import frame, least, sequence
from plan_building import HEADER_CELLS, LIST_KINDS, check, check_cells, entries, make, make_cells, planned, refused
from plan_judge import PASSES
from plan_requests import COMPONENTS, EVENTS, LISTS, SIGNS, list_cells
from sheets import MOST_BYTES, sheet_of
from spoiling import spoiled_ways

NAMES = ("events", "signs")
WRONG_KINDS = (2, 3, 7, 255, 256, 257, 2**16, 2**32, 2**32 + 1, 2**63, 2**63 + 1, 2**64 - 1)
WRONG_LIMITS = (0, 2049, 2050, 4096, 2**16, 2**16 + 1400, 2**32, 2**32 + 1, 2**32 + 1400, 2**63 - 1, 2**63, 2**63 + 1400, 2**64 - 2048, 2**64 - 1)
# counts that no list has, of which some are a good one in their low bits, or come to one when they are multiplied or added to
WRONG_COUNTS = (-1, -2, -8, -2**31, -2**32, -2**61, -2**62, -2**63, -2**63 + 1, 2**31, 2**32, 2**32 + 1, 2**60, 2**61, 2**61 + 1, 2**62, 2**63 - 1)
# one behind the last longitude
OUTSIDE_LONGITUDE = 1800000002
# the cells of the least entry, and in one the cell of its number, which has a byte
LEAST_CELLS, NUMBER_CELL = (11, 8), (8, 6)


def both(name, kind, own, plan, limit=MOST_BYTES, header=HEADER_CELLS, number=7):
    """A check and a plan to be made, which answer with the same number at place 0. All are cells."""
    yield "check: " + name, *check_cells(kind, own, plan, limit, header), (number, 0)
    yield "make: " + name, *make_cells(kind, own, limit, header), refused(number, 0)


def kinds():
    """What is neither events nor signs."""
    for wrong in WRONG_KINDS:
        for kind in LIST_KINDS:
            yield from both("kind %d with %s" % (wrong, NAMES[kind]), wrong, list_cells(kind, entries(kind, 0)), [1, 1, 0])
        yield from both("kind %d without entries" % wrong, wrong, [0], [0])


def headers():
    """What is no RSI with neither list."""
    one = {kind: list_cells(kind, entries(kind, 0)) for kind in LIST_KINDS}
    sheets = {how: cells for how, cells, _ in spoiled_ways(HEADER_CELLS, OUTSIDE_LONGITUDE)}
    for name in ("bsmFrame", "mapFrame", "rsmFrame", "spatFrame"):
        sheets["a least " + name] = sheet_of(frame(name))
    lists = [{name: [least(of.item)]} for name, of in zip(COMPONENTS, LISTS)]
    for name, given in (("events", lists[0]), ("signs", lists[1]), ("events and signs", {**lists[0], **lists[1]})):
        sheets["an RSI with " + name] = sheet_of(frame("rsiFrame", **given))
    for cell in (1, 2, 3):
        for presence in (-1, 1, 2, 2**32):
            sheets["%d in cell %d" % (presence, cell)] = HEADER_CELLS[:cell] + [presence] + HEADER_CELLS[cell + 1:]
    sheets["an RSI without its frame's index"] = HEADER_CELLS[1:]
    for how, cells in sheets.items():
        for kind in LIST_KINDS:
            yield from both("header, %s: %s" % (NAMES[kind], how), kind, one[kind], [1, 1, 0], header=cells)
        yield from both("header, no entries: " + how, EVENTS, [0], [0], header=cells)


def good_headers():
    moy, elevation = {"moy": 527040}, {"refPos": sequence("Position3D", elevation=-4096)}
    highest = {"msgCnt": 127, "id": [255] * 8, "refPos": {"lat": 900000001, "long": 1800000001}}
    for name, given in (("moy", moy), ("elevation", elevation), ("both", {**moy, **elevation}), ("the highest numbers", highest)):
        header = frame("rsiFrame", **given)
        for kind in LIST_KINDS:
            yield "a header of %s with %s" % (NAMES[kind], name), *check(kind, entries(kind, 0, 0), [[0, 1]], header=header), PASSES
            yield "make, a header of %s with %s" % (NAMES[kind], name), *make(kind, entries(kind, 0, 0), header=header), planned([[0, 1]])


def wrong_lists(kind):
    """What are no entries, made from two that are."""
    two, size = list_cells(kind, entries(kind, 0, 0)), LEAST_CELLS[kind]
    # the cells of the entries' own numbers
    first, second = 1 + NUMBER_CELL[kind], 1 + size + NUMBER_CELL[kind]
    many = {count: list_cells(kind, entries(kind, *[0] * count)) for count in (64, 65, 66)}
    yield from {"no cells": [], "a spare cell behind none": [0, 0], "one of one lacks": [1], "two, and cells for one": two[:1 + size],
                "one, and cells for two": [1] + two[1:], "three, and cells for two": [3] + two[1:], "no count": two[1:],
                "none, and cells for two": [0] + two[1:], "a cell too few": two[:-1], "a cell too many": two + [0],
                "as many cells again": two + two[1:], "the first's number too high": two[:first] + [256] + two[first + 1:],
                "the last's number below 0": two[:second] + [-1] + two[second + 1:], "a presence of 2": two[:1] + [2] + two[2:],
                "the last cell too high": two[:-1] + [65536], "65 of them": many[65], "66 of them": many[66],
                "64 and a spare cell": many[64] + [0], "64 and a cell too few": many[64][:-1]}.items()
    for count in (*WRONG_COUNTS, 65, 66, 128, 255, 256):
        yield "count %d alone" % count, [count]
        yield "count %d" % count, [count] + two[1:]


def lists():
    for kind in LIST_KINDS:
        for how, cells in wrong_lists(kind):
            yield from both("entries, %s: %s" % (NAMES[kind], how), kind, cells, [1, 2, 0, 1])
    yield from of_other_kind()


def of_other_kind():
    """The cells of as many entries of the other kind."""
    for count in (1, 2, 8, 11):
        events, signs = list_cells(EVENTS, entries(EVENTS, *[0] * count)), list_cells(SIGNS, entries(SIGNS, *[0] * count))
        plan = [count] + [cell for place in range(count) for cell in (1, place)]
        yield from both("%d events called signs" % count, SIGNS, events, plan)
        yield from both("%d signs called events" % count, EVENTS, signs, plan)


def wrong_plans():
    """What is no plan, made from one of two entries."""
    yield from {"no cells": [], "a spare cell behind none": [0, 0], "a message lacks": [1], "two messages, and cells for one": [2, 2, 0, 1],
                "one message, and cells for two": [1, 1, 0, 1, 1], "a number lacks": [1, 2, 0], "all numbers lack": [1, 2],
                "a spare cell": [1, 2, 0, 1, 2], "a spare cell behind two": [2, 1, 0, 1, 1, 0], "the second message's numbers lack": [2, 1, 0, 2, 1],
                "no count of messages": [2, 0, 1], "none, and a message": [0, 2, 0, 1], "an empty message, and one lacks": [3, 2, 0, 1, 0]}.items()
    for count in WRONG_COUNTS:
        yield "%d messages, and no cell" % count, [count]
        yield "%d messages" % count, [count, 2, 0, 1]
        yield "%d entries in a message" % count, [1, count, 0, 1]
        yield "%d entries in the second message" % count, [2, 2, 0, 1, count]
        yield "%d entries in the second message of three" % count, [3, 1, 0, count, 1, 1]


def plans():
    for how, cells in wrong_plans():
        for kind in LIST_KINDS:
            yield "plan, %s: %s" % (NAMES[kind], how), *check_cells(kind, list_cells(kind, entries(kind, 0, 0)), cells), (7, 0)
        yield "plan, no entries: " + how, *check_cells(EVENTS, [0], cells), (7, 0)


def limits():
    for kind in LIST_KINDS:
        two = list_cells(kind, entries(kind, 0, 0))
        for limit in WRONG_LIMITS:
            yield from both("limit %d, %s" % (limit, NAMES[kind]), kind, two, [1, 2, 0, 1], limit, number=4)
            yield from both("limit %d, no %s" % (limit, NAMES[kind]), kind, [0], [0], limit, number=4)
        for limit in (1, 2, 1400, 2047, 2048):
            yield "limit %d, no %s" % (limit, NAMES[kind]), *check(kind, [], [], limit), PASSES
            yield "make: limit %d, no %s" % (limit, NAMES[kind]), *make(kind, [], limit), planned([])
        for limit in (1, 2, 22):
            # the least message has 23 bytes
            yield "limit %d, %s" % (limit, NAMES[kind]), *check(kind, entries(kind, 0, 0), [[0], [1]], limit), (71, 0)
            yield "make: limit %d, %s" % (limit, NAMES[kind]), *make(kind, entries(kind, 0, 0), limit), refused(72, 0)
        for limit in (28, 1400, 2047, 2048):
            yield "limit %d, %s" % (limit, NAMES[kind]), *check(kind, entries(kind, 0, 0), [[0, 1]], limit), PASSES
            yield "make: limit %d, %s" % (limit, NAMES[kind]), *make(kind, entries(kind, 0, 0), limit), planned([[0, 1]])


def before_others():
    """7 before 4, and both before all that is said of a plan."""
    for kind in LIST_KINDS:
        two, name = list_cells(kind, entries(kind, 0, 0)), NAMES[kind]
        for limit in (0, 2049, 2**64 - 1):
            yield from both("7 by kind before 4 by %d, %s" % (limit, name), 2, two, [1, 2, 0, 1], limit)
            yield from both("7 by header before 4 by %d, %s" % (limit, name), kind, two, [1, 2, 0, 1], limit, HEADER_CELLS[:-1])
            yield from both("7 by entries before 4 by %d, %s" % (limit, name), kind, two[:-1], [1, 2, 0, 1], limit)
            yield "7 by plan before 4 by %d, %s" % (limit, name), *check_cells(kind, two, [1, 2, 0], limit), (7, 0)
            for how, plan in (("70", [[0]]), ("71", [[1, 0]]), ("70 and 71", [[], [1]])):
                yield "4 by %d before %s, %s" % (limit, how, name), *check(kind, entries(kind, 0, 0), plan, limit), (4, 0)
            # nothing fits a limit of 0, and no plan fits where nothing is lent
            yield "make: 4 by %d before 8, %s" % (limit, name), *make(kind, entries(kind, 0, 0), limit, room=0), refused(4, 0, room=0)
        for how, plan in (("70", [1, 1, 0]), ("71", [1, 2, 1, 0]), ("70 and 71", [2, 0, 1, 1])):
            yield "7 by header before %s, %s" % (how, name), *check_cells(kind, two, plan, header=[]), (7, 0)
            yield "7 by entries before %s, %s" % (how, name), *check_cells(kind, two + [0], plan), (7, 0)
            yield "7 by plan before %s, %s" % (how, name), *check_cells(kind, two, plan + [0]), (7, 0)
        yield "make: 7 before 8, " + name, *make_cells(kind, two + [0], room=0), refused(7, 0, room=0)
        yield "make: 7 before 72, " + name, *make_cells(kind, two + [0], 1), refused(7, 0)


FORM_GROUPS = (kinds, headers, good_headers, lists, plans, limits, before_others)
