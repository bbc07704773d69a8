"""Plans that are made, each with the answer that was worked out by hand: number, place, cells, and the lent cells as they are afterwards."""

from least import frame, sequence
from plan_building import LIST_KINDS, MOY_BITS, bits_with, bytes_with, entries, entry, make, planned, refused
from plan_byhand import FULL_TEXTS, MOST, OVERFULL_TEXTS
from plan_byhand_form import NAMES
from plan_requests import EVENTS, LISTS, MOST_ENTRIES, SIGNS, plan_cells, whole_bytes
# sheets knows where the folder of the cases is
from generate import Chance, full


def in_turn(count, most):
    """A plan of so many entries, with so many in a message."""
    numbers = list(range(count))
    return [numbers[first:first + most] for first in range(0, count, most)]


def none():
    """No entries: a plan of one cell, whatever the limit."""
    for kind in LIST_KINDS:
        for limit in (1, 23, 2048):
            named = "no %s in %d bytes" % (NAMES[kind], limit)
            yield named, *make(kind, [], limit), planned([])
            yield named + ", nothing lent", *make(kind, [], limit, room=0), refused(8, 0, 1, room=0)
            yield named + ", a cell lent", *make(kind, [], limit, room=1), (0, 0, 1, 0)
            yield named + ", two cells lent", *make(kind, [], limit, room=2), planned([], room=2)


def one():
    """One entry: at the limit, and a byte above it."""
    for kind in LIST_KINDS:
        for text in range(17):
            length = bytes_with(kind, text)
            named = "one of %s with a text of %d, %d bits" % (NAMES[kind], text, bits_with(kind, text))
            for limit, answer in ((length - 1, refused(72, 0)), (length, planned([[0]])), (length + 1, planned([[0]]))):
                yield "%s in %d bytes" % (named, limit), *make(kind, entries(kind, text), limit), answer
        header = frame("rsiFrame", moy=0)
        length = whole_bytes(bits_with(kind, 0) + MOY_BITS)
        yield "one of %s with moy, at the limit" % NAMES[kind], *make(kind, entries(kind, 0), length, header), planned([[0]])
        yield "one of %s with moy, above it" % NAMES[kind], *make(kind, entries(kind, 0), length - 1, header), refused(72, 0)


def counts():
    """So many entries that the list's maximum closes each message."""
    for kind in LIST_KINDS:
        for count in (*range(1, 20), 24, 25, 31, 32, 33, 40, 47, 48, 49, 63, MOST_ENTRIES):
            yield "%d of %s" % (count, NAMES[kind]), *make(kind, entries(kind, *[0] * count)), planned(in_turn(count, MOST[kind]))


def limits():
    """Equal entries, of which the limit lets so many into a message; and with a byte less one fewer."""
    for kind in LIST_KINDS:
        for fit in range(1, MOST[kind] + 1):
            limit = bytes_with(kind, *[0] * fit)
            for count in sorted({fit, fit + 1, 2 * fit, MOST[kind] + 3}):
                named = "%d of %s, %d in a message" % (count, NAMES[kind], fit)
                yield named, *make(kind, entries(kind, *[0] * count), limit), planned(in_turn(count, fit))
                answer = planned(in_turn(count, fit - 1)) if fit > 1 else refused(72, 0)
                yield named + " but for a byte", *make(kind, entries(kind, *[0] * count), limit - 1), answer
        # one more would fit by its bytes, but not by the list
        most = MOST[kind]
        for more in (0, 1, 5, 100):
            limit = bytes_with(kind, *[0] * (most + 1)) + more
            named = "%s, %d bytes for more than the list may have" % (NAMES[kind], limit)
            yield named, *make(kind, entries(kind, *[0] * 40), limit), planned(in_turn(40, most))
        yield "64 of %s, each alone" % NAMES[kind], *make(kind, entries(kind, *[0] * 64), 23), planned(in_turn(64, 1))
        yield "64 of %s, two and two" % NAMES[kind], *make(kind, entries(kind, *[0] * 64), bytes_with(kind, 0, 0)), planned(in_turn(64, 2))


def ends():
    """Two entries that fit by a bit or not, at every bit of a byte."""
    for kind in LIST_KINDS:
        for first in range(1, 9):
            for second in (1, 2, 3):
                length = bytes_with(kind, first, second)
                named = "%s with texts of %d and %d, %d bits" % (NAMES[kind], first, second, bits_with(kind, first, second))
                yield named + ", at the limit", *make(kind, entries(kind, first, second), length), planned([[0, 1]])
                yield named + ", above it", *make(kind, entries(kind, first, second), length - 1), planned([[0], [1]])
                yield named + ", and a third", *make(kind, entries(kind, first, second, 0), length), planned([[0, 1], [2]])


def sizes():
    """Entries of different lengths: each goes into the last message, or begins the next."""
    for kind in LIST_KINDS:
        name, of = NAMES[kind], lambda *texts: entries(kind, *texts)
        fits = bytes_with(kind, 10, 20)
        below = bytes_with(kind, 10, 30) - 1
        yield name + ": an earlier message would have room", *make(kind, of(10, 30, 10, 10), below), planned([[0], [1], [2, 3]])
        yield name + ": short, long, short", *make(kind, of(1, 40, 1), bytes_with(kind, 40)), planned([[0], [1], [2]])
        yield name + ": long, short, long", *make(kind, of(40, 1, 40), bytes_with(kind, 1, 40)), planned([[0, 1], [2]])
        yield name + ": the shortest last", *make(kind, of(30, 20, 10), fits), planned([[0], [1, 2]])
        yield name + ": the shortest first", *make(kind, of(10, 20, 30), fits), planned([[0, 1], [2]])
        yield name + ": two pairs", *make(kind, of(10, 20, 20, 10), fits), planned([[0, 1], [2, 3]])
        yield name + ": a pair between", *make(kind, of(20, 20, 10, 20), fits), planned([[0], [1, 2], [3]])
        yield name + ": a long one among 12", *make(kind, of(*[0] * 5, 40, *[0] * 6), bytes_with(kind, 40)), planned(
            [[0, 1, 2, 3, 4], [5], [6, 7, 8, 9, 10, 11]])
        most = MOST[kind]
        yield name + ": the list's maximum, then the limit", *make(kind, of(*[0] * (most + 1), 90, 0), bytes_with(kind, *[0] * most, 90)), planned(
            [list(range(most)), [most, most + 1, most + 2]])
        yield name + ": the limit, then the list's maximum", *make(kind, of(90, 90, *[0] * (most + 1)), bytes_with(kind, 90, *[0] * most)), planned(
            [[0], list(range(1, most + 1)), [most + 1, most + 2]])


def too_long():
    """72: the first entry that alone is over the limit."""
    for kind in LIST_KINDS:
        name, limit = NAMES[kind], bytes_with(kind, 5)
        for place in range(6):
            texts = [50 if own == place else 0 for own in range(6)]
            yield "%s: %d too long" % (name, place), *make(kind, entries(kind, *texts), limit), refused(72, place)
            texts = [50 if own >= place else 0 for own in range(6)]
            yield "%s: %d and all behind it too long" % (name, place), *make(kind, entries(kind, *texts), limit), refused(72, place)
            texts = [50 + own if own >= place else 0 for own in range(6)]
            yield "%s: %d too long, those behind it longer" % (name, place), *make(kind, entries(kind, *texts), limit), refused(72, place)
        yield "%s: the last of 64 too long" % name, *make(kind, entries(kind, *[0] * 63, 50), limit), refused(72, 63)
        yield "%s: the last of 64 fits alone" % name, *make(kind, entries(kind, *[5] * 64), limit), planned(in_turn(64, 1))
        heavy = full(LISTS[kind].item, Chance(1))
        yield "%s: one with all that it may have" % name, *make(kind, [heavy]), refused(72, 0)
        yield "%s: one with all that it may have, behind another" % name, *make(kind, [entry(kind), heavy, heavy]), refused(72, 1)


def longest():
    """2,048 bytes: a message of 16,384 bits, and one of a bit more."""
    yield "make: 2,048 bytes", *make(EVENTS, entries(EVENTS, *FULL_TEXTS)), planned([list(range(8))])
    yield "make: 2,048 bytes in 2,047", *make(EVENTS, entries(EVENTS, *FULL_TEXTS), 2047), planned([list(range(7)), [7]])
    yield "make: 2,048 bytes, and another event", *make(EVENTS, entries(EVENTS, *FULL_TEXTS, 0)), planned([list(range(8)), [8]])
    yield "make: a bit above 2,048 bytes", *make(EVENTS, entries(EVENTS, *OVERFULL_TEXTS)), planned([list(range(7)), [7]])
    # four texts of 512 characters have 1,834 bytes, and five more than 2,048
    for kind in LIST_KINDS:
        yield "64 of %s with 512 characters" % NAMES[kind], *make(kind, entries(kind, *[512] * 64)), planned(in_turn(64, 4))


def plans_for_rooms(kind):
    """Lists of least entries by their count, with a limit and the plan that there is."""
    yield 1, 2048, [[0]]
    yield 3, 2048, [[0, 1, 2]]
    yield 3, 23, [[0], [1], [2]]
    yield 5, bytes_with(kind, 0, 0), [[0, 1], [2, 3], [4]]
    yield 64, 23, in_turn(64, 1)
    yield 64, 2048, in_turn(64, MOST[kind])


def rooms():
    """8: how many cells are lent, and how many are needed."""
    for kind in LIST_KINDS:
        name = NAMES[kind]
        for count, limit, plan in plans_for_rooms(kind):
            own, needed = entries(kind, *[0] * count), len(plan_cells(plan))
            for room in sorted({0, 1, 2, needed // 2, needed - 2, needed - 1}):
                yield "%d of %s, %d of %d cells" % (count, name, room, needed), *make(kind, own, limit, room=room), refused(8, 0, needed, room)
            for room in (needed, needed + 1, needed + 2, needed + 50):
                yield "%d of %s, %d cells for %d" % (count, name, room, needed), *make(kind, own, limit, room=room), planned(plan, room)
        for room in (0, 1, 2):
            yield "72 before 8, %s, %d cells" % (name, room), *make(kind, entries(kind, 0, 50), 30, room=room), refused(72, 1, room=room)


def headers():
    """A header with more in it leaves less room."""
    header = frame("rsiFrame", moy=0, refPos=sequence("Position3D", elevation=0))
    # three events have 257 bits, and two behind 36 bits more in the header 256; four signs have 271 bits, and two so 245, three 276
    for kind, limit, fit, fewer in ((EVENTS, 33, 3, 2), (SIGNS, 34, 4, 2)):
        yield "%d of %s behind a short header" % (fit, NAMES[kind]), *make(kind, entries(kind, *[0] * 6), limit), planned(in_turn(6, fit))
        yield "%d of %s behind a long header" % (fewer, NAMES[kind]), *make(kind, entries(kind, *[0] * 6), limit, header), planned(in_turn(6, fewer))


MADE_GROUPS = (none, one, counts, limits, ends, sizes, too_long, longest, rooms, headers)
