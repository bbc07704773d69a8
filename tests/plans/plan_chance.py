"""Requests about plans by chance: lists of events and of signs, limits at which a message just fits or just doesn't, plans that are good and
plans that were spoiled, and lent cells that are just enough or not; and sheets that are not of their form.

Entries come from a stock that is made once, with all that they may have in them (tests/checks/drawing.py).
"""

from drawing import Drawing, Store
from least import KINDS
from plan_building import canaries
from plan_requests import COMPONENTS, LISTS, MOST_ENTRIES, Request, whole_bytes
from plan_spoiling import PlanSpoiling, SheetSpoiling
from sheets import MOST_BYTES
# sheets knows where the folder of the cases is
from generate import Chance, full

WRONG_LIMITS = [0, 0, 0, MOST_BYTES + 1, MOST_BYTES + 1, 4096, 2**16 + 100, 2**32, 2**32 + 200, 2**63 - 1, 2**63 + 300, 2**64 - 1]
SOME_LIMITS = [1, 22, 23, 24, 30, 40, 60, 100, 200, 400, 1000, 1400, MOST_BYTES - 1, MOST_BYTES, MOST_BYTES, MOST_BYTES]
COUNTS = [0, 1, 1, 1, 2, 2, 2, 3, 3, 4, 4, 5, 6, 7, 8, 9, 9, 10, 12, 15, 16, 17, 18, 20, 24, 33, 48, 63, MOST_ENTRIES]
# So many entries are made once of each kind and size, and so many headers. The sizes: of how many of a hundred optional components there are;
# the last has some with all that they may have besides, which are too long for every limit.
STORED_ENTRIES, PRESENCES, FULL_ENTRIES = 40, (0, 15, 50, 90), 2


class Heap(Drawing):
    """How headers and entries are drawn."""

    made = {"RoadSideInformation": set(COMPONENTS), **{of.item: set() for of in LISTS}}

    def header(self):
        self.presence = 50
        return (KINDS["rsiFrame"], self.sequence("RoadSideInformation"))

    def entry(self, kind, presence):
        self.presence = presence
        return self.sequence(LISTS[kind].item)


class Stock:
    """Headers and entries, made once."""

    def __init__(self, chance):
        heap = self.heap = Heap(chance, Store(chance))
        self.headers = [heap.header() for _ in range(STORED_ENTRIES)]
        self.entries = [[[heap.entry(kind, presence) for _ in range(STORED_ENTRIES)] for presence in PRESENCES] for kind, _ in enumerate(LISTS)]
        for of, own in zip(LISTS, self.entries):
            own[-1].extend(full(of.item, chance) for _ in range(FULL_ENTRIES))


class Drawn:
    """A list by chance with a header and a limit, and what is asked of it."""

    def __init__(self, chance, stock):
        self.chance, kind = chance, chance.between(0, 1)
        # small ones most often
        small, *others = stock.entries[kind]
        pool = chance.one_of([small] * 6 + others)
        entries = [chance.one_of(pool) for _ in range(chance.one_of(COUNTS))]
        self.request, self.count = Request(False, kind, MOST_BYTES, chance.one_of(stock.headers), entries), len(entries)
        self.request.limit = self.limit()

    def limit(self):
        """Most often one at which some message just fits, or just doesn't."""
        drawn = self.chance.between(0, 99)
        if drawn < 6:
            return self.chance.one_of(WRONG_LIMITS)
        if drawn < 30:
            return self.chance.one_of(SOME_LIMITS)
        first, size = self.chance.between(0, max(0, self.count - 1)), self.chance.between(1, self.request.most())
        length = whole_bytes(self.request.message_bits(range(first, min(self.count, first + size))))
        return max(1, min(MOST_BYTES, length + self.chance.one_of([-1, 0, 0, 0, 1, 2])))

    def room(self):
        """A plan has from two cells more than there are entries, if there are any, to twice as many and one."""
        count, most = self.count, 2 * self.count + 1
        some = self.chance.between(0, most + 3)
        return self.chance.one_of([0, 1, count, count + 1, count + 2, count + 3, count + 4, max(0, most - 1), most, most + 3, some, some])

    def fits(self, message):
        return len(message) <= self.request.most() and whole_bytes(self.request.message_bits(message)) <= self.request.limit

    def good_plan(self):
        """Each entry in one of the last few messages if it fits there, else in one of its own; the messages as they came, or in any order."""
        plan, open_ones = [], self.chance.one_of([1, 1, 2, 4])
        for entry in range(self.count):
            own = self.chance.one_of(plan[-open_ones:]) if plan and self.chance.holds(95) else []
            if own and self.fits([*own, entry]):
                own.append(entry)
            else:
                plan.append([entry])
        if self.chance.holds(50):
            plan.sort(key=lambda _: self.chance.number())
        return plan

    def to_check(self):
        self.request.plan, spoiling = self.good_plan(), PlanSpoiling(self.chance, self.count)
        for _ in range(self.chance.one_of([0, 0, 0, 0, 0, 1, 1, 1, 1, 2, 3])):
            spoiling.spoil(self.request.plan)
        return self.request

    def to_make(self, room):
        self.request.making, self.request.lent = True, canaries(room)
        return self.request


def some_requests(seed, count):
    """Sheets of requests, each with the request that they were made of; None where a sheet was spoiled."""
    chance = Chance(seed)
    stock = Stock(chance)
    spoiling = SheetSpoiling(chance, stock)
    for _ in range(count):
        drawn = Drawn(chance, stock)
        request = drawn.to_make(drawn.room()) if chance.holds(40) else drawn.to_check()
        sheets = request.laid_out()
        if chance.holds(15):
            # no cells that are lent are wrong ones
            spoiling.spoil(sheets, chance.between(0, 2 if request.making else 3))
            request = None
        yield sheets, [request]


def some_lists(seed, count):
    """Requests to make a plan, with room for every plan that there may be."""
    chance = Chance(seed)
    stock = Stock(chance)
    for _ in range(count):
        drawn = Drawn(chance, stock)
        yield drawn.to_make(2 * drawn.count + 1)
