"""Plans and sheets about plans in which one thing was made wrong, or at least otherwise, by chance."""

from plan_requests import COMPONENTS, MOST_ENTRIES, as_cell, list_cells
from sheets import sheet_of
from spoiling import spoiled

WRONG_KINDS = [2, 3, 256, 257, 2**32, 2**32 + 1, 2**63, 2**63 + 1, 2**64 - 1]
WRONG_COUNTS = [-1, -2, -2**63, 2**32, 2**32 + 1, 2**61, 2**62, 2**63 - 1]
# numbers that no list has an entry for, or few
WRONG_NUMBERS = [-1, -1, -2, -64, -2**32, -2**63, 63, 64, 256, 2**32, 2**32 + 1, 2**62, 2**63 - 1]


class PlanSpoiling:
    """Changes plans of so many entries, each a list of messages."""

    def __init__(self, chance, count):
        self.chance, self.count = chance, count

    def spoil(self, plan):
        ways = [self.drop, self.double, self.double_beside, self.swap, self.empty, self.name_another, self.merge, self.merge_all, self.move]
        if any(plan):
            self.chance.one_of(ways)(plan)
        else:
            self.chance.one_of([self.empty, self.name_another])(plan)

    def place_in(self, things):
        return self.chance.between(0, len(things) - 1)

    def some_message(self, plan):
        """One that is not empty, of a plan that has such."""
        return self.chance.one_of([message for message in plan if message])

    def add(self, plan, numbers):
        """Puts numbers into a message of the plan, in order."""
        own = self.chance.one_of(plan)
        own.extend(numbers)
        own.sort()

    def drop(self, plan):
        message = self.some_message(plan)
        message.pop(self.place_in(message))

    def double(self, plan):
        self.add(plan, [self.chance.one_of(self.some_message(plan))])

    def double_beside(self, plan):
        message = self.some_message(plan)
        place = self.place_in(message)
        message.insert(place, message[place])

    def swap(self, plan):
        message = self.some_message(plan)
        one, other = self.place_in(message), self.place_in(message)
        message[one], message[other] = message[other], message[one]

    def empty(self, plan):
        """A message more without entries; now and then more of them than there may be entries."""
        place = self.chance.between(0, len(plan))
        plan[place:place] = [[] for _ in range(self.chance.one_of([1] * 9 + [MOST_ENTRIES + 1]))]

    def name_another(self, plan):
        number = self.chance.one_of([*WRONG_NUMBERS, self.count, self.count, self.count])
        if not any(plan) or self.chance.holds(30):
            plan.append([number])
        elif self.chance.holds(70):
            self.add(plan, [number])
        else:
            message = self.some_message(plan)
            message[self.place_in(message)] = number

    def merge(self, plan):
        if len(plan) > 1:
            self.add(plan, plan.pop(self.place_in(plan)))

    def merge_all(self, plan):
        plan[:] = [sorted(number for message in plan for number in message)]

    def move(self, plan):
        message = self.some_message(plan)
        self.add(plan, [message.pop(self.place_in(message))])


class SheetSpoiling:
    """Changes the sheets of requests, so that one of them is most often not of its form. stock: headers and entries to take from."""

    def __init__(self, chance, stock):
        self.chance, self.stock = chance, stock

    def spoil(self, sheets, place):
        """Changes the sheet at a place."""
        ways = [self.kind, self.header, self.entries, self.plan]
        sheets[place] = ways[place](sheets)

    def kind(self, sheets):
        function, kind, limit = sheets[0]
        return [function, self.chance.one_of([1 - kind] + [as_cell(number) for number in WRONG_KINDS]), limit]

    def header(self, sheets):
        drawn = self.chance.between(0, 3)
        if drawn == 0:
            return sheet_of(self.stock.heap.another())
        if drawn == 1:
            kind, (index, body) = self.chance.between(0, 1), self.chance.one_of(self.stock.headers)
            return sheet_of((index, {**body, COMPONENTS[kind]: self.stock.entries[kind][0][:2]}))
        return spoiled(sheets[1], self.chance)

    def with_count(self, cells):
        """Another count in front."""
        return [self.chance.one_of([*WRONG_COUNTS, cells[0] - 1, cells[0] + 1, cells[0] + 2**32, cells[0] + 2**32]), *cells[1:]]

    def entries(self, sheets):
        kind, cells, drawn = sheets[0][1], sheets[2], self.chance.between(0, 5)
        if drawn == 0:
            return [] if self.chance.holds(50) else [*cells, 0]
        if drawn == 1:
            small = self.stock.entries[kind][0]
            return list_cells(kind, [self.chance.one_of(small) for _ in range(MOST_ENTRIES + self.chance.between(1, 2))])
        return self.with_count(cells) if drawn < 4 else spoiled(cells, self.chance)

    def plan(self, sheets):
        cells, drawn = sheets[3], self.chance.between(0, 5)
        if drawn == 0:
            return [] if self.chance.holds(30) else [*cells, 0]
        if drawn == 1:
            # a message more, whose count of entries is wrong
            return [cells[0] + 1, *cells[1:], self.chance.one_of([-1, -1, *WRONG_COUNTS])]
        if drawn == 2:
            # the first message, where there is one
            return cells[:1] + (self.with_count(cells[1:]) if cells[1:] else [0])
        return self.with_count(cells) if drawn < 5 else spoiled(cells, self.chance)
