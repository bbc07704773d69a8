"""What is asked of the check of plans and of the planner: a request, laid out as four sheets and taken apart from them.

The sheets: which of the two is asked, with the kind of the list and the limit; the header; the entries; and the plan that is checked, or the
cells that are lent for one that is made. Header and entries are trees, as tests/checks/sheets.py has them, a plan is a list of messages, and a
message a list of the numbers of its entries. None of the project's code is called.
"""

from sheets import NoValue, T, Taking, length_of, name_of, put_cells, sheet_of, taken

# the first cell of a request
CHECK, MAKE = 0, 1
# the kinds of lists, and which component of an RSI each is
EVENTS, SIGNS = 0, 1
COMPONENTS = ("rtes", "rtss")
LISTS = [T[part] for name, part, _ in T["RoadSideInformation"].components if name in COMPONENTS]
MOST_ENTRIES = 64
# how long a message is that the writer refuses: longer than any limit
ABOVE_ALL = float("inf")
# a number of 64 bits, of which a cell has the highest as its sign
NUMBERS, SIGN = 2**64, 2**63

# the bits of entries by the name of their type and their cells, since the same ones come again and again
known_bits = {}


class Unmeasured(Exception):
    """A message was asked for whose length is not known yet."""


class Request:
    """header: a frame; entries: trees; plan: messages. Each is None where its sheet is no such thing; a request to make a plan has none, and
    a request to check one has no lent cells. sheets: those that it was taken from. lengths: the bytes of messages, as they were
    measured; wanted: the messages that were asked for and are not."""

    def __init__(self, making, kind, limit, header, entries, plan=None, lent=None):
        self.making, self.kind, self.limit, self.header, self.entries, self.plan, self.lent = making, kind, limit, header, entries, plan, lent
        self.sheets, self.front, self.cells, self.bits = None, None, {}, {}
        self.lengths, self.wanted = {}, set()

    def __eq__(self, other):
        own, others = ((one.making, one.kind, one.limit, one.header, one.entries, one.plan, one.lent) for one in (self, other))
        return own == others

    def laid_out(self):
        """The four sheets."""
        call = [MAKE if self.making else CHECK, as_cell(self.kind), as_cell(self.limit)]
        return [call, sheet_of(self.header), list_cells(self.kind, self.entries), self.lent if self.making else plan_cells(self.plan)]

    def most(self):
        """How many entries a message may have."""
        return LISTS[self.kind].most

    def entry_cells(self, number):
        if number not in self.cells:
            cells = self.cells[number] = []
            put_cells(LISTS[self.kind].item, self.entries[number], cells)
        return self.cells[number]

    def message(self, numbers):
        """The sheet of a message with these entries."""
        if self.front is None:
            # the header's fields and the list without entries, of which the last cell is the count
            self.front = sheet_of((self.header[0], {**self.header[1], COMPONENTS[self.kind]: []}))[:-1]
        return self.front + [len(numbers)] + [cell for number in numbers for cell in self.entry_cells(number)]

    def length(self, numbers):
        """The bytes of a message with these entries, as it is written."""
        numbers = tuple(numbers)
        if numbers not in self.lengths:
            self.wanted.add(numbers)
            raise Unmeasured
        return self.lengths[numbers]

    def want(self, messages):
        """Says that the lengths of these will be asked for."""
        self.wanted.update(numbers for numbers in map(tuple, messages) if numbers not in self.lengths)

    def header_bits(self):
        if None not in self.bits:
            self.bits[None] = length_of("MessageFrame", self.header)
        return self.bits[None]

    def count_bits(self, kind=None):
        of = LISTS[self.kind if kind is None else kind]
        return (of.most - of.least).bit_length()

    def entry_bits(self, number):
        if number not in self.bits:
            item, cells = LISTS[self.kind].item, tuple(self.entry_cells(number))
            if (item, cells) not in known_bits:
                known_bits[item, cells] = length_of(item, self.entries[number])
            self.bits[number] = known_bits[item, cells]
        return self.bits[number]

    def message_bits(self, numbers):
        """The bits of a message, added up from those of its parts."""
        return self.header_bits() + self.count_bits() + sum(map(self.entry_bits, numbers))


def whole_bytes(bits):
    return (bits + 7) // 8


def as_cell(number):
    """A number of 64 bits without a sign, as the cell of the same bits."""
    return number - NUMBERS if number >= SIGN else number


def as_number(cell):
    return cell % NUMBERS


def list_cells(kind, entries):
    """The count of the entries, and their cells."""
    cells = [len(entries)]
    for entry in entries:
        put_cells(LISTS[kind].item, entry, cells)
    return cells


def plan_cells(plan):
    """The count of the messages, and of each the count of its entries and their numbers."""
    return [len(plan)] + [cell for message in plan for cell in [len(message), *message]]


# ----------------------------------------------------------------------------------------------
# From sheets to requests


def header_of(cells):
    """The frame of an RSI with neither list; else None."""
    frame = taken(cells)
    if isinstance(frame, NoValue) or name_of(frame) != "rsiFrame" or any(name in frame[1] for name in COMPONENTS):
        return None
    return frame


def entries_of(kind, cells, most=MOST_ENTRIES, spare=0):
    """The trees of the entries, with at most so many cells behind the last one; else None."""
    taking = Taking(cells)
    try:
        entries = [taking.tree(LISTS[kind].item) for _ in range(taking.cell(0, most))]
    except NoValue:
        return None
    return entries if len(cells) - taking.next <= spare else None


def plan_of(cells, spare=0):
    """The messages, with at most so many cells behind the last one; else None."""
    taking, plan = Taking(cells), []
    try:
        for _ in range(taking.cell(0, SIGN)):
            # a message has no more entries than there are cells
            plan.append([taking.cell(-SIGN, SIGN) for _ in range(taking.cell(0, len(cells)))])
    except NoValue:
        return None
    return plan if len(cells) - taking.next <= spare else None


def request_of(sheets):
    """The request that four sheets are. Entries of a kind that there is not are none."""
    (function, kind, limit), header, entries, last = sheets
    making, kind = function == MAKE, as_number(kind)
    own = entries_of(kind, entries) if kind < len(LISTS) else None
    plan, lent = (None, last) if making else (plan_of(last), None)
    request = Request(making, kind, as_number(limit), header_of(header), own, plan, lent)
    request.sheets = sheets
    return request
