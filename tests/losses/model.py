"""The loss table of document 02 (A4, and A10 for its parties) and the lines of its program: a model that the tests hold the project's code
against.

It is the model of one party: where two have a table together, each is held against a model of its own, and neither knows of the other. For
each sender it keeps the counts of its accepted reports since its entry, and works out each number from them when it is asked for, as document
02 says it: "each number equals what its accepted reports since its entry say". It calls none of the project's code.
"""

# the rows of a party, and the numbers of the two
ROWS = 32
PARTIES = (0, 1)
MOST_RECEIVED = 4294967295
# the kinds of message that have a sender, by the frame's index
NAMES = {0: "BSM", 2: "RSM", 4: "RSI"}
# what the lines say of a record that ends too early
CUT = "3 at bit 0"


def loss(old, new):
    """Document 01: "new minus old minus 1, taken round the ring of 128; equal counts give 127"."""
    return (new - old - 1) % 128


class Sender:
    """A sender with its counts. A sender that is put into a row by hand has received and missed more than its counts say: unseen."""

    def __init__(self, kind, id, counts, unseen=(0, 0)):
        self.kind, self.id, self.counts, self.unseen = kind, id, counts, unseen

    def first(self):
        return self.counts[0]

    def last(self):
        return self.counts[-1]

    def received(self):
        return self.unseen[0] + len(self.counts)

    def missed(self):
        return self.unseen[1] + sum(loss(old, new) for old, new in zip(self.counts, self.counts[1:]))


class Party:
    """The rows that a party holds, by their numbers."""

    def __init__(self):
        self.held = {}

    def start(self):
        self.held = {}

    def row_of(self, kind, id):
        rows = [row for row, sender in self.held.items() if (sender.kind, sender.id) == (kind, id)]
        if len(rows) > 1:
            raise ValueError("a sender stands in two rows")
        return rows[0] if rows else None

    def report(self, kind, id, count):
        """Number and row."""
        if count > 127:
            return 4, 0
        if kind not in NAMES:
            return 25, 0
        row = self.row_of(kind, id)
        if row is not None:
            if self.held[row].received() == MOST_RECEIVED:
                return 21, 0
            self.held[row].counts.append(count)
            return 0, row
        free = set(range(ROWS)) - set(self.held)
        if not free:
            return 20, 0
        self.held[min(free)] = Sender(kind, id, [count])
        return 0, min(free)

    def drop(self, kind, id):
        """Number and row."""
        row = self.row_of(kind, id)
        if row is None:
            return 28, 0
        del self.held[row]
        return 0, row

    def row(self, row):
        """Number, kind, first, last, received and missed; then the id, or None where no sender stands there."""
        sender = self.held.get(row)
        if sender is None:
            return 28, 0, 0, 0, 0, 0, None
        return 0, sender.kind, sender.first(), sender.last(), sender.received(), sender.missed(), sender.id

    def plant(self, row, id, kind, first, last, received, missed):
        """Puts a sender with at least two reports into a row, so that a history can begin near the end of a number."""
        self.held[row] = Sender(kind, id, [first, last], (received - 2, missed - loss(first, last)))

    def lines(self):
        """The held rows, as the program prints them."""
        return ["row %d %s %s first %d last %d received %d missed %d"
                % (row, NAMES[sender.kind], sender.id.hex(), sender.first(), sender.last(), sender.received(), sender.missed())
                for row, sender in sorted(self.held.items())]


class Stranger:
    """A party but 0 and 1, whose every call is 29."""

    def start(self):
        pass

    def report(self, kind, id, count):
        return 29, 0

    def drop(self, kind, id):
        return 29, 0

    def row(self, row):
        return 29, 0, 0, 0, 0, 0, None


def answer_to(party, record):
    """What a record gives, None where it is counted: a record is what its line says behind "refused", or kind, id and count of a frame."""
    if isinstance(record, str):
        return record
    number, _ = party.report(*record)
    return None if number == 0 else str(number)


def program_lines(records, watch=lambda party, record: None):
    """The lines of the program for records as answer_to takes them. watch is called with each before the rows have changed."""
    party, lines, counted = Party(), [], 0
    for place, record in enumerate(records):
        watch(party, record)
        answer = answer_to(party, record)
        if answer is None:
            counted += 1
        else:
            lines.append("record %d refused %s" % (place, answer))
    return lines + party.lines() + ["%d records, %d counted" % (len(records), counted)]
