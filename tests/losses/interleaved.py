"""Histories of calls of both parties over one loss table, by chance, what the models answer to them, and what occurs in them.

A call is a list of words, as calls.c takes it. Each party's calls are judged by a model of its own, which is told of no other calls.
"""

from model import MOST_RECEIVED, NAMES, PARTIES, ROWS, Party, Stranger
from streams import KINDS, next_count, some_senders

# an id that a call of a row must leave alone stays so
UNTOUCHED = "a5a5a5a5a5a5a5a5"


# ----------------------------------------------------------------------------------------------
# What the models answer


def answer_to(model, words):
    """What the model of a party answers to a call of that party, as calls.c prints it; None where it answers nothing."""
    name, _, *rest = words
    if name == "plant":
        row, id, *numbers = rest
        return model.plant(int(row), bytes.fromhex(id), *map(int, numbers))
    if name == "row":
        *cells, id = model.row(int(rest[0]))
        return " ".join(map(str, cells + [id.hex() if id else UNTOUCHED]))
    kind, id, *count = rest
    return "%d %d" % (model.report if name == "report" else model.drop)(int(kind), bytes.fromhex(id), *map(int, count))


def modelled(calls):
    """What the models answer to calls. Each goes through its party's calls alone, as if there were no others; a start is for all."""
    answers = {}
    for party in {words[1] for words in calls if words != ["start"]}:
        model = Party() if int(party) in PARTIES else Stranger()
        for place, words in enumerate(calls):
            if words == ["start"]:
                model.start()
            elif words[1] == party:
                answers[place] = answer_to(model, words)
    return [answers[place] for place in sorted(answers) if answers[place] is not None]


# ----------------------------------------------------------------------------------------------
# Histories by chance

SENDERS = 44
STRANGERS = [2, 3, 255, 256, 257, 2**32, 2**32 + 1, 2**63, 2**63 + 1, 2**64 - 1]
OTHER_KINDS = [1, 3, 5, 255, 256, 65536, 2**32 + 4, 2**64 - 1]


def planted(senders, chance):
    """Senders at the end of received, or one before it, in rows of both parties: the first is one of both, with other numbers."""
    calls, unseen = [], [0, 127, 1000, 2**32 * 100]
    for party in PARTIES:
        for place, (kind, id) in enumerate([senders[0]] + senders[1 + 3 * party:4 + 3 * party]):
            first, last = chance.between(0, 127), chance.between(0, 127)
            received, missed = MOST_RECEIVED - (place + party) % 2, 127 + chance.one_of(unseen)
            calls.append(["plant", party, 5 * place + party, id.hex(), kind, first, last, received, missed])
    return calls


def some_call(name, party, senders, last, chance):
    """A call of a party. last has the last counts that were reported, whatever was answered."""
    if name == "row":
        far = [ROWS - 1, ROWS, 2 * ROWS - 1, 2 * ROWS, 256, 2**32, 2**64 - 1]
        return [name, party, chance.between(0, 2 * ROWS) if chance.holds(90) else chance.one_of(far)]
    kind, id = chance.one_of(senders)
    asked = chance.one_of(OTHER_KINDS) if chance.holds(6) else kind
    if name == "drop":
        return [name, party, asked, id.hex()]
    count = last[party, kind, id] = next_count(last.get((party, kind, id), 64), chance)
    return [name, party, asked, id.hex(), chance.between(128, 255) if chance.holds(6) else count]


def some_history(length, chance):
    """So many calls by chance, and behind them every row of both parties. They come in stretches, in which one party may call more often than
    the other, and in which senders come or go."""
    senders = [(KINDS[name][2], id) for name, id in some_senders(SENDERS, chance)]
    calls, last = planted(senders, chance), {}
    while len(calls) < length:
        if chance.holds(20):
            calls += [["start"]] + planted(senders, chance)
        of_display, coming = chance.one_of([8, 50, 92]), chance.one_of([85, 85, 40])
        for _ in range(chance.between(30, 160)):
            name = "report" if chance.holds(coming) else chance.one_of(["drop", "row"])
            party = chance.one_of(STRANGERS) if chance.holds(8) else int(chance.holds(of_display))
            calls.append(some_call(name, party, senders, last, chance))
    calls += [["row", party, row] for party in PARTIES for row in range(ROWS + 1)]
    return [list(map(str, words)) for words in calls]


# ----------------------------------------------------------------------------------------------
# What occurs in a history. Every one by chance has to have all of these


OCCASIONS = ["%s with %d" % (name, number)
             for name, numbers in (("report", (0, 4, 20, 21, 25, 29)), ("drop", (0, 28, 29)), ("row", (0, 28, 29))) for number in numbers] + [
    "29 before 4", "29 before 25", "29 and not 28 for a row that is not there", "29 for a sender that both hold",
    "20 while the other has room", "20 while the other has none", "20 for a sender that the other holds",
    "a new sender while the other has no room", "a new sender that the other holds", "a sender of both in different rows",
    "a known sender of both with different counts", "21 for a sender that the other counts on",
    "a drop of a sender of both", "28 for a sender that the other alone holds", "a dropped row used again",
    "a row where the other holds another sender", "a free row where the other holds a sender", "a row beyond a party's that the whole table would have",
    "a start with senders of both",
]


class Onlooker:
    """Counts what occurs in a history. It sees both parties, and judges neither."""

    def __init__(self):
        self.counts, self.parties, self.dropped = {}, [Party() for _ in PARTIES], set()

    def see(self, occasions):
        """Occasions, each with whether it is there."""
        for occasion, here in occasions.items():
            self.counts[occasion] = self.counts.get(occasion, 0) + bool(here)

    def watch(self, calls):
        for words in calls:
            if words == ["start"]:
                self.see({"a start with senders of both": all(party.held for party in self.parties)})
                self.dropped.clear()
                for party in self.parties:
                    party.start()
            elif int(words[1]) not in PARTIES:
                self.see_stranger(*words)
            elif words[0] == "plant":
                answer_to(self.parties[int(words[1])], words)
            else:
                self.see_party(int(words[1]), words)

    def see_stranger(self, name, _, *rest):
        self.see({name + " with 29": True})
        if name == "row":
            return self.see({"29 and not 28 for a row that is not there": int(rest[0]) >= ROWS})
        kind, id, *count = rest
        held = [party.row_of(int(kind), bytes.fromhex(id)) is not None for party in self.parties]
        self.see({
            "29 before 4": count and int(count[0]) > 127,
            "29 before 25": count and int(kind) not in NAMES,
            "29 for a sender that both hold": all(held),
        })

    def see_party(self, party, words):
        own, other = self.parties[party], self.parties[1 - party]
        kind, id = (None, None) if words[0] == "row" else (int(words[2]), bytes.fromhex(words[3]))
        known, elsewhere, room = own.row_of(kind, id), other.row_of(kind, id), len(other.held) < ROWS
        number, row = map(int, answer_to(own, words).split()[:2])
        self.see({"%s with %d" % (words[0], number): True})
        if words[0] == "row":
            self.see_row(own, other, int(words[2]))
        elif words[0] == "report":
            self.see_report((party, row), number, known, elsewhere, room)
        else:
            self.see({
                "a drop of a sender of both": number == 0 and elsewhere is not None,
                "28 for a sender that the other alone holds": number == 28 and elsewhere is not None,
            })
            self.dropped.update([(party, row)] if number == 0 else [])

    def see_report(self, place, number, known, elsewhere, room):
        (party, row), of_both = place, elsewhere is not None
        own, theirs = self.parties[party].held.get(row), self.parties[1 - party].held.get(elsewhere)
        new, counted = number == 0 and known is None, number == 0 and known is not None
        self.see({
            "20 while the other has room": number == 20 and room,
            "20 while the other has none": number == 20 and not room,
            "20 for a sender that the other holds": number == 20 and of_both,
            "a new sender while the other has no room": new and not room,
            "a new sender that the other holds": new and of_both,
            "a sender of both in different rows": number == 0 and of_both and elsewhere != row,
            "a known sender of both with different counts": counted and of_both and own.counts != theirs.counts,
            "21 for a sender that the other counts on": number == 21 and of_both and theirs.received() < MOST_RECEIVED,
            "a dropped row used again": new and place in self.dropped,
        })

    def see_row(self, own, other, row):
        mine, theirs = own.held.get(row), other.held.get(row)
        self.see({
            "a row where the other holds another sender": mine and theirs and (mine.kind, mine.id) != (theirs.kind, theirs.id),
            "a free row where the other holds a sender": not mine and theirs,
            "a row beyond a party's that the whole table would have": row - ROWS in self.parties[1].held,
        })
