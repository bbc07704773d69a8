"""Plans that are checked, each with the answer that was worked out by hand: number and place."""

from itertools import combinations, permutations, product

from least import frame, sequence
from plan_building import ELEVATION_BITS, LIST_KINDS, MOY_BITS, bits_with, bytes_with, check, entries, entry
from plan_byhand_form import NAMES
from plan_judge import PASSES
from plan_requests import EVENTS, LISTS, MOST_ENTRIES, SIGNS, whole_bytes
from sheets import MOST_BYTES
# sheets knows where the folder of the cases is
from generate import Chance, full

# how many entries a message may have
MOST = {EVENTS: 8, SIGNS: 16}
# three messages for six entries
SIX = [[0, 1], [2, 3], [4, 5]]
# numbers that are none of six entries, of which some are one in their low bits
BELOW, ABOVE = (-2**63, -2**62, -2**32, -2**31, -64, -6, -1), (6, 7, 8, 63, 64, 255, 256, 2**16, 2**31, 2**32, 2**32 + 1, 2**62, 2**63 - 1)
# texts of events whose message has exactly 16,384 bits, and of those whose message has a bit more
FULL_TEXTS, OVERFULL_TEXTS = (512, 512, 512, 512, 215, 1, 1, 1), (512, 512, 512, 512, 220, 1, 0, 0)


def with_message(place, message, plan=SIX):
    """A plan with another message in the place of one."""
    return plan[:place] + [message] + plan[place + 1:]


def good():
    """Plans that pass."""
    for kind in LIST_KINDS:
        six, name = entries(kind, *[0] * 6), NAMES[kind]
        for order in permutations(SIX):
            yield "the messages of %s in any order: %s" % (name, order), *check(kind, six, list(order)), PASSES
        for plan in ([[0, 1, 2, 3, 4, 5]], [[0], [1], [2], [3], [4], [5]], [[5], [4], [3], [2], [1], [0]], [[0, 2, 4], [1, 3, 5]],
                     [[0, 5], [1, 4], [2, 3]], [[1, 2, 3, 4, 5], [0]], [[5], [0, 1, 2, 3, 4]], [[0, 1, 3, 4], [2, 5]], [[3, 4, 5], [0, 1, 2]]):
            yield "%s as %s" % (name, plan), *check(kind, six, plan), PASSES
        yield name + " as 5 and 7 before 0 and 6", *check(kind, entries(kind, *[0] * 8), [[5, 7], [0, 6], [1, 2, 3, 4]]), PASSES
        yield "one of %s" % name, *check(kind, entries(kind, 0), [[0]]), PASSES
        yield "%s that are all different" % name, *check(kind, entries(kind, *range(6)), [[1, 4], [0, 2, 3, 5]]), PASSES


def none():
    """No entries: the plan of no messages, and no other."""
    for kind in LIST_KINDS:
        name = NAMES[kind]
        yield "no %s, no messages" % name, *check(kind, [], []), PASSES
        for plan in ([[]], [[], []], [[0]], [[-1]], [[1]], [[0, 1]], [[2**63 - 1]], [[-2**63]], [[0], []]):
            yield "no %s, and a plan %s" % (name, plan), *check(kind, [], plan), (71, 0)
        yield "one of %s, and no messages" % name, *check(kind, entries(kind, 0), []), (70, 0)
        yield "one of %s, and an empty message" % name, *check(kind, entries(kind, 0), [[]]), (70, 0)
        yield "64 of %s, and no messages" % name, *check(kind, entries(kind, *[0] * 64), []), (70, 0)


def once():
    """70: an entry that does not stand exactly once."""
    for kind in LIST_KINDS:
        six, name = entries(kind, *[0] * 6), NAMES[kind]
        for own in range(6):
            # its message, the other entry there, and another message
            place = own // 2
            beside, other = sum(SIX[place]) - own, (place + 1) % 3
            yield "%s: %d lacks" % (name, own), *check(kind, six, with_message(place, [beside])), (70, own)
            yield "%s: %d twice side by side" % (name, own), *check(kind, six, with_message(place, sorted([own, own, beside]))), (70, own)
            yield "%s: %d twice around another" % (name, own), *check(kind, six, with_message(place, [own, beside, own])), (70, own)
            yield "%s: %d twice in two messages" % (name, own), *check(kind, six, with_message(other, sorted(SIX[other] + [own]))), (70, own)
            yield "%s: %d twice, once alone" % (name, own), *check(kind, six, SIX + [[own]]), (70, own)
            yield "%s: %d in all messages" % (name, own), *check(kind, six, [sorted({*message, own}) for message in SIX]), (70, own)
            yield "%s: %d four times" % (name, own), *check(kind, six, SIX + [[own]] * 3), (70, own)
        for one, other in combinations(range(6), 2):
            left = [entry for entry in range(6) if entry not in (one, other)]
            yield "%s: %d and %d lack" % (name, one, other), *check(kind, six, [left]), (70, one)
            yield "%s: %d lacks, %d twice" % (name, one, other), *check(kind, six, [sorted([*left, other]), [other]]), (70, one)
            yield "%s: %d twice, %d lacks" % (name, one, other), *check(kind, six, [[one], sorted([*left, one])]), (70, one)
            yield "%s: %d and %d twice" % (name, one, other), *check(kind, six, [*SIX, [other], [one]]), (70, one)
        yield name + ": all lack, and a message of another", *check(kind, six, [[6]]), (70, 0)
        yield name + ": all twice", *check(kind, six, SIX + SIX), (70, 0)
        yield name + ": all but the first twice", *check(kind, six, SIX + [[1], *SIX[1:]]), (70, 1)
        yield name + ": counted from 1", *check(kind, six, [[1, 2], [3, 4], [5, 6]]), (70, 0)


def messages():
    """71: a message by each reason, at each place."""
    for kind in LIST_KINDS:
        six, name = entries(kind, *[0] * 6), NAMES[kind]
        for place in range(4):
            yield "%s: message %d empty" % (name, place), *check(kind, six, SIX[:place] + [[]] + SIX[place:]), (71, place)
            yield "%s: message %d and the next empty" % (name, place), *check(kind, six, SIX[:place] + [[], []] + SIX[place:]), (71, place)
            for number in (*BELOW, *ABOVE):
                alone = SIX[:place] + [[number]] + SIX[place:]
                yield "%s: message %d has %d alone" % (name, place, number), *check(kind, six, alone), (71, place)
        for place in range(3):
            yield "%s: message %d out of order" % (name, place), *check(kind, six, with_message(place, SIX[place][::-1])), (71, place)
            for number in (*BELOW, *ABOVE):
                beside = with_message(place, sorted(SIX[place] + [number]))
                yield "%s: message %d has %d too" % (name, place, number), *check(kind, six, beside), (71, place)
        yield name + ": a number that is not there twice", *check(kind, six, SIX + [[6, 6]]), (71, 3)


def disorder():
    """71: every order of four entries but the one."""
    for kind in LIST_KINDS:
        for order in permutations(range(4)):
            answer = PASSES if order == (0, 1, 2, 3) else (71, 0)
            yield "%s in the order %s" % (NAMES[kind], order), *check(kind, entries(kind, *[0] * 4), [list(order)]), answer
            yield "%s in the order %s behind another" % (NAMES[kind], order), *check(
                kind, entries(kind, *[0] * 5), [[4], list(order)]), PASSES if order == (0, 1, 2, 3) else (71, 1)


def crowds():
    """71: more entries than the list may have."""
    for kind in LIST_KINDS:
        name, most = NAMES[kind], MOST[kind]
        for count in (*range(1, 21), 32, 33, 63, MOST_ENTRIES):
            own, all_of = entries(kind, *[0] * count), list(range(count))
            yield "%d of %s in a message" % (count, name), *check(kind, own, [all_of]), PASSES if count <= most else (71, 0)
            if count > most:
                yield "%d of %s, a full message and the rest" % (count, name), *check(kind, own, [all_of[:most], all_of[most:]]), (
                    PASSES if count <= 2 * most else (71, 1))
                yield "%d of %s, one too many and the rest" % (count, name), *check(kind, own, [all_of[:most + 1], all_of[most + 1:]]), (71, 0)
        all_of = list(range(MOST_ENTRIES))
        full_ones = [all_of[first:first + most] for first in range(0, MOST_ENTRIES, most)]
        own = entries(kind, *[0] * MOST_ENTRIES)
        yield "64 of %s in full messages" % name, *check(kind, own, full_ones), PASSES
        yield "64 of %s in full messages, the last first" % name, *check(kind, own, full_ones[::-1]), PASSES
        yield "64 of %s, one by one" % name, *check(kind, own, [[place] for place in all_of]), PASSES
        yield "64 of %s, one by one, the last lacks" % name, *check(kind, own, [[place] for place in all_of[:-1]]), (70, 63)
        yield "64 of %s, one by one, and the last again" % name, *check(kind, own, [[place] for place in all_of] + [[63]]), (70, 63)
        yield "64 of %s, one by one, and 64" % name, *check(kind, own, [[place] for place in all_of] + [[64]]), (71, 64)
        yield "64 of %s, one by one, and 100 empty messages" % name, *check(kind, own, [[place] for place in all_of] + [[]] * 100), (71, 64)
        others = list(range(64, 1064))
        yield "64 of %s, and a message of 1,000 numbers" % name, *check(kind, own, [[place] for place in all_of] + [others]), (71, 64)
        yield "64 of %s, each 50 times" % name, *check(kind, own, full_ones * 50), (70, 0)


def lengths():
    """71: a message at the limit, and a byte above it. With 1 to 16 characters it ends at every bit of a byte."""
    for kind in LIST_KINDS:
        for text in range(17):
            for texts in ((text,), (text, 0), (0, 3, text), (text,) * MOST[kind]):
                own, all_of, length = entries(kind, *texts), list(range(len(texts))), bytes_with(kind, *texts)
                named = "%s with texts %s, %d bits" % (NAMES[kind], texts, bits_with(kind, *texts))
                for limit, answer in ((length - 1, (71, 0)), (length, PASSES), (length + 1, PASSES)):
                    yield "%s in %d bytes" % (named, limit), *check(kind, own, [all_of], limit), answer
    # 200 bits are 25 bytes, 249 bits are 31 bytes and a bit; 216 and 209 bits likewise
    for kind, text, bits in ((EVENTS, 1, 200), (EVENTS, 8, 249), (SIGNS, 4, 216), (SIGNS, 3, 209)):
        own = entries(kind, text)
        for limit in range(bits // 8 - 2, bits // 8 + 4):
            answer = PASSES if 8 * limit >= bits else (71, 0)
            yield "%s of %d bits in %d bytes" % (NAMES[kind], bits, limit), *check(kind, own, [[0]], limit), answer
        # bits that are taken for bytes
        yield "%s of %d bits, and as many bytes" % (NAMES[kind], bits), *check(kind, own, [[0]], bits), PASSES


def long_messages():
    """71 by length: which message it is."""
    for kind in LIST_KINDS:
        name, length, of_three = NAMES[kind], bytes_with(kind, 0, 20), bytes_with(kind, 0, 0, 0)
        for own in range(6):
            six, others = [entry(kind, 20 if place == own else 0) for place in range(6)], [other for other in range(6) if other != own]
            yield "%s: %d is long" % (name, own), *check(kind, six, SIX, length - 1), (71, own // 2)
            yield "%s: %d is long, and fits" % (name, own), *check(kind, six, SIX, length), PASSES
            yield "%s: %d is long, and fits alone" % (name, own), *check(kind, six, [[own], others[:2], others[2:]], length), PASSES
        yield name + ": a sum of short ones", *check(kind, entries(kind, *[0] * 6), [[0, 1, 2, 3], [4, 5]], of_three), (71, 0)
        yield name + ": the second a sum of short ones", *check(kind, entries(kind, *[0] * 6), [[0, 1], [2, 3, 4, 5]], of_three), (71, 1)
        # in each message the sum counts, not the largest entry of the list
        yield name + ": long ones apart", *check(kind, entries(kind, 20, 20), [[0], [1]], bytes_with(kind, 20)), PASSES
        yield name + ": long ones together", *check(kind, entries(kind, 20, 20), [[0, 1]], bytes_with(kind, 20)), (71, 0)


def header_lengths():
    """What the header has in it counts."""
    moy, elevation = {"moy": 0}, {"refPos": sequence("Position3D", elevation=0)}
    for given, more in ((moy, MOY_BITS), (elevation, ELEVATION_BITS), ({**moy, **elevation}, MOY_BITS + ELEVATION_BITS)):
        header = frame("rsiFrame", **given)
        for kind in LIST_KINDS:
            for text in range(9):
                length = whole_bytes(bits_with(kind, text) + more)
                named = "%s with a text of %d and %d bits more in the header" % (NAMES[kind], text, more)
                yield named + ", at the limit", *check(kind, entries(kind, text), [[0]], length, header), PASSES
                yield named + ", above it", *check(kind, entries(kind, text), [[0]], length - 1, header), (71, 0)


def longest():
    """2,048 bytes and more."""
    all_of = list(range(8))
    if [bits_with(EVENTS, *texts) - 8 * MOST_BYTES for texts in (FULL_TEXTS, OVERFULL_TEXTS)] != [0, 1]:
        raise ValueError("a message that is to end at the last bit does not")
    yield "2,048 bytes", *check(EVENTS, entries(EVENTS, *FULL_TEXTS), [all_of]), PASSES
    yield "2,048 bytes in 2,047", *check(EVENTS, entries(EVENTS, *FULL_TEXTS), [all_of], 2047), (71, 0)
    yield "a bit above 2,048 bytes", *check(EVENTS, entries(EVENTS, *OVERFULL_TEXTS), [all_of]), (71, 0)
    yield "a bit above 2,048 bytes, behind another", *check(EVENTS, entries(EVENTS, *OVERFULL_TEXTS, 0), [[8], all_of]), (71, 1)
    yield "a bit above 2,048 bytes in two messages", *check(EVENTS, entries(EVENTS, *OVERFULL_TEXTS), [all_of[:4], all_of[4:]]), PASSES
    for kind in LIST_KINDS:
        name, heavy = NAMES[kind], full(LISTS[kind].item, Chance(1))
        for limit in (23, 1400, 2048):
            yield "one of %s with all that it may have, in %d bytes" % (name, limit), *check(kind, [heavy], [[0]], limit), (71, 0)
        yield "%s, the last with all that it may have" % name, *check(kind, [*entries(kind, 0, 0), heavy], [[0, 1], [2]]), (71, 1)
        yield "%s, all with all that they may have" % name, *check(kind, [heavy] * MOST[kind], [list(range(MOST[kind]))]), (71, 0)
        yield "64 of %s of 500 characters, one by one" % name, *check(kind, entries(kind, *[500] * 64), [[place] for place in range(64)], 480), PASSES
        yield "64 of %s of 500 characters, in full messages" % name, *check(kind, entries(kind, *[500] * 64), [
            list(range(first, first + MOST[kind])) for first in range(0, 64, MOST[kind])]), (71, 0)


# ways to spoil a message of a plan, whatever its length
SPOILED = {
    "empty": lambda plan, place: with_message(place, [], plan) + [plan[place]],
    "of another": lambda plan, place: with_message(place, [*plan[place], 6], plan),
    "out of order": lambda plan, place: with_message(place, plan[place][::-1], plan),
}


def with_a_long_one(kind, place):
    """Six entries, of which one is long that stands in the message at this place of the three."""
    return [entry(kind, 20 if own == 2 * place else 0) for own in range(6)]


def several():
    """The first of several wrong messages, whatever the reasons."""
    for kind in LIST_KINDS:
        name, length, six = NAMES[kind], bytes_with(kind, 0, 0), entries(kind, *[0] * 6)
        for (how, spoil), (place, later) in product(SPOILED.items(), combinations(range(3), 2)):
            for other, also in SPOILED.items():
                yield "%s: message %d is %s, %d %s" % (name, place, how, later, other), *check(kind, six, spoil(also(SIX, later), place)), (71, place)
            long_later, long_first = with_a_long_one(kind, later), with_a_long_one(kind, place)
            yield "%s: message %d is %s, %d long" % (name, place, how, later), *check(kind, long_later, spoil(SIX, place), length), (71, place)
            yield "%s: message %d is long, %d %s" % (name, place, later, how), *check(kind, long_first, spoil(SIX, later), length), (71, place)
        most = MOST[kind]
        many, own = list(range(2 * most + 2)), entries(kind, *[0] * (2 * most + 2))
        yield name + ": two crowded messages", *check(kind, own, [many[:most + 1], many[most + 1:]]), (71, 0)
        yield name + ": an empty message, and a crowded one", *check(kind, own, [many[:most], [], many[most:]]), (71, 1)
        yield name + ": a crowded message, and an empty one", *check(kind, own, [many[:1], many[1:most + 2], [], many[most + 2:]]), (71, 1)


def entries_first():
    """70 before 71, wherever the entry stands."""
    for kind in LIST_KINDS:
        name, length, six = NAMES[kind], bytes_with(kind, 0, 0), entries(kind, *[0] * 6)
        for (how, spoil), place in product(SPOILED.items(), range(3)):
            # the entry that lacks is of another message than the one that is spoiled
            lacking, without = (5, with_message(2, [4])) if place < 2 else (0, with_message(0, [1]))
            yield "%s: message %d is %s, and %d lacks" % (name, place, how, lacking), *check(kind, six, spoil(without, place)), (70, lacking)
            yield "%s: message %d is %s, and 3 twice" % (name, place, how), *check(kind, six, spoil(SIX, place) + [[3]]), (70, 3)
        for place in range(3):
            yield "%s: message %d is long, and 5 twice" % (name, place), *check(kind, with_a_long_one(kind, place), SIX + [[5]], length), (70, 5)
        most = MOST[kind]
        many, own = list(range(2 * most + 2)), entries(kind, *[0] * (2 * most + 2))
        yield name + ": a crowded message, and the last lacks", *check(kind, own, [many[:most + 1], many[most + 1:-1]]), (70, 2 * most + 1)


def numbers():
    """Numbers that are an entry only in some of their bits, or in another sense."""
    for kind in LIST_KINDS:
        two, name = entries(kind, 0, 0), NAMES[kind]
        for number in (-1, -2, -2**63, -2**32, 2**32, 2**63 - 1, 256, 64, 2, 3):
            yield "%s: %d in place of 0" % (name, number), *check(kind, two, [sorted([number, 1])]), (70, 0)
            yield "%s: %d in place of 1" % (name, number), *check(kind, two, [sorted([number, 0])]), (70, 1)
            yield "%s: %d beside both" % (name, number), *check(kind, two, [[0, 1], [number]]), (71, 1)
        yield name + ": 2^32 + 1 in place of 1", *check(kind, two, [[0, 2**32 + 1]]), (70, 1)
        yield name + ": -1 and 0 for 0 and 1", *check(kind, two, [[-1, 0]]), (70, 1)


def same_entries():
    """Entries are told apart by their numbers, not by what is in them."""
    for kind in LIST_KINDS:
        name = NAMES[kind]
        yield "equal ones of %s apart" % name, *check(kind, entries(kind, 5, 5), [[0], [1]]), PASSES
        yield "one of two equal ones of %s twice" % name, *check(kind, entries(kind, 5, 5), [[0], [0]]), (70, 0)
        yield "%s with one id" % name, *check(kind, entries(kind, 5, 6), [[0, 1]]), PASSES
    numbered = [entry(EVENTS, rteId=number) for number in (7, 5, 3)]
    yield "events whose ids descend", *check(EVENTS, numbered, [[0, 1, 2]]), PASSES
    yield "events by their ids", *check(EVENTS, numbered, [[3, 5, 7]]), (70, 0)


CHECK_GROUPS = (good, none, once, messages, disorder, crowds, lengths, long_messages, header_lengths, longest, several, entries_first, numbers,
                same_entries)
