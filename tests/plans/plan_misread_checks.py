"""Ways to read document 02's A9 wrongly: how an entry stands once, what a message is, how long it is, and which is told.

That two equal numbers side by side are in order is no misreading by itself: where the entry is there it stands twice, and where it is not the
message is wrong by that.
"""

from plan_misread import Misreading, like, misreadings_in
from plan_requests import EVENTS, LISTS, MOST_ENTRIES, SIGNS, whole_bytes
from sheets import MOST_BYTES

# ----------------------------------------------------------------------------------------------
# 70


class LackingAlone(Misreading):
    """An entry may stand more than once."""

    def not_once(self, request, plan):
        standing = {number for message in plan for number in message}
        return [entry for entry in super().not_once(request, plan) if entry not in standing]


class TwiceAlone(Misreading):
    """An entry may lack."""

    def not_once(self, request, plan):
        standing = {number for message in plan for number in message}
        return [entry for entry in super().not_once(request, plan) if entry in standing]


class MessagesCounted(Misreading):
    """An entry that stands twice in one message stands there once."""

    def not_once(self, request, plan):
        return super().not_once(request, [list(dict.fromkeys(message)) for message in plan])


class EqualNeighboursAreOne(Misreading):
    """Equal numbers side by side are in order, and one entry."""

    def judged(self, request):
        if not request.plan:
            return super().judged(request)
        plan = [[number for place, number in enumerate(message) if not place or message[place - 1] != number] for message in request.plan]
        return super().judged(like(request, plan=plan))


class TwoMessagesMayShare(Misreading):
    """An entry may stand in two messages, but not twice in one."""

    def not_once(self, request, plan):
        standing = {number for message in plan for number in message}
        return [entry for entry in super().not_once(request, plan) if entry not in standing or any(message.count(entry) > 1 for message in plan)]


class LackingBeforeTwice(Misreading):
    """The first that lacks before the first that stands twice."""

    def not_once(self, request, plan):
        standing = {number for message in plan for number in message}
        return sorted(super().not_once(request, plan), key=lambda entry: entry in standing)


class TwiceBeforeLacking(Misreading):
    def not_once(self, request, plan):
        standing = {number for message in plan for number in message}
        return sorted(super().not_once(request, plan), key=lambda entry: entry not in standing)


class LastNotOnce(Misreading):
    def not_once(self, request, plan):
        return super().not_once(request, plan)[::-1]


class EntriesInPlanOrder(Misreading):
    """The first in the order of the plan; one that lacks comes behind all others."""

    def not_once(self, request, plan):
        standing = [number for message in plan for number in message]
        return sorted(super().not_once(request, plan), key=lambda entry: standing.index(entry) if entry in standing else len(standing))


class EntryFromOne(Misreading):
    def not_once(self, request, plan):
        return [entry + 1 for entry in super().not_once(request, plan)]


class LastEntryNotAsked(Misreading):
    def not_once(self, request, plan):
        return [entry for entry in super().not_once(request, plan) if entry < len(request.entries) - 1]


class ThirtyTwoEntriesAsked(Misreading):
    """The entries are kept in 32 bits."""

    def not_once(self, request, plan):
        return [entry for entry in super().not_once(request, plan) if entry < 32]


class OnceNotAsked(Misreading):
    def not_once(self, request, plan):
        return []


class FirstMessageNotCounted(Misreading):
    def not_once(self, request, plan):
        return super().not_once(request, plan[1:])


class EmptyMessageEndsThePlan(Misreading):
    """The entries behind an empty message are not counted."""

    def not_once(self, request, plan):
        return super().not_once(request, plan[:plan.index([])] if [] in plan else plan)


# ----------------------------------------------------------------------------------------------
# Numbers of entries


class NumbersRead(Misreading):
    """One that takes numbers for other entries."""

    def entry_of(self, number):
        return number

    def judged(self, request):
        if request.plan is None:
            return super().judged(request)
        return super().judged(like(request, plan=[[self.entry_of(number) for number in message] for message in request.plan]))


class NumbersFromOne(NumbersRead):
    def entry_of(self, number):
        return number - 1


class NegativeIsFirst(NumbersRead):
    """Negative numbers are entry 0."""

    def entry_of(self, number):
        return max(number, 0)


class NumbersCutToFourBytes(NumbersRead):
    def entry_of(self, number):
        return number % 2**32


class NumbersCutToAByte(NumbersRead):
    def entry_of(self, number):
        return number % 256


class NumbersRoundTheMost(NumbersRead):
    """Numbers are taken round 64."""

    def entry_of(self, number):
        return number % MOST_ENTRIES


class NumbersWithoutSign(NumbersRead):
    """The sign is dropped."""

    def entry_of(self, number):
        return abs(number)


# ----------------------------------------------------------------------------------------------
# 71: reasons


class EmptyAllowed(Misreading):
    def is_empty(self, message):
        return False

    def is_long(self, request, message):
        return bool(message) and super().is_long(request, message)


class FirstMayBeEmpty(Misreading):
    """No entries may be the plan of one empty message."""

    def is_misbuilt(self, request, message):
        return super().is_misbuilt(request, message) and not (message == [] and not request.entries)

    def is_long(self, request, message):
        return bool(message) and super().is_long(request, message)


class OthersAllowed(Misreading):
    """Numbers of entries that are not there are passed over."""

    def names_another(self, request, message):
        return False

    def is_long(self, request, message):
        return super().is_long(request, [number for number in message if 0 <= number < len(request.entries)])


class NegativeNotAsked(OthersAllowed):
    """Only numbers above the last are asked."""

    def names_another(self, request, message):
        return any(number >= len(request.entries) for number in message)


class HighNotAsked(OthersAllowed):
    """Only negative numbers are asked."""

    def names_another(self, request, message):
        return any(number < 0 for number in message)


class OneBehindLastAllowed(OthersAllowed):
    def names_another(self, request, message):
        return any(not 0 <= number <= len(request.entries) for number in message)


class OthersUpToMostAllowed(OthersAllowed):
    """Numbers up to 63 are there, whatever the count of the entries."""

    def names_another(self, request, message):
        return any(not 0 <= number < MOST_ENTRIES for number in message)


class OrderNotAsked(Misreading):
    def is_disordered(self, message):
        return False


class EndsInOrder(Misreading):
    """The first number below the last is all that is asked."""

    def is_disordered(self, message):
        return len(message) > 1 and message[0] >= message[-1]


class FirstTwoInOrder(Misreading):
    def is_disordered(self, message):
        return super().is_disordered(message[:2])


class LastTwoInOrder(Misreading):
    def is_disordered(self, message):
        return super().is_disordered(message[-2:])


class OrderDownwardsToo(Misreading):
    """A message may have its entries the other way round."""

    def is_disordered(self, message):
        return super().is_disordered(message) and super().is_disordered(message[::-1])


class NoGaps(Misreading):
    """The numbers of a message stand side by side."""

    def is_disordered(self, message):
        return any(one + 1 != other for one, other in zip(message, message[1:]))


class OrderAcrossMessages(Misreading):
    """The first entry of a message comes behind the last of the message before it."""

    def wrong_messages(self, request, plan):
        across = [place for place in range(1, len(plan)) if plan[place - 1] and plan[place] and plan[place - 1][-1] >= plan[place][0]]
        return sorted({*super().wrong_messages(request, plan), *across})


class MessagesInOrder(Misreading):
    """The first entries of the messages ascend."""

    def wrong_messages(self, request, plan):
        across = [place for place in range(1, len(plan)) if plan[place - 1] and plan[place] and plan[place - 1][0] >= plan[place][0]]
        return sorted({*super().wrong_messages(request, plan), *across})


class MostOfEventsForSigns(Misreading):
    def most(self, request):
        return LISTS[EVENTS].most


class MostOfSignsForEvents(Misreading):
    def most(self, request):
        return LISTS[SIGNS].most


class MostNotAsked(Misreading):
    def most(self, request):
        return MOST_ENTRIES


class MostAndOne(Misreading):
    def most(self, request):
        return super().most(request) + 1


class BelowMost(Misreading):
    def most(self, request):
        return super().most(request) - 1


# ----------------------------------------------------------------------------------------------
# 71 and 72: lengths


class LimitInBits(Misreading):
    def bytes_of(self, request, message):
        return self.bits_of(request, message)


class PaddingLeftOut(Misreading):
    """Whole bytes alone count."""

    def bytes_of(self, request, message):
        return self.bits_of(request, message) // 8


class AlwaysAByteOfPadding(Misreading):
    """A message that ends at a byte has another."""

    def bytes_of(self, request, message):
        return self.bits_of(request, message) // 8 + 1


class CountLeftOut(Misreading):
    """The bits of the count of the list are left out."""

    def bits_of(self, request, message):
        return super().bits_of(request, message) - request.count_bits()


class CountOfOtherKind(Misreading):
    """The count of a list has the bits that it has in the other."""

    def bits_of(self, request, message):
        return super().bits_of(request, message) - request.count_bits() + request.count_bits(1 - request.kind)


class BothListsMeasured(Misreading):
    """The header is that of an RSI with both lists, and has the count of the other too."""

    def bits_of(self, request, message):
        return super().bits_of(request, message) + request.count_bits(1 - request.kind)


class HeaderLeftOut(Misreading):
    def bits_of(self, request, message):
        return super().bits_of(request, message) - request.header_bits()


class HeaderInBytes(Misreading):
    """The header is filled to whole bytes before the list."""

    def bits_of(self, request, message):
        return super().bits_of(request, message) - request.header_bits() + 8 * whole_bytes(request.header_bits())


class EntriesInBytes(Misreading):
    """Each entry is filled to whole bytes."""

    def bits_of(self, request, message):
        own = request.header_bits() + request.count_bits()
        return own + sum(8 * whole_bytes(request.entry_bits(number)) for number in message)


class LongestEntryAlone(Misreading):
    """The longest entry of a message counts, and not all of them."""

    def bits_of(self, request, message):
        return max((super(LongestEntryAlone, self).bits_of(request, [number]) for number in message), default=0)


class LastEntryLeftOut(Misreading):
    def bits_of(self, request, message):
        return super().bits_of(request, message[:-1])


class FirstEntriesMeasured(Misreading):
    """As many entries as the message has, but the list's first ones."""

    def bits_of(self, request, message):
        return super().bits_of(request, range(min(len(message), len(request.entries))))


class LimitExcluded(Misreading):
    """Below the limit."""

    def is_long(self, request, message):
        return self.bytes_of(request, message) >= request.limit


class AByteAboveTheLimit(Misreading):
    def is_long(self, request, message):
        return self.bytes_of(request, message) > request.limit + 1


class LimitNotMeasured(Misreading):
    """What the writer writes is not too long."""

    def is_long(self, request, message):
        return self.bytes_of(request, message) > MOST_BYTES


class LengthNotAsked(Misreading):
    def is_long(self, request, message):
        return False


class WriterNotAsked(Misreading):
    """A message that the writer refuses has no bytes, and is not too long."""

    def bytes_of(self, request, message):
        own = super().bytes_of(request, message)
        return own if own <= MOST_BYTES else 0


class LimitForAllTogether(Misreading):
    """The limit is that of all messages together."""

    def wrong_messages(self, request, plan):
        wrong, sent = super().wrong_messages(request, plan), 0
        for place, message in enumerate(plan if not wrong else []):
            sent += self.bytes_of(request, message)
            if sent > request.limit:
                return [place]
        return wrong


# ----------------------------------------------------------------------------------------------
# 71: which message, and the order of the numbers


class LastWrongMessage(Misreading):
    def wrong_messages(self, request, plan):
        return super().wrong_messages(request, plan)[::-1]


class MessageFromOne(Misreading):
    def wrong_messages(self, request, plan):
        return [place + 1 for place in super().wrong_messages(request, plan)]


class FirstMessageAlone(Misreading):
    def wrong_messages(self, request, plan):
        return super().wrong_messages(request, plan[:1])


class LastMessageNotAsked(Misreading):
    def wrong_messages(self, request, plan):
        return super().wrong_messages(request, plan[:-1])


class LongOnesLast(Misreading):
    """A message that is too long is told behind all that are wrong otherwise."""

    def wrong_messages(self, request, plan):
        return sorted(super().wrong_messages(request, plan), key=lambda place: not self.is_misbuilt(request, plan[place]))


class EmptyOnesFirst(Misreading):
    """An empty message is told before all others that are wrong."""

    def wrong_messages(self, request, plan):
        return sorted(super().wrong_messages(request, plan), key=lambda place: bool(plan[place]))


class CellOfMessageTold(Misreading):
    """The place of 71 is the cell where the message begins."""

    def wrong_messages(self, request, plan):
        return [1 + sum(1 + len(message) for message in plan[:place]) for place in super().wrong_messages(request, plan)]


class MessagesBeforeEntries(Misreading):
    """71 before 70."""

    def failure(self, request, plan):
        messages = self.wrong_messages(request, plan)
        return (71, messages[0]) if messages else super().failure(request, plan)


class EmptyBeforeEntries(Misreading):
    """71 for an empty message before 70."""

    def failure(self, request, plan):
        return (71, plan.index([])) if [] in plan else super().failure(request, plan)


class OthersBeforeEntries(Misreading):
    """71 for an entry that is not there before 70."""

    def failure(self, request, plan):
        others = [place for place, message in enumerate(plan) if self.names_another(request, message)]
        return (71, others[0]) if others else super().failure(request, plan)


class WrongMessagesDoNotCount(Misreading):
    """An entry in a message that is not as it should be does not stand."""

    def not_once(self, request, plan):
        wrong = self.wrong_messages(request, plan)
        return super().not_once(request, [message for place, message in enumerate(plan) if place not in wrong])


CHECK_MISREADINGS = misreadings_in(__name__, (NumbersRead,))
