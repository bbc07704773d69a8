"""Ways to read document 02's A9 wrongly: how the planner fills messages, when there is no plan, and what becomes of the lent cells."""

from plan_misread import Misreading, misreadings_in

# ----------------------------------------------------------------------------------------------
# The planner


class OneEntryFewer(Misreading):
    """A message is filled to one entry less than it could have."""

    def filled(self, request, first):
        own = super().filled(request, first)
        return own[:-1] if len(own) > 1 else own


class EachAlone(Misreading):
    def planned(self, request):
        return [[entry] for entry in range(len(request.entries))]


class FirstMessageThatFits(Misreading):
    """An entry goes into the first message that has room."""

    def planned(self, request):
        plan = []
        for entry in range(len(request.entries)):
            having = [own for own in plan if len(own) < self.most(request) and not self.is_long(request, [*own, entry])]
            if having:
                having[0].append(entry)
            else:
                plan.append([entry])
        return plan


class LongestFirst(Misreading):
    """The entries are taken by their length."""

    def planned(self, request):
        order = sorted(range(len(request.entries)), key=lambda entry: -self.bits_of(request, [entry]))
        plan = []
        for entry in order:
            if plan and len(plan[-1]) < self.most(request) and not self.is_long(request, [*plan[-1], entry]):
                plan[-1].append(entry)
            else:
                plan.append([entry])
        return [sorted(own) for own in plan]


class LastEntryForgotten(Misreading):
    def planned(self, request):
        return [own for own in ([entry for entry in message if entry < len(request.entries) - 1] for message in super().planned(request)) if own]


class NoneIsAnEmptyMessage(Misreading):
    """No entries give the plan of one empty message."""

    def planned(self, request):
        return super().planned(request) or [[]]


class NoneIsNoCells(Misreading):
    """No entries give no cells."""

    def cells_of(self, plan):
        return super().cells_of(plan) if plan else []


class CountOfMessagesNotWritten(Misreading):
    def cells_of(self, plan):
        return super().cells_of(plan)[1:]


class PlannedFromOne(Misreading):
    """The entries of a plan that is made are counted from 1."""

    def cells_of(self, plan):
        return super().cells_of([[entry + 1 for entry in message] for message in plan])


class CellsOfAllCounted(Misreading):
    """The third answer is the count of lent cells."""

    def with_plan(self, request, cells):
        number, place, _, *after = super().with_plan(request, cells)
        return (number, place, len(cells) if number else len(request.lent), *after)


class MessagesCountedAsCells(Misreading):
    """The third answer is the count of messages."""

    def with_plan(self, request, cells):
        number, place, count, *after = super().with_plan(request, cells)
        return (number, place, cells[0] if cells and not number else count, *after)


class NeedNotTold(Misreading):
    """8 without the cells needed."""

    def with_plan(self, request, cells):
        number, place, count, *after = super().with_plan(request, cells)
        return (number, place, 0 if number else count, *after)


class LackTold(Misreading):
    """8 with the cells that lack."""

    def with_plan(self, request, cells):
        number, place, count, *after = super().with_plan(request, cells)
        return (number, place, count - len(request.lent) if number else count, *after)


class ExactRoomRefused(Misreading):
    """As many cells as are needed are too few."""

    def with_plan(self, request, cells):
        return (8, 0, len(cells), *request.lent) if len(cells) == len(request.lent) else super().with_plan(request, cells)


class WrittenAsFarAsItGoes(Misreading):
    """With 8 the lent cells have the front of the plan."""

    def with_plan(self, request, cells):
        number, place, count, *_ = answer = super().with_plan(request, cells)
        return (number, place, count, *cells[:len(request.lent)]) if number else answer


class BehindCleared(Misreading):
    """The cells behind the plan are 0."""

    def with_plan(self, request, cells):
        number, place, count, *_ = answer = super().with_plan(request, cells)
        return answer if number else (number, place, count, *cells, *[0] * (len(request.lent) - len(cells)))


class ClearedWhereRefused(Misreading):
    """A refusal leaves the plan of no messages."""

    def without_plan(self, request, number, place):
        return (number, place, 0, *[0] * len(request.lent[:1]), *request.lent[1:])


class LastTooLong(Misreading):
    def alone_too_long(self, request):
        return super().alone_too_long(request)[::-1]


class LongestTold(Misreading):
    """72 names the longest."""

    def alone_too_long(self, request):
        return sorted(super().alone_too_long(request), key=lambda entry: -self.bits_of(request, [entry]))


class TooLongFromOne(Misreading):
    def alone_too_long(self, request):
        return [entry + 1 for entry in super().alone_too_long(request)]


class FirstAloneTooLong(Misreading):
    """Only of the first entry it is asked whether it fits alone."""

    def alone_too_long(self, request):
        return [entry for entry in super().alone_too_long(request) if entry == 0]


class TooLongLeftOut(Misreading):
    """An entry that is too long is left out of the plan."""

    def alone_too_long(self, request):
        return []

    def planned(self, request):
        wrong = super().alone_too_long(request)
        return [own for own in ([entry for entry in message if entry not in wrong] for message in super().planned(request)) if own]


class RoomBeforeTooLong(Misreading):
    """8 before 72, where even the shortest plan has no room."""

    def made(self, request):
        number, *_ = answer = super().made(request)
        if number != 72:
            return answer
        needed = 1 + len(request.entries) + -(-len(request.entries) // self.most(request))
        return (8, 0, needed, *request.lent) if needed > len(request.lent) else answer


class RoomBeforeLimit(Misreading):
    """8 before 4, where no plan has room."""

    def of_no_limit(self, request):
        return (8, 0) if request.making and not request.lent else (4, 0)


class TooLongIsWrongMessage(Misreading):
    """71 where an entry alone is over the limit, as the check says it."""

    def without_plan(self, request, number, place):
        return super().without_plan(request, 71 if number == 72 else number, place)


MADE_MISREADINGS = misreadings_in(__name__)
