"""Ways to read document 02's A9 wrongly: what is of its form, which limits there are, and the order of 7 and 4 and all else."""

from plan_judge import PASSES
from plan_misread import RSI, Misreading, like, misreadings_in, of_kind, rsi_of
from plan_requests import COMPONENTS, LISTS, MOST_ENTRIES, SIGN, SIGNS, entries_of, plan_of
from sheets import MOST_BYTES, NoValue, taken

# ----------------------------------------------------------------------------------------------
# 7: kind and header


class OddKindsAreSigns(Misreading):
    """The lowest bit of the kind alone is looked at."""

    def judged(self, request):
        return super().judged(of_kind(request, request.kind % len(LISTS)))


class OtherKindsAreSigns(Misreading):
    """Every kind but that of events is signs."""

    def judged(self, request):
        return super().judged(of_kind(request, min(request.kind, SIGNS)))


class KindsSwapped(Misreading):
    """0 signs and 1 events."""

    def judged(self, request):
        return super().judged(of_kind(request, 1 - request.kind) if request.kind < len(LISTS) else request)


class ListsOfHeaderDropped(Misreading):
    """A list in the header is passed over."""

    def judged(self, request):
        body = rsi_of(request)
        if request.header is not None or body is None:
            return super().judged(request)
        return super().judged(like(request, header=(RSI, {name: part for name, part in body.items() if name not in COMPONENTS})))


class OtherListMayBeThere(Misreading):
    """The header may have the list of the other kind."""

    def judged(self, request):
        body = rsi_of(request)
        if request.header is not None or body is None or request.kind >= len(LISTS) or COMPONENTS[request.kind] in body:
            return super().judged(request)
        return super().judged(like(request, header=(RSI, body)))


class HeaderNotAskedWithoutEntries(Misreading):
    """Where there are no entries, any header will do."""

    def header_of(self, request):
        return request.header if request.entries else request.sheets[1]


class AnotherFrameAsByInformation(Misreading):
    """11 where the header is no RSI, as the check of an RSI says it."""

    def of_no_list(self, request):
        return (7, 0) if isinstance(taken(request.sheets[1]), NoValue) or rsi_of(request) is not None else (11, 0)


class PlaceOfHeader(Misreading):
    """7 at the cell where the header is no value."""

    def of_no_list(self, request):
        frame = taken(request.sheets[1])
        return (7, frame.place if isinstance(frame, NoValue) else 0)


class InputTold(Misreading):
    """7 at the number of what is not of its form: kind, header, entries, plan."""

    def of_no_list(self, request):
        if request.kind >= len(LISTS):
            return (7, 0)
        return (7, 1 if request.header is None else 2 if request.entries is None else 3)


# ----------------------------------------------------------------------------------------------
# 7: entries


class EntriesRead(Misreading):
    """One that takes cells for entries that are none."""

    def entries_from(self, kind, cells):
        return None

    def judged(self, request):
        if request.entries is not None or request.kind >= len(LISTS):
            return super().judged(request)
        return super().judged(like(request, entries=self.entries_from(request.kind, request.sheets[2])))


class EntriesNotBounded(EntriesRead):
    """More than 64."""

    def entries_from(self, kind, cells):
        return entries_of(kind, cells, SIGN)


class SixtyThreeEntries(Misreading):
    def entries_of(self, request):
        return None if len(request.entries or []) == MOST_ENTRIES else request.entries


class SpareCellBehindEntries(EntriesRead):
    """A cell behind the entries is passed over."""

    def entries_from(self, kind, cells):
        return entries_of(kind, cells, spare=1)


class AnyCellsBehindEntries(EntriesRead):
    def entries_from(self, kind, cells):
        return entries_of(kind, cells, spare=len(cells))


class NoCellsAreNoEntries(EntriesRead):
    def entries_from(self, kind, cells):
        return entries_of(kind, cells or [0])


class NegativeCountIsNoEntries(EntriesRead):
    def entries_from(self, kind, cells):
        return [] if cells and cells[0] < 0 else None


class CountOfEntriesCut(EntriesRead):
    """The count is taken by its low 32 bits."""

    def entries_from(self, kind, cells):
        return entries_of(kind, [cells[0] % 2**32, *cells[1:]]) if cells else None


class LackingEntriesLeftOut(EntriesRead):
    """An entry that is not wholly there ends the list."""

    def entries_from(self, kind, cells):
        for fewer in range(min(cells[0], MOST_ENTRIES) if cells else 0, -1, -1):
            entries = entries_of(kind, [fewer, *cells[1:]], spare=len(cells))
            if entries is not None:
                return entries
        return None


# ----------------------------------------------------------------------------------------------
# 7: the plan


class PlanRead(Misreading):
    """One that takes cells for a plan that are none."""

    def plan_from(self, cells):
        return None

    def plan_of(self, request):
        return self.plan_from(request.sheets[3]) if request.plan is None else request.plan


class SpareCellBehindPlan(PlanRead):
    def plan_from(self, cells):
        return plan_of(cells, spare=1)


class AnyCellsBehindPlan(PlanRead):
    def plan_from(self, cells):
        return plan_of(cells, spare=len(cells))


class NoCellsAreNoMessages(PlanRead):
    def plan_from(self, cells):
        return plan_of(cells or [0])


class NegativeCountIsNoMessages(PlanRead):
    def plan_from(self, cells):
        return [] if cells and cells[0] < 0 else None


class CountOfMessagesCut(PlanRead):
    """The count of messages is taken by its low 32 bits."""

    def plan_from(self, cells):
        return plan_of([cells[0] % 2**32, *cells[1:]]) if cells else None


class MessagesToTheEnd(PlanRead):
    """The messages are those for which there are cells, whatever their count."""

    def plan_from(self, cells):
        counts = (plan_of([count, *cells[1:]]) for count in range(len(cells)))
        return next((plan for plan in counts if plan is not None), None) if cells and cells[0] >= 0 else None


class NumbersToTheEnd(PlanRead):
    """A message whose numbers are not all there has those that are."""

    def plan_from(self, cells):
        plan, at = [], 1
        if not cells or cells[0] < 0:
            return None
        while len(plan) < cells[0]:
            if at >= len(cells) or cells[at] < 0:
                return None
            plan.append(cells[at + 1:at + 1 + cells[at]])
            at += 1 + cells[at]
        return plan if at >= len(cells) else None


class NegativeMessageIsEmpty(PlanRead):
    """A message with a negative count is an empty one."""

    def plan_from(self, cells):
        if not cells or cells[0] < 0 or cells[0] > len(cells):
            return None
        plan, at = [], 1
        for _ in range(cells[0]):
            if at >= len(cells) or cells[at] > len(cells) - at - 1:
                return None
            count = max(0, cells[at])
            plan.append(cells[at + 1:at + 1 + count])
            at += 1 + count
        return plan if at == len(cells) else None


class NumbersOfThePlanAsked(Misreading):
    """7 for the number of an entry that is not there."""

    def plan_of(self, request):
        plan = request.plan
        if plan is None or request.entries is None or any(self.names_another(request, message) for message in plan):
            return None
        return plan


class NegativeNumbersAreNoPlan(Misreading):
    def plan_of(self, request):
        plan = request.plan
        return None if plan is None or any(number < 0 for message in plan for number in message) else plan


class MessagesAsEntriesBounded(Misreading):
    """No plan has more than 64 messages."""

    def plan_of(self, request):
        return request.plan if request.plan is None or len(request.plan) <= MOST_ENTRIES else None


# ----------------------------------------------------------------------------------------------
# 4


class LimitZero(Misreading):
    def is_limit(self, limit):
        return 0 <= limit <= MOST_BYTES


class LimitOneByteMore(Misreading):
    def is_limit(self, limit):
        return 1 <= limit <= MOST_BYTES + 1


class LimitBelowMost(Misreading):
    """1 to 2,047."""

    def is_limit(self, limit):
        return 1 <= limit < MOST_BYTES


class LimitFromTwo(Misreading):
    def is_limit(self, limit):
        return 2 <= limit <= MOST_BYTES


class LimitNotAsked(Misreading):
    def is_limit(self, limit):
        return True


class LimitBySign(Misreading):
    """A limit with the highest bit is a negative one, and no limit is above the most."""

    def is_limit(self, limit):
        return 1 <= limit < SIGN


class LimitCut(Misreading):
    """The low 32 bits of the limit alone."""

    def judged(self, request):
        return super().judged(like(request, limit=request.limit % 2**32))


class LimitCutToTwoBytes(Misreading):
    def judged(self, request):
        return super().judged(like(request, limit=request.limit % 2**16))


class LimitBeforeForm(Misreading):
    """4 before 7."""

    def of_no_list(self, request):
        return (7, 0) if self.is_limit(request.limit) else (4, 0)


class EntriesBeforeLimit(Misreading):
    """70 before 4."""

    def of_no_limit(self, request):
        entries = [] if request.making else self.not_once(request, request.plan)
        return (70, entries[0]) if entries else (4, 0)


class MessagesBeforeLimit(Misreading):
    """71 before 4, and 72 too."""

    def of_no_limit(self, request):
        if request.making:
            entries = self.alone_too_long(request)
            return (72, entries[0]) if entries else (4, 0)
        answer = self.failure(request, request.plan)
        return (4, 0) if answer == PASSES or answer[0] == 70 else answer


class PlanOfNoneNeedsNoLimit(Misreading):
    """With no entries the limit is not asked."""

    def judged(self, request):
        return super().judged(like(request, limit=MOST_BYTES) if request.entries == [] else request)


FORM_MISREADINGS = misreadings_in(__name__, (EntriesRead, PlanRead))
