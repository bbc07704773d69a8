"""Plans for the entries of an RSI (document 02, A9): a judge of the check and of the planner, that the tests hold the library against.

It works on requests, as plan_requests.py takes them from sheets: messages are lists of numbers of entries. How long a message is it learns from
the second implementation, which writes it (plan_lengths.py); nothing else of the project's code is called. Each sentence is a method of its own,
so that the plan_misread files can read one of them otherwise.
"""

from sheets import MOST_BYTES

PASSES = (0, 0)
# so many messages of a planner are asked for at once, each with an entry more
AHEAD = 4


class Judge:
    # ------------------------------------------------------------------------------------------
    # What is handed in

    def header_of(self, request):
        return request.header

    def entries_of(self, request):
        return request.entries

    def plan_of(self, request):
        return request.plan

    def is_list(self, request):
        """Whether kind, header and entries are such; with a kind that there is not there are no entries."""
        return self.header_of(request) is not None and self.entries_of(request) is not None

    def is_limit(self, limit):
        """ "The byte limit the caller gives (1 to 2,048)"."""
        return 1 <= limit <= MOST_BYTES

    # ------------------------------------------------------------------------------------------
    # A message

    def most(self, request):
        """ "No more entries than its list type allows"."""
        return request.most()

    def bytes_of(self, request, message):
        """ "Measured by the writer's own length"."""
        return request.length(message)

    def is_empty(self, message):
        return not message

    def names_another(self, request, message):
        """Whether it "names an entry not there"."""
        return any(not 0 <= number < len(request.entries) for number in message)

    def is_disordered(self, message):
        return any(one >= other for one, other in zip(message, message[1:]))

    def is_crowded(self, request, message):
        return len(message) > self.most(request)

    def is_long(self, request, message):
        return self.bytes_of(request, message) > request.limit

    def is_misbuilt(self, request, message):
        """Whether a message is wrong whatever its length."""
        return self.is_empty(message) or self.names_another(request, message) or self.is_disordered(message) or self.is_crowded(request, message)

    # ------------------------------------------------------------------------------------------
    # Checking

    def not_once(self, request, plan):
        """The entries that do not stand "in exactly one message", in order."""
        standing = [number for message in plan for number in message]
        return [entry for entry in range(len(request.entries)) if standing.count(entry) != 1]

    def wrong_messages(self, request, plan):
        """The messages that are not as they should be, in order."""
        request.want(message for message in plan if not self.is_misbuilt(request, message))
        return [place for place, message in enumerate(plan) if self.is_misbuilt(request, message) or self.is_long(request, message)]

    def failure(self, request, plan):
        """ "70 and the first entry not standing exactly once", then "71 and the first message"."""
        entries = self.not_once(request, plan)
        if entries:
            return (70, entries[0])
        messages = self.wrong_messages(request, plan)
        return (71, messages[0]) if messages else PASSES

    def of_no_list(self, request):
        return (7, 0)

    def of_no_limit(self, request):
        return (4, 0)

    def checked(self, request):
        plan = self.plan_of(request)
        if not self.is_list(request) or plan is None:
            return self.of_no_list(request)
        if not self.is_limit(request.limit):
            return self.of_no_limit(request)
        return self.failure(request, plan)

    # ------------------------------------------------------------------------------------------
    # Making

    def alone_too_long(self, request):
        """The entries that alone in a message are over the limit, in order."""
        request.want([entry] for entry in range(len(request.entries)))
        return [entry for entry in range(len(request.entries)) if self.is_long(request, [entry])]

    def filled(self, request, first):
        """The message that begins with this entry: as many of those in order as it may have, and fit."""
        count, most = 1, min(self.most(request), len(request.entries) - first)
        while count < most:
            if count % AHEAD == 1:
                request.want(range(first, first + more) for more in range(count + 1, min(most, count + AHEAD) + 1))
            if self.is_long(request, range(first, first + count + 1)):
                break
            count += 1
        return list(range(first, first + count))

    def planned(self, request):
        plan, first = [], 0
        while first < len(request.entries):
            plan.append(self.filled(request, first))
            first += len(plan[-1])
        return plan

    def cells_of(self, plan):
        return [len(plan)] + [cell for message in plan for cell in [len(message), *message]]

    def with_plan(self, request, cells):
        """The answer where a plan of these cells is made: 8 if there is no room for it."""
        if len(cells) > len(request.lent):
            return (8, 0, len(cells), *request.lent)
        return (0, 0, len(cells), *cells, *request.lent[len(cells):])

    def without_plan(self, request, number, place):
        return (number, place, 0, *request.lent)

    def made(self, request):
        """Number, place, cells, and the lent cells as they are afterwards."""
        if not self.is_list(request):
            return self.without_plan(request, *self.of_no_list(request))
        if not self.is_limit(request.limit):
            return self.without_plan(request, *self.of_no_limit(request))
        too_long = self.alone_too_long(request)
        if too_long:
            return self.without_plan(request, 72, too_long[0])
        return self.with_plan(request, self.cells_of(self.planned(request)))

    def judged(self, request):
        return self.made(request) if request.making else self.checked(request)
