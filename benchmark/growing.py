"""Messages of a kind in steps of length, that have the same contents in every step.

A message grows by entries, and an entry by parts: a MAP by nodes with one link, and the link by lanes; a SPAT by crossings, and a
crossing by phases; an RSI by signs and events with one path, and the path by points. Entries and parts are drawn by chance, one
behind the other and whatever the step: as many parts as eight messages of the longest step take. In each other step the same parts
are dealt out again, in the same order, to as many messages as they fill. So all steps have the same parts, and nearly as many bytes
in all. What is left to differ: each message has fields of its own, and a short one ends within an entry, so that there are more
entries to the parts.

A message of the shortest step has to hold an entry with its least parts. So a part that is too long for that is drawn again, and so
is an entry: names and texts are short in these messages, and few other lists stand beside the one that grows.
"""

import generate as g

STEPS = [64, 128, 256, 512, 1024, 2048]
# so many messages of the longest step
MESSAGES = 8
# in how many of a hundred what is optional in an entry or a part is present
PRESENCE = 50


def node(chance):
    """A node with one link: the list of the message that it stands in, and what it is with some lanes."""
    entry, link = g.some_value("Node", chance, PRESENCE), g.some_value("Link", chance, PRESENCE)
    return "nodes", lambda lanes: {**entry, "inLinks": [{**link, "lanes": lanes}]}


def crossing(chance):
    entry = g.some_value("IntersectionState", chance, PRESENCE)
    return "intersections", lambda phases: {**entry, "phases": phases}


def sign(chance):
    return "rtss", with_path("RTSData", chance)


def event(chance):
    return "rtes", with_path("RTEData", chance)


def with_path(name, chance):
    entry, path = g.some_value(name, chance, PRESENCE), g.some_value("ReferencePath", chance, PRESENCE)
    return lambda points: {**entry, "referencePaths": [{**path, "activePath": points}]}


class Growing:
    """The messages of one kind: what draws its entries in turn, the type of the parts and how many bits one has at most, and how many
    parts an entry has at least and at most. With its most a message of the longest step needs no more entries than it may have."""

    def __init__(self, kind, makers, part, part_bits, least, most):
        self.kind, self.makers, self.part, self.part_bits, self.least, self.most = kind, makers, part, part_bits, least, most
        self.lists = {component: g.T[name].most for component, name, _ in g.T[g.body_of(kind)].components}

    def message(self, held, chance):
        """The message of some entries, each with its parts. Nothing else in it is optional; its own numbers are by chance."""
        body = g.small(g.body_of(self.kind), chance)
        for component in {component for (component, _), _ in held}:
            body[component] = [entry(parts) for (of, entry), parts in held if of == component]
        return g.whole(self.kind, body)

    def bits(self, held):
        """How long the message of some entries is, which does not depend on its own numbers."""
        return g.length_of(self.kind[1], self.message(held, g.Chance(0)))

    def has_room(self, held):
        return all(sum(of == component for (of, _), _ in held) <= self.lists[component] for (component, _), _ in held)

    def some_part(self, chance):
        while True:
            part = g.some_value(self.part, chance, PRESENCE)
            if g.length_of(self.part, part) <= self.part_bits:
                return part

    def some_entry(self, maker, chance):
        least = [g.small(self.part, chance) for _ in range(self.least)]
        spare = sum(self.part_bits - g.length_of(self.part, part) for part in least)
        while True:
            entry = maker(chance)
            if self.bits([(entry, least)]) + spare <= 8 * STEPS[0]:
                return entry

    def filled(self, size, entries, parts):
        """The next entries that a message of at most so many bytes holds, with their parts; they are taken from the front of both lists."""
        held = []
        while True:
            begins = not held or len(held[-1][1]) == self.most
            taken = self.least if begins else 1
            more = held + [(entries[0], parts[:taken])] if begins else held[:-1] + [(held[-1][0], held[-1][1] + parts[:taken])]
            if len(parts) < taken or not self.has_room(more) or self.bits(more) > 8 * size:
                return held
            held = more
            del parts[:taken]
            if begins:
                del entries[0]

    def dealt(self, size, entries, parts):
        """The messages of a step, each as its entries with their parts."""
        entries, parts = list(entries), list(parts)
        made = []
        while len(parts) >= self.least:
            made.append(self.filled(size, entries, parts))
        return made

    def steps(self, chance):
        """Each step with its messages."""
        parts, bits = [], 0
        while bits < MESSAGES * 8 * STEPS[-1]:
            parts.append(self.some_part(chance))
            bits += g.length_of(self.part, parts[-1])
        # no step has more entries than it has parts
        entries = [self.some_entry(self.makers[number % len(self.makers)], chance) for number in range(len(parts) // self.least)]
        taken = sum(len(some) for held in self.dealt(STEPS[-1], entries, parts)[:MESSAGES] for _, some in held)
        for size in STEPS:
            for held in self.dealt(size, entries, parts[:taken]):
                yield size, self.message(held, chance)


# A link has three lanes at most, a crossing five phases, a path fourteen points; there are two signs to an event, as the greatest
# numbers of both are.
KINDS = [Growing(g.MAP, [node], "Lane", 260, 1, 3), Growing(g.SPAT, [crossing], "Phase", 250, 1, 5),
         Growing(g.RSI, [sign, sign, event], "PositionOffsetLLV", 86, 2, 14)]
