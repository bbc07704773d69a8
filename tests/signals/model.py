"""The check of a signal message against a map (document 02, A7): a judge that the tests hold the library against.

Messages are trees, as tests/checks/sheets.py takes them from sheets; what is judged is the names of their components. Each sentence is a method
of its own, so that misreadings.py can read one of them otherwise. None of the project's code is called.
"""

from sheets import name_of

AGREES = (0, 0, 0)


class Judge:
    def reference(self, of):
        """A region, which is None where it is missing, and an id."""
        return (of.get("region"), of["id"])

    def same(self, one, other):
        """ "Equal region and id, a missing region equal only to a missing one"."""
        return one == other

    def movement_phases(self, link):
        return [movement["phaseId"] for movement in link.get("movements", []) if "phaseId" in movement]

    def lane_phases(self, lane):
        return [connection["phaseId"] for connection in lane.get("connectsTo", []) if "phaseId" in connection]

    def link_phases(self, link):
        """In map order: the movements, and then the lanes."""
        return self.movement_phases(link) + [phase for lane in link["lanes"] for phase in self.lane_phases(lane)]

    def node_phases(self, node):
        """ "Used by a movement or a connection of that node's incoming links"."""
        return [phase for link in node.get("inLinks", []) for phase in self.link_phases(link)]

    def is_judged(self, phase):
        """ "Every phase number other than 0"."""
        return phase != 0

    def listed(self, entry):
        return [phase["id"] for phase in entry["phases"]]

    def entry_for(self, entries, node):
        """The node's entry in the signal message, or None."""
        wanted = self.reference(node["id"])
        found = [entry for entry in entries if self.same(self.reference(entry["intersectionId"]), wanted)]
        return found[0] if found else None

    def unlisted(self, entries, node):
        """The phases of a node that fail, in map order. A node without an entry has none."""
        entry = self.entry_for(entries, node)
        if entry is None:
            return []
        listed = self.listed(entry)
        return [phase for phase in self.node_phases(node) if self.is_judged(phase) and phase not in listed]

    def failures(self, entries, nodes):
        """Node and phase of each failure of 52, "in map order"."""
        return [(place, phase) for place, node in enumerate(nodes) for phase in self.unlisted(entries, node)]

    def repeats(self, entries, nodes):
        """Where entries stand that repeat an earlier one, in order."""
        references = [self.reference(entry["intersectionId"]) for entry in entries]
        return [place for place, one in enumerate(references) if any(self.same(other, one) for other in references[:place])]

    def judged_lists(self, entries, nodes):
        repeats = self.repeats(entries, nodes)
        if repeats:
            return (51, repeats[0], 0)
        failures = self.failures(entries, nodes)
        return (52, *failures[0]) if failures else AGREES

    def judged(self, signal, map):
        """Number, node and phase for two frames, of which one that is None is no value."""
        if signal is None:
            return (7, 0, 0)
        if map is None:
            return (7, 1, 0)
        if (name_of(signal), name_of(map)) != ("spatFrame", "mapFrame"):
            return (50, 0, 0)
        return self.judged_lists(signal[1]["intersections"], map[1]["nodes"])
