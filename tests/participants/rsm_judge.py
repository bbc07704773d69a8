"""The RSM sending profile (document 02, A1): a judge that the tests hold the library against.

Messages are trees, as tests/checks/sheets.py takes them from sheets; what is judged is the names of their components. Each sentence is a method
of its own, so that rsm_misreadings.py can read one of them otherwise. None of the project's code is called.
"""

from sheets import NoValue, name_of

PASSES = (0, 0)


class Judge:
    def id_of(self, participant):
        return participant["ptcId"]

    def same(self, one, other):
        """Whether two ids are the same."""
        return one == other

    def repeats(self, participants):
        """Where entries stand that have the id of an earlier one, in order: "no two participants share a ptcId"."""
        ids = [self.id_of(one) for one in participants]
        return [place for place, id in enumerate(ids) if any(self.same(id, other) for other in ids[:place])]

    def is_unit(self, participant):
        """ "ptcId 0, the unit itself"."""
        return self.id_of(participant) == 0

    def has_unit(self, participants):
        return any(self.is_unit(one) for one in participants)

    def lacks(self, participant):
        """Whether the required field that the type does not always hold is not there."""
        return "vehicleClass" not in participant

    def lacking(self, participants):
        """Where entries stand that lack it, in order."""
        return [place for place, one in enumerate(participants) if self.lacks(one)]

    def repeated_ids(self, participants):
        return [(23, place) for place in self.repeats(participants)]

    def missing_unit(self, participants):
        return [] if self.has_unit(participants) else [(24, 0)]

    def missing_fields(self, participants):
        return [(30, place) for place in self.lacking(participants)]

    def failures(self, participants):
        """All failures, in the order in which they are told: 23, 24, and then 30 entry by entry."""
        return self.repeated_ids(participants) + self.missing_unit(participants) + self.missing_fields(participants)

    def of_no_value(self, why):
        return (7, why.place)

    def of_another(self, frame):
        """A frame with another message in it, be it as long as it may."""
        return (22, 0)

    def of_participants(self, participants):
        failures = self.failures(participants)
        return failures[0] if failures else PASSES

    def judged(self, frame):
        """Number and place for a frame, or for the NoValue of a sheet that is none."""
        if isinstance(frame, NoValue):
            return self.of_no_value(frame)
        if name_of(frame) != "rsmFrame":
            return self.of_another(frame)
        return self.of_participants(frame[1]["participants"])
