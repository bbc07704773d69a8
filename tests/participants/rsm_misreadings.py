"""Ways to read document 02's A1 wrongly, each a judge that differs from the right one in one sentence.

No one wants their answers. They say what the sheets are able to show: a misreading that no sheet tells apart from the right reading would pass
the test.
"""

from rsm_judge import PASSES, Judge
from sheets import MOST_BITS, T, length_of

# types of participants
MOTOR, STATION = (T["ParticipantType"].items.index(name) for name in ("motor", "rsu"))
OPTIONAL = {component for component, _, optional in T["ParticipantData"].components if optional}


# ----------------------------------------------------------------------------------------------
# 23


class EarlierOfTwoNamed(Judge):
    def repeats(self, participants):
        ids = [self.id_of(one) for one in participants]
        return [ids.index(ids[place]) for place in super().repeats(participants)]


class FirstThatIsRepeated(Judge):
    """The first entry that a later one repeats decides, and not the first that repeats."""

    def repeats(self, participants):
        ids = [self.id_of(one) for one in participants]
        return sorted(super().repeats(participants), key=lambda place: ids.index(ids[place]))


class LastRepeat(Judge):
    def repeats(self, participants):
        return super().repeats(participants)[::-1]


class NeighboursAlone(Judge):
    def repeats(self, participants):
        ids = [self.id_of(one) for one in participants]
        return [place for place in super().repeats(participants) if ids[place - 1] == ids[place]]


class RepeatsOfFirstAlone(Judge):
    """Every entry is compared with the first one alone."""

    def repeats(self, participants):
        first = self.id_of(participants[0])
        return [place for place in super().repeats(participants) if self.id_of(participants[place]) == first]


class EightKept(Judge):
    """Every entry is compared with the first eight alone."""

    def repeats(self, participants):
        kept = [self.id_of(one) for one in participants[:8]]
        return [place for place in super().repeats(participants) if self.id_of(participants[place]) in kept]


class FifteenCompared(Judge):
    """The last of 16 is not compared."""

    def repeats(self, participants):
        return super().repeats(participants[:15])


class LastNotCompared(Judge):
    def repeats(self, participants):
        return super().repeats(participants[:-1])


class TwoUnitsAccepted(Judge):
    """Id 0 may stand more than once."""

    def repeats(self, participants):
        return [place for place in super().repeats(participants) if not self.is_unit(participants[place])]


class UnitAloneOnce(Judge):
    """ "Exactly one participant has ptcId 0" is all that is said of the ids."""

    def repeats(self, participants):
        return [place for place in super().repeats(participants) if self.is_unit(participants[place])]


class HighestIdMayRepeat(Judge):
    """65535 stands for an id that is not known."""

    def repeats(self, participants):
        return [place for place in super().repeats(participants) if self.id_of(participants[place]) != 65535]


class RepeatsNotRefused(Judge):
    def repeats(self, participants):
        return []


class RepeatsByLowByte(Judge):
    def same(self, one, other):
        return one % 256 == other % 256


class RepeatsByHighByte(Judge):
    def same(self, one, other):
        return one // 256 == other // 256


class RepeatsByFifteenBits(Judge):
    def same(self, one, other):
        return one % 32768 == other % 32768


class RepeatsOfTypeAlone(Judge):
    """Two participants may have one id where they are of different types."""

    def repeats(self, participants):
        keys = [(self.id_of(one), one["ptcType"]) for one in participants]
        return [place for place, key in enumerate(keys) if key in keys[:place]]


class TemporaryIdCompared(Judge):
    """The component id in place of ptcId."""

    def repeats(self, participants):
        ids = [one.get("id") for one in participants]
        return [place for place, id in enumerate(ids) if id is not None and id in ids[:place]]


class EmptyRoomsRepeat(Judge):
    """The ids are kept in rooms that hold 0 at first, and the unit is found in them before it is kept."""

    def repeats(self, participants):
        return sorted({*super().repeats(participants), *(place for place, one in enumerate(participants) if self.is_unit(one))})


class RepeatsFromOne(Judge):
    def repeats(self, participants):
        return [place + 1 for place in super().repeats(participants)]


class RepeatedIdTold(Judge):
    """The id in place of the entry."""

    def repeats(self, participants):
        return [self.id_of(participants[place]) for place in super().repeats(participants)]


# ----------------------------------------------------------------------------------------------
# 24


class UnitNotAsked(Judge):
    def has_unit(self, participants):
        return True


class UnitFirst(Judge):
    """The unit has to be the first entry."""

    def has_unit(self, participants):
        return super().has_unit(participants[:1])


class LastIsNoUnit(Judge):
    def has_unit(self, participants):
        return super().has_unit(participants[:-1])


class UnitAmongEight(Judge):
    def has_unit(self, participants):
        return super().has_unit(participants[:8])


class EmptyRoomsAreUnits(Judge):
    """The ids are kept in 16 rooms that hold 0 at first, and the unit is found in one that was not filled."""

    def has_unit(self, participants):
        return len(participants) < 16 or super().has_unit(participants)


class UnitByLowByte(Judge):
    def is_unit(self, participant):
        return self.id_of(participant) % 256 == 0


class UnitByType(Judge):
    """The unit is the participant of type rsu."""

    def is_unit(self, participant):
        return participant["ptcType"] == STATION


class UnitByIdAndType(Judge):
    def is_unit(self, participant):
        return super().is_unit(participant) and participant["ptcType"] == STATION


class LoneParticipantIsUnit(Judge):
    def has_unit(self, participants):
        return len(participants) == 1 or super().has_unit(participants)


class MissingUnitBehindLast(Judge):
    """The place of 24 is behind the last entry."""

    def missing_unit(self, participants):
        return [(24, len(participants)) for _ in super().missing_unit(participants)]


class TwoUnitsAreNone(Judge):
    """24 where id 0 does not stand exactly once."""

    def failures(self, participants):
        units = [one for one in participants if self.is_unit(one)]
        return [(24, 0)] if len(units) > 1 else super().failures(participants)


# ----------------------------------------------------------------------------------------------
# 30


class ClassNotAsked(Judge):
    def lacks(self, participant):
        return False


class FieldsOfFirstForAll(Judge):
    def lacking(self, participants):
        return super().lacking(participants[:1])


class LastNotAsked(Judge):
    def lacking(self, participants):
        return super().lacking(participants[:-1])


class FifteenAsked(Judge):
    def lacking(self, participants):
        return super().lacking(participants[:15])


class LastLacking(Judge):
    def lacking(self, participants):
        return super().lacking(participants)[::-1]


class LackingFromOne(Judge):
    def lacking(self, participants):
        return [place + 1 for place in super().lacking(participants)]


class LackingIdTold(Judge):
    """The id in place of the entry."""

    def lacking(self, participants):
        return [self.id_of(participants[place]) for place in super().lacking(participants)]


class UnitNeedsNoClass(Judge):
    def lacks(self, participant):
        return super().lacks(participant) and not self.is_unit(participant)


class UnitAloneNeedsClass(Judge):
    def lacks(self, participant):
        return super().lacks(participant) and self.is_unit(participant)


class VehiclesAlone(Judge):
    """Asked of motor vehicles only."""

    def lacks(self, participant):
        return super().lacks(participant) and participant["ptcType"] == MOTOR


class StationsNeedNoClass(Judge):
    def lacks(self, participant):
        return super().lacks(participant) and participant["ptcType"] != STATION


class AccelerationInPlaceOfClass(Judge):
    """The presence of the component two before it."""

    def lacks(self, participant):
        return "accelSet" not in participant


class IdInPlaceOfClass(Judge):
    """The first presence in place of the last."""

    def lacks(self, participant):
        return "id" not in participant


class AnyWillDo(Judge):
    """Any optional component in place of vehicleClass."""

    def lacks(self, participant):
        return not OPTIONAL & set(participant)


class AllAsked(Judge):
    """Every optional component has to be there."""

    def lacks(self, participant):
        return not OPTIONAL <= set(participant)


class FuelAsked(Judge):
    """vehicleClass has to have a fuelType."""

    def lacks(self, participant):
        return "fuelType" not in participant.get("vehicleClass", {})


class UnknownClassLacks(Judge):
    """Class 0, which means that it is not known, is none."""

    def lacks(self, participant):
        return participant.get("vehicleClass", {"classification": 0})["classification"] == 0


# ----------------------------------------------------------------------------------------------
# The order of 23, 24 and 30


class UnitBeforeRepeats(Judge):
    """24 before 23."""

    def failures(self, participants):
        return self.missing_unit(participants) + super().failures(participants)


class FieldsBeforeUnit(Judge):
    """30 before 24."""

    def failures(self, participants):
        return self.repeated_ids(participants) + self.missing_fields(participants) + super().failures(participants)


class FieldsBeforeRepeats(Judge):
    """30 before 23, where the unit is there."""

    def failures(self, participants):
        return (self.missing_fields(participants) if self.has_unit(participants) else []) + super().failures(participants)


class EntryByEntry(Judge):
    """23 and 30 in the order of the entries, where the unit is there."""

    def failures(self, participants):
        found = super().failures(participants)
        return sorted(found, key=lambda failure: failure[1]) if self.has_unit(participants) else found


# ----------------------------------------------------------------------------------------------
# 7 and 22


class OtherKindsPass(Judge):
    def of_another(self, frame):
        return PASSES


class OtherKindsAsByInformation(Judge):
    """11, as the check of an RSI says it."""

    def of_another(self, frame):
        return (11, 0)


class KindTold(Judge):
    """The place of 22 is which message it is."""

    def of_another(self, frame):
        return (22, frame[0])


class LongRefused(Judge):
    """1 for a message of more than 2,048 bytes."""

    def of_another(self, frame):
        return (1, 0) if length_of("MessageFrame", frame) > MOST_BITS else super().of_another(frame)


class KindBeforeValue(Judge):
    """22 before 7, where the first cell says that it is another message."""

    def of_no_value(self, why):
        return (22, 0) if why.cells and why.cells[0] in (0, 1, 3, 4) else super().of_no_value(why)


class PlaceNotTold(Judge):
    """7 without its place."""

    def of_no_value(self, why):
        return (7, 0)


class LengthForSpareCells(Judge):
    """The sheet's length where there is a cell too many."""

    def of_no_value(self, why):
        return (7, len(why.cells)) if why.spare else super().of_no_value(why)


class LastCellForLacking(Judge):
    """The last cell where cells lack."""

    def of_no_value(self, why):
        return (7, max(0, len(why.cells) - 1)) if why.place == len(why.cells) else super().of_no_value(why)


MISREADINGS = Judge.__subclasses__()
