"""Ways to read wrongly what the rules program prints for frames one behind the other, each a judge that differs from the right one in one
sentence.

No one wants their lines. They say what the stored frames are able to show: a misreading that they don't tell apart from the right reading would
pass the test.
"""

from stream import NO_MAP, NO_RULE, PASSES, Stream, profile_line, verdict_line
import misreadings
import rsm_misreadings
from sheets import name_of, sheet_of

# what the program printed before it knew rules for other kinds
NOT_RSI = "11 the frame is not RSI"


def is_map(meant):
    return meant is not None and name_of(meant) == "mapFrame"


def with_nodes(map, nodes):
    return (map[0], dict(map[1], nodes=nodes))


class FirstMapStays(Stream):
    def keep(self, frame):
        self.map = self.map or frame


class MapForOneSignal(Stream):
    """A map is used for one signal message."""

    def of_signal(self, frame):
        line = super().of_signal(frame)
        self.map = None
        return line


class MapsAddUp(Stream):
    """A map's nodes come behind those of the maps before it."""

    def keep(self, frame):
        self.map = with_nodes(frame, (self.map[1]["nodes"] if self.map else []) + frame[1]["nodes"])


class RestOfLongerMapStays(Stream):
    """Behind the nodes of a map come those of a longer one that it replaced."""

    def keep(self, frame):
        nodes = frame[1]["nodes"]
        self.map = with_nodes(frame, nodes + (self.map[1]["nodes"][len(nodes):] if self.map else []))


class LongerMapNotKept(Stream):
    """A map replaces an earlier one only where it has room in that one's cells."""

    def keep(self, frame):
        if self.map is None or len(sheet_of(frame)) <= len(sheet_of(self.map)):
            self.map = frame


class KeptUpTo(Stream):
    """A map of more than so many cells is not kept."""

    def keep(self, frame):
        if len(sheet_of(frame)) <= self.most:
            self.map = frame


class KeptUpTo512Cells(KeptUpTo):
    most = 512


class KeptUpTo2048Cells(KeptUpTo):
    most = 2048


class KeptUpTo4096Cells(KeptUpTo):
    most = 4096


class KeptUpTo8192Cells(KeptUpTo):
    most = 8192


class UnreadableMapInForce(Stream):
    def of_refused(self, refusal, meant):
        if is_map(meant):
            self.keep(meant)
        return refusal


class UnreadableMapTakesTheOtherAway(Stream):
    def of_refused(self, refusal, meant):
        if is_map(meant):
            self.map = None
        return refusal


class UnreadableMapCounted(Stream):
    """An unreadable map has the line of a map."""

    def of_refused(self, refusal, meant):
        return "map of %d nodes" % len(meant[1]["nodes"]) if is_map(meant) else refusal


class RefusalTakesMapAway(Stream):
    def of_refused(self, refusal, meant):
        self.map = None
        return refusal


class InformationTakesMapAway(Stream):
    def of_information(self, frame):
        self.map = None
        return super().of_information(frame)


class RsmTakesMapAway(Stream):
    def of_rsm(self, frame):
        self.map = None
        return super().of_rsm(frame)


class BsmTakesMapAway(Stream):
    def of_bsm(self, frame):
        self.map = None
        return super().of_bsm(frame)


class NumbersExchanged(Stream):
    def of_signal(self, frame):
        line = super().of_signal(frame)
        return {"51": "52", "52": "51"}.get(line[:2], line[:2]) + line[2:]


class PlacesFromOne(Stream):
    def of_signal(self, frame):
        if self.map is None:
            return NO_MAP
        number, place, phase = self.signals.judged(frame, self.map)
        return verdict_line(number, place + 1, phase)


class NodeAndPhaseExchanged(Stream):
    def of_signal(self, frame):
        if self.map is None:
            return NO_MAP
        number, place, phase = self.signals.judged(frame, self.map)
        return verdict_line(number, *((phase, place) if number == 52 else (place, phase)))


class PassesWithoutMap(Stream):
    def without_map(self, frame):
        return PASSES


class RepeatsWithoutMap(Stream):
    """51 needs no map."""

    def without_map(self, frame):
        repeats = self.signals.repeats(frame[1]["intersections"], [])
        return verdict_line(51, repeats[0], 0) if repeats else NO_MAP


class NotRsiWithoutMap(Stream):
    def without_map(self, frame):
        return NOT_RSI


class MapsAreNotRsi(Stream):
    """A map is kept, and has the line that it had before it was."""

    def of_map(self, frame):
        super().of_map(frame)
        return NOT_RSI


class NodesWithLinksCounted(Stream):
    def of_map(self, frame):
        super().of_map(frame)
        return "map of %d nodes" % sum("inLinks" in node for node in frame[1]["nodes"])


class MapsCountAsPassing(Stream):
    def counts(self, line):
        return super().counts(line) or line.startswith("map of ")


class NoMapCountsAsPassing(Stream):
    def counts(self, line):
        return super().counts(line) or line == NO_MAP


class SomeDontCount(Stream):
    """Of one kind those that pass are not counted."""

    def __init__(self):
        super().__init__()
        self.not_counted = 0

    def of_frame(self, frame):
        line = super().of_frame(frame)
        self.not_counted += line == PASSES and name_of(frame) == self.kind
        return line

    def last(self):
        return "%d records, %d pass" % (len(self.lines), self.lines.count(PASSES) - self.not_counted)


class SignalsDontCount(SomeDontCount):
    kind = "spatFrame"


class RsmsDontCount(SomeDontCount):
    kind = "rsmFrame"


# ----------------------------------------------------------------------------------------------
# RSMs and BSMs


class RsmIsNotRsi(Stream):
    """An RSM is judged as an RSI, which it is not."""

    def of_rsm(self, frame):
        return NOT_RSI


class RsmNeverFails(Stream):
    def of_rsm(self, frame):
        return PASSES


class NoRuleForRsm(Stream):
    def of_rsm(self, frame):
        return NO_RULE


class RsmNeedsMap(Stream):
    def of_rsm(self, frame):
        return super().of_rsm(frame) if self.map else NO_MAP


class ParticipantNumbersExchanged(Stream):
    def of_rsm(self, frame):
        line = super().of_rsm(frame)
        return {"23": "30", "30": "23"}.get(line[:2], line[:2]) + line[2:]


class WithEarlierRsm(Stream):
    """A reading in which something of the RSM before is left."""

    def __init__(self):
        super().__init__()
        self.left = []

    def of_rsm(self, frame):
        participants = frame[1]["participants"]
        line = self.of_participants(participants)
        self.left = participants
        return line


class IdsStay(WithEarlierRsm):
    """23 where an id was in the RSM before."""

    def of_participants(self, participants):
        kept = [one["ptcId"] for one in self.left]
        again = [place for place, one in enumerate(participants) if one["ptcId"] in kept]
        return profile_line(23, again[0]) if again else profile_line(*self.participants.of_participants(participants))


class UnitStays(WithEarlierRsm):
    """No 24 where the unit was in the RSM before."""

    def of_participants(self, participants):
        failures = self.participants.failures(participants)
        if self.participants.has_unit(self.left):
            failures = [one for one in failures if one[0] != 24]
        return profile_line(*failures[0]) if failures else PASSES


class RestOfLongerRsmStays(WithEarlierRsm):
    """Behind the participants of an RSM come those of a longer one before it."""

    def of_participants(self, participants):
        return profile_line(*self.participants.of_participants(participants + self.left[len(participants):]))


class UnreadableRsmJudged(Stream):
    """An RSM that can't be read has the line that it would have."""

    def of_refused(self, refusal, meant):
        return self.of_rsm(meant) if meant is not None and name_of(meant) == "rsmFrame" else refusal


class BsmIsNotRsi(Stream):
    def of_bsm(self, frame):
        return NOT_RSI


class BsmPasses(Stream):
    def of_bsm(self, frame):
        return PASSES


class BsmCountsAsPassing(Stream):
    """A BSM has its own line, and is counted with those that pass."""

    def counts(self, line):
        return super().counts(line) or line == NO_RULE


class BsmHasNoUnit(Stream):
    """A BSM is judged as an RSM without participants."""

    def of_bsm(self, frame):
        return profile_line(24, 0)


class BsmNeedsMap(Stream):
    def of_bsm(self, frame):
        return super().of_bsm(frame) if self.map else NO_MAP


# ----------------------------------------------------------------------------------------------
# All of them


def with_judge(of, misreading, name):
    """A reading with a wrong judge of signal messages or of participants."""
    return type(name, (Stream,), {of: misreading()})


# of the misreadings of tests/signals and tests/participants those that are about the messages, and not about sheets that are none or of
# another kind, which the program never has, nor about the place of 24, which no line tells
OF_SIGNALS = [with_judge("signals", one, one.__name__) for one in misreadings.MISREADINGS if "judged" not in vars(one)]
OF_PARTICIPANTS = [with_judge("participants", one, "Rsm" + one.__name__) for one in rsm_misreadings.MISREADINGS
                   if not {"of_no_value", "of_another", "missing_unit"} & set(vars(one))]


def readings_below(reading):
    """The readings that differ from this one, and not those that only say what some of them have in common."""
    for one in reading.__subclasses__():
        yield from readings_below(one) if one.__subclasses__() else [one]


MISREADINGS = list(readings_below(Stream))
