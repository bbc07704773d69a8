"""Ways to read document 02's A7 wrongly, each a judge that differs from the right one in one sentence.

No one wants their answers. They say what the pairs of messages are able to show: a misreading that no pair tells apart from the right reading
would pass the test.
"""

from model import AGREES, Judge
from sheets import name_of


class MissingRegionIsZero(Judge):
    def reference(self, of):
        return (of.get("region", 0), of["id"])


class MissingRegionIsAny(Judge):
    def same(self, one, other):
        return one[1] == other[1] and (one[0] == other[0] or None in (one[0], other[0]))


class RegionNotLookedAt(Judge):
    def reference(self, of):
        return of["id"]


class IdNotLookedAt(Judge):
    def reference(self, of):
        return of.get("region")


class MovementsNotLookedAt(Judge):
    def movement_phases(self, link):
        return []


class ConnectionsNotLookedAt(Judge):
    def lane_phases(self, lane):
        return []


class FirstMovementAlone(Judge):
    def movement_phases(self, link):
        return super().movement_phases({"movements": link.get("movements", [])[:1]})


class FirstConnectionAlone(Judge):
    def lane_phases(self, lane):
        return super().lane_phases({"connectsTo": lane.get("connectsTo", [])[:1]})


class FirstLaneAlone(Judge):
    def link_phases(self, link):
        return super().link_phases(dict(link, lanes=link["lanes"][:1]))


class FirstLinkAlone(Judge):
    def node_phases(self, node):
        return super().node_phases(dict(node, inLinks=node.get("inLinks", [])[:1]))


class LanesBeforeMovements(Judge):
    def link_phases(self, link):
        return super().link_phases(dict(link, movements=[])) + self.movement_phases(link)


class AllMovementsFirst(Judge):
    """The movements of all links before the lanes of any."""

    def node_phases(self, node):
        links = node.get("inLinks", [])
        return [phase for link in links for phase in self.movement_phases(link)] + super().node_phases(
            {"inLinks": [dict(link, movements=[]) for link in links]})


class ConnectionsInPlaceOfMovements(Judge):
    """The movements are a default, which the phases of the lanes' connections replace."""

    def link_phases(self, link):
        return super().link_phases(dict(link, movements=[])) or self.movement_phases(link)


class DirectionsNotJudged(Judge):
    """Movements to region 0 stand for a direction, and not for a node (source 004, appendix D)."""

    def movement_phases(self, link):
        return super().movement_phases(
            {"movements": [one for one in link.get("movements", []) if one["remoteIntersection"].get("region") != 0]})


class PhaseZeroJudged(Judge):
    def is_judged(self, phase):
        return True


class LastPhaseNotJudged(Judge):
    def is_judged(self, phase):
        return 0 < phase < 255


class FirstListedAlone(Judge):
    def listed(self, entry):
        return super().listed(entry)[:1]


class EightListedAlone(Judge):
    def listed(self, entry):
        return super().listed(entry)[:8]


class ListedAnywhere(Judge):
    """The phase is looked up in all entries, where the node has one."""

    def unlisted(self, entries, node):
        anywhere = [phase for entry in entries for phase in self.listed(entry)]
        return [phase for phase in super().unlisted(entries, node) if phase not in anywhere]


class EntryByPlace(Judge):
    """The entry of a node is that at its place."""

    def failures(self, entries, nodes):
        own = super()
        return [(place, phase) for place, (node, entry) in enumerate(zip(nodes, entries)) for phase in own.unlisted(
            [dict(entry, intersectionId=node["id"])], node)]


class NodesWithoutEntryJudged(Judge):
    def entry_for(self, entries, node):
        return super().entry_for(entries, node) or {"phases": []}


class NodeTwiceJudgedOnce(Judge):
    def failures(self, entries, nodes):
        references = [self.reference(node["id"]) for node in nodes]
        return [(place, phase) for place, phase in super().failures(entries, nodes) if references[place] not in references[:place]]


class FirstNodeAlone(Judge):
    def failures(self, entries, nodes):
        return super().failures(entries, nodes[:1])


class LowestOfNode(Judge):
    def unlisted(self, entries, node):
        return sorted(super().unlisted(entries, node))


class LowestOfMap(Judge):
    def failures(self, entries, nodes):
        return sorted(super().failures(entries, nodes), key=lambda failure: failure[1])


class LastFailure(Judge):
    def failures(self, entries, nodes):
        return super().failures(entries, nodes)[::-1]


class NodeInSignal(Judge):
    """The node of 52 is told by its entry's place."""

    def failures(self, entries, nodes):
        own = super()
        return [(entries.index(self.entry_for(entries, nodes[place])), phase) for place, phase in own.failures(entries, nodes)]


class OtherWayRoundToo(Judge):
    """A phase that is listed must be used too."""

    def failures(self, entries, nodes):
        unused = [(place, phase) for place, node in enumerate(nodes) if self.entry_for(entries, node) for phase in self.listed(
            self.entry_for(entries, node)) if phase not in self.node_phases(node)]
        return super().failures(entries, nodes) or unused


class EarlierOfTwoNamed(Judge):
    def repeats(self, entries, nodes):
        references = [self.reference(entry["intersectionId"]) for entry in entries]
        return [references.index(references[place]) for place in super().repeats(entries, nodes)]


class FirstThatIsRepeated(Judge):
    """The first entry that a later one repeats decides, and not the first that repeats."""

    def repeats(self, entries, nodes):
        references = [self.reference(entry["intersectionId"]) for entry in entries]
        return sorted(super().repeats(entries, nodes), key=lambda place: references.index(references[place]))


class LastRepeat(Judge):
    def repeats(self, entries, nodes):
        return super().repeats(entries, nodes)[::-1]


class NeighboursAlone(Judge):
    def repeats(self, entries, nodes):
        references = [self.reference(entry["intersectionId"]) for entry in entries]
        return [place for place in super().repeats(entries, nodes) if references[place - 1] == references[place]]


class RepeatsOfMapNodesAlone(Judge):
    """51 only where the map has that node."""

    def repeats(self, entries, nodes):
        held = [self.reference(node["id"]) for node in nodes]
        return [place for place in super().repeats(entries, nodes) if self.reference(entries[place]["intersectionId"]) in held]


class RepeatsNotRefused(Judge):
    def repeats(self, entries, nodes):
        return []


class NodesMayNotRepeat(Judge):
    """51 for nodes of the map too."""

    def judged_lists(self, entries, nodes):
        own, others = super().repeats(entries, nodes), super().repeats([{"intersectionId": node["id"]} for node in nodes], entries)
        return (51, others[0], 0) if others and not own else super().judged_lists(entries, nodes)


class FailureBeforeRepeat(Judge):
    """52 before 51."""

    def judged_lists(self, entries, nodes):
        failures = self.failures(entries, nodes)
        return (52, *failures[0]) if failures else super().judged_lists(entries, nodes)


class KindsBeforeValues(Judge):
    """50 before 7, where the sheet that is a value is of another kind."""

    def judged(self, signal, map):
        for frame, wanted in ((signal, "spatFrame"), (map, "mapFrame")):
            if frame is not None and name_of(frame) != wanted:
                return (50, 0, 0)
        return super().judged(signal, map)


class MapBeforeSignal(Judge):
    def judged(self, signal, map):
        return (7, 1, 0) if map is None else super().judged(signal, map)


class SheetNotTold(Judge):
    """7 without the node that says which sheet."""

    def judged(self, signal, map):
        number, node, phase = super().judged(signal, map)
        return (number, 0 if number == 7 else node, phase)


class SwappedAccepted(Judge):
    def judged(self, signal, map):
        swapped = signal is not None and map is not None and (name_of(signal), name_of(map)) == ("mapFrame", "spatFrame")
        return super().judged(map, signal) if swapped else super().judged(signal, map)


class SignalKindNotAsked(Judge):
    """Any frame passes for a signal message without entries."""

    def judged(self, signal, map):
        answer = super().judged(signal, map)
        return AGREES if answer[0] == 50 and name_of(map) == "mapFrame" else answer


class MapKindNotAsked(Judge):
    """Any frame passes for a map without nodes."""

    def judged(self, signal, map):
        answer = super().judged(signal, map)
        return AGREES if answer[0] == 50 and name_of(signal) == "spatFrame" else answer


MISREADINGS = Judge.__subclasses__()
