"""Pairs of sheets by chance: a signal message and a map that have much to do with each other, so that each number comes often; and pairs of
other kinds, and spoiled sheets.

References are drawn from few regions and ids, phases from few numbers. What the check is not about, names and points and lights, is there by
chance too, since it has to be passed over (tests/checks/drawing.py).
"""

from drawing import Drawing, Store
from generate import Chance
from least import KINDS
from sheets import sheet_of
from spoiling import spoiled


class Pair(Drawing):
    """How a pair is drawn: which references and phases there are, and how much of all else."""

    made = {"Node": {"id", "inLinks"}, "Link": {"movements", "lanes"}, "Movement": {"phaseId"}, "Lane": {"connectsTo"}, "Connection": {"phaseId"},
            "IntersectionState": {"intersectionId", "phases"}, "Phase": {"id"}, "SPAT": {"intersections"}, "MapData": {"nodes"}}

    def __init__(self, chance, store):
        super().__init__(chance, store)
        regions = chance.one_of([[None], [None, 0], [None, 0, 1], [None, 0, 0, 65535], [3, 4]])
        ids = chance.one_of([[1], [1], [0, 1], [0, 1], [0, 1, 2], list(range(8)), list(range(40))])
        self.references = [(region, id) for region in regions for id in ids]
        first = chance.one_of([0, 1, 1, 200, 240, 253])
        self.phases = list(range(first, min(256, first + chance.one_of([1, 2, 3, 5, 10, 16]))))
        # of so many of a hundred uses the phase is any
        self.strange = chance.one_of([0, 0, 1, 5, 30])
        self.presence = chance.one_of([0, 0, 10, 50])
        self.large = chance.holds(1)
        self.unique = chance.holds(75)

    def count(self, least, most):
        """A size of a list: most often few, now and then the most that the type allows."""
        if self.chance.holds(30 if self.large else 1):
            return most if self.large else min(most, 9)
        return min(most, least + self.chance.one_of([0, 0, 1, 1, 2, 3]))

    def phase(self):
        if self.chance.holds(15):
            return None
        return self.chance.between(0, 255) if self.chance.holds(self.strange) else self.chance.one_of(self.phases)

    def movement(self):
        return self.sequence("Movement", phaseId=self.phase())

    def lane(self):
        connections = [self.sequence("Connection", phaseId=self.phase()) for _ in range(self.count(0, 8))]
        return self.sequence("Lane", connectsTo=connections or None)

    def link(self):
        movements = [self.movement() for _ in range(self.count(0, 32))]
        return self.sequence("Link", movements=movements or None, lanes=[self.lane() for _ in range(self.count(1, 32))])

    def node(self):
        # a large map has many nodes, and a node of it few links
        links = [self.link() for _ in range(self.chance.one_of([0, 1, 1, 2, 3]))]
        return self.sequence("Node", id=tree_of_reference(self.chance.one_of(self.references)), inLinks=links or None)

    def entry(self, reference):
        listed = [phase for phase in self.phases if self.chance.holds(90)] + [self.chance.between(0, 255)] * self.chance.holds(20)
        listed = (listed or [self.chance.between(0, 255)])[:16]
        if self.chance.holds(30):
            # in another order, and with one that stands twice
            listed = (listed[::-1] + listed[:1])[:16]
        phases = [self.sequence("Phase", id=phase) for phase in listed]
        return self.sequence("IntersectionState", intersectionId=tree_of_reference(reference), phases=phases)

    def signal(self):
        references = [self.chance.one_of(self.references) for _ in range(self.count(1, 32))]
        if self.unique:
            # the first of each alone, so that no entry repeats another
            references = list(dict.fromkeys(references))
        return (KINDS["spatFrame"], self.sequence("SPAT", intersections=[self.entry(one) for one in references]))

    def map(self):
        return (KINDS["mapFrame"], self.sequence("MapData", nodes=[self.node() for _ in range(self.count(1, 32))]))


def tree_of_reference(reference):
    region, id = reference
    return {"id": id} if region is None else {"region": region, "id": id}


def some_pairs(seed, count):
    """Pairs of sheets, each with the frames that they were made of; a sheet that was spoiled has None for its frame."""
    chance = Chance(seed)
    store = Store(chance)
    for _ in range(count):
        pair = Pair(chance, store)
        signal, map = pair.signal(), pair.map()
        kind = chance.between(0, 29)
        if kind < 3:
            signal, map = [(map, signal), (signal, signal), (map, map)][kind]
        elif kind == 3:
            signal = pair.another()
        elif kind == 4:
            map = pair.another()
        frames = [signal, map]
        sheets = [sheet_of(frame) for frame in frames]
        for place in (0, 1):
            if chance.holds(8):
                sheets[place], frames[place] = spoiled(sheets[place], chance), None
        yield sheets, frames
