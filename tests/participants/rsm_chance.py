"""Sheets of RSMs by chance, whose ids are often close to each other, so that each number comes often; and frames of other kinds, and spoiled
sheets.

What the check is not about, positions and speeds and sizes, is there by chance too, since it has to be passed over (tests/checks/drawing.py).
"""

from drawing import Drawing, Store
from least import KINDS
from rsm_building import long_map
from sheets import sheet_of
from spoiling import spoiled
# sheets knows where the folder of the cases is
from generate import Chance

# ids to draw from: few of them, many, and some that are equal in a byte or in all bits but one
POOLS = [range(0, 3), range(0, 8), range(0, 40), range(1, 40), range(0, 65536), range(65520, 65536),
         [0, 256, 512, 1, 257, 513, 255, 65535, 65280], [0, 1, 32768, 32769, 16384, 128, 256, 384]]


class Crowd(Drawing):
    """How an RSM is drawn: which ids there are, and how much of all else."""

    made = {"RoadsideSafetyMessage": {"participants"}, "ParticipantData": {"ptcId", "vehicleClass"}}

    def __init__(self, chance, store):
        super().__init__(chance, store)
        self.count = chance.one_of([1, 1, 2, 2, 3, 3, 4, 5, 6, 8, 12, 15, 16, 16, 16, 16])
        self.pool = chance.one_of(POOLS)
        # no two ids the same, but for one that is planted now and then
        self.unique, self.planted = chance.holds(75), chance.holds(25)
        self.with_unit = chance.holds(75)
        # of so many of a hundred vehicleClass is missing, or of one; and all other optional components are there
        self.lacking, self.one_lacks = chance.one_of([0, 0, 0, 0, 10, 50, 100]), chance.holds(25)
        self.presence = chance.one_of([0, 0, 10, 50, 100])

    def some_place(self, count):
        """An entry, often the last one."""
        return count - 1 if self.chance.holds(30) else self.chance.between(0, count - 1)

    def ids(self):
        ids = [self.chance.one_of(self.pool) for _ in range(3 * self.count)]
        if self.unique:
            # the first of each alone, so that no id repeats another
            ids = list(dict.fromkeys(ids))
        if not self.with_unit:
            ids = [id for id in ids if id != 0] or [1]
        ids = ids[:self.count]
        if self.with_unit and 0 not in ids:
            ids[self.some_place(len(ids))] = 0
        if self.planted:
            ids[self.some_place(len(ids))] = self.chance.one_of(ids)
        return ids

    def participant(self, id, lacks):
        vehicle = None if lacks or self.chance.holds(self.lacking) else self.store.one_of("VehicleClassification")
        return self.sequence("ParticipantData", ptcId=id, vehicleClass=vehicle)

    def rsm(self):
        ids = self.ids()
        lacking = self.some_place(len(ids)) if self.one_lacks else None
        participants = [self.participant(id, place == lacking) for place, id in enumerate(ids)]
        return (KINDS["rsmFrame"], self.sequence("RoadsideSafetyMessage", participants=participants))

    def frame(self):
        """Most often an RSM, else a frame of any kind, now and then one of more than 2,048 bytes, which no RSM has."""
        kind = self.chance.between(0, 199)
        if kind < 1:
            return long_map()
        return self.another() if kind < 12 else self.rsm()


def some_sheets(seed, count):
    """Sheets, each with the frame that it was made of; a sheet that was spoiled has None for its frame."""
    chance = Chance(seed)
    store = Store(chance)
    for _ in range(count):
        frame = Crowd(chance, store).frame()
        cells = sheet_of(frame)
        yield ([spoiled(cells, chance)], [None]) if chance.holds(12) else ([cells], [frame])
