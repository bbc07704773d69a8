"""RSMs, other frames and sheets that are none, each with the answer that was worked out by hand: number and place.

A message is a frame, or the cells of a sheet.
"""

from itertools import combinations, permutations

from least import KINDS, frame, least
from rsm_building import full_of_ids, long_map, of_ids, participant, rsm
from rsm_judge import PASSES
from sheets import T, sheet_of
from spoiling import spoiled_ways
# sheets knows where the folder of the cases is
from generate import Chance, full

# the participants that an RSM has room for
MOST = 16
# the optional components of a participant but vehicleClass
OTHERS = ("id", "transmission", "angle", "motionCfd", "accelSet")
# In the sheet of an RSM as it is built here: the cell of the count of participants, the first cell of the first one, and how many cells each
# has; in a participant the presence cell of vehicleClass, and the cell of ptcId.
COUNT, FIRST, EACH, CLASS_PRESENCE, PTC_ID = 13, 14, 23, 5, 7
# participants: one, another with its id, one that lacks vehicleClass, and the unit
FOUR = participant(5, ptcType=1), participant(5, ptcType=2), participant(6, False), participant(0)


def alone():
    """One participant."""
    yield "the unit alone", of_ids([0]), PASSES
    yield "the unit alone, without vehicleClass", of_ids([0], [0]), (30, 0)
    yield "another alone", of_ids([1]), (24, 0)
    yield "another alone, without vehicleClass", of_ids([1], [0]), (24, 0)
    for id in (255, 256, 32768, 65280, 65535):
        yield "id %d alone" % id, of_ids([id]), (24, 0)


def units():
    """Where the unit stands, and how often."""
    yield "the unit first", of_ids([0, 1, 2]), PASSES
    yield "the unit in the middle", of_ids([1, 0, 2]), PASSES
    yield "the unit last", of_ids([1, 2, 0]), PASSES
    yield "the unit never", of_ids([1, 2, 3]), (24, 0)
    yield "the unit twice, side by side", of_ids([0, 0]), (23, 1)
    yield "the unit twice, first and last", of_ids([0, 1, 2, 0]), (23, 3)
    yield "the unit twice, behind others", of_ids([1, 2, 0, 0, 3]), (23, 3)
    yield "the unit thrice", of_ids([0, 0, 0]), (23, 1)
    yield "the unit thrice, not side by side", of_ids([0, 1, 0, 2, 0]), (23, 2)
    yield "the unit last of 16", of_ids([*range(1, MOST), 0]), PASSES
    yield "the unit ninth of 16", of_ids([*range(1, 9), 0, *range(9, MOST)]), PASSES
    yield "16 without the unit", of_ids(range(1, MOST + 1)), (24, 0)
    yield "16 units", of_ids([0] * MOST), (23, 1)
    yield "the unit behind an id of the same low byte", of_ids([256, 0]), PASSES
    yield "the unit before an id of the same low byte", of_ids([0, 512]), PASSES
    yield "no unit, though the low byte of an id is 0", of_ids([1, 256, 65280]), (24, 0)
    # who is the unit is said by the id alone
    station = T["ParticipantType"].items.index("rsu")
    yield "the unit is of another type", rsm(participant(0, ptcType=1), participant(1, ptcType=2)), PASSES
    yield "the unit and another of the type of a unit", rsm(participant(0, ptcType=station), participant(1, ptcType=station)), PASSES
    yield "no unit, though one is of its type", rsm(participant(1, ptcType=station)), (24, 0)


def repeats():
    """Ids that stand twice, and the first entry that repeats an earlier one."""
    yield "two equal ids side by side", of_ids([0, 5, 5]), (23, 2)
    yield "two equal ids far from each other", of_ids([5, 0, 1, 2, 5]), (23, 4)
    yield "the last of 16 repeats the first", of_ids([*range(15), 0]), (23, 15)
    yield "the last of 16 repeats the one before it", of_ids([*range(15), 14]), (23, 15)
    yield "the last of 16 repeats the eighth", of_ids([*range(15), 7]), (23, 15)
    yield "the last of 16 repeats the ninth", of_ids([*range(15), 8]), (23, 15)
    yield "the second of 16 repeats the first", of_ids([0, *range(15)]), (23, 1)
    yield "an id thrice", of_ids([0, 5, 6, 5, 5]), (23, 3)
    yield "two ids twice, one within the other", of_ids([0, 5, 6, 6, 5]), (23, 3)
    yield "two ids twice, in turn", of_ids([0, 5, 6, 5, 6]), (23, 3)
    yield "two ids twice, one behind the other", of_ids([0, 5, 5, 6, 6]), (23, 2)
    yield "two ids twice, the unit's within", of_ids([5, 0, 0, 5]), (23, 2)
    yield "two ids twice, the unit's around", of_ids([0, 5, 5, 0]), (23, 2)
    yield "16 of one id", of_ids([9] * MOST), (23, 1)
    yield "the highest id twice", of_ids([0, 65535, 1, 65535]), (23, 3)
    yield "the highest id once", of_ids([65535, 0]), PASSES
    yield "ids of one low byte", of_ids([1, 257, 513, 0, 65281]), PASSES
    yield "ids of one high byte", of_ids([0, 65280, 65281, 65535]), PASSES
    yield "ids of which one has the highest bit besides", of_ids([0, 32768, 5, 32773]), PASSES
    yield "the highest ids beside their low bytes", of_ids([0, 255, 65535]), PASSES
    yield "ids that are entries' places", of_ids([3, 2, 1, 0]), PASSES
    # an id is the same whatever else is told of a participant
    yield "an id twice, of two types", rsm(participant(0), participant(5, ptcType=1), participant(5, ptcType=3)), (23, 2)
    own, other = [1] * 8, [2] * 8
    yield "an id twice, with other temporary ids", rsm(participant(0), participant(5, id=own), participant(5, id=other)), (23, 2)
    yield "a temporary id twice", rsm(participant(0, id=own), participant(5, id=own)), PASSES
    yield "the unit twice, with other temporary ids", rsm(participant(0, id=own), participant(0, id=other)), (23, 1)


def fields():
    """An entry without vehicleClass."""
    yield "the unit without", of_ids([0, 1], [0]), (30, 0)
    yield "the unit without, behind others", of_ids([1, 2, 0], [2]), (30, 2)
    yield "the first without, and the unit behind it", of_ids([1, 0], [0]), (30, 0)
    yield "another without", of_ids([0, 1], [1]), (30, 1)
    yield "two without", of_ids([1, 2, 0, 3], [1, 3]), (30, 1)
    yield "two without, the unit the later", of_ids([1, 2, 0], [1, 2]), (30, 1)
    yield "two without, the unit the earlier", of_ids([1, 0, 2], [1, 2]), (30, 1)
    yield "all without", of_ids([1, 0, 2], [0, 1, 2]), (30, 0)
    yield "the first alone with", of_ids([0, 1, 2, 3], [1, 2, 3]), (30, 1)
    yield "the last of 16 without", of_ids(range(MOST), [15]), (30, 15)
    yield "16 without", of_ids(range(MOST), range(MOST)), (30, 0)
    for index, name in enumerate(T["ParticipantType"].items):
        # asked of every participant, and not of vehicles alone
        yield "one of type %s without" % name, rsm(participant(0), participant(1, False, ptcType=index)), (30, 1)
        yield "the unit of type %s without" % name, rsm(participant(1), participant(0, False, ptcType=index)), (30, 1)
    for index, _ in enumerate(T["FuelType"].items):
        fuel = {"classification": 0, "fuelType": index}
        yield "a vehicleClass with fuelType %d" % index, rsm(participant(0, vehicleClass=fuel), participant(1, False)), (30, 1)
    yield "the highest vehicleClass", rsm(participant(0, vehicleClass={"classification": 255})), PASSES


def places():
    """The unit, one that repeats and one that lacks at every place among 16."""
    others = list(range(1, MOST))
    for place in range(MOST):
        yield "the unit at %d of 16" % place, of_ids(others[:place] + [0] + others[place:]), PASSES
        yield "the one at %d of 16 without vehicleClass" % place, of_ids(range(MOST), [place]), (30, place)
    for place in range(1, MOST):
        yield "the one at %d of 16 repeats the one before it" % place, of_ids([*range(place), *range(place - 1, 15)]), (23, place)


def around():
    """The other components of a participant, which stand before vehicleClass in its cells, and before the next participant."""
    for size in range(len(OTHERS) + 1):
        for chosen in combinations(OTHERS, size):
            parts = {component: least(part) for component, part, _ in T["ParticipantData"].components if component in chosen}
            named = "with " + (", ".join(chosen) or "no other component")
            yield "the unit " + named, rsm(participant(0, **parts)), PASSES
            yield "the unit without vehicleClass " + named, rsm(participant(0, False, **parts)), (30, 0)
            yield "the first %s, the second without vehicleClass" % named, rsm(participant(1, **parts), participant(0, False)), (30, 1)
            yield "the first %s, the second repeats it" % named, rsm(participant(0, **parts), participant(0)), (23, 1)
    for index, (name, part) in enumerate(T["PositionOffsetLL"].alternatives):
        place = {"offsetLL": (index, least(part)), "offsetV": (index, least(T["VerticalOffset"].alternatives[index][1]))}
        yield "a position by %s before the unit" % name, rsm(participant(1, pos=place), participant(0)), PASSES
        yield "a position by %s before one that lacks" % name, rsm(participant(0, pos=place), participant(1, False)), (30, 1)
        yield "a position by %s before one that repeats" % name, rsm(participant(0, pos=place), participant(0)), (23, 1)


def ids_of(participants):
    return "ids " + ", ".join(str(one["ptcId"]) for one in participants)


def repeated_in_all_orders(what, one, again, *others):
    """Of two with the same id the later one is told."""
    for order in permutations([one, again, *others]):
        yield "%s: %s" % (what, ids_of(order)), rsm(*order), (23, max(order.index(one), order.index(again)))


def in_all_orders():
    return repeated_in_all_orders("23 and 30", *FOUR)


def several():
    """23, 24 and 30 at once: in this order, whatever stands first among the participants."""
    one, again, lacking, unit = FOUR
    yield from repeated_in_all_orders("23, 24 and 30", one, again, lacking)
    for order in permutations([one, lacking, unit]):
        yield "30: " + ids_of(order), rsm(*order), (30, order.index(lacking))
    yield "24 and 30, the lacking one last", rsm(one, lacking), (24, 0)
    yield "24 and 30, the lacking one first", rsm(lacking, one), (24, 0)
    yield "24 and 30, all lack", of_ids([1, 2, 3], [0, 1, 2]), (24, 0)
    yield "23 and 24", of_ids([5, 6, 5]), (23, 2)
    yield "23 and 30 by one entry", of_ids([0, 5, 5], [2]), (23, 2)
    yield "23 and 30, all lack", of_ids([0, 5, 5], [0, 1, 2]), (23, 2)
    yield "23 of the unit and 30 of both", of_ids([0, 0], [0, 1]), (23, 1)
    yield "23 of the unit and 30 of another", of_ids([1, 0, 0], [0]), (23, 2)
    yield "16 with all three", of_ids([*range(1, MOST), 1], range(MOST)), (23, 15)


def kinds():
    """22: every other kind, however long."""
    for name in KINDS:
        # an RSM of least numbers has one participant, with id 0 and without vehicleClass
        yield "the least " + name, frame(name), (30, 0) if name == "rsmFrame" else (22, 0)
    yield "a BSM with all that it may have", (KINDS["bsmFrame"], full("BasicSafetyMessage", Chance(1))), (22, 0)
    yield "a map of more than 2,048 bytes", long_map(), (22, 0)


def large():
    """16 participants with all that they may have."""
    yield "16 full ones", full_of_ids([*range(65521, 65536), 0]), PASSES
    yield "16 full ones, the last without vehicleClass", full_of_ids(range(MOST), [15]), (30, 15)
    yield "16 full ones, the last repeats the first", full_of_ids([*range(15), 0]), (23, 15)
    yield "16 full ones without the unit", full_of_ids(range(1, MOST + 1)), (24, 0)
    yield "16 full ones, three failures", full_of_ids([*range(1, MOST), 15], [0]), (23, 15)


def with_cell(cells, place, number):
    """A sheet with another number at a place."""
    return cells[:place] + [number] + cells[place + 1:]


def cell_of(entry, cell):
    """Where a cell of a participant stands."""
    return FIRST + EACH * entry + cell


def values():
    """7: at which cell a sheet is no value."""
    cells = sheet_of(of_ids([0, 7]))
    for how, sheet, place in spoiled_ways(cells, 256):
        yield "no value: " + how, sheet, (7, place)
    for entry in (0, 1):
        for id in (-1, 65536, 2**32, 2**63 - 1, -2**63):
            place = cell_of(entry, PTC_ID)
            yield "no value: id %d at %d" % (id, entry), with_cell(cells, place, id), (7, place)
        for presence in (-1, 2):
            place = cell_of(entry, CLASS_PRESENCE)
            yield "no value: %d for whether vehicleClass is there, at %d" % (presence, entry), with_cell(cells, place, presence), (7, place)
    for count in (0, -1, 17, 2**32):
        yield "no value: %d participants" % count, with_cell(cells, COUNT, count), (7, COUNT)
    yield "no value: one participant more than there are cells", with_cell(cells, COUNT, 3), (7, cell_of(2, 0))
    yield "no value: one participant fewer", with_cell(cells, COUNT, 1), (7, cell_of(1, 0))


def full_sheets():
    """7 at the end of a sheet of 16 participants."""
    cells = sheet_of(of_ids(range(MOST)))
    last = cell_of(MOST, 0) - 1
    yield "no value: the last cell of 16 participants", with_cell(cells, last, 256), (7, last)
    yield "no value: the id of the last of 16", with_cell(cells, cell_of(15, PTC_ID), 65536), (7, cell_of(15, PTC_ID))
    yield "no value: a cell behind 16 participants", cells + [1], (7, last + 1)
    yield "no value: 16 participants and a cell too few", cells[:-1], (7, last)
    yield "no value: a 17th participant", with_cell(cells, COUNT, 17) + cells[-EACH:], (7, COUNT)


def before_others():
    """7 before every other number, and the first cell where there are several."""
    cells = sheet_of(of_ids([0, 7]))
    first, second = cell_of(0, PTC_ID), cell_of(1, PTC_ID)
    yield "7 by two cells", with_cell(with_cell(cells, second, -1), first, 65536), (7, first)
    yield "7 by a cell, and cells lack", with_cell(cells, first, -1)[:-1], (7, first)
    yield "7 by a cell, and there are spare ones", with_cell(cells, second, -1) + [0, 0], (7, second)
    yield "7 by two spare cells", cells + [0, 0], (7, cell_of(2, 0))
    yield "7 before 23", sheet_of(of_ids([0, 0])) + [0], (7, cell_of(2, 0))
    yield "7 before 23, behind the entry that repeats", with_cell(sheet_of(of_ids([0, 0])), cell_of(2, 0) - 1, 256), (7, cell_of(2, 0) - 1)
    yield "7 before 24", sheet_of(of_ids([1]))[:-1], (7, cell_of(1, 0) - 1)
    # without vehicleClass a participant has two cells fewer
    yield "7 before 30", sheet_of(of_ids([0], [0])) + [5], (7, cell_of(1, 0) - 2)
    for name in ("bsmFrame", "mapFrame", "spatFrame", "rsiFrame"):
        other = sheet_of(frame(name))
        yield "7 before 22: a cell too many in " + name, other + [0], (7, len(other))
        yield "7 before 22: a cell too few in " + name, other[:-1], (7, len(other) - 1)
    long = sheet_of(long_map())
    yield "7 before 22: a cell too many in a long map", long + [0], (7, len(long))


def misnamed():
    """The cells of an RSM as those of another message: where they go wrong was found by the lists of its components."""
    cells = sheet_of(of_ids([0, 7]))
    # seven presence cells, msgCnt, and an id of which the third octet is the RSM's latitude
    yield "an RSM called a BSM", with_cell(cells, 0, KINDS["bsmFrame"]), (7, 11)
    # one presence cell, msgCnt, and the count of the nodes, which is the second octet of the RSM's id
    yield "an RSM called a map", with_cell(cells, 0, KINDS["mapFrame"]), (7, 3)
    # three presence cells, msgCnt, and the count of the intersections
    yield "an RSM called a signal message", with_cell(cells, 0, KINDS["spatFrame"]), (7, 5)
    # three presence cells, msgCnt, and an id of which the seventh octet is the RSM's latitude
    yield "an RSM called an RSI", with_cell(cells, 0, KINDS["rsiFrame"]), (7, 11)
    # the next participant would begin where vehicleClass was; its position's longitude comes where whether there is an elevation is told
    yield "a vehicleClass that is said not to be there", with_cell(cells, cell_of(0, CLASS_PRESENCE), 0), (7, 49)
    # the participant would have the next one's first two cells, and that one's id would come where its own vehicleClass is told
    without = sheet_of(of_ids([0, 7], [0]))
    yield "a vehicleClass that is said to be there", with_cell(without, cell_of(0, CLASS_PRESENCE), 1), (7, 42)
    for index in (-1, 5, 2**32 + 2):
        yield "an RSM called message %d" % index, with_cell(cells, 0, index), (7, 0)


GROUPS = (alone, units, repeats, fields, places, around, several, in_all_orders, kinds, large, values, full_sheets, before_others, misnamed)
