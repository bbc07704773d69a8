"""Pairs of a signal message and a map, each with the answer that was worked out by hand: number, node, phase.

Either message is a frame, or the cells of a sheet.
"""

from building import entry, link, map_of, movement, node, reference, signal
from least import KINDS, frame, sequence
from model import AGREES
from sheets import is_long, sheet_of
from spoiling import spoiled_ways

SIGNAL = signal(entry(1, [1, 2]))
MAP = map_of(node(1, link([1], [[2]])))


def uses():
    """What a node uses, and what is judged of it."""
    yield "movements and connections that are listed", SIGNAL, MAP, AGREES
    yield "phases only in movements", SIGNAL, map_of(node(1, link([1, 2, 3]))), (52, 0, 3)
    yield "phases only in movements, all listed", SIGNAL, map_of(node(1, link([2, 1]))), AGREES
    yield "phases only in connections", SIGNAL, map_of(node(1, link([], [[1, 2, 4]]))), (52, 0, 4)
    yield "phases only in connections, all listed", SIGNAL, map_of(node(1, link([], [[2], [1]]))), AGREES
    yield "a listed phase that nothing uses", signal(entry(1, [1, 2, 3])), MAP, AGREES
    yield "a node without links", SIGNAL, map_of(node(1)), AGREES
    yield "links that use no phase", SIGNAL, map_of(node(1, link(), link([None], [[None], []]))), AGREES
    yield "absent phases beside one that is not listed", SIGNAL, map_of(node(1, link([None, 7, None], [[None]]))), (52, 0, 7)
    yield "phase 0 used by a movement", SIGNAL, map_of(node(1, link([0, 1]))), AGREES
    yield "phase 0 used by a connection", SIGNAL, map_of(node(1, link([], [[0], [2, 0]]))), AGREES
    yield "phase 0 used, and one behind it not listed", SIGNAL, map_of(node(1, link([0], [[0, 5]]))), (52, 0, 5)
    yield "phase 0 used and listed", signal(entry(1, [0])), map_of(node(1, link([0]))), AGREES
    yield "phase 0 listed, and 1 used", signal(entry(1, [0])), map_of(node(1, link([1]))), (52, 0, 1)
    yield "a phase listed twice", signal(entry(1, [2, 2])), map_of(node(1, link([2]))), AGREES
    yield "a phase listed twice, and another used", signal(entry(1, [2, 2])), map_of(node(1, link([2, 3]))), (52, 0, 3)
    yield "phase 255 listed", signal(entry(1, [255])), map_of(node(1, link([255]))), AGREES
    yield "phase 255 not listed", signal(entry(1, [254])), map_of(node(1, link([255]))), (52, 0, 255)
    # a movement's phase is a default for the lanes, and counts even where every lane says another (source 004, 6.3.1.2.1 w)
    yield "a movement's phase beside lanes that say another", SIGNAL, map_of(node(1, link([3], [[1], [2]]))), (52, 0, 3)
    directions = sequence("Link", movements=[movement(3, (0, 0))])
    yield "a movement that stands for a direction", SIGNAL, map_of(node(1, directions)), (52, 0, 3)
    yield "a connection that leads to a lane", SIGNAL, map_of(node(1, sequence("Link", lanes=[sequence("Lane", connectsTo=[
        sequence("Connection", connectingLane={"lane": 6, "maneuver": [1] * 12}, phaseId=8)])]))), (52, 0, 8)


def order():
    """The first failure in map order."""
    yield "the first in map order is not the lowest", SIGNAL, map_of(node(1, link([9, 3]))), (52, 0, 9)
    yield "a movement before a lane of its link, though its phase is higher", SIGNAL, map_of(node(1, link([9], [[3]]))), (52, 0, 9)
    yield "the first link's lane before the second link's movement", SIGNAL, map_of(node(1, link([], [[9]]), link([3]))), (52, 0, 9)
    yield "the second link's movement behind the first link's listed lane", SIGNAL, map_of(
        node(1, link([1], [[2]]), link([3], [[4]]))), (52, 0, 3)
    yield "lanes in order", SIGNAL, map_of(node(1, link([], [[1], [8], [7]]))), (52, 0, 8)
    yield "connections in order", SIGNAL, map_of(node(1, link([], [[1, 2, 8, 7]]))), (52, 0, 8)
    yield "links in order", SIGNAL, map_of(node(1, link([1]), link([8]), link([7]))), (52, 0, 8)
    two = signal(entry(1, [1]), entry(2, [2]))
    yield "nodes in order, though the second's phase is lower", two, map_of(node(1, link([9])), node(2, link([3]))), (52, 0, 9)
    yield "nodes in map order, and not in the signal message's", two, map_of(node(2, link([9])), node(1, link([3]))), (52, 0, 9)
    yield "the second node", two, map_of(node(1, link([1])), node(2, link([1]))), (52, 1, 1)
    yield "the second node of the map, the first of the signal message", two, map_of(node(2, link([2])), node(1, link([2]))), (52, 1, 2)
    yield "a phase listed only in another node's entry", two, map_of(node(1, link([2]))), (52, 0, 2)
    yield "each node by its own entry", two, map_of(node(1, link([1])), node(2, link([2]))), AGREES


def references():
    """Which entry is a node's."""
    yield "a missing region in the map, region 0 in the signal message", signal(entry(1, [1], 0)), map_of(node(1, link([2]))), AGREES
    yield "region 0 in the map, a missing one in the signal message", signal(entry(1, [1])), map_of(node(1, link([2]), region=0)), AGREES
    yield "region 0 in both", signal(entry(1, [1], 0)), map_of(node(1, link([2]), region=0)), (52, 0, 2)
    yield "a missing region in both", signal(entry(1, [1])), map_of(node(1, link([2]))), (52, 0, 2)
    yield "another region", signal(entry(1, [1], 5)), map_of(node(1, link([2]), region=6)), AGREES
    yield "the same region", signal(entry(1, [1], 65535)), map_of(node(1, link([2]), region=65535)), (52, 0, 2)
    yield "another id", signal(entry(1, [1], 5)), map_of(node(2, link([2]), region=5)), AGREES
    # as cells a missing region and id 5, and region 5 and id 0, are told apart by the presence cell alone
    yield "region and id the other way round", signal(entry(7, [1], 5)), map_of(node(5, link([2]), region=7)), AGREES
    yield "an id that is another's region", signal(entry(5, [1])), map_of(node(0, link([2]), region=5)), AGREES
    three = signal(entry(1, [1]), entry(1, [2], 0), entry(1, [3], 1))
    yield "one id without a region and in two regions", three, map_of(
        node(1, link([3]), region=1), node(1, link([2]), region=0), node(1, link([1]))), AGREES
    yield "one id in two regions, the first's phase used in the second", three, map_of(
        node(1, link([3]), region=1), node(1, link([1]), region=0)), (52, 1, 1)
    yield "one id in two regions, and a region without an entry", three, map_of(node(1, link([9]), region=2)), AGREES
    yield "a node without an entry before one with", SIGNAL, map_of(node(2, link([9])), node(1, link([9]))), (52, 1, 9)
    yield "no node has an entry", SIGNAL, map_of(node(2, link([9])), node(3, link([], [[9]]))), AGREES
    yield "a node that stands twice with different links", SIGNAL, map_of(node(1, link([1])), node(1, link([6]))), (52, 1, 6)
    yield "a node that stands twice, both listed", SIGNAL, map_of(node(1, link([1])), node(1, link([2]))), AGREES
    yield "a node that stands twice and fails twice", SIGNAL, map_of(node(1, link([7])), node(1, link([6]))), (52, 0, 7)
    far = signal(entry(257, [1], 256))
    yield "an id and a region by all their bits", far, map_of(node(1, link([2]), region=256), node(257, link([2]), region=0)), AGREES


def repeats():
    """51, before 52 and whatever the map has."""
    one, two, three = entry(1, [1]), entry(2, [2]), entry(3, [3])
    yield "an entry twice", signal(one, one), MAP, (51, 1, 0)
    yield "an entry twice, with other phases, of which one would do", signal(entry(1, [9]), entry(1, [1, 2])), MAP, (51, 1, 0)
    yield "an entry twice, not side by side", signal(one, two, one), MAP, (51, 2, 0)
    yield "an entry thrice", signal(two, one, one, one), MAP, (51, 2, 0)
    yield "an entry twice, and the map lacks that node", signal(one, three, two, three), MAP, (51, 3, 0)
    yield "an entry twice, and a phase that is not listed", signal(one, one), map_of(node(1, link([9]))), (51, 1, 0)
    yield "two entries twice, one within the other", signal(one, two, two, one), MAP, (51, 2, 0)
    yield "two entries twice, in turn", signal(one, two, one, two), MAP, (51, 2, 0)
    yield "an entry twice in a region", signal(entry(1, [1], 0), one, entry(1, [1], 0)), MAP, (51, 2, 0)
    yield "a missing region beside region 0", signal(entry(1, [1, 2]), entry(1, [1], 0)), MAP, AGREES
    yield "one id in two regions", signal(entry(1, [1], 7), entry(1, [1], 8)), MAP, AGREES
    yield "two ids in one region", signal(entry(1, [1], 7), entry(2, [1], 7)), MAP, AGREES
    yield "the last of 32 entries repeats the first", signal(*[entry(id, [1]) for id in [*range(31), 0]]), MAP, (51, 31, 0)


def kinds():
    """50: every kind on either side."""
    yield "swapped", MAP, SIGNAL, (50, 0, 0)
    yield "both SPAT", SIGNAL, SIGNAL, (50, 0, 0)
    yield "both MAP", MAP, MAP, (50, 0, 0)
    for name in KINDS:
        other = frame(name)
        yield "%s in place of the signal message" % name, other, MAP, AGREES if name == "spatFrame" else (50, 0, 0)
        yield "%s in place of the map" % name, SIGNAL, other, AGREES if name == "mapFrame" else (50, 0, 0)
        if name not in ("spatFrame", "mapFrame"):
            yield "%s in place of both" % name, other, other, (50, 0, 0)
    repeated, failing = signal(entry(1, [1]), entry(1, [1])), map_of(node(1, link([9])))
    yield "50 before 51", repeated, frame("rsiFrame"), (50, 0, 0)
    yield "50 before 52", failing, SIGNAL, (50, 0, 0)


def spoiled(cells):
    """Sheets that are no value, made from one that is."""
    for how, sheet, _ in spoiled_ways(cells, 256 if cells[-1] else 99):
        yield how, sheet
    yield "a presence cell of 2", cells[:1] + [2] + cells[2:]


def values():
    """7: which sheet is no value, the signal message's first."""
    signals, maps = dict(spoiled(sheet_of(SIGNAL))), dict(spoiled(sheet_of(MAP)))
    for how in signals:
        yield "the signal sheet is no value: " + how, signals[how], MAP, (7, 0, 0)
        yield "the map sheet is no value: " + how, SIGNAL, maps[how], (7, 1, 0)
        yield "both are no value: " + how, signals[how], maps["empty"], (7, 0, 0)
        yield "7 for the map sheet before 51: " + how, signal(entry(1, [1]), entry(1, [1])), maps[how], (7, 1, 0)
        # a map in place of the signal message would be 50, but 7 comes before
        yield "7 for the map sheet before 50: " + how, MAP, maps[how], (7, 1, 0)
        yield "7 for the signal sheet before 50: " + how, maps[how], SIGNAL, (7, 0, 0)
    high = [256 if cell == 255 else cell for cell in sheet_of(map_of(node(1, link([255]))))]
    yield "7 for a phase above 255 in the map", SIGNAL, high, (7, 1, 0)


def large():
    """Full lists, and messages of more than 2,048 bytes, which no one could send."""
    listed = list(range(1, 17))
    yield "16 phases listed and used", signal(entry(1, listed)), map_of(node(1, link(listed))), AGREES
    yield "16 phases listed, a 17th used", signal(entry(1, listed)), map_of(node(1, link([*listed, 17]))), (52, 0, 17)
    yield "the last of 16 phases is the one that is used", signal(entry(1, [*range(101, 116), 7])), map_of(node(1, link([7]))), AGREES
    every = [link(range(1, 33)), link([], [range(first, first + 8) for first in range(33, 249, 8)] + [range(249, 256)])]
    yield "255 phases used", signal(entry(1, listed)), map_of(node(1, *every)), (52, 0, 17)
    yield "255 phases used, in a node without an entry", signal(entry(2, listed)), map_of(node(1, *every)), AGREES
    lanes = [[]] * 31
    yield "a connection in the last of 32 lanes", SIGNAL, map_of(node(1, link([1], [*lanes, [1, 2, 1, 2, 1, 2, 1, 5]]))), (52, 0, 5)
    yield "the last of 32 lanes, all listed", SIGNAL, map_of(node(1, link([1], [*lanes, [1, 2, 1, 2, 1, 2, 1, 2]]))), AGREES
    yield "the last of 32 movements", SIGNAL, map_of(node(1, link([1] * 31 + [5]))), (52, 0, 5)
    yield "the last of 32 links", SIGNAL, map_of(node(1, *[link([1])] * 31, link([], [[5]]))), (52, 0, 5)
    entries = [entry(id, [*range(16 * (id % 8), 16 * (id % 8) + 16)], id % 3 or None) for id in range(32)]
    used = [link([*range(16 * (id % 8), 16 * (id % 8) + 16)]) for id in range(32)]
    nodes = [node(id, used[id], region=id % 3 or None) for id in range(32)]
    yield "32 nodes with 32 entries of 16 phases", signal(*entries), map_of(*nodes), AGREES
    yield "32 nodes in another order", signal(*entries), map_of(*nodes[::-1]), AGREES
    wrong = node(31, used[31], link([], [[112, 200]]), region=1)
    yield "the last of 32 nodes", signal(*entries), map_of(*nodes[:31], wrong), (52, 31, 200)
    yield "one node 32 times, the last of them wrong", signal(entry(31, listed, 1)), map_of(*[node(31, region=1)] * 31, wrong), (52, 31, 112)
    yield from long_ones()


def long_ones():
    point = {"posOffset": {"offsetLL": (6, {"lon": 0, "lat": 0})}}
    heavy = sequence("Link", points=[point] * 31, lanes=[sequence("Lane", points=[point] * 31, connectsTo=[
        sequence("Connection", phaseId=phase)]) for phase in range(1, 9)])
    long_map = map_of(node(1, heavy), node(2, heavy))
    eight = list(range(1, 9))
    timing = (1, {"startUTCTime": 0, "likelyEndUTCTime": 0})
    state = {"light": 0, "timing": timing}
    heavy_entries = [sequence("IntersectionState", intersectionId=reference(id), phases=[
        {"id": phase, "phaseStates": [state] * 16} for phase in eight]) for id in range(8)]
    long_signal = signal(*heavy_entries)
    for message in (long_map, long_signal):
        if not is_long(sheet_of(message), message):
            raise ValueError("a message that is to be long is not")
    yield "a long map that agrees", signal(entry(1, eight), entry(2, eight)), long_map, AGREES
    yield "a long map with a phase that is not listed", signal(entry(1, eight), entry(2, eight[:7])), long_map, (52, 1, 8)
    yield "a long signal message that agrees", long_signal, map_of(node(7, link(eight))), AGREES
    yield "a long signal message with a phase that is not listed", long_signal, map_of(node(7, link([*eight, 9]))), (52, 0, 9)
    yield "a long signal message with an entry twice", signal(*heavy_entries, heavy_entries[5]), MAP, (51, 8, 0)
    yield "two long messages", long_signal, long_map, AGREES
    yield "two long messages, swapped", long_map, long_signal, (50, 0, 0)
    yield "a long map with a cell too many", SIGNAL, sheet_of(long_map) + [0], (7, 1, 0)
    yield "a long signal message that is cut", sheet_of(long_signal)[:-1], MAP, (7, 0, 0)
    # nothing in a map is further behind than the last connection of its last lane
    last = map_of(*[node(id, *[link([], [[]] * 32)] * 32) for id in range(31)], node(
        31, *[link([], [[]] * 32)] * 31, link([], [[]] * 31 + [[1, 1, 1, 1, 1, 1, 1, 3]])))
    yield "the last connection of the largest map", signal(entry(31, [1])), last, (52, 31, 3)
    yield "the last connection of the largest map, listed", signal(entry(31, [1, 3])), last, AGREES


GROUPS = (uses, order, references, repeats, kinds, values, large)
