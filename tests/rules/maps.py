"""Frames for the rules program that are about maps and signal messages, in orders that tell: each with the line that it is aimed at, and a
spoiled one with what it was before.

They follow one another, so that a frame's line depends on the map before it. What the check of a signal message against a map finds is worked
out by hand in tests/signals/byhand.py; the pairs there come here one behind the other. Besides, the map changes, and is kept where it has to be.
"""

import stream
import byhand
import generate
from building import entry, link, map_of, node, signal
from frames import message_of, spoiled
from generate import length_of, small
from least import KINDS, frame, least, sequence
from rsm_building import of_ids
from sheets import MOST_BITS

# a map of 64 bytes or of 512 is the longest that is read into fewer cells
SIZES = (64, 65, 512, 513, generate.MOST_BYTES - 1, generate.MOST_BYTES)

# two maps, and two signal messages of which each agrees with one map alone
FIRST, SECOND = map_of(node(1, link([1], [[2]]))), map_of(node(2), node(1, link([3])), node(7))
FOR_FIRST, FOR_SECOND, REPEATED = signal(entry(1, [1, 2])), signal(entry(1, [3])), signal(entry(1, [1]), entry(2, [2]), entry(1, [1]))
# what each gives with the first map and with the second one
WITH_FIRST = ((FOR_FIRST, "passes"), (FOR_SECOND, "52 node 0 uses phase 1, which is not listed"), (REPEATED, "51 entry 2 repeats an earlier one"))
WITH_SECOND = ((FOR_SECOND, "passes"), (FOR_FIRST, "52 node 1 uses phase 3, which is not listed"), (REPEATED, "51 entry 2 repeats an earlier one"))


def told(tree, aim=None):
    """A frame with its line; that of a map says how many nodes it has."""
    return message_of(tree), aim or "map of %d nodes" % len(tree[1]["nodes"])


def others(chance):
    """Frames that have nothing to do with maps, each with its line."""
    yield message_of((KINDS["bsmFrame"], small("BasicSafetyMessage", chance))), stream.NO_RULE
    yield message_of(of_ids([5, 0])), "passes"
    yield message_of(of_ids([0, 5, 0])), "23 participant 2 repeats an earlier ptcId"
    yield message_of((KINDS["rsiFrame"], small("RoadSideInformation", chance))), "passes"
    yield message_of(frame("rsiFrame", rtes=[least("RTEData")])), "12 event 0 has no eventPos"
    yield b"", "refused 3 at bit 0"
    yield b"\x50", "refused 43 at bit 1"
    yield bytes(generate.MOST_BYTES + 1), "refused 1 at bit 0"


def before_a_map(chance):
    """Signal messages of which nothing can be said yet: not even that an entry repeats another. A map that can't be read is none."""
    for one in (FOR_FIRST, REPEATED):
        yield told(one, "no map yet")
    for other in list(others(chance)) + list(spoiled(FIRST)) + list(spoiled(FOR_FIRST)):
        yield other
        yield told(FOR_FIRST, "no map yet")


def replaced(chance):
    """Each map in place of the one before: the same signal messages pass and fail with the one and with the other."""
    short, long = map_of(node(1, link([1], [[2]]))), map_of(node(5), node(1, link([1])), node(1, link([2], [[2]])), node(6), node(1, link([4])))
    for map, signals in ((FIRST, WITH_FIRST), (SECOND, WITH_SECOND), (FIRST, WITH_FIRST), (SECOND, WITH_SECOND), (SECOND, WITH_SECOND)):
        yield told(map)
        for one, line in signals:
            yield told(one, line)
    # nothing of a longer map is left
    yield told(long)
    yield told(FOR_FIRST, "52 node 4 uses phase 4, which is not listed")
    yield told(short)
    yield told(FOR_FIRST, "passes")
    # two maps with nothing between them
    yield told(FIRST)
    yield told(map_of(node(9)))
    yield told(FOR_SECOND, "passes")


def kept(chance):
    """The map in force, behind frames of every other kind, behind spoiled ones, and behind a map that can't be read."""
    for map, other_map, signals in ((FIRST, SECOND, WITH_FIRST), (SECOND, FIRST, WITH_SECOND)):
        yield told(map)
        for between in list(others(chance)) + list(spoiled(other_map)) + list(spoiled(FOR_FIRST)):
            yield between
            for one, line in signals:
                yield told(one, line)
    long = map_of(node(1, *[sequence("Link", lanes=[least("Lane")] * 32)] * 32))
    yield message_of(long), "refused 1 at bit 0", long
    yield told(FOR_SECOND, "passes")


def pairs_by_hand(chance):
    """The pairs of tests/signals that are a signal message and a map of at most 2,048 bytes: the map, and then the signal message."""
    for group in byhand.GROUPS:
        for _, one, map, answer in group():
            if answer[0] not in (0, 51, 52) or any(length_of("MessageFrame", tree) > MOST_BITS for tree in (one, map)):
                continue
            yield told(map)
            yield told(one, stream.verdict_line(*answer))


def filled(size):
    """A map of exactly so many bytes whose last node uses phase 3; before it a node with many lanes, and with a name for the rest."""
    last, lane, lanes, letters = node(1, link([], [[3]])), sequence("Lane", maneuvers=[1] * 12), [], 1
    while length_of("MessageFrame", map_of(wide(lanes + [lane], 1), last)) <= 8 * size:
        lanes.append(lane)
    while len(message_of(map_of(wide(lanes, letters), last))) < size:
        letters += 1
    return map_of(wide(lanes, letters), last)


def wide(lanes, letters):
    """A node with these lanes, 32 to a link, and with a name of so many letters."""
    links = [sequence("Link", lanes=lanes[place:place + 32]) for place in range(0, len(lanes), 32)]
    return dict(node(4, *links), name=[65] * letters)


def long_maps(chance):
    """Maps of many sizes and of many cells, the last node of which is judged; between them a short one."""
    for size in SIZES:
        yield from around(filled(size))
    for cells in (4096, 8192, 12000):
        tree = generate.map_of_cells(cells, chance)
        body = dict(tree[1], nodes=tree[1]["nodes"] + [node(1, link([], [[3]]))])
        yield from around((tree[0], body))


def around(map):
    """A map whose last node uses phase 3, with a short one before it."""
    place = len(map[1]["nodes"]) - 1
    yield told(FIRST)
    yield told(FOR_FIRST, "passes")
    yield told(map)
    yield told(FOR_FIRST, "52 node %d uses phase 3, which is not listed" % place)
    yield told(FOR_SECOND, "passes")


GROUPS = (before_a_map, replaced, kept, pairs_by_hand, long_maps)
