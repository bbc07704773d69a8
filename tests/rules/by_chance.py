"""Frames by chance for the rules program: streams of maps, signal messages and others, and RSMs alone."""

from building import map_of
from drawing import Store
from frames import message_of, wounded
from generate import Chance
from least import sequence
from maps import wide
from pairs import Pair
from rsm_chance import Crowd

# a record has no more bytes
LONGEST_RECORD = 65535


def long_map(pair, chance):
    """A map of many cells, the last nodes of which have to do with the signal messages."""
    lanes = [sequence("Lane", maneuvers=[chance.between(0, 1)] * 12)] * chance.between(100, 300)
    return map_of(wide(lanes, 1), *[pair.node() for _ in range(chance.between(1, 4))])


def some_frame(pair, chance, signals):
    """A frame as a tree: most often a signal message, an earlier one among them, or a map that has to do with those before it."""
    kind = chance.between(0, 99)
    if kind < 25 and signals:
        return chance.one_of(signals[-4:])
    if kind < 50:
        signals.append(pair.signal())
        return signals[-1]
    if kind < 55:
        return long_map(pair, chance)
    if kind < 75:
        return pair.map()
    return Crowd(chance, pair.store).rsm() if kind < 90 else pair.another()


def some_stream(chance, store, count):
    """Messages one behind the other. The references and phases that there are change seldom, so that a map fits many signal messages."""
    pair, signals = Pair(chance, store), []
    for _ in range(count):
        if chance.holds(5):
            pair = Pair(chance, store)
        yield wounded(message_of(some_frame(pair, chance, signals)), chance)[:LONGEST_RECORD]


def some_streams(seed, streams, count):
    chance = Chance(seed)
    store = Store(chance)
    return [list(some_stream(chance, store, count)) for _ in range(streams)]


def some_rsms(seed, count):
    """Messages with an RSM in each, some of them spoiled."""
    chance = Chance(seed)
    store = Store(chance)
    return [wounded(message_of(Crowd(chance, store).rsm()), chance) for _ in range(count)]
