#!/usr/bin/env python3
"""Makes the messages of the benchmark, one to a line: table, kind, size, type number, hexadecimal.

The values come from the makers of tests/cases. The table is 'sizes' (small, usual and large messages of each kind),
'growth' (messages of a kind in steps of length; the size is then the length that was aimed at) or 'stream' (distinct frames
of all kinds, mixed). Several messages stand for each kind and size, so that no time hangs on one. The same messages come out
every time: chance has a fixed start for each table.
"""

import os
import sys

sys.path.insert(0, os.path.join(os.path.dirname(os.path.abspath(__file__)), "..", "tests", "cases"))
import generate as g
from growing import KINDS

NAMES = {g.BSM: "BSM", g.MAP: "MAP", g.RSM: "RSM", g.SPAT: "SPAT", g.RSI: "RSI"}
DESCRIPTION, OFFSET = g.KINDS[5], g.KINDS[6]
# where chance starts for each table, so that one can be drawn otherwise while the others stay as they are
STARTS = {"sizes": 20201231, "growth": 20210101, "stream": 2076856078773826005}
# so many messages of each kind and size
MESSAGES = 8
# usual lengths in bytes: a vehicle with some history, a crossing with its lanes, some road users, one crossing's lights,
# a few events and signs
USUAL = {g.BSM: 90, g.MAP: 500, g.RSM: 250, g.SPAT: 200, g.RSI: 200}
# the steps of the two kinds that have no message near 2,048 bytes; growing.py has those of the others
STEPS = {g.BSM: [64, 128, 256], g.RSM: [64, 128, 256, 512]}
# The stream: so many frames that no processor learns their branches, as a car meets them. Most are of other cars; of each kind so
# many in a hundred, and in how many of a hundred what is optional is present. Few are long; the mean is near 100 bytes.
STREAM = 5000
MIX = [(g.BSM, 60, [50, 70, 90]), (g.SPAT, 15, [10, 30, 50]), (g.RSM, 10, [30, 50, 70]), (g.RSI, 10, [10, 30, 50]), (g.MAP, 5, [10, 30, 50])]
LONGEST_OF_STREAM = 1000


def near(kind, size, chance):
    """A message of a kind with nearly so many bytes."""
    while True:
        tree = g.grown(kind, 8 * size, chance, chance.one_of([30, 50, 70]))
        if 0.85 * size <= len(g.Layout(kind[1], tree).message()) <= size:
            return tree


def largest(kind, chance):
    """A message near 2,048 bytes, or the longest where its type has none so long."""
    if kind in (g.BSM, g.RSM):
        return g.whole(kind, g.full(g.body_of(kind), chance))
    return near(kind, g.MOST_BYTES, chance)


def description(octets, chance):
    return (1, list(chance.some_bytes(octets)))


def offset(form, height, chance):
    """A position by its form, with a height or without."""
    while True:
        tree = g.some_value("PositionOffsetLLV", chance, 100 if height else 0)
        if tree["offsetLL"][0] == form:
            return tree


def sizes(chance):
    """Small, usual and large messages of each kind, as kind, size and tree."""
    for kind in NAMES:
        for _ in range(MESSAGES):
            yield kind, NAMES[kind], "small", g.whole(kind, g.small(g.body_of(kind), chance))
        for _ in range(MESSAGES):
            yield kind, NAMES[kind], "usual", near(kind, USUAL[kind], chance)
        for _ in range(MESSAGES):
            yield kind, NAMES[kind], "large", largest(kind, chance)
    for size, octets in (("small", 2), ("usual", 40), ("large", 512)):
        for _ in range(MESSAGES):
            yield DESCRIPTION, "Description", size, description(octets, chance)
    for size, form, height in (("small", 0, False), ("usual", 3, True), ("large", 6, True)):
        for _ in range(MESSAGES):
            yield OFFSET, "PositionOffsetLLV", size, offset(form, height, chance)


def growth(chance):
    """Messages of a kind in steps of length."""
    for kind, steps in STEPS.items():
        for size in steps:
            for _ in range(MESSAGES):
                yield kind, NAMES[kind], str(size), near(kind, size, chance)
    for growing in KINDS:
        for size, tree in growing.steps(chance):
            yield growing.kind, NAMES[growing.kind], str(size), tree


def some_frame(chance):
    """A frame by the mix of the stream, as kind and tree."""
    part = chance.between(0, 99)
    for kind, share, presences in MIX:
        if part < share:
            return kind, g.whole(kind, g.some_value(g.body_of(kind), chance, chance.one_of(presences)))
        part -= share
    raise ValueError("the shares of the stream are less than a hundred")


def stream(chance):
    """Distinct frames of all kinds."""
    seen = set()
    while len(seen) < STREAM:
        kind, tree = some_frame(chance)
        message = g.Layout(kind[1], tree).message()
        if message not in seen and len(message) <= LONGEST_OF_STREAM:
            seen.add(message)
            yield kind, NAMES[kind], "mixed", tree


def main():
    for table, make in (("sizes", sizes), ("growth", growth), ("stream", stream)):
        for kind, name, size, tree in make(g.Chance(STARTS[table])):
            print(table, name, size, kind[0], g.Layout(kind[1], tree).message().hex())


if __name__ == "__main__":
    main()
