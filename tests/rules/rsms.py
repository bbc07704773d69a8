"""Frames for the rules program that are about RSMs and BSMs: each with the line that it is aimed at, and a spoiled one with what it was before.

What the RSM sending profile finds is worked out by hand in tests/participants/rsm_byhand.py; the RSMs there come here one behind the other, but
for those that try every place, every order and every other component. Besides, nothing of an RSM may be kept for the next one.
"""

import rsm_byhand
import stream
from frames import message_of, spoiled
from generate import full, small
from least import KINDS, frame
from rsm_building import full_of_ids, of_ids

BY_HAND = (rsm_byhand.alone, rsm_byhand.units, rsm_byhand.repeats, rsm_byhand.fields, rsm_byhand.several)
NO_UNIT = "24 no participant has ptcId 0"


def no_rule(chance):
    """BSMs, of which nothing is asked: with little in them, and with all that they may have."""
    for body in (small("BasicSafetyMessage", chance), full("BasicSafetyMessage", chance)):
        yield message_of((KINDS["bsmFrame"], body)), stream.NO_RULE
    yield message_of(frame("bsmFrame")), stream.NO_RULE


def by_hand(chance):
    for group in BY_HAND:
        for _, tree, answer in group():
            yield message_of(tree), stream.profile_line(*answer)


def in_turn():
    """RSMs of which each has something that the next one must not be judged by."""
    # the same ids again
    yield of_ids([1, 0, 2]), "passes"
    yield of_ids([1, 0, 2]), "passes"
    yield of_ids([0, 1, 2]), "passes"
    # fewer participants behind more
    yield of_ids([0, 1, 2, 3], [3]), "30 participant 3 has no vehicleClass"
    yield of_ids([0, 1]), "passes"
    yield of_ids([0, 5, 6, 5]), "23 participant 3 repeats an earlier ptcId"
    yield of_ids([0, 5]), "passes"
    yield of_ids([1, 2, 0]), "passes"
    yield of_ids([1, 2]), NO_UNIT
    # the unit was in the one before
    yield of_ids([0]), "passes"
    yield of_ids([1]), NO_UNIT
    yield of_ids([1], [0]), NO_UNIT
    # more participants behind fewer
    yield of_ids([1]), NO_UNIT
    yield of_ids([2, 3, 0, 4]), "passes"
    # as much as an RSM can hold, and one with little behind it
    yield full_of_ids(range(16), [15]), "30 participant 15 has no vehicleClass"
    yield of_ids([0]), "passes"
    yield full_of_ids(range(15, -1, -1)), "passes"
    yield of_ids([1]), NO_UNIT


def one_behind_another(chance):
    for tree, line in in_turn():
        yield message_of(tree), line


def behind_spoiled(chance):
    """RSMs that can't be read, with one behind each that can."""
    for tree in (of_ids([0, 1]), of_ids([0, 0]), of_ids([1, 2]), of_ids([0, 1], [1])):
        for one in spoiled(tree):
            yield one
            yield message_of(of_ids([1, 0])), "passes"


GROUPS = (no_rule, by_hand, one_behind_another, behind_spoiled)
