#!/usr/bin/env python3
"""Holds the library's check of an RSM against its sending profile to the judge of rsm_judge.py.

Use: compare.py SECOND CALLS

SECOND is the second implementation as a program (tests/second), CALLS the program of calls.c with the library in it.
The sheets of rsm_byhand.py, with the answers that were worked out for them, are held against the judge, against
the library and against the second implementation; then sheets by chance, whose answers are the judge's. Each number, each occasion and each of
the misreadings that the sheets have to show is counted, and one that came too seldom fails. The last line is 'N passed, 0 failed'.
"""

import os
import sys

HERE = os.path.dirname(os.path.abspath(__file__))
sys.path[:0] = [HERE, os.path.join(HERE, "..", "checks")]
sys.dont_write_bytecode = True
from comparing import Check
from least import KINDS
from sheets import NoValue, taken
# sheets knows where the folder of the cases is
from generate import ROWS, TYPES
from rsm_byhand import COUNT, GROUPS, OTHERS
from rsm_chance import some_sheets
from rsm_judge import Judge
from rsm_misreadings import MISREADINGS


class RsmCheck(Check):
    cases, case = "sheets", "sheet"
    judge, misreadings, groups = Judge, MISREADINGS, GROUPS
    numbers = ("0", "7", "22", "23", "24", "30")
    batches, batches_misread = [(seed, 5000) for seed in range(1, 13)], 4

    def taken(self, cells):
        return taken(cells)

    def some_cases(self, seed, count):
        return some_sheets(seed, count)

    def occasions_of(self, sheets, frames, answer):
        (number, place), participants = answer, frames[0][1]["participants"] if answer[0] not in (7, 22) else []
        return {**of_no_value(frames[0]), **of_ids(participants, number, place), **of_fields(participants, number, place)}


def of_no_value(frame):
    """Where a sheet is no value, and why."""
    here = isinstance(frame, NoValue)
    cells, place = (frame.cells, frame.place) if here else ([], 0)
    of_rsm = cells[:1] == [KINDS["rsmFrame"]]
    return {
        "7 since cells lack": here and place == len(cells),
        "7 by a spare cell": here and frame.spare,
        "7 by a wrong cell": here and place < len(cells) and not frame.spare,
        # with an elevation the count stands one cell further
        "7 among the participants": of_rsm and not frame.spare and COUNT + 1 < place < len(cells),
        "7 in another message": here and not of_rsm,
    }


def of_ids(participants, number, place):
    """What the ids are, where 23, 24 or neither is told."""
    ids, judge = [one["ptcId"] for one in participants], Judge()
    repeating, lacking = judge.repeats(participants), judge.lacking(participants)
    earlier = ids.index(ids[place]) if number == 23 else 0
    return {
        "23 side by side": number == 23 and place - earlier == 1,
        "23 far from each other": number == 23 and place - earlier > 7,
        "23 of the unit": number == 23 and ids[place] == 0,
        "23 of another": number == 23 and ids[place] != 0,
        "23 at the last of 16": number == 23 and place == 15,
        "23 and another behind it": number == 23 and len(repeating) > 1,
        "23 without the unit": number == 23 and 0 not in ids,
        "23 and 30 before it": number == 23 and lacking and lacking[0] < place,
        "23, 24 and 30": number == 23 and 0 not in ids and lacking,
        "24 of one": number == 24 and len(ids) == 1,
        "24 of 16": number == 24 and len(ids) == 16,
        "24 and 30": number == 24 and lacking,
        "24 beside an id whose low byte is 0": number == 24 and any(id % 256 == 0 for id in ids),
        "0 of one": number == 0 and len(ids) == 1,
        "0 of 16": number == 0 and len(ids) == 16,
        "0, and the unit is not the first": number == 0 and ids[0] != 0,
        "0, and two ids have one low byte": number == 0 and len({id % 256 for id in ids}) < len(ids),
    }


def of_fields(participants, number, place):
    """Who lacks vehicleClass, where 30 is told, and what else is there."""
    here, lacking = number == 30, Judge().lacking(participants)
    one = participants[place] if here else {}
    return {
        "30 of the unit": here and one["ptcId"] == 0,
        "30 of another": here and one["ptcId"] != 0,
        "30 at the first": here and place == 0,
        "30 at the last of 16": here and place == 15,
        "30 and another behind it": here and len(lacking) > 1,
        "30 with accelSet": here and "accelSet" in one,
        "30 without any optional component": here and not set(OTHERS) & set(one),
        "0 with vehicleClass alone": number == 0 and not set(OTHERS) & set(participants[-1]),
    }


if __name__ == "__main__":
    if len(sys.argv) < 3:
        sys.exit(__doc__)
    RsmCheck({"the library": sys.argv[2:], "the second implementation": [sys.argv[1], TYPES, ROWS, "participants"]}).try_all()
