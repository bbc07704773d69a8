#!/usr/bin/env python3
"""Holds the library's check of a signal message against a map to the judge of model.py.

Use: compare.py SECOND CALLS

SECOND is the second implementation as a program (tests/second), CALLS the program of calls.c with the library in it.
The pairs of byhand.py, with the answers that were worked out for them, are held against the judge, against the
library and against the second implementation; then pairs by chance, whose answers are the judge's. Each number, each occasion and each of the
misreadings that the pairs have to show is counted, and one that came too seldom fails. The last line is 'N passed, 0 failed'.
"""

import os
import sys

HERE = os.path.dirname(os.path.abspath(__file__))
sys.path[:0] = [HERE, os.path.join(HERE, "..", "checks")]
sys.dont_write_bytecode = True
from comparing import Check
from sheets import frame_of, is_long
# sheets knows where the folder of the cases is
from generate import ROWS, TYPES
from byhand import GROUPS
from misreadings import MISREADINGS
from model import Judge
from pairs import some_pairs


class SignalCheck(Check):
    cases, case = "pairs", "pair"
    judge, misreadings, groups = Judge, MISREADINGS, GROUPS
    numbers = ("0", "7 for the signal sheet", "7 for the map sheet", "50", "51", "52")
    batches, batches_misread = [(seed, 5000) for seed in range(1, 13)], 4

    def taken(self, cells):
        return frame_of(cells)

    def some_cases(self, seed, count):
        return some_pairs(seed, count)

    def number_of(self, answer):
        return str(answer[0]) + ([" for the signal sheet", " for the map sheet"][answer[1]] if answer[0] == 7 else "")

    def occasions_of(self, sheets, frames, answer):
        judge, (signal, map) = Judge(), frames
        number, place, phase = answer
        entries, nodes = (signal[1]["intersections"], map[1]["nodes"]) if number in (0, 51, 52) else ([], [])
        known = [node for node in nodes if judge.entry_for(entries, node)]
        failing = nodes[place] if number == 52 else {}
        first_link = next((link for link in failing.get("inLinks", []) if phase in judge.link_phases(link)), {"lanes": []})
        by_movement = phase in judge.movement_phases(first_link)
        return {
            "7 for both": signal is None and map is None,
            "0 where phases are judged": number == 0 and any(any(judge.node_phases(node)) for node in known),
            "0 where no node has an entry": number == 0 and not known,
            "52 by a movement": number == 52 and by_movement,
            "52 by a connection": number == 52 and not by_movement,
            "52 behind another node": number == 52 and place > 0,
            "52 behind another link": number == 52 and first_link is not failing["inLinks"][0],
            "52 behind another lane": number == 52 and not by_movement and phase not in judge.lane_phases(first_link["lanes"][0]),
            "51 for a node that the map lacks": number == 51 and not any(
                judge.reference(node["id"]) == judge.reference(entries[place]["intersectionId"]) for node in nodes),
            "51 behind several others": number == 51 and place > 2,
            "more than 2,048 bytes": number in (0, 51, 52) and any(is_long(*one) for one in zip(sheets, frames)),
        }


if __name__ == "__main__":
    if len(sys.argv) < 3:
        sys.exit(__doc__)
    SignalCheck({"the library": sys.argv[2:], "the second implementation": [sys.argv[1], TYPES, ROWS, "signals"]}).try_all()
