#!/usr/bin/env python3
"""Holds the library's check of plans and its planner to the judge of plan_judge.py.

Use: compare.py SECOND CALLS

SECOND is the second implementation as a program (tests/second), CALLS the program of calls.c with the library in it.
The requests of the plan_byhand files, with the answers that were worked out for them, are held against the judge,
against the library and against the second implementation; then requests by chance, whose answers are the judge's; and then plans that each of
the two makes are handed to its own check and to the judge, which have to accept them all. Each number, each occasion and each of the misreadings
that the requests have to show is counted, and one that came too seldom fails. The last line is 'N passed, 0 failed'.
"""

import os
import sys

HERE = os.path.dirname(os.path.abspath(__file__))
sys.path[:0] = [HERE, os.path.join(HERE, "..", "checks")]
sys.dont_write_bytecode = True
from comparing import Check, answered, line_of
# sheets, of which comparing has need, knows where the folder of the cases is
from generate import ROWS, TYPES
from plan_byhand import CHECK_GROUPS
from plan_byhand_form import FORM_GROUPS
from plan_byhand_made import MADE_GROUPS
from plan_chance import some_lists, some_requests
from plan_judge import PASSES, Judge
from plan_lengths import measure_for
from plan_misread_checks import CHECK_MISREADINGS
from plan_misread_form import FORM_MISREADINGS
from plan_misread_made import MADE_MISREADINGS
from plan_occasions import occasions_of
from plan_requests import CHECK, request_of


class PlanCheck(Check):
    cases, case = "requests", "request"
    judge, groups = Judge, (*FORM_GROUPS, *CHECK_GROUPS, *MADE_GROUPS)
    misreadings = (*FORM_MISREADINGS, *CHECK_MISREADINGS, *MADE_MISREADINGS)
    numbers = ("0 checked", "7 checked", "4 checked", "70 checked", "71 checked", "0 made", "7 made", "4 made", "72 made", "8 made")
    batches, batches_misread = [(seed, 2500) for seed in range(1, 13)], 2
    batches_of_own_plans = [(seed, 2500) for seed in range(101, 105)]
    for_a_number, for_an_occasion, for_a_misreading = 500, 50, 5

    def __init__(self, programs, lengths):
        super().__init__(programs)
        self.lengths = lengths

    def all_taken(self, sheets):
        return [request_of(sheets)]

    def make_ready(self, cases):
        measure_for(self.judge(), self.lengths, [request for request, in cases])

    def some_cases(self, seed, count):
        return some_requests(seed, count)

    def number_of(self, answer):
        """A check answers with two numbers, a planner with more."""
        return "%d %s" % (answer[0], "checked" if len(answer) == len(PASSES) else "made")

    def occasions_of(self, sheets, frames, answer):
        return occasions_of(frames[0], answer)

    def try_by_chance(self, bench):
        super().try_by_chance(bench)
        self.try_own_plans(bench)

    def try_own_plans(self, bench):
        """Every plan that a program makes passes its own check, and the judge's."""
        for name, program in self.programs.items():
            made = 0
            for seed, count in self.batches_of_own_plans:
                checks = checks_of_plans(program, [request.laid_out() for request in some_lists(seed, count)])
                measure_for(self.judge(), self.lengths, checks)
                for place, (request, line) in enumerate(zip(checks, answered(program, [request.sheets for request in checks]))):
                    told = (line, self.judge().judged(request))
                    bench.same("%s, plan %d of its own with seed %d" % (name, place, seed), (line_of(PASSES), PASSES), told)
                made += len(checks)
            bench.often("plans of its own", 5000, {name: made})


def checks_of_plans(program, to_make):
    """A request to check each plan that the program makes."""
    checks = []
    for ((_, kind, limit), header, entries, _), line in zip(to_make, answered(program, to_make)):
        # what changed beside an answer is told behind it, in words
        number, _, cells, *after = (int(word) for word in line.split() if not word.isalpha())
        if number == 0:
            checks.append(request_of([[CHECK, kind, limit], header, entries, after[:cells]]))
    return checks


if __name__ == "__main__":
    if len(sys.argv) < 3:
        sys.exit(__doc__)
    SECOND = [sys.argv[1], TYPES, ROWS]
    PlanCheck({"the library": sys.argv[2:], "the second implementation": [*SECOND, "plans"]}, [*SECOND, "lengths"]).try_all()
