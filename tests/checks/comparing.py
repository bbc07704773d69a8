"""Holds a check of the library to a judge: by cases that were worked out by hand, by cases by chance, and by which misreadings they would show.

A case is one sheet or more, and its answer a few numbers. Programs answer cases: of each case they are given the sheets, each behind the count
of its cells, 4 bytes for a count and 8 for a cell, low byte first; and they print a line with the answer's numbers.
"""

import array
import subprocess
import sys

from bench import Bench
from sheets import sheet_of


def bytes_of(cells):
    return len(cells).to_bytes(4, "little") + array.array("q", cells).tobytes()


def answered(program, cases):
    """A program's lines for cases."""
    data = b"".join(bytes_of(sheet) for sheets in cases for sheet in sheets)
    lines = subprocess.run(program, input=data, stdout=subprocess.PIPE, check=True).stdout.decode("ascii").split("\n")
    if len(lines) != len(cases) + 1 or lines[-1]:
        sys.exit("%d lines for %d cases" % (len(lines) - 1, len(cases)))
    return lines[:-1]


def line_of(answer):
    return " ".join(str(number) for number in answer)


class Check:
    """A check, and what it is held to. Each folder of tests has a class of its own below this one, which fills what is empty here.

    programs: each by its name, with the command. judge: a class whose method judged() answers for what the sheets of a case were taken as.
    misreadings: judges of which each reads one sentence otherwise. groups: functions that give cases by hand, each a name, the messages,
    which are frames or the cells of sheets, and the answer. batches: seeds and counts of cases by chance; the first so many are tried on the
    misreadings too, which takes longer than all else. for_a_number and so on: so often each has to come by chance.
    """

    # what the cases are called, and one of them
    cases, case = "cases", "case"
    judge, misreadings, groups = None, (), ()
    numbers = ()
    batches, batches_misread = (), 0
    for_a_number, for_an_occasion, for_a_misreading = 1000, 100, 10

    def __init__(self, programs):
        self.programs = programs

    def taken(self, cells):
        """What a sheet is for the judge."""
        raise NotImplementedError

    def all_taken(self, sheets):
        """What the sheets of a case are for the judge: each by itself, if nothing else is said."""
        return [self.taken(cells) for cells in sheets]

    def make_ready(self, cases):
        """Is told what cases were taken as before the judge is asked about them, for judges that have to learn something of many at once."""

    def some_cases(self, seed, count):
        """Cases by chance: of each the sheets, and the frames that they were made of, None for a sheet that was spoiled."""
        raise NotImplementedError

    def number_of(self, answer):
        """The name by which an answer is counted, one of numbers."""
        return str(answer[0])

    def occasions_of(self, sheets, frames, answer):
        """What there is to be seen in a case, each with whether it is seen in this one."""
        raise NotImplementedError

    def try_all(self):
        bench = Bench()
        self.try_by_hand(bench)
        self.try_by_chance(bench)
        bench.end()

    def try_by_hand(self, bench):
        cases = [case for group in self.groups for case in group()]
        sheets = [[one if isinstance(one, list) else sheet_of(one) for one in messages] for _, *messages, _ in cases]
        lines, seen = {name: answered(program, sheets) for name, program in self.programs.items()}, Seen(self)
        all_frames = [self.all_taken(own) for own in sheets]
        self.make_ready(all_frames)
        for place, ((name, *messages, answer), own, frames) in enumerate(zip(cases, sheets, all_frames)):
            for message, frame in zip(messages, frames):
                # what was built is a value of its type, and comes back from its sheet
                bench.same("the sheets, " + name, isinstance(message, list) or message == frame, True)
            bench.same("the judge, " + name, answer, self.judge().judged(*frames))
            for program in self.programs:
                bench.same("%s, %s" % (program, name), line_of(answer), lines[program][place])
            seen.see(own, frames, answer)
        print("%s by hand: %d" % (self.cases, len(cases)))
        bench.often("numbers by hand", 1, seen.numbers)
        bench.often("misreadings that %s by hand show" % self.cases, 1, seen.misreadings)

    def try_by_chance(self, bench):
        seen = Seen(self)
        for batch, (seed, count) in enumerate(self.batches):
            made = list(self.some_cases(seed, count))
            told = [answered(program, [sheets for sheets, _ in made]) for program in self.programs.values()]
            all_back = [self.all_taken(sheets) for sheets, _ in made]
            self.make_ready(all_back)
            for place, ((sheets, frames), back, *lines) in enumerate(zip(made, all_back, *told)):
                # a sheet that was not spoiled is the frame that it was made of
                whole = all(frame is None or frame == one for frame, one in zip(frames, back))
                answer = self.judge().judged(*back)
                bench.same("%s %d with seed %d" % (self.case, place, seed), ([line_of(answer)] * len(told), True), (lines, whole))
                seen.see(sheets, back, answer, batch < self.batches_misread)
        print("%s by chance: %d" % (self.cases, sum(count for _, count in self.batches)))
        bench.often("numbers by chance", self.for_a_number, seen.numbers)
        bench.often("occasions by chance", self.for_an_occasion, seen.occasions)
        bench.often("misreadings that %s by chance show" % self.cases, self.for_a_misreading, seen.misreadings)


class Seen:
    """How often each number, occasion and misreading of a check came."""

    def __init__(self, check):
        self.check, self.numbers = check, {name: 0 for name in check.numbers}
        self.occasions, self.misreadings = {}, {one.__name__: 0 for one in check.misreadings}

    def see(self, sheets, frames, answer, misread=True):
        self.numbers[self.check.number_of(answer)] += 1
        for occasion, here in self.check.occasions_of(sheets, frames, answer).items():
            self.occasions[occasion] = self.occasions.get(occasion, 0) + bool(here)
        for one in self.check.misreadings if misread else []:
            self.misreadings[one.__name__] += one().judged(*frames) != answer
