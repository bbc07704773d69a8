"""What the rules program has to print for frames one behind the other: a judge that the tests hold it against.

A frame is judged by its kind: an RSI by the sending rules of document 01, an RSM by its sending profile (document 02, A1), for which the judge of
tests/participants is asked, a SPAT against the last MAP before it (document 02, A7), for which that of tests/signals is. Of a BSM nothing is said.
Frames are trees, as in tests/cases/generate.py, and what is judged is the names of their components. None of the project's code is called.
"""

import os
import sys

HERE = os.path.dirname(os.path.abspath(__file__))
sys.path[:0] = [os.path.join(HERE, "..", folder) for folder in ("cases", "checks", "participants", "signals")]
# nothing is left behind in these folders
sys.dont_write_bytecode = True
import model
import rsm_judge
from sheets import name_of

PASSES = "passes"
NO_RULE = "no rule for BSM"
NO_MAP = "no map yet"
LINES_OF_PARTICIPANTS = {0: PASSES, 23: "23 participant %d repeats an earlier ptcId", 24: "24 no participant has ptcId 0",
                         30: "30 participant %d has no vehicleClass"}
LINES_OF_SIGNALS = {0: PASSES, 51: "51 entry %d repeats an earlier one", 52: "52 node %d uses phase %d, which is not listed"}


def event_fault(event):
    if "eventPos" not in event:
        return "12 event %d has no eventPos"
    if not {"eventRadius", "referencePaths", "referenceLinks"} & set(event):
        return "13 event %d has none of eventRadius, referencePaths, referenceLinks"
    return None


def sign_fault(sign):
    if "signPos" not in sign:
        return "14 sign %d has no signPos"
    if "description" not in sign:
        return "15 sign %d has no description"
    if not {"referencePaths", "referenceLinks"} & set(sign):
        return "16 sign %d has neither referencePaths nor referenceLinks"
    return None


def filled(line, *numbers):
    """A line with as many of the numbers as it tells."""
    return line % numbers[:line.count("%d")]


def profile_line(number, place):
    """The line for an RSM, by the answer of the judge of tests/participants: its places are counted from 0, and 24 has none."""
    return filled(LINES_OF_PARTICIPANTS[number], place)


def verdict_line(number, place, phase):
    """The line for a signal message, by the answer of the judge of tests/signals: its places are counted from 0, and only 52 has a phase."""
    return filled(LINES_OF_SIGNALS[number], place, phase)


class Stream:
    """Gives line after line. Each sentence is a method of its own, so that misread.py can read one of them otherwise."""

    participants, signals = rsm_judge.Judge(), model.Judge()

    def __init__(self):
        self.map = None
        self.lines = []

    def of_information(self, frame):
        for entries, fault in ((frame[1].get("rtes", []), event_fault), (frame[1].get("rtss", []), sign_fault)):
            for number, entry in enumerate(entries):
                if fault(entry):
                    return fault(entry) % number
        return PASSES

    def keep(self, frame):
        """The map is in force from now on, in place of an earlier one."""
        self.map = frame

    def of_map(self, frame):
        self.keep(frame)
        return "map of %d nodes" % len(frame[1]["nodes"])

    def without_map(self, frame):
        """A signal message before any map was read."""
        return NO_MAP

    def of_signal(self, frame):
        return self.without_map(frame) if self.map is None else verdict_line(*self.signals.judged(frame, self.map))

    def of_rsm(self, frame):
        return profile_line(*self.participants.judged(frame))

    def of_bsm(self, frame):
        return NO_RULE

    def of_refused(self, refusal, meant):
        """A frame that can't be read; meant: what it was before it was spoiled, if that is known. The map in force stays."""
        return refusal

    def of_frame(self, frame):
        by_kind = {"bsmFrame": self.of_bsm, "mapFrame": self.of_map, "rsmFrame": self.of_rsm, "spatFrame": self.of_signal,
                   "rsiFrame": self.of_information}
        return by_kind[name_of(frame)](frame)

    def add(self, value, meant=None):
        """Takes the next frame, as a tree, or its refusal, as the line that it gives."""
        line = self.of_refused(value, meant) if isinstance(value, str) else self.of_frame(value)
        self.lines.append(line)
        return line

    def counts(self, line):
        """Whether a line is one of those that pass."""
        return line == PASSES

    def last(self):
        """Behind the lines of the records: how many there are, and how many pass."""
        return "%d records, %d pass" % (len(self.lines), sum(self.counts(line) for line in self.lines))


def lines_of(values, reading=Stream, meant=None):
    """The lines for frames one behind the other, and the last line, in this reading."""
    stream = reading()
    for place, value in enumerate(values):
        stream.add(value, meant[place] if meant else None)
    return stream.lines + [stream.last()]
