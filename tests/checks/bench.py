"""Counts what is as it should be, and prints the first things that are not."""

import sys


class Bench:
    def __init__(self):
        self.passed = self.failed = 0

    def same(self, what, wanted, given):
        if wanted == given:
            self.passed += 1
            return
        self.failed += 1
        if self.failed <= 20:
            print("%s: wanted %s, given %s" % (what, wanted, given))

    def lines(self, what, wanted, given):
        """Line by line: one that is too many or lacks fails too."""
        for place in range(max(len(wanted), len(given))):
            self.same("%s, line %d" % (what, place), wanted[place:place + 1], given[place:place + 1])

    def often(self, what, least, counts):
        """Each thing that was counted has to have come so often."""
        for name, count in counts.items():
            self.same("%s: %s often enough" % (what, name), True, count >= least)
        print("%s: %s" % (what, ", ".join("%s: %d" % pair for pair in counts.items())))

    def end(self):
        """The last line, and with a failure the exit status."""
        print("%d passed, %d failed" % (self.passed, self.failed))
        if self.failed:
            sys.exit(1)
