"""Counts checks, and ends a test with the line 'NAME: N passed, M failed'."""

import sys


class Checks:
    def __init__(self, name):
        self.name, self.passed, self.failed = name, 0, 0

    def same(self, label, got, wanted):
        """One check: got is what was wanted."""
        if got == wanted:
            self.passed += 1
        else:
            self.failed += 1
            print("%s: got %r, not %r" % (label, got, wanted))

    def holds(self, label, truth, said=""):
        if truth:
            self.passed += 1
        else:
            self.failed += 1
            print("%s FAILED: %s" % (label, said))

    def end(self):
        print("%s: %d passed, %d failed" % (self.name, self.passed, self.failed))
        sys.exit(self.failed != 0)
