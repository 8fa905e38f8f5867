"""Cases as subtests, and the result that counts them."""

import unittest

from tests.support.tools import LACKING


class Case(unittest.TestCase):
    """A test of many cases, each of which is a subtest by its name."""

    def same(self, name, got, want):
        with self.subTest(name):
            if got != want:
                self.fail(f"\n  expected {shown(want)}\n  got      {shown(got)}")

    def holds(self, name, fact, got=""):
        with self.subTest(name):
            if not fact:
                self.fail(f"it doesn't hold: {shown(got)}")


def shown(value):
    """The value as a text, cut off where it is long."""
    text = repr(value)
    return text if len(text) < 1200 else f"{text[:800]} .. {text[-300:]} ({len(text)} characters)"


class Counts(unittest.TextTestResult):
    """Counts subtests, and the tests that have none."""

    passed = 0
    has_subtests = False

    @property
    def left_out(self):
        """Why tests were skipped, each reason once."""
        return sorted({reason for _, reason in self.skipped} | LACKING)

    @property
    def failed(self):
        return len(self.failures) + len(self.errors) + len(self.unexpectedSuccesses)

    def startTest(self, test):
        super().startTest(test)
        self.has_subtests = False

    def addSubTest(self, test, subtest, err):
        super().addSubTest(test, subtest, err)
        self.has_subtests = True
        self.passed += err is None

    def addSuccess(self, test):
        super().addSuccess(test)
        self.passed += not self.has_subtests
