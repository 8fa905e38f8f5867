"""Ten buffers beside the naive checker and reader: cut off everywhere and with each byte changed to each other value,
under every choice of the checks; within each budget of reads and within small limits; with identifiers.

The library tells the same in every number, the same way to a fault in words, which is a path that resolves, and where
it says yes the same value at the end of every path, and the counts on the tree of tables, built whole. It reads no more
than it tells in advance, nor than 7 past a budget.
"""

import collections
import itertools

from tests.support.beside import Beside
from tests.support.header import Reason
from tests.support.library import LibraryCase, module
from tests.support.many import each
from tests.support.naive import NAMES
from tests.support.random_rows import Random
from tests.support.swept import SCHEMAS, SWEPT

CHECKS = [{"alignment": alignment, "inline_size": inline} for alignment in (True, False) for inline in (False, True)]
PARTS = 4
# Depth and tables, of which one at least is small, and budgets that end in a start, in a head, in a field and between.
SMALL = [*itertools.product(range(4), [1_000_000]), *itertools.product([64], range(4)),
         *itertools.product(range(4), range(4))]
BUDGETS = [None, 0, 1, 2, 3, 5, 8, 12]
# Depth, tables and budgets, of which each ends a walk in another place under each choice of the checks.
MIXED = [(1, 1_000_000, None), (2, 2, None), (3, 6, None), (0, 0, None), (64, 3, 8), (64, 0, 3)]
PYTHON = None


def damaged(data, part):
    """The bytes cut off everywhere, and with each byte changed to each value: of these one in so many places."""
    if part == 0:
        yield from (data[:length] for length in range(len(data) + 1))
    for at in range(part, len(data), PARTS):
        for bits in range(1, 256):
            yield data[:at] + bytes([data[at] ^ bits]) + data[at + 1 :]


def of_damage(task):
    """What is answered of the damaged forms of a buffer, now and then also within a budget of reads."""
    name, checks, part = task
    beside, counts, dice = Beside(PYTHON, SWEPT[name]), collections.Counter(), Random(part)
    for data in damaged(SWEPT[name].data, part):
        verdict = beside.ask(data, **CHECKS[checks])
        counts[verdict.reason] += 1
        if dice.once_in(8):
            counts[beside.ask(data, reads=dice.randrange(verdict.reads + 2), **CHECKS[checks]).reason] += 1
    return len(beside.paths), counts, beside.wrong[:3]


def of_budgets(name):
    """The buffer within each budget up to one read more than it takes: 13 up to there, unless it has a fault before."""
    beside = Beside(PYTHON, SWEPT[name])
    for checks in CHECKS:
        whole = beside.ask(SWEPT[name].data, **checks)
        for reads in range(whole.reads + 2):
            verdict = beside.ask(SWEPT[name].data, reads=reads, **checks)
            if verdict != whole and not (verdict.reason == Reason.TOO_MANY_READS and reads < whole.reads):
                beside.wrong.append((verdict, whole, reads))
            if verdict == whole and whole.ok and reads < whole.reads:
                beside.wrong.append((verdict, "too many reads", reads))
    return beside.wrong[:3]


def within(reads, **limits):
    """These limits, and a budget where there is one."""
    return limits if reads is None else {**limits, "reads": reads}


def cuts(data):
    return [data[:length] for length in range(len(data) + 1)]


def of_limits(name):
    """Every front of the buffer within small limits and budgets. No table may be opened where a limit is 0."""
    beside, yes = Beside(PYTHON, SWEPT[name]), 0
    for (depth, tables), reads, data in itertools.product(SMALL, BUDGETS, cuts(SWEPT[name].data)):
        if beside.ask(data, **within(reads, depth=depth, tables=tables)).ok:
            yes += 1
            if not (depth and tables):
                beside.wrong.append((depth, tables, data))
    return yes, beside.wrong[:3]


def of_mixed(name):
    """Every front of the buffer within limits that are mixed, under every choice of the checks."""
    beside = Beside(PYTHON, SWEPT[name])
    for checks, (depth, tables, reads), data in itertools.product(CHECKS, MIXED, cuts(SWEPT[name].data)):
        beside.ask(data, **within(reads, depth=depth, tables=tables, **checks))
    for checks, reads, data in itertools.product(CHECKS, BUDGETS, cuts(SWEPT[name].data)):
        beside.ask(data, **within(reads, **checks))
        beside.ask(data, b"BFBS", **within(reads, **checks))
    return beside.wrong[:3]


def of_identifiers(name):
    """Every front of the buffer with the identifier that it has, which changes no yes to a no where it may be read, and
    with another."""
    swept, beside = SWEPT[name], Beside(PYTHON, SWEPT[name])
    at = 8 if swept.prefixed else 4
    right = swept.data[at : at + 4]
    wrong = right[:3] + bytes([right[3] ^ 1])
    for checks, reads, data in itertools.product(CHECKS, BUDGETS, cuts(swept.data)):
        whole = beside.ask(data, **within(reads, **checks)).ok
        told = beside.ask(data, right, **within(None if reads is None else reads + 1, **checks)).ok
        if told != whole or beside.ask(data, wrong, **within(reads, **checks)).ok:
            beside.wrong.append((told, whole, data))
    return beside.wrong[:3]


class Sweeps(LibraryCase):
    @classmethod
    def setUpClass(cls):
        global PYTHON
        super().setUpClass()
        PYTHON = module()

    def test_damage(self):
        tasks = list(itertools.product(reversed(SWEPT), range(len(CHECKS)), range(PARTS)))
        told, sums = collections.defaultdict(collections.Counter), collections.Counter()
        for (name, checks, part), (paths, counts, wrong) in zip(tasks, each(of_damage, tasks)):
            self.same(f"{name}, {CHECKS[checks]}, {part}: what is told otherwise, with what should be", wrong, [])
            self.same(f"{name}: how many paths there are", paths, sum(SCHEMAS[SWEPT[name].schema].paths))
            told[name, checks] += counts
            sums += counts
        for (name, checks), counts in told.items():
            some = 0 < counts[0] < counts.total() and counts[Reason.TOO_MANY_READS] >= 20
            self.holds(f"{name}, {CHECKS[checks]}: of each answer some", some, counts)
        self.holds("there are 700,000 buffers", sums.total() >= 700_000, sums)
        self.holds("each reason is there, but for those of limits and of an identifier",
                   set(sums) == {0, *[*Reason][: len(NAMES)]} - {5, 6, 7}, sums)

    def test_every_budget(self):
        for name, wrong in zip(SWEPT, each(of_budgets, SWEPT)):
            self.same(f"{name}: what is told otherwise within a budget, with what should be", wrong, [])

    def test_small_limits(self):
        for name, (yes, wrong) in zip(SWEPT, each(of_limits, SWEPT)):
            self.same(f"{name}: what is told otherwise within small limits, with what should be", wrong, [])

    def test_mixed_limits(self):
        for name, wrong in zip(SWEPT, each(of_mixed, SWEPT)):
            self.same(f"{name}: what is told otherwise within mixed limits, with what should be", wrong, [])

    def test_identifiers(self):
        for name, wrong in zip(SWEPT, each(of_identifiers, SWEPT)):
            self.same(f"{name}: what is told otherwise of an identifier, with what should be", wrong, [])
