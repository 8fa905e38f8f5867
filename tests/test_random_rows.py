"""Schemas at random, judged by the library and by a judge that only follows the demands.

A schema that is refused is refused for the same demand at the same place. Of one that is loaded, every look-up answers
as a plain walk over its rows does: by `test_probe list`, by the names that the library tells, by each path of up to two
steps from each table, and by the most reads of a check.
"""

import collections

from tests.support import schemas
from tests.support.judge import first_broken
from tests.support.library import LibraryCase, module
from tests.support.look_ups import look_ups
from tests.support.many import each
from tests.support.program import built
from tests.support.random_rows import Maker, Random

SEEDS, SCHEMAS = range(40), 500
BAD_SCHEMA = 9
PYTHON = None


def told_fault(file):
    """The demand that the library says is broken, its owner and part; the loaded schema where it loads."""
    try:
        return PYTHON.Verifier(file)
    except PYTHON.Error as error:
        told = error.verdict
        return (told.reason, told.object, told.field) if told.status == BAD_SCHEMA else error


def of_seed(seed):
    """Some schemas from this seed on; two in five have nothing wrong on purpose."""
    dice, probe = Random(seed), built("test_probe")
    counts, wrong = collections.Counter(), []
    for _ in range(SCHEMAS):
        objects, enums = Maker(dice, dice.choice([0, 0, 12, 20, 40])).rows()
        file, want = schemas.schema(objects, enums), first_broken(objects, enums)
        got = told_fault(file)
        if isinstance(got, PYTHON.Verifier):
            differing, paths = look_ups(PYTHON, probe, got, file, {0: objects, 1: enums})
            wrong += differing + ([("loaded", want, objects, enums)] if want else [])
            counts.update(legal=1, paths=paths)
            got.close()
        else:
            wrong += [(got, want, objects, enums)] if got != want else []
            counts.update([f"C{got[0]}" if isinstance(got, tuple) else "another answer"])
    return counts, wrong[:3]


class RandomRows(LibraryCase):
    @classmethod
    def setUpClass(cls):
        super().setUpClass()
        built("test_probe")

    def test_random_rows(self):
        global PYTHON
        PYTHON = module()
        counts = collections.Counter()
        for seed, (counted, wrong) in zip(SEEDS, each(of_seed, SEEDS)):
            counts += counted
            self.same(f"schemas from seed {seed} on: what is told otherwise, with what should be", wrong, [])
        codes = [f"C{number}" for number in range(1, 9)]
        rows = sum(counts[name] for name in ["legal", *codes])
        self.holds("there are 20,000 schemas", rows >= 20_000, counts)
        self.holds("of which many are legal", counts["legal"] >= 4_000 and counts["paths"] >= 100_000, counts)
        for code in codes:
            self.holds(f"many break {code}", counts[code] >= 200, counts)
