"""Schema files that are cut off everywhere and with bytes changed, loaded by the library and by the naive ones.

What is refused is refused for the same reason: a fault by the naive checker, within each budget of reads too, a demand
that the rows break which the naive reader finds there, or a root that isn't listed. Of what is loaded, root, identifier
and every look-up answer by these rows.
"""

import collections
import itertools

from tests.support import schemas
from tests.support.every_kind import variants
from tests.support.file_rows import REFLECTION, ROOT, FileReader
from tests.support.judge import first_broken
from tests.support.library import LibraryCase, module
from tests.support.look_ups import look_ups
from tests.support.many import each
from tests.support.naive import Walk, number_at
from tests.support.program import built
from tests.support.told import line

# A file of one table, of which each byte is changed to each value, and one with a struct, a union and an identifier, of
# which each byte is changed by these steps.
FILES = {
    "one table": (schemas.M, range(1, 256)),
    "structs and unions": (
        schemas.schema(schemas.X_OBJECTS, [schemas.X_UNION], root="Q", ident="NAME"), [1, 2, 16, 252]
    ),
}
PARTS = 8
IDENT_OWN = 2
PYTHON = PROBE = None


def loaded(file, reads):
    """What the library answers of a file: a schema that it loads, or the verdict of its error."""
    options = PYTHON.Options(reads_per_byte=2**32 - 1, max_reads=reads)
    try:
        return PYTHON.Verifier(file, None, options)
    except PYTHON.Error as error:
        return error.verdict


def expected(file, reads):
    """What the naive ones say: a status, and what is told with it; of what is loaded the row of the table Schema."""
    verdict = Walk(REFLECTION, ROOT, file, reads=reads).verdict(b"BFBS", prefix=False)
    if verdict.startswith("bad"):
        return PYTHON.Status.NOT_WELL_FORMED, verdict
    row = FileReader(file).rows()
    broken = first_broken(row[0], row[1])
    if broken:
        return PYTHON.Status.BAD_SCHEMA, broken
    if 4 in row and row[4][0] not in tables_of(row):
        return PYTHON.Status.ROOT_NOT_LISTED, None
    return PYTHON.Status.OK, row


def tables_of(row):
    """The numbers of the tables by their names."""
    return {owner[0]: number for number, owner in enumerate(row[0]) if not number_at(owner, 2)}


def told(verdict):
    """The same of what the library answers."""
    if isinstance(verdict, PYTHON.Verifier):
        return PYTHON.Status.OK, None
    if verdict.status == PYTHON.Status.NOT_WELL_FORMED:
        return verdict.status, line(verdict)
    found = verdict.reason, verdict.object, verdict.field
    return verdict.status, found if verdict.status == PYTHON.Status.BAD_SCHEMA else None


def answer(verifier, buffer, **options):
    """The status of a check, with the reason and the object of a fault."""
    try:
        verdict = verifier.verify(buffer, PYTHON.Options(**options))
    except PYTHON.Error as error:
        verdict = error.verdict
    return verdict.status, verdict.reason, verdict.object


def of_the_file(verifier, row):
    """Pairs of what the library tells of the root and of the identifier, and what it should."""
    root = tables_of(row)[row[4][0]] if 4 in row else None
    bad, no_root = PYTHON.Status.BAD, PYTHON.Status.NO_ROOT
    yield answer(verifier, b""), (no_root, 0, 0) if root is None else (bad, PYTHON.Reason.OUT_OF_BUFFER, root)
    ident = row.get(2, "").encode(errors="surrogateescape")
    if root is None:
        return
    for text in ident, ident[:3] + b"?":
        told = answer(verifier, bytes(4) + text, ident_from=IDENT_OWN)
        reason = PYTHON.Reason.ZERO_OFFSET if text == ident or not ident else PYTHON.Reason.WRONG_IDENTIFIER
        yield told, (bad, reason, root) if len(ident) in (0, 4) else (PYTHON.Status.NO_IDENT, 0, 0)


class Loads:
    """Files one after another. What is told otherwise than it should be is kept in `wrong`."""

    def __init__(self):
        self.counts, self.wrong, self.seen = collections.Counter(), [], set()

    def ask(self, file, reads=10**8):
        """Loads a file. Rows that were there before aren't looked up again."""
        got, (status, what) = loaded(file, reads), expected(file, reads)
        self.counts[status.name] += 1
        if not isinstance(got, PYTHON.Verifier) or status != PYTHON.Status.OK:
            self.wrong += [] if told(got) == (status, what) else [(told(got), status, what, file.hex())]
            return
        self.wrong += [(*pair, file.hex()) for pair in of_the_file(got, what) if pair[0] != pair[1]]
        if repr(what) not in self.seen:
            self.seen.add(repr(what))
            self.wrong += look_ups(PYTHON, PROBE, got, file, what)[0]
        got.close()


def of_part(task):
    """One in so many of the damaged forms of a file."""
    name, part = task
    loads = Loads()
    for file in itertools.islice(variants(*FILES[name]), part, None, PARTS):
        loads.ask(file)
    return loads.counts, len(loads.seen), loads.wrong[:3]


def of_budgets(name):
    """A file within each budget of reads up to what it costs."""
    loads, file = Loads(), FILES[name][0]
    cost = int(Walk(REFLECTION, ROOT, file).verdict(b"BFBS", prefix=False).rpartition("=")[2])
    for reads in range(cost + 1):
        loads.ask(file, reads)
    return loads.counts, cost, loads.wrong[:3]


class DamagedSchemaFiles(LibraryCase):
    @classmethod
    def setUpClass(cls):
        global PYTHON, PROBE
        super().setUpClass()
        PYTHON, PROBE = module(), built("test_probe")

    def test_damage(self):
        tasks = [(name, part) for name in FILES for part in range(PARTS)]
        counts, schemas_seen = collections.Counter(), 0
        for (name, part), (counted, seen, wrong) in zip(tasks, each(of_part, tasks)):
            counts, schemas_seen = counts + counted, schemas_seen + seen
            self.same(f"{name}, {part}: what is told otherwise, with what should be", wrong, [])
        self.holds("there are 55,000 files", counts.total() >= 55_000, counts)
        self.holds("of each answer many", set(counts) == {"OK", "NOT_WELL_FORMED", "BAD_SCHEMA", "ROOT_NOT_LISTED"}
                   and min(counts.values()) >= 20, counts)
        self.holds("there are many schemas", schemas_seen >= 5_000, schemas_seen)

    def test_every_budget(self):
        for name, (counts, cost, wrong) in zip(FILES, each(of_budgets, FILES)):
            self.same(f"{name}: what is told otherwise within a budget, with what should be", wrong, [])
            self.same(f"{name}: it takes all its reads", dict(counts), {"NOT_WELL_FORMED": cost, "OK": 1})
