"""Every path of one, two or three pieces over the names of some schemas, resolved by the library and by the rows alone.

A path that resolves is the same steps, and one that doesn't is refused for the same reason at the same step.
"""

import itertools

from tests.support import schemas
from tests.support.library import LibraryCase, module
from tests.support.many import each
from tests.support.naive import Schema
from tests.support.paths import names_in, pieces_of, resolved, text_of, told
from tests.support.swept import SCHEMAS


def of_length(task):
    """All paths of so many pieces by one schema: how many there are, how many resolve, and what is told otherwise."""
    python, (name, length) = module(), task
    made = SCHEMAS[name]
    rows, names = Schema(made.objects, made.enums), names_in(made.objects, made.enums)
    pieces, asked, found, wrong = pieces_of(names), 0, 0, []
    with python.Verifier(schemas.schema(made.objects, made.enums, root=made.root)) as verifier:
        for path in itertools.product(pieces[: len(names)], *[pieces] * (length - 1)):
            text, want = text_of(path), resolved(rows, rows.names.index(made.root), path)
            got = told(python, verifier, text)
            wrong += [] if got == want else [(text, got, want)]
            asked, found = asked + 1, found + isinstance(want, list)
    return asked, found, wrong[:3]


class Paths(LibraryCase):
    def test_short_paths(self):
        tasks = [(name, length) for name in SCHEMAS for length in (3, 2, 1)]
        paths = 0
        for (name, length), (asked, found, wrong) in zip(tasks, each(of_length, tasks)):
            paths += asked
            self.same(f"{name}, {length} steps: what is told otherwise, with what should be", wrong, [])
            self.same(f"{name}, {length} steps: how many resolve", found, SCHEMAS[name].paths[length - 1])
        self.holds("there are 200,000 paths", paths > 200_000, paths)
