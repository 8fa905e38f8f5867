"""One swept buffer after another, asked of the library and of the naive checker and reader."""

import functools
import itertools

from tests.support import schemas
from tests.support.naive import Reader, Schema, Walk
from tests.support.paths import names_in, text_of, told, ways
from tests.support.swept import SCHEMAS
from tests.support.told import in_calls, line, texts_of
from tests.support.tree import Builder

PAST_BUDGET = 7


class Beside:
    """A schema in both. What the library tells otherwise than it should is kept in `wrong`."""

    def __init__(self, python, swept):
        rows = SCHEMAS[swept.schema]
        self.python, self.prefixed = python, swept.prefixed
        self.schema = Schema(rows.objects, rows.enums)
        self.root = self.schema.names.index(rows.root)
        self.verifier = python.Verifier(schemas.schema(rows.objects, rows.enums), rows.root)
        names = names_in(rows.objects, rows.enums)
        found, self.wrong = ways(python, self.verifier, self.schema, self.root, names, len(rows.paths))
        self.paths = self.verifier.row([self.verifier.resolve(text_of(path)) for path, _ in found])
        numbers = {tuple(path): number for number, (path, _) in enumerate([([], None), *found])}
        self.ways = [(numbers[tuple(path[:-1])], path[-1]) for path, _ in found]
        self.is_path = functools.cache(lambda text: isinstance(told(python, self.verifier, text), list))

    @functools.cache
    def options(self, ident, limits):
        """The library's options for what the naive checker is asked."""
        asked = dict(limits)
        words = {f"max_{name}": asked[name] for name in ("depth", "tables", "reads") if name in asked}
        return self.python.Options(ident, prefixed=int(self.prefixed), reads_per_byte=2**32 - 1,
                                   no_alignment=int(not asked.get("alignment", True)),
                                   inline_size=int(asked.get("inline_size", False)), **words)

    @functools.cache
    def from_root(self, ident, limits):
        """The same, from this root."""
        return self.verifier.asked(self.options(ident, limits))

    @functools.cache
    def most_reads(self, length, ident, limits):
        """How many reads the library makes at most of any buffer of this length."""
        most = self.verifier.most_reads(length, self.options(ident, limits))
        return min(most, dict(limits).get("reads", 2**64) + PAST_BUDGET)

    def ask(self, data, ident=None, **limits):
        """Asks of one buffer, and answers its verdict."""
        asked = ident, tuple(limits.items())
        options = self.from_root(*asked)
        verdict = self.verifier.verify(data, options)
        walk = Walk(self.schema, self.root, data, **limits)
        pairs = [(line(verdict), walk.verdict(ident, self.prefixed))]
        if verdict.ok:
            counts = self.on_tree(data, ident, limits.get("inline_size", False))
            pairs += [((verdict.tables, verdict.depth, verdict.reads), counts), *self.of_values(data, options)]
        else:
            pairs += self.of_place(data, options, verdict, walk)
        pairs.append((verdict.reads <= self.most_reads(len(data), *asked), True))
        self.wrong += [(got, want, data.hex(), ident, limits) for got, want in pairs if got != want]
        return verdict

    def on_tree(self, data, ident, inline_size):
        """The counts of a good buffer on its tree, which is built whole before."""
        tree = Builder(self.schema, self.root, data, self.prefixed, 2 + inline_size).built()
        tables, depth, reads = tree.counts()
        return tables, depth, reads + 1 + self.prefixed + (ident is not None)

    def of_values(self, data, options):
        """Pairs of the values at the ends of all paths in a good buffer: what the library tells, and what it should.
        There are none where all values are the same."""
        told = texts_of(self.verifier.read_each(data, self.paths, options))
        wanted = [in_calls(text) for text in Reader(self.schema, self.root, data, self.prefixed).values(self.ways)]
        return [] if told == wanted else itertools.zip_longest(told, wanted)

    def of_place(self, data, options, verdict, walk):
        """The same of the place of a fault in words, which is the walk's way, and a path or a dot."""
        again, place = self.verifier.locate(data, options)
        path = place.split(" ")[1]
        return [(again, verdict), (place, walk.place()[1:]), (path == "." or self.is_path(path), True)]
