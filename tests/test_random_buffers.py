"""Buffers at random of schemas at random, some of them damaged, beside the naive checker and reader.

The library is asked of each buffer by itself, within limits and with checks of its own: the same verdict in every
number, and no more reads than it tells in advance, nor than 7 past a budget. Where it says yes, the values at the ends
of some paths are the same. The program is asked of all buffers of a schema under a few options: the same lines, with
the way to each fault in words, which is a path that resolves, if it has no more steps than the library's paths have.
"""

import collections
import re

from tests.support import schemas
from tests.support.builder import prefixed
from tests.support.every_kind import words_of
from tests.support.library import LibraryCase, module
from tests.support.many import each
from tests.support.naive import NAMES, Reader, Schema, Walk
from tests.support.paths import names_in, text_of, told, ways
from tests.support.program import folder_of, run
from tests.support.random_buffers import Builder, damaged
from tests.support.random_rows import Maker, Random
from tests.support.told import line
from tests.support.told import in_calls, text_of as value_text

FOLDER = folder_of(__name__)
SEEDS, SCHEMAS, BUFFERS = range(100, 140), 53, 100
CODES = [*NAMES]
PYTHON = None


class Made:
    """A schema at random with a table to begin at, and its paths of up to three steps."""

    def __init__(self, dice, name):
        tables = []
        while not tables:
            objects, enums = Maker(dice, 0).rows()
            self.schema = Schema(objects, enums)
            tables = [number for number, fields in enumerate(self.schema.tables) if fields is not None]
        self.root = dice.choice(tables)
        self.file = FOLDER / name
        self.file.write_bytes(schemas.schema(objects, enums))
        self.verifier = PYTHON.Verifier(self.file.read_bytes(), self.schema.names[self.root])
        self.prefixed = dice.once_in(3)
        names = names_in(objects, enums)
        self.ways, self.wrong = ways(PYTHON, self.verifier, self.schema, self.root, names, 3)


def choice(dice, length):
    """Limits, checks and a budget: as words for the library and for the naive checker, by a buffer of this length."""
    small, per_byte = dice.once_in(4), dice.choice([64, 64, 64, 0, 1, 2])
    depth, tables = (dice.randrange(5), dice.randrange(8)) if small else (64, 100_000)
    most = dice.randrange(64) if dice.once_in(4) else 10**8
    alignment, inline_size = dice.once_in(2), dice.once_in(2)
    by_library = {"max_depth": depth, "max_tables": tables, "max_reads": most, "reads_per_byte": per_byte,
                  "no_alignment": int(not alignment), "inline_size": int(inline_size)}
    reads = min(most, per_byte * (length + 64))
    return by_library, {"depth": depth, "tables": tables, "reads": reads, "alignment": alignment,
                        "inline_size": inline_size}


def asked(dice, made, data, ident, counts):
    """One buffer, which was made with this identifier: what the library tells otherwise than it should."""
    prefix = made.prefixed != dice.once_in(30)
    wanted = dice.choice([b"NONE", ident, ident, *[None] * 5])
    by_library, by_naive = choice(dice, len(data))
    options = PYTHON.Options(wanted, prefixed=int(prefix), **by_library)
    verdict = made.verifier.verify(data, options)
    got, want = line(verdict), Walk(made.schema, made.root, data, **by_naive).verdict(wanted, prefix)
    counts[want.split()[1] if want.startswith("bad") else "yes"] += 1
    if got != want:
        yield got, want, data, by_naive
    if verdict.reads > made.verifier.most_reads(len(data), options) or verdict.reads > by_naive["reads"] + 7:
        yield "too many reads", got, data, by_naive
    if verdict.ok:
        reader, first = Reader(made.schema, made.root, data, prefix), dice.randrange(len(made.ways) + 1)
        for path, _ in made.ways[first : first + dice.randrange(16)]:
            counts["values"] += 1
            text = text_of(path)
            value = value_text(*made.verifier.read(data, made.verifier.resolve(text), options))
            if value != in_calls(reader.value(text)):
                yield text, value, reader.value(text), data


def option_choices(dice):
    """Options of the program: few of them, each for all buffers of a schema."""
    small = {"depth": dice.randrange(4), "tables": dice.randrange(1, 8)}
    return [{"tables": 1000}, {**small, "alignment": False}, {"reads": dice.randrange(64), "inline_size": True}]


def placed(dice, made, stream, counts):
    """Bare buffers as one stream for the program, with places in words: what is told otherwise than it should be."""
    for options in option_choices(dice):
        words = ["--root", made.schema.names[made.root], "--names", *words_of(options)]
        ran = run("--schema", made.file, *words, given=b"".join(map(prefixed, stream)))
        got = [text.partition(" ")[2] for text in ran.out.decode().splitlines()]
        walks = [Walk(made.schema, made.root, prefixed(data), **options) for data in stream]
        wants = [walk.verdict() for walk in walks]
        wants = [want + (walk.place() if want.startswith("bad") else "") for walk, want in zip(walks, wants)]
        yield from [pair for pair in zip(got, wants) if pair[0] != pair[1]]
        if len(got) != len(wants):
            yield len(got), len(wants), ran.err
        paths = set(re.findall(r" in (\S+) ", "\n".join(wants))) - {"."}
        counts.update(places=sum(want.startswith("bad") for want in wants), paths=len(paths))
        short = [path for path in paths if len(re.findall(r"[.@[]", path)) < PYTHON.STEPS]
        yield from [path for path in short if not isinstance(told(PYTHON, made.verifier, path), list)]


def of_seed(seed):
    """Some schemas from this seed on, and buffers of each."""
    dice, counts, wrong = Random(seed), collections.Counter(), []
    for _ in range(SCHEMAS):
        made = Made(dice, f"{seed}.bfbs")
        wrong += made.wrong
        stream = []
        for _ in range(BUFFERS):
            ident = b"NAME" if dice.once_in(2) else None
            data = damaged(dice, Builder(dice, made.schema).built(made.root, made.prefixed, ident))
            wrong += asked(dice, made, data, ident, counts)
            stream.append(data[4:] if made.prefixed else data)
        wrong += placed(dice, made, stream, counts)
        made.verifier.close()
    return counts, wrong[:3]


class RandomBuffers(LibraryCase):
    def test_random_buffers(self):
        global PYTHON
        PYTHON = module()
        counts = collections.Counter()
        for seed, (counted, wrong) in zip(SEEDS, each(of_seed, SEEDS)):
            counts += counted
            self.same(f"buffers from seed {seed} on: what is told otherwise, with what should be", wrong, [])
        asked = counts["yes"] + sum(counts[code] for code in CODES)
        self.holds("there are 210,000 buffers", asked >= 210_000, counts)
        self.holds("many are good", counts["yes"] >= 10_000 and counts["values"] >= 10_000, counts)
        self.holds("many have a place", counts["places"] >= 200_000 and counts["paths"] >= 4_000, counts)
        for code in CODES:
            self.holds(f"many are refused by {code}", counts[code] >= 80, counts)
