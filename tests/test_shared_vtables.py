"""Rows of tables that share a vtable, beside the naive checker, which reads each whole.

Such a table is passed by its first word, where it can't differ from the one before: it stands below, is aligned alike,
and has small fields alone. A line is the same as if all of it were read, in every number.

A case is a line of a table: what it shows, its buffer, and the verdict by the published checks: yes, or the reason and
the position. Each is asked under every choice of checks; cases of some schemas also within each budget of reads and
within small limits, and some buffers cut off everywhere and with each byte changed.
"""

import itertools
import struct

from tests.support import schemas
from tests.support.builder import prefixed
from tests.support.case_text import bytes_of, rows_of
from tests.support.cases import Case
from tests.support.every_kind import words_of
from tests.support.naive import Schema, Walk
from tests.support.program import file_of, run
from tests.support.random_rows import Random

# - `ROW`: the root at 12 has a vector at 24, whose words at 28, 32 and 36 lead down to tables at 104, 80 and 56. All
#   have the vtable at 40, of slots at 44, 46, 48 and 50: 8 bytes at 8, 4 at 4, 2 at 16 and 1 at 18
# - `VTABLE`: the same vtable again; at 128 behind `ROW`, to which the second comes by `80=d0ffffff`
# - `WIDE`: a vtable of 33 slots, all for place 4
# - `AROUND`: a table of a table, which is that of the row behind it, and of a vector, which is its vector
# - `TWICE`: a table of a vector of two tables, both that of the row behind it
SAMPLES = {
    "VTABLE": "0c001800 08000400 10001200",
    "ITEM": "01000000 0200000000000000 03000400 00000000",
    "ROW": "0c000000 08000c00 04000000 08000000 08000000 00000000 03000000 4c000000 30000000 14000000 VTABLE 00000000"
    " 10000000 ITEM 28000000 ITEM 40000000 ITEM",
    "WIDE": f"46001800 {'0400' * 33}",
    "AROUND": "0c000000 08000c00 04000800 08000000 14000000 1c000000",
    "TWICE": "0c000000 06000800 04000000 08000000 04000000 02000000 14000000 10000000",
}

ROOT = "Root table: rows@4 [obj]#1, more@6 [obj]#1"
ITEM = "Item table: a@4 long, b@6 int, c@8 short, d@10 byte"
ITEMS = f"{ROOT}; {ITEM}"
AROUND = f"Top table: inner@4 obj#1, after@6 [obj]#2; Root table: rows@4 [obj]#2, more@6 [obj]#2; {ITEM}"
TWICE = f"Top table: each@4 [obj]#1; Root table: rows@4 [obj]#2, more@6 [obj]#2; {ITEM}"


def bytes_in(count):
    """The rows where the tables have so many fields of a byte."""
    return f"{ROOT}; Item table: {', '.join(f'f{number}@{4 + 2 * number} ubyte' for number in range(count))}"


OF_WIDE = """
    all slots lead to one byte                     | ROW WIDE 104=e8ffffff 80=d0ffffff 56=b8ffffff          | yes
    by another vtable the 32nd field is far behind | \
        ROW WIDE WIDE 104=e8ffffff 80=8affffff 56=b8ffffff 264=ff00 | V2 335
"""

# What a case shows, its buffer, and the verdict, by rows.
JUDGED = [
    (ITEMS, """
        each stands below the one before               | ROW                                             | yes
        each stands above it                           | ROW 28=1c 36=44                                 | yes
        one table three times                          | ROW 32=48 36=44                                 | yes
        the last above the others, up to its last byte | ROW 28=34 32=18 36=44 ..123                     | yes
        it ends before its byte                        | ROW 28=34 32=18 36=44 ..122                     | V2 122
        it ends in its short                           | ROW 28=34 32=18 36=44 ..121                     | V2 120
        it ends in its long                            | ROW 28=34 32=18 36=44 ..116                     | V2 112
        it ends in its first word                      | ROW 28=34 32=18 36=44 ..106                     | V2 104
        the second above the first ends in its long    | ROW 28=34 32=48 ..116                           | V2 112
        one                                            | ROW 24=01                                       | yes
        none                                           | ROW 24=00                                       | yes
        more than the buffer holds                     | ROW 24=ff                                       | V2 28
        the long is absent                             | ROW 44=0000                                     | yes
        all fields are absent                          | ROW 44=0000000000000000                         | yes
        the vtable ends before its slots               | ROW 40=04                                       | yes
        it ends between slots                          | ROW 40=08                                       | yes
        the second 4 lower, so its long is misaligned  | ROW 32=2c 76=24                                 | V3 84
        the third is                                   | ROW 36=10 52=0c                                 | V3 60
        the second 4 lower, and no long                | ROW 32=2c 76=24 44=0000                         | yes
        all are 4 higher, and no long                  | ROW 28=50 108=44 32=34 84=2c 36=18 60=14 44=0000 | yes
        all are 4 higher                               | ROW 28=50 108=44 32=34 84=2c 36=18 60=14        | V3 116
        the second 2 lower                             | ROW 32=2e 78=26000000                           | V3 78
        a vtable of the same bytes                     | ROW VTABLE 80=d0ffffff                          | yes
        the vtable above all tables                    | ROW VTABLE 104=e8ffffff 80=d0ffffff 56=b8ffffff | yes
        another vtable has a slot far behind           | ROW VTABLE 80=d0ffffff 132=6400                 | V2 180
        another misaligns the long                     | ROW VTABLE 80=d0ffffff 132=0c                   | V3 92
        another has no long                            | ROW VTABLE 80=d0ffffff 132=00                   | yes
        another is of 11 bytes                         | ROW VTABLE 80=d0ffffff 128=0b                   | V8 128
        another is of 2 bytes                          | ROW VTABLE 80=d0ffffff 128=02                   | V8 128
        another ends past the buffer                   | ROW VTABLE 80=d0ffffff 128=0e                   | V2 128
        the third by another vtable alone              | ROW VTABLE 56=b8ffffff 132=6400                 | V2 156
        the first by another vtable alone              | ROW VTABLE 104=e8ffffff 132=6400                | V2 204
        the third by the vtable of the second          | ROW VTABLE 80=d0ffffff 56=b8ffffff 132=20       | yes
        an inline size that ends in the short          | ROW 42=11                                       | yes
        that of the second alone does                  | ROW VTABLE 80=d0ffffff 130=11                   | yes
        an inline size that ends behind the byte       | ROW 42=13                                       | yes
        a vtable at the start of the buffer            | ROW 80=50                                       | yes
        a vtable at an odd place                       | ROW 80=27                                       | V3 41
        a vtable before the buffer                     | ROW 80=54                                       | V2 80
        far before it                                  | ROW 80=ffffff7f                                 | V2 80
        past the end                                   | ROW 80=00000080                                 | V2 80
        of which the last byte is there                | ROW 80=d1ffffff                                 | V2 80
        in the last two bytes                          | ROW 80=d2ffffff                                 | V8 126
        the table is its own vtable                    | ROW 80=00                                       | V8 80
        a first word that is cut off                   | ROW 36=5c 0000                                  | V2 128
        that of the first table                        | ROW 28=64 0000                                  | V2 128
        a table at the end of the buffer               | ROW 36=5c                                       | V2 128
        a table far past it                            | ROW 36=ffffffff                                 | V2 4294967331
        an offset of 0                                 | ROW 32=00                                       | V4 32
        two tables in the vtable that they share       | ROW 28=50 108=44 32=0c 36=08 44=04000000        | yes
        a table in the vtable, without its place there | ROW 32=10                                       | V2 48
        two vectors that are one                       | ROW 10=08 20=04                                 | yes
        the second is too long                         | ROW 10=08 20=08                                 | V2 32
        the third of the first vector is bad           | ROW 10=08 20=04 36=10 52=0c                     | V3 60
    """),
    (AROUND, """
        a row in a table in a table, and again         | AROUND ROW                                      | yes
        two vectors in the inner, and again            | AROUND ROW 34=08 44=04                          | yes
        the second table's long is misaligned          | AROUND ROW 56=2c 100=24                         | V3 108
        another vtable has a slot far behind           | AROUND ROW VTABLE 104=d0ffffff 156=6400         | V2 204
        the outer vector is too long                   | AROUND ROW 20=20                                | V2 56
    """),
    (TWICE, """
        two tables with a row each                     | TWICE ROW                                       | yes
        with two rows each                             | TWICE ROW 42=08 52=04                           | yes
        the second table's long is misaligned          | TWICE ROW 64=2c 108=24                          | V3 116
        the second of the two has no fields            | TWICE ROW 28=14                                 | yes
    """),
    (f"Root table: rows@4 [obj]#1, more@6 [obj]#2; {ITEM}; Other table: a@4 int, b@6 long", """
        the same tables by another object              | ROW 10=08 20=04                                 | V3 108
        whose long is absent                           | ROW 10=08 20=04 46=00                           | yes
    """),
    (f"{ROOT}; Item table: a@4 obj#2 required, b@6 int; Long struct 8/8: x@0 long", """
        a required struct is there                     | ROW                                             | yes
        it is absent                                   | ROW 44=00                                       | V9 104
        it is absent in a row of one                   | ROW 24=01 44=00                                 | V9 104
        the vtable ends before its slot                | ROW 40=04                                       | V9 104
        it is absent in the second table alone         | ROW VTABLE 80=d0ffffff 132=00                   | V9 80
        there the vtable ends before its slot          | ROW VTABLE 80=d0ffffff 128=04                   | V9 80
        the second is misaligned                       | ROW 32=2c 76=24                                 | V3 84
    """),
    (f"""{ROOT}; Item table: a@4 obj#2, b@6 obj#3, c@8 obj#4, d@10 obj#5; Long struct 8/8: x@0 long;
        Int struct 4/4: x@0 int; Short struct 2/2: x@0 short; Byte struct 1/1: x@0 byte""", """
        structs of 8, 4, 2 and 1 bytes                 | ROW                                             | yes
        the one of 8 is misaligned                     | ROW 32=2c 76=24                                 | V3 84
    """),
    (f"{ROOT}; Item table: a@4 obj#2; Pair struct 8/4: x@0 int, y@4 int", """
        8 bytes that are aligned to 4                  | ROW                                             | yes
        the second at no multiple of 8                 | ROW 32=2c 76=24                                 | yes
        by another vtable at no multiple of 4          | ROW VTABLE 80=d0ffffff 132=0a                   | V3 90
        the last above the others ends in its pair     | ROW 28=34 32=18 36=44 ..116                     | V2 112
    """),
    (f"{ROOT}; Item table: a@4 obj#2, d@10 obj#3; Three struct 12/4: x@0 int; Odd struct 3/1: x@0 byte", """
        structs of 12 and 3 bytes                      | ROW                                             | yes
        the last above the others ends in one of these | ROW 28=34 32=18 36=44 ..124                     | V2 122
    """),
    (f"{ROOT}; Item table: a@4 double, b@6 float, c@8 ushort, d@10 bool", """
        floats and a bool                              | ROW                                             | yes
        the double is misaligned                       | ROW 32=2c 76=24                                 | V3 84
    """),
    (f"{ROOT}; Item table: a@4 long, b@6 string", """
        a text, which all share                        | ROW 02000000 61620000 108=14 84=2c 60=44        | yes
        that of the second is too long                 | ROW 02000000 61620000 108=14 84=30 60=44        | V2 136
        that of the third is at an offset of 0         | ROW 02000000 61620000 108=14 84=2c 60=00        | V4 60
    """),
    (f"{ROOT}; Item table: a@4 long, b@6 [ubyte]", """
        a vector of bytes, which all share             | ROW 02000000 61620000 108=14 84=2c 60=44        | yes
        that of the second is too long                 | ROW 02000000 61620000 108=14 84=30 60=44        | V2 136
    """),
    (f"{ROOT}; Item table: a@4 long, b@6 obj#2; Leaf table: c@8 short", """
        a table, which all share, by the vtable of all | ROW 58000000 ..152 108=14 84=2c 60=44           | yes
        it ends before its short                       | ROW 58000000 ..144 108=14 84=2c 60=44           | V2 144
    """),
    (bytes_in(32), OF_WIDE), (bytes_in(33), OF_WIDE),
]

PUBLISHED, UNALIGNED = {}, {"alignment": False}
CHECKS = [PUBLISHED, {"inline_size": True}, UNALIGNED, {**UNALIGNED, "inline_size": True}]
# Schemas whose cases are asked within limits, and buffers that are damaged, under these options.
LIMITED = [ITEMS, AROUND, TWICE]
DAMAGED = [(ITEMS, "ROW"), (ITEMS, "ROW 44=0000 10=08 20=04"), (AROUND, "AROUND ROW")]
DAMAGE_ASKED = [*CHECKS, {"reads": 16}, {"reads": 23}, {"tables": 3}]
ROWS = 4000


def cases(table):
    """What each line of a table shows, its bytes, and its verdict."""
    for text in filter(str.strip, table.splitlines()):
        shows, words, want = (column.strip() for column in text.split("|"))
        yield shows, bytes_of(SAMPLES, words), want


def short(told):
    """A verdict as the tables have it."""
    words = told.split()
    return "yes" if words[0] == "ok" else f"{words[1]} {words[3].removeprefix('at=')}"


def damaged(data):
    """The bytes cut off everywhere, and with each byte 0, 1, 255, or 4 more."""
    yield from (data[:length] for length in range(len(data)))
    for at, byte in enumerate(data):
        for other in {0, 1, 255, (byte + 4) % 256} - {byte}:
            yield data[:at] + bytes([other]) + data[at + 1 :]


def small_limits(walks):
    """Each limit by itself, up to one more than any of these walks needs."""
    for name, most in {"reads": max(walk.reads for walk in walks), "tables": max(walk.tables for walk in walks),
                       "depth": max(walk.deepest for walk in walks)}.items():
        yield from ({name: number} for number in range(most + 2))


def slots(dice):
    """Four slots, most of them of places that suit the fields."""
    usual = [dice.choice([8, 8, 16, 0]), dice.choice([4, 4, 0]), dice.choice([6, 18, 0]), dice.randrange(4, 24)]
    return [dice.randrange(40) if dice.once_in(40) else slot for slot in usual]


def at_random(dice):
    """A row of tables, each anywhere behind two vtables, and by one of them; now and then it is cut off."""
    count = dice.randrange(2, 9)
    words, vtables = range(28, 28 + 4 * count, 4), [28 + 4 * count, 40 + 4 * count]
    data = bytearray(bytes_of(SAMPLES, "ROW ..24") + struct.pack("<I", count) + bytes(24 + 4 * count + 160))
    for vtable in vtables:
        struct.pack_into("<6H", data, vtable, 12, 24, *slots(dice))
    odd = 4 * dice.randrange(2)
    for word in words:
        at = -(-(vtables[1] + 12) // 8) * 8 + 8 * dice.randrange(16) + odd + (4 if dice.once_in(12) else 0)
        struct.pack_into("<i", data, at, at - vtables[dice.once_in(6)])
        struct.pack_into("<I", data, word, at - word)
    return bytes(data[: len(data) - (dice.randrange(60) if dice.once_in(3) else 0)])


class Asked:
    """Rows, in the program and in the naive checker, whose first table is the root."""

    def __init__(self, rows):
        objects, enums = rows_of(rows)
        self.schema = Schema(objects, enums)
        self.words = ["--schema", file_of("shared.bfbs", schemas.schema(objects, enums)), "--names", "--delimited",
                      "--root", self.schema.names[0]]

    def program(self, stream, options):
        """What the program tells of each of these bare buffers."""
        ran = run(*self.words, *words_of(options), given=b"".join(map(prefixed, stream)))
        return [text.partition(" ")[2] for text in ran.out.decode().splitlines()]

    def walk(self, data, options):
        """The naive walk of one, at its end, and what it tells."""
        walk = Walk(self.schema, 0, data, **options)
        verdict = walk.verdict(prefix=False)
        return walk, verdict + (walk.place() if verdict.startswith("bad") else "")

    def wrong(self, stream, options):
        """The first few of the buffers of which the program tells something else, with what it should."""
        told, wants = self.program(stream, options), [self.walk(data, options)[1] for data in stream]
        wrong = [(got, want, data.hex()) for got, want, data in zip(told, wants, stream) if got != want]
        return wrong[:3] if len(told) == len(stream) else (len(told), len(stream))


class SharedVtables(Case):
    def alike(self, name, asked, stream, options):
        """The program tells of this stream what it should."""
        self.same(f"{name} {options}: what is told otherwise, with what should be", asked.wrong(stream, options), [])

    def test_worked_cases(self):
        for (rows, table), options in itertools.product(JUDGED, CHECKS):
            asked = Asked(rows)
            told = asked.program([data for _, data, _ in cases(table)], options)
            for (shows, data, want), got in itertools.zip_longest(cases(table), told):
                self.same(f"{shows} {options}", got, asked.walk(data, options)[1])
                if options is PUBLISHED:
                    self.same(f"{shows}: the verdict", short(got), want)

    def test_every_limit(self):
        for rows, checks in itertools.product(LIMITED, [PUBLISHED, UNALIGNED]):
            asked, stream = Asked(rows), [data for _, data, _ in cases(dict(JUDGED)[rows])]
            for limits in small_limits([asked.walk(data, checks)[0] for data in stream]):
                self.alike(f"cases of {asked.schema.names[0]}", asked, stream, {**checks, **limits})

    def test_two_limits(self):
        asked, stream = Asked(ITEMS), [bytes_of(SAMPLES, text) for rows, text in DAMAGED if rows == ITEMS]
        for tables, reads in itertools.product(range(1, 5), range(8, 28)):
            self.alike("good rows", asked, stream, {"tables": tables, "reads": reads})

    def test_damage(self):
        for (rows, text), options in itertools.product(DAMAGED, DAMAGE_ASKED):
            stream = list(damaged(bytes_of(SAMPLES, text)))
            self.holds(f"{text}: there are many", len(stream) > 500, len(stream))
            self.alike(text, Asked(rows), stream, options)

    def test_rows_at_random(self):
        asked, dice = Asked(ITEMS), Random(1)
        stream = [at_random(dice) for _ in range(ROWS)]
        good = sum(asked.walk(data, PUBLISHED)[1].startswith("ok") for data in stream)
        self.holds("many are good, and many aren't", ROWS / 5 < good < ROWS * 4 / 5, good)
        for options in [*CHECKS, {"reads": 30}, {"tables": 4}]:
            self.alike("rows at random", asked, stream, options)
