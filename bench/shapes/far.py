"""Messages whose parts lie far apart, so that most reads of a check miss the processor's caches, for bench/hostile.

Such a message has vectors that lead to its tables, then words that all serve as vtables, then words that serve as
tables and as what stands in their fields, and what these lead to. The words are the same in each MiB, but lead from
where they stand.
"""

import array
import random
import struct

from tests.support import schemas

LINE = 64
BLOCK = 2**20
# A table has so many fields, whose places in a vtable, and in a table, lie on lines of their own.
FIELDS = 32
SLOTS = [4 + 2000 * number for number in range(FIELDS)]
VTABLE = 65_532


def schema_of(fields, unions=()):
    """A root with a vector of groups, which each have a vector of tables with these fields."""
    return schemas.schema(
        [schemas.table("Far", *fields),
         schemas.table("Group", schemas.field("all", schemas.vector(schemas.an_object(0)), 4)),
         schemas.table("Root", schemas.field("all", schemas.vector(schemas.an_object(1)), 4))], unions, root="Root")


VECTORS = schema_of([schemas.field(f"f{slot}", schemas.vector(schemas.TEXT), slot) for slot in SLOTS])
TEXTS = schema_of([schemas.field(f"f{slot}", schemas.TEXT, slot) for slot in SLOTS])
# Of the types, one half has members.
MEMBERS = [(f"Text{value}", value, schemas.TEXT) for value in range(1, 128)]
UNIONS = schema_of(
    [field for slot in SLOTS for field in (schemas.field(f"f{slot}_type", schemas.U_TYPE, slot),
                                           schemas.field(f"f{slot}", schemas.a_union(0), slot + 2))],
    [schemas.union("U", ("NONE", 0, schemas.NONE), *MEMBERS)])
CHAINS = schema_of([schemas.field("next", schemas.an_object(0), 204)])


def lines_below(end):
    """The end of the last whole line of these bytes."""
    return end // LINE * LINE


def repeated(block, length):
    """So many bytes of this block, over and over."""
    return (block * (length // len(block) + 1))[:length]


def vtables(chance, length, most):
    """Words that are each the distance of a field from its table, but for the first of each line, a vtable's size."""
    distances = [distance for distance in range(4, most, 4) if distance % LINE > 4]
    words = array.array("H", chance.choices(distances, k=BLOCK // 2))
    words[:: LINE // 2] = array.array("H", [VTABLE] * (BLOCK // LINE))
    return repeated(words.tobytes(), length)


def tables(chance, length, ahead, spread, step=4):
    """Words that lead to so many bytes ahead of each, by its place, and some steps more; but the first of each line is
    that of a table, whose vtable lies as far behind as these words are long, and some lines more."""
    words = array.array("I", [ahead(4 * place) + far for place, far in enumerate(
        chance.choices(range(0, spread, step), k=BLOCK // 4))])
    words[:: LINE // 4] = array.array("I", [length + far for far in chance.choices(
        range(8 * LINE, spread, LINE), k=BLOCK // LINE)])
    return repeated(words.tobytes(), length)


def groups_of(chance, groups, count, begin, end):
    """The root and its groups, which are all one, of so many tables, which lie at lines from `begin` to before `end`
    behind all this."""
    data = struct.pack("<I4H", 12, 6, 8, 4, 0) + struct.pack("<iI", 8, 4)
    data += struct.pack(f"<{groups + 1}I", groups, *[4 * (groups - place) for place in range(groups)])
    data += struct.pack("<iII", len(data) - 4, 4, count)
    behind = -(-(len(data) + 4 * count) // LINE) * LINE
    chosen = chance.choices(range(begin // LINE, end // LINE), k=count)
    vector = array.array("I", [behind + LINE * line - (len(data) + 4 * place) for place, line in enumerate(chosen)])
    return (data + vector.tobytes()).ljust(behind, b"\0")


def far_fields(size, visits=990_000):
    """By VECTORS, TEXTS or UNIONS: tables whose fields are all there, and lead to zeros: empty vectors, empty texts."""
    chance = random.Random(size)
    count = min(size // 64, 240_000)
    groups = visits // count
    area = lines_below((size - 4 * count - 4 * groups - 200) * 4 // 13)
    spread = lines_below(area // 4)
    data = groups_of(chance, groups, count, area + spread, 2 * area - 2**16)
    data += vtables(chance, area, 2**16) + tables(chance, area, lambda place: area, spread)
    return data + bytes(area + spread)


def fewer_far_fields(size):
    """By UNIONS, strictly: so few tables that a walk leaves reads for what strict checks read then."""
    return far_fields(size, min(300_000, 4 * size // 25))


def far_chains(size):
    """By CHAINS: tables that each lead to one table far below, some fifty in a row, and at last to one without fields.
    """
    chance = random.Random(size)
    bands = 60
    band = lines_below((size - 100_000) // (2 * bands + 3))
    count, spread, area = 990_000 // bands, lines_below(band // 8), bands * band
    data = groups_of(chance, 1, count, area + spread, area + band)
    data += vtables(chance, area, min(band // 2, 2**16))
    data += tables(chance, area, lambda place: band - place % LINE, spread, LINE)
    last = struct.pack("<i2H14I", -4, 4, 4, *[band - place for place in range(8, LINE, 4)])
    return data + last * (3 * band // LINE)
