"""A schema with a field of every kind, buffers by it, whole and bent, and choices of options."""

import struct

from tests.support import schemas
from tests.support.builder import Plain
from tests.support.schemas import (
    BOOL, BYTE, DOUBLE, INT, LONG, SHORT, TEXT, U_BYTE, U_TYPE, a_struct, a_union, an_object, field, schema, table,
    union, vector,
)

# One table with a field of every kind.
OBJECTS = [
    table(
        "All", field("yes", BOOL, 4, 1), field("least", BYTE, 6, -5), field("short", SHORT, 8, 65536 + 7),
        field("long", LONG, 10, optional=True),
        field("real", DOUBLE, 12), field("place", an_object(2), 14), field("name", TEXT, 16, required=True),
        field("below", an_object(1), 18), field("bytes", vector(U_BYTE), 20), field("longs", vector(LONG), 22),
        field("places", vector(an_object(2)), 24), field("texts", vector(TEXT), 26),
        field("tables", vector(an_object(1)), 28), field("one_type", U_TYPE, 30), field("one", a_union(0), 32),
        field("many_type", vector(U_TYPE), 34), field("many", vector(a_union(0)), 36),
        field("old", TEXT, 38, deprecated=True), field("last", INT, 40, 70_000),
    ),
    table("Below", field("v", INT, 4), field("next", an_object(1), 6)),
    a_struct("Place", 12, 4, field("x", INT, 0), field("y", INT, 4), field("z", INT, 8)),
    a_struct("Wide", 16, 8, field("x", LONG, 0), field("y", LONG, 8)),
]
UNION = union(
    "U", ("NONE", 0, schemas.NONE), ("Below", 1, an_object(1)), ("Place", 3, an_object(2)), ("Text", 7, TEXT),
    ("Wide", 9, an_object(3)),
)
FILE = schema(OBJECTS, [UNION], root="All")

PLACE = struct.pack("<3i", 1, -2, 3)
BELOW = {0: ("i", 5), 1: {1: {0: ("i", 6)}}}
WHOLE = {
    0: ("B", 1), 1: ("b", -1), 2: ("h", 300), 3: ("q", 7), 4: ("d", 1.5), 5: ("12s", PLACE), 6: "name", 7: BELOW,
    8: Plain(b"abc", 1, 3), 9: Plain(struct.pack("<2q", 1, 2), 8, 2), 10: Plain(PLACE * 2, 4, 2),
    11: ["one", "", "three"], 12: [BELOW, {}], 13: ("B", 9), 14: Plain(bytes(16), 8),
    15: Plain(bytes([1, 3, 7, 0, 200, 9]), 1, 6),
    16: [BELOW, Plain(PLACE, 4), "text", None, None, Plain(bytes(16), 8)], 18: ("i", 9),
}
LITTLE = {6: "", 13: ("B", 7), 14: "one", 15: Plain(b"", 1, 0), 16: []}

OPTIONS = [
    {}, {"alignment": False}, {"inline_size": True}, {"alignment": False, "inline_size": True}, {"depth": 2},
    {"tables": 3}, {"ident": b"KIND"}, {"reads": 20}, {"reads": 70},
]


def words_of(options):
    """The words that ask the program for the same."""
    flags = {"alignment": ["--no-alignment"], "inline_size": ["--inline-size"]}
    words = {"depth": "--max-depth", "tables": "--max-tables", "reads": "--max-reads", "ident": "--ident"}
    told = [flags[name] if name in flags else [words[name], value] for name, value in options.items()]
    return [word if isinstance(word, bytes) else str(word) for pair in told for word in pair]


def variants(data, steps):
    """The bytes themselves, cut off everywhere, and with each byte changed by each of these steps."""
    yield data
    for length in range(len(data)):
        yield data[:length]
    for at, byte in enumerate(data):
        for other in {(byte + step) % 256 for step in steps} | {0, 255}:
            if other != byte:
                yield data[:at] + bytes([other]) + data[at + 1 :]
