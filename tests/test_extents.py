"""Where the bytes of values stand in a buffer: of structs, of arrays and vectors of each width, and of what is in them.

The library tells it of each value. The places and lengths were worked out from the layouts in the schema's text.
"""

import struct

from tests.support.library import LibraryCase, module
from tests.support.schemas import (
    BOOL, BYTE, DOUBLE, FLOAT, INT, LONG, SHORT, TEXT, U_BYTE, U_INT, U_LONG, U_SHORT, a_struct, an_object, array, field,
    schema, table, vector,
)

# struct Cell { x: ubyte; y: ushort; }                          4 bytes: x at 0, y at 2
# struct Pair { a: double; b: [Cell:2]; }                       16 bytes: a at 0, b at 8
# struct All { .. }                                             200 bytes, each field at the place beside it
# table T { one: All; more: [All]; .. }
CELL, PAIR, ALL = map(an_object, (1, 2, 3))
IN_ALL = [
    ("bools", array(BOOL, 3), 0, 3), ("bytes", array(BYTE, 5), 3, 5), ("u_bytes", array(U_BYTE, 1), 8, 1),
    ("shorts", array(SHORT, 3), 10, 6), ("u_shorts", array(U_SHORT, 2), 16, 4), ("ints", array(INT, 4), 20, 16),
    ("u_ints", array(U_INT, 1), 36, 4), ("longs", array(LONG, 2), 40, 16), ("u_longs", array(U_LONG, 3), 56, 24),
    ("floats", array(FLOAT, 5), 80, 20), ("doubles", array(DOUBLE, 2), 104, 16), ("cells", array(CELL, 3), 120, 12),
    ("pairs", array(PAIR, 2), 136, 32), ("pair", PAIR, 168, 16), ("none", array(INT, 0), 184, 0),
    ("nothing", array(CELL, 0), 184, 0), ("real", FLOAT, 184, 4), ("cell", CELL, 188, 4), ("last", BYTE, 192, None),
]
# What stands in these, at so many bytes from the struct's first. A number of whole bytes or a bool is told by itself.
WITHIN = [
    ("bools[2]", None, None), ("ints[3]", None, None), ("u_longs[0]", None, None), ("floats[0]", 80, 4),
    ("floats[4]", 96, 4), ("doubles[1]", 112, 8), ("cells[0]", 120, 4), ("cells[2]", 128, 4), ("cells[2].y", None, None),
    ("pairs[0]", 136, 16), ("pairs[1]", 152, 16), ("pairs[1].a", 152, 8), ("pairs[1].b", 160, 8),
    ("pairs[1].b[1]", 164, 4), ("pairs[0].b", 144, 8), ("pair.a", 168, 8), ("pair.b", 176, 8), ("pair.b[0]", 176, 4),
    ("pair.b[1]", 180, 4), ("cells[3]", None, None), ("none[0]", None, None), ("pairs[2].b", None, None),
]
VECTORS = [
    ("bools", BOOL, 1), ("bytes", BYTE, 1), ("u_bytes", U_BYTE, 1), ("shorts", SHORT, 2), ("u_shorts", U_SHORT, 2),
    ("ints", INT, 4), ("u_ints", U_INT, 4), ("longs", LONG, 8), ("u_longs", U_LONG, 8), ("floats", FLOAT, 4),
    ("doubles", DOUBLE, 8), ("cells", CELL, 4), ("pairs", PAIR, 16), ("alls", ALL, 200),
]
# Of these each element is told by its bytes, and of the others by its number.
TOLD_BY_BYTES = ["floats", "doubles", "cells", "pairs", "alls"]
STRUCTS = [
    a_struct("Cell", 4, 2, field("x", U_BYTE, 0), field("y", U_SHORT, 2)),
    a_struct("Pair", 16, 8, field("a", DOUBLE, 0), field("b", array(CELL, 2), 8)),
    a_struct("All", 200, 8, *[field(name, kind, at) for name, kind, at, _ in IN_ALL]),
]


def shifted(at, size, first):
    """A place and a length with the place counted from this one; zeros where there are no bytes."""
    return (0, 0) if size is None else (first + at, size)


def in_struct(path, first):
    """The paths of a struct that stands at a place, and the values in it, with where their bytes are."""
    parts = [(name, at, size) for name, _, at, size in IN_ALL]
    return {path: (first, 200)} | {f"{path}.{name}": shifted(at, size, first) for name, at, size in [*parts, *WITHIN]}


class Extents(LibraryCase):
    def told(self, python, name, objects, data, wants):
        """The extents at the ends of paths from the first table."""
        with python.Verifier(schema(objects, root="T"), "T") as verifier:
            told = verifier.extents(data, [verifier.resolve(path) for path in wants])
        for (path, want), got in zip(wants.items(), told):
            self.same(f"{name}: {path}", got, want)

    def test_structs(self):
        """The root offset, a vtable at 4, the table at 16 with an offset at 20 and a struct at 24; the vector's count at
        228, and its elements at 232 and 432."""
        objects = [table("T", field("one", ALL, 4), field("more", vector(ALL), 6)), *STRUCTS]
        data = struct.pack("<I4H4xiI200x4xI400x", 16, 8, 208, 8, 4, 12, 208, 2)
        wants = {**in_struct("one", 24), "more": (232, 400), **in_struct("more[0]", 232), **in_struct("more[1]", 432),
                 "more[2]": (0, 0), "more[2].longs": (0, 0)}
        self.told(module(), "structs", objects, data, wants)

    def test_vectors(self):
        """The root offset, a vtable at 4, the table at 36 with an offset at 40, the vector's count at 52 and its
        elements from 56 on."""
        python = module()
        fields = [field(name, vector(kind), 4 + 2 * place) for place, (name, kind, _) in enumerate(VECTORS)]
        for number, (name, _, width) in enumerate(VECTORS):
            slots = [4 * (place == number) for place in range(len(VECTORS))]
            head = struct.pack(f"<I{2 + len(slots)}HiI8x", 36, 32, 8, *slots, 32, 12)
            for count in (0, 1, 3):
                wants = {name: (56, count * width), f"{name}[3]": (0, 0)}
                told = name in TOLD_BY_BYTES
                wants |= {f"{name}[{at}]": (56 + at * width, width) if told else (0, 0) for at in range(count)}
                data = head + struct.pack("<I", count) + bytes(count * width)
                self.told(python, f"{count} of {name}", [table("T", *fields), *STRUCTS], data, wants)

    def test_vectors_of_offsets(self):
        """The root offset, a vtable at 4, the table at 12 with offsets at 16 and 20, vectors of two texts at 24 and of
        two tables at 36; behind these a vtable at 48, a table at 52 and a text of 2 bytes from 60 on."""
        objects = [table("T", field("texts", vector(TEXT), 4), field("tables", vector(an_object(0)), 6))]
        data = struct.pack("<I4Hi", 12, 8, 12, 4, 8, 8) + struct.pack("<8I", 8, 16, 2, 28, 24, 2, 12, 8)
        data += struct.pack("<2Hi", 4, 4, 4) + b"\2\0\0\0ab\0"
        wants = {"texts": (0, 0), "texts[0]": (60, 2), "texts[1]": (60, 2), "texts[2]": (0, 0), "tables": (0, 0),
                 "tables[0]": (0, 0), "tables[1].texts": (0, 0)}
        self.told(module(), "vectors of offsets", objects, data, wants)
