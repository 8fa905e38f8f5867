"""Buffers that are swept, worked out byte by byte, and the schemas by which they are made."""

import dataclasses
import struct

from tests.support import buffers, schemas
from tests.support.builder import Plain, buffer
from tests.support.schemas import (
    INT, LONG, SHORT, TEXT, U_BYTE, U_TYPE, a_struct, a_union, an_object, array, field, table, union, vector,
)


@dataclasses.dataclass(frozen=True)
class Rows:
    """The objects and enums of a schema, and its root. `paths` says how many paths of one, two, .. steps resolve from
    there, of the numbers 0, 1 and the greatest alone."""

    objects: list
    enums: list
    root: str
    paths: tuple


# struct P { x: ubyte; y: short; } struct S { a: int; row: [short:2]; at: P; many: [P:2]; } union K { S }
# table T { one: S; more: [S]; kind: K; }
OF_STRUCTS = [
    table("T", field("one", an_object(1), 4), field("more", vector(an_object(1)), 6), field("kind_type", U_TYPE, 8),
          field("kind", a_union(0), 10)),
    a_struct("S", 20, 4, field("a", INT, 0), field("row", array(SHORT, 2), 4), field("at", an_object(2), 8),
             field("many", array(an_object(2), 2), 12)),
    a_struct("P", 4, 2, field("x", U_BYTE, 0), field("y", SHORT, 2)),
]

SCHEMAS = {
    "monsters": Rows([table("M", field("hp", SHORT, 4, 100), field("name", TEXT, 6))], [], "M", (2, 0, 0)),
    "nodes": Rows([table("Node", field("a", an_object(0), 4), field("b", an_object(0), 6))], [], "Node", (2, 4, 8)),
    "longs": Rows([table("N", field("v", LONG, 4))], [], "N", (1, 0, 0)),
    "vectors of longs": Rows([table("Z", field("l", vector(LONG), 4))], [], "Z", (1, 3, 0)),
    # of u_type and u, then its three members, then v of the table and x of the struct
    "unions": Rows(schemas.X_OBJECTS, [schemas.X_UNION], "R", (2, 3, 2)),
    # of us_type and us, then three numbers in each, then three members behind each number in us
    "vectors of unions": Rows(schemas.X_OBJECTS, [schemas.X_UNION], "Q", (2, 6, 9)),
    # of four fields; then four of the struct, three numbers and a member; then in the struct three numbers in each of
    # two arrays and two fields, and four fields behind each number and the member; then two fields behind each number
    # of the array, and behind each of these four eight more, as in the struct; and then two fields in four arrays
    "structs": Rows(OF_STRUCTS, [union("K", ("S", 1, an_object(1)))], "T", (4, 8, 24, 38, 24)),
    # From the root 8 live fields; from there 3 numbers in each of 4 vectors of tables, and 8 fields of the root table's
    # object; and then 3 times 8, 7, 5 and 2 fields, and 3 numbers in each of 3 vectors of that object
    "schema files": Rows(schemas.reflection(), [], "reflection.Schema", (8, 20, 75)),
}


@dataclasses.dataclass(frozen=True)
class Swept:
    """A buffer by one of these schemas, bare or behind its size."""

    schema: str
    data: bytes
    prefixed: bool = False


# By T: one, two in a vector, and one as a union's value.
IN_PLACE = struct.pack("<i2hBxhBxhBxh", -7, 300, -2, 1, -3, 2, 4, 255, -32768)
PARTS = buffer({
    0: ("20s", IN_PLACE), 1: Plain(IN_PLACE + bytes(range(20)), 4, 2), 2: ("B", 1), 3: Plain(IN_PLACE, 4),
})

SWEPT = {
    "two fields": Swept("monsters", buffers.ORC),
    "a table that is shared": Swept("nodes", buffers.TWINS),
    "a number behind a size": Swept("longs", buffers.SEVEN, True),
    "a union of a table": Swept("unions", buffers.MEMBER),
    "a union of a struct": Swept("unions", buffers.PLACED),
    "unions of another length": Swept("vectors of unions", buffers.UNEQUAL),
    "unions": Swept("vectors of unions", buffers.MEMBERS),
    "a number out of alignment": Swept("vectors of longs", buffers.ASKEW),
    "structs": Swept("structs", PARTS),
    "a schema file": Swept("schema files", schemas.M),
}
