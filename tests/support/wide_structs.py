"""Structs of each alignment and of up to 300 bytes, at places that each power of two divides and past a table's end.

There is a schema for each alignment. Its table has a struct of each size in place, a vector of each and a union of all
of them. Buffers are laid out by hand, each with one of these fields.
"""

import struct

from tests.support.naive import Schema
from tests.support.schemas import U_TYPE, a_struct, a_union, an_object, field, schema, table, union, vector

ALIGNMENTS = [1, 2, 4, 8, 16, 32, 64, 128, 256]
SIZES = [1, 8, 31, 32, 33, 64, 129, 256, 300]
IN_PLACE, IN_VECTOR, IN_UNION = range(3)
FORMS = [IN_PLACE, IN_VECTOR, IN_UNION]

# Of the powers of two up to 512 each is the greatest that divides one of these places.
PLACES = sorted({512, *(512 + 2**power for power in range(9)), *(1024 - 2**power for power in range(9))})

# By how many bytes a table's inline size is less than it should be, or more.
SHORT = [0, 1, 2, 300, -1, -300]

OPTIONS = [{}, {"inline_size": True}, {"alignment": False}, {"alignment": False, "inline_size": True}]

# The table stands behind the root offset and a vtable with two slots for each size and two for the union.
SLOTS = 2 * len(SIZES) + 2
TABLE = 64


def rows(alignment):
    """The objects and enums of the schema with structs of this alignment. The table is the first object."""
    kinds = [an_object(1 + number) for number in range(len(SIZES))]
    types = [*kinds, *map(vector, kinds), U_TYPE, a_union(0)]
    fields = [field(f"f{number}", kind, 4 + 2 * number) for number, kind in enumerate(types)]
    structs = [a_struct(f"S{size}", size, alignment) for size in SIZES]
    members = [(f"S{size}", number, kind) for number, (size, kind) in enumerate(zip(SIZES, kinds), 1)]
    return [table("T", *fields), *structs], [union("U", *members)]


def of_schema(alignment):
    """The same for the naive checker, and the bytes of the schema file."""
    objects, enums = rows(alignment)
    return Schema(objects, enums), schema(objects, enums, root="T")


def bytes_with(number, form, place, short=0):
    """A bare buffer that ends with the struct of this number at this place. In its table the struct stands, or an
    offset to the vector of it or to a union's value, and the inline size is so many bytes too short."""
    size, slots = SIZES[number], [0] * SLOTS
    end = place + size if form == IN_PLACE else TABLE + 12
    slots[(number, len(SIZES) + number, SLOTS - 1)[form]] = (place - TABLE, 4, 4)[form]
    if form == IN_UNION:
        slots[SLOTS - 2] = 8
    data = bytearray(struct.pack(f"<I{2 + SLOTS}H", TABLE, 4 + 2 * SLOTS, max(end - TABLE - short, 0), *slots))
    data += bytes(place + size - len(data))
    struct.pack_into("<i", data, TABLE, TABLE - 4)
    if form == IN_VECTOR:
        struct.pack_into("<I", data, place - 4, 1)
    if form != IN_PLACE:
        struct.pack_into("<IB", data, TABLE + 4, place - 4 * (form == IN_VECTOR) - TABLE - 4, number + 1)
    return bytes(data)


def buffers():
    """Each struct in each form at each place, and short of its table's end; cut off before its last byte too."""
    for number, form in ((number, form) for number in range(len(SIZES)) for form in FORMS):
        yield from (bytes_with(number, form, place) for place in PLACES)
        yield bytes_with(number, form, 512)[:-1]
        yield from (bytes_with(number, form, 512, short) for short in SHORT)
