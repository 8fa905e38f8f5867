"""The schema files of the tests: made from rows, as a text would give them, and one that stands byte by byte."""

from tests.support.builder import buffer, spelled
from tests.support.program import file_of

SCALARS = [(base,) for base in range(13)]
NONE, U_TYPE, BOOL, BYTE, U_BYTE, SHORT, U_SHORT, INT, U_INT, LONG, U_LONG, FLOAT, DOUBLE = SCALARS
TEXT = (13,)


def vector(of):
    """The type of a vector of this type."""
    base, _, index, _ = whole(of)
    return (14, base, index)


def an_object(number):
    return (15, 0, number)


def a_union(number):
    return (16, 0, number)


def array(of, length):
    base, _, index, _ = whole(of)
    return (17, base, index, length)


def whole(kind):
    """A type with all its four parts: base, element, index, length."""
    return (*kind, *(0, 0, -1, 0)[len(kind) :])


def type_row(kind):
    base, element, index, length = whole(kind)
    return {0: ("b", base), 1: ("b", element), 2: ("i", index), 3: ("H", length)}


def field(name, kind, slot, default=0, real=None, **flags):
    """A field's row, perhaps with a real default; a flag is deprecated, required, optional or offset64."""
    row = {0: name, 1: type_row(kind), 2: ("H", max(slot - 4, 0) // 2), 3: ("H", slot), 4: ("q", default)}
    row |= {} if real is None else {5: ("d", real)}
    numbers = {"deprecated": 6, "required": 7, "optional": 11, "offset64": 13}
    return {**row, **{numbers[flag]: ("B", int(value)) for flag, value in flags.items()}}


def table(name, *fields):
    return {0: name, 1: list(fields)}


def a_struct(name, size, alignment, *fields):
    return {0: name, 1: list(fields), 2: ("B", 1), 3: ("i", alignment), 4: ("i", size)}


def union(name, *members):
    """A union's row; each member is a name, a value and a type."""
    return {
        0: name,
        1: [{0: name, 1: ("q", value), 3: type_row(kind)} for name, value, kind in members],
        2: ("B", 1),
        3: type_row(U_TYPE),
    }


def schema(objects, enums=(), root=None, ident=None):
    """The bytes of a schema file. The root table is named by a table of its own, which has no fields."""
    rows = {0: list(objects), 1: list(enums)}
    if ident is not None:
        rows[2] = ident
    if root is not None:
        rows[4] = table(root)
    return buffer(rows, b"BFBS")


# table M { hp: short = 100; name: string; } root_type M;
M = spelled(
    "18000000 42464253 0e00 1000 0400 0800 0000 0000 0c00 0000",
    "10000000 10000000 08000000 18000000 00000000 01000000 0c000000",
    "0800 0c00 0400 0800 08000000 08000000 0c000000 01000000 4d000000",
    "02000000 1c000000 54000000",
    "0e00 1800 0400 0800 0000 0c00 1000 000000000000",
    "14000000 14000000 20000000 0400 0000 6400000000000000 02000000 68700000",
    "0600 0800 0400 0000 08000000 05000000",
    "0c00 1000 0400 0800 0c00 0e00 0c000000 0c000000 14000000 0100 0600",
    "04000000 6e616d65 00000000 38000000 0d000000",
)

# table N { v: long; }
N = schema([table("N", field("v", LONG, 4))], root="N")

# table A { v: int; } struct W { x: long; } union U { A = 1, W = 2, T: string = 3 }
# table R { u: U; } table Q { us: [U]; } root_type Q;
X_OBJECTS = [
    table("A", field("v", INT, 4)),
    a_struct("W", 8, 8, field("x", LONG, 0)),
    table("R", field("u_type", U_TYPE, 4), field("u", a_union(0), 6)),
    table("Q", field("us_type", vector(U_TYPE), 4), field("us", vector(a_union(0)), 6)),
]
X_UNION = union("U", ("NONE", 0, NONE), ("A", 1, an_object(0)), ("W", 2, an_object(1)), ("T", 3, TEXT))
X = schema(X_OBJECTS, [X_UNION], root="Q")

# table Node { a: Node; b: Node; }
NODE = schema([table("Node", field("a", an_object(0), 4), field("b", an_object(0), 6))], root="Node")

# table L { next: L; }
CHAIN = schema([table("L", field("next", an_object(0), 4))], root="L")

# table Z { l: [long]; }
Z = schema([table("Z", field("l", vector(LONG), 4))], root="Z")

# table G { f: float; }
G = schema([table("G", field("f", FLOAT, 4))], root="G")

# table K { s: string (required); }
K = schema([table("K", field("s", TEXT, 4, required=True))], root="K")

# table T { b: [ubyte]; } in the namespace a, and the same where b is marked as a flexbuffer
BYTES = schema([table("a.T", field("b", vector(U_BYTE), 4))], root="a.T")
FLEX = schema([table("a.T", {**field("b", vector(U_BYTE), 4), 9: [{0: "flexbuffer", 1: "0"}]})], root="a.T")
LOST = schema([table("a.T", {**field("b", vector(U_BYTE), 4), 9: [{0: "nested_flatbuffer", 1: "a.U"}]})], root="a.T")


def files():
    """The paths of the schema files, by name."""
    named = {"M": M, "N": N, "X": X, "NODE": NODE, "CHAIN": CHAIN, "Z": Z, "G": G, "K": K, "BYTES": BYTES, "FLEX": FLEX,
             "LOST": LOST}
    return {name: file_of(f"{name}.bfbs", data) for name, data in named.items()}

# The tables of reflection.fbs as far as they are asked of schema files, each with its fields in order of their
# numbers. A `!` stands behind the type of a required field, a default behind a `=`, and brackets stand round a
# deprecated one.
REFLECTION = {
    "Type": "base_type Byte, element Byte, index Int=-1, fixed_length UShort",
    "KeyValue": "key Text, value Text",
    "EnumVal": "name Text!, value Long, [object Object], union_type Type, documentation Texts, attributes KeyValues",
    "Enum": "name Text!, values EnumVals!, is_union Bool, underlying_type Type, attributes KeyValues, "
    "documentation Texts, declaration_file Text",
    "Field": "name Text!, type Type!, id UShort, offset UShort, default_integer Long, default_real Double, "
    "deprecated Bool, required Bool, key Bool, attributes KeyValues, documentation Texts, optional Bool, "
    "[padding UShort], offset64 Bool",
    "Object": "name Text!, fields Fields!, is_struct Bool, minalign Int, bytesize Int, attributes KeyValues, "
    "documentation Texts, declaration_file Text",
    "RPCCall": "name Text, request Object, response Object, attributes KeyValues, documentation Texts",
    "Service": "name Text, calls RPCCalls, attributes KeyValues, documentation Texts, declaration_file Text",
    "SchemaFile": "filename Text, included_filenames Texts",
    "Schema": "objects Objects!, enums Enums!, file_ident Text, file_ext Text, root_table Object, services Services, "
    "advanced_features ULong, fbs_files SchemaFiles",
}


def reflection():
    """The rows of these tables."""
    types = {
        "Byte": BYTE, "Bool": BOOL, "UShort": U_SHORT, "Int": INT, "Long": LONG, "ULong": U_LONG, "Double": DOUBLE,
        "Text": TEXT, "Texts": vector(TEXT),
    }
    for number, name in enumerate(REFLECTION):
        types[name] = an_object(number)
        types[f"{name}s"] = vector(an_object(number))
    rows = []
    for name, text in REFLECTION.items():
        fields = [part.split() for part in text.split(", ")]
        rows.append(table(f"reflection.{name}", *[
            field(words[0].strip("["), types[kind.strip("]!")], 4 + 2 * number, int(default or 0),
                  required=kind.endswith("!"), deprecated=words[0].startswith("["))
            for number, words in enumerate(fields) for kind, _, default in [words[1].partition("=")]
        ]))
    return rows
