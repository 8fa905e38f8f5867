"""What the look-ups of a schema should answer, as `test_probe list` tells it, worked out of a description of the schema in
JSON as flatc writes it.
"""

import struct

from tests.support import schemas
from tests.support.naive import number_at

# What a base type holds one of, from number 1 on, and its bytes.
SCALARS = dict(enumerate([
    ("UType", 1), ("Bool", 1), ("Byte", 1), ("UByte", 1), ("Short", 2), ("UShort", 2),
    ("Int", 4), ("UInt", 4), ("Long", 8), ("ULong", 8), ("Float", 4), ("Double", 8),
], 1))
FLOAT, DOUBLE, TEXT, VECTOR, OBJECT, UNION = 11, 12, 13, 14, 15, 16


class Listing:
    """The lines for one file."""

    def __init__(self, schema):
        self.objects = schema["objects"]
        self.enums = schema["enums"]
        self.schema = schema

    def kind(self, type_):
        """The kind of a field or a member, with its size and alignment."""
        base, index = type_.get("base_type", 0), type_.get("index", -1)
        many = base == VECTOR
        held = type_.get("element", 0) if many else base
        plural = "s" if many else ""
        if held in SCALARS:
            name, size = SCALARS[held]
            return f"Scalar{plural}({name})", size, size
        if held == TEXT:
            return f"Text{plural}", 4, 4
        if held == UNION:
            return f"Union{plural}({index})", 4, 4
        assert held == OBJECT, type_
        target = self.objects[index]
        if target.get("is_struct"):
            return f"Struct{plural}({index})", target["bytesize"], target["minalign"]
        return f"Table{plural}({index})", 4, 4

    def members(self, number):
        """The lines of a union's members, by their values."""
        values = {value.get("value", 0): value for value in self.enums[number]["values"]}
        return [
            f"member {number} value={place} kind={self.kind(values[place]['union_type'])[0]}"
            for place in sorted(values)
            if place != 0
        ]

    def field(self, field, live):
        """The lines of a live field, `live` being those of its table."""
        kind, size, align = self.kind(field["type"])
        companion = "None"
        if kind.startswith("Union"):
            below = [other["offset"] for other in live].index(field["offset"] - 2)
            companion = f"Some({below})"
        line = (
            f"field {field.get('id', 0)} slot={field['offset']} name={spelled(field['name'])} kind={kind}"
            f" default={default_of(field)} required={written(field, 'required')}"
            f" optional={written(field, 'optional')} size={size} align={align} companion={companion}"
        )
        return [line, *(self.members(field["type"]["index"]) if companion != "None" else [])]

    def object(self, number):
        """The lines of an object."""
        it = self.objects[number]
        yield (
            f"object {number} name={spelled(it['name'])} struct={written(it, 'is_struct')}"
            f" minalign={it.get('minalign', 0)} bytesize={it.get('bytesize', 0)}"
        )
        if not it.get("is_struct"):
            live = [field for field in it["fields"] if not field.get("deprecated")]
            live.sort(key=lambda field: field["offset"])
            for field in live:
                yield from self.field(field, live)

    def lines(self):
        names = [it["name"] for it in self.objects]
        root = self.schema.get("root_table")
        yield "root=" + (f"Some({names.index(root['name'])})" if root else "None")
        ident = self.schema.get("file_ident")
        yield "ident=" + ("None" if ident is None else f"Some({spelled(ident)})")
        for number in range(len(self.objects)):
            yield from self.object(number)


def default_of(field):
    """The default that a look-up answers: of a Float or Double the bits of its real one."""
    if field["type"].get("base_type") in (FLOAT, DOUBLE):
        return struct.unpack("<q", struct.pack("<d", field.get("default_real", 0)))[0]
    return field.get("default_integer", 0)


def written(table, name):
    return "true" if table.get(name) else "false"


def spelled(name):
    """A name as `test_probe list` writes it: its bytes."""
    return list(name.encode(errors="surrogateescape"))


def described_type(row):
    """A type's row in the words of that JSON."""
    words = ["base_type", "element", "index", "fixed_length"]
    return {word: number_at(row, field) for field, word in enumerate(words)} if row else {}


def described_field(row):
    """A field, whose number is that of its slot, whatever the row has as its id."""
    words = {3: "offset", 4: "default_integer", 5: "default_real", 6: "deprecated", 7: "required", 11: "optional"}
    told = {words[at]: number_at(row, at) for at in words}
    return {"name": row[0], "type": described_type(row[1]), "id": (told["offset"] - 4) // 2, **told}


def described_object(row):
    words = {2: "is_struct", 3: "minalign", 4: "bytesize"}
    return {"name": row[0], "fields": [described_field(field) for field in row[1]],
            **{words[at]: number_at(row, at) for at in words}}


def described(row):
    """The description of a row of the table Schema, as schemas.py has rows."""
    values = [[{"value": number_at(member, 1), "union_type": described_type(member.get(3))} for member in row[1]]
              for row in row[1]]
    told = {"objects": [described_object(row) for row in row[0]], "enums": [{"values": each} for each in values]}
    told |= {"file_ident": row[2]} if 2 in row else {}
    return told | ({"root_table": {"name": row[4][0]}} if 4 in row else {})


def built_in():
    """The lines of the built-in table by its rows that were typed anew. Each table may stand anywhere."""
    listing = Listing(described({0: [{**row, 3: ("i", 1)} for row in schemas.reflection()], 1: []}))
    return [line for number in range(len(listing.objects)) for line in listing.object(number)]
