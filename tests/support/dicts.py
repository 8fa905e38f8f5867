"""What a dict of a table has, told value by value: by the rows of a schema, and by what is read at paths."""

import struct

from tests.support.naive import ARRAY, BOOL, ELEMENT, FIELD, LETTERS, MEMBER, OBJECT, SIZES, TEXT, UNION, VECTOR

STEPS = 31
U_TYPE, U_BYTE = 1, 4
NO_INDEX = -1


def path_of(module, steps):
    """The path of these steps, each a kind and a number, for the package."""
    rest = [(0, 0)] * (STEPS - len(steps))
    words = [len(steps), 0, *[word for step in [*steps, *rest] for word in step]]
    return module.Path(str(steps), struct.pack(f"<{len(words)}I", *words) + b"B-\xff\xff\xff\xff")


class Told:
    """The dict of a message's root table, by a schema of naive.py; read(path) tells the values."""

    def __init__(self, module, schema, enums, read):
        self.module, self.schema = module, schema
        self.names = [{row[1][1] if 1 in row else 0: row[0] for row in union[1]} for union in enums]
        self.read = lambda steps: read(path_of(module, steps))

    def table(self, number, steps=()):
        fields = self.schema.tables[number]
        unions = {field.slot - 2: field for field in fields if UNION in (field.base, field.element)}
        return {field.name: self.value(field, (*steps, (FIELD, field.number)), unions.get(field.slot))
                for field in fields}

    def struct(self, number, steps):
        """The fields stand in the order of their places."""
        parts = [*enumerate(self.schema.parts[number])]
        parts.sort(key=lambda part: (part[1].slot, part[0]))
        return {part.name: self.value(part, (*steps, (FIELD, number)), None) for number, part in parts}

    def value(self, field, steps, union):
        """The value of a field; of one with the types of a union, or of several, the names of these."""
        if field.base == VECTOR:
            return self.vector(field, steps, union)
        if field.base == ARRAY:
            return [self.one(field.element, field.index, (*steps, (ELEMENT, at))) for at in range(field.length)]
        got = self.one(field.base, field.index, steps)
        return got if union is None else self.name(union, got)

    def name(self, union, type):
        return self.names[union.index].get(type, type)

    def vector(self, field, steps, union):
        got = self.read(steps)
        if got is None:
            return None
        if field.element == U_BYTE and field.index == NO_INDEX:
            return bytes(got)
        if field.element >= TEXT:
            if field.element == OBJECT and self.schema.structs[field.index]:
                count = len(got) // self.schema.structs[field.index][0]
            else:
                count = got.count
            return [self.one(field.element, field.index, (*steps, (ELEMENT, at))) for at in range(count)]
        told = struct.unpack(f"<{len(got) // SIZES[field.element]}{LETTERS[field.element]}", got)
        if union is not None:
            return [self.name(union, type) for type in told]
        return [*map(bool, told)] if field.element == BOOL else [*told]

    def one(self, base, index, steps):
        """A value that is no vector and no array."""
        if base == OBJECT:
            if self.read(steps) is None:
                return None
            return (self.struct if self.schema.structs[index] else self.table)(index, steps)
        if base != UNION:
            return self.read(steps)
        got = self.read(steps)
        member = None if got is None else self.schema.unions[index].get(got.type)
        return None if member is None else self.one(member.base, member.index, (*steps, (MEMBER, got.type)))
