"""Buffers at random that are mostly well formed by a schema, and what may be done to their bytes."""

import struct

from tests.support.naive import OBJECT, TEXT, UNION, VECTOR

MOST_TABLES = 16


class Entry:
    """A field that is present: the size and alignment of its value or of one element, and its place in the table.

    `inline` has the size and alignment of what stands in the table itself, and whether that's the value.
    """

    def __init__(self, field, size, alignment):
        self.field, self.size, self.alignment, self.at = field, size, alignment, 0
        is_value = field.base < TEXT or field.base == OBJECT and size != 0
        self.inline = (size, alignment, True) if is_value else (4, 4, False)


def round_up(at, alignment):
    return at + -at % (alignment or 1)


class Builder:
    """A buffer in the making, by the rows of a schema. What is to be written later stands in `pending`."""

    def __init__(self, dice, schema):
        self.dice, self.schema = dice, schema
        self.data, self.pending, self.vtables = bytearray(), [], []

    def kept(self, alignment):
        """An alignment for what has this one: now and then half of it."""
        return alignment // 2 if alignment > 1 and self.dice.once_in(30) else alignment

    def put(self, number):
        self.data += number.to_bytes(4, "little")

    def noise(self, count):
        """Bytes at random, of which half are 0."""
        if count:
            zeros, more = self.dice.randbytes(count), self.dice.randbytes(count)
            self.data += bytes([byte if zero < 128 else 0 for zero, byte in zip(zeros, more)])

    def pad(self, alignment, ahead=0):
        """Zeros up to a multiple of this alignment, counted from so many bytes behind the next."""
        self.data += bytes(-(len(self.data) + ahead) % (alignment or 1))

    def lead(self, word):
        """Lets the offset word at a position lead to what is written next."""
        struct.pack_into("<I", self.data, word, len(self.data) - word)

    def sizes(self, field):
        """The size and alignment of a field's value or of one element; a size of 0 for a table."""
        base = field.element if field.base == VECTOR else field.base
        if base == OBJECT:
            return self.schema.structs[field.index] or (0, 4)
        return self.schema.size(base, field.index)

    def entries(self, fields, depth):
        """The fields that are present, in any order."""
        found = []
        for field in self.dice.shuffled(fields):
            if self.dice.once_in(60 if field.required else 4):
                continue
            size, alignment = self.sizes(field)
            if depth or field.base != OBJECT or size:
                found.append(Entry(field, size, alignment))
        return found

    def laid_out(self, entries):
        """Gives the entries their places from 4 on. Answers the size of the table, and its alignment."""
        end, widest = 4, 4
        for entry in entries:
            size, alignment, _ = entry.inline
            entry.at = round_up(end, self.kept(alignment))
            end, widest = entry.at + size, max(widest, alignment)
        return end, widest

    def vtable(self, entries, size):
        """The bytes of a vtable, now and then with a slot too many or a size one too small."""
        slots = max([entry.field.slot for entry in entries], default=2) // 2 + 1 + self.dice.once_in(3)
        words = [2 * slots, size - self.dice.once_in(30)] + [0] * (slots - 2)
        for entry in entries:
            words[entry.field.slot // 2] = entry.at
        return struct.pack(f"<{slots}H", *words)

    def vtable_at(self, vtable):
        """Where these bytes stand as a vtable, written unless they stand there."""
        for at in self.vtables:
            if self.data[at : at + len(vtable)] == vtable:
                return at
        self.pad(2)
        self.vtables.append(len(self.data))
        self.data += vtable
        return self.vtables[-1]

    def text(self, word):
        self.pad(4)
        self.lead(word)
        count = self.dice.below(6)
        self.put(count)
        self.noise(count)
        self.data.append(0)

    def vector(self, word, count, size, alignment):
        """A vector of so many elements, of which the first stands at the answer."""
        self.pad(self.kept(max(alignment, 4)), 4)
        self.lead(word)
        self.put(count)
        first = len(self.data)
        self.noise(count * size)
        return first

    def later(self, word, number, depth):
        self.pending.append((word, number, max(depth - 1, 0)))

    def union_type(self, number):
        """A type of a union, mostly one that it has."""
        values = list(self.schema.unions[number])
        return self.dice.choice(values) if values and not self.dice.once_in(12) else self.dice.below(256)

    def union_value(self, word, number, value, depth):
        """What stands behind the offset word of a union's value."""
        member = self.schema.unions[number].get(value)
        if member is None:
            return
        if member.base == TEXT:
            self.text(word)
        elif self.schema.structs[member.index] is None:
            self.later(word, member.index, depth)
        else:
            size, alignment = self.schema.structs[member.index]
            self.pad(self.kept(alignment))
            self.lead(word)
            self.noise(size)

    def union_vector(self, word, types, number, depth):
        """A vector of unions, and the vector of their types behind the other offset word."""
        count = 0 if types is None else self.dice.below(4)
        first_type = None if types is None else self.vector(types, count, 1, 1)
        first = self.vector(word, count + self.dice.once_in(15), 4, 4)
        for place in range(count):
            value = self.union_type(number)
            self.data[first_type + place] = value
            self.union_value(first + 4 * place, number, value, depth)

    def filled_vector(self, word, entry, depth):
        """A vector, and what its elements lead to."""
        field = entry.field
        is_tables = field.element == OBJECT and entry.size == 0
        size, alignment = (4, 4) if is_tables or field.element == TEXT else (entry.size, entry.alignment)
        count = self.dice.below(4) if not is_tables else self.dice.below(3) if depth else 0
        first = self.vector(word, count, size, alignment)
        for at in range(first, first + 4 * count, 4):
            if field.element == TEXT:
                self.text(at)
            elif is_tables:
                self.later(at, field.index, depth)

    def types_of(self, table, field, entries):
        """The position of the type of a union, or of a vector of types, None where it's absent."""
        below = [table + other.at for other in entries if other.field.slot + 2 == field.slot]
        return below[0] if below else None

    def fill(self, table, entry, entries, depth):
        """What a field of a table at a position leads to."""
        field, word = entry.field, table + entry.at
        is_union = field.base == UNION or field.base == VECTOR and field.element == UNION
        types = self.types_of(table, field, entries) if is_union else None
        if field.base == UNION:
            if types is not None:
                value = self.union_type(field.index)
                self.data[types] = value
                self.union_value(word, field.index, value, depth)
        elif is_union:
            self.union_vector(word, types, field.index, depth)
        elif field.base == VECTOR:
            self.filled_vector(word, entry, depth)
        elif field.base == TEXT:
            self.text(word)
        elif not entry.inline[2]:
            self.later(word, field.index, depth)

    def table(self, word, number, depth):
        """Writes a table."""
        entries = self.entries(self.schema.tables[number], depth)
        size, alignment = self.laid_out(entries)
        vtable = self.vtable_at(self.vtable(entries, size))
        self.pad(self.kept(alignment))
        at = len(self.data)
        self.lead(word)
        self.put((at - vtable) % 2**32)
        self.noise(size - 4)
        for entry in entries:
            self.fill(at, entry, entries, depth)

    def built(self, root, prefixed, ident):
        """A buffer with this root, behind a size where that's asked for, with an identifier where there is one."""
        word = 4 if prefixed else 0
        self.data += bytes(word + 4) + (ident or b"")
        self.later(word, root, self.dice.below(5))
        for _ in range(MOST_TABLES):
            if self.pending:
                self.table(*self.pending.pop())
        if prefixed:
            struct.pack_into("<I", self.data, 0, len(self.data) - 4)
        return bytes(self.data)


def damaged(dice, data):
    """Up to three bytes changed, and now and then the end cut off."""
    data = bytearray(data)
    for _ in range(dice.below(4)):
        data[dice.below(len(data))] = dice.choice([dice.below(256), dice.below(16), 0])
    return bytes(data[: dice.below(len(data)) if dice.once_in(10) else None])
