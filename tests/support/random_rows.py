"""Rows of schemas at random: mostly legal, with now and then what a schema may not have."""

import random
import struct

from tests.support import schemas
from tests.support.naive import DOUBLE, FLOAT, OBJECT, TEXT, UNION, VECTOR
from tests.support.schemas import NONE, U_BYTE, U_TYPE, a_struct, array, field, table, vector

NAMES = [*"abcdefghij", "", "k"]
ARRAY, VECTOR64 = 17, 18
LEAST, MOST = -(2**31), 2**31 - 1

# Alignments that structs may have, the small ones more often, and those that none may have.
ALIGNMENTS = [1, 1, 2, 2, 4, 4, 4, 8, 8, 8, 16, 16, 32, 64, 128, 256]
WRONG_ALIGNMENTS = [3, 0, 512, -1, -4, 257, 6, LEAST]

# Types of which no field of a table can be, each with an element.
WRONG_TYPES = [(0, 0), (VECTOR, VECTOR), (ARRAY, 4), (VECTOR64, 4), (VECTOR, 0), (19, 0), (-1, 0), (VECTOR, ARRAY)]

# Types of which no field of a struct can be, or not always.
WRONG_IN_STRUCTS = [(TEXT, 0), (VECTOR, 4), (OBJECT, 0), (ARRAY, OBJECT), (ARRAY, TEXT), (0, 0), (UNION, 0)]


class Random(random.Random):
    """Numbers that look random, the same in every run."""

    def once_in(self, times):
        """True once in so many times."""
        return self.random() * times < 1

    def below(self, count):
        """A number below this one, as randrange chooses it."""
        bits = count.bit_length()
        number = self.getrandbits(bits)
        while number >= count:
            number = self.getrandbits(bits)
        return number

    def shuffled(self, items):
        """These items in any order, as sample chooses it."""
        rest, chosen = list(items), []
        while rest:
            place = self.below(len(rest))
            chosen.append(rest[place])
            rest[place] = rest[-1]
            rest.pop()
        return chosen


class Maker:
    """Makes rows of which one choice of so many is a wrong one; none where that is 0."""

    def __init__(self, dice, wrong_once_in):
        self.dice, self.wrong_once_in = dice, wrong_once_in
        self.count = dice.randint(1, 4)
        self.structs = [self.struct_size() if dice.once_in(3) else None for _ in range(self.count)]
        self.unions = [True, dice.once_in(2)][: dice.randrange(3)]

    def struct_size(self):
        """The size of a struct: mostly a small one."""
        return self.dice.randint(25, 300) if self.dice.once_in(4) else self.dice.randint(1, 24)

    def errs(self):
        """Whether the next choice is a wrong one."""
        return self.wrong_once_in > 0 and self.dice.once_in(self.wrong_once_in)

    def an_object(self):
        """The number of an object."""
        return self.dice.choice([-1, 4, 7, MOST, LEAST]) if self.errs() else self.dice.randrange(self.count)

    def a_union(self):
        """The number of a union; a wrong one more often than elsewhere, since unions are few."""
        if self.wrong_once_in and self.dice.once_in(5):
            return self.dice.choice([-1, 1, 2, MOST, LEAST])
        return self.dice.choice([number for number, is_union in enumerate(self.unions) if is_union])

    def single(self):
        """The base type of one value of a table."""
        choice = self.dice.randrange(7)
        if choice == 2:
            return TEXT
        if choice in (3, 4):
            return OBJECT
        return UNION if choice > 4 and self.unions else self.dice.randint(1, 12)

    def typed(self, base, element=0):
        """A type, with the number of an object or enum where it needs one."""
        held = element if base == VECTOR else base
        if held == OBJECT:
            return base, element, self.an_object()
        if held == UNION and self.unions:
            return base, element, self.a_union()
        return base, element, self.dice.choice([-1, 0, 99])

    def table_type(self):
        """The type of a table's field."""
        if self.errs():
            return self.typed(*self.dice.choice(WRONG_TYPES))
        held = self.single()
        return self.typed(VECTOR, held) if self.dice.once_in(3) else self.typed(held)

    def name(self, place):
        return NAMES[0 if self.errs() else min(place, len(NAMES) - 1)]

    def field(self, place, slot, kind, deprecated=False):
        """A field at this place of its list."""
        dice = self.dice
        slot = dice.choice([4, 2, 0, 5, 65534, 65535]) if self.errs() else slot
        default = dice.getrandbits(64) >> dice.randrange(64)
        default -= 2**64 if default >= 2**63 else 0
        real = struct.unpack(">d", struct.pack("<q", default))[0] if kind[0] in (FLOAT, DOUBLE) else None
        return field(self.name(place), kind, slot, default, real, deprecated=deprecated or self.errs(),
                     required=dice.once_in(8), optional=dice.once_in(6), offset64=self.errs())

    def added(self, fields, slot):
        """Adds a field of a table, behind its type field where it needs one, from this slot on. The next slot."""
        kind = self.table_type()
        types = U_TYPE if kind[0] == UNION else vector(U_TYPE) if kind[:2] == (VECTOR, UNION) else None
        if types and not self.errs():
            fields.append(self.field(len(fields), slot, vector(U_TYPE) if self.errs() else types))
            slot += 2
        fields.append(self.field(len(fields), slot, kind, not types and self.dice.once_in(8)))
        return slot + 2

    def a_table(self, name):
        fields, slot = [], 4
        for _ in range(self.dice.randrange(6)):
            slot = self.added(fields, slot) + 2 * self.dice.once_in(4)
        if self.dice.once_in(3):
            fields.reverse()
        return table(name, *fields)

    def struct_type(self, size):
        """The type of a struct's field, and its size."""
        choice, inner = self.dice.randrange(4), self.dice.randrange(self.count)
        if choice == 0 and size >= 8:
            return (self.dice.randint(1, 12),), 8
        if choice == 1 and self.structs[inner] and self.structs[inner] <= size:
            return schemas.an_object(inner), self.structs[inner]
        return (array(U_BYTE, size), size) if choice == 2 else (U_BYTE, 1)

    def wrong_in_struct(self):
        base, element = self.dice.choice(WRONG_IN_STRUCTS)
        return base, element, self.dice.choice([0, 1, 2, 3, 9, -1]), self.dice.choice([0, 1, 2, 65535])

    def a_struct(self, name, size):
        fields = []
        for place in range(self.dice.randrange(4)):
            kind, taken = self.struct_type(size)
            kind = self.wrong_in_struct() if self.errs() else kind
            fields.append(self.field(place, self.dice.randint(0, size - taken), kind))
        alignment = self.dice.choice(WRONG_ALIGNMENTS if self.errs() else ALIGNMENTS)
        size = self.dice.choice([0, -1, 1, LEAST]) if self.errs() else size
        return a_struct(name, size, alignment, *fields)

    def member_type(self):
        if self.errs():
            return self.dice.choice([NONE, U_BYTE, (VECTOR,), (UNION,)])
        return (TEXT,) if self.dice.once_in(4) else self.typed(OBJECT)

    def members(self):
        """The members of a union, with gaps between their values, and now and then one without a value."""
        members, value = [], self.dice.randrange(2)
        for place in range(self.dice.randrange(5)):
            told = self.dice.choice([256, -1, 1, 2**63 - 1, -(2**63)]) if self.errs() else value
            members.append((self.name(place), told, self.member_type()))
            value += self.dice.randint(1, 60)
        if self.dice.once_in(3):
            members.reverse()
        return members

    def rows(self):
        """The objects and the enums of a schema."""
        objects, enums = [], []
        for number, size in enumerate(self.structs):
            name = "ABCD"[0 if self.errs() else number]
            objects.append(self.a_struct(name, size) if size else self.a_table(name))
        for number, is_union in enumerate(self.unions):
            row = schemas.union("ABCD"[number], *self.members())
            enums.append({**row, 2: ("B", int(is_union))})
        return objects, enums
