"""A verifier and a reader that only follow the rules, one after another: what the program's lines are held against.

Its schemas are the rows that schemas.py makes schema files of.
"""

import functools
import itertools
import math
import re
import struct

from tests.support.header import Reason

SIZES = [0, 1, 1, 1, 1, 2, 2, 4, 4, 8, 8, 4, 8]
LETTERS = " BBbBhHiIqQfd"
# How the numbers that these letters stand for are unpacked, and the four bytes of an identifier.
UNPACK = {letter: struct.Struct(f"<{letter}").unpack_from for letter in [*"BbHhIiQqfd", "4s"]}
BOOL, FLOAT, DOUBLE = 2, 11, 12
TEXT, VECTOR, OBJECT, UNION, ARRAY = 13, 14, 15, 16, 17
# How the bytes of a text are written that don't stand for themselves.
MARKS = {byte: f"\\x{byte:02x}" for byte in range(256) if not 0x20 <= byte <= 0x7E} | {0x22: '\\"', 0x5C: "\\\\"}
# What a piece of a path is: a field or a union's member by its name, an element by its number.
FIELD, ELEMENT, MEMBER = 1, 2, 3
# The names of all reasons by their codes, as the header has them, and of those that a plain check gives.
ALL_NAMES = {f"V{reason}": reason.name.title().replace("_", "") for reason in Reason}
NAMES = {code: name for code, name in ALL_NAMES.items() if int(code[1:]) <= Reason.TOO_MANY_READS}


class Fault(Exception):
    """The first condition that fails, by its code and place."""


def number_at(row, field):
    """What a row has as the number of a field, 0 where it has none."""
    return row[field][1] if field in row else 0


class Field:
    """A field by its row: the base type and what it's of, the element of a vector, and the length of an array."""

    def __init__(self, row):
        kind = row[1]
        self.name, self.slot, self.required = row[0], number_at(row, 3), number_at(row, 7)
        self.number = (self.slot - 4) // 2
        self.base, self.element, self.index = number_at(kind, 0), number_at(kind, 1), number_at(kind, 2)
        self.default, self.real, self.optional = number_at(row, 4), number_at(row, 5), number_at(row, 11)
        self.length = number_at(kind, 3)


@functools.cache
def kind_of(base, index):
    """A field that has only a type."""
    return Field({0: "", 1: {0: ("b", base), 2: ("i", index)}})


def live_fields(row):
    """A table's fields that aren't deprecated, in rising slot."""
    rows = [field for field in row[1] if not number_at(field, 6)]
    return sorted(map(Field, rows), key=lambda field: field.slot)


class Schema:
    """The rows, by number."""

    def __init__(self, objects, enums=()):
        self.names = [row[0] for row in objects]
        self.tables = [None if number_at(row, 2) else live_fields(row) for row in objects]
        self.structs = [(number_at(row, 4), number_at(row, 3)) if number_at(row, 2) else None for row in objects]
        self.parts = [[Field(field) for field in row[1]] if number_at(row, 2) else None for row in objects]
        self.named = [
            {field.name: field for field in (parts if fields is None else fields)}
            for fields, parts in zip(self.tables, self.parts)
        ]
        self.unions = [
            {number_at(row, 1): Field({0: row[0], 1: row.get(3, {})}) for row in union[1] if number_at(row, 1)}
            for union in enums
        ]
        for field in itertools.chain(*filter(None, self.tables)):
            field.is_inline, field.takes = self.is_inline(field), self.size(field.base, field.index)

    def is_inline(self, kind):
        """Whether values of this type stand where they belong, and not behind an offset."""
        return kind.base < TEXT or kind.base == OBJECT and self.structs[kind.index] is not None

    def size(self, base, index):
        """The size and the alignment of what stands inline."""
        if base == OBJECT and self.structs[index]:
            return self.structs[index]
        size = SIZES[base] if base < len(SIZES) else 4
        return size, size


class Walk:
    """One check of one buffer: what was read so far, and which tables are open."""

    def __init__(self, schema, root, data, depth=64, tables=1_000_000, reads=10**9, alignment=True, inline_size=False):
        self.schema, self.root, self.data, self.end = schema, root, data, len(data)
        self.depth_limit, self.table_limit, self.read_limit = depth, tables, reads
        self.alignment, self.inline_size = alignment, inline_size
        self.reads = self.tables = self.open = self.deepest = 0
        self.where = root, None
        # what is under check, step by step from the root table: the number of the table, the field, the number of the
        # element and the type of the union
        self.way = []

    def fits(self, at, size, place):
        if at < 0 or at + size > self.end:
            raise Fault("V2", place)

    def aligned(self, at, size):
        if self.alignment and at % size:
            raise Fault("V3", at)

    def stands(self, at, size, alignment):
        """What stands where an unsigned offset leads is all there, and then it is aligned."""
        if at + size > self.end:
            raise Fault("V2", at)
        if self.alignment and at % alignment:
            raise Fault("V3", at)

    def read(self, letter, at):
        self.reads += 1
        return UNPACK[letter](self.data, at)[0]

    def passed(self, at):
        """The start, a table's head, a field by itself or an element that is no table was passed."""
        if self.reads > self.read_limit:
            raise Fault("V13", at)

    def verdict(self, ident=None, prefix=True):
        """What stands behind the number in the line of this buffer."""
        try:
            self.start(ident, 4 if prefix else 0)
        except Fault as fault:
            code, at = fault.args
            owner, field = self.where
            field = "-" if field is None else field
            return f"bad {code} {NAMES[code]} at={at} object={owner} field={field} reads={self.reads}"
        return f"ok tables={self.tables} depth={self.deepest} reads={self.reads}"

    @property
    def steps(self):
        """The way to what is under check in words."""
        told = []
        for _, field, number, kind in self.way:
            member = None if kind is None else self.schema.unions[field.index].get(kind)
            element = "" if number is None else f"[{number}]"
            told.append(f"{field.name}{element}{f'@{member.name}' if member else ''}")
        return told

    @property
    def links(self):
        """The same in numbers: of the table, the field, the element and the member of each step."""
        return [(owner, field.number, number, kind) for owner, field, number, kind in self.way]

    def place(self):
        """What stands behind the line of a buffer whose verdict was a no, with --names."""
        owner, number = self.where
        names = [field.name for field in self.schema.tables[owner] if field.number == number]
        return f" in {'.'.join(self.steps) or '.'} [{'.'.join([self.schema.names[owner], *names])}]"

    def start(self, ident, base):
        if base:
            self.fits(0, 4, 0)
            if self.read("I", 0) != self.end - 4:
                raise Fault("V1", 0)
        if ident:
            self.fits(base + 4, 4, base + 4)
            if self.read("4s", base + 4) != ident:
                raise Fault("V5", base + 4)
        self.fits(base, 4, base)
        offset = self.read("I", base)
        if not offset:
            raise Fault("V4", base)
        self.passed(base)
        self.table(base + offset, self.root)

    def table(self, at, number):
        if self.open >= self.depth_limit:
            raise Fault("V6", at)
        if self.tables >= self.table_limit:
            raise Fault("V7", at)
        self.tables += 1
        self.open += 1
        self.deepest = max(self.deepest, self.open)
        before, self.where = self.where, (number, None)
        vtable, size = self.head(at)
        inline = self.read("H", vtable + 2) if self.inline_size else None
        self.passed(at)
        self.way.append(None)
        for field in self.schema.tables[number]:
            self.where = number, field.number
            self.way[-1] = number, field, None, None
            word = self.read("H", vtable + field.slot) if field.slot + 2 <= size else 0
            if word:
                self.field(at, vtable, word, inline, field)
            elif field.required:
                raise Fault("V9", at)
            else:
                self.passed(at)
        self.way.pop()
        self.where = before
        self.open -= 1

    def head(self, at):
        self.stands(at, 4, 4)
        vtable = at - self.read("i", at)
        self.fits(vtable, 2, at)
        self.aligned(vtable, 2)
        size = self.read("H", vtable)
        if size % 2 or size < 4:
            raise Fault("V8", vtable)
        self.fits(vtable, size, vtable)
        return vtable, size

    def field(self, at, vtable, word, inline, field):
        """A field that is present."""
        is_union, is_unions = field.base == UNION, field.base == VECTOR and field.element == UNION
        types = self.types_of(at, vtable, field, is_unions) if is_union or is_unions else None
        member = self.schema.unions[field.index].get(types) if is_union else None
        if is_union and not member:
            self.passed(at)
            return
        place = at + word
        length, alignment = field.takes
        if inline is not None and word + length > inline:
            raise Fault("V12", place)
        if field.is_inline:
            self.stands(place, length, alignment)
            self.passed(at)
        elif field.base == VECTOR:
            self.vector(self.offset(place), at, field, types)
        else:
            self.passed(at)
            if is_union:
                self.way[-1] = self.where[0], field, None, types
            self.value(place, member or field)

    def types_of(self, at, vtable, field, is_unions):
        """The type of a union, or the place and the count of a vector of unions' types, which were checked before."""
        word = self.read("H", vtable + field.slot - 2)
        if not is_unions:
            return self.read("B", at + word) if word else 0
        if not word:
            return None, 0
        types = at + word + self.read("I", at + word)
        return types, self.read("I", types)

    def offset(self, at):
        """Where the offset word there leads."""
        self.stands(at, 4, 4)
        offset = self.read("I", at)
        if not offset:
            raise Fault("V4", at)
        return at + offset

    def value(self, at, kind):
        """A table, a string, or a union's struct, to which the offset there leads."""
        target = self.offset(at)
        if kind.base == OBJECT and not self.schema.structs[kind.index]:
            self.table(target, kind.index)
            return
        if kind.base == TEXT:
            self.text(target)
        else:
            self.stands(target, *self.schema.structs[kind.index])
        self.passed(at)

    def text(self, at):
        self.stands(at, 4, 4)
        count = self.read("I", at)
        self.fits(at + 4, count + 1, at + 4)
        if self.read("B", at + 4 + count):
            raise Fault("V10", at + 4 + count)

    def vector(self, at, table, field, types):
        self.stands(at, 4, 4)
        count = self.read("I", at)
        size, alignment = self.schema.size(field.element, field.index)
        self.fits(at + 4, count * size, at + 4)
        if count:
            self.aligned(at + 4, alignment)
        if field.element == UNION and count != types[1]:
            raise Fault("V11", at)
        self.passed(table)
        if field.element == UNION:
            self.unions(at, count, field, types[0])
        elif field.element == TEXT or field.element == OBJECT and not self.schema.structs[field.index]:
            kind = kind_of(field.element, field.index)
            owner, _ = self.where
            for number in range(count):
                self.way[-1] = owner, field, number, None
                self.value(at + 4 + 4 * number, kind)

    def unions(self, at, count, field, types):
        owner, _ = self.where
        for number in range(count):
            kind = self.read("B", types + 4 + number)
            member = self.schema.unions[field.index].get(kind)
            self.way[-1] = owner, field, number, kind
            if member:
                self.value(at + 4 + 4 * number, member)
            else:
                self.passed(at + 4 + 4 * number)


def pieces_in(path):
    """The pieces of which a path is made."""
    for name, number, member in re.findall(r"(?:^|\.)(\w+)|\[(\d+)\]|@(\w+)", path):
        yield (FIELD, name) if name else (ELEMENT, int(number)) if number else (MEMBER, member)


def refusal(paths):
    """Why these paths are refused before anything is read; or None. What begins a further step is counted as written."""
    if len(paths) > 16:
        return "more than 16 paths"
    if len({*paths}) < len(paths):
        return "the same path twice"
    steps = sum(1 + sum(path.count(byte) for byte in ".[@") for path in paths)
    return "more than 1024 steps in all paths" if steps > 1024 else None


class Reader:
    """Reads values of a buffer that is good.

    A place is a type, a position, and of a union its type, of a vector of unions the position of their types.
    """

    def __init__(self, schema, root, data, prefix=True):
        self.schema, self.root, self.data, self.base = schema, root, data, 4 if prefix else 0

    def read(self, letter, at):
        return UNPACK[letter](self.data, at)[0]

    def behind(self, at):
        return at + self.read("I", at)

    def start(self):
        """The place of the root table."""
        return kind_of(OBJECT, self.root), self.behind(self.base), None

    def step(self, place, piece):
        """Where a piece of a path leads from a place, or the text of what stands there where nothing more does."""
        what, word = piece
        if what == FIELD:
            return self.field(place, word)
        return self.element(place, word) if what == ELEMENT else self.member(place, word)

    def values(self, ways):
        """The texts of the values at the ends of paths. A path is told by the number of the one that it goes on from,
        from 1 on, and its last piece; 0 is the number of the root table."""
        places = [self.start()]
        for before, piece in ways:
            place = places[before]
            places.append(place if isinstance(place, str) else self.step(place, piece))
        return [place if isinstance(place, str) else self.shown(*place) for place in places[1:]]

    def value(self, path):
        """The text of the value at a path."""
        return self.values(list(enumerate(pieces_in(path))))[-1]

    def slot(self, at, slot):
        """The place of what has this slot in the table there, None where it's absent."""
        vtable = at - self.read("i", at)
        word = self.read("H", vtable + slot) if slot + 2 <= self.read("H", vtable) else 0
        return at + word if word else None

    def field(self, place, name):
        kind, at, _ = place
        field = self.schema.named[kind.index][name]
        if self.schema.structs[kind.index]:
            return field, at + field.slot, None
        here = self.slot(at, field.slot)
        if here is None:
            return "absent" if field.optional or field.base > DOUBLE else default_text(field)
        if field.base == UNION:
            types = self.slot(at, field.slot - 2)
            return field, here, self.read("B", types) if types else 0
        if field.base == VECTOR and field.element == UNION:
            types = self.slot(at, field.slot - 2)
            return field, self.behind(here), self.behind(types) if types else None
        return field, here if field.is_inline else self.behind(here), None

    def element(self, place, number):
        kind, at, types = place
        count, first = (kind.length, at) if kind.base == ARRAY else (self.read("I", at), at + 4)
        if number >= count:
            return "no-element"
        element = kind_of(kind.element, kind.index)
        here = first + number * self.schema.size(element.base, element.index)[0]
        if element.base == UNION:
            return element, here, self.read("B", types + 4 + number)
        return element, here if self.schema.is_inline(element) else self.behind(here), None

    def member(self, place, name):
        kind, at, value = place
        member = self.schema.unions[kind.index].get(value)
        if member is None or member.name != name:
            return "other-member"
        return member, self.behind(at), None

    def shown(self, kind, at, value):
        base = kind.base
        if base < TEXT:
            return number_text(base, self.data[at : at + SIZES[base]])
        if base == TEXT:
            return quoted(self.data[at + 4 : at + 4 + self.read("I", at)])
        if base == VECTOR:
            return f"vector:{self.read('I', at)}"
        if base == ARRAY:
            return f"vector:{kind.length}"
        if base == UNION:
            return f"union:{value}"
        sizes = self.schema.structs[kind.index]
        return f"struct:{self.data[at : at + sizes[0]].hex()}" if sizes else "table"


class Default(str):
    """The default of a float, by its bytes. A plain line tells it as absent."""

    def __new__(cls, data):
        made = super().__new__(cls, "absent")
        made.data = data
        return made


def default_text(field):
    if field.base < FLOAT:
        return whole_text(field.base, field.default)
    try:
        return Default(struct.pack(f"<{LETTERS[field.base]}", field.real))
    except OverflowError:
        return Default(struct.pack("<f", math.copysign(math.inf, field.real)))


@functools.cache
def whole_text(base, default):
    return number_text(base, struct.pack("<q", default)[: SIZES[base]])


def number_text(base, data):
    if base >= FLOAT:
        return f"float:{data.hex()}"
    number = UNPACK[LETTERS[base]](data)[0]
    return str(number != 0).lower() if base == BOOL else str(number)


def quoted(data):
    return f'"{data.decode("latin-1").translate(MARKS)}"'
