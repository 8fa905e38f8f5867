"""A checker of what is demanded beside the rules of the format: the plain walk, and then a plain pass over its visits.

Demands are of unions, of nested buffers, of slots and of texts. A mark says what the bytes of a field hold: the name of
a table, as an attribute writes it, or FLEX.
"""

import dataclasses

from tests.support.naive import ALL_NAMES, OBJECT, TEXT, UNION, UNPACK, VECTOR, Fault, Walk, number_at

# What the bytes of a field hold that isn't a buffer.
FLEX = 0
U_BYTE, LEAST = 4, 12


@dataclasses.dataclass(frozen=True)
class Demands:
    """What is demanded."""

    unions: bool = False
    nested: bool = False
    known_fields: bool = False
    utf8: bool = False


STRICT = Demands(unions=True, nested=True)
EVERYTHING = Demands(True, True, True, True)


def holds_bytes(field):
    """Whether a field is a vector of bytes, by its row's type."""
    return number_at(field, 0) == VECTOR and number_at(field, 1) == U_BYTE


def marks_of(objects):
    """The marks of rows by object and slot: of vectors of bytes that aren't deprecated and have such an attribute."""
    marks = {}
    for number, row in enumerate(objects):
        for field in row[1]:
            pairs = [(pair.get(0, ""), pair.get(1, "")) for pair in field.get(9, [])]
            names = [value for key, value in pairs if key == "nested_flatbuffer"]
            is_flex = any(key == "flexbuffer" for key, _ in pairs)
            if (names or is_flex) and holds_bytes(field[1]) and not number_at(field, 6):
                marks[number, number_at(field, 3)] = names[0] if names else FLEX
    return marks


def lacks_marks(objects):
    """Whether a vector of bytes that isn't deprecated has no mark, in a file which doesn't show that it would."""
    marks, shown, bare = marks_of(objects), False, False
    for number, row in enumerate(objects):
        for field in row[1]:
            keys = {pair.get(0, "") for pair in field.get(9, [])}
            flags = {"deprecated": 6, "required": 7, "key": 8}
            shown |= any(number_at(field, place) and flag in keys for flag, place in flags.items())
            is_table, is_live = not number_at(row, 2), not number_at(field, 6)
            bare |= is_table and is_live and holds_bytes(field[1]) and (number, number_at(field, 3)) not in marks
    return bare and not shown


def found_from(schema, owner, name):
    """The table that a name in the table `owner` means: that of the innermost namespace, none where no table is."""
    around = schema.names[owner].split(".")[:-1]
    for depth in range(len(around), -1, -1):
        whole = ".".join([*around[:depth], name])
        for number, fields in enumerate(schema.tables):
            if fields is not None and schema.names[number] == whole:
                return number
    return None


class Plan:
    """What is asked of the tables of a schema: which of them are visited, and what their fields hold."""

    def __init__(self, schema, demands, marks=None):
        self.schema, self.demands = schema, demands
        self.holds = {}
        for (owner, slot), mark in (marks or {}).items() if demands.nested else ():
            self.holds[owner, slot] = FLEX if mark == FLEX else (found_from(schema, owner, mark),)
        self.asked = self.tables() if demands.known_fields else set()
        while more := self.tables_with_tasks() - self.asked:
            self.asked |= more

    def tables(self):
        return {number for number, fields in enumerate(self.schema.tables) if fields is not None}

    def tables_with_tasks(self):
        """The tables of which a field is asked, as far as is known by now."""
        return {
            owner for owner, fields in enumerate(self.schema.tables)
            if fields is not None and any(self.is_task(owner, field) for field in fields)
        }

    def is_task(self, owner, field):
        """Whether anything is asked of a field, or of what it leads to."""
        if (owner, field.slot) in self.holds:
            return True
        base = field.element if field.base == VECTOR else field.base
        if base == UNION:
            members = self.schema.unions[field.index].values()
            return self.demands.unions or any(self.is_asked(member.base, member.index) for member in members)
        return self.is_asked(base, field.index)

    def is_asked(self, base, index):
        """Whether anything is asked of what a word of this type leads to."""
        return self.demands.utf8 if base == TEXT else base == OBJECT and index in self.asked


class Strict:
    """One check of one buffer, with those inside it. What is counted is counted of all of them together."""

    def __init__(self, plan, root, data, depth=64, tables=1_000_000, reads=10**9, alignment=True, inline_size=False):
        self.plan, self.root, self.data = plan, root, data
        self.depth_limit, self.table_limit, self.read_limit = depth, tables, reads
        self.checks = {"alignment": alignment, "inline_size": inline_size}
        self.tables = self.deepest = self.reads = 0
        self.where = root, None

    def verdict(self, ident=None, prefix=True):
        """What stands behind the number in the line of this buffer."""
        try:
            self.buffer(self.data, 0, self.root, 0, ident, 4 if prefix else 0)
        except Fault as fault:
            code, at = fault.args
            owner, field = self.where
            field = "-" if field is None else field
            return f"bad {code} {ALL_NAMES[code]} at={at} object={owner} field={field} reads={self.reads}"
        return f"ok tables={self.tables} depth={self.deepest} reads={self.reads}"

    def buffer(self, data, begin, root, above, ident=None, base=0):
        """A buffer that begins there in the one around it, above whose root so many tables are open."""
        walk = Walk(
            self.plan.schema, root, data, self.depth_limit - above, self.table_limit - self.tables,
            self.read_limit - self.reads, **self.checks,
        )
        try:
            self.walked(walk, ident, base)
            self.where = root, None
            if self.plan.demands.unions and len(data) < LEAST:
                raise Fault("V2", len(data))
            if root in self.plan.asked:
                level = Level(self, data, above)
                level.table(base + UNPACK["I"](data, base)[0], root)
        except Fault as fault:
            code, at = fault.args
            raise Fault(code, begin + at) from None

    def walked(self, walk, ident, base):
        """The walk, whose counts are added, and whose place is told where it finds a fault."""
        try:
            walk.start(ident, base)
            self.deepest = max(self.deepest, self.depth_limit - walk.depth_limit + walk.deepest)
        finally:
            self.where = walk.where
            self.reads += walk.reads
            self.tables += walk.tables


class Level:
    """The pass over one buffer. Positions are told in it; above its root so many tables are open."""

    def __init__(self, check, data, above):
        self.check, self.data, self.open = check, data, above
        self.plan, self.schema, self.demands = check.plan, check.plan.schema, check.plan.demands

    def read(self, letter, at):
        self.check.reads += 1
        return UNPACK[letter](self.data, at)[0]

    def passed(self, at):
        """What is one of the things asked was read."""
        if self.check.reads > self.check.read_limit:
            raise Fault("V13", at)

    def inside(self, at):
        """The word there leads to what nobody knows, inside the buffer."""
        if at + 4 > len(self.data):
            raise Fault("V2", at)
        if self.check.checks["alignment"] and at % 4:
            raise Fault("V3", at)
        offset = self.read("I", at)
        if not offset:
            raise Fault("V4", at)
        if at + offset >= len(self.data):
            raise Fault("V2", at + offset)

    def table(self, at, number):
        """A visit: the head, the slots, and then each field in rising slot."""
        self.open += 1
        self.check.where = number, None
        vtable = at - self.read("i", at)
        size = self.read("H", vtable)
        if self.check.checks["inline_size"]:
            self.read("H", vtable + 2)
        self.passed(at)
        if self.demands.known_fields:
            self.known_slots(at, vtable, size, number)
        for field in self.schema.tables[number]:
            if self.plan.is_task(number, field):
                self.check.where = number, field.number
                self.field(at, vtable, size, field)
        self.open -= 1

    def known_slots(self, at, vtable, size, number):
        """Each slot that isn't 0 is one of a live field."""
        live = {field.slot for field in self.schema.tables[number]}
        for slot in range(4, size, 2):
            if self.read("H", vtable + slot) and slot not in live:
                raise Fault("V16", vtable + slot)
            self.passed(at)

    def place(self, at, vtable, size, slot):
        """Where what has this slot stands, None where it's absent."""
        word = self.read("H", vtable + slot) if slot + 2 <= size else 0
        return at + word if word else None

    def field(self, at, vtable, size, field):
        """A field of which something is asked."""
        owner = self.check.where[0]
        place = self.place(at, vtable, size, field.slot)
        if (owner, field.slot) in self.plan.holds:
            self.content(at, place, self.plan.holds[owner, field.slot])
        elif field.base == UNION:
            self.union(at, place, self.place(at, vtable, size, field.slot - 2), field)
        elif field.base == VECTOR and field.element == UNION:
            self.unions(at, place, self.place(at, vtable, size, field.slot - 2), field)
        elif field.base == VECTOR:
            begin, count = (0, 0) if place is None else self.vector(place)
            self.passed(at)
            for number in range(count):
                self.value(begin + 4 * number, field.element, field.index)
        else:
            self.passed(at)
            if place is not None:
                self.value(place, field.base, field.index)

    def vector(self, place):
        """Where the elements of a vector begin, and how many they are."""
        begin = place + self.read("I", place)
        return begin + 4, self.read("I", begin)

    def content(self, at, place, holds):
        """A field whose bytes hold a flexbuffer, or a bare buffer."""
        if place is not None and holds == FLEX:
            raise Fault("V14", place)
        begin, count = (0, 0) if place is None else self.vector(place)
        self.passed(at)
        if place is not None:
            self.check.buffer(self.data[begin : begin + count], begin, *holds, self.open)

    def union(self, at, place, types, field):
        """A union whose type stands at `types`."""
        kind = 0 if types is None else self.read("B", types)
        member = self.schema.unions[field.index].get(kind)
        if self.demands.unions and place is None and kind:
            raise Fault("V9", at)
        if self.demands.unions and place is not None and member is None:
            self.inside(place)
        self.passed(at)
        if place is not None and member is not None:
            self.value(place, member.base, member.index)

    def unions(self, at, place, types, field):
        """A vector of unions whose types' field stands at `types`: both or none, and each of its words."""
        if self.demands.unions and (place is None) != (types is None):
            raise Fault("V11", types if place is None else place)
        if place is None or types is None:
            self.passed(at)
            return
        begin, count = self.vector(place)
        first = types + self.read("I", types) + 4
        self.passed(at)
        where = self.check.where
        for number in range(count):
            self.check.where = where
            word = begin + 4 * number
            kind = self.read("B", first + number)
            member = self.schema.unions[field.index].get(kind)
            if self.demands.unions and kind and member is None:
                self.inside(word)
            self.passed(word)
            if member is not None:
                self.value(word, member.base, member.index)

    def value(self, word, base, index):
        """What the word there leads to, where anything is asked of that."""
        if not self.plan.is_asked(base, index):
            return
        where = self.check.where
        target = word + self.read("I", word)
        if base == TEXT:
            self.text(word, target)
        else:
            self.passed(word)
            self.table(target, index)
        self.check.where = where

    def text(self, word, at):
        """A text is UTF-8, each byte of which is a read. They aren't looked at where they are too many."""
        count = self.read("I", at)
        self.check.reads += count
        self.passed(word)
        try:
            self.data[at + 4 : at + 4 + count].decode()
        except UnicodeDecodeError as error:
            raise Fault("V15", at + 4 + error.start) from None
