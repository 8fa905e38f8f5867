"""Buffers at random with others inside them, as a schema and its marks have them: mostly good, with now and then what
is demanded not to be there, and with what is reached by more than one way."""

import dataclasses
import struct
import typing

from tests.support.builder import Buffer, Plain, prefixed
from tests.support.naive import LETTERS, OBJECT, TEXT, UNION, VECTOR
from tests.support.strict import FLEX

# The field of the types stands before that of a union or of a vector of unions.
U_TYPE = 1

# Texts that are UTF-8, by how long their characters are and where each length begins and ends.
GOOD = [b"", b"a", b"\0", b"\x7f", "\x80", "\u07ff", "\u0800", "\ud7ff", "\ue000", "\uffff", "\U00010000", "\U0010ffff"]
GOOD = [text if isinstance(text, bytes) else text.encode() for text in GOOD]
# Bytes that aren't: what only goes on, longer than it must be, a surrogate, behind the last character, and cut off.
BAD = [bytes.fromhex(digits) for digits in (
    "80 bf c0 c1 ff fe f5 f8 c080 c1bf e08080 e09fbf f0808080 f08fbfbf eda080 edbfbf f4908080 f7bfbfbf "
    "c3 e2 e282 f0 f09f f09f92 f48f c328 e228a1 e28228 f0288cbc f0908c28 f828a1a1a1"
).split()]


@dataclasses.dataclass
class Of:
    """A value, and what it is of: where a word leads to such a one, it may lead to another."""

    kind: typing.Any
    value: typing.Any


class Sharing(Buffer):
    """A buffer in which now and then a word leads to what an earlier one leads to."""

    def __init__(self, dice):
        super().__init__()
        self.dice, self.placed = dice, {}

    def put(self, value):
        if not isinstance(value, Of):
            return super().put(value)
        at = super().put(value.value)
        self.placed.setdefault(value.kind, []).append(at)
        return at

    def refer(self, word, value):
        ahead = [at for at in self.placed.get(value.kind, []) if at > word] if isinstance(value, Of) else []
        if ahead and self.dice.once_in(3):
            struct.pack_into("<I", self.data, word, self.dice.choice(ahead) - word)
        else:
            super().refer(word, value)


class Inside:
    """Makes such buffers, by a plan that says what the bytes of fields hold."""

    def __init__(self, dice, plan, wrong_once_in=150):
        self.dice, self.schema, self.holds, self.wrong_once_in = dice, plan.schema, plan.holds, wrong_once_in

    def errs(self):
        """Whether the next choice is one that isn't good."""
        return self.dice.once_in(self.wrong_once_in)

    def buffer(self, root, depth=4):
        """A bare buffer with this root table."""
        made = Sharing(self.dice)
        made.data += bytes(4)
        made.refer(0, Of(root, self.table(root, depth)))
        return bytes(made.data)

    def table(self, owner, depth):
        """The values of a table's fields; now and then one in a slot that nobody knows."""
        found, fields = {}, self.schema.tables[owner]
        for before, field in zip([None, *fields], fields):
            if UNION in (field.base, field.element):
                found |= self.union(before, field, depth)
            elif U_TYPE not in (field.base, field.element) and self.has(field):
                value = self.value(owner, field, depth)
                found |= {} if value is None else {field.number: value}
        if self.errs():
            found.setdefault(self.dice.below(3) + max([0, *(field.number for field in fields)]), ("H", 7))
        return found

    def has(self, field):
        return not self.errs() if field.required else self.dice.once_in(2)

    def value(self, owner, field, depth):
        """The value of a field that is no union, None where it would lead too deep."""
        if (owner, field.slot) in self.holds:
            return self.content(self.holds[owner, field.slot], depth)
        if field.base == VECTOR and self.is_led_to(field.element, field.index):
            values = [self.single(field.element, field.index, depth) for _ in range(self.dice.below(4))]
            return None if None in values else Of((VECTOR, field.element, field.index), values)
        if field.base == VECTOR:
            size, alignment = self.schema.size(field.element, field.index)
            count = self.dice.below(4)
            return Plain(bytes(size * count), alignment, count)
        if field.is_inline:
            return (LETTERS[field.base], 1) if field.base < TEXT else (f"{field.takes[0]}s", bytes(field.takes[0]))
        return self.single(field.base, field.index, depth)

    def is_led_to(self, base, index):
        """Whether a value of this type stands behind an offset, in a vector too."""
        return base == TEXT or base == OBJECT and self.schema.structs[index] is None

    def single(self, base, index, depth):
        """What a word leads to: a text, a struct or a table."""
        if base == TEXT:
            return Of(TEXT, self.text())
        if self.schema.structs[index]:
            size, alignment = self.schema.structs[index]
            return Plain(bytes(size), alignment)
        return Of(index, self.table(index, depth - 1)) if depth > 0 else None

    def text(self):
        pieces = [self.dice.choice(GOOD) for _ in range(self.dice.below(4))]
        if self.errs():
            pieces.insert(self.dice.below(len(pieces) + 1), self.dice.choice(BAD))
        return b"".join(pieces)

    def content(self, holds, depth):
        """Bytes that hold something: a buffer mostly; now and then one behind its length, that stands anywhere, or
        what is too short."""
        if holds == FLEX:
            return Plain(b"\4\4\1", 1, 3) if self.errs() else None
        if depth <= 0:
            return None
        data = self.buffer(*holds, depth - 1)
        if self.errs():
            data = prefixed(data) if self.dice.once_in(2) else data[: self.dice.below(16)]
        return Of(holds, Plain(data, 1 if self.errs() else 8, len(data)))

    def union(self, types, field, depth):
        """A union or a vector of unions, with its types; now and then one of both alone."""
        count = None if field.base == UNION else self.dice.below(4)
        pairs = [self.member(field.index, depth) for _ in range(1 if count is None else count)]
        kinds, values = bytes(kind for kind, _ in pairs), [value for _, value in pairs]
        found = {types.number: ("B", kinds[0]) if count is None else Plain(kinds, 1, count),
                 field.number: values[0] if count is None else values}
        if self.errs():
            found.pop(self.dice.choice([types.number, field.number]))
        return {number: value for number, value in found.items() if value is not None}

    def member(self, union, depth):
        """A type and its value: mostly of a member, and else of none."""
        members = self.schema.unions[union]
        kind = self.dice.below(256) if self.dice.once_in(8) or not members else self.dice.choice([0, *members])
        if kind in members and (value := self.single(members[kind].base, members[kind].index, depth)) is not None:
            return kind, value
        kind = 0 if kind in members else kind
        return kind, Of(TEXT, b"w") if kind or self.dice.once_in(6) else None
