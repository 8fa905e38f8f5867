"""What a memoryview calls the numbers of a vector, and what a column of values has, by the path that leads to them.

Paths are read here that the library has resolved, by a schema file that it has loaded.
"""

from __future__ import annotations

import re
import struct
from typing import Final

from fbcheck import _codes
from fbcheck._rows import ARRAY, LETTERS, OBJECT, TEXT, UNION, VECTOR, Row, schema_of


def _field(fields: list[Row], name: bytes) -> Row:
    """The live field of this name."""
    return next(field for field in fields if field.text(0) == name and not field.number(6, "B"))


def _letters(base: int, element: int, is_struct: bool) -> str:
    """Two letters for such a value: that of the numbers of a vector ("B" for what is read as bytes, or isn't one), and
    that of a column: a number's own, "s" for texts, "r" for structs, "v" for vectors with such numbers, "n" for the
    counts of others, "-" for none.
    """
    if base in (VECTOR, ARRAY):
        letter = "B" if element == OBJECT and is_struct else LETTERS.get(element)
        return "Bn" if letter is None else letter.replace("?", "B") + "v"
    return "B" + ("r" if base == OBJECT and is_struct else "s" if base == TEXT else LETTERS.get(base, "-"))


NO_UNION: Final = 2**32 - 1


def member_of(file: bytes, number: int, value: int) -> str | None:
    """The name of the member of a union that has this value, if there is one."""
    unions = schema_of(file).rows(1)
    members = unions[number].rows(1) if number < len(unions) else []
    names = (member.text(0) for member in members if member.number(1, "q") == value)
    return next((name.decode("utf-8", "surrogateescape") for name in names), None)


def letters_of(file: bytes, root: str | None, path: str, steps: bytes) -> bytes:
    """The letters for what a path leads to, with the number of the union behind them, if it is one.

    `steps` are the library's: what they have that `path` hasn't is the value of each union's member.
    """
    schema = schema_of(file)
    objects, enums = schema.rows(0), schema.rows(1)
    first = schema.row(4)
    name = root.encode() if root is not None else first.text(0) if first is not None else b""
    base, element, index = OBJECT, 0, next(at for at, row in enumerate(objects) if row.text(0) == name)
    for at, (kind, word) in enumerate(re.findall(r"([.@\[]?)(\w+|\*)\]?", path)):
        if kind == "[":
            base, element = element, 0
            continue
        if kind == "@":
            place = _codes.PATH_STEPS + _codes.STEP_BYTES * at + _codes.STEP_NUMBER
            value = struct.unpack_from("<I", steps, place)[0]
            row = next(member for member in enums[index].rows(1) if member.number(1, "q") == value).row(3)
        else:
            row = _field(objects[index].rows(1), word.encode()).row(1)
        if row is None:
            return struct.pack("<2sI", b"B-", NO_UNION)
        base, element, index = row.number(0, "b"), row.number(1, "b"), row.number(2, "i", -1)
    is_struct = OBJECT in (base, element) and bool(objects[index].number(2, "B"))
    return struct.pack("<2sI", _letters(base, element, is_struct).encode(), index if base == UNION else NO_UNION)
