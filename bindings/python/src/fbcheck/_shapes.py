"""What to_dict() makes of the tables, structs and unions of a schema: the fields of each, and what stands there.

The rows are those of a schema file that the library has loaded.
"""

from __future__ import annotations

import struct
from typing import Final

from fbcheck._rows import ARRAY, LETTERS, OBJECT, TEXT, UNION, VECTOR, Row, schema_of

_UNSIGNED_BYTE: Final = 4
_NO_INDEX: Final = -1

# A kind: its letter; the letter of what an element is; the index of a table, struct or union; the length of an array.
# Letters are those of numbers, "s" for a text, "y" for bytes, "t" for a table, "r" for a struct, "U" for a union, "u"
# for the type of one, "v" for a vector, "a" for an array, and "-" for nothing.
_Kind = tuple[str, str, int, int]
# A field: its name; its slot, or its place in a struct; its number as a step of a path; its kind.
_Part = tuple[str, int, int, str, str, int, int]
_Object = tuple[int, tuple[_Part, ...]]
_Union = tuple[tuple[int, str, str, int], ...]


def _name(row: Row) -> str:
    return row.text(0).decode("utf-8", "surrogateescape")


def _one(base: int, index: int, objects: list[Row]) -> str:
    """The letter of what isn't a vector or an array."""
    if base == OBJECT:
        return "r" if objects[index].number(2, "B") else "t"
    return {TEXT: "s", UNION: "U"}.get(base) or LETTERS[base]


def _kind(row: Row, objects: list[Row]) -> _Kind:
    """The kind of a type."""
    base, element, index = row.number(0, "b"), row.number(1, "b"), row.number(2, "i", _NO_INDEX)
    if base == VECTOR and element == _UNSIGNED_BYTE and index == _NO_INDEX:
        return "y", "-", 0, 0
    if base in (VECTOR, ARRAY):
        of = _one(element, index, objects)
        return "v" if base == VECTOR else "a", of, index if of in "trU" else 0, row.number(3, "H")
    of = _one(base, index, objects)
    return of, "-", index if of in "trU" else 0, 0


def _parts(row: Row, objects: list[Row]) -> tuple[_Part, ...]:
    """The fields of a table or struct that aren't deprecated, by their places."""
    is_struct = bool(row.number(2, "B"))
    parts = []
    types = {}  # by the slot of a field with the type of a union, or with the types of several, which union it is
    for number, field in enumerate(row.rows(1)):
        told = field.row(1)
        if told is not None and not field.number(6, "B"):
            at, kind = field.number(3, "H"), _kind(told, objects)
            parts.append((at, number if is_struct else (at - 4) // 2, _name(field), kind))
            if "U" in kind[:2]:
                types[at - 2] = ("v", "u", kind[2], 0) if kind[0] == "v" else ("u", "-", kind[2], 0)
    return tuple((name, at, number, *types.get(at, kind)) for at, number, name, kind in sorted(parts))


def _members(row: Row, objects: list[Row]) -> _Union | None:
    """The members of a union, each with its value, name, and kind; None for an enum."""
    if not row.number(2, "B"):
        return None
    members = []
    for member in row.rows(1):
        kind = member.row(3)
        base, index = (0, 0) if kind is None else (kind.number(0, "b"), kind.number(2, "i", _NO_INDEX))
        is_object = base == OBJECT and 0 <= index < len(objects)
        form = _one(base, index, objects) if is_object or base == TEXT else "-"
        if 0 <= (value := member.number(1, "q")) <= 255:
            members.append((value, _name(member), form, index if form in "tr" else 0))
    return tuple(members)


def _size(part: _Part, objects: tuple[_Object, ...]) -> int:
    """How many bytes a field of a struct has."""
    _, _, _, form, element, index, count = part
    form, count = (element, count) if form == "a" else (form, 1)
    return count * (objects[index][0] if form == "r" else struct.calcsize(f"<{form}"))


def _demand_apart(number: int, name: str, objects: tuple[_Object, ...]) -> int | None:
    """Raises ValueError if fields of a struct overlap. The struct that fills all of it, if one does."""
    size, parts = objects[number]
    end, inner = 0, None
    for part in parts:
        if part[1] < end:
            raise ValueError(f"to_dict() can't show the struct {name}: the field {part[0]} overlaps another")
        end = part[1] + _size(part, objects)
        if end - part[1] == size and "r" in part[3:5]:
            inner = part[5]
    return inner


def _demand_an_end(inner: dict[int, int], names: list[str]) -> None:
    """Raises ValueError if a struct is in itself."""
    done = set()
    for at in inner:
        way = set()
        while at in inner and at not in done:
            done.add(at)
            way.add(at)
            at = inner[at]
        if at in way:
            raise ValueError(f"to_dict() can't show the struct {names[at]}: it is in itself")


def shapes_of(file: bytes) -> tuple[tuple[_Object, ...], tuple[_Union | None, ...]]:
    """The size of each object, which is 0 for a table, with its fields; and each union.

    Raises ValueError if fields of a struct overlap, or one is in itself: a dict of it might never end.
    """
    schema = schema_of(file)
    rows = schema.rows(0)
    names = [_name(row) for row in rows]
    objects = tuple((row.number(4, "i") if row.number(2, "B") else 0, _parts(row, rows)) for row in rows)
    inner = {}
    for number, name in enumerate(names):
        if objects[number][0] and (one := _demand_apart(number, name, objects)) is not None:
            inner[number] = one
    _demand_an_end(inner, names)
    return objects, tuple(_members(row, rows) for row in schema.rows(1))


def root_of(file: bytes) -> str:
    """The name of the schema's own root table."""
    row = schema_of(file).row(4)
    return "" if row is None else _name(row)
