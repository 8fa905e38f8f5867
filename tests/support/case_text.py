"""Rows of schemas and bytes of buffers as text.

    A table: a@4 int, b@4 [obj]#0 gone far; S struct 8/4: ; U union: m=1 string, n=2 none

A field has its slot behind the `@`, a member its value behind the `=`; a type is a base type by its name or its
number, `[int]` a vector and `[int:3]` an array, with an index behind a `#`; a struct has its bytes and its alignment.
Bytes are words: hexadecimal digits, the name of a sample, `16=ffff` for other bytes from place 16 on, `..24` for as
many bytes as this.
"""

from tests.support import schemas

BASE_TYPES = ("none utype bool byte ubyte short ushort int uint long ulong float double string vector obj union array "
              "vector64").split()
FLAGS = {"gone": "deprecated", "far": "offset64", "required": "required", "optional": "optional"}


def typed(text):
    """A type by its text."""
    text, _, index = text.partition("#")
    inner, _, length = text.strip("[]").partition(":")
    base, index = (BASE_TYPES.index(inner) if inner in BASE_TYPES else int(inner),), int(index or -1)
    if text.startswith("["):
        base = schemas.array(base, int(length)) if length else schemas.vector(base)
    base, element, _, length = schemas.whole(base)
    return base, element, index, length


def field_of(text):
    """A field's row by its text."""
    head, kind, *words = text.split()
    name, slot = head.split("@")
    default = [int(word.removeprefix("default=")) for word in words if word.startswith("default=")]
    real = [float(word.removeprefix("real=")) for word in words if word.startswith("real=")]
    flags = {FLAGS[word]: True for word in words if word in FLAGS}
    return schemas.field(name, typed(kind), int(slot), *(default or [0]), *real, **flags)


def member_of(text):
    """A member as schemas.union has it."""
    head, kind = text.split()
    name, value = head.split("=")
    return name, int(value), typed(kind)


def rows_of(text):
    """The objects and the enums that a text has."""
    objects, enums = [], []
    for part in filter(str.strip, text.split(";")):
        head, _, items = part.partition(":")
        name, kind, *sizes = head.split()
        items = [item for item in items.split(",") if item.strip()]
        if kind == "table":
            objects.append(schemas.table(name, *map(field_of, items)))
        elif kind == "struct":
            size, alignment = map(int, sizes[0].split("/"))
            objects.append(schemas.a_struct(name, size, alignment, *map(field_of, items)))
        else:
            row = schemas.union(name, *map(member_of, items))
            enums.append({**row, 2: ("B", int(kind == "union"))})
    return objects, enums


def bytes_of(samples, text):
    """The bytes that a text stands for, in which names of samples may stand, also in those of samples."""
    data = bytearray()
    for word in text.split():
        if word in samples:
            data += bytes_of(samples, samples[word])
        elif word.startswith(".."):
            length = int(word[2:])
            data = data[:length] + bytes(length - len(data[:length]))
        elif "=" in word:
            place, digits = word.split("=")
            digits = bytes.fromhex(digits)
            data[int(place) : int(place) + len(digits)] = digits
        else:
            data += bytes.fromhex(word)
    return bytes(data)
