"""Buffers laid out piece by piece, for bench/hostile."""

import struct


class Layout:
    """Bytes with places that have names, and offset words that lead to them."""

    def __init__(self):
        self.data = bytearray()
        self.places = {}
        self.words = []

    def align(self, to=4):
        self.data += bytes(-len(self.data) % to)
        return self

    def name(self, name):
        self.places[name] = len(self.data)
        return self

    def number(self, number, code="I"):
        self.data += struct.pack(f"<{code}", number)
        return self

    def offset(self, name):
        """An offset word, which leads to a place that may still be to come."""
        self.words.append((len(self.data), name))
        return self.number(0)

    def vector(self, name, targets):
        """A vector of offset words."""
        self.align().name(name).number(len(targets))
        for target in targets:
            self.offset(target)
        return self

    def numbers(self, name, code, numbers):
        """A vector of numbers."""
        self.align().name(name).number(len(numbers))
        self.data += struct.pack(f"<{len(numbers)}{code}", *numbers)
        return self

    def text(self, name, text=b""):
        self.align().name(name).number(len(text))
        self.data += text + b"\0"
        return self

    def table(self, name, fields, slots=None):
        """A table with its vtable in front. The fields are the names of places by slot; each is one offset word."""
        length = slots or max(fields, default=2) + 2
        vtable = [length, 4 + 4 * len(fields)] + [0] * (length // 2 - 2)
        for place, slot in enumerate(sorted(fields)):
            vtable[slot // 2] = 4 + 4 * place
        self.align()
        begin = len(self.data)
        self.data += struct.pack(f"<{len(vtable)}H", *vtable)
        self.align().name(name).number(len(self.data) - begin, "i")
        for slot in sorted(fields):
            self.offset(fields[slot])
        return self

    def field(self, name, text, slot):
        """A table Field of a schema file, of the type "type"."""
        self.align()
        begin = len(self.data)
        self.data += struct.pack("<6H", 12, 14, 4, 8, 0, 12)
        self.name(name).number(len(self.data) - begin, "i").offset(text).offset("type")
        return self.number(slot, "H")

    def union(self, name, text, members, lines):
        """A table Enum of a schema file, which is a union, with lines of documentation, and without a type of its own.
        """
        self.align()
        begin = len(self.data)
        self.data += struct.pack("<8H", 16, 20, 4, 8, 16, 0, 0, 12)
        self.name(name).number(len(self.data) - begin, "i").offset(text).offset(members).offset(lines)
        return self.number(1)

    def member(self, name, text, value, of):
        """A table EnumVal of a schema file, of the type "of"."""
        self.data += bytes(-(len(self.data) + 28) % 8)
        begin = len(self.data)
        self.data += struct.pack("<6H", 12, 24, 4, 16, 0, 8)
        self.name(name).number(len(self.data) - begin, "i").offset(text).offset(of).number(0)
        return self.number(value, "q")

    def object_type(self, name):
        """A table Type of a schema file: that of the first object."""
        self.align()
        begin = len(self.data)
        self.data += struct.pack("<6H", 10, 12, 8, 0, 4, 0)
        return self.name(name).number(len(self.data) - begin, "i").number(0, "i").number(15)

    def type(self):
        """A table Type of a schema file: that of an unsigned byte."""
        self.align()
        self.data += struct.pack("<4H", 6, 5, 4, 0)
        return self.name("type").number(8, "i").number(4)

    def bytes(self):
        for at, name in self.words:
            struct.pack_into("<I", self.data, at, self.places[name] - at)
        return bytes(self.data)


def begun(ident=None):
    """A layout with its root offset, and its identifier."""
    layout = Layout().offset("root")
    layout.data += ident or b""
    return layout
