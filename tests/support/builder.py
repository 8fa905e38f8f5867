"""The bytes of buffers: as digits spell them, and as values make them."""

import dataclasses
import functools
import struct


def spelled(*digits):
    """The bytes that hexadecimal digits spell."""
    return bytes.fromhex("".join(digits))


def changed(data, *changes):
    """The bytes with other bytes at some places; each change is a place and digits."""
    data = bytearray(data)
    for place, digits in changes:
        data[place : place + len(spelled(digits))] = spelled(digits)
    return bytes(data)


def prefixed(data):
    """The buffer behind its length."""
    return struct.pack("<I", len(data)) + data


def messages_of(stream):
    """The messages of a stream, each with its prefix."""
    found = []
    while stream:
        end = 4 + int.from_bytes(stream[:4], "little")
        found.append(stream[:end])
        stream = stream[end:]
    return found


@dataclasses.dataclass
class Plain:
    """Bytes that stand as they are, behind a count where they are the elements of a vector."""

    data: bytes
    alignment: int
    count: int | None = None


# A format of struct.pack in little endian, without padding.
form_of = functools.cache(lambda letter: struct.Struct(f"<{letter}"))


class Buffer:
    """A FlatBuffer in the making: what a table or a vector refers to stands behind it.

    A value is a text, a list of values, a dict from field numbers to values (a table), plain bytes, or what stands
    inline: a pair of a format of struct.pack and a number or bytes. None leaves the word of an element 0.
    """

    def __init__(self):
        self.data = bytearray()

    def align(self, size, behind=0):
        """Goes on to where what follows `behind` further bytes is aligned."""
        self.data += bytes(-(len(self.data) + behind) % size)

    def put(self, value):
        """Adds a value, and answers its place."""
        if isinstance(value, dict):
            return self.put_table(value)
        if isinstance(value, list):
            return self.put_vector(value)
        if isinstance(value, Plain):
            return self.put_plain(value)
        text = value.encode() if isinstance(value, str) else value
        self.align(4)
        at = len(self.data)
        self.data += struct.pack("<I", len(text)) + text + b"\0"
        return at

    def refer(self, word, value):
        """Adds a value, and has the word at that place lead to it."""
        struct.pack_into("<I", self.data, word, self.put(value) - word)

    def put_vector(self, values):
        self.align(4)
        at = len(self.data)
        self.data += struct.pack("<I", len(values)) + bytes(4 * len(values))
        for number, value in enumerate(values):
            if value is not None:
                self.refer(at + 4 + 4 * number, value)
        return at

    def put_plain(self, plain):
        head = b"" if plain.count is None else struct.pack("<I", plain.count)
        self.align(max(plain.alignment, len(head)), len(head))
        at = len(self.data)
        self.data += head + plain.data
        return at

    def put_table(self, fields):
        slots = [0] * (max(fields, default=-1) + 1)
        self.align(2)
        vtable = len(self.data)
        self.data += bytes(4 + 2 * len(slots))
        self.align(8)
        at = len(self.data)
        self.data += struct.pack("<i", at - vtable)
        fields = sorted(fields.items())
        for number, value in fields:
            letter, scalar = value if isinstance(value, tuple) else ("I", 0)
            form = form_of(letter)
            self.align(form.size)
            slots[number] = len(self.data) - at
            self.data += form.pack(scalar)
        words = [4 + 2 * len(slots), len(self.data) - at, *slots]
        form_of(f"{len(words)}H").pack_into(self.data, vtable, *words)
        for number, value in fields:
            if not isinstance(value, tuple):
                self.refer(at + slots[number], value)
        return at


def buffer(root, ident=b"", prefix=False):
    """A bare buffer with this root table, or one behind its length."""
    made = Buffer()
    made.data += bytes(8 if prefix else 4) + ident
    made.refer(4 if prefix else 0, root)
    if prefix:
        struct.pack_into("<I", made.data, 0, len(made.data) - 4)
    return bytes(made.data)
