"""The rows of a schema file: its bytes are read here once the library has loaded it, so that all its offsets lead to
what they should. The numbers of fields are those of FlatBuffers' reflection.fbs.
"""

from __future__ import annotations

import struct
from typing import Final

# The base types of reflection.fbs, and the letters of numbers among them.
TEXT: Final = 13
VECTOR: Final = 14
OBJECT: Final = 15
UNION: Final = 16
ARRAY: Final = 17
LETTERS: Final = {1: "B", 2: "?", 3: "b", 4: "B", 5: "h", 6: "H", 7: "i", 8: "I", 9: "q", 10: "Q", 11: "f", 12: "d"}


class Row:
    """A table of the file."""

    __slots__ = ("_at", "_file", "_slots")

    def __init__(self, file: bytes, at: int) -> None:
        self._file, self._at = file, at
        self._slots = at - struct.unpack_from("<i", file, at)[0]

    def _field(self, number: int) -> int:
        """Where a field stands, or 0."""
        slot = 4 + 2 * number
        if slot >= struct.unpack_from("<H", self._file, self._slots)[0]:
            return 0
        offset: int = struct.unpack_from("<H", self._file, self._slots + slot)[0]
        return self._at + offset if offset else 0

    def number(self, number: int, letter: str, default: int = 0) -> int:
        at = self._field(number)
        told: int = struct.unpack_from(f"<{letter}", self._file, at)[0] if at else default
        return told

    def row(self, number: int) -> Row | None:
        at = self._field(number)
        return Row(self._file, at + struct.unpack_from("<I", self._file, at)[0]) if at else None

    def rows(self, number: int) -> list[Row]:
        at = self._field(number)
        if not at:
            return []
        at += struct.unpack_from("<I", self._file, at)[0]
        places = range(at + 4, at + 4 + 4 * struct.unpack_from("<I", self._file, at)[0], 4)
        return [Row(self._file, place + struct.unpack_from("<I", self._file, place)[0]) for place in places]

    def text(self, number: int) -> bytes:
        at = self._field(number)
        if not at:
            return b""
        at += struct.unpack_from("<I", self._file, at)[0]
        return self._file[at + 4 : at + 4 + struct.unpack_from("<I", self._file, at)[0]]


def schema_of(file: bytes) -> Row:
    """The row of the whole file."""
    return Row(file, struct.unpack_from("<I", file)[0])
