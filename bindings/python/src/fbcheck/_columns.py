"""What columns() reads of a stream: numbers, and values that are slices of bytes or numbers."""

from __future__ import annotations

import itertools
from collections.abc import Iterator, Sequence
from typing import TYPE_CHECKING, Any, SupportsIndex, TypeAlias, overload

from fbcheck import _fbcheck

if TYPE_CHECKING:
    from fbcheck import Verdict

_Number: TypeAlias = "bool | int | float | None"
_Slice: TypeAlias = "str | bytes | memoryview | None"


def _bools(valid: bytes | None) -> memoryview | None:
    """What tells which values are there."""
    return None if valid is None else memoryview(valid).cast("?")


def _missing(valid: memoryview | None) -> int:
    """How many values are missing."""
    return 0 if valid is None else bytes(valid).count(0)


def _mask(valid: memoryview | None, count: int) -> memoryview:
    """What tells which of so many values are missing."""
    missing = bytes(count) if valid is None else bytes(valid).translate(b"\1" + bytes(255))
    return memoryview(missing).cast("?")


def _column(format: str, numbers: bytes, valid: bytes | None) -> Column:
    return Column(format, numbers, _bools(valid))


class Column(_fbcheck.Column, Sequence[_Number]):
    """Numbers or Bools of the messages of a stream. It has the buffer protocol, so that numpy.asarray(column) and
    memoryview(column) don't copy it. It is read-only.

    data    the numbers as a memoryview: 0, False or nan where a value is missing
    format  the memoryview's format, such as "q", "d" or "?"
    valid   a memoryview of Bools: which values are there; None if all are

    As a sequence it has None where a value is missing.
    """

    __slots__ = ()

    def mask(self) -> memoryview:
        """A memoryview of Bools, as many as there are values: which of them are missing, as numpy.ma has it."""
        return _mask(self.valid, len(self))

    def __getitem__(self, index: Any) -> Any:
        if isinstance(index, slice):
            return [self[at] for at in range(len(self))[index]]
        return self.data[index] if self.valid is None or self.valid[index] else None

    def __iter__(self) -> Iterator[_Number]:
        numbers = self.data.tolist()
        if self.valid is None:
            return iter(numbers)
        return (number if there else None for number, there in zip(numbers, self.valid))

    def __reduce__(self) -> tuple[Any, ...]:
        return _column, (self.format, bytes(self.data), None if self.valid is None else bytes(self.valid))

    def __repr__(self) -> str:
        return f"<{type(self).__name__} of {len(self)} {self.format!r}, {_missing(self.valid)} missing>"


def _slices(kind: str, format: str, data: bytes, offsets: bytes, valid: bytes | None) -> Slices:
    return Slices(kind, memoryview(data).cast(format), memoryview(offsets).cast("q"), _bools(valid))


class Slices(Sequence[_Slice]):
    """Texts, structs or vectors of the messages of a stream, each a slice of `data`.

    data     all their bytes, or numbers, as a memoryview without gaps
    offsets  a memoryview of "q": where each value begins, and the end; the i-th is data[offsets[i]:offsets[i + 1]],
             which is empty if it is missing
    valid    a memoryview of Bools: which values are there; None if all are

    As a sequence it has a str for each text, bytes for each struct and each vector of unsigned bytes, Bools or structs,
    a memoryview for each vector of other numbers, and None where a value is missing.
    """

    __slots__ = ("_kind", "data", "offsets", "valid")

    def __init__(self, kind: str, data: memoryview, offsets: memoryview, valid: memoryview | None, /) -> None:
        self._kind, self.data, self.offsets, self.valid = kind, data, offsets, valid

    def __len__(self) -> int:
        return len(self.offsets) - 1

    def mask(self) -> memoryview:
        """A memoryview of Bools, as many as there are values: which of them are missing, as numpy.ma has it."""
        return _mask(self.valid, len(self))

    def __getitem__(self, index: Any) -> Any:
        places = range(len(self))[index]
        if isinstance(places, range):
            return [self[at] for at in places]
        is_there = self.valid is None or self.valid[places]
        return self._shown(self.offsets[places], self.offsets[places + 1]) if is_there else None

    def __iter__(self) -> Iterator[_Slice]:
        shown = itertools.starmap(self._shown, itertools.pairwise(self.offsets.tolist()))
        if self.valid is None:
            return shown
        return (value if there else None for value, there in zip(shown, self.valid))

    def _shown(self, begin: int, end: int) -> _Slice:
        part = self.data[begin:end]
        if self._kind == "s":
            return str(part, "utf-8", "surrogateescape")
        return bytes(part) if part.format == "B" else part

    def __reduce__(self) -> tuple[Any, ...]:
        valid = None if self.valid is None else bytes(self.valid)
        return _slices, (self._kind, self.data.format, bytes(self.data), bytes(self.offsets), valid)

    def __repr__(self) -> str:
        return f"<{type(self).__name__} of {len(self)}, {_missing(self.valid)} missing>"


class Columns(tuple["Column | Slices", ...]):
    """The columns of a stream, one for each path, in their order: each has a value for each ok message. columns[path]
    is the first one of this path.

    paths           the paths, as texts
    starts          a Column that tells where in the stream each ok message begins, with its size in front
    skipped         a Column with the numbers of the bad messages that were left out; the stream's first message is 1
    skipped_starts  a Column that tells where in the stream these begin
    reasons         a Column that tells why they are bad: numbers of Reason
    verdicts        the verdicts on the first thousand of them
    """

    paths: tuple[str, ...]
    starts: Column
    skipped: Column
    skipped_starts: Column
    reasons: Column
    verdicts: tuple[Verdict, ...]

    @overload
    def __getitem__(self, index: SupportsIndex | str) -> Column | Slices: ...
    @overload
    def __getitem__(self, index: slice) -> tuple[Column | Slices, ...]: ...
    def __getitem__(self, index: SupportsIndex | str | slice) -> Any:
        if not isinstance(index, str):
            return super().__getitem__(index)
        if index in self.paths:
            return super().__getitem__(self.paths.index(index))
        raise KeyError(f"no column {index!r}; columns: {' '.join(self.paths)}")

    def __repr__(self) -> str:
        named = ", ".join(self.paths) or "no path"
        return f"<{type(self).__name__} of {len(self.starts)} messages: {named}; {len(self.skipped)} skipped>"


def columns_of(
    paths: tuple[str, ...], parts: tuple[Column | tuple[str, memoryview, memoryview, memoryview | None], ...],
    starts: Column, skipped: Column, skipped_starts: Column, reasons: Column, verdicts: tuple[Verdict, ...],
) -> Columns:
    """The columns of what the extension made."""
    made = Columns(part if isinstance(part, Column) else Slices(*part) for part in parts)
    made.paths, made.starts, made.skipped, made.skipped_starts = paths, starts, skipped, skipped_starts
    made.reasons, made.verdicts = reasons, verdicts
    return made
