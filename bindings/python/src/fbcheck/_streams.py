"""Where the pieces of a stream come from, and what helps where it can't go on."""

from __future__ import annotations

import errno
import functools
import io
import os
from collections.abc import Awaitable, Callable
from typing import TYPE_CHECKING, Any, Final

if TYPE_CHECKING:
    from _typeshed import ReadableBuffer as Buffer

_LONGEST: Final = 2**31 - 1  # the most that max_bytes allows
_PIECE: Final = 1 << 16  # how many bytes of a file are read at once
_PLAIN: Final = frozenset(b"\t\n\r") | frozenset(range(32, 127))  # what stands in texts
_USUAL: Final = 1 << 26  # what max_bytes is by default


def source_of(stream: Any) -> Callable[[], Buffer]:
    """What gives the next piece of a stream, of any of its kinds, and raises StopIteration at its end."""
    if isinstance(stream, (str, os.PathLike, io.TextIOBase)):
        kind = "str" if isinstance(stream, io.TextIOBase) else type(stream).__name__
        raise TypeError(f'a stream has bytes, and no {kind}: open its file with "rb"')
    if hasattr(stream, "read"):
        return functools.partial(_read, stream)
    try:
        return iter([memoryview(stream)]).__next__
    except TypeError:
        pass
    try:
        source: Callable[[], Buffer] = iter(stream).__next__
    except TypeError:
        kind = type(stream).__name__
        raise TypeError(f"a stream is a binary file, bytes, or an iterable of pieces, and not {kind!r}") from None
    return source


def _read(stream: Any) -> Buffer:
    read = getattr(stream, "read1", stream.read)
    piece: Buffer | None = read(_PIECE)
    if piece == b"" and read != stream.read:  # read1() tells an end so, and that no bytes are there yet
        piece = stream.read(1)
    if piece is None:
        raise BlockingIOError(errno.EAGAIN, "the stream is non-blocking, and has no bytes yet")
    if piece == b"":
        raise StopIteration
    return piece


def later_source_of(stream: Any) -> Callable[[], Awaitable[Buffer]]:
    """The same of a stream that is asynchronous, whose end raises StopAsyncIteration."""
    if hasattr(stream, "read"):
        return functools.partial(_read_later, stream)
    source: Callable[[], Awaitable[Buffer]] = aiter(stream).__anext__
    return source


async def _read_later(stream: Any) -> Buffer:
    piece: Buffer = await stream.read(_PIECE)
    if piece == b"":
        raise StopAsyncIteration
    return piece


def file_hint(ident: bytes) -> str:
    """What a stream is whose first message would have this identifier, if that had no size in front."""
    return "the stream looks like a schema file (.bfbs)" if ident == b"BFBS" else ""


def hint_of(front: bytes, ident: bytes, has_good: bool, is_long: bool) -> str:
    """What helps where a stream can't go on: `front` is the size of the message that comes, or a part of it, `ident` is
    that of file_hint(), and `is_long` means that the size is too great.
    """
    declared = int.from_bytes(front, "little")
    longer = "max_bytes allows longer messages" if is_long and declared <= _LONGEST - 4 else ""
    if of_file := file_hint(ident):
        return of_file
    if has_good:
        return longer
    if is_long and _PLAIN.issuperset(front):
        if front.lstrip()[:1] in (b"{", b"["):
            return "the stream looks like JSON, of which flatc --binary --size-prefixed makes messages"
        return "the stream looks like text"
    if front[:2] == b"\x1f\x8b":
        return "the stream looks like gzip: gzip.open() reads it"
    if is_long and int.from_bytes(front, "big") <= min(declared, _USUAL - 4):
        return "the size may be big-endian, where that of a size-prefixed buffer is little-endian"
    return longer or "no message before was ok: does each begin with its size, as 4 bytes, little-endian?"
