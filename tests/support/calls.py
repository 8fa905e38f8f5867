"""The calls of the library for C by ctypes, one by one, so that tests ask each of them as a program in C does.

The library is the file that the variable FBCHECK_LIBRARY names, and else it is looked for where the system looks.
"""

import ctypes
import functools
import os
import struct
import typing

from tests.support import header
from tests.support.header import DEEP, NO_TABLE, NONE, STEPS, VERSION, Code, Ident, Kind, PathFault, Reason, Status

PLACE = 4096
_SIZE = ctypes.c_size_t


def _bytes(given) -> bytes:
    """The bytes of what has some: of bytes, a bytearray, a memoryview, an array."""
    return given if isinstance(given, bytes) else memoryview(given).tobytes()


class Options(header.Options):
    """fbcheck_options. Made with no words it is what the library begins with."""

    def __init__(self, ident: bytes | None = None, **words):
        for name in words:
            if name not in header.OPTIONS_INIT:
                raise TypeError(f"no option {name}")
        super().__init__(**{**header.OPTIONS_INIT, **words})
        if ident is not None:
            given = _bytes(ident)
            if len(given) != 4:
                raise ValueError(f"a file identifier has 4 bytes, and {given} has {len(given)}")
            self.ident[:] = given
            self.ident_from = Ident.THIS


class _Path(header.Path):
    def numbers(self) -> list:
        """The kind and the number of each step."""
        return [(step.kind, step.number) for step in self.steps[: self.count]]


_Verdict, _Span, _Step, _Value, _Framer = header.Verdict, header.Span, header.Step, header.Value, header.Framer


def _numbers(of) -> struct.Struct:
    """What takes the numbers of such a structure out of it, all at once and in their order."""
    return struct.Struct("".join(kind._type_ for _, kind in of._fields_ if isinstance(kind._type_, str)))


_VERDICT, _VALUE = _numbers(_Verdict), _numbers(_Value)
_Place = ctypes.c_char * PLACE


class Verdict(typing.NamedTuple):
    """What is told of a buffer or a schema file."""

    status: int
    reason: int
    object: int
    field: int | None
    tables: int
    depth: int
    at: int
    reads: int

    @property
    def ok(self) -> bool:
        return self.status == Status.OK


class Error(Exception):
    """A call couldn't be served; `verdict` tells why. With OVERSIZE `declared` is what the prefix declared."""

    def __init__(self, verdict: Verdict, declared: int | None = None):
        super().__init__(Status(verdict.status).name, verdict if declared is None else f"declared={declared}")
        self.verdict, self.declared = verdict, declared


def _told(verdict: _Verdict) -> Verdict:
    status, reason, owner, field, *rest = _VERDICT.unpack_from(verdict)
    return Verdict(status, reason, owner, None if field == NONE else field, *rest)


@functools.cache
def _library():
    found = ctypes.CDLL(os.environ.get("FBCHECK_LIBRARY") or "libfbcheck.so.1")
    for result, name, words in header.CALLS:
        call = getattr(found, name)
        call.argtypes, call.restype = words, result
    return found


def _done(status: int, declared: int | None = None) -> int:
    """The status of a call that was done."""
    if status not in (Status.OK, Status.MORE):
        raise Error(Verdict(status, 0, 0, None, 0, 0, 0, 0), declared if status == Status.OVERSIZE else None)
    return status


_KINDS, _INT, _OF_BYTES = list(Kind), Kind.INT.value, (Kind.FLOAT.value, Kind.TEXT.value, Kind.STRUCT.value)


def _shown(values: ctypes.Array, data: bytes) -> list:
    """The kind of each of these values, and the value: a number or bytes."""
    return [(_KINDS[kind], data[at : at + size] if kind in _OF_BYTES else integer if kind == _INT else number)
            for kind, _, number, integer, at, size in _VALUE.iter_unpack(values)]


def _name(call, *words) -> str | None:
    """The name or the hint that a call tells."""
    length = call(*words, None, 0)
    text = ctypes.create_string_buffer(length)
    call(*words, text, length)
    return text.raw.decode(errors="surrogateescape") if length else None


class Verifier:
    """A schema, by which buffers are checked. Where a call's options ask for no root, checks begin at this one."""

    def __init__(self, schema: bytes, root: str | None = None, options: Options | None = None):
        self._calls = _library()
        file, why = _bytes(schema), _Verdict()
        self._schema = self._calls.fbcheck_schema_new(file, len(file), options, why)
        if self._schema is None:
            raise Error(_told(why))
        self._root, self._own = NONE, Options()
        if root is not None:
            self.choose_root(root)

    def choose_root(self, name: str):
        """Has later checks begin at the table of this name."""
        text = name.encode(errors="surrogateescape")
        number = self._calls.fbcheck_table(self._schema, text, len(text))
        _done(Status.NO_ROOT if number == NO_TABLE else Status.OK)
        self._root, self._own = number, Options(root=number)

    def asked(self, options: Options | None) -> Options:
        """The options, from this root."""
        if options is None:
            return self._own
        if options.root != NONE:
            return options
        asked = Options.from_buffer_copy(options)
        asked.root = self._root
        return asked

    def verify(self, buffer, options: Options | None = None) -> Verdict:
        """The verdict on a buffer: status OK or BAD."""
        data, verdict = _bytes(buffer), _Verdict()
        asked = self.asked(options)
        if self._calls.fbcheck_verify(self._schema, None, asked, data, len(data), verdict) > Status.BAD:
            raise Error(_told(verdict))
        return _told(verdict)

    def verify_each(self, block, spans, options: Options | None = None) -> list[Verdict]:
        """The verdict on each buffer of a block, by its first byte's place and its length; of any status."""
        data, spans = _bytes(block), list(spans)
        given, verdicts = (_Span * len(spans))(*spans), (_Verdict * len(spans))()
        words = (self._schema, None, self.asked(options), data, len(data), given, verdicts, len(spans))
        self._calls.fbcheck_verify_each(*words)
        return [_told(verdict) for verdict in verdicts]

    def resolve(self, path: str) -> _Path:
        """A path, which serves every buffer that is checked from this root."""
        text, resolved, verdict = path.encode(), _Path(), _Verdict()
        asked = self.asked(None)
        if self._calls.fbcheck_resolve(self._schema, asked, text, len(text), resolved, verdict) != Status.OK:
            raise Error(_told(verdict))
        return resolved

    def read(self, buffer, path: _Path, options: Options | None = None):
        """The kind of the value at the end of a path in a good buffer, and the value: a number or bytes."""
        return self.read_each(buffer, [path], options)[0]

    @staticmethod
    def row(paths: list[_Path]):
        """These paths one behind another, as read_each hands them to the library."""
        return (_Path * len(paths))(*paths)

    def _values(self, data: bytes, paths, options: Options | None) -> ctypes.Array:
        """What is told of the value at the end of each of these paths. They are a list or a row of it."""
        values, verdict = (_Value * len(paths))(), _Verdict()
        given = self.row(paths) if isinstance(paths, list) else paths
        words = (self._schema, None, self.asked(options), data, len(data), given, values, len(paths), verdict)
        if self._calls.fbcheck_read(*words) != Status.OK:
            raise Error(_told(verdict))
        return values

    def read_each(self, buffer, paths, options: Options | None = None) -> list:
        """The kind of the value at the end of each of these paths, and the value. They are a list or a row of it."""
        data = _bytes(buffer)
        return _shown(self._values(data, paths, options), data)

    def extents(self, buffer, paths, options: Options | None = None) -> list:
        """The place and the number of the bytes of the value at the end of each of these paths."""
        return [(value.at, value.size) for value in self._values(_bytes(buffer), paths, options)]

    def locate(self, buffer, options: Options | None = None):
        """The verdict on a buffer, and where the fault of a bad one is, in words."""
        data, verdict, room, length = _bytes(buffer), _Verdict(), _Place(), _SIZE()
        words = (self._schema, None, self.asked(options), data, len(data), room, PLACE, length, verdict)
        if self._calls.fbcheck_locate(*words) > Status.BAD:
            raise Error(_told(verdict))
        return _told(verdict), room[: length.value].decode()

    def most_reads(self, length: int, options: Options | None = None) -> int:
        """How many reads a check of so many bytes makes at most."""
        reads = ctypes.c_uint64()
        _done(self._calls.fbcheck_most_reads(self._schema, options, length, reads))
        return reads.value

    def reason_name(self, reason: int) -> str | None:
        """The code and name of a reason, as "V10 NoTerminator"."""
        return _name(self._calls.fbcheck_reason_name, reason)

    def fault_name(self, status: int, number: int) -> str | None:
        """The code and name of a fault, by the status and reason of a verdict."""
        return _name(self._calls.fbcheck_fault_name, status, number)

    def status_text(self, status: int) -> str | None:
        """What a status says in words."""
        return _name(self._calls.fbcheck_status_text, status)

    def object_name(self, number: int) -> str | None:
        """The name of an object by its number."""
        return _name(self._calls.fbcheck_object_name, self._schema, number)

    def field_name(self, table: int, number: int) -> str | None:
        """The name of a field by its number and that of its table."""
        return _name(self._calls.fbcheck_field_name, self._schema, table, number)

    def path_hint(self, path: str) -> str | None:
        """What helps with a text that is no path from this root."""
        text = path.encode()
        return _name(self._calls.fbcheck_path_hint, self._schema, self._root, text, len(text))

    def root_hint(self, name: str) -> str | None:
        """What helps with a name that no table has."""
        text = name.encode()
        return _name(self._calls.fbcheck_root_hint, self._schema, text, len(text))

    def close(self):
        """Frees the schema."""
        schema, self._schema = self._schema, None
        self._calls.fbcheck_schema_free(schema)

    def __enter__(self):
        return self

    def __exit__(self, *_):
        self.close()

    def __del__(self):
        if hasattr(self, "_schema"):
            self.close()


class Framer:
    """The messages of a stream that comes in pieces, each with its size in front, which have at most so many bytes."""

    def __init__(self, limit: int = 1 << 16):
        self._calls = _library()
        self._framer = _Framer()
        self._room = (self._framer, (ctypes.c_uint8 * limit)(), limit)
        self._rest = b""  # what was given and isn't fed yet

    def messages(self, piece=b""):
        """The messages that end in the next piece, one after another. What isn't taken comes with the next call."""
        self._rest += _bytes(piece)
        return self._taken()

    def _taken(self):
        used = ctypes.c_size_t()
        while self._rest:
            given, self._rest = self._rest, b""
            answer = self._calls.fbcheck_framer_feed(*self._room, given, len(given), used)
            if _done(answer, self._framer.declared) == Status.OK:
                self._rest, message = given[used.value:], bytes(self._room[1][: self._framer.held])
                self._calls.fbcheck_framer_next(*self._room)
                yield message

    def finish(self):
        """Says that the stream has ended, which it may not inside a message, nor before each message is taken."""
        if self._rest:
            raise ValueError("not all of the stream was gone through: messages() still has some of it")
        _done(self._calls.fbcheck_framer_finish(*self._room))
