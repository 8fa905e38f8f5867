# made from fbcheck.h by bindings/make; don't edit
"""What fbcheck.h declares, for ctypes: numbers, structs and calls."""

import ctypes
import enum

VERSION = 1
DEEP = 64
DEEPEST = 4096
NONE = 0xffffffff
NO_TABLE = 0xfffffffe
STRICT = 1
KNOWN_FIELDS = 2
UTF8 = 4
PLAIN_BYTES = 8
STEPS = 31
LONGEST_PLACE = 4098
LONGEST_HINT = 1024

U8, U32, U64, I64 = ctypes.c_uint8, ctypes.c_uint32, ctypes.c_uint64, ctypes.c_int64
SIZE, TEXT, ADDRESS, to = ctypes.c_size_t, ctypes.c_char_p, ctypes.c_void_p, ctypes.POINTER


class Status(enum.IntEnum):
    """What a call returns."""

    OK = 0
    BAD = 1
    NULL = 2
    UNKNOWN_OPTIONS = 3
    OUT_OF_RANGE = 4
    NO_IDENT = 5
    NO_ROOT = 6
    TOO_LONG = 7
    NOT_WELL_FORMED = 8
    BAD_SCHEMA = 9
    ROOT_NOT_LISTED = 10
    NO_MEMORY = 11
    NO_SPAN = 12
    MORE = 13
    OVERSIZE = 14
    TRUNCATED = 15
    FAILED = 16
    BAD_PATH = 17
    NO_ROOM = 18
    MISFIT = 19
    TOO_MUCH_SHARED = 20
    NOT_PLANNED = 21
    UNMARKED_BYTES = 22
    NO_SUCH_TABLE = 23
    CHANGED = 24


class Reason(enum.IntEnum):
    """Why a buffer is refused."""

    WRONG_PREFIX = 1
    OUT_OF_BUFFER = 2
    MISALIGNED = 3
    ZERO_OFFSET = 4
    WRONG_IDENTIFIER = 5
    TOO_DEEP = 6
    TOO_MANY_TABLES = 7
    BAD_VTABLE = 8
    MISSING_REQUIRED = 9
    NO_TERMINATOR = 10
    LENGTHS_DIFFER = 11
    PAST_TABLE = 12
    TOO_MANY_READS = 13
    FLEX_CONTENT = 14
    NOT_UTF8 = 15
    UNKNOWN_FIELD = 16


class Code(enum.IntEnum):
    """Why the contents of a schema file aren't a legal schema."""

    NO_SUCH_OBJECT = 1
    NO_SUCH_ENUM = 2
    UNSUPPORTED = 3
    BAD_SLOT = 4
    NO_TYPE_FIELD = 5
    BAD_STRUCT = 6
    BAD_MEMBER = 7
    NAME_TWICE = 8


class PathFault(enum.IntEnum):
    """Why a text isn't a path."""

    BAD_TEXT = 1
    NO_SUCH_FIELD = 2
    NOT_INDEXABLE = 3
    NOT_A_UNION = 4
    NO_SUCH_MEMBER = 5
    NOT_A_TABLE = 6


class Kind(enum.IntEnum):
    """What is at the end of a path."""

    ABSENT = 0
    NO_ELEMENT = 1
    OTHER_MEMBER = 2
    BOOL = 3
    INT = 4
    UINT = 5
    FLOAT = 6
    TEXT = 7
    STRUCT = 8
    VECTOR = 9
    TABLE = 10
    UNION = 11
    DEFAULT_FLOAT = 12


class Ident(enum.IntEnum):
    """Which file identifier a buffer must have."""

    ANY = 0
    THIS = 1
    OWN = 2


class StepKind(enum.IntEnum):
    """What a step of a path leads to."""

    FIELD = 1
    ELEMENT = 2
    MEMBER = 3


class Options(ctypes.Structure):
    _fields_ = [
        ("version", U32),
        ("root", U32),
        ("max_reads", U64),
        ("max_depth", U32),
        ("max_tables", U32),
        ("reads_per_byte", U32),
        ("ident", U8 * 4),
        ("ident_from", U8),
        ("prefixed", U8),
        ("no_alignment", U8),
        ("inline_size", U8),
        ("demands", U32),
        ("reserved", U32 * 6),
    ]


class Verdict(ctypes.Structure):
    _fields_ = [
        ("status", U32),
        ("reason", U32),
        ("object", U32),
        ("field", U32),
        ("tables", U32),
        ("depth", U32),
        ("at", U64),
        ("reads", U64),
        ("reserved", U64 * 3),
    ]


class Span(ctypes.Structure):
    _fields_ = [
        ("at", SIZE),
        ("length", SIZE),
    ]


class Framer(ctypes.Structure):
    _fields_ = [
        ("held", SIZE),
        ("failed", U32),
        ("declared", U32),
    ]


class Step(ctypes.Structure):
    _fields_ = [
        ("kind", U32),
        ("number", U32),
    ]


class Path(ctypes.Structure):
    _fields_ = [
        ("count", U32),
        ("each", U32),
        ("steps", Step * 31),
    ]


class Value(ctypes.Structure):
    _fields_ = [
        ("kind", U32),
        ("reserved", U32),
        ("number", U64),
        ("integer", I64),
        ("at", U64),
        ("size", U64),
    ]


class Sizes(ctypes.Structure):
    _fields_ = [
        ("options", SIZE),
        ("verdict", SIZE),
        ("span", SIZE),
        ("framer", SIZE),
        ("path", SIZE),
        ("value", SIZE),
    ]


# What each struct begins with.
OPTIONS_INIT = {"version": 1, "root": 0xffffffff, "max_reads": 100000000, "max_depth": 64, "max_tables": 1000000,
    "reads_per_byte": 64, "ident_from": 0, "prefixed": 0, "no_alignment": 0, "inline_size": 0, "demands": 0}
FRAMER_INIT = {"held": 0, "failed": 0, "declared": 0}

# What each call returns, its name, and what it takes.
CALLS = [
    (ADDRESS, "fbcheck_schema_new", [ADDRESS, SIZE, to(Options), to(Verdict)]),
    (None, "fbcheck_schema_free", [ADDRESS]),
    (ADDRESS, "fbcheck_scratch_new", [U32]),
    (None, "fbcheck_scratch_free", [ADDRESS]),
    (U32, "fbcheck_table", [ADDRESS, TEXT, SIZE]),
    (U32, "fbcheck_verify", [ADDRESS, ADDRESS, to(Options), ADDRESS, SIZE, to(Verdict)]),
    (U32, "fbcheck_verify_each", [ADDRESS, ADDRESS, to(Options), ADDRESS, SIZE, to(Span), to(Verdict), SIZE]),
    (U32, "fbcheck_locate", [ADDRESS, ADDRESS, to(Options), ADDRESS, SIZE, TEXT, SIZE, to(SIZE), to(Verdict)]),
    (U32, "fbcheck_resolve", [ADDRESS, to(Options), TEXT, SIZE, to(Path), to(Verdict)]),
    (U32, "fbcheck_read", [ADDRESS, ADDRESS, to(Options), ADDRESS, SIZE, to(Path), to(Value), SIZE, to(Verdict)]),
    (U32, "fbcheck_read_again", [ADDRESS, to(Options), ADDRESS, SIZE, to(Path), to(Value), SIZE, to(Verdict)]),
    (U32, "fbcheck_read_each", [ADDRESS, to(Options), ADDRESS, SIZE, to(Path), SIZE, to(Value), SIZE, to(SIZE),
     to(Verdict)]),
    (U32, "fbcheck_most_reads", [ADDRESS, to(Options), U64, to(U64)]),
    (SIZE, "fbcheck_fault_name", [U32, U32, TEXT, SIZE]),
    (SIZE, "fbcheck_reason_name", [U32, TEXT, SIZE]),
    (SIZE, "fbcheck_status_text", [U32, TEXT, SIZE]),
    (SIZE, "fbcheck_object_name", [ADDRESS, U32, TEXT, SIZE]),
    (SIZE, "fbcheck_field_name", [ADDRESS, U32, U32, TEXT, SIZE]),
    (SIZE, "fbcheck_path_hint", [ADDRESS, U32, TEXT, SIZE, TEXT, SIZE]),
    (SIZE, "fbcheck_root_hint", [ADDRESS, TEXT, SIZE, TEXT, SIZE]),
    (U32, "fbcheck_framer_feed", [to(Framer), to(U8), SIZE, ADDRESS, SIZE, to(SIZE)]),
    (U32, "fbcheck_framer_next", [to(Framer), ADDRESS, SIZE]),
    (U32, "fbcheck_framer_finish", [to(Framer), ADDRESS, SIZE]),
    (U32, "fbcheck_options_init", [to(Options)]),
    (U32, "fbcheck_version", []),
    (TEXT, "fbcheck_commit", []),
    (U32, "fbcheck_struct_sizes", [to(Sizes)]),
]
