# made from fbcheck.h by bindings/make; don't edit
"""The numbers of fbcheck.h."""

import enum
from typing import Final

VERSION: Final = 1
DEEP: Final = 64
DEEPEST: Final = 4096
NONE: Final = 0xffffffff
NO_TABLE: Final = 0xfffffffe
STRICT: Final = 1
KNOWN_FIELDS: Final = 2
UTF8: Final = 4
PLAIN_BYTES: Final = 8
STEPS: Final = 31
LONGEST_PLACE: Final = 4098
LONGEST_HINT: Final = 1024

# Where the steps of a path begin, how many bytes each has, and where its number stands.
PATH_STEPS: Final = 8
STEP_BYTES: Final = 8
STEP_NUMBER: Final = 4

# What FBCHECK_OPTIONS_INIT asks.
INIT_MAX_READS: Final = 100_000_000
INIT_MAX_DEPTH: Final = 64
INIT_MAX_TABLES: Final = 1_000_000
INIT_READS_PER_BYTE: Final = 64


class Status(enum.IntEnum):
    """What a call returns."""

    OK = 0
    BAD = 1
    NULL = 2
    UNKNOWN_OPTIONS = 3
    OUT_OF_RANGE = 4
    NO_IDENT = 5
    NO_ROOT = 6
    TOO_LONG = 7
    NOT_WELL_FORMED = 8
    BAD_SCHEMA = 9
    ROOT_NOT_LISTED = 10
    NO_MEMORY = 11
    NO_SPAN = 12
    MORE = 13
    OVERSIZE = 14
    TRUNCATED = 15
    FAILED = 16
    BAD_PATH = 17
    NO_ROOM = 18
    MISFIT = 19
    TOO_MUCH_SHARED = 20
    NOT_PLANNED = 21
    UNMARKED_BYTES = 22
    NO_SUCH_TABLE = 23
    CHANGED = 24


class Code(enum.IntEnum):
    """Why the contents of a schema file aren't a legal schema."""

    NO_SUCH_OBJECT = 1
    NO_SUCH_ENUM = 2
    UNSUPPORTED = 3
    BAD_SLOT = 4
    NO_TYPE_FIELD = 5
    BAD_STRUCT = 6
    BAD_MEMBER = 7
    NAME_TWICE = 8


class PathFault(enum.IntEnum):
    """Why a text isn't a path."""

    BAD_TEXT = 1
    NO_SUCH_FIELD = 2
    NOT_INDEXABLE = 3
    NOT_A_UNION = 4
    NO_SUCH_MEMBER = 5
    NOT_A_TABLE = 6


class Kind(enum.IntEnum):
    """What is at the end of a path."""

    ABSENT = 0
    NO_ELEMENT = 1
    OTHER_MEMBER = 2
    BOOL = 3
    INT = 4
    UINT = 5
    FLOAT = 6
    TEXT = 7
    STRUCT = 8
    VECTOR = 9
    TABLE = 10
    UNION = 11
    DEFAULT_FLOAT = 12


class Ident(enum.IntEnum):
    """Which file identifier a buffer must have."""

    ANY = 0
    THIS = 1
    OWN = 2


class StepKind(enum.IntEnum):
    """What a step of a path leads to."""

    FIELD = 1
    ELEMENT = 2
    MEMBER = 3
