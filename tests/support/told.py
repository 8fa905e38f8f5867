"""What the library tells, in the words of the program's lines."""

import struct

from tests.support.naive import NAMES, Default, quoted

REASONS = {number: f"V{number} {NAMES[f'V{number}']}" for number in range(1, len(NAMES) + 1)}

# How the values of each kind are written, in the order of the kinds' numbers.
WRITTEN = [
    lambda _: "absent", lambda _: "no-element", lambda _: "other-member",
    lambda value: "true" if value == 1 else "false", str, str,
    lambda value: f"float:{value.hex()}", quoted, lambda value: f"struct:{value.hex()}",
    lambda value: f"vector:{value}", lambda _: "table", lambda value: f"union:{value}",
    lambda value: default_of(struct.unpack("<d", struct.pack("<Q", value))[0]),
]


def line(verdict):
    """What stands behind the number in the line of a buffer."""
    if verdict.ok:
        return f"ok tables={verdict.tables} depth={verdict.depth} reads={verdict.reads}"
    _, reason, owner, field, _, _, at, reads = verdict
    return f"bad {REASONS[reason]} at={at} object={owner} field={'-' if field is None else field} reads={reads}"


def default_of(number):
    """How the default of a float is written."""
    return f"default:{number!r}"


def in_calls(text):
    """What calls tell where this is the naive reader's text of a value: they tell defaults of floats."""
    if not isinstance(text, Default):
        return text
    return default_of(struct.unpack("<f" if len(text.data) == 4 else "<d", text.data)[0])


def text_of(kind, value):
    """The text of a value."""
    return WRITTEN[kind](value)


def texts_of(values):
    """The texts of values, each with its kind."""
    return [WRITTEN[kind](value) for kind, value in values]
