"""The buffers of the tests, worked out byte by byte. Each name says by which schema of schemas.py it is one."""

import struct

from tests.support.builder import changed, prefixed, spelled
from tests.support.program import TOP

# By M: hp is 300 and name is "Orc".
ORC = spelled("0c000000 0800 0c00 0800 0400 08000000 08000000 2c01 0000 03000000 4f726300")

# By M: the same with a name that isn't UTF-8, from its first byte on; and with no name, and a third slot.
NO_TEXT = changed(ORC, (28, "ff"))
THIRD_SLOT = spelled("10000000 0a00 0c00 0800 0400 0500 0000 0c000000 08000000 2c01 0000 00000000 00")

# A table without a field, by every schema whose root has no required one.
PLAIN = spelled("08000000 0400 0400 04000000")

# By N, with its prefix: v is 7.
SEVEN = spelled("1c000000 10000000 0600 0c00 0400 000000000000 0c000000 0700000000000000")

# By N, with its prefix: its root table stands at an odd place.
ODD = changed(SEVEN, (20, "0d"))

# By any schema, with its prefix: no byte stands behind that.
NOTHING = spelled("00000000")

# By NODE: a table with two twins below it, which share two below them.
TWINS = spelled(
    "10000000 0800 0c00 0400 0800 0400 0400",
    "0c000000 08000000 04000000 18000000 08000000 04000000 1c000000",
)

# By X from R: u is the table A, whose v is 5.
MEMBER = spelled("0c000000 0800 0c00 0800 0400 08000000 10000000 01000000 0600 0800 0400 0000 08000000 05000000")

# By X from R, with its prefix and the identifier MEMB: the same, and v stands at 45, one past a multiple of 4.
ODD_MEMBER = spelled(
    "2d000000 10000000 4d454d42 0800 0c00 0800 0400 08000000 10000000 01000000",
    "0600 0900 0500 0000 08000000 00 05000000",
)

# By X from R: u is the struct W, whose x is 7.
PLACED = spelled("0c000000 0800 0c00 0800 0400 08000000 08000000 02000000 0700000000000000")

# By X from Q: us is the text "hi" and nothing.
MEMBERS = spelled(
    "0c000000 0800 0c00 0400 0800 08000000 08000000 0c000000 02000000 03000000",
    "02000000 08000000 00000000 02000000 68690000",
)

# By X from Q: one type, and no value.
UNEQUAL = spelled(
    "0c000000 0800 0c00 0400 0800 08000000 08000000 0c000000 02000000 00000000 03000000 00000000 00000000 00000000"
)

# By Z: l is one number, which stands 4 bytes past a multiple of 8.
ASKEW = spelled("0c000000 0600 0800 0400 0000 08000000 08000000 00000000 01000000 0100000000000000")

# By G: f is 1.5.
HALVES = spelled("0c000000 0600 0800 0400 0000 08000000 0000c03f")

# The schema file and the stream of the examples.
BY_POST = ("--schema", TOP / "examples/deliveries.bfbs")
POST = (TOP / "examples/deliveries.bin").read_bytes()


def lower_type(number):
    """MEMBER with another type of its union."""
    return changed(MEMBER, (20, f"{number:02x}"))


# By X from R: the type of u is 0, and its value, which only strict checks ask, would stand far outside.
WILD = changed(lower_type(0), (16, "ffffff7f"))


def levels(count):
    """By CHAIN: so many tables, one inside another."""
    words = [0x10, 0x0008_0006, 0x0000_0004, 0x0004_0004]
    for level in range(count - 1):
        words += [12 + 8 * level, 4]
    return struct.pack(f"<{len(words) + 1}I", *words, 4 + 8 * (count - 1))


def doubling(count):
    """By NODE: so many tables in a row, each both children of the one before it: 2^count - 1 visits."""
    words = [0x10, 0x000C_0008, 0x0008_0004, 0x0004_0004]
    for level in range(count - 1):
        words += [12 + 12 * level, 8, 4]
    words += [4 + 12 * (count - 1), 0, 0]
    return struct.pack(f"<{len(words)}I", *words)


def named(length, prefix=True):
    """By M: a message of so many bytes, or a bare buffer, of which the name has all that is left."""
    head = spelled("0c000000 0800 0c00 0800 0400 08000000 08000000 2c01 0000")
    count = length - len(head) - 5 - (4 if prefix else 0)
    data = head + struct.pack("<I", count) + b"n" * count + b"\0"
    return prefixed(data) if prefix else data
