"""Each demand on rows at its edges, and beside the demand that is asked after it: where both are broken, the earlier is
told.

A table has lines of what a case shows, its rows as case_text.py has them, and what is answered: `ok`, or a fault with
the number of the object or enum that it is about and, behind a dot, the place of the field or member.
"""

import re

from tests.support import schemas
from tests.support.case_text import rows_of

CODES = ["NoSuchObject", "NoSuchEnum", "Unsupported", "BadSlot", "NoTypeField", "BadStruct", "BadMember", "NameTwice"]

# Each case of an object is about object 2, and each of an enum about enum 1. What they have in front:
OBJECTS = "Table table: ; Pair struct 8/4: ; Choice union: ; Color enum: ; Subject "
MEMBERS = "Table table: ; Pair struct 8/4: ; Choice union: ; Subject union: "
MEMBERS_OF_AN_ENUM = MEMBERS.replace("Subject union", "Subject enum")

# The scalars of each size, with that size and that of three.
SCALARS = [
    ("utype bool byte ubyte", 1, 3), ("short ushort", 2, 6), ("int uint float", 4, 12), ("long ulong double", 8, 24),
]
STANDS = """
    BASE alone       | table: f@4 BASE              | ok
    a vector of BASE | table: f@4 [BASE]            | ok
    a BASE fits      | struct SIZE/1: f@0 BASE      | ok
    a byte past      | struct SIZE/1: f@1 BASE      | BadStruct 2.0
    three BASE fit   | struct THREE/1: f@0 [BASE:3] | ok
    a byte past      | struct THREE/1: f@1 [BASE:3] | BadStruct 2.0
    a vector inline  | struct 8/1: f@0 [BASE]       | BadStruct 2.0
    an array alone   | table: f@4 [BASE:2]          | Unsupported 2.0
"""
NO_MEMBERS = """
    BASE             | m=1 BASE, last=9 string      | BadMember 1.0
    a vector of BASE | m=1 [BASE], last=9 string    | BadMember 1.0
    an array of BASE | m=1 [BASE:2], last=9 string  | BadMember 1.0
"""

# Numbers that are no type of one value: none, vector, array, 64-bit vector, and what is no base type at all.
NO_VALUES = "none vector array vector64 19 20 -1 127 -128".split()
NOWHERE = """
    BASE alone       | table: f@4 BASE          | Unsupported 2.0
    several BASE     | table: f@4 [BASE]        | Unsupported 2.0
    BASE inline      | struct 8/1: f@0 BASE     | BadStruct 2.0
    an array of BASE | struct 8/1: f@0 [BASE:2] | BadStruct 2.0
"""

NAMED = """
    a table               | table: f@4 obj#0       | ok
    structs               | table: f@4 [obj]#1     | ok
    itself                | table: f@4 obj#2       | ok
    past the last         | table: f@4 obj#3       | NoSuchObject 2.0
    before the first      | table: f@4 obj#-1      | NoSuchObject 2.0
    no objects            | table: f@4 [obj]#3     | NoSuchObject 2.0
    past the last enum    | table: f@4 union#2     | NoSuchEnum 2.0
    before the first enum | table: f@4 union#-1    | NoSuchEnum 2.0
    no union              | table: f@4 union#1     | NoSuchEnum 2.0
    unions of no enum     | table: f@4 [union]#2   | NoSuchEnum 2.0
    no unions             | table: f@4 [union]#1   | NoSuchEnum 2.0
    an index of a number  | table: f@4 int#99      | ok
    an index of texts     | table: f@4 [string]#-1 | ok
    an array of numbers   | table: f@4 [int:2]     | Unsupported 2.0
    an array of no object | table: f@4 [obj:2]#3   | Unsupported 2.0
    an array of structs   | table: f@4 [obj:2]#1   | Unsupported 2.0
    an array of texts     | table: f@4 [string:2]  | Unsupported 2.0
    an array of unions    | table: f@4 [union:2]#0 | Unsupported 2.0
"""

# A name twice, and what is wrong beside it; an odd slot of a field that has more wrong with it; a slot twice; a 64-bit
# offset that leads to nothing, or stands in an earlier field than a name twice; an earlier field that names no enum, or
# has no types, beside a later fault.
FIRST = """
    name twice, and the slot     | table: a@4 int, a@4 int             | NameTwice 2.1
    name twice at an odd slot    | table: a@4 int, a@7 obj#3           | NameTwice 2.1
    odd slot of a 64-bit offset  | table: b@5 int far, last@40 int     | BadSlot 2.0
    odd slot of no object        | table: b@5 obj#3, last@40 int       | BadSlot 2.0
    slot twice, of no object     | table: a@4 int, b@4 obj#3           | BadSlot 2.1
    64-bit offset to no object   | table: b@4 obj#3 far, last@40 int   | Unsupported 2.0
    64-bit offset to no enum     | table: b@6 union#2 far, last@40 int | Unsupported 2.0
    64-bit before a name twice   | table: a@4 int far, a@4 int         | Unsupported 2.0
    no enum before no object     | table: b@4 union#2, c@6 obj#3       | NoSuchEnum 2.0
    no types before a name twice | table: b@8 union#0, b@6 obj#3       | NoTypeField 2.0
"""

# What is wrong with a deprecated field and not asked; then what is.
DEPRECATED = """
    a 64-bit offset              | table: a@4 int gone far, last@40 int  | ok
    a 64-bit vector              | table: b@4 vector64 gone, last@40 int | ok
    no object                    | table: b@4 obj#3 gone, last@40 int    | ok
    no enum                      | table: b@4 union#2 gone, last@40 int  | ok
    no types                     | table: b@4 union#0 gone, last@40 int  | ok
    an odd slot                  | table: b@9 int gone, last@40 int      | BadSlot 2.0
    the slot of a live one       | table: a@4 int, b@4 int gone          | BadSlot 2.1
    the slot of a deprecated one | table: a@4 int gone, b@4 int gone     | BadSlot 2.1
    the name of a live one       | table: a@4 int, a@6 int gone          | NameTwice 2.1
    the name of a deprecated one | table: a@4 int gone, a@6 int          | NameTwice 2.1
"""

SLOTS = """
    none                 | table: f@0 int     | BadSlot 2.0
    that of a size       | table: f@2 int     | BadSlot 2.0
    odd, below the first | table: f@3 int     | BadSlot 2.0
    the first            | table: f@4 int     | ok
    odd                  | table: f@5 int     | BadSlot 2.0
    the second           | table: f@6 int     | ok
    the last             | table: f@65534 int | ok
    odd, past the last   | table: f@65535 int | BadSlot 2.0
"""

# Where the types may stand; then where they are missed.
TYPE_FIELDS = """
    below                     | table: t@4 utype, u@6 union#0          | ok
    below, of each value      | table: t@4 [utype], u@6 [union]#0      | ok
    below, but listed later   | table: u@6 union#0, t@4 utype          | ok
    two below                 | table: t@4 utype, u@8 union#0          | NoTypeField 2.1
    above                     | table: t@8 utype, u@6 union#0          | NoTypeField 2.1
    above, of each value      | table: t@8 [utype], u@6 [union]#0      | NoTypeField 2.1
    deprecated                | table: t@4 utype gone, u@6 union#0     | NoTypeField 2.1
    deprecated, of each value | table: t@4 [utype] gone, u@6 [union]#0 | NoTypeField 2.1
    a byte                    | table: t@4 ubyte, u@6 union#0          | NoTypeField 2.1
    bytes                     | table: t@4 [ubyte], u@6 [union]#0      | NoTypeField 2.1
    types for one value       | table: t@4 [utype], u@6 union#0        | NoTypeField 2.1
    one type for values       | table: t@4 utype, u@6 [union]#0        | NoTypeField 2.1
    no slot below             | table: t@6 utype, u@4 union#0          | NoTypeField 2.1
"""

# Sizes of structs with alignments, and what is answered of them.
POWERS = "1 2 4 8 16 32 64 128 256"
LATER_POWERS = " ".join(str(2**power) for power in range(9, 31))
ALIGNMENTS = [
    (1, POWERS, "ok"), (2_147_483_647, POWERS, "ok"),
    (8, "0 3 6 127 255 257 512 65536 -1 -8 -2147483648", "BadStruct 2"),
    (0, POWERS, "BadStruct 2"), (-1, POWERS, "BadStruct 2"), (2_147_483_647, LATER_POWERS, "BadStruct 2"),
]

INLINE = """
    a struct              | struct 8/1: f@0 obj#1       | ok
    a table               | struct 8/1: f@0 obj#0       | BadStruct 2.0
    an array of tables    | struct 8/1: f@0 [obj:1]#0   | BadStruct 2.0
    a text                | struct 8/1: f@0 string      | BadStruct 2.0
    a union               | struct 8/1: f@0 union#0     | BadStruct 2.0
    a vector of no object | struct 8/1: f@0 [obj]#3     | BadStruct 2.0
    a vector of structs   | struct 8/1: f@0 [obj]#1     | BadStruct 2.0
    a vector of texts     | struct 8/1: f@0 [string]    | BadStruct 2.0
    a vector of unions    | struct 8/1: f@0 [union]#0   | BadStruct 2.0
    an array of texts     | struct 8/1: f@0 [string:1]  | BadStruct 2.0
    an array of unions    | struct 8/1: f@0 [union:1]#0 | BadStruct 2.0
    no object             | struct 8/1: f@0 obj#3       | NoSuchObject 2.0
    an array of none      | struct 8/1: f@0 [obj:1]#-1  | NoSuchObject 2.0
"""

ENDS = """
    a struct                  | struct 8/1: f@1 obj#1             | BadStruct 2.0
    two structs               | struct 16/1: f@0 [obj:2]#1        | ok
    two, a byte past          | struct 15/1: f@0 [obj:2]#1        | BadStruct 2.0
    the longest array         | struct 524280/1: f@0 [long:65535] | ok
    a byte past               | struct 524279/1: f@0 [long:65535] | BadStruct 2.0
    an empty array at the end | struct 8/1: f@8 [long:0]          | ok
    past the end              | struct 8/1: f@9 [long:0]          | BadStruct 2.0
    at an odd place           | struct 8/1: f@3 int               | ok
    no object, past the end   | struct 8/1: f@9 obj#-1            | NoSuchObject 2.0
"""

# What may be said of a field of a struct; then what is refused.
PLACES = """
    the same bytes    | struct 8/4: a@0 int, b@0 int            | ok
    a 64-bit offset   | struct 8/4: a@0 int far, last@4 int     | ok
    deprecated        | struct 8/4: a@0 int gone, last@4 int    | ok
    a name twice      | struct 8/4: a@0 int, a@4 string         | NameTwice 2.1
    a deprecated text | struct 8/4: a@4 string gone, last@4 int | BadStruct 2.0
    past the end      | struct 8/4: b@5 int gone, last@4 int    | BadStruct 2.0
"""

# Values that may be; others; values that stand twice.
VALUES = """
    0 and 1                  | m=0 string, n=1 string                       | ok
    255 and 254              | m=255 string, n=254 string                   | ok
    -1                       | m=-1 string, last=9 string                   | BadMember 1.0
    the least                | m=-9223372036854775808 string, last=9 string | BadMember 1.0
    256                      | m=256 string, last=9 string                  | BadMember 1.0
    257, whose low byte is 1 | m=257 string, last=9 string                  | BadMember 1.0
    0 twice                  | m=0 string, n=0 string                       | BadMember 1.1
    255 twice                | m=255 string, n=255 string                   | BadMember 1.1
"""

# Members that may be; objects that are not there; other types.
TYPES = """
    a table               | m=1 obj#0, last=9 string       | ok
    a struct              | m=1 obj#1, last=9 string       | ok
    a text with an index  | m=1 string#9, last=9 string    | ok
    anything at value 0   | m=0 obj#9, last=9 string       | ok
    past the last         | m=1 obj#2, last=9 string       | NoSuchObject 1.0
    before the first      | m=1 obj#-1, last=9 string      | NoSuchObject 1.0
    no type               | m=1 none, last=9 string        | BadMember 1.0
    a number              | m=1 int, last=9 string         | BadMember 1.0
    a union               | m=1 union#0, last=9 string     | BadMember 1.0
    a vector of no object | m=1 [obj]#9, last=9 string     | BadMember 1.0
    a vector of texts     | m=1 [string], last=9 string    | BadMember 1.0
    an array of texts     | m=1 [string:2], last=9 string  | BadMember 1.0
    a vector of tables    | m=1 [obj]#0, last=9 string     | BadMember 1.0
    an array of structs   | m=1 [obj:2]#1, last=9 string   | BadMember 1.0
    an array of no object | m=1 [obj:2]#9, last=9 string   | BadMember 1.0
    a vector of unions    | m=1 [union]#0, last=9 string   | BadMember 1.0
    an array of unions    | m=1 [union:2]#0, last=9 string | BadMember 1.0
"""

# A name twice, and a type that is refused too; names that may stand twice; a value that is asked before the name.
NAMES = """
    a number          | m=1 string, m=2 int    | NameTwice 1.1
    no object         | m=1 string, m=2 obj#2  | NameTwice 1.1
    of value 0        | m=1 string, m=0 none   | ok
    of value 0 before | m=0 none, m=1 string   | ok
    the value too     | m=1 string, m=1 string | BadMember 1.1
"""

ORDER = """
    a union at last  | A table: f@4 int; B table: f@4 int; C struct 8/1: f@4 int          | BadMember 0.0
    a struct's field | A table: f@4 string; B table: f@4 string; C struct 8/1: f@4 string | BadStruct 2.0
    its size before  | A table: f@4 string; B table: f@4 string; C struct 0/1: f@4 string | BadStruct 2
    its name before  | A table: f@4 string; B table: f@4 string; A struct 0/1: f@4 string | NameTwice 2
    a name before    | A table: f@4 string; A table: f@4 string; C struct 0/1: f@4 string | NameTwice 1
    a field before   | A table: f@5 string; A table: f@5 string; C struct 0/1: f@5 string | BadSlot 0.0
    a name thrice    | A table: ; B table: ; B table: ; A table: ; B table: ; C struct 0/1:     | NameTwice 2
"""

ENUMS = """
    two unions          | U union: ; U union:                  | ok
    a union and an enum | U enum: ; U union:                   | ok
    that of a table     | U table: v@4 int; U union: m=1 obj#0 | ok
"""

TEXTS = """
    C1           | D table: x@4 int, y@6 int, z@8 obj#9                         | NoSuchObject 3.2
    C2           | D table: x@4 int, y@6 int, z@8 union#0                       | NoSuchEnum 3.2
    C3           | D table: x@4 int, y@6 int, z@8 [vector]                      | Unsupported 3.2
    C4           | D table: x@4 int, y@6 int, z@9 int                           | BadSlot 3.2
    C5           | D table: x@4 int, y@6 int, z@8 union#0; U union:             | NoTypeField 3.2
    C6           | D struct 8/4: x@0 int, y@4 int, z@8 int                      | BadStruct 3.2
    C7           | E union: ; F union: ; G union: ; H union: x=1 string, y=2 string, z=256 string | BadMember 3.2
    C8           | D table: x@4 int, y@6 int, x@8 int                           | NameTwice 3.2
    C8, no field | A table:                                                     | NameTwice 3
"""


def lines(table, front=""):
    """What each line of a table shows, its rows behind these, and what is answered."""
    found = [[column.strip() for column in line.split("|")] for line in table.splitlines() if line.strip()]
    return [(shows, front + rows, want) for shows, rows, want in found]


def filled(table, **words):
    """A table in which other words stand for these."""
    return re.sub("|".join(words), lambda word: str(words[word[0]]), table)


def members(table):
    """The members of each line in a union, and in an enum that is none, where they are good."""
    return [*lines(table, MEMBERS), *[(f"{shows}, in an enum", rows, "ok")
                                      for shows, rows, _ in lines(table, MEMBERS_OF_AN_ENUM)]]


TABLES = {
    "a scalar has its size in structs and may stand in tables": [
        case for bases, size, three in SCALARS for base in bases.split()
        for case in lines(filled(STANDS, BASE=base, SIZE=size, THREE=three), OBJECTS)
    ],
    "what is no value stands nowhere": [
        case for base in NO_VALUES for case in lines(filled(NOWHERE, BASE=base), OBJECTS)
    ],
    "a type of a table names what is there": lines(NAMED, OBJECTS),
    "a field of a table breaks the demand that is asked first": lines(FIRST, OBJECTS),
    "a deprecated field is asked its name and slot alone": lines(DEPRECATED, OBJECTS),
    "a slot is even and 4 or more": lines(SLOTS, OBJECTS),
    "a union has a live type field in the slot below": lines(TYPE_FIELDS, OBJECTS),
    "a struct has a size and a power of two to stand at": [
        (f"{size} bytes at {alignment}", f"{OBJECTS}struct {size}/{alignment}:", want)
        for size, alignments, want in ALIGNMENTS for alignment in alignments.split()
    ],
    "a struct holds inline values alone": lines(INLINE, OBJECTS),
    "a field of a struct ends within it": lines(ENDS, OBJECTS),
    "a field of a struct is asked its name and its place alone": lines(PLACES, OBJECTS),
    "a value is a byte and stands once": members(VALUES),
    "a member is an object that is there or a text": members(TYPES),
    "no number is a member": [
        case for bases, _, _ in SCALARS for base in bases.split() for case in members(filled(NO_MEMBERS, BASE=base))
    ],
    "a name is asked after the value and before the type": members(NAMES),
    "rows are asked in their order": lines(ORDER, "Choice union: m=256 string; "),
    "names of enums may stand twice": lines(ENUMS),
    "each fault has its text": lines(TEXTS, "A table: ; B table: ; C table: ; "),
}


def file_of_rows(rows):
    """The schema file of these rows."""
    return schemas.schema(*rows_of(rows))


def fault(want):
    """What `test_probe list` tells first of a file, by the answer of its line."""
    if want == "ok":
        return "root=None"
    name, place = want.split()
    owner, _, part = place.partition(".")
    return f"fault L2 C{CODES.index(name) + 1} {name} owner={owner} part={part or '-'}"
