"""Cases that were worked out by hand from the rules, asked of the library, of the program, and of the naive checkers.

A case is a line of a table. A verdict has tables, depth and reads, or the reason, the position, the object with, behind
a dot, the field, and the reads. Asked is a bare buffer of the first object, with any identifier, under the published
limits and checks, but for what these words say: `root=Name`, `prefixed`, `want=ABCD`, `depth=2`, `tables=7`, `reads=8`,
`inline` (fields must end within the inline size) and `anywhere` (alignment isn't asked).
"""

import re
import struct

from tests.support import buffers, edges, schemas, widths
from tests.support.case_text import bytes_of, rows_of
from tests.support.every_kind import words_of
from tests.support.judge import first_broken
from tests.support.library import LibraryCase, module
from tests.support.naive import Reader, Schema, Walk
from tests.support.program import file_of, run
from tests.support.told import in_calls, line, text_of

# - `LONGS`: a vector of one long, whose element stands at 28, which is no multiple of 8
# - `PICKED`, `BOXED`: a union of a table, of a struct; `UNKNOWN`: of the type 9, which no member has
# - `HI`: a vector of two unions, of a text and of nothing; `THREE`: of three beside two types
# - `TWICE`: two vectors that are one, of two texts that are one; `NODES`: seven visits of three tables
# - `UNION_INLINE`: a union of a struct at 24, whose offset word at 20 ends past the inline size of 11
# - `SHARED_LIST`: a schema file behind its size, of which two lists are one empty vector
SAMPLES = {
    "ORC": buffers.ORC.hex(), "EMPTY": buffers.PLAIN.hex(), "SEVEN": buffers.SEVEN.hex(), "LONGS": buffers.ASKEW.hex(),
    "PICKED": buffers.MEMBER.hex(), "BOXED": buffers.PLACED.hex(), "HI": buffers.MEMBERS.hex(),
    "THREE": buffers.UNEQUAL.hex(), "NODES": buffers.TWINS.hex(), "FILE": schemas.M.hex(),
    "TWICE": "0c000000 08000c00 04000800 08000000 08000000 04000000 02000000 08000000 04000000 02000000 68690000",
    "UNKNOWN": "PICKED 20=09", "NO_LONGS": "LONGS 24=00 ..28",
    "HALF": "0c000000 06000800 04000000 08000000 0000c03f",
    "UNION_INLINE": "0c000000 08000b00 04000800 08000000 02000000 04000000 07000000 00000000",
    "SHARED_LIST": "1c000000 0c000000 08000c00 04000800 08000000 08000000 04000000 00000000",
    "64_LEVELS": buffers.levels(64).hex(), "100_LEVELS": buffers.levels(100).hex(),
    "11_PAIRS": buffers.doubling(11).hex(), **edges.SAMPLES, **widths.SAMPLES,
}

MONSTER = "M table: hp@4 short default=100, name@6 string"
PAIRS = "Node table: a@4 obj#0, b@6 obj#0"
UNIONS = """A table: v@4 int; W struct 8/8: x@0 long; R table: u_type@4 utype#0, u@6 union#0;
    Q table: us_type@4 [utype]#0, us@6 [union]#0; U union: NONE=0 none, A=1 obj#0, W=2 obj#1, T=3 string"""
LONG_LISTS = "One table: l@4 [long]"
FLOATS = "One table: f@4 float"
LISTS = "One table: a@4 [string], b@6 [string]"
DEFAULTS = """One table: even@4 bool default=256, odd@6 bool default=-1, byte@8 byte default=200,
    ubyte@10 ubyte default=-56, ushort@12 ushort default=-1, ulong@14 ulong default=-1,
    maybe@16 int default=9 optional"""
REFLECTION = "reflection"

# What a case shows, its buffer, what is asked, and the verdict, by rows.
JUDGED = [
    (MONSTER, """
        both fields are there | ORC |  | yes 1 1 8
        slots past the vtable aren't read | EMPTY |  | yes 1 1 3
        an empty buffer has no root offset |  |  | V2 0 0 0
        a string's last byte isn't zero | ORC 31=01 |  | V10 31 0.1 8
        a string's last byte is missing | ORC ..31 |  | V2 28 0.1 7
        a string's count is the largest | ORC 24=ffffffff |  | V2 28 0.1 7
        an offset of 0 | ORC 16=00 |  | V4 16 0.1 6
        no table may be opened | ORC | tables=0 | V7 12 0 1
        no depth | ORC | depth=0 | V6 12 0 1
        depth is tested before count | ORC | depth=0 tables=0 | V6 12 0 1
        the root offset is the vtable too | 04000000 04000000 |  | yes 1 1 3
        the table is its own vtable, of size 0 | 04000000 00000000 |  | V8 4 0 3
        a vtable of size 3 | 08000000 03000400 04000000 |  | V8 4 0 3
        a vtable of size 2 | 08000000 02000400 04000000 |  | V8 4 0 3
        a vtable past the end | 08000000 0a000400 04000000 |  | V2 4 0 3
        a vtable at an odd position | 08000000 04000400 03000000 |  | V3 5 0 2
        a vtable before the buffer | 04000000 08000000 |  | V2 4 0 2
        a vtable far past the buffer | 04000000 00000080 |  | V2 4 0 2
        a vtable after its table | 04000000 fcffffff 04000400 |  | yes 1 1 3
        a table at no multiple of 4 | 06000000 00000400 0000 |  | V3 6 0 1
        unaligned, an odd vtable's range is tested | 08000000 04000400 03000000 | anywhere | V2 5 0 3
        unaligned, a vtable's size is still even | 08000000 03000400 04000000 | anywhere | V8 4 0 3
        the inline size is read | ORC | inline | yes 1 1 9
        a short ends past an inline size of 9 | ORC 6=09 | inline | V12 20 0.0 5
        it ends at an inline size of 10 | ORC 6=0a | inline | yes 1 1 9
        nobody asked | ORC 6=09 |  | yes 1 1 8
        its cost | ORC | reads=8 | yes 1 1 8
        far more | ORC | reads=18446744073709551615 | yes 1 1 8
        one less: the string is told at its offset word | ORC | reads=7 | V13 16 0.1 8
        the string is read to its end, though its offset word is too much | ORC | reads=5 | V13 16 0.1 8
        the slot of the string is a read too much | ORC | reads=4 | V13 12 0.1 5
        the slot of the number is | ORC | reads=3 | V13 12 0.0 4
        a head is two reads, and is told once they are made | ORC | reads=2 | V13 12 0 3
        or its first is too much | ORC | reads=1 | V13 12 0 3
        the root offset is told at its own place | ORC | reads=0 | V13 0 0 1
        slots past the vtable cost nothing | EMPTY | reads=3 | yes 1 1 3
        slots of 0 cost a read each | 0c000000 08000800 00000000 08000000 | reads=5 | yes 1 1 5
        one less: the slot is told at its table | 0c000000 08000800 00000000 08000000 | reads=4 | V13 12 0.1 5
        nothing is read of an empty buffer |  | reads=0 | V2 0 0 0
        a root offset of 0 | 00000000 | reads=0 | V4 0 0 1
        a vtable of size 2 | 08000000 02000400 04000000 | reads=1 | V8 4 0 3
        a string's last byte isn't zero | ORC 31=01 | reads=5 | V10 31 0.1 8
        an offset of 0 | ORC 16=00 | reads=5 | V4 16 0.1 6
        but the slot before it was paid by then | ORC 16=00 | reads=4 | V13 12 0.1 5
        its cost | ORC | inline reads=9 | yes 1 1 9
        one less | ORC | inline reads=8 | V13 16 0.1 9
        a head is three reads | ORC | inline reads=3 | V13 12 0 4
        a field past its table has a fault of its own | ORC 6=09 | inline reads=4 | V12 20 0.0 5
    """),
    (UNIONS, """
        a union without a type isn't examined | \
            0c000000 08000900 08000400 08000000 ffffffff 00000000 | root=R inline | yes 1 1 8
        its type byte is | 0c000000 08000800 08000400 08000000 ffffffff 00000000 | root=R inline | V12 20 2.0 5
        a table | PICKED | root=R | yes 2 2 11
        an unknown type isn't examined | UNKNOWN | root=R | yes 1 1 7
        no type, so the wild offset isn't examined | ORC 16=ffffffff0000 ..24 | root=R | yes 1 1 7
        the wild offset of a table; the table was opened and names itself | \
            ORC 16=ffffffff0100 ..24 | root=R | V2 4294967311 0 8
        a struct | BOXED | root=R | yes 1 1 8
        a struct of alignment 8 at a multiple of 4 | \
            0c000000 08000c00 08000400 08000000 0c000000 02000000 00000000 07000000 00000000 | root=R | V3 28 2.1 8
        a table that is too deep is named by the union's field | PICKED | root=R depth=1 tables=7 | V6 32 2.1 8
        two types, three values | THREE | root=Q | V11 32 3.1 12
        two types, two values, neither examined | THREE 32=02 ..44 | root=Q | yes 1 1 14
        no types, no values | 0c000000 08000800 00000400 08000000 04000000 00000000 | root=Q | yes 1 1 8
        types, no values | 0c000000 08000800 04000000 08000000 04000000 01000000 01000000 | root=Q | yes 1 1 7
        a string and nothing | HI | root=Q | yes 1 1 17
        and so has an offset word past its table | UNION_INLINE | root=R inline reads=7 | V12 20 2.1 8
        of an unknown type it isn't asked for its end | UNION_INLINE 16=09 | root=R inline reads=7 | V13 12 2.1 8
        a table's cost | PICKED | root=R reads=11 | yes 2 2 11
        one less: the slot of its number | PICKED | root=R reads=10 | V13 32 0.0 11
        the table's head | PICKED | root=R reads=9 | V13 32 0 10
        the offset word that leads to it is told with it | PICKED | root=R reads=7 | V13 32 0 10
        the type is told with the field itself | PICKED | root=R reads=6 | V13 12 2.1 7
        its slot is read along with it | PICKED | root=R reads=4 | V13 12 2.1 7
        the type field is another field | PICKED | root=R reads=3 | V13 12 2.0 4
        the head of a table past the end has a fault of its own | \
            ORC 16=ffffffff0100 ..24 | root=R reads=7 | V2 4294967311 0 8
        a level too many is told before its head is read | PICKED | root=R depth=1 tables=7 reads=7 | V6 32 2.1 8
        an unknown type's cost | UNKNOWN | root=R reads=7 | yes 1 1 7
        one less: no offset word is asked | UNKNOWN | root=R reads=6 | V13 12 2.1 7
        a struct's cost | BOXED | root=R reads=8 | yes 1 1 8
        one less: the offset word | BOXED | root=R reads=7 | V13 16 2.1 8
        its cost | HI | root=Q reads=17 | yes 1 1 17
        one less: the type of nothing is told at its offset word, which isn't read | \
            HI | root=Q reads=16 | V13 40 3.1 17
        a string is told at its offset word | HI | root=Q reads=15 | V13 36 3.1 16
        its type is told with it | HI | root=Q reads=12 | V13 36 3.1 16
        the field itself is six reads | HI | root=Q reads=11 | V13 12 3.1 12
        of which the first is too much | HI | root=Q reads=6 | V13 12 3.1 12
        the vector of types is another field | HI | root=Q reads=5 | V13 12 3.0 6
        lengths that differ are a fault of its own | THREE | root=Q reads=6 | V11 32 3.1 12
    """),
    (PAIRS, """
        three tables, seven visits                       | NODES | tables=7                 | yes 7 3 27
        the seventh visit is too many                    | NODES | tables=6                 | V7 40 0.1 25
        the third level is too deep                      | NODES | depth=2 tables=7         | V6 40 0.0 9
        both limits are reached at once                  | NODES | depth=2 tables=2         | V6 40 0.0 9
        their cost                                       | NODES | reads=27                 | yes 7 3 27
        one less: the last head                          | NODES | reads=26                 | V13 40 0 27
        the offset word that leads to it is told with it | NODES | reads=24                 | V13 40 0 27
        the slot before it is told at its table          | NODES | reads=23                 | V13 28 0.1 24
        a table too many is told before its head is read | NODES | tables=6 reads=24        | V7 40 0.1 25
        and so is a level too many                       | NODES | depth=2 tables=7 reads=8 | V6 40 0.0 9
        the slot before it comes before both             | NODES | depth=2 tables=7 reads=7 | V13 28 0.0 8
    """),
    ("One table: v@4 long", """
        a multiple of 8 from the prefix | SEVEN | prefixed | yes 1 1 5
        a prefix of one too many | SEVEN 0=1d | prefixed | V1 0 0 1
        another identifier | SEVEN | prefixed want=ABCD | V5 8 0 2
        a message of four bytes has no root offset | 00000000 | prefixed | V2 4 0 1
        half a prefix | 0000 | prefixed | V2 0 0 0
        the wanted identifier is there | 0c000000 41424344 04000400 04000000 | want=ABCD | yes 1 1 4
        no room for an identifier | 0c000000 414243 | want=ABCD | V2 4 0 0
        a root offset of 0 | 00000000 |  | V4 0 0 1
        its cost | SEVEN | prefixed reads=5 | yes 1 1 5
        one less | SEVEN | prefixed reads=4 | V13 20 0.0 5
        a head behind a prefix | SEVEN | prefixed reads=3 | V13 20 0 4
        prefix and root offset are told at the root offset | SEVEN | prefixed reads=1 | V13 4 0 2
        the prefix too is told there | SEVEN | prefixed reads=0 | V13 4 0 2
        another identifier is a fault of its own | SEVEN | prefixed want=ABCD reads=0 | V5 8 0 2
        a wanted identifier costs a read | 0c000000 41424344 04000400 04000000 | want=ABCD reads=4 | yes 1 1 4
        the table's head is told | 0c000000 41424344 04000400 04000000 | want=ABCD reads=2 | V13 12 0 4
        the identifier is told at the root offset | \
            0c000000 41424344 04000400 04000000 | want=ABCD reads=1 | V13 0 0 2
    """),
    (LONG_LISTS, """
        longs at no multiple of 8                          | LONGS             |                  | V3 28 0.0 6
        range is tested before alignment                   | LONGS 24=00 27=20 |                  | V2 28 0.0 6
        no elements, no alignment                          | NO_LONGS          |                  | yes 1 1 6
        unaligned longs                                    | LONGS             | anywhere         | yes 1 1 6
        longs' cost                                        | LONGS             | anywhere reads=6 | yes 1 1 6
        one less: the vector is told at its table          | LONGS             | anywhere reads=5 | V13 12 0.0 6
        longs at no multiple of 8 are a fault of their own | LONGS             | reads=3          | V3 28 0.0 6
    """),
    (FLOATS, """
                a float | HALF |  | yes 1 1 4
        an absent float | EMPTY |  | yes 1 1 3
    """),
    ("One table: s@4 string required", """
        a required field is absent | EMPTY                               |         | V9 8 0.0 3
        a required field is absent | 0c000000 06000800 00000000 08000000 | reads=3 | V9 12 0.0 4
    """),
    ("One table: s@4 string gone", """
        a deprecated field isn't checked | LONGS |  | yes 1 1 3
    """),
    (LISTS, """
        both lists name one string twice        | TWICE |          | yes 1 1 21
        two lists' cost                         | TWICE | reads=21 | yes 1 1 21
        one less: the last string of the second | TWICE | reads=20 | V13 32 0.1 21
        its first string                        | TWICE | reads=17 | V13 28 0.1 18
        the second list itself                  | TWICE | reads=14 | V13 12 0.1 15
        the last string of the first            | TWICE | reads=11 | V13 32 0.0 12
    """),
    (REFLECTION, """
        eleven visits, the table of the root twice | FILE | root=reflection.Schema | yes 11 4 90
        its identifier is read | FILE | root=reflection.Schema want=BFBS | yes 11 4 91
        another identifier | FILE | root=reflection.Schema want=XFBS | V5 4 9 1
        two lists share one empty vector | SHARED_LIST | root=reflection.Schema prefixed | yes 1 1 10
        a long is no more at a multiple of 8 | d0000000 FILE | root=reflection.Schema prefixed | V3 132 4.4 32
        it may stand there | d0000000 FILE | root=reflection.Schema prefixed anywhere | yes 11 4 91
        its cost | FILE | root=reflection.Schema reads=90 | yes 11 4 90
        one less: the slot of the last field's offset | FILE | root=reflection.Schema reads=89 | V13 172 4.3 90
        the head of the first object is told with its offset word | FILE | root=reflection.Schema reads=6 | V13 60 5 9
        the vector of objects itself | FILE | root=reflection.Schema reads=5 | V13 24 9.0 6
        with its identifier | FILE | root=reflection.Schema want=BFBS reads=91 | yes 11 4 91
        with its identifier, one less | FILE | root=reflection.Schema want=BFBS reads=90 | V13 172 4.3 91
    """),
    ("One table: first@4 ubyte, last@65532 ubyte, past@65534 ubyte", """
        the longest vtable | 04000100 feff0400 ..65540 00000100 |  | yes 1 1 5
    """),
    ("One table: next@4 obj#0", """
        as deep as may be | 64_LEVELS | | yes 64 64 255
        deeper | 100_LEVELS | | V6 528 0.0 257
    """),
    (PAIRS, """
        a chain of pairs doubles its visits | 11_PAIRS | tables=2047 | yes 2047 11 8187
        one visit less | 11_PAIRS | tables=2046 | V7 136 0.1 8185
    """),
]

# The same with the way to what was under check.
WAYS = [
    (MONSTER, """
        a yes has none              | ORC       |         | .
        no root offset              |           |         | .
        the root is too deep        | ORC       | depth=0 | .
        its head is a read too much | ORC       | reads=2 | .
        its first field is          | ORC       | reads=3 | 0.0
        its string doesn't end in 0 | ORC 31=01 |         | 0.1
    """),
    (PAIRS, """
        the first field of the first is too deep | NODES | depth=2 tables=7 | 0.0 0.0
        the last visit is one too many           | NODES | tables=6         | 0.1 0.1
        its head is a read too much              | NODES | reads=26         | 0.1 0.1
        the slot before it is                    | NODES | reads=23         | 0.1 0.1
    """),
    (UNIONS, """
        its table is past the end            | ORC 16=ffffffff0100 ..24 | root=R          | 2.1@1
        its table is too deep                | PICKED                   | root=R depth=1  | 2.1@1
        a field of its table is too much     | PICKED                   | root=R reads=10 | 2.1@1 0.0
        its struct's offset word is too much | BOXED                    | root=R reads=7  | 2.1@2
        its own reads are: no value yet      | PICKED                   | root=R reads=6  | 2.1
        an unknown type has no value         | UNKNOWN                  | root=R reads=6  | 2.1
        its word is past the inline size     | UNION_INLINE             | root=R inline   | 2.1
        the type field is another field      | PICKED                   | root=R reads=3  | 2.0
        a string in a vector of unions       | HI                       | root=Q reads=15 | 3.1[0]@3
        nothing in it                        | HI                       | root=Q reads=16 | 3.1[1]@0
        its vectors: no element yet          | HI                       | root=Q reads=11 | 3.1
        its lengths differ                   | THREE                    | root=Q          | 3.1
    """),
    (LISTS, """
        the last string of the second list | TWICE | reads=20 | 0.1[1]
    """),
    (REFLECTION, """
        the default of a schema's first field | d0000000 FILE | root=reflection.Schema prefixed | 9.0[0] 5.1[0] 4.4
    """),
]

# A path, a buffer, and what stands there, by rows and by what is asked.
VALUES = [
    (MONSTER, "", """
        name | ORC   | Text("Orc")
        hp   | ORC   | Int(300)
        hp   | EMPTY | Int(100)
        name | EMPTY | Absent
    """),
    (FLOATS, "", """
        f | HALF  | Float([0, 0, 192, 63])
        f | EMPTY | DefaultFloat(0.0)
    """),
    (DEFAULTS, "", """
        even   | EMPTY | Bool(false)
        odd    | EMPTY | Bool(true)
        byte   | EMPTY | Int(-56)
        ubyte  | EMPTY | UInt(200)
        ushort | EMPTY | UInt(65535)
        ulong  | EMPTY | UInt(18446744073709551615)
        maybe  | EMPTY | Absent
    """),
    (LONG_LISTS, "anywhere", """
        l     | NO_LONGS | Vector(0)
        l [0] | NO_LONGS | NoElement
        l [0] | LONGS    | Int(1)
    """),
    (UNIONS, "root=R", """
        u      | PICKED  | Union(1)
        u @A v | PICKED  | Int(5)
        u @T   | PICKED  | OtherMember
        u      | UNKNOWN | Union(9)
        u @A v | UNKNOWN | OtherMember
        u @W   | BOXED   | Struct([7, 0, 0, 0, 0, 0, 0, 0])
    """),
    (UNIONS, "root=Q", """
        us          | HI | Vector(2)
        us [0]      | HI | Union(3)
        us [0] @T   | HI | Text("hi")
        us [1] @T   | HI | OtherMember
        us [2] @T   | HI | NoElement
        us_type [0] | HI | UInt(3)
    """),
    ("One table: v@4 long", "prefixed", "v | SEVEN | Int(7)"),
    (LISTS, "", "b [1] | TWICE | Text(\"hi\")"),
]

# What a case shows, the root, and a path that doesn't fit.
MISFITS = """
no such field         | root=R | x
no vector             | root=R | u [0]
no such member        | root=R | u @Z
value 0 is no member  | root=R | u @NONE
no table              | root=R | u v
no table behind a text | root=R | u @T v
a vector is no union  | root=Q | us @A
"""

# What a case shows, rows, and the demand that they break first.
ROWS = """
an object that isn't there     | One table: a@4 obj#1              | C1 0.0
an object of negative number   | One table: a@4 [obj]#-1           | C1 0.0
a union that isn't there       | One table: a@4 union#0            | C2 0.0
a vector of vectors            | One table: a@4 [vector]           | C3 0.0
the same, deprecated           | One table: a@4 [vector] gone      | ok
an array in a table            | One table: a@4 array              | C3 0.0
an offset of 64 bits           | One table: a@4 int far            | C3 0.0
an odd slot                    | One table: a@5 int                | C4 0.0
a slot below 4                 | One table: a@2 int                | C4 0.0
two fields at one slot         | One table: a@4 int, b@4 int       | C4 0.1
two fields of one name         | One table: a@4 int, a@6 int       | C8 0.1
the table itself               | One table: a@4 obj#0, b@6 [obj]#0 | ok
no rows at all                 |                                   | ok
no bytes                       | S struct 0/4:                     | C6 0
an alignment of 3              | S struct 4/3:                     | C6 0
an alignment of 512            | S struct 4/512:                   | C6 0
an int at 1 of four bytes      | S struct 4/4: x@1 int             | C6 0.0
a text                         | S struct 4/4: x@0 string          | C6 0.0
an object that isn't there     | S struct 4/4: x@0 obj#1           | C1 0.0
two shorts of four bytes       | S struct 4/2: x@0 [short:2]       | ok
three shorts of four bytes     | S struct 4/2: x@0 [short:3]       | C6 0.0
two objects of one name        | A table: ; A table:               | C8 1
a table in a struct            | S struct 4/4: x@0 obj#1; A table: | C6 0.0
a value of 256                 | U union: A=256 string             | C7 0.0
a value below 0                | U union: A=-1 string              | C7 0.0
an object that isn't there     | U union: A=1 obj#5                | C1 0.0
two members of value 0         | U union: A=0 string, B=0 string   | C7 0.1
a number as a member           | U union: A=1 int                  | C7 0.0
two members of one name        | U union: A=1 string, A=2 string   | C8 0.1
the name that value 0 has      | U union: A=0 none, A=2 string     | ok
a union without its type field | One table: u@4 union#0; U union:  | C5 0.0
"""


def cases(table):
    """The columns of each line of a table."""
    return [[column.strip() for column in text.split("|")] for text in table.splitlines() if text.strip()]


def short(told):
    """A verdict as the tables have it."""
    found = re.fullmatch(r"bad (V\d+) \w+ at=(\d+) object=(\d+) field=(\S+) reads=(\d+)", told)
    if not found:
        return " ".join(["yes", *re.findall(r"=(\d+)", told)])
    reason, at, owner, field, reads = found.groups()
    return f"{reason} {at} {owner}{'' if field == '-' else f'.{field}'} {reads}"


def path_of(words):
    """A path as the library takes it."""
    return re.sub(r" ?([\[@])", r"\1", words).replace(" ", ".")


def shown(kind, value):
    """A value as the tables have it."""
    name = kind.name.replace("_", " ").title().replace(" ", "").replace("Uint", "UInt")
    if name == "Text":
        return f'Text("{value.decode()}")'
    if name == "DefaultFloat":
        return f"{name}({struct.unpack('<d', struct.pack('<Q', value))[0]})"
    if name in ("Bool", "Int", "UInt", "Float", "Struct", "Vector", "Union"):
        value = str(value == 1).lower() if name == "Bool" else list(value) if isinstance(value, bytes) else value
        return f"{name}({value})"
    return name


class Asked:
    """What a line asks, of the library, of the program and of the naive checker."""

    def __init__(self, python, rows, words):
        self.python = python
        self.objects, self.enums = (schemas.reflection(), []) if rows == REFLECTION else rows_of(rows)
        self.schema = Schema(self.objects, self.enums)
        values = dict(word.split("=") for word in words.split() if "=" in word)
        self.root = self.schema.names.index(values.pop("root", self.schema.names[0]))
        self.prefixed, self.ident = "prefixed" in words, values.pop("want", "").encode() or None
        self.limits = {name: int(value) for name, value in values.items()}
        self.checks = {"alignment": "anywhere" not in words, "inline_size": "inline" in words}
        self.file = schemas.schema(self.objects, self.enums)
        self.verifier = python.Verifier(self.file, self.schema.names[self.root])

    def options(self):
        limits = {f"max_{name}": value for name, value in self.limits.items()}
        return self.python.Options(self.ident, prefixed=int(self.prefixed), reads_per_byte=2**32 - 1,
                                   no_alignment=int(not self.checks["alignment"]),
                                   inline_size=int(self.checks["inline_size"]), **limits)

    def walk(self, data):
        """The naive walk of a buffer, at its end."""
        walk = Walk(self.schema, self.root, data, **{"reads": 2**64, **self.limits}, **self.checks)
        return walk, walk.verdict(self.ident, self.prefixed)

    def words(self):
        """The words for the program."""
        checks = {name: on for name, on in self.checks.items() if on != (name == "alignment")}
        options = {**self.limits, **checks, **({"ident": self.ident} if self.ident else {})}
        return ["--schema", file_of("worked.bfbs", self.file), "--root", self.schema.names[self.root], "--names",
                "--reads-per-byte", "4294967295", *words_of(options), *([] if self.prefixed else ["--bare"])]

    def way(self, steps):
        """The way of these steps in words."""
        told = []
        for owner, field, element, member in re.findall(r"(\d+)\.(\d+)(\[\d+\])?(?:@(\d+))?", steps):
            found = next(row for row in self.schema.tables[int(owner)] if row.slot == 4 + 2 * int(field))
            name = self.schema.unions[found.index].get(int(member)) if member else None
            told.append(found.name + element + (f"@{name.name}" if name else ""))
        return ".".join(told) or "."


class WorkedCases(LibraryCase):
    def test_verdicts(self):
        python = module()
        for rows, table in [*JUDGED, *edges.JUDGED]:
            for shows, text, words, want in cases(table):
                asked, data = Asked(python, rows, words), bytes_of(SAMPLES, text)
                told = asked.walk(data)[1], line(asked.verifier.verify(data, asked.options()))
                self.same(f"{shows}: {text} {words}", [short(one) for one in told], [want] * 2)

    def test_ways(self):
        python = module()
        for rows, table in WAYS:
            for shows, text, words, steps in cases(table):
                asked, data = Asked(python, rows, words), bytes_of(SAMPLES, text)
                walk, verdict = asked.walk(data)
                told = run(*asked.words(), given=data).out.decode().removesuffix("\n").removeprefix("1 ")
                way = asked.way(steps)
                self.same(f"{shows}: the naive way", ".".join(walk.steps) or ".", way)
                self.same(f"{shows}: the line", told, verdict + (walk.place() if verdict.startswith("bad") else ""))

    def test_values(self):
        python = module()
        for rows, words, table in [*VALUES, *widths.VALUES]:
            asked = Asked(python, rows, words)
            for path, text, want in cases(table):
                data, path = bytes_of(SAMPLES, text), path_of(path)
                told = asked.verifier.read(data, asked.verifier.resolve(path), asked.options())
                self.same(f"{path} of {text}", shown(*told), want)
                reader = Reader(asked.schema, asked.root, data, asked.prefixed)
                self.same(f"{path} of {text} by the naive reader", in_calls(reader.value(path)), text_of(*told))

    def test_paths_that_do_not_fit(self):
        python = module()
        for shows, words, path in cases(MISFITS):
            with self.subTest(shows), self.assertRaises(python.Error) as caught:
                Asked(python, UNIONS, words).verifier.resolve(path_of(path))
            self.same(f"{shows}: it is no path", caught.exception.verdict.status, python.Status.BAD_PATH)

    def test_rows(self):
        python = module()
        for shows, rows, want in [*cases(ROWS), ["unions", UNIONS, "ok"], ["schema files", REFLECTION, "ok"]]:
            objects, enums = (schemas.reflection(), []) if rows == REFLECTION else rows_of(rows)
            broken = first_broken(objects, enums)
            try:
                python.Verifier(schemas.schema(objects, enums)).close()
                told = None
            except python.Error as error:
                told = error.verdict.reason, error.verdict.object, error.verdict.field
            self.same(f"{shows}: the judge and the library", told, broken)
            parts = broken and [str(part) for part in broken[1:] if part is not None]
            self.same(shows, f"C{broken[0]} {'.'.join(parts)}" if broken else "ok", want)
