"""Values for tests/test_worked_cases.py: elements past the first, numbers of every width with their sign, defaults that
are wider than their scalar, and unions without a type. A case is a line as there; numbers may be in hexadecimal.
"""

import re

# - `COUNTED`: a vector at 20 of three elements; from 24 on 36 bytes stand there that count up from 0x80
# - `FALSE`: its first bytes, with a 0 at 25
# - `THREE_LISTS`: three texts by the words from 28 on, and three tables by those from 44 on
# - `THREE_UNIONS`: the types 3, 2 and 1 from 28 on, a text at 48, a struct at 56 and a table at 72
# - `WIDE`: a field at 16, and there 8 bytes that count up from 0x80
# - `NUMBERS`: fields of all scalar types but floats, each with the bytes of -2, and a bool with the byte 2
# - `UNTYPED`: a union whose type field is absent; its offset word leads out of the buffer
# - `TWO_LISTS`: two structs of 8 bytes, 1 and 2, and one table with a 5
SAMPLES = {
    "COUNTED": "0c000000 06000800 04000000 08000000 04000000 03000000" + bytes(range(0x80, 0xA4)).hex(),
    "FALSE": "0c000000 06000800 04000000 08000000 04000000 03000000 80008283",
    "THREE_LISTS": "0c000000 08000c00 04000800 08000000 08000000 14000000 03000000 1c000000 20000000 24000000 03000000"
                   "2c000000 30000000 34000000 01000000 61000000 02000000 62630000 00000000 00000000 06000800 04000000"
                   "08000000 01000000 10000000 02000000 18000000 ffffffff",
    "THREE_UNIONS": "0c000000 08000c00 04000800 08000000 08000000 0c000000 03000000 03020100 03000000 0c000000 10000000"
                    "1c000000 02000000 68690000 07000000 00000009 06000800 04000000 08000000 05000000",
    "WIDE": "0c000000 06000c00 04000000 08000000 80818283 84858687",
    "NUMBERS": "1c000000 18002400 23002000 21002200 1c001e00 14001800 04000c00 18000000 feffffff ffffffff feffffff"
               "ffffffff feffffff feffffff fefffeff 02fefefe",
    "UNTYPED": "0c000000 08000800 00000400 08000000 ffffffff",
    "TWO_LISTS": "0c000000 08000c00 04000800 08000000 0c000000 1c000000 00000000 02000000 01000000 00000000 02000000"
                 "00000000 01000000 0c000000 06000800 04000000 08000000 05000000",
}

UNIONS = """A table: v@4 int; W struct 8/8: x@0 long; Q table: us_type@4 [utype], us@6 [union]#0;
    R table: u_type@4 utype default=1, u@6 union#0; L table: ws@4 [obj]#1, tables@6 [obj]#0;
    U union: A=1 obj#0, W=2 obj#1, T=3 string"""
NUMBERS = """A table: utype@4 utype, bool@6 bool, byte@8 byte, ubyte@10 ubyte, short@12 short, ushort@14 ushort,
    int@16 int, uint@18 uint, long@20 long, ulong@22 ulong"""

# A scalar, and the elements 1 and 2 of `COUNTED`.
ELEMENTS = """
    utype  | UInt(0x81)                                      | UInt(0x82)
    bool   | Bool(true)                                      | Bool(true)
    byte   | Int(-0x7f)                                      | Int(-0x7e)
    ubyte  | UInt(0x81)                                      | UInt(0x82)
    short  | Int(-0x7c7e)                                    | Int(-0x7a7c)
    ushort | UInt(0x8382)                                    | UInt(0x8584)
    int    | Int(-0x78797a7c)                                | Int(-0x74757678)
    uint   | UInt(0x87868584)                                | UInt(0x8b8a8988)
    long   | Int(-0x7071727374757678)                        | Int(-0x68696a6b6c6d6e70)
    ulong  | UInt(0x8f8e8d8c8b8a8988)                        | UInt(0x9796959493929190)
    float  | Float([132, 133, 134, 135])                     | Float([136, 137, 138, 139])
    double | Float([136, 137, 138, 139, 140, 141, 142, 143]) | Float([144, 145, 146, 147, 148, 149, 150, 151])
"""

# A scalar, and what it is in `WIDE`.
WIDTHS = """
    utype  | UInt(0x80)
    bool   | Bool(true)
    byte   | Int(-0x80)
    ubyte  | UInt(0x80)
    short  | Int(-0x7e80)
    ushort | UInt(0x8180)
    int    | Int(-0x7c7d7e80)
    uint   | UInt(0x83828180)
    long   | Int(-0x78797a7b7c7d7e80)
    ulong  | UInt(0x8786858483828180)
"""

# A scalar with a default, and what it is where it's absent.
DEFAULTS = """
    utype default=257       | UInt(0x1)
    utype default=-1        | UInt(0xff)
    bool default=256        | Bool(false)
    bool default=258        | Bool(true)
    bool default=-256       | Bool(false)
    byte default=128        | Int(-0x80)
    byte default=255        | Int(-0x1)
    byte default=256        | Int(0x0)
    byte default=-129       | Int(0x7f)
    ubyte default=-1        | UInt(0xff)
    ubyte default=256       | UInt(0x0)
    short default=32768     | Int(-0x8000)
    short default=65537     | Int(0x1)
    short default=-32769    | Int(0x7fff)
    ushort default=-1       | UInt(0xffff)
    ushort default=65536    | UInt(0x0)
    int default=2147483648  | Int(-0x80000000)
    int default=4294967295  | Int(-0x1)
    int default=4294967296  | Int(0x0)
    uint default=-1         | UInt(0xffffffff)
    uint default=4294967297 | UInt(0x1)
    long default=-1         | Int(-0x1)
    ulong default=-1        | UInt(0xffffffffffffffff)
    ulong default=-2        | UInt(0xfffffffffffffffe)
    float                   | DefaultFloat(0.0)
    float default=1         | DefaultFloat(0.0)
    float real=1.5          | DefaultFloat(1.5)
    float real=0.1          | DefaultFloat(0.10000000149011612)
    float real=-0.0         | DefaultFloat(-0.0)
    float real=1e300        | DefaultFloat(inf)
    float real=-1e-300      | DefaultFloat(-0.0)
    float real=1e-45        | DefaultFloat(1.401298464324817e-45)
    float real=16777217     | DefaultFloat(16777216.0)
    float real=16777219     | DefaultFloat(16777220.0)
    float real=nan          | DefaultFloat(nan)
    float real=inf          | DefaultFloat(inf)
    float real=-inf         | DefaultFloat(-inf)
    float real=1.5 optional | Absent
    double                  | DefaultFloat(0.0)
    double default=1        | DefaultFloat(0.0)
    double real=1.5         | DefaultFloat(1.5)
    double real=0.1         | DefaultFloat(0.1)
    double real=-0.0        | DefaultFloat(-0.0)
    double real=5e-324      | DefaultFloat(5e-324)
    double real=16777217    | DefaultFloat(16777217.0)
    double real=nan         | DefaultFloat(nan)
    double real=-inf        | DefaultFloat(-inf)
    double real=0 optional  | Absent
"""


def plain(text):
    """The same with numbers in decimal."""
    return re.sub(r"-?0x[0-9a-f]+", lambda number: str(int(number[0], 16)), text)


def columns(table):
    return [[column.strip() for column in plain(line).split("|")] for line in table.splitlines() if line.strip()]


VALUES = [
    *((f"A table: l@4 [{scalar}]", "",
       f"l [1] | COUNTED | {second}\nl [2] | COUNTED | {third}\nl [3] | COUNTED | NoElement")
      for scalar, second, third in columns(ELEMENTS)),
    *((f"A table: v@4 {scalar}", "", f"v | WIDE | {want}") for scalar, want in columns(WIDTHS)),
    *((f"A table: v@4 {scalar}", "", f"v | EMPTY | {want}") for scalar, want in columns(DEFAULTS)),
    ("A table: l@4 [bool]", "", "l [1] | FALSE | Bool(false)"),
    ("Boxes table: l@4 [obj]#1; Box struct 12/4: ", "", """
        l [0] | COUNTED | Struct([128, 129, 130, 131, 132, 133, 134, 135, 136, 137, 138, 139])
        l [1] | COUNTED | Struct([140, 141, 142, 143, 144, 145, 146, 147, 148, 149, 150, 151])
        l [2] | COUNTED | Struct([152, 153, 154, 155, 156, 157, 158, 159, 160, 161, 162, 163])
        l [3] | COUNTED | NoElement
    """),
    ("L table: texts@4 [string], tables@6 [obj]#1; A table: v@4 int", "", """
        texts [0]    | THREE_LISTS | Text("a")
        texts [1]    | THREE_LISTS | Text("bc")
        texts [2]    | THREE_LISTS | Text("")
        texts [3]    | THREE_LISTS | NoElement
        tables [1] v | THREE_LISTS | Int(2)
        tables [2] v | THREE_LISTS | Int(-1)
        tables [3] v | THREE_LISTS | NoElement
    """),
    (UNIONS, "root=Q", """
        us_type [1] | THREE_UNIONS | UInt(2)
        us_type [2] | THREE_UNIONS | UInt(1)
        us [0] @T   | THREE_UNIONS | Text("hi")
        us [1]      | THREE_UNIONS | Union(2)
        us [1] @W   | THREE_UNIONS | Struct([7, 0, 0, 0, 0, 0, 0, 9])
        us [1] @T   | THREE_UNIONS | OtherMember
        us [2]      | THREE_UNIONS | Union(1)
        us [2] @A v | THREE_UNIONS | Int(5)
        us [3]      | THREE_UNIONS | NoElement
        us [4294967295] | HI | NoElement
    """),
    (UNIONS, "root=R", """
        u_type | UNTYPED | UInt(1)
        u      | UNTYPED | Union(0)
        u @A   | UNTYPED | OtherMember
        u @A   | EMPTY   | Absent
    """),
    (UNIONS, "root=L", """
        ws           | TWO_LISTS | Vector(2)
        ws [1]       | TWO_LISTS | Struct([2, 0, 0, 0, 0, 0, 0, 0])
        ws [2]       | TWO_LISTS | NoElement
        tables       | TWO_LISTS | Vector(1)
        tables [0]   | TWO_LISTS | Table
        tables [0] v | TWO_LISTS | Int(5)
        tables [1] v | TWO_LISTS | NoElement
    """),
    (NUMBERS, "", """
        utype  | NUMBERS | UInt(254)
        bool   | NUMBERS | Bool(true)
        byte   | NUMBERS | Int(-2)
        ubyte  | NUMBERS | UInt(254)
        short  | NUMBERS | Int(-2)
        ushort | NUMBERS | UInt(65534)
        int    | NUMBERS | Int(-2)
        uint   | NUMBERS | UInt(4294967294)
        long   | NUMBERS | Int(-2)
        ulong  | NUMBERS | UInt(18446744073709551614)
    """),
]
