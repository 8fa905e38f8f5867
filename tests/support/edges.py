"""Cases at the edges, for tests/test_worked_cases.py: ranges to the last byte, multiples, inline sizes, slots behind a
vtable's end, and vectors of unions. A case is a line as there.
"""

# - `UNPICKED`: `PICKED` with the type 0 and an offset word that leads far out of the buffer
# - `CUT`: a union with the type 9 in a table of 5 bytes, of which the value stands at 20
# - `THIRD`: a table with the text `x` in its third slot, where its vtable ends, and none in the two before
# - `TWO_SLOTS`: a table whose vtable has two slots, both empty
# - `CHILDLESS`: a table whose one slot leads to a table, whose vtable has no slot
# - `FAMILY`: a parent whose child stands at 32, and whose string has the offset 0
# - `PAIR`: a vector at 20 of two tables, at 32 and at 40
# - `TABLE`: the start of a table at 12 with two slots, of which the first leads to 16
SAMPLES = {
    "NONE": "0c000000 08000800 00000400 08000000 04000000 00000000",
    "UNPICKED": "PICKED 16=ffffffff 20=00",
    "CUT": "0c000000 08000500 04000800 08000000 09000000 ffffffff",
    "THIRD": "10000000 0a000800 00000000 04000000 0c000000 04000000 01000000 7800",
    "TWO_SLOTS": "0c000000 08000400 00000000 08000000",
    "CHILDLESS": "0c000000 06000800 04000000 08000000 08000000 04000400 04000000",
    "FAMILY": "0c000000 08000c00 04000800 08000000 10000000 00000000 06000800 04000000 08000000 05000000",
    "PAIR": "0c000000 06000800 04000000 08000000 04000000 02000000 08000000 0c000000 1c000000 05000000 24000000 "
            "07000000",
    "TABLE": "0c000000 08000c00 04000000 08000000",
}

THIRD_IS_REQUIRED = "Root table: a@4 ubyte, b@6 ubyte, s@8 string required, c@10 ubyte, d@12 string gone required"
PARENTS = """Child table: v@4 ubyte; Free table: c@4 obj#0, v@6 ubyte;
    Bound table: c@4 obj#0, v@6 ubyte, s@8 string required"""
FAMILIES = "Child table: v@4 int; Parent table: c@4 obj#0, s@6 string; Many table: cs@4 [obj]#0"
UNIONS = """A table: v@4 int; W struct 8/8: x@0 long; R table: u_type@4 utype, u@6 union#0;
    Q table: us_type@4 [utype], us@6 [union]#0; U union: A=1 obj#0, W=2 obj#1, T=3 string"""
KINDS = """Note table: v@4 string; Node table: v@4 obj#1; Sums table: v@4 [int]; Notes table: v@4 [string];
    Nodes table: v@4 [obj]#1; Holder table: v@4 obj#8; Boxes table: v@4 [obj]#8;
    Pick table: v_type@4 utype, v@6 union#0; Box struct 12/8: ; Any union: Box=1 obj#8, Node=2 obj#1, Text=3 string"""

# The scalar types, each with its size.
SIZES = {"utype": 1, "bool": 1, "byte": 1, "ubyte": 1, "short": 2, "ushort": 2, "int": 4, "uint": 4, "long": 8,
         "ulong": 8, "float": 4, "double": 8}
# Alignments, with places where a struct of 12 bytes is asked: in a field and as the value of a union; and where the
# first of a vector is.
PLACES = "1@29 1@30 2@29 2@30 4@30 4@28 8@28 8@32 16@40 16@32 128@64 128@128 256@128 256@256"
FIRST_ELEMENTS = "1@24 2@24 4@24 8@28 8@24 16@24 16@32 128@64 128@128 256@128 256@256"


def scalars():
    """A scalar alone and a vector of three, whole and cut by a byte; half a scalar from a multiple, also cut."""
    for name, size in SIZES.items():
        half = size // 2
        at, askew = 16 + half, f"{name}, askew | TABLE 8={4 + half:02x}"
        yield f"Root table: v@4 {name}", "\n".join([
            f"{name} | TABLE ..{16 + size} | | yes 1 1 4",
            f"{name}, cut | TABLE ..{15 + size} | | V2 16 0.0 4",
            *[f"{askew} ..32 | | V3 {at} 0.0 4", f"{askew} ..{at + 1} | | V2 {at} 0.0 4"][: 2 * half],
        ])
        yield f"Root table: v@4 [{name}]", "\n".join([
            f"three of {name} | TABLE 04000000 03000000 ..{24 + 3 * size} | | yes 1 1 6",
            f"three of {name}, cut | TABLE 04000000 03000000 ..{23 + 3 * size} | | V2 24 0.0 6",
        ])


def structs():
    """A struct at a place that is a multiple of its alignment, or isn't."""
    for word in PLACES.split():
        alignment, at = map(int, word.split("@"))
        box = f"Box struct 12/{alignment}: ; "
        alone, united = f"{word} | TABLE 8={at - 12:02x} ..268", f"TABLE 8=08 10=04 {at - 16:02x}000000 01 ..268"
        yield f"{box}Root table: v@4 obj#0", "\n".join([
            f"{alone} | root=Root | {judged(alignment, at, '1.0', 4)}", f"{alone} | root=Root anywhere | yes 1 1 4",
        ])
        yield (f"{box}Root table: v_type@4 utype, v@6 union#0; Any union: Box=1 obj#0",
               f"{word} in a union | {united} | root=Root | {judged(alignment, at, '1.1', 8)}")
    for word in FIRST_ELEMENTS.split():
        alignment, at = map(int, word.split("@"))
        yield (f"Box struct 12/{alignment}: ; Root table: v@4 [obj]#0",
               f"{word} in a vector | TABLE {at - 20:02x}000000 ..{at - 4} 01 ..268 | root=Root | "
               f"{judged(alignment, at, '1.0', 6)}")


def judged(alignment, at, field, reads):
    """The verdict on a struct at this place, which this field is or leads to, after so many reads."""
    return f"V3 {at} {field} {reads}" if at % alignment else f"yes 1 1 {reads}"


JUDGED = [
    *scalars(),
    *structs(),
    (THIRD_IS_REQUIRED, """
        required, behind two that may be absent | EMPTY     |  | V9 8 0.2 3
        required, behind two empty slots        | TWO_SLOTS |  | V9 12 0.2 5
        required, the last in the vtable        | THIRD     |  | yes 1 1 9
    """),
    ("Root table: a@4 ubyte, b@8 string, c@10 ubyte", """
        not required, all but the first | TWO_SLOTS |  | yes 1 1 4
        not required, the last          | THIRD     |  | yes 1 1 8
    """),
    (PARENTS, """
        behind a parent, none is required | CHILDLESS | root=Free  | yes 2 2 7
        behind a parent, one is required  | CHILDLESS | root=Bound | V9 12 2.2 7
    """),
    (UNIONS, """
        no type                           | UNPICKED                              | root=R reads=7  | yes 1 1 7
        no type, and one read less        | UNPICKED                              | root=R reads=6  | V13 12 2.1 7
        three of two types come first     | THREE                                 | root=Q reads=11 | V11 32 3.1 12
        two of two                        | THREE 32=02 ..44                      | root=Q reads=14 | yes 1 1 14
        the second of two                 | THREE 32=02 ..44                      | root=Q reads=13 | V13 40 3.1 14
        none without types                | NONE                                  | root=Q reads=8  | yes 1 1 8
        none, and one read less           | NONE                                  | root=Q reads=7  | V13 12 3.1 8
        the type ends at 9                | UNPICKED 6=09                         | root=R inline   | yes 1 1 8
        the type ends past 8              | UNPICKED 6=08                         | root=R inline   | V12 20 2.0 5
        a value without a type            | CUT                                   | root=R inline   | yes 1 1 8
        the value ends past 5             | CUT 16=01                             | root=R inline   | V12 20 2.1 8
        no type                           | UNPICKED                              | root=R          | yes 1 1 7
        a table far out of the buffer     | PICKED 16=ffffffff                    | root=R      | V2 4294967311 0 8
        at 28                             | BOXED 16=0c 24=00000000 07000000 ..36 | root=R          | V3 28 2.1 8
        a text, and one without an offset | HI 29=03                              | root=Q          | V4 40 3.1 18
    """),
    ("Root table: l@4 [long]", """
        a long at 28               | LONGS            | reads=5 | V3 28 0.0 6
        no long                    | LONGS 24=00 ..28 | reads=6 | yes 1 1 6
        no long, and one read less | LONGS 24=00 ..28 | reads=5 | V13 12 0.0 6
    """),
    # Past the end and askew: a field at 17; the same at 16 with an offset word to 17; a vector at 20 whose element
    # leads to 25; a vector at 24 of one box of 12 bytes at 28, of which 11 are there; a table at 17, and one at 12
    # whose vtable would stand at 19.
    (KINDS, """
        a text's word     | TABLE 8=05 ..20                       | root=Note   | V2 17 0.0 4
        a table's word    | TABLE 8=05 ..20                       | root=Node   | V2 17 1.0 4
        a vector's word   | TABLE 8=05 ..20                       | root=Sums   | V2 17 2.0 4
        a struct          | TABLE 8=05 ..20                       | root=Holder | V2 17 5.0 4
        a text            | TABLE 01000000                        | root=Note   | V2 17 0.0 5
        a table           | TABLE 01000000                        | root=Node   | V2 17 1 5
        numbers           | TABLE 01000000                        | root=Sums   | V2 17 2.0 5
        texts             | TABLE 01000000                        | root=Notes  | V2 17 3.0 5
        tables            | TABLE 01000000                        | root=Nodes  | V2 17 4.0 5
        structs           | TABLE 01000000                        | root=Boxes  | V2 17 6.0 5
        an element: text  | TABLE 04000000 01000000 01000000      | root=Notes  | V2 25 3.0 7
        an element: table | TABLE 04000000 01000000 01000000      | root=Nodes  | V2 25 1 7
        elements: structs | TABLE 08000000 00000000 01000000 ..39 | root=Boxes  | V2 28 6.0 6
        the root          | 11000000 ..20                         | root=Note   | V2 17 0 1
        a vtable          | 0c000000 ..12 f9ffffff ..20           | root=Note   | V2 12 0 2
    """),
    # The same in a union: the type byte at 20 and the offset word at 16, in 24 bytes; last the word at 21.
    (KINDS, """
        a text   | TABLE 8=0800 10=0400 05000000 03000000 | root=Pick | V2 21 7.1 8
        a table  | TABLE 8=0800 10=0400 05000000 02000000 | root=Pick | V2 21 1 8
        a struct | TABLE 8=0800 10=0400 01000000 01000000 | root=Pick | V2 17 7.1 8
        its word | TABLE 8=0800 10=0900 05000000 03000000 | root=Pick | V2 21 7.1 7
    """),
    # A field at 20, of which three bytes are there; an offset word to 20, with 3, 4 and 5 bytes there; a struct of 12
    # bytes at 24.
    (KINDS, """
        a text's word       | TABLE 8=08 ..23            | root=Note   | V2 20 0.0 4
        a table's word      | TABLE 8=08 ..23            | root=Node   | V2 20 1.0 4
        a vector's word     | TABLE 8=08 ..23            | root=Sums   | V2 20 2.0 4
        a text's count      | TABLE 04000000 ..23        | root=Note   | V2 20 0.0 5
        a text's end        | TABLE 04000000 ..24        | root=Note   | V2 24 0.0 6
        a text              | TABLE 04000000 ..25        | root=Note   | yes 1 1 7
        no byte 0 behind it | TABLE 04000000 00000000 01 | root=Note   | V10 24 0.0 7
        a vector's count    | TABLE 04000000 ..23        | root=Sums   | V2 20 2.0 5
        a vector            | TABLE 04000000 ..24        | root=Sums   | yes 1 1 6
        a table             | TABLE 04000000 ..23        | root=Node   | V2 20 1 5
        11 of 12            | TABLE 8=0c ..35            | root=Holder | V2 24 5.0 4
        12 of 12            | TABLE 8=0c ..36            | root=Holder | yes 1 1 4
    """),
    # A field at 18; an offset word to 18; a vector at 20 whose element leads to 26; then the type byte at 20 and the
    # offset word at 16, to 18, then to 20; last the word at 18.
    (KINDS, """
        a text's word     | TABLE 8=06 00000400 ..24              | root=Note  | V3 18 0.0 4
        a table's word    | TABLE 8=06 00000400 ..24              | root=Node  | V3 18 1.0 4
        a vector's word   | TABLE 8=06 00000400 ..24              | root=Sums  | V3 18 2.0 4
        a text            | TABLE 02000000 ..24                   | root=Note  | V3 18 0.0 5
        a table           | TABLE 02000000 ..24                   | root=Node  | V3 18 1 5
        numbers           | TABLE 02000000 ..24                   | root=Sums  | V3 18 2.0 5
        structs           | TABLE 02000000 ..24                   | root=Boxes | V3 18 6.0 5
        an element: text  | TABLE 04000000 01000000 02000000 ..32 | root=Notes | V3 26 3.0 7
        an element: table | TABLE 04000000 01000000 02000000 ..32 | root=Nodes | V3 26 1 7
        a union: text     | TABLE 8=0800 10=0400 02000000 03 ..32 | root=Pick  | V3 18 7.1 8
        a union: table    | TABLE 8=0800 10=0400 02000000 02 ..32 | root=Pick  | V3 18 1 8
        a union: struct   | TABLE 8=0800 10=0400 04000000 01 ..32 | root=Pick  | V3 20 7.1 8
        a union's word    | TABLE 8=0800 10=0600 02000000 03 ..32 | root=Pick  | V3 18 7.1 7
    """),
    # 3 of 4 bytes of a field within the table, then all of them; then one that is past the buffer and askew too.
    (KINDS, """
        a text          | TABLE 6=07 04000000 ..25              | root=Note inline   | V12 16 0.0 5
        a whole text    | TABLE 6=08 04000000 ..25              | root=Note inline   | yes 1 1 8
        a table         | TABLE 6=07 04000000 ..25              | root=Node inline   | V12 16 1.0 5
        a whole table   | TABLE 6=08 04000000 fcffffff 04000400 | root=Node inline   | yes 2 2 9
        numbers         | TABLE 6=07 04000000 ..25              | root=Sums inline   | V12 16 2.0 5
        whole numbers   | TABLE 6=08 04000000 ..25              | root=Sums inline   | yes 1 1 7
        structs         | TABLE 6=07 04000000 ..25              | root=Boxes inline  | V12 16 6.0 5
        whole structs   | TABLE 6=08 04000000 ..25              | root=Boxes inline  | yes 1 1 7
        a struct        | TABLE 6=17 8=0c ..36                  | root=Holder inline | V12 24 5.0 5
        a whole struct  | TABLE 6=18 8=0c ..36                  | root=Holder inline | yes 1 1 5
        past the buffer | TABLE 6=08 8=0b 04000000 ..25         | root=Note inline   | V12 23 0.0 5
        a struct there  | TABLE 6=08 8=0b 04000000 ..25         | root=Holder inline | V12 23 5.0 5
        a vector there  | TABLE 6=08 8=0b 04000000 ..25         | root=Sums inline   | V12 23 2.0 5
    """),
    ("Root table: v@4 long", """
        a prefix that is one too large | SEVEN 0=1d | prefixed want=ABCD | V1 0 0 1
        no prefix                      | SEVEN ..3  | prefixed           | V2 0 0 0
        no identifier                  | SEVEN ..7  | want=ABCD          | V2 4 0 0
    """),
    ("reflection", """
        another identifier | FILE 4=58 | root=reflection.Schema want=BFBS | V5 4 9 1
    """),
    (FAMILIES, """
        a child, and a string without an offset | FAMILY      | root=Parent | V4 20 1.1 10
        two tables                              | PAIR        | root=Many   | yes 3 2 14
        no offset to the second                 | PAIR 28=00  | root=Many   | V4 28 2.0 11
        the second is cut                       | PAIR ..44   | root=Many   | V2 44 0.0 14
    """),
]
