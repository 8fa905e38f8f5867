"""The words of each hint, to the letter: what stands behind a fault's text, or behind the program's name where a run
comes to its end. The contracts say of a hint only that it is one line of at most 1,048,576 bytes."""

import itertools
import re
import struct

from tests.support import schemas
from tests.support.buffers import POST
from tests.support.builder import buffer, changed, prefixed
from tests.support.cases import Case
from tests.support.program import TOP, file_of, run
from tests.support.schemas import INT, LONG, TEXT, U_BYTE, a_struct, an_object, array, field, schema, table, vector

EXAMPLES = TOP / "examples"
SCHEMA = EXAMPLES / "deliveries.bfbs"
BARE = SCHEMA.read_bytes()
FIRST = POST[:512]
BY_POST = ("--schema", SCHEMA)
DELIMITED = (*BY_POST, "--delimited")
TURNED = (*BY_POST, "--delimited-be")
MOST = 1_048_576  # bytes of a hint, with the newline that ends it


NUMBERS = itertools.count()


def by(*objects, root="T"):
    """The words for a schema of these objects with this root."""
    return "--schema", file_of(f"hints{next(NUMBERS)}.bfbs", schema(list(objects), root=root))


def among(*tables):
    """The words for a root that is none of these tables."""
    return *by(*map(table, tables), root=None), "--root", "Q"


def of_bytes(name, slot, **attribute):
    """A field of bytes with such an attribute."""
    return {**field(name, vector(U_BYTE), slot), 9: [{0: key, 1: value} for key, value in attribute.items()]}


def declared(length):
    """The length of a message, of which there is no more."""
    return struct.pack("<I", length)


KINDS = {
    "a union's type": (1,), "a bool": (2,), "a byte": (3,), "a ubyte": (4,), "a short": (5,), "a ushort": (6,),
    "an int": (7,), "a uint": (8,), "a long": (9,), "a ulong": (10,), "a float": (11,), "a double": (12,),
    "a string": TEXT, "a struct": an_object(1), "a table": an_object(0), "a vector or an array": vector(INT),
}
STRUCT = a_struct("S", 8, 4, field("of", array(INT, 2), 0))
BY_STRUCT = by(table("T", field("s", an_object(1), 4)), STRUCT)
LOST = {"nested_flatbuffer": "b.T"}
WIDE = ["a" * 500_000, "b" * 500_000, "c" * 500_000]

# Of a call: its name, its words, its standard input, the fault's text and the hint behind it.
WORDS = [
    ("a word that isn't UTF-8", ["--root", b'"\xff'], b"", "a word is not UTF-8: number 2",
     r", \"\xff; nothing was checked: words must be UTF-8, and a file of any name can be standard input"),
    ("a schema file that isn't there", ["--schema", "/no\nwhere"], b"", "cannot read schema",
     r" /no\x0awhere: no such file"),
]
ROOTS = [
    ("a root that isn't there", [*BY_POST, "--root", "post.Spot"], b"", "no root table",
     " post.Spot; tables: post.Delivery post.Letter post.Parcel post.Person"),
    ("no root", ["--schema", file_of("noroot.bfbs", changed(schemas.M, (20, "0000")))], b"", "no root table",
     "; tables: M"),
    ("without a schema file", ["--root", "Q"], b"", "no root table",
     " Q; tables: reflection.Type reflection.KeyValue reflection.EnumVal reflection.Enum reflection.Field "
     "reflection.Object reflection.RPCCall reflection.Service reflection.SchemaFile reflection.Schema; these are of "
     "schema files, which input is taken for without --schema: flatc --binary --schema makes the .bfbs"),
    ("ten tables", among(*"ABCDEFGHIJ"), b"", "no root table", " Q; tables: A B C D E F G H I J"),
    ("more than ten", among(*"ABCDEFGHIJK"), b"", "no root table", " Q; tables: A B C D E F G H I J .."),
    ("more than a hint may hold", among(*WIDE), b"", "no root table",
     f" Q; tables: {' '.join(WIDE)}"[:MOST - 6] + ".."),
]
PATHS = [
    ("a name that may have been meant", [*BY_POST, "--path", "too.name"], b"", "path: P2 NoSuchField step=0",
     "; did you mean to?; fields: id to from first_type first items_type items route stamps notes .."),
    ("a field of a struct", [*BY_STRUCT, "--path", "s.off"], b"",
     "path: P2 NoSuchField step=1", "; did you mean of?; fields: of"),
    ("no name that is nearly that one", [*BY_STRUCT, "--path", "off"], b"",
     "path: P2 NoSuchField step=0", "; fields: s"),
    ("no member", [*BY_POST, "--path", "items[0]@parcel"], b"", "path: P5 NoSuchMember step=2",
     "; this union's members: Parcel Letter Place Note"),
    *[(told, [*by(table("T", field("f", kind, 4)), STRUCT), "--path", "f@X"], b"", "path: P4 NotAUnion step=1",
       f"; this is {told}") for told, kind in KINDS.items()],
    ("an array", [*BY_STRUCT, "--path", "s.of@X"], b"",
     "path: P4 NotAUnion step=2", "; this is a vector or an array"),
    ("one path of two", [*BY_POST, "--path", "to", "--path", "items@A"], b"", "path: P4 NotAUnion step=1",
     " in items@A; this is a vector or an array"),
    ("a text that is no path", [*BY_POST, "--path", "to..name"], b"", "path: P1 BadText at=3", ""),
    ("one of two", [*BY_POST, "--path", "to", "--path", "to\n"], b"", "path: P1 BadText at=2", r" in to\x0a"),
]
UNMARKED = "strict can't tell which bytes are nested buffers or flexbuffers"
UNNAMED = "strict can't find the table of a nested buffer"
TWO = table("T", of_bytes("a", 4, flexbuffer="0"), of_bytes("b", 6, **LOST))
BYTES = [
    ("bytes without a mark", [*by(table("a.T", of_bytes("b", 4)), root="a.T"), "--strict"], b"", UNMARKED,
     ": a.T.b; flatc --bfbs-builtins writes it to the .bfbs, --plain-bytes takes such fields as bytes"),
    ("a mark without a table", [*by(table("a.T", of_bytes("b", 4, **LOST)), root="a.T"), "--strict"], b"", UNNAMED,
     ": a.T.b; --plain-bytes takes such fields as bytes"),
    ("that of a second field", [*by(TWO), "--strict"], b"", UNNAMED, ": T.b; --plain-bytes takes such fields as bytes"),
]
ILL = "L1 V5 WrongIdentifier at=4 object=9 field=- reads=1"
FILES = [(f"{file}", ["--schema", file], b"", f"schema: {text}", f" in {file}{look}") for file, text, look in [
    (EXAMPLES / "deliveries.fbs", ILL,
     "; this looks like a schema's text (.fbs): flatc --binary --schema makes the .bfbs"),
    (EXAMPLES / "deliveries.jsonl", ILL,
     "; this looks like JSON, and no binary schema, which flatc --binary --schema makes"),
    (EXAMPLES / "deliveries.bin", ILL, "; this is no binary schema, which flatc --binary --schema makes"),
    (file_of("message.bin", FIRST[4:]), ILL, "; its file identifier is POST, where a .bfbs has BFBS"),
    (file_of("text", b"<html><head></head></html>"), ILL,
     "; this is text, and no binary schema, which flatc --binary --schema makes"),
    (file_of("empty.bfbs", b""), "L1 V2 OutOfBuffer at=4 object=9 field=- reads=0", "; this is empty"),
    (file_of("head.bfbs", schemas.M[:8]), "L1 V2 OutOfBuffer at=24 object=9 field=- reads=2", ""),
]]
WHOLE = schema([table("A"), table("a.T", field("of", INT, 4), field("s", TEXT, 6, offset64=True))], root="A")
UNSUPPORTED = [(f"{name}, unsupported", ["--schema", file], b"", f"schema: L2 C3 Unsupported {place}",
                f" in {file}; {told}") for name, file, place, told in [
    ("a 64-bit offset", file_of("far.bfbs", WHOLE), "owner=1 part=1", "a.T.s has a 64-bit offset"),
    ("an array", file_of("array.bfbs", schema([table("T", field("two", array(INT, 2), 4))], root="T")),
     "owner=0 part=0", "T.two is an array, which only structs have"),
    ("vectors in a vector", file_of("vectors.bfbs", schema([table("T", field("all", (14, 14), 4))], root="T")),
     "owner=0 part=0", "T.all has a type that no table's field can have"),
    ("a name of odd bytes", file_of("odd.bfbs", schema([table("T", field("\n", (14, 14), 4))], root="T")),
     "owner=0 part=0", r"T.\x0a has a type that no table's field can have"),
]]
STRAY = "; no good message came before: --bare is for a buffer without a prefix"
TO_PARTS = "--delimited for prefixes outside the buffers"
TO_TURNED = "--delimited-be for big-endian"
TO_A_HEADER = "--skip for a header"
STREAMS = [(name, words, given, f"stream: {text}", hint) for name, words, given, text, hint in [
    ("a cut stream", BY_POST, FIRST[:31], "S2 Truncated held=31",
     f"{STRAY}, {TO_PARTS}, {TO_TURNED} ones, {TO_A_HEADER}"),
    ("a cut stream, delimited", DELIMITED, FIRST[:31], "S2 Truncated held=31",
     f"{STRAY}, {TO_TURNED} lengths, {TO_A_HEADER}"),
    ("one behind a good message", BY_POST, FIRST + b"\1", "S2 Truncated held=1", ""),
    ("a long message", BY_POST, declared(70_000_000), "S1 Oversize declared=70000000",
     f"{STRAY}, {TO_PARTS}, --max-bytes for longer messages"),
    ("a long message, delimited", DELIMITED, declared(70_000_000), "S1 Oversize declared=70000000",
     f"{STRAY}, --max-bytes for longer messages"),
    ("one behind a bad message", DELIMITED, FIRST + declared(70_000_000), "S1 Oversize declared=70000000",
     f"{STRAY}, --max-bytes for longer messages"),
    ("one behind a good message", BY_POST, FIRST + declared(70_000_000), "S1 Oversize declared=70000000",
     "; --max-bytes allows longer messages"),
    ("one that no limit allows", BY_POST, FIRST + declared(2_147_483_644), "S1 Oversize declared=2147483644", ""),
    ("JSON", BY_POST, b'{"id": 1}', "S1 Oversize declared=1684611707",
     "; the input looks like JSON, of which flatc --binary makes buffers (--size-prefixed: messages)"),
    ("JSON behind a bad message", DELIMITED, FIRST + b'{"id', "S1 Oversize declared=1684611707",
     f"{STRAY}, {TO_TURNED} lengths, {TO_A_HEADER}"),
    ("JSON behind a good message", BY_POST, FIRST + b'{"id', "S1 Oversize declared=1684611707", ""),
    ("another text", DELIMITED, b"table", "S1 Oversize declared=1818386804", "; the input looks like text"),
    ("gzip", BY_POST, declared(134_777_631), "S1 Oversize declared=134777631", "; the input looks like gzip"),
    ("a big-endian length", BY_POST, b"\0\0\1\xb8", "S1 Oversize declared=3087073280",
     f"; the length may be big-endian, which --delimited-be reads{STRAY}, {TO_PARTS}"),
    ("a big-endian length, delimited", DELIMITED, b"\0\0\1\xb8", "S1 Oversize declared=3087073280",
     f"; the length may be big-endian, which --delimited-be reads{STRAY}"),
    ("the greatest that may be", DELIMITED, b"\3\xff\xff\xfc", "S1 Oversize declared=4244635395",
     f"; the length may be big-endian, which --delimited-be reads{STRAY}"),
    ("one that isn't big-endian", DELIMITED, b"\3\xff\xff\xfd", "S1 Oversize declared=4261412611",
     f"{STRAY}, {TO_TURNED} lengths, {TO_A_HEADER}"),
    ("one that is less than it is turned round", (*DELIMITED, "--max-bytes", "511"), FIRST, "S1 Oversize declared=508",
     f"{STRAY}, --max-bytes for longer messages"),
    ("a big-endian length behind a bad message", DELIMITED, FIRST + b"\0\0\1\xb8", "S1 Oversize declared=3087073280",
     f"{STRAY}, {TO_TURNED} lengths, {TO_A_HEADER}"),
    ("a little-endian length", TURNED, FIRST, "S1 Oversize declared=4227923968",
     f"; the length may be little-endian, which --delimited reads{STRAY}"),
    ("one that isn't little-endian", TURNED, b"\5\0\0\4", "S1 Oversize declared=83886084",
     f"{STRAY}, --max-bytes for longer messages"),
    ("a cut stream of big-endian lengths", TURNED, b"\0\0\1\xb8", "S2 Truncated held=4",
     f"{STRAY}, --delimited for little-endian lengths, {TO_A_HEADER}"),
    ("JSON for them", TURNED, b'{"id": 1}', "S1 Oversize declared=2065852772",
     "; the input looks like JSON, of which flatc --binary makes buffers (--size-prefixed: messages)"),
    ("another text for them", TURNED, b"\ntable", "S1 Oversize declared=175399266", "; the input looks like text"),
    ("gzip for them", TURNED, b"\x1f\x8b\x08\x08", "S1 Oversize declared=529205256", "; the input looks like gzip"),
]]
LONG_INPUT = [("a long bare input", [*BY_POST, "--bare", "--max-bytes", "511"], FIRST, "input longer than 511 bytes",
               "; --max-bytes allows longer ones")]
SHIFTED, UNNAMED_FILE = "each message is misaligned: ", "without --schema the tables are those of schema files"
# At the end of a run there is no fault.
ENDS = [(name, words, given, "", hint) for name, words, given, hint in [
    ("prefixes outside the buffers", by(table("T", field("v", LONG, 4))), prefixed(buffer({0: ("q", 1)})),
     f"{SHIFTED}--delimited is for prefixes outside the buffers"),
    ("messages, delimited", DELIMITED, FIRST, f"{SHIFTED}without --delimited prefixes are part of the buffers"),
    ("prefixes outside schema files", (), prefixed(BARE),
     f"{SHIFTED}--delimited is for prefixes outside the buffers; {UNNAMED_FILE}"),
    ("messages, delimited, without a schema file", ["--delimited"], FIRST,
     f"{SHIFTED}without --delimited prefixes are part of the buffers; {UNNAMED_FILE}"),
    ("messages without a schema file", ["--delimited"], POST, f"no message was good: {UNNAMED_FILE}"),
    ("a bare one without a schema file", ["--bare"], FIRST[4:], f"no message was good: {UNNAMED_FILE}"),
    ("a good one", ["--bare"], BARE, None),
    ("none", (), b"", None),
]]
ROWS = [*WORDS, *ROOTS, *PATHS, *BYTES, *FILES, *UNSUPPORTED, *STREAMS, *LONG_INPUT, *ENDS]


class Hints(Case):
    def test_each_is_what_is_told(self):
        for name, words, given, text, hint in ROWS:
            told = "" if hint is None else f"fbcheck: {text}{hint}\n"
            self.same(name, run(*words, given=given).err.decode(), told)

    def test_the_longest_fills_its_room(self):
        told = run(*among(*WIDE)).err
        self.same("its length", len(told.removeprefix(b"fbcheck: no root table")), MOST - 3)

    def test_each_text_of_the_code_stands_in_a_row(self):
        hints = [hint for *_, hint in ROWS if hint]
        for file in "fb_access/src/hint", *(f"fbcheck_texts/src/{name}" for name in ("hint", "unsupported", "framing")):
            code = (TOP / f"crates/{file}.rt").read_text()
            for text in re.findall(r'b"((?:[^"\\]|\\.)+)"', code):
                text = text.removesuffix(r"\n")
                self.holds(text, any(text in hint for hint in hints))
