"""The value at a path, in each form that a line may have, and every reason of a no."""

import json
import struct
import subprocess

from tests.support import schemas
from tests.support.buffers import ASKEW, HALVES, MEMBER, MEMBERS, ORC, PLACED, PLAIN, SEVEN, TWINS, UNEQUAL, lower_type
from tests.support.builder import Plain, buffer, changed, prefixed, spelled
from tests.support.cases import Case
from tests.support.program import PROGRAM, SECONDS, TOP, bad, fieldless, file_of, good, refused, rootless, run, schemaless
from tests.support.schemas import (
    BOOL, BYTE, DOUBLE, FLOAT, INT, LONG, SHORT, TEXT, U_BYTE, U_INT, U_LONG, U_SHORT, U_TYPE, a_struct, an_object,
    array, field, schema, table, vector,
)

FILES = schemas.files()


def value(name, data, *words):
    """What stands behind the verdict on this bare buffer, in the line of its yes."""
    ran = run("--schema", FILES.get(name, name), "--bare", *words, given=data)
    line = ran.out.decode()
    text = line.partition(" reads=")[2].partition(" ")[2]
    return ran.status, line.startswith("1 ok ") and line.count("\n") == 1, text.removesuffix("\n")

NUMBERS = [
    ("bool", BOOL, "B", [(0, "false"), (1, "true"), (255, "true")]),
    ("byte", BYTE, "b", [(0, "0"), (-128, "-128"), (127, "127")]),
    ("u_byte", U_BYTE, "B", [(0, "0"), (255, "255")]),
    ("u_type", U_TYPE, "B", [(0, "0"), (255, "255")]),
    ("short", SHORT, "h", [(-32768, "-32768"), (32767, "32767")]),
    ("u_short", U_SHORT, "H", [(0, "0"), (65535, "65535")]),
    ("int", INT, "i", [(-1, "-1"), (-(2**31), "-2147483648"), (2**31 - 1, "2147483647")]),
    ("u_int", U_INT, "I", [(2**32 - 1, "4294967295")]),
    ("long", LONG, "q", [(-(2**63), "-9223372036854775808"), (2**63 - 1, "9223372036854775807")]),
    ("u_long", U_LONG, "Q", [(2**64 - 1, "18446744073709551615")]),
    ("float", FLOAT, "f", [(1.5, "float:0000c03f"), (-0.0, "float:00000080"), (float("inf"), "float:0000807f")]),
    ("double", DOUBLE, "d", [(1.5, "float:000000000000f83f"), (0.0, "float:0000000000000000")]),
]


def many_bytes(count):
    """The fields of a struct, all bytes at its first place: their names are an f and the number in five digits."""
    rows, first = 28 * count, 4 * count + 20
    offsets = struct.pack(f"<{count}I", *[first + 24 * number for number in range(count)])
    # a vtable of fields and one of types, the rows with their names, and behind them the type of all
    vtables = struct.pack("<6H3H2x", 12, 16, 4, 8, 0, 12, 6, 8, 4)
    fields = b"".join(struct.pack("<i2II I6s2x", 20 + at, 12, rows - at - 8, 0, 6, b"f%05x" % (at // 28))
                      for at in range(0, rows, 28))
    return Plain(offsets + vtables + fields + struct.pack("<iB3x", rows + 8, U_BYTE[0]), 4, count)


def quoted(text):
    return '"' + text.replace('"', '\\"') + '"'


class Values(Case):
    def test_values_of_worked_buffers(self):
        for name, data, path, want, *words in [
            ("M", ORC, "name", '"Orc"'), ("M", ORC, "hp", "300"), ("M", PLAIN, "hp", "100"),
            ("M", PLAIN, "name", "absent"), ("X", MEMBER, "u", "union:1", "R"), ("X", MEMBER, "u@A", "table", "R"),
            ("X", MEMBER, "u@A.v", "5", "R"), ("X", MEMBER, "u@T", "other-member", "R"),
            ("X", MEMBER, "u_type", "1", "R"), ("X", lower_type(9), "u", "union:9", "R"),
            ("X", lower_type(9), "u@A.v", "other-member", "R"), ("X", PLAIN, "u", "absent", "R"),
            ("X", PLAIN, "u@A.v", "absent", "R"), ("X", PLAIN, "u_type", "0", "R"),
            ("X", PLACED, "u@W", "struct:0700000000000000", "R"), ("X", PLACED, "u@W.x", "7", "R"),
            ("X", PLACED, "u@A.v", "other-member", "R"), ("X", MEMBER, "u@W.x", "other-member", "R"),
            ("X", MEMBERS, "us", "vector:2"), ("X", MEMBERS, "us[0]", "union:3"), ("X", MEMBERS, "us[0]@T", '"hi"'),
            ("X", MEMBERS, "us[1]", "union:0"), ("X", MEMBERS, "us[1]@T", "other-member"),
            ("X", MEMBERS, "us[2]@T", "no-element"), ("X", MEMBERS, "us[4294967295]", "no-element"),
            ("X", MEMBERS, "us_type[0]", "3"), ("X", MEMBERS, "us_type", "vector:2"),
            ("Z", changed(ASKEW, (24, "00000000")), "l", "vector:0"),
            ("Z", changed(ASKEW, (24, "00000000")), "l[0]", "no-element"), ("G", HALVES, "f", "float:0000c03f"),
            ("G", PLAIN, "f", "absent"), ("NODE", TWINS, "a.b", "table"), ("NODE", TWINS, "a.b.a", "absent"),
            ("NODE", TWINS, "a.b.a.b.a", "absent"),
        ]:
            root = ["--root", words[0]] if words else []
            self.same(f"{path} of {name}", value(name, data, *root, "--path", path), (0, True, want))
        self.same("of a message", run("--schema", FILES["N"], "--path", "v", given=SEVEN),
                  good("1 ok tables=1 depth=1 reads=5 7"))
        self.same("a no has no value",
                  run("--schema", FILES["M"], "--bare", "--path", "name", given=ORC[:-1] + b"\x01"),
                  bad("1 bad V10 NoTerminator at=31 object=0 field=1 reads=8"))

    def test_several_values(self):
        """They follow one another as their paths do, each behind a space."""
        for paths, want in [
            (("hp", "name"), '300 "Orc"'), (("name", "hp"), '"Orc" 300'),
        ]:
            words = [word for path in paths for word in ("--path", path)]
            self.same(f"{paths}", value("M", ORC, *words), (0, True, want))
        both = *("--schema", FILES["M"], "--bare"), "--path", "name", "--path", "hp"
        self.same("where one is absent", run(*both, given=PLAIN).out.split(b" ")[-2:], [b"absent", b"100\n"])
        self.same("a no has none", run(*both, given=ORC[:-1] + b"\x01"),
                  bad("1 bad V10 NoTerminator at=31 object=0 field=1 reads=8"))
        self.same("the first that fits not is told",
                  run(*both[:3], "--path", "hp", "--path", "x", "--path", "name[0]", given=ORC),
                  refused("path: P2 NoSuchField step=0 in x; fields: hp name"))
        self.same("and not the one behind it",
                  run(*both[:3], "--path", "hp", "--path", "name[0]", "--path", "x", given=ORC),
                  refused("path: P3 NotIndexable step=1 in name[0]; this is a string"))

    def test_values_of_a_schema_file(self):
        for path, want in [
            ("objects", "vector:1"), ("objects[0]", "table"), ("objects[0].name", '"M"'),
            ("objects[1].name", "no-element"), ("objects[0].is_struct", "false"), ("objects[0].fields[0].name", '"hp"'),
            ("objects[0].fields[1].name", '"name"'), ("objects[0].fields[0].default_integer", "100"),
            ("objects[0].fields[1].default_integer", "0"), ("objects[0].fields[0].type.base_type", "5"),
            ("objects[0].fields[1].type.base_type", "13"), ("objects[0].fields[0].type.index", "-1"),
            ("objects[0].fields[1].offset", "6"), ("objects[0].fields[0].default_real", "absent"),
            ("enums", "vector:0"), ("root_table.name", '"M"'), ("file_ident", "absent"),
        ]:
            ran = run("--bare", "--path", path, given=schemas.M)
            self.same(f"{path} of a schema file", ran, good(f"1 ok tables=11 depth=4 reads=90 {want}"))

    def test_numbers_of_each_type(self):
        fields = [field(name, kind, 4 + 2 * number) for number, (name, kind, _, _) in enumerate(NUMBERS)]
        path = file_of("numbers.bfbs", schema([table("T", *fields)], root="T"))
        for number, (name, _, letter, rows) in enumerate(NUMBERS):
            for given, want in rows:
                data = buffer({number: (letter, given)})
                self.same(f"{name} {given}", value(path, data, "--path", name), (0, True, want))
            floats = letter in "fd"
            want = "absent" if floats else "false" if name == "bool" else "0"
            self.same(f"{name} left out", value(path, PLAIN, "--path", name), (0, True, want))

    def test_fields_of_structs(self):
        inner = a_struct("In", 8, 4, field("a", SHORT, 0), field("b", FLOAT, 4))
        outer = a_struct(
            "Out", 44, 4, field("in", an_object(1), 0), field("three", array(U_SHORT, 3), 8),
            field("two", array(an_object(1), 2), 16), field("last", BYTE, 32), field("none", array(INT, 0), 44),
        )
        rows = [table("T", field("one", an_object(2), 4), field("more", vector(an_object(2)), 6)), inner, outer]
        path = file_of("structs.bfbs", schema(rows, root="T"))
        pairs = [struct.pack("<hxxf", -300, 1.5), struct.pack("<hxxf", 7, 0.0), struct.pack("<hxxf", 8, -1.0)]
        first = pairs[0] + struct.pack("<3Hxx", 1, 2, 65535) + pairs[1] + pairs[2] + struct.pack("<b11x", -5)
        other = bytes(44)
        data = buffer({0: ("44s", first), 1: Plain(other + first, 4, 2)})
        for step, want in [
            ("in", f"struct:{pairs[0].hex()}"), ("in.a", "-300"), ("in.b", "float:0000c03f"), ("three", "vector:3"),
            ("three[0]", "1"), ("three[2]", "65535"), ("three[3]", "no-element"), ("two", "vector:2"),
            ("two[1]", f"struct:{pairs[2].hex()}"), ("two[0].a", "7"), ("two[1].a", "8"), ("two[2].a", "no-element"),
            ("last", "-5"), ("none", "vector:0"), ("none[0]", "no-element"),
        ]:
            self.same(step, value(path, data, "--path", f"one.{step}"), (0, True, want))
            self.same(f"{step} of an element", value(path, data, "--path", f"more[1].{step}"), (0, True, want))
        self.same("of another element", value(path, data, "--path", "more[0].in.a"), (0, True, "0"))
        self.same("of no element", value(path, data, "--path", "more[2].in.a"), (0, True, "no-element"))
        self.same("of an absent struct", value(path, PLAIN, "--path", "one.in.a"), (0, True, "absent"))

    def test_fields_of_a_long_struct(self):
        """Each is found by its name, past the 256th too."""
        names = [f"f{number}" for number in range(301)]
        long = a_struct("Long", 602, 2, *[field(name, U_SHORT, 2 * number) for number, name in enumerate(names)])
        path = file_of("long.bfbs", schema([table("T", field("one", an_object(1), 4)), long], root="T"))
        data = buffer({0: ("602s", struct.pack("<301H", *range(1000, 1301)))})
        for first in range(0, 301, 16):
            some = names[first : first + 16]
            words = [word for name in some for word in ("--path", f"one.{name}")]
            want = " ".join(str(1000 + first + number) for number in range(len(some)))
            self.same(f"fields {some[0]} to {some[-1]}", value(path, data, *words), (0, True, want))
        self.same("one past the last", run("--schema", path, "--path", "one.f301").err.partition(b";")[0],
                  b"fbcheck: path: P2 NoSuchField step=1")

    def test_fields_of_the_longest_structs(self):
        """A path goes to the 65,536th field, and to none behind it."""
        long = {**a_struct("Long", 1, 1), 1: many_bytes(65_538)}
        path = file_of("longest.bfbs", schema([table("T", field("one", an_object(1), 4)), long], root="T"))
        data, names = buffer({0: ("B", 7)}), [f"f{number:05x}" for number in range(65_538)]
        for name, meant in [("f00100", ""), ("f0fffe", ""), ("f0ffff", ""), ("f10000", "f00000"), ("f10001", "f00001")]:
            want = fieldless(*names, step=1, meant=meant) if meant else good("1 ok tables=1 depth=1 reads=4 7")
            self.same(name, run("--schema", path, "--bare", "--path", f"one.{name}", given=data), want)

    def test_defaults_and_optional_ones(self):
        rows = [
            ("yes", BOOL, 1, "true"), ("low", BYTE, -128, "-128"), ("high", U_BYTE, 255, "255"),
            ("least", LONG, -(2**63), "-9223372036854775808"), ("most", U_LONG, -1, "18446744073709551615"),
            ("narrow", U_BYTE, 256 + 7, "7"), ("real", FLOAT, 3, "absent"),
        ]
        fields = [field(name, kind, 4 + 2 * number, default) for number, (name, kind, default, _) in enumerate(rows)]
        fields.append(field("maybe", INT, 40, 5, optional=True))
        path = file_of("defaults.bfbs", schema([table("T", *fields)], root="T"))
        for name, _, default, want in rows:
            self.same(f"{name}, default {default}", value(path, PLAIN, "--path", name), (0, True, want))
        self.same("an optional one has no default", value(path, PLAIN, "--path", "maybe"), (0, True, "absent"))

    def test_texts_are_escaped(self):
        path = file_of("texts.bfbs", schema([table("T", field("s", TEXT, 4), field("all", vector(TEXT), 6))], root="T"))
        for text, want in [
            (b"", '""'), (b"plain text ~", '"plain text ~"'), (b'"', r'"\""'), (b"\\", r'"\\"'), (b"\\x41", r'"\\x41"'),
            (b"\n", r'"\x0a"'), (b"\0", r'"\x00"'), (b"\x1f\x20\x7e\x7f", r'"\x1f ~\x7f"'),
            ("é".encode(), r'"\xc3\xa9"'), (b"\xff\x80", r'"\xff\x80"'),
        ]:
            self.same(f"the text {text}", value(path, buffer({0: text}), "--path", "s"), (0, True, want))
            self.same(f"{text} in a vector", value(path, buffer({1: [b"first", text]}), "--path", "all[1]"),
                      (0, True, want))
        each = bytes(range(256))
        plain = {0x22: r"\"", 0x5C: r"\\"}
        want = "".join(plain.get(byte, chr(byte) if 0x20 <= byte <= 0x7E else f"\\x{byte:02x}") for byte in each)
        self.same("each byte", value(path, buffer({0: each}), "--path", "s"), (0, True, f'"{want}"'))

    def test_deprecated_fields_have_no_path(self):
        rows = [field("old", TEXT, 4, deprecated=True), field("now", TEXT, 6)]
        path = file_of("deprecated.bfbs", schema([table("T", *rows)], root="T"))
        data = buffer({0: ("I", 2**32 - 1), 1: "here"})
        self.same("a deprecated field isn't checked", value(path, data, "--path", "now"), (0, True, '"here"'))
        self.same("and can't be named", run("--schema", path, "--path", "old", given=data),
                  fieldless("now"))

    def test_a_struct_has_each_field_of_its_row(self):
        """Also one that is said to be deprecated, which takes its bytes all the same."""
        one = a_struct("S", 8, 4, field("old", INT, 0, deprecated=True), field("now", INT, 4))
        path = file_of("parts.bfbs", schema([table("T", field("s", an_object(1), 4)), one], root="T"))
        data = buffer({0: ("8s", struct.pack("<2i", 5, -6))})
        for name, want in ("old", "5"), ("now", "-6"):
            self.same(f"the field {name}", value(path, data, "--path", f"s.{name}"), (0, True, want))

    def test_a_struct_is_no_root(self):
        """Neither as the schema's own nor by the words."""
        rows = [table("T"), a_struct("S", 4, 4, field("x", INT, 0))]
        own, by_words = file_of("own.bfbs", schema(rows, root="S")), file_of("root.bfbs", schema(rows, root="T"))
        self.same("its own", run("--schema", own), schemaless("L3 RootNotListed", own))
        self.same("by the words", run("--schema", by_words, "--root", "S"), rootless("S", "T"))

    def test_values_of_the_examples(self):
        """Beside the text that flatc made the messages of; the fifth message is broken, and has no value."""
        source = [json.loads(line) for line in (TOP / "examples/deliveries.jsonl").read_text().splitlines()]
        types = ["NONE", "Parcel", "Letter", "Place", "Note"]
        spot = lambda at: f"struct:{struct.pack('<ii', at['x'], at['y']).hex()}" if at else "absent"
        vector_of = lambda given: "absent" if given is None else f"vector:{len(given)}"
        for path, want in [
            ("id", lambda it: str(it["id"])),
            ("to.name", lambda it: quoted(it["to"]["name"])),
            ("to.age", lambda it: str(it["to"].get("age", -1))),
            ("to.home", lambda it: spot(it["to"].get("home"))),
            ("from.name", lambda it: quoted(it["from"]["name"]) if "from" in it else "absent"),
            ("first", lambda it: f"union:{types.index(it['first_type'])}" if "first" in it else "absent"),
            ("items", lambda it: vector_of(it.get("items"))),
            ("route", lambda it: vector_of(it.get("route"))),
            ("route[2]",
             lambda it: spot(it["route"][2]) if it.get("route") else "no-element" if "route" in it else "absent"),
            ("stamps[1]",
             lambda it: str(it["stamps"][1]) if it.get("stamps") else "no-element" if "stamps" in it else "absent"),
            ("notes[2]",
             lambda it: quoted(it["notes"][2]) if it.get("notes") else "no-element" if "notes" in it else "absent"),
            ("helpers", lambda it: vector_of(it.get("helpers"))),
            ("price", lambda it: f"float:{struct.pack('<f', it['price']).hex()}" if "price" in it else "absent"),
            ("floor", lambda it: str(it["floor"]) if "floor" in it else "absent"),
            ("first@Note", lambda it: "absent" if "first" not in it else
             quoted(it["first"]) if it["first_type"] == "Note" else "other-member"),
            ("items[0]@Parcel.tags[1]",
             lambda it: "absent" if "items" not in it else "no-element" if not it["items"]
             else quoted(it["items"][0]["tags"][1]) if it["items_type"][0] == "Parcel" else "other-member"),
        ]:
            words = ["--schema", TOP / "examples/deliveries.bfbs", "--ident", "POST", "--path", path]
            with (TOP / "examples/deliveries.bin").open("rb") as stream:
                ran = subprocess.run([PROGRAM, *words], stdin=stream, capture_output=True, timeout=SECONDS)
            told = [line.split(" ", 5) for line in ran.stdout.decode().splitlines()]
            got = [(row[0], row[1], row[5] if row[1] == "ok" else row[2]) for row in told]
            texts = [want(it) for it in source]
            rows = [(str(number), "ok", text) for number, text in enumerate(texts[:-1] + ["", texts[-1]], 1)]
            rows[-2] = ("5", "bad", "V10")
            self.same(f"{path} of each message", got, rows)

    def test_each_reason_of_a_no(self):
        m, by_m = FILES["M"], lambda *changes: changed(ORC, *changes)
        for name, schema_name, data, want in [
            ("an offset past the end", "M", by_m((16, "ffffffff")),
             "V2 OutOfBuffer at=4294967311 object=0 field=1 reads=6"),
            ("a text that is cut off", "M", ORC[:-1], "V2 OutOfBuffer at=28 object=0 field=1 reads=7"),
            ("a count that is too great", "M", by_m((24, "ffffffff")), "V2 OutOfBuffer at=28 object=0 field=1 reads=7"),
            ("a vtable past the end", "M", changed(PLAIN, (4, "0a00")), "V2 OutOfBuffer at=4 object=0 field=- reads=3"),
            ("a vtable before the buffer", "M", spelled("04000000 08000000"),
             "V2 OutOfBuffer at=4 object=0 field=- reads=2"),
            ("a vtable far behind", "M", spelled("04000000 00000080"), "V2 OutOfBuffer at=4 object=0 field=- reads=2"),
            ("an empty buffer", "M", b"", "V2 OutOfBuffer at=0 object=0 field=- reads=0"),
            ("a table askew", "M", changed(PLAIN, (8, "03000000")), "V3 Misaligned at=5 object=0 field=- reads=2"),
            ("numbers askew", "Z", ASKEW, "V3 Misaligned at=28 object=0 field=0 reads=6"),
            ("range before alignment", "Z", changed(ASKEW, (24, "00000020")),
             "V2 OutOfBuffer at=28 object=0 field=0 reads=6"),
            ("no root", "M", by_m((0, "00000000")), "V4 ZeroOffset at=0 object=0 field=- reads=1"),
            ("no text", "M", by_m((16, "00000000")), "V4 ZeroOffset at=16 object=0 field=1 reads=6"),
            ("an odd vtable", "M", changed(PLAIN, (4, "0300")), "V8 BadVtable at=4 object=0 field=- reads=3"),
            ("a vtable of 2 bytes", "M", changed(PLAIN, (4, "0200")), "V8 BadVtable at=4 object=0 field=- reads=3"),
            ("a vtable of 0 bytes", "M", spelled("04000000 00000000"), "V8 BadVtable at=4 object=0 field=- reads=3"),
            ("a required field left out", "K", PLAIN, "V9 MissingRequired at=8 object=0 field=0 reads=3"),
            ("a text that goes on", "M", by_m((31, "01")), "V10 NoTerminator at=31 object=0 field=1 reads=8"),
            ("two counts", "X", UNEQUAL, "V11 LengthsDiffer at=32 object=3 field=1 reads=12"),
        ]:
            ran = run("--schema", FILES[schema_name], "--bare", given=data)
            self.same(name, ran, bad(f"1 bad {want}"))
        told = run("--schema", m, given=prefixed(ORC[:-1]))
        self.same("places count from the prefix", told, bad("1 bad V2 OutOfBuffer at=32 object=0 field=1 reads=8"))

    def test_buffers_that_are_good_all_the_same(self):
        shared = spelled(
            "0c000000 0800 0c00 0400 0800 08000000 08000000 04000000",
            "02000000 08000000 04000000 02000000 68690000",
        )
        both = file_of("V.bfbs",
                       schema([table("V", field("a", vector(TEXT), 4), field("b", vector(TEXT), 6))], root="V"))
        self.same("elements that are shared", run("--schema", both, "--bare", "--path", "b[1]", given=shared),
                  good('1 ok tables=1 depth=1 reads=21 "hi"'))
        for name, words, data, want in [
            ("a root offset that is the vtable too", ["--schema", FILES["M"]], spelled("04000000 04000000"),
             "tables=1 depth=1 reads=3"),
            ("a vtable behind its table", ["--schema", FILES["M"]], spelled("04000000 fcffffff 0400 0400"),
             "tables=1 depth=1 reads=3"),
            ("a type that isn't known, before anything", ["--schema", FILES["X"], "--root", "R"],
             changed(lower_type(9), (16, "ffffffff")), "tables=1 depth=1 reads=7"),
            ("no type, before anything", ["--schema", FILES["X"], "--root", "R"],
             changed(lower_type(0), (16, "ffffffff")), "tables=1 depth=1 reads=7"),
            ("a struct of a union", ["--schema", FILES["X"], "--root", "R"], PLACED, "tables=1 depth=1 reads=8"),
            ("two lists that are one", [], spelled("0c000000 0800 0c00 0400 0800 08000000 08000000 04000000 00000000"),
             "tables=1 depth=1 reads=9"),
            ("no types, and no values", ["--schema", FILES["X"]],
             spelled("0c000000 0800 0800 0000 0400 08000000 04000000 00000000"),
             "tables=1 depth=1 reads=8"),
        ]:
            self.same(name, run(*words, "--bare", given=data), good(f"1 ok {want}"))
