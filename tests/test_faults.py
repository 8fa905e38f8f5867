"""Every exit status, and the text of every fault to the letter."""

import os
import subprocess
import threading

from tests.support import buffers, schemas
from tests.support.buffers import MEMBER, ORC, PLAIN, SEVEN
from tests.support.builder import changed, prefixed, spelled
from tests.support.cases import Case
from tests.support.program import (
    CLOSED, FULL, NOT_UTF_8, NO_BYTES, NO_SCHEMA, PROGRAM, SECONDS, Ran, Talk, astray, bad, failed, fieldless,
    file_of, folder_of, good, lines, listed, overlong, oversize, refused, rootless, run, run_broken_off,
    run_in_shell, run_starved, run_unread, schemaless,
)
from tests.support.schemas import (
    INT, LONG, SHORT, TEXT, U_TYPE, a_struct, a_union, an_object, array, field, schema, table, union, vector,
)

FOLDER = folder_of(__name__)
FILES = schemas.files()
BY_M = ("--schema", FILES["M"], "--bare")
BY_N = ("--schema", FILES["N"])
NO_TEXT = "this is text, and no binary schema, which flatc --binary --schema makes"
LIKE_JSON = "this looks like JSON, and no binary schema, which flatc --binary --schema makes"
LIKE_TEXT = "this looks like a schema's text (.fbs): flatc --binary --schema makes the .bfbs"
SEVENS = "1 ok tables=1 depth=1 reads=5", "2 ok tables=1 depth=1 reads=5"


def identified(ident):
    """What is told of a schema file with another identifier."""
    return f"its file identifier is {ident}, where a .bfbs has BFBS"


def run_by_pipe(data):
    """A run by a schema file that is a pipe, into which these bytes come."""
    pipe = FOLDER / "pipe"
    pipe.unlink(missing_ok=True)
    os.mkfifo(pipe)
    # (a program that doesn't open the pipe leaves the writer waiting, and the tests end all the same)
    writer = threading.Thread(target=pipe.write_bytes, args=[data], daemon=True)
    writer.start()
    ran = run("--schema", pipe, "--bare", given=ORC)
    writer.join(1)
    return ran


class Faults(Case):
    def test_status_of_buffers(self):
        wrong = spelled("00000000")
        for name, words, given, want in [
            ("each has a yes", BY_N, SEVEN + SEVEN, good(*SEVENS)),
            ("there is none", BY_N, b"", good()),
            ("all have a no", BY_N, wrong, bad("1 bad V2 OutOfBuffer at=4 object=0 field=- reads=1")),
            ("the first has a no", BY_N, wrong + SEVEN, bad(
                "1 bad V2 OutOfBuffer at=4 object=0 field=- reads=1", "2 ok tables=1 depth=1 reads=5")),
            ("the last has a no", BY_N, SEVEN + wrong, bad(
                "1 ok tables=1 depth=1 reads=5", "2 bad V2 OutOfBuffer at=4 object=0 field=- reads=1")),
            ("a fault after a no", BY_N, wrong + SEVEN[:-1], failed(
                astray("stream: S2 Truncated held=31"), "1 bad V2 OutOfBuffer at=4 object=0 field=- reads=1")),
            ("a bare buffer with a no", ("--schema", FILES["M"], "--bare"), ORC[:-1],
             bad("1 bad V2 OutOfBuffer at=28 object=0 field=1 reads=7")),
        ]:
            self.same(name, run(*words, given=given), want)

    def test_faults_of_words(self):
        for name, number, words, told in [
            ("in place of a name", 2, [b"--root", b"\xff"], r"\xff"),
            ("in place of an option", 1, [b"\xc3\x28"], r"\xc3("),
            ("cut off", 2, ["--path", b"\xe2\x82"], r"\xe2\x82"),
            ("before help", 1, [b"\x80", "--help"], r"\x80"),
            ("two of them", 3, ["--path", "a", b"--\x80", b"\xff"], r"--\x80"),
            ("the longest", 2, ["a" * 131_071, "ü".encode() * 65_535 + b"\xff"], r"\xc3\xbc" * 65_535 + r"\xff"),
            ("a file's name in Latin-1", 3, [*BY_M[:2], "größe.bin".encode("latin-1")], r"gr\xf6\xdfe.bin"),
        ]:
            self.same(f"a word that isn't UTF-8, {name}", run(*words, given=SEVEN),
                      refused(f"a word is not UTF-8: number {number}, {told}; {NOT_UTF_8}"))
        own = subprocess.run([b"\xff"], executable=PROGRAM, input=SEVEN, capture_output=True, timeout=SECONDS)
        self.same("the program's own name", Ran(own.returncode, own.stdout, own.stderr),
                  refused(rf"the program's own name is not UTF-8, \xff; {NOT_UTF_8}"))
        named = file_of("größe-表.bfbs", schemas.M)
        self.same("words that are UTF-8", run("--schema", named, "--bare", given=ORC),
                  good("1 ok tables=1 depth=1 reads=8"))
        self.same("words come before the schema file", run("--schema", "/nowhere", "--ident", "ABC"),
                  refused("ident must be four bytes"))

    def test_unreadable_schema_files(self):
        circle = FOLDER / "circle"
        circle.symlink_to(circle)
        long = "n" * 5000
        for name, path, words, told in [
            ("one that isn't there", FOLDER / "nowhere.bfbs", [], "no such file"),
            ("a folder", FOLDER, [], "is a directory"),
            ("an empty name", "", [], "no such file"),
            ("below a file", FILES["M"] / "below", [], "not a directory"),
            ("a name that is too long", long, [], "invalid file name"),
            ("before a root that isn't there", FOLDER, ["--root", "Q"], "is a directory"),
            ("a link to itself", circle, [], "too many links"),
        ]:
            got = run("--schema", path, *words, given=SEVEN)
            self.same(name, got, refused(f"cannot read schema {path}: {told}"))
        if os.geteuid():
            locked = file_of("locked", schemas.M)
            locked.chmod(0)
            self.same("one that may not be read", run("--schema", locked),
                      refused(f"cannot read schema {locked}: permission denied"))
        self.same("a name that breaks lines", run("--schema", 'a\nb\\"ö'),
                  refused(r'cannot read schema a\x0ab\\\"\xc3\xb6: no such file'))

    def test_schema_files_that_are_no_plain_files(self):
        self.same("a pipe with a schema", run_by_pipe(schemas.M), good("1 ok tables=1 depth=1 reads=8"))
        self.same("a pipe with nothing", run_by_pipe(b""),
                  schemaless("L1 V2 OutOfBuffer at=4 object=9 field=- reads=0", FOLDER / "pipe", NO_BYTES))
        fields = [field(f"field{number}", TEXT, 4 + 2 * number) for number in range(20)]
        others = [table(f"Other{number}", *fields) for number in range(200)]
        large = schema([table("M", field("hp", SHORT, 4, 100), field("name", TEXT, 6)), *others], root="M")
        self.same(f"a pipe with {len(large)} bytes", run_by_pipe(large), good("1 ok tables=1 depth=1 reads=8"))
        self.same("/dev/null", run("--schema", "/dev/null"),
                  schemaless("L1 V2 OutOfBuffer at=4 object=9 field=- reads=0", "/dev/null", NO_BYTES))
        self.same("standard input itself", run("--schema", "/dev/stdin", "--bare", given=schemas.M),
                  bad("1 bad V2 OutOfBuffer at=0 object=0 field=- reads=0"))

    def test_schema_files_that_are_not_well_formed(self):
        wrong = "V5 WrongIdentifier at=4 object=9 field=- reads=1"
        short = "V2 OutOfBuffer at=4 object=9 field=- reads=0"
        for name, data, want, look in [
            ("empty", b"", short, NO_BYTES),
            ("the root offset alone", schemas.M[:4], short, NO_SCHEMA),
            ("the head alone", schemas.M[:8], "V2 OutOfBuffer at=24 object=9 field=- reads=2", ""),
            ("another identifier", changed(schemas.M, (4, "58")), wrong, identified("XFBS")),
            ("one that must be escaped", changed(schemas.M, (4, "225c3d20")), wrong, identified('\\"\\\\= ')),
            ("one that is none", changed(schemas.M, (4, "7f")), wrong, NO_SCHEMA),
            ("behind a prefix", prefixed(schemas.M), wrong, NO_SCHEMA),
            ("no objects", changed(schemas.M, (12, "0000")), "V9 MissingRequired at=24 object=9 field=0 reads=5", ""),
            ("a text", b"table M { hp: short; }", wrong, LIKE_TEXT),
            ("a text behind blanks", b"\r\n\t // M\ntable M {}", wrong, LIKE_TEXT),
            ("a word and no more", b"enum ", short, LIKE_TEXT),
            ("another text", b"<html><head></head></html>", wrong, NO_TEXT),
            ("a word of no schema", b"tables of contents", wrong, NO_TEXT),
            ("blanks alone", b" \n\t \r\n   ", wrong, NO_TEXT),
            ("JSON", b'{"hp": 300, "name": "Orc"}', wrong, LIKE_JSON),
            ("JSON behind blanks", b'\n\t [{"hp": 300}]', wrong, LIKE_JSON),
            ("one byte of JSON", b"{", short, LIKE_JSON),
            ("16 bytes of JSON, and others", b'{"name": "a\\u0a0' + b"\xff" * 9, wrong, LIKE_JSON),
            ("15 bytes of JSON, and another", b'{"name": "Orc",\xff', wrong, NO_SCHEMA),
            ("a byte that no text has", b"table M \x7f { hp: short; }", wrong, NO_SCHEMA),
        ]:
            path = file_of("ill.bfbs", data)
            self.same(name, run("--schema", path, "--bare", given=ORC), schemaless(f"L1 {want}", path, look))
        self.same("a name that breaks lines", run("--schema", file_of("a\n", b"")),
                  schemaless(f"L1 {short}", f"{FOLDER}/a\\x0a", NO_BYTES))
        for length in range(205):
            got = run("--schema", file_of("cut.bfbs", schemas.M[:length]), "--bare", given=ORC)
            told = got.err.startswith(b"fbcheck: schema: L1 V2 OutOfBuffer at=") and got.err.count(b"\n") == 1
            self.holds(f"cut off after {length} bytes", (got.status, got.out, told) == (2, b"", True), got)
        for length in range(205, len(schemas.M)):
            got = run("--schema", file_of("cut.bfbs", schemas.M[:length]), "--bare", given=ORC)
            self.same(f"cut off after {length} bytes, where only filling is lost", got,
                      good("1 ok tables=1 depth=1 reads=8"))

    def test_schemas_that_are_not_legal(self):
        plain = table("T", field("v", INT, 4))
        one, first = lambda *fields: [table("T", *fields)], "owner=0 part=0"
        why = {"a vector of vectors": "T.v has a type that no table's field can have",
               "64-bit offsets": "T.v has a 64-bit offset"}
        for name, objects, enums, want in [
            ("an object that isn't there", one(field("v", an_object(1), 4)), [], "C1 NoSuchObject owner=0 part=0"),
            ("in a union", [], [union("U", ("A", 1, an_object(5)))], "C1 NoSuchObject owner=0 part=0"),
            ("an enum that isn't there", one(field("v", a_union(0), 4)), [], "C2 NoSuchEnum owner=0 part=0"),
            ("a vector of vectors", one(field("v", (14, 14), 4)), [], f"C3 Unsupported {first}"),
            ("64-bit offsets", one(field("v", TEXT, 4, offset64=True)), [], f"C3 Unsupported {first}"),
            ("an odd slot", one(field("v", INT, 5)), [], "C4 BadSlot owner=0 part=0"),
            ("a slot below 4", one(field("v", INT, 2)), [], "C4 BadSlot owner=0 part=0"),
            ("a slot twice", one(field("v", INT, 4), field("w", INT, 4)), [], "C4 BadSlot owner=0 part=1"),
            ("a union without types", one(field("u", a_union(0), 4)), [union("U")], "C5 NoTypeField owner=0 part=0"),
            ("a struct without bytes", [a_struct("S", 0, 4)], [], "C6 BadStruct owner=0 part=-"),
            ("a field past its struct", [a_struct("S", 4, 4, field("x", INT, 1))], [], "C6 BadStruct owner=0 part=0"),
            ("a member of 256", [], [union("U", ("A", 256, TEXT))], "C7 BadMember owner=0 part=0"),
            ("two members of 0", [], [union("U", ("A", 0, TEXT), ("B", 0, TEXT))], "C7 BadMember owner=0 part=1"),
            ("a member without a type", [], [{**union("U"), 1: [{0: "A", 1: ("q", 1)}]}],
             "C7 BadMember owner=0 part=0"),
            ("two fields of a name", one(field("v", INT, 4), field("v", INT, 6)), [], "C8 NameTwice owner=0 part=1"),
            ("two objects of a name", [plain, plain], [], "C8 NameTwice owner=1 part=-"),
        ]:
            path = file_of("illegal.bfbs", schema(objects, enums, root="T"))
            self.same(name, run("--schema", path, given=SEVEN), schemaless(f"L2 {want}", path, why.get(name, "")))
        path = file_of("type18.bfbs", changed(schemas.M, (156, "12")))
        self.same("a base type that isn't known", run("--schema", path),
                  schemaless(f"L2 C3 Unsupported {first}", path, "M.hp has a type that no table's field can have"))
        legal = schema([table("T", field("v", (14, 14), 4, deprecated=True)),
                        a_struct("S", 8, 4, field("x", array(INT, 2), 0))], root="T")
        self.same("a deprecated vector of vectors",
                  run("--schema", file_of("legal.bfbs", legal), "--bare", given=PLAIN),
                  good("1 ok tables=1 depth=1 reads=3"))

    def test_roots_of_schema_files(self):
        own = file_of("rootless.bfbs", changed(schemas.M, (20, "0000")))
        self.same("none, and none is asked for", run("--schema", own, given=SEVEN), rootless(None, "M"))
        self.same("none, and a path", run("--schema", own, "--path", "name", given=ORC), rootless(None, "M"))
        self.same("none, but one is asked for", run("--schema", own, "--root", "M", "--bare", given=ORC),
                  good("1 ok tables=1 depth=1 reads=8"))
        listed = lambda name: schemaless("L3 RootNotListed", FOLDER / name)
        self.same("one of no object", run("--schema", file_of("none.bfbs", changed(schemas.M, (44, "00000000")))),
                  listed("none.bfbs"))
        other = schema([table("T", field("v", INT, 4))], root="S")
        self.same("one that isn't listed", run("--schema", file_of("other.bfbs", other), "--root", "T"),
                  listed("other.bfbs"))
        struct_root = schema([a_struct("S", 8, 8, field("x", LONG, 0))], root="S")
        self.same("a struct", run("--schema", file_of("struct.bfbs", struct_root)), listed("struct.bfbs"))

    def test_names_that_are_told(self):
        fields = [field(f"f{number:02}", INT, 4 + 2 * number) for number in range(11)]
        structs = [a_struct(f"S{number:02}", 4, 4, field("x", INT, 0)) for number in range(20)]
        for many in (0, 1, 9, 10, 11):
            tables = [f"T{number:02}" for number in range(many)]
            path = file_of("tables.bfbs", schema([*structs, *map(table, tables)]))
            self.same(f"{many} tables among structs", run("--schema", path, "--root", "S00"), rootless("S00", *tables))
            path = file_of("fields.bfbs", schema([table("T", *fields[:many])], root="T"))
            names = [f"f{number:02}" for number in range(many)]
            self.same(f"{many} fields", run("--schema", path, "--path", "x"), fieldless(*names))
            parts = [field(name, INT, 4 * number) for number, name in enumerate(names)]
            inner = a_struct("S", 4 * many, 4, *parts) if many else table("S")
            path = file_of("inner.bfbs", schema([inner, table("T", field("s", an_object(0), 4))], root="T"))
            self.same(f"{many} fields further in", run("--schema", path, "--path", "s.x"), fieldless(*names, step=1))
        rows = [field("z", INT, 8), field("old", INT, 6, deprecated=True), field("a", INT, 4)]
        path = file_of("order.bfbs", schema([table("T", *rows), table("a b\n\"")], root="T"))
        self.same("live ones by their slots", run("--schema", path, "--path", "old"), fieldless("a", "z"))
        self.same("names that break lines", run("--schema", path, "--root", "\x07é"),
                  rootless(r"\x07\xc3\xa9", "T", r'a b\x0a\"'))

    def test_names_that_may_have_been_meant(self):
        """The first that is one byte away from a name of three bytes at least, or is the same in other letters."""
        names = ["hitpoints", "Name", "na", "mana", "x"]
        parts = [field(name, INT, 4 * number) for number, name in enumerate(names)]
        rows = [field(name, INT, 4 + 2 * number) for number, name in enumerate(names)]
        path = file_of("meant.bfbs", schema([a_struct("S", 20, 4, *parts), table("T", *rows),
                                             table("U", field("s", vector(an_object(0)), 4))], root="T"))
        for asked, meant in {
            "hitpoint": "hitpoints", "itpoints": "hitpoints", "hitpoints_": "hitpoints", "hitpoinds": "hitpoints",
            "hitPoints": "hitpoints", "HITPOINTS": "hitpoints", "hitpoinst": "", "hitpoin": "", "HITPOINT": "",
            "name": "Name", "nameS": "", "NA": "na", "nan": "na", "nb": "", "n": "", "X": "x", "y": "", "xyz": "",
            "mama": "mana", "manas": "mana", "ana": "na", "ama": "",
        }.items():
            self.same(asked, run("--schema", path, "--path", asked), fieldless(*names, meant=meant))
            inner = run("--schema", path, "--root", "U", "--path", f"s[0].{asked}")
            self.same(f"{asked} in a struct", inner, fieldless(*names, step=2, meant=meant))
            later = run("--schema", path, "--root", "U", "--path", f"s[0].{asked}.name")
            self.same(f"{asked}, and more", later, fieldless(*names, step=2, meant=meant))

    def test_what_there_is_where_a_step_does_not_fit(self):
        scalars = ["a union's type", "a bool", "a byte", "a ubyte", "a short", "a ushort", "an int", "a uint", "a long",
                   "a ulong", "a float", "a double"]
        rows = [field(f"f{base}", (base,), 2 + 2 * base) for base in range(1, 13)]
        path = file_of("scalars.bfbs", schema([table("T", *rows)], root="T"))
        for base, told in enumerate(scalars, 1):
            for step, fault in [(".x", "P6 NotATable"), ("[0]", "P3 NotIndexable"), ("@X", "P4 NotAUnion")]:
                got = run("--schema", path, "--path", f"f{base}{step}")
                self.same(f"{told}{step}", got, refused(f"path: {fault} step=1; this is {told}"))
        for many in (0, 9, 10, 11, 255):
            names = [f"M{number:03}" for number in range(many)]
            members = [(name, 255 - number, TEXT) for number, name in enumerate(names)]
            rows = field("u_type", U_TYPE, 4), field("u", a_union(0), 6)
            path = file_of("members.bfbs", schema([table("T", *rows)], [union("U", *members)], root="T"))
            self.same(f"{many} members, in rising value", run("--schema", path, "--path", "u@X"),
                      refused(f"path: P5 NoSuchMember step=1; this union's members:{listed(names[::-1])}"))

    def test_a_schema_file_of_two_gibibytes(self):
        huge = FOLDER / "huge.bfbs"
        with huge.open("wb") as file:
            file.truncate(2**31)
        self.same("2^31 bytes", run("--schema", huge, given=SEVEN), schemaless("L5 TooLong", huge, NO_SCHEMA))
        os.truncate(huge, 2**31 - 1)
        self.same("one fewer", run("--schema", huge, given=SEVEN),
                  schemaless("L1 V5 WrongIdentifier at=4 object=9 field=- reads=1", huge, NO_SCHEMA))
        huge.unlink()

    def test_faults_of_paths(self):
        members = "; this union's members: A W T"
        for root, fault, there, paths in [
            ("R", "P1 BadText at", "", {"": 0, "u..v": 2, "u[01]": 3, "u.": 2, "u ": 1}),
            ("Q", "P1 BadText at", "", {"us[4294967296]": 12}),
            ("R", "P3 NotIndexable step", members, {"u[0]": 1}),
            ("R", "P3 NotIndexable step", "; this is a struct", {"u@W[0]": 2}),
            ("Q", "P4 NotAUnion step", "; this is a vector or an array", {"us@A": 1}),
            ("Q", "P4 NotAUnion step", "; this is a table", {"us[0]@A@A": 3}),
            ("R", "P5 NoSuchMember step", members, {"u@Z": 1, "u@NONE": 1}),
            ("R", "P6 NotATable step", members, {"u.v": 1}),
            ("R", "P6 NotATable step", "; this is a string", {"u@T.v": 2}),
        ]:
            for path, place in paths.items():
                got = run("--schema", FILES["X"], "--root", root, f"--path={path}", given=MEMBER)
                self.same(f"{path!r} from {root}", got, refused(f"path: {fault}={place}{there}"))
        self.same("no such field", run("--schema", FILES["X"], "--root", "R", "--path", "x"), fieldless("u_type", "u"))
        for name, path, field in [("of a member's table", "u@A.x", "v"), ("of a member's struct", "u@W.y", "x")]:
            self.same(f"nor one {name}", run("--schema", FILES["X"], "--root", "R", "--path", path),
                      fieldless(field, step=2))
        for name, paths, text in [
            ("the first of two", ["u[0]", "u"], f"path: P3 NotIndexable step=1 in u[0]{members}"),
            ("the last of two", ["u", "x"], "path: P2 NoSuchField step=0 in x; fields: u_type u"),
            ("a later step of two", ["u", "u@W.y"], "path: P2 NoSuchField step=2 in u@W.y; fields: x"),
            ("the first wrong one of three", ["u@A", "u@Z", "x"], f"path: P5 NoSuchMember step=1 in u@Z{members}"),
            ("one that would break the line", ["u", 'u\n"'], 'path: P1 BadText at=1 in u\\x0a\\"'),
            ("an empty one", ["u", ""], "path: P1 BadText at=0 in "),
        ]:
            words = [f"--path={path}" for path in paths]
            self.same(f"{name} paths", run("--schema", FILES["X"], "--root", "R", *words, given=MEMBER), refused(text))
        self.same("the root comes before the path", run(*BY_M, "--root", "Q", "--path", "x"), rootless("Q", "M"))
        self.same("the schema comes before the root", run("--schema", "/dev/null", "--root", "Q", "--path", "x"),
                  schemaless("L1 V2 OutOfBuffer at=4 object=9 field=- reads=0", "/dev/null", NO_BYTES))

    def test_nothing_is_read_before_a_refusal(self):
        given = file_of("unread", SEVEN)
        for words in [["--nothing"], ["--help"], ["--ident", "ABC"], ["--schema", "/dev/null"], ["--root", "Q"],
                      [*BY_N, "--path", "x"]]:
            with given.open("rb") as stream:
                subprocess.run([PROGRAM, *words], stdin=stream, capture_output=True, timeout=SECONDS)
                self.same(f"{words} reads nothing", os.lseek(stream.fileno(), 0, os.SEEK_CUR), 0)

    def test_faults_of_the_input(self):
        seven = SEVENS[0]
        for name, words, given, want in [
            ("a prefix past the limit", BY_N, SEVEN + spelled("ffffffff"),
             failed(oversize(4294967295), seven)),
            ("a stream that ends in mid-message", BY_N, SEVEN + SEVEN[:-1],
             failed("stream: S2 Truncated held=31", seven)),
            ("one that ends in mid-prefix", BY_N, SEVEN + b"\0", failed("stream: S2 Truncated held=1", seven)),
            ("one whose prefix alone is there", BY_N, SEVEN[:4], failed(astray("stream: S2 Truncated held=4"))),
            ("a bare input that is too long", (*BY_M, "--max-bytes", "31"), ORC, failed(overlong(31))),
        ]:
            self.same(name, run(*words, given=given), want)
        self.same("a folder as standard input", run_in_shell("<.", *BY_N), failed("read failed: is a directory"))
        self.same("a folder, bare", run_in_shell("<.", *BY_M), failed("read failed: is a directory"))
        source, _ = os.pipe()
        os.set_blocking(source, False)
        ran = subprocess.run([PROGRAM, *BY_N], stdin=source, capture_output=True, timeout=SECONDS)
        self.same("a pipe that doesn't block", Ran(ran.returncode, ran.stdout, ran.stderr),
                  failed("read failed: operation would block"))

    def test_an_input_that_breaks_off(self):
        for name, words, given, heard in [
            ("in a stream, after a message", BY_N, SEVEN, lines(SEVENS[0])),
            ("in a stream, in mid-message", BY_N, SEVEN + SEVEN[:9], lines(SEVENS[0])),
            ("in a bare input", BY_M, ORC, b""),
        ]:
            self.same(name, run_broken_off(*words, given=given), Ran(3, heard, b"fbcheck: read failed\n"))

    def test_memory_that_is_not_there(self):
        long = buffers.named(1 << 25)
        by_m = ("--schema", FILES["M"])
        told = "1 ok tables=1 depth=1 reads=9"
        self.same("enough of it", run(*by_m, given=prefixed(ORC) + long), good(told, told.replace("1", "2", 1)))
        self.same("too little for the second message", run_starved(*by_m, given=prefixed(ORC) + long),
                  failed("out of memory", told))
        self.same("too little for a bare input",
                  run_starved(*BY_M, given=buffers.named(1 << 25, prefix=False)), failed("out of memory"))
        large = file_of("large.bfbs", bytes(1 << 25))
        self.same("too little for a schema file", run_starved("--schema", large), failed("out of memory"))

    def test_an_output_that_takes_no_more(self):
        for name, redirections, words, given in [
            ("a full device", ">/dev/full", BY_N, SEVEN),
            ("a full device, bare", ">/dev/full", BY_M, ORC),
            ("a full device, after a no", ">/dev/full", BY_N, spelled("00000000")),
            ("a full device, help", ">/dev/full", ["--help"], b""),
            ("closed standard output", ">&-", BY_N, SEVEN),
            ("closed standard output, without a schema", ">&-", ["--bare"], schemas.M),
            ("closed standard output, help", ">&-", ["--help"], b""),
            ("standard output that can't be written", "1</dev/null", BY_N, SEVEN),
        ]:
            self.same(name, run_in_shell(redirections, *words, given=given),
                      Ran(3, b"", lines(FULL if "full" in redirections else CLOSED)))
        self.same("a full device, and nothing to write", run_in_shell(">/dev/full", *BY_N), good())
        self.same("a full device, and a refusal", run_in_shell(">/dev/full", "--ident", "ABC"),
                  refused("ident must be four bytes"))
        wrong = run_in_shell(">&-", "--nothing")
        self.holds("closed standard output, and wrong words", wrong.status == 2 and wrong.err.startswith(b"error: "),
                   wrong)

    def test_a_reader_that_closes_early(self):
        with Talk(*BY_N) as talk:
            talk.say(SEVEN)
            self.same("the first line comes", talk.hear(), lines(SEVENS[0]))
            talk.run.stdout.close()
            talk.run.stdin.write(SEVEN)
            talk.run.stdin.close()
            self.same("the second can't be written", (talk.run.stderr.read(), talk.run.wait(SECONDS)),
                      (b"", 3))
        with Talk("--help") as talk:
            talk.run.stdout.close()
            talk.run.stdin.close()
            self.holds("help that is read or not ends with 0 or 3, by no signal and without a word",
                       (talk.run.wait(SECONDS), talk.run.stderr.read()) in [(0, b""), (3, b"")], talk.run.returncode)
        ran = subprocess.run(
            ["sh", "-c", '{ "$0" "$@"; echo "status $?" >&2; } | head -c 100', PROGRAM, *BY_N],
            input=SEVEN * 20000, capture_output=True, timeout=SECONDS,
        )
        self.same("a pipe whose reader leaves after 100 bytes", ran.stderr, b"status 3\n")
        self.same("what it read is the front of the lines", ran.stdout,
                  lines(*[f"{n} ok tables=1 depth=1 reads=5" for n in range(1, 6)])[:100])

    def test_pipes_that_nobody_reads(self):
        """What is asked for beside the lines is still told."""
        sevens, odd = file_of("sevens.bin", SEVEN), file_of("odd.bin", spelled("00000000"))
        sums = "summary: messages=1 yes=1 no=0 bytes=32 tables=1 reads=5"
        no = "1 bad V2 OutOfBuffer at=4 object=0 field=- reads=1"
        for name, words, given, told in [
            ("standard input", BY_N, SEVEN, []),
            ("a bare buffer", BY_M, ORC, []),
            ("only bad lines", [*BY_N, "--quiet"], spelled("00000000"), []),
            ("JSON", [*BY_N, "--json"], SEVEN, []),
            ("one file", [*BY_N, sevens], b"", []),
            ("files", [*BY_N, sevens, sevens], b"", []),
            ("a file that isn't there, and one that is", [*BY_N, "/nowhere", sevens], b"",
             ["fbcheck: /nowhere: no such file"]),
            ("a filter", [*BY_N, "--filter"], SEVEN, []),
            ("a filter's note", [*BY_N, "--filter", odd, sevens], b"", [f"{odd}: {no}"]),
            ("a summary", [*BY_N, "--summary"], SEVEN, [sums]),
            ("help", ["--help"], b"", []),
            ("the version", ["--version"], b"", []),
        ]:
            self.same(name, run_unread(*words, given=given), Ran(3, b"", lines(*told)))
        self.same("a write to nobody behind one that failed else", run_in_shell(">/dev/full", *BY_N, given=SEVEN),
                  Ran(3, b"", lines(FULL)))
        self.same("a refusal", run_unread("--ident", "ABC"), refused("ident must be four bytes"))
        self.same("nothing to write", run_unread(*BY_N), good())
        self.same("a cut stream without a line", run_unread(*BY_N, given=b"\0"),
                  failed(astray("stream: S2 Truncated held=1")))

    def test_closed_descriptors(self):
        for words in [BY_N, BY_M, ["--bare"], []]:
            self.same(f"closed standard input, {len(words)} words", run_in_shell("<&-", *words), failed("read failed"))
        for name, words, given, want in [
            ("a yes", BY_N, SEVEN, good(SEVENS[0])),
            ("a no", BY_N, spelled("00000000"), bad("1 bad V2 OutOfBuffer at=4 object=0 field=- reads=1")),
            ("help", ["--help"], b"", run("--help")),
            ("wrong words", ["--nothing"], b"", Ran(2, b"", b"")),
            ("a wrong identifier", ["--ident", "ABC"], b"", Ran(2, b"", b"")),
            ("a schema file that isn't there", ["--schema", "/nowhere"], b"", Ran(2, b"", b"")),
            ("a bad schema file", ["--schema", "/dev/null"], b"", Ran(2, b"", b"")),
            ("no such root", ["--root", "Q"], b"", Ran(2, b"", b"")),
            ("a cut stream", BY_N, SEVEN + b"\0", Ran(3, lines(SEVENS[0]), b"")),
        ]:
            self.same(f"closed standard error, {name}", run_in_shell("2>&-", *words, given=given), want)
            self.same(f"full standard error, {name}", run_in_shell("2>/dev/full", *words, given=given), want)
        self.same("all closed", run_in_shell("<&- >&- 2>&-", *BY_N), Ran(3, b"", b""))
        self.same("all closed, help", run_in_shell("<&- >&- 2>&-", "--help"), Ran(3, b"", b""))
