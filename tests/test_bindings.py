"""The bindings for Rust, Node, Go and Java, each by a driver in tests/bindings that does what lines say.

The program is the other voice: verdicts, places in words, values and texts of errors are those of its lines.

A driver reads commands, one a line, and writes what each answers, and behind it a line of one dot:

    load FILE OPTION=VALUE..        a schema with these options, by which all others go; with OPTION=VALUE.. has others
    check FILE                      the verdict on a message, wherever its bytes are
    stream FILE FIRST SIZE MOST     the verdicts on a stream in pieces, the first of another size
    read FILE PATH..                values at paths; misfit OPTION PATH FILE by a path of a schema with this option
    stranger SCHEMA PATH FILE       the same by a path of another load; zero FILE by a path that is nothing
    again FILE PATH..               values at paths, without a check
    each FILE VECTOR PATH           those of a vector's elements and of one more, by one path with another index
    patient FILE SIZE EMPTY ERROR   the verdicts on a stream whose reader first returns nothing so often, then an error
    numbers FILE PATH..             values as a uint64, an int64 and a float64, each a dash where it doesn't fit
    allocations FILE PATH           how many Go makes for values into a slice, for those without a check, for new ones
    threads FILE COUNT THREADS      how many of so many verdicts are alike; with a path behind, how many values
    loads FILE COUNT                kilobytes that so many loads take; time FILE COUNT the nanoseconds a check takes
    most LENGTH                     most reads; object NUMBER and field NUMBER NUMBER tell names; close frees the schema
    commit                          the commit of the library, or a dash if it isn't known
"""

import os
import pathlib
import re
import shutil
import struct
import subprocess
import unittest

from tests.support import real_defaults, schemas
from tests.support.buffers import (
    ASKEW, HALVES, MEMBER, MEMBERS, NO_TEXT, NOTHING, ORC, PLACED, PLAIN, POST, THIRD_SLOT, TWINS, WILD, doubling,
    levels, lower_type, named,
)
from tests.support.builder import buffer, changed, messages_of, prefixed
from tests.support.every_kind import LITTLE, OPTIONS, PLACE, WHOLE, variants, words_of
from tests.support.generated import Kept
from tests.support.header import Reason
from tests.support.library import OUT, LibraryCase, module, ran
from tests.support.naive import NAMES, Default, Reader
from tests.support.program import TOP, file_of, folder_of, run
from tests.support.rust_and_go import ALL, NO_SCHEMA, ORDERS, PATHS, STREAM, RustAndGo
from tests.support.schemas import INT, TEXT, a_union, an_object, field, schema, table, union
from tests.support.strict_messages import MESSAGES
from tests.support.tools import jdk_of_22, node_headers, there

FOLDER = folder_of(__name__)
DRIVERS = TOP / "tests/bindings"
FOUND = {"PKG_CONFIG_PATH": str(OUT), "LD_LIBRARY_PATH": str(OUT)}
FILES = schemas.files()


def options_of(options):
    """The words that ask a driver for the same as words_of asks the program."""
    names = {"depth": "max_depth", "tables": "max_tables", "reads": "max_reads"}
    told = {names.get(name, name): value.decode() if name == "ident" else int(value) for name, value in options.items()}
    return " ".join(f"{name}={value}" for name, value in told.items())


def default_of(file, root, data, path):
    """The default of a float by the naive reader, where the float is absent."""
    rows = Kept("", pathlib.Path(file))
    number = rows.schema.names.index(root) if root else rows.root
    text = Reader(rows.schema, number, data, prefix=False).value(path)
    return f"float:{wide(text.data).hex()}" if isinstance(text, Default) else None


def wide(data):
    """The bytes of the double that is the float of these bytes."""
    return struct.pack("<d", *struct.unpack("<f" if len(data) == 4 else "<d", data))


def value_of(line, default=None):
    """A value of a line of the program as a driver writes it, where a vector has no bytes."""
    if default is not None:
        return default
    text = line.partition("reads=")[2].partition(" ")[2]
    if text.startswith("float:"):
        return f"float:{wide(bytes.fromhex(text[6:])).hex()}"
    return f"text:{text[1:-1].encode().hex()}" if text.startswith('"') else text


class Binding:
    """The cases of each language."""

    max_depth, strict, plain_bytes = "maxDepth", "strict", "plainBytes"
    closed = "the schema is closed"
    others = "the schema was loaded with other demands: ask for these when you load it"
    quoted = ' ("{}")'  # what was asked for, behind the text of an error
    names_files = False  # whether a schema file is loaded by its name, which an error tells too
    names_first = False  # before what it tells of the file's bytes
    refused = ["items[*]"]  # texts of paths that the library alone takes
    damaged = NO_SCHEMA  # what is behind the text of a schema file's error, though it has the right identifier
    in_stream = {}  # what is behind the text of a stream's error
    briefly = ()  # the driver's words, behind the first, by which a short run costs less

    @classmethod
    def setUpClass(cls):
        missing = cls.missing()
        if missing:
            raise unittest.SkipTest(missing)
        super().setUpClass()
        cls.build()

    @classmethod
    def made(cls, *words, folder=TOP, **environment):
        """Runs what builds something, which may say nothing."""
        told = subprocess.run([str(word) for word in words], cwd=folder, env={**os.environ, **FOUND, **environment},
                              stdin=subprocess.DEVNULL, stdout=subprocess.PIPE, stderr=subprocess.STDOUT, text=True)
        if told.returncode != 0 or told.stdout:
            raise AssertionError(f"{' '.join(map(str, words))}:\n{told.stdout}")

    def told(self, *commands, seconds=120):
        """What the driver answers to each command. A run of more than two minutes is a long one."""
        words = [self.driver[0], *(self.briefly if seconds <= 120 else ()), *self.driver[1:]]
        given = "".join(f"{line}\n" for line in commands).encode()
        status, out, err = ran(*words, given=given, seconds=seconds, **FOUND)
        answers = re.findall(r"(.*?)^\.\n", out, re.S | re.M)
        self.same("the driver ends well", (status, err, len(answers)), (0, "", len(commands)))
        return [answer.strip() for answer in answers] + ["no answer"] * (len(commands) - len(answers))

    @staticmethod
    def fault(*words):
        """What the program tells of a fault, without what it adds behind that."""
        return re.split("; | in ", run(*words).err.decode().removeprefix("fbcheck: "))[0].strip()

    def test_verdicts(self):
        """Those of the program on streams of good and damaged messages, with every reason but a wrong prefix."""
        commands, wanted = [], []
        for name, root in [("whole", WHOLE), ("little", LITTLE)]:
            data = buffer(root, b"KIND", prefix=True)[4:]
            given = b"".join(map(prefixed, variants(data, [1, 4, 252])))
            path = file_of(f"{name}.stream", given)
            for options in OPTIONS:
                asked = {"tables": 500, **options}
                want = run("--names", "--schema", str(ALL), *words_of(asked), given=given).out.decode()
                commands += [f"load {ALL} prefixed=1 {options_of(asked)}", f"stream {path} 65536 65536 67108864"]
                wanted += ["done", f"{want}end"]
        want = run("--names", "--schema", str(ORDERS), "--root", "post.Person", given=POST).out.decode()
        commands += [f"load {ORDERS} prefixed=1 root=post.Person", f"stream {STREAM} 65536 65536 67108864"]
        wanted += ["done", f"{want}end"]
        for command, got, want in zip(commands, self.told(*commands), wanted):
            pairs = zip(got.splitlines(), want.splitlines())
            self.same(f"{command}: lines that differ", [pair for pair in pairs if pair[0] != pair[1]][:3], [])
            self.same(f"{command}: how many", got.count("\n"), want.count("\n"))
        seen = set(re.findall(r"bad V(\d+)", "".join(wanted)))
        self.same("reasons", sorted(map(int, seen)), [*Reason][1 : len(NAMES)])

    def test_single_messages(self):
        """A message wherever its bytes are: good and bad ones, none, a long one, and one with a wrong prefix."""
        rows = [("M", ORC), ("M", ORC[:-1]), ("M", b""), ("M", named(1 << 20, prefix=False)),
                ("M", named(1 << 20, prefix=False)[:-1] + b"\1"), ("NODE", doubling(12)), ("NODE", TWINS)]
        commands = []
        for number, (name, data) in enumerate(rows):
            commands += [f"load {FILES[name]}", f"check {file_of(f'single{number}', data)}"]
        answers = self.told(*commands)
        for (name, data), got in zip(rows, answers[1::2]):
            want = run("--names", "--bare", "--schema", FILES[name], given=data).out.decode()
            self.same(f"{len(data)} bytes by {name}", got, want.removeprefix("1 ").strip())
        first = messages_of(POST)[0]
        good, wrong = file_of("first", first), file_of("wrong", b"\0" + first[1:])
        _, one, other, *named_so, most = self.told(
            f"load {ORDERS} prefixed=1 ident=own", f"check {good}", f"check {wrong}", "object 1", "field 1 6",
            "object 99", "field 1 99", "most 100")
        want = run("--schema", ORDERS, "--ident", "POST", given=first).out.decode()
        self.same("a right prefix", one, want.removeprefix("1 ").strip())
        self.holds("a wrong one", other.startswith("bad V1 WrongPrefix at=0 object=1 field=- reads=1"), other)
        self.same("names", named_so, ["post.Delivery", "items", "-", "-"])
        self.same("the most reads of 100 bytes", most, str(64 * (100 + 64) + 7))

    def test_long_places(self):
        """A place is told in words up to 1,024 bytes."""
        for count, length in [(204, 1021), (205, 1024), (4_096, 1024)]:
            torn = levels(count)[:-4]
            want = run("--names", "--bare", "--max-depth", "4096", "--schema", FILES["CHAIN"], given=torn).out.decode()
            head, place = want.removeprefix("1 ").strip().split(" in ")
            self.same(f"{count} levels: the length", len(f"in {place}"[:1024]), length)
            told = self.told(f"load {FILES['CHAIN']} max_depth=4096", f"check {file_of('torn', torn)}")
            self.same(f"{count} levels", told[1], f"{head} {f'in {place}'[:1024]}")

    def test_options(self):
        """Those that can't be served, and those that no stream of the program has."""
        deep = file_of("deep", buffer(chain(100)))
        ident = file_of("ident", buffer({0: ("h", 5)}, b"KIND"))
        rows = [
            ("max_depth=4097", f"error {self.max_depth} is above 4096"), ("max_depth=4096", "done"),
            ("root=N", f"error no root table{self.quoted.format('N')}; tables: M"), ("root=M", "done"),
            ("ident=own", "done"),
            ("ident=NONE", "done"),
        ]
        answers = self.told(f"load {FILES['M']}", *[f"with {asked}" for asked, _ in rows])
        for (asked, want), got in zip(rows, answers[1:]):
            self.same(asked, got, want)
        for own in ("", "KIN", "KIND", "KINDS"):
            file = file_of(f"own{len(own)}.bfbs", schema([table("T")], root="T", ident=own))
            want = run("--schema", file, "--schema-ident").err.decode().strip().replace("fbcheck:", "error") or "done"
            self.same(f"the schema's own, {own!r}", self.told(f"load {file}", "with ident=own"), ["done", want])
        words = [f"load {FILES['CHAIN']}", f"check {deep}", "with max_depth=99", f"check {deep}", "with max_depth=100",
                 f"check {deep}", f"load {FILES['M']}", f"check {ident}", "with ident=KIND", f"check {ident}",
                 "with ident=KIN.", f"check {ident}"]
        told = [answer.split(" at=")[0] for answer in self.told(*words)[1::2]]
        self.same("depths", told[:3], ["bad V6 TooDeep", "bad V6 TooDeep", "ok tables=100 depth=100 reads=399"])
        good = "ok tables=1 depth=1 reads="
        self.same("identifiers", told[3:], [f"{good}4", f"{good}5", "bad V5 WrongIdentifier"])

    def test_strict(self):
        """A schema that is loaded for strict checks makes all of its checks so, and any other one makes none."""
        good, wild = file_of("good", MEMBER), file_of("wild", WILD)
        both = file_of("both", prefixed(MEMBER) + prefixed(WILD))
        by_r = ["--names", "--schema", FILES["X"], "--root", "R"]
        for words in ([], ["--strict"], ["--strict", "--plain-bytes"]):
            asked = " ".join(f"{word[2:].replace('-', '_')}=1" for word in words)
            lines = run(*by_r, *words, given=both.read_bytes()).out.decode()
            taken, refused = (run("--bare", *by_r, *words, given=data).out.decode().removeprefix("1 ").strip()
                              for data in (MEMBER, WILD))
            self.same(f"{words}: the program", (taken[:2], refused[:6]), ("ok", "bad V2" if words else "ok tab"))
            told = self.told(
                f"load {FILES['X']} root=R {asked}".strip(), f"check {good}", f"check {wild}", f"read {good} u@A.v",
                f"read {wild} u", "with root=R max_depth=9", f"check {wild}", "with root=R prefixed=1",
                f"stream {both} 7 7 4096")
            wants = ["done", taken, refused, "5", f"error {refused}" if words else "union:0", "done", refused, "done",
                     f"{lines}end"]
            self.same(f"{words}: what the binding tells", told, wants)

    def test_fields_and_texts(self):
        """A schema that is loaded for known fields, and for UTF-8, makes all of its checks so."""
        messages = [ORC, NO_TEXT, THIRD_SLOT]
        files = [file_of(f"text{number}", data) for number, data in enumerate(messages)]
        stream = file_of("texts", b"".join(map(prefixed, messages)))
        fields, texts = ["--known-fields"], ["--utf8"]
        for words, refused in [(fields, ["V16"]), (texts, ["V15"]), ([*fields, *texts], ["V15", "V16"]),
                               (["--strict", *fields, *texts], ["V15", "V16"])]:
            by_m = ["--names", "--schema", FILES["M"], *words]
            asked = " ".join(f"{word[2:].replace('-', '_')}=1" for word in words)
            lines = run(*by_m, given=stream.read_bytes()).out.decode()
            wants = [run("--bare", *by_m, given=data).out.decode().removeprefix("1 ").strip() for data in messages]
            self.same(f"{words}: the program", re.findall(r"bad (V\d+)", " ".join(wants)), refused)
            told = self.told(f"load {FILES['M']} {asked}", *[f"check {file}" for file in files], "with prefixed=1",
                             f"stream {stream} 7 7 4096")
            self.same(f"{words}: what the binding tells", told, ["done", *wants, "done", f"{lines}end"])
        others = f"error {self.others}"
        self.same("others than it was loaded with", self.told(
            f"load {FILES['M']} utf8=1", "with known_fields=1", "with strict=1", "with utf8=1"),
            ["done", others, others, "done"])

    def test_nested(self):
        """Strict checks look into nested buffers, unless they take them for bytes."""
        file, first = Kept("nests").file, MESSAGES["nests"][0]
        messages = [*MESSAGES["nests"], *(changed(first, (at, "ff")) for at in range(0, len(first), 8))]
        stream = file_of("nests", b"".join(map(prefixed, messages)))
        for words in (["--strict"], ["--strict", "--plain-bytes"]):
            asked = " ".join(f"{word[2:].replace('-', '_')}=1" for word in words)
            want = run("--names", "--delimited", "--schema", file, *words, given=stream.read_bytes()).out.decode()
            files = [file_of(f"nest{number}", data) for number, data in enumerate(messages)]
            _, *told = self.told(f"load {file} {asked}", *[f"check {one}" for one in files])
            self.same(f"{words}: verdicts", told, [line.partition(" ")[2] for line in want.splitlines()])

    def test_what_strict_refuses(self):
        """Schema files that don't tell what bytes are, and demands that a schema wasn't loaded with."""
        as_bytes = f"{self.plain_bytes} takes such fields as bytes"
        builtins = f"flatc --bfbs-builtins writes it to the .bfbs, {as_bytes}"
        for name, remedy in [("BYTES", builtins), ("LOST", as_bytes)]:
            file = FILES[name]
            where = self.quoted.format(file) if self.names_files else ""
            fault = self.fault("--schema", file, "--strict")
            self.holds(f"{name}: the program names the field", fault.endswith(": a.T.b"), fault)
            told = self.told(f"load {file}", f"load {file} strict=1", f"load {file} strict=1 plain_bytes=1",
                             f"check {file_of('empty_table', PLAIN)}")
            self.same(name, told, ["done", f"error {fault}; {remedy}{where}", "done", "ok tables=1 depth=1 reads=3"])
        other = f"error {self.others}"
        alone = f"error {self.plain_bytes} needs {self.strict}"
        self.same("demands that can't be served", self.told(
            f"load {FILES['M']} plain_bytes=1", f"load {FILES['M']}", "with strict=1", "with plain_bytes=1",
            f"load {FILES['M']} strict=1", "with strict=1 plain_bytes=1"), [alone, "done", other, alone, "done", other])

    def test_values(self):
        """What the program writes at the end of each line, of every kind, and the bytes of vectors."""
        rows = [("M", ORC, "name"), ("M", ORC, "hp"), ("M", PLAIN, "hp"), ("M", PLAIN, "name"), ("X", MEMBERS, "us"),
                ("X", MEMBERS, "us[0]@T"), ("X", MEMBERS, "us[1]@T"), ("X", MEMBERS, "us[2]@T"), ("G", HALVES, "f"),
                ("G", PLAIN, "f"), ("NODE", TWINS, "a.b"), ("NODE", TWINS, "a.b.a"),
                ("Z", changed(ASKEW, (24, "00000000")), "l")]
        rows += [("X R", data, path) for data, path in [
            (MEMBER, "u"), (MEMBER, "u@A"), (MEMBER, "u@A.v"), (MEMBER, "u@T"), (PLACED, "u@W"), (PLAIN, "u"),
            (lower_type(9), "u")]]
        rows += [("ALL", buffer(root, b"KIND"), path) for root in (WHOLE, LITTLE) for path in PATHS]
        commands = []
        for number, (name, data, path) in enumerate(rows):
            name, _, root = name.partition(" ")
            commands += [f"load {FILES.get(name, ALL)}{root and f' root={root}'}",
                         f"read {file_of(f'value{number}', data)} {path}"]
        for (name, data, path), got in zip(rows, self.told(*commands)[1::2]):
            name, _, root = name.partition(" ")
            file = FILES.get(name, ALL)
            words = ["--schema", file, *(["--root", root] if root else []), "--path", path]
            line = run("--bare", *words, given=data).out.decode().strip()
            want = value_of(line, default_of(file, root, data, path))
            self.same(f"{path} of {name}", re.sub(r"(vector:\d+):.*", r"\1", got), want)
        whole = file_of("whole", buffer(WHOLE))
        commands = [f"load {ALL}", f"read {whole} bytes longs", f"read {whole} places texts", f"read {whole} name name"]
        want = [f"vector:3:{b'abc'.hex()} vector:2:{struct.pack('<2q', 1, 2).hex()}",
                f"vector:2:{PLACE.hex() * 2} vector:3:", f"text:{b'name'.hex()} text:{b'name'.hex()}"]
        self.same("several at once", self.told(*commands)[1:], want)

    def test_real_defaults(self):
        """Absent floats have their defaults, and an absent optional one, or one of an absent table, has none."""
        file, data = file_of("reals.bfbs", real_defaults.FILE), file_of("reals.bin", real_defaults.MESSAGE)
        rows = real_defaults.VALUES
        commands = [f"load {file}", *(f"read {data} {row[0]}" for row in rows)]
        for (path, plain, _, number), got in zip(rows, self.told(*commands)[1:]):
            want = plain if number is None else f"float:{struct.pack('<d', number).hex()}"
            self.same(path, got, want)

    def test_errors(self):
        """The texts of the program for schema files, paths and messages, with what was asked for."""
        file = ORDERS.read_bytes()
        given = [b"", file[:100], b"hello, world", file[:4] + b"BFBX" + file[8:],
                 schema([table("T", field("o", an_object(7), 4))], root="T"),
                 schema([table("T", field("a", INT, 4), field("b", INT, 4))], root="T"),
                 schema([table("T", field("u", a_union(0), 6))], [union("U", ("NONE", 0, schemas.NONE))], root="T"),
                 schema([table("T")], [union("U", ("A", 0, TEXT), ("B", 0, TEXT))], root="T"),
                 schema([table("T")], root="S"), schema([table("T")])]
        files = [file_of(f"wrong{number}.bfbs", data) for number, data in enumerate(given)]
        for path, got in zip(files, self.told(*[f"load {path}" for path in files])):
            want = self.fault("--schema", path)
            no_schema = ""
            if want.startswith("schema: L1 "):
                no_schema = self.damaged if path.read_bytes()[4:8] == b"BFBS" else NO_SCHEMA
            named = self.quoted.format(path) if self.names_files and want.startswith("schema: ") else ""
            want += f"{named}{no_schema}" if self.names_first else f"{no_schema}{named}"
            self.same(f"{path.name}", got, f"error {want}")
        first = file_of("first", messages_of(POST)[0])
        deep, none = ".".join(["next"] * 32), file_of("no_bytes", b"")
        texts = ["to..x", "to.nobody", "to[0]", "items@Parcel", "first@Nobody", "to.name.x", "items[4294967296]",
                 *self.refused]
        torn = file_of("torn", messages_of(POST)[4])
        commands = [f"load {ORDERS} prefixed=1", *[f"read {first} {text}" for text in texts], f"read {torn} to.name",
                    f"misfit root=post.Parcel tags[0] {first}", f"load {FILES['CHAIN']}", f"read {none} {deep}"]
        _, *answers, bad, misfit, _, long = self.told(*commands)
        for text, got in zip(texts, answers):
            want = run("--schema", ORDERS, "--path", text).err.decode().removeprefix("fbcheck: ").strip()
            fault, mark, hint = want.partition("; ")
            self.same(f"the path {text}", got, f"error {fault}{self.quoted.format(text)}{mark}{hint}")
        want = run("--names", "--schema", ORDERS, given=messages_of(POST)[4]).out.decode()[2:].strip()
        self.same("a bad message has no values", bad, f"error {want}")
        self.same("a path of another root", misfit, "error a path is none of this schema from this root")
        self.same("a long path", long, f"error the path has more than 31 steps{self.quoted.format(deep)}")
        if self.closed:
            after = [f"check {first}", f"read {first} to", "with prefixed=1", "object 1"]
            told = self.told(f"load {ORDERS}", "close", *after)
            self.same("a closed schema", told[1:], ["done"] + [f"error {self.closed}"] * 4)

    def test_streams(self):
        """The same messages however a stream is cut, and what may be wrong with one."""
        want = run("--names", "--schema", ORDERS, given=POST).out.decode() + "end"
        pieces = [(at, 65536) for at in range(1, len(POST) + 1)] + [(size, size) for size in range(1, 65)]
        commands = [f"load {ORDERS} prefixed=1", *[f"stream {STREAM} {first} {rest} 600" for first, rest in pieces]]
        for (first, rest), got in zip(pieces, self.told(*commands)[1:]):
            self.same(f"in pieces of {first} and {rest}", got, want)
        messages = messages_of(POST)
        some = file_of("some", b"".join(messages[:2]) + messages[2][:-1])
        none, empty = file_of("none", b""), file_of("empty", NOTHING * 3)
        long = file_of("long", named(9 << 20) * 2)
        lines = want.splitlines(keepends=True)
        longest = max(map(len, messages))
        by_m = run("--schema", FILES["M"], given=long.read_bytes()).out.decode() + "end"
        commands = [f"load {ORDERS} prefixed=1", f"stream {some} 7 7 65536", f"stream {STREAM} 7 7 {longest}",
                    f"stream {STREAM} 7 7 {longest - 1}", f"stream {none} 1 1 8", f"stream {empty} 5 5 8",
                    f"load {FILES['M']} prefixed=1", f"stream {long} 65536 65536 67108864"]
        _, cut, enough, oversize, nothing, blank, _, great = self.told(*commands)
        self.holds("a schema without prefixes is refused", "begin with their size" in self.told(
            f"load {ORDERS}", f"stream {none} 1 1 8")[1])
        held = len(messages[2]) - 1
        begin = len(messages[0] + messages[1])
        behind = self.in_stream.get("S2", "").format(number=3, begin=begin, size=held + 1)
        truncated = f"error stream: S2 Truncated held={held}{behind}"
        self.same("one that ends in a message", cut, f"{''.join(lines[:2])}{truncated}")
        self.same("room enough", enough, want)
        first = next(number for number, message in enumerate(messages) if len(message) == longest)
        behind = self.in_stream.get("S1", "").format(number=first + 1, begin=sum(map(len, messages[:first])),
                                                     most=longest - 1)
        declared = f"error stream: S1 Oversize declared={longest - 4}{behind}"
        self.same("one byte too few", oversize, f"{''.join(lines[:first])}{declared}")
        self.same("no message", nothing, "end")
        self.same("messages without a byte", len(re.findall(r"V2 OutOfBuffer at=4 ", blank)), 3)
        self.same("long messages", great, by_m)

    def test_commit(self):
        """The library's, which isn't known if its sources weren't committed when it was built."""
        commit = module()._library().fbcheck_commit().decode()
        self.same("the commit", self.told("commit"), [commit if re.fullmatch("[0-9a-f]{40}", commit) else "-"])

    def test_threads(self):
        """A million checks of one schema on four threads."""
        orc = file_of("orc", ORC)
        commands = [f"load {FILES['M']}", f"threads {orc} 250000 4", "with max_depth=65", f"threads {orc} 1000 4"]
        told = self.told(*commands, seconds=300)
        self.same("verdicts that are alike", told, ["done", "1000000", "done", "4000"])

    def test_memory(self):
        """A hundred thousand loads take no more memory than ten thousand."""
        told = self.told(f"loads {FILES['M']} 100000", seconds=300)
        self.holds("kilobytes more", re.fullmatch(r"-?\d+", told[0]) and int(told[0]) < 20_000, told[0])

    def test_once(self):
        """A check that fails at its last reads costs as much as one that ends well: it goes through a message once."""
        chain = file_of("doubling", doubling(12))
        turn = ["with reads_per_byte=74", f"time {chain} 2000", "with reads_per_byte=73", f"time {chain} 2000"]
        good, bad = [], []
        for _ in range(5):  # on a busy machine one run may have slow turns alone
            told = self.told(f"load {FILES['NODE']}", *turn * 4, f"check {chain}")
            self.same("it fails", told[-1].split()[:2], ["bad", "V13"])
            good += map(int, told[2:-1:4])
            bad += map(int, told[4:-1:4])
            if min(bad) < 1.5 * min(good):
                break
        self.holds("and costs as much", min(bad) < 1.5 * min(good), (min(good), min(bad)))

    def test_page(self):
        """The program of its page, as it's pasted, writes what stands behind it."""
        code, want = re.search(rf"```{self.fence}\n(.*?)```.*?```text\n(.*?)```", self.page(), re.S).groups()
        self.same("what the page's program writes", self.ran_as_pasted("page", code), (0, want, ""))

    def page(self):
        return (TOP / "bindings" / self.folder / "README.md").read_text()

    def ran_as_pasted(self, name, code):
        folder = FOLDER / f"{self.folder}_{name}"
        folder.mkdir()
        return ran("env", "-C", TOP, *self.pasted(folder, code), given=STREAM.read_bytes(), **FOUND)


def chain(count):
    """By CHAIN: so many tables, one inside another."""
    root = {}
    for _ in range(count - 1):
        root = {0: root}
    return root


class Rust(RustAndGo, Binding, LibraryCase):
    around = """
use fbcheck::Value;
fn main() -> Result<(), Box<dyn std::error::Error>> {
    let schema = fbcheck::Options::new().prefixed(true).load(&std::fs::read("SCHEMA")?)?;
    let message = &std::fs::read("MESSAGE")?;
    CODE
    Ok(())
}
"""
    language, folder, fence = "Rust", "rust", "rust"
    max_depth, plain_bytes, closed = "max_depth", "plain_bytes", None
    target = FOLDER / "rust"
    driver = [target / "release/driver"]

    @classmethod
    def missing(cls):
        return None if shutil.which("cargo") else "cargo isn't there"

    @classmethod
    def cargo(cls, folder, command, *words):
        cls.made("cargo", command, "--quiet", "--offline", *words, folder=folder, CARGO_TARGET_DIR=str(cls.target))

    @classmethod
    def build(cls):
        cls.cargo(DRIVERS / "rust", "build", "--release")

    def test_style(self):
        for folder in (TOP / "bindings/rust", DRIVERS / "rust"):
            if there("rustfmt"):
                self.made("cargo", "fmt", "--check", folder=folder)
            if there("cargo-clippy"):
                self.cargo(folder, "clippy", "--release", "--", "-D", "warnings")

    def test_refused_memory(self):
        """Where there's no room for a message, that is told, and asked again it's the same."""
        size = 2**30
        long = file_of("declares", messages_of(POST)[0] + struct.pack("<I", size - 4))
        given = f"load {ORDERS} prefixed=1\nstream {long} 7 7 {2 ** 31 - 1}\nstream {STREAM} 7 7 600\n".encode()
        status, out, err = ran("prlimit", f"--as={size}", *self.driver, given=given)
        self.same("it ends well", (status, err, out.count("ok tables=")), (0, "", 6))
        told = f"\nerror out of memory: {2 ** 31 - 1} bytes for message 2 at {len(messages_of(POST)[0])}\n"
        self.holds("it's told", told in out, out)

    def test_documented(self):
        """The examples in the crate's documentation run."""
        told = ran("env", "-C", TOP / "bindings/rust", "cargo", "test", "--release", "--quiet", "--offline", "--doc",
                   CARGO_TARGET_DIR=str(self.target), seconds=300, **FOUND)
        self.holds("they pass", told[0] == 0 and "2 passed" in told[1], told)

    def pasted(self, folder, code):
        (folder / "src").mkdir()
        (folder / "src/main.rs").write_text(code)
        (folder / "Cargo.toml").write_text(
            '[package]\nname = "page"\nversion = "0.0.0"\nedition = "2021"\n\n[workspace]\n\n'
            f'[dependencies]\nfbcheck = {{ path = "{TOP}/bindings/rust" }}\n')
        self.cargo(folder, "build", "--release")
        return [self.target / "release/page"]


class Node(Binding, LibraryCase):
    language, folder, fence = "Node", "node", "js"
    quoted, names_files, names_first, refused = " ('{}')", True, True, []
    damaged = "; this binary schema is damaged"
    driver = ["node", DRIVERS / "driver.js"]

    @classmethod
    def missing(cls):
        if not shutil.which("node"):
            return "node isn't there"
        return None if node_headers() else "Node's headers aren't there"

    @classmethod
    def build(cls):
        cls.made(TOP / "bindings/node/build")

    def test_style(self):
        """With the newest words of JavaScript, and with the oldest that its types need, none of which are Node's."""
        if there("tsc"):
            words = ["--noEmit", "--strict", "--exactOptionalPropertyTypes", "--module", "commonjs"]
            for more in (["--target", "es2022"], ["--target", "es2018", "--lib", "es2018", "--typeRoots", FOLDER / "none"]):
                self.made("tsc", *words, *more, DRIVERS / "types.ts")

    def test_wrong_words(self):
        """What isn't bytes, and options that aren't there; and texts that name what was asked for."""
        plain = file_of("plain", PLAIN)
        rows = [("schema.check('abc')", "TypeError"), ("schema.check(new Uint16Array(4))", "TypeError"),
                ("schema.check(undefined)", "TypeError"), ("schema.check(new ArrayBuffer(8))", "TypeError"),
                ("new Schema(5)", "TypeError"), ("schema.with({ depth: 5 })", "TypeError"),
                ("schema.with({ maxDepth: -1 })", "RangeError"), ("schema.with({ maxTables: 2 ** 32 })", "RangeError"),
                ("schema.with({ maxReads: 2n ** 64n })", "RangeError"),
                ("schema.with({ maxDepth: 4097 })", "RangeError"), ("schema.with({ alignment: 'no' })", "TypeError"),
                ("schema.with({ ident: 'ABCDE' })", "RangeError"),
                ("schema.with({ strict: 1 })", "TypeError: strict is true or false, and not 1"),
                (f"new Schema('{FILES['M']}', {{ strict: 'no' }})", "TypeError: strict is true or false, and not no"),
                ("schema.with({ plainBytes: true })", "TypeError: plainBytes needs strict"),
                ("prefixed.messages([], { maxBytes: 7 })", "RangeError"), ("schema.messages([])", "TypeError"),
                ("[...prefixed.messages(['abc'])]", "TypeError"), ("prefixed.messages([], { max: 8 })", "TypeError"),
                ("prefixed.messages()", "TypeError: a stream is bytes, or an iterable of pieces of them"),
                ("schema.read(Buffer.alloc(0), 'name')", "BadBuffer"), ("new Schema('/nowhere')", "Error"),
                ("schema.path(5)", "TypeError: a path is a string, or what path() gives"),
                ("schema.read(Buffer.alloc(0), ['name'])", "TypeError: a path is a string"),
                ("schema.path('nam')", "FbcheckError: path: P2 NoSuchField step=0 ('nam'); did you mean name?; fields: "),
                ("schema.with({ root: 'N' })", "FbcheckError: no root table ('N'); tables: M"),
                (f"new Schema('{plain}')",
                 f"FbcheckError: schema: L1 V5 WrongIdentifier at=4 object=9 field=- reads=1 ('{plain}'){NO_SCHEMA}")]
        code = (f"const {{ Schema }} = require('{TOP}/bindings/node'); const schema = new Schema('{FILES['M']}');\n"
                "const prefixed = schema.with({ prefixed: true });\n"
                "const told = (call) => { try { console.log(call()); } catch (e) { console.log(String(e)); } };\n")
        code += "".join(f"told(() => {call});\n" for call, _ in rows)
        told = ran("node", "-e", code)
        self.same("errors", (told[1].count("\n"), told[2]), (len(rows), ""))
        for (call, want), got in zip(rows, told[1].splitlines()):
            self.holds(call, got.startswith(want), got)

    def test_pieces_that_change(self):
        """A piece has as many bytes as there are, whatever it says itself, and is refused where it becomes shorter."""
        code = (f"const {{ Schema }} = require('{TOP}/bindings/node'), fs = require('node:fs');\n"
                f"const schema = new Schema('{ORDERS}', {{ prefixed: true }}), stream = fs.readFileSync('{STREAM}');\n"
                "const piece = (buffer) => { const made = new Uint8Array(buffer); made.set(stream); return made; };\n"
                "const told = (piece, after) => { let count = 0; const lines = [];\n"
                "  try { for (const { verdict } of schema.messages([piece])) { lines.push(verdict.ok);\n"
                "    if (++count === 1) after(piece); } } catch (error) { lines.push(error.code ?? error.message); }\n"
                "  console.log(...lines); };\n"
                "const says = (length) => Object.defineProperty(piece(stream.length), 'length', { value: length });\n"
                "told(says(2 ** 40), () => {}); told(says(0), () => {});\n"
                "const detach = ({ buffer }) => structuredClone(buffer, { transfer: [buffer] });\n"
                "told(piece(stream.length), detach);\n"
                "const gone = piece(stream.length); detach(gone); told(gone, () => {});\n"
                "told(new Uint8Array(0), () => {});\n")
        shorter = "true a piece of the stream became shorter while it was gone through"
        detached = "a piece of the stream is detached: it has no bytes any more"
        lines = ["true true true true false true", "true true true true false true", shorter, detached, ""]
        if ran("node", "-p", "'resizable' in ArrayBuffer.prototype")[1] == "true\n":
            first, second = (len(message) for message in messages_of(POST)[:2])
            code += ("const some = (left) => told(piece(new ArrayBuffer(stream.length, { maxByteLength: 1 << 20 })),\n"
                     "  ({ buffer }) => buffer.resize(left));\n"
                     f"some(0); some(9); some({first + second}); some({first + second + 1}); some({len(POST) + 3});\n")
            lines += [shorter] * 4 + ["true true true true false true TRUNCATED"]
        self.same("verdicts", ran("node", "-e", code), (0, "\n".join([*lines, ""]), ""))

    def test_shown(self):
        """Verdicts and values have what console.log and JSON.stringify show."""
        code = (f"const schema = new (require('{TOP}/bindings/node').Schema)('{FILES['M']}');\n"
                f"const orc = Buffer.from('{ORC.hex()}', 'hex'), told = (what) => console.log(JSON.stringify(what));\n"
                "told(schema.verify(orc)); told(schema.check(Buffer.alloc(0))); told(schema.read(orc, 'name', 'hp'));")
        bad = '{"ok":false,"reason":"OutOfBuffer","position":0,"object":0,"reads":0,"place":"in . [M]"}'
        values = '[{"kind":"text","value":"Orc"},{"kind":"int","value":300}]'
        self.same("as JSON", ran("node", "-e", code), (0, "\n".join(
            ['{"ok":true,"tables":1,"depth":1,"reads":8}', bad, values, ""]), ""))

    def pasted(self, folder, code):
        (folder / "page.js").write_text(code.replace("./bindings/node", f"{TOP}/bindings/node"))
        return ["node", folder / "page.js"]


class Go(RustAndGo, Binding, LibraryCase):
    around = """
package main
import ("encoding/binary"; "fmt"; "os"; "fbcheck.dev/fbcheck")
func told() error {
	file, _ := os.ReadFile("SCHEMA")
	message, _ := os.ReadFile("MESSAGE")
	schema, err := fbcheck.NewSchema(file, fbcheck.Options{Prefixed: true})
	if err != nil {
		return err
	}
	CODE
	return nil
}
func main() {
	if err := told(); err != nil {
		panic(err)
	}
}
"""
    language, folder, fence = "Go", "go", "go"
    max_depth, strict, plain_bytes, max_bytes = "MaxDepth", "Strict", "PlainBytes", "MaxBytes"
    driver = [FOLDER / "driver_go"]

    @classmethod
    def missing(cls):
        return None if shutil.which("go") else "go isn't there"

    @classmethod
    def build(cls):
        cls.made("go", "build", "-o", cls.driver[0], ".", folder=DRIVERS / "go")

    def test_style(self):
        for folder in (TOP / "bindings/go", DRIVERS / "go"):
            self.made("gofmt", "-l", ".", folder=folder)
            self.made("go", "vet", "./...", folder=folder)

    def test_elsewhere(self):
        """Where cgo is missing, or on another machine, the compiler says what is needed."""
        other = {"GOOS": "darwin", "CGO_ENABLED": "1"}
        for more in ({"CGO_ENABLED": "0"}, {"GOOS": "darwin"}, {"GOARCH": "arm64"}, other):
            status, _, err = ran("env", "-C", TOP / "bindings/go", "go", "build", "./...", **FOUND, **more)
            told = [line for line in err.splitlines() if not line.startswith("#")]
            self.same(f"{more}", (status != 0, [line.partition(" ")[2] for line in told]),
                      (True, ["undefined: fbcheck_needs_cgo_on_linux_amd64"]))

    def test_allocations(self):
        """Values into a slice take no memory, and others one piece."""
        first = file_of("first", messages_of(POST)[0])
        self.same("how many", self.told(f"load {ORDERS} prefixed=1", f"allocations {first} to.name")[1], "0 0 1")

    def pasted(self, folder, code):
        (folder / "main.go").write_text(code)
        shutil.copy(DRIVERS / "go/go.mod", folder)
        self.made("go", "mod", "edit", "-replace", f"fbcheck.dev/fbcheck={TOP}/bindings/go", folder=folder)
        self.made("go", "build", "-o", folder / "page", ".", folder=folder)
        return [folder / "page"]


class Java(Binding, LibraryCase):
    language, folder, fence = "Java", "java", "java"
    names_files = True
    jdk = jdk_of_22()
    words = ["--enable-native-access=ALL-UNNAMED", f"-Dfbcheck.library={OUT}/libfbcheck.so.1", "-Xms64m", "-Xmx64m",
             "-XX:+AlwaysPreTouch", "-cp"]
    driver = [jdk / "bin/java", *words, f"{TOP}/bindings/java/fbcheck.jar:{FOLDER}/java", "Driver"] if jdk else []
    briefly = ("-XX:TieredStopAtLevel=1", "-XX:+UseSerialGC")
    of_tools = [f"-J{word}" for word in briefly]

    @classmethod
    def missing(cls):
        return None if cls.jdk else "no JDK of 22 or later is there"

    @classmethod
    def build(cls):
        cls.made(TOP / "bindings/java/build", JAVA_HOME=str(cls.jdk))
        cls.compiled_java(DRIVERS / "Driver.java", FOLDER / "java")

    @classmethod
    def compiled_java(cls, source, folder):
        cls.made(cls.jdk / "bin/javac", *cls.of_tools, "-Xlint:all", "-Werror", "-cp",
                 TOP / "bindings/java/fbcheck.jar", "-d", folder, source)

    def test_jar(self):
        """A module that Java 22 takes, with its sources beside it; and what is told where the library isn't found."""
        jar = TOP / "bindings/java/fbcheck.jar"
        told = ran(self.jdk / "bin/javap", *self.of_tools, "-v", "-cp", jar, "fbcheck.Schema")[1]
        self.holds("its classes are of Java 22", "major version: 66" in told)
        told = ran(self.jdk / "bin/java", "-p", jar, "--describe-module", "fbcheck")[1]
        self.holds("a module", "exports fbcheck" in told, told)
        told = ran(self.jdk / "bin/jar", "tf", f"{jar.with_suffix('')}-sources.jar")[1]
        self.holds("sources", "fbcheck/Schema.java" in told, told)
        words = [word.replace(f"{OUT}", "/nowhere") if "library" in word else word for word in map(str, self.driver)]
        told = ran(*words, given=f"load {ORDERS}\n".encode())
        want = "UnsatisfiedLinkError: /nowhere/libfbcheck.so.1 can't be opened: -Dfbcheck.library=FILE"
        self.holds("no library", told[0] == 1 and want in told[2], told)

    def test_room(self):
        """A stream takes room for its messages, however long they may be."""
        told = self.told(f"load {ORDERS} prefixed=1", f"stream {STREAM} 7 7 {2 ** 31 - 1}")
        self.same("good messages", (told[1].count("ok tables="), told[1][-4:]), (5, "\nend"))

    def pasted(self, folder, code):
        (folder / "Deliveries.java").write_text(code)
        self.compiled_java(folder / "Deliveries.java", folder)
        return [self.jdk / "bin/java", *self.words, f"{TOP}/bindings/java/fbcheck.jar:{folder}", "Deliveries"]


class Times(LibraryCase):
    def test_quick(self):
        """The script that tells what a check costs, with few checks."""
        name = next((binding.language for binding in (Node, Go, Rust, Java) if not binding.missing()), None)
        if name is None:
            self.skipTest("no language's tool is there")
        status, out, _ = ran(TOP / "bench/bindings", name, "--checks", 4000, "--turns", 1, seconds=300)
        lines = [line.split()[0] for line in out.splitlines()]
        more = ["Node:"] * 5 if name == Node.language else []
        self.same("its table", (status, lines), (0, ["language", "the", name, *more]))
