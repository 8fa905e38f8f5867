"""Whole tables as dicts, in Python: beside what is read path by path, and beside what flatc says of the same bytes."""

import collections
import json
import math
import pathlib
import pickle
import signal
import struct
import subprocess
import threading
import time

from tests.support import buffers, real_defaults, schemas
from tests.support.buffers import MEMBER, MEMBERS, ORC, PLACED, PLAIN, POST, TWINS, lower_type
from tests.support.builder import Plain, buffer, messages_of
from tests.support.dicts import Told
from tests.support.every_kind import FILE, LITTLE, WHOLE
from tests.support.naive import Schema
from tests.support.program import TOP, file_of, folder_of
from tests.support.python import PythonCase
from tests.support.random_buffers import Builder, damaged
from tests.support.random_rows import Maker, Random
from tests.support.schemas import (
    INT, LONG, NONE, SHORT, TEXT, U_BYTE, U_SHORT, U_TYPE, a_struct, a_union, an_object, array, field, schema, table,
    union, vector,
)
from tests.support.threads import tried, turns_beside
from tests.support.tools import there

FOLDER = folder_of(__name__)
SAMPLES = TOP / "tests/schema_files"
ORDERS = TOP / "examples/deliveries.bfbs"
ALL = file_of("all.bfbs", FILE)
FILES = schemas.files()

# A table with all that flatc also writes as JSON: it takes no union of structs or texts, and no vector of unions.
KINDS = """
namespace k;
enum Axis : byte { X, Y = 5, Z }
struct Point { x:short; y:float; }
struct Grid { on:bool; cells:[ubyte:3]; corners:[Point:2]; axes:[Axis:2]; last:long; }
table Leaf { name:string; size:uint = 7; }
table Other { dots:[Point]; }
union Any { Leaf, Again:Other, Other }
table All {
  yes:bool; no:bool = true; i8:byte = -3; u8:ubyte; i16:short; u16:ushort = 9; i32:int; u32:uint; i64:long; u64:ulong;
  f32:float = 1.5; f64:double; maybe:int = null; perhaps:bool = null; axis:Axis = Z; text:string; point:Point;
  grid:Grid; leaf:Leaf; any:Any; more:Any; bools:[bool]; i8s:[byte]; u8s:[ubyte]; i16s:[short]; u16s:[ushort];
  i32s:[int]; u32s:[uint]; i64s:[long]; u64s:[ulong]; f32s:[float]; f64s:[double]; axes:[Axis]; texts:[string];
  points:[Point]; grids:[Grid]; leaves:[Leaf]; next:All; old:int (deprecated);
  twice:[ubyte] (nested_flatbuffer: "Leaf");
}
root_type All;
"""
AXES = {"X": 0, "Y": 5, "Z": 6}
COLOURS = {"Red": 0, "Green": 1, "Blue": 2}
ENUMS = {"axis": AXES, "axes": AXES, "colour": COLOURS, "mood": COLOURS}  # the fields that have them

# The corpora of bench/compare: how many messages, and how many parts one has.
COMPARED = TOP / "bench/comparison"
CORPORA = {"monsters": (400, 1), "movies": (2000, 1), "wide": (500, 1), "deep": (50, 60), "items": (2, 2000),
           "names": (2, 2000), "orders": (1000, 1)}

# What a process tells of a dict that needs more memory than it may have.
STARVED = """
import resource, sys
import fbcheck
schema, message = fbcheck.Schema(bytes.fromhex(sys.argv[1])), open(sys.argv[2], "rb").read()
view, told = schema.view(message), set()
len(view.to_dict()["ts"])
begun = int(open("/proc/self/statm").read().split()[0]) * resource.getpagesize()
for more in range(0, 60 << 20, 1 << 19):
    resource.setrlimit(resource.RLIMIT_AS, (begun + more, resource.RLIM_INFINITY))
    try:
        told.add(len(view.to_dict()["ts"]))
    except MemoryError:
        told.add("refused")
    resource.setrlimit(resource.RLIMIT_AS, (resource.RLIM_INFINITY,) * 2)
print(*sorted(map(str, told)))
"""

# What a process needs for dicts of a message: it tells by how many KB its memory has grown, and the seconds.
COST = """
import resource, sys, time
import fbcheck
schema, message = fbcheck.Schema(bytes.fromhex(sys.argv[1])), open(sys.argv[2], "rb").read()
schema.check(message)
before, begun = resource.getrusage(resource.RUSAGE_SELF).ru_maxrss, time.process_time()
try:
    made = schema.to_dict(message)
    print(end="made ")
except fbcheck.Overlap:
    print(end="refused ")
print(resource.getrusage(resource.RUSAGE_SELF).ru_maxrss - before, time.process_time() - begun)
"""

# table R { ts: [T]; } table T { v: [ushort]; s: string; }
ROWS = schema([table("R", field("ts", vector(an_object(1)), 4)),
               table("T", field("v", vector(U_SHORT), 4), field("s", TEXT, 6))], root="R")


def many_rows(count, to, rest):
    """By ROWS: so many tables, each with the field 0 or 1; `to` tells where the field of each leads, in the rest."""
    tables, vtables = 24 + 4 * count, 24 + 12 * count
    words = [12, 0x0008_0006, 0x0000_0004, 8, 4, count]
    words += [tables - 24 + 4 * place for place in range(count)]
    for place in range(count):
        at, number = tables + 8 * place, to(place)[0]
        words += [at - vtables - 8 * number, vtables + 16 + to(place)[1] - at - 4]
    data = struct.pack(f"<{len(words)}I", *[word % 2**32 for word in words])
    return data + struct.pack("<8H", 6, 8, 4, 0, 8, 8, 0, 4) + rest


def one_row(count, numbers):
    """By ROWS: so many offsets to one table, whose vector has so many numbers."""
    words = [12, 0x0008_0006, 0x0000_0004, 8, 4, count]
    words += [4 * (count - place) + 8 for place in range(count)]
    data = struct.pack(f"<{len(words)}I", *words) + struct.pack("<4H", 6, 8, 4, 0)
    return data + struct.pack("<3I", 8, 4, numbers) + bytes(2 * numbers)


def one_in_another(words, size):
    """So many words, each the length of a vector or text, of elements of this size, that ends before the last word."""
    return struct.pack(f"<{words}I", *[4 // size * (words - place - 2) for place in range(words - 1)], 0)


def plain(value, key=""):
    """A value of a dict as flatc writes it as JSON: what is absent isn't there."""
    if isinstance(value, dict):
        kept = {name: plain(one, name) for name, one in value.items() if one is not None}
        return {name: one for name, one in kept.items() if (name[-5:], one) != ("_type", "NONE")}
    if isinstance(value, bytes):
        return [*value]
    if isinstance(value, list):
        return [plain(one, key) for one in value]
    return {number: name for name, number in ENUMS[key].items()}[value] if key in ENUMS else value


def without_nulls(value):
    """The same of JSON, where flatc writes null for an optional number, and NONE for no member."""
    if isinstance(value, list):
        return [*map(without_nulls, value)]
    if not isinstance(value, dict):
        return value
    return {name: without_nulls(one) for name, one in value.items()
            if one is not None and (name[-5:], one) != ("_type", "NONE")}


def is_near(got, want):
    """Whether values are the same, but for the digits that a float has in JSON."""
    if isinstance(got, dict):
        return isinstance(want, dict) and got.keys() == want.keys() and all(is_near(got[key], want[key]) for key in got)
    if isinstance(got, list):
        return isinstance(want, list) and len(got) == len(want) and all(map(is_near, got, want))
    if isinstance(got, float):
        return math.isclose(got, want, rel_tol=1e-5, abs_tol=1e-6)
    return type(got) is type(want) and got == want


class Documents:
    """JSON by KINDS at random."""

    def __init__(self, dice):
        self.dice = dice

    def number(self, bits, signed):
        number = self.dice.getrandbits(bits) >> self.dice.below(bits)
        return number - 2 ** (bits - 1) if signed else number

    def real(self):
        return self.dice.below(4096) / 8 - 100

    def list(self, make):
        return [make() for _ in range(self.dice.below(5))]

    def text(self):
        return "".join(self.list(lambda: self.dice.choice([*"ab\"\\\n", "é", "漢", "🙂"])))

    def axis(self):
        return self.dice.choice([*AXES])

    def point(self):
        return {"x": self.number(16, True), "y": self.real()}

    def grid(self):
        return {"on": self.dice.once_in(2), "cells": [self.number(8, False) for _ in range(3)],
                "corners": [self.point(), self.point()], "axes": [self.axis(), self.axis()],
                "last": self.number(64, True)}

    def leaf(self):
        return self.some({"name": self.text, "size": lambda: self.number(32, False)})

    def some(self, makers):
        return {name: make() for name, make in makers.items() if self.dice.once_in(2)}

    def member(self, name, into):
        if self.dice.once_in(2):
            kind = into[f"{name}_type"] = self.dice.choice(["Leaf", "Again", "Other"])
            into[name] = self.leaf() if kind == "Leaf" else self.some({"dots": lambda: self.list(self.point)})

    def all(self, depth=4):
        numbers = {f"{'iu'[not signed]}{bits}": (lambda bits=bits, signed=signed: self.number(bits, signed))
                   for bits in (8, 16, 32, 64) for signed in (True, False)}
        numbers |= {"f32": self.real, "f64": self.real}
        one = {**numbers, "yes": lambda: True, "no": lambda: False, "maybe": numbers["i32"], "perhaps": lambda: False,
               "axis": self.axis, "text": self.text, "point": self.point, "grid": self.grid, "leaf": self.leaf}
        several = {**numbers, "bool": lambda: self.dice.once_in(2), "text": self.text, "point": self.point,
                   "grid": self.grid}
        made = self.some(one | {f"{name}s": (lambda make=make: self.list(make)) for name, make in several.items()}
                         | {"axes": lambda: self.list(self.axis), "leaves": lambda: self.list(self.leaf)})
        self.member("any", made)
        self.member("more", made)
        if depth and self.dice.once_in(2):
            made["next"] = self.all(depth - 1)
        return made


class Dicts(PythonCase):
    def by(self, name, **options):
        """A schema of the tests by its name, or any file's."""
        return self.module.Schema(FILES.get(name, name), **options)

    def test_every_kind(self):
        """A field of every kind, as it was worked out by hand."""
        place, deep = {"x": 1, "y": -2, "z": 3}, {"v": 6, "next": None}
        below = {"v": 5, "next": {"v": 0, "next": deep}}
        wide, none = {"x": 0, "y": 0}, {"v": 0, "next": None}
        whole = {
            "yes": True, "least": -1, "short": 300, "long": 7, "real": 1.5, "place": place, "name": "name",
            "below": below, "bytes": b"abc", "longs": [1, 2], "places": [place, place], "texts": ["one", "", "three"],
            "tables": [below, none], "one_type": "Wide", "one": wide,
            "many_type": ["Below", "Place", "Text", "NONE", 200, "Wide"],
            "many": [below, place, "text", None, None, wide], "last": 9,
        }
        little = dict.fromkeys(whole) | {
            "yes": True, "least": -5, "short": 7, "long": None, "real": 0.0, "name": "", "one_type": "Text",
            "one": "one", "many_type": [], "many": [], "last": 70_000,
        }
        for name, root, want in [("whole", WHOLE, whole), ("little", LITTLE, little)]:
            for prefix in (False, True):
                data = buffer(root, b"KIND", prefix=prefix)
                checker = self.by(ALL, prefixed=prefix)
                for kind in (bytes, bytearray, memoryview):
                    self.same(f"{name}: {kind.__name__}", repr(checker.to_dict(kind(data))), repr(want))
                view = checker.view(data)
                self.same(f"{name}: of a view", (view.to_dict(), view.to_dict("")), (want, want))
                for path, part in [("below", want["below"]), ("place", want["place"]), ("below.next", (
                        want["below"] or {}).get("next")), ("one@Wide", want["one"] if name == "whole" else None),
                        ("one@Place", None), ("tables[9]", None), ("many[4]@Below", None)]:
                    for to in (path, checker.path(path)):
                        self.same(f"{name}: at {path}", view.to_dict(to), part)
        view = self.by(ALL).view(buffer(WHOLE, b"KIND"))
        for path, part in [("tables[0].next", below["next"]), ("many[0]@Below", below), ("many[1]@Place", place),
                           ("many[5]@Wide", wide), ("places[1]", place), ("many[0]@Below.next.next", deep)]:
            self.same(f"at {path}", view.to_dict(path), part)

    def test_unions(self):
        """A table, a struct and a text as the value; an absent one, and a type that isn't known."""
        for name, data, want, *root in [
            ("a table", MEMBER, {"u_type": "A", "u": {"v": 5}}, "R"),
            ("a struct", PLACED, {"u_type": "W", "u": {"x": 7}}, "R"),
            ("nothing", PLAIN, {"u_type": "NONE", "u": None}, "R"),
            ("an unknown type", lower_type(9), {"u_type": 9, "u": None}, "R"),
            ("no type", lower_type(0), {"u_type": "NONE", "u": None}, "R"),
            ("a vector", MEMBERS, {"us_type": ["T", "NONE"], "us": ["hi", None]}),
            ("no vector", PLAIN, {"us_type": None, "us": None}),
        ]:
            checker = self.by("X", root=root[0] if root else None, alignment=False)
            self.same(name, checker.to_dict(data), want)
        nameless = schema([table("R", field("u_type", U_TYPE, 4), field("u", a_union(0), 6))],
                          [union("U", ("T", 3, TEXT))], root="R")
        self.same("no member for 0", self.module.Schema(nameless).to_dict(PLAIN), {"u_type": 0, "u": None})
        types = schema([table("R", field("us_type", vector(U_TYPE), 4), field("us", vector(a_union(0)), 6),
                              field("lone", vector(U_TYPE), 8), field("t", U_TYPE, 10))],
                       [union("U", ("NONE", 0, NONE), ("T", 3, TEXT))], root="R")
        got = self.module.Schema(types).to_dict(buffer({0: Plain(b"\3\0", 1, 2), 2: Plain(b"\3", 1, 1)}))
        self.same("types without values, and of no union", got, {"us_type": ["T", "NONE"], "us": None, "lone": [3],
                                                                 "t": 0})

    def test_structs(self):
        """Arrays and structs in structs, as deep as one likes."""
        inner = a_struct("In", 4, 2, field("a", SHORT, 0), field("b", U_BYTE, 2))
        outer = a_struct("Out", 24, 8, field("l", LONG, 0), field("bytes", array(U_BYTE, 3), 8),
                         field("in", an_object(0), 12), field("ins", array(an_object(0), 2), 16))
        file = schema([inner, outer, table("T", field("o", an_object(1), 4), field("os", vector(an_object(1)), 6))],
                      root="T")
        data = struct.pack("<q3sxhBxhBxhBx", -1, b"abc", 1, 2, 3, 4, 5, 6)
        want = {"l": -1, "bytes": [97, 98, 99], "in": {"a": 1, "b": 2}, "ins": [{"a": 3, "b": 4}, {"a": 5, "b": 6}]}
        message = buffer({0: ("24s", data), 1: Plain(data * 2, 8, 2)})
        view = self.module.Schema(file, alignment=False).view(message)
        self.same("all", view.to_dict(), {"o": want, "os": [want, want]})
        self.same("parts", [view.to_dict(path) for path in ("o.in", "o.ins[1]", "os[1].ins[0]", "os[1]", "o.ins[2]")],
                  [want["in"], want["ins"][1], want["ins"][0], want, None])
        for path in ("o.bytes", "o.bytes[1]", "o.l", "os"):
            self.fails(f"at {path}", self.module.PathError, "a table or a struct", lambda: view.to_dict(path))
        count = 5000
        chain = [a_struct("S0", 1, 1, field("v", U_BYTE, 0))]
        chain += [a_struct(f"S{at}", 1, 1, field("s", an_object(at - 1), 0)) for at in range(1, count)]
        file = schema([*chain, table("T", field("s", an_object(count - 1), 4))], root="T")
        got, depth = self.module.Schema(file).to_dict(buffer({0: ("B", 9)}))["s"], 0
        while "s" in got:
            got, depth = got["s"], depth + 1
        self.same("5,000 structs one in another", (depth, got), (count - 1, {"v": 9}))

    def test_structs_without_end(self):
        """Of what no flatc writes no dict is made, since it might never end."""
        of, holder = self.module, lambda *structs: schema([*structs, table("T", field("s", an_object(0), 4))], root="T")
        for name, file, words in [
            ("a struct in itself", holder(a_struct("S", 4, 4, field("s", an_object(0), 0))), "S: it is in itself"),
            ("by another", holder(a_struct("S", 4, 4, field("r", array(an_object(1), 1), 0)),
                                  a_struct("R", 4, 4, field("s", an_object(0), 0))), ": it is in itself"),
            ("twice the same bytes", holder(
                a_struct("S", 4, 4, field("r", an_object(1), 0), field("q", an_object(1), 0)),
                a_struct("R", 4, 4, field("x", INT, 0))), "S: the field "),
        ]:
            checker = of.Schema(file)
            self.same(f"{name}: a check", bool(checker.check(buffer({0: ("i", 1)}))), True)
            for call in (checker.to_dict, lambda message: checker.view(message).to_dict()):
                self.fails(name, of.SchemaError, words, lambda: call(buffer({0: ("i", 1)})))

    def test_beside_reads(self):
        """Random buffers of random schemas, some of them damaged: each value is what is read at its path."""
        counts, wrong = collections.Counter(), []
        for seed in range(300, 306):
            dice = Random(seed)
            for _ in range(60):
                tables = []
                while not tables:
                    objects, enums = Maker(dice, 0).rows()
                    rows = Schema(objects, enums)
                    tables = [number for number, fields in enumerate(rows.tables) if fields is not None]
                root, prefix = dice.choice(tables), dice.once_in(3)
                checker = self.module.Schema(schemas.schema(objects, enums), root=rows.names[root], prefixed=prefix,
                                             alignment=dice.once_in(2))
                for _ in range(40):
                    data = damaged(dice, Builder(dice, rows).built(root, prefix, None))
                    if not checker.check(data):
                        continue
                    try:
                        got = checker.to_dict(data)
                    except self.module.SchemaError:
                        counts["structs that overlap"] += 1
                        break
                    view = checker.view(data)
                    want = Told(self.module, rows, enums, view.read).table(root)
                    counts["good"] += 1
                    if repr(got) != repr(want) or repr(view.to_dict()) != repr(want):
                        wrong.append((got, want, data))
        self.same("dicts that differ from what is read", wrong[:3], [])
        self.holds("many are good", counts["good"] > 3000, counts)

    def test_beside_flatc(self):
        """Documents at random: what flatc writes of its own buffers is what the dicts have."""
        if not there("flatc"):
            self.skipTest("flatc isn't there")
        (FOLDER / "kinds.fbs").write_text(KINDS)
        documents = Documents(Random(5))
        names = [f"{number}.json" for number in range(150)]
        for name in names:
            (FOLDER / name).write_text(json.dumps(documents.all()))
        words = {"capture_output": True, "text": True, "cwd": FOLDER, "timeout": 60}
        again = ["flatc", "--json", "--strict-json", "--defaults-json", "--raw-binary", "-o", "again", "kinds.fbs",
                 "--"]
        for command in (["flatc", "-b", "--schema", "kinds.fbs"], ["flatc", "-b", "kinds.fbs", *names],
                        [*again, *(name.replace(".json", ".bin") for name in names)]):
            told = subprocess.run(command, **words)
            self.same(f"flatc {command[1]}", (told.returncode, told.stdout), (0, ""))
        checker, wrong, seen = self.by(FOLDER / "kinds.bfbs"), [], collections.Counter()
        for name in names:
            got = checker.to_dict((FOLDER / name).with_suffix(".bin").read_bytes())
            want = json.loads((FOLDER / "again" / name).read_text())
            seen.update(name for name, value in got.items() if value is not None)
            if plain(got) != without_nulls(want):
                wrong.append((plain(got), want))
        self.same("those that differ", wrong[:2], [])
        few = [name for name in got if seen[name] < 10]
        self.same("all fields but one are often there", few, ["twice"])

    def test_corpora(self):
        """The messages of bench/compare: what FlatBuffers for C++ writes of them is what their dicts have."""
        if not (there("flatc") and there("g++") and pathlib.Path("/usr/include/flatbuffers/idl.h").exists()):
            self.skipTest("flatc, g++ or the headers of flatbuffers aren't there")
        compile = ["g++", "-std=c++17", f"-I{FOLDER}", f"-I{COMPARED}"]
        commands = [["flatc", *words, "-o", FOLDER, COMPARED / f"{name}.fbs"]
                    for name in CORPORA for words in (["--cpp"], ["--binary", "--schema"])]
        commands += [[*compile, COMPARED / "make_messages.cpp", "-o", FOLDER / "make_messages"],
                     [*compile, TOP / "tests/bindings/python/as_json.cpp", "-o", FOLDER / "as_json",
                      "-l:libflatbuffers.a"]]
        for command in commands:
            self.assertEqual(subprocess.run(command, capture_output=True).returncode, 0, command)
        for name, sizes in CORPORA.items():
            stream = FOLDER / f"{name}.bin"
            stream.write_bytes(subprocess.check_output([FOLDER / "make_messages", name, *map(str, sizes)]))
            told = subprocess.check_output([FOLDER / "as_json", COMPARED / f"{name}.fbs", stream]).splitlines()
            want = [without_nulls(json.loads(line)) for line in told]
            checker = self.by(FOLDER / f"{name}.bfbs", prefixed=True)
            got = [plain(view.to_dict()) for _, _, view in checker.messages(stream.read_bytes(), views=True)]
            self.same(f"{name}: their number", (len(got), len(want)), (sizes[0],) * 2)
            self.same(f"{name}: those that differ", [pair for pair in zip(got, want) if not is_near(*pair)][:1], [])

    def test_schema_files(self):
        """Schema files are messages too: what flatc lists of them is what their dicts have."""
        checker = self.by(SAMPLES / "listing.bfbs")
        for file in sorted(SAMPLES.glob("*.bfbs")):
            got = checker.to_dict(file.read_bytes())
            for field in [field for row in got["objects"] for field in row["fields"]]:
                if field["default_real"] == 0:
                    del field["default_real"]  # as the listings leave it out
            self.same(file.stem, plain(got), without_nulls(json.loads(file.with_suffix(".json").read_text())))

    def test_defaults(self):
        """Absent floats have the defaults that are read."""
        checker = self.module.Schema(real_defaults.FILE)
        got = checker.to_dict(real_defaults.MESSAGE)
        for path, _, _, want in real_defaults.VALUES:
            if path in got:
                self.same(path, repr(got[path]), repr(want))
        deprecated = schema([table("T", field("a", INT, 4, deprecated=True), field("b", INT, 6, 3))], root="T")
        self.same("without deprecated ones", self.module.Schema(deprecated).to_dict(buffer({0: ("i", 1)})), {"b": 3})
        empty = schema([table("T", field("s", TEXT, 4, required=True), field("i", INT, 6, optional=True))], root="T")
        self.same("a required one", self.module.Schema(empty).to_dict(buffer({0: "x"})), {"s": "x", "i": None})
        odd = self.module.Schema(schema([table("T", field("s", TEXT, 4))], root="T")).to_dict(buffer({0: b"a\xff"}))
        self.same("a text that isn't UTF-8", odd["s"].encode("utf-8", "surrogateescape"), b"a\xff")

    def test_what_is_shared(self):
        """What several offsets lead to is one object; what isn't shared, isn't."""
        got = self.by("NODE").to_dict(TWINS)
        self.same("twins", (got["a"] is got["b"], got["a"]["a"] is got["b"]["b"]), (True, True))
        got = self.by("NODE").to_dict(buffer({0: {0: {}}, 1: {0: {}}}))
        self.same("no twins", (got["a"] == got["b"], got["a"] is got["b"]), (True, False))
        got = self.by("NODE", max_tables=2**32 - 1, max_reads=2**64 - 1, reads_per_byte=2**32 - 1).view(
            buffers.doubling(20)).to_dict()
        self.same("2^20 ways", (got["a"] is got["b"], got["a"]["a"] is got["b"]["b"]), (True, True))
        orders = self.by(ORDERS, prefixed=True)
        first, second = (orders.to_dict(messages_of(POST)[0]) for _ in range(2))
        self.same("two dicts", (first == second, first is second, first["to"] is second["to"]), (True, False, False))
        first["id"], first["to"]["name"] = 7, "Eve"
        self.same("one is changed", (second["id"], orders.to_dict(messages_of(POST)[0])["to"]["name"]), (1, "Ada"))

    def cost(self, name, data):
        """What a dict costs: whether it is made, the KB and the seconds."""
        status, out, err = self.alone(COST, ROWS.hex(), file_of(name, data))
        self.same(f"{name}: it ends", (status, err), (0, ""))
        made, kilobytes, seconds = out.split()
        return made, int(kilobytes), float(seconds)

    def test_hostile(self):
        """A dict takes memory and time in proportion to the message, whatever its offsets lead to."""
        for count in (1, 2, 4):
            made, kilobytes, seconds = self.cost(f"one table {count}", one_row(65_000 * count, 130_000 * count))
            self.same(f"{count} times 65,000 tables that are one", made, "made")
            self.holds("at most 32 times the message", kilobytes < 32 * 520 * count, kilobytes)
            self.holds("in less than a second", seconds < 1, seconds)
        for number, size in [(0, 2), (1, 1)]:
            data = many_rows(40_000, lambda place: (number, 4 * place), one_in_another(100_000, size))
            made, kilobytes, seconds = self.cost(f"in {number}", data)
            self.same(f"40,000 vectors or texts, one in another: {number}", made, "refused")
            self.holds("at most 100 MB", kilobytes < 100_000, kilobytes)
            self.holds("in less than two seconds", seconds < 2, seconds)
        apart = many_rows(1000, lambda place: (0, 8 * place), struct.pack("<2I", 2, 0x20001) * 1000)
        got = self.module.Schema(ROWS).to_dict(apart)["ts"]
        self.same("parts that lie apart", (len(got), got[-1]), (1000, {"v": [1, 2], "s": None}))
        error = self.fails("one in another", self.module.Overlap, "overlap, and are longer than four messages",
                           lambda: self.module.Schema(ROWS).to_dict(data))
        self.same("pickled", str(pickle.loads(pickle.dumps(error))), str(error))

    def test_places(self):
        """100,000 tables, each with a vector of its own, take four times as long as 25,000."""
        checker, seconds = self.module.Schema(ROWS), {}
        for count in (25_000, 100_000):
            view = checker.view(many_rows(count, lambda place: (0, 8 * place), struct.pack("<2I", 2, 7) * count))
            seconds[count] = min(self.seconds(view.to_dict) for _ in range(5))
        self.holds("in proportion", seconds[100_000] < 10 * seconds[25_000] + 0.05, seconds)

    def seconds(self, call):
        begun = time.process_time()
        call()
        return time.process_time() - begun

    def test_depth(self):
        """As deep as a check goes, on a small stack too."""
        checker, depths = self.by("CHAIN", max_depth=4096), []

        def measure():
            got, depth = checker.to_dict(buffers.levels(4096)), 0
            while got is not None:
                got, depth = got["next"], depth + 1
            depths.append(depth)
            checker.to_dict(buffers.levels(4096))  # which is dropped at once

        measure()
        before = threading.stack_size(1 << 16)
        thread = threading.Thread(target=measure)
        thread.start()
        thread.join()
        threading.stack_size(before)
        self.same("tables one in another", depths, [4096, 4096])
        self.fails("a table more", self.module.BadBuffer, "V6", lambda: checker.to_dict(buffers.levels(4097)))

    def test_what_is_refused(self):
        of, orders = self.module, self.by(ORDERS, prefixed=True)
        messages = messages_of(POST)
        error = self.fails("a bad message", of.BadBuffer, "V10", lambda: orders.to_dict(messages[4]))
        self.same("its verdict", error.verdict, orders.check(messages[4]))
        self.same("by its own root and others", [*self.by("X", root="R").to_dict(MEMBER)], ["u_type", "u"])
        twice = self.by("M")
        for name, other in [("the same", twice), ("replaced", twice.replace(max_reads=99)),
                            ("pickled", pickle.loads(pickle.dumps(twice)))]:
            self.same(name, other.to_dict(ORC), {"hp": 300, "name": "Orc"})
        for name, options in [("strict", {"strict": True}), ("utf8", {"utf8": True, "known_fields": True})]:
            self.same(name, self.by("M", **options).to_dict(ORC), {"hp": 300, "name": "Orc"})
        self.holds("errors of the package", issubclass(of.Overlap, (of.Error, ValueError)))

    def test_memory_that_is_refused(self):
        data = many_rows(100_000, lambda place: (0, 8 * place), struct.pack("<2I", 2, 7) * 100_000)
        told = self.alone(STARVED, ROWS.hex(), file_of("starved", data))
        self.same("all or nothing", told, (0, "100000 refused\n", ""))

    def test_others_run_meanwhile(self):
        """While a dict is made, another thread does its work, and a signal ends it."""
        data = many_rows(400_000, lambda place: (0, 8 * place), struct.pack("<2I", 2, 7) * 400_000)
        view = self.module.Schema(ROWS).view(data)
        told = tried(lambda: turns_beside(view.to_dict), lambda turns: turns > 10)
        self.holds("turns of the other thread", told[-1] > 10, told)
        before = signal.signal(signal.SIGALRM, lambda *_: 1 / 0)
        try:
            signal.setitimer(signal.ITIMER_REAL, 0.02)
            self.fails("a signal", ZeroDivisionError, "", view.to_dict)
        finally:
            signal.setitimer(signal.ITIMER_REAL, 0)
            signal.signal(signal.SIGALRM, before)
