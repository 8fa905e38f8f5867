"""Columns of a stream, and values with its messages, in Python: what read() tells of each message, by one check."""

import array
import asyncio
import copy
import io
import itertools
import math
import os
import pickle
import re
import signal
import struct
import subprocess
import sys
import time
import timeit

from tests.support import buffers, real_defaults, schemas
from tests.support.buffers import ORC, PLAIN, POST, named
from tests.support.builder import Plain, buffer, prefixed
from tests.support.every_kind import FILE, LITTLE, WHOLE, variants
from tests.support.library import LibraryCase, ran
from tests.support.program import TOP, file_of
from tests.support.python import package
from tests.support.schemas import (
    BOOL, BYTE, DOUBLE, FLOAT, INT, LONG, SHORT, TEXT, U_BYTE, U_INT, U_LONG, U_SHORT, U_TYPE, a_union, an_object,
    field, schema, table, union, vector,
)
from tests.support.threads import on_eight, tried, turns_beside

BINDING = TOP / "bindings/python"
ORDERS = TOP / "examples/deliveries.bfbs"
ALL = file_of("all.bfbs", FILE)
FILES = schemas.files()
NUMBERS = [("yes", BOOL, "?"), ("byte", BYTE, "b"), ("u_byte", U_BYTE, "B"), ("short", SHORT, "h"),
           ("u_short", U_SHORT, "H"), ("int", INT, "i"), ("u_int", U_INT, "I"), ("long", LONG, "q"),
           ("u_long", U_LONG, "Q"), ("float", FLOAT, "f"), ("double", DOUBLE, "d")]

# Paths to all that has columns: of streams by the schema with a field of every kind, and of the example's.
PATHS = ["yes", "least", "short", "long", "real", "place", "place.x", "name", "below.v", "below.next.v", "bytes",
         "longs", "longs[1]", "places", "places[1].y", "texts", "texts[2]", "tables", "tables[0].v", "one_type",
         "one@Wide", "one@Wide.x", "one@Text", "many_type", "many", "many_type[4]", "many[0]@Below.v", "many[1]@Place",
         "many[2]@Text", "many[5]@Wide.y", "last"]
OF_ORDERS = ["id", "to.name", "to.age", "to.home", "to.home.x", "items", "items_type", "items[1]@Note", "route",
             "route[1].y", "stamps", "stamps[1]", "notes", "price", "floor", "first@Letter.pages", "first@Place.y",
             "items[0]@Parcel.fragile", "items[0]@Parcel.box.weight"]

# What a process of its own does many times over; it tells by how many KB its memory has grown meanwhile.
LEAKS = """
import pickle, resource, sys
import fbcheck
file, message, nameless = (bytes.fromhex(word) for word in sys.argv[1:])
schema, bad = fbcheck.Schema(file, prefixed=True), (9).to_bytes(4, "little") + bytes(9)
some, many = message + nameless, (message + nameless) * 500
def pieces():
    yield many
    raise KeyError
def each(number):
    columns = schema.columns((many + bad) * 2, ("name", "hp", schema.path("hp")), bad="skip")
    memoryview(columns[1]), columns[0].data, columns[1].data, columns[0][1], pickle.loads(pickle.dumps(columns))
    list(schema.columns(some, ("name",))[0])
    for stream in (many + bad, many + some[:-1], many + bytes([255] * 4), pieces(), [many, "text"], [bad * 500, 5]):
        for left_out in ("raise", "skip"):
            try:
                schema.columns(stream, ("name", "hp"), bad=left_out)
            except (fbcheck.Error, TypeError, KeyError):
                pass
    list(schema.messages(some + bad, paths=("name", "hp")))
    for going in (schema.messages(some + bad), schema.messages([some, some + bad, "text"])):
        next(going)
        try:
            schema.columns(going, ("name",), bad="skip")["name"].mask()
            next(going)
        except (StopIteration, TypeError):
            pass
def peak(times):
    for number in range(times):
        each(number)
    return resource.getrusage(resource.RUSAGE_SELF).ru_maxrss
first = peak(200)
print(peak(3000) - first)
"""

# What is told where memory is refused, wherever that is.
STARVED = """
import resource, sys
import fbcheck
file, message = (bytes.fromhex(word) for word in sys.argv[1:])
schema, stream = fbcheck.Schema(file, prefixed=True), message * 400_000
begun = int(open("/proc/self/statm").read().split()[0]) * resource.getpagesize()
told = set()
for more in range(0, 80 << 20, 1 << 20):
    resource.setrlimit(resource.RLIMIT_AS, (begun + more, resource.RLIM_INFINITY))
    try:
        told.add(len(schema.columns(stream, ("name", "hp", "name"), max_bytes=1 << 20)[0]))
    except MemoryError:
        told.add("refused")
    resource.setrlimit(resource.RLIMIT_AS, (resource.RLIM_INFINITY,) * 2)
print(*sorted(map(str, told)))
"""

# What a process reads of a stream in which another one has an offset lead outside and back, over and over.
WRITTEN = """
import mmap, os, sys, time
import fbcheck
file, message = (bytes.fromhex(word) for word in sys.argv[1:3])
at, begun, seen = int(sys.argv[3]), time.monotonic(), set()
schema, shared = fbcheck.Schema(file, prefixed=True), memoryview(mmap.mmap(-1, 100 * len(message)))
shared[:] = message * 100
parent = os.getpid()
if os.fork() == 0:
    while os.getppid() == parent:
        for word in (b"\\0\\xff\\xff\\x7f", message[at:at + 4]) * 1000:
            for place in range(at, len(shared), len(message)):
                shared[place:place + 4] = word
    os._exit(0)
# For a second at least; the writer may have to wait for its turn.
while time.monotonic() < begun + (1 if len(seen) > 1 else 30):
    for _ in range(100):
        columns = schema.columns(shared, ("name",), bad="skip")
        seen |= {*columns[0], *(verdict.reason for verdict in columns.verdicts)}
print(*sorted(map(str, seen)), sep="; ")
"""

# What numpy makes of columns.
IN_NUMPY = """
import sys
import fbcheck, numpy
schema = fbcheck.Schema(sys.argv[1], prefixed=True)
columns = schema.columns(open(sys.argv[2], "rb"), ("id", "price", "floor", "to.age", "to.name", "stamps"), bad="skip")
ids, prices, floors, ages, names, stamps = columns
for column in (ids, prices, floors, ages, columns.skipped):
    made, again = numpy.asarray(column), numpy.asarray(column)
    print(made.dtype, made.tolist(), numpy.shares_memory(made, again), made.flags.writeable)
valid = numpy.asarray(floors.valid)
print(valid.dtype, valid.tolist(), numpy.asarray(floors)[valid].tolist(), numpy.packbits(valid, bitorder="little"))
numbers, offsets = numpy.asarray(stamps.data), numpy.asarray(stamps.offsets)
print(numbers.dtype, numbers.tolist(), offsets.dtype, offsets.tolist())
print(numpy.asarray(names).tolist(), numpy.asarray(names.data).dtype, ages.valid)
values = schema.read(next(schema.messages(open(sys.argv[2], "rb")))[0], "items", "to", "first")
print([type(value).__name__ for value in numpy.array(values, dtype=object)])
first = numpy.asarray(ids)
del schema, columns, ids
print(first.tolist())
"""
OF_NUMPY = """uint64 [1, 18446744073709551615, 3, 4, 5] True False
float32 [2.5, 0.0, 0.0, -0.5, 0.0] True False
int32 [0, 0, 0, 12, 0] True False
int16 [36, -1, -1, 71, -1] True False
uint64 [5] True False
bool [True, False, False, True, False] [0, 12] [9]
int16 [100, -5, 32767] int64 [0, 3, 3, 3, 3, 3]
['Ada', 'Eve', 'Fay', 'Gus', 'Hal'] uint8 None
['Vector', 'Table', 'Union']
[1, 18446744073709551615, 3, 4, 5]
"""


def message(root):
    """A message with this root table."""
    return buffer(root, prefix=True)


def streams():
    """Streams of good and damaged messages, with the schema file and options, and the paths that are read."""
    for root in (WHOLE, LITTLE):
        data = buffer(root, b"KIND", prefix=True)[4:]
        given = b"".join(map(prefixed, variants(data, [1, 4, 252])))
        for options in ({}, {"max_depth": 2}, {"alignment": False}, {"max_depth": 100}):
            yield f"{len(data)} bytes, {options}", ALL, options, given, PATHS
    yield "deliveries", ORDERS, {}, POST, OF_ORDERS
    yield "another root", ORDERS, {"root": "post.Person"}, POST, ["name", "age", "home.y"]


class Columns(LibraryCase):
    @classmethod
    def setUpClass(cls):
        super().setUpClass()
        cls.folder = package()
        sys.path.insert(0, str(cls.folder))
        import fbcheck
        cls.module = fbcheck

    def by(self, name, **options):
        """A schema of the tests by its name, or any file's, for streams."""
        return self.module.Schema(FILES.get(name, name), prefixed=True, **options)

    def plain(self, value):
        """A value of read() as a column has it, where a view is what it shows."""
        if isinstance(value, self.module.Vector):
            return value.count
        if isinstance(value, memoryview):
            return bytes(value) if value.format == "B" else (value.format, value.tolist())
        return repr(value) if isinstance(value, float) else value

    def listed(self, column):
        return [self.plain(value) for value in column]

    def fails(self, name, kind, text, call):
        """The call ends by this exception, whose text has these words."""
        try:
            got = call()
        except Exception as error:
            got = error
        self.holds(name, type(got) is kind and text in str(got), (type(got), str(got)))
        return got

    def alone(self, script, *words, python=sys.executable):
        """What a process of its own writes that runs this script with the package."""
        return ran(python, "-B", "-c", script, *words, PYTHONPATH=str(self.folder), seconds=300)

    def test_beside_read(self):
        """The values that read() has of each good message, and the verdicts of messages(), of 10,000 messages."""
        count = bad = 0
        for name, file, options, given, paths in streams():
            checker = self.by(file, **options)
            told = [*checker.messages(given)]
            good = [message for message, verdict in told if verdict]
            faults = [(number, verdict) for number, (_, verdict) in enumerate(told, 1) if not verdict]
            columns = checker.columns(given, paths, bad="skip")
            values = [checker.read(message, *paths) for message in good]
            for at, path in enumerate(paths):
                want = [self.plain(row[at]) for row in values]
                self.same(f"{name}: {path}", self.listed(columns[at]), want)
            self.same(f"{name}: numbers of bad ones", [*columns.skipped], [number for number, _ in faults])
            self.same(f"{name}: verdicts", [*columns.verdicts], [verdict for _, verdict in faults[:1000]])
            self.same(f"{name}: reasons", [*columns.reasons], [verdict.reason for _, verdict in faults])
            starts = [0, *itertools.accumulate(len(message) for message, _ in told)]
            self.same(f"{name}: where good ones begin", [*columns.starts],
                      [start for start, (_, verdict) in zip(starts, told) if verdict])
            self.same(f"{name}: where bad ones begin", [*columns.skipped_starts],
                      [starts[number - 1] for number, _ in faults])
            rows = [[self.plain(value) for value in row] for row in values]
            got = [*checker.messages(given, paths=paths)]
            self.same(f"{name}: messages with values", [one[:2] for one in got], told)
            of_good = [[self.plain(value) for value in row] for _, verdict, row in got if verdict]
            self.same(f"{name}: their values", of_good, rows)
            self.same(f"{name}: none of bad ones", {row for _, verdict, row in got if not verdict} - {()}, set())
            count, bad = count + len(told), bad + len(faults)
        many = count > 10_000 and 2000 < bad < count
        self.holds("more than 10,000 messages, of which many are bad", many, (count, bad))

    def test_streams(self):
        """The same columns however a stream is cut and handed over; some pieces are long."""
        checker, paths = self.by(ORDERS), [*OF_ORDERS]
        want = [*map(self.listed, checker.columns(POST, paths, bad="skip"))]
        pieces = lambda size: [POST[at:at + size] for at in range(0, len(POST), size)]
        forms = {f"pieces of {size}": pieces(size) for size in [*range(1, 100), 512, len(POST)]}
        forms |= {"a bytearray": bytearray(POST), "a view": memoryview(POST), "an array": array.array("B", POST),
                  "a file": io.BytesIO(POST), "a bare file": io.FileIO(TOP / "examples/deliveries.bin"),
                  "with empty pieces": [b"", *pieces(7), bytearray()], "a generator": (one for one in pieces(9)),
                  "pieces that may be written": [*map(bytearray, pieces(11))]}
        for name, stream in forms.items():
            columns = checker.columns(stream, iter(paths), bad="skip")
            self.same(name, ([*map(self.listed, columns)], [*columns.skipped]), (want, [5]))
        forms["a bare file"].close()
        empty = checker.columns(b"", paths)
        self.same("no message", [*map(list, empty)], [[]] * len(paths))
        self.same("no message: what is kept", {(len(one.offsets), len(one.data), one.valid) for one in empty
                                               if isinstance(one, self.module.Slices)}, {(1, 0, None)})
        none = checker.columns(POST, (), bad="skip"), next(checker.messages(POST, paths=[]))[2]
        self.same("no path", none, ((), ()))
        one, by_m = prefixed(named(300, prefix=False)), self.by("M")
        for kind in (bytes, bytearray):
            names, = by_m.columns(kind(one * 20_000), ["name"])
            self.same(f"6 MB in one {kind.__name__}", (len(names), {*names}), (20_000, {by_m.read(one, "name")}))
        names, = by_m.columns([named(3_000_000), named(9_000_000)] * 2, ["name"])
        self.same("messages of megabytes", [len(name) for name in names], [2999967, 8999967] * 2)

    def test_what_was_read_ahead(self):
        """Columns go on where the iterator stands that messages() returned, which holds what was read ahead."""
        of, checker = self.module, self.by("M")
        whole, bad = prefixed(ORC), prefixed(ORC[:-1])
        given = whole * 3 + bad + whole * 2
        files = {"a file": lambda: io.BytesIO(given), "bytes": lambda: given,
                 **{f"pieces of {size}": lambda size=size: [given[at:at + size] for at in range(0, len(given), size)]
                    for size in (1, 7, 35, 50)}}
        for name, stream in files.items():
            for before in range(7):
                messages = checker.messages(stream())
                for _ in itertools.islice(messages, before):
                    pass
                columns = checker.columns(messages, ("hp", "name"), bad="skip")
                want = [(at * 36 - (at > 3), at != 3) for at in range(before, 6)]
                told = [*columns["hp"]], [*columns.starts], [*columns.skipped], [*columns.skipped_starts]
                self.same(f"{name}, behind {before}", told, (
                    [300] * sum(good for _, good in want), [start for start, good in want if good],
                    [4] * (before < 4), [108] * (before < 4)))
                self.same("and then the end", ([*messages], len(checker.columns(messages, ("hp",))[0])), ([], 0))
            messages = checker.messages(stream(), paths=("hp",))
            error = self.fails(f"{name}: a bad one", of.BadBuffer, "message 4: bad V2",
                               lambda: checker.columns(messages, ("hp",)))
            self.same("what came before", [*error.columns["hp"]], [300] * 3)
            self.same("and it goes on behind it", (next(messages)[2], [*checker.columns(messages, ("hp",))[0]]),
                      ((300,), [300]))
        with open(file_of("ahead.bin", given), "rb") as file:
            messages = checker.messages(file)
            next(messages)
            self.same("others find nothing", len(checker.columns(file, ("hp",))[0]), 0)
            self.same("it has the rest", [*checker.columns((one for one, _ in messages), ("hp",), bad="skip")[0]],
                      [300] * 4)
        messages = checker.messages(given + whole[:9], max_bytes=36)
        self.fails("another limit", ValueError, "36 of this iterator", lambda: checker.columns(
            messages, ("hp",), max_bytes=99))
        for _ in range(2):
            error = self.fails("an end too early", of.Truncated, "inside message 7",
                               lambda: checker.columns(messages, ("hp",), bad="skip"))
            self.fails("also for a loop", of.Truncated, "inside message 7", lambda: next(messages))

        messages = checker.messages(given)
        next(messages)
        self.same("as a text", repr(messages), "<Messages behind 1, at byte 36>")
        for call in (of.Messages, of.AsyncMessages, lambda: of.Messages.__new__(of.Messages)):
            self.fails("one of nothing", TypeError, "", call)

        def again():
            yield whole
            yield checker.columns(messages, ("hp",))

        messages = checker.messages(again())
        for call in (lambda: checker.columns(messages, ("hp",)), lambda: [*messages]):
            messages = checker.messages(again())
            self.fails("one call inside another", ValueError, "another call takes messages of this stream", call)

    def test_by_name(self):
        """A column by its path, and what columns tell of themselves."""
        checker = self.by(ORDERS)
        paths = "id", checker.path("to.name"), "id"
        columns = checker.columns(POST, paths, bad="skip")
        self.same("paths", columns.paths, ("id", "to.name", "id"))
        self.holds("by name", columns["id"] is columns[0] and columns["to.name"] is columns[1])
        self.same("slices", columns[1:], (columns[1], columns[2]))
        self.fails("another", KeyError, "no column 'items'; columns: id to.name id", lambda: columns["items"])
        self.fails("one past the end", IndexError, "", lambda: columns[3])
        self.same("as a text", (repr(columns), repr(checker.columns(b"", ()))), (
            "<Columns of 5 messages: id, to.name, id; 1 skipped>", "<Columns of 0 messages: no path; 0 skipped>"))
        self.same("reasons", (columns.reasons.format, [self.module.Reason(one).name for one in columns.reasons]),
                  ("B", ["NO_TERMINATOR"]))
        for again in (pickle.loads(pickle.dumps(columns)), copy.deepcopy(columns)):
            self.same("pickled", (again.paths, [*again["id"]], [*again.starts], [*again.skipped_starts]),
                      (columns.paths, [*columns[0]], [*columns.starts], [840]))

    def test_masks(self):
        """What is missing, also where nothing is."""
        floors, names, ids = self.by(ORDERS).columns(POST, ("floor", "to.name", "id"), bad="skip")
        home, = self.by(ORDERS).columns(POST, ("to.home",), bad="skip")
        for name, column in [("some numbers", floors), ("no texts", names), ("no numbers", ids), ("structs", home)]:
            mask = column.mask()
            self.same(name, (mask.format, mask.readonly, mask.tolist()),
                      ("?", True, [value is None for value in column]))

    def test_messages_that_come_later(self):
        """Values with the messages of a stream that is asynchronous."""
        checker = self.by(ORDERS)

        async def pieces():
            for at in range(0, len(POST), 7):
                await asyncio.sleep(0)
                yield POST[at:at + 7]

        async def told():
            return [one async for one in checker.messages(pieces(), paths=OF_ORDERS)]

        self.same("the same", asyncio.run(told()), [*checker.messages(POST, paths=OF_ORDERS)])

        async def beside():
            columns = await asyncio.to_thread(checker.columns, POST, ("id",), bad="skip")
            return [*columns["id"]]

        self.same("columns in another thread", len(asyncio.run(beside())), 5)

    def test_real_defaults(self):
        """Absent floats have their defaults, which aren't missing even where they are nan."""
        rows = [row for row in real_defaults.VALUES if "." not in row[0]]
        columns = self.by(real_defaults.FILE).columns(message(real_defaults.ROOT), [row[0] for row in rows])
        for (path, _, _, number), column in zip(rows, columns):
            letter = "d" if path.startswith("wide") or path == "maybe" else "f"
            self.same(path, (column.format, [*map(repr, column)], column.valid and column.valid.tolist()),
                      (letter, [repr(number)], [False] if number is None else None))

    def test_numbers(self):
        """Each type of numbers at its bounds, and where it is missing, in a column of that type."""
        rows = [field(name, kind, 4 + 2 * at) for at, (name, kind, _) in enumerate(NUMBERS)]
        rows += [field(f"no_{name}", kind, 40 + 2 * at, optional=True) for at, (name, kind, _) in enumerate(NUMBERS)]
        checker = self.by(schema([table("T", *rows)], root="T"))
        for at, (name, _, letter) in enumerate(NUMBERS):
            size = 8 * struct.calcsize(f"<{letter}")
            bounds = {"?": (False, True), "f": (1.5, -0.0, math.inf), "d": (1e300, -0.0, -math.inf)}.get(
                letter, (0, 2**size - 1) if letter.isupper() else (-(2 ** (size - 1)), 2 ** (size - 1) - 1))
            given = [message({at: (letter, value), 18 + at: (letter, value)}) for value in bounds]
            whole, missing = checker.columns([*given, message({}), given[0]], (name, f"no_{name}"))
            absent = {"?": False, "f": 0.0, "d": 0.0}.get(letter, 0)
            self.same(f"{name}", [*map(repr, whole)], [*map(repr, [*bounds, absent, bounds[0]])])
            self.same(f"no_{name}", [*map(repr, missing)], [*map(repr, [*bounds, None, bounds[0]])])
            self.same(f"{name}: its format", (whole.format, missing.format), (letter, letter))
            valid = [True] * len(bounds) + [False, True]
            self.same(f"{name}: what is there", missing.valid.tolist(), valid)
            self.same(f"{name}: all are", whole.valid, None)
            hole = missing.data[len(bounds)]
            is_hole = math.isnan(hole) if letter in "fd" else hole == 0
            self.holds(f"{name}: what stands for one that isn't", is_hole, hole)
            view = memoryview(missing)
            told = view.format, view.shape, view.strides, view.readonly, view.obj is missing
            self.same(f"{name}: its buffer", told, (letter, (len(missing),), (size // 8,), True, True))
            self.same(f"{name}: as bytes", bytes(missing), bytes(missing.data))
        self.fails("it isn't written", TypeError, "read-only", lambda: whole.data.__setitem__(0, 1))
        self.fails("nor by others", TypeError, "read-write", lambda: io.BytesIO(b"12345678").readinto(whole))

    def test_texts_and_bytes(self):
        """Values of any length, and where they lie."""
        objects = [table("T", field("s", TEXT, 4), field("b", vector(U_BYTE), 6), field("h", vector(SHORT), 8),
                         field("yes", vector(BOOL), 10), field("all", vector(TEXT), 12), field("t", an_object(0), 14),
                         field("u_type", U_TYPE, 16), field("u", a_union(0), 18), field("types", vector(U_TYPE), 20),
                         field("c", vector(BYTE), 22))]
        checker = self.by(schema(objects, [union("U", ("NONE", 0, schemas.NONE), ("T", 1, an_object(0)))], root="T"))
        texts = [b"", b"plain", "é 漢 🙂".encode(), None, b"\0", b"\xff\x80", None, b"a\xed\xa0\x80z",
                 bytes(range(256))]
        given = [message({} if text is None else {0: text, 1: Plain(text, 1, len(text))}) for text in texts]
        strings, rows = checker.columns(given, ("s", "b"))
        self.same("texts", [text and text.encode("utf-8", "surrogateescape") if text else text for text in strings],
                  ["" if text == b"" else text for text in texts])
        self.same("bytes", [*rows], texts)
        ends = [sum(len(text or b"") for text in texts[:at]) for at in range(len(texts) + 1)]
        for name, column in [("texts", strings), ("bytes", rows)]:
            self.same(f"{name}: one by one", [column[at] for at in range(len(texts))], [*column])
            self.same(f"{name}: the layout", (column.offsets.tolist(), bytes(column.data), column.valid.tolist()),
                      (ends, b"".join(filter(None, texts)), [text is not None for text in texts]))
            self.same(f"{name}: the views", [(view.format, view.readonly) for view in (
                column.data, column.offsets, column.valid)], [("B", True), ("q", True), ("?", True)])
        shorts = [Plain(struct.pack(f"<{count}h", *range(-1, count - 1)), 2, count) for count in (2, 0, 3)]
        given = [message({2: one, 3: Plain(b"\0\1\xff", 1, 3), 4: ["a", "b"], 5: {}, 6: ("B", 1), 7: {},
                          8: Plain(b"\5", 1, 1), 9: Plain(b"\xff", 1, 1)}) for one in shorts]
        of_shorts, yes, strings, types, of_types, bytes_ = checker.columns(
            given, ("h", "yes", "all", "u_type", "types", "c"))
        self.same("vectors of numbers", [(one.format, one.tolist()) for one in of_shorts],
                  [("h", [-1, 0]), ("h", []), ("h", [-1, 0, 1])])
        self.same("their layout", (of_shorts.data.format, of_shorts.data.tolist(), of_shorts.offsets.tolist()),
                  ("h", [-1, 0, -1, 0, 1], [0, 2, 2, 5]))
        self.same("vectors of Bools, types and signed bytes", ([*yes], [*of_types], [one.tolist() for one in bytes_]),
                  ([b"\0\1\xff"] * 3, [b"\5"] * 3, [[-1]] * 3))
        self.same("counts", (strings.format, [*strings], strings.valid), ("I", [2] * 3, None))
        self.same("types of unions", (types.format, [*types]), ("B", [1] * 3))
        for path in ("t", "u", "t.t", "u@T"):
            for one in (path, checker.path(path)):
                self.fails(f"{path} has no column", self.module.PathError, f"{path!r} leads to a table or a union",
                           lambda: checker.columns(given, ("h", one)))

    def test_as_sequences(self):
        checker = self.by(ORDERS)
        columns = checker.columns(POST, ("floor", "to.name", "id"), bad="skip")
        floors, names, ids = columns
        self.same("from the end", (floors[-2], names[-1], ids[-5]), (12, "Hal", 1))
        self.same("slices", (floors[::2], names[1:3], ids[9:]), ([0, None, None], ["Eve", "Fay"], []))
        told = names.index("Gus"), names.count("x"), "Ada" in names, 3 in ids, [*reversed(floors)]
        self.same("as others have it", told, (3, 0, True, True, [None, 12, None, None, 0]))
        for column in columns:
            for at in (5, -6, 2**70):
                self.fails(f"{column}[{at}]", IndexError, "", lambda: column[at])
        self.same("as texts", [*map(repr, columns)], ["<Column of 5 'i', 3 missing>", "<Slices of 5, 0 missing>",
                                                      "<Column of 5 'Q', 0 missing>"])
        for name, again in [("pickled", pickle.loads(pickle.dumps(columns))), ("copied", copy.deepcopy(columns))]:
            self.same(f"{name}, the same", ([*map(list, again)], [*again.skipped], again.verdicts, type(again)),
                      ([*map(list, columns)], [5], columns.verdicts, type(columns)))
            self.same(f"{name}: what it has", (again[0].valid.tolist(), again[1].offsets.tolist(), again[2].format),
                      (floors.valid.tolist(), names.offsets.tolist(), "Q"))
        made = lambda *words: self.module.Column(*words)
        self.same("one that is made", [*made("i", struct.pack("<2i", 5, -1), None)], [5, -1])
        for words, kind in [(("i", b"12345", None), ValueError), (("s", b"", None), ValueError),
                            (("", b"", None), TypeError), (("é", b"", None), ValueError),
                            (("i", "text", None), TypeError), (("i",), TypeError)]:
            self.fails(f"none of {words}", kind, "", lambda: made(*words))

    def test_bad_messages(self):
        """One raises its verdict and number, or is left out; the verdicts of the first thousand are kept."""
        of, checker, paths = self.module, self.by("M"), ("hp", "name")
        bad = prefixed(ORC[:-1])
        for before in (0, 1, 5):
            given = prefixed(ORC) * before + bad + prefixed(ORC) + bad
            error = self.fails(f"{before} before it", of.BadBuffer, "bad V2", lambda: checker.columns(given, paths))
            again = pickle.loads(pickle.dumps(error))
            for name, one in [("raised", error), ("pickled", again)]:
                self.same(f"{before} before it, {name}", (one.verdict, one.number, one.start, str(one)),
                          (checker.check(bad), before + 1, 36 * before, f"message {before + 1}: {checker.check(bad)}"))
                self.same(f"{before} before it, {name}: what came before", ([*one.columns[0]], [*one.columns.skipped]),
                          ([300] * before, [before + 1]))
            columns = checker.columns(given, paths, bad="skip")
            self.same(f"{before} before it, skipped", ([*columns[0]], [*columns.skipped], columns.verdicts),
                      ([300] * (before + 1), [before + 1, before + 3], (checker.check(bad),) * 2))
        error = self.fails("verify", of.BadBuffer, "bad V2", lambda: checker.verify(bad))
        self.same("of a message alone there is no number", (error.number, error.start, error.columns), (None,) * 3)
        given = b"".join(prefixed(ORC[:at % len(ORC)]) for at in range(3000))
        columns = checker.columns([given, prefixed(ORC)], paths, bad="skip")
        told = [*columns[1]], columns.skipped.format, [*columns.skipped]
        self.same("many", told, (["Orc"], "Q", [*range(1, 3001)]))
        want = [verdict for _, verdict in checker.messages(given)][:1000]
        self.same("their verdicts", [*columns.verdicts], want)
        deep = self.by(schema([table("L", field("next", an_object(0), 4), field("v", INT, 6, 7))], root="L"),
                       max_depth=4096)
        chain = prefixed(buffers.levels(4096))
        for times in ("first", "again"):
            columns = deep.columns((chain + prefixed(buffers.levels(4096)[:-4])) * 3, ("next.next.v",), bad="skip")
            places = [verdict.place for verdict in columns.verdicts]
            self.same(f"deep ones, {times}", ([*columns[0]], [*columns.skipped], places),
                      ([7] * 3, [2, 4, 6], [deep.check(prefixed(buffers.levels(4096)[:-4])).place] * 3))

    def test_faults_of_streams(self):
        """What was read before a fault comes with it."""
        of, checker, whole = self.module, self.by("M"), prefixed(ORC)
        for size in (1, 7, 1000):
            pieces = lambda data: [data[at:at + size] for at in range(0, len(data), size)]
            for end in range(1, len(whole)):
                all_of = f"{end} of its 36 bytes" if end >= 4 else f"{end} of the 4 bytes of its size"
                error = self.fails(f"an end after {end} bytes, in pieces of {size}", of.Truncated,
                                   f"the stream ends inside message 3, which begins at byte 72: {all_of} came",
                                   lambda: checker.columns(pieces(whole * 2 + whole[:end]), ("hp",)))
                told = error.held, error.size, error.number, error.start, [*error.columns[0]]
                self.same("what came before", told, (end, 36 if end >= 4 else None, 3, 72, [300] * 2))
            error = self.fails(f"one that is too long, in pieces of {size}", of.Oversize, "4 + 32 bytes",
                               lambda: checker.columns(pieces(whole), ("hp",), max_bytes=35))
            self.same("it is told", (error.declared, error.limit, [*error.columns[0]]), (32, 35, []))
            error = self.fails(f"behind others, in pieces of {size}", of.Oversize,
                               "message 4, which begins at byte 108, has 4 + 4294967295 bytes",
                               lambda: checker.columns(pieces(whole * 3 + b"\xff" * 4 + whole), ("name",)))
            self.same("what came before", (error.number, error.start, [*error.columns[0]]), (4, 108, ["Orc"] * 3))
        self.same("messages() has no columns", self.fails(
            "its fault", of.Truncated, "", lambda: [*checker.messages(whole[:9])]).columns, None)
        self.same("room for one", [*checker.columns(whole, ("hp",), max_bytes=len(whole))[0]], [300])

        def broken():
            yield whole
            raise KeyError("broken")

        self.fails("a stream that fails", KeyError, "broken", lambda: checker.columns(broken(), ("hp",)))

    def test_what_is_refused(self):
        of, checker, whole = self.module, self.by("M"), prefixed(ORC)
        columns = lambda *words, **named: lambda: checker.columns(*words, **named)
        with open(TOP / "examples/deliveries.bin", encoding="utf-8") as text:
            self.fails("a file of a text", TypeError, 'open its file with "rb"', columns(text, ("hp",)))
        for wrong in ("text", ["text"], io.StringIO("text"), 5, None, [5], [b"", None]):
            self.fails(f"a stream that is {wrong!r}", TypeError, "", columns(wrong, ("hp",)))
        for limit in (7, 2**31):
            self.fails(f"room for {limit}", ValueError, "max_bytes", columns(b"", ("hp",), max_bytes=limit))
        for wrong in ("drop", None, True):
            self.fails(f"bad={wrong!r}", ValueError, '"raise" or "skip"', columns(b"", ("hp",), bad=wrong))
        for wrong in ("hp", checker.path("hp")):
            self.fails("one path", TypeError, "paths are several", columns(b"", wrong))
            self.fails("one path of messages", TypeError, "paths are several",
                       lambda: checker.messages(b"", paths=wrong))
        for wrong, kind, words in [(("nowhere",), of.PathError, "P2"), ((5,), TypeError, "a path is a str"),
                                   ((["hp"],), TypeError, "a path is a str"), (5, TypeError, "")]:
            self.fails(f"paths {wrong}", kind, words, columns(b"", wrong))
            self.fails(f"paths {wrong} of messages", kind, words, lambda: checker.messages(b"", paths=wrong))
        bare = checker.replace(prefixed=False)
        self.fails("a schema of other messages", ValueError, "prefixed=True", lambda: bare.columns(whole, ("hp",)))

        async def later():
            yield whole

        self.fails("one that is asynchronous", TypeError, "asynchronous", columns(later(), ("hp",)))

    def test_paths_of_others(self):
        """A path of another schema raises where it doesn't fit, or its values aren't such as its column has."""
        kinds = [BOOL, BYTE, U_LONG, LONG, FLOAT, DOUBLE, TEXT, vector(U_BYTE), vector(LONG), vector(TEXT)]
        values = [("B", 1), ("b", -1), ("Q", 2**63), ("q", -300), ("f", 1.5), ("d", 2.5), "text", Plain(b"abc", 1, 3),
                  Plain(bytes(16), 8, 2), ["a"]]
        made = [self.by(schema([table("T", field("v", kind, 4))], root="T")) for kind in kinds]
        for at, value in enumerate(values):
            given = message({0: value})
            for other, checker in enumerate(made):
                told = self.values_or_fault(made[at], given, checker.path("v"))
                fits = at == other or (kinds[at], kinds[other]) in [(BYTE, LONG), (vector(LONG), vector(U_BYTE))]
                self.same(f"{at} by {other}: how many values", len(told), int(fits))
        path = self.by(ORDERS).path("to.name")
        self.fails("one that doesn't fit", self.module.PathError, "another schema",
                   lambda: self.by("M").columns(prefixed(ORC), (path,)))

    def values_or_fault(self, checker, given, path):
        """The values in a column, none where the path is refused."""
        try:
            return [*checker.columns(given, (path,))[0]]
        except self.module.PathError as error:
            self.holds("why it is refused", "another schema" in str(error), error)
            return []

    def test_once(self):
        """A message is gone through once, with all that is read of it."""
        node = [field("a", an_object(0), 4), field("b", an_object(0), 6), field("v", INT, 8, 7)]
        chain = prefixed(buffers.doubling(14))
        checker = self.by(schema([table("N", *node)], root="N"), reads_per_byte=2000)
        paths = ("v", "a.v", "a.b.v")
        self.same("values", [*map(list, checker.columns(chain, paths))], [[7]] * 3)
        calls = [lambda: checker.check(chain), lambda: checker.columns(chain, paths),
                 lambda: [*checker.messages(chain, paths=paths)]]
        turns = [[timeit.timeit(call, number=2) for call in calls] for _ in range(200)]
        check, *others = map(min, zip(*turns))
        self.holds("it costs as much as a check", max(others) < 1.5 * check, (check, others))

    def test_long_streams(self):
        """Columns cost in proportion to the messages, and much less than a loop does."""
        checker, one, seconds = self.by("M"), prefixed(ORC), {}
        for count in (50_000, 200_000):
            begun = time.process_time()
            hp, names = checker.columns(one * count, ("hp", "name"))
            seconds[count] = time.process_time() - begun
            self.same(f"{count} messages", (sum(hp.data), len(names), names[-1]), (300 * count, count, "Orc"))
        linear = seconds[200_000] < 12 * seconds[50_000] + 0.1
        self.holds("four times as many take some four times as long", linear, seconds)
        loop = lambda: [checker.read(message, "hp", "name") for message, _ in checker.messages(one * 50_000)]
        call = lambda: checker.columns(one * 50_000, ("hp", "name"))
        turns = [[timeit.timeit(each, number=1, timer=time.process_time) for each in (loop, call)] for _ in range(5)]
        loop, call = map(min, zip(*turns))
        self.holds("a loop takes at least twice as long", loop > 2 * call, (loop, call))

    def test_threads(self):
        """One schema serves many threads, and others run while a long piece is gone through, as signals are told."""
        stream = (prefixed(ORC) * 20 + prefixed(ORC[:-1])) * 200
        checker, deep = self.by("M"), self.by("M", max_depth=500)

        def wrong(turns):
            """How many columns are wrong in so many turns."""
            count = 0
            for turn in range(turns):
                columns = (checker if turn % 2 else deep).columns(stream, ("hp", "name"), bad="skip")
                count += ({*columns[0]}, {*columns[1]}, len(columns[0])) != ({300}, {"Orc"}, 4000)
                count += [*columns.skipped] != [*range(21, 4201, 21)] or {one.reason for one in columns.verdicts} != {2}
            return count

        self.same("wrong ones", on_eight(wrong, 12), [0] * 8)

    def test_others_run_meanwhile(self):
        """While a long stream is gone through, another thread does its work, and a signal breaks it off."""
        checker, stream = self.by("M"), prefixed(ORC) * 4_000_000

        def turns():
            return turns_beside(checker.columns, stream, ("hp",))

        def broken_off():
            """How much of the time of a call passes before a signal that comes early ends it."""
            def handle(*_):
                raise InterruptedError
            begun = time.process_time()
            checker.columns(stream, ("hp",))
            whole = time.process_time() - begun
            before = signal.signal(signal.SIGPROF, handle)
            signal.setitimer(signal.ITIMER_PROF, whole / 10)
            begun = time.process_time()
            try:
                checker.columns(stream, ("hp",))
            except InterruptedError:
                return (time.process_time() - begun) / whole
            finally:
                signal.setitimer(signal.ITIMER_PROF, 0)
                signal.signal(signal.SIGPROF, before)
            return 1

        for name, call, holds in [("turns of the other thread", turns, lambda told: told > 10),
                                  ("a part of a call's time", broken_off, lambda told: told < 0.7)]:
            told = tried(call, holds)
            self.holds(name, holds(told[-1]), told)

    def test_streams_that_change(self):
        """What another process writes meanwhile is checked as a copy, so that it changes verdicts, and no more."""
        told = self.alone(WRITTEN, schemas.M.hex(), prefixed(ORC).hex(), 4 + ORC.index(b"Orc") - 12)
        self.same("what is told meanwhile", told, (0, "Orc; V2 OutOfBuffer\n", ""))

    def test_memory(self):
        words = schemas.M.hex(), prefixed(ORC).hex()
        status, out, err = self.alone(LEAKS, *words, prefixed(PLAIN).hex())
        few = (status, err) == (0, "") and int(out) < 1500
        self.holds("3,000 calls of each kind leak nothing", few, (status, out, err))
        self.same("where memory is refused, that is told", self.alone(STARVED, *words), (0, "400000 refused\n", ""))

    def with_numpy(self, *others):
        """A Python that has numpy, and others."""
        modules = ", ".join(["numpy", *others])
        asked = f"import sys, {modules}; sys.exit(sys.version_info < (3, 11))"
        for python in (sys.executable, "/usr/bin/python3"):
            if os.path.exists(python) and subprocess.run([python, "-c", asked], capture_output=True).returncode == 0:
                return python
        self.skipTest(f"{modules} isn't there (Debian's packages python3-numpy, python3-pandas)")

    def test_in_numpy(self):
        """numpy takes the columns without a copy, and keeps their memory."""
        told = self.alone(IN_NUMPY, ORDERS, TOP / "examples/deliveries.bin", python=self.with_numpy())
        self.same("what it has", told, (0, OF_NUMPY, ""))

    def test_the_page_in_numpy(self):
        """The README's program for numpy and pandas prints what stands behind it."""
        python = self.with_numpy("pandas")
        page = (BINDING / "README.md").read_text().split("In numpy and pandas:\n")[1]
        code, want = (page.split(f"```{kind}\n")[1].split("```")[0] for kind in ("python", "text"))
        told = ran("env", "-C", TOP, python, "-B", "-c", code, PYTHONPATH=str(self.folder), seconds=300)
        self.same("its lines", told, (0, want, ""))

    def test_the_page(self):
        """The README's program for columns does what stands behind it."""
        page = (BINDING / "README.md").read_text().split("## Columns\n")[1].split("\n## ")[0]
        code = page.split("```python\n")[1].split("```")[0]
        told = ran("env", "-C", TOP, sys.executable, "-c", code, PYTHONPATH=str(self.folder))
        self.same("its lines", told, (0, "".join(f"{line}\n" for line in re.findall(r"^# (.*)$", code, re.M)), ""))
        names = ["Column", "Slices", "data", "format", "offsets", "valid", "skipped", "verdicts", "number", "starts",
                 "skipped_starts", "reasons", "start", "mask()", "columns.paths"]
        self.same("what columns have", [name for name in names if f"`{name}`" not in page], [])
