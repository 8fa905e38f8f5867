"""The shapes of bench/hostile are what they are said to be: buffers, streams and schema files, of so many tables.

One of them also shows where the budget of reads a byte ends that holds where no words say another.
"""

import os
import re
import shutil
import struct
import subprocess

from tests.support import schemas
from tests.support.builder import messages_of
from tests.support.cases import Case
from tests.support.program import TOP, Ran, file_of, folder_of, good, loaded, rootless, run, schemaless, unschemed

FOLDER = folder_of(__name__)
HOSTILE = loaded(TOP / "bench/hostile")

# A shape, its size in bytes, and the tables that a verification visits, by the shape's own plan.
SHAPES = [
    ("texts of parcels", 900, 2 + 900 // 9),
    ("texts of nodes", 1024, 2**19 - 1),
    ("texts of bags", 900, 1 + 900 // 10),
    ("texts of objects", 800, 1 + 800 // 8),
    ("wide tables", 100, 2**5 - 1),
    ("wide vtables", 1024, 2**19 - 1),
    ("changing types", 420, 1 + 20 + 20 * 20),
    ("changing types far apart", 8192, 1 + 64),
    ("tags far from their ends", 16_384, 2 + 512),
    ("shared monsters", 400, 2**6 - 1),
    ("tables twice below", 100, 2**8 - 1),
]

# A shape of streams, its size, and what is told of each message by a budget without end, or by the default one.
STREAMS = [
    ("messages of changing types", 256, "ok tables=73 depth=3 reads=2997"),
    ("messages of nodes", 1024, None),
    ("messages of monsters", 512, "ok tables=255 depth=8 reads=3821"),
    ("the last of many fields", 160, "bad V9 MissingRequired at=12 object=0 field=32763 reads=4"),
    ("places of long names", 100, "bad V8 BadVtable at=92 object=0 field=- reads=40"),
    ("tables below, wide", 56, "ok tables=585 depth=4 reads=2340"),
    ("wide, no alignment", 56, "ok tables=585 depth=4 reads=2340"),
    ("tables below, narrow", 64, None),
    ("tables twice below, wide", 104, "ok tables=255 depth=8 reads=1020"),
]

# Shapes that are checked by more than the format's rules, their sizes, and what is told of a message then. Of 585
# tables, 512 have no fields; the others have eight. A walk counts 2 for the message's length and root offset, 2 for a
# table's head, and 2 for each field that leads to a table. Beside that, the other check counts again what it reads of
# a table: its head, the eight slots where there are any, and 2 for each field by which it goes on.
MORE_CHECKS = [
    ("wide, known fields", 56, "ok tables=585 depth=4 reads=5262"),
    ("unions below, strict", 80, "ok tables=341 depth=5 reads=4426"),
]

# Reads of the shape "texts of objects": before its objects 1 for the root offset, 2 for the head of the root table and
# 3 for its first field, and behind them 3 for its second. Each of its objects has 1 for its offset and 2 for its head,
# 4 for the name, 3 for the fields, 1 for each of the four absent fields then, 3 for the lines of documentation and 3
# for each line. Its 160,081 bytes and 64 more may take 64 reads each, 10,249,280: so 170 of 20,000 objects are
# passed, and 15,455 lines of the next one. An identifier that is asked for costs 1 more, for which there is room.
OBJECTS = 20_000
READS = 9 + OBJECTS * (17 + 3 * OBJECTS)
LINE = 76 + 4 * OBJECTS + 4 * 15_455


def shared_file(count, name, size):
    """A schema file of so many objects, which are all one, of as many fields, which are all one; all have one name."""
    layout = HOSTILE.begun(b"BFBS").table("root", {4: "objects", 6: "none"}).vector("none", [])
    layout.vector("objects", ["object"] * count).table("object", {4: "name", 6: "fields"})
    layout.vector("fields", ["field"] * count).field("field", "name", 3).type().text("name", b"a" * name)
    return HOSTILE.padded(layout.bytes(), size)


def shared_enums(count, name, size):
    """The same of enums, which are all one, with as many members."""
    layout = HOSTILE.begun(b"BFBS").table("root", {4: "none", 6: "enums"}).vector("none", [])
    layout.vector("enums", ["enum"] * count).table("enum", {4: "name", 6: "members"})
    layout.vector("members", ["member"] * count).table("member", {4: "name"}).text("name", b"a" * name)
    return HOSTILE.padded(layout.bytes(), size)


BY_NAME = {shape.name: shape for shape in HOSTILE.SHAPES}
BOUNDLESS = "--reads-per-byte", "4294967295"


def words_for(shape):
    """The words that name the schema file of a shape."""
    return [] if shape.schema is None else ["--schema", file_of("shape.bfbs", shape.schema)]


class Hostile(Case):
    def test_good_buffers(self):
        for name, size, tables in SHAPES:
            shape = BY_NAME[name]
            data = shape.made(size)
            self.holds(f"{name} has about {size} bytes", 0.7 * size <= len(data) <= 1.1 * size + 32, len(data))
            ran = run("--bare", *BOUNDLESS, *words_for(shape), given=data)
            found = re.fullmatch(rb"1 ok tables=(\d+) depth=\d+ reads=\d+\n", ran.out)
            self.same(name, (ran.status, int(found[1]) if found else ran.out), (0, tables))

    def test_streams(self):
        for name, size, told in STREAMS:
            shape = BY_NAME[name]
            data = shape.made(size)
            messages = messages_of(data)
            ran = run(*words_for(shape), *([] if told is None else BOUNDLESS), given=data)
            lines = [line.partition(" ")[2] for line in ran.out.decode().splitlines()]
            self.same(f"{name}: the lines are alike", (len(lines), len(set(lines))), (len(messages), 1))
            wanted = told or "bad V13 TooManyReads "
            self.holds(f"{name}: what they are", lines[0].startswith(wanted), lines[0])
            ran = run(*words_for(shape), *shape.words, given=messages[0])
            self.holds(f"{name}: words are taken", ran.out.decode().startswith(f"1 {lines[0]}"), ran)

    def test_streams_by_more_checks(self):
        for name, size, told in MORE_CHECKS:
            shape = BY_NAME[name]
            ran = run(*words_for(shape), *shape.words, given=messages_of(shape.made(size))[0])
            self.same(name, ran, good(f"1 {told}"))

    def test_far_messages(self):
        """Ten groups of 8,192 tables whose 32 fields lie far apart: of a vector each counts 3 reads, of a text 4. The
        chains have 20 to 60 tables each."""
        size, tables = 2**19, 1 + 10 + 10 * 8192
        data = HOSTILE.far.fewer_far_fields(size)
        self.holds("as long as asked", 0.99 * size < len(data) <= size, len(data))
        for name, each in [("empty vectors far apart", 3), ("empty texts far apart", 4), ("unions far apart", None),
                           ("vectors, no alignment", 3), ("far unions, strict", None)]:
            shape = BY_NAME[name]
            told = run("--bare", *words_for(shape), *shape.words, given=data).out.decode()
            reads = "" if each is None else f"{1 + 5 + 10 * 6 + 10 * 8192 * (3 + 32 * each)}\n"
            self.holds(name, told.startswith(f"1 ok tables={tables} depth=3 reads={reads}"), told)
        count = 990_000 // 60
        shape = BY_NAME["chains far apart"]
        ran = run("--bare", *words_for(shape), given=shape.made(4 * 2**20))
        found = re.fullmatch(rb"1 ok tables=(\d+) depth=\d+ reads=\d+\n", ran.out)
        self.holds("chains", found and 20 * count < int(found[1]) <= 60 * count, ran)

    def test_reads_a_byte_that_pages_name(self):
        """Ordinary messages take 0.16 to 0.6, and an extreme case takes 42: tables that each set only the last of 500
        fields. At 0.6, 100,000 offsets that lead to one vector of 600,000 bytes make a reader copy 60 GB."""
        files = sorted((TOP / "tests/schema_files").glob("*.bfbs"))
        deliveries = (TOP / "examples/deliveries.bin").read_bytes()
        for name, words, given in [("schema files", ["--bare", *files], b""),
                                   ("deliveries", ["--schema", TOP / "examples/deliveries.bfbs"], deliveries)]:
            ran = run("--summary", "--quiet", *words, given=given)
            found = re.search(rb" bytes=(\d+) .* reads=(\d+)", ran.err)
            self.holds(name, 0.16 < int(found[2]) / int(found[1]) < 0.6, ran)
        last = schemas.schema([
            schemas.table("Last", *[schemas.field(f"f{slot}", schemas.INT, slot) for slot in range(4, 1004, 2)]),
            schemas.table("Root", schemas.field("all", schemas.vector(schemas.an_object(0)), 4))], root="Root")
        count = 20_000
        layout = HOSTILE.begun().table("root", {4: "all"}).vector("all", [f"table {place}" for place in range(count)])
        layout.data += struct.pack("<502H", 1004, 8, *[0] * 499, 4)
        vtable = len(layout.data) - 1004
        for place in range(count):
            layout.name(f"table {place}").number(len(layout.data) - vtable, "i").number(7)
        self.near("the last of 500 fields", last, layout.bytes(), 42)
        one = schemas.schema([
            schemas.table("One", schemas.field("bytes", schemas.vector(schemas.U_BYTE), 4)),
            schemas.table("Root", schemas.field("all", schemas.vector(schemas.an_object(0)), 4))], root="Root")
        layout = HOSTILE.begun().table("root", {4: "all"}).vector("all", ["one"] * 100_000).table("one", {4: "bytes"})
        self.near("what a reader copies", one, layout.numbers("bytes", "B", [0] * 600_000).bytes(), 0.6)

    def near(self, name, schema, data, want):
        """A buffer is ok, and takes this many reads a byte, as the pages round them."""
        ran = run("--bare", "--schema", file_of("shape.bfbs", schema), given=data)
        found = re.fullmatch(rb"1 ok .* reads=(\d+)\n", ran.out)
        self.holds(name, found and abs(int(found[1]) / len(data) - want) < 0.01 * want, ran)

    def test_a_bad_message_that_is_kept(self):
        shape, kept = BY_NAME["a bad message, kept"], file_of("kept", b"")
        data = shape.made(100_000)
        words = [kept if word == os.devnull else word for word in shape.words]
        ran = run("--bare", *words_for(shape), *words, given=data)
        self.same("its line", ran, Ran(1, b"1 bad V4 ZeroOffset at=0 object=0 field=- reads=1\n", b""))
        self.holds("it is kept", kept.read_bytes() == data)

    def test_a_chain_of_21_tables(self):
        """By default the budget ends first; without one, the tables do; and with more of these it is ok. Each table
        counts 2, and 2 more for each of the others' offsets; the root's offset counts 1."""
        whole = 2**21 - 1
        for name, told in [("tables twice below", "bad V13 TooManyReads "),
                           ("twice below, no budget", "bad V7 TooManyTables at=252 object=0 field=1 reads=4000001"),
                           ("twice below, more tables", f"ok tables={whole} depth=21 reads={4 * whole - 1}")]:
            shape = BY_NAME[name]
            ran = run("--bare", *words_for(shape), *shape.words, given=shape.made(256))
            self.holds(name, ran.out.decode().startswith(f"1 {told}"), ran.out)

    def test_sizes_and_names(self):
        self.same("each shape has a name of its own", len(BY_NAME), len(HOSTILE.SHAPES))
        for shape in HOSTILE.SHAPES:
            self.same(f"{shape.name}: three sizes, which rise", sorted(set(shape.sizes)), shape.sizes)
            self.same(f"{shape.name}: three sizes", len(shape.sizes), 3)

    def test_the_bench_runs(self):
        """Of the shapes with one word in their names: a line for each size, and the worst of each column."""
        ran = subprocess.run([TOP / "bench/hostile", "monsters"], capture_output=True, text=True, timeout=120)
        rows = [line for line in ran.stdout.splitlines() if line.startswith(("shared", "messages", "the worst"))]
        names = [name for shape in ("shared monsters", "messages of monsters")
                 for name in [shape] * 3 + ["the worst of each"]]
        self.same("it ends well", (ran.returncode, ran.stderr), (0, ""))
        self.same("lines", [row[:27].strip() for row in rows], names)
        for place in (0, 4):
            columns = [[float(word.replace("-", "0")) for word in row[39:].split()[:6]]
                       for row in rows[place : place + 4]]
            self.same("the worst", columns[3], [max(column) for column in zip(*columns[:3])])
            self.holds("memory's latency is measured", columns[3][3] > 0 or not shutil.which("cc"), columns)
        margins = re.findall(r"(?m)^its seconds, times 1\.5 +\d+\.\d{4}$", ran.stdout)
        self.same("seconds with a margin", len(margins), 2)

    def test_good_schema_files(self):
        """Those of "equal names" have two fields of one name, which is found when all names are in order."""
        twice = schemaless("L2 C8 NameTwice owner=0 part=1", FOLDER / "shape.bfbs")
        for shape in HOSTILE.FILES:
            made = shape.made(512 if shape.name == "shared values" else 1024)
            ran = run("--schema", file_of("shape.bfbs", made))
            if shape.name == "equal names":
                self.same(shape.name, ran, twice)
            else:
                self.holds(shape.name, (ran.status, ran.err[:31]) == (2, b"fbcheck: no root table; tables:"), ran.err)

    def test_schema_files_that_share_too_much(self):
        """Their rows have longer names than their length pays for, or their lists are read again more often; those of
        "most rows" and "most bytes of names" have as many as it does."""
        kib = 1024
        past = b"L1 V13 TooManyReads"
        for name, size, why in [("overlapping names", 128, b"L6 TooMuchShared"), ("shared values", 4, past),
                                ("shared long names", 32, past)]:
            ran = run("--schema", file_of("shape.bfbs", BY_NAME[name].made(size * kib)))
            self.same(name, (ran.status, ran.err.startswith(b"fbcheck: schema: " + why)), (2, True))
        for name in ["most rows", "most bytes of names"]:
            path = file_of("shape.bfbs", BY_NAME[name].made(64 * kib))
            ran = run("--schema", path)
            self.holds(name, (ran.status, ran.err[:31]) == (2, b"fbcheck: no root table; tables:"), ran.err)

    def test_the_memory_of_a_load(self):
        """A schema file takes at most ten times its length and 5 MiB, whatever it has."""
        for shape in HOSTILE.FILES:
            for size in 2**20, 2400 * 2**10:
                made = shape.made(size)
                memory = HOSTILE.once(["--schema", file_of("shape.bfbs", made)], b"").memory
                self.holds(f"{shape.name} of {size} bytes", memory <= 10 * len(made) / 2**20 + 5, memory)

    def test_the_length_of_a_file_pays_for_its_rows_and_names(self):
        """150 objects of 150 fields, or enums of 150 members, are 22,650 rows: 16,384, and one for each 20 of 125,320
        bytes. 160 times as many bytes of names are 1,048,576, and 16 for each of 160,964 bytes."""
        path = FOLDER / "shared.bfbs"
        paid, shared = schemaless("L2 C4 BadSlot owner=0 part=0", path), schemaless("L6 TooMuchShared", path)
        for made, paid in (shared_file, paid), (shared_enums, rootless(None)):
            for name, size, want in [(1, 125_320, paid), (1, 125_319, shared), (160, 160_964, paid),
                                     (160, 160_963, shared)]:
                ran = run("--schema", file_of("shared.bfbs", made(150, name, size)))
                self.same(f"{made.__name__}: names of {name} in {size} bytes", ran, want)

    def test_a_buffer_past_the_default_budget(self):
        data = HOSTILE.texts_of_objects(8 * OBJECTS)
        self.same("a buffer past the default budget", run("--bare", given=data),
                  unschemed(f"1 bad V13 TooManyReads at={LINE} object=5 field=6 reads=10249281"))
        self.same("within a larger one", run("--bare", "--max-reads", str(READS), "--reads-per-byte", "7500", given=data),
                  good(f"1 ok tables={1 + OBJECTS} depth=2 reads={READS}"))

    def test_a_schema_file_past_its_budget(self):
        """Its budget is the default one, whatever the words say of buffers."""
        path = file_of("costly.bfbs", HOSTILE.texts_of_objects(8 * OBJECTS))
        self.same("a schema file past its budget", run("--schema", path, "--reads-per-byte", "4294967295"),
                  schemaless(f"L1 V13 TooManyReads at={LINE} object=5 field=6 reads=10249282", path))
