"""The package for Python beside the program: the same verdicts and values, and what a caller in Python may do."""

import array
import copy
import io
import mmap
import os
import pathlib
import pickle
import pydoc
import re
import struct
import subprocess
import sys
import textwrap
import time
import timeit

from tests.support import buffers, real_defaults, schemas
from tests.support.buffers import (
    ASKEW, HALVES, MEMBER, MEMBERS, NO_TEXT, ORC, PLACED, PLAIN, POST, SEVEN, THIRD_SLOT, TWINS, WILD, lower_type,
    named,
)
from tests.support.builder import Plain, buffer, changed, messages_of, prefixed, spelled
from tests.support.every_kind import FILE, LITTLE, OPTIONS, WHOLE, variants, words_of
from tests.support.library import LibraryCase, ran
from tests.support.naive import NAMES
from tests.support.program import TOP, file_of, folder_of, run
from tests.support.python import package
from tests.support.schemas import (
    BOOL, BYTE, DOUBLE, FLOAT, INT, LONG, SHORT, TEXT, U_BYTE, U_INT, U_LONG, U_SHORT, U_TYPE, a_union, an_object,
    field, schema, table, union, vector,
)
from tests.support.threads import on_eight, tried, turns_beside
from tests.support.tools import there

FOLDER = folder_of(__name__)
BINDING = TOP / "bindings/python"
ORDERS = TOP / "examples/deliveries.bfbs"
ALL = file_of("all.bfbs", FILE)
FILES = schemas.files()
NUMBERS = [("byte", BYTE, "b"), ("u_byte", U_BYTE, "B"), ("short", SHORT, "h"), ("u_short", U_SHORT, "H"),
           ("int", INT, "i"), ("u_int", U_INT, "I"), ("long", LONG, "q"), ("u_long", U_LONG, "Q"),
           ("float", FLOAT, "f"), ("double", DOUBLE, "d")]

# What a process of its own does many times over; it tells by how many KB its memory has grown meanwhile.
LEAKS = """
import resource, sys
import fbcheck
file, message, bad = (bytes.fromhex(word) for word in sys.argv[1:])
def each(number):
    schema = fbcheck.Schema(file)
    schema.check(message), schema.check(bad), schema.read(message, "name", "hp"), schema.path("hp")
    if number % 8:
        return
    for call in (lambda: schema.verify(bad), lambda: schema.read(bad, "hp"), lambda: schema.path("nowhere"),
                 lambda: fbcheck.Schema(bad), lambda: schema.check("text"), lambda: schema.replace(root="Nobody")):
        try:
            call()
        except (fbcheck.Error, TypeError):
            pass
    list(schema.replace(prefixed=True).messages(len(message).to_bytes(4, "little") + message, max_bytes=64))
def peak(times):
    for number in range(times):
        each(number)
    return resource.getrusage(resource.RUSAGE_SELF).ru_maxrss
first = peak(2000)
print(peak(100_000) - first)
"""

# What a process reads of a message in which another one has an offset lead outside and back, over and over.
WRITTEN = """
import mmap, os, sys, time
import fbcheck
file, message = (bytes.fromhex(word) for word in sys.argv[1:3])
at, begun, seen = int(sys.argv[3]), time.monotonic(), set()
schema, shared = fbcheck.Schema(file), mmap.mmap(-1, len(message))
shared[:] = message
parent = os.getpid()
if os.fork() == 0:
    while os.getppid() == parent:
        for word in (b"\\0\\xff\\xff\\x7f", message[at:at + 4]) * 1000:
            shared[at:at + 4] = word
    os._exit(0)
# For a second at least; the writer may have to wait for its turn.
while time.monotonic() < begun + (1 if len(seen) > 2 else 30):
    for _ in range(1000):
        seen.add(schema.check(shared).reason)
        try:
            seen.add(schema.read(shared, "name"))
        except fbcheck.BadBuffer as error:
            seen.add(error.verdict.reason)
print(*sorted(map(str, seen)), sep="; ")
"""

# What others than the tests' own process do with a schema that was shipped to them.
SHIPPED = """
import multiprocessing, sys
import fbcheck
if __name__ == "__main__":
    schema = fbcheck.Schema(sys.argv[1], prefixed=True)
    messages = [message for message, _ in schema.messages(open(sys.argv[2], "rb"))]
    with multiprocessing.get_context("spawn").Pool(2) as pool:
        print(*pool.map(schema.check, messages), sep="\\n")
        try:
            pool.map(schema.verify, messages)
        except fbcheck.BadBuffer as error:
            print(error.verdict)
"""


def keywords_of(options):
    """The keywords that ask the package for the same as the words of the program."""
    return {{"depth": "max_depth", "tables": "max_tables", "reads": "max_reads"}.get(name, name): value
            for name, value in options.items()}


def streams():
    """Streams of good and damaged buffers, each with the words and keywords that ask for them."""
    for root in (WHOLE, LITTLE):
        data = buffer(root, b"KIND", prefix=True)[4:]
        given = b"".join(map(prefixed, variants(data, [1, 4, 252])))
        for options in OPTIONS:
            options = {"tables": 500, **options}
            yield options, ["--schema", ALL, *words_of(options)], (ALL, keywords_of(options)), given
    yield "deliveries", ["--schema", ORDERS], (ORDERS, {}), POST
    yield "another root", ["--schema", ORDERS, "--root", "post.Person"], (ORDERS, {"root": "post.Person"}), POST


def lines_of(told):
    """The program's lines with these verdicts."""
    return [f"{number} {verdict}" for number, verdict in enumerate(told, 1)]


class Python(LibraryCase):
    @classmethod
    def setUpClass(cls):
        super().setUpClass()
        cls.folder = package()
        sys.path.insert(0, str(cls.folder))
        import fbcheck
        cls.module = fbcheck

    def by(self, name, **options):
        """A schema of the tests by its name, or any file's."""
        return self.module.Schema(FILES.get(name, name), **options)

    def fails(self, name, kind, text, call):
        """The call ends by this exception, whose text has these words."""
        try:
            got = call()
        except Exception as error:
            got = error
        self.holds(name, type(got) is kind and text in str(got), (type(got), str(got)))
        return got

    def alone(self, script, *words):
        """What a process of its own writes that runs this script with the package."""
        return ran(sys.executable, "-c", script, *words, PYTHONPATH=str(self.folder), seconds=300)

    def test_verdicts(self):
        """Those of the program, word for word, on more than 10,000 buffers, with each reason."""
        count, seen = 0, set()
        for name, words, (path, keywords), given in streams():
            want = run(*words, "--names", given=given).out.decode().splitlines()
            checker = self.module.Schema(path, prefixed=True, **keywords)
            told = [verdict for _, verdict in checker.messages(given)]
            differing = [pair for pair in zip(lines_of(told), want) if pair[0] != pair[1]]
            self.same(f"{name}: lines that differ from the program's", differing[:3], [])
            self.same(f"{name}: their number", len(told), len(want))
            self.same(f"{name}: true of the good ones", [*map(bool, told)], [" ok " in line for line in want])
            count += len(want)
            seen |= {verdict.reason for verdict in told}
        self.holds("more than 10,000 buffers", count > 10_000, count)
        wrong = self.by("N", prefixed=True).check(changed(SEVEN, (0, "1d")))
        self.same("a wrong prefix, which no stream has", (wrong.reason, wrong.position), (1, 0))
        self.same("each reason", sorted({*filter(None, seen), wrong.reason}), sorted(self.module.Reason)[: len(NAMES)])

    def test_a_verdict(self):
        """Its parts, and that two with the same are equal."""
        checker = self.module.Schema(ORDERS, prefixed=True)
        messages, reason = messages_of(POST), self.module.Reason
        good, bad = checker.check(messages[0]), checker.check(messages[4])
        counts = lambda of: (bool(of), of.tables, of.depth, of.reads)
        fault = lambda of: (of.reason, of.position, of.place, of.object, of.field)
        self.same("counts of a good one", counts(good), (True, 8, 2, 111))
        self.same("which has no fault", fault(good), (None,) * 5)
        self.same("counts of a bad one", counts(bad), (False, 0, 0, 63))
        self.same("which has one", fault(bad),
                  (reason.NO_TERMINATOR, 314, "items[1]@Note", "post.Delivery", "items"))
        self.same("texts of the good one", (str(good), repr(good)),
                  ("ok tables=8 depth=2 reads=111", "<Verdict ok tables=8 depth=2 reads=111>"))
        text = "V10 NoTerminator at=314 object=1 field=6 reads=63 in items[1]@Note [post.Delivery.items]"
        self.same("texts of the bad one", (str(bad), str(bad.reason)), (f"bad {text}", "V10 NoTerminator"))
        torn = checker.check(messages[0][:40])
        self.same("without a field", (torn.place, torn.object, torn.field), (".", "post.Delivery", None))
        self.same("equal", (bad == checker.check(messages[4]), good == bad, good == 0, len({good, bad, good})),
                  (True, False, False, 2))
        for name, again in [("pickled", pickle.loads(pickle.dumps(bad))), ("copied", copy.deepcopy(bad))]:
            self.same(f"{name}, the same", (again == bad, str(again), again.place), (True, str(bad), bad.place))
        page = (TOP / "docs/REFERENCE.md").read_text().split("## Reasons")[1].split("\n## ")[0]
        self.same("reasons have the reference's names", re.findall(r"V\d+ [A-Z]\w+", page), [*map(str, reason)])
        deep = self.by("CHAIN", max_depth=4096)
        self.same("a place that is long", deep.check(buffers.levels(500)[:-1]).place, ".".join(["next"] * 499))
        longest = buffers.levels(4096)[:-4]
        want = run("--names", "--bare", "--max-depth", "4096", "--schema", FILES["CHAIN"], given=longest).out.decode()
        self.same("the longest place", f"1 {deep.check(longest)}\n", want)
        file = schema([table("L" * 70_000, field("f" * 5000, INT, 4))], root="L" * 70_000)
        told = self.module.Schema(file).check(spelled("0c000000 0000 0600 ffff 0400 08000000"))
        self.same("names that are long", (told.reason, told.object, told.field), (8, "L" * 70_000, None))
        told = self.module.Schema(file, inline_size=True).check(buffer({0: ("i", 5)})[:-1])
        self.same("of a field too", (told.reason, told.object, told.field), (2, "L" * 70_000, "f" * 5000))

    def test_verdicts_that_are_kept(self):
        """What was told of a message stays, whatever is told of others meanwhile, and whoever still has it."""
        checker, messages = self.module.Schema(ORDERS, prefixed=True), messages_of(POST)
        given = [one[:end] for one in messages for end in (len(one), 9, 40, len(one) - 1)]
        want = [str(self.module.Schema(ORDERS, prefixed=True).check(one)) for one in given]
        for kept in (1, 2, 3, len(given)):
            held, told = [], []
            for one in given * 3:
                held.append(checker.check(one))
                if len(held) == kept:
                    told += map(str, held)
                    held.clear()
            self.same(f"{kept} at a time", told + [*map(str, held)], want * 3)
        first, second = checker.check(messages[0]), checker.check(messages[4])
        keys = {first: "a good one", second: "a bad one"}
        told = [keys.get(checker.check(one)) for one in messages]
        self.same("as keys", told, ["a good one", None, None, None, "a bad one", None])
        error = self.fails("a bad message", self.module.BadBuffer, "V10", lambda: checker.verify(messages[4]))
        checker.check(messages[0]), checker.check(messages[0])
        self.same("an exception's", (error.verdict, str(error)), (second, str(second)))

    def test_options(self):
        good = self.by("M").check(ORC)
        for name, options, data, want in [
            ("an identifier", {"ident": b"NONE"}, ORC, 5),
            ("one that is there", {"ident": b"MEMB", "root": "R", "prefixed": True}, buffers.ODD_MEMBER, 3),
            ("no alignment", {"root": "R", "prefixed": True, "alignment": False}, buffers.ODD_MEMBER, None),
            ("depth", {"max_depth": 0}, ORC, 6), ("tables", {"max_tables": 0}, ORC, 7),
            ("reads", {"max_reads": 5}, ORC, 13), ("none", {"max_reads": 0}, ORC, 13),
            ("the schema's own identifier, of which it has none", {"ident": "own"}, ORC, None),
        ]:
            told = self.by("X" if "root" in options else "M", **options).check(data)
            self.same(name, told.reason, want)
        own = self.module.Schema(schema([table("T")], root="T", ident="OWNS"), ident="own")
        self.same("the schema's own identifier", [own.check(buffer({}, ident)).reason for ident in (b"OWNS", b"ELSE")],
                  [None, 5])
        first = self.by("M")
        second = first.replace(max_reads=5)
        third = second.replace(max_reads=10)
        self.same("replaced ones", (first.check(ORC), second.check(ORC).reason, third.check(ORC)), (good, 13, good))
        self.same("are told", (second.options.max_reads, first.options, "max_reads=5" in repr(second)),
                  (5, self.module.Options(), True))
        self.fails("and aren't changed", AttributeError, "options", lambda: setattr(first, "options", second.options))
        chain = buffers.levels(4096)
        deep = [self.by("CHAIN", max_depth=depth).check(chain).reason for depth in (4095, 4096)]
        self.same("the greatest depth", deep, [6, None])
        for options in [{"ident": b"abc"}, {"ident": "text"}, {"max_depth": 4097}, {"max_tables": -1},
                        {"max_reads": 2**64}, {"reads_per_byte": 2**32}]:
            self.fails(f"{options}", ValueError, *options, lambda: self.by("M", **options))
            self.fails(f"{options} in place of others", ValueError, *options, lambda: first.replace(**options))
        for options in [{"max_depth": "7"}, {"max_reads": 1e6}, {"max_tables": None}]:
            self.fails(f"{options}", TypeError, *options, lambda: self.by("M", **options))
        for wrong in (self.by, lambda _, **words: first.replace(**words)):
            self.fails("a word that is none", TypeError, "depth", lambda: wrong("M", depth=3))

    def test_strict(self):
        """A schema that is made with strict=True makes all of its checks so; the program is the other voice."""
        plain, strict, as_bytes = (self.by("X", root="R", **options) for options in (
            {}, {"strict": True}, {"strict": True, "plain_bytes": True}))
        by_r = ["--names", "--schema", FILES["X"], "--root", "R"]
        both = prefixed(MEMBER) + prefixed(WILD)
        for checker, words in [(plain, []), (strict, ["--strict"]), (as_bytes, ["--strict", "--plain-bytes"])]:
            for data in (MEMBER, WILD):
                want = run("--bare", *by_r, *words, given=data).out.decode()
                self.same(f"{words}", f"1 {checker.check(data)}\n", want)
            want = run(*by_r, *words, given=both).out.decode().splitlines()
            told = [verdict for _, verdict in checker.replace(prefixed=True).messages(both)]
            self.same(f"{words}: a stream", lines_of(told), want)
            self.same(f"{words}: values", checker.read(MEMBER, "u@A.v"), 5)
        self.same("a wild value", [one.check(WILD).reason for one in (plain, strict, as_bytes)], [None, 2, 2])
        self.fails("is none", self.module.BadBuffer, "V2 OutOfBuffer", lambda: strict.read(WILD, "u"))
        self.same("unless it isn't asked", plain.read(WILD, "u"), self.module.Union(0))
        for name, other, want in [
            ("other limits", strict.replace(max_depth=9), 2), ("strict", plain.replace(strict=True), 2),
            ("not strict", strict.replace(strict=False), None), ("and again", strict.replace(strict=False).replace(
                strict=True), 2), ("as plain bytes", strict.replace(plain_bytes=True), 2),
            ("not any more", as_bytes.replace(plain_bytes=False), 2),
            ("pickled", pickle.loads(pickle.dumps(strict)), 2),
        ]:
            self.same(f"replaced: {name}", other.check(WILD).reason, want)
        self.holds("it's told", "strict=True" in repr(strict) and strict.options.strict, strict)

    def test_fields_and_texts(self):
        """A schema that is made with known_fields=True, or utf8=True, makes all of its checks so."""
        messages = [ORC, NO_TEXT, THIRD_SLOT]
        for options, words, reasons in [
            ({}, [], [None, None, None]), ({"known_fields": True}, ["--known-fields"], [None, None, 16]),
            ({"utf8": True}, ["--utf8"], [None, 15, None]),
            ({"known_fields": True, "utf8": True}, ["--known-fields", "--utf8"], [None, 15, 16]),
            ({"strict": True, "utf8": True}, ["--strict", "--utf8"], [None, 15, None]),
        ]:
            made, by_m = self.by("M", **options), ["--names", "--schema", FILES["M"], *words]
            for checker in (made, self.by("M", strict=True).replace(**{"strict": False, **options})):
                told = [checker.check(data) for data in messages]
                self.same(f"{options}: the reasons", [verdict.reason for verdict in told], reasons)
                want = [run("--bare", *by_m, given=data).out.decode() for data in messages]
                self.same(f"{options}: the program", [f"1 {verdict}\n" for verdict in told], want)
                given = b"".join(map(prefixed, messages))
                told = [verdict for _, verdict in checker.replace(prefixed=True).messages(given)]
                self.same(f"{options}: a stream", lines_of(told), run(*by_m, given=given).out.decode().splitlines())
            again = made.replace(known_fields=False, utf8=False, strict=False)
            self.same(f"{options}: not any more", [again.check(data).reason for data in messages], [None] * 3)

    def test_what_strict_refuses(self):
        of = self.module
        for name in ("BYTES", "LOST"):
            fault = run("--schema", FILES[name], "--strict").err.decode().removeprefix("fbcheck: ").strip()
            fault = fault.replace("--plain-bytes", "plain_bytes")
            self.holds(f"{name}: the program names the field", ": a.T.b; " in fault, fault)
            error = self.fails(name, of.SchemaError, fault, lambda: self.by(name, strict=True))
            self.same(f"{name}: the file", str(error), f"{FILES[name]}: {fault}")
            self.same(f"{name}: pickled", str(pickle.loads(pickle.dumps(error))), str(error))
            self.fails(f"{name}, afterwards", of.SchemaError, fault, lambda: self.by(name).replace(strict=True))
            checker = self.by(name, strict=True, plain_bytes=True)
            self.same(f"{name}, as plain bytes", str(checker.check(PLAIN)), "ok tables=1 depth=1 reads=3")
            self.fails(f"{name}, not as these", of.SchemaError, fault, lambda: checker.replace(plain_bytes=False))
        for call in (lambda: self.by("M", plain_bytes=True), lambda: self.by("M").replace(plain_bytes=True)):
            self.fails("plain bytes alone", ValueError, "plain_bytes needs strict", call)

    def test_values(self):
        """Each kind, as it was worked out by hand."""
        of = self.module
        for name, data, path, want, *root in [
            ("M", ORC, "name", "Orc"), ("M", ORC, "hp", 300), ("M", PLAIN, "hp", 100), ("M", PLAIN, "name", None),
            ("X", MEMBER, "u", of.Union(1), "R"), ("X", MEMBER, "u@A", of.Table(), "R"), ("X", MEMBER, "u@A.v", 5, "R"),
            ("X", MEMBER, "u@T", None, "R"), ("X", lower_type(9), "u", of.Union(9), "R"), ("X", PLAIN, "u", None, "R"),
            ("X", PLAIN, "u_type", 0, "R"), ("X", MEMBERS, "us", of.Vector(2)), ("X", MEMBERS, "us[0]", of.Union(3)),
            ("X", MEMBERS, "us[0]@T", "hi"), ("X", MEMBERS, "us[1]", of.Union(0)), ("X", MEMBERS, "us[2]@T", None),
            ("X", MEMBERS, "us[4294967295]", None), ("G", HALVES, "f", 1.5), ("G", PLAIN, "f", 0.0),
            ("NODE", TWINS, "a.b", of.Table()), ("NODE", TWINS, "a.b.a.b", None), ("N", SEVEN, "v", 7),
        ]:
            checker = self.by(name, root=root[0] if root else None, prefixed=name == "N")
            for times in ("first", "again"):
                got = checker.read(data, path)
                self.same(f"{path} of {name}, {times}", (type(got), got), (type(want), want))
            self.same(f"{path} of {name}, resolved", checker.read(data, checker.path(path)), want)
        for name, data, path, want, form, *root in [
            ("X", PLACED, "u@W", struct.pack("<q", 7), "B", "R"), ("X", MEMBERS, "us_type", b"\3\0", "B"),
            ("Z", changed(ASKEW, (16, "0400")), "l", b"", "q"),
        ]:
            checker = self.by(name, root=root[0] if root else None, alignment=False)
            if checker.check(data):
                got = checker.read(data, path)
                self.same(f"bytes at {path} of {name}", (bytes(got), got.format, got.readonly), (want, form, True))
        many = self.by("M").read(ORC, "name", "hp", "name")
        self.same("several are a tuple", many, ("Orc", 300, "Orc"))
        eleven = self.by("M").read(ORC, *["hp"] * 50)
        self.same("fifty too", eleven, (300,) * 50)

    def test_names_of_types(self):
        """A union tells the name of its type, if the schema has one."""
        of, data = self.module, messages_of(POST)[0]
        by_root, checker, by_orders = self.by("X", root="R"), self.by("X"), of.Schema(ORDERS, prefixed=True)
        for name, by, given, path, number, want in [
            ("of a field", by_root, MEMBER, "u", 1, "A"), ("an unknown one", by_root, lower_type(9), "u", 9, None),
            ("of an element", checker, MEMBERS, "us[0]", 3, "T"), ("none", checker, MEMBERS, "us[1]", 0, "NONE"),
            ("of another union", by_orders, data, "first", 2, "Letter"),
        ]:
            for turn in ("first", "again"):
                told = by.read(given, path)
                self.same(f"{name}, {turn}", (told.type, told.name, told), (number, want, of.Union(number)))
            view = by.view(given)
            several = [view.read(path, path)[1], by.read(given, by.path(path)), pickle.loads(pickle.dumps(told))]
            self.same(f"{name}, in other ways", [(one.type, one.name) for one in several], [(number, want)] * 3)

    def test_numbers_anywhere(self):
        """A vector's numbers have their type wherever a path leads to it, however few they are."""
        inner = schemas.a_struct("game.P", 8, 2, field("hs", schemas.array(SHORT, 4), 0))
        file = schema(
            [inner, table("A", field("v", vector(DOUBLE), 4)),
             table("N", field("next", an_object(2), 4), field("v", vector(LONG), 6), field("p", an_object(0), 8),
                   field("u_type", U_TYPE, 10), field("u", a_union(0), 12), field("ns", vector(an_object(2)), 14),
                   field("us_type", vector(U_TYPE), 16), field("us", vector(a_union(0)), 18),
                   field("ps", vector(an_object(0)), 20))],
            [union("U", ("NONE", 0, schemas.NONE), ("game_A", 3, an_object(1)))], root="N")
        member = {0: Plain(b"", 8, 0)}
        leaf = {1: Plain(b"", 8, 0), 2: Plain(struct.pack("<4h", 1, 2, 3, 4), 2, None), 3: ("B", 3), 4: member,
                5: [{1: Plain(b"", 8, 0)}], 6: Plain(b"\3", 1, 1), 7: [member], 8: Plain(bytes(16), 2, 2)}
        whole = buffer(leaf)
        checker = self.module.Schema(file)
        for path, letter in [("v", "q"), ("p.hs", "h"), ("u@game_A.v", "d"), ("ns[0].v", "q"), ("us[0]@game_A.v", "d"),
                             ("ps[1].hs", "h"), ("us_type", "B"), ("ps", "B")]:
            self.same(f"at {path}", checker.read(whole, path).format, letter)
        self.same("from another root", checker.replace(root="A").read(buffer(member), "v").format, "d")
        for _ in range(30):
            leaf = {0: leaf}
        path = ".".join(["next"] * 30)
        self.same("at the 31st step", checker.read(buffer(leaf), f"{path}.v").format, "q")

    def test_real_defaults(self):
        """Absent floats have their defaults."""
        rows = real_defaults.VALUES
        got = self.module.Schema(real_defaults.FILE).read(real_defaults.MESSAGE, *[path for path, _, _, _ in rows])
        self.same("each", [*zip([row[0] for row in rows], map(repr, got))], [(row[0], repr(row[3])) for row in rows])

    def test_numbers(self):
        """Each type at its bounds, alone and in vectors, which are slices of the message."""
        file = schema([table("T", *[row for number, (name, kind, _) in enumerate(NUMBERS) for row in (
            field(name, kind, 4 + 4 * number), field(f"{name}s", vector(kind), 6 + 4 * number))],
            field("yes", BOOL, 44), field("yeses", vector(BOOL), 46), field("types", vector(U_TYPE), 48))], root="T")
        checker = self.module.Schema(file)
        for number, (name, _, letter) in enumerate(NUMBERS):
            size = 8 * struct.calcsize(f"<{letter}")
            bounds = {"f": (1.5, -0.0, float("inf")), "d": (1e300, -0.0, float("-inf"))}.get(
                letter, (0, 2**size - 1) if letter.isupper() else (-(2 ** (size - 1)), 2 ** (size - 1) - 1))
            for value in bounds:
                got = checker.read(buffer({2 * number: (letter, value)}), name)
                self.same(f"{name} {value}", (type(got), repr(got)), (type(value), repr(value)))
            values = array.array(letter, bounds)
            data = bytearray(buffer({2 * number + 1: Plain(values.tobytes(), 8, len(values))}))
            got = checker.read(data, f"{name}s")
            self.same(f"{name}s", (got.format, got.tolist(), got.readonly, len(got)),
                      (letter, values.tolist(), True, len(values)))
            self.same(f"an element of {name}s", checker.read(data, f"{name}s[1]"), values[1])
            self.same(f"{name}s are no copy", (got.obj is data, got.nbytes), (True, len(values) * values.itemsize))
            empty = checker.read(buffer({2 * number + 1: Plain(b"", 8, 0)}), f"{name}s")
            self.same(f"no {name}s", (type(empty), len(empty), empty.format), (memoryview, 0, letter))
        for byte, want in [(0, False), (1, True), (255, True)]:
            self.same(f"a Bool of {byte}", checker.read(buffer({20: ("B", byte)}), "yes"), want)
        data = buffer({21: Plain(b"\0\1\xff", 1, 3), 22: Plain(b"\5", 1, 1)})
        self.same("Bools and types in rows", [*map(bytes, checker.read(data, "yeses", "types"))], [b"\0\1\xff", b"\5"])
        data = bytearray(data)
        part = checker.read(data, "yeses")
        data[data.index(b"\0\1\xff")] = 9
        self.same("a slice has what the message has", bytes(part), b"\t\1\xff")
        self.fails("which keeps its length meanwhile", BufferError, "", lambda: data.extend(b"more"))
        self.fails("and isn't written by it", TypeError, "read-only", lambda: part.__setitem__(0, 1))

    def test_texts(self):
        file = schema([table("T", field("s", TEXT, 4), field("all", vector(TEXT), 6))], root="T")
        checker = self.module.Schema(file)
        for given in [b"", b"plain", "é 漢 🙂".encode(), b"\0", b"\xff\x80", b"a\xed\xa0\x80z", bytes(range(256))]:
            got = checker.read(buffer({0: given}), "s")
            back = got.encode("utf-8", "surrogateescape")
            self.same(f"{given[:9]}: a text that has all its bytes", (type(got), back), (str, given))
            self.same(f"{given[:9]}: in a vector", checker.read(buffer({1: [b"first", given]}), "all", "all[1]"),
                      (self.module.Vector(2), got))
        self.same("UTF-8 is read", checker.read(buffer({0: "é 漢 🙂"}), "s"), "é 漢 🙂")
        self.same("a vector has its length", (len(self.module.Vector(2)), bool(self.module.Vector(0)),
                                              bool(self.module.Table())), (2, False, True))

    def test_what_reading_refuses(self):
        checker = self.by("M")
        of = self.module
        got = self.fails("a bad message", of.BadBuffer, "bad V2 OutOfBuffer", lambda: checker.read(ORC[:-1], "name"))
        self.same("has its verdict", got.verdict, checker.check(ORC[:-1]))
        paths = self.module.Schema(ORDERS)
        for text, words in [
            ("to..name", "first 3 bytes"), ("", "first 0 bytes"), ("é", "first 0 bytes"), ("to.nam", "P2 at '.nam'"),
            ("nam", "P2 at 'nam'"), ("to[3]", "P3 at '[3]'"), ("items[0]@Parcel@Parcel", "P4 at '@Parcel'"),
            ("items[0]@Nobody", "P5 at '@Nobody'"), ("to.name.x", "P6 at '.x'"),
            ("to.nam", "no such field; did you mean name?; fields: name"), ("to[3]", "no element; this is a table"),
            ("items[0]@Nobody", "no such member; this union's members: Parcel Letter Place Note"),
            ("to.home.zz", "P2 at '.zz'"),
        ]:
            self.fails(f"the path {text!r}", of.PathError, words, lambda: paths.path(text))
            self.fails(f"{text!r} of a message", of.PathError, words, lambda: paths.read(POST, text))
        long = self.by("CHAIN").path(".".join(["next"] * 31))
        self.same("31 steps", self.by("CHAIN").read(buffers.levels(2), long), None)
        self.fails("32 steps", of.PathError, "31 steps", lambda: self.by("CHAIN").path(".".join(["next"] * 32)))
        for path in (3, None, b"name", ["name"], ("name", "hp"), {"name"}):
            words = f"not {type(path).__name__!r}; view.read(*paths) and read(message, *paths) take several"
            for call in (lambda: checker.read(ORC, path), lambda: checker.read(ORC, "hp", path),
                         lambda: checker.path(path)):
                self.fails(f"a path that is {path!r}", TypeError, words, call)
        self.fails("another's path", of.PathError, "another schema", lambda: checker.read(ORC, paths.path("to.name")))
        self.fails("no path", TypeError, "path", lambda: checker.read(ORC))
        paths = paths.replace(prefixed=True)
        many = {paths.read(messages_of(POST)[1], f"items[{number}]") for number in range(3000)}
        self.same("more paths than are kept", (many, len(paths._paths) < 2000), ({None}, True))

    def test_what_loading_refuses(self):
        of = self.module
        for name, source, words in [
            ("no bytes", b"", "V2 OutOfBuffer at byte 4"),
            ("a text", TOP / "examples/deliveries.fbs", "flatc --binary --schema"),
            ("one by its path", "bindings/python/README.md", "bindings/python/README.md: no binary schema"),
            ("an object that isn't there", schema([table("A", field("b", an_object(7), 4))]),
             "C1 NoSuchObject in object 0, field 0"),
            ("a member twice", schema([table("A", field("u_type", U_TYPE, 4), field("u", a_union(0), 6))], [
                union("U", ("A", 1, an_object(0)), ("B", 1, TEXT))]), "C7 BadMember in enum 0, member 1"),
            ("a name twice", schema([table("A"), table("A")]), "C8 NameTwice"),
            ("a root that isn't listed", schema([table("A")], root="B"), "isn't listed"),
            ("no root", schema([table("A")]), "say which one by root="),
        ]:
            error = self.fails(name, of.SchemaError, words, lambda: of.Schema(source))
            self.same(f"{name}: pickled", str(pickle.loads(pickle.dumps(error))), str(error))
        self.same("a root that is said", bool(of.Schema(schema([table("A")]), root="A").check(PLAIN)), True)
        for root in ("Delivery", "post.Nobody", "", "é"):
            words = f"no table {root!r}; tables: post.Delivery post.Letter post.Parcel post.Person"
            self.fails(f"the root {root!r}", of.SchemaError, words, lambda: of.Schema(ORDERS, root=root))
        self.fails("a struct as the root", of.SchemaError, "'W'", lambda: self.by("X", root="W"))
        self.fails("an identifier that isn't one", of.SchemaError, "hasn't 4 bytes", lambda: of.Schema(
            schema([table("T")], root="T", ident="OWN"), ident="own"))
        self.fails("no file", FileNotFoundError, "nowhere", lambda: of.Schema("nowhere"))
        for source in (3, None, io.BytesIO(schemas.M)):
            self.fails("no bytes at all", TypeError, "a path or a bytes-like", lambda: of.Schema(source))
        for kind in (bytes, bytearray, memoryview, lambda data: array.array("B", data)):
            self.same("a schema of any bytes", bool(of.Schema(kind(schemas.M)).check(ORC)), True)
        for path in (str(FILES["M"]), FILES["M"], pathlib.Path(FILES["M"])):
            self.same("a schema by its path", bool(of.Schema(path).check(ORC)), True)
        self.holds("all are errors of the package, and wrong values", issubclass(of.SchemaError, (of.Error)) and all(
            issubclass(kind, ValueError) for kind in (of.SchemaError, of.BadBuffer, of.PathError, of.StreamError)))

    def test_messages_of_any_kind(self):
        """Whatever has bytes is checked; what has none is refused."""
        checker, file = self.by("M"), file_of("orc.bin", ORC)
        with open(file, "r+b") as opened, mmap.mmap(opened.fileno(), 0) as mapped, \
                mmap.mmap(opened.fileno(), 0, access=mmap.ACCESS_READ) as kept:
            for given in [ORC, bytearray(ORC), memoryview(ORC), memoryview(bytearray(ORC)).toreadonly(), mapped, kept,
                          memoryview(b"?" + ORC)[1:], array.array("I", ORC)]:
                name = type(given).__name__
                told = str(checker.check(given)), checker.verify(given).tables, checker.read(given, "name")
                self.same(name, told, ("ok tables=1 depth=1 reads=8", 1, "Orc"))
        for given in ("text", None, 5, [1, 2]):
            for call in (checker.check, checker.verify, lambda given: checker.read(given, "hp")):
                self.fails(f"{given!r}", TypeError, "bytes-like", lambda: call(given))
        self.fails("one in parts", BufferError, "contiguous", lambda: checker.check(memoryview(ORC)[::2]))
        for given in (b"", bytearray(), memoryview(b""), array.array("I")):
            told = checker.check(given)
            self.same("an empty one", (told.reason, told.position, told.place), (2, 0, "."))
        with mmap.mmap(-1, 2**31) as long:
            self.fails("one of 2^31 bytes", self.module.Error, "2^31", lambda: checker.check(long))
        data = named(2**26, prefix=False)
        self.same("one of 64 MB", (bool(checker.check(data)), len(checker.read(data, "name"))), (True, 2**26 - 29))
        self.same("and one that ends too early", checker.check(memoryview(data)[:-1]).reason, 2)

    def test_once(self):
        """A check that fails at its last reads costs as much as one that ends well: it goes through a message once."""
        chain, checkers = buffers.doubling(12), [self.by("NODE", reads_per_byte=reads) for reads in (74, 73)]
        self.same("they end well and fail", [of.check(chain).reason for of in checkers], [None, 13])
        turns = [[timeit.timeit(lambda: of.check(chain), number=10) for of in checkers] for _ in range(400)]
        good, bad = map(min, zip(*turns))
        self.holds("and cost as much", bad < 1.5 * good, (good, bad))

    def test_messages_that_change(self):
        """What can be written is checked as a copy, so that a writer changes verdicts, and no more."""
        told = self.alone(WRITTEN, schemas.M.hex(), ORC.hex(), ORC.index(b"Orc") - 12)
        self.same("what is told meanwhile", told, (0, "None; Orc; V2 OutOfBuffer\n", ""))
        resident = lambda: int(re.search(r"VmRSS:\s+(\d+)", pathlib.Path("/proc/self/status").read_text())[1]) >> 10
        checker, data = self.by("M"), bytearray(named(2**26, prefix=False))
        before = resident()
        for given in (data, memoryview(data).toreadonly()):
            self.same("a long one", [bool(checker.check(given)) for _ in range(4)], [True] * 4)
        self.holds("no copy is kept", resident() < before + 32, (before, resident()))

    def test_threads(self):
        """A million checks of one schema, some of bad messages, some of ones for which others may run."""
        rows = [(ORC, True), (PLAIN, True), (ORC[:-1], False), (named(300, prefix=False), True)] * 25 + [
            (named(5000, prefix=False), True), (named(5000, prefix=False)[:-1], False)]
        checker, deep = self.by("M"), self.by("M", max_depth=500)

        def wrong(turns):
            """How many verdicts and values are wrong in so many turns."""
            count = 0
            for turn in range(turns):
                for data, want in rows if turn % 100 == 0 else rows[:100]:
                    count += bool(checker.check(data)) != want
                if turn % 100 == 0:
                    count += deep.read(rows[-2][0], "hp") != 300
            return count

        self.same("wrong ones", on_eight(wrong, 1250), [0] * 8)

    def test_others_run_meanwhile(self):
        """While a message takes long, another thread does its work."""
        chain = buffers.doubling(22)
        checker = self.by("NODE", max_tables=2**32 - 1, max_reads=2**64 - 1, reads_per_byte=2**32 - 1)

        told = tried(lambda: turns_beside(checker.check, chain), lambda turns: turns > 10)
        self.holds("turns of the other thread", told[-1] > 10, told)

    def test_sizes_in_front(self):
        """A bad message tells where its size is asked for or not, against what its first bytes show."""
        of, bare, checker = self.module, self.by("M"), self.by("M", prefixed=True)
        has, hasnt = "its first 4 bytes are the number", "its first 4 bytes aren't the number"
        for name, by, given, words in [("a size", bare, prefixed(ORC), has), ("no size", checker, ORC, hasnt),
                                       ("another size", checker, prefixed(ORC) + b"?", hasnt)]:
            verdict = by.check(given)
            self.holds(name, verdict.hint.startswith(words), verdict.hint)
            self.same(f"{name}: as a text", repr(verdict), f"<Verdict {verdict}; {verdict.hint}>")
            for call in (by.verify, by.view, by.to_dict, lambda given: by.read(given, "hp")):
                error = self.fails(name, of.BadBuffer, f"{verdict}; {words}", lambda: call(given))
                self.same(f"{name}: pickled", str(pickle.loads(pickle.dumps(error))), str(error))
        for name, by, given in [("a good one", bare, ORC), ("one that is cut", bare, ORC[:-1]), ("nothing", bare, b""),
                                ("one with its size", checker, prefixed(ORC)), ("few bytes", bare, b"\0\0\0\0"),
                                ("a bad one with its size", checker, prefixed(ORC[:-1]))]:
            self.same(name, (by.check(given).hint, by.check(bytearray(given)).hint), (None, None))

    def test_types(self):
        """A type checker finds no fault in the package, and in what uses it those that a line says, and no others."""
        if not there("mypy"):
            self.skipTest("mypy isn't there")
        folder, path = TOP / "tests/bindings/python", str(BINDING / "src")
        words = ["mypy", "--strict", "--no-error-summary", "--hide-error-context", "--cache-dir", FOLDER / "mypy"]
        self.same("the package", ran(*words, "-p", "fbcheck", MYPYPATH=path, seconds=300), (0, "", ""))
        want = {str(number) for number, line in enumerate((folder / "typed.py").read_text().splitlines(), 1)
                if line.endswith("# error")}
        told = ran("env", "-C", folder, *words, "-m", "typed", MYPYPATH=path, seconds=300)[1]
        self.same("what uses it", {*re.findall(r"^typed\.py:(\d+): error: ", told, re.M)}, want)

    def test_help(self):
        """help() begins with what one does with the package, and no name is offered that isn't for everybody."""
        page = pydoc.render_doc(self.module, renderer=pydoc.plaintext)
        script = textwrap.dedent(page.partition("DESCRIPTION\n")[2].partition("    A message")[0])
        self.holds("its first words are a program", script.startswith("import fbcheck\n"), script)
        script = script.replace('"my.bfbs"', f'"{ORDERS}", prefixed=True')
        script = script.replace("monster.name", "to.name").replace("monster.hp", "to.age")
        for message, want in [(0, ["Ada", "36"]), (4, ["bad V10", "in items[1]@Note"])]:
            given = f"message = bytes.fromhex('{messages_of(POST)[message].hex()}')\n{script}"
            told = self.alone(f"{given}if verdict: print(name, hp)\n")
            self.holds("it runs", (told[0], told[2]) == (0, "") and all(word in told[1] for word in want), told)
        offered = [name for name in dir(self.module) if not name.startswith("_")]
        self.same("names", offered, sorted(self.module.__all__))
        for kind in (self.module.Schema, self.module.Verdict):
            parts = [part for part in dir(kind) if not part.startswith("_") and not getattr(kind, part).__doc__]
            self.same(f"what {kind.__name__} has begins with _, or is documented", parts, [])
        self.holds("a call tells its words", "read(self, message, path, /, *paths)" in page, page)

    def test_nothing_leaks(self):
        status, out, err = self.alone(LEAKS, schemas.M.hex(), ORC.hex(), ORC[:-1].hex())
        few = (status, err) == (0, "") and int(out) < 2000
        self.holds("100,000 loads take less than 2 MB", few, (status, out, err))

    def test_shipped(self):
        """A schema is pickled by its bytes and options, to other processes too."""
        first = self.module.Schema(ORDERS, prefixed=True, max_reads=5000)
        for again in (pickle.loads(pickle.dumps(first)), copy.copy(first), copy.deepcopy(first)):
            self.same("the same options", again.options, first.options)
            messages = messages_of(POST)
            self.same("the same verdicts", [*map(again.check, messages)], [*map(first.check, messages)])
            self.same("the same values", again.read(messages[0], "to.name"), "Ada")
        lines = run("--schema", ORDERS, "--names", given=POST).out.decode().splitlines()
        lines = [line.partition(" ")[2] for line in lines]
        script = file_of("shipped.py", SHIPPED.encode())
        told = ran(sys.executable, script, ORDERS, TOP / "examples/deliveries.bin", PYTHONPATH=str(self.folder),
                   seconds=300)
        self.same("by other processes", told, (0, "\n".join([*lines, lines[4], ""]), ""))

    def test_the_page(self):
        """The README's program does what stands behind it."""
        page = (BINDING / "README.md").read_text()
        code = page.split("```python\n")[1].split("```")[0]
        want = re.findall(r"^# (.*)$", code, re.M)
        told = subprocess.run([sys.executable, "-c", code], capture_output=True, text=True, cwd=TOP, timeout=60,
                              env={**os.environ, "PYTHONPATH": str(self.folder)})
        self.same("its lines", (told.returncode, told.stdout.splitlines(), told.stderr), (0, want, ""))
        version = re.search(r"^Version: (.*)$", (TOP / "c/fbcheck.pc.in").read_text(), re.M)[1]
        project = (BINDING / "pyproject.toml").read_text()
        self.holds("it has the library's version", f'version = "{version}"\n' in project, project)
        self.same("and tells it", self.module.__version__, version)
        commit = self.module.__commit__
        self.holds("and the library's commit, where it is known", re.fullmatch(r"[0-9a-f]{40}|\?{40}", commit), commit)
        checker = self.module.Schema(ORDERS, prefixed=True)
        bad = page.split("fbcheck.BadBuffer: ")[1].splitlines()[0]
        self.same("what a no looks like", str(checker.check(messages_of(POST)[4])), bad)
        for name in self.module.__all__:
            self.holds(f"{name} is documented", getattr(self.module, name).__doc__)
        for name in ("check", "verify", "read", "messages", "columns", "path", "replace"):
            self.holds(f"{name} is documented", getattr(checker, name).__doc__)
