"""The program beside a plain walk by the rules.

Buffers with every kind of field, cut off everywhere and with each byte changed to many others, go through the program
as one stream, and each line, also as JSON, is held against what the walk says of that buffer, under several options.
"""

import collections
import json
import random
import struct

from tests.support import buffers, schemas
from tests.support.builder import buffer, prefixed
from tests.support.cases import Case
from tests.support.every_kind import FILE, LITTLE, OBJECTS, OPTIONS, UNION, WHOLE, variants, words_of
from tests.support.json_lines import names_of, read, said, spans_of
from tests.support.naive import NAMES, Reader, Schema, Walk, pieces_in, refusal
from tests.support.program import UNSCHEMED, Ran, file_of, good, lines, refused, run
from tests.support.schemas import an_object, field, table

ALL = Schema(OBJECTS, [UNION])
BY_ALL = ("--schema", file_of("all.bfbs", FILE))


def reasons_of(wants):
    """The codes among these verdicts, in rising order."""
    return sorted({want.split()[1] for want in wants if want.startswith("bad")}, key=lambda code: int(code[1:]))


PATHS = [
    "yes", "least", "short", "long", "real", "place", "name", "last", "bytes", "bytes[2]", "longs[1]", "places[1]",
    "texts", "texts[2]", "below", "below.v", "below.next", "below.next.v", "below.next.next.v", "tables[0].next.v",
    "tables[1].v", "one_type", "one", "one@Wide", "one@Below.v", "one@Text", "many", "many_type[5]",
    "many[0]@Below.next.v", "many[1]@Place", "many[2]@Text", "many[4]", "many[5]@Wide", "many[6]@Wide",
]

# A schema file in which every field of every table of reflection.fbs is there.
COMMENT = ["", "a comment"]
ATTRIBUTES = [{0: "key", 1: "value"}, {0: "alone"}]
TYPE = {0: ("b", 14), 1: ("b", 7), 2: ("i", -1), 3: ("H", 0)}
A_FIELD = {
    0: "v", 1: TYPE, 2: ("H", 0), 3: ("H", 4), 4: ("q", 1), 5: ("d", 0.5), 6: ("B", 0), 7: ("B", 0), 8: ("B", 1),
    9: ATTRIBUTES, 10: COMMENT, 11: ("B", 0), 12: ("H", 0), 13: ("B", 0),
}
AN_OBJECT = {0: "T", 1: [A_FIELD], 2: ("B", 0), 3: ("i", 1), 4: ("i", 0), 5: ATTRIBUTES, 6: COMMENT, 7: "//t.fbs"}
A_VALUE = {0: "One", 1: ("q", 1), 2: {}, 3: {0: ("b", 0)}, 4: COMMENT, 5: ATTRIBUTES}
AN_ENUM = {0: "E", 1: [A_VALUE, {0: "Two"}], 2: ("B", 0), 3: TYPE, 4: ATTRIBUTES, 5: COMMENT, 6: "//t.fbs"}
A_CALL = {0: "call", 1: {0: "T", 1: []}, 2: {0: "T", 1: []}, 3: ATTRIBUTES, 4: COMMENT}
A_SERVICE = {0: "S", 1: [A_CALL], 2: ATTRIBUTES, 3: COMMENT, 4: "//t.fbs"}
A_SCHEMA = {
    0: [AN_OBJECT], 1: [AN_ENUM], 2: "KIND", 3: "bin", 4: {0: "T", 1: []}, 5: [A_SERVICE], 6: ("Q", 3),
    7: [{0: "//t.fbs", 1: ["//a.fbs", "//b.fbs"]}],
}

# A row of each table of reflection.fbs.
ROWS = [TYPE, ATTRIBUTES[0], A_VALUE, AN_ENUM, A_FIELD, AN_OBJECT, A_CALL, A_SERVICE, A_SCHEMA[7][0], A_SCHEMA]


def told_behind(by, wants):
    """What is told behind these verdicts, of which not all have one reason: that no schema file is named, where none is
    good."""
    none = "--schema" not in by and not any(want.startswith("ok") for want in wants)
    return [f"fbcheck: no message was good: {UNSCHEMED}"] if none else []


def sent(data):
    """The buffer behind its length in the order of bytes of networks."""
    return struct.pack(">I", len(data)) + data


def spans_in(given):
    """Where these buffers stand in a stream of all of them."""
    return spans_of(b"".join(map(prefixed, given)))


class BesideNaive(Case):
    def told_alike(self, name, by, schema_and_root, given, options):
        """One stream of all these buffers, and what the walk says of each."""
        options = {"tables": 500, **options}
        ran = run(*by, *words_of(options), given=b"".join(map(prefixed, given)))
        ident = options.pop("ident", None)
        walks = [Walk(*schema_and_root, prefixed(data), **options) for data in given]
        wants = [walk.verdict(ident) for walk in walks]
        got = ran.out.decode().splitlines()
        told = told_behind(by, wants)
        self.same(f"{name}: a line for each of {len(given)} buffers", (len(got), ran.err), (len(given), lines(*told)))
        differing = [(line, want) for line, want in zip(got, wants) if line.partition(" ")[2] != want]
        self.same(f"{name}: lines that differ, with what is expected", differing[:5], [])
        self.same(f"{name}: their number", len(differing), 0)
        options = options if ident is None else {**options, "ident": ident}
        self.sorted_out(name, by, given, options, wants)
        placed = [want + (walk.place() if want.startswith("bad") else "") for walk, want in zip(walks, wants)]
        self.named(name, by, given, options, placed)
        ran = run(*by, "--json", *words_of(options), given=b"".join(map(prefixed, given)))
        hints = [json.dumps({"hint": line.removeprefix("fbcheck: ")}, separators=(",", ":")) for line in told]
        self.as_json(name, schema_and_root[0], spans_in(given), ran, placed, told=hints)
        return wants

    def as_json(self, name, schema, spans, ran, wants, paths=(), told=(), values=None):
        """Each line of JSON says to a reader of JSON what the walk says of its buffer, and the reader of its values."""
        names, values = names_of(schema), values or [()] * len(wants)
        wanted = [said(f"{number} {want}".encode(), spans, names, paths, values[number - 1])
                  for number, want in enumerate(wants, 1)]
        got = [read(line) for line in ran.out.split(b"\n")[:-1]]
        differing = [pair for pair in zip(got, wanted) if pair[0] != pair[1]]
        self.same(f"{name}: lines of JSON that differ, with what is expected", differing[:3], [])
        self.same(f"{name}: as many lines of JSON", (len(got), ran.err), (len(wanted), lines(*told)))

    def named(self, name, by, given, options, wants):
        """The same stream with the places in words: each bad line ends with the way that the walk went."""
        ran = run(*by, "--names", *words_of(options), given=b"".join(map(prefixed, given)))
        got = [line.partition(" ")[2] for line in ran.out.decode().splitlines()]
        differing = [pair for pair in zip(got, wants) if pair[0] != pair[1]]
        self.same(f"{name}: lines with places that differ, with what is expected", differing[:5], [])
        self.same(f"{name}: as many lines with places", len(got), len(wants))
        paths = {want.partition(" in ")[2].partition(" ")[0] for want in wants if want.startswith("bad")} - {"."}
        refused = [path for path in sorted(paths) if run(*by, "--path", path, given=b"") != Ran(0, b"", b"")]
        self.same(f"{name}: of {len(paths)} places, those that are no path", refused, [])

    def sorted_out(self, name, by, given, options, wants):
        """The same stream through a filter: the buffers of which the walk says yes, and a line of each other one, which
        is itself among the rejects."""
        rejects = file_of("rejects", b"")
        ran = run(*by, "--filter", "--rejects", rejects, *words_of(options), given=b"".join(map(prefixed, given)))
        good, bad = (b"".join(prefixed(data) for data, want in zip(given, wants) if want.startswith(word))
                     for word in ("ok", "bad"))
        notes = [f"{number} {want}" for number, want in enumerate(wants, 1) if want.startswith("bad")]
        self.holds(f"{name}: the good ones are passed on", ran.out == good)
        self.holds(f"{name}: the others are kept", rejects.read_bytes() == bad)
        self.same(f"{name}: and the others are noted", ran.err, lines(*notes, *told_behind(by, wants)))

    def test_buffers_of_every_kind(self):
        told = []
        for which, root in [("all fields", WHOLE), ("few fields", LITTLE)]:
            data = buffer(root, b"KIND", prefix=True)[4:]
            given = list(variants(data, [1, 2, 4, 16, 252]))
            for options in OPTIONS:
                told += self.told_alike(f"{which}, {options}", BY_ALL, (ALL, 0), given, options)
            self.holds(f"{which}: the buffer itself is good", Walk(ALL, 0, prefixed(data)).verdict().startswith("ok"))
        self.same("each reason, but for a prefix that no message of a stream has", reasons_of(told),
                  [code for code in NAMES if code != "V1"])

    def test_every_budget_of_reads(self):
        """The buffer with all fields, within each budget up to what it costs."""
        given = buffer(WHOLE, b"KIND", prefix=True)
        cost = int(Walk(ALL, 0, given).verdict().rpartition("=")[2])
        for reads in range(cost + 1):
            want = f"1 {Walk(ALL, 0, given, reads=reads).verdict()}\n".encode()
            self.same(f"within {reads} reads", run(*BY_ALL, "--max-reads", str(reads), given=given).out, want)

    def test_reads_of_each_byte(self):
        """Chains whose levels each visit the next one twice, with more or fewer bytes behind them: a message may take
        so many reads for each of its own bytes and for 64 more, whatever stands before it."""
        node = Schema([table("Node", field("a", an_object(0), 4), field("b", an_object(0), 6))], [])
        by = "--schema", file_of("node.bfbs", schemas.NODE)
        given = [prefixed(buffers.doubling(levels) + bytes(more)) for levels in (9, 10, 11, 12)
                 for more in (4000, 0, 400, 40)]
        for most in 1, 2, 9:
            wants = [f"{number} {Walk(node, 0, message, reads=most * (len(message) + 64)).verdict()}"
                     for number, message in enumerate(given, 1)]
            ran = run(*by, "--reads-per-byte", str(most), given=b"".join(given))
            self.same(f"{most} for each byte", ran.out.decode().splitlines(), wants)
            self.holds("some are refused, and some aren't", 0 < sum("V13" in want for want in wants) < len(wants))

    def test_values_by_paths(self):
        """Of the bent buffers that are still good, the value at each path."""
        by = (*BY_ALL, "--no-alignment", "--max-tables", "500")
        data = buffer(WHOLE, b"KIND", prefix=True)[4:]
        walk = lambda given: Walk(ALL, 0, prefixed(given), tables=500, alignment=False)
        given = [bent for bent in variants(data, [1, 4, 252]) if walk(bent).verdict().startswith("ok")]
        self.holds("most buffers are good", len(given) > 400, len(given))
        verdicts = [walk(bent).verdict() for bent in given]
        for path in PATHS:
            ran = run(*by, "--path", path, given=b"".join(map(prefixed, given)))
            got = [line.split(" ", 5)[-1] for line in ran.out.decode().splitlines()]
            wants = [Reader(ALL, 0, prefixed(bent)).value(path) for bent in given]
            differing = [(bent.hex(), value, want) for bent, value, want in zip(given, got, wants) if value != want]
            self.same(f"{path} of each", (len(got), differing[:2]), (len(given), []))
            ran = run(*by, "--json", "--path", path, given=b"".join(map(prefixed, given)))
            told = [f"{verdict} {want}" for verdict, want in zip(verdicts, wants)]
            self.as_json(f"{path} of each", ALL, spans_in(given), ran, told, [path], values=[[want] for want in wants])

    def test_values_by_many_paths(self):
        """Of some of them, the values at as many paths as may be, in the order in which these are asked for."""
        data = buffer(WHOLE, b"KIND", prefix=True)[4:]
        given = [bent for bent in variants(data, [4]) if Walk(ALL, 0, prefixed(bent)).verdict().startswith("ok")]
        self.holds("some buffers are good", len(given) > 50, len(given))
        chunks = [PATHS[first : first + 16] for first in range(0, len(PATHS), 16)]
        for paths in [*chunks, PATHS[15::-1], PATHS[1:3]]:
            words = [word for path in paths for word in ("--path", path)]
            ran = run(*BY_ALL, *words, given=b"".join(map(prefixed, given)))
            got = [line.split(" ", 5)[-1] for line in ran.out.decode().splitlines()]
            wants = [" ".join(map(Reader(ALL, 0, prefixed(bent)).value, paths)) for bent in given]
            differing = [(bent.hex(), value, want) for bent, value, want in zip(given, got, wants) if value != want]
            self.same(f"{' '.join(paths)} of each", (len(got), differing[:2]), (len(given), []))

    def test_paths_that_are_refused(self):
        """Chains of `below` of random lengths, some of them alike, some too many: refused as the plain reader refuses
        them, and else read as it reads them."""
        dice, data = random.Random(65), buffer(WHOLE, b"KIND", prefix=True)
        seen = collections.Counter()
        for _ in range(300):
            total, paths = dice.choice([900, 1023, 1024, 1025, 1026, 2000]), []
            for left in range(dice.choice([1, 2, 3, 15, 16, 17]), 0, -1):
                steps = total if left == 1 else dice.randrange(1, max(2, 2 * total // left))
                total = max(total - steps, 1)
                paths.append("below" + ".next" * (steps - 1))
            if dice.random() < 0.2:
                paths.append(dice.choice(paths))
            ran = run(*BY_ALL, *(word for path in paths for word in ("--path", path)), given=data)
            why = refusal(paths)
            self.same("as many steps as pieces", [1 + path.count(".") for path in paths],
                      [len([*pieces_in(path)]) for path in paths])
            values = " ".join(Reader(ALL, 0, data).value(path) for path in paths)
            want = refused(why) if why else good(f"1 {Walk(ALL, 0, data).verdict()} {values}")
            self.same(f"{[*map(len, paths)]}", ran, want)
            seen[why] += 1
        self.holds("each refusal is seen, and none", len(seen) == 4 and min(seen.values()) > 9, seen)

    def test_bare_buffers(self):
        data = buffer(LITTLE, b"KIND")
        for given in variants(data, [1, 4]):
            want = f"1 {Walk(ALL, 0, given).verdict(b'KIND', prefix=False)}\n".encode()
            by = (*BY_ALL, "--bare", "--ident", "KIND")
            self.same(f"bare, {given.hex()}", run(*by, given=given).out, want)
            walk = Walk(ALL, 0, given)
            told = walk.verdict(b"KIND", prefix=False)
            told += walk.place() if told.startswith("bad") else ""
            self.as_json(f"bare, {given.hex()}", ALL, [(0, len(given))], run(*by, "--json", given=given), [told])

    def test_delimited_buffers(self):
        """Bare buffers in one stream, each behind its length."""
        given = list(variants(buffer(WHOLE, b"KIND"), [1, 4, 252]))
        for options in OPTIONS:
            asked = {"tables": 500, **options}
            ran = run(*BY_ALL, "--delimited", *words_of(asked), given=b"".join(map(prefixed, given)))
            turned = run(*BY_ALL, "--delimited-be", *words_of(asked), given=b"".join(map(sent, given)))
            ident = asked.pop("ident", None)
            walks = [Walk(ALL, 0, data, **asked) for data in given]
            told = [walk.verdict(ident, prefix=False) for walk in walks]
            wants = [f"{number} {want}" for number, want in enumerate(told, 1)]
            differing = [pair for pair in zip(ran.out.decode().splitlines(), wants) if pair[0] != pair[1]]
            self.same(f"delimited, {options}", (ran.out.count(b"\n"), differing[:5]), (len(given), []))
            differing = [pair for pair in zip(turned.out.decode().splitlines(), wants) if pair[0] != pair[1]]
            self.same(f"big-endian, {options}", (turned.out.count(b"\n"), differing[:5]), (len(given), []))
            words = {"tables": 500, **options}
            ran = run(*BY_ALL, "--delimited", "--json", *words_of(words), given=b"".join(map(prefixed, given)))
            placed = [want + (walk.place() if want.startswith("bad") else "") for walk, want in zip(walks, told)]
            self.as_json(f"delimited, {options}", ALL, spans_in(given), ran, placed)
            ran = run(*BY_ALL, "--delimited-be", "--json", *words_of(words), given=b"".join(map(sent, given)))
            self.as_json(f"big-endian, {options}", ALL, spans_in(given), ran, placed)

    def test_schema_files_without_a_schema(self):
        """By the table that is built in."""
        rows = Schema(schemas.reflection())
        data = buffer(A_SCHEMA, b"BFBS", prefix=True)[4:]
        self.holds("the file itself is good", Walk(rows, 9, prefixed(data)).verdict().startswith("ok"))
        for options, steps in [({}, [1, 4]), ({"alignment": False, "ident": b"BFBS"}, [2])]:
            self.told_alike(f"schema files, {options}", (), (rows, 9), list(variants(data, steps)), options)
        for number, name in enumerate(schemas.REFLECTION):
            given = [data, *variants(buffer({}, prefix=True)[4:], [4])]
            self.told_alike(f"{name} as the root", ("--root", f"reflection.{name}"), (rows, number), given, {})

    def test_values_of_schema_files(self):
        """By the table that is built in, of each of its tables as the root: the values of all fields."""
        rows = Schema(schemas.reflection())
        for number, (name, row) in enumerate(zip(schemas.REFLECTION, ROWS)):
            walk = lambda given: Walk(rows, number, given).verdict()
            given = [bent for data in (row, {}) for bent in variants(buffer(data, prefix=True)[4:], [1])]
            given = [bent for bent in map(prefixed, given) if walk(bent).startswith("ok")]
            paths = [field.name for field in rows.tables[number]]
            words = [word for path in paths for word in ("--path", path)]
            got = run("--root", f"reflection.{name}", *words, given=b"".join(given)).out.decode().splitlines()
            wants = [" ".join(map(Reader(rows, number, bent).value, paths)) for bent in given]
            differing = [pair for pair in zip([text.split(" ", 5)[-1] for text in got], wants) if pair[0] != pair[1]]
            self.same(f"{name}: values that differ, with what is expected", (len(got), differing[:2]), (len(given), []))
            self.holds(f"{name}: many are good", len(given) > 30, len(given))
