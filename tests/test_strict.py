"""What is demanded beside the rules of the format: the plain checker by rows that were worked out by hand, the program
beside the plain checker, and beside what flatc generates.

Generated code is asked where flatc, g++ and the headers of flatbuffers are there. bench/strict does the same with far
more messages.
"""

import dataclasses
import functools
import itertools
import re
import unittest

from tests.support import schemas
from tests.support.builder import Plain, buffer, changed
from tests.support.buffers import MEMBER, MEMBERS, ORC, PLAIN, SEVEN, UNEQUAL
from tests.support.case_text import bytes_of, rows_of
from tests.support.cases import Case
from tests.support.file_rows import FileReader
from tests.support.generated import Generated, Kept, missing
from tests.support.naive import UNION, VECTOR, Schema, number_at
from tests.support.program import TOP, folder_of, run
from tests.support.random_buffers import Builder
from tests.support.random_buffers import damaged as damaged_at_random
from tests.support.random_rows import Maker, Random
from tests.support.schemas import U_BYTE, field, table, vector
from tests.support.strict import EVERYTHING, FLEX, STRICT, Demands, Plan, Strict, found_from, holds_bytes, lacks_marks, marks_of
from tests.support.strict_messages import MESSAGES, bytes_changed, cut, every_byte, words_changed
from tests.support.strict_program import ASKED, lines_of, refusal_of, words_of_demands, words_of_limits

FOLDER = folder_of(__name__)

# - `LONE`: a union whose value is the word at 16 and whose type stands at 20; `ALONE`: a type at 16 without a value
# - `UNTYPED`, `ODD`: a value without a type field, at 16 and at 17
# - `TYPES`, `VALUES`: a vector of types without that of values, and the other way round
# - `TWO`: two unions, of the types 9 and 0, whose words stand at 36 and 40
# - `SLOTS`: a string at 28, a number, and a third slot at 12
# - `INSIDE`: bytes at 24 that are a buffer whose root stands at 32; `AT_28`: what stands before such at 28
# - `SEVEN`, `EIGHTH`: numbers at 20 and at 24
SAMPLES = {
    "ORC": ORC.hex(), "EMPTY": PLAIN.hex(), "PICKED": MEMBER.hex(), "HI": MEMBERS.hex(), "UNEQUAL": UNEQUAL.hex(),
    "LONE": "0c000000 08000c00 08000400 08000000 07000000 09000000", "ALONE": "0c000000 08000800 04000000 08000000 01",
    "UNTYPED": "0c000000 08000800 00000400 08000000 03000000", "ODD": "0c000000 08000900 00000500 08000000 00 03000000",
    "TYPES": "0c000000 08000800 04000000 08000000 04000000 01000000 01000000",
    "VALUES": "0c000000 08000800 00000400 08000000 04000000 00000000",
    "TWO": "UNEQUAL 32=02 28=09 36=07 ..44",
    "SLOTS": "10000000 0a000c00 08000400 05000000 0c000000 08000000 2c010000 00000000 00",
    "INSIDE": "0c000000 06000800 04000000 08000000 04000000 0c000000 EMPTY",
    "AT_28": "0c000000 06000800 04000000 08000000 08000000 00000000", "SEVEN": SEVEN[4:].hex(),
    "EIGHTH": "14000000 06000c00 0400 00000000000000000000 10000000 0800000000000000",
    "EIGHT": "INSIDE 20=08 24=04000000 28=04000000 ..32", "NO_BYTES": "INSIDE 20=00 ..24",
}

UNIONS = """A table: v@4 int; W struct 8/8: x@0 long; R table: u_type@4 utype#0, u@6 union#0;
    Q table: us_type@4 [utype]#0, us@6 [union]#0; U union: A=1 obj#0, W=2 obj#1, T=3 string"""
MONSTER = "M table: hp@4 short, name@6 string"
BYTES = "T table: a@4 [ubyte], b@6 int; L table: v@4 int"

# What a case shows, its buffer, what is demanded and asked, and the verdict, by rows and their marks.
JUDGED = [
    (UNIONS, {}, """
        nothing is demanded | LONE | root=R | yes 1 1 7
        an unknown type, up to the last byte | LONE | root=R unions | yes 1 1 13
        up to the end | LONE 16=08 | root=R unions | V2 24 2.1 13
        far outside | LONE 16=ffffffff | root=R unions | V2 4294967311 2.1 13
        the type 0, and a word that is 0 | LONE 16=00 20=00 | root=R unions | V4 16 2.1 13
        but not where only texts are asked | LONE 16=00 20=00 | root=R utf8 | yes 1 1 12
        nor where only slots are | LONE 16=00 20=00 | root=R known | yes 1 1 14
        just as many reads | LONE | root=R unions reads=13 | yes 1 1 13
        one less | LONE | root=R unions reads=12 | V13 12 2.1 13
        the slots are told with it | LONE | root=R unions reads=9 | V13 12 2.1 13
        the head | LONE | root=R unions reads=7 | V13 12 2 9
        which has a read more | LONE | root=R unions inline reads=8 | V13 12 2 11
        a test comes before its reads | LONE 16=08 | root=R unions reads=9 | V2 24 2.1 13
        the walk's own budget | LONE | root=R unions reads=6 | V13 12 2.1 7
        a member's value was asked by the walk | PICKED | root=R unions | yes 2 2 16
        its table is visited where slots are asked of it | PICKED | root=R known | yes 2 2 22
        a type without a value | ALONE | root=R unions | V9 12 2.1 10
        the type 0 without one | ALONE 16=00 | root=R unions | yes 1 1 10
        neither | EMPTY | root=R unions | yes 1 1 5
        a value without a type | UNTYPED | root=R unions | yes 1 1 11
        up to the end | UNTYPED 16=04 | root=R unions | V2 20 2.1 11
        one that isn't all there | UNTYPED 10=06 | root=R unions | V2 18 2.1 10
        at an odd place | ODD | root=R unions | V3 17 2.1 10
        unaligned | ODD | root=R unions anywhere | yes 1 1 11
        eight bytes | 04000000 04000000 | root=R unions | V2 8 2 3
        eleven | 04000000 04000000 000000 | root=R unions | V2 11 2 3
        twelve | 04000000 04000000 00000000 | root=R unions | yes 1 1 5
        twelve with their length | 08000000 04000000 04000000 | root=R unions prefixed | yes 1 1 6
        eight, of no union | 04000000 04000000 | root=R nested utf8 known | yes 1 1 5
        types without values | TYPES | root=Q unions | V11 16 3.1 11
        values without types | VALUES | root=Q unions | V11 16 3.1 12
        neither | EMPTY | root=Q unions | yes 1 1 5
        an element of unknown type, and one of type 0 | TWO | root=Q unions | yes 1 1 24
        up to the end | TWO 36=08 | root=Q unions | V2 44 3.1 23
        a word that is 0 | TWO 36=00 | root=Q unions | V4 36 3.1 23
        which may stand where the type is 0 | TWO 28=00 36=00 | root=Q unions | yes 1 1 23
        the field costs seven reads | TWO | root=Q unions reads=22 | V13 36 3.1 23
        and is told at its table | TWO | root=Q unions reads=20 | V13 12 3.1 21
        the other element | TWO | root=Q unions reads=23 | V13 40 3.1 24
        texts in them | HI | root=Q unions utf8 | yes 1 1 30
        that aren't asked | HI | root=Q unions | yes 1 1 26
        and are | HI 48=c0 | root=Q utf8 | V15 48 3.1 29
    """),
    (MONSTER, {}, """
        a text | ORC | utf8 | yes 1 1 16
        a byte that begins nothing | ORC 28=ff | utf8 | V15 28 0.1 16
        one that isn't gone on from | ORC 29=c328 | utf8 | V15 29 0.1 16
        nor at the end | ORC 30=c3 | utf8 | V15 30 0.1 16
        three bytes that belong together | ORC 28=e282ac | utf8 | yes 1 1 16
        a surrogate | ORC 28=eda080 | utf8 | V15 28 0.1 16
        longer than it must be | ORC 28=c080 | utf8 | V15 28 0.1 16
        nobody asked | ORC 28=ff | known unions nested | yes 1 1 12
        just as many reads | ORC | utf8 reads=16 | yes 1 1 16
        one less | ORC | utf8 reads=15 | V13 16 0.1 16
        the bytes aren't looked at then | ORC 28=ff | utf8 reads=15 | V13 16 0.1 16
        the slot is told at the table | ORC | utf8 reads=10 | V13 12 0.1 11
        an unknown slot | SLOTS | known | V16 12 0 13
        that is 0 | SLOTS 12=0000 | known | yes 1 1 13
        nobody asked | SLOTS | utf8 | yes 1 1 13
        slots cost a read each | SLOTS | known reads=11 | V13 16 0 12
        and come before texts | SLOTS 28=02000000ffff00 | known utf8 | V16 12 0 13
    """),
    (BYTES, {(0, 4): "L"}, """
        a buffer inside | INSIDE | nested | yes 2 2 14
        nobody asked | INSIDE | unions utf8 | yes 1 1 6
        a level too many | INSIDE | nested depth=1 | V6 32 1 12
        a table too many | INSIDE | nested tables=1 | V7 32 1 12
        just as many reads | INSIDE | nested reads=14 | yes 2 2 14
        one less | INSIDE | nested reads=13 | V13 32 1 14
        none left | INSIDE | nested reads=11 | V13 24 1 12
        where it stands is a read too much | INSIDE | nested reads=10 | V13 12 0.0 11
        of no bytes | NO_BYTES | nested | V2 24 1 11
        of eight bytes | EIGHT | nested | yes 2 2 14
        of which twelve are asked | EIGHT | unions nested | V2 32 1 14
        its slots too | INSIDE | nested known | yes 2 2 17
    """),
    (BYTES, {(0, 4): "T"}, """
        whose own fields are asked | INSIDE | nested | yes 2 2 16
        its head is told in the whole | INSIDE | nested reads=15 | V13 32 0 16
    """),
    ("T table: a@4 [ubyte]; N table: v@4 long", {(0, 4): "N"}, """
        a number at 48, which is 20 in the buffer inside | AT_28 1c000000 SEVEN | nested | V3 48 1.0 15
        one at 52, which is 24 in it | AT_28 20000000 EIGHTH | nested | yes 2 2 15
    """),
    (BYTES, {(0, 4): FLEX}, """
        a flexbuffer | INSIDE | nested | V14 16 0.0 9
        of no bytes | NO_BYTES | nested | V14 16 0.0 9
        nobody asked | INSIDE | unions known utf8 | yes 1 1 9
        none | EMPTY | nested | yes 1 1 5
    """),
]

WORDS = {"unions": "unions", "nested": "nested", "known": "known_fields", "utf8": "utf8"}
CHECKS = {"inline": {"inline_size": True}, "anywhere": {"alignment": False}}


def cases(text):
    """The parts of each line."""
    return [[part.strip() for part in line.split("|")] for line in text.strip().splitlines()]


def asked_in(words):
    """What is demanded, the limits and checks, the name of the root and whether there is a prefix, by words."""
    demands, limits, root, is_prefixed = {}, {}, None, False
    for word in words:
        name, _, value = word.partition("=")
        if name in WORDS:
            demands[WORDS[name]] = True
        elif name == "root":
            root = value
        elif name == "prefixed":
            is_prefixed = True
        else:
            limits |= CHECKS.get(name) or {name: int(value)}
    return Demands(**demands), limits, root, is_prefixed


def short(verdict):
    """A verdict as a case has it."""
    numbers = [word.partition("=")[2] for word in verdict.split() if "=" in word]
    if verdict.startswith("ok"):
        return " ".join(["yes", *numbers])
    at, owner, number, reads = numbers
    return f"{verdict.split()[1]} {at} {owner}{'' if number == '-' else '.' + number} {reads}"


def attributed(name, slot, attribute, **flags):
    """A vector of bytes with attributes."""
    row = field(name, vector(U_BYTE), slot, **flags)
    row[9] = [{0: key, 1: value} for key, value in attribute.items()]
    return row


class PlainChecker(Case):
    def test_worked_rows(self):
        for text, marks, rows in JUDGED:
            objects, enums = rows_of(text)
            schema = Schema(objects, enums)
            for name, data, words, want in cases(rows):
                demands, limits, root, is_prefixed = asked_in(words.split())
                root = schema.names.index(root) if root else 0
                data = bytes_of(SAMPLES, data)
                got = Strict(Plan(schema, demands, marks), root, data, **limits).verdict(prefix=is_prefixed)
                self.same(f"{name}: {words}", short(got), want)

    def test_the_message_of_the_library_test(self):
        """What a test in crates/test_library wants of its message is what this checker tells."""
        text = (TOP / "crates/test_library/src/tests/strict.rt").read_text()
        given = re.search(r'ITEMS: &\[u8\] = b"(.*?)";', text, re.S)[1]
        data = bytes.fromhex(re.sub(r"[\\x\s]", "", given))
        cut_at = int(re.search(r"&ITEMS\[\.\.(\d+)\]", text)[1])
        plan = Plan(Schema(*rows_of(UNIONS)), Demands(unions=True))
        wants = {
            name: [int(number) for number in re.findall(r"(?:tables|depth|reads|at): (\d+)", part)]
            for name, part in re.findall(r"const ([A-Z]+): (?:Report|Fault) = (.*?)};", text, re.S)
        }
        for name, message, reads in ("COUNTS", data, 296), ("LATE", data, 295), ("FAULT", data[:cut_at], 296):
            told = Strict(plan, 3, message, reads=reads).verdict(prefix=False)
            words = [word.partition("=") for word in told.split()]
            numbers = [int(number) for key, _, number in words if key in ("tables", "depth", "reads", "at")]
            self.same(f"{name}: {told}", numbers, wants[name])

    def test_each_budget(self):
        """A message is good at exactly its own tables, depth and reads, and at no less."""
        for name, messages in MESSAGES.items():
            kept = Kept(name)
            for demands, data in itertools.product(DEMANDS, messages):
                plan = Plan(kept.schema, demands, kept.marks)
                verdict = Strict(plan, kept.root, data).verdict(prefix=False)
                counts = dict(word.split("=") for word in verdict.split() if "=" in word)
                for limit in ("tables", "depth", "reads") if verdict.startswith("ok") else ():
                    got = [Strict(plan, kept.root, data, **{limit: most}).verdict(prefix=False).partition(" ")[0]
                           for most in range(int(counts[limit]) + 2)]
                    self.same(f"{name}, {demands}, {limit}", got, ["bad"] * int(counts[limit]) + ["ok", "ok"])

    def test_tables_are_found_by_name(self):
        """From the innermost namespace outward."""
        names = ["a.b.T", "a.T", "T", "a.b.c.U", "b.U", "a.b.S"]
        schema = Schema([schemas.a_struct(name, 1, 1) if name.endswith("S") else table(name) for name in names])
        for owner, name, want in [
            ("a.b.T", "T", "a.b.T"), ("a.T", "T", "a.T"), ("T", "T", "T"), ("a.b.c.U", "T", "a.b.T"), ("b.U", "T", "T"),
            ("a.b.T", "c.U", "a.b.c.U"), ("a.b.T", "b.U", "b.U"), ("a.b.T", "b.T", "a.b.T"), ("a.b.T", "a.T", "a.T"),
            ("T", "c.U", None), ("a.b.T", "S", None), ("a.b.T", "", None), ("a.b.T", "a", None),
        ]:
            got = found_from(schema, names.index(owner), name)
            self.same(f"{name} from {owner}", None if got is None else names[got], want)

    def test_marks_of_rows(self):
        nested, flex = {"nested_flatbuffer": "T"}, {"flexbuffer": "0"}
        text = {**field("s", schemas.TEXT, 4), 9: [{0: "flexbuffer", 1: "0"}]}
        for name, fields, want in [
            ("none", [attributed("a", 4, {})], {}),
            ("both kinds", [attributed("a", 4, nested), attributed("b", 6, flex)], {(0, 4): "T", (0, 6): FLEX}),
            ("a deprecated field", [attributed("a", 4, nested, deprecated=True)], {}),
            ("a text", [text], {}),
        ]:
            self.same(name, marks_of([table("T", *fields)]), want)

    def test_files_without_marks(self):
        """A vector of bytes without a mark is asked for in files that don't show that they would have it."""
        shown = {"required": "0"}
        for name, fields, want in [
            ("no bytes", [field("a", schemas.INT, 4)], False),
            ("bytes", [attributed("a", 4, {})], True),
            ("deprecated ones", [attributed("a", 4, {}, deprecated=True)], False),
            ("marked ones", [attributed("a", 4, {"flexbuffer": "0"})], False),
            ("of a file with built-in attributes", [attributed("a", 4, {}), attributed("b", 6, shown, required=True)], False),
            ("of a file without them", [attributed("a", 4, {}), attributed("b", 6, {}, required=True)], True),
            ("beside a mark alone", [attributed("a", 4, {}), attributed("b", 6, {"flexbuffer": "0"})], True),
        ]:
            self.same(name, lacks_marks([table("T", *fields)]), want)

    def test_kept_files(self):
        if missing():
            self.skipTest(f"not there: {', '.join(missing())}")
        for name in MESSAGES:
            made = Generated(name, FOLDER / "kept")
            got, want = (FileReader(file).rows() for file in (made.file.read_bytes(), made.schema_file()))
            self.same(f"{name}.bfbs", [got[0], got[1], got[4]], [want[0], want[1], want[4]])


def damaged(dice, messages, step):
    """Some messages, each with every so many-th other byte, cut off everywhere, and changed at random."""
    for data in messages:
        yield data
        yield from itertools.islice(every_byte(data), dice.below(step), None, step)
        yield from cut(data)
        for _ in range(150):
            yield words_changed(dice, data)
            yield bytes_changed(dice, data)


class Made:
    """A schema that is no kept one."""

    def __init__(self, data, objects, schema, root):
        self.file = FOLDER / "random.bfbs"
        self.file.write_bytes(data)
        self.objects, self.schema, self.root = objects, schema, root
        self.marks = marks_of(objects)


def mark(dice, row, names):
    """Marks some of the vectors of bytes of a table, and makes some more of its vectors such ones."""
    for part in row[1]:
        if part[1][0][1] == VECTOR and part[1][1][1] not in (1, UNION) and dice.once_in(2):
            part[1] = schemas.type_row(vector(U_BYTE))
        if holds_bytes(part[1]) and not dice.once_in(3):
            part[9] = [{0: "flexbuffer", 1: "0"} if dice.once_in(6) else {0: "nested_flatbuffer", 1: dice.choice(names)}]


# What the plain checker is asked.
DEMANDS = [
    Demands(unions=True), STRICT, Demands(known_fields=True), Demands(utf8=True), EVERYTHING,
    Demands(known_fields=True, utf8=True),
]
LIMITS = [{}, {"alignment": False}, {"inline_size": True}, {"depth": 2}, {"tables": 3}, {"reads": 40}, {"reads": 90}]


class Program(Case):
    def told_alike(self, name, kept, messages, demands, limits):
        words = [*words_of_demands(demands), *words_of_limits(limits)]
        told = lines_of(kept.file, messages, *words)
        plan = Plan(kept.schema, demands, kept.marks)
        wants = [Strict(plan, kept.root, data, **limits).verdict(prefix=False) for data in messages]
        wrong = [row for row in zip(told, wants, messages) if row[0] != row[1]]
        self.same(f"{name}, {words}: a line for each", len(told), len(wants))
        self.same(f"{name}, {words}: what is told otherwise, with what should be", wrong[:3], [])
        self.same(f"{name}, {words}: how many", len(wrong), 0)
        return {want.split()[1] for want in wants if want.startswith("bad")}

    def test_beside_the_plain_checker(self):
        dice, reasons = Random(62), set()
        for name, messages in MESSAGES.items():
            kept = Kept(name)
            for demands, limits in itertools.product(ASKED, LIMITS * 2):
                some = list(damaged(dice, [dice.choice(messages)], 397))
                reasons |= self.told_alike(name, kept, some, demands, limits)
        wanted = {f"V{code}" for code in (2, 3, 4, 6, 7, 8, 9, 10, 11, 12, 13, 14, 15, 16)}
        self.holds("the reasons", reasons >= wanted, reasons)

    def test_schemas_at_random(self):
        """Buffers at random by schemas at random, of which some vectors of bytes are marked."""
        dice, refused = Random(64), set()
        for number in range(120):
            objects, enums = Maker(dice, 0).rows()
            tables = [row for row in objects if not number_at(row, 2)]
            for row in tables:
                mark(dice, row, [other[0] for other in tables] + ["Nowhere"] * (number % 2))
            if not tables:
                continue
            schema, root = Schema(objects, enums), dice.choice(tables)[0]
            made = Made(schemas.schema(objects, enums, root=root), objects, schema, schema.names.index(root))
            some = [damaged_at_random(dice, Builder(dice, schema).built(made.root, False, None)) for _ in range(60)]
            demands, limits = ASKED[number % len(ASKED)], LIMITS[number // 2 % len(LIMITS)]
            demands = dataclasses.replace(demands, nested=demands.nested and not refusal_of(objects))
            self.told_alike(f"schema {number}", made, some, demands, limits)
            refused.add(self.refused_alike(f"schema {number}", made))
        self.same("why strict checks are refused, or aren't", len(refused), 3)

    def refused_alike(self, name, made):
        """--strict by itself is refused by what a schema file's marks say, and by that alone."""
        why, ran = refusal_of(made.objects), run("--schema", made.file, "--strict")
        text = ran.err.decode().partition("\n")[0]
        self.same(f"{name}: the status", ran.status, 2 if why else 0)
        self.same(f"{name}: why", text.startswith(f"fbcheck: {why}") if why else text == "", True)
        return why

    def test_each_budget(self):
        for name, messages in MESSAGES.items():
            kept, some = Kept(name), [messages[1], messages[2]]
            for number, reads in enumerate(range(0, 130, 3)):
                self.told_alike(name, kept, some, ASKED[number % len(ASKED)], {"reads": reads})


# By kinds.fbs, what plain checks take and generated code doesn't bear: the value of a type 0 that is far away; and what
# UnPack or Pack doesn't bear either, a value of the type 0 whose word isn't all there, a type without its value, and types
# without a vector of values.
FAR = ("I", 0x7FFFFFF0)
UNPACKED = [changed(buffer({11: "n", 22: ("I", 5)}), (52, "10")), buffer({11: "n", 21: ("B", 1)}),
            buffer({11: "n", 23: Plain(b"\1", 1, 1)})]
UNBORNE = [buffer({11: "n", 22: FAR}), *UNPACKED]

# What no ok covers, by what reads it: buffers inside whose roots are far away; what FlatBufferToString goes through,
# which is deprecated fields, a union's value without a type, and values of the type 0; and what Pack makes of the latter.
INSIDE = [buffer({11: "n", 27: Plain(b"\xf0\xff\xff\x7f", 4, 4)}), buffer({11: "n", 28: Plain(b"\x28\xff", 1, 2)})]
NONE = buffer({11: "n", 23: Plain(b"\0", 1, 1), 24: ["w"]})
TOLD = [buffer({11: "n", 25: FAR}), buffer({11: "n", 26: FAR}), buffer({11: "n", 22: "w"}),
        buffer({11: "n", 21: ("B", 0), 22: "w"}), NONE]
UNCOVERED = [("reads", INSIDE, False), ("texts", TOLD, True), ("packs", [NONE], True)]


@functools.cache
def built(name, marked):
    """What flatc makes of a schema, with or without its marks."""
    made = Generated(name, FOLDER / ("marked" if marked else "generated"), marked)
    made.build("all")
    return made


@unittest.skipIf(missing(), f"not there: {', '.join(missing())}")
class GeneratedCode(Case):
    """What --strict takes is taken by the generated verifier, and accessors and UnPack read nothing outside of it."""

    def test_beside_generated_code(self):
        for name, marked in [("unions", False), ("kinds", True), ("kinds", False)]:
            dice, made = Random(63), built(name, marked)
            messages = list(damaged(dice, MESSAGES[name], 61))
            told = lines_of(made.file, messages, "--strict")
            taken = made.verdicts(messages, "all")
            good = [data for data, line in zip(messages, told, strict=True) if line.startswith("ok")]
            refused = [data.hex() for data, line, is_taken in zip(messages, told, taken) if line.startswith("ok") > is_taken]
            self.holds(f"{name}: some are good", len(good) > 500, len(good))
            self.same(f"{name}: what the generated verifier refuses", refused[:3], [])
            self.same(f"{name}: what its code doesn't bear", made.failures("reads", good, "good", "all"), [])
        self.same("plain checks take these", {line[:2] for line in lines_of(made.file, UNBORNE)}, {"ok"})
        told = [line.split()[:2] for line in lines_of(made.file, UNBORNE, "--strict")]
        self.same("--strict refuses them", told, [["bad", code] for code in ("V2", "V2", "V9", "V11")])
        fell = [data for data, _ in made.failures("reads", UNBORNE, "bad", "all")]
        self.same("generated code doesn't bear them", fell, UNBORNE)
        self.same("the generated verifier takes a type alone", made.verdicts(UNBORNE, "all"), [False, False, True, False])
        fell = [data for data, _ in made.failures("packs", UNBORNE, "packs", "all")]
        self.same("UnPack or Pack doesn't bear these", fell, UNPACKED)

    def test_what_no_ok_covers(self):
        made = built("kinds", True)
        self.same("--strict refuses buffers inside", {line[:3] for line in lines_of(made.file, INSIDE, "--strict")}, {"bad"})
        for what, messages, is_taken in UNCOVERED:
            told = lines_of(made.file, messages, "--strict", "--plain-bytes")
            self.same(f"{what}: --strict takes these", [line[:2] for line in told], ["ok"] * len(messages))
            self.same(f"{what}: whether the generated verifier does", set(made.verdicts(messages, "all")), {is_taken})
            fell = [data for data, _ in made.failures(what, messages, what, "all")]
            self.same(f"{what}: generated code doesn't bear them", fell, messages)
