"""The marks of schema files: what `test_probe marks` tells of the attributes of fields, beside listings of flatc, beside a
plain walk over rows, and beside what is worked out by hand."""

import json
import random
import subprocess

from tests.support import schemas
from tests.support.cases import Case
from tests.support.file_rows import FileReader
from tests.support.naive import number_at
from tests.support.program import TOP, Ran, built
from tests.support.schemas import U_BYTE, field, table, vector
from tests.test_hostile import shared_file

FOLDER = TOP / "tests" / "schema_files"
BYTES = vector(U_BYTE)
FLAGS = {"required": 7, "deprecated": 6, "key": 8}

# What is told of two files of flatc that differ in whether it was asked for built-in attributes. Objects and fields
# stand in the order of their names.
KEPT = {
    "marks": """
        builtins=Written
        mark object=0 slot=6 buffer=deep.Leaf
        mark object=2 slot=8 buffer=marks.deep.Holder
        mark object=2 slot=10 flex
        mark object=2 slot=6 buffer=Leaf
    """,
    "unmarked": "builtins=LeftOut",
}

# What each row of attributes shows, flags of the field, its attributes, and what is told of it.
WORKED = [
    ("no attributes at all", "", None, "Untold"),
    ("no attribute", "", [], "Untold"),
    ("a nested buffer", "", [("nested_flatbuffer", "A.B")], "Untold buffer=A.B"),
    ("a flexbuffer", "", [("flexbuffer", "0")], "Untold flex"),
    ("another attribute with such a value", "", [("unit", "flexbuffer"), ("x", "nested_flatbuffer")], "Untold"),
    ("keys that only begin so", "", [("flexbuffe", "0"), ("flexbuffers", "0"), ("Flexbuffer", "0")], "Untold"),
    ("both: the buffer, whichever is first", "", [("flexbuffer", "0"), ("nested_flatbuffer", "A")], "Untold buffer=A"),
    ("twice: the first", "", [("nested_flatbuffer", "A"), ("nested_flatbuffer", "B")], "Untold buffer=A"),
    ("no value", "", [("nested_flatbuffer", None)], "Untold buffer="),
    ("no key", "", [(None, "nested_flatbuffer"), ("flexbuffer", None)], "Untold flex"),
    ("a deprecated field", "deprecated", [("nested_flatbuffer", "A")], "LeftOut"),
    ("with its attribute", "deprecated", [("deprecated", "0"), ("flexbuffer", "0")], "Written"),
    ("a required field", "required", [("flexbuffer", "0")], "LeftOut flex"),
    ("with its attribute last", "required", [("flexbuffer", "0"), ("required", "0")], "Written flex"),
    ("with another's attribute", "required", [("key", "0"), ("deprecated", "0")], "LeftOut"),
    ("a key with its attribute", "key", [("key", None)], "Written"),
    ("attributes of flags that aren't set", "", [("key", "0"), ("required", "0"), ("deprecated", "0")], "Untold"),
    ("two flags, one attribute", "required key", [("key", "0")], "Written"),
]


def marked(slot, flags, attributes):
    """A field in this slot with flags and attributes."""
    row = field(f"f{slot}", BYTES, slot)
    row.update({FLAGS[flag]: ("B", 1) for flag in flags.split()})
    if attributes is not None:
        row[9] = [{n: text for n, text in enumerate(pair) if text is not None} for pair in attributes]
    return row


def expected(objects):
    """The lines for objects, each a list of fields: a slot, the flags that are set, and pairs of keys and values."""
    shown, lines = set(), []
    for number, fields in enumerate(objects):
        for slot, flags, attributes in fields:
            shown |= {flag in [key for key, _ in attributes] for flag in flags}
            names = [value for key, value in attributes if key == "nested_flatbuffer"]
            if "deprecated" not in flags and names:
                lines.append(f"mark object={number} slot={slot} buffer={list(names[0].encode())}")
            elif "deprecated" not in flags and any(key == "flexbuffer" for key, _ in attributes):
                lines.append(f"mark object={number} slot={slot} flex")
    told = "Written" if True in shown else "LeftOut" if shown else "Untold"
    return [f"builtins={told}", *lines]


def of_rows(file):
    """The lines for a file by the naive reader."""
    return expected([
        [
            (
                number_at(row, 3),
                [flag for flag, number in FLAGS.items() if number_at(row, number)],
                [(pair.get(0, ""), pair.get(1, "")) for pair in row.get(9, [])],
            )
            for row in owner[1]
        ]
        for owner in FileReader(file).rows()[0]
    ])


def of_listing(schema):
    """The lines for a file by flatc's listing."""
    return expected([
        [
            (
                row["offset"],
                [flag for flag in FLAGS if row[flag]],
                [(pair["key"], pair["value"]) for pair in row.get("attributes", [])],
            )
            for row in owner["fields"]
        ]
        for owner in schema["objects"]
    ])


def spelled(text):
    """Lines with names as bytes."""
    lines = (line.strip().partition("buffer=") for line in text.strip().splitlines())
    return [before + by + (str(list(name.encode())) if by else "") for before, by, name in lines]


class Marks(Case):
    @classmethod
    def setUpClass(cls):
        cls.probe = built("test_probe")

    def told(self, file, mode="marks"):
        ran = subprocess.run([self.probe, mode], input=file, capture_output=True, timeout=60)
        return Ran(ran.returncode, ran.stdout.decode().splitlines(), ran.stderr)

    def test_kept_files(self):
        for name, text in KEPT.items():
            file = (FOLDER / f"{name}.bfbs").read_bytes()
            self.same(name, self.told(file), Ran(0, spelled(text), b""))

    def test_the_listings_of_flatc(self):
        found = set()
        for path in sorted(FOLDER.glob("*.bfbs")):
            lines = of_listing(json.loads(path.with_suffix(".json").read_text()))
            self.same(path.name, self.told(path.read_bytes()), Ran(0, lines, b""))
            self.same(f"{path.name} by its rows", of_rows(path.read_bytes()), lines)
            found.add(lines[0])
        self.same("they show all", sorted(found), ["builtins=LeftOut", "builtins=Untold", "builtins=Written"])

    def test_worked_rows(self):
        for name, flags, attributes, want in WORKED:
            told, *what = want.split()
            file = schemas.schema([table("T", marked(4, flags, attributes))])
            lines = spelled(f"builtins={told}\n" + "".join(f"mark object=0 slot=4 {text}" for text in what))
            self.same(name, self.told(file), Ran(0, lines, b""))
            self.same(f"{name}: by its rows", of_rows(file), lines)

    def test_marks_of_one_field_are_of_no_other(self):
        nested, flex = [("nested_flatbuffer", "A")], [("flexbuffer", "0")]
        file = schemas.schema([
            table("T", marked(8, "", flex), marked(4, "", []), marked(6, "", nested)),
            table("U", marked(4, "", None)),
            table("V", marked(6, "key", nested), marked(4, "required", [("required", "0"), *flex])),
        ])
        self.same("three tables", self.told(file), Ran(0, spelled("""
            builtins=Written
            mark object=0 slot=8 flex
            mark object=0 slot=6 buffer=A
            mark object=2 slot=6 buffer=A
            mark object=2 slot=4 flex
        """), b""))

    def test_rows_at_random(self):
        dice = random.Random(28)
        keys = ["nested_flatbuffer", "flexbuffer", *FLAGS, "unit", "", None]
        for number in range(300):
            objects = []
            for place in range(dice.randrange(4)):
                fields = []
                for slot in range(4, 4 + 2 * dice.randrange(5), 2):
                    flags = " ".join(flag for flag in FLAGS if dice.randrange(6) == 0)
                    pairs = [(dice.choice(keys), dice.choice(["A", "0", "", None])) for _ in range(dice.randrange(5))]
                    fields.append(marked(slot, flags, dice.choice([pairs, pairs, None])))
                objects.append(table(f"T{place}", *fields))
            file = schemas.schema(objects)
            self.same(f"file {number}", self.told(file), Ran(0, of_rows(file), b""))

    def test_files_that_are_not_well_formed(self):
        """They are refused as they are from being loaded."""
        file = (FOLDER / "marks.bfbs").read_bytes()
        for end in range(0, len(file), 7):
            want = self.told(file[:end], "list")
            got = self.told(file[:end])
            if want.out[0].startswith("fault"):
                self.same(f"{end} bytes", got, want)
            else:
                self.same(f"{end} bytes", got, Ran(0, of_rows(file[:end]), b""))

    def test_rows_that_are_no_schema(self):
        """They are not asked for marks."""
        row = marked(5, "", [("flexbuffer", "0")])
        file = schemas.schema([table("T", row)], root="None")
        self.same("a load", self.told(file, "list").out, ["fault L2 C4 BadSlot owner=0 part=0"])
        self.same("marks", self.told(file), Ran(0, ["builtins=Untold", "mark object=0 slot=5 flex"], b""))

    def test_the_length_of_a_file_pays_for_its_rows(self):
        """150 objects of 150 fields are 22,650 rows: 16,384, and one for each 20 of 125,320 bytes."""
        for size, want in [(125_320, "builtins=Untold"), (125_319, "fault L6 TooMuchShared")]:
            self.same(f"{size} bytes", self.told(shared_file(150, 32, size)), Ran(0, [want], b""))
