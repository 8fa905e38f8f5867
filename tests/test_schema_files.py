"""Loads the schema files of tests/schema_files, and compares what the look-ups then answer with flatc's own listing of
each file.

The listing is JSON that flatc wrote from the file; what the look-ups should answer is worked out of it here.
"""

import json
import subprocess

from tests.support.cases import Case
from tests.support.listing import SCALARS, Listing
from tests.support.program import TOP, Ran, built

FOLDER = TOP / "tests" / "schema_files"

# A schema file of one table with a number and a text, of which every byte is known by hand: the probe's own example.
PLAIN = TOP / "crates" / "test_probe" / "stdin"

# Bytes that are changed in it, and why it then isn't loaded.
FAULTS = [
    ("nothing to read", {}, 0, "fault L1 V2 OutOfBuffer at=4 object=9 field=- reads=0"),
    ("another identifier", {4: 0x43}, 208, "fault L1 V5 WrongIdentifier at=4 object=9 field=- reads=1"),
    ("cut off in the table Schema", {}, 26, "fault L1 V2 OutOfBuffer at=24 object=9 field=- reads=2"),
    ("a number that is a 64-bit vector", {156: 18}, 208, "fault L2 C3 Unsupported owner=0 part=0"),
    ("a text that is an array", {204: 17}, 208, "fault L2 C3 Unsupported owner=0 part=1"),
    ("an odd slot", {124: 5}, 208, "fault L2 C4 BadSlot owner=0 part=0"),
    ("two fields in one slot", {124: 6}, 208, "fault L2 C4 BadSlot owner=0 part=1"),
]

# What the files must hold between them, so that no case is lost unseen: a text that some line of some file has.
WANTED = [
    *(f"ident=Some({list(ident)})" for ident in (b"TALK", b"DEPO")),
    *(f"kind=Scalar({name})" for name, _ in SCALARS.values()),
    *(f"kind=Scalars({name})" for name, _ in SCALARS.values()),
    "kind=Text ", "kind=Texts", "kind=Struct(", "kind=Structs(", "kind=Table(", "kind=Tables(", "kind=Union(",
    "kind=Unions(", "required=true", "optional=true", "root=None", "struct=true",
    "minalign=16", "value=2 kind=Table(", "value=100 kind=Struct(", "value=255 kind=Text",
    "default=-128", "default=127", "default=255", "default=-32768", "default=32767", "default=65535",
    "default=-2147483648", "default=2147483647", "default=4294967295",
    "default=-9223372036854775808", "default=9223372036854775807", "default=40",
]


class SchemaFiles(Case):
    @classmethod
    def setUpClass(cls):
        cls.probe = built("test_probe")

    def told(self, given):
        """What the probe tells of a schema file with these bytes."""
        ran = subprocess.run([self.probe, "list"], input=given, capture_output=True, timeout=60)
        return Ran(ran.returncode, ran.stdout.decode().splitlines(), ran.stderr)

    def test_the_listings_of_flatc(self):
        found, largest = [], [0, 0]
        for file in sorted(FOLDER.glob("*.bfbs")):
            schema = json.loads(file.with_suffix(".json").read_text())
            lines = list(Listing(schema).lines())
            self.same(file.name, self.told(file.read_bytes()), Ran(0, lines, b""))
            found += lines
            largest = [max(largest[0], len(schema["objects"])), max(largest[1], len(schema["enums"]))]
        missing = [text for text in WANTED if not any(text in line for line in found)]
        self.same("the files hold every kind: no line has", missing, [])
        self.holds("a file has 50 objects and 50 enums", min(largest) >= 50, largest)

    def test_changed_files(self):
        for name, changes, end, wanted in FAULTS:
            given = bytearray(PLAIN.read_bytes()[:end])
            for at, byte in changes.items():
                given[at] = byte
            self.same(name, self.told(given), Ran(0, [wanted], b""))
