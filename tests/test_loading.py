"""Schema files that are loaded, and why others aren't: what `test_probe list` tells of each within the published limits, and
the library for C within others."""

import re
import subprocess

from tests.support import schemas
from tests.support.case_text import bytes_of, rows_of
from tests.support.library import LibraryCase, module
from tests.support.listing import built_in
from tests.support.program import TOP, Ran, built
from tests.support.told import line

# What flatc 2.0.8 writes for this schema:
#
#     table A { v: int; }
#     struct W { x: long; }
#     enum E : ubyte { One = 1, Two = 2 }
#     union U { A, W, T: string }
#     table Q { us: [U]; e: E = Two; n: string (required); o: int = null; d: int (deprecated); }
#     root_type Q;
#     file_identifier "TEST";
OF_FLATC = """
    1c000000 42464253 00001200 28000400 08000c00 10001400 18001c00 12000000 48000000 38000000 28000000 1c000000 30020000
    10000000 06000000 00000000 00000000 00000000 00000000 00000000 04000000 54455354 00000000 02000000 50010000 28000000
    03000000 48040000 f0010000 c4030000 00001200 18000800 0c000700 10000000 00001400 12000000 00000001 38000000 20000000
    08000000 28040000 4cfdffff 00000001 01000000 01000000 01000000 04000000 c0000000 74000000 38000000 0c000000 01000000
    55000000 acffffff 1c000000 0c000000 03000000 00000000 ecfbffff 0000000d 01000000 01000000 54000000 d4ffffff 20000000
    0c000000 02000000 00000000 c8ffffff 0000000f 02000000 01000000 01000000 57000000 0c001400 04000c00 00000800 0c000000
    30000000 1c000000 01000000 00000000 10001000 07000000 08000000 00000c00 10000000 0000000f 00000000 01000000 01000000
    41000000 0c000c00 04000000 00000800 0c000000 14000000 04000000 4cffffff 01000000 01000000 04000000 4e4f4e45 00001200
    14000400 08000000 0c000000 00001000 12000000 30000000 20000000 08000000 08030000 6cfeffff 00000004 00000000 01000000
    01000000 02000000 48000000 0c000000 01000000 45000000 d4ffffff 20000000 10000000 02000000 00000000 00000000 c8ffffff
    01000000 01000000 03000000 54776f00 0c001800 04000c00 00000800 0c000000 30000000 20000000 01000000 00000000 00000000
    10000c00 00000000 00000000 04000800 10000000 01000000 01000000 03000000 4f6e6500 c0fdffff 2c000000 0c000000 01000000
    58020000 06000000 30000000 c4000000 8c000000 4c000000 18010000 5c010000 01000000 51001200 14000c00 10000800 0a000000
    00000700 12000000 00000001 05000e00 14000000 04000000 c0fdffff 00000007 01000000 01000000 64000000 4cffffff 00000001
    04000c00 14000000 04000000 e8fdffff 00000007 01000000 01000000 6f000000 14001400 0c001000 08000a00 00000000 00000700
    14000000 00000001 03000a00 14000000 04000000 24feffff 0000000d 01000000 01000000 6e000e00 18000800 0c000400 06001000
    0e000000 02000800 34000000 1c000000 02000000 00000000 10001400 07000000 08000000 0c001000 10000000 00000004 00000000
    01000000 01000000 01000000 65000000 1c001400 0c001000 08000a00 00000000 00000000 00000000 00000700 1c000000 00000001
    01000600 18000000 04000000 bcffffff 00000e10 01000000 04000000 02000000 75730000 1c001000 08000c00 00000600 00000000
    00000000 00000000 00000500 1c000000 00010400 28000000 14000000 10001000 06000700 08000000 00000c00 10000000 00000e01
    01000000 01000000 07000000 75735f74 79706500 14001c00 08000c00 07001000 14000000 00001800 14000000 00000001 1c000000
    10000000 08000000 08000000 78000000 01000000 14000000 01000000 57000000 08000c00 04000800 08000000 28000000 14000000
    10001000 07000000 00000000 08000c00 10000000 00000009 08000000 01000000 01000000 78000000 14001400 04000800 00000c00
    00000000 00001000 14000000 20000000 14000000 01000000 04000000 00000000 00000000 01000000 18000000 01000000 41000000
    0c001000 08000c00 00000600 0c000000 00000400 24000000 14000000 10000c00 07000000 00000000 00000800 10000000 00000007
    01000000 01000000 76000000
"""
# `FILE` is the file of `table M { hp: short = 100; name: string; } root_type M;`, laid out by hand.
SAMPLES = {"FILE": schemas.M.hex(), "OF_FLATC": OF_FLATC}

# What each file shows, the file, and its root, its identifier and how many objects it has.
LOADED = [
    ("it may have no identifier", "FILE", ("root=Some(0)", "ident=None", 1)),
    ("it may have no root", "FILE 20=0000", ("root=None", "ident=None", 1)),
    ("what flatc writes is loaded", "OF_FLATC", ("root=Some(1)", f"ident=Some({list(b'TEST')})", 3)),
]

# What each file shows, the file, and why it isn't loaded.
REFUSED = [
    ("another identifier", "FILE 4=58", "L1 V5 WrongIdentifier at=4 object=9 field=- reads=1"),
    ("a table out of alignment", "FILE 0=1a", "L1 V3 Misaligned at=26 object=9 field=- reads=2"),
    ("rows that are no schema", "FILE 156=12", "L2 C3 Unsupported owner=0 part=0"),
    ("these, and no such root", "OF_FLATC 104=01", "L2 C1 NoSuchObject owner=1 part=2"),
    ("a root that isn't listed", "FILE 44=00", "L3 RootNotListed"),
]


class Loading(LibraryCase):
    @classmethod
    def setUpClass(cls):
        super().setUpClass()
        cls.probe = built("test_probe")

    def told(self, text):
        """What the probe tells of a schema file by text."""
        ran = subprocess.run([self.probe, "list"], input=bytes_of(SAMPLES, text), capture_output=True, timeout=60)
        return Ran(ran.returncode, ran.stdout.decode(), ran.stderr)

    def test_what_is_loaded(self):
        for shows, text, want in LOADED:
            status, out, err = self.told(text)
            objects = len(re.findall(r"(?m)^object \d+ ", out))
            self.same(f"{shows}: {text}", (status, (*out.splitlines()[:2], objects), err), (0, want, b""))

    def test_a_file_that_is_no_schema_is_refused(self):
        for shows, text, want in REFUSED:
            self.same(f"{shows}: {text}", self.told(text), Ran(0, f"fault {want}\n", b""))

    def test_the_built_in_table_is_the_one_typed_anew(self):
        """Everything that is told of each table and its live fields."""
        ran = subprocess.run([self.probe, "built-in"], capture_output=True, timeout=60)
        self.same("the listing", (ran.returncode, ran.stdout.decode().splitlines(), ran.stderr), (0, built_in(), b""))

    def test_the_schemas_of_the_tests_in_the_crate(self):
        """Each is the file of the rows that stand beside it."""
        for name in "unions.rt", "extents.rt":
            text = (TOP / "crates/test_library/src/tests" / name).read_text()
            rows = " ".join(re.search(r"```text\n(.*?)/// ```", text, re.S)[1].replace("///", "").split())
            given = re.search(r'FILE: &\[u8\] = b"(.*?)";', text, re.S)[1]
            want = schemas.schema(*rows_of(rows)).hex()
            self.same(f"the file of {name}", bytes.fromhex(re.sub(r"[\\x\s]", "", given)).hex(), want)

    def refusal(self, python, **limits):
        """Why the library doesn't load FILE within these limits, or None."""
        options = python.Options(**{"max_reads": 2**64 - 1, "reads_per_byte": 2**32 - 1, **limits})
        try:
            python.Verifier(bytes_of(SAMPLES, "FILE"), None, options).close()
            return None
        except python.Error as error:
            self.same(f"{limits}: the status", error.verdict.status, python.Status.NOT_WELL_FORMED)
            return error.verdict

    def test_limits_are_those_of_the_caller(self):
        python = module()
        deep, many = python.Reason.TOO_DEEP, python.Reason.TOO_MANY_TABLES
        for depth, tables, want in [(3, 1000, deep), (4, 10, many), (4, 11, None), (4096, 11, None)]:
            why = self.refusal(python, max_depth=depth, max_tables=tables)
            self.same(f"{depth} levels, {tables} tables", why and why.reason, want)

    def test_a_budget_of_reads_is_that_of_the_caller(self):
        python = module()
        self.same("91 reads", self.refusal(python, max_reads=91), None)
        self.same("one less", line(self.refusal(python, max_reads=90)),
                  "bad V13 TooManyReads at=172 object=4 field=3 reads=91")
