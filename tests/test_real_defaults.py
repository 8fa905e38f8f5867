"""Floats that a buffer doesn't have: `--json` and calls tell the schema's default, and plain lines that they are absent."""

import json
import random
import shutil
import struct
import subprocess
import unittest

from tests.support.builder import buffer
from tests.support.cases import Case
from tests.support.generated import made, missing
from tests.support.library import LibraryCase, module
from tests.support.program import Ran, file_of, folder_of, lines, run
from tests.support.real_defaults import FILE, MESSAGE, VALUES

FOLDER = folder_of(__name__)
BY = ("--schema", file_of("real.bfbs", FILE), "--bare")
# The beginning of a program that writes what the accessors of an empty table give, each as the bits of a double.
HEAD = """#include "reals_generated.h"
#include <cstdio>
#include <cstring>

static void show(double number) {
  unsigned long long bits;
  std::memcpy(&bits, &number, sizeof bits);
  std::printf("%016llx\\n", bits);
}

int main() {
  flatbuffers::FlatBufferBuilder builder;
  builder.Finish(RealsBuilder(builder).Finish());
  auto root = flatbuffers::GetRoot<Reals>(builder.GetBufferPointer());
"""
MOST_PATHS = 16


def in_turns(rows):
    """Rows, as many at once as there may be paths, each with the words that ask for its path."""
    for first in range(0, len(rows), MOST_PATHS):
        part = rows[first : first + MOST_PATHS]
        yield part, [word for row in part for word in ("--path", row[0])]


class RealDefaults(Case):
    def test_lines(self):
        for rows, words in in_turns(VALUES):
            counts = run(*BY, given=MESSAGE).out.decode().strip()
            plain = " ".join([counts, *(row[1] for row in rows)])
            self.same("plain", run(*BY, *words, given=MESSAGE), Ran(0, lines(plain), b""))
            told = run(*BY, "--json", *words, given=MESSAGE).out.decode()
            values = ",".join(f'"{path}":{value}' for path, _, value, _ in rows)
            self.same("as JSON", told.partition('"values":')[2], f"{{{values}}}}}\n")

    def test_what_is_checked_stays(self):
        """A verdict doesn't depend on defaults, nor do demands on fields."""
        for words in [[], ["--known-fields"], ["--strict"], ["--max-reads", "20"]]:
            told = run(*BY, *words, given=MESSAGE)
            self.same(f"{words}", run(*BY, *words, "--path", "zero", given=MESSAGE).status, told.status)

    def test_a_schema_file(self):
        """The table that is built in has a real default too, which is 0.0."""
        words = ["--bare", "--json", "--path", "objects[0].fields[0].default_real", "--path",
                 "objects[0].fields[2].default_real"]
        told = json.loads(run(*words, given=FILE).out)["values"]
        self.same("one that is left out, and one that is there", [*told.values()], [0.0, 1.5])


class InC(LibraryCase):
    def test_values(self):
        """A default has a kind of its own, and its number in no place of the buffer."""
        calls = module()
        with calls.Verifier(FILE) as verifier:
            for path, plain, _, number in VALUES:
                value = calls._Value()
                verifier._calls.fbcheck_read(verifier._schema, None, None, MESSAGE, len(MESSAGE), verifier.resolve(path),
                                             value, 1, None)
                if number is None or plain.startswith("float:"):
                    self.holds(f"{path} is no default", value.kind != calls.Kind.DEFAULT_FLOAT, value.kind)
                    continue
                self.same(f"{path}: its kind, and no place", (value.kind, value.at, value.size, value.integer),
                          (calls.Kind.DEFAULT_FLOAT, 0, 0, 0))
                told = struct.unpack("<d", struct.pack("<Q", value.number))[0]
                self.same(f"{path}: the number", repr(told), repr(number))


@unittest.skipIf(missing(), f"not there: {', '.join(missing())}")
class BesideGenerated(Case):
    """What generated accessors give for fields that are absent."""

    FLOATS = 400

    def test_accessors(self):
        dice, folder = random.Random(7), FOLDER / "real_defaults"
        shutil.rmtree(folder, ignore_errors=True)
        folder.mkdir()
        numerals = ["0.0", "-1.5", "3.4028234e38", "1.17549435e-38", "1e-45", "16777217", "0.30000001192092896", "inf",
                    "-inf", "nan"]
        numerals += [f"{dice.uniform(-10, 10):.{dice.randrange(1, 12)}f}e{dice.randrange(-36, 37)}"
                     for _ in range(self.FLOATS - len(numerals))]
        fields = [(f"{kind[0]}{at}", kind, numeral) for at, numeral in enumerate(numerals) for kind in ("float", "double")]
        declared = "".join(f"  {name}:{kind} = {numeral};\n" for name, kind, numeral in fields)
        (folder / "reals.fbs").write_text(f"table Reals {{\n{declared}}}\nroot_type Reals;\n")
        made("flatc", "--binary", "--schema", "--cpp", "-o", folder, folder / "reals.fbs")
        shown = "".join(f"  show(root->{name}());\n" for name, _, _ in fields)
        (folder / "reals.cpp").write_text(f"{HEAD}{shown}}}\n")
        made("g++", "-O0", "-o", folder / "reals", folder / "reals.cpp")
        ran = subprocess.run([folder / "reals"], capture_output=True, text=True, check=True).stdout.split()
        want = [repr(struct.unpack(">d", bytes.fromhex(bits))[0]) for bits in ran]
        by = "--schema", folder / "reals.bfbs", "--bare", "--json"
        told = [value for _, words in in_turns(fields)
                for value in json.loads(run(*by, *words, given=buffer({})).out)["values"].values()]
        got = [repr(number_of(kind, value)) for (_, kind, _), value in zip(fields, told)]
        differing = [row for row in zip(fields, got, want) if row[1] != row[2]]
        self.same("as many", (len(told), len(want)), (len(fields), len(fields)))
        self.same("fields whose default differs, with what the accessor gives", differing[:3], [])


def number_of(kind, value):
    """The number of a float in JSON, where it is of this type."""
    number = float(value)
    return struct.unpack("<f", struct.pack("<f", number))[0] if kind == "float" else number


if __name__ == "__main__":
    unittest.main()
