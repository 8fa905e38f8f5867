"""Lines of JSON: `--json`. Each is one object, and says what the plain line of the same message says."""

import json
import math
import os
import random
import re
import shutil
import struct
import subprocess
import unittest

from tests.support import schemas
from tests.support.buffers import NOTHING, ODD, ORC, PLAIN, SEVEN
from tests.support.builder import Plain, buffer, prefixed
from tests.support.cases import Case
from tests.support.every_kind import FILE, LITTLE, OBJECTS, UNION, WHOLE, variants
from tests.support.json_lines import Float, names_of, read, said, spans_of
from tests.support.naive import Reader, Schema
from tests.support.program import PROGRAM, TOP, Ran, file_of, folder_of, lines, run
from tests.test_beside_naive import PATHS

FOLDER = folder_of(__name__)
FILES = schemas.files()
BY_N = ("--schema", FILES["N"])
BY_M = ("--schema", FILES["M"], "--bare", "--json")
BY_ALL = ("--schema", file_of("all.bfbs", FILE))
ALL = Schema(OBJECTS, [UNION])
NAMES = names_of(ALL)

GOOD = '{"message":%d,"begin":%d,"bytes":32,"ok":true,"tables":1,"depth":1,"reads":5}'
FIRST, THIRD = GOOD % (1, 0), GOOD % (3, 64)
BAD = ('{"message":2,"begin":32,"bytes":32,"ok":false,"code":"V3","reason":"Misaligned","at":7,"object":"N","field":null,'
       '"reads":3,"place":"."}')


class Json(Case):
    def test_lines(self):
        stream = SEVEN + ODD + SEVEN
        for name, words, want in [
            ("each", [], Ran(1, lines(FIRST, BAD, THIRD), b"")),
            ("bad ones", ["--quiet"], Ran(1, lines(BAD), b"")),
            ("places in words are told in any case", ["--names"], Ran(1, lines(FIRST, BAD, THIRD), b"")),
            ("a filter", ["--filter"], Ran(1, SEVEN * 2, lines(BAD))),
            ("a value", ["--path", "v"],
             Ran(1, lines(FIRST[:-1] + ',"values":{"v":7}}', BAD, THIRD[:-1] + ',"values":{"v":7}}'), b"")),
            ("a summary", ["--quiet", "--summary"], Ran(1, lines(BAD), lines(
                '{"messages":3,"yes":2,"no":1,"V3":1,"bytes":96,"tables":2,"reads":13}'))),
            ("a summary behind a filter's notes", ["--filter", "--summary"], Ran(1, SEVEN * 2, lines(
                BAD, '{"messages":3,"yes":2,"no":1,"V3":1,"bytes":96,"tables":2,"reads":13}'))),
        ]:
            self.same(name, run(*BY_N, "--json", *words, given=stream), want)
        self.same("of nothing", run(*BY_N, "--json", given=b""), Ran(0, b"", b""))
        self.same("past the end", run(*BY_N, "--json", given=NOTHING), Ran(1, lines(
            '{"message":1,"begin":0,"bytes":%d,"ok":false,"code":"V2","reason":"OutOfBuffer","at":4,"object":"N","field":null,"reads":1,'
            '"place":"."}' % len(NOTHING)), b""))
        self.same("a text", run(*BY_M, "--path", "name", given=ORC), Ran(0, lines(
            '{"message":1,"begin":0,"bytes":%d,"ok":true,"tables":1,"depth":1,"reads":8,"values":{"name":"Orc"}}' % len(ORC)), b""))
        self.same("none", run(*BY_M, "--path", "name", given=PLAIN).out.rpartition(b'"values":')[2], b'{"name":null}}\n')

    def test_texts(self):
        """A text of each byte, of letters of up to four bytes, and of what isn't UTF-8."""
        texts = [bytes([byte]) for byte in range(256)] + [
            b"", b'a "b" \\c\\', "Jürg ☃ \U0001f600".encode(), b"\0\x1f\x7f", b"\xc3", b"\xc3\xbc\xff", b"\xc0\x80",
            b"\xed\xa0\x80", b"\xf4\x90\x80\x80", b"\xef\xbf\xbf", b"\xf4\x8f\xbf\xbf", "ü".encode() * 50_000, b"\xff" * 70_000,
        ]
        named = [buffer({1: Plain(text + b"\0", 1, len(text))}) for text in texts]
        stream = b"".join(map(prefixed, named))
        by = "--schema", FILES["M"], "--path", "name"
        plain = run(*by, given=stream).out.splitlines()
        told = run(*by, "--json", given=stream).out.split(b"\n")[:-1]
        self.same("as many", (len(told), len(plain)), (len(texts), len(texts)))
        for text, line, beside in zip(texts, told, plain):
            self.same(f"{text[:20]} is read", read(line), said(beside, spans_of(stream), NAMES, ["name"]))

    def test_lines_beside_plain_ones(self):
        """Buffers of every kind, cut off and changed: a reader of JSON gets what the plain lines say."""
        for which, root in [("all fields", WHOLE), ("few fields", LITTLE)]:
            data = buffer(root, b"KIND", prefix=True)[4:]
            messages = [*map(prefixed, variants(data, [1, 252]))]
            stream = b"".join(messages)
            for path in [None, *PATHS]:
                words = [] if path is None else ["--path", path]
                plain = run(*BY_ALL, "--names", *words, given=stream)
                told = run(*BY_ALL, "--json", *words, given=stream)
                spans = spans_of(stream)
                values = lambda line, message: [Reader(ALL, 0, message).value(path)] if path and b" ok " in line else ()
                wants = [said(line, spans, NAMES, words[1:], values(line, message))
                         for line, message in zip(plain.out.splitlines(), messages)]
                got = [read(line) for line in told.out.split(b"\n")[:-1]]
                differing = [pair for pair in zip(got, wants) if pair[0] != pair[1]]
                self.same(f"{which}, {path}: lines that differ", differing[:3], [])
                self.same(f"{which}, {path}: their number and the end", (len(got), told.status, told.err),
                          (len(wants), plain.status, plain.err))

    def test_summaries_beside_plain_ones(self):
        """Sums of buffers that are bent in many ways: the object has the plain line's names and numbers, in order."""
        data = buffer(WHOLE, b"KIND", prefix=True)[4:]
        stream = b"".join(map(prefixed, variants(data, [1, 252])))
        halves = [file_of(f"{which}.bin", part) for which, part in [("good", SEVEN * 3), ("bad", NOTHING)]]
        for name, words, given in [
            ("of nothing", BY_N, b""), ("of one", BY_N, SEVEN), ("of many", BY_ALL, stream), ("cut off", BY_N, ODD + SEVEN[:5]),
            ("within a depth", (*BY_ALL, "--max-depth", "1"), stream), ("of files", (*BY_N, *halves), b""),
        ]:
            plain = run(*words, "--quiet", "--summary", given=given)
            told = run(*words, "--quiet", "--summary", "--json", given=given)
            label, *numbers = plain.err.splitlines()[0].decode().split()
            want = [(key, int(number)) for key, number in (number.split("=") for number in numbers)]
            self.same(f"{name}: the numbers", (label, list(read(told.err.splitlines()[0]).items())), ("summary:", want))
            self.same(f"{name}: the rest", (told.status, len(told.err.splitlines())), (plain.status, len(plain.err.splitlines())))

    def test_numbers_of_64_bits(self):
        """Whole numbers stand as they are."""
        for kind, form, numbers in [
            (schemas.LONG, "q", [-(2**63), -1, 0, 2**53 + 1, 2**63 - 1]), (schemas.U_LONG, "Q", [0, 2**64 - 1]),
        ]:
            by = file_of("long.bfbs", schemas.schema([schemas.table("L", schemas.field("v", kind, 4))], root="L"))
            for number in numbers:
                ran = run("--schema", by, "--bare", "--json", "--path", "v", given=buffer({0: (form, number)}))
                self.same(str(number), ran.out.rpartition(b'"values":')[2], b'{"v":%d}}\n' % number)

    def test_floats(self):
        """Floats of each size, near where an exponent begins, and any bits: a reader gets the same bits."""
        for kind, form, word, bits, top in [(schemas.FLOAT, "<f", "I", 23, 127), (schemas.DOUBLE, "<d", "Q", 52, 1023)]:
            size = struct.calcsize(form)
            sign, infinity = 1 << (8 * size - 1), (2 * top + 1) << bits
            edges = [1, 2, 3, (1 << bits) - 1, 1 << bits, infinity - 1, infinity, infinity + 1, sign - 1, sign // 4 * 3]
            edges += [(power << bits) + more for power in range(1, 2 * top + 1, 7) for more in (-1, 0, 1)]
            tens = [float(f"{digit}e{power}") for digit in (1, 1.5, 9.99999) for power in range(-44, 38)]
            edges += [int.from_bytes(struct.pack(form, number), "little") for number in [0.1, 2 / 3, 16777217.0, *tens]]
            drawn = random.Random(size)
            numbers = [*edges, *(sign + edge for edge in edges), 0, sign, *(drawn.getrandbits(8 * size) for _ in range(3000))]
            by = file_of("float.bfbs", schemas.schema([schemas.table("F", schemas.field("v", kind, 4))], root="F"))
            stream = b"".join(prefixed(buffer({0: (word, number)})) for number in numbers)
            told = run("--schema", by, "--json", "--no-alignment", "--path", "v", given=stream).out.splitlines()
            self.same(f"{form}: as many", len(told), len(numbers))
            floats = [Float(number.to_bytes(size, "little")) for number in numbers]
            differing = [(it, line) for it, line in zip(floats, told) if it != read(line)["values"]["v"]]
            self.same(f"{form}: those that differ", differing[:3], [])


@unittest.skipIf(shutil.which("jq") is None, "jq isn't there")
class Recipes(Case):
    """The page's recipes for jq do what it says of them."""

    PAGE = (TOP / "examples/jq.md").read_text()

    def picked(self, kind, numbers, form, recipe):
        """Which of these numbers, each an optional field of a message, jq passes on by a recipe of the page."""
        by = file_of("by.bfbs", schemas.schema([schemas.table("T", schemas.field("hp", kind, 4, optional=True))], root="T"))
        stream = b"".join(prefixed(buffer({} if number is None else {0: (form, number)})) for number in numbers)
        told = run("--schema", by, "--json", "--path", "hp", "--no-alignment", given=stream + prefixed(b"bad")).out
        ran = subprocess.run(["jq", "-c", recipe], input=told, capture_output=True, timeout=60)
        self.same("jq has nothing to say", (ran.returncode, ran.stderr), (0, b""))
        return [json.loads(line) for line in ran.stdout.splitlines()]

    def test_floats(self):
        recipe = re.search(r"numbers as `(.*?)`", self.PAGE)[1]
        default = re.search(r"`(\.values\[.*? // 0)`", self.PAGE)[1].replace('["pos.lat"]', ".hp")
        for kind, form, top in [(schemas.FLOAT, "f", 127), (schemas.DOUBLE, "d", 1023)]:
            numbers = [0.0, 1.0, 1.5, -2.0, 50.001, 1e-30, -3e30, 2.0 ** (1 - top), 2.0**top]
            numbers = [struct.unpack(form, struct.pack(form, number))[0] for number in numbers]
            got = self.picked(kind, numbers, form, "select(.ok).values.hp")
            got = [struct.unpack(form, struct.pack(form, number))[0] for number in got]
            self.same(f"{form}: numbers", got, numbers)
            ends = self.picked(kind, [math.inf, -math.inf, math.nan, None], form, "select(.ok).values.hp")
            self.same(f"{form}: no numbers", ends, ["Infinity", "-Infinity", "NaN", None])
            got = self.picked(kind, [50.0, 51.0, -1e9, None, math.nan], form, f"{recipe} | .message")
            self.same(f"{form}: compared", got, [2])
            got = self.picked(kind, [1.5, None], form, f"select(.ok) | {default}")
            self.same(f"{form}: left out", got, [1.5, 0])

    def test_whole_numbers(self):
        recipe = re.search(r"numbers as `(.*?)`", self.PAGE)[1]
        self.same("compared", self.picked(schemas.INT, [50, 51, -1, 70], "i", recipe + " | .message"), [2, 4])
        vector = '{"ok":true,"values":{"hp":{"absent":"no-element"}}}'
        ran = subprocess.run(["jq", "-c", recipe], input=vector, capture_output=True, text=True, timeout=60)
        self.same("an absent one is none", (ran.returncode, ran.stdout), (0, ""))

    def test_reasons(self):
        recipe = re.search(r"`(jq -r 'select\(\.ok == false.*?)`", self.PAGE)[1]
        told = run(*BY_N, "--json", given=SEVEN + ODD + SEVEN + NOTHING + ODD).out
        ran = subprocess.run(["sh", "-c", recipe], input=told, capture_output=True, timeout=60)
        self.same("counted", ran.stdout.split(), [b"2", b"Misaligned", b"1", b"OutOfBuffer"])

    def csv(self, *changes):
        """What the page's program for CSV makes, with these changes of its text."""
        script = re.search(r"```sh\n(set -o pipefail\n.*?@csv'\n)", self.PAGE, re.S)[1]
        for old, new in changes:
            self.holds(f"the program has {old}", script.count(old) == 1, script)
            script = script.replace(old, str(new))
        (FOLDER / "path").mkdir(exist_ok=True)
        if not (FOLDER / "path/fbcheck").exists():
            (FOLDER / "path/fbcheck").symlink_to(PROGRAM)
        ran = subprocess.run(["bash", "-c", script], cwd=TOP, capture_output=True, text=True, timeout=60,
                             env={**os.environ, "PATH": f"{FOLDER / 'path'}:{os.environ['PATH']}"})
        return ran.returncode, ran.stdout.splitlines(), ran.stderr

    def test_csv(self):
        """The program for CSV, as it is printed: a row for each good message, whose columns all stand."""
        rows = ['"1","Ada",2.5,3', '"18446744073709551615","Eve",0,', '"3","Fay",0,', '"4","Gus",-0.5,', '"5","Hal",0,']
        self.same("of the examples", self.csv(), (1, rows, ""))
        shown = re.findall(r"^# (\".*)$", self.PAGE.split("@csv'\n")[1].split("```")[0], re.M)
        self.same("the rows that are printed below it are the first", shown, rows[:len(shown)])
        self.holds("there are some", len(shown) > 1, shown)
        told = json.loads(subprocess.run(["jq", "."], input=str(2**53 + 1), capture_output=True, text=True).stdout)
        version = subprocess.run(["jq", "--version"], capture_output=True, text=True).stdout
        self.holds("jq 1.6 rounds, as the page says", told == 2**53 or "1.6" not in version, told)

    def test_csv_of_odd_values(self):
        """A text that isn't UTF-8, one with quotes, a float that is no number, and messages that are bad."""
        def delivery(name, price):
            person = {0: Plain(name + b"\0", 1, len(name))}
            return prefixed(buffer({0: ("Q", 2**53 + 1), 1: person, 11: ("f", price)}))
        stream = b"".join([delivery(b"\xc3", 1.0), delivery(b'"id":7', math.nan), prefixed(b"bad"), delivery(b"", -2.0)])
        words = ("--schema", "--no-alignment --schema"), ("examples/deliveries.bin", file_of("odd.bin", stream))
        number = f'"{2**53 + 1}"'
        rows = [f'{number},{rest}' for rest in ['"{""bytes"":""c3""}",1,', '"""id"":7","NaN",', '"",-2,']]
        self.same("rows", self.csv(*words), (1, rows, ""))
