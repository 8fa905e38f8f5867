"""Rows of CSV: `--csv`. The head has the paths' texts, and a row the values of a good message; lines of bad ones go to
standard error."""

import csv
import importlib.util
import io
import os
import random
import shutil
import sqlite3
import struct
import subprocess

from tests.support import schemas
from tests.support.buffers import NOTHING, ODD, ORC, PLAIN, SEVEN
from tests.support.builder import Plain, buffer, prefixed
from tests.support.cases import Case
from tests.support.every_kind import FILE, LITTLE, WHOLE, variants
from tests.support.json_lines import Float, read
from tests.support.preloaded import narrowed
from tests.support.program import PROGRAM, Ran, file_of, folder_of, lines, refused, run, run_in_shell
from tests.test_beside_naive import PATHS
from tests.test_large_values import BY_TEXT, MORE, PATTERN, SIZE, big_file, holds, measured

FOLDER = folder_of(__name__)
FILES = schemas.files()
BY_N = ("--schema", FILES["N"])
BY_M = ("--schema", FILES["M"])
BY_ALL = ("--schema", file_of("all.bfbs", FILE))
BAD = "2 bad V3 Misaligned at=7 object=0 field=- reads=3"


def rows(*texts):
    """The bytes of a head and rows."""
    return "".join(f"{text}\r\n" for text in texts).encode()


def table_of(data):
    """The records that Python reads of a table, whose bytes stand for letters."""
    return list(csv.reader(io.StringIO(data.decode("latin-1"), newline=""), strict=True))


def field(value):
    """The text that a reader gets of a value's field, by what a reader of JSON gets of the value."""
    if value is None:
        return ""
    if isinstance(value, bool):
        return str(value).lower()
    if isinstance(value, dict):
        (kind, told), = value.items()
        return {"absent": told, "bytes": "", "struct": f"struct:{told}", "vector": f"vector:{told}", "table": "table",
                "union": f"union:{told}"}[kind] if kind != "bytes" else bytes.fromhex(told).decode("latin-1")
    if isinstance(value, str):
        return value.encode().decode("latin-1")
    return str(value)


class Csv(Case):
    def test_rows(self):
        stream = SEVEN + ODD + SEVEN
        told = lines(BAD)
        for name, words, want in [
            ("a value", ["--path", "v"], Ran(1, rows("v", "7", "7"), told)),
            ("its letter", ["-p", "v"], Ran(1, rows("v", "7", "7"), told)),
            ("with places in words", ["--path", "v", "--names"], Ran(1, rows("v", "7", "7"), lines(f"{BAD} in . [N]"))),
            ("with a name", ["--path", "v", "-H"], Ran(1, rows("file,v", '"-",7', '"-",7'), lines(f"-: {BAD}"))),
            ("a summary", ["--path", "v", "--summary"], Ran(1, rows("v", "7", "7"), lines(
                BAD, "summary: messages=3 yes=2 no=1 V3=1 bytes=96 tables=2 reads=13"))),
        ]:
            self.same(name, run(*BY_N, "--csv", *words, given=stream), want)
        self.same("of nothing", run(*BY_N, "--csv", "--path", "v"), Ran(0, rows("v"), b""))
        self.same("of bad ones alone", run(*BY_N, "--csv", "--path", "v", given=NOTHING), Ran(1, rows("v"), lines(
            "1 bad V2 OutOfBuffer at=4 object=0 field=- reads=1")))
        self.same("bare", run(*BY_M, "--bare", "--csv", "--path", "name", given=ORC), Ran(0, rows("name", '"Orc"'), b""))
        self.same("what is absent, alone", run(*BY_M, "--bare", "--csv", "--path", "name", given=PLAIN),
                  Ran(0, rows("name", '""'), b""))
        self.same("beside a name", run(*BY_M, "--bare", "--csv", "--path", "name", "-H", given=PLAIN),
                  Ran(0, rows("file,name", '"-",'), b""))
        self.same("after an error", run(*BY_N, "--csv", "--path", "v", given=SEVEN + SEVEN[:9]),
                  Ran(3, rows("v", "7"), run(*BY_N, given=SEVEN + SEVEN[:9]).err))

    def test_words(self):
        for words, why in [
            ([], "csv needs a path"), (["--path", "v", "--json"], "csv and json exclude each other"),
            (["--path", "v", "--quiet"], "csv and quiet exclude each other"), (["--filter"], "csv and filter exclude each other"),
        ]:
            self.same(str(words), run(*BY_N, "--csv", *words, given=SEVEN), refused(why))
        ran = run(*BY_N, "--csv", "--path", "none", given=SEVEN)
        self.same("a path that is none: no head", ran, Ran(2, b"", run(*BY_N, "--path", "none", given=SEVEN).err))

    def test_values(self):
        """A value of each kind, in each place of a row."""
        data = buffer(WHOLE, b"KIND", prefix=True)
        want = [
            ("yes", "true"), ("least", "-1"), ("short", "300"), ("long", "7"), ("real", "1.5"), ("last", "9"),
            ("place", "struct:01000000feffffff03000000"), ("place.y", "-2"), ("name", '"name"'), ("below", "table"),
            ("below.v", "5"), ("bytes", "vector:3"), ("bytes[2]", "99"), ("bytes[3]", "no-element"), ("texts[1]", '""'),
            ("one", "union:9"), ("one@Below.v", "other-member"), ("below.next.next.next", ""),
        ]
        for at in range(len(want)):
            some = [want[(at + more) % len(want)] for more in range(16)]
            words = [word for path, _ in some for word in ("--path", path)]
            self.same(f"from {some[0][0]} on", run(*BY_ALL, "--csv", *words, given=data),
                      Ran(0, rows(",".join(path for path, _ in some), ",".join(told for _, told in some)), b""))
            path, told = want[at]
            self.same(f"{path} alone", run(*BY_ALL, "--csv", "--path", path, given=data), Ran(0, rows(path, told or '""'), b""))

    def test_texts(self):
        """A text of each byte, of letters of up to four bytes, and of what isn't UTF-8: a reader gets its bytes."""
        texts = [bytes([byte]) for byte in range(256)] + [
            b"", b'"', b'""', b'a "b", c', b"a\r\nb\nc\rd", b",", "J\u00fcrg \u2603 \U0001f600".encode(), b"\0\x1f\x7f", b"\xc3", b"\xff" * 70_000,
            b'"' * 70_000, b"a" * 65_535 + b'"' + b"b" * 65_536,
        ]
        stream = b"".join(prefixed(buffer({1: Plain(text + b"\0", 1, len(text))})) for text in texts)
        ran = run(*BY_M, "--path", "name", "--csv", given=stream)
        written = b"".join(b'"%s"\r\n' % text.replace(b'"', b'""') for text in texts)
        self.same("as it is written", (ran.status, ran.out == b"name\r\n" + written, ran.err), (0, True, b""))
        got = [record[0].encode("latin-1") for record in table_of(ran.out)]
        self.holds("as it is read", got == [b"name", *texts])

    def test_rows_beside_json(self):
        """Buffers of every kind, cut off and changed: a reader of CSV gets what one of JSON gets, and of floats the same
        bits."""
        for which, root in [("all fields", WHOLE), ("few fields", LITTLE)]:
            data = buffer(root, b"KIND", prefix=True)[4:]
            stream = b"".join(map(prefixed, variants(data, [1, 252])))
            for first in range(0, len(PATHS), 5):
                paths = PATHS[first : first + 5]
                words = [word for path in paths for word in ("--path", path)]
                plain = run(*BY_ALL, *words, given=stream)
                told = [read(line) for line in run(*BY_ALL, "--json", *words, given=stream).out.split(b"\n")[:-1]]
                ran = run(*BY_ALL, "--csv", *words, given=stream)
                wants = [paths] + [[field(line["values"][path]) for path in paths] for line in told if line["ok"]]
                differing = [pair for pair in zip(table_of(ran.out), wants) if pair[0] != pair[1]]
                self.same(f"{which}, {paths}: rows that differ", differing[:3], [])
                bad = b"".join(line for line in plain.out.splitlines(keepends=True) if line.split()[1] == b"bad")
                self.same(f"{which}, {paths}: their number and the rest", (len(table_of(ran.out)), ran.status, ran.err),
                          (len(wants), plain.status, bad))

    def test_numbers(self):
        """Whole numbers of 64 bits stand in full, and a reader gets a float's very bits."""
        for kind, form, numbers in [
            (schemas.LONG, "q", [-(2**63), -1, 0, 2**53 + 1, 2**63 - 1]), (schemas.U_LONG, "Q", [0, 2**64 - 1]),
        ]:
            by = file_of("long.bfbs", schemas.schema([schemas.table("L", schemas.field("v", kind, 4))], root="L"))
            stream = b"".join(prefixed(buffer({0: (form, number)})) for number in numbers)
            self.same(form, run("--schema", by, "--csv", "--no-alignment", "--path", "v", given=stream),
                      Ran(0, rows("v", *numbers), b""))
        for kind, form, word in [(schemas.FLOAT, "<f", "I"), (schemas.DOUBLE, "<d", "Q")]:
            size = struct.calcsize(form)
            drawn = random.Random(size)
            numbers = [float(text) for text in ["0.0", "-0.0", "1.5", "0.1", "1e20", "-1e-30", "inf", "-inf", "nan"]]
            bits = [int.from_bytes(struct.pack(form, number), "little") for number in numbers]
            bits += [drawn.getrandbits(8 * size) for _ in range(2000)]
            by = file_of("float.bfbs", schemas.schema([schemas.table("F", schemas.field("v", kind, 4))], root="F"))
            stream = b"".join(prefixed(buffer({0: (word, number)})) for number in bits)
            told = run("--schema", by, "--csv", "--no-alignment", "--path", "v", given=stream).out.decode().split("\r\n")
            self.same(f"{form}: words", told[7:10], ["Infinity", "-Infinity", "NaN"])
            self.same(f"{form}: as many", len(told), len(bits) + 2)
            floats = [Float(number.to_bytes(size, "little")) for number in bits]
            differing = [(it, text) for it, text in zip(floats, told[1:]) if not (
                struct.pack(form, float(text)) == it.data or text == "NaN" and it == "NaN")]
            self.same(f"{form}: those that differ", differing[:3], [])

    def test_files(self):
        good, odd = file_of("good.bin", SEVEN * 2), file_of("odd.bin", SEVEN + ODD)
        named = str(file_of('na"me, with\nmore.bin', SEVEN))
        by = *BY_N, "--csv", "--path", "v"
        self.same("two", run(*by, good, odd), Ran(1, rows("file,v", f'"{good}",7', f'"{good}",7', f'"{odd}",7'), lines(
            f"{odd}: {BAD}")))
        self.same("one", run(*by, good), Ran(0, rows("v", "7", "7"), b""))
        self.same("one, named", run(*by, "-H", good), Ran(0, rows("file,v", f'"{good}",7', f'"{good}",7'), b""))
        ran = run(*by, "-H", named)
        self.same("a name with a quote and the end of a line", (ran.status, table_of(ran.out), ran.err),
                  (0, [["file", "v"], [named, "7"]], b""))
        none = run(*BY_N, "--path", "v", "/none/such", good)
        self.same("none such, and a good one", run(*by, "/none/such", good), Ran(3, rows("file,v", f'"{good}",7', f'"{good}",7'), none.err))
        self.same("none such alone", run(*by, "/none/such"), Ran(3, rows("v"), run(*BY_N, "/none/such").err))

    def test_other_readers(self):
        """What sqlite3 and NumPy read of it."""
        stream = b"".join(prefixed(buffer({0: ("h", number), 1: text})) for number, text in [(1, 'a "b", c\r\nd'), (-2, "")])
        ran = run(*BY_M, "--csv", "--no-alignment", "--path", "name", "--path", "hp", given=stream)
        made = FOLDER / "made.csv"
        made.write_bytes(ran.out)
        if shutil.which("sqlite3"):
            asked = subprocess.run(["sqlite3", ":memory:", f".import --csv {made} made", "select hex(name), hp from made"],
                                   capture_output=True, timeout=60)
            self.same("sqlite3", asked.stdout.split(), [b'a "b", c\r\nd'.hex().upper().encode() + b"|1", b"|-2"])
            made.write_bytes(rows("a,f,u", ",NaN,7", f",-Infinity,{2**64 - 1}"))
            script = f".import --csv --skip 1 {made} made", "select typeof(a), avg(a), f, typeof(u) from made group by f"
            asked = subprocess.run(["sqlite3", ":memory:", "create table made (a real, f real, u integer)", *script],
                                   capture_output=True, timeout=60)
            self.same("what it doesn't know", asked.stdout.split(), [b"text|0.0|-Infinity|real", b"text|0.0|NaN|integer"])
        if importlib.util.find_spec("numpy"):
            import numpy

            numbers = numpy.loadtxt(io.BytesIO(run(*BY_N, "--csv", "--path", "v", "--path", "v", given=SEVEN * 3).out),
                                    delimiter=",", skiprows=1)
            self.same("NumPy", numbers.tolist(), [[7, 7]] * 3)
        base = sqlite3.connect(":memory:")
        base.execute("create table made (name text, hp integer)")
        base.executemany("insert into made values (?, ?)", table_of(ran.out)[1:])
        self.same("by Python", base.execute("select sum(hp), max(length(name)) from made").fetchall(), [(-1, 11)])

    def test_writes_that_fail(self):
        """The output takes so many bytes and no more: a front of head and rows is written, and told."""
        by, stream = (*BY_N, "--csv", "--path", "v"), SEVEN * 3
        whole = run(*by, given=stream)
        for room in range(len(whole.out)):
            self.same(f"room for {room} bytes", narrowed(*by, given=stream, room=room), Ran(
                3, whole.out[:room], lines(f"fbcheck: write failed after {room} bytes")))
        self.same("of nothing", run_in_shell(">/dev/full", *by).status, 3)

    def test_the_head_comes_first(self):
        """It stands written before the first byte is read."""
        with subprocess.Popen([PROGRAM, *BY_N, "--csv", "--path", "v"], stdin=subprocess.PIPE, stdout=subprocess.PIPE) as child:
            self.same("before anything", os.read(child.stdout.fileno(), 100), b"v\r\n")
            child.stdin.write(SEVEN)
            child.stdin.flush()
            self.same("and a row at once", os.read(child.stdout.fileno(), 100), b"7\r\n")
            child.stdin.close()
            self.same("the end", child.wait(60), 0)

    def test_a_large_text(self):
        big = big_file("big", True)
        length = os.path.getsize(big)
        whole, rest = divmod(SIZE, len(PATTERN))
        doubled = PATTERN.replace(b'"', b'""')
        status, memory, made = measured(*BY_TEXT, "--csv", "--path", "s", given=big)
        parts = (doubled for _ in range(whole))
        self.same("its status", status, 0)
        self.holds("its row", holds(made, [b's\r\n"'], parts, [PATTERN[:rest].replace(b'"', b'""'), b'"\r\n']))
        self.holds("its memory", memory <= length + MORE, (memory, length))
