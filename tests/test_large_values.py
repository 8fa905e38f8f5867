"""Values of tens of megabytes at the end of a path: their lines, and how much memory they take.

Values are written while their line is made, as JSON too. So a run takes no more memory than the message and a few
buffers, whatever the value's text is.
"""

import itertools
import os
import struct
import subprocess
import sys
import tempfile

from bench.shapes.layout import begun
from bench.shapes.measuring import MEASURE
from tests.support.builder import Plain, buffer, prefixed
from tests.support.cases import Case
from tests.support.preloaded import ALONE, WITH_LATER, narrowed, refusing, sweep
from tests.support.program import PROGRAM, file_of, folder_of, lines, run
from tests.support.schemas import INT, TEXT, a_struct, an_object, field, schema, table, vector

FOLDER = folder_of(__name__)

# How much more memory than the message a run may take.
MORE = 3 << 20

# As many paths as there may be, which all lead to a text of so many bytes.
PATHS = [f"t{number}" for number in range(16)]
TO_ONE = 16 << 20

# Each byte once, among letters, and not as many as fit into any buffer evenly.
PATTERN = bytes(range(256)) + b"all the letters of a plain text " * 60 + b"\\\""
SIZE = 60_000_000
BY_TEXT = ("--schema", file_of("text.bfbs", schema([table("T", field("s", TEXT, 4))], root="T")))

# The bytes of one struct: a number, and what lies behind it.
STRUCT = 1_000_000


def quoted(data):
    """A text as a line has it."""
    plain = {34: '\\"', 92: "\\\\"}
    return '"' + "".join(plain.get(b) or (chr(b) if 32 <= b <= 126 else f"\\x{b:02x}") for b in data) + '"'


def big_file(name, prefix):
    """The path of a file with a buffer whose root table's field 0 is a text of SIZE bytes.

    It is never held whole here, since a child's peak begins with that of this process.
    """
    hollow = buffer({0: b""}, prefix=prefix)
    count = len(hollow) - 5
    path = FOLDER / name
    with open(path, "wb") as file:
        file.write(hollow[:count] + struct.pack("<I", SIZE))
        whole, rest = divmod(SIZE, len(PATTERN))
        for _ in range(whole):
            file.write(PATTERN)
        file.write(PATTERN[:rest] + b"\0" * (1 + -(SIZE + 1) % 4))
    if prefix:
        with open(path, "r+b") as file:
            file.write(struct.pack("<I", os.path.getsize(path) - 4))
    return path


def hollow_file(name, prefix):
    """The path of a file with this and a bad buffer of SIZE bytes, which are all 0."""
    path = FOLDER / name
    with open(path, "wb") as file:
        file.write(prefix)
        file.truncate(len(prefix) + SIZE)
    return path


def parts_of_big():
    """The text of that value in a line, in parts."""
    whole, rest = divmod(SIZE, len(PATTERN))
    part = quoted(PATTERN)[1:-1].encode()
    return itertools.chain([b'"'], itertools.repeat(part, whole), [quoted(PATTERN[:rest])[1:].encode()])


def digits_of_big():
    """The bytes of that value as hexadecimal digits, in parts."""
    whole, rest = divmod(SIZE, len(PATTERN))
    return itertools.chain(itertools.repeat(PATTERN.hex().encode(), whole), [PATTERN[:rest].hex().encode()])


def holds(path, *parts):
    """Whether these parts are what a file holds."""
    with open(path, "rb") as file:
        return all(file.read(len(part)) == part for part in itertools.chain(*parts)) and file.read(1) == b""


def measured(*words, given):
    """The status and the most memory of a run on this file, and the file that it wrote."""
    made = FOLDER / "made"
    with open(given, "rb") as source, open(made, "wb") as sink:
        child = subprocess.Popen([PROGRAM, *words], stdin=source, stdout=sink)
        _, status, usage = os.wait4(child.pid, 0)
        child.returncode = os.waitstatus_to_exitcode(status)
    return child.returncode, usage.ru_maxrss * 1024, made


def peak(*words, given, **how):
    """The most memory of a run on this file, and how many bytes it writes. A process that has less memory than this one
    starts it, since a child's peak begins with that of its parent."""
    with tempfile.NamedTemporaryFile("r", dir=FOLDER) as told, open(given, "rb") as source:
        command = [sys.executable, "-S", "-E", "-c", MEASURE, told.name, PROGRAM, *words]
        child = subprocess.Popen(command, stdin=source, stdout=subprocess.PIPE, bufsize=0, pipesize=1 << 20, **how)
        written = sum(map(len, iter(lambda: child.stdout.read(1 << 20), b"")))
        child.stdout.close()
        child.wait()
        return int(told.read().split()[1]) * 1024, written


def lines_of(texts):
    """The lines of a stream of these texts."""
    return lines(*(f"{number} ok tables=1 depth=1 reads=8 {quoted(text)}" for number, text in enumerate(texts, 1)))


class LargeValues(Case):
    def test_a_large_text(self):
        for name, words, reads in ("of a stream", (), 8), ("of a bare input", ("--bare",), 7):
            prefix = not words
            head = f"1 ok tables=1 depth=1 reads={reads}"
            big = big_file("big", prefix)
            length = os.path.getsize(big)
            plain, memory, made = measured(*BY_TEXT, *words, given=big)
            self.same(f"the line without it, {name}", (plain, made.read_bytes()), (0, f"{head}\n".encode()))
            self.holds(f"memory without it, {name}", memory <= length + MORE, (memory, length))
            status, memory, made = measured(*BY_TEXT, "--path", "s", *words, given=big)
            self.same(f"status of a large text {name}", status, 0)
            self.holds(f"a large text {name}", holds(made, [f"{head} ".encode()], parts_of_big(), [b"\n"]))
            self.holds(f"memory of a large text {name}", memory <= length + MORE, (memory, length))
            status, memory, made = measured(*BY_TEXT, "--json", "--path", "s", *words, given=big)
            self.same(f"status as JSON {name}", status, 0)
            head = f'{{"message":1,"begin":0,"bytes":{length},"ok":true,"tables":1,"depth":1,"reads":{reads},"values":{{"s":{{"bytes":"'
            self.holds(f"as JSON {name}", holds(made, [head.encode()], digits_of_big(), [b'"}}}\n']))
            self.holds(f"memory as JSON {name}", memory <= length + MORE, (memory, length))
            status, memory, made = measured(*BY_TEXT, "--filter", *words, given=big)
            self.same(f"through a filter {name}", (status, made.stat().st_size), (0, length))
            self.holds(f"memory of a filter {name}", memory <= length + MORE, (memory, length))

    def test_a_large_bad_message(self):
        """It is kept without being held twice, whatever else is told of it."""
        for name, words, prefix in ("of a stream", (), struct.pack("<I", SIZE)), ("of a bare input", ("--bare",), b""):
            given, kept = hollow_file("hollow", prefix), FOLDER / "kept"
            for more in ("--quiet",), ("--filter",), ("--json", "--names"):
                memory, _ = peak(*BY_TEXT, *words, *more, "--rejects", kept, given=given, stderr=subprocess.DEVNULL)
                self.holds(f"it is kept {name}, {more}", holds(kept, [prefix], itertools.repeat(bytes(SIZE // 60), 60)))
                self.holds(f"memory {name}, {more}", memory <= SIZE + MORE, memory)

    def test_sixteen_paths_to_one_large_text(self):
        """Whatever is written of it: plain lines, JSON, CSV, or the message itself."""
        fields = [field(name, TEXT, 4 + 2 * at) for at, name in enumerate(PATHS)]
        by = file_of("sixteen.bfbs", schema([table("T", *fields)], root="T"))
        layout = begun().table("root", {4 + 2 * at: "text" for at in range(len(PATHS))})
        data = layout.text("text", b"all the letters of a plain text " * (TO_ONE // 32)).bytes()
        data += bytes(-len(data) % 4)
        stream, bare = file_of("stream", prefixed(data)), file_of("bare", data)
        named = [word for name in PATHS for word in ("--path", name)]
        for given, words, texts in [
            (stream, named, 16), (stream, [*named, "--json"], 16), (stream, [*named, "--csv"], 16),
            (stream, ["--filter"], 1), (bare, [*named, "--bare", "--csv"], 16),
        ]:
            memory, written = peak("--schema", by, *words, given=given)
            name = " ".join(word for word in words if word.startswith("--") and word != "--path") or "plain lines"
            self.holds(f"all is written, {name}", 0 < written - texts * TO_ONE < 4096, written)
            self.holds(f"memory, {name}", memory <= len(data) + MORE, (memory, len(data)))

    def test_among_others(self):
        """Lines before and behind it keep their order, whatever the pieces are; none is told twice."""
        texts = [(PATTERN * 200)[:size] for size in (3, 65_535, 65_536, 65_537, 70_000, 9, 131_072, 400_000, 0)]
        stream = b"".join(prefixed(buffer({0: text})) for text in texts)
        want = lines_of(texts)
        ran = run(*BY_TEXT, "--path", "s", given=stream)
        self.same("large texts among others", (ran.status, ran.out == want, ran.err), (0, True, b""))
        for text in texts:
            ran = run(*BY_TEXT, "--path", "s", "--bare", given=buffer({0: text}))
            line = lines(f"1 ok tables=1 depth=1 reads=7 {quoted(text)}")
            self.same(f"a text of {len(text)} bytes, bare", (ran.status, ran.out == line, ran.err), (0, True, b""))

    def test_several_large_texts(self):
        """One behind another in a line, with others around them."""
        three = file_of("three.bfbs", schema([table("T", *(field(name, TEXT, 4 + 2 * at) for at, name in enumerate("stu")))],
                                             root="T"))
        texts = [(PATTERN * 200)[:size] for size in (3, 65_537, 9, 400_000, 0)]
        stream = b"".join(prefixed(buffer({0: text, 1: text, 2: text})) for text in texts)
        want = lines(*(f"{number} ok tables=1 depth=1 reads=16 {quoted(text)} {quoted(text)} {quoted(text)}"
                       for number, text in enumerate(texts, 1)))
        words = "--schema", three, "--path", "u", "--path", "s", "--path", "t"
        ran = run(*words, given=stream)
        self.same("large texts, each three times", (ran.status, ran.out == want, ran.err), (0, True, b""))
        for room in (0, 37, 66, 70_000, 300_000, len(want) - 1):
            ran = narrowed(*words, given=stream, room=room, write=1000)
            self.same(f"room for {room} bytes", (ran.status, ran.out == want[:room], ran.err),
                      (3, True, f"fbcheck: write failed after {room} bytes\n".encode()))

    def test_a_large_struct(self):
        rows = [table("T", field("all", vector(an_object(1)), 4)), a_struct("S", STRUCT, 4, field("n", INT, 0))]
        path = file_of("struct.bfbs", schema(rows, root="T"))
        data = (PATTERN * 2000)[: 3 * STRUCT]
        stream = prefixed(buffer({0: Plain(data, 4, 3)}))
        ran = run("--schema", path, "--path", "all[1]", given=stream)
        want = data[STRUCT : 2 * STRUCT].hex()
        head, _, value = ran.out.decode().rstrip("\n").rpartition(" ")
        self.same("a large struct", (ran.status, head.startswith("1 ok "), value == f"struct:{want}"), (0, True, True))

    def test_writes_that_fail(self):
        """The output takes so many bytes and no more, within the line of a large text and around it."""
        texts = [b"first", (PATTERN * 200)[:200_000], b"last"]
        stream = b"".join(prefixed(buffer({0: text})) for text in texts)
        as_json = run(*BY_TEXT, "--path", "s", "--json", given=stream).out
        for form, want, told in [
            ((), lines_of(texts), "fbcheck: write failed after {} bytes\n"),
            (("--json",), as_json, '{{"fault":"write failed after {} bytes","status":3}}\n'),
        ]:
            for room in (0, 1, 36, 37, 38, 66, 67, 65_536, 65_600, 100_000, 131_072, len(want) - 40, len(want) - 1):
                for most in 65_536, 1000:
                    ran = narrowed(*BY_TEXT, "--path", "s", *form, given=stream, room=room, write=most)
                    name = f"room for {room} bytes, {most} at a write {form}"
                    self.same(name, (ran.status, ran.out == want[:room], ran.err),
                              (3, True, told.format(room).encode()))

    def test_memory_that_is_refused(self):
        """Whole lines are written, all or the first ones; a line that was begun is ended."""
        texts = [b"first", (PATTERN * 200)[:200_000], b"behind it", (PATTERN * 200)[:300_000], b"last"]
        stream = b"".join(prefixed(buffer({0: text})) for text in texts)
        words = [PROGRAM, *BY_TEXT, "--path", "s"]
        whole = refusing(words, stream)
        told = lines_of(texts)
        self.same("without a refusal", (whole.status, whole.out == told, whole.err), (0, True, b""))
        for extent in ALONE, WITH_LATER:
            fronts = set()
            for first, ran in enumerate(sweep(words, stream, extent), 1):
                front = told.startswith(ran.out) and (ran.out == b"" or ran.out.endswith(b"\n"))
                fault = (3, b"fbcheck: out of memory\n")
                ends = (ran.status, ran.err) == ((0, b"") if ran.out == told else fault)
                self.holds(f"request {first} is refused {extent}", ran.refused > 0 and front and ends,
                           (ran.status, len(ran.out), ran.err))
                fronts.add(len(ran.out))
            self.holds(f"some lines alone are written, refused {extent}", len(fronts) > 2, fronts)
