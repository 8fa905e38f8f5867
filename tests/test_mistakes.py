"""The list of docs/REFERENCE.md of what may have gone wrong where every message is bad: each of its lines is what the
program prints first of what was given."""

import gzip
import io
import random
import re
import struct
import subprocess
import zipfile

from tests.support.buffers import POST
from tests.support.builder import Plain, buffer, prefixed
from tests.support.cases import Case
from tests.support.program import TOP, Ran, astray, failed, file_of, lines, overlong, oversize, run
from tests.support.tools import there

EXAMPLES = TOP / "examples"
SCHEMA = EXAMPLES / "deliveries.bfbs"
BARE = SCHEMA.read_bytes()
FIRST, SECOND = POST[:512], POST[512:576]
JSON = (EXAMPLES / "deliveries.jsonl").read_bytes()
BY_POST = ("--schema", SCHEMA)
GOOD = "1 ok tables=8 depth=2 reads=111"


def gzipped(data):
    """As gzip packs a file: with its name."""
    packed = io.BytesIO()
    with gzip.GzipFile("deliveries.bin", "wb", fileobj=packed) as file:
        file.write(data)
    return packed.getvalue()


def piped(data):
    """As gzip packs what it has from a pipe: without a name or a time."""
    return gzip.compress(data, mtime=0)


def zipped(data):
    packed = io.BytesIO()
    with zipfile.ZipFile(packed, "w") as file:
        file.writestr("deliveries.bin", data)
    return packed.getvalue()


def by_zstd(data):
    """As zstd packs it, where it's there; else how each of its files begins."""
    if not there("zstd"):
        return b"\x28\xb5\x2f\xfd" + data
    return subprocess.run(["zstd", "-q", "-c", file_of("deliveries.bin", data)], capture_output=True, check=True).stdout


def turned(stream):
    """The stream with its prefixes in big-endian."""
    length = struct.unpack_from("<I", stream)[0] if stream else 0
    return stream and struct.pack(">I", length) + stream[4 : 4 + length] + turned(stream[4 + length :])


def framed(message):
    """Behind the five bytes of gRPC."""
    return struct.pack(">BI", 0, len(message)) + message


# By what the list says was given: the words, and standard input.
CALLS = {
    "a bare buffer, read as a stream: what follows its first four bytes is taken for an offset": [((), BARE)],
    "a message after gRPC's five-byte header; those below 256 bytes give `V2` at 4, and most of 1,024 or more `S1`": [
        (BY_POST, framed(FIRST))
    ],
    "a file packed by `zstd`; by `zip` it's `declared=67324752`, and `gzip` from a pipe gives `S2`, or a bad first "
    "message": [(BY_POST, by_zstd(POST))],
    "a FlatGeobuf file (`.fgb`), which doesn't begin with a message": [
        (("--schema", EXAMPLES / "flatgeobuf/flatgeobuf.bfbs"), (EXAMPLES / "flatgeobuf/places.fgb").read_bytes())
    ],
    "a size-prefixed message with `--bare` (`at=` is the length less 4); rarely ok": [
        ((*BY_POST, "--bare"), FIRST), ((*BY_POST, "--bare"), POST)
    ],
    "a prefix before a message that has one already": [(BY_POST, prefixed(FIRST))],
    "a prefix put before a finished bare buffer (`Finish`), as in many protocols, which shifts every position by four": [
        ((), prefixed(BARE))
    ],
    "with `--bare` a message whose prefix was taken off": [((*BY_POST, "--bare"), FIRST[4:])],
}

# What the page leaves to a hint: the words, standard input, the first line up to the hint, and what that says.
HINTED = [
    *[(("--schema", EXAMPLES / f"deliveries.{ending}"), POST,
       "fbcheck: schema: L1 V5 WrongIdentifier at=4 object=9 field=- reads=1", hint)
      for ending, hint in [("fbs", "a schema's text"), ("jsonl", "JSON"), ("bin", "no binary schema")]],
    ((*BY_POST, "--root", "Delivery"), POST,
     "fbcheck: no root table Delivery; tables: post.Delivery post.Letter post.Parcel post.Person", "post.Delivery"),
    (BY_POST, JSON, "fbcheck: stream: S1 Oversize declared=1684611707", "looks like JSON"),
    (BY_POST, gzipped(POST), "fbcheck: stream: S1 Oversize declared=134777631", "looks like gzip"),
    (BY_POST, turned(POST), "fbcheck: stream: S1 Oversize declared=4227923968", "big-endian"),
    ((*BY_POST, "--max-bytes", "511"), FIRST, "fbcheck: stream: S1 Oversize declared=508", "--max-bytes"),
    ((), POST, "1 bad V3 Misaligned at=97 object=9 field=0 reads=6", "without --schema"),
]


def rows():
    """The list's lines, with what was given."""
    page = (TOP / "docs/REFERENCE.md").read_text()
    section = page.split("## When all or most messages are bad")[1].split("\n## ")[0]
    return re.findall(r"^- `(.+?)`: (.+?) → .+$", re.sub(r"\n  +", " ", section), re.M)


class Mistakes(Case):
    def test_each_line_is_what_is_printed(self):
        self.same("the list's lines", sorted(given for _, given in rows()), sorted(CALLS))
        calls = [(*call, line, "") for line, given in rows() for call in CALLS.get(given, [])]
        for words, stream, line, hint in calls + HINTED:
            ran = run(*words, given=stream)
            told = re.split(" in |; (?:no good|the |--max-bytes)", (ran.out + ran.err).decode().splitlines()[0])[0]
            self.same(f"{line}: {words}", told, line)
            self.holds(f"{line}: what is said of it", hint in ran.err.decode(), ran.err)

    def test_what_is_told_behind_them(self):
        bare = "stream: S1 Oversize declared=1684611707"
        like_json = f"{bare}; the input looks like JSON, of which flatc --binary makes buffers (--size-prefixed: messages)"
        for name, words, stream, want in [
            ("JSON", BY_POST, JSON, failed(like_json)),
            ("JSON behind a message", BY_POST, FIRST + JSON, failed(oversize(1684611707), GOOD)),
            ("JSON, with --delimited", [*BY_POST, "--delimited"], JSON, failed(like_json)),
            ("JSON behind a bad message", [*BY_POST, "--max-reads", "0"], FIRST + JSON,
             failed(astray(bare), "1 bad V13 TooManyReads at=4 object=1 field=- reads=2")),
            ("a good message that is left out", [*BY_POST, "--quiet"], FIRST + JSON, failed(oversize(1684611707))),
            ("size-prefixed messages, with --delimited", [*BY_POST, "--delimited"], FIRST * 2, Ran(
                1, lines(*[f"{number} bad V3 Misaligned at=92 object=1 field=0 reads=4" for number in (1, 2)]), lines(
                    "fbcheck: each message is misaligned: without --delimited prefixes are part of the buffers"))),
        ]:
            self.same(name, run(*words, given=stream), want)
        names = file_of("json", JSON), file_of("both", FIRST + JSON)
        self.same("of files", run(*BY_POST, *names), Ran(3, lines(f"{names[1]}: {GOOD}"), lines(
            f"fbcheck: {names[0]}: {like_json}", f"fbcheck: {names[1]}: {oversize(1684611707)}")))

    def test_what_is_said_beside_them(self):
        for name, words, stream, want in [
            ("a bare buffer with --bare", ["--bare"], BARE, 0),
            ("a prefix put before it, with --delimited", ["--delimited"], prefixed(BARE), 0),
            ("a prefix taken off, without alignment", [*BY_POST, "--bare", "--no-alignment"], FIRST[4:], 0),
            ("the message without --bare", BY_POST, FIRST, 0),
            ("the root with its namespace", [*BY_POST, "--root", "post.Delivery"], FIRST, 0),
            ("a text that begins with the least of characters", BY_POST, b"\t\t\t\t", 3),
            ("gRPC before 1,024 bytes", BY_POST, framed(bytes(1024)), 3),
            ("prefixes turned to big-endian", [*BY_POST, "--delimited-be", "--no-alignment"], turned(FIRST + SECOND), 0),
            ("those outside the buffers", ["--delimited-be"], turned(prefixed(BARE)), 0),
            ("these with --delimited", ["--delimited"], turned(prefixed(BARE)), 3),
        ]:
            ran = run(*words, given=stream)
            self.same(name, ran.status, want)
            self.same(f"{name}: S1", b"S1 Oversize" in ran.err, want == 3)
        shifted = run(*BY_POST, "--delimited-be", given=turned(FIRST)).out
        self.holds("a turned one whose values are checked for alignment", shifted.startswith(b"1 bad V3 "), shifted)
        self.same("a bare input above the limit", run(*BY_POST, "--bare", "--max-bytes", "511", given=FIRST),
                  failed(overlong(511)))
        for message in (FIRST, SECOND):
            told = run(*BY_POST, "--bare", given=message).out
            self.same("a prefix with --bare", told.split(b" object")[0], b"1 bad V2 OutOfBuffer at=%d" % (len(message) - 4))
        self.same("JSON's number", struct.unpack("<I", b'{"id')[0], 1_684_611_707)
        declared = struct.unpack("<I", b"\t\t\t\t")[0]
        self.holds("the least that a text declares", declared > 100_000_000, declared)
        for name, data in [("JSON", JSON), ("gzip", gzipped(POST)), ("zstd", by_zstd(POST)), ("zip", zipped(POST)),
                           ("a pipe's gzip", piped(POST))]:
            told = run(*BY_POST, "--bare", given=data).out.split(b" object=")[0]
            number = struct.unpack_from("<I", data)[0]
            self.same(f"{name} with --bare", told, b"1 bad V2 OutOfBuffer at=%d" % number)
        self.same("a pipe's gzip's number", number, 559_903)
        large = piped(random.Random(1).randbytes(600_000))
        for length, want in [(559_906, b""), (559_907, b"1 bad V4 ZeroOffset at=4 object=1 field=- reads=2\n")]:
            self.same(f"the front of one, {length} bytes", run(*BY_POST, given=large[:length]).out, want)
        for name, data, declared in [("zstd", by_zstd(POST), 4247762216), ("zip", zipped(POST), 67324752)]:
            told = run(*BY_POST, given=data).err
            self.holds(name, b"stream: S1 Oversize declared=%d;" % declared in told, told)
        told = run(*BY_POST, given=piped(POST)).err
        self.holds("a pipe's gzip", b"stream: S2 Truncated held=%d;" % len(piped(POST)) in told, told)
        told = run("--schema", file_of("empty.bfbs", b""), given=POST).err
        self.holds("an empty schema file", b"schema: L1 V2 OutOfBuffer at=4 object=9 field=- reads=0" in told, told)
        told = run(*BY_POST, given=framed(SECOND)).out
        self.holds("gRPC before fewer than 256 bytes", told.startswith(b"1 bad V2 OutOfBuffer at=4 object=1 "), told)
        told = run("--path", "to.name", given=POST).err
        self.holds("a path without a schema", b"path: P2 NoSuchField step=0; fields: objects enums" in told, told)
        tables = run("--root", "post.Delivery", given=POST).err
        self.holds("a root without a schema", b"no root table post.Delivery; tables: reflection.Type" in tables, tables)
        required = run("--bare", given=buffer({0: Plain(bytes(4), 4)}))
        self.holds("V9 without a schema", b"V9 MissingRequired" in required.out, required)
