"""The library for C: what scripts/build_c makes, against the header and the program.

The program is the other voice: a buffer must get the same verdict of the library. Everything is compiled here, against
both libraries, and under the address sanitizer too. Each other subject has a file test_c_SUBJECT.py of its own.
"""

import ctypes
import re

from tests.support import buffers, schemas
from tests.support.buffers import ORC, POST
from tests.support.builder import buffer, messages_of, prefixed
from tests.support.every_kind import FILE, LITTLE, OPTIONS, WHOLE, variants, words_of
from tests.support.header import CALLS, Reason
from tests.support.library import OUT, SANITIZED, SHARED, STATIC, LibraryCase, cpp_of, module, ran
from tests.support.naive import NAMES
from tests.support.program import TOP, file_of, run

HEADER = (TOP / "include/fbcheck.h").read_text()
ORDERS = TOP / "examples/deliveries.bfbs"
ALL = file_of("all.bfbs", FILE)

NUMBERS = r"""
#include <fbcheck.h>
#include <stdio.h>
#include <string.h>
#define FIELD(type, name) printf(#type " " #name " %zu\n", offsetof(type, name))
int main(void)
{
    fbcheck_sizes sizes;
    fbcheck_options first = FBCHECK_OPTIONS_INIT, second;
    memset(&second, 255, sizeof second);
    if (fbcheck_struct_sizes(&sizes) != FBCHECK_OK || fbcheck_options_init(&second) != FBCHECK_OK)
        return 1;
    printf("options %zu %zu\n", sizes.options, sizeof(fbcheck_options));
    printf("verdict %zu %zu\n", sizes.verdict, sizeof(fbcheck_verdict));
    printf("span %zu %zu\n", sizes.span, sizeof(fbcheck_span));
    printf("framer %zu %zu\n", sizes.framer, sizeof(fbcheck_framer));
    printf("path %zu %zu\n", sizes.path, sizeof(fbcheck_path));
    printf("value %zu %zu\n", sizes.value, sizeof(fbcheck_value));
    printf("init %d\n", memcmp(&first, &second, sizeof first));
    printf("version %d\n", fbcheck_version() == FBCHECK_VERSION);
@LINES@
    return 0;
}
"""


def streams():
    """Streams of good and damaged buffers, each with the words that ask for them."""
    for root in (WHOLE, LITTLE):
        data = buffer(root, b"KIND", prefix=True)[4:]
        given = b"".join(map(prefixed, variants(data, [1, 2, 4, 16, 252])))
        for options in OPTIONS:
            yield options, ["--schema", ALL, *words_of({"tables": 500, **options})], given
    yield "deliveries", ["--schema", ORDERS], POST
    yield "another root", ["--schema", ORDERS, "--root", "post.Person"], POST


class LibraryForC(LibraryCase):
    def test_what_is_built(self):
        status, out, err = ran(TOP / "scripts/build_c", seconds=3600)
        self.same("scripts/build_c builds", (status, out), (0, ""))
        calls = sorted(re.findall(r"^(?:\w+ )+\*?(fbcheck_\w+)\(", HEADER, re.M))
        self.same("of which the header has so many", len(calls), len(CALLS))
        for library, words in [("libfbcheck.a", ["-g"]), ("libfbcheck.so.1", ["-D"])]:
            _, symbols, _ = ran("nm", *words, "--defined-only", OUT / library)
            found = sorted(line.split()[2].partition("@")[0] for line in symbols.splitlines()
                           if len(line.split()) == 3 and line.split()[1] != "A")
            self.same(f"{library} defines the header's calls and nothing else", found, calls)
            _, symbols, _ = ran("nm", *words, "--undefined-only", OUT / library)
            wanted = {line.split()[1].partition("@")[0] for line in symbols.splitlines() if line.split()[:1] == ["U"]}
            if "-D" in words:
                _, defined, _ = ran("nm", *words, "--defined-only", OUT / library)
                versions = {line.partition("@@")[2] for line in defined.splitlines() if "@@" in line}
                self.same("each with the version of the interface", versions, {"FBCHECK_1"})
            self.holds(f"{library} needs the C library's heap and memory alone",
                       wanted <= {"malloc", "free", "realloc", "memcpy", "memmove", "memset", "memcmp", "bcmp"}, wanted)
        self.same("a word is refused", ran(TOP / "scripts/build_c", "here")[0], 2)
        before = (OUT / "libfbcheck.a").stat().st_mtime_ns
        self.same("once all is made, nothing is done, and no rt is needed",
                  (ran(TOP / "scripts/build_c", PATH="/usr/bin:/bin")[0], (OUT / "libfbcheck.a").stat().st_mtime_ns),
                  (0, before))

    def test_the_header(self):
        """Its numbers are those of the reference and of the module for Python, and its structs those of the library."""
        constants = re.findall(r"^    (FBCHECK_\w+) = (\d+)", HEADER, re.M)
        python = module()
        fields = {"fbcheck_options": python.Options, "fbcheck_verdict": python._Verdict,
                  "fbcheck_span": python._Span, "fbcheck_framer": python._Framer, "fbcheck_step": python._Step,
                  "fbcheck_path": python._Path, "fbcheck_value": python._Value}
        lines = [f'    printf("{name} %d\\n", (int){name});' for name, _ in constants]
        lines += [f"    FIELD({name}, {field});" for name, of in fields.items() for field, _ in of._fields_]
        source = file_of("numbers.c", NUMBERS.replace("@LINES@", "\n".join(lines)).encode())
        offsets = [f"{name} {field} {getattr(of, field).offset}" for name, of in fields.items() for field,
                   _ in of._fields_]
        sizes = ["options 64 64", "verdict 64 64", "span 16 16", "framer 16 16", "path 256 256", "value 40 40"]
        want = [*sizes, "init 0", "version 1", *map(" ".join, constants), *offsets]
        programs = {"C99": self.compiled("numbers_c", source, *STATIC, standard="-std=c99")}
        if cpp := cpp_of(11):
            as_cpp = file_of("numbers.cpp", source.read_bytes())
            programs["C++11"] = self.compiled("numbers_cpp", as_cpp, *STATIC, **cpp)
        for name, made in programs.items():
            status, out, _ = ran(made)
            self.same(f"{name}: numbers, sizes and places", (status, out.splitlines()), (0, want))
        told = [ctypes.sizeof(of) for of in fields.values()]
        self.same("sizes of the structs of Python", told, [64, 64, 16, 16, 8, 256, 40])
        told = {name.removeprefix("FBCHECK_"): int(number) for name, number in constants}
        for names in (python.Status, python.Reason, python.Kind):
            self.same(f"{names.__name__} of Python", {one.name: told.get(one.name) for one in names},
                      {one.name: int(one) for one in names})
        page = (TOP / "docs/REFERENCE.md").read_text()
        for code, name in re.findall(r"`V(\d+) (\w+)`", page.split("## Reasons")[1].split("\n## ")[0]):
            self.same(f"V{code}", told["_".join(re.findall(r"[A-Z][a-z0-9]+", name)).upper()], int(code))

    def test_verdicts(self):
        """Those of the program, on every buffer, by the shared library and by the static one under the sanitizers: of
        each alone, and of all of a stream at once."""
        tell = TOP / "tests/c/tell.c"
        programs = [self.compiled("tell_shared", tell, *SHARED), self.compiled("tell_sane", tell, *SANITIZED, *STATIC)]
        buffers = reasons = 0
        seen = set()
        for name, words, given in streams():
            want = run(*words, given=given).out
            for program in programs:
                status, out, err = ran(program, *words, given=given)
                self.same(f"{name}, {program.name}: it ends well", (status, err), (0, ""))
                differing = [pair for pair in zip(out.encode().splitlines(), want.splitlines()) if pair[0] != pair[1]]
                self.same(f"{name}, {program.name}: lines that differ from the program's", differing[:5], [])
                self.same(f"{name}, {program.name}: their number", out.count("\n"), want.count(b"\n"))
            buffers += want.count(b"\n")
            seen |= set(re.findall(rb"bad (V\d+)", want))
        self.holds("there are more than 10,000 buffers", buffers > 10_000, buffers)
        self.same("with each reason but a wrong prefix", sorted(seen, key=lambda code: int(code[1:])),
                  [b"V%d" % number for number in [*Reason][1 : len(NAMES)]])

    def test_batches(self):
        """Spans that overlap, stand in any order, are empty, or don't lie in the block."""
        python = module()
        status, block = python.Status, b"?" * 4 + ORC + ORC[:-1]
        good, torn, end = (4, len(ORC)), (4 + len(ORC), len(ORC) - 1), len(block)
        beyond = [(end + 1, 0), (0, end + 1), (end, 1), (2**64 - 1, 2**64 - 1), (1, 2**64 - 1), (2**63, 2**63)]
        with python.Verifier(schemas.M) as verifier:
            told = verifier.verify_each(block, [torn, good, (end, 0), *beyond, good])
            single = [verifier.verify(buffer) for buffer in (ORC[:-1], ORC, b"")]
            self.same("those in the block, as each alone", [*told[:3], told[-1]], [*single, single[1]])
            self.same("those that aren't", told[3:-1], [python.Verdict(12, 0, 0, None, 0, 0, 0, 0)] * len(beyond))
            calls, schema, verdict = verifier._calls, verifier._schema, python._Verdict(status=77)
            one = lambda *spans: (python._Span * len(spans))(*spans)
            for spans, answer in [([good], 0), ([torn], 1), (beyond[:1], 1), ([], 0)]:
                words = (schema, None, None, block, len(block), one(*spans), verdict, len(spans))
                got = calls.fbcheck_verify_each(*words)
                self.same(f"the answer to {spans}", got, answer)
            got = calls.fbcheck_verify_each(schema, None, None, None, 0, None, None, 0)
            self.same("no spans at all", got, status.OK)
            got = calls.fbcheck_verify_each(schema, None, None, None, 0, one((0, 0)), verdict, 1)
            self.same("an empty block has an empty buffer", (got, verdict.status, verdict.reason), (1, 1, 2))
            verdict.status = 77
            words = [schema, None, None, block, 9, one(good), verdict, 1]
            for place in (0, 3, 5, 6):
                got = calls.fbcheck_verify_each(*[None if place == i else word for i, word in enumerate(words)])
                self.same(f"without word {place} nothing is told", (got, verdict.status), (status.NULL, 77))
            for options, answer in [
                (python.Options(version=2), 3), (python.Options(max_depth=65), 4), (python.Options(root=9), 6),
            ]:
                told = verifier.verify_each(block, [good, beyond[0], torn], options)
                self.same(f"options that can't be served: {answer}", [one.status for one in told], [answer] * 3)
                got = calls.fbcheck_verify_each(schema, None, options, block, 9, one(beyond[0]), verdict, 1)
                self.same("the answer is that some aren't good", (got, verdict.status), (1, answer))
                got = calls.fbcheck_verify_each(schema, None, options, None, 0, None, None, 0)
                self.same("and of no spans why", got, answer)
            scratch = calls.fbcheck_scratch_new(1)
            got = [calls.fbcheck_verify_each(schema, scratch, options, None, 0, None, None, 0)
                   for options in (None, python.Options(max_depth=1))]
            self.same("no spans in room for less, and for enough", got, [4, 0])
            calls.fbcheck_scratch_free(scratch)

    def test_places(self):
        """Where a fault is, in the words of the program's --names, and cut to the room."""
        python = module()
        calls, status = python._library(), python.Status
        data = buffer(LITTLE, b"KIND", prefix=True)[4:]
        given = b"".join(map(prefixed, variants(data, [1, 252])))
        lines = run("--schema", ALL, "--names", given=given).out.decode().splitlines()
        written, verdict, text = ctypes.c_size_t(77), python._Verdict(), ctypes.create_string_buffer(512)
        scratch, bad = calls.fbcheck_scratch_new(64), 0
        with python.Verifier(ALL.read_bytes()) as verifier:
            schema, asked = verifier._schema, python.Options(prefixed=1)
            locate = lambda message, room, size, scratch=None: calls.fbcheck_locate(
                schema, scratch, asked, message, len(message), room, size, written, verdict)
            for line, message in zip(lines, messages_of(given)):
                answer = locate(message, text, 512, scratch if bad % 2 else None)
                place = " in " + text.raw[:written.value].decode()[3:] if written.value else ""
                told = line[line.find(" in "):] if " in " in line else ""
                self.same("a place as the program tells it", place, told)
                self.same("and the verdict beside it", (answer, verdict.status), (int(" bad " in line),) * 2)
                if answer != status.BAD:
                    continue
                bad, whole = bad + 1, text.raw[:written.value]
                for size in (0, 1, 5, len(whole) - 1, len(whole), len(whole) + 1) if bad < 20 else ():
                    room = ctypes.create_string_buffer(b"?" * 512, 512)
                    locate(message, room, size)
                    want = whole[:size].ljust(len(whole) + 2, b"?")
                    self.same(f"cut to {size}", (written.value, room.raw[:len(want)]), (len(whole), want))
            self.holds("there are some bad ones", bad > 50, bad)
            words = (schema, None, python.Options(version=3), b"", 0, None, 0, written, verdict)
            self.same("unknown options", (calls.fbcheck_locate(*words), written.value), (3, 0))
            written.value = 77
            words = [schema, None, None, b"", 9, text, 5, written, verdict]
            for place in (0, 3, 5, 7):
                got = calls.fbcheck_locate(*[None if place == i else word for i, word in enumerate(words)])
                self.same(f"no word {place}", (got, written.value), (status.NULL, 77))
        calls.fbcheck_scratch_free(scratch)

    def test_identifiers(self):
        """The schema's own identifier is asked where the options say so, as generated verifiers ask it."""
        python = module()
        messages = messages_of(POST)
        with python.Verifier(ORDERS.read_bytes()) as verifier:
            for asked, ident, reason in [(0, b"POST", 0), (0, b"PAST", 0), (1, b"POST", 0), (1, b"PAST", 5),
                                         (2, b"PAST", 0)]:
                options = python.Options(ident, prefixed=1)
                options.ident_from = asked
                self.same(f"{asked}, {ident}", verifier.verify(messages[0], options).reason, reason)
            other = messages[0][:8] + b"PAST" + messages[0][12:]
            own = python.Options(prefixed=1, ident_from=2)
            self.same("another identifier", verifier.verify(other, own).reason, 5)
            self.same("isn't asked by default", verifier.verify(other, python.Options(prefixed=1)).reason, 0)
        with python.Verifier(schemas.M) as verifier:
            self.same("a schema without one", verifier.verify(ORC, python.Options(ident_from=2)).reason, 0)

    def test_reads_of_each_byte(self):
        """A buffer of 160 bytes for which 16,379 reads are made; 64 bytes count beside its own."""
        python, chain = module(), buffers.doubling(12)
        with python.Verifier(schemas.NODE) as verifier:
            for name, asked, given, want in [
                ("64 by default", {}, chain, (1, 13)), ("enough for a longer one", {}, chain + bytes(40), (0, 0)),
                ("one too few", {"reads_per_byte": 73}, chain, (1, 13)), ("74", {"reads_per_byte": 74}, chain, (0, 0)),
                ("fewer in all", {"reads_per_byte": 74, "max_reads": 16_378}, chain, (1, 13)),
            ]:
                told = verifier.verify(given, python.Options(**asked))
                self.same(name, (told.status, told.reason), want)
        unbounded = {"max_reads": 2**64 - 1, "reads_per_byte": 2**32 - 1}
        with python.Verifier(schemas.M) as verifier:
            for asked, most in [
                ({}, 84_000_004), ({"max_tables": 0}, 4), ({"max_reads": 0}, 7), ({"max_reads": 10}, 17),
                ({"max_reads": 83_999_996}, 84_000_003),
            ]:
                told = verifier.most_reads(32, python.Options(**{**unbounded, **asked}))
                self.same(f"32 bytes with {asked}: all that a check may make, or the budget and 7", told, most)
            for reads, length, most in [(64, 32, 6_144), (2, 32, 192), (0, 32, 0), (64, 1_562_435, 99_999_936),
                                        (64, 1_562_437, 100_000_000), (2**32 - 1, 2_147_483_647, 100_000_000)]:
                told = verifier.most_reads(length, python.Options(reads_per_byte=reads))
                self.same(f"{length} bytes at {reads} reads each: the budget and 7", told, most + 7)
        with python.Verifier(schemas.schema([], [])) as verifier:
            for length in 0, 32, 0x7FFF_FFFF:
                told = verifier.most_reads(length, python.Options(max_tables=7, **unbounded))
                self.same(f"{length} bytes by a schema without tables", told, 32)
