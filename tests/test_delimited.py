"""Dumps of bare buffers, each behind four bytes with its length, as sockets and logs have them: with --delimited each
line is that of its buffer by itself, and with --delimited-be too, where lengths are big-endian."""

import struct

from tests.support import buffers, schemas
from tests.support.buffers import NOTHING, ORC, PLAIN, TWINS
from tests.support.builder import messages_of
from tests.support.cases import Case
from tests.support.naive import Schema, Walk
from tests.support.program import Ran, Talk, astray, bad, failed, file_of, good, lines, refused, run, shifted
from tests.support.schemas import an_object, field, table

FILES = schemas.files()
BY_M = ("--schema", FILES["M"])
DELIMITED = (*BY_M, "--delimited")
TURNED = (*BY_M, "--delimited-be")
YES = "ok tables=1 depth=1 reads=8"


def dump(*data):
    """These buffers, each behind its length."""
    return b"".join(struct.pack("<I", len(one)) + one for one in data)


def sent(*data):
    """The same as DataOutputStream of Java writes them, by writeInt and write."""
    return b"".join(struct.pack(">I", len(one)) + one for one in data)


def buffers_in(stream):
    """The buffers of a stream with little-endian lengths."""
    return [message[4:] for message in messages_of(stream)]


def alone(data, *words):
    """What the program says of a buffer by itself, without the number."""
    return run(*BY_M, "--bare", *words, given=data).out.decode().partition(" ")[2].rstrip("\n")


class Delimited(Case):
    def test_each_line_is_that_of_its_buffer(self):
        """Each of these is checked alone too, and so is a buffer cut off anywhere."""
        given = [ORC, PLAIN, b"", b"\0", bytes(3), bytes(4), ORC + b"more", *(ORC[:length] for length in range(len(ORC)))]
        for words in [(), ("--no-alignment",), ("--names",), ("--path", "name"), ("--ident", "KIND"), ("--max-reads", "5"),
                      ("--inline-size", "--max-depth", "0")]:
            ran = run(*DELIMITED, *words, given=dump(*given))
            wants = [f"{number} {alone(data, *words)}" for number, data in enumerate(given, 1)]
            self.same(f"{words}", (ran.out.decode().splitlines(), ran.err), (wants, b""))

    def test_what_stands_before_a_buffer(self):
        moved = shifted("1 bad V3 Misaligned at=132 object=4 field=4 reads=32", schema=False)
        self.same("a schema file moved by its length, which is taken for a prefix", run(given=dump(schemas.M)), moved)
        for name, words, given, want in [
            ("nothing", DELIMITED, b"", good()),
            ("a buffer", DELIMITED, dump(ORC), good(f"1 {YES}")),
            ("a length of 0", DELIMITED, NOTHING, bad("1 bad V2 OutOfBuffer at=0 object=0 field=- reads=0")),
            ("a length that is cut off", DELIMITED, dump(ORC) + b"\x20\0\0", failed("stream: S2 Truncated held=3", f"1 {YES}")),
            ("a buffer that is cut off", DELIMITED, dump(ORC, ORC)[:-1], failed("stream: S2 Truncated held=35", f"1 {YES}")),
            ("as many bytes as may be, with the length", (*DELIMITED, "--max-bytes", "36"), dump(ORC), good(f"1 {YES}")),
            ("one more", (*DELIMITED, "--max-bytes", "35"), dump(ORC),
             failed(astray("stream: S1 Oversize declared=32", delimited=True))),
            ("quietly", (*DELIMITED, "--quiet"), dump(ORC), good()),
            ("a value", (*DELIMITED, "--path", "name"), dump(ORC), good(f'1 {YES} "Orc"')),
            ("without a schema", ["--delimited"], dump(schemas.M), good("1 ok tables=11 depth=4 reads=90")),
            ("beside --bare", (*DELIMITED, "--bare"), dump(ORC), refused("bare and delimited exclude each other")),
        ]:
            self.same(name, run(*words, given=given), want)
        self.same("twice", run("--delimited", "--delimited").status, 2)
        for words in [("--bare", "--filter", "--path", "a"), ("--bare", "--ident", "KIND", "--schema-ident")]:
            told = run(*words, "--delimited").err
            self.holds(f"other rules come first: {words}", b"delimited" not in told and told.startswith(b"fbcheck: "), told)

    def test_what_is_passed_on_has_its_length(self):
        bent = ORC[:31] + b"\1"
        given = dump(ORC, bent, PLAIN, b"", ORC)
        notes = lines("2 bad V10 NoTerminator at=31 object=0 field=1 reads=8", "4 bad V2 OutOfBuffer at=0 object=0 field=- reads=0")
        ran = run(*DELIMITED, "--filter", given=given)
        self.same("the good ones, as they came", ran, Ran(1, dump(ORC, PLAIN, ORC), notes))
        self.same("and again", run(*DELIMITED, "--filter", given=ran.out), Ran(0, ran.out, b""))
        told = run(*DELIMITED, "--summary", given=given).err.decode().split()
        self.holds("sums count the bytes of lengths", f"bytes={len(given)}" in told, told)

    def test_the_limits_are_those_of_the_buffer(self):
        """Chains that may take so many reads for each byte and for 64 more, those of the length apart."""
        node = Schema([table("Node", field("a", an_object(0), 4), field("b", an_object(0), 6))], [])
        by = "--schema", file_of("delimited.bfbs", schemas.NODE), "--delimited"
        given = [buffers.doubling(levels) + bytes(more) for levels in (9, 10, 11, 12) for more in (4000, 0, 400, 40)]
        for most in 0, 1, 2, 73, 74:
            wants = [f"{number} {Walk(node, 0, data, reads=most * (len(data) + 64)).verdict(prefix=False)}"
                     for number, data in enumerate(given, 1)]
            ran = run(*by, "--reads-per-byte", str(most), given=dump(*given))
            self.same(f"{most} for each byte", ran.out.decode().splitlines(), wants)
        for length in range(160, 200, 4):
            data = buffers.doubling(12) + bytes(length - 160)
            want = f"1 {Walk(node, 0, data, reads=64 * (length + 64)).verdict(prefix=False)}\n".encode()
            self.same(f"{length} bytes by the default", run(*by, given=dump(data)).out, want)

    def test_pieces_make_no_difference(self):
        given = dump(ORC, b"", TWINS, PLAIN)
        want = run(*DELIMITED, given=given)
        for at in range(1, len(given)):
            with Talk(*DELIMITED) as talk:
                talk.say(given[:at])
                talk.say(given[at:])
                self.same(f"cut at {at}", talk.end(), want)
        many = dump(*[ORC, PLAIN] * 20_000)
        plain = alone(PLAIN)
        wants = lines(*(f"{number} {(YES, plain)[number % 2 == 0]}" for number in range(1, 40_001)))
        self.same("40,000 in one stream", run(*DELIMITED, given=many), Ran(0, wants, b""))


class BigEndian(Case):
    def test_lines_are_those_of_little_endian_lengths(self):
        """Whatever is asked: the lines, and what is told behind them. What a filter passes on has the lengths as they came."""
        bent, long = ORC[:31] + b"\1", PLAIN + bytes(70_000)
        given = [ORC, PLAIN, bent, b"", long, ORC + b"more", TWINS, bytes(256), ORC, bent, PLAIN]
        header = b"header!"
        for words in [(), ("--names",), ("--path", "name"), ("--json",), ("--json", "--path", "name", "--summary"),
                      ("--quiet", "--summary"), ("--csv", "--path", "name"), ("--limit", "4"), ("--max-bad", "1"),
                      ("--limit", "3", "--max-bad", "2", "--json"), ("--max-reads", "5"), ("--ident", "KIND"),
                      ("--max-bytes", str(4 + len(long)))]:
            self.same(f"{words}", run(*TURNED, *words, given=sent(*given)), run(*DELIMITED, *words, given=dump(*given)))
            words += "--skip", str(len(header))
            self.same(f"{words}", run(*TURNED, *words, given=header + sent(*given)),
                      run(*DELIMITED, *words, given=header + dump(*given)))
        for words in [("--limit", "4"), ("--max-bad", "2"), ()]:
            little = run(*DELIMITED, *words, "--filter", given=dump(*given))
            ran = run(*TURNED, *words, "--filter", given=sent(*given))
            self.same(f"what is noted: {words}", (ran.status, ran.err), (little.status, little.err))
            self.same(f"what is passed on: {words}", ran.out, sent(*buffers_in(little.out)))
            self.same(f"and again: {words}", run(*TURNED, "--filter", given=ran.out), Ran(0, ran.out, b""))

    def test_what_stands_before_a_buffer(self):
        for name, words, given, want in [
            ("nothing", TURNED, b"", good()),
            ("a buffer", TURNED, b"\0\0\0\x20" + ORC, good(f"1 {YES}")),
            ("256 bytes", TURNED, b"\0\0\1\0" + ORC + bytes(224), good(f"1 {YES}")),
            ("a length of 0", TURNED, NOTHING, bad("1 bad V2 OutOfBuffer at=0 object=0 field=- reads=0")),
            ("a length that is cut off", TURNED, sent(ORC) + b"\0\0\0", failed("stream: S2 Truncated held=3", f"1 {YES}")),
            ("a buffer that is cut off", TURNED, sent(ORC, ORC)[:-1], failed("stream: S2 Truncated held=35", f"1 {YES}")),
            ("as many bytes as may be, with the length", (*TURNED, "--max-bytes", "36"), sent(ORC), good(f"1 {YES}")),
            ("one more", (*TURNED, "--max-bytes", "35"), sent(ORC),
             failed(astray("stream: S1 Oversize declared=32", delimited=True))),
            ("the most that a length tells", TURNED, sent(ORC) + b"\xff" * 4,
             failed("stream: S1 Oversize declared=4294967295", f"1 {YES}")),
            ("its highest byte alone", TURNED, sent(ORC) + b"\4\0\0\0",
             failed("stream: S1 Oversize declared=67108864; --max-bytes allows longer messages", f"1 {YES}")),
            ("without a schema", ["--delimited-be"], sent(schemas.M), good("1 ok tables=11 depth=4 reads=90")),
            ("beside --bare", (*TURNED, "--bare"), sent(ORC), refused("bare and delimited-be exclude each other")),
            ("beside --delimited", (*TURNED, "--delimited"), sent(ORC),
             refused("delimited and delimited-be exclude each other")),
            ("beside both", (*DELIMITED, "--delimited-be", "--bare"), sent(ORC),
             refused("bare and delimited exclude each other")),
        ]:
            self.same(name, run(*words, given=given), want)
        self.same("twice", run("--delimited-be", "--delimited-be").status, 2)

    def test_pieces_make_no_difference(self):
        given = sent(ORC, b"", TWINS, PLAIN)
        want = run(*TURNED, given=given)
        for at in range(1, len(given)):
            with Talk(*TURNED) as talk:
                talk.say(given[:at])
                talk.say(given[at:])
                self.same(f"cut at {at}", talk.end(), want)
        many = sent(*[ORC, PLAIN] * 20_000)
        plain = alone(PLAIN)
        wants = lines(*(f"{number} {(YES, plain)[number % 2 == 0]}" for number in range(1, 40_001)))
        self.same("40,000 in one stream", run(*TURNED, given=many), Ran(0, wants, b""))
        long = PLAIN + bytes(200_000)
        self.same("longer than a piece", run(*TURNED, given=sent(long, ORC)), Ran(0, lines(f"1 {plain}", f"2 {YES}"), b""))
