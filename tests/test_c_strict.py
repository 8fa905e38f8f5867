"""The library for C with demands: beside the plain checker, beside the program, and what is refused."""

import ctypes
import functools
import itertools

from tests.support import schemas
from tests.support.buffers import ORC
from tests.support.builder import Plain, buffer, prefixed
from tests.support.generated import Kept
from tests.support.header import KNOWN_FIELDS, PLAIN_BYTES, STRICT, UTF8
from tests.support.library import SANITIZED, SHARED, STATIC, LibraryCase, ran
from tests.support.library import module as module_anew
from tests.support.naive import Schema, number_at
from tests.support.program import TOP, file_of, run
from tests.support.random_buffers import Builder
from tests.support.random_buffers import damaged as damaged_at_random
from tests.support.random_rows import Maker, Random
from tests.support.strict import FLEX, Demands, Plan, Strict, found_from, lacks_marks
from tests.support.strict_messages import MESSAGES, PREFIXED
from tests.support.strict_program import words_of_limits
from tests.support.tools import there
from tests.test_strict import Made, attributed, damaged, mark

# The module once, so that its classes are the same ones everywhere.
module = functools.cache(module_anew)

STRICTLY_PLAIN = STRICT | PLAIN_BYTES
WORDS = {STRICT: "--strict", KNOWN_FIELDS: "--known-fields", UTF8: "--utf8", PLAIN_BYTES: "--plain-bytes"}
# Demands that need no strict checks, and with which such ones are made.
OTHERS = [0, KNOWN_FIELDS, UTF8, KNOWN_FIELDS | UTF8]
# By kinds.fbs: one with a flexbuffer.
FREE = buffer({11: "n", 28: Plain(bytes([4, 4, 1]), 1, 3), 29: ("i", 1)})
LIMITS = [{}, {"no_alignment": 1}, {"inline_size": 1}, {"max_depth": 2}, {"max_tables": 3}, {"max_reads": 40},
          {"max_reads": 90}]
# The same, as the plain checker has them.
NAMES = {"max_depth": "depth", "max_tables": "tables", "max_reads": "reads"}


def is_lost(kept):
    """Whether a mark names no table."""
    return any(mark != FLEX and found_from(kept.schema, owner, mark) is None for (owner, _), mark in kept.marks.items())


def demands_of(kept):
    """The demands by which a schema is strict, which knows what its fields of bytes hold if it can."""
    return STRICTLY_PLAIN if lacks_marks(kept.objects) or is_lost(kept) else STRICT


def words_for(demands):
    """The same, as the program has them."""
    return [word for bit, word in WORDS.items() if demands & bit]


def demanded(demands):
    """The same, as the plain checker has them."""
    unions, known_fields, utf8 = (bool(demands & bit) for bit in (STRICT, KNOWN_FIELDS, UTF8))
    return Demands(unions=unions, nested=demands & STRICTLY_PLAIN == STRICT, known_fields=known_fields, utf8=utf8)


def limits_of(limits):
    """Limits as the plain checker has them."""
    checks = {"no_alignment": ("alignment", False), "inline_size": ("inline_size", True)}
    return dict(checks.get(name, (NAMES.get(name), most)) for name, most in limits.items())


def line_of(verifier, verdict):
    """A verdict as the program writes it."""
    if verdict.ok:
        return f"ok tables={verdict.tables} depth={verdict.depth} reads={verdict.reads}"
    field = "-" if verdict.field is None else verdict.field
    name = verifier.fault_name(verdict.status, verdict.reason)
    return f"bad {name} at={verdict.at} object={verdict.object} field={field} reads={verdict.reads}"


class StrictForC(LibraryCase):
    def asked(self, root, demands, **words):
        """Options with demands, which have no other budget of reads than one that is given."""
        return module().Options(root=root, demands=demands, reads_per_byte=2**32 - 1, **words)

    def made(self, kept, demands):
        """A schema for these demands."""
        return module().Verifier(kept.file.read_bytes(), options=module().Options(demands=demands))

    def told_alike(self, name, kept, messages, limits, demands):
        """Each call tells of each buffer what the plain checker does."""
        plan, root, seen = Plan(kept.schema, demanded(demands), kept.marks), kept.root, set()
        options = self.asked(root, demands, **limits)
        with self.made(kept, demands) as verifier:
            calls, schema = verifier._calls, verifier._schema
            scratch = calls.fbcheck_scratch_new(64)
            block, spans, at = b"".join(messages), [], 0
            for data in messages:
                spans.append((at, len(data)))
                at += len(data)
            batch = verifier.verify_each(block, spans, options)
            for data, of_all in zip(messages, batch, strict=True):
                want = Strict(plan, root, data, **limits_of(limits)).verdict(prefix=False)
                told = [verifier.verify(data, options), self.within(calls, schema, scratch, options, data), of_all,
                        verifier.locate(data, options)[0], self.read(verifier, options, data)]
                if {line_of(verifier, one) for one in told} != {want}:
                    told = [line_of(verifier, one) for one in told]
                    self.same(f"{name}, {demands}, {limits}, {data.hex()}", told, [want] * 5)
                seen.add(want.split()[1] if want.startswith("bad") else "ok")
                bound = verifier.most_reads(len(data), options)
                self.holds(f"{name}, {limits}: no more reads than told in advance", told[0].reads <= bound, told[0])
            calls.fbcheck_scratch_free(scratch)
        return seen

    def within(self, calls, schema, scratch, options, data):
        """The verdict in the room of a scratch, which is that of fbcheck_locate there."""
        python, verdict, other = module(), module()._Verdict(), module()._Verdict()
        room, written = ctypes.create_string_buffer(4098), ctypes.c_size_t()
        calls.fbcheck_verify(schema, scratch, options, data, len(data), verdict)
        calls.fbcheck_locate(schema, scratch, options, data, len(data), room, 4098, written, other)
        self.same("with its place too", bytes(other), bytes(verdict))
        return python._told(verdict)

    def read(self, verifier, options, data):
        """The verdict of a call that reads the root table."""
        python, verdict, value = module(), module()._Verdict(), module()._Value()
        path = python._Path()
        verifier._calls.fbcheck_read(verifier._schema, None, options, data, len(data), path, value, 1, verdict)
        self.same("a table is read where it is ok", value.kind, python.Kind.TABLE if verdict.status == 0 else 0)
        return python._told(verdict)

    def test_beside_the_plain_checker(self):
        dice, seen = Random(71), set()
        for name, messages in MESSAGES.items():
            kept = Kept(name)
            messages = [*messages, FREE] if name == "kinds" else messages
            for limits, others in itertools.product(LIMITS, OTHERS):
                for demands in sorted({others, others | demands_of(kept), others | STRICTLY_PLAIN} - {0}):
                    some = list(itertools.islice(damaged(dice, [dice.choice(messages)], 397), 0, None, 20))
                    seen |= self.told_alike(name, kept, some, limits, demands)
        wanted = {"ok", *(f"V{code}" for code in (2, 3, 4, 6, 7, 8, 9, 11, 13, 14, 15, 16))}
        self.holds("the reasons", seen >= wanted, seen)

    def test_schemas_at_random(self):
        dice, refused = Random(72), set()
        for number in range(40):
            objects, enums = Maker(dice, 0).rows()
            tables = [row for row in objects if not number_at(row, 2)]
            for row in tables:
                mark(dice, row, [*(other[0] for other in tables), *(["Nowhere"] if dice.once_in(4) else [])])
            if not tables:
                continue
            schema, root = Schema(objects, enums), dice.choice(tables)[0]
            made = Made(schemas.schema(objects, enums, root=root), objects, schema, schema.names.index(root))
            some = [damaged_at_random(dice, Builder(dice, schema).built(made.root, False, None)) for _ in range(30)]
            demands = demands_of(made) | OTHERS[number % len(OTHERS)]
            self.told_alike(f"schema {number}", made, some, LIMITS[number % len(LIMITS)], demands)
            refused.add(self.refused_alike(f"schema {number}", made))
        status = module().Status
        self.same("why a schema isn't made, or is", refused, {0, status.UNMARKED_BYTES, status.NO_SUCH_TABLE})

    def refused_alike(self, name, made):
        """A file is refused as the program refuses it, with the same table and field."""
        python, program = module(), run("--schema", made.file, "--strict")
        try:
            self.made(made, STRICT).close()
            status, told = 0, ""
        except python.Error as error:
            status, _, table, field, *rest = error.verdict
            self.same(f"{name}: no more is told", rest, [0] * 4)
            with self.made(made, 0) as plain:
                told = f"fbcheck: {plain.status_text(status)}: {plain.object_name(table)}.{plain.field_name(table, field)}"
        self.same(f"{name}: why it is refused", program.err.decode().partition("\n")[0].startswith(told), True)
        self.same(f"{name}: whether it is", told != "", program.status == 2)
        return status

    def test_a_mark_shows_nothing_of_other_fields(self):
        """Where a schema declares one of the two attributes itself, the file has that one alone."""
        nested, flex = {"nested_flatbuffer": "T"}, {"flexbuffer": "0"}
        bare, status = attributed("b", 6, {}), module().Status.UNMARKED_BYTES
        other = schemas.table("S", schemas.field("a", schemas.INT, 4), attributed("b", 6, flex))
        for name, others, fields in [
            ("a nested buffer before it", [], [attributed("a", 4, nested), bare]),
            ("a flexbuffer before it", [], [attributed("a", 4, flex), bare]),
            ("a flexbuffer behind it", [], [schemas.field("a", schemas.INT, 4), bare, attributed("c", 8, flex)]),
            ("one of its slot in another table", [other], [schemas.field("a", schemas.INT, 4), bare]),
        ]:
            objects = [*others, schemas.table("T", *fields)]
            made = Made(schemas.schema(objects, root="T"), objects, Schema(objects), len(others))
            self.same(f"{name}: the library", self.refused_alike(name, made), status)
            err = run("--schema", made.file, "--strict").err.decode()
            self.holds(f"{name}: with the field", ": T.b;" in err, err)

    def test_places(self):
        """Where faults are, in words, as the program names them."""
        for (name, messages), others in itertools.product(PREFIXED.items(), OTHERS):
            kept, dice = Kept(name), Random(73)
            demands = demands_of(kept) | others
            words = words_for(demands)
            some = [data for data in itertools.islice(damaged(dice, messages, 397), 200) if data[4:]]
            some = [prefixed(data[4:]) for data in some]
            told = run("--schema", kept.file, "--names", *words, *words_of_limits({}), given=b"".join(some)).out
            options = self.asked(kept.root, demands, prefixed=1, max_reads=2**64 - 1)
            with self.made(kept, demands) as verifier:
                for data, line in zip(some, told.decode().splitlines(), strict=True):
                    verdict, place = verifier.locate(data, options)
                    got = f"{line_of(verifier, verdict)} {place}".strip()
                    self.same(f"{name}, {data.hex()}", got, line.partition(" ")[2])

    def test_beside_the_program(self):
        """All calls of a stream, by the shared library and under the sanitizers."""
        tell = TOP / "tests/c/tell.c"
        programs = [self.compiled("strict_shared", tell, *SHARED), self.compiled("strict_sane", tell, *SANITIZED, *STATIC)]
        for (name, messages), others in itertools.product(PREFIXED.items(), OTHERS):
            kept = Kept(name)
            words = ["--schema", kept.file, *words_for(demands_of(kept) | others)]
            given = b"".join(prefixed(data[4:]) for data in damaged(Random(74), messages, 97) if data[4:])
            want = run(*words, given=given).out
            for program in programs:
                status, out, err = ran(program, *words, given=given)
                self.same(f"{name}, {program.name}: it ends well", (status, err), (0, ""))
                self.same(f"{name}, {program.name}: its lines", self.numbers(out) == self.numbers(want.decode()), True)

    @staticmethod
    def numbers(lines):
        """Lines without names of reasons behind their codes."""
        return [[word for word in line.split() if not word.isalpha() or word in ("ok", "bad")] for line in lines.split("\n")]

    def test_in_cpp(self):
        """The classes of fbcheck.hpp: a Schema's checks have its demands, whatever their options; what is thrown."""
        if not there("c++"):
            self.skipTest("c++ isn't there")
        source = TOP / "tests/c/demands.cpp"
        program = self.compiled("demands", source, *SANITIZED, *STATIC, compiler="c++", standard="-std=c++17")
        kept = Kept("kinds")
        words = ["--bare", "--names", "--schema", kept.file]
        wrong = [buffer({11: "n", 21: ("B", 1)}), buffer({11: "n", 25: "old"}), buffer({11: b"\xff"}), b""]
        for data in [MESSAGES["kinds"][1], *wrong]:
            plain, strict, others = (run(*words, *words_for(bits), given=data).out.decode().strip().removeprefix("1 ")
                                     for bits in (0, STRICTLY_PLAIN, KNOWN_FIELDS | UTF8))
            status, out, _ = ran(program, kept.file, file_of("kinds.bin", data))
            *verdicts, unplanned, _ = out.splitlines()
            want = [strict, strict, strict, strict, strict, str(int(strict.startswith("ok"))), plain, others]
            self.same(f"the verdicts on {data.hex()}", (status, verdicts), (0, want))
            self.same("another Schema", unplanned, "nothing was checked: the schema was made with other demands")
        files = schemas.files()
        for file, field in [(files["BYTES"], "a.T.b"), (files["LOST"], "a.T.b")]:
            want = run("--schema", file, "--strict").err.decode().strip().removeprefix("fbcheck: ")
            unmade = ran(program, file, file_of("nothing.bin", b""))[1].splitlines()[-1]
            self.same(f"{file}", unmade, f"no schema: {want}".replace("--plain-bytes", "FBCHECK_PLAIN_BYTES"))
            self.holds(f"{file}: with the field", f": {field}" in unmade, unmade)

    def test_unplanned(self):
        """Demands that a schema wasn't made with are refused by each call, in its turn; no demands never are."""
        python = module()
        status, file = python.Status, schemas.M
        several = (0, STRICT, STRICTLY_PLAIN, KNOWN_FIELDS, UTF8, STRICT | KNOWN_FIELDS | UTF8)
        for made_with in several:
            with python.Verifier(file, options=python.Options(demands=made_with)) as verifier:
                for demands in several:
                    want = 0 if demands in (0, made_with) else status.NOT_PLANNED
                    self.same(f"{demands} of {made_with}", self.each_call(verifier, python.Options(demands=demands)),
                              [want] * 7)
                options = python.Options(demands=STRICT if made_with != STRICT else STRICTLY_PLAIN)
                for word, number, want in [("version", 2, 3), ("max_depth", 65, 4), ("root", 9, 21), ("ident_from", 3, 3)]:
                    setattr(options, word, number)
                    self.same(f"{word} comes first, or later", self.each_call(verifier, options)[0], want)
                    setattr(options, word, python.Options().__getattribute__(word))

    def each_call(self, verifier, options):
        """What each call that checks answers of a good buffer, with a scratch and without."""
        python, calls, schema = module(), verifier._calls, verifier._schema
        verdict, reads, written = python._Verdict(), ctypes.c_uint64(77), ctypes.c_size_t(77)
        span, path, value = python._Span(0, len(ORC)), python._Path(), python._Value()
        told = []
        scratch = calls.fbcheck_scratch_new(64)
        for room in (None, scratch):
            told.append(calls.fbcheck_verify(schema, room, options, ORC, len(ORC), verdict))
            told.append(calls.fbcheck_locate(schema, room, options, ORC, len(ORC), None, 0, written, verdict))
            told.append(calls.fbcheck_read(schema, room, options, ORC, len(ORC), path, value, 1, verdict))
        calls.fbcheck_verify_each(schema, None, options, ORC, len(ORC), span, verdict, 1)
        self.same("of all at once too", verdict.status, told[0])
        calls.fbcheck_scratch_free(scratch)
        told.append(calls.fbcheck_most_reads(schema, options, 99, reads))
        self.same("and the reads are left as they were", reads.value == 77, told[-1] != 0)
        return told

    def test_unknown_demands(self):
        """Bits that the library doesn't know, and plain bytes without strict checks."""
        python = module()
        for demands in (8, 10, 12, 14, 16, 17, 31, 2**31, 2**32 - 1):
            options = python.Options(demands=demands)
            try:
                python.Verifier(schemas.M, options=options).close()
                told = 0
            except python.Error as error:
                told = error.verdict.status
            self.same(f"a schema with {demands}", told, python.Status.UNKNOWN_OPTIONS)
            with python.Verifier(schemas.M) as verifier:
                want = [python.Status.UNKNOWN_OPTIONS] * 7
                self.same(f"checks with {demands}", self.each_call(verifier, options), want)
                verdict, path = python._Verdict(), python._Path()
                told = verifier._calls.fbcheck_resolve(verifier._schema, options, b"name", 4, path, verdict)
                self.same(f"a path with {demands}", told, python.Status.UNKNOWN_OPTIONS)

    def test_no_demands(self):
        """A schema that was made with demands checks without them as any other does."""
        python = module()
        for name, messages in MESSAGES.items():
            kept, dice = Kept(name), Random(75)
            options = self.asked(kept.root, 0)
            with self.made(kept, 0) as plain, self.made(kept, demands_of(kept)) as strict:
                for data in itertools.islice(damaged(dice, messages, 397), 300):
                    told = strict.locate(data, options)
                    if told != plain.locate(data, options):
                        self.same(data.hex(), told, plain.locate(data, options))
                for length in (0, 12, 2**31 - 1):
                    most = [one.most_reads(length, options) for one in (plain, strict)]
                    self.same(f"{name}: the most reads of {length} bytes", most[0], most[1])
        with python.Verifier(schemas.M, options=python.Options(demands=STRICT)) as verifier:
            words = {"reads_per_byte": 2**32 - 1, "max_reads": 2**64 - 1, "max_tables": 7}
            most = [verifier.most_reads(100, python.Options(demands=demands, **words)) for demands in (0, STRICT)]
            of_pass = 4 * (1 + 7) + 7 * (3 + 100 + 2 * 108**2)
            self.same("and with demands those of the pass, of two fields", most[1] - most[0], of_pass)
