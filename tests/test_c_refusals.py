"""What the library for C doesn't serve: null pointers, options, depths, and schema files that are none."""

import ctypes
import re

from tests.support import schemas
from tests.support.buffers import MEMBER, ORC
from tests.support.library import LibraryCase, module
from tests.support.program import TOP, file_of, run
from tests.support.schemas import INT, an_object, field, schema, table

ORDERS = TOP / "examples/deliveries.bfbs"


def reason_of_load(python, file, options):
    try:
        python.Verifier(file, options=options)
        return None
    except python.Error as error:
        return error.verdict.status, error.verdict.reason


class RefusalsForC(LibraryCase):
    def test_nulls(self):
        """Null pointers and options that can't be served are answered, in the header's order."""
        python = module()
        calls, status = python._library(), python.Status
        verdict = python._Verdict()
        file = ORDERS.read_bytes()
        told = lambda: (verdict.status, verdict.reason, verdict.object, verdict.field, verdict.tables, verdict.depth,
                        verdict.at, verdict.reads, *verdict.reserved)
        blank = lambda number: (number, 0, 0, python.NONE, 0, 0, 0, 0, 0, 0, 0)
        new = lambda file, length, options=None: calls.fbcheck_schema_new(file, length, options, verdict)
        self.same("no file", (new(None, 9), told()), (None, blank(2)))
        self.same("an empty file", (new(None, 0), verdict.status), (None, status.NOT_WELL_FORMED))
        self.same("a depth that no load has", (new(file, len(file), python.Options(max_depth=4097)), told()),
                  (None, blank(4)))
        self.same("unknown options", (new(file, len(file), python.Options(version=2)), told()), (None, blank(3)))
        for length in (2**63 - 1, 2**63, 2**64 - 9, 2**64 - 8, 2**64 - 1):
            self.same(f"a file of {length} bytes", (new(file, length), told()), (None, blank(11)))
        schema = new(file, len(file), python.Options(max_depth=4096))
        self.same("a schema", (schema is not None, told()), (True, blank(0)))
        verify = lambda schema, scratch, asked, data, length: calls.fbcheck_verify(schema, scratch, asked, data, length,
                                                                                  verdict)
        self.same("no schema to check by", (verify(None, None, None, b"", 0), told()), (status.NULL, blank(2)))
        self.same("no buffer", (verify(schema, None, None, None, 9), told()), (status.NULL, blank(2)))
        self.same("an empty buffer", verify(schema, None, None, None, 0), status.BAD)
        self.same("is out of buffer at 0, in the root's object", told(), (1, 2, 1, python.NONE, 0, 0, 0, 0, 0, 0, 0))
        reads = ctypes.c_uint64(77)
        self.same("no place for reads", calls.fbcheck_most_reads(schema, None, 9, None), status.NULL)
        self.same("no schema for reads", calls.fbcheck_most_reads(None, None, 9, reads), status.NULL)
        for asked, answer in [(python.Options(version=0), 3), (python.Options(ident_from=3), 3),
                              (python.Options(max_depth=4097), 4)]:
            self.same("reads by wrong options", calls.fbcheck_most_reads(schema, asked, 9, reads), answer)
        self.same("which stay as they were", reads.value, 77)
        for name in (None, b""):
            self.same(f"a table {name}", calls.fbcheck_table(schema, name, 0), python.NO_TABLE)
        self.same("no name", calls.fbcheck_table(schema, None, 3), python.NO_TABLE)
        self.same("no schema for it", calls.fbcheck_table(None, b"A", 1), python.NO_TABLE)
        scratch = calls.fbcheck_scratch_new(4096)
        self.same("a scratch that is too deep", calls.fbcheck_scratch_new(4097), None)
        for name, room, asked, length, answer in [
            ("another version", None, {"version": 0}, 0, 3), ("a newer one", None, {"version": 2}, 0, 3),
            ("an unknown identifier", None, {"ident_from": 3}, 0, 3), ("too deep", None, {"max_depth": 65}, 0, 4),
            ("just deep enough", None, {"max_depth": 64}, 0, 1),
            ("deep with a scratch", scratch, {"max_depth": 4096}, 0, 1),
            ("too deep for it", scratch, {"max_depth": 4097}, 0, 4), ("too long", None, {}, 1 << 31, 7),
            ("no such root", None, {"root": 77}, 0, 6), ("no table's", None, {"root": python.NO_TABLE}, 0, 6),
        ]:
            got = verify(schema, room, python.Options(**asked), b"", length)
            self.same(f"options: {name}", got, answer)
            self.same(f"options: {name}, told", told() if got > 1 else None, blank(answer) if got > 1 else None)
        calls.fbcheck_scratch_free(scratch)
        calls.fbcheck_scratch_free(None)
        path, value, written = python._Path(), python._Value(), ctypes.c_size_t()
        for length in (1 << 32, 2**63 - 1):
            for scratch in (None, calls.fbcheck_scratch_new(64)):
                words, span = (schema, scratch, None, b"", length), python._Span(0, length)
                got = [calls.fbcheck_verify(*words, verdict), calls.fbcheck_locate(*words, None, 0, written, verdict),
                       calls.fbcheck_read(*words, None, None, 0, verdict),
                       calls.fbcheck_verify_each(*words, span, verdict, 1), verdict.status]
                self.same(f"{length} bytes are too many", got, [7, 7, 7, 1, 7])
                calls.fbcheck_scratch_free(scratch)
        for depth, asked, answer in [(0, {"max_depth": 65}, 4), (65, {"max_depth": 65}, 1), (0, {"root": 77}, 6)]:
            scratch = calls.fbcheck_scratch_new(depth) if depth else None
            words = (schema, scratch, python.Options(**asked), None, 0)
            got = [calls.fbcheck_verify(*words, None), calls.fbcheck_locate(*words, None, 0, written, None),
                   calls.fbcheck_read(*words, None, None, 0, None)]
            self.same(f"{asked} without a verdict", got, [answer] * 3)
            calls.fbcheck_scratch_free(scratch)
        room = (python._Framer(), (ctypes.c_uint8 * 8)(), 8)
        no_bytes = [calls.fbcheck_resolve(schema, None, None, 0, path, None),
                    calls.fbcheck_framer_feed(*room, None, 0, written)]
        self.same("null bytes of length 0 are none", no_bytes, [17, 13])
        untold = [calls.fbcheck_verify(schema, None, None, None, 9, None),
                  calls.fbcheck_locate(schema, None, None, b"", 0, None, 0, written, None),
                  calls.fbcheck_resolve(schema, None, b"?", 1, path, None),
                  calls.fbcheck_read(schema, None, None, b"", 0, path, value, 1, None),
                  calls.fbcheck_schema_new(None, 9, None, None), calls.fbcheck_schema_new(b"", 0, None, None)]
        self.same("without a verdict", untold, [2, 1, 17, 1, None, None])
        self.order_of_answers(python, calls)
        self.same("options to make", calls.fbcheck_options_init(None), status.NULL)
        self.same("sizes to tell", calls.fbcheck_struct_sizes(None), status.NULL)
        self.same("the version", calls.fbcheck_version(), python.VERSION)
        commit = calls.fbcheck_commit()
        self.holds("the commit, or that it isn't known", re.fullmatch(rb"[0-9a-f]{40}|\?{40}", commit), commit)
        calls.fbcheck_schema_free(schema)
        calls.fbcheck_schema_free(None)

    def order_of_answers(self, python, calls):
        """Two things that are wrong at once: the earlier one is told."""
        file = schema([table("T")], root="T", ident="FIVES")
        made = calls.fbcheck_schema_new(file, len(file), None, None)
        self.holds("a schema whose identifier has five bytes", made is not None)
        path, value, verdict = python._Path(count=32), python._Value(), python._Verdict()
        wrong = {"version": ({"version": 9}, 3), "depth": ({"max_depth": 65}, 4),
                 "root": ({"root": python.NO_TABLE}, 6), "ident": ({"ident_from": 2}, 5), "path": ({}, 19),
                 "length": ({}, 7)}
        order = list(wrong)
        for first in order:
            for second in order[order.index(first) + 1:] or [first]:
                options = python.Options(**{**wrong[first][0], **wrong[second][0]})
                paths = 1 if "path" in (first, second) else 0
                length = 1 << 31 if "length" in (first, second) else 0
                got = calls.fbcheck_read(made, None, options, b"", length, path, value, paths, verdict)
                self.same(f"{first} before {second}", (got, verdict.status), (wrong[first][1],) * 2)
                self.same(f"null before {first}",
                          calls.fbcheck_read(made, None, options, None, 9, path, value, paths, None), 2)
        calls.fbcheck_schema_free(made)

    def test_a_scratch_serves_another_schema_after_a_fault(self):
        """One of one level: it has no more afterwards, and no fewer."""
        python = module()
        calls, status, verdict = python._library(), python.Status, python._Verdict()
        scratch = calls.fbcheck_scratch_new(1)
        with python.Verifier(schemas.X, "R") as unions, python.Verifier(schemas.M) as monsters:
            for name, verifier, data, want in [("a union's table is too deep", unions, MEMBER, (status.BAD, 6)),
                                               ("a table is not", monsters, ORC, (status.OK, 0))]:
                for depth, told in [(1, want), (2, (status.OUT_OF_RANGE, 0))]:
                    asked = verifier.asked(python.Options(max_depth=depth, max_tables=7))
                    got = calls.fbcheck_verify(verifier._schema, scratch, asked, data, len(data), verdict)
                    self.same(f"{name}, within {depth}", (got, verdict.reason), told)
        calls.fbcheck_scratch_free(scratch)

    def test_loads(self):
        """Why a schema file gives no schema, as the program tells it."""
        python = module()
        file = ORDERS.read_bytes()
        for name, given in {
            "empty": b"", "cut off": file[:100], "no schema": b"hello, world",
            "another identifier": file[:4] + b"BFBX" + file[8:],
            "no such object": schema([table("T", field("o", an_object(7), 4))]),
            "a slot twice": schema([table("T", field("a", INT, 4), field("b", INT, 4))]),
            "a root that isn't listed": schema([table("T")], root="S"),
        }.items():
            want = run("--schema",
                       str(file_of("wrong.bfbs", given))).err.decode().removeprefix("fbcheck: schema: ").strip()
            want = want.partition(";")[0].partition(" in ")[0]
            try:
                python.Verifier(given)
                got = "a schema"
            except python.Error as error:
                why = error.verdict
                part = "-" if why.field is None else why.field
                got = {
                    8: f"L1 V{why.reason} at={why.at} object={why.object} field={part} reads={why.reads}",
                    9: f"L2 C{why.reason} owner={why.object} part={part}",
                    10: "L3",
                    20: "L6",
                }.get(why.status, why)
            self.same(name, got, re.sub(r"(L3|[VC]\d+) \w+", r"\1", want))
        for option, reason in [("max_reads", 13), ("max_tables", 7), ("max_depth", 6)]:
            why = reason_of_load(python, file, python.Options(**{option: 2}))
            self.same(f"a file past its {option}", why, (8, reason))
