"""The names and words that the library for C tells by numbers: those of the reference, the schema and the list here."""

import ctypes
import re

from tests.support import schemas
from tests.support.library import LibraryCase, module
from tests.support.program import TOP

# What each status says in words, by its number.
STATUS_TEXTS = [
    "good", "bad", "a pointer is null", "the options are of another version", "a depth or a room is out of range",
    "the schema's identifier isn't four bytes", "no root table", "2^31 bytes or more", "not well formed", "no schema",
    "its root table isn't listed", "out of memory", "the span isn't in the block", "the message goes on",
    "a message is too long for the room", "the stream ends inside a message", "the stream has failed before", "no path",
    "too many steps", "a path is none of this schema's from this root",
    "its rows or names are more than its length pays for", "the schema was made with other demands",
    "strict can't tell which bytes are nested buffers or flexbuffers",
    "strict can't find the table of a nested buffer", "the bytes aren't those of a good buffer",
]


class NamesForC(LibraryCase):
    def test_names(self):
        """Names by their numbers, as the schema and the reference have them."""
        python = module()
        page = (TOP / "docs/REFERENCE.md").read_text()
        reasons = re.findall(r"V\d+ [A-Z]\w+", page.split("## Reasons")[1].split("\n## ")[0])
        rows = [table.split() for table in ["A v", "W", "R u_type u", "Q us_type us"]]
        with python.Verifier(schemas.X) as verifier:
            last = len(reasons) + 1
            self.same("reasons", [verifier.reason_name(n) for n in range(last + 1)], [None, *reasons, None])
            codes = [*re.findall(r"`(C\d+ \w+)`", page), f"C{len(python.Code) + 1} OutOfMemory"]
            steps = [*re.findall(r"`(P\d \w+) ", page), f"P{len(python.PathFault) + 1} OutOfMemory"]
            status = python.Status
            told = {status.BAD: reasons, status.NOT_WELL_FORMED: reasons, status.BAD_SCHEMA: codes,
                    status.BAD_PATH: steps}
            for number in range(len(status) + 1):
                given = [verifier.fault_name(number, n) for n in range(last + 1)]
                named = told.get(number, [])
                self.same(f"faults of status {number}", given, [None, *named, *[None] * (last - len(named))])
            self.same("each status has words", len(STATUS_TEXTS), len(status))
            self.same("of at most 64 bytes", max(map(len, STATUS_TEXTS)) <= 64, True)
            self.same("statuses", [verifier.status_text(n) for n in (*status, len(status), 2**32 - 1)],
                      [*STATUS_TEXTS, None, None])
            for number, (table, *fields) in enumerate(rows):
                self.same(f"object {number}", verifier.object_name(number), table)
                told = [verifier.field_name(number, n) for n in range(len(fields) + 1)]
                self.same(f"fields of {table}", told, [*fields, None])
            numbers = (4, 65536, 2**32 - 1)
            self.same("no such object", [verifier.object_name(n) for n in numbers], [None] * 3)
            self.same("no such table", [verifier.field_name(n, 0) for n in numbers], [None] * 3)
            self.same("no such field", [verifier.field_name(2, n) for n in numbers], [None] * 3)
            calls, schema, text = verifier._calls, verifier._schema, ctypes.create_string_buffer(b"?" * 8, 8)
            self.same("too little room", (calls.fbcheck_field_name(schema, 3, 0, text, 6), text.raw), (7, b"?" * 8))
            self.same("just enough", (calls.fbcheck_field_name(schema, 3, 0, text, 7), text.raw), (7, b"us_type?"))
            self.same("no room",
                      (calls.fbcheck_field_name(schema, 3, 0, None, 9), calls.fbcheck_reason_name(1, None, 9),
                       calls.fbcheck_fault_name(1, 1, None, 9), calls.fbcheck_object_name(schema, 0, None, 9),
                       calls.fbcheck_status_text(1, None, 9)), (0, 0, 0, 0, 0))
            got = calls.fbcheck_status_text(status.NO_ROOT, text, 8)
            self.same("too little room for words", (got, text.raw), (13, b"us_type?"))
            self.same("no schema",
                      (calls.fbcheck_object_name(None, 0, text, 8), calls.fbcheck_field_name(None, 0, 0, text, 8)),
                      (0, 0))
            verifier.close()
            self.same("of no schema", (verifier.object_name(0), verifier.field_name(0, 0)), (None, None))
            self.same("a reason has its name still", verifier.reason_name(13), "V13 TooManyReads")
