"""What bench/forms measures: a million messages as plain lines, as JSON and as CSV. No time is asked here, but how many
instructions a message takes, where valgrind is there to count them."""

import shutil
import unittest

from tests.support.cases import Case
from tests.support.program import PROGRAM, TOP, folder_of, loaded, run

FORMS = loaded(TOP / "bench/forms")
MOST = 1.5  # times the instructions of a plain line


class Forms(Case):
    def stream(self, count):
        """The file with a stream of so many messages."""
        path = folder_of(__name__) / f"{count} messages"
        FORMS.stream(path, count)
        return path

    def test_lines(self):
        """Each form has a line for each message, with the values at all paths."""
        given = self.stream(5003).read_bytes()
        for name, (_, *words) in FORMS.commands(PROGRAM).items():
            status, out, err = run(*words, given=given)
            self.same(name, (status, out.count(b"\n"), err), (0, 5003 + (name == "CSV"), b""))
            last = {"plain": b' 3 "Fay" absent\n', "JSON": b'"values":{"id":3,"to.name":"Fay","price":0.0}}\n',
                    "CSV": b'3,"Fay",0.0\r\n'}[name]
            self.same(f"{name}, the last line's end", out[-len(last):], last)

    @unittest.skipUnless(shutil.which("valgrind"), "valgrind isn't there")
    def test_instructions(self):
        """At most one and a half times those of plain lines."""
        count = 500
        counted = FORMS.instructions(PROGRAM, self.stream(count), self.stream(0), count)
        for name in "JSON", "CSV":
            self.holds(name, 0 < counted[name] <= MOST * counted["plain"], counted)
        told = list(FORMS.lines(dict.fromkeys(counted, 1.0), {"plain": 100, "JSON": 150, "CSV": 50}))
        self.same("as it is told", [line.split()[-1] for line in told], ["1.00", "1.50", "0.50"])
