"""Rows that break a demand, or stand at its edge, as schema files: what `test_probe list` tells of each, and what the judge
says that only follows the demands."""

import subprocess

from tests.support.case_text import rows_of
from tests.support.cases import Case
from tests.support.demands import CODES, TABLES, fault, file_of_rows
from tests.support.judge import first_broken
from tests.support.program import built


class Demands(Case):
    @classmethod
    def setUpClass(cls):
        cls.probe = built("test_probe")

    def told(self, file):
        """The first line about a schema file."""
        ran = subprocess.run([self.probe, "list"], input=file, capture_output=True, timeout=60)
        return ran.stdout.decode().partition("\n")[0]

    def test_demands(self):
        for table, cases in TABLES.items():
            for shows, rows, want in cases:
                self.same(f"{table}: {shows}: {rows}", self.told(file_of_rows(rows)), fault(want))

    def test_demands_by_the_judge(self):
        for table, cases in TABLES.items():
            for shows, rows, want in cases:
                broken = first_broken(*rows_of(rows))
                parts = broken and [str(part) for part in broken[1:] if part is not None]
                told = f"{CODES[broken[0] - 1]} {'.'.join(parts)}" if broken else "ok"
                self.same(f"{table}: {shows}: {rows}", told, want)
