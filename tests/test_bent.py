"""The bends of tests/bent fit the code as it stands, and the tests and tables that catch them are there."""

import re

from tests.support.cases import Case
from tests.support.clone import TOP, loaded

BENT = loaded(TOP / "tests/bent")


class Bent(Case):
    def test_changes_fit(self):
        for bend in BENT.BENDS:
            texts = {}
            for change in bend.changes:
                text = texts.get(change.file) or (TOP / "crates" / change.file).read_text()
                texts[change.file] = change.made(text) or ""
                self.holds(f"{bend.text}: {change.old.strip()}", texts[change.file] not in ("", text), change.file)

    def test_tests_are_there(self):
        files = (TOP / "crates" / BENT.TESTS / "src").rglob("*.rt")
        tests = set(re.findall(r"#\[test\]\s+fn (\w+)", "\n".join(file.read_text() for file in files)))
        for bend in BENT.BENDS:
            self.same(bend.text, [name for name in bend.caught_by if name not in tests | BENT.ASKED.keys()], [])
