"""The modules of these tests: they run in one process in any order, since each has a folder for its files."""

import re
import subprocess
import sys

from tests.support.cases import Case
from tests.support.program import TOP

MODULES = sorted((TOP / "tests").glob("test_*.py"))
MOST_LINES = 800

# Cases that write files named good.bin, bad.bin and odd.bin, each its own.
CASES = ["tests.test_csv.Csv.test_files", "tests.test_json.Json.test_summaries_beside_plain_ones",
         "tests.test_files.Files.test_files_of_misaligned_messages", "tests.test_files.Files.test_sums"]

# Loads modules, and tells each file that one of them writes over another's.
LOAD = """
import importlib, pathlib, sys
written, write = {}, pathlib.Path.write_bytes
def noted(path, data):
    if written.setdefault(path, bytes(data)) != data:
        print(path.name)
    return write(path, data)
pathlib.Path.write_bytes = noted
for name in sys.argv[1:]:
    importlib.import_module(name)
print(len(written) > 50)
"""


def ended(*words):
    """How a run of Python ends, and what it says."""
    ran = subprocess.run([sys.executable, *words], cwd=TOP, capture_output=True, text=True)
    return ran.returncode, ran.stdout, ran.stderr


class Modules(Case):
    def test_loaded_from_the_last_to_the_first(self):
        """No file that a module writes while it is loaded is another's."""
        names = [f"tests.{path.stem}" for path in reversed(MODULES)]
        self.same("files that are written over", ended("-c", LOAD, *names), (0, "True\n", ""))

    def test_run_in_either_order(self):
        for names in CASES, CASES[::-1]:
            status, out, err = ended("-m", "tests", *names)
            count = re.search(r"(?m)^(\d+) passed, 0 failed\n\Z", out)
            self.same(" ".join(names), (status, count is not None and int(count[1]) > 9, err), (0, True, ""))

    def test_folders(self):
        """None takes the folder of all."""
        common = re.compile(r"(?m)^from tests\.support\.\w+ import (?:\([^)]*\bFOLDER\b|.*\bFOLDER\b)")
        self.same("modules that do", [path.name for path in MODULES if common.search(path.read_text())], [])

    def test_lengths(self):
        """A file of tests is split by its subjects before it gets too long to be read."""
        lengths = {path.name: len(path.read_text().splitlines()) for path in (TOP / "tests").rglob("*.py")}
        self.same("files of more lines", {name: lines for name, lines in lengths.items() if lines > MOST_LINES}, {})
