"""examples/check_schemas: that it takes the program that it should, and ends by a fault where there is none."""

import pathlib
import shutil
import subprocess
import unittest

from tests.support.cases import Case
from tests.support.program import PROGRAM, TOP, folder_of

FOLDER = folder_of(__name__)
TOOLS = ["basename", "bash", "dirname", "find", "flatc", "grep", "mktemp", "rm", "sort", "tail"]
NONE = "check_schemas: no program "


def linked(folder, **programs):
    """A folder with these programs by name."""
    folder.mkdir(parents=True)
    for name, path in programs.items():
        (folder / name).symlink_to(path)
    return folder


@unittest.skipIf(shutil.which("flatc") is None, "flatc isn't there")
class CheckSchemas(Case):
    def test_which_program_it_takes(self):
        """The one that is named, or else the one above the script, or else the one on the PATH."""
        schemas = FOLDER / "schemas"
        (schemas / "more").mkdir(parents=True)
        (schemas / "a.fbs").write_text("table A { v:int; }\nroot_type A;\n")
        (schemas / "more/b.fbs").write_text("table B { v:int; }\n")
        (schemas / "c.fbs").write_text("table C { v:\n")
        tools = {name: shutil.which(name) for name in TOOLS}
        without = {name: path for name, path in tools.items() if name != "flatc"}
        wrong = FOLDER / "wrong"
        wrong.write_text("#!/bin/sh\necho wrong >&2\nexit 3\n")
        wrong.chmod(0o755)
        loaded, refused = "3 schemas: 2 load, 0 refused, 1 ", "3 schemas: 0 load, 2 refused, 1 "
        for number, (name, above, path, words, want) in enumerate([
            ("the one on the PATH", None, {**tools, "fbcheck": PROGRAM}, [], loaded),
            ("the one above", PROGRAM, {**tools, "fbcheck": wrong}, [], loaded),
            ("the one above, which is wrong", wrong, {**tools, "fbcheck": PROGRAM}, [], refused),
            ("the one that is named", wrong, {**tools, "fbcheck": wrong}, [PROGRAM], loaded),
            ("a folder above", FOLDER, {**tools, "fbcheck": PROGRAM}, [], loaded),
            ("none", None, tools, [], f"{NONE}fbcheck\n"),
            ("one that isn't there", PROGRAM, {**tools, "fbcheck": PROGRAM}, ["./gone"], f"{NONE}./gone\n"),
            ("no flatc", PROGRAM, without, [], f"{NONE}flatc\n"),
        ]):
            top = FOLDER / f"top-{number}"
            script = pathlib.Path(shutil.copy(TOP / "examples/check_schemas", linked(top / "examples")))
            if above:
                (top / "fbcheck").symlink_to(above)
            ran = subprocess.run([tools["bash"], script, schemas, *words], capture_output=True, text=True, timeout=60,
                                 env={"PATH": linked(top / "path", **path)}, cwd=FOLDER)
            if want.startswith(NONE):
                self.same(name, (ran.returncode, ran.stdout, ran.stderr), (2, "", want))
            else:
                last = ran.stdout.splitlines()[-1]
                self.same(name, (ran.returncode, last[:len(want)], ran.stderr), (0, want, ""))
