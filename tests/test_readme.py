"""The README's examples are what stands in the repository and what the program says; and what else the pages say that
only the text of a file can show."""

import os
import re
import shutil
import subprocess
import unittest

from tests.support.builder import changed
from tests.support.program import PROGRAM, TOP, file_of, folder_of

FOLDER = folder_of(__name__)
README, REFERENCE = ((TOP / page).read_text() for page in ("README.md", "docs/REFERENCE.md"))
PAGES = [*TOP.glob("*.md"), *(TOP / "docs").glob("*.md"), TOP / "bench/README.md", *TOP.glob("bindings/*/README.md"),
         TOP / "examples/jq.md", TOP / "examples/flatgeobuf/README.md"]


def block(page, beginning):
    """The first block of commands on a page that begins so."""
    for found in re.findall(r"```sh\n(.*?)```", page, re.S):
        if found.startswith(beginning):
            return found
    return None


def in_folder(folder, *words):
    """How bash ends by these words in a folder, with the program on the PATH."""
    if not (FOLDER / "path").exists():
        (FOLDER / "path").mkdir()
        (FOLDER / "path/fbcheck").symlink_to(PROGRAM)
    return subprocess.run(["bash", *words], cwd=folder, capture_output=True, timeout=60,
                          env={**os.environ, "PATH": f"{FOLDER / 'path'}:{os.environ['PATH']}"})


def anchors(page):
    """What a link behind a # may name on a page: its headings in small letters, with dashes for spaces."""
    text = re.sub(r"(?s)```.*?```", "", page.read_text())
    return {re.sub(r"[^\w -]", "", heading.lower()).replace(" ", "-") for heading in re.findall(r"(?m)^#+ (.*)$", text)}


class Readme(unittest.TestCase):
    def test_first_example(self):
        """The first command tells the lines that are printed below it, and ends with status 1."""
        command, *lines = block(README, "./fbcheck").splitlines()
        words = re.fullmatch(r"\./fbcheck (.*) < (\S+)", command)
        with open(TOP / words[2], "rb") as stream:
            run = subprocess.run([PROGRAM, *words[1].split()], cwd=TOP, stdin=stream, capture_output=True, timeout=20)
        wanted = "".join(line.removeprefix("# ") + "\n" for line in lines)
        self.assertEqual((run.returncode, run.stdout.decode(), run.stderr), (1, wanted, b""))

    @unittest.skipIf(shutil.which("flatc") is None, "flatc isn't there")
    def test_first_commands_of_the_reference(self):
        """They print what stands below them."""
        folder = FOLDER / "first"
        folder.mkdir()
        script = block(REFERENCE, "echo")
        shown = [line.removeprefix("# ") for line in script.splitlines() if line.startswith("# ")]
        run = in_folder(folder, "-c", script)
        self.assertEqual((run.returncode, run.stdout.decode().splitlines(), run.stderr), (0, shown, b""))

    @unittest.skipIf(None in map(shutil.which, ("flatc", "jq")), "flatc or jq isn't there")
    def test_report_of_ci(self):
        """The step for any number of files fails, and tells of each, as the page says."""
        folder = FOLDER / "report"
        (folder / "bins").mkdir(parents=True)
        (folder / "my.fbs").write_text('table M { name:string; }\nroot_type M;\nfile_identifier "KIND";\n')
        (folder / "it.json").write_text('{ "name": "Orc" }')
        for words in (["my.fbs", "it.json"], ["--schema", "my.fbs"]):
            subprocess.run(["flatc", "--binary", *words], cwd=folder, check=True, stdout=subprocess.DEVNULL)
        good = (folder / "it.bin").read_bytes()
        script = file_of("report.sh", block(REFERENCE, "find bins").encode())
        for name, data, status, told in [
            (None, None, 2, []),
            (b"a.bin", good, 0, []),
            (b"b.bin", good[:-4], 1, ['"bins/b.bin","OutOfBuffer","name"']),
            (b"c.bin", ..., 3, ['"bins/c.bin","no such file",']),
            (b"d\xff.bin", good, 3, ['"{""bytes"":""62696e732f64ff2e62696e""}","file name isn\'t UTF-8",']),
        ]:
            path = os.path.join(os.fsencode(folder / "bins"), name or b"")
            if data is ...:
                os.symlink("nothing", path)
            elif data is not None:
                with open(path, "wb") as file:
                    file.write(data)
            for words in ([], ["-e"]):
                run = in_folder(folder, *words, script)
                self.assertEqual(run.returncode, status, run)
                self.assertLessEqual(set(told), set(run.stdout.decode().splitlines()), run)
        (folder / "my.bfbs").unlink()
        run = in_folder(folder, script)
        self.assertEqual((run.returncode, run.stdout), (2, b'"null","cannot read schema",\n'))

    @unittest.skipIf(shutil.which("flatc") is None, "flatc isn't there")
    def test_step_of_ci(self):
        """The step for CI ends with 0 where all files are good, and fails by each of the mistakes that stand there."""
        folder = FOLDER / "step"
        (folder / "bins").mkdir(parents=True)
        (folder / "my.fbs").write_text('table M { name:string; }\nroot_type M;\nfile_identifier "KIND";\n')
        (folder / "it.json").write_text('{ "name": "Orc" }')
        subprocess.run(["flatc", "--binary", "my.fbs", "it.json"], cwd=folder, check=True, stdout=subprocess.DEVNULL)
        good = (folder / "it.bin").read_bytes()
        script = file_of("step.sh", block(REFERENCE, "set -e\n").encode())
        for name, data, status, told in [
            ("no file", None, 1, b""),
            ("a good one", good, 0, b""),
            ("of another schema", changed(good, (7, "45")), 1, b"bad V5 WrongIdentifier"),
            ("a bad one", good[:-4], 1, b"bad V2 OutOfBuffer"),
            ("one that can't be read", ..., 3, b""),
        ]:
            if data is ...:
                (folder / "bins/other.bin").symlink_to("nothing")
            elif data is not None:
                (folder / "bins/it.bin").write_bytes(data)
            run = in_folder(folder, script)
            with self.subTest(name):
                self.assertEqual((run.returncode, told in run.stdout), (status, True), run)

    def test_library_example(self):
        """The example for Rattle is a crate that crates.txt names, which the gate proves and tests: by no proof that was
        written by hand, upon libraries that the page names."""
        section = REFERENCE.split("\n## The libraries for Rattle\n")[1].split("\n## ")[0]
        crate = (TOP / "docs" / re.search(r"\]\((\S+)/src/lib\.rt\)", section)[1]).resolve()
        self.assertEqual(sorted(path.name for path in crate.iterdir() if path.name != "out"), ["src"])
        line = re.search(rf"(?m)^{crate.name}: (.*)$", (TOP / "crates.txt").read_text())
        self.assertLessEqual(set(line[1].split()), set(re.findall(r"`(fb_\w+)`", section)))

    def test_links(self):
        """Each file that a page links to is there, and has the heading that the link names."""
        for page in PAGES:
            for target, anchor in re.findall(r"\]\((?!http)([^)#]*)(?:#([^)]+))?\)", page.read_text()):
                to = (page.parent / target).resolve() if target else page
                with self.subTest(page=str(page.relative_to(TOP)), target=target, anchor=anchor):
                    self.assertTrue(to.exists())
                    self.assertTrue(not anchor or anchor in anchors(to))
