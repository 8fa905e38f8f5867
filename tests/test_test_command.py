"""The script ./test and `python3 -m tests`: their counts, their status, and what they say where something is missing.

They run in a folder of their own, beside a command rt that only prints what a case says, and small tests.
"""

import hashlib
import re
import shutil
import subprocess

from tests.support.cases import Case
from tests.support.clone import TOP
from tests.support.scripts import Scripts

TOOLS = ["bash", "cat", "cp", "dirname", "env", "grep", "gzip", "ln", "mkdir", "mktemp", "python3", "readlink", "rm",
         "sed", "sha256sum", "sleep", "tail", "tar", "tee"]


class Folder(Scripts):
    """The script, its tools, stand-ins for the other commands, and tests by their texts."""

    def __init__(self, name, tests=(), **commands):
        tools = [tool for tool in TOOLS if tool not in commands]
        super().__init__(name, ["test"], tools)
        shutil.copytree(TOP / "tests/support", self.top / "tests/support")
        for file in ("__init__.py", "__main__.py"):
            shutil.copy(TOP / "tests" / file, self.top / "tests")
        for command, text in {"rt": tells(7, 0), "cc": "exit 0", **commands}.items():
            if text is not None:
                self.stand_in(f"bin/{command}", text)
        self.stand_in("scripts/build_c", "echo build_c; > library")
        for number, text in enumerate(tests):
            self.write(f"tests/test_{number}.py", text)

    def stand_in(self, name, text):
        self.write(name, f"#!/usr/bin/env bash\n{text}\n")

    def call(self, *words, **environment):
        ran = super().call("test", *words, **environment)
        return ran.status, ran.out.decode().splitlines(), ran.err.decode()


def tells(passed, failed, status=None):
    """A script that ends with such a count."""
    status = int(failed != 0) if status is None else status
    return f"echo some text\necho {passed} passed, {failed} failed\nexit {status}"


def case(*lines):
    """A file with one test of these lines."""
    body = "".join(f"        {line}\n" for line in lines)
    return f"import os, pathlib, sys, time, unittest\n\nclass A(unittest.TestCase):\n    def test_one(self):\n{body}"


def cases(passed, failed):
    """A file with one test of so many subtests."""
    return case(f"for number in range({passed + failed}):",
                f"    with self.subTest(number): self.assertLess(number, {passed})")


def meets(mine, other):
    """The lines of a test that passes where another runs while it does."""
    return (f"pathlib.Path('met_{mine}').touch()", f"met = pathlib.Path('met_{other}')",
            "ends = time.monotonic() + 20", "while not met.exists() and time.monotonic() < ends: time.sleep(0.1)",
            "self.assertTrue(met.exists())")


# A test that asks the program, with all tools but rt.
ASKS = case("import shutil", "from tests.support.program import run", "print(run().out.decode(), end='')",
            "self.assertEqual([shutil.which(tool) is None for tool in ('rt', 'tail')], [True, False])")


class Packages(Folder):
    """The same beside a folder of packages, whose programs are scripts that tell where they are from."""

    def __init__(self, name, tests, **commands):
        unpack = 'mkdir -p "$3/usr/bin"; cp "$2" "$3/usr/bin/fbcheck"'
        super().__init__(name, tests, **{"dpkg-deb": unpack, **commands})
        self.write("VERSION", "7\n")
        self.made = self.top / "made here"
        self.tarball = self.made / "fbcheck-7-x86_64-linux.tar.gz"
        for deb in ("fbcheck", "libfbcheck1"):
            self.stand_in(f"made here/{deb}_7_amd64.deb", "echo the deb is asked")
        self.pack("the tarball")
        sums = [f"{hashlib.sha256(path.read_bytes()).hexdigest()}  {path.name}\n" for path in self.made.iterdir()]
        (self.made / "SHA256SUMS").write_text("".join(sums))

    def pack(self, name):
        self.stand_in("fbcheck-7-x86_64-linux/bin/fbcheck", f"echo {name} is asked")
        subprocess.run(["tar", "-czf", self.tarball, "fbcheck-7-x86_64-linux"], cwd=self.top, check=True)


class TestCommand(Case):
    def test_counts_are_added(self):
        for name, ci, tests, want, status in [
            ("all pass", tells(7, 0), [cases(3, 0), cases(4, 0)], "14 passed, 0 failed", 0),
            ("a test fails", tells(7, 0), [cases(3, 1), cases(4, 0)], "14 passed, 1 failed", 1),
            ("the last test fails", tells(7, 0), [cases(3, 0), cases(4, 2)], "14 passed, 2 failed", 1),
            ("rt ci fails", tells(6, 1), [cases(3, 0)], "9 passed, 1 failed", 1),
            ("both fail", tells(6, 1), [cases(3, 2)], "9 passed, 3 failed", 1),
            ("no test from outside", tells(7, 0), [""], "7 passed, 1 failed", 1),
            ("rt ci stops without a count", "echo broken; exit 2", [cases(3, 0)], "3 passed, 1 failed", 1),
            ("rt ci says nothing", "exit 0", [cases(3, 0)], "3 passed, 1 failed", 1),
            ("a count of failures with status 0", tells(7, 1, 0), [cases(3, 0)], "3 passed, 1 failed", 1),
            ("a count without a failure with status 1", tells(7, 0, 1), [cases(3, 0)], "3 passed, 1 failed", 1),
            ("a count that isn't the last line", "echo 7 passed, 0 failed; echo more", [cases(3, 0)],
             "3 passed, 1 failed", 1),
        ]:
            got, out, _ = Folder(f"counts {name}", tests, rt=f'[ "$*" = ci ] || exit 9\n{ci}').call()
            self.same(name, (got, out[-1]), (status, want))
            self.holds(f"{name}: the output of rt ci is shown", "== rt ci" in out, out)

    def test_what_is_a_case(self):
        for name, text, want in [
            ("a test without subtests", case("pass"), "8 passed, 0 failed"),
            ("one that fails", case("self.fail()"), "7 passed, 1 failed"),
            ("one that breaks off", case("raise OSError"), "7 passed, 1 failed"),
            ("one that breaks off behind a subtest", case("with self.subTest(1): pass", "raise OSError"),
             "8 passed, 1 failed"),
            ("one that is skipped", case("self.skipTest('no')"), "7 passed, 0 failed"),
            ("a file that can't be read", "import nothing_of_that_name", "7 passed, 1 failed"),
            ("a process that stops without a count", case("os._exit(0)"), "7 passed, 1 failed"),
            ("one that stops behind a count", case("print('3 passed, 0 failed', flush=True)", "os._exit(1)"),
             "7 passed, 1 failed"),
        ]:
            _, out, _ = Folder(f"case {name}", [text]).call()
            self.same(name, out[-1], want)

    def test_what_is_left_out_is_told(self):
        """Each reason once, in the line before the count."""
        tests = [case("self.skipTest('b isn\\'t there')"), case("pass"),
                 case("from tests.support.tools import there", "there('no-such-tool')", "with self.subTest(1):",
                      "    self.skipTest('b isn\\'t there')")]
        folder = Folder("left out", tests)
        folder.stand_in("scripts/build", "exit 0")
        _, out, _ = folder.call("--outside")
        told = "left out: b isn't there; no-such-tool isn't there"
        self.same("what is left out", out[-4:-2], [told, "1 passed, 0 failed"])
        self.same("and nothing where nothing is", "left out" in str(Folder("all", [cases(1, 0)]).call()[1]), False)

    def test_the_time_is_told(self):
        busy = """
until times >spent; read -r user _ <spent; [ "${user:2:1}" -ge 1 ]; do
    for ((turn = 0; turn < 10000; turn++)); do :; done
done"""
        spin = case("while time.process_time() < 2: pass")
        told = Folder("time", [spin], rt=f"{busy}\n{tells(1, 0)}", nproc="echo 2").call()[1]
        line = re.compile(r"== (.*) ended after 0 min (\d+) s \(2 cores, (\d+) s of processor time\)")
        told = [match.groups() for match in map(line.fullmatch, told) if match]
        self.same("that of the proofs, and of all", [what for what, _, _ in told],
                  ["rt ci", "python3 -m tests --after-ci"])
        self.holds("by the clock", all(int(time) >= 1 for _, time, _ in told), told)
        self.holds("by the processors", int(told[0][2]) >= 1 and int(told[1][2]) >= 2, told)

    def test_checks_stand_side_by_side(self):
        for name, environment, cores, want in [
            ("one a core", {}, "echo 2", "2"),
            ("as many as memory holds", {}, "echo 4000", None),
            ("one where the cores aren't known", {}, "exit 1", "1"),
            ("as many as the caller says", {"RT_JOBS": "7"}, "echo 2", "7"),
        ]:
            folder = Folder(f"jobs {name}", [cases(1, 0)], rt=f'echo "jobs $RT_JOBS"\n{tells(1, 0)}', nproc=cores)
            _, out, _ = folder.call(**environment)
            told = [line.removeprefix("jobs ") for line in out if line.startswith("jobs ")]
            is_right = len(told) == 1 and (told[0] == want if want else 1 <= int(told[0]) < 4000)
            self.holds(f"{name}: {told}", is_right, out)

    def test_tests_stand_side_by_side(self):
        tests = [case(f"print('I am {mine}')", *meets(mine, other)) for mine, other in [(0, 1), (1, 0), (2, 2)]]
        status, out, _ = Folder("side by side", tests).call()
        self.same("each meets the other", (status, out[-1]), (0, "10 passed, 0 failed"))
        self.same("they are shown in their order", [line for line in out if line.startswith("I am")],
                  ["I am 0", "I am 1", "I am 2"])

    def test_the_library_comes_before_its_tests(self):
        finds = case("import tests.support.library", "self.assertTrue(os.path.exists('library'))")
        folder = Folder("library", [finds])
        self.same("it is built before a test that names it", folder.call()[1][-1], "8 passed, 0 failed")
        folder.stand_in("scripts/build_c", """echo "words: $*"
>met_library
for tenth in {1..200}; do [ ! -e met_test ] || break; sleep 0.1; done
[ -e met_test ] && >library""")
        folder.write("tests/test_1.py", case(*meets("test", "library")))
        (folder.top / "library").unlink()
        _, out, _ = folder.call()
        self.same("and beside one that doesn't", out[-1], "9 passed, 0 failed")
        self.holds("of what rt ci left", "words: --after-ci" in out, out)
        folder.stand_in("scripts/build_c", "echo broken; exit 1")
        status, out, _ = folder.call()
        self.same("where it can't be, that is a failure", (status, out[-1]), (1, "9 passed, 1 failed"))
        self.holds("and it is shown", "broken" in out, out)

    def test_the_library_is_made_of_what_was_proved(self):
        kit = Scripts("kit", [])
        rt = kit.write("bin/rt", "#!/bin/bash\n")
        kit.write("bin/rattle", '#!/bin/bash\necho "$@" >words\n')
        folder = Scripts("archive", ["scripts/build_c"], TOOLS)
        (folder.bin / "rt").symlink_to(rt)
        folder.write("scripts/build", "#!/bin/bash\nexit 2\n")
        folder.write("crates.txt", "low: core\nfbcheck_c staticlib: core low\nother: low\n")
        for crate in ("low", "fbcheck_c"):
            folder.write(f"crates/{crate}/src/lib.rt", "text\n")
        folder.call("scripts/build_c", "--after-ci")
        words = (folder.top / "crates/fbcheck_c/words").read_text().split()
        libraries = [word for at, word in enumerate(words) if words[at - 1] == "--extern"]
        crate = folder.top / "crates/low/out/rlib/low.rlib"
        self.same("by what rt ci left of each crate", libraries,
                  [f"std={kit.top}/rlibs/std.rlib", f"core={kit.top}/rlibs/core.rlib", f"low={crate}"])
        self.same("into the place where scripts/build looks", words[-2:], ["-o", "out/libfbcheck_c.a"])

    def test_what_is_missing_is_named(self):
        for missing, text in [("rt", "rt, the command of the Rattle toolchain"), ("python3", "python3, which runs"),
                              ("cc", "cc, a C compiler")]:
            folder = Folder(f"without {missing}", **{missing: None})
            status, out, err = folder.call()
            self.same(f"without {missing}", (status, out), (2, []))
            self.holds(f"{missing} is named, and where it was looked for", text in err and str(folder.bin) in err, err)

    def test_from_outside_alone(self):
        folder = Folder("outside", [cases(5, 0)], rt="echo rt was called; exit 1")
        folder.stand_in("scripts/build", '[ "$*" = fbcheck ]')
        status, out, _ = folder.call("--outside")
        self.same("no rt ci", (status, out[-1], "rt was called" in out), (0, "5 passed, 0 failed", False))
        for command in ("scripts/build_c", "scripts/build"):
            folder.stand_in(command, "exit 2")
            self.same(f"what {command} can't build", folder.call("--outside")[:2], (2, []))

    def test_packaged_programs(self):
        """The program of each package is asked by what needs no more than it, and no rt is there meanwhile."""
        other = case("from tests.support.program import built", "built('test_probe')")
        folder = Packages("packaged", [ASKS, other, case("import tests.support.library"), case("self.fail()")],
                          rt="echo rt was called")
        status, out, err = folder.call("--packaged", "made here", folder=folder.top)
        self.same("of each a sum, what is unpacked, and a test", (status, out[-1], err), (0, "6 passed, 0 failed", ""))
        self.same("both are asked", [line for line in out if " is asked" in line],
                  ["the tarball is asked", "the deb is asked"])
        told = "left out: test_probe is in no package; test_2 need the library for C; test_3 don't ask the program"
        self.same("what isn't asked is named, of each", out.count(told), 2)
        self.same("and so is what has no program", out[-2],
                  "left out: what is no package of a program of version 7: libfbcheck1_7_amd64.deb")
        self.same("rt isn't called, and nothing is built",
                  [line for line in out if "rt was" in line or "build_c" in line], [])
        (folder.bin / "rt").unlink()
        self.same("without rt it's the same", folder.call("--packaged", folder.made)[1][-1], "6 passed, 0 failed")

    def test_packages_that_fail(self):
        for name, change, tests, want, told in [
            ("another program", lambda folder: folder.pack("the other"), [ASKS], "5 passed, 1 failed",
             "test: fbcheck-7-x86_64-linux.tar.gz hasn't the sum that SHA256SUMS tells of it"),
            ("no sums", lambda folder: (folder.made / "SHA256SUMS").unlink(), [ASKS], "4 passed, 2 failed",
             "test: fbcheck_7_amd64.deb hasn't the sum that SHA256SUMS tells of it"),
            ("no tarball", lambda folder: folder.tarball.write_bytes(b"none"), [ASKS], "3 passed, 2 failed",
             "test: fbcheck-7-x86_64-linux.tar.gz can't be unpacked"),
            ("no dpkg-deb", lambda folder: (folder.bin / "dpkg-deb").unlink(), [ASKS], "3 passed, 0 failed",
             "left out: fbcheck_7_amd64.deb, since dpkg-deb isn't there"),
            ("a test", lambda folder: None, [f"{ASKS}        self.fail()\n"], "4 passed, 2 failed", "FAILED (failures=1)"),
        ]:
            folder = Packages(f"packaged, {name} fails", tests)
            change(folder)
            status, out, _ = folder.call("--packaged", folder.made)
            self.same(name, (status, out[-1]), (int(" 0 failed" not in want), want))
            self.holds(f"{name}: it is told", told in out, out)

    def test_no_packages(self):
        folder = Packages("none", [ASKS])
        for name in ("there.7", "tests", "VERSION"):
            told = f"test: no package to test is in {folder.top / name}, neither fbcheck-7-x86_64-linux.tar.gz nor, for " \
                   "dpkg-deb, fbcheck_7_amd64.deb (scripts/package makes both)\n"
            self.same(f"{name} is refused", folder.call("--packaged", name, folder=folder.top), (2, [], told))

    def test_other_words_are_refused(self):
        folder = Folder("words")
        for words in [["--nothing"], ["--outside", "more"], ["ci"], ["--packaged"], ["--packaged", "a", "b"]]:
            self.same(f"{words}", folder.call(*words), (2, [], "usage: ./test [--outside | --packaged FOLDER]\n"))
