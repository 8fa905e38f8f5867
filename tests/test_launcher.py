"""The scripts ./fbcheck and scripts/build: when something is built, what is told where it can't be, and what is handed
on.

They run in a small copy of the repository, in which the command rt is a script that writes down that it was called.
"""

import os
import shutil
import subprocess
import time
import unittest

from tests.support.cases import Case
from tests.support.program import PROGRAM, TOP, Ran
from tests.support.scripts import Scripts

TOOLS = ["env", "bash", "dirname", "readlink", "find", "grep", "touch", "cat", "mkdir", "cp"]
CRATES = """# NAME: a comment
fbcheck_more: other
low:
fbcheck status=0: middle clap
middle: low byteorder

other: low
ffi staticlib: other
"""

# Stands for rt: writes down that it was called, and what of standard input it was given, and makes what it's asked for.
RT = """#!/bin/bash
echo "rt $*" >> "$CALLS"
cat >> "$CALLS"
[ -z "${FAILS:-}" ] || { echo "a proof is open"; exit "$FAILS"; }
echo "rt says this"
mkdir -p out
made=${PWD##*/}
[ "$1" != lib ] || made=lib$made.a
cp ../../program "out/$made"
touch "out/$made"
"""

# Stands for the program: shows its words and its input, and ends with status 3.
SHOWS = """#!/bin/bash
printf '<%s>' "$@"
cat
exit 3
"""
RAN = Ran(3, b"<--bare><two words><>input", b"")
WORDS = ["--bare", "two words", ""]
BUILD = "scripts/build"
UNKNOWN = "commit " + "?" * 40
ONE_CALL = "rt run\nthe stored input\n"


class Copy(Scripts):
    """The launcher beside crates of one file each."""

    def __init__(self, name, rt=RT):
        super().__init__(name, ["fbcheck", BUILD], TOOLS)
        self.write("crates.txt", CRATES)
        self.write("program", SHOWS)
        for crate in ("low", "middle", "fbcheck", "fbcheck_more", "other", "ffi"):
            for file in ("src/lib.rt", "specs/Lib.antt", "proofs/deep/Answers.antt"):
                self.write(f"crates/{crate}/{file}", "text\n")
        self.write("crates/fbcheck/stdin", "the stored input\n")
        if rt:
            self.write("bin/rt", rt)

    def built(self):
        """Puts a program there that is newer than all else, and older than what is written from now on."""
        program = self.write("crates/fbcheck/out/fbcheck", SHOWS)
        now = time.time()
        for path in [self.top, *self.top.rglob("*")]:
            if not path.is_symlink():
                os.utime(path, (now - 200, now - 200))
        os.utime(program, (now - 100, now - 100))
        return self

    def calls(self):
        """What rt was called with since the last time."""
        path = self.top / "calls"
        text = path.read_text() if path.exists() else ""
        path.unlink(missing_ok=True)
        return text

    def call(self, *words, script="fbcheck", **more):
        return super().call(script, *words, given=b"input", CALLS=str(self.top / "calls"), **more)


class Launcher(Case):
    def test_a_first_call_builds(self):
        copy = Copy("first")
        ran = copy.call(*WORDS)
        self.same("words, input and status are handed on", (ran.status, ran.out), (3, RAN.out))
        self.holds("the build is told on standard error",
                   b"proving and building" in ran.err and b"rt says this" in ran.err, ran.err)
        self.same("rt runs once, on the stored input", copy.calls(), ONE_CALL)
        self.same("a second call only runs the program", copy.call(*WORDS), RAN)
        self.same("and calls no rt", copy.calls(), "")

    def test_a_call_from_elsewhere(self):
        copy = Copy("else where")
        ran = copy.call(*WORDS, folder="/")
        self.same("from another folder, of one with a space in its name", (ran.status, ran.out, copy.calls()),
                  (3, RAN.out, ONE_CALL))
        (copy.top / "a link").symlink_to(copy.top / "fbcheck")
        self.same("by a link, the same program", copy.call(*WORDS, script="a link", folder="/"), RAN)
        (copy.bin / "a link").symlink_to("../a link")
        self.same("by a link to a link", copy.call(*WORDS, script="bin/a link", folder="/"), RAN)

    def test_without_rt(self):
        copy = Copy("without", rt=None)
        ran = copy.call(*WORDS)
        self.same("status 2, and nothing on standard output", (ran.status, ran.out), (2, b""))
        for what, text in [("the command", "command rt"), ("where it was looked for", str(copy.bin)),
                           ("the README", "README.md"),
                           ("the program", str(copy.top / "crates/fbcheck/out/fbcheck"))]:
            self.holds(f"{what} is named", text.encode() in ran.err, ran.err)
        self.same("a program that is built needs no rt", copy.built().call(*WORDS), RAN)
        copy.write("crates/low/src/lib.rt", "changed\n")
        ran = copy.call(*WORDS)
        self.holds("one that is stale isn't run", ran.status == 2 and not ran.out and b"command rt" in ran.err, ran)

    def test_a_changed_file_builds_anew(self):
        copy = Copy("changed").built()
        self.same("nothing has changed", (copy.call(*WORDS), copy.calls()), (RAN, ""))
        for name in ["crates/fbcheck/src/lib.rt", "crates/middle/specs/Lib.antt", "crates/low/proofs/deep/Answers.antt",
                     "crates.txt", "crates/low/src/new.rt", "crates/fbcheck/proofs/deep/New.antt"]:
            copy.built().write(name, CRATES if name == "crates.txt" else "changed\n")
            ran = copy.call(*WORDS)
            self.same(f"{name}: built anew, then run", (ran.status, ran.out, copy.calls()), (3, RAN.out, ONE_CALL))
            self.same(f"{name}: built once", (copy.call(*WORDS), copy.calls()), (RAN, ""))
        copy.built()
        (copy.top / "crates/low/src/new.rt").unlink()
        self.same("a file that was taken away", (copy.call(*WORDS).status, copy.calls()), (3, ONE_CALL))
        for name in ["crates/other/src/lib.rt", "crates/fbcheck_more/src/lib.rt", "README.md", "crates/fbcheck/stdin",
                     "crates/fbcheck/out/other"]:
            copy.built().write(name, "changed\n")
            self.same(f"{name} is none of it", (copy.call(*WORDS), copy.calls()), (RAN, ""))

    def test_a_build_that_fails(self):
        for status in ("1", "2"):
            copy = Copy(f"fails{status}")
            ran = copy.call(*WORDS, FAILS=status)
            self.same(f"rt's status {status} becomes 2", (ran.status, ran.out), (2, b""))
            self.holds("its words are on standard error",
                       b"a proof is open" in ran.err and b"rt run has not built" in ran.err, ran.err)
            copy.built().write("crates/low/src/lib.rt", "changed\n")
            ran = copy.call(*WORDS, FAILS=status)
            self.same(f"an old program isn't run after status {status}", (ran.status, ran.out), (2, b""))
        ran = Copy("empty", rt="#!/bin/bash\nexit 0\n").call(*WORDS)
        self.holds("rt that builds nothing", ran.status == 2 and not ran.out and b"isn't there" in ran.err, ran)

    def test_other_crates(self):
        """scripts/build builds each crate: a program with its words, or a static library."""
        copy = Copy("other crates")
        copy.write("crates/other/args", "list\nall of it\n")
        for crate, made, calls in [("other", "other", "rt run -- list all of it\n"), ("ffi", "libffi.a", "rt lib\n")]:
            path = copy.top / "crates" / crate / "out" / made
            told = Ran(0, f"{path}\n".encode(), b"")
            ran = copy.call(crate, script=BUILD)
            self.same(f"{crate}: where it is", (ran._replace(err=b""), path.is_file()), (told, True))
            self.same(f"{crate}: the call of rt", copy.calls(), calls)
            self.same(f"{crate}: a second time", (copy.call(crate, script=BUILD), copy.calls()), (told, ""))
            copy.write("crates/low/src/lib.rt", "changed\n")
            copy.call(crate, script=BUILD)
            self.same(f"{crate}: once a crate below has changed", copy.calls(), calls)
        for words in [[], [""], ["nothing"], ["low", "other"]]:
            self.same(f"{words} are refused", copy.call(*words, script=BUILD),
                      Ran(2, b"", b"usage: scripts/build CRATE\n"))

    def test_the_commit_is_named(self):
        """A program whose version has a line for it gets the commit that last changed what it is made of, once all of that
        is committed, and its length stays."""
        copy = Copy("named")
        for tool in ("git", "sed"):
            (copy.bin / tool).symlink_to(shutil.which(tool))
        copy.write("program", f"{SHOWS}# a program of this version:\n{UNKNOWN}\n")
        copy.write(".gitignore", "out/\ncalls\n")
        program = copy.top / "crates/fbcheck/out/fbcheck"

        def git(*words):
            by = ["-c", "user.name=a name", "-c", "user.email=a@b.example"]
            return subprocess.run(["git", *by, *words], cwd=copy.top, check=True, capture_output=True, text=True).stdout

        def named():
            copy.call("fbcheck", script=BUILD)
            return program.read_text().splitlines()[-1]

        self.same("without a history", named(), UNKNOWN)
        git("init", "--quiet")
        self.same("what isn't committed", named(), UNKNOWN)
        git("add", "--all")
        git("commit", "--quiet", "--message", "first")
        first = git("rev-parse", "HEAD").strip()
        copy.calls()
        self.same("once it is committed", (named(), copy.calls()), (f"commit {first}", ""))
        self.same("the rest stays", program.read_text(), copy.write("p", f"{SHOWS}# a program of this version:\n"
                                                                          f"commit {first}\n").read_text())
        (copy.top / "p").unlink()
        copy.write("README.md", "more\n")
        git("add", "--all")
        git("commit", "--quiet", "--message", "another page")
        copy.write("crates/low/src/lib.rt", "changed\n")
        self.same("a change that isn't committed", named(), UNKNOWN)
        git("checkout", "--quiet", "crates/low/src/lib.rt")
        self.same("of a commit that changed no crate the one before", named(), f"commit {first}")
        copy.write("crates/low/src/lib.rt", "changed\n")
        git("commit", "--quiet", "--all", "--message", "a change")
        self.same("of one that did", named(), f"commit {git('rev-parse', 'HEAD').strip()}")
        shallow = copy.top / "shallow"
        git("clone", "--quiet", "--depth", "1", f"file://{copy.top}", str(shallow))
        self.same("in a clone without the history", subprocess.run(
            [shallow / BUILD, "--commit", "fbcheck"], capture_output=True, text=True, env={"PATH": str(copy.bin)}).stdout,
            UNKNOWN.removeprefix("commit ") + "\n")

    def test_what_is_fresh(self):
        copy = Copy("fresh").built()
        fresh = lambda *words: copy.call("--fresh", copy.top / "crates/fbcheck/out/fbcheck", *words, script=BUILD)
        self.same("newer than its crate", (fresh("fbcheck"), copy.calls()), (Ran(0, b"", b""), ""))
        self.same("and than a folder", fresh("fbcheck", copy.top / "crates/other").status, 0)
        copy.write("crates/other/src/lib.rt", "changed\n")
        self.same("older than that", fresh("fbcheck", copy.top / "crates/other").status, 1)
        self.same("but not than its crate", fresh("fbcheck").status, 0)
        self.same("a file that isn't there", copy.call("--fresh", copy.top / "no", "fbcheck", script=BUILD).status, 1)

    @unittest.skipIf(PROGRAM != TOP / "crates/fbcheck/out/fbcheck", "another program is tested")
    def test_the_program_of_this_repository(self):
        """The real script, where the program is built: it runs that very program."""
        stream = (TOP / "examples/deliveries.bin").read_bytes()
        words = ["--schema", TOP / "examples/deliveries.bfbs", "--path", "to.name"]
        ran = subprocess.run([PROGRAM, *words], input=stream, capture_output=True, timeout=60)
        told = subprocess.run([TOP / "fbcheck", *words], input=stream, capture_output=True, timeout=600)
        self.same("./fbcheck says what the program says", (told.returncode, told.stdout), (ran.returncode, ran.stdout))
