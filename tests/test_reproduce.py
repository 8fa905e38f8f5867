"""The script scripts/reproduce: what it compares, what it says, and its status.

It runs in a small repository, in which the command rt is a script that makes a program of a file. That the program
itself is the same each time takes two builds to show, which scripts/reproduce does where it is called.
"""

import hashlib
import os
import shutil
import subprocess

from tests.support.cases import Case
from tests.support.program import PROGRAM, TOP, file_of, folder_of
from tests.support.scripts import Scripts

FOLDER = folder_of(__name__)

# Stands for rt: the program is a file of the sources, with what the variable ADDS names in the place where it's built.
RT = """#!/bin/bash
[ "$1" != version ] || { echo "a kit"; exit; }
echo "rt $* in $PWD, $(umask), $TZ, $LC_ALL" >> "$CALLS"
[ -z "${FAILS:-}" ] || { echo "a proof is open"; exit 1; }
mkdir -p out
{ cat src/main.rt; [ -z "${ADDS:-}" ] || eval "echo \\"# $ADDS\\""; } > out/fbcheck
chmod +x out/fbcheck
"""
SOURCE = "#!/bin/bash\necho the program\n"


class Repository(Scripts):
    """A repository with the scripts and one file of sources, and its own rt."""

    def __init__(self, name, committed=True):
        super().__init__(name, ["scripts/build", "scripts/reproduce", ".gitignore"])
        self.write("crates.txt", "fbcheck:\n")
        self.write("crates/fbcheck/stdin", "")
        self.source = self.write("crates/fbcheck/src/main.rt", SOURCE)
        self.rt = self.write("bin/rt", RT)
        self.calls = FOLDER / f"{name} calls"
        if committed:
            self.git("init", "--quiet")
            self.git("add", ".")
            self.git("-c", "user.name=a", "-c", "user.email=a@example.org", "commit", "--quiet", "-m", "all")

    def git(self, *words):
        return subprocess.run(["git", *words], cwd=self.top, check=True, capture_output=True, text=True).stdout

    def call(self, *words, path=None, **more):
        """The status of a call, the lines that it prints, and what it tells."""
        environment = {**os.environ, "CALLS": str(self.calls), **more}
        environment["PATH"] = path or f"{self.bin}:{os.environ['PATH']}"
        ran = subprocess.run([self.top / "scripts/reproduce", *words], capture_output=True, text=True, timeout=60,
                             cwd=self.top, env=environment)
        return ran.returncode, ran.stdout.splitlines(), ran.stderr


def sum_of(data):
    return hashlib.sha256(data.encode()).hexdigest()


def sums_of(lines):
    return [line.split()[0] for line in lines[1:-1]]


class Reproduce(Case):
    def test_two_builds(self):
        here = Repository("two")
        status, lines, err = here.call()
        self.same("the same", (status, lines[-1]), (0, "the same"))
        self.same("commit and kit", lines[0], f"commit {here.git('rev-parse', 'HEAD').strip()}, a kit")
        self.same("both sums", sums_of(lines), [sum_of(SOURCE)] * 2)
        calls = here.calls.read_text().splitlines()
        self.same("rt is called twice", [call.split(" in ")[0] for call in calls], ["rt run"] * 2)
        differing = [len({call.split(" in ")[1].split(", ")[place] for call in calls}) for place in range(4)]
        self.same("in other folders, with other masks, times and languages", differing, [2] * 4)
        folders = [call.split(" in ")[1].split(",")[0] for call in calls]
        self.same("which are gone, with all that was in them", [os.path.exists(folder) for folder in folders],
                  [False] * 2)
        left = [(here.top / f"out/reproduced-{number}").read_text() for number in (1, 2)]
        self.same("the programs are left in out", left, [SOURCE] * 2)
        self.same("and nothing else has changed", here.git("status", "--porcelain"), "")

    def test_builds_that_differ(self):
        for name, adds in [("the folder", "$PWD"), ("the time", "$(date +%N)"), ("the mask", "$(umask)"),
                           ("the language", "$LC_ALL"), ("the zone", "$TZ")]:
            status, lines, _ = Repository(f"differs by {name}").call(ADDS=adds)
            self.same(f"{name} in the program", (status, lines[-1], len(set(sums_of(lines)))), (1, "they differ", 2))

    def test_a_program_from_elsewhere(self):
        here = Repository("elsewhere")
        file = file_of("downloaded", SOURCE.encode())
        status, lines, _ = here.call(file)
        self.same("the same", (status, lines[-1], sums_of(lines)), (0, "the same", [sum_of(SOURCE)] * 2))
        self.same("is told by its name", lines[1], f"{sum_of(SOURCE)}  {file}")
        self.same("of one build", here.calls.read_text().count("rt run"), 1)
        other = file_of("bent", SOURCE.replace("the", "a").encode())
        status, lines, _ = here.call(other)
        self.same("another", (status, lines[-1], len(set(sums_of(lines)))), (1, "they differ", 2))

    def test_what_is_committed(self):
        here = Repository("committed")
        here.source.write_text(SOURCE + "# changed\n")
        status, lines, err = here.call()
        self.same("what isn't committed is left out", (status, sums_of(lines)), (0, [sum_of(SOURCE)] * 2))
        self.same("and that is told", err.splitlines()[0], "reproduce: what isn't committed here is left out")

    def test_what_can_not_be_told(self):
        here = Repository("faults")
        for name, words, more, text in [
            ("two words", ["a", "b"], {}, "usage: scripts/reproduce [FILE]"),
            ("no such file", ["nothing"], {}, "there is no file nothing"),
            ("a folder", ["crates"], {}, "there is no file crates"),
            ("a build that fails", [], {"FAILS": "1"}, "has failed; what it says stands above"),
            ("no room for a clone", [], {"TMPDIR": "/dev/null"}, "no folder for the builds can be made"),
        ]:
            status, lines, err = here.call(*words, **more)
            self.same(f"{name}: the status", (status, len(lines) <= 1), (2, True))
            self.holds(f"{name}: is told", text in err, err)
        outer = Repository("no clone", committed=False)
        status, lines, err = outer.call(GIT_CEILING_DIRECTORIES=str(FOLDER))
        self.same("a folder without a repository", (status, lines), (2, []))
        self.holds("is told", "isn't a clone of the repository" in err, err)
        here.rt.unlink()
        status, _, err = here.call(path="/usr/bin:/bin")
        if not shutil.which("rt", path="/usr/bin:/bin"):
            self.same("no rt", (status, "rt is needed" in err), (2, True))

    def test_the_program_names_no_folder(self):
        """The program itself holds nothing of the places where it was built."""
        data = PROGRAM.read_bytes()
        for name in (str(TOP), "crates/", "/out/"):
            self.holds(f"{name} isn't in it", name.encode() not in data)
