"""Names of files in a list: `--files0-from`. Each ends with a zero byte, which the last may lack. What is told is what is
told of the same names as words; of a name that no word can be, why it is none."""

import json
import os
import random
import subprocess

from tests.support import schemas
from tests.support.buffers import NOTHING, ODD, SEVEN
from tests.support.cases import Case
from tests.support.program import (
    PROGRAM, SECONDS, Ran, file_of, folder_of, good, lines, refused, run, run_in_shell,
)

FOLDER = folder_of(__name__)
FILES = schemas.files()
BY_N = ("--schema", FILES["N"])
GOOD, BAD, CUT = file_of("g.bin", SEVEN), file_of("b.bin", NOTHING), file_of("c.bin", SEVEN + SEVEN[:-1])
MISSING = FOLDER / "gone.bin"
EMPTY_NAME, NOT_UTF_8 = "invalid zero-length file name", "file name isn't UTF-8"


def listed(names, last=b"\0"):
    """A list of these names, the last of which ends so."""
    return b"\0".join(map(os.fsencode, names)) + (last if names else b"")


def by(names, last=b"\0"):
    """The words for a list of these names."""
    return "--files0-from", file_of("names", listed(names, last))


def escaped(name):
    """A name as plain lines tell it."""
    return "".join(f"\\{chr(byte)}" if byte in b'"\\' else chr(byte) if 32 <= byte < 127 else f"\\x{byte:02x}"
                   for byte in os.fsencode(name))


class Files0(Case):
    def test_as_words(self):
        """Names in a list are gone through as those among the words."""
        every = [GOOD, BAD, CUT, MISSING, FOLDER, "-", "-", GOOD]
        for words in [(), ("-H",), ("--json",), ("--summary", "--quiet"), ("--filter",), ("--names", "--json", "-H"),
                      ("--csv", "-p", "v"), ("--csv", "-p", "v", "-H"), ("--csv", "-p", "v", "--max-bad", "1"),
                      ("--max-bad", "1"), ("--max-bad", "1", "--json"), ("--skip", "1"), ("--limit", "1")]:
            for names in [[GOOD], [BAD], [MISSING], ["-"], every, every[::-1]]:
                want = run(*BY_N, *words, *names, given=ODD)
                for last in b"\0", b"":
                    self.same(f"{words}, {names}, {last}", run(*BY_N, *words, *by(names, last), given=ODD), want)

    def test_no_names(self):
        """Nothing is read, and that is well."""
        for words in [(), ("-H",), ("--json",), ("--filter",), ("--bare",)]:
            self.same(str(words), run(*BY_N, *words, *by([]), given=NOTHING), good())
        self.same("a summary", run(*BY_N, "--summary", *by([]), given=NOTHING),
                  Ran(0, b"", lines("summary: messages=0 yes=0 no=0 bytes=0 tables=0 reads=0")))
        for words in [(), ("-H",)]:
            head = run(*BY_N, "--csv", "-p", "v", *words, given=b"").out
            self.same(f"a table with {words}", run(*BY_N, "--csv", "-p", "v", *words, *by([])), Ran(0, head, b""))
        self.same("a device that is empty", run(*BY_N, "--files0-from", "/dev/null", given=NOTHING), good())

    def test_names_of_no_file(self):
        told = f"{GOOD}: 1 ok tables=1 depth=1 reads=5"
        for name, data, want in [
            ("an empty name", listed(["", GOOD]), [f": {EMPTY_NAME}"]),
            ("several", listed(["", "", GOOD, ""]), [f": {EMPTY_NAME}"] * 3),
            ("a zero byte at the end beside that of the last", listed([GOOD]) + b"\0", [f": {EMPTY_NAME}"]),
            ("one that isn't UTF-8", listed([b"\xff/\x01", GOOD]), [rf"\xff/\x01: {NOT_UTF_8}"]),
            ("two", listed([b"a\xc3", GOOD, b"\xed\xa0\x80"]), [rf"a\xc3: {NOT_UTF_8}", rf"\xed\xa0\x80: {NOT_UTF_8}"]),
        ]:
            words = *BY_N, "--files0-from", file_of("names", data)
            self.same(name, run(*words), Ran(3, lines(told), lines(*[f"fbcheck: {text}" for text in want])))
        for data, want in [
            (b"\0", [{"file": "", "fault": EMPTY_NAME, "status": 3}]),
            (b"a\xc3", [{"file": {"bytes": "61c3"}, "fault": NOT_UTF_8, "status": 3}]),
        ]:
            ran = run(*BY_N, "--json", "--files0-from", file_of("names", data))
            self.same(f"{data!r} as JSON", (ran.status, ran.out, [json.loads(line) for line in ran.err.splitlines()]),
                      (3, b"", want))
        self.same("a summary behind it", run(*BY_N, "--summary", "--quiet", *by(["", GOOD])), Ran(3, b"", lines(
            f"fbcheck: : {EMPTY_NAME}", "summary: messages=1 yes=1 no=0 bytes=32 tables=1 reads=5")))
        self.same("an empty word is no list's name", run(*BY_N, ""), Ran(3, b"", lines("fbcheck: : no such file")))

    def test_odd_names(self):
        chance = random.Random(7)
        names = ["a b", "line\nbreak", "tab\t", "quote\"", "back\\slash", "J\u00fcrg \u2603", "\x7f", "-dash", ": "]
        for name in names:
            file_of(name, NOTHING)
        chance.shuffle(names)
        ran = run(*BY_N, *by(names), cwd=FOLDER)
        self.same("each is told in its order", ran, Ran(1, lines(
            *[f"{escaped(name)}: 1 bad V2 OutOfBuffer at=4 object=0 field=- reads=1" for name in names]), b""))

    def test_standard_input(self):
        """The list comes from there, which is at its end then."""
        given = listed([GOOD, "-", BAD])
        want = Ran(1, lines(f"{GOOD}: 1 ok tables=1 depth=1 reads=5",
                            f"{BAD}: 1 bad V2 OutOfBuffer at=4 object=0 field=- reads=1"), b"")
        self.same("a pipe", run(*BY_N, "--files0-from", "-", given=given), want)
        listed_file = file_of("names", listed([GOOD, BAD]))
        self.same("a file", run_in_shell(f"< '{listed_file}'", *BY_N, "--files0-from=-"), want)
        self.same("find", subprocess.run(
            ["sh", "-c", f"find '{FOLDER}' -name '[gb].bin' -print0 | sort -z -r | \"$0\" \"$@\"", PROGRAM, *BY_N,
             "--files0-from", "-"], capture_output=True, timeout=SECONDS).stdout, want.out)
        self.same("closed", run_in_shell("<&-", *BY_N, "--files0-from=-"),
                  refused("cannot read names -: no such file"))

    def test_lists_that_cannot_be_read(self):
        for name, file, why in [
            ("one that isn't there", MISSING, "no such file"), ("a folder", FOLDER, "is a directory"),
            ("one below a file", GOOD / "x", "not a directory"),
        ]:
            self.same(name, run(*BY_N, "--files0-from", file, given=SEVEN), refused(f"cannot read names {file}: {why}"))
        ran = run(*BY_N, "--json", "--files0-from", MISSING)
        self.same("as JSON", (ran.status, json.loads(ran.err)),
                  (2, {"fault": "cannot read names", "hint": f"{MISSING}: no such file", "status": 2}))
        self.same("beside files", run(*BY_N, *by([GOOD]), GOOD), refused("files0-from takes no files beside it"))

    def test_many_names(self):
        """5,000 files, told as a run for all of them as words tells them."""
        folder = FOLDER / "many names"
        folder.mkdir()
        names = []
        for number in range(5000):
            path = folder / f"{number}.bin"
            if number % 7:
                path.write_bytes(SEVEN if number % 5 else NOTHING)
            names.append(path)
        self.same("all of them", run(*BY_N, "--summary", *by(names)), run(*BY_N, "--summary", *names))
