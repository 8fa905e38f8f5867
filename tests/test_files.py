"""Files as arguments: each is told as a run over it alone tells it, behind its name where there are several."""

import itertools
import os
import random
import re
import subprocess
import time

from tests.support import schemas
from tests.support.buffers import NOTHING, ODD, ORC, SEVEN
from tests.support.builder import spelled
from tests.support.cases import Case
from tests.support.header import Reason
from tests.support.preloaded import narrowed
from tests.support.program import (
    FULL, NOT_UTF_8, NO_BYTES, PROGRAM, SECONDS, SHIFTED, Ran, Talk, failed, file_of, folder_of, lines, overlong,
    refused, rootless, run, run_in_shell, run_starved, schemaless,
)

FOLDER = folder_of(__name__)
FILES = schemas.files()
BY_M = ("--schema", FILES["M"], "--bare")
BY_N = ("--schema", FILES["N"])

GOOD = file_of("good.bin", SEVEN)
BAD = file_of("bad.bin", NOTHING)
CUT = file_of("cut.bin", SEVEN + ODD + SEVEN[:-1])
LONG = file_of("long.bin", SEVEN + spelled("ffffffff") + SEVEN)
EMPTY = file_of("empty.bin", b"")
MIXED = file_of("mixed.bin", SEVEN + ODD + NOTHING + SEVEN)
MISSING = FOLDER / "missing.bin"

TOLD_MISSING = f"{MISSING}: no such file"
SUM = re.compile(r" (\w+)=(\d+)")


def told(name):
    """A name as it is told: a quote and a backslash behind a backslash, and what isn't printable in hexadecimal."""
    return "".join(
        f"\\{byte:c}" if byte in b'"\\' else chr(byte) if 32 <= byte <= 126 else f"\\x{byte:02x}"
        for byte in os.fsencode(name))


def named(name, text):
    """These lines behind the name."""
    return b"".join(f"{told(name)}: ".encode() + line for line in text.splitlines(keepends=True))


def alone(name, words, given):
    """What a run over one file alone tells, as a run over several tells it: by a run over standard input."""
    if name != "-":
        try:
            with open(name, "rb") as file:
                given = file.read()
        except FileNotFoundError:
            return Ran(3, b"", lines(f"fbcheck: {told(name)}: no such file"))
        except IsADirectoryError:
            return Ran(3, b"", lines(f"fbcheck: {told(name)}: is a directory"))
    ran = run(*words, given=given)
    err = re.sub(rb"(?m)^(\d)", lambda line: told(name).encode() + b": " + line[1], ran.err)
    err = re.sub(rb"(?m)^fbcheck: ", lambda _: f"fbcheck: {told(name)}: ".encode(), err)
    return Ran(ran.status, ran.out if "--filter" in words else named(name, ran.out), err)


def each(words, names, given=b""):
    """What a run over several files tells, by a run for each."""
    ran = [alone(name, words, given) for name in names]
    return Ran(max(one.status for one in ran), b"".join(one.out for one in ran), b"".join(one.err for one in ran))


class Files(Case):
    def test_one_file_is_told_without_its_name(self):
        for name, file in [("good", GOOD), ("bad", BAD), ("mixed", MIXED), ("empty", EMPTY)]:
            for words in [BY_N, (*BY_N, "--filter"), (*BY_N, "--quiet", "--summary"), (*BY_N, "--bare", "--names")]:
                want = run(*words, given=file.read_bytes())
                self.same(f"{name}, {words[2:]}", run(*words, file), want)
                self.same(f"{name}, {words[2:]}, before the options", run(file, *words), want)
                self.same(f"{name}, {words[2:]}, as standard input", run(*words, "-", given=file.read_bytes()), want)
        self.same("a cut one", run(*BY_N, CUT), failed(
            f"{CUT}: stream: S2 Truncated held=31", "1 ok tables=1 depth=1 reads=5",
            "2 bad V3 Misaligned at=7 object=0 field=- reads=3"))
        self.same("one that isn't there", run(*BY_N, MISSING), failed(TOLD_MISSING))

    def test_how_one_file_gets_its_name(self):
        """What the page says of names and of `xargs`."""
        orc = file_of("orc.bin", ORC)
        for name, words in [
            ("beside an empty stream", (*BY_N, BAD, "/dev/null")),
            ("beside a good file, with --bare", (*BY_M, "--quiet", BAD, orc)),
            ("behind --, where a name begins with a dash", (*BY_N, "--", BAD.name, "-dash.bin")),
            ("with -H", (*BY_N, "-H", BAD)),
            ("with --with-filename", (BAD, *BY_N, "--with-filename")),
        ]:
            file_of("-dash.bin", b"")
            ran = run(*words, cwd=FOLDER)
            names = {line.partition(b": ")[0] for line in ran.out.splitlines()}
            self.same(name, (ran.status, {os.path.basename(name) for name in names}, ran.err), (1, {b"bad.bin"}, b""))
        for name, file, status in [
            ("a bad file", BAD, 123), ("one that isn't there", MISSING, 123), ("a good one", GOOD, 0)
        ]:
            ran = subprocess.run(["xargs", "-n", "1", PROGRAM, *BY_N, "--summary"], input=f"{GOOD}\n{file}\n".encode(),
                                 capture_output=True, timeout=SECONDS)
            self.same(f"{name}: the status of xargs", ran.returncode, status)
            self.same(f"{name}: the summaries", ran.stderr.count(b"summary: "), 2)

    def test_names_of_one_file_and_of_standard_input(self):
        for words in [BY_N, (*BY_N, "--quiet"), (*BY_N, "--names"), (*BY_N, "--path", "v"), (*BY_N, "--filter"),
                      (*BY_N, "--json"), (*BY_N, "--bare"), (*BY_N, "--quiet", "--summary")]:
            for name, file in [("good", GOOD), ("bad", BAD), ("mixed", MIXED), ("empty", EMPTY), ("cut", CUT)]:
                many, given = run(*words, file, MISSING), file.read_bytes()
                one = run(*words, "-H", file)
                self.same(f"{name}, {words[2:]}", one.out, many.out)
                self.same(f"{name}, {words[2:]}, as standard input", run(*words, "-", "-H", given=given).out,
                          one.out.replace(str(file).encode(), b"-"))
                self.same(f"{name}, {words[2:]}, where no file is named", run(*words, "-H", given=given).out,
                          one.out.replace(str(file).encode(), b"-"))
        self.same("several files have names anyhow", run(*BY_N, "-H", GOOD, BAD), run(*BY_N, GOOD, BAD))
        self.same("a filter's bad lines", run(*BY_N, "--filter", "-H", given=NOTHING).err,
                  lines("-: 1 bad V2 OutOfBuffer at=4 object=0 field=- reads=1"))
        self.same("a fault of standard input has no name", run(*BY_N, "-H", given=SEVEN + SEVEN[:-1]), failed(
            "stream: S2 Truncated held=31", "-: 1 ok tables=1 depth=1 reads=5"))
        self.same("that of the file - has", run(*BY_N, "-H", "-", given=SEVEN + SEVEN[:-1]), failed(
            "-: stream: S2 Truncated held=31", "-: 1 ok tables=1 depth=1 reads=5"))
        self.same("as JSON", run(*BY_N, "-H", "--json", given=SEVEN).out,
                  lines('{"file":"-","message":1,"begin":0,"bytes":32,"ok":true,"tables":1,"depth":1,"reads":5}'))
        self.same("twice", run(*BY_N, "-H", "-H", given=SEVEN).status, 2)

    def test_several_files(self):
        self.same("good and bad", run(*BY_N, GOOD, BAD), Ran(1, lines(
            f"{GOOD}: 1 ok tables=1 depth=1 reads=5",
            f"{BAD}: 1 bad V2 OutOfBuffer at=4 object=0 field=- reads=1"), b""))
        self.same("messages are numbered anew", run(*BY_N, MIXED, GOOD, MIXED).out.count(b": 1 ok "), 3)
        every = [GOOD, BAD, CUT, LONG, EMPTY, MIXED, MISSING, FOLDER]
        for words in [BY_N, (*BY_N, "--filter"), (*BY_N, "--quiet"), (*BY_N, "--names"), (*BY_N, "--path", "v"),
                      (*BY_N, "--bare"), (*BY_N, "--bare", "--filter")]:
            for names in itertools.permutations(every, 2):
                self.same(f"{words[2:]}, {[name.name for name in names]}", run(*words, *names), each(words, names))
            self.same(f"{words[2:]}, all", run(*words, *every * 2), each(words, every * 2))

    def test_as_a_run_for_each(self):
        chance = random.Random(43)
        parts = [SEVEN, ODD, NOTHING]
        for case in range(60):
            files = [
                file_of(f"{case}-{number}.bin", b"".join(chance.choices(parts, k=chance.randrange(5)))
                        + SEVEN[:chance.choice([0, 0, 0, 3, 31])])
                for number in range(chance.randrange(2, 8))]
            names = chance.sample([*files, MISSING, "-"], k=chance.randrange(2, len(files) + 2))
            given = b"".join(chance.choices(parts, k=chance.randrange(4)))
            words = (*BY_N, *chance.choice([(), ("--filter",), ("--quiet",), ("--names",)]))
            self.same(f"case {case}", run(*words, *names, given=given), each(words, names, given))

    def test_names_that_would_break_a_line(self):
        odd = [file_of(name, NOTHING) for name in
               ["a b", "line\nbreak", "tab\t", "quote\"", "back\\slash", "J\u00fcrg", "\x7f", "\x1b[31m", "-n", ": "]]
        for name in odd:
            self.same(f"{name.name!r}", run(*BY_N, name, EMPTY), Ran(1, lines(
                f"{told(name)}: 1 bad V2 OutOfBuffer at=4 object=0 field=- reads=1"), b""))
            self.same(f"{name.name!r} that isn't there", run(*BY_N, f"{name}/x", EMPTY),
                      failed(f"{told(name)}/x: not a directory"))
        self.same("an empty name", run(*BY_N, "", EMPTY), failed(": no such file"))
        self.same("one that begins as an option", run(*BY_N, "--", "-n", GOOD, cwd=FOLDER), Ran(1, lines(
            "-n: 1 bad V2 OutOfBuffer at=4 object=0 field=- reads=1", f"{GOOD}: 1 ok tables=1 depth=1 reads=5"), b""))
        self.same("one that isn't UTF-8", run(*BY_N, b"\xff", GOOD), refused(
            rf"a word is not UTF-8: number 3, \xff; {NOT_UTF_8}"))

    def test_long_names(self):
        """Names and words as long as the system takes them: none is told as want of memory."""
        good, bad, empty = (f"{FOLDER}/{'./' * 1_500}{file.name}" for file in (GOOD, BAD, EMPTY))
        self.same("names of files", run(*BY_N, good, bad), Ran(1, lines(
            f"{good}: 1 ok tables=1 depth=1 reads=5",
            f"{bad}: 1 bad V2 OutOfBuffer at=4 object=0 field=- reads=1"), b""))
        self.same("as JSON", run(*BY_N, "--json", good, bad), Ran(1, lines(
            f'{{"file":"{good}","message":1,"begin":0,"bytes":32,"ok":true,"tables":1,"depth":1,"reads":5}}',
            f'{{"file":"{bad}","message":1,"begin":0,"bytes":{len(NOTHING)},"ok":false,"code":"V2","reason":"OutOfBuffer",'
            '"at":4,"object":"N","field":null,"reads":1,"place":"."}'), b""))
        self.same("one that gives no schema", run("--schema", empty, GOOD),
                  schemaless("L1 V2 OutOfBuffer at=4 object=9 field=- reads=0", empty, NO_BYTES))
        long = "x" * 131_071
        self.same("a file", run(*BY_N, long, GOOD), failed(
            f"{long}: invalid file name", f"{GOOD}: 1 ok tables=1 depth=1 reads=5"))
        self.same("a schema file", run("--schema", long), refused(f"cannot read schema {long}: invalid file name"))
        self.same("a root", run(*BY_N, "--root", long), rootless(long, "N"))
        self.same("a path beside another", run(*BY_N, "--path", "v", "--path", long),
                  refused(f"path: P2 NoSuchField step=0 in {long}; fields: v"))

    def test_files_that_cannot_be_read(self):
        loop = FOLDER / "loop"
        loop.symlink_to(loop)
        cases = [
            ("one that isn't there", MISSING, TOLD_MISSING),
            ("a folder", FOLDER, f"{FOLDER}: is a directory"),
            ("one below a file", GOOD / "x", f"{GOOD / 'x'}: not a directory"),
            ("a link to itself", loop, f"{loop}: too many links"),
            ("a name that is too long", FOLDER / ("x" * 300), f"{FOLDER / ('x' * 300)}: invalid file name"),
        ]
        if os.geteuid():
            locked = file_of("locked.bin", SEVEN)
            locked.chmod(0)
            cases.append(("a locked one", locked, f"{locked}: permission denied"))
        for name, file, text in cases:
            self.same(name, run(*BY_N, file), failed(text))
            self.same(f"{name}, among others", run(*BY_N, GOOD, file, BAD), Ran(3, lines(
                f"{GOOD}: 1 ok tables=1 depth=1 reads=5",
                f"{BAD}: 1 bad V2 OutOfBuffer at=4 object=0 field=- reads=1"), lines(f"fbcheck: {text}")))
        self.same("one whose reads fail", run(*BY_N, "/proc/self/mem", GOOD),
                  failed("/proc/self/mem: read failed", f"{GOOD}: 1 ok tables=1 depth=1 reads=5"))

    def test_standard_input_among_files(self):
        for names in [["-", GOOD], [GOOD, "-"], [BAD, "-", GOOD], [MISSING, "-", CUT]]:
            for given in [b"", SEVEN, SEVEN + ODD, SEVEN[:5]]:
                self.same(f"{names}, {len(given)} bytes", run(*BY_N, *names, given=given), each(BY_N, names, given))
        again = "fbcheck: -: standard input was read before"
        self.same("twice", run(*BY_N, "-", "-", given=SEVEN), Ran(3, lines("-: 1 ok tables=1 depth=1 reads=5"), lines(again)))
        self.same("twice, with files between", run(*BY_N, "-", GOOD, "-", BAD, given=NOTHING), Ran(3, lines(
            "-: 1 bad V2 OutOfBuffer at=4 object=0 field=- reads=1", f"{GOOD}: 1 ok tables=1 depth=1 reads=5",
            f"{BAD}: 1 bad V2 OutOfBuffer at=4 object=0 field=- reads=1"), lines(again)))
        self.same("none of it where it isn't named", run_in_shell("<&-", *BY_N, GOOD),
                  Ran(0, lines("1 ok tables=1 depth=1 reads=5"), b""))
        with Talk(*BY_N, GOOD, "-", BAD) as talk:
            self.same("the lines before it come first", talk.hear(), lines(f"{GOOD}: 1 ok tables=1 depth=1 reads=5"))
            talk.say(SEVEN)
            self.same("its lines come at once", talk.hear(), lines("-: 1 ok tables=1 depth=1 reads=5"))
            self.same("the rest behind its end", talk.end(), Ran(1, lines(
                f"{BAD}: 1 bad V2 OutOfBuffer at=4 object=0 field=- reads=1"), b""))

    def test_each_file_is_opened_once(self):
        """The schema file first, and each that is named when its turn comes; standard input isn't opened at all."""
        names = [GOOD, BAD, MISSING, "-", CUT, GOOD, FOLDER, "-", LONG]
        report = file_of("opens", b"")
        for words in [BY_N, (*BY_N, "--quiet"), (*BY_N, "--filter"), (*BY_N, "--bare")]:
            narrowed(*words, *names, given=SEVEN, opened=report)
            self.same(words[2:], report.read_text().splitlines(),
                      [str(name) for name in [BY_N[1], *names] if name != "-"])
        narrowed(*BY_N, given=SEVEN, opened=report)
        self.same("none is named", report.read_text(), f"{BY_N[1]}\n")

    def test_files_of_misaligned_messages(self):
        odd, both = file_of("odd.bin", ODD + ODD), file_of("both.bin", ODD + NOTHING)
        wrong = "bad V3 Misaligned at=7 object=0 field=- reads=3"
        self.same("it alone", run(*BY_N, "--quiet", odd), Ran(1, lines(f"1 {wrong}", f"2 {wrong}"),
                                                              lines(f"fbcheck: {odd}: {SHIFTED}")))
        self.same("among others", run(*BY_N, "--filter", GOOD, odd, both), Ran(1, SEVEN, lines(
            f"{odd}: 1 {wrong}", f"{odd}: 2 {wrong}", f"fbcheck: {odd}: {SHIFTED}", f"{both}: 1 {wrong}",
            f"{both}: 2 bad V2 OutOfBuffer at=4 object=0 field=- reads=1")))
        self.same("where that can't be told", run_in_shell("2>/dev/full", *BY_N, odd, GOOD), Ran(1, lines(
            f"{odd}: 1 {wrong}", f"{odd}: 2 {wrong}", f"{GOOD}: 1 ok tables=1 depth=1 reads=5"), b""))

    def test_bare_files(self):
        orc, half = file_of("orc.bin", ORC), file_of("half.bin", ORC[:31])
        self.same("each is a buffer", run(*BY_M, orc, half, orc), Ran(1, lines(
            f"{orc}: 1 ok tables=1 depth=1 reads=8", f"{half}: 1 bad V2 OutOfBuffer at=28 object=0 field=1 reads=7",
            f"{orc}: 1 ok tables=1 depth=1 reads=8"), b""))
        self.same("with values", run(*BY_M, "--path", "name", orc, orc), Ran(0, lines(
            *[f'{orc}: 1 ok tables=1 depth=1 reads=8 "Orc"'] * 2), b""))
        self.same("passed on", run(*BY_M, "--filter", orc, half, orc), Ran(1, ORC + ORC, lines(
            f"{half}: 1 bad V2 OutOfBuffer at=28 object=0 field=1 reads=7")))
        self.same("too long ones", run(*BY_M, "--max-bytes", "31", orc, half), Ran(3, lines(
            f"{half}: 1 bad V2 OutOfBuffer at=28 object=0 field=1 reads=7"),
            lines(f"fbcheck: {orc}: {overlong(31)}")))

    def test_sums(self):
        every = [GOOD, BAD, MIXED, EMPTY, CUT, MISSING, LONG, GOOD]
        for names in itertools.chain(itertools.permutations(every[:5], 3), [every, every * 3]):
            sums = {}
            for name in names:
                if name != MISSING:
                    last = run(*BY_N, "--summary", given=name.read_bytes()).err.decode().splitlines()[0]
                    for key, count in SUM.findall(last):
                        sums[key] = sums.get(key, 0) + int(count)
            reasons = [f"V{number}" for number in Reason if f"V{number}" in sums]
            keys = ["messages", "yes", "no", *reasons, "bytes", "tables", "reads"]
            want = each(BY_N, names)
            line = "summary: " + " ".join(f"{key}={sums[key]}" for key in keys)
            self.same(f"{[name.name for name in names]}", run(*BY_N, "--summary", *names),
                      want._replace(err=want.err + lines(line)))

    def test_what_ends_it_all(self):
        unwritten = Ran(3, b"", lines(FULL))
        self.same("a failed write", run_in_shell(">/dev/full", *BY_N, GOOD, BAD), unwritten)
        self.same("none behind it", run_in_shell(">/dev/full", *BY_N, GOOD, MISSING), unwritten)
        self.same("what was told before", run_in_shell(">/dev/full", *BY_N, MISSING, GOOD, MISSING),
                  Ran(3, b"", lines(f"fbcheck: {TOLD_MISSING}", FULL)))
        self.same("a fault that can't be told", run_in_shell("2>/dev/full", *BY_N, GOOD, MISSING, GOOD),
                  Ran(3, lines(f"{GOOD}: 1 ok tables=1 depth=1 reads=5"), b""))
        self.same("a failed note of a filter", run_in_shell("2>/dev/full", *BY_N, "--filter", GOOD, BAD, GOOD),
                  Ran(3, SEVEN, b""))
        self.same("want of memory", run_starved(*BY_N, "--max-bytes", "67108864", file_of(
            "huge.bin", spelled("00000003") + bytes(1 << 25)), GOOD).status, 3)

    def test_what_is_wrong_before_any_file(self):
        for name, words, want in [
            ("no schema", ("--schema", "/dev/null"),
             schemaless("L1 V2 OutOfBuffer at=4 object=9 field=- reads=0", "/dev/null", NO_BYTES)),
            ("no root", (*BY_N, "--root", "Q"), rootless("Q", "N")),
        ]:
            self.same(name, run(*words, GOOD, MISSING), want)

    def test_many_small_files(self):
        """10,000 files take at most four times what `cat` takes, and 16 MiB suffice for them, as for one."""
        folder = FOLDER / "many"
        folder.mkdir()
        for number in range(10_000):
            (folder / f"{number:05}.bin").write_bytes(ORC)
        names = [f"{number:05}.bin" for number in range(10_000)]
        want = b"".join(f"{name}: 1 ok tables=1 depth=1 reads=8\n".encode() for name in names)
        self.same("all of them", run(*BY_M, *names, cwd=folder), Ran(0, want, b""))
        self.same("all of them in 16 MiB", run_starved(*BY_M, *names, cwd=folder), Ran(0, want, b""))
        ours = seconds(PROGRAM, *BY_M, *names, cwd=folder)
        cats = seconds("cat", *names, cwd=folder)
        self.holds("their time beside cat", ours <= 4 * cats, (ours, cats))


def seconds(*words, **how):
    """How long a run takes, the least of some."""
    took = []
    for _ in range(7):
        begun = time.monotonic()
        subprocess.run(words, stdin=subprocess.DEVNULL, stdout=subprocess.DEVNULL, timeout=SECONDS, check=True, **how)
        took.append(time.monotonic() - begun)
    return min(took)
