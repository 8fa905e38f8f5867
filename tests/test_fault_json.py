"""Faults as lines of JSON: with `--json` each that the program tells on standard error is one object, and so is a hint
behind a good end. Faults of the words stay plain text."""

import json
import re
import subprocess

from tests.support import schemas
from tests.support.buffers import NOTHING, ODD, ORC, SEVEN
from tests.support.cases import Case
from tests.support.json_lines import pairs
from tests.support.preloaded import ALONE, WITH_LATER, sweep
from tests.support.program import PROGRAM, Ran, file_of, folder_of, lines, run, run_in_shell, run_unread
from tests.test_hints import ROWS

FOLDER = folder_of(__name__)
FILES = schemas.files()
BY_N = ("--schema", FILES["N"], "--json")
BY_M = ("--schema", FILES["M"], "--json", "--bare")
GOOD, CUT = file_of("whole.bin", SEVEN), file_of("half.bin", SEVEN + ODD + SEVEN[:-1])
SHIFTED = file_of("shifted.bin", ODD)
MISSING = FOLDER / "none.bin"
STRAY = ("no good message came before: --bare is for a buffer without a prefix, --delimited for prefixes outside the "
         "buffers, --delimited-be for big-endian ones, --skip for a header")
MISALIGNED = "each message is misaligned: --delimited is for prefixes outside the buffers"
OK = '{"message":1,"begin":0,"bytes":32,"ok":true,"tables":1,"depth":1,"reads":5}'


def said(fault, hint="", status=3, file=None):
    """The line of a fault, its members in their order."""
    members = {"file": file, "fault": fault, "hint": hint, "status": status}
    return json.dumps({key: value for key, value in members.items() if value not in ("", None)},
                      ensure_ascii=False, separators=(",", ":"))


def hinted(hint, file=None):
    """The line of a hint."""
    return json.dumps({"hint": hint} if file is None else {"file": file, "hint": hint}, separators=(",", ":"))


def unjoined(hint):
    """What a hint says, without what joins it to a fault's text."""
    return re.sub("^[,:;]? ?", "", hint)


class FaultJson(Case):
    def test_each_fault_with_its_hint(self):
        for name, words, given, text, hint in ROWS:
            told = run(*words, "--json", given=given)
            if hint is None:
                want = ""
            elif not text:
                want = hinted(hint) + "\n"
            elif "UTF-8" in text:
                want = f"fbcheck: {text}{hint}\n"
            else:
                want = said(text, unjoined(hint), told.status) + "\n"
            self.same(name, told.err.decode(), want)
            self.same(f"{name}: the status", told.status, run(*words, given=given).status)
            if want and "UTF-8" not in text:
                self.same(f"{name} is read", list(json.loads(told.err, object_pairs_hook=pairs))[-1],
                          "status" if text else "hint")

    def test_faults_of_standard_input(self):
        told = lines(OK)
        for name, words, given, want in [
            ("a cut stream", BY_N, SEVEN + b"\0", Ran(3, told, lines(said("stream: S2 Truncated held=1")))),
            ("a cut stream without a good message", BY_N, b"\0",
             Ran(3, b"", lines(said("stream: S2 Truncated held=1", STRAY)))),
            ("a long message", (*BY_N, "--max-bytes", "32"), SEVEN + b"\x21\0\0\0", Ran(3, told, lines(
                said("stream: S1 Oversize declared=33", "--max-bytes allows longer messages")))),
            ("a long bare input", (*BY_M, "--max-bytes", "8"), ORC, Ran(3, b"", lines(
                said("input longer than 8 bytes", "--max-bytes allows longer ones")))),
            ("with the name of standard input", (*BY_N, "-H"), b"\0",
             Ran(3, b"", lines(said("stream: S2 Truncated held=1", STRAY)))),
            ("a summary before it", (*BY_N, "--summary", "--quiet"), SEVEN + b"\0", Ran(3, b"", lines(
                '{"messages":1,"yes":1,"no":0,"bytes":32,"tables":1,"reads":5}', said("stream: S2 Truncated held=1")))),
            ("a hint behind a filter's line", (*BY_N, "--filter"), ODD, Ran(1, b"", lines(
                '{"message":1,"begin":0,"bytes":32,"ok":false,"code":"V3","reason":"Misaligned","at":7,"object":"N",'
                '"field":null,"reads":3,"place":"."}', hinted(MISALIGNED)))),
            ("a schema file that isn't there", ("--schema", MISSING, "--json"), b"", Ran(2, b"", lines(
                said("cannot read schema", f"{MISSING}: no such file", 2)))),
            ("no such path", (*BY_N, "--path", "w"), b"", Ran(2, b"", lines(
                said("path: P2 NoSuchField step=0", "fields: v", 2)))),
        ]:
            self.same(name, run(*words, given=given), want)
        self.same("a full device", run_in_shell(">/dev/full", *BY_N, given=SEVEN),
                  Ran(3, b"", lines(said("write failed after 0 bytes: no storage space"))))
        self.same("a pipe that nobody reads", run_unread(*BY_N, given=SEVEN), Ran(3, b"", b""))
        self.same("closed standard input", run_in_shell("<&-", *BY_N), Ran(3, b"", lines(said("read failed"))))

    def test_faults_of_the_words_stay_plain(self):
        for name, words, want in [
            ("an identifier", ("--ident", "ABC"), "fbcheck: ident must be four bytes\n"),
            ("a path twice", ("--path", "v", "--path", "v"), "fbcheck: the same path twice\n"),
            ("a word that isn't UTF-8", (b"\xff",), None),
            ("a word that clap refuses", ("--nothing",), None),
        ]:
            ran, plain = run(*BY_N, *words), run(*BY_N[:2], *words)
            self.same(name, (ran.status, ran.out), (2, b""))
            if want:
                self.same(f"{name}: the text", ran.err.decode(), want)
            else:
                self.holds(f"{name}: the text", b"{" not in ran.err and len(ran.err) > 20, (ran.err, plain.err))

    def test_faults_of_files(self):
        names = [GOOD, CUT, MISSING, FOLDER, SHIFTED, "-", "-"]
        ran = run(*BY_N, "--quiet", *names, given=SEVEN)
        self.same("standard error", ran.err, lines(
            said("stream: S2 Truncated held=31", file=str(CUT)),
            said("no such file", file=str(MISSING)),
            said("is a directory", file=str(FOLDER)),
            hinted(MISALIGNED, file=str(SHIFTED)),
            said("standard input was read before", file="-"),
        ))
        self.same("the status", ran.status, 3)
        self.same("one file", run(*BY_N, MISSING), Ran(3, b"", lines(said("no such file", file=str(MISSING)))))
        self.same("one file with a hint", run(*BY_N, file_of("astray.bin", b"\0")), Ran(3, b"", lines(
            said("stream: S2 Truncated held=1", STRAY, file=str(FOLDER / "astray.bin")))))
        self.same("an empty name", run(*BY_N, ""), Ran(3, b"", lines('{"file":"","fault":"no such file","status":3}')))

    def test_names_of_files(self):
        """A name is told as lines of JSON tell it."""
        for name in ["a b", "line\nbreak", "tab\t", "quote\"", "back\\slash", "J\u00fcrg \u2603 \U0001f600", "\x7f", "\x1b[31m", ": "]:
            path = str(FOLDER / f"not there {name}")
            told = run(*BY_N, path).err
            self.same(f"{name!r} is one line", (told.count(b"\n"), told[-1:]), (1, b"\n"))
            self.same(f"{name!r} is read", json.loads(told), {"file": path, "fault": "no such file", "status": 3})
            bad = file_of(name, NOTHING)
            self.same(f"{name!r} as in lines", json.loads(run(*BY_N, bad, GOOD).out.splitlines()[0])["file"], str(bad))

    def test_want_of_memory(self):
        """Where there is no memory for the object, the plain line is written."""
        for name, words, given, told, plain in [
            ("a stream", BY_N, b"\0", said("stream: S2 Truncated held=1", STRAY),
             f"fbcheck: stream: S2 Truncated held=1; {STRAY}"),
            ("a file", (*BY_N, MISSING), b"", said("no such file", file=str(MISSING)),
             f"fbcheck: {MISSING}: no such file"),
            ("a hint", BY_N, ODD, hinted(MISALIGNED), f"fbcheck: {MISALIGNED}"),
        ]:
            none = ["fbcheck: out of memory", said("out of memory")]
            for extent in ALONE, WITH_LATER:
                ends = {ran.err.decode() for ran in sweep([PROGRAM, *words], given, extent)}
                self.holds(f"{name}, {extent}", ends <= {f"{line}\n" for line in [told, plain, *none]}, ends)
                if extent == ALONE or name != "a file":  # (a file's plain line takes memory too)
                    self.holds(f"{name}, {extent}: the plain line", f"{plain}\n" in ends, ends)

    def test_a_report_of_many_files(self):
        """Standard output and standard error together are lines of JSON, one for each file of 5,000."""
        folder = FOLDER / "report"
        folder.mkdir(exist_ok=True)
        want = {}
        for number in range(5000):
            path = folder / f"{number}.bin"
            if number % 7:
                path.write_bytes(SEVEN if number % 5 else NOTHING)
            want[f"report/{number}.bin"] = "missing" if not number % 7 else number % 5 > 0
        ran = run(*BY_N, *want, cwd=FOLDER)
        self.same("each is told", self.reported((ran.out + ran.err).splitlines()), want)
        self.same("the status", ran.status, 3)
        both = subprocess.run([PROGRAM, *BY_N, "--summary", *want], cwd=FOLDER, stdin=subprocess.DEVNULL,
                              stdout=subprocess.PIPE, stderr=subprocess.STDOUT)
        *told, last = both.stdout.splitlines()
        self.same("each is told where both are one pipe", self.reported(told), want)
        ok, bad = (list(want.values()).count(kind) for kind in (True, False))
        sums = {"messages": ok + bad, "yes": ok, "no": bad, "V2": bad}
        told = json.loads(last)
        self.same("behind them the sums", {key: told.get(key) for key in sums}, sums)
        self.same("whose status is the same", both.returncode, 3)

    def reported(self, told):
        """What lines tell of each file, which has one."""
        found = {}
        for line in told:
            one = json.loads(line, object_pairs_hook=pairs)
            self.assertNotIn(one["file"], found)
            found[one["file"]] = "missing" if one.get("fault") == "no such file" else one["ok"]
        return found
