"""Rejects: bad messages go to a file as they came, whatever else is told of them."""

import pathlib
import random
import resource
import stat
import subprocess
import tempfile

from tests.support import schemas
from tests.support.buffers import BY_POST, NOTHING, ODD, ORC, POST, SEVEN
from tests.support.builder import messages_of, prefixed
from tests.support.cases import Case
from tests.support.preloaded import ALONE, WITH_LATER, narrowed, refusing
from tests.support.program import PROGRAM, SECONDS, Ran, Talk, lines, oversize, refused, run

FILES = schemas.files()
BY_M = ("--schema", FILES["M"])
BY_N = ("--schema", FILES["N"])
FULL = "write of rejects failed after {} bytes: no storage space"
# A message of zeros is bad, and one of so many bytes or more is written as it is.
LONG = 65_536


def odd(number):
    return f"{number} bad V3 Misaligned at=7 object=0 field=- reads=3"


def nothing(number):
    return f"{number} bad V2 OutOfBuffer at=4 object=0 field=- reads=1"


def good(number):
    return f"{number} ok tables=1 depth=1 reads=5"


def zeros(size):
    """A bad message of so many bytes, its prefix included."""
    return prefixed(bytes(size - 4))


def zero(number):
    return f"{number} bad V4 ZeroOffset at=4 object=0 field=- reads=2"


def limited(room):
    """How a run is started whose files may have so many bytes each; a write of more fails, and ends no program."""
    limit = lambda: resource.setrlimit(resource.RLIMIT_FSIZE, (room, room))
    return {"preexec_fn": limit, "restore_signals": False}


class Rejects(Case):
    def setUp(self):
        folder = tempfile.TemporaryDirectory()
        self.addCleanup(folder.cleanup)
        self.folder = pathlib.Path(folder.name)
        self.file = self.folder / "rejects"

    def kept(self, *words, given=b""):
        """The run with rejects, and what the file has then."""
        self.file.write_bytes(b"what stood there before")
        ran = run(*words, "--rejects", self.file, given=given)
        return ran, self.file.read_bytes()

    def test_bad_messages_are_kept(self):
        for name, given, want in [
            ("nothing", b"", b""),
            ("a good one", SEVEN, b""),
            ("a bad one", NOTHING, NOTHING),
            ("bad ones", ODD + NOTHING + ODD, ODD + NOTHING + ODD),
            ("both in turn", SEVEN + ODD + SEVEN + NOTHING + SEVEN, ODD + NOTHING),
        ]:
            for words in [(), ("--quiet",), ("--filter",), ("--json",), ("--names",), ("--csv", "--path", "v"),
                          ("-H",), ("--summary",)]:
                plain = run(*BY_N, *words, given=given)
                ran, rejects = self.kept(*BY_N, *words, given=given)
                self.same(f"{name}, {words}: the same is told as without rejects", ran, plain)
                self.same(f"{name}, {words}: and the bad ones are kept", rejects, want)
        parts = messages_of(POST)
        ran, rejects = self.kept(*BY_POST, "--filter", given=POST)
        self.same("of the example all but the fifth pass", ran.out, b"".join(parts[:4] + parts[5:]))
        self.same("and the fifth is kept", rejects, parts[4])

    def test_both_outputs_are_the_input(self):
        chance = random.Random(5)
        for turn in range(20):
            messages = chance.choices([SEVEN, NOTHING, ODD], k=chance.choice([1, 10, 1000, 6000]))
            messages += [prefixed(bytes(70_000))] * (turn % 3)
            chance.shuffle(messages)
            ran, rejects = self.kept(*BY_N, "--filter", given=b"".join(messages))
            self.holds(f"{turn}: the good ones", ran.out == b"".join(m for m in messages if m is SEVEN))
            self.holds(f"{turn}: and the others", rejects == b"".join(m for m in messages if m is not SEVEN))
            again = run(*BY_N, "--max-bad", "1", given=rejects)
            self.same(f"{turn}: of which the first is bad", again.status, int(bool(rejects)))

    def test_long_ones(self):
        """Among short ones, in their order, whatever else is told of them."""
        long = [zeros(size) for size in (LONG - 1, LONG, LONG + 1, 3 * LONG, 1_000_000, LONG - 1)]
        given = b"".join(SEVEN + ODD + one + NOTHING for one in long) + SEVEN
        want = b"".join(ODD + one + NOTHING for one in long)
        for words in [(), ("--quiet",), ("--filter",), ("--json",), ("--csv", "--path", "v"), ("--names",)]:
            ran, rejects = self.kept(*BY_N, *words, given=given)
            self.same(f"{words}: the same is told as without rejects", ran, run(*BY_N, *words, given=given))
            self.holds(f"{words}: and all bad ones are kept", rejects == want, len(rejects))
        ran, rejects = self.kept(*BY_N, "--filter", given=b"".join(long))
        self.holds("one behind another", rejects == b"".join(long), len(rejects))
        self.same("all are told", ran, Ran(1, b"", lines(*map(zero, range(1, len(long) + 1)))))

    def test_a_bare_input(self):
        for name, given, want in [("a good one", ORC, b""), ("a bad one", ORC[:31], ORC[:31]),
                                  ("a long bad one", b"\xff" * 300_000, b"\xff" * 300_000)]:
            for words in [(), ("--filter",)]:
                ran, rejects = self.kept(*BY_M, "--bare", *words, given=given)
                self.same(f"{name}, {words}", ran, run(*BY_M, "--bare", *words, given=given))
                self.same(f"{name}, {words}: rejects", rejects, want)
        ran, rejects = self.kept(*BY_M, "--bare", "--max-bytes", "31", given=ORC)
        self.same("one that is too long", (ran.status, rejects), (3, b""))

    def test_delimited_and_bounds(self):
        wide = b"\x08\0\0\0" + bytes(8)
        ran, rejects = self.kept(*BY_M, "--delimited", given=prefixed(ORC) + wide + prefixed(ORC))
        self.same("with its length", rejects, wide)
        stream = SEVEN + NOTHING + SEVEN + NOTHING + ODD
        for words, want in [(("--limit", "2"), NOTHING), (("--max-bad", "1"), NOTHING), (("--max-bad", "2"), NOTHING * 2),
                            (("--skip", "32"), NOTHING * 2 + ODD)]:
            ran, rejects = self.kept(*BY_N, *words, given=stream)
            self.same(f"{words}", (ran, rejects), (run(*BY_N, *words, given=stream), want))

    def test_what_is_kept_before_a_fault(self):
        for name, given, fault in [
            ("a prefix past the limit", ODD + SEVEN + b"\xff" * 4, oversize(2**32 - 1)),
            ("an end in mid-message", ODD + SEVEN + SEVEN[:-1], "stream: S2 Truncated held=31"),
        ]:
            ran, rejects = self.kept(*BY_N, "--filter", given=given)
            self.same(name, (ran, rejects), (Ran(3, SEVEN, lines(odd(1), f"fbcheck: {fault}")), ODD))

    def test_several_files(self):
        first, second, none = self.folder / "a", self.folder / "b", self.folder / "none"
        first.write_bytes(SEVEN + ODD)
        second.write_bytes(NOTHING + SEVEN + ODD)
        for words in [(), ("--filter",), ("--json",)]:
            ran, rejects = self.kept(*BY_N, *words, first, "-", second, given=NOTHING + NOTHING)
            self.same(f"all bad ones go to one file, {words}", rejects, ODD + NOTHING * 2 + NOTHING + ODD)
            self.same(f"and the same is told, {words}", ran, run(*BY_N, *words, first, "-", second,
                                                               given=NOTHING + NOTHING))
        ran, rejects = self.kept(*BY_N, first, none, second)
        self.same("also beside one that can't be read", (ran.status, rejects), (3, ODD + NOTHING + ODD))

    def test_a_file_that_takes_no_more(self):
        for words, given, told in [((), SEVEN + ODD, [good(1), odd(2)]), (("--quiet",), NOTHING, [nothing(1)])]:
            ran = run(*BY_N, *words, "--rejects", "/dev/full", given=given)
            self.same(f"a full device, {words}", ran, Ran(3, lines(*told), lines("fbcheck: " + FULL.format(0))))
        self.same("nothing to be written", run(*BY_M, "--bare", "--rejects", "/dev/full").status, 1)
        self.same("a filter's", run(*BY_N, "--filter", "--rejects", "/dev/full", given=SEVEN + ODD + SEVEN),
                  Ran(3, SEVEN * 2, lines(odd(2), "fbcheck: " + FULL.format(0))))
        self.same("good ones alone", run(*BY_N, "--rejects", "/dev/full", given=SEVEN), Ran(0, lines(good(1)), b""))
        for name, file, why in [("none can be made there", self.folder / "none" / "rejects", "no such file"),
                                ("a folder", self.folder, "is a directory")]:
            ran = run(*BY_N, "--rejects", file, given=SEVEN)
            self.same(name, ran, Ran(3, b"", lines(f"fbcheck: cannot write rejects: {why}")))

    def test_a_file_that_takes_a_part(self):
        """A write fails before a long bad message, or within it. What goes to the other outputs is written by then."""
        given, kept = SEVEN + ODD + zeros(5 * LONG) + SEVEN, ODD + zeros(5 * LONG)
        for room in (0, len(ODD) - 1, len(ODD), len(ODD) + 1, LONG, 4 * LONG, len(kept) - 1):
            fault = f"fbcheck: write of rejects failed after {room} bytes: file too large"
            # What is told of the short ones is written before the rest of the long one is read.
            told = [odd(2)] + [zero(3)] * (room >= len(ODD))
            for words, out, err in [((), lines(good(1), *told), lines(fault)),
                                    (("--filter",), SEVEN, lines(*told, fault))]:
                ran = run(*BY_N, *words, "--rejects", self.file, given=given, **limited(room))
                self.same(f"{words}, room for {room} bytes", ran, Ran(3, out, err))
                self.holds(f"{words}, which are kept: {room}", self.file.read_bytes() == kept[:room])
        ran = run(*BY_N, "--rejects", self.file, given=given, **limited(len(kept)))
        self.same("room for all", ran, Ran(1, lines(good(1), odd(2), zero(3), good(4)), b""))
        self.holds("all are kept", self.file.read_bytes() == kept)

    def test_another_output_that_fails(self):
        """Nothing of a long bad message is kept where a write of what is told of it, or before it, has failed."""
        given, short = SEVEN + ODD + zeros(5 * LONG) + SEVEN, lines(good(1), odd(2))
        for words, want in [((), short + lines(zero(3))), (("--filter",), SEVEN)]:
            for room in (0, 1, len(want) - 1):
                self.file.write_bytes(b"")
                ran = narrowed(*BY_N, *words, "--rejects", self.file, given=given, room=room)
                self.same(f"{words}, room for {room} bytes", (ran.status, ran.out), (3, want[:room]))
                self.holds(f"{words}, the fault: {room}", b"fbcheck: write failed after %d bytes" % room in ran.err, ran.err)
                self.same(f"{words}, what is kept: {room}", self.file.read_bytes(), ODD if room >= len(short) else b"")
        with open("/dev/full", "wb") as full:
            ran = subprocess.run([PROGRAM, *BY_N, "--filter", "--rejects", self.file], input=SEVEN + zeros(5 * LONG),
                                 stdout=subprocess.PIPE, stderr=full, timeout=SECONDS)
        self.same("of the notes", (ran.returncode, ran.stdout, self.file.read_bytes()), (3, SEVEN, b""))

    def test_refused_memory(self):
        """Whichever request is refused, the bad ones that are told are kept, and no others."""
        messages = [SEVEN, ODD, zeros(300), zeros(LONG + 9), NOTHING, SEVEN, zeros(40_000), zeros(2 * LONG), ODD]
        bad = {number: message for number, message in enumerate(messages, 1) if message is not SEVEN}
        words = [PROGRAM, *BY_N, "--rejects", str(self.file)]
        whole = refusing(words, b"".join(messages))
        for extent in ALONE, WITH_LATER:
            for first in range(1, whole.asked + 1):
                self.file.write_bytes(b"")
                ran = refusing(words, b"".join(messages), first, extent)
                told = [int(line.split()[0]) for line in ran.lines() if " bad " in line]
                name = f"request {first} is refused, {extent}"
                self.holds(f"{name}: how it ends", ran.status in (whole.status, 3), ran.status)
                self.holds(f"{name}: what is kept", self.file.read_bytes() == b"".join(bad[number] for number in told))

    def test_when_the_file_is_made(self):
        self.file.write_bytes(b"kept")
        for words in [("--root", "None"), ("--path", "none"), ("--ident", "ABC"), ("--help",)]:
            run(*BY_N, "--rejects", self.file, *words, given=NOTHING)
            self.same(f"not where nothing is checked: {words}", self.file.read_bytes(), b"kept")
        run("--schema", self.folder / "none.bfbs", "--rejects", self.file, given=NOTHING)
        self.same("nor where there is no schema file", self.file.read_bytes(), b"kept")
        made = self.folder / "made"
        self.same("it is made", run(*BY_N, "--rejects", made, given=SEVEN), Ran(0, lines(good(1)), b""))
        self.same("and empty", (made.read_bytes(), stat.S_ISREG(made.stat().st_mode)), (b"", True))
        self.same("a name alone", run(*BY_N, "--rejects").status, 2)
        self.file.write_bytes(SEVEN)
        self.same("before the input is read, which is empty then", run(*BY_N, "--rejects", self.file, self.file),
                  Ran(0, b"", b""))

    def test_messages_come_at_once(self):
        self.file.write_bytes(b"")
        with Talk(*BY_N, "--filter", "--rejects", self.file) as talk:
            for number in range(1, 4):
                talk.say(ODD)
                self.same(f"line {number}", talk.run.stderr.readline(), lines(odd(2 * number - 1)))
                talk.say(SEVEN)
                talk.run.stdout.read(len(SEVEN))
                self.same(f"message {number} is kept by the next", self.file.read_bytes(), ODD * number)
            self.same("the end", talk.end(), Ran(1, b"", b""))
