"""A filter: good messages go to standard output as they came, and the lines of bad ones to standard error."""

from tests.support import schemas
from tests.support.buffers import BY_POST, NOTHING, ODD, ORC, POST, SEVEN
from tests.support.builder import messages_of, prefixed, spelled
from tests.support.cases import Case
from tests.support.program import (
    CLOSED, FULL, SECONDS, SHIFTED, Ran, Talk, astray, lines, overlong, oversize, refused, rootless, run, run_in_shell,
)

FILES = schemas.files()
BY_M = ("--schema", FILES["M"], "--filter")
BY_N = ("--schema", FILES["N"], "--filter")


def odd(number):
    return f"{number} bad V3 Misaligned at=7 object=0 field=- reads=3"


def nothing(number):
    return f"{number} bad V2 OutOfBuffer at=4 object=0 field=- reads=1"


def passed(out, *notes, status=None):
    """A run that passed these bytes on and noted these lines."""
    return Ran((1 if notes else 0) if status is None else status, out, lines(*notes))


class Filter(Case):
    def test_good_messages_are_passed_on(self):
        for name, given, want in [
            ("nothing", b"", passed(b"")),
            ("a good one", SEVEN, passed(SEVEN)),
            ("a bad one", NOTHING, passed(b"", nothing(1))),
            ("good ones", SEVEN * 3, passed(SEVEN * 3)),
            ("bad ones", ODD + NOTHING + ODD, passed(b"", odd(1), nothing(2), odd(3))),
            ("both in turn", SEVEN + ODD + SEVEN + NOTHING + SEVEN, passed(SEVEN * 3, odd(2), nothing(4))),
            ("a bad one first", NOTHING + SEVEN, passed(SEVEN, nothing(1))),
        ]:
            self.same(name, run(*BY_N, given=given), want)
            self.same(f"{name}, with --quiet", run(*BY_N, "--quiet", given=given), want)
            lined = run(*BY_N[:-1], given=given)
            self.same(f"{name}: the notes are the lines of the bad ones of a run without the option",
                      run(*BY_N, given=given).err, b"".join(
                          line for line in lined.out.splitlines(keepends=True) if b" bad " in line))
            self.same(f"{name}: and its status", run(*BY_N, given=given).status, lined.status)
        self.same("misaligned ones", run(*BY_N, given=ODD * 2), passed(b"", odd(1), odd(2), f"fbcheck: {SHIFTED}"))
        several = [SEVEN[:4] + SEVEN[4:-8] + bytes([number]) + SEVEN[-7:] for number in range(200)]
        self.same("in their order", run(*BY_N, given=b"".join(several)), passed(b"".join(several)))
        long = prefixed(ORC + bytes(200_000))
        self.same("a message of several pieces", run(*BY_M, given=prefixed(ORC) + long + prefixed(ORC)),
                  passed(prefixed(ORC) + long + prefixed(ORC)))

    def test_the_example_is_filtered(self):
        parts = messages_of(POST)
        want = passed(b"".join(parts[:4] + parts[5:]), "5 bad V10 NoTerminator at=314 object=1 field=6 reads=63")
        ran = run(*BY_POST, "--filter", given=POST)
        self.same("all but the fifth", ran, want)
        self.same("a second filter passes all of it", run(*BY_POST, "--filter", given=ran.out), passed(ran.out))
        limited = run(*BY_POST, "--filter", "--max-reads", "40", given=POST)
        again = run(*BY_POST, "--filter", "--max-reads", "40", given=limited.out)
        self.same("also within a budget", again, passed(limited.out))

    def test_what_is_passed_before_a_fault(self):
        for name, words, given, want in [
            ("a prefix past the limit", BY_N, SEVEN + ODD + spelled("ffffffff"),
             passed(SEVEN, odd(2), f"fbcheck: {oversize(4294967295)}", status=3)),
            ("an end in mid-message", BY_N, ODD + SEVEN + SEVEN[:-1],
             passed(SEVEN, odd(1), "fbcheck: stream: S2 Truncated held=31", status=3)),
            ("an end in mid-prefix", BY_N, SEVEN + b"\0",
             passed(SEVEN, "fbcheck: stream: S2 Truncated held=1", status=3)),
        ]:
            self.same(name, run(*words, given=given), want)
        self.same("a folder as standard input", run_in_shell("<.", *BY_N),
                  passed(b"", "fbcheck: read failed: is a directory", status=3))
        stream = SEVEN + ODD + SEVEN + NOTHING
        ends = [32, 64, 96, 100]
        for length in range(len(stream) + 1):
            whole = [end for end in ends if end <= length]
            notes = [odd(2)] * (64 in whole) + [nothing(4)] * (100 in whole)
            held = length - max([0, *whole])
            text = f"stream: S2 Truncated held={held}"
            fault = [f"fbcheck: {text if whole else astray(text)}"] * (held > 0)
            self.same(f"a stream cut off after {length} bytes", run(*BY_N, given=stream[:length]),
                      passed(SEVEN * ((32 in whole) + (96 in whole)), *notes, *fault,
                             status=3 if held else 1 if notes else 0))

    def test_a_bare_input_is_passed_whole_or_not_at_all(self):
        for name, words, given, want in [
            ("a good one", BY_M, ORC, passed(ORC)),
            ("a good one with bytes behind it", BY_M, ORC + b"more", passed(ORC + b"more")),
            ("a bad one", BY_M, ORC[:31], passed(b"", "1 bad V2 OutOfBuffer at=28 object=0 field=1 reads=7")),
            ("one that is too long", (*BY_M, "--max-bytes", "31"), ORC,
             passed(b"", f"fbcheck: {overlong(31)}", status=3)),
            ("a long one", BY_M, ORC + bytes(300_000), passed(ORC + bytes(300_000))),
        ]:
            self.same(name, run(*words, "--bare", given=given), want)

    def test_messages_come_at_once(self):
        with Talk(*BY_N) as talk:
            for number in range(1, 4):
                talk.say(SEVEN)
                self.same(f"message {number}, while the pipe stays open", talk.run.stdout.read(len(SEVEN)), SEVEN)
            talk.say(ODD)
            self.same("a line, while the pipe stays open", talk.run.stderr.readline(), lines(odd(4)))
            talk.say(SEVEN[:31])
            self.same("nothing of a message without its last byte", talk.hear(0.2), b"")
            talk.say(SEVEN[31:] + SEVEN + SEVEN[:3])
            self.same("two at once", talk.run.stdout.read(2 * len(SEVEN)), SEVEN * 2)
            talk.say(SEVEN[3:])
            self.same("one whose prefix came in two pieces", talk.run.stdout.read(len(SEVEN)), SEVEN)
            self.same("the end", talk.end(), Ran(1, b"", b""))
        with Talk(*BY_N) as talk:
            for byte in ODD + SEVEN:
                talk.say(bytes([byte]))
            self.same("byte by byte", talk.end(), passed(SEVEN, odd(1)))

    def test_outputs_that_take_no_more(self):
        for name, redirections, unwritten in [
            ("a full device", ">/dev/full", FULL), ("closed standard output", ">&-", CLOSED),
        ]:
            self.same(name, run_in_shell(redirections, *BY_N, given=SEVEN), passed(b"", unwritten, status=3))
            self.same(f"{name}, with a bad message behind", run_in_shell(redirections, *BY_N, given=SEVEN + ODD),
                      passed(b"", unwritten, status=3))
            self.same(f"{name}, and only bad messages", run_in_shell(redirections, *BY_N, given=NOTHING),
                      passed(b"", nothing(1)))
            self.same(f"{name}, bare", run_in_shell(redirections, *BY_M, "--bare", given=ORC),
                      passed(b"", unwritten, status=3))
        for name, redirections in [("full standard error", "2>/dev/full"), ("closed standard error", "2>&-")]:
            self.same(name, run_in_shell(redirections, *BY_N, given=SEVEN + ODD), Ran(3, SEVEN, b""))
            self.same(f"{name}, bare", run_in_shell(redirections, *BY_M, "--bare", given=ORC[:31]), Ran(3, b"", b""))
            self.same(f"{name}, and only good messages", run_in_shell(redirections, *BY_N, given=SEVEN),
                      Ran(0, SEVEN, b""))
            self.same(f"{name}, and a fault", run_in_shell(redirections, *BY_N, given=SEVEN + b"\0"),
                      Ran(3, SEVEN, b""))
        with Talk(*BY_N) as talk:
            talk.say(SEVEN)
            self.same("the first message comes", talk.run.stdout.read(len(SEVEN)), SEVEN)
            talk.run.stdout.close()
            talk.run.stdin.write(SEVEN)
            talk.run.stdin.close()
            self.same("the second can't be written", (talk.run.stderr.read(), talk.run.wait(SECONDS)),
                      (b"", 3))
        with Talk(*BY_N) as talk:
            talk.say(ODD)
            self.same("the first note comes", talk.run.stderr.readline(), lines(odd(1)))
            talk.run.stderr.close()
            talk.run.stdin.write(SEVEN + NOTHING)
            talk.run.stdin.close()
            self.same("the second can't be written", (talk.run.stdout.read(), talk.run.wait(SECONDS)), (SEVEN, 3))
        with Talk(*BY_N) as talk:
            talk.run.stderr.close()
            talk.run.stdin.write(SEVEN + ODD + SEVEN)
            talk.run.stdin.close()
            self.same("notes that nobody reads", (talk.run.stdout.read(), talk.run.wait(SECONDS)),
                      (SEVEN + SEVEN, 3))

    def test_words_of_a_filter(self):
        self.same("no path", run(*BY_N, "--path", "v", given=SEVEN), refused("a filter takes no path"))
        self.same("not even a wrong one", run(*BY_N, "--path", "", given=SEVEN), refused("a filter takes no path"))
        self.same("before the schema file is read", run("--schema", "/none/such", "--filter", "--path", "v"),
                  refused("a filter takes no path"))
        self.same("no schema, which passes schema files", run("--bare", "--filter", given=schemas.M), passed(schemas.M))
        self.same("another root", run(*BY_N, "--root", "Q", given=SEVEN), rootless("Q", "N"))
        self.same("twice", run(*BY_N, "--filter").status, 2)
        self.same("with a value", run("--filter=yes").status, 2)
