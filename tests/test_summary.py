"""The line that --summary writes at the end of a run: exact numbers, in each mode and after each end."""

from tests.support import buffers, schemas
from tests.support.buffers import BY_POST, NOTHING, ODD, ORC, POST, SEVEN
from tests.support.builder import changed, prefixed, spelled
from tests.support.cases import Case
from tests.support.header import Reason
from tests.support.preloaded import ALONE, WITH_LATER, narrowed, sweep
from tests.support.program import (
    FULL, PROGRAM, SECONDS, Ran, Talk, fieldless, lines, overlong, oversize, refused, rootless, run, run_broken_off,
    run_in_shell, run_starved, waiting,
)

FILES = schemas.files()
BY_M = ("--schema", FILES["M"], "--bare", "--summary")
BY_N = ("--schema", FILES["N"], "--summary")

# By N, with its prefix: its root offset leads nowhere.
NO_OFFSET = changed(SEVEN, (4, "00000000"))

YES = "ok tables=1 depth=1 reads=5"
NO = {
    ODD: "bad V3 Misaligned at=7 object=0 field=- reads=3",
    NOTHING: "bad V2 OutOfBuffer at=4 object=0 field=- reads=1",
    NO_OFFSET: "bad V4 ZeroOffset at=4 object=0 field=- reads=2",
}
EMPTY = "summary: messages=0 yes=0 no=0 bytes=0 tables=0 reads=0"
ONE = "summary: messages=1 yes=1 no=0 bytes=32 tables=1 reads=5"


def told(*parts):
    """The lines of these messages."""
    return lines(*[f"{number} {NO.get(part, YES)}" for number, part in enumerate(parts, 1)])


def of_names(parts):
    """The summary of these good messages by M, each behind its length."""
    count = len(parts)
    return f"summary: messages={count} yes={count} no=0 bytes={len(b''.join(parts))} tables={count} reads={9 * count}"


def named_lines(parts):
    """Their lines with their names."""
    return b"".join(f'{number} ok tables=1 depth=1 reads=9 "'.encode() + part[32:].rstrip(b"\0") + b'"\n'
                    for number, part in enumerate(parts, 1))


class Summary(Case):
    def test_the_line_at_the_end(self):
        for name, parts, want in [
            ("nothing", [], EMPTY),
            ("one yes", [SEVEN], ONE),
            ("three", [SEVEN] * 3, "summary: messages=3 yes=3 no=0 bytes=96 tables=3 reads=15"),
            ("one no", [NOTHING], "summary: messages=1 yes=0 no=1 V2=1 bytes=4 tables=0 reads=1"),
            ("each in turn", [SEVEN, ODD, SEVEN, NOTHING, ODD, SEVEN, NO_OFFSET],
             "summary: messages=7 yes=3 no=4 V2=1 V3=2 V4=1 bytes=196 tables=3 reads=24"),
            ("the same in another order", [NO_OFFSET, NOTHING, ODD, SEVEN, ODD, SEVEN, SEVEN],
             "summary: messages=7 yes=3 no=4 V2=1 V3=2 V4=1 bytes=196 tables=3 reads=24"),
            ("of many reads", [SEVEN] * 9_999 + [ODD],
             "summary: messages=10000 yes=9999 no=1 V3=1 bytes=320000 tables=9999 reads=49998"),
        ]:
            stream = b"".join(parts)
            status = 1 if set(parts) & set(NO) else 0
            self.same(name, run(*BY_N, given=stream), Ran(status, told(*parts), lines(want)))
            self.same(f"{name}: lines and status are those without it", run(*BY_N[:-1], given=stream),
                      Ran(status, told(*parts), b""))
            quiet = [line for line in told(*parts).splitlines(keepends=True) if b" bad " in line]
            self.same(f"{name}, with --quiet", run(*BY_N, "--quiet", given=stream),
                      Ran(status, b"".join(quiet), lines(want)))
            self.same(f"{name}, with --filter", run(*BY_N, "--filter", given=stream),
                      Ran(status, b"".join(part for part in parts if part not in NO), b"".join(quiet) + lines(want)))
            self.same(f"{name}, with a path", run(*BY_N, "--path", "v", "--quiet", given=stream),
                      Ran(status, b"".join(quiet), lines(want)))

    def test_reasons_stand_in_their_order(self):
        """The numbers of a summary are those of the lines of the same run."""
        for limits in [[], ["--max-reads", "40"], ["--max-reads", "3"], ["--max-depth", "1"], ["--max-tables", "2"],
                       ["--max-depth", "1", "--max-reads", "60"], ["--ident", "NONE"]]:
            ran = run(*BY_POST, "--summary", *limits, given=POST)
            words = [line.split() for line in ran.out.decode().splitlines()]
            bad = [line[2] for line in words if line[1] == "bad"]
            reasons = "".join(f" V{n}={bad.count(f'V{n}')}" for n in Reason if f"V{n}" in bad)
            sums = {key: sum(int(word[len(key) + 1:]) for line in words for word in line if word.startswith(f"{key}="))
                    for key in ["tables", "reads"]}
            self.same(f"deliveries, {limits}", ran.err, lines(
                f"summary: messages={len(words)} yes={len(words) - len(bad)} no={len(bad)}{reasons}"
                f" bytes={len(POST)} tables={sums['tables']} reads={sums['reads']}"))
        deep = run("--schema", FILES["CHAIN"], "--summary", "--max-depth", "2", given=b"".join(
            prefixed(buffers.levels(count)) for count in [1, 2, 3, 4]) + NOTHING)
        self.same("V2 before V6, whichever came first", deep.err.split(b"bytes=")[0],
                  b"summary: messages=5 yes=2 no=3 V2=1 V6=2 ")

    def test_a_bare_input(self):
        for name, words, given, want in [
            ("a yes", BY_M, ORC, Ran(0, lines("1 ok tables=1 depth=1 reads=8"),
                                     lines("summary: messages=1 yes=1 no=0 bytes=32 tables=1 reads=8"))),
            ("a no", BY_M, ORC[:31], Ran(1, lines("1 bad V2 OutOfBuffer at=28 object=0 field=1 reads=7"),
                                         lines("summary: messages=1 yes=0 no=1 V2=1 bytes=31 tables=0 reads=7"))),
            ("nothing", BY_M, b"", Ran(1, lines("1 bad V2 OutOfBuffer at=0 object=0 field=- reads=0"),
                                       lines("summary: messages=1 yes=0 no=1 V2=1 bytes=0 tables=0 reads=0"))),
            ("passed on", (*BY_M, "--filter"), ORC,
             Ran(0, ORC, lines("summary: messages=1 yes=1 no=0 bytes=32 tables=1 reads=8"))),
            ("one that is too long", (*BY_M, "--max-bytes", "31"), ORC,
             Ran(3, b"", lines(EMPTY, f"fbcheck: {overlong(31)}"))),
        ]:
            self.same(f"bare: {name}", run(*words, given=given), want)

    def test_after_a_fault(self):
        two = "summary: messages=2 yes=1 no=1 V3=1 bytes=64 tables=1 reads=8"
        for name, given, fault in [
            ("a prefix past the limit", SEVEN + ODD + spelled("ffffffff"), oversize(4294967295)),
            ("an end in mid-message", SEVEN + ODD + SEVEN[:-1], "stream: S2 Truncated held=31"),
            ("an end in mid-prefix", SEVEN + ODD + b"\0", "stream: S2 Truncated held=1"),
        ]:
            want = lines(two, f"fbcheck: {fault}")
            self.same(name, run(*BY_N, given=given), Ran(3, told(SEVEN, ODD), want))
            self.same(f"{name}, with --filter", run(*BY_N, "--filter", given=given),
                      Ran(3, SEVEN, lines(f"2 {NO[ODD]}") + want))
        self.same("a folder as standard input", run_in_shell("<.", *BY_N),
                  Ran(3, b"", lines(EMPTY, "fbcheck: read failed: is a directory")))
        self.same("a read that fails in mid-stream", run_broken_off(*BY_N, given=SEVEN + ODD + SEVEN[:9]),
                  Ran(3, told(SEVEN, ODD), lines(two, "fbcheck: read failed")))
        self.same("too little memory for the second message",
                  run_starved(*BY_M[:2], "--summary", given=prefixed(ORC) + buffers.named(1 << 25)),
                  Ran(3, lines("1 ok tables=1 depth=1 reads=9"),
                      lines("summary: messages=1 yes=1 no=0 bytes=36 tables=1 reads=9", "fbcheck: out of memory")))
        self.same("standard output that takes nothing: the message that was to be told is counted",
                  run_in_shell(">/dev/full", *BY_N, given=SEVEN),
                  Ran(3, b"", lines(ONE, FULL)))

    def test_a_long_line_that_is_cut(self):
        """It is written while it is made. Where a write fails within it, its message is counted, and none behind it; so
        are those whose lines waited with its end."""
        words = *BY_M[:2], "--path", "name", "--summary"
        parts = [prefixed(ORC), buffers.named(200_000), prefixed(ORC)]
        stream, told = b"".join(parts), named_lines(parts)
        self.same("a long line", run(*words, given=stream), Ran(0, told, lines(of_names(parts))))
        short = len(named_lines(parts[:1]))
        for room, count in [
            (0, 1), (short - 1, 1), (short, 2), (short + 1, 2), (short + 40, 2), (65_536, 2), (100_000, 2),
            (180_000, 2), (len(told) - 40, 2), (len(told) - 1, 3),
        ]:
            for write in 65_536, 999:
                self.same(f"room for {room} bytes, {write} at a write",
                          narrowed(*words, given=stream, room=room, write=write),
                          Ran(3, told[:room],
                              lines(of_names(parts[:count]), f"fbcheck: write failed after {room} bytes")))
        bare = buffers.named(200_000, prefix=False)
        for room in 0, 1, 40, 100_000, 199_999:
            self.same(f"room for {room} bytes of the line of a bare input",
                      narrowed(*words, "--bare", given=bare, room=room)._replace(out=b""),
                      Ran(3, b"",
                          lines("summary: messages=1 yes=1 no=0 bytes=200000 tables=1 reads=8",
                                f"fbcheck: write failed after {room} bytes")))

    def test_memory_that_is_refused(self):
        """The lines that are written are those of the messages that are counted, whichever request is refused. Where it
        is one before the run began, nothing is summed up."""
        words = [PROGRAM, *BY_M[:2], "--path", "name", "--summary"]
        parts = [buffers.named(length) for length in (48, 400, 120_000, 60, 3_000, 140_000, 52)]
        fronts = {named_lines(parts[:count]): parts[:count] for count in range(len(parts) + 1)}
        for extent, most in (ALONE, 100), (WITH_LATER, 65_536):
            counts, summed = set(), []
            for first, ran in enumerate(sweep(words, b"".join(parts), extent, most), 1):
                front = fronts.get(ran.out, [])
                told = b"summary" in ran.err
                if ran.status:
                    summed.append(told)
                summary = [of_names(front)] if told else []
                fault = ["fbcheck: out of memory"] if ran.status else []
                self.same(f"request {first} is refused {extent}", (ran.out in fronts, ran.err),
                          (True, lines(*summary, *fault)))
                self.same(f"request {first}, its status", ran.status, 0 if ran.out == max(fronts, key=len) else 3)
                counts.add(len(front))
                self.holds(f"request {first}: lines are those of a run that is summed up", told or not ran.out, ran)
            self.holds(f"none is summed up before the run begins, and all are from then on, refused {extent}",
                       (summed[0], summed[-1], summed) == (False, True, sorted(summed)), summed)
            self.holds(f"some are counted alone, refused {extent}", len(counts) > 2, counts)

    def test_standard_error_that_takes_no_more(self):
        for name, redirections in [("full", "2>/dev/full"), ("closed", "2>&-")]:
            for told_of, words, given, out in [
                ("a good end", BY_N, SEVEN, told(SEVEN)),
                ("a no", BY_N, ODD, told(ODD)),
                ("nothing", BY_N, b"", b""),
                ("a filter with nothing to note", (*BY_N, "--filter"), SEVEN, SEVEN),
                ("a fault", BY_N, SEVEN + b"\0", told(SEVEN)),
            ]:
                self.same(f"{name} standard error, {told_of}", run_in_shell(redirections, *words, given=given),
                          Ran(3, out, b""))
            self.same(f"{name} standard error, without the option", run_in_shell(redirections, *BY_N[:-1], given=ODD),
                      Ran(1, told(ODD), b""))
        with Talk(*BY_N) as talk:
            talk.say(SEVEN)
            self.same("the line of a message comes", talk.hear(), told(SEVEN))
            talk.run.stderr.close()
            talk.run.stdin.close()
            self.same("a summary that nobody reads", (talk.run.stdout.read(), talk.run.wait(SECONDS)), (b"", 3))

    def test_where_no_run_begins(self):
        for name, words, want in [
            ("a wrong identifier", ["--ident", "ABC"], refused("ident must be four bytes")),
            ("no schema file", ["--schema", "/nowhere"], refused("cannot read schema /nowhere: no such file")),
            ("no such root", ["--schema", FILES["N"], "--root", "Q"], rootless("Q", "N")),
            ("no such path", ["--schema", FILES["N"], "--path", "w"], fieldless("v")),
        ]:
            self.same(f"no summary: {name}", run("--summary", *words, given=SEVEN), want)
        self.same("no summary of help", run("--summary", "--help"), run("--help"))
        self.same("twice is wrong", run("--summary", "--summary").status, 2)
        self.same("so is a value", run("--summary=yes").status, 2)
        with Talk(*BY_N) as talk:
            talk.say(SEVEN)
            self.same("it waits for the end", (talk.hear(), waiting(talk.run.stderr)), (told(SEVEN), False))
            self.same("and comes then", talk.end(), Ran(0, b"", lines(ONE)))
