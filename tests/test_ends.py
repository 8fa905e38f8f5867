"""Standard input and output that give and take little at a call, or fail at a given one."""

from tests.support import schemas
from tests.support.buffers import ORC, SEVEN
from tests.support.builder import spelled
from tests.support.cases import Case
from tests.support.preloaded import counted, narrowed, refusing
from tests.support.program import (
    NO_BYTES, PROGRAM, Ran, astray, bad, failed, fieldless, file_of, good, lines, overlong, oversize, rootless, run,
    schemaless,
)

FILES = schemas.files()
BY_M = ("--schema", FILES["M"], "--bare")
BY_N = ("--schema", FILES["N"])
SEVENS = "1 ok tables=1 depth=1 reads=5", "2 ok tables=1 depth=1 reads=5"


class Ends(Case):
    def test_pieces_of_each_length(self):
        stream = SEVEN + SEVEN
        for most in range(1, len(stream) + 1):
            want = good(*SEVENS), -(-len(stream) // most) + 1
            self.same(f"a stream by {most}", counted(*BY_N, given=stream, read=most, write=1), want)
            limited = narrowed(*BY_N, "--max-bytes", "32", given=stream, read=most)
            self.same(f"a stream of the longest messages by {most}", limited, want[0])
            limited = narrowed(*BY_N, "--max-bytes", "31", given=stream, read=most)
            self.same(f"a byte past the limit, by {most}", limited, failed(astray("stream: S1 Oversize declared=28")))
        for most in range(1, len(ORC) + 1):
            want = good("1 ok tables=1 depth=1 reads=8"), -(-len(ORC) // most) + 1
            self.same(f"a bare input by {most}", counted(*BY_M, given=ORC, read=most, write=1), want)

    def test_what_one_read_gives_is_written_at_once(self):
        """In one call, and in one more where 65,536 bytes come before the last message."""
        for name, words, count, calls in [
            ("lines", BY_N, 1_000, 1), ("lines of JSON", (*BY_N, "--json"), 700, 1), ("many lines", BY_N, 2_048, 2),
            ("messages of a filter", (*BY_N, "--filter"), 2_048, 1),
        ]:
            ran = refusing([PROGRAM, *words], file_of("many", SEVEN * count))
            self.same(name, (ran.status, len(ran.reads), len(ran.writes)), (0, 2, calls))

    def test_reads_that_fail(self):
        """Byte by byte: the read with this number fails, after as many bytes as reads before it."""
        for fails in range(1, 66):
            messages = (fails - 1) // len(SEVEN)
            want = failed("read failed", *SEVENS[:messages])
            self.same(f"of a stream read {fails}", counted(*BY_N, given=SEVEN + SEVEN, read=1, fails=fails),
                      (want, fails))
            want = Ran(3, SEVEN * messages, b"fbcheck: read failed\n")
            self.same(f"of a filter read {fails}", counted(*BY_N, "--filter", given=SEVEN + SEVEN, read=1, fails=fails),
                      (want, fails))
        self.same("a read behind the end", counted(*BY_N, given=SEVEN + SEVEN, read=1, fails=66), (good(*SEVENS), 65))
        for fails in range(1, len(ORC) + 2):
            self.same(f"of a bare input read {fails}", counted(*BY_M, given=ORC, read=1, fails=fails),
                      (failed("read failed"), fails))

    def test_reads_that_are_not_made(self):
        for name, words, given, want in [
            ("past a prefix that declares too much", BY_N, SEVEN + spelled("ffffffff") + SEVEN,
             (failed(oversize(4294967295), SEVENS[0]), 36)),
            ("past the limit of a bare input", (*BY_M, "--max-bytes", "8"), bytes(32),
             (failed(overlong(8)), 9)),
            ("for a root that isn't there", (*BY_N, "--root", "Q"), SEVEN, (rootless("Q", "N"), 0)),
            ("for a path that doesn't fit", (*BY_N, "--path", "x"), SEVEN, (fieldless("v"), 0)),
            ("for a schema file that is none", ("--schema", "/dev/null"), SEVEN,
             (schemaless("L1 V2 OutOfBuffer at=4 object=9 field=- reads=0", "/dev/null", NO_BYTES), 0)),
        ]:
            self.same(f"byte by byte, {name}", counted(*words, given=given, read=1), want)

    def test_outputs_with_little_room(self):
        """Of what is written the front for which there is room, and that it ends there, whether a write fails then or
        takes nothing."""
        stream, no = SEVEN + SEVEN, bad("1 bad V4 ZeroOffset at=0 object=0 field=- reads=1")
        helped = run("--help")
        for name, words, given, want, rooms in [
            ("the lines", BY_N, stream, good(*SEVENS), range(61)),
            ("a bare input's line", BY_M, ORC, good("1 ok tables=1 depth=1 reads=8"), range(31)),
            ("a bare input's no", BY_M, bytes(8), no, range(len(no.out) + 1)),
            ("the messages of a filter", (*BY_N, "--filter"), stream, Ran(0, stream, b""), range(65)),
            ("help", ["--help"], b"", helped, [0, 7, len(helped.out) - 1, len(helped.out)]),
        ]:
            for room in rooms:
                told = want
                if room < len(want.out):
                    told = Ran(3, want.out[:room], lines(f"fbcheck: write failed after {room} bytes"))
                for limits in [{"read": 1}, {"write": 1}, {"read": 1, "write": 1, "full": 1}]:
                    self.same(f"{name}, {room} bytes, {limits}", narrowed(*words, given=given, room=room, **limits),
                              told)

    def test_writes_that_fail_once(self):
        """Byte by byte: the write with this number fails, and is the last."""
        stream, no = SEVEN + SEVEN, bad("1 bad V4 ZeroOffset at=0 object=0 field=- reads=1")
        for name, words, given, whole in [
            ("the lines", BY_N, stream, good(*SEVENS)),
            ("a bare input's no", BY_M, bytes(8), no),
            ("the messages of a filter", (*BY_N, "--filter"), stream, Ran(0, stream, b"")),
        ]:
            for stops in range(1, len(whole.out) + 1):
                self.same(f"{name}, write {stops}", narrowed(*words, given=given, write=1, stops=stops),
                          Ran(3, whole.out[:stops - 1], lines(f"fbcheck: write failed after {stops - 1} bytes")))
            self.same(f"{name}, a write behind the last",
                      narrowed(*words, given=given, write=1, stops=len(whole.out) + 1), whole)
