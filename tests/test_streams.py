"""Streams and bare inputs through real pipes: pieces of every kind, and many or long messages."""

import os
import re
import threading

from tests.support import schemas
from tests.support.buffers import BY_POST, NOTHING, ORC, POST, SEVEN, named
from tests.support.builder import prefixed, spelled
from tests.support.cases import Case
from tests.support.program import (
    SECONDS, Ran, Talk, astray, bad, failed, file_of, good, lines, overlong, oversize, run, run_in_shell,
)

FILES = schemas.files()
BY_M = ("--schema", FILES["M"])
BY_N = ("--schema", FILES["N"])


def seven(number):
    return f"{number} ok tables=1 depth=1 reads=5"


def wrong(number):
    return f"{number} bad V2 OutOfBuffer at=4 object=0 field=- reads=1"


def in_pieces(words, pieces):
    with Talk(*words) as talk:
        for piece in pieces:
            talk.say(piece)
        return talk.end()

LENGTHS = [65_535, 65_536, 65_537, 131_071, 131_072, 131_073, 1 << 20, 20 << 20]


class Streams(Case):
    def test_lines_come_at_once(self):
        with Talk(*BY_N) as talk:
            for number in range(1, 6):
                talk.say(SEVEN)
                self.same(f"line {number}, while the pipe stays open", talk.hear(), lines(seven(number)))
            talk.say(SEVEN[:31])
            self.same("no line for a message without its last byte", talk.hear(0.2), b"")
            talk.say(SEVEN[31:] + SEVEN + NOTHING + SEVEN[:3])
            for number, want in [(6, seven(6)), (7, seven(7)), (8, wrong(8))]:
                self.same(f"line {number}, of several messages in one piece", talk.hear(), lines(want))
            self.same("no line for a piece of a prefix", talk.hear(0.2), b"")
            talk.say(SEVEN[3:])
            self.same("line 9, of a prefix in two pieces", talk.hear(), lines(seven(9)))
            self.same("the end", talk.end(), Ran(1, b"", b""))

    def test_a_fault_comes_at_once(self):
        with Talk(*BY_N) as talk:
            talk.say(SEVEN + spelled("ffffff"))
            self.same("the line before", talk.hear(), lines(seven(1)))
            talk.run.stdin.write(b"\xff")
            self.same("a prefix that declares too much, while the pipe stays open", talk.ended(),
                      failed(oversize(4294967295)))
        with Talk(*BY_M, "--bare", "--max-bytes", "31") as talk:
            talk.run.stdin.write(ORC)
            self.same("a bare input that is too long, while the pipe stays open", talk.ended(),
                      failed(overlong(31)))

    def test_a_bare_input_waits_for_its_end(self):
        with Talk(*BY_M, "--bare", "--path", "name") as talk:
            talk.say(ORC)
            self.same("no line while the pipe stays open", talk.hear(0.2), b"")
            self.same("the line at the end", talk.end(), good('1 ok tables=1 depth=1 reads=8 "Orc"'))

    def test_pieces_make_no_difference(self):
        to_names = (*BY_POST, "--path", "to.name")
        by_post = run(*to_names, given=POST)
        names = re.findall(r'"(\w+)"$', by_post.out.decode(), re.MULTILINE)
        self.same("the names of the stream of the examples", names, ["Ada", "Eve", "Fay", "Gus", "Hal"])
        for name, words, stream, want in [
            ("two messages", BY_N, SEVEN + SEVEN, good(seven(1), seven(2))),
            ("messages and a cut one", BY_N, NOTHING + SEVEN + SEVEN[:30],
             failed("stream: S2 Truncated held=30", wrong(1), seven(2))),
            ("a message and one too long", BY_N, SEVEN + spelled("fdffff03"),
             failed(oversize(67108861), seven(1))),
            ("a bare buffer", (*BY_M, "--bare"), ORC, good("1 ok tables=1 depth=1 reads=8")),
            ("the stream of the examples", to_names, POST, by_post),
        ]:
            self.same(f"{name}, in one piece", run(*words, given=stream), want)
            self.same(f"{name}, byte by byte", in_pieces(words, [stream[at : at + 1] for at in range(len(stream))]),
                      want)
            for at in range(1, len(stream)):
                if len(stream) < 200 or at % 7 == 0:
                    self.same(f"{name}, cut at {at}", in_pieces(words, [stream[:at], stream[at:]]), want)
            for size in (2, 3, 5, 31, 33, 64):
                pieces = [stream[at : at + size] for at in range(0, len(stream), size)]
                self.same(f"{name}, in pieces of {size}", in_pieces(words, pieces), want)

    def test_many_messages(self):
        count = 100_000
        want = [seven(number) for number in range(1, count + 1)]
        self.same("100,000 messages through a pipe", run(*BY_N, given=SEVEN * count), good(*want))
        mixed = [wrong(number) if number % 3 == 0 else text for number, text in enumerate(want, 1)]
        given = b"".join(NOTHING if number % 3 == 0 else SEVEN for number in range(1, count + 1))
        self.same("100,000, each third a no", run(*BY_N, given=given), bad(*mixed))
        stream, told = file_of("stream", given), file_of("lines", b"")
        status = run_in_shell(f"<{stream} >{told}", *BY_N).status
        self.same("the same from a file to a file", (status, told.read_bytes()), (1, lines(*mixed)))
        paths = [f"{text} 7" for text in want]
        self.same("100,000 with a path", run(*BY_N, "--path", "v", given=SEVEN * count), good(*paths))

    def test_a_slow_reader(self):
        """Lines pile up in the pipe, which is full long before the end, and none is lost."""
        count = 20_000
        with Talk(*BY_N) as talk:
            writer = threading.Thread(target=lambda: (talk.run.stdin.write(SEVEN * count), talk.run.stdin.close()))
            writer.start()
            heard = b""
            while piece := os.read(talk.run.stdout.fileno(), 4099):
                heard += piece
            writer.join()
            self.same("each line once", (heard, talk.run.wait(SECONDS)),
                      (lines(*[seven(number) for number in range(1, count + 1)]), 0))

    def test_long_messages(self):
        told = "1 ok tables=1 depth=1 reads=9"
        for length in LENGTHS:
            message = named(length)
            text = f'{told} "{"n" * (length - 33)}"'
            self.same(f"a message of {length} bytes", run(*BY_M, given=message), good(told))
            self.same(f"its name of {length - 33}", run(*BY_M, "--path", "name", given=message), good(text))
            self.same(f"{length} bytes between short ones", run(*BY_M, given=prefixed(ORC) + message + prefixed(ORC)),
                      good(told, told.replace("1", "2", 1), told.replace("1", "3", 1)))
            torn = message[:-1] + b"\x01"
            self.same(f"{length} bytes, the last one wrong", run(*BY_M, given=torn),
                      bad(f"1 bad V10 NoTerminator at={length - 1} object=0 field=1 reads=9"))
            self.same(f"{length} bytes but one", run(*BY_M, given=message[:-1]),
                      failed(astray(f"stream: S2 Truncated held={length - 1}")))
            limited = run(*BY_M, "--max-bytes", str(length), given=message)
            self.same(f"{length} bytes and no more are allowed", limited, good(told))
            limited = run(*BY_M, "--max-bytes", str(length - 1), given=message)
            self.same(f"{length} bytes are one too many", limited, failed(astray(f"stream: S1 Oversize declared={length - 4}")))

    def test_long_bare_inputs(self):
        told = "1 ok tables=1 depth=1 reads=8"
        bare = (*BY_M, "--bare")
        for length in LENGTHS:
            data = named(length, prefix=False)
            self.same(f"a bare input of {length} bytes", run(*bare, given=data), good(told))
            self.same(f"its name of {length - 29}", run(*bare, "--path", "name", given=data),
                      good(f'{told} "{"n" * (length - 29)}"'))
            self.same(f"{length} bytes, the last one wrong", run(*bare, given=data[:-1] + b"\x01"),
                      bad(f"1 bad V10 NoTerminator at={length - 1} object=0 field=1 reads=8"))
            self.same(f"{length} bytes but one", run(*bare, given=data[:-1]),
                      bad("1 bad V2 OutOfBuffer at=28 object=0 field=1 reads=7"))
            self.same(f"{length} bytes and no more are allowed", run(*bare, "--max-bytes", str(length), given=data),
                      good(told))
            self.same(f"{length} bytes are one too many", run(*bare, "--max-bytes", str(length - 1), given=data),
                      failed(overlong(length - 1)))

    def test_the_default_limit_at_both_sides(self):
        length = 67_108_864
        self.same("a message of 64 MiB", run(*BY_M, given=named(length)), good("1 ok tables=1 depth=1 reads=9"))
        self.same("one byte more", run(*BY_M, given=named(length + 1)),
                  failed(astray(f"stream: S1 Oversize declared={length - 3}")))
        self.same("64 MiB, bare", run(*BY_M, "--bare", given=named(length, prefix=False)),
                  good("1 ok tables=1 depth=1 reads=8"))
        self.same("one byte more, bare", run(*BY_M, "--bare", given=named(length + 1, prefix=False)),
                  failed(overlong(length)))

    def test_empty_messages(self):
        count = 70_000
        self.same("70,000 messages without a byte", run(*BY_N, given=NOTHING * count),
                  bad(*[wrong(n) for n in range(1, count + 1)]))
        self.same("a stream of nothing", run(*BY_N), good())
        self.same("a bare input of nothing", run(*BY_N, "--bare"),
                  bad("1 bad V2 OutOfBuffer at=0 object=0 field=- reads=0"))
