"""Refuses each request for memory that a program makes, one after another, and asks that the call that met the refusal
tells its own want of memory and nothing else."""

import dataclasses
import os

from tests.support import schemas
from tests.support.buffers import POST, SEVEN, levels
from tests.support.builder import messages_of, prefixed, spelled
from tests.support.cases import Case
from tests.support.preloaded import (
    ALONE, WHOLE, WITH_LATER, Plan, is_front, is_front_of_messages, is_nothing, refusing, sweep,
)
from tests.support.program import PROGRAM, TOP, Ran, built, file_of, lines, oversize, run
from tests.support.schemas import CHAIN

EXAMPLES = TOP / "examples"
SCHEMA = EXAMPLES / "deliveries.bfbs"


@dataclasses.dataclass
class Call:
    """A call of `test_probe calls`: how it tells that it came to its end, and its line where memory was refused.

    `leads` says whether the calls below it are made where it was refused, and `asks` whether it makes a request.
    """

    name: str
    well: str
    refused: str
    leads: bool = True
    asks: bool = True


# The calls in their order.
LONG_PATH = ".".join(["next"] * 8 + ["name"])
STEPS = {"any@Node.size": 3, "many[0]@Text": 3, "many_type[0]": 2, "many": 1, LONG_PATH: 9}
CALLS = [
    Call("reflection", "ok", "reflection: out of memory"),
    Call("load", "ok", "fault L4 OutOfMemory"),
    Call("marks", "ok", "fault L4 OutOfMemory"),
    Call("scratch 0", "ok, 0 levels", "", asks=False),
    *[Call(f"scratch {depth}", f"ok, {depth} levels", f"scratch {depth}: OutOfMemory") for depth in (1, 64, 4096)],
    Call("scratch 4097", "LimitOutOfRange", "", asks=False),
    Call("framer", "Ok(Taken { used: 5, whole: false }), Ok(Taken { used: 1, whole: true }), Ok(()), "
         "Some([2, 0, 0, 0, 104, 105])", "framer: Err(OutOfMemory), Err(Failed), Err(Failed), None"),
    Call("rows", "ok", "rows: out of memory", leads=False),
    Call("build", "ok, 2 objects", "build: SchemaFault { code: OutOfMemory, owner: 0, part: None }", leads=False),
    *[Call(f"resolve {path}", f"ok, {steps} steps", f"resolve {path}: P7 OutOfMemory") for path, steps in STEPS.items()],
]


def told_of_calls(given, refused_at, extent):
    """The lines of `test_probe calls` where the call numbered `refused_at` meets the first refusal."""
    lines = [f"input: {len(given)} bytes"]
    for number, call in enumerate(CALLS):
        meets = number == refused_at or (number > refused_at and extent == WITH_LATER and call.asks)
        lines.append(call.refused if meets else f"{call.name}: {call.well}")
        if meets and not call.leads:
            break
    return lines


MESSAGES = messages_of(POST)
# Messages that grow, so that more room is asked for between two lines.
GROWING = b"".join(sorted(MESSAGES, key=len))
BARE = MESSAGES[0][4:]
NAMED = [file_of("post.bin", POST), file_of("growing.bin", GROWING)]
LOADED = ["--schema", str(SCHEMA)]
BYTES = file_of("bytes.bfbs", schemas.schema(
    [schemas.table("T", schemas.field("b", schemas.vector(schemas.U_BYTE), 4))], root="T"))
PATH = ["--path", "items[0]@Parcel.tags[1]"]
MANY_WORDS = [
    "--root", "post.Delivery", "--ident", "POST", "--max-depth", "9", "--max-tables=77", "--max-reads", "999",
    "--max-bytes", "4096", "--inline-size", "--no-alignment",
]

# Runs over an input. Where memory is refused, a front of whole lines is written.
RUNS = [
    Plan("a schema and a path, over a stream", [*LOADED, *PATH], POST, 1),
    Plan("a schema and a path, over a stream of growing messages", [*LOADED, *PATH], GROWING, 1),
    Plan("the same stream of growing messages, by 100 bytes", [*LOADED, *PATH], GROWING, 1, most=100),
    Plan("the same stream of growing messages, byte by byte", [*LOADED, *PATH], GROWING, 1, most=1),
    Plan("a schema and a path, over a bare input", [*LOADED, *PATH, "--bare", "--no-alignment"], BARE, 0),
    Plan("the same bare input, by 100 bytes", [*LOADED, *PATH, "--bare", "--no-alignment"], BARE, 0, most=100),
    Plan("many words, over a stream", [*LOADED, *MANY_WORDS], POST, 1),
    Plan("strict checks, over a stream", [*LOADED, *PATH, "--strict"], POST, 1),
    Plan("a file for bad messages, over a stream", [*LOADED, "--rejects", os.devnull], POST, 1),
    Plan("no schema, over a schema file", ["--bare"], SCHEMA.read_bytes(), 0),
    # Want of memory ends it all: no file behind is begun, and none is named beside it.
    Plan("two files, one behind another", [*LOADED, *PATH, *NAMED], b"", 1, waits=8),
    Plan("two bare files", [*LOADED, "--bare", "--no-alignment", *[file_of("bare.bin", BARE)] * 2], b"", 0,
         waits=4),
    Plan("standard input behind a file", [*LOADED, *PATH, NAMED[0], "-"], POST, 1, waits=4),
]

# Words that are answered before any input is read. Where memory is refused nothing is written to standard output: help
# that can't be made whole isn't begun.
ANSWERS = [
    Plan("help", ["--help"], b"", 0),
    Plan("a number out of its range", ["--max-depth", "4097"], b"", 2),
    Plan("an option without its value", ["--schema"], b"", 2),
    # The letters of this word, and of each option that it may be meant for, are collected too.
    Plan("a word that is no option", ["--pith"], b"", 2, guesses=106),
    Plan("an identifier of three bytes", ["--ident", "abc"], b"", 2),
    Plan("a filter with a path", ["--filter", "--path", "name"], b"", 2),
    Plan("a schema file that isn't there", ["--schema", "/none/such"], b"", 2),
    Plan("a schema file that isn't one", ["--schema", str(EXAMPLES / "deliveries.fbs")], b"", 2),
    Plan("a root that isn't there", [*LOADED, "--root", "post.None"], POST, 2),
    Plan("a path that doesn't fit", [*LOADED, "--path", "none"], POST, 2),
    Plan("bytes that may hold a buffer", ["--schema", str(BYTES), "--strict"], POST, 2),
]

# Runs of a filter over good messages. Where memory is refused, a front of whole messages is passed on.
GOOD = [message for number, message in enumerate(MESSAGES, 1) if number != 5]
FILTERS = [
    Plan("a filter, over a stream", [*LOADED, "--filter"], b"".join(GOOD), 0),
    Plan("a filter, over a stream of growing messages", [*LOADED, "--filter"], b"".join(sorted(GOOD, key=len)), 0),
]


# A run that tells nothing of good messages but their number.
FRAMED = [PROGRAM, "--schema", schemas.files()["N"], "--quiet", "--summary", "--max-bytes", "64"]


def summed(count):
    """The summary of so many messages of one table and 32 bytes each."""
    return f"summary: messages={count} yes={count} no=0 bytes={32 * count} tables={count} reads={5 * count}".encode()


def asked_by(messages, most):
    """The messages that ask for memory where one read gives so many bytes: the number of each, and behind how many
    bytes of the stream."""
    begin, room, asking = 0, 0, []
    for number, message in enumerate(messages):
        end = begin + len(message)
        if begin // most != (end - 1) // most and len(message) > room:
            asking.append((number, begin + 4))
            room = len(message)
        begin = end
    return asking


class RefusedMemory(Case):
    def test_each_call(self):
        """Each request of `test_probe calls` over a schema file."""
        given = SCHEMA.read_bytes()
        words = [built("test_probe"), "calls"]
        whole = refusing(words, given)
        self.same("without a refusal", (whole.lines(), whole.status), (told_of_calls(given, len(CALLS), ALONE), 0))
        until = whole.asked_before()
        self.same("the calls that make requests", [before != after for before, after in zip(until, until[1:])],
                  [call.asks for call in CALLS])
        self.same("none is made after them", until[-1], whole.asked)
        self.holds("a long path asks more than once", until[-1] - until[-2] > 1, until)
        for extent in ALONE, WITH_LATER:
            for first, run in enumerate(sweep(words, given, extent), 1):
                told = run.status, run.lines(), run.err, run.refused > 0
                if first <= until[0]:
                    want = 3, [], b"test_probe: out of memory\n", True
                else:
                    call = next(number for number, last in enumerate(until[1:]) if first <= last)
                    want = 0, told_of_calls(given, call, extent), b"", True
                    self.same(f"request {first}, {extent}: the call asks for nothing more",
                              run.asked_before()[call + 1], first)
                self.same(f"request {first}, {extent}", told, want)

    def test_each_run(self):
        for extent in ALONE, WITH_LATER:
            for plans, may_be_written in (RUNS, is_front), (FILTERS, is_front_of_messages), (ANSWERS, is_nothing):
                for plan in plans:
                    self.same(f"{plan.name}, {extent}", plan.faults(extent, may_be_written), [])

    def test_what_is_asked_for_before_the_first_read(self):
        """What a run needs whatever comes: a message that stands whole in a piece takes no memory but for its line, and
        a bare input takes none before it's known to be short enough."""
        for words, given, status in [
            ([*LOADED, "--quiet"], MESSAGES[0], 0),
            ([*LOADED, "--bare", "--max-bytes", "8"], bytes(9), 3),
        ]:
            run = refusing([PROGRAM, *words], given)
            self.same(words, (run.status, run.reads[:1]), (status, [run.asked]))

    def test_a_walk_takes_no_memory(self):
        """Deep and flat lists in one piece, in order and back: all that is asked for comes before the first read, but
        for the line of a bad one. So a walk serves where what came before it took the last byte."""
        by = "--schema", file_of("chain.bfbs", CHAIN), "--delimited"
        deep, flat = prefixed(levels(4096)), prefixed(levels(64))
        for depth, wants in [
            (4096, {deep: "ok tables=4096 depth=4096 reads=16383", flat: "ok tables=64 depth=64 reads=255"}),
            (4095, {deep: "bad V6 TooDeep at=32776 object=0 field=0 reads=16381",
                    flat: "ok tables=64 depth=64 reads=255"}),
            (64, {deep: "bad V6 TooDeep at=528 object=0 field=0 reads=257", flat: "ok tables=64 depth=64 reads=255"}),
        ]:
            words = *by, "--max-depth", str(depth)
            given = [deep, flat, flat, deep]
            status = int(any(want.startswith("bad") for want in wants.values()))
            told = run(*words, given=b"".join(given))
            self.same(f"{depth} levels", told, Ran(status, lines(*[
                f"{number} {wants[message]}" for number, message in enumerate(given, 1)]), b""))
            quiet = [PROGRAM, *map(str, words), "--quiet"]
            # what the line of a message takes that is refused before any walk
            line = status and refusing(quiet, file_of("lists", flat + prefixed(b"")))
            told = status and line.asked - line.reads[0]
            for piece in file_of("deep first", deep + flat), file_of("flat first", flat + deep):
                alone = refusing(quiet, piece)
                self.same(f"{depth} levels, requests", (alone.status, alone.asked - alone.reads[0]), (status, told))
                later = refusing(quiet, piece, alone.asked + 1, WITH_LATER)
                self.same(f"{depth} levels, none left", (later.status, later.refused), (status, 0))

    def test_each_request_of_a_framer(self):
        """A message that comes in several pieces asks once for as many bytes as it has, with the first one behind its
        prefix, where none before it had as many. Where that is refused, the messages before it are told."""
        longer = prefixed(SEVEN[4:] + bytes(32))
        for name, messages in ("of one length", [SEVEN, SEVEN]), ("that grow", [SEVEN, longer]):
            given = file_of(name, b"".join(messages))
            for most in range(1, len(b"".join(messages)) + 1):
                whole, asking = refusing(FRAMED, given, most=most), asked_by(messages, most)
                self.same(f"messages {name}, by {most}: requests before each read, and the most bytes",
                          (whole.status, [asked - whole.reads[0] for asked in whole.reads], whole.most),
                          (0, [sum(at < read * most for _, at in asking) for read, _ in enumerate(whole.reads)],
                           max([len(messages[number]) for number, _ in asking], default=0)))
                for place, (number, _) in enumerate(asking):
                    for extent in ALONE, WITH_LATER:
                        ran = refusing(FRAMED, given, whole.reads[0] + place + 1, extent, most)
                        self.same(f"messages {name}, by {most}: message {number} is refused {extent}",
                                  (ran.status, ran.err.splitlines(), ran.asked),
                                  (3, [summed(number), b"fbcheck: out of memory"], whole.reads[0] + place + 1))

    def test_an_oversize_prefix(self):
        """A prefix that declares too much makes no request: the same requests are made without it."""
        words = [PROGRAM, *LOADED]
        for most in 1, 511, 512, 513, WHOLE:
            alone = refusing(words, MESSAGES[0], most=most)
            too_long = refusing(words, MESSAGES[0] + b"\xff" * 4, most=most)
            self.same(f"the message alone, by {most} bytes", (alone.status, alone.err), (0, b""))
            told = too_long.status, too_long.err, too_long.out, too_long.asked
            self.same(f"with the prefix, by {most} bytes", told,
                      (3, f"fbcheck: {oversize(4294967295)}\n".encode(), alone.out, alone.asked))
        for name, messages, prefix in [
            ("alone", [], b"\xff" * 4), ("a byte past the limit", [], spelled("3d000000 01")),
            ("behind a message", [SEVEN], b"\xff" * 4),
        ]:
            given = file_of("oversize", b"".join(messages) + prefix)
            for most in range(1, 37):
                ran = refusing(FRAMED, given, most=most)
                told = ran.status, ran.err.splitlines()[0], b" S1 " in ran.err, ran.asked - ran.reads[0]
                self.same(f"{name}, by {most}: requests", told, (3, summed(len(messages)), True,
                                                                len(asked_by(messages, most))))
