"""Streams of messages in Python: the same however they are cut and handed over, and what is told of their faults."""

import array
import asyncio
import gzip
import io
import os
import pickle
import socket
import struct
import time

from tests.support import schemas
from tests.support.buffers import ORC, POST, named
from tests.support.builder import messages_of, prefixed
from tests.support.program import TOP, run
from tests.support.python import PythonCase

ORDERS = TOP / "examples/deliveries.bfbs"
FILES = schemas.files()


def lines_of(told):
    """The program's lines with these verdicts."""
    return [f"{number} {verdict}" for number, verdict in enumerate(told, 1)]


class Streams(PythonCase):
    def by(self, name, **options):
        """A schema of the tests by its name, or any file's."""
        return self.module.Schema(FILES.get(name, name), **options)

    def test_streams(self):
        """The same messages and verdicts however a stream is cut and handed over."""
        checker, want = self.module.Schema(ORDERS, prefixed=True), messages_of(POST)
        lines = run("--schema", ORDERS, "--names", given=POST).out.decode().splitlines()
        pieces = lambda size: [POST[at:at + size] for at in range(0, len(POST), size)]
        forms = {f"pieces of {size}": pieces(size) for size in [*range(1, 100), 512, 1000, len(POST)]}
        forms |= {"bytes": POST, "a bytearray": bytearray(POST), "a view": memoryview(POST),
                  "an array": array.array("B", POST), "a file": io.BytesIO(POST),
                  "a bare file": io.FileIO(TOP / "examples/deliveries.bin"),
                  "with empty pieces": [b"", *pieces(7), b""], "a generator": (bytearray(one) for one in pieces(9))}
        for name, stream in forms.items():
            told = [*checker.messages(stream)]
            self.same(name, ([message for message, _ in told], lines_of(verdict for _, verdict in told)), (want, lines))
        forms["a bare file"].close()
        mine, theirs = socket.socketpair()
        with mine, theirs, theirs.makefile("rb") as stream:
            messages = checker.messages(stream)
            for one in want:
                mine.sendall(one)
                self.same("a message comes as soon as it is whole", next(messages)[0], one)
            mine.shutdown(socket.SHUT_WR)
            self.same("and then the end", [*messages], [])
        self.same("no message", [*checker.messages(b"")], [])
        bare = checker.replace(prefixed=False)
        self.fails("a schema of other messages", ValueError, "prefixed=True", lambda: bare.messages(POST))

    def test_streams_that_have_no_bytes_yet(self):
        """A pipe that doesn't wait has no end while another process may write it."""
        checker, told = self.module.Schema(ORDERS, prefixed=True), []

        def go_through(stream):
            for message, _ in checker.messages(stream):
                told.append(message)

        for buffering in (-1, 0):
            end, begin = os.pipe()
            os.set_blocking(end, False)
            with open(end, "rb", buffering) as stream:
                with open(begin, "wb", 0) as writer:
                    for given in (POST, POST[:9]):
                        writer.write(given)
                        self.fails("no bytes yet", BlockingIOError, "non-blocking", lambda: go_through(stream))
                self.same("and then the end", go_through(stream), None)
        self.same("what came by then", told, messages_of(POST) * 2)

    def test_streams_that_come_later(self):
        """The same by `async for`: of pieces, and of a reader, whose bytes are no lines."""
        checker, want = self.module.Schema(ORDERS, prefixed=True), messages_of(POST)
        lines = run("--schema", ORDERS, "--names", given=POST).out.decode().splitlines()

        async def pieces(data, size):
            for at in range(0, len(data), size):
                await asyncio.sleep(0)
                yield data[at:at + size]

        async def reader(data):
            made = asyncio.StreamReader()
            made.feed_data(data)
            made.feed_eof()
            return made

        async def told(stream, **words):
            stream, found = await stream if asyncio.iscoroutine(stream) else stream, []
            try:
                async for one in checker.messages(stream, **words):
                    found.append(one)
            except self.module.StreamError as error:
                found.append(str(error))
            return found

        streams_of_post = {f"pieces of {size}": pieces(POST, size) for size in (1, 7, 512, 9999)}
        for name, stream in {"a reader": reader(POST), **streams_of_post}.items():
            got = asyncio.run(told(stream))
            self.same(name, ([message for message, _ in got], lines_of(verdict for _, verdict in got)), (want, lines))

        async def slowly(end, begin):
            """What comes of a pipe that has no bytes for a while, more than once."""
            reader, loop = asyncio.StreamReader(), asyncio.get_running_loop()
            await loop.connect_read_pipe(lambda: asyncio.StreamReaderProtocol(reader), end)
            going = asyncio.create_task(told(reader))
            for at in range(0, len(POST), 300):
                await asyncio.sleep(0.01)
                os.write(begin, POST[at:at + 300])
            os.close(begin)
            return await going

        end, begin = os.pipe()
        with open(end, "rb", 0) as stream:
            got = asyncio.run(slowly(stream, begin))
        self.same("a pipe", [message for message, _ in got], want)
        long = prefixed(bytes(1 << 18))
        self.same("no line's end", len(asyncio.run(told(reader(long * 3)))), 3)
        got = asyncio.run(told(pieces(POST[:-3], 100)))
        self.same("an end too early", (len(got), got[-1]), (
            len(want), "the stream ends inside message 6, which begins at byte 1352: 197 of its 200 bytes came"))
        got = asyncio.run(told(pieces(POST, 100), max_bytes=99))
        self.same("a long one", got, ["message 1, which begins at byte 0, has 4 + 508 bytes, where at most 99 are"
                                      " allowed; max_bytes allows longer messages"])

    def test_streams_that_go_on(self):
        """After an exception of its source an iterator goes on with what it holds."""
        checker, want = self.module.Schema(ORDERS, prefixed=True), messages_of(POST)

        def after(messages, kind, times):
            """What comes of an iterator, the source of which raises so often such an exception."""
            came, raised = [], 0
            while raised <= times:
                try:
                    came.append(next(messages)[0])
                except kind:
                    raised += 1
                except StopIteration:
                    break
            return came, raised

        for buffering in (-1, 0):
            end, begin = os.pipe()
            os.set_blocking(end, False)
            with open(end, "rb", buffering) as stream, open(begin, "wb", 0) as writer:
                messages, came = checker.messages(stream), []
                for at in range(0, len(POST), 100):
                    writer.write(POST[at:at + 100])
                    came += after(messages, BlockingIOError, 0)[0]
                self.fails("no bytes yet", BlockingIOError, "non-blocking", lambda: next(messages))
                writer.close()
                self.same("a pipe that doesn't wait", (came, [*messages]), (want, []))

        class Line:
            """Pieces of a connection that is lost before each of them."""

            def __init__(self, data, size):
                self.pieces, self.turns = [data[at:at + size] for at in range(0, len(data), size)], 0

            def __iter__(self):
                return self

            def __next__(self):
                self.turns += 1
                if self.turns % 2:
                    raise ConnectionError("lost")
                if not self.pieces:
                    raise StopIteration
                return self.pieces.pop(0)

        for size in (1, 100, 512, 9999):
            turns = 1 + (len(POST) + size - 1) // size
            came = after(checker.messages(Line(POST, size)), ConnectionError, turns)
            self.same(f"pieces of {size} that fail once each", came, (want, turns))
        messages = checker.messages(Line(POST[:-3], 100))
        self.same("they end inside a message", len(after(messages, (ConnectionError, EOFError), 99)[0]), 5)
        for _ in range(2):
            self.fails("and this is told again", self.module.Truncated, "197 of its 200 bytes", lambda: next(messages))
        messages = checker.messages(POST[:512] + b"\xff" * 9)
        next(messages)
        for _ in range(2):
            self.fails("as one that is too long is", self.module.Oversize, "message 2", lambda: next(messages))

        def dies():
            yield POST[:99]
            raise ConnectionError("lost")

        messages = checker.messages(dies())
        self.fails("a generator", ConnectionError, "lost", lambda: next(messages))
        self.fails("which can't go on", self.module.Truncated, "99 of its 512 bytes", lambda: next(messages))

    def test_waits_that_are_cancelled(self):
        """An iterator that is asynchronous goes on after a wait that was given up."""
        checker, want = self.module.Schema(ORDERS, prefixed=True), messages_of(POST)

        async def given_up(cut, **words):
            """What comes of a reader whose bytes come in two parts, with a wait between them."""
            reader, came = asyncio.StreamReader(), []
            messages = checker.messages(reader, **words)
            reader.feed_data(POST[:cut])
            for part in (POST[cut:], b""):
                try:
                    while True:
                        came.append((await asyncio.wait_for(anext(messages), 0.01))[0])
                except asyncio.TimeoutError:
                    reader.feed_data(part) if part else reader.feed_eof()
            return came + [one async for one in messages]

        for cut in (1, 3, 4, 99, 511, 512, 600):
            for words in ({}, {"paths": ("id",)}, {"views": True}):
                self.same(f"after {cut} bytes, {words}", asyncio.run(given_up(cut, **words)), want)

        async def together():
            """Two waits at once, of which one is refused."""
            reader = asyncio.StreamReader()
            messages = checker.messages(reader)
            first = asyncio.ensure_future(anext(messages))
            await asyncio.sleep(0)
            try:
                await anext(messages)
            except RuntimeError as error:
                told = str(error)
            reader.feed_data(POST[:600])
            reader.feed_eof()
            got, faults = (await first)[0], []
            for _ in range(3):
                try:
                    await anext(messages)
                except self.module.Truncated as error:
                    faults.append(error.held)
            return told, got, faults

        self.same("two at once", asyncio.run(together()), (
            "another call waits for the next message of this stream", want[0], [24] * 2))

    def test_faults_of_streams(self):
        of, checker = self.module, self.by("M", prefixed=True)
        whole = prefixed(ORC)

        def told(stream, **words):
            """The messages that come, and the fault."""
            found = []
            try:
                for message, _ in checker.messages(stream, **words):
                    found.append(message)
            except of.StreamError as error:
                again = pickle.loads(pickle.dumps(error))
                self.same("pickled", (type(again), str(again)), (type(error), str(error)))
                return found, type(error), vars(error), str(error)
            return found

        for end in range(len(whole)):
            given = whole * 2 + whole[:end]
            size, part = (36, f"{end} of its 36 bytes") if end >= 4 else (None, f"{end} of the 4 bytes of its size")
            has = {"held": end, "size": size, "number": 3, "start": 72, "hint": ""}
            want = [whole] * 2 if end == 0 else ([whole] * 2, of.Truncated, has, "the stream ends inside message 3,"
                                                 f" which begins at byte 72: {part} came")
            for size in (1, 3, len(given)):
                got = told([given[at:at + size] for at in range(0, len(given), size)])
                self.same(f"{end} bytes at the end, in pieces of {size}", got, want)
        self.same("room for one", told(whole, max_bytes=len(whole)), [whole])
        longer = "max_bytes allows longer messages"
        want = [], of.Oversize, {"declared": 32, "limit": 35, "number": 1, "start": 0, "hint": longer}, (
            f"message 1, which begins at byte 0, has 4 + 32 bytes, where at most 35 are allowed; {longer}")
        self.same("and for less", (len(whole), told(whole, max_bytes=35)), (36, want))
        got = told([whole, whole[:9], whole[9:] + b"\xff" * 4 + whole])
        self.same("the messages before come", got[:2], ([whole] * 2, of.Oversize))
        for limit in (7, 2**31):
            self.fails(f"room for {limit}", ValueError, "max_bytes", lambda: checker.messages(b"", max_bytes=limit))
        for wrong in ("text", ["text"], io.StringIO("text"), 5, None, [5]):
            words = "" if wrong in (5, None, [5]) else 'open its file with "rb"'
            self.fails(f"a stream that is {wrong!r}", TypeError, words, lambda: [*checker.messages(wrong)])
        with open(TOP / "examples/deliveries.bin", encoding="utf-8") as text:
            self.fails("a file of a text", TypeError, 'open its file with "rb"', lambda: checker.messages(text))
            self.fails("no schema's", TypeError, "a path or a bytes-like object, and not 'TextIOWrapper'",
                       lambda: of.Schema(text))
        self.holds("an end too early is an EOFError too", issubclass(of.Truncated, EOFError))

    def test_what_is_no_stream(self):
        """A stream that can't go on tells what it looks like, and what may help."""
        of, checker = self.module, self.by("M", prefixed=True)
        big = struct.pack(">I", len(ORC)) + ORC
        for name, given, kind, words in [
            ("gzip", gzip.compress(prefixed(ORC)), (of.Oversize, of.Truncated),
             "; the stream looks like gzip: gzip.open() reads it"),
            ("JSON", b'{"name": "Orc"}', of.Oversize,
             "; the stream looks like JSON, of which flatc --binary --size-prefixed makes messages"),
            ("lists of JSON", b' \n[{"name"', of.Oversize, "; the stream looks like JSON"),
            ("text", b"name,hp\nOrc,300\n", of.Oversize, "; the stream looks like text"),
            ("sizes the other way round", big * 2, of.Oversize, "; the size may be big-endian"),
            ("a schema file", ORDERS.read_bytes() + b"\xff" * 9, (of.Oversize, of.Truncated),
             "; the stream looks like a schema file (.bfbs)"),
            ("a bare buffer", ORC + bytes(5), (of.Oversize, of.Truncated), "; no message before was ok"),
            ("a long message", prefixed(bytes(2**26 + 999)), of.Oversize, "; max_bytes allows longer messages"),
            ("a good one before it", prefixed(ORC) + b"{}{}{}", of.Oversize, "; max_bytes allows longer messages"),
            ("what nothing allows", prefixed(ORC) + b"\xff" * 9, of.Oversize, " are allowed"),
        ]:
            for call in (lambda: [*checker.messages(given)], lambda: checker.columns(given, ("hp",), bad="skip")):
                try:
                    told = call()
                except of.StreamError as error:
                    told = error
                self.holds(name, isinstance(told, kind) and words in str(told), (type(told), str(told)))
                self.same(f"{name}: the hint ends its text", str(told).partition("; ")[2], told.hint)
        error = self.fails("a schema file", of.BadBuffer, "; the stream looks like a schema file (.bfbs)",
                           lambda: checker.columns(ORDERS.read_bytes(), ("hp",)))
        self.same("where", (error.number, error.start, str(error).startswith("message 1: bad V")), (1, 0, True))
        for call in (checker.messages, lambda stream: checker.columns(stream, ("hp",))):
            self.fails("a path", TypeError, 'no PosixPath: open its file with "rb"', lambda: call(ORDERS))
            self.fails("its name", TypeError, 'no str: open its file with "rb"', lambda: call("x.bin"))
            for wrong in (5, None):
                self.fails(f"{wrong}", TypeError, f"pieces, and not {type(wrong).__name__!r}", lambda: call(wrong))

    def test_messages_of_messages(self):
        """An iterator of messages is no stream of another one, and loses nothing."""
        checker = self.by("M", prefixed=True)
        messages = checker.messages(prefixed(ORC) * 2)
        next(messages)
        self.fails("given again", TypeError, "an iterator of messages already", lambda: checker.messages(messages))
        self.fails("its pairs", TypeError, "bytes-like", lambda: next(checker.messages(one for one in messages)))
        messages = checker.messages(prefixed(ORC) * 2)
        again = checker.messages(one for one, _ in messages)
        self.same("its messages", len([*again]), 2)

    def test_long_streams(self):
        """A stream costs in proportion to its bytes, though it comes in one piece."""
        checker, one = self.by("M", prefixed=True), prefixed(ORC)
        seconds = {}
        for count in (50_000, 200_000):
            begun = time.process_time()
            self.same(f"{count} messages in a piece", sum(1 for _ in checker.messages(one * count)), count)
            seconds[count] = time.process_time() - begun
        linear = seconds[200_000] < 12 * seconds[50_000] + 0.2
        self.holds("four times as many take some four times as long", linear, seconds)
        self.holds("a piece of 7 MB takes less than two seconds", seconds[200_000] < 2, seconds)
        told = [len(message) for message, verdict in checker.messages(named(9_000_000) * 3) if verdict]
        self.same("messages of 9 MB", told, [9_000_000] * 3)
