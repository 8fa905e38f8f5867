"""examples/split: that parts at message borders are the stream, that numbers are recovered, and each of its faults."""

import os
import random
import re
import resource
import select
import subprocess
import sys

from tests.support.buffers import POST
from tests.support.builder import messages_of, prefixed
from tests.support.cases import Case
from tests.support.program import TOP, file_of, folder_of, run

FOLDER = folder_of(__name__)
SPLIT = TOP / "examples/split"


def split(*words, given):
    """A call with these bytes as a file on standard input: its status, what it prints and what it tells."""
    with open(file_of("given", given), "rb") as stream:
        return ended(subprocess.run([SPLIT, *map(str, words)], stdin=stream, capture_output=True, timeout=60))


def split_pipe(*words, given):
    """The same by a pipe."""
    return ended(subprocess.run([SPLIT, *map(str, words)], input=given, capture_output=True, timeout=60))


def ended(ran):
    return ran.returncode, ran.stdout.decode().splitlines(), ran.stderr.decode().splitlines()


def table_of(lines):
    """The lines of the parts, as a name and the numbers by their names."""
    return {name: {key: int(number) for key, number in re.findall(r" (\w+)=(\d+)", rest)}
            for name, rest in (re.fullmatch(r"(\S+)((?: \w+=\d+)+)", line).groups() for line in lines)}


def streams():
    """Streams of messages of several lengths, by name."""
    chance = random.Random(7)
    yield "nothing", b""
    yield "one message", prefixed(b"alone")
    yield "messages without a byte", prefixed(b"") * 10
    yield "deliveries", POST
    yield "many lengths", b"".join(prefixed(chance.randbytes(chance.randrange(300))) for _ in range(3000))
    yield "one long among short ones", prefixed(b"a") * 50 + prefixed(bytes(3 << 20)) + prefixed(b"b") * 50


def starts_of(messages):
    """Where each message begins."""
    starts, at = [], 0
    for message in messages:
        starts.append(at)
        at += len(message)
    return starts


def heard(pipe, length):
    """So many bytes of a pipe, or fewer where it ends or nothing more comes."""
    found = b""
    while len(found) < length and select.select([pipe], [], [], 20)[0]:
        more = os.read(pipe, length - len(found))
        if not more:
            break
        found += more
    return found

MOST = """
import resource, subprocess, sys
status = subprocess.run(sys.argv[1:], stdout=subprocess.DEVNULL).returncode
print(status, resource.getrusage(resource.RUSAGE_CHILDREN).ru_maxrss)
"""


class Split(Case):
    def numbers_are_recovered(self, name, stream, folder, lines, share):
        """Each message stands in the part that its share says, under the number that the part's line gives."""
        table = table_of(lines)
        self.same(f"{name}: the files are those of the lines", sorted(os.listdir(folder)), list(table))
        want = messages_of(stream)
        found = {}
        for index, (part, told) in enumerate(table.items()):
            data = (folder / part).read_bytes()
            mine = messages_of(data)
            self.same(f"{name}, {part}: its counts", (len(mine), len(data)), (told["messages"], told["bytes"]))
            for place, message in enumerate(mine):
                found[told["first"] + place * told["step"]] = index, message
        expected = {number: (share(number, start), message)
                    for number, (start, message) in enumerate(zip(starts_of(want), want), 1)}
        self.holds(f"{name}: each message once, by its number, in its part", found == expected)

    def test_parts_in_runs(self):
        for name, stream in streams():
            for count in (1, 3, 120):
                what, folder = f"{name} in {count}", FOLDER / f"runs of {name} in {count}"
                status, lines, told = split(count, folder, given=stream)
                self.same(f"{what}: it ends well", (status, told), (0, []))
                self.numbers_are_recovered(what, stream, folder, lines, lambda _, at: at * count // len(stream))
                whole = b"".join((folder / part).read_bytes() for part in sorted(os.listdir(folder)))
                self.holds(f"{what}: one behind another they are the stream", whole == stream)
                self.same(f"{what}: the lines without a folder", split(count, given=stream), (0, lines, []))
                places = [(told["at"], told["bytes"]) for told in table_of(lines).values()]
                cut = b"".join(stream[at : at + length] for at, length in places)
                self.holds(f"{what}: where they stand in the stream", cut == stream)

    def test_parts_in_turn(self):
        for name, stream in streams():
            for count in (1, 5, 120):
                what, folder = f"{name} dealt to {count}", FOLDER / f"{name} dealt to {count}"
                status, lines, told = split_pipe("--deal", count, folder, given=stream)
                self.same(f"{what}: it ends well", (status, told), (0, []))
                self.numbers_are_recovered(what, stream, folder, lines, lambda number, _: (number - 1) % count)

    def test_a_stream_behind_other_bytes(self):
        """Standard input that stands in the middle of a file is cut from there on."""
        path = file_of("behind", b"head" * 1000 + POST)
        with open(path, "rb") as stream:
            os.lseek(stream.fileno(), 4000, os.SEEK_SET)
            told = ended(subprocess.run([SPLIT, "3"], stdin=stream, capture_output=True, timeout=60))
        self.same("from where it stands", told, split(3, given=POST))

    def test_faults_of_a_stream(self):
        """They have the program's texts without options behind them; the messages before them are in the parts."""
        by_post = ["--schema", TOP / "examples/deliveries.bfbs"]
        for name, words, stream, whole in [
            ("a cut message", [], POST[:1500], 5),
            ("a cut prefix", [], POST + b"\1\0\0", 6),
            ("a prefix past the limit", [], POST + b"\xfd\xff\xff\x03", 6),
            ("a prefix past the limit behind 2 MiB", [], prefixed(bytes(2 << 20)) + b"\xff\xff\xff\xff", 1),
            ("a message past a limit", ["--max-bytes", "511"], POST, 0),
            ("a message at a limit", ["--max-bytes", "512"], POST, 6),
        ]:
            ran = run(*by_post, *words, given=stream)
            told = [line.partition(";")[0] for line in ran.err.decode().splitlines()]
            want = [line.replace("fbcheck:", "split:") for line in told]
            for form, call, more in [("runs", split, []), ("dealt", split_pipe, ["--deal"])]:
                folder = FOLDER / f"{name} {form}"
                status, lines, told = call(*more, *words, 3, folder, given=stream)
                self.same(f"{name}, {form}: status and text", (status, told), (3 if want else 0, want))
                table = table_of(lines).values()
                self.same(f"{name}, {form}: messages before it", sum(part["messages"] for part in table), whole)
                written = sum(path.stat().st_size for path in folder.iterdir())
                self.same(f"{name}, {form}: their bytes", sum(part["bytes"] for part in table), written)

    def test_faults_of_files(self):
        folder = FOLDER / "taken"
        split(2, folder, given=POST)
        status, lines, told = split(3, folder, given=POST)
        self.same("a folder with files", (status, lines), (3, []))
        self.holds("is told by a name", re.fullmatch(r"split: .*/taken/part-[12]: is there already", told[0]), told)
        folder = FOLDER / "left over"
        folder.mkdir()
        os.mkfifo(folder / "part-2")
        text = f"split: {folder}/part-2: is a named pipe, which only --deal writes to"
        self.same("a named pipe without --deal", split(2, folder, given=POST), (3, [], [text]))
        self.same("by which no file is made", os.listdir(folder), ["part-2"])
        self.same("a folder that can't be made", split(3, "/dev/null/x", given=POST),
                  (3, [], ["split: /dev/null/x: Not a directory"]))
        self.same("a folder in one that isn't there", split(3, FOLDER / "no/x", given=POST),
                  (3, [], [f"split: {FOLDER}/no/x: No such file or directory"]))
        limit = lambda: resource.setrlimit(resource.RLIMIT_FSIZE, (100, 100))
        ran = subprocess.run([SPLIT, "--deal", "1", FOLDER / "full"], input=POST, capture_output=True, preexec_fn=limit)
        self.same("a file that takes no more", (ran.returncode, ran.stderr), (3, b"split: part-1: File too large\n"))

    def test_wrong_words(self):
        for words, text in [
            ([], "the following arguments are required: PARTS"),
            (["0", "x"], "argument PARTS: invalid number from 1 to 100000 value: '0'"),
            (["two", "x"], "argument PARTS: invalid number from 1 to 100000 value: 'two'"),
            (["--max-bytes", "7", "2"], "argument --max-bytes: invalid number from 8 to 2147483647 value: '7'"),
            (["--deal", "2"], "--deal needs a FOLDER"),
            (["2", "x", "y"], "unrecognized arguments: y"),
        ]:
            status, lines, told = split(*words, given=POST)
            self.same(f"{words}", (status, lines, told[-1]), (2, [], f"split: error: {text}"))
        status, lines, told = split_pipe(2, FOLDER / "piped", given=POST)
        text = "split: error: standard input isn't a file, so its size isn't known; --deal takes a pipe"
        self.same("runs of a pipe", (status, lines, told[-1]), (2, [], text))
        self.holds("and no folder is made", not (FOLDER / "piped").exists())
        status, lines, told = split("--help", given=b"")
        self.holds("help", (status, told) == (0, []) and "S2 Truncated" in "\n".join(lines), lines)

    def test_pipes_get_each_message_at_once(self):
        folder = FOLDER / "pipes"
        folder.mkdir()
        for name in ("part-1", "part-2"):
            os.mkfifo(folder / name)
        run = subprocess.Popen([SPLIT, "--deal", "2", folder], stdin=subprocess.PIPE, stdout=subprocess.PIPE,
                               stderr=subprocess.PIPE, bufsize=0)
        readers = [os.open(folder / name, os.O_RDONLY | os.O_NONBLOCK) for name in ("part-1", "part-2")]
        messages = messages_of(POST)
        for number, message in enumerate(messages):
            run.stdin.write(message[:-1])
            run.stdin.write(message[-1:])
            self.holds(f"message {number + 1} arrives while the input stays open",
                       heard(readers[number % 2], len(message)) == message)
        os.close(readers[0])
        run.stdin.write(messages[0])
        status = run.wait(60)
        self.same("a part whose reader is gone", (status, run.stderr.read()), (3, b"split: part-1: Broken pipe\n"))
        self.same("the lines tell what was passed on", run.stdout.read().decode().splitlines(),
                  ["part-1 first=1 step=2 messages=3 bytes=1168", "part-2 first=2 step=2 messages=3 bytes=384"])
        os.close(readers[1])
        for pipe in (run.stdin, run.stdout, run.stderr):
            pipe.close()

    def test_little_memory(self):
        """Of 100 MB of short messages, and of one long message."""
        for name, piece, count, most in [
            ("short messages", prefixed(bytes(1020)) * 1000, 100, 40),
            ("a message of 40 MB", prefixed(bytes(40_000_000)), 1, 130),
        ]:
            words = [sys.executable, "-c", MOST, SPLIT, "--deal", "3", FOLDER / f"big {name}"]
            with subprocess.Popen(words, stdin=subprocess.PIPE, stdout=subprocess.PIPE) as run:
                for _ in range(count):
                    run.stdin.write(piece)
                run.stdin.close()
                status, kilobytes = map(int, run.stdout.read().split())
            self.holds(f"{name}: {most} MB are enough", status == 0 and kilobytes < most * 1000, (status, kilobytes))
