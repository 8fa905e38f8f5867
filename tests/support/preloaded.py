"""Runs of programs before which a library is loaded that stands between them and the system.

tests/ends/narrow.c gives and takes little at a call, or fails at a given one. tests/memory/refuse.c counts requests for
memory, and refuses the one with a given number, alone or with all later ones. `cc` compiles both here.
"""

import concurrent.futures
import dataclasses
import functools
import os
import subprocess
import tempfile

from tests.support.builder import messages_of
from tests.support.clone import FOLDER
from tests.support.program import PROGRAM, SECONDS, TOP, file_of, run

# How many runs are under way at once.
AT_ONCE = 4

# Which later requests are refused beside the one that is asked for.
ALONE, WITH_LATER = "alone", "with all later ones"

# As many bytes as a read asks for, up to the length of the read buffer.
WHOLE = 65_536


@functools.cache
def shared_library(source):
    """The library of a file below tests/, of which the compiler has nothing to say."""
    made = FOLDER / source.replace("/", "-").replace(".c", ".so")
    words = ["cc", "-O2", "-Wall", "-Wextra", "-Werror", "-shared", "-fPIC", "-o", made, TOP / "tests" / source]
    subprocess.run(words, check=True)
    return made


def narrowed(*words, given, **limits):
    """A run whose ends have these limits, by the names of narrow.c without NARROW_."""
    limits = {f"NARROW_{name.upper()}": str(limit) for name, limit in limits.items()}
    return run(*words, given=given, env={**os.environ, "LD_PRELOAD": str(shared_library("ends/narrow.c")), **limits})


def counted(*words, given, **limits):
    """Such a run, with the number of reads that it made of standard input."""
    report = file_of("reads", b"")
    return narrowed(*words, given=given, report=report, **limits), int(report.read_bytes())


@dataclasses.dataclass
class Run:
    """What a run answered, and what it asked for."""

    status: int
    out: bytes
    err: bytes
    # the requests made before each read of standard input
    reads: list
    # the requests made before each write to standard output, and the bytes of the write
    writes: list
    # the most bytes that one request asked for since the first read
    most: int
    asked: int
    refused: int

    def lines(self):
        return self.out.decode().splitlines()

    def asked_before(self):
        """For each line, the number of requests made before its first byte was written."""
        starts, at = {}, 0
        for asked, length in self.writes:
            starts[at] = asked
            at += length
        told, at, begin = [], 0, 0
        for line in self.out.splitlines(keepends=True):
            begin = max(start for start in starts if start <= at)
            told.append(starts[begin])
            at += len(line)
        return told


def refusing(words, given, first=0, extent=ALONE, most=WHOLE):
    """A run in which the request numbered `first` is refused; none where it is 0. `most` is how many bytes a read of
    standard input gives. What is given by the path of a file comes in whole pieces, and by a pipe maybe in smaller ones."""
    with tempfile.NamedTemporaryFile("r", dir=FOLDER) as report:
        settings = {
            "LD_PRELOAD": f"{shared_library('ends/narrow.c')} {shared_library('memory/refuse.c')}",
            "NARROW_READ": str(most),
            "REFUSE_FIRST": str(first),
            "REFUSE_LATER": "1" if extent == WITH_LATER else "0",
            "REFUSE_REPORT": report.name,
        }
        if isinstance(given, bytes):
            ran = subprocess.run(words, input=given, capture_output=True, env=settings, timeout=SECONDS)
        else:
            with open(given, "rb") as file:
                ran = subprocess.run(words, stdin=file, capture_output=True, env=settings, timeout=SECONDS)
        *calls, (most, largest, _), (end, asked, refused) = [line.split() for line in report]
    assert (most, end) == ("most", "end"), calls
    reads = [int(before) for call, before, _ in calls if call == "read"]
    writes = [(int(before), int(length)) for call, before, length in calls if call == "write"]
    return Run(ran.returncode, ran.stdout, ran.stderr, reads, writes, int(largest), int(asked), int(refused))


def sweep(words, given, extent, most=WHOLE):
    """A run for each request of a run that meets no refusal, in which it is refused."""
    asked = refusing(words, given, most=most).asked
    with concurrent.futures.ThreadPoolExecutor(AT_ONCE) as runs:
        yield from runs.map(lambda first: refusing(words, given, first, extent, most), range(1, asked + 1))


@dataclasses.dataclass
class Plan:
    """A run of the program: its words and its input, and the status by which it ends where nothing is refused.

    `guesses` is how many of its requests before the first read may be refused alone without a change. Where a list is
    collected, the toolchain's library first asks for room for as many items as there may be; where that is refused, it
    asks for what it needs. Every run collects its words so. What is to wait for an output is written as it is where
    there is no room: so any request behind the first read of standard input may be refused without a change, and for
    files before that as many as `waits`. `most` is how many bytes of the input one read gives.
    """

    name: str
    words: list
    given: bytes
    status: int
    guesses: int = 1
    waits: int = 0
    most: int = WHOLE

    def faults(self, extent, may_be_written):
        """What is wrong where each request is refused in turn. Nothing is read where one is refused that comes before
        the first read."""
        words = [PROGRAM, *self.words]
        whole = refusing(words, self.given, most=self.most)
        if whole.status != self.status or not whole.out + whole.err:
            return [f"without a refusal: {whole}"]
        if self.most < WHOLE and len(whole.reads) != -(-len(self.given) // self.most) + 1:
            return [f"pieces of another length: {whole.reads}"]
        before_reads = whole.reads[0] if whole.reads else whole.asked
        unchanged, faults, fronts = [], [], set()
        for first, ran in enumerate(sweep(words, self.given, extent, self.most), 1):
            fronts.add(ran.out)
            if ran.refused == 0:
                faults.append(f"request {first} was not met")
            elif (ran.status, ran.out, ran.err) == (whole.status, whole.out, whole.err):
                unchanged += [first] if first <= before_reads else []
            elif (ran.status, ran.err) != (3, b"fbcheck: out of memory\n") or not may_be_written(ran.out, whole.out):
                faults.append(f"request {first}: {ran.status}, {ran.out!r}, {ran.err!r}")
            elif first <= before_reads and ran.reads:
                faults.append(f"request {first} is refused, and the input is read")
        if len(unchanged) > self.waits + (self.guesses if extent == ALONE else 0):
            faults.append(f"refused without a change: {unchanged}")
        parts = fronts - {b"", whole.out}
        if may_be_written is is_front and whole.out.count(b"\n") > 1 and not parts:
            faults.append("no run wrote some of the lines alone")
        return faults


def is_front(out, whole):
    """Whether what was written is a front of whole lines of what is written without a refusal."""
    return whole.startswith(out) and (out == b"" or out.endswith(b"\n"))


def is_front_of_messages(out, whole):
    parts = messages_of(whole)
    return out in [b"".join(parts[:count]) for count in range(len(parts) + 1)]


def is_nothing(out, _whole):
    return out == b""
