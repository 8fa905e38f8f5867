"""How much of its thread's stack a call of the library for C takes: no more than include/fbcheck.h says."""

import itertools
import re

from tests.support import schemas
from tests.support.buffers import POST, levels
from tests.support.builder import buffer, messages_of
from tests.support.every_kind import FILE, WHOLE
from tests.support.header import KNOWN_FIELDS, PLAIN_BYTES, STRICT, UTF8
from tests.support.library import STATIC, LibraryCase, ran
from tests.support.program import TOP, file_of
from tests.support.strict_messages import MESSAGES

SAID = re.compile(r"a check uses up to (\d+) KB of its \* thread's stack, with a scratch or without, and "
                  r"fbcheck_locate (\d+) KB; with options.demands up to (\d+) KB more")
ALL = STRICT | KNOWN_FIELDS | UTF8


def given():
    """Schema files, each with buffers that are ok and such that aren't: flat ones, deep ones, and nested ones."""
    chain, whole = levels(60), buffer(WHOLE, b"KIND")
    yield schemas.CHAIN, [chain, chain[:-1], b""]
    yield FILE, [whole, whole[:-3]]
    yield (TOP / "examples/deliveries.bfbs").read_bytes(), [message[4:] for message in messages_of(POST)]
    yield (TOP / "tests/generated/nests.bfbs").read_bytes(), [
        cut for message in MESSAGES["nests"] for cut in (message, message[:-4])]


class Stack(LibraryCase):
    def test_no_more_than_the_header_says(self):
        header = " ".join((TOP / "include/fbcheck.h").read_text().split())
        check, locate, more = (1024 * int(number) for number in SAID.search(header).groups())
        stack = self.compiled("stack", TOP / "tests/c/stack.c", *STATIC, "-lpthread")
        seen = {}
        for number, (file, buffers) in enumerate(given()):
            path = file_of(f"{number}.bfbs", file)
            for (at, data), demands in itertools.product(enumerate(buffers), [0, STRICT, ALL, ALL | PLAIN_BYTES]):
                if file is FILE and demands & STRICT and not demands & PLAIN_BYTES:
                    continue  # what is in its [ubyte] fields can't be told
                name = f"buffer {at} of {number}, demands {demands}"
                status, out, err = ran(stack, path, file_of("data", data), demands)
                self.same(f"{name}: it ends well", (status, err), (0, ""))
                taken = {call: int(size) for call, size in map(str.split, out.splitlines())}
                for call, size in taken.items():
                    most = (locate if call == "locate" else check) + (more if demands else 0)
                    self.holds(f"{name}: {call}", 0 < size <= most, size)
                    seen[call, demands > 0] = max(size, seen.get((call, demands > 0), 0))
        self.holds("a deep buffer takes more than 2 KB, and a place more than that",
                   2048 < seen["verify", False] < seen["locate", False], seen)
