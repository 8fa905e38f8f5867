"""The numbers by which a test in crates/test_library knows the naive checker's answers to a damaged buffer.

Each stands for all answers under one choice of the checks: to the cut off forms of the buffer within many limits, and
to those with one byte changed to each other value.
"""

import re

from tests.support.cases import Case
from tests.support.clone import TOP
from tests.support.many import each
from tests.support.naive import Schema, Walk
from tests.support.schemas import TEXT, an_object, field, table

TESTS = TOP / "crates/test_library/src/tests"
PRIME, MASK = 0x100000001B3, 2**64 - 1

OBJECTS = [table("Delivery", field("to", an_object(1), 4)), table("Person", field("name", TEXT, 4))]
CHECKS = [{"alignment": alignment, "inline_size": inline} for alignment in (True, False) for inline in (False, True)]

# Of a cut off form: depth, tables, and perhaps a budget and an identifier.
LIMITS = [
    ({}, None), ({}, b"BFBS"), ({"reads": 0}, b"BFBS"), ({"reads": 1}, None), ({"reads": 5}, None),
    ({"reads": 12}, None), ({"depth": 0, "tables": 0}, None), ({"depth": 1}, None), ({"depth": 2, "tables": 2}, None),
    ({"depth": 3, "tables": 6}, None), ({"tables": 3, "reads": 8}, None), ({"tables": 0, "reads": 3}, None),
]


def numbers_in(text):
    return [int(number.replace("_", ""), 0) for number in re.findall(r"\b(?:0x[0-9a-f_]+|[0-9]+)\b", text)]


def one_up(number):
    """A number as it is added where there may be none."""
    return 0 if number is None else number + 1


def answered(data, checks, limits, ident):
    """The numbers of an answer: the counts of a yes; the fault of a no, and the way to it."""
    walk = Walk(Schema(OBJECTS, []), 0, data, **limits, **checks)
    told = walk.verdict(ident, False)
    if told.startswith("ok"):
        return [0, walk.tables, walk.deepest, walk.reads]
    reason, at = re.match(r"bad (V\d+ \w+) at=(\d+)", told).groups()
    owner, name = walk.where
    way = [number for object_, field_, element, member in walk.links
           for number in (object_, field_, one_up(element), one_up(member))]
    return [*reason.encode(), int(at), owner, one_up(name), walk.reads, len(walk.links), *way]


def digest(task):
    data, checks = task
    asked = [(data, *limited) for limited in LIMITS]
    for at in range(len(data)):
        asked += [(data[:at], *limited) for limited in LIMITS]
        asked += [(data[:at] + bytes([data[at] ^ bits]) + data[at + 1 :], {}, None) for bits in range(1, 256)]
    value = 0
    for changed, limits, ident in asked:
        for number in answered(changed, checks, limits, ident):
            value = ((value ^ number) * PRIME + 1) & MASK
    return value


class Digests(Case):
    def test_digests(self):
        found = re.search(r"const DELIVERY: .*?= \[(.*?)\];", (TESTS / "reader.rt").read_text(), re.S)
        data = bytes(numbers_in(found.group(1)))
        told = list(each(digest, [(data, checks) for checks in CHECKS]))
        found = re.search(r"const DIGESTS: .*?= \[(.*?)\];", (TESTS / "verify/sweep.rt").read_text(), re.S)
        self.same("what the test in the crate asks for", numbers_in(found.group(1)), told)
