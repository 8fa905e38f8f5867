"""The program with what it demands beside the rules of the format."""

import subprocess

from tests.support.builder import prefixed
from tests.support.every_kind import words_of
from tests.support.program import PROGRAM
from tests.support.naive import Schema
from tests.support.strict import EVERYTHING, FLEX, STRICT, Demands, found_from, lacks_marks, marks_of

# What options demand: --strict with --plain-bytes and by itself, --known-fields, --utf8, and some of them together.
ASKED = [
    Demands(unions=True), STRICT, Demands(known_fields=True), Demands(utf8=True),
    Demands(unions=True, known_fields=True), EVERYTHING, Demands(known_fields=True, utf8=True),
]
UNMARKED = "strict can't tell which bytes are nested buffers or flexbuffers"
LOST = "strict can't find the table of a nested buffer"


def refusal_of(objects):
    """Why --strict is refused by a schema file with these rows, None where it isn't."""
    if lacks_marks(objects):
        return UNMARKED
    schema = Schema(objects)
    names = [(owner, mark) for (owner, _), mark in marks_of(objects).items() if mark != FLEX]
    return LOST if any(found_from(schema, owner, name) is None for owner, name in names) else None


def words_of_demands(demands):
    """The words by which the program demands this."""
    flags = [
        ("--strict", demands.unions), ("--plain-bytes", demands.unions and not demands.nested),
        ("--known-fields", demands.known_fields), ("--utf8", demands.utf8),
    ]
    return [word for word, is_asked in flags if is_asked]


def words_of_limits(limits):
    """The words that ask for these limits and checks, and for no other budget."""
    return ["--reads-per-byte", str(2**32 - 1), *words_of(limits)]


def lines_of(file, messages, *words, prefix=False):
    """What the program tells of each of these buffers by this schema file, behind its number. They are bare, or each
    has its prefix."""
    words, given = (words, messages) if prefix else (["--delimited", *words], map(prefixed, messages))
    ran = subprocess.run([PROGRAM, "--schema", file, *words], input=b"".join(given), capture_output=True)
    if ran.returncode > 1:
        raise RuntimeError(f"the program ends with {ran.returncode}: {ran.stderr.decode(errors='replace')}")
    return [line.partition(" ")[2] for line in ran.stdout.decode().splitlines()]
