"""Structs of each alignment and of up to 300 bytes beside the naive checker, under every choice of the checks.

They stand in a table, in a vector and behind a union, where each power of two divides their place, and some end past
their table. The library and the program tell the same of each buffer, and each reason as often as was counted by hand.
"""

import collections

from tests.support.builder import prefixed
from tests.support.every_kind import words_of
from tests.support.library import LibraryCase, module
from tests.support.many import each
from tests.support.naive import Walk
from tests.support.program import folder_of, run
from tests.support.told import line
from tests.support.wide_structs import ALIGNMENTS, FORMS, OPTIONS, PLACES, SHORT, SIZES, buffers, of_schema

FOLDER = folder_of(__name__)
PYTHON = None


def of_alignment(alignment):
    """What is told otherwise of structs of this alignment, and how often each reason is told."""
    schema, data = of_schema(alignment)
    file, given, counts, wrong = FOLDER / f"wide{alignment}.bfbs", list(buffers()), collections.Counter(), []
    file.write_bytes(data)
    with PYTHON.Verifier(data, "T") as verifier:
        for options in OPTIONS:
            asked = verifier.asked(PYTHON.Options(no_alignment=int("alignment" in options),
                                                  inline_size=int("inline_size" in options)))
            wants = [Walk(schema, 0, buffer, **options).verdict(prefix=False) for buffer in given]
            told = [line(verifier.verify(buffer, asked)) for buffer in given]
            stream = b"".join(map(prefixed, given))
            ran = run("--schema", file, "--delimited", *words_of(options), given=stream).out.decode().splitlines()
            written = [text.partition(" ")[2] for text in ran]
            wrong += [pair for pairs in (zip(told, wants), zip(written, wants)) for pair in pairs if pair[0] != pair[1]]
            wrong += [] if len(written) == len(wants) else [(len(written), len(wants))]
            counts.update(want.split()[1] if want.startswith("bad") else "ok" for want in wants)
    return counts, wrong[:3]


class WideStructs(LibraryCase):
    def test_wide_structs(self):
        global PYTHON
        PYTHON = module()
        for power, (counts, wrong) in enumerate(each(of_alignment, ALIGNMENTS)):
            name = f"structs aligned by {ALIGNMENTS[power]}"
            self.same(f"{name}: what is told otherwise, with what should be", wrong, [])
            # two places for each smaller power of two; before the elements of a vector stands a count of 4 bytes
            misaligned = 2 * len(SIZES) * (2 * power + 2 * power + 2 * max(power, 2))
            # in place by 1, 2 and 300 bytes, and by 300 what else stands in a table; one of each has its last byte cut off
            past, cut = 2 * len(SIZES) * (3 + 1 + 1), 4 * len(SIZES) * len(FORMS)
            total = 4 * len(SIZES) * len(FORMS) * (len(PLACES) + 1 + len(SHORT))
            want = {"V2": cut, "V3": misaligned, "V12": past, "ok": total - cut - misaligned - past}
            self.same(f"{name}: how often each reason is told", dict(counts), want)
