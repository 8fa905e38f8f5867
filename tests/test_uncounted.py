"""What could read a buffer with nobody counting stands only where it is known: above fb_bytes a meter is made or sealed,
and a value taken from behind a reference, in these files alone, and so often (docs/PROOFS.md: who sees to the count)."""

import collections
import re
import unittest

from tests.support.clone import TOP

# fb_bytes makes all this, and tests may do as they like.
UNSEARCHED = {"fb_bytes", "test_library"}

CALLS = {"Meter::new(": r"\bMeter::new\b", "seal(": r"\bseal\b", "mem::": r"\bmem\b"}

# How often each stands in a file, and what for.
KNOWN = {
    ("fb_verify/verified.rt", "seal("): 2,  # a good buffer after its walk; a bad one whose links are looked up
    ("fb_bfbs/loading.rt", "Meter::new("): 1,  # a schema file, which `verify` takes
    ("fb_bfbs/marks.rt", "Meter::new("): 1,  # the same, of which marks are read
    # an open buffer, whose reads are counted on from those before: where it begins, at each leg, and for a walk inside
    ("fb_strict/levels.rt", "Meter::new("): 3,
    ("fb_strict/way.rt", "Meter::new("): 1,  # a buffer whose links are looked up
    ("fb_strict/way.rt", "seal("): 1,
    ("fb_run/checker.rt", "Meter::new("): 1,  # a message's buffer, which `report` is lent or `verify` takes
    ("fbcheck_texts/unsupported.rt", "Meter::new("): 1,  # a schema file, which `verify` takes, for its field's name
    ("fbcheck_calls/checking.rt", "Meter::new("): 1,  # a call's buffer, which a walk is lent or `verify` takes
    ("fbcheck_calls/again.rt", "seal("): 1,  # a buffer in which values are read again, each position tested, uncounted
    ("fbcheck_calls/each.rt", "seal("): 1,  # the same for elements
    ("fbcheck_calls/framer.rt", "Meter::new("): 1,  # a message's prefix
    ("fbcheck_calls/framer.rt", "seal("): 1,
    ("fbcheck_calls/handle.rt", "mem::"): 1,  # a handle, which holds no buffer
    ("example_name_reader/lib.rt", "Meter::new("): 1,  # the reference's example
}


def found():
    """How often each call stands in the code of each file, comments aside."""
    counts = collections.Counter()
    for path in (TOP / "crates").glob("*/src/**/*.rt"):
        crate = path.relative_to(TOP / "crates").parts[0]
        if crate not in UNSEARCHED:
            code = re.sub(r"//.*", "", path.read_text())
            name = f"{crate}/{path.relative_to(TOP / 'crates' / crate / 'src')}"
            counts.update({(name, call): len(re.findall(words, code)) for call, words in CALLS.items()})
    return +counts


class Uncounted(unittest.TestCase):
    def test_a_meter_is_made_sealed_or_replaced_only_where_it_is_known(self):
        self.assertEqual(found(), KNOWN)

    def test_a_meter_has_no_other_name(self):
        for path in (TOP / "crates").glob("*/src/**/*.rt"):
            with self.subTest(path=path):
                self.assertNotRegex(path.read_text(), r"\bMeter as\b|= *(?:fb_bytes::)?Meter\b(?!::new)|\bmem::\{?\w* as\b")


if __name__ == "__main__":
    unittest.main()
