"""The hints of the library for C: those of the program that tests/test_hints.py has, and how they are cut."""

import ctypes

from tests.support.library import LibraryCase, module
from tests.support.schemas import INT, field, schema, table
from tests.test_hints import BY_POST, PATHS, ROOTS, among

MOST = 1024  # bytes of a hint
ALL = "; tables: post.Delivery post.Letter post.Parcel post.Person"


def file_in(words):
    """The bytes of the schema file that these words name."""
    return words[words.index("--schema") + 1].read_bytes()


class HintsForC(LibraryCase):
    def hinting(self, words):
        """A verifier by the schema file that these words name."""
        return module().Verifier(file_in(list(words)))

    def test_paths(self):
        """What the program says of a path that doesn't resolve, behind the fault's text."""
        rows = [(name, words, hint) for name, words, _, _, hint in PATHS if words.count("--path") == 1]
        self.holds("there are some of each fault", len(rows) > 20, len(rows))
        for name, words, hint in rows:
            with self.hinting(words) as verifier:
                self.same(name, verifier.path_hint(words[-1]), hint.removeprefix("; ") or None)
        with self.hinting(BY_POST) as verifier:
            for path in ("to", "to.name", "items[0]@Parcel", "first@Letter"):
                self.same(f"{path} needs none", verifier.path_hint(path), None)
            verifier.choose_root("post.Person")
            self.same("from another root", verifier.path_hint("to"), "fields: name age home")
            calls, path = verifier._calls, b"nowhere"
            struct = next(number for number in range(9) if verifier.object_name(number) == "post.Spot")
            for root in (struct, 77, 2**32 - 2):
                got = calls.fbcheck_path_hint(verifier._schema, root, path, len(path), None, 0)
                self.same(f"from {root}, which is no table", got, 0)

    def test_roots(self):
        """What it says of a root that isn't there, behind the name."""
        rows = [(name, words, hint) for name, words, _, _, hint in ROOTS if "--root" in words and "--schema" in words]
        for name, words, hint in rows[:-1]:
            with self.hinting(words) as verifier:
                self.same(name, verifier.root_hint(words[-1]), hint.partition("; ")[2])
        with self.hinting(BY_POST) as verifier:
            self.same("a struct's name", verifier.root_hint("post.Spot"), ALL.removeprefix("; "))
            self.same("a table's name needs none", verifier.root_hint("post.Parcel"), None)

    def test_long_ones(self):
        """One of more than 1,022 bytes is cut to these, and ends with two dots."""
        for more in (0, 1, 2, 3, 500_000):
            name = "a" * (MOST - 2 - len("tables: ") + more)
            with self.hinting(among(name)) as verifier:
                want = f"tables: {name}"
                self.same(f"{more} bytes more", verifier.root_hint("Q"), f"{want[:MOST - 2]}.." if more else want)

    def test_odd_names(self):
        """A byte that isn't printable stands as a question mark."""
        odd = [b"\0", b"a\nb", "\u00e9".encode(), b" ~", b"\x7f\x1f"]
        with module().Verifier(schema([table("T", *[field(name, INT, 4 + 2 * n) for n, name in enumerate(odd)])],
                                      root="T")) as verifier:
            told = verifier.path_hint("nowhere")
            self.same("the names of fields", sorted(told.removeprefix("fields: ").replace(" ~", "~").split(" ")),
                      sorted(["?", "a?b", "??", "~", "??"]))

    def test_room(self):
        """As much as there is room for is written, the whole length is told, and of null nothing."""
        with self.hinting(BY_POST) as verifier:
            calls, made, whole = verifier._calls, verifier._schema, ALL.removeprefix("; ").encode()
            text = ctypes.create_string_buffer(128)
            for size in (0, 1, 5, len(whole) - 1, len(whole), len(whole) + 1):
                text.raw = b"?" * 128
                got = calls.fbcheck_root_hint(made, b"Q", 1, text, size)
                want = whole[:size].ljust(128, b"?")
                self.same(f"cut to {size}", (got, text.raw), (len(whole), want))
            self.same("no room", calls.fbcheck_root_hint(made, b"Q", 1, None, 0), len(whole))
            self.same("an empty name", calls.fbcheck_root_hint(made, None, 0, None, 0), len(whole))
            text.raw = b"?" * 128
            root = 2**32 - 1
            self.same("null", [calls.fbcheck_root_hint(None, b"Q", 1, text, 128),
                               calls.fbcheck_root_hint(made, None, 1, text, 128),
                               calls.fbcheck_root_hint(made, b"Q", 1, None, 128),
                               calls.fbcheck_path_hint(None, root, b"Q", 1, text, 128),
                               calls.fbcheck_path_hint(made, root, None, 1, text, 128),
                               calls.fbcheck_path_hint(made, root, b"Q", 1, None, 128),
                               calls.fbcheck_path_hint(made, root, None, 0, text, 128)], [0] * 7)
            self.same("writes nothing", text.raw, b"?" * 128)
