"""The tables of docs/EVIDENCE.md are those of the edits, each edit fits the code that it changes, what carries a
promise of docs/PROOFS.md is there, and so is each name of code on the pages."""

import functools
import re
import unittest

from tests.support.clone import TOP, loaded

EVIDENCE = loaded(TOP / "tests/make_evidence")


@functools.cache
def functions(crate):
    """The functions of a crate: the name, the words of where it stands, and the names of its clauses."""
    found = []
    for path in sorted((TOP / "crates" / crate / "src").glob("**/*.rt")):
        within = path.stem
        for line in path.read_text().splitlines():
            if re.match(r"(pub )?(impl|trait|extern)\b", line):
                within = line
            elif line == "}":
                within = path.stem
            if name := re.match(r" *(?:pub(?:\(\w+\))? )?(?:unsafe )?(?:extern \"C\" )?fn (\w+)", line):
                found.append((name[1], set(re.findall(r"\w+", within)), set()))
            elif clause := re.match(r" +(?:ensures\*?|requires) (\w+) \{", line):
                found[-1][2].add(clause[1])
    return found


def clauses_of(crate, function):
    """The clauses of each function of the crate that has this name; of a method also where a trait says them."""
    *owner, name = function.split("::")
    named = [(within, clauses) for found, within, clauses in functions(crate) if found == name]
    return [clauses for _, clauses in named] if any(set(owner) <= within for within, _ in named) else []


@functools.cache
def names():
    """The names of all modules and types of the crates."""
    paths = sorted((TOP / "crates").glob("*/src/**/*.rt"))
    types = [name for path in paths for name in re.findall(r"\b(?:struct|enum|trait|type) (\w+)", path.read_text())]
    return {*types, *(path.stem for path in paths), *EVIDENCE.crates()}


class Evidence(unittest.TestCase):
    def each(self, hold):
        """Holds each edit to this."""
        for edit in EVIDENCE.edits():
            with self.subTest(edit=f"{edit.crate}/{edit.name}"):
                hold(edit)

    def test_tables_are_made_of_the_edits(self):
        self.assertEqual(EVIDENCE.PAGE.read_text(), EVIDENCE.page(), "tests/make_evidence makes them anew")

    def test_an_edit_says_what_it_is(self):
        def hold(edit):
            keys = [key for key, _ in edit.lines]
            said = [EVIDENCE.WORDS, EVIDENCE.BREAKS] + [EVIDENCE.WITH] * keys.count(EVIDENCE.WITH)
            self.assertEqual(keys[: len(said) + 1], [*said, "file"])
            self.assertNotIn("", [edit.said(key) for key in said])

        self.each(hold)

    def test_the_old_words_stand_once(self):
        def hold(edit):
            self.assertEqual({text.count(old) for text, old in edit.changes()}, {1})

        self.each(hold)

    def test_what_breaks_is_there(self):
        def hold(edit):
            self.assertRegex(EVIDENCE.quoted(edit.said(EVIDENCE.BREAKS)), "^`")
            self.is_there(edit.said(EVIDENCE.BREAKS), [edit.crate])

        self.each(hold)

    def test_what_breaks_with_it_is_there(self):
        self.each(lambda edit: self.is_there(edit.said(EVIDENCE.WITH), EVIDENCE.crates()))

    def is_there(self, claims, crates):
        """The functions that a claim names are in one of these crates or in the one beside them, with its clauses."""
        for claim in map(EVIDENCE.quoted, claims.split("; ")):
            named, _, rest = claim.partition(", ")
            names = re.findall(r"`([\w:]+)`(?: of `(\w+)`)?", named)
            clauses = set(re.findall(r"`(\w+)`", rest)) if rest.startswith("clause") else set()
            for function, crate in names:
                there = [found for name in [crate] * bool(crate) or crates for found in clauses_of(name, function)]
                self.assertTrue(any(clauses <= found for found in there), f"no `{function}` has this: {claim}")

    def test_what_carries_a_promise_is_there(self):
        page = (TOP / "docs/PROOFS.md").read_text().split("## What is proved")[1].split("\n## ")[0]
        promises = re.findall(r"(?m)^- .+ → (.+)$", re.sub(r"\n  +", " ", page))
        self.assertGreater(len(promises), 60)
        for carried in promises:
            for claim in re.sub(r": .*", "", carried).split("; "):
                with self.subTest(claim=claim):
                    self.carries(claim)

    def test_names_on_the_pages_are_there(self):
        tops = ("bench", "bindings", "c", "crates", "examples", "include", "tests")
        paths = [path for top in tops for path in (TOP / top).rglob("*") if "out" not in path.parts and path.is_file()]
        named = {*EVIDENCE.crates(), *(path.stem for path in paths)}
        for path in paths:
            if path.suffix in (".rt", ".antt", ".py", ".c", ".h", ""):
                named.update(re.findall(r"\w+", path.read_text(errors="replace")))
        pages = ["CONTRIBUTING", *(f"docs/{name}" for name in ("ARCHITECTURE", "DECISIONS", "EVIDENCE", "MODEL", "PROOFS"))]
        for page in pages:
            with self.subTest(page=page):
                text = re.sub(r"(?s)```.*?```", "", (TOP / f"{page}.md").read_text())
                spans = re.findall(r"`([A-Za-z][\w:]*)`", text)
                self.assertEqual([span for span in spans if not named.issuperset(re.findall(r"\w+", span))], [])
                files = re.findall(r"`([\w/]+\.(?:rt|antt|py|c|h))`", text)
                there = [file for file in files if any(f"{path}".endswith(f"/{file}") for path in paths)]
                self.assertEqual(files, there)

    def carries(self, claim):
        """The claim names functions, modules or types, and clauses that one of the functions has."""
        before, _, behind = claim.partition("clause")
        there = []
        for name in re.findall(r"`([\w:]+)`", before):
            found = [clauses for crate in EVIDENCE.crates() for clauses in clauses_of(crate, name)]
            self.assertTrue(found or name in names(), name)
            there += found
        clauses = set(re.findall(r"`(\w+)`", behind))
        self.assertTrue(not there or any(clauses <= found for found in there), claim)
