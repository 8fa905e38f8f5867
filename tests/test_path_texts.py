"""Texts of paths that were worked out by hand: what they resolve to, and why others don't."""

from tests.support import schemas
from tests.support.case_text import rows_of
from tests.support.library import LibraryCase, module

MARKS = {1: ".{}", 2: "[{}]", 3: "@{}"}

UNIONS = """A table: v@4 int; W struct 8/8: x@0 long; R table: u_type@4 utype, u@6 union#0;
    Q table: us_type@4 [utype], us@6 [union]#0; U union: A=1 obj#0, W=2 obj#1, T=3 string"""
MIXED = """A table: v@4 int; W struct 8/8: x@0 long; R table: u_type@4 utype, u@6 union#0;
    U union: T=3 string, NONE=0 none, A=1 obj#0"""
LISTS = "A table: l@4 [long]"

# What the cases of some rows show; the root, a path, and the steps to which it resolves, or why it doesn't.
RESOLVED = [
    ("a text is no path from its first wrong byte on", UNIONS, """
        R |                | P1 BadText at=0
        R | u..v           | P1 BadText at=2
        R | u[01]          | P1 BadText at=3
        Q | us[4294967296] | P1 BadText at=12
    """),
    ("a path is refused by its first step that does not fit", UNIONS, """
        R | x     | P2 NoSuchField step=0
        R | u[0]  | P3 NotIndexable step=1
        R | u@Z   | P5 NoSuchMember step=1
        R | u.v   | P6 NotATable step=1
        R | u@T.v | P6 NotATable step=2
        Q | us@A  | P4 NotAUnion step=1
    """),
    ("a path names its steps", UNIONS, """
        R | u@A.v            | .1 @1 .0
        Q | us[4294967295]@T | .1 [4294967295] @3
        Q | us_type[10]      | .0 [10]
    """),
    ("a deprecated field can not be named", "A table: gone@4 int gone, here@6 int", """
        A | gone | P2 NoSuchField step=0
        A | here | .1
    """),
    ("members are named by value whatever their order", MIXED, """
        R | u@T    | .1 @3
        R | u@A.v  | .1 @1 .0
        R | u@NONE | P5 NoSuchMember step=1
    """),
    ("a number is 0 or has no leading 0", LISTS, "\n".join(
        f"A | l[{number}] | .0 [{number}]" for number in "0 7 10 90 1000000000 4294967289 4294967295".split()
    )),
]

# Behind a front, the bytes that go on with a name, though none of `LISTS`, and others that don't.
NAMES = {
    "a name begins with a letter or a low line":
        (b"", b"AZ_az", b"@[^`{/:09$-.] \x7f\x80\xc3\xff\x00"),
    "a name goes on with letters, digits and low lines":
        (b"l", b"AZ_az09", b"^`{/:$-] \x7f\x80\xc3\xff\x00"),
}

# Texts that are no path of `LISTS`, by the place of their first byte that can't go on.
WRONG = {
    2: "l. l@ l[ l.9 l@9 l.$ l.@A l[] l[/] l[:] l[-1] l[a]",
    3: "l@A$ l.a-b l.a` l[1 l[1/ l[1: l[1a] l[00] l[01] l[0",
    4: "l[0]l l[0]]",
    5: "l[0][",
    11: "l[4294967296] l[4294967300] l[9999999999]",
    12: "l[42949672950] l[18446744073709551616]",
}


class Asked:
    """A schema of rows, by which texts are resolved."""

    def __init__(self, python, rows):
        self.python, self.verifier = python, python.Verifier(schemas.schema(*rows_of(rows)))

    def told(self, root, text):
        """The steps of a path from this root, or why it's none."""
        self.verifier.choose_root(root)
        path, verdict = self.python._Path(), self.python._Verdict()
        words = self.verifier._schema, self.verifier.asked(None), text, len(text), path, verdict
        status = self.verifier._calls.fbcheck_resolve(*words)
        if status == self.python.Status.OK:
            return " ".join(MARKS[kind].format(number) for kind, number in path.numbers())
        name = self.verifier.fault_name(status, verdict.reason)
        return f"{name} {'at' if verdict.reason == 1 else 'step'}={verdict.at}"


class PathTexts(LibraryCase):
    def test_paths(self):
        python = module()
        for shows, rows, table in RESOLVED:
            asked = Asked(python, rows)
            for case in filter(str.strip, table.splitlines()):
                root, text, want = [column.strip() for column in case.split("|")]
                self.same(f"{shows}: {text}", asked.told(root, text.encode()), want)

    def test_bytes_of_names(self):
        asked = Asked(module(), LISTS)
        for shows, (front, letters, others) in NAMES.items():
            for bytes_, want in [(letters, "P2 NoSuchField step=0"), (others, f"P1 BadText at={len(front)}")]:
                for byte in bytes_:
                    self.same(f"{shows}: {byte}", asked.told("A", front + bytes([byte])), want)

    def test_a_text_is_wrong_at_the_byte_that_can_not_go_on(self):
        asked = Asked(module(), LISTS)
        for at, texts in WRONG.items():
            for text in texts.split(" "):
                self.same(text, asked.told("A", text.encode()), f"P1 BadText at={at}")
