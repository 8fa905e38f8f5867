"""Lines of bad buffers that end with the place in words: `--names`."""

import functools
import re
import struct

from tests.support import buffers, schemas
from tests.support.buffers import (
    ASKEW, BY_POST, MEMBER, NOTHING, ODD, ODD_MEMBER, ORC, PLAIN, POST, SEVEN, TWINS, levels,
)
from tests.support.builder import Plain, buffer, changed, prefixed, spelled
from tests.support.cases import Case
from tests.support.preloaded import ALONE, WITH_LATER, Plan, is_front, narrowed, refusing
from tests.support.program import (
    CLOSED, FULL, NO_BYTES, PROGRAM, SECONDS, Ran, Talk, astray, bad, failed, file_of, good, lines, refused, run,
    run_in_shell, run_starved, schemaless, shifted, unschemed,
)
from tests.support.schemas import (
    INT, LONG, TEXT, U_TYPE, a_struct, a_union, an_object, field, schema, table, union, vector,
)

FILES = schemas.files()
BY_N = ("--schema", FILES["N"], "--names")

# By N, with its prefix: a field behind the end.
PAST = changed(SEVEN, (12, "1c00"))
NO = {
    ODD: "bad V3 Misaligned at=7 object=0 field=- reads=3 in . [N]",
    NOTHING: "bad V2 OutOfBuffer at=4 object=0 field=- reads=1 in . [N]",
    PAST: "bad V2 OutOfBuffer at=48 object=0 field=0 reads=5 in v [N.v]",
}
YES = "ok tables=1 depth=1 reads=5"

# namespace zoo; table Leaf { n: int; t: string; } struct Spot { x: long; }
# union Any { Leaf = 1, Spot = 2, Text: string = 3, Tree = 4 }
# table Tree { leaf: Leaf; leaves: [Leaf]; texts: [string]; any: Any; anys: [Any]; tree: Tree; longs: [long];
#   spot: Spot; must: string (required); old: int (deprecated); }
# root_type Tree;
TREE_FIELDS = ["leaf", "leaves", "texts", "any_type", "any", "anys_type", "anys", "tree", "longs", "spot", "must"]
TREE = schema(
    [
        table("zoo.Leaf", field("n", INT, 4), field("t", TEXT, 6)),
        a_struct("zoo.Spot", 8, 8, field("x", LONG, 0)),
        table(
            "zoo.Tree", field("leaf", an_object(0), 4), field("leaves", vector(an_object(0)), 6),
            field("texts", vector(TEXT), 8), field("any_type", U_TYPE, 10), field("any", a_union(0), 12),
            field("anys_type", vector(U_TYPE), 14), field("anys", vector(a_union(0)), 16),
            field("tree", an_object(2), 18), field("longs", vector(LONG), 20), field("spot", an_object(1), 22),
            field("must", TEXT, 24, required=True), field("old", INT, 26, deprecated=True),
        ),
    ],
    [union("zoo.Any", ("NONE", 0, schemas.NONE), ("Leaf", 1, an_object(0)), ("Spot", 2, an_object(1)),
           ("Text", 3, TEXT), ("Tree", 4, an_object(2)))],
    root="zoo.Tree",
)
BY_TREE = ("--schema", file_of("TREE.bfbs", TREE), "--bare")

# What stands at an offset and is wrong there: a text that doesn't end, and a table whose vtable has an odd size.
ENDLESS = Plain(b"\3\0\0\0abcd", 4)
HEADLESS = Plain(spelled("fcffffff 03000400"), 4)


def tree(**fields):
    """A tree, with the field that it must have behind these; a union has its type beside it."""
    numbered = {TREE_FIELDS.index(name): value for name, value in fields.items()}
    return {10: "must", **numbered}


def of_type(number, value, name="any"):
    """The fields of a union."""
    return {f"{name}_type": ("B", number), name: value}


def of_types(*members):
    """The fields of a vector of unions."""
    types = bytes(number for number, _ in members)
    return {"anys_type": Plain(types, 1, len(types)), "anys": [value for _, value in members]}


def way_to_visit(depth, number):
    """The names that lead to the visit with this number, from 0 on, of a tree of so many levels."""
    names = []
    while number:
        depth -= 1
        behind = number > 2**depth - 1
        names.append("b" if behind else "a")
        number -= 2**depth if behind else 1
    return ".".join(names)


def told(*parts):
    """The lines of these messages by N."""
    return lines(*[f"{number} {NO.get(part, YES)}" for number, part in enumerate(parts, 1)])


def broken(count):
    """By CHAIN: so many tables, one inside another, of which the last has its vtable at an odd place."""
    return levels(count)[:-4] + struct.pack("<I", 3 + 8 * (count - 1))

# The names of deliveries.fbs, by their numbers.
POST_OBJECTS = ["Box", "Delivery", "Letter", "Parcel", "Person", "Spot"]
POST_FIELDS = {
    "Delivery": "id to from first_type first items_type items route stamps notes helpers price floor retired".split(),
    "Letter": ["words", "pages"],
    "Parcel": ["box", "fragile", "tags"],
    "Person": ["name", "age", "home"],
}


def post_owner(line):
    """What stands in brackets, by the numbers of a line."""
    told = POST_OBJECTS[int(re.search(r" object=(\d+) ", line)[1])]
    number = re.search(r" field=(\d+) ", line)
    return f"post.{told}" + (f".{POST_FIELDS[told][int(number[1])]}" if number else "")


def damaged(message, behind=4):
    """The message with one byte changed, in turn each, to each of some values; its prefix stays."""
    for at in range(behind, len(message)):
        for value in {0, 1, message[at] ^ 1, message[at] ^ 4, (message[at] + 16) % 256, 255} - {message[at]}:
            yield message[:at] + bytes([value]) + message[at + 1:]


class Names(Case):
    def test_the_line_is_told(self):
        """Whole lines. What they say before the place is that of other tests."""
        def by(name, *words):
            return "--schema", FILES[name], "--bare", *words

        chain = ".".join(["next"] * 64)
        for name, words, given, want in [
            ("a table at an odd place", BY_N[:2], ODD, f"1 {NO[ODD]}"),
            ("no byte behind a prefix", BY_N[:2], NOTHING, f"1 {NO[NOTHING]}"),
            ("nothing", by("M"), b"", "1 bad V2 OutOfBuffer at=0 object=0 field=- reads=0 in . [M]"),
            ("a wrong identifier", (*BY_N[:2], "--ident", "ABCD"), SEVEN,
             "1 bad V5 WrongIdentifier at=8 object=0 field=- reads=2 in . [N]"),
            ("no level", by("M", "--max-depth", "0"), ORC, "1 bad V6 TooDeep at=12 object=0 field=- reads=1 in . [M]"),
            ("no table", by("M", "--max-tables", "0"), ORC,
             "1 bad V7 TooManyTables at=12 object=0 field=- reads=1 in . [M]"),
            ("no read", by("M", "--max-reads", "0"), ORC,
             "1 bad V13 TooManyReads at=0 object=0 field=- reads=1 in . [M]"),
            ("too few reads for the root's head", by("M", "--max-reads", "2"), ORC,
             "1 bad V13 TooManyReads at=12 object=0 field=- reads=3 in . [M]"),
            ("too few reads for a field", by("M", "--max-reads", "4"), ORC,
             "1 bad V13 TooManyReads at=12 object=0 field=1 reads=5 in name [M.name]"),
            ("too few reads for a text", by("M", "--max-reads", "7"), ORC,
             "1 bad V13 TooManyReads at=16 object=0 field=1 reads=8 in name [M.name]"),
            ("a text that is cut off", by("M"), ORC[:31],
             "1 bad V2 OutOfBuffer at=28 object=0 field=1 reads=7 in name [M.name]"),
            ("another root", by("X", "--root", "Q"), MEMBER,
             "1 bad V3 Misaligned at=21 object=3 field=0 reads=5 in us_type [Q.us_type]"),
            ("numbers at a place of 4", by("Z"), ASKEW,
             "1 bad V3 Misaligned at=28 object=0 field=0 reads=6 in l [Z.l]"),
            ("a required field", by("K"), PLAIN, "1 bad V9 MissingRequired at=8 object=0 field=0 reads=3 in s [K.s]"),
            ("a member too deep", by("X", "--root", "R", "--max-depth", "1"), MEMBER,
             "1 bad V6 TooDeep at=32 object=2 field=1 reads=8 in u@A [R.u]"),
            ("a level too deep", by("CHAIN"), levels(65),
             f"1 bad V6 TooDeep at=528 object=0 field=0 reads=257 in {chain} [L.next]"),
            ("a table too many", by("NODE", "--max-tables", "6"), TWINS,
             "1 bad V7 TooManyTables at=40 object=0 field=1 reads=25 in b.b [Node.b]"),
            ("depth before tables", by("NODE", "--max-tables", "2", "--max-depth", "2"), TWINS,
             "1 bad V6 TooDeep at=40 object=0 field=0 reads=9 in a.a [Node.a]"),
            ("too few reads for the head of a table", by("NODE", "--max-reads", "26"), TWINS,
             "1 bad V13 TooManyReads at=40 object=0 field=- reads=27 in b.b [Node]"),
            ("a field of a member, past its table",
             ("--schema", FILES["X"], "--root", "R", "--no-alignment", "--inline-size"),
             changed(ODD_MEMBER, (34, "0800")),
             "1 bad V12 PastTable at=45 object=0 field=0 reads=14 in u@A.v [A.v]"),
            ("a table of schema files", ["--bare"], PLAIN,
             "1 bad V9 MissingRequired at=8 object=9 field=0 reads=3 in objects [reflection.Schema.objects]"),
            ("a schema file behind a prefix", [], prefixed(schemas.M),
             "1 bad V3 Misaligned at=132 object=4 field=4 reads=32 in objects[0].fields[0].default_integer"
             " [reflection.Field.default_integer]"),
        ]:
            schema = "--schema" in words
            ran = bad if schema else unschemed
            if "V3" in want and "--bare" not in words:
                ran = functools.partial(shifted, schema=schema)
            self.same(name, run(*words, "--names", given=given), ran(want))
            self.same(f"{name}, without the option", run(*words, given=given), ran(want.partition(" in ")[0]))
        self.same("the example", run(*BY_POST, "--names", given=POST).out.splitlines()[4],
                  b"5 bad V10 NoTerminator at=314 object=1 field=6 reads=63 in items[1]@Note [post.Delivery.items]")
        self.same("good buffers have no place", run(*BY_N, given=SEVEN * 2), good(f"1 {YES}", f"2 {YES}"))
        self.same("nor has nothing", run(*BY_N), good())

    def test_each_kind_of_place(self):
        """The place at the end of a line whose beginning is that of a run without the option."""
        leaf = {1: ENDLESS}
        for name, root, code, want, words in [
            ("a text", tree(must=ENDLESS), "V10", "must [zoo.Tree.must]", ()),
            ("a required field", {}, "V9", "must [zoo.Tree.must]", ()),
            ("an offset of 0 to a text", tree(must=("I", 0)), "V4", "must [zoo.Tree.must]", ()),
            ("an offset of 0 to a table", tree(leaf=("I", 0)), "V4", "leaf [zoo.Tree.leaf]", ()),
            ("an offset of 0 to a vector", tree(texts=("I", 0)), "V4", "texts [zoo.Tree.texts]", ()),
            ("a table", tree(leaf=HEADLESS), "V8", "leaf [zoo.Leaf]", ()),
            ("a field of a table", tree(leaf=leaf), "V10", "leaf.t [zoo.Leaf.t]", ()),
            ("a struct at a place of 4", tree(spot=("B", 0)), "V3", "spot [zoo.Tree.spot]", ()),
            ("the first element", tree(texts=[ENDLESS]), "V10", "texts[0] [zoo.Tree.texts]", ()),
            ("the last element", tree(texts=["a", "b", ENDLESS]), "V10", "texts[2] [zoo.Tree.texts]", ()),
            ("an element of two digits", tree(texts=["a"] * 10 + [ENDLESS]), "V10", "texts[10] [zoo.Tree.texts]", ()),
            ("an element without offset", tree(texts=["a", None]), "V4", "texts[1] [zoo.Tree.texts]", ()),
            ("a vector of numbers", tree(longs=Plain(b"", 8, 1000)), "V2", "longs [zoo.Tree.longs]", ()),
            ("a vector of texts", tree(texts=Plain(b"", 4, 1000)), "V2", "texts [zoo.Tree.texts]", ()),
            ("an element that is a table", tree(leaves=[{}, HEADLESS]), "V8", "leaves[1] [zoo.Leaf]", ()),
            ("an element without offset to a table", tree(leaves=[{}, {}, None]), "V4", "leaves[2] [zoo.Tree.leaves]",
             ()),
            ("a field of such a table", tree(leaves=[{}, {}, leaf]), "V10", "leaves[2].t [zoo.Leaf.t]", ()),
            ("a member that is a table", tree(**of_type(1, HEADLESS)), "V8", "any@Leaf [zoo.Leaf]", ()),
            ("a member without offset", tree(**of_type(1, ("I", 0))), "V4", "any@Leaf [zoo.Tree.any]", ()),
            ("a member that is a struct", tree(**of_type(2, ("I", 1 << 20))), "V2", "any@Spot [zoo.Tree.any]", ()),
            ("a member that is a text", tree(**of_type(3, ENDLESS)), "V10", "any@Text [zoo.Tree.any]", ()),
            ("a field of a member", tree(**of_type(1, leaf)), "V10", "any@Leaf.t [zoo.Leaf.t]", ()),
            ("one of unions", tree(**of_types((3, "a"), (3, ENDLESS))), "V10", "anys[1]@Text [zoo.Tree.anys]", ()),
            ("one of unions, of type 0", tree(**of_types((0, None), (1, HEADLESS))), "V8", "anys[1]@Leaf [zoo.Leaf]",
             ()),
            ("a field of one of many unions", tree(**of_types(*[(0, None)] * 10, (1, leaf))), "V10",
             "anys[10]@Leaf.t [zoo.Leaf.t]", ()),
            ("a field of one of unions", tree(**of_types((9, None), (1, leaf))), "V10", "anys[1]@Leaf.t [zoo.Leaf.t]",
             ()),
            ("one of unions without offset", tree(**of_types((1, None))), "V4", "anys[0]@Leaf [zoo.Tree.anys]", ()),
            ("types that aren't as many", tree(anys=["a"]), "V11", "anys [zoo.Tree.anys]", ()),
            ("types past the end", tree(anys_type=Plain(b"", 4, 5000)), "V2", "anys_type [zoo.Tree.anys_type]", ()),
            ("three deep", tree(tree=tree(tree=tree(tree=tree(texts=["a", ENDLESS])))), "V10",
             "tree.tree.tree.texts[1] [zoo.Tree.texts]", ()),
            ("a required field three deep", tree(tree=tree(tree=tree(tree={}))), "V9",
             "tree.tree.tree.must [zoo.Tree.must]", ()),
            ("all three deep", tree(tree=tree(**of_types((3, "a"), (4, tree(**of_type(4, tree(leaves=[{}, leaf]))))))),
             "V10", "tree.anys[1]@Tree.any@Tree.leaves[1].t [zoo.Leaf.t]", ()),
            ("behind what is good", tree(leaf={1: "a"}, leaves=[{}, {1: "b"}], texts=["c"], tree=tree(),
                                         longs=Plain(b"", 8, 0), must=ENDLESS), "V10", "must [zoo.Tree.must]", ()),
            ("too deep by a field", tree(tree=tree(leaf={})), "V6", "tree.leaf [zoo.Tree.leaf]", ("--max-depth", "2")),
            ("too deep by an element", tree(leaves=[{}]), "V6", "leaves[0] [zoo.Tree.leaves]", ("--max-depth", "1")),
            ("too deep by a member", tree(**of_types((4, tree(**of_type(1, {}))))), "V6",
             "anys[0]@Tree.any@Leaf [zoo.Tree.any]", ("--max-depth", "2")),
            ("too many by an element", tree(leaves=[{}, {}, {}]), "V7", "leaves[2] [zoo.Tree.leaves]",
             ("--max-tables", "3")),
        ]:
            given = buffer(root)
            plain = run(*BY_TREE, *words, given=given)
            self.same(f"{name}: the reason", (plain.status, plain.out.split()[2:3]), (1, [code.encode()]))
            self.same(name, run(*BY_TREE, *words, "--names", given=given),
                      plain._replace(out=plain.out[:-1] + f" in {want}\n".encode()))
        by_node = ("--schema", FILES["NODE"], "--bare", "--names", "--reads-per-byte", "4294967295")
        for count in 1, 2, 3, 21, 22, 1_000, 999_999, 1_000_000:
            ran = run(*by_node, "--max-tables", str(count), given=buffers.doubling(21))
            way = way_to_visit(21, count)
            self.same(f"the visit past {count}", ran.out.decode().partition(" in ")[2], f"{way} [Node.{way[-1]}]\n")

    def test_budgets_that_end_anywhere(self):
        """The places where budgets of reads end, from the least on: what is absent is read too, by its slot."""
        members = buffer(tree(**of_types((3, "a"), (9, None), (0, None))))
        places = []
        reads = int(run(*BY_TREE, given=members).out.rpartition(b"reads=")[2])
        for budget in range(reads):
            ran = run(*BY_TREE, "--names", "--max-reads", str(budget), given=members)
            place = ran.out.decode().partition(" in ")[2]
            if place not in places:
                places.append(place)
        ways = ["leaf", "leaves", "texts", "any_type", "any", "anys_type", "anys", "anys[0]@Text", "anys[1]", "anys[2]",
                "tree", "longs", "spot", "must"]
        self.same("the places where budgets end", places,
                  [". [zoo.Tree]\n"] + [f"{way} [zoo.Tree.{way.partition('[')[0]}]\n" for way in ways])
        unknown = buffer(tree(**of_type(9, ("I", 0))))
        reads = int(run(*BY_TREE, given=unknown).out.rpartition(b"reads=")[2])
        ends = [run(*BY_TREE, "--names", "--max-reads", str(budget), given=unknown).out.partition(b" in ")[2]
                for budget in range(reads)]
        self.holds("a union of unknown type is named without one", b"any [zoo.Tree.any]\n" in ends, ends)
        self.holds("and nothing behind it", not any(b"@" in end for end in ends), ends)

    def test_names_of_any_bytes(self):
        """No name of a schema begins a line, or looks like the end of a place."""
        strange = "x [y]\n2 ok"
        plain = bytes(range(256))
        known = bytes(c if chr(c).isascii() and (chr(c).isalnum() or chr(c) in "_.") else 63 for c in plain)
        for name, table_name, field_name, want in [
            ("a name of lines", "a.b\n3 ok", strange, b"x??y??2?ok [a.b?3?ok.x??y??2?ok]"),
            ("each byte", plain, "v", b"v [" + known + b".v]"),
            ("each byte of a field", "T", plain, known + b" [T." + known + b"]"),
            ("empty names", "", "", b" [.]"),
            ("letters of two bytes", "é", "üb", b"??b [??.??b]"),
        ]:
            data = schema([table(table_name, field(field_name, TEXT, 4))], root=table_name)
            words = "--schema", file_of("strange.bfbs", data), "--bare"
            given = buffer({0: ENDLESS})
            out = run(*words, given=given).out
            self.holds(f"{name}: a bad buffer", b" bad V10 " in out, out)
            self.same(name, run(*words, "--names", given=given), Ran(1, out[:-1] + b" in " + want + b"\n", b""))

    def test_in_every_mode(self):
        parts = [SEVEN, ODD, SEVEN, NOTHING, PAST, ODD, SEVEN]
        stream = b"".join(parts)
        bad_lines = b"".join(line for line in told(*parts).splitlines(keepends=True) if b" bad " in line)
        self.same("a stream", run(*BY_N, given=stream), Ran(1, told(*parts), b""))
        self.same("with --quiet", run(*BY_N, "--quiet", given=stream), Ran(1, bad_lines, b""))
        self.same("with --filter", run(*BY_N, "--filter", given=stream), Ran(1, SEVEN * 3, bad_lines))
        self.same("with both", run(*BY_N, "--filter", "--quiet", given=stream), Ran(1, SEVEN * 3, bad_lines))
        for words in [["--quiet"], ["--filter"], []]:
            plain = run(*BY_N[:2], *words, "--summary", given=stream)
            ran = run(*BY_N, *words, "--summary", given=stream)
            self.same(f"the summary, with {words}", ran.err.splitlines()[-1], plain.err.splitlines()[-1])
            self.same(f"the lines before it, with {words}", (ran.out, ran.err[:-len(plain.err.splitlines()[-1]) - 1]),
                      run(*BY_N, *words, given=stream)[1:])
        with_value = told(*parts).replace(YES.encode(), f"{YES} 7".encode())
        self.same("with a path", run(*BY_N, "--path", "v", given=stream), Ran(1, with_value, b""))
        self.same("with a path, quietly", run(*BY_N, "--path", "v", "--quiet", given=stream), Ran(1, bad_lines, b""))
        by_m = "--schema", FILES["M"], "--bare", "--names"
        cut = lines("1 bad V2 OutOfBuffer at=28 object=0 field=1 reads=7 in name [M.name]")
        self.same("bare", run(*by_m, given=ORC[:31]), Ran(1, cut, b""))
        self.same("bare, quietly", run(*by_m, "--quiet", given=ORC[:31]), Ran(1, cut, b""))
        self.same("bare, with --filter", run(*by_m, "--filter", given=ORC[:31]), Ran(1, b"", cut))
        self.same("bare, with a path", run(*by_m, "--path", "name", given=ORC[:31]), Ran(1, cut, b""))
        self.same("a good one, with a path", run(*by_m, "--path", "name", given=ORC),
                  good('1 ok tables=1 depth=1 reads=8 "Orc"'))
        self.same("a good one passes the filter", run(*by_m, "--filter", given=ORC), Ran(0, ORC, b""))
        limited = run(*BY_POST, "--names", "--max-reads", "40", given=POST).out
        self.holds("a place in each bad line of the example, and in no other",
                   all((b" bad " in line) == (b" in " in line) for line in limited.splitlines()), limited)

    def test_streams_that_are_cut(self):
        parts = [SEVEN, ODD, PAST, SEVEN]
        stream = b"".join(parts)
        for length in range(len(stream) + 1):
            whole, held = divmod(length, 32)
            text = f"stream: S2 Truncated held={held}"
            want = Ran(1 if whole > 1 else 0, told(*parts[:whole]), b"")
            if held:
                want = Ran(3, told(*parts[:whole]), lines(f"fbcheck: {text if whole else astray(text)}"))
            self.same(f"cut off after {length} bytes", run(*BY_N, given=stream[:length]), want)
        self.same("a prefix past the limit", run(*BY_N, given=ODD + spelled("ffffffff")),
                  failed(astray("stream: S1 Oversize declared=4294967295"), f"1 {NO[ODD]}"))
        for most in 1, 3, 31, 32, 33, 100:
            self.same(f"in pieces of {most}", narrowed(*BY_N, given=stream, read=most, write=1),
                      Ran(1, told(*parts), b""))
        with Talk(*BY_N) as talk:
            for number, part in enumerate(parts, 1):
                talk.say(part)
                self.same(f"line {number}, while the pipe stays open", talk.hear(),
                          lines(f"{number} {NO.get(part, YES)}"))
            self.same("the end", talk.end(), Ran(1, b"", b""))

    def test_outputs_that_take_no_more(self):
        first = lines(f"1 {NO[ODD]}")
        for name, redirections, want in [
            ("a full device", ">/dev/full", FULL), ("closed standard output", ">&-", CLOSED),
        ]:
            self.same(name, run_in_shell(redirections, *BY_N, given=ODD), Ran(3, b"", lines(want)))
        for name, redirections in [("full standard error", "2>/dev/full"), ("closed standard error", "2>&-")]:
            self.same(name, run_in_shell(redirections, *BY_N, "--filter", given=SEVEN + ODD), Ran(3, SEVEN, b""))
        with Talk(*BY_N) as talk:
            talk.say(ODD)
            self.same("the first line comes", talk.hear(), first)
            talk.run.stdout.close()
            talk.run.stdin.write(ODD)
            talk.run.stdin.close()
            self.same("the second can't be written", (talk.run.stderr.read(), talk.run.wait(SECONDS)),
                      (b"", 3))
        whole = told(ODD, PAST)
        for room in range(len(whole)):
            self.same(f"room for {room} bytes", narrowed(*BY_N, given=ODD + PAST, room=room),
                      Ran(3, whole[:room], lines(f"fbcheck: write failed after {room} bytes")))

    def test_long_places(self):
        """A place of up to 4,096 bytes is told whole, of a longer one the first 4,096 and `..`."""
        for length in 4_095, 4_096, 4_097, 4_098, 1_000_000:
            name = "L" * (length - len("in . []"))
            path = file_of("long.bfbs", schema([table(name, field("v", INT, 4))], root=name))
            told = f"in . [{name}]" if length <= 4_096 else f"in . [{name}"[:4_096] + ".."
            ran = run("--schema", path, "--names", given=NOTHING)
            self.same(f"a place of {length} bytes", ran, bad(f"1 {NO[NOTHING].partition(' in ')[0]} {told}"))
            most = refusing([PROGRAM, "--schema", path, "--names"], NOTHING).most
            self.holds(f"a place of {length} bytes takes no more than twice its line", most <= 2 * len(ran.out), most)

    def test_long_places_in_json(self):
        """There the way alone is told, up to 4,096 bytes of it."""
        for length in 4_095, 4_096, 4_097, 4_098, 5_000:
            name = "f" * length
            path = file_of("long.bfbs", schema([table("T", field(name, TEXT, 4))], root="T"))
            line = run("--schema", path, "--bare", "--json", given=buffer({0: ENDLESS})).out.decode()
            want = name if length <= 4_096 else name[:4_096] + ".."
            self.same(f"a way of {length} bytes", line.partition('"place":')[2], f'"{want}"}}\n')

    def test_places_of_many_steps(self):
        """A place is as long as its names and the depth make it, up to 4,096 bytes."""
        def way(step, count):
            return ".".join([step] * count).encode() or b"."

        def place(step, count):
            whole = b"in " + way(step, count) + b" [L]"
            return whole if len(whole) <= 4_096 else whole[:4_096] + b".."

        deep = "--max-depth", "4096"
        for step in "next", "n" * 100:
            path = file_of("long.bfbs", schema([table("L", field(step, an_object(0), 4))], root="L"))
            words = "--schema", path, *deep
            for count in 1, 2, 3, 41, 42, 64, 819, 820, 4096:
                given = broken(count)
                plain = run(*words, "--bare", given=given).out
                want = plain[:-1] + b" " + place(step, count - 1) + b"\n"
                self.same(f"{count} tables by {len(step)} letters", run(*words, "--bare", "--names", given=given),
                          Ran(1, want, b""))
                self.same(f"{count} tables by {len(step)} letters, in the notes",
                          run(*words, "--bare", "--names", "--filter", given=given), Ran(1, b"", want))
            stream = b"".join(prefixed(part) for part in [broken(4096), levels(2), broken(2), broken(4000), levels(1)])
            ran = run(*words, "--names", given=stream)
            plain = run(*words, given=stream).out.splitlines()
            ways = {0: 4095, 2: 1, 3: 3999}
            want = [line + b" " + place(step, ways[number]) if number in ways else line
                    for number, line in enumerate(plain)]
            self.same(f"a stream by {len(step)} letters", (ran.status, ran.out.splitlines()), (1, want))
            for room in 0, 10, 60, 65_000, 65_600, len(ran.out) - 60, len(ran.out) - 1:
                if room < len(ran.out):
                    self.same(f"a stream by {len(step)} letters, with room for {room}",
                              narrowed(*words, "--names", given=stream, room=room),
                              Ran(3, ran.out[:room], lines(f"fbcheck: write failed after {room} bytes")))
        told = b"1 bad V6 TooDeep at=32776 object=0 field=0 reads=16381 " + place("next", 4095) + b"\n"
        self.same("one level too many",
                  run("--schema", FILES["CHAIN"], "--bare", "--names", "--max-depth", "4095", given=levels(4096)),
                  Ran(1, told, b""))

    def test_what_waits_to_be_written(self):
        """Where the lines of one read are long, they are written in parts: once 65,536 bytes wait, before the next
        message is checked. 68 MB of lines need no more than 16 MiB, and a write that fails ends the run there."""
        name = "L" * 4_089
        words = "--schema", file_of("long.bfbs", schema([table(name, field("v", INT, 4))], root=name)), "--names"
        bad_line = f"{NO[NOTHING].partition(' in ')[0]} in . [{name}]"

        def parts(messages):
            """For each write, how many messages were checked by then."""
            waits, ends = 0, []
            for number, message in enumerate(messages, 1):
                waits += len(message) if message is SEVEN else len(f"{number} {bad_line}\n")
                if waits >= 65_536:
                    waits, ends = 0, [*ends, number]
            return ends

        bad_ones = [NOTHING] * 16_384
        texts = [f"{number} {bad_line}" for number, _ in enumerate(bad_ones, 1)]
        told = lines(*texts)
        for option, out, err in [((), told, b""), (("--filter",), b"", told)]:
            ran = run_starved(*words, *option, given=b"".join(bad_ones))
            self.same(f"long lines in little memory, {option}", (ran.status, ran.out == out, ran.err == err),
                      (1, True, True))
        for room in 0, 65_535, 70_000, 140_000:
            count = next(end for end in parts(bad_ones) if len(lines(*texts[:end])) > room)
            ran = narrowed(*words, "--summary", given=b"".join(bad_ones), room=room)
            self.same(f"room for {room} bytes", (ran.status, ran.out == told[:room], ran.err), (3, True, lines(
                f"summary: messages={count} yes=0 no={count} V2={count} bytes={4 * count} tables=0 reads={count}",
                f"fbcheck: write failed after {room} bytes")))
        mixed = [SEVEN, NOTHING] * 1_000
        passed = SEVEN * mixed[:parts(mixed)[0]].count(SEVEN)
        self.same("what passes a filter before standard error is found to be full",
                  run_in_shell("2>/dev/full", *words, "--filter", given=b"".join(mixed)), Ran(3, passed, b""))

    def test_memory_that_is_refused(self):
        """A front of whole lines is written, whichever request is refused."""
        chain = ["--schema", str(FILES["CHAIN"]), "--names"]
        long = schema([table("L", field("n" * 500, an_object(0), 4))], root="L")
        by_long = ["--schema", str(file_of("memory.bfbs", long)), "--names"]
        stream = b"".join(prefixed(part) for part in [broken(2), levels(2), broken(20), broken(5), broken(60)])
        for plan in [
            Plan("places", chain, stream, 1),
            Plan("places, in pieces", chain, stream, 1, most=100),
            Plan("long places", by_long, stream, 1),
            Plan("a place of a bare input", [*by_long, "--bare"], broken(9), 1),
            Plan("places of the example", [*map(str, BY_POST), "--names"], POST, 1),
            Plan("quiet places", [*chain, "--quiet"], stream, 1),
        ]:
            for extent in ALONE, WITH_LATER:
                self.same(f"{plan.name}, refused {extent}", plan.faults(extent, is_front), [])

    def test_what_is_asked_for_once(self):
        """The room for links is made before the first read, and that for words with the first place of its length."""
        words = [PROGRAM, "--schema", FILES["CHAIN"], "--names"]
        quiet = refusing([*words, "--quiet"], prefixed(levels(9)))
        self.same("a good message asks for nothing", (quiet.status, quiet.reads[0]), (0, quiet.asked))
        part = prefixed(broken(9))
        twice, often = [refusing(words, part * count, most=len(part)) for count in (2, 9)]
        self.same("places of one length ask once", (often.status, often.asked), (1, twice.asked))

    def test_each_place_is_a_path(self):
        """Each byte of good messages changed to some others: what the lines of bad ones end with."""
        parts = [POST[:512], POST[-200:]]
        many = b"".join(piece for part in parts for piece in damaged(part))
        tree_message = buffer(tree(
            leaf={0: ("i", 1), 1: "a"}, leaves=[{}, {1: "b"}], texts=["c", ""], longs=Plain(bytes(16), 8, 2),
            tree=tree(texts=["d"], **of_type(4, tree())),
            **of_types((3, "e"), (1, {1: "f"}), (4, tree(leaves=[{1: "g"}]))),
        ), prefix=True)
        fields = {"zoo.Leaf": ["n", "t"], "zoo.Tree": TREE_FIELDS}
        numbers = ["zoo.Leaf", "zoo.Spot", "zoo.Tree"]

        def tree_owner(line):
            name = numbers[int(re.search(r" object=(\d+) ", line)[1])]
            number = re.search(r" field=(\d+) ", line)
            return name + (f".{fields[name][int(number[1])]}" if number else "")

        trees = b"".join(damaged(tree_message))
        for name, words, stream, owner in [
            ("deliveries", BY_POST, many, post_owner),
            ("deliveries, as they come", (*BY_POST, "--no-alignment", "--inline-size"), many, post_owner),
            ("few reads", (*BY_POST, "--max-reads", "70"), many, post_owner),
            ("few tables", (*BY_POST, "--max-tables", "4"), many, post_owner),
            ("trees", BY_TREE[:2], trees, tree_owner),
            ("low trees", (*BY_TREE[:2], "--max-depth", "2"), trees, tree_owner),
            ("unaligned trees", (*BY_TREE[:2], "--no-alignment"), trees, tree_owner),
        ]:
            plain, ran = run(*words, given=stream), run(*words, "--names", given=stream)
            self.same(f"{name}: the status", ran.status, plain.status)
            without = re.sub(rb" in [^ ]+ \[[^ \]]+\]$", b"", ran.out, flags=re.M)
            self.same(f"{name}: the lines without their places are those without the option", without, plain.out)
            found = {}
            for line in ran.out.decode().splitlines():
                if " bad " in line:
                    place, _, brackets = line.partition(" in ")[2].partition(" ")
                    found.setdefault((place, brackets, f"[{owner(line)}]"), line)
                elif " in " in line:
                    self.holds(f"{name}: a good line has no place", False, line)
            self.holds(f"{name}: places of many kinds", len(found) > 9, found.keys())
            for (place, brackets, want), line in found.items():
                self.same(f"{name}: the brackets of {line}", brackets, want)
                named = re.search(r" field=\d+ ", line)
                if place == ".":
                    self.holds(f"{name}: the root has no field: {line}", not named, line)
                    continue
                if named:
                    last = re.sub(r"@.*|\[.*", "", place.rpartition(".")[2])
                    self.same(f"{name}: the last step of {line}", last, want[1:-1].rpartition(".")[2])
                self.same(f"{name}: {place} is a path", run(*words[:2], "--path", place), good())

    def test_words_of_names(self):
        for words in [["--names", "--names"], ["--names=yes"], ["--names="], ["--Names"],
                      ["--name"]]:
            ran = run(*words, given=SEVEN)
            self.same(f"{words} is status 2 and writes nothing", (ran.status, ran.out), (2, b""))
            self.holds(f"{words} is told on standard error", ran.err.startswith(b"error: ") and ran.err.endswith(b"\n"),
                       ran.err)
        self.holds("help tells of it", b"--names" in run("--help").out, run("--help").out)
        self.holds("and what it does", b"End lines of bad buffers with the place in words" in run("--help").out)
        self.same("a filter with it takes no path all the same", run(*BY_N, "--filter", "--path", "v", given=SEVEN),
                  refused("a filter takes no path"))
        self.same("a schema file's fault has no place", run("--schema", "/dev/null", "--names", given=SEVEN),
                  schemaless("L1 V2 OutOfBuffer at=4 object=9 field=- reads=0", "/dev/null", NO_BYTES))
