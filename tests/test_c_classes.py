"""The classes of fbcheck.hpp: what their calls promise beyond the calls of fbcheck.h, and what doesn't compile."""

from tests.support.buffers import POST
from tests.support.builder import Plain, buffer, messages_of
from tests.support.library import SANITIZED, SHARED, STATIC, STRICT, LibraryCase, cpp_of, ran
from tests.support.program import TOP, file_of, run
from tests.support.schemas import BOOL, FLOAT, LONG, TEXT, U_LONG, field, schema, table, vector
from tests.support.tools import there

ORDERS = TOP / "examples/deliveries.bfbs"
SOURCES = TOP / "tests/c"
WARNING = ["-Wconversion"]
NUMBERS = schema([table("T", field("u", U_LONG, 4), field("i", LONG, 6), field("b", BOOL, 8), field("s", TEXT, 10),
                        field("v", vector(LONG), 12), field("f", FLOAT, 14), field("d", LONG, 16, -7))], root="T")


class ClassesForCpp(LibraryCase):
    def both(self, name):
        """A program of tests/c by C++17 with the sanitizers, and by C++23, if there is another compiler by that."""
        source, other = SOURCES / f"{name}.cpp", "clang++" if there("clang++") else "c++"
        return [self.compiled(f"{name}_17", source, *WARNING, *SANITIZED, *STATIC, **cpp_of(17)),
                self.compiled(f"{name}_23", source, *WARNING, *SHARED, compiler=other, standard="-std=c++2b")]

    def setUp(self):
        if not there("c++"):
            self.skipTest("c++ isn't there")

    def test_framers(self):
        """A callback that pauses loses nothing, after one that throws the stream has failed, and a framer is reset."""
        failed = "the stream has failed before"
        want = ["thrown by a callback", failed, failed, "thrown by another", failed,
                "a message is too long for the room: 2147483647", ""]
        for program in self.both("feeds"):
            self.same(f"{program.name}", ran(program, ORDERS, file_of("stream", POST), 512), (0, "\n".join(want), ""))

    def test_kept(self):
        """Buffers that are kept, taken and given back, and values that are read again."""
        message = file_of("message", messages_of(POST)[0])
        for program in self.both("keeps"):
            for paths in [("to.name", "items"), ("stamps", "items[0]@Parcel.tags[1]"), ("floor", "items[9]")]:
                self.same(f"{program.name}, {paths}", ran(program, ORDERS, message, *paths), (0, "", ""))

    def test_values(self):
        """Whole numbers of either sign as both kinds that they fit, and texts as the program writes them."""
        file, words = file_of("numbers.bfbs", NUMBERS), ("u", "i", "b", "s", "v", "f", "d")
        every = bytes(range(256))
        text = buffer({3: "?" * 256}).replace(b"?" * 256, every)
        program = run("--bare", "--schema", str(file), "--path", "s", given=text).out.decode().strip()
        made = self.both("values")
        for name, data, want in [
            ("great", buffer({0: ("Q", 2**63), 1: ("q", -2**63), 2: ("B", 1), 3: "", 4: Plain(bytes(16), 8, 2),
                              5: ("f", 1.0)}),
             [f"- {2**63} -", f"{-2**63} - -", "1 1 -", '- - ""', "- 2 -", "- - -", "-7 - -"]),
            ("small", buffer({0: ("Q", 2**63 - 1), 1: ("q", 2**63 - 1), 3: "a"}),
             [f"{2**63 - 1} {2**63 - 1} -"] * 2 + ["0 0 -", '- - "a"', "- - -", "- - -", "-7 - -"]),
            ("each byte", text, ["0 0 -"] * 3 + [f"- - {program.partition(' reads=')[2].partition(' ')[2]}"] +
             ["- - -", "- - -", "-7 - -"]),
        ]:
            for one in made:
                self.same(f"{name}, {one.name}", ran(one, file, file_of("values.bin", data), *words),
                          (0, "\n".join([*want, ""]), ""))

    def test_texts(self):
        """What is thrown says what is wrong, and calls without options have those of the Schema."""
        version, unchecked = "the options are of another version", "nothing was checked: "
        depth, made_by = "a depth or a room is out of range: max_depth is", "which flatc --binary --schema makes"
        want = [*[f"{unchecked}{text}" for text in [
            *[f"{version}: version is 2"] * 2, *[f"{version}, or unknown: ident_from is 3"] * 2,
            *[f"{version}, or unknown: demands is 8"] * 2, *[f"{depth} 4097, of at most 4096"] * 2,
            f"{depth} 65, which needs a Scratch for it", "no root table",
            "the schema was made with other demands", "a pointer is null"]],
            "bad V2 OutOfBuffer at=508 object=1 field=- reads=2 in . [post.Delivery]; it begins as with a prefix: if "
            "it has one, set prefixed",
            "no root table: nobody; tables: post.Delivery post.Letter post.Parcel post.Person",
            r"no root table: no\x0abody; tables: post.Delivery post.Letter post.Parcel post.Person",
            "no path: to: P2 NoSuchField step=0; fields: name age home", r"no path: to\x0a: P1 BadText at=2",
            "no path: to: P2 NoSuchField step=0; fields: name age home",
            f"{unchecked}a pointer is null, or the schema was moved from"]
        ill, binary = "V5 WrongIdentifier at=4", f"this is no binary schema (a message?), {made_by}"
        message, bare = (file_of(name, messages_of(POST)[0][at:]) for name, at in [("message", 0), ("bare", 4)])
        looks = {ORDERS.with_suffix(".fbs"): f"{ill}; this is text (.fbs?): flatc --binary --schema makes the .bfbs",
                 ORDERS.with_suffix(".jsonl"): f"{ill}; this looks like JSON, and no binary schema, {made_by}",
                 ORDERS.with_suffix(".bin"): f"{ill}; {binary}", bare: f"{ill}; {binary}",
                 file_of("none.bfbs", b""): "V2 OutOfBuffer at=4; this is empty",
                 file_of("text", b"table"): "V2 OutOfBuffer at=4; this is text (.fbs?): flatc --binary --schema makes "
                 "the .bfbs", file_of("cut.bfbs", ORDERS.read_bytes()[:9]): "V2 OutOfBuffer at=32"}
        lines = "\n".join([*want, *[f"no schema: {look}" for look in looks.values()], ""])
        for program in self.both("texts"):
            self.same(f"{program.name}", ran(program, ORDERS, message, "post.Person", *looks), (0, lines, ""))

    def test_what_does_not_compile(self):
        """Values of what ends before they are used, what only an rvalue has, a pause that is overlooked, and C++14."""
        compilers = [["c++", f"-std=c++{year}"] for year in (17, 20, 23)]
        if there("clang++"):
            compilers.append(["clang++", "-std=c++17"])
        for compiler in compilers:
            for line, words in [(0, ""), *((line, "delete") for line in range(1, 7)), (7, "release"),
                                (8, "nodiscard")]:
                status, _, err = ran(*compiler, *STRICT, *WARNING, f"-DLINE={line}", "-fsyntax-only",
                                     SOURCES / "unmade.cpp")
                self.same(f"{' '.join(compiler)}, {line}", (status == 0, words in err), (line == 0, True))
        for name in sorted({words[0] for words in compilers}):
            status, _, err = ran(name, "-std=c++14", *STRICT, "-fsyntax-only", SOURCES / "unmade.cpp")
            self.same(f"{name}, C++14", (status == 0, "fbcheck.hpp needs C++17" in err), (False, True))
