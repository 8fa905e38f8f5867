"""The programs of examples/c, what C++ has of the library, and the command of the page, against the program."""

import re
import shutil
import struct

from tests.support import buffers, schemas
from tests.support.buffers import ORC, POST
from tests.support.builder import buffer, messages_of, prefixed
from tests.support.every_kind import FILE, LITTLE, WHOLE
from tests.support.library import OUT, SANITIZED, SHARED, STATIC, LibraryCase, cpp_of, module, ran
from tests.support.program import TOP, file_of, folder_of, run
from tests.support.schemas import INT, field, schema, table
from tests.support.tools import there

FOLDER = folder_of(__name__)
CPP_17, CPP_20 = cpp_of(17), cpp_of(20)
ORDERS = TOP / "examples/deliveries.bfbs"


def without_names(lines):
    """The lines of the program without the names of reasons."""
    return re.sub(rb"bad (V\d+) \w+", rb"bad \1", lines)


class ExamplesInC(LibraryCase):
    def test_examples(self):
        """The programs of examples/c, and the module for Python, on the messages of the example."""
        messages = messages_of(POST)
        words = SHARED
        if there("pkg-config"):
            words = ran("pkg-config", "--cflags", "--libs", "fbcheck", PKG_CONFIG_PATH=str(OUT))[1].split()
        check = self.compiled("check_c", TOP / "examples/c/check.c", *words, *SHARED[1:])
        if CPP_17:
            check_cpp = self.compiled("check_cpp", TOP / "examples/c/check.cpp", *words, *SHARED[1:], **CPP_17)
        self.compiled("check_sane", TOP / "examples/c/check.c", *SANITIZED, *STATIC)
        python = module()
        with python.Verifier(ORDERS.read_bytes()) as verifier:
            for number, message in enumerate(messages):
                want = run("--bare", "--no-alignment", "--schema", str(ORDERS), given=message[4:]).out.decode()
                told = verifier.verify(message[4:], python.Options(no_alignment=1))
                got = (f"ok tables={told.tables} depth={told.depth}" if told.ok else
                       f"bad V{told.reason} at={told.at} object={told.object} field={told.field}")
                text = f"{got} reads={told.reads}"
                self.same(f"message {number + 1} by Python", f"1 {text}\n", without_names(want.encode()).decode())
                self.same(f"message {number + 1} by its prefix",
                          verifier.verify(message, python.Options(prefixed=1)).status, int(number == 4))
                self.same(f"message {number + 1} with another prefix",
                          verifier.verify(b"\0" + message[1:], python.Options(prefixed=1)).reason, 1)
            for ident, reason in [(b"POST", 0), (b"PAST", 5)]:
                told = verifier.verify(messages[0], python.Options(ident, prefixed=1))
                self.same(f"the identifier {ident}", told.reason, reason)
            most = verifier.most_reads(len(messages[0]), python.Options(max_tables=2, max_reads=1000))
            self.same("the most reads are the budget and 7", most, 1007)
            self.same("or fewer", verifier.most_reads(10, python.Options(max_tables=0)), 4)
            asked = python.Options(max_reads=2**64 - 1, reads_per_byte=2**32 - 1)
            self.same("or those that the longest buffer may take", verifier.most_reads(2**64 - 1, asked),
                      (2**32 - 1) * (2**31 - 1 + 64) + 7)
            verifier.choose_root("post.Person")
            self.same("another root", verifier.verify(b"").object != 1, True)
            try:
                verifier.choose_root("post.Nobody")
                self.holds("a root that isn't there is refused", False)
            except python.Error as error:
                self.same("a root that isn't there is refused", error.verdict.status, 6)
        small, orc, torn = file_of("M.bfbs", schemas.M), file_of("orc", ORC), file_of("torn", ORC[:-1])
        for name, words, wanted, line in [
            ("good", [small, orc], 0, "ok tables=1 depth=1 reads=8"), ("with its root", [small, orc, "M"], 0, None),
            ("of more than a piece", [small, file_of("long", ORC + bytes(1 << 17))], 0, "ok tables=1 depth=1 reads=8"),
            ("torn", [small, torn], 1, "bad V2 OutOfBuffer at=28 object=0 field=1 reads=7\nin M.name"),
            ("empty", [small, file_of("empty", b"")], 1, "bad V2 OutOfBuffer at=0 object=0 field=- reads=0\nin M"),
            ("no such table", [small, orc, "N"], 2, ""),
            ("no schema", [orc, orc], 2, ""), ("no buffer", [small, FOLDER / "nowhere"], 2, ""),
            ("no words", [], 2, ""),
        ]:
            if line is None:
                told = run("--bare", "--schema", small, given=words[1].read_bytes())
                line = told.out.decode().removeprefix("1 ").strip()
            for program in (check, FOLDER / "check_sane"):
                status, out, err = ran(program, *words)
                self.same(f"{name}, {program.name}", (status, out.strip(), bool(err)), (wanted, line, wanted == 2))
            if CPP_17:
                status, out, err = ran(check_cpp, *words)
                if wanted == 1:
                    told = run("--bare", "--names", "--schema", small, given=words[1].read_bytes())
                    line = told.out.decode().removeprefix("1 ").strip()
                self.same(f"{name}, check_cpp", (status, out.strip(), bool(err)), (wanted, line, wanted == 2))
        for name, words, text, text_of_cpp in [
            ("no schema", [orc, orc], "no schema: 8, reason 5 at 4", "no schema: V5 WrongIdentifier at=4; this is no "
             "binary schema (a message?), which flatc --binary --schema makes"),
            ("rows that are none", [file_of("bent", schema([table("T", field("a", INT, 5))])), orc],
             "no schema: 9, reason 4 at 0", "no schema: C4 BadSlot object=0 field=0"),
            ("no schema file", [FOLDER / "nowhere", orc], *[f"{FOLDER}/nowhere can't be read"] * 2),
            ("no buffer", [small, FOLDER / "nowhere"], *[f"{FOLDER}/nowhere can't be read"] * 2),
            ("a folder", [small, FOLDER], *[f"{FOLDER} can't be read"] * 2),
            ("no root table", [file_of("rootless", schema([table("T")])), orc], "nothing was checked: 6",
             "nothing was checked: no root table of the schema's own, so set root"),
        ]:
            self.same(f"{name}, told by check_c", ran(check, *words), (2, "", f"check: {text}\n"))
            if CPP_17:
                self.same(f"{name}, told by check_cpp", ran(check_cpp, *words), (2, "", f"check: {text_of_cpp}\n"))
        if CPP_17:
            for how, spans in [(CPP_17, ""), (CPP_20, "10 ")]:
                moved = self.compiled("moved", TOP / "tests/c/moved.cpp", *SANITIZED, *STATIC, **how)
                want = [f"misuse 2 1 1 misuse 2 1 misuse 4 1 {spans}M",
                        "nothing was checked: a pointer is null, or the schema was moved from",
                        *["a pointer is null, or the framer was moved from"] * 2, "the stream ends inside a message"]
                self.same(f"what is moved, {how['standard']}", ran(moved, small, orc), (0, "\n".join([*want, ""]), ""))

    def test_opening_comments(self):
        """The commands that the opening comments of check.c and check.cpp have of a clone: the message is ok."""
        commands = set()
        for source, how in [("check.c", {}), ("check.cpp", CPP_17)]:
            if how is None:
                continue
            text = (TOP / "examples/c" / source).read_text()
            shown = re.findall(r"(?m)^(?: \*|//)     ((?:head|\./check --prefixed examples/).*)$", text)
            commands.add("\n".join(shown))
            folder = FOLDER / source
            folder.mkdir()
            (folder / "examples").symlink_to(TOP / "examples")
            self.compiled(f"{source}/check", TOP / "examples/c" / source, *SHARED, **how)
            told = ran("env", "-C", folder, "sh", "-c", "\n".join(shown))
            self.same(source, told, (0, "ok tables=8 depth=2 reads=111\n", ""))
        self.same("they are the same, two lines", [text.count("\n") for text in commands], [1])

    def test_once_in_cpp(self):
        """A buffer is gone through once for its place, however long that is, once more where a bad one is read, and
        once where one is kept, whatever is read of it then."""
        if not CPP_17:
            return
        program = self.compiled("once", TOP / "tests/c/once.cpp", *STATIC, **CPP_17)
        chain, rows = buffers.levels(60), file_of("chain.bfbs", schemas.CHAIN)
        for name, given, calls in [("good", chain, (1, 1, 1, 1)), ("bad", chain[:-1], (1, 1, 2, 1))]:
            want = run("--bare", "--names", "--schema", rows, given=given).out.decode().removeprefix("1 ").strip()
            told = ran(program, rows, file_of(f"{name}.bin", given))
            is_good = int(name == "good")
            lines = [f"{text} by {count}" for text, count in zip((want, is_good, want, is_good), calls)]
            self.same(name, told, (0, "\n".join([*lines, ""]), ""))

    def test_elements_in_cpp(self):
        """Elements of a kept buffer are those of paths with their indices: of every kind, and 10,000 of them."""
        if not CPP_17:
            return
        source, rows = TOP / "tests/c/each.cpp", file_of("all.bfbs", FILE)
        whole = {**WHOLE, 5: ("12s", bytes(12))}
        many = {6: "", 11: [f"text {i}" for i in range(10_000)], 12: [{0: ("i", i)} for i in range(10_000)]}
        paths = ["texts[*]", "tables[*].v", "tables[*].next.v", "places[*].y", "many[*]@Text", "many_type[*]",
                 "longs[*]"]
        for made in (self.compiled("each_17", source, *SANITIZED, *STATIC, **CPP_17),
                     self.compiled("each_20", source, *SHARED, **CPP_20)):
            for name, root, want in [("whole", whole, [3, 2, 2, 2, 6, 6, 2]), ("little", LITTLE, [0] * 7),
                                     ("many", many, [10_000, 10_000, 10_000, 0, 0, 0, 0])]:
                told = ran(made, rows, file_of(f"{name}.bin", buffer(root)), *paths)
                self.same(f"{name} by {made.name}", told, (0, "".join(f"{count}\n" for count in want), ""))

    def test_streams_and_values_in_cpp(self):
        """The classes of fbcheck.hpp for streams, paths and values: the program's lines, in pieces of any length."""
        if not CPP_17:
            return
        source = TOP / "tests/c/reads.cpp"
        made = [self.compiled("reads_17", source, *SANITIZED, *STATIC, **CPP_17),
                self.compiled("reads_20", source, *SHARED, **CPP_20)]
        number = lambda found: b"real:%f" % struct.unpack("<f", bytes.fromhex(found[1].decode()))
        for path in ["to.name", "price", "floor", "stamps[0]", "stamps[1]", "route", "route[0]", "items", "first", "to",
                     "to.home", "items[0]@Parcel.fragile", "items_type[0]", "first@Letter.pages", "helpers[1].age"]:
            want = run("--schema", str(ORDERS), "--path", path, "--names", given=POST).out
            want = re.sub(rb"float:(\w+)", number, want).decode()
            want = want.replace(" absent", " real:0.000000") if path == "price" else want
            for size, program in zip((1, 7, 4096), [*made, made[0]]):
                self.same(f"{path}, in pieces of {size}", ran(program, ORDERS, path, size, 512, given=POST),
                          (0, want, ""))
        bare = b"".join(prefixed(message) for message in [b"", ORC, ORC[:-1], buffer(WHOLE), ORC])
        words = ["--delimited", "--schema", str(file_of("M.bfbs", schemas.M)), "--path", "name", "--names"]
        want = run(*words, given=bare).out.decode()
        for size, program in zip((1, 7, 4096), [*made, made[0]]):
            of = lambda *more: ran(program, words[2], "name", size, 4096, "delimited", *more, given=bare)
            self.same(f"bare buffers behind their sizes, in pieces of {size}", of(), (0, want, ""))
            for last in range(1, 5):
                front = "".join(want.splitlines(True)[:last])
                self.same(f"the first {last} alone, in pieces of {size}", of(last), (0, front, ""))
        long = ".".join("a" * 32)
        for name, words, given, text in [
            ("a path", [ORDERS, "to.nam", 9, 512], POST,
             "no path: to.nam: P2 NoSuchField step=1; did you mean name?; fields: name age home"),
            ("a text", [ORDERS, "to..name", 9, 512], POST, "no path: to..name: P1 BadText at=3"),
            ("a long path", [file_of("node", schemas.NODE), long, 9, 512], POST, f"no path: {long}: too many steps"),
            ("a stream", [ORDERS, "to", 9, 512], POST[:-1], "the stream ends inside a message"),
            ("a message", [ORDERS, "to", 9, 511], POST, "a message is too long for the room: 508"),
            ("a room", [ORDERS, "to", 9, 7], POST, "nothing was checked: a depth or a room is out of range"),
        ]:
            status, _, err = ran(made[0], *words, given=given)
            self.same(f"{name} at fault", (status, err), (2, f"{text}\n"))

    def test_texts_of_the_pages(self):
        """The command that REFERENCE.md shows builds a program, as its head says of a clone, which checks a buffer."""
        if not shutil.which("pkg-config"):
            self.skipTest("pkg-config isn't there")
        page = (TOP / "docs/REFERENCE.md").read_text()
        command = re.search(r"(?m)^cc .*pkg-config.*$", page)[0]
        folder = FOLDER / "pasted"
        folder.mkdir()
        (folder / "examples").symlink_to(TOP / "examples")
        told = ran("env", "-C", folder, "sh", "-c", f"{command} -Wl,-rpath,{OUT}", PKG_CONFIG_PATH=str(OUT))
        self.same("it is built", told, (0, "", ""))
        small, orc = file_of("pasted.bfbs", schemas.M), file_of("pasted.bin", ORC)
        self.same("it checks a buffer", ran(folder / "check", small, orc), (0, "ok tables=1 depth=1 reads=8\n", ""))
