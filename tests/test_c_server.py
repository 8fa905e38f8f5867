"""The server of examples/c: many connections, each in a thread, whose lines are those of the program."""

import json
import re
import socket
import subprocess

from tests.support import schemas
from tests.support.buffers import BY_POST, POST
from tests.support.builder import changed, messages_of, prefixed
from tests.support.every_kind import FILE, variants
from tests.support.library import SANITIZED, SHARED, STATIC, LibraryCase, cpp_of, ran
from tests.support.program import TOP, file_of, folder_of, run
from tests.support.schemas import INT, field, schema, table

FOLDER = folder_of(__name__)
ORDERS, ROOT = TOP / "examples/deliveries.bfbs", "post.Delivery"
ASKED = ("-H", "--names", "--strict", "--utf8", *BY_POST, "--root", ROOT, "--path")
MESSAGES = messages_of(POST)
# A string with every kind of byte that a log must not have: a quote, a newline, an escape, and é.
ADA = POST.index(b"Ada\0")
STRANGE = [prefixed(changed(MESSAGES[0], (ADA, text))[4:]) for text in ("225c0a", "1b5b41", "c3a941", "c341a9")]
PATHS = ["to.name", "id", "price", "floor", "items", "items[0]", "items[9]", "items[0]@Parcel", "items[1]@Parcel",
         "items[0]@Parcel.tags[1]", "first", "first@Parcel.fragile", "to.age", "route[0]", "stamps", "from.home"]


def damaged():
    """The messages of the example, whole, cut off, and with each byte changed."""
    return b"".join(prefixed(data) for message in MESSAGES[:2] for data in variants(message[4:], [1, 252]))


class ServerForC(LibraryCase):
    def made(self):
        source = TOP / "examples/c/server.c"
        return [self.compiled("server_shared", source, *SHARED, "-pthread"),
                self.compiled("server_sane", source, *SANITIZED, *STATIC, "-pthread")]

    def test_lines(self):
        """Values and places of good and damaged messages, as the program writes them."""
        streams = {name: file_of(name, data) for name, data in [
            ("good", MESSAGES[0] * 3), ("damaged", damaged()), ('a "b"\n', b"".join(STRANGE) + POST)]}
        for program in self.made():
            for path in PATHS[: 3 if program.name == "server_shared" else None]:
                status, out, err = ran(program, ORDERS, ROOT, path, *streams.values(), seconds=600)
                self.same(f"{program.name}, {path}: how it ends", (status, err), (1, ""))
                want = run(*ASKED, path, *map(str, streams.values())).out.decode()
                lines = [text.splitlines() for text in (out, want)]
                self.same(f"{program.name}, {path}: as many lines", *map(len, lines))
                for name in streams:
                    start = f"{FOLDER}/{name}: ".replace('"', r"\"").replace("\n", r"\x0a")
                    mine, theirs = ([line for line in text if line.startswith(start)] for text in lines)
                    self.holds(f"{program.name}, {path}, {name}: there are some", theirs)
                    differing = [pair for pair in zip(mine, theirs) if pair[0] != pair[1]]
                    self.same(f"{program.name}, {path}, {name}: lines that differ", differing[:5], [])
        codes = set(re.findall(r"bad (V\d+)", want))
        self.holds("bad for many reasons", len(codes) > 6 and "V15" in codes, codes)

    def test_pieces(self):
        """A socket whose bytes come in pieces of any length, each message answered as soon as it is whole."""
        shared, sane = self.made()
        want = run(*ASKED, "to.name", given=POST).out.decode()
        self.holds("the program has lines of it", want.count("\n") == 6, want)
        for size in (1, 3, 17, 64, 1000):
            mine, theirs = socket.socketpair()
            with subprocess.Popen([sane, ORDERS, ROOT, "to.name", "-"], stdin=theirs, stdout=subprocess.PIPE,
                                  text=True) as running:
                theirs.close()
                for at in range(0, len(POST), size):
                    mine.sendall(POST[at : at + size])
                mine.close()
                self.same(f"pieces of {size}", (running.stdout.read(), running.wait()), (want, 1))
        mine, theirs = socket.socketpair()
        with subprocess.Popen([shared, ORDERS, ROOT, "to.name", "-"], stdin=theirs, stdout=subprocess.PIPE,
                              stderr=subprocess.PIPE, text=True) as running:
            theirs.close()
            mine.sendall(MESSAGES[0] + MESSAGES[1][:9])
            self.same("no line waits for more", running.stdout.readline(), want.splitlines(True)[0])
            mine.close()
            self.same("and then it ends inside a message", (*running.communicate(), running.returncode),
                      ("", "server: -: the stream ends inside a message\n", 3))

    def test_ends(self):
        """What it does at each other end, and why it doesn't start."""
        good = file_of("good", MESSAGES[0])
        cut, long = file_of("cut", MESSAGES[0] + POST[:-1]), file_of("long", MESSAGES[0] + b"\xff\xff\xff\x7f?")
        nowhere, unmarked = FOLDER / "nowhere", file_of("unmarked.bfbs", FILE)
        bent = file_of("bent.bfbs", schema([table("T", field("a", INT, 5))]))
        for name, words, status, lines, told in [
            ("a good one", [ORDERS, ROOT, "id", good], 0, 1, []),
            ("no bytes", [ORDERS, ROOT, "id", file_of("empty", b"")], 0, 0, []),
            ("cut off", [ORDERS, ROOT, "id", cut], 3, 6, [f"{cut}: the stream ends inside a message"]),
            ("too long", [ORDERS, ROOT, "id", long], 3, 1, [f"{long}: a message is too long for the room"]),
            ("two of which one isn't there", [ORDERS, ROOT, "id", nowhere, good], 3, 1, [f"{nowhere} can't be read"]),
            ("no schema file", [nowhere, ROOT, "id", good], 2, 0, [f"{nowhere} can't be read"]),
            ("no schema", [good, ROOT, "id", good], 2, 0, [f"{good}: not well formed, V5 WrongIdentifier"]),
            ("rows that are none", [bent, "T", "a", good], 2, 0, [f"{bent}: no schema, C4 BadSlot"]),
            ("an unmarked field", [unmarked, "All", "least", good], 2, 0, [
                f"{unmarked}: strict can't tell which bytes are nested buffers or flexbuffers", "in All.bytes"]),
            ("no such table", [ORDERS, "Delivery", "id", good], 2, 0, [
                "Delivery: no root table", "tables: post.Delivery post.Letter post.Parcel post.Person"]),
            ("no such field", [ORDERS, ROOT, "to.nobody", good], 2, 0, [
                "to.nobody: no path, P2 NoSuchField", "fields: name age home"]),
            ("no words", [], 2, 0, None),
        ]:
            for program in self.made():
                got, out, err = ran(program, *words)
                want = "usage: server SCHEMA.bfbs ROOT PATH CONNECTION..\n" if told is None else "".join(
                    f"server: {line}\n" for line in told)
                self.same(f"{name}, {program.name}", (got, out.count("\n"), err), (status, lines, want))

    def test_in_cpp(self):
        """The server in C++: what it logs of good and bad messages and reads again, and what ends it."""
        if not cpp_of(17):
            self.skipTest("c++ isn't there")
        source = TOP / "examples/c/server.cpp"
        good, stream, odd = file_of("good", MESSAGES[0] * 2), file_of("stream", POST), file_of("odd", STRANGE[0])
        cut = file_of("cut", MESSAGES[0] + POST[:9])
        lines = [f'ok id={number} to="{name}" stamps={sum_of}' for number, name, sum_of in [
            (1, "Ada", 100 - 5 + 32767), (2**64 - 1, "Eve", 0), (3, "Fay", 0), (4, "Gus", 0), (5, "Hal", 0)]]
        bad = [run(*ASKED, "id", given=POST).out.decode().splitlines()[4].removeprefix("-: 5 ")]
        told = map(json.loads, run("--json", *BY_POST, "--path", "price", given=POST).out.splitlines())
        price = sum(one["values"]["price"] for one in told if one["ok"])
        for how in ("17", "20"):
            words = [*SANITIZED, *STATIC] if how == "17" else SHARED
            program = self.compiled(f"server_cpp_{how}", source, "-Wconversion", *words, "-pthread", **cpp_of(how))
            for name, words, status, out, err in [
                ("good ones", [good], 0, {good: [*lines[:1] * 2, "2 kept, price=5"]}, ""),
                ("several", [good, stream], 1,
                 {good: [*lines[:1] * 2, "2 kept, price=5"],
                  stream: [*lines[:4], *bad, lines[4], f"5 kept, price={price:g}"]}, ""),
                ("a forged line", [odd], 0, {odd: [lines[0].replace("Ada", r"\"\\\x0a"), "1 kept, price=2.5"]}, ""),
                ("cut off", [cut], 3, {cut: lines[:1]}, f"server: {cut}: the stream ends inside a message\n"),
                ("nowhere", [FOLDER / "nowhere"], 3, {}, f"server: {FOLDER}/nowhere: it can't be read\n"),
            ]:
                got = ran(program, ORDERS, *words)
                told = {file: [line.removeprefix(f"{file}: ") for line in got[1].splitlines()
                               if line.startswith(f"{file}: ")] for file in out}
                self.same(f"{name}, C++{how}", (got[0], told, got[2], got[1].count("\n")),
                          (status, out, err, sum(map(len, out.values()))))
            for name, words, why in [
                ("no words", [], "usage: server SCHEMA.bfbs CONNECTION.."),
                ("no schema", [good, good], "no schema: V5 WrongIdentifier at=4; this is no binary schema (a "
                 "message?), which flatc --binary --schema makes"),
                ("another schema", [file_of("M.bfbs", schemas.M), good],
                 "no path: id: P2 NoSuchField step=0; fields: hp name"),
            ]:
                self.same(f"{name}, C++{how}", ran(program, *words), (2, "", f"server: {why}\n"))

    def test_names_of_a_refused_file(self):
        """The program reads them by the numbers of the fault, as the header says."""
        cases = [
            ([table("T"), table("U", field("a", INT, 4), field("b", INT, 5))], [], (1, 1), "objects[1].fields[1]", "b"),
            ([table("T")], [schemas.union("N", ("NONE", 0, schemas.NONE), ("B", 300, schemas.an_object(0)))], (0, 1),
             "enums[0].values[1]", "B"),
        ]
        for objects, unions, numbers, path, name in cases:
            file = file_of("refused.bfbs", schema(objects, unions, root="T"))
            told = re.search(r"L2 C\d \w+ owner=(\d+) part=(\d+)", run("--schema", str(file)).err.decode())
            self.same(f"{path}: the numbers", tuple(map(int, told.groups())), numbers)
            out = run("--bare", "--path", f"{path}.name", given=file.read_bytes()).out.decode()
            self.holds(f"{path}: its name", out.endswith(f'"{name}"\n'), out)
