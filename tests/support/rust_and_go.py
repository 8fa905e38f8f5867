"""What the bindings for Rust and Go do beyond those for other languages; tests/test_bindings.py has the rest."""

import re

from tests.support import schemas
from tests.support.buffers import ORC, POST
from tests.support.builder import buffer, messages_of
from tests.support.every_kind import FILE, WHOLE
from tests.support.library import ran
from tests.support.program import TOP, file_of, run
from tests.support.schemas import TEXT, field, schema, table

NO_SCHEMA = "; this is no binary schema, which flatc --binary --schema makes"
ORDERS = TOP / "examples/deliveries.bfbs"
STREAM = TOP / "examples/deliveries.bin"
ALL = file_of("all.bfbs", FILE)

# The paths of each kind of value in every_kind.py.
PATHS = [
    "yes", "least", "short", "long", "real", "place", "name", "below", "below.next.v", "below.next.next", "bytes",
    "bytes[1]", "longs", "longs[1]", "longs[2]", "places", "places[0]", "texts", "texts[0]", "texts[1]", "texts[3]",
    "tables", "tables[1]", "one_type", "one", "one@Wide", "one@Text", "many_type", "many", "many[0]", "many[0]@Below.v",
    "many[1]@Place", "many[2]@Text", "many[3]", "many[5]@Wide", "many[6]", "last",
]


class RustAndGo:
    """The cases that are added to those of each language."""

    max_bytes = "max_bytes"
    damaged = "; this binary schema is damaged or incomplete"

    @property
    def in_stream(self):
        return {"S1": f"; message {{number}} at {{begin}} is longer than {self.max_bytes}, {{most}}",
                "S2": "; message {number} at {begin} has {size} bytes"}

    def test_elements_of_page(self):
        """The page's loops write the texts of one vector, and the numbers of another."""
        code = next(code for code in re.findall(rf"```{self.fence}\n(.*?)```", self.page(), re.S) if "stamps" in code)
        line = run("--schema", ORDERS, *(word for path in ("notes", "stamps") for at in range(3)
                                         for word in ("--path", f"{path}[{at}]")), given=messages_of(POST)[0])
        told = line.out.decode().partition("reads=")[2].split()[1:]
        self.same("the program's", len(told), 6)
        want = "".join(f"{word.strip(chr(34))}\n" for word in told)
        first = file_of("first", messages_of(POST)[0])
        whole = self.around.replace("CODE", code).replace("SCHEMA", str(ORDERS)).replace("MESSAGE", str(first))
        self.same("what the loops write", self.ran_as_pasted("elements", whole), (0, want, ""))

    def test_cut_schema_files(self):
        """A schema file that was cut off is damaged, if at least its identifier came; other files are no schema."""
        file = ORDERS.read_bytes()
        cuts = [*range(13), *range(13, len(file) - 100, 97)]
        told = self.told(*(f"load {file_of(f'cut{cut}.bfbs', file[:cut])}" for cut in cuts))
        for cut, got in zip(cuts, told):
            want = self.damaged if cut >= 8 else NO_SCHEMA
            self.holds(f"{cut} bytes", got.startswith("error schema: L1 V") and got.endswith(want), got)
        others = [TOP / "README.md", TOP / "examples/deliveries.fbs", STREAM, file_of("brace", b"{"),
                  file_of("numbers.json", b'{"a": 1}'), file_of("orc.bin", ORC), file_of("zeros", bytes(64))]
        for other, got in zip(others, self.told(*(f"load {other}" for other in others))):
            self.holds(f"{other}", got.startswith("error schema: L1 V") and got.endswith(NO_SCHEMA), got)

    def test_short_streams(self):
        """One that ends inside a message's size, and one that ends in its first message."""
        first = messages_of(POST)[0]
        for begun, count in [(b"", 0), (first, 1), (first * 2, 2)]:
            lines = run("--names", "--schema", ORDERS, given=begun).out.decode()
            for held in (1, 2, 3, 4, 5, 300, len(first) - 1):
                cut = file_of(f"short{count}-{held}", begun + first[:held])
                told = self.told(f"load {ORDERS} prefixed=1", f"stream {cut} 2 7 65536", f"stream {cut} 999 999 65536")
                where = f"message {count + 1} at {len(begun)}"
                how = "ends inside its size" if held < 4 else f"has {len(first)} bytes"
                want = f"{lines}error stream: S2 Truncated held={held}; {where} {how}"
                self.same(f"{held} bytes of {count + 1}", told[1:], [want] * 2)

    def test_strange_paths(self):
        """A path of another schema or root isn't followed, even where it would lead somewhere."""
        first, none = file_of("first", messages_of(POST)[0]), file_of("none", b"")
        misfit = "error a path is none of this schema from this root"
        zeros = "max_depth=0 max_tables=0 max_reads=0 reads_per_byte=0"
        rows = [(f"misfit max_depth=9 to.name {first}", "done"), (f"misfit root=post.Delivery to.name {first}", "done"),
                (f"misfit root=post.Person name {first}", misfit), (f"misfit root=post.Parcel fragile {first}", misfit),
                (f"stranger {ORDERS} to.name {first}", misfit), (f"stranger {ORDERS} to.name {none}", misfit),
                (f"stranger {ORDERS} to.name {first} root=post.Delivery prefixed=1", misfit)]
        told = self.told(f"load {ORDERS} prefixed=1", *(command for command, _ in rows))[1:]
        for (command, want), got in zip(rows, told):
            self.same(command, got, want)
        if self.language == "Go":
            self.same("no path", self.told(f"load {ORDERS} prefixed=1", f"zero {first}", f"zero {none}")[1:],
                      [misfit] * 2)
            zeros = "max_depth=1 max_tables=1 max_reads=1 reads_per_byte=1"
        for asked in (zeros, "root=post.Person", f"root=post.Person {zeros}", "ident=own", "strict=1"):
            told = self.told(f"load {ORDERS} {asked}", "with prefixed=1", f"misfit prefixed=1 to {none}",
                             f"load {ORDERS} {asked}", f"misfit max_reads=5 to {none}",
                             f"misfit root=post.Person name {none}")
            same = "root=post.Person" in asked
            self.same(f"{asked}: the root is known", (told[2] == misfit, told[4] == misfit, told[5] == misfit),
                      (False, same, not same))

    def test_reading_again(self):
        """Without a check, the same values in the same bytes; and nothing outside of other ones."""
        first = messages_of(POST)[0]
        whole, ok = file_of("whole_again", buffer(WHOLE)), file_of("first", first)
        told = self.told(f"load {ALL}", *(f"{word} {whole} {path}" for path in PATHS for word in ("read", "again")))
        for path, read, again in zip(PATHS, told[1::2], told[2::2]):
            self.same(path, again, read)
        many = PATHS * 3
        told = self.told(f"load {ALL}", f"read {whole} {' '.join(many)}", f"again {whole} {' '.join(many)}")
        self.same("many at once", (told[1].count(" "), told[2]), (len(many) - 1, told[1]))
        changed = "error the bytes aren't those of an ok message"
        none, torn = file_of("none", b""), file_of("torn_again", first[:64])
        told = self.told(f"load {ORDERS} prefixed=1", f"again {ok} to.name id", f"again {none} to.name",
                         f"again {torn} to.name items[3]@Note", "with root=post.Person prefixed=1", f"again {ok} name")
        self.same("the values of a good message", told[1], f"text:{b'Ada'.hex()} 1")
        self.same("of none, and of a torn one", told[2:4], [changed] * 2)
        words, paths = [], ["to.name", "items[3]@Note", "notes[1]", "first@Parcel.tags[0]"]
        for at in range(0, len(first), 4):
            wild = file_of(f"wild_again{at}", first[:at] + b"\xff\xff\xff\x7f" + first[at + 4 :])
            words += [f"again {wild} {path}" for path in paths]
        for command, got in zip(words, self.told(f"load {ORDERS} prefixed=1", *words)[1:]):
            self.holds(f"{command}: a value, or changed", got == changed or not got.startswith("error"), got)

    def test_numbers(self):
        """A number as each type that holds it, and as no other; and several paths at once."""
        fields = [("b", schemas.BYTE), ("l", schemas.LONG), ("u", schemas.U_LONG), ("f", schemas.FLOAT),
                  ("d", schemas.DOUBLE), ("s", TEXT), ("y", schemas.BOOL)]
        file = file_of("numbers.bfbs", schema([table("T", *(field(name, kind, 4 + 2 * number) for number, (name, kind)
                                                            in enumerate(fields)))], root="T"))
        rows = []
        for longs, unsigned in [(-1, 2**64 - 1), (2**53, 2**53), (2**53 + 1, 2**53 + 1), (-2**53, 2**63), (-2**63, 0),
                                (-2**53 - 1, 2**63 - 1), (2**63 - 1, 7)]:
            data = file_of(f"numbers{len(rows)}", buffer({
                0: ("b", -5), 1: ("q", longs), 2: ("Q", unsigned), 3: ("f", 1.5), 4: ("d", -0.25), 5: "text",
                6: ("B", 1)}))
            want = []
            for number in (-5, longs, unsigned):
                want += [number if 0 <= number else "-", number if number < 2**63 else "-",
                         number if abs(number) <= 2**53 else "-"]
            want += ["-", "-", 1.5, "-", "-", -0.25, *"------"]
            rows.append((data, want))
        told = self.told(f"load {file}", *(f"numbers {data} b l u f d s y" for data, _ in rows))[1:]
        for (data, want), got in zip(rows, told):
            got = [word if word == "-" else float(word) if at % 3 == 2 else int(word)
                   for at, word in enumerate(got.split(" "))]
            self.same(f"{data.name}", got, want)
        first = file_of("first", messages_of(POST)[0])
        word = "again" if self.language == "Go" else "numbers"
        told = self.told(f"load {ORDERS} prefixed=1", f"{word} {first} id nam")
        self.holds("one of several paths", told[1].startswith('error path: P2 NoSuchField step=0 ("nam")'), told)

    def test_reading_threads(self):
        """A million values of one message on four threads."""
        first = file_of("first", messages_of(POST)[0])
        told = self.told(f"load {ORDERS} prefixed=1", f"threads {first} 125000 4 items[0]@Parcel.tags[0]", seconds=300)
        self.same("values that are alike", told[1], "500000")

    def test_each_element(self):
        """All elements of a vector by one path, and none past its end."""
        first = file_of("first", messages_of(POST)[0])
        rows = [("notes", "notes[0]", "notes[{}]"), ("helpers", "helpers[7].name", "helpers[{}].name"),
                ("stamps", "stamps[0]", "stamps[{}]"), ("items", "items[1]@Parcel.fragile", "items[{}]@Parcel.fragile")]
        for vector, path, each in rows:
            words = [f"each {first} {vector} {path}", f"read {first} {vector}"]
            _, got, count = self.told(f"load {ORDERS} prefixed=1", *words)
            count = int(re.match(r"vector:(\d+):", count)[1])
            paths = " ".join(each.format(number) for number in [*range(count + 1), 2**32 - 1])
            self.same(f"{vector}", got, self.told(f"load {ORDERS} prefixed=1", f"read {first} {paths}")[1])
            self.holds(f"{vector} has some", count > 0)

    def test_hindered_streams(self):
        """A reader's error costs no byte of a stream: it goes on at the next call."""
        want = run("--names", "--schema", ORDERS, given=POST).out.decode()
        rows = [("deadline", empty, "deadline=true idle=false") for empty in (0, 3)]
        if self.language == "Go":
            rows += [("none", 97, "deadline=false idle=false"), ("none", 99, "deadline=false idle=true"),
                     ("deadline", 250, "deadline=true idle=true")]
        for hindrance, empty, end in rows:
            sizes = [1, 3, 7, 100, 65536]
            told = self.told(f"load {ORDERS} prefixed=1",
                             *(f"patient {STREAM} {size} {empty} {hindrance}" for size in sizes))[1:]
            for size, got in zip(sizes, told):
                self.same(f"{hindrance}, nothing {empty} times, pieces of {size}", got, f"{want}end {end}")

    def test_room(self):
        """A stream takes room for its messages, however long they may be; and no shared library is needed."""
        given = f"load {ORDERS} prefixed=1\nstream {STREAM} 7 7 {2 ** 31 - 1}\n".encode()
        status, out, _ = ran("prlimit", f"--as={2 ** 31 - 1}", *self.driver, given=given)
        self.same("it ends well", (status, out.count("ok tables="), out[-7:]), (0, 5, "\nend\n.\n"))
        self.holds("it's linked in", "fbcheck" not in ran("ldd", *self.driver)[1])
