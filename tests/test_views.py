"""Views, in Python: a message is checked once, and what is read of it later is what read() tells, whatever its bytes
are by then.
"""

import array
import asyncio
import copy
import mmap
import pickle
import re
import subprocess
import sys

from tests.support import buffers, schemas
from tests.support.buffers import ORC, PLAIN, POST, SEVEN
from tests.support.builder import Plain, buffer, changed, messages_of
from tests.support.every_kind import FILE, LITTLE, WHOLE, variants
from tests.support.program import TOP, file_of
from tests.support.python import PythonCase
from tests.support.random_rows import Random
from tests.support.threads import on_eight

BINDING = TOP / "bindings/python"
ORDERS = TOP / "examples/deliveries.bfbs"
ALL = file_of("all.bfbs", FILE)
FILES = schemas.files()

PATHS = ["yes", "least", "short", "long", "real", "place", "place.x", "name", "below", "below.v", "below.next.v",
         "bytes", "longs", "longs[1]", "places", "places[1].y", "texts", "texts[2]", "tables", "tables[0].v",
         "one_type", "one", "one@Wide", "one@Wide.x", "one@Text", "many_type", "many", "many[0]@Below.v",
         "many[1]@Place", "many[2]@Text", "many[5]@Wide.y", "many[9]", "last"]
OF_ORDERS = ["id", "to.name", "to.home.x", "items", "items_type", "items[1]@Note", "route", "route[1].y", "stamps[1]",
             "notes", "price", "floor", "first@Letter.pages", "items[0]@Parcel.box.weight"]

# With [*], to each element.
ELEMENTS = ["bytes[*]", "longs[*]", "places[*]", "places[*].y", "texts[*]", "tables[*]", "tables[*].v",
            "tables[*].next.v", "many_type[*]", "many[*]", "many[*]@Below.v", "many[*]@Place", "many[*]@Wide.y",
            "many[*]@Text"]
OF_ITEMS = ["items[*]", "items[*]@Note", "items[*]@Parcel.tags[1]", "items[0]@Parcel.tags[*]", "route[*].y",
            "stamps[*]", "notes[*]"]

# What a process of its own does many times over; it tells by how many KB its memory has grown meanwhile.
LEAKS = """
import resource, sys
import fbcheck
file, message, bad = (bytes.fromhex(word) for word in sys.argv[1:])
schema = fbcheck.Schema(file, prefixed=True)
def each(number):
    memory = bytearray(message)
    views = [schema.view(given) for given in (message, memory, memoryview(message), memoryview(memory).toreadonly())]
    for view in views:
        view.read("to.name", "items", "route"), view["stamps"], view.to_dict(), view.to_dict("to"), repr(view)
        view.schema, view.message, view.verdict, schema.to_dict(message)
    memory[:] = bytes(len(memory))
    for call in (lambda: schema.view(bad), lambda: schema.to_dict(bad), lambda: views[3]["to.name"], views[3].to_dict,
                 lambda: views[0]["nowhere"], lambda: views[0].to_dict("id"), lambda: views[0].to_dict(5)):
        try:
            call()
        except (fbcheck.Error, TypeError):
            pass
    list(schema.messages(message + bad[:4] + bad[4:], views=True))
    fbcheck.Schema(file, prefixed=True).to_dict(message)
def peak(times):
    for number in range(times):
        each(number)
    return resource.getrusage(resource.RUSAGE_SELF).ru_maxrss
first = peak(300)
print(peak(5000) - first)
"""


class Views(PythonCase):
    def by(self, name, **options):
        """A schema of the tests by its name, or any file's."""
        return self.module.Schema(FILES.get(name, name), **options)

    def shown(self, value):
        """A value with its type; of a slice, what it shows."""
        shown = (value.format, bytes(value), value.readonly) if isinstance(value, memoryview) else repr(value)
        return type(value).__name__, shown

    def test_beside_read(self):
        """What a view reads is what a check and a read tell; it is refused where these refuse the message."""
        given = [(ALL, PATHS, {}, data) for root in (WHOLE, LITTLE)
                 for data in variants(buffer(root, b"KIND"), [1, 252])]
        given += [(ORDERS, OF_ORDERS, {"prefixed": True}, data) for data in messages_of(POST)]
        made, wrong, count = {}, [], 0
        for path, paths, options, data in given:
            checker = made.setdefault(path, self.by(path, **options))
            verdict = checker.check(data)
            try:
                view = checker.view(data)
            except self.module.BadBuffer as error:
                wrong += [] if error.verdict == verdict else [(data, verdict, error.verdict)]
                continue
            count += 1
            want = [self.shown(value) for value in checker.read(data, *paths)]
            told = {"together": view.read(*paths), "one by one": map(view.read, paths),
                    "by brackets": map(view.__getitem__, paths), "resolved": view.read(*map(checker.path, paths))}
            wrong += [(data, name, want) for name, got in told.items() if [*map(self.shown, got)] != want]
            kept = view.verdict == verdict and view.schema is checker and view.message is data
            wrong += [] if kept else [(data, "what is kept")]
        self.same("what differs", wrong[:3], [])
        self.holds("more than 1,000 good messages", count > 1000, count)

    def test_elements(self):
        """A path with [*] leads to a list of what paths with the indices lead to, by whatever reads."""
        whole, orders = self.by(ALL), self.by(ORDERS, prefixed=True)
        given = [(whole, buffer(root), path) for root in (WHOLE, LITTLE) for path in ELEMENTS]
        given += [(orders, data, path) for data in messages_of(POST) for path in OF_ITEMS if orders.check(data)]
        for checker, data, path in given:
            view = checker.view(data)
            vector = view[path.split("[*]")[0]]
            places = range(0 if vector is None else len(vector))
            if isinstance(vector, memoryview) and path.startswith(("places", "route")):
                places = range(len(vector) // {"places": 12, "route": 8}[path[:6].rstrip("[")])
            want = [self.shown(view[path.replace("*", str(place))]) for place in places]
            reads = {"a view": view.read(path), "brackets": view[path], "a path": view[checker.path(path)],
                     "a check": checker.read(data, path), "several": view.read(path.split("[")[0], path)[1],
                     "several of a check": checker.read(data, path, path)[1], "nine": view.read(*[path] * 9)[8]}
            for name, told in reads.items():
                self.same(f"{path} by {name}", [type(told), *map(self.shown, told)], [list, *want])
        told = [values for _, verdict, values in orders.messages(POST, paths=("id", "items[*]@Note"))]
        want = [orders.read(one, "id", "items[*]@Note") if orders.check(one) else () for one in messages_of(POST)]
        self.same("of a stream", told, want)

    def test_many_elements(self):
        """10,000 elements, of texts, tables and numbers."""
        many = range(10_000)
        data = buffer({6: "", 9: Plain(array.array("q", many).tobytes(), 8, len(many)),
                       11: [f"text {i}" for i in many], 12: [{0: ("i", i)} for i in many]})
        for read in (self.by(ALL).view(data).read, lambda *paths: self.by(ALL).read(data, *paths)):
            texts, values, longs, none = read("texts[*]", "tables[*].v", "longs[*]", "tables[*].next.v")
            self.same("texts", texts, [f"text {i}" for i in many])
            self.same("numbers of tables", values, [*many])
            self.same("numbers", longs, [*many])
            self.same("what isn't there", none, [None] * len(many))

    def test_elements_refused(self):
        """Where no list is returned, [*] is refused; and where bytes changed."""
        of, checker = self.module, self.by(ALL)
        view = checker.view(buffer(WHOLE))
        self.fails("a dict of each", of.PathError, "with [*]", lambda: view.to_dict("tables[*]"))
        self.fails("a column of each", of.PathError, "with [*]",
                   lambda: self.by(ORDERS, prefixed=True).columns(POST, ("id", "items[*]@Note")))
        for path, text in [("tables[*].w", "P2 at '.w'"), ("name[*]", "P3 at '[*]'"), ("tables[*][*]", "first 10"),
                           ("[*]", "first 0")]:
            self.fails(path, of.PathError, text, lambda: view[path])
        memory = bytearray(buffer({6: "", 11: ["one"] * 100}))
        view = checker.view(memoryview(memory).toreadonly())
        self.same("before", view["texts[*]"], ["one"] * 100)
        for at in range(0, len(memory) - 4, 4):
            kept, memory[at:at + 4] = memory[at:at + 4], b"\xff\xff\xff\x7f"
            try:
                self.same("a list", type(view["texts[*]"]), list)
            except of.Changed:
                pass
            memory[at:at + 4] = kept

    def test_what_is_kept(self):
        """What can't be written is kept as it is, and of what can, a copy."""
        checker, file = self.by("M"), file_of("orc.bin", ORC)
        with open(file, "r+b") as opened, mmap.mmap(opened.fileno(), 0) as mapped:
            kept = mmap.mmap(opened.fileno(), 0, access=mmap.ACCESS_READ)
            for given, is_kept in [(ORC, True), (memoryview(ORC), True), (kept, True),
                                   (memoryview(bytearray(ORC)).toreadonly(), True), (bytearray(ORC), False),
                                   (mapped, False), (memoryview(bytearray(ORC)), False),
                                   (array.array("I", ORC), False)]:
                name, view = type(given).__name__, checker.view(given)
                self.same(name, (view.message is given, bytes(view.message), view["name"]), (is_kept, ORC, "Orc"))
                self.holds(f"{name}: a copy is bytes", is_kept or type(view.message) is bytes)
            view = checker.view(kept)
            self.fails("a view keeps a message open", BufferError, "", kept.close)
            del view
            kept.close()
        memory = bytearray(ORC)
        view = checker.view(memory)
        memory[:] = bytes(len(ORC))
        memory += b"more"
        self.same("a message that is written later", view.read("name", "hp"), ("Orc", 300))
        part = self.by(ORDERS, prefixed=True).view(bytearray(messages_of(POST)[0]))["stamps"]
        self.same("a slice outlives its view", part.tolist(), [100, -5, 32767])
        part = self.by(ORDERS, prefixed=True).view(memoryview(b"?" + messages_of(POST)[0])[1:])["route"]
        self.same("a slice of a slice", bytes(part)[:8], (1).to_bytes(4, "little") * 2)

    def test_changed(self):
        """A view of memory that somebody writes raises Changed, or tells what is there now."""
        checker, memory = self.by("M"), bytearray(ORC)
        view = checker.view(memoryview(memory).toreadonly())
        memory[28:31] = b"Elf"
        self.same("another name", view["name"], "Elf")
        text = "the bytes aren't those of a good message any more"
        for name, at, digits in [("a root outside", 0, "ffffff7f"), ("a vtable outside", 12, "ffffff7f"),
                                 ("a text outside", 16, "ffffff00"), ("a length that is too great", 24, "00010000")]:
            memory[:] = changed(ORC, (at, digits))
            for call in (lambda: view["name"], lambda: view.read("hp", "name"), view.to_dict):
                error = self.fails(name, self.module.Changed, text, call)
            self.same(f"{name}: pickled", str(pickle.loads(pickle.dumps(error))), text)
        memory[:] = ORC
        self.same("and back", view.read("name", "hp"), ("Orc", 300))
        self.holds("it is an error of the package", issubclass(self.module.Changed, (self.module.Error, ValueError)))

    def test_any_bytes(self):
        """Whatever bytes come to be there, nothing else happens."""
        dice, seen = Random(7), {"told": 0, "Changed": 0, "Overlap": 0}
        checker, data = self.by(ALL), buffer(WHOLE, b"KIND")
        memory = bytearray(data)
        view = checker.view(memoryview(memory).toreadonly())
        tables = ["", "below", "below.next", "place", "tables[1]", "places[1]", "one@Wide", "many[0]@Below",
                  "many[1]@Place", "many[5]@Wide"]
        calls = [*((view.to_dict, path) for path in tables), *((view.read, path) for path in PATHS)]
        for _ in range(3000):
            memory[:] = data
            for _ in range(dice.below(5) + 1):
                at = dice.below(len(data) - 4)
                size, words = dice.choice([(1, [0, 1, 2, 4, 255]),
                                           (4, [0, 1, 4, 2**32 - 1, 2**31 - 1, len(data) - at])])
                memory[at:at + size] = dice.choice([*words, dice.below(256)]).to_bytes(size, "little")
            for call, path in calls:
                try:
                    call(path)
                    seen["told"] += 1
                except (self.module.Changed, self.module.Overlap) as error:
                    seen[type(error).__name__] += 1
        self.holds("many are told, and many changed", seen["told"] > 10_000 and seen["Changed"] > 10_000, seen)

    def test_what_is_refused(self):
        of, checker = self.module, self.by("M")
        view = checker.view(ORC)
        for wrong in (3, None, b"name", ["name"]):
            for call in (view.read, view.__getitem__, view.to_dict):
                self.fails(f"a path that is {wrong!r}", TypeError, f"not {type(wrong).__name__!r}", lambda: call(wrong))
        self.fails("no path", TypeError, "a path or several", view.read)
        self.fails("two for a dict", TypeError, "one path", lambda: view.to_dict("name", "hp"))
        self.fails("no field", of.PathError, "P2 at 'nam'", lambda: view["nam"])
        other = self.by(ORDERS).path("to.home.x")
        for call in (view.read, view.to_dict):
            self.fails("another schema's path", of.PathError, "another schema", lambda: call(other))
        for path in ("name", "hp"):
            self.fails(f"a dict of {path}", of.PathError, "a table or a struct", lambda: view.to_dict(path))
        for given in ("text", None, 5):
            for call in (checker.view, checker.to_dict):
                self.fails(f"{given!r}", TypeError, "bytes-like", lambda: call(given))
        self.fails("one in parts", BufferError, "contiguous", lambda: checker.view(memoryview(ORC)[::2]))
        with mmap.mmap(-1, 2**31) as long:
            for call in (checker.view, checker.to_dict):
                self.fails("one of 2^31 bytes", of.Error, "2^31", lambda: call(long))
        for call in (of.View, lambda: of.View.__new__(of.View), lambda: object.__new__(of.View)):
            self.fails("one of nothing", TypeError, "", call)
        for name in ("schema", "message", "verdict"):
            self.fails(f"its {name} stays", AttributeError, "", lambda: setattr(view, name, None))
        self.fails("no elements", TypeError, "not iterable", lambda: iter(view))

    def test_parts(self):
        """What has no parts of its own tells how they are read; a default stands for what isn't there."""
        checker = self.by(ORDERS, prefixed=True)
        view = checker.view(messages_of(POST)[0])
        for name, call, words in [
            ("a table", lambda: view["to"]["name"], "a Table holds no values: read its fields by longer paths,"
                                                    " such as path + '.name'"),
            ("a vector", lambda: [*view["items"]], "a Vector holds no values: read an element by path + '[0]', or"
                                                   " all by path + '[*]'"),
            ("a union", lambda: view["first"]["pages"], "such as path + '@Letter.pages'"),
            ("two paths", lambda: view["id", "price"], "a path is a str, not 'tuple'; view.read(*paths)"),
        ]:
            self.fails(name, TypeError, words, call)
        self.same("how many", (len(view["items"]), self.module.Vector(4) == view["items"]), (4, True))
        none = self.by("M").view(PLAIN)
        told = none.get("hp"), none.get("name"), none.get("name", "?"), none.get("hp", 5), view.get(checker.path("id"))
        self.same("defaults", told, (100, None, "?", 100, 1))
        self.fails("no field", self.module.PathError, "P2", lambda: none.get("nam", 5))

    def test_shipped(self):
        """A view is pickled by its schema and message, which is checked anew."""
        view = self.by(ORDERS, prefixed=True).view(bytearray(messages_of(POST)[0]))
        for again in (pickle.loads(pickle.dumps(view)), copy.copy(view), copy.deepcopy(view)):
            self.same("the same", (again["to.name"], again.message, again.schema.options.prefixed, repr(again)),
                      ("Ada", view.message, True, f"<View of {len(view.message)} bytes>"))
        memory = bytearray(SEVEN)
        shown = self.by("N", prefixed=True).view(memoryview(memory).toreadonly())
        memory[4] = 255
        self.fails("a bad one", self.module.BadBuffer, "V2", lambda: pickle.loads(pickle.dumps(shown)))

    def test_streams(self):
        """Views come with the messages, and None with a bad one."""
        checker, want = self.by(ORDERS, prefixed=True), messages_of(POST)
        told = [*checker.messages(POST, views=True)]
        self.same("the messages", [message for message, _, _ in told], want)
        self.same("the verdicts", [verdict for _, verdict, _ in told], [*map(checker.check, want)])
        names = [checker.read(one, "to.name") if checker.check(one) else None for one in want]
        self.same("the views", [view and view["to.name"] for _, _, view in told], names)
        self.same("theirs", [view is None or (view.message is message and view.verdict == verdict)
                             for message, verdict, view in told], [True] * len(want))

        async def later():
            reader = asyncio.StreamReader()
            reader.feed_data(POST)
            reader.feed_eof()
            return [view and view["to.name"] async for _, _, view in checker.messages(reader, views=True)]

        self.same("asynchronously", asyncio.run(later()), names)
        self.same("none asked", len(next(checker.messages(POST, views=False))), 2)
        self.fails("with paths too", TypeError, "paths or views",
                   lambda: checker.messages(POST, views=True, paths=("id",)))

    def test_threads(self):
        """One view, and one schema that makes dicts for the first time, on eight threads."""
        checker, data = self.by(ORDERS, prefixed=True), messages_of(POST)[0]
        view, want = checker.view(data), self.by(ORDERS, prefixed=True).to_dict(data)
        self.same("wrong ones", on_eight(lambda turns: sum(
            view.read("to.name", "id") != ("Ada", 1) or (turn % 9 == 0 and checker.to_dict(data) != want)
            for turn in range(turns)), 3000), [0] * 8)

    def test_nothing_leaks(self):
        messages = messages_of(POST)
        status, out, err = self.alone(LEAKS, ORDERS.read_bytes().hex(), messages[0].hex(), messages[4].hex())
        self.holds("5,000 turns take less than 2 MB", (status, err) == (0, "") and int(out) < 2000, (status, out, err))

    def test_the_page(self):
        """The README's program for views and dicts does what stands behind it, and all is documented."""
        page = (BINDING / "README.md").read_text().split("## Views and dicts\n")[1].split("\n## ")[0]
        code = page.split("```python\n")[1].split("```")[0]
        told = subprocess.run([sys.executable, "-c", code], capture_output=True, text=True, cwd=TOP, timeout=60,
                              env={"PYTHONPATH": str(self.folder)})
        self.same("its lines", (told.returncode, told.stdout.splitlines(), told.stderr),
                  (0, re.findall(r"^# (.*)$", code, re.M), ""))
        parts = [name for name in dir(self.module.View) if not name.startswith("_")]
        self.same("what a view has", parts, ["get", "message", "read", "schema", "to_dict", "verdict"])
        for name in parts:
            self.holds(f"View.{name} is documented", getattr(self.module.View, name).__doc__)
        for name in ("view", "to_dict"):
            self.holds(f"Schema.{name} is documented", getattr(self.module.Schema, name).__doc__)
        self.same("no field", self.by("M").view(PLAIN).read("hp", "name"), (100, None))
        self.same("deep ones", self.by("CHAIN").view(buffers.levels(3)).read("next.next", "next.next.next"),
                  (self.module.Table(), None))
