"""Values that the library for C reads without a check, in buffers that were ok, and in what becomes of them."""

from tests.support.buffers import POST
from tests.support.builder import Plain, buffer, messages_of
from tests.support.every_kind import FILE, LITTLE, WHOLE
from tests.support.library import SANITIZED, SHARED, STATIC, LibraryCase, module, ran
from tests.support.program import TOP, file_of
from tests.support.schemas import INT, SHORT, a_struct, an_object, array, field, schema, table, vector

ORDERS = TOP / "examples/deliveries.bfbs"
ALL = file_of("all.bfbs", FILE)
PATHS = ["to.name", "to", "items", "items[0]", "items[0]@Parcel", "items[1]@Letter", "items[0]@Parcel.tags",
         "items[0]@Parcel.tags[1]", "items[9]", "first", "first@Parcel.fragile", "price", "floor", "route", "route[0]",
         "helpers", "notes", "notes[0]", "stamps", "from.home", "items_type", "items_type[0]", "items[*]",
         "items[*]@Note", "items[*]@Parcel.tags", "items[*]@Parcel.tags[1]", "items[0]@Parcel.tags[*]",
         "items_type[*]", "route[*].y", "stamps[*]", "notes[*]", "helpers[*].name"]

# To values of every kind, to what is inside of these, and to elements past the last.
EVERY = """
yes least short long real place place.x place.z name below below.v below.next below.next.v bytes bytes[0] bytes[2]
bytes[3] longs longs[1] places places[1] places[1].y texts texts[0] texts[1] texts[2] texts[3] tables tables[0].v
tables[1].v one_type one one@Below.v one@Place.x one@Text one@Wide.y many_type many_type[3] many many[0]
many[0]@Below.next.v many[1]@Place many[2]@Text many[3] many[4] many[5]@Wide.x many[6] last
bytes[*] longs[*] places[*] places[*].y texts[*] tables[*] tables[*].v tables[*].next.v many_type[*] many[*]
many[*]@Below.v many[*]@Below.next.v many[*]@Place many[*]@Wide.y many[*]@Text
""".split()

# Arrays in a struct, and in a vector of it.
ARRAYS = schema([
    table("T", field("row", an_object(2), 4), field("rows", vector(an_object(2)), 6), field("none", an_object(2), 8)),
    a_struct("Cell", 4, 2, field("x", SHORT, 0), field("y", SHORT, 2)),
    a_struct("Row", 20, 4, field("ints", array(INT, 3), 0), field("cells", array(an_object(1), 2), 12)),
], root="T")
ROWS = buffer({0: ("20s", bytes(range(20))), 1: Plain(bytes(range(100, 140)), 4, 2)})
OF_ROWS = ["row.ints[*]", "row.cells[*]", "row.cells[*].y", "rows[*]", "rows[*].ints", "rows[*].ints[2]",
           "rows[1].cells[*].x", "rows[*].cells[1].y", "rows[2].ints[*]", "none.ints[*]"]

# A path with [*], how many steps it has, and the number of the one for each element.
MARKED = [("items[*]", 2, 2), ("items[*]@Parcel.tags[1]", 5, 2), ("items[1]@Parcel.tags[*]", 5, 5),
          ("route[*].y", 3, 2)]

# A text, and what is told of it: by what it would be with [0] in place of its first [*].
UNRESOLVED = [("[*]", 1, 0), ("*", 1, 0), ("items[*", 1, 6), ("items[*]x", 1, 8), ("items[1*]", 1, 7),
              ("items[*1]", 1, 6), ("items*", 1, 5), ("items.*", 1, 6), ("items[*][*]", 1, 9),
              ("items[*]@Parcel.tags[*]", 1, 21), ("to[*]", 3, 1), ("to.name[*].x", 3, 2), ("items[*].x", 6, 2),
              ("items[*]@Nobody", 5, 2), ("nobody[*]", 2, 0), ("items[*]@Parcel.nobody", 2, 3)]


class ValuesReadAgain(LibraryCase):
    def test_what_becomes_of_a_buffer(self):
        """Each byte changed, each end cut off, random words, and a thread that changes bytes: no read goes outside."""
        plain = self.compiled("again", TOP / "tests/c/again.c", "-O2", *SHARED, "-lpthread")
        sane = self.compiled("again_sane", TOP / "tests/c/again.c", *SANITIZED, *STATIC, "-lpthread")
        given = [(f"post-{number}", message, ORDERS, 1, PATHS) for number, message in enumerate(messages_of(POST))
                 if number in (0, 1)]
        given += [(name, buffer(root), ALL, 0, EVERY) for name, root in [("whole", WHOLE), ("little", LITTLE)]]
        given += [("rows", ROWS, file_of("arrays.bfbs", ARRAYS), 0, [*OF_ROWS, "row", "rows[1].cells[0].x", "none"])]
        for name, data, schema, prefixed, paths in given:
            where = file_of(name, data)
            for made, rounds in [(plain, 20_000), (sane, 500)]:
                status, out, err = ran(made, schema, where, prefixed, rounds, *paths, seconds=600)
                self.same(f"{name} by {made.name}", (status, err), (0, ""))
                told, changed, elements, otherwise = map(int, out.split()[1::2])
                self.holds(f"{name}: all are told often", min(told, changed, otherwise) > 1000, out)
                self.holds(f"{name}: and elements", elements > 1000 or name in ("little", "post-1"), out)

    def test_statuses(self):
        """Each status, and what it leaves of the values."""
        python = module()
        calls, status, data = python._library(), python.Status, messages_of(POST)[0]
        options = python.Options(prefixed=1)
        with python.Verifier(ORDERS.read_bytes()) as verifier:
            schema = verifier._schema
            path, items = verifier.resolve("to.name"), verifier.resolve("items")
            paths = (python._Path * 3)(path, items, path)
            values, verdict = (python._Value * 3)(), python._Verdict()

            def read(given=data, asked=options, of=paths, many=3):
                for value in values:
                    value.kind = 77
                got = calls.fbcheck_read_again(schema, asked, given, len(given), of, values, many, verdict)
                self.same("the verdict has the status", verdict.status, got)
                return got, verdict.at, [value.kind for value in values]

            self.same("values", read(), (status.OK, 0, [7, 9, 7]))
            self.same("a text", data[values[0].at:values[0].at + values[0].size], b"Ada")
            self.same("without a verdict", calls.fbcheck_read_again(schema, options, data, len(data), paths, values, 3,
                                                                    None), status.OK)
            none = [77, 77, 77]
            for name, asked in [("another version", {"version": 2}), ("an unknown identifier", {"ident_from": 3}),
                                ("unknown demands", {"demands": 16})]:
                got = read(asked=python.Options(prefixed=1, **asked))
                self.same(name, got, (status.UNKNOWN_OPTIONS, 0, none))
            for name, root in [("no table", 2**32 - 2), ("no object", 9999)]:
                got = read(asked=python.Options(prefixed=1, root=root))
                self.same(name, got, (status.NO_ROOT, 0, none))
            person = calls.fbcheck_table(schema, b"post.Person", 11)
            for given in data, b"", b"?" * 99:
                got = read(given, python.Options(prefixed=1, root=person))
                self.same(f"from another root, in {len(given)} bytes", got, (status.MISFIT, 0, none))
            for place in range(3):
                mixed = (python._Path * 3)(*paths)
                mixed[place] = python._Path(1, 0, ((1, 999),))
                for given in data, b"":
                    self.same(f"path {place} misfits", read(given, of=mixed), (status.MISFIT, place, none))
            behind = python._Path(2, 0, ((1, 0), (9, 9)))
            self.same("a misfit behind what isn't there", read(b"", of=behind, many=1), (status.MISFIT, 0, none))
            self.same("no bytes", read(b""), (status.CHANGED, 0, none))
            self.same("nor paths", read(b"", many=0), (status.OK, 0, none))
            at = int.from_bytes(data[4:8], "little") + 4
            cut = data[:at] + b"\xff\xff\xff\x7f" + data[at + 4:]
            self.same("a vtable outside", read(cut), (status.CHANGED, 0, none))
            self.same("a limit isn't asked", read(asked=python.Options(prefixed=1, max_depth=9999, max_reads=0)),
                      (status.OK, 0, [7, 9, 7]))
            # The root alone is read without a byte behind its offset.
            root = python._Path()
            self.same("the root's first bytes", read(data[:at + 4], of=root, many=1), (status.OK, 0, [10, 77, 77]))
            self.same("and without the last", read(data[:at + 3], of=root, many=1), (status.CHANGED, 0, none))
            for place in (0, 2, 4, 5):
                words = [schema, None, b"", 9, path, values, 1, verdict]
                words[place] = None
                self.same(f"no word {place}", calls.fbcheck_read_again(*words), status.NULL)
            got = calls.fbcheck_read_again(schema, options, data, len(data), None, None, 0, None)
            self.same("no paths at all", got, status.OK)
            first = items.steps[0].number
            self.same("the second of three", self.second(python, verifier, data, paths, values, verdict, first),
                      (status.CHANGED, 1, [7, 77, 77]))

    def second(self, python, verifier, data, paths, values, verdict, number):
        """What is told where the offset word of the second path's vector leads outside."""
        at = int.from_bytes(data[4:8], "little") + 4
        vtable = at - int.from_bytes(data[at:at + 4], "little", signed=True)
        field = at + int.from_bytes(data[vtable + 4 + 2 * number:][:2], "little")
        spoiled = data[:field] + b"\xff\xff\xff\x7f" + data[field + 4:]
        for value in values:
            value.kind = 77
        got = verifier._calls.fbcheck_read_again(verifier._schema, python.Options(prefixed=1), spoiled, len(spoiled),
                                                 paths, values, 3, verdict)
        return got, verdict.at, [value.kind for value in values]

    def test_paths_to_each(self):
        """What [*] in the text of a path is, and where it can't stand."""
        python = module()
        with python.Verifier(ORDERS.read_bytes()) as verifier:
            for text, count, each in MARKED:
                path, first = verifier.resolve(text), verifier.resolve(text.replace("*", "0"))
                self.same(text, (path.count, path.each, path.numbers()), (count, each, first.numbers()))
            for text, reason, at in UNRESOLVED:
                try:
                    self.same(f"{text} is no path", verifier.resolve(text).numbers(), None)
                except python.Error as error:
                    told = (error.verdict.status, error.verdict.reason, error.verdict.at)
                    self.same(text, told, (python.Status.BAD_PATH, reason, at))

    def elements(self, verifier, data, path, options, first, room):
        """What a read of elements tells: its status, the place, how many there are, and the values."""
        python = module()
        values, verdict, count = (python._Value * (room + 1))(), python._Verdict(), python._SIZE(77)
        for value in values:
            value.kind = 77
        got = verifier._calls.fbcheck_read_each(verifier._schema, options, data, len(data), path, first, values, room,
                                                count, verdict)
        self.same("the verdict has the status", verdict.status, got)
        return got, verdict.at, count.value, [value.kind for value in values]

    def test_each_beside_read(self):
        """The elements of every kind of vector and array: what a check tells at a path for each."""
        python = module()
        given = [(ORDERS.read_bytes(), message, python.Options(prefixed=1), PATHS) for message in messages_of(POST)]
        given += [(FILE, buffer(root), python.Options(), EVERY) for root in (WHOLE, LITTLE)]
        given += [(ARRAYS, ROWS, python.Options(), OF_ROWS)]
        sizes = set()
        for file, data, options, paths in given:
            with python.Verifier(file) as verifier:
                if not verifier.verify(data, options).ok:
                    self.same("only one is bad", data, messages_of(POST)[4])
                    continue
                for text in (text for text in paths if "*" in text):
                    path, values = verifier.resolve(text), (python._Value * 9)()
                    for first, room in [(0, 9), (0, 2), (1, 9), (2, 1), (0, 0), (99, 3), (2**64 - 1, 9)]:
                        count, verdict = python._SIZE(77), python._Verdict()
                        got = verifier._calls.fbcheck_read_each(verifier._schema, options, data, len(data), path, first,
                                                                values, room, count, verdict)
                        vector = verifier.read(data, verifier.resolve(text.split("[*]")[0]), options)
                        size = vector[1] if vector[0] == python.Kind.VECTOR else 0
                        self.same(f"{text} from {first}", (got, count.value), (0, size))
                        places = range(first, min(size, first + room))
                        want = [verifier.read(data, verifier.resolve(text.replace("*", str(place))), options)
                                for place in places]
                        told = python._shown((python._Value * len(places))(*values[:len(places)]), data)
                        self.same(f"{text} from {first}, {room}", told, want)
                        sizes.add(size)
        self.same("how many elements", sizes, {0, 2, 3, 4, 6})

    def test_statuses_of_each(self):
        """Each status of a read of elements, and what it leaves of values and count."""
        python = module()
        status, data, options = python.Status, messages_of(POST)[0], python.Options(prefixed=1)
        none = [77, 77, 77, 77]
        with python.Verifier(ORDERS.read_bytes()) as verifier:
            path, calls = verifier.resolve("items[*]"), verifier._calls
            read = lambda path=path, given=data, asked=options, first=0, room=3: self.elements(
                verifier, given, path, asked, first, room)
            self.same("values", read(), (status.OK, 0, 4, [11, 11, 11, 77]))
            self.same("the last", read(first=3), (status.OK, 0, 4, [11, 77, 77, 77]))
            self.same("no room", read(room=0), (status.OK, 0, 4, [77]))
            for name, asked in [("another version", {"version": 2}), ("unknown demands", {"demands": 16})]:
                self.same(name, read(asked=python.Options(prefixed=1, **asked)), (status.UNKNOWN_OPTIONS, 0, 77, none))
            self.same("no table", read(asked=python.Options(root=2**32 - 2)), (status.NO_ROOT, 0, 77, none))
            person = calls.fbcheck_table(verifier._schema, b"post.Person", 11)
            unfit = [("no [*]", verifier.resolve("items[1]")), ("no steps", python._Path()),
                     ("behind the steps", python._Path(path.count, 3, path.steps)),
                     ("at a field", python._Path(path.count, 1, path.steps)),
                     ("more steps than there are", python._Path(32, 2, path.steps)),
                     ("far behind", python._Path(path.count, 2**32 - 1, path.steps)),
                     ("no such field", python._Path(2, 2, ((1, 999), (2, 0))))]
            for given in data, b"", b"?" * 99:
                for name, other in unfit:
                    self.same(f"{name}, of {len(given)} bytes", read(other, given), (status.MISFIT, 0, 77, none))
                self.same("another root", read(given=given, asked=python.Options(root=person)),
                          (status.MISFIT, 0, 77, none))
            self.same("any number", read(python._Path(2, 2, (path.steps[0], (2, 99)))),
                      (status.OK, 0, 4, [11, 11, 11, 77]))
            self.same("no bytes", read(given=b""), (status.CHANGED, 0, 77, none))
            words = verifier.resolve("items[*]@Note")
            places = [place for place in range(8, len(data) - 4, 4)
                      if read(words, data[:place] + b"\xff\xff\xff\x7f" + data[place + 4:])[1] == 1]
            self.holds("an element behind the first that leads outside", places, places)
            spoiled = data[:places[0]] + b"\xff\xff\xff\x7f" + data[places[0] + 4:]
            self.same("which is told", read(words, spoiled)[::2], (status.CHANGED, 77))
            for other in (calls.fbcheck_read, calls.fbcheck_read_again):
                words = [verifier._schema, options, data, len(data), path, python._Value(kind=77), 1, python._Verdict()]
                words[1:1] = [None] if other is calls.fbcheck_read else []
                self.same("another call", (other(*words), words[-1].at, words[-3].kind), (status.MISFIT, 0, 77))
            words = [verifier._schema, None, b"", 9, path, 0, python._Value(), 1, python._SIZE(), python._Verdict()]
            for place in (0, 2, 4, 6, 8):
                got = calls.fbcheck_read_each(*words[:place], None, *words[place + 1:])
                self.same(f"no word {place}", got, status.NULL)
            words = [verifier._schema, options, data, len(data), path, 0, None, 0, python._SIZE(), None]
            self.same("no values at all", (calls.fbcheck_read_each(*words), words[8].value), (status.OK, 4))
