"""Paths and values of the library for C: those that the program writes, on the messages of the example."""

import re

from tests.support.buffers import POST
from tests.support.builder import buffer, messages_of
from tests.support.every_kind import FILE, WHOLE
from tests.support.library import LibraryCase, module
from tests.support.program import TOP, file_of, run

ORDERS = TOP / "examples/deliveries.bfbs"
ALL = file_of("all.bfbs", FILE)


def value_line(kind, value):
    """A value as the program writes it at the end of a line, where no byte of a text is to be escaped."""
    if kind.name in ("FLOAT", "STRUCT"):
        return f"{kind.name.lower()}:{value.hex()}"
    return {"ABSENT": "absent", "NO_ELEMENT": "no-element", "OTHER_MEMBER": "other-member", "TABLE": "table",
            "BOOL": ["false", "true"][value == 1], "INT": str(value), "UINT": str(value), "VECTOR": f"vector:{value}",
            "UNION": f"union:{value}", "DEFAULT_FLOAT": "absent",
            "TEXT": f'"{value.decode()}"' if kind.name == "TEXT" else ""}[kind.name]


class ValuesForC(LibraryCase):
    def test_paths(self):
        """Values at the end of paths: those that the program writes, on the messages of the example."""
        python = module()
        calls, status = python._library(), python.Status
        messages = messages_of(POST)
        with python.Verifier(ORDERS.read_bytes()) as verifier:
            for path in ["to.name", "items", "items[0]", "items[0]@Parcel", "items[1]@Letter", "items[0]@Parcel.tags",
                         "items[0]@Parcel.tags[1]", "items[9]", "to", "first", "first@Parcel.fragile", "price", "floor",
                         "route", "route[0]", "helpers", "notes", "notes[0]", "stamps", "from.home", "items_type",
                         "retired", "items@Parcel", "to.name.x", "first@Nobody", "items[4294967296]"]:
                told = run("--schema", str(ORDERS), "--path", path, given=POST)
                try:
                    steps = verifier.resolve(path)
                except python.Error as error:
                    want = re.search(rb"P(\d) \w+ (?:at|step)=(\d+)", told.err)
                    self.same(f"{path} is refused", [error.verdict.status, error.verdict.reason, error.verdict.at],
                              [status.BAD_PATH, *map(int, want.groups())])
                    continue
                for number, message in enumerate(messages):
                    line = told.out.splitlines()[number]
                    if b" bad " in line:
                        continue
                    kind, value = verifier.read(message, steps, python.Options(prefixed=1))
                    text = line.partition(b"reads=")[2].partition(b" ")[2].decode()
                    self.same(f"{path} of {number}", value_line(kind, value), text)
            path, schema = verifier.resolve("to.name"), verifier._schema
            told = (path.count, path.each, [(step.kind, step.number) for step in path.steps][2:])
            self.same("the steps, and zeros behind them", told, (2, 0, [(0, 0)] * 29))
            value, verdict, options = python._Value(kind=77), python._Verdict(), python.Options(prefixed=1)
            bytes_of = lambda: (bytes(path), verdict.status)
            before = bytes(path)
            for text, want in [(b"", (17, 1, 0)), (b"to..x", (17, 1, 3)), (b"to.nobody", (17, 2, 1)),
                               (b"to[0]", (17, 3, 1))]:
                got = calls.fbcheck_resolve(schema, None, text, len(text), path, verdict)
                told = (got, verdict.reason, verdict.at, verdict.object, verdict.field)
                self.same(f"the text {text}", told, (*want, 0, python.NONE))
                self.same("leaves the path as it was", bytes_of(), (before, 17))
            data = messages[0]
            read = lambda path, given=data, asked=options: calls.fbcheck_read(schema, None, asked, given, len(given),
                                                                             path, value, 1, verdict)
            told = (read(path), value.kind, data[value.at:value.at + value.size])
            self.same("a text where it stands", told, (0, 7, b"Ada"))
            value.kind = 77
            for name, wrong in [("no kind", (9, 0)), ("no such field", (1, 999)), ("too great a field", (1, 65536)),
                                ("an element of a table", (2, 0)), ("a member of a table", (3, 1))]:
                unfit = python._Path(count=1)
                unfit.steps[0] = wrong
                for given in (data, b"", b"?" * 99):
                    got = read(unfit, given)
                    told = (got, verdict.status, verdict.reason, value.kind)
                    self.same(f"a step that is {name}, of {len(given)} bytes", told, (status.MISFIT, 19, 0, 77))
            self.same("more steps than there are", read(python._Path(count=32)), status.MISFIT)
            self.same("the root itself", (read(python._Path()), value.kind, value.at, value.size), (0, 10, 0, 0))
            self.same("a bad buffer", (read(path, b"", None), verdict.reason), (1, 2))
            words = (schema, None, options, data, len(data), None, None, 0, None)
            self.same("no paths at all", calls.fbcheck_read(*words), status.OK)
            person = calls.fbcheck_table(schema, b"post.Person", 11)
            self.same("a path from another root", read(path, data, python.Options(prefixed=1, root=person)),
                      status.MISFIT)
            for place in (0, 2, 4):
                words = [schema, None, b"to", 2, path, verdict]
                words[place] = None
                self.same(f"no word {place} to resolve", calls.fbcheck_resolve(*words), status.NULL)
            for place in (0, 3, 5, 6):
                words = [schema, None, None, b"", 9, path, value, 1, verdict]
                words[place] = None
                self.same(f"no word {place} to read", calls.fbcheck_read(*words), status.NULL)

    def test_numbers_of_elements(self):
        """One path goes through a vector, as the number of its step for an element is changed."""
        python = module()
        calls, data, options = python._library(), messages_of(POST)[0], python.Options(prefixed=1)
        with python.Verifier(ORDERS.read_bytes()) as verifier:
            path, value, told = verifier.resolve("stamps[0]"), python._Value(), []
            self.same("its last step", path.steps[path.count - 1].kind, 2)
            for number in (0, 1, 2, 3, 2**32 - 1):
                path.steps[path.count - 1].number = number
                got = calls.fbcheck_read(verifier._schema, None, options, data, len(data), path, value, 1, None)
                told.append((got, value.kind, value.integer))
            self.same("its values", told, [(0, 4, 100), (0, 4, -5), (0, 4, 32767), (0, 1, 0), (0, 1, 0)])

    def test_many_values(self):
        """Values of every kind at once: each tells what it does alone, and where its bytes stand in the buffer."""
        python = module()
        calls = python._library()
        data = messages_of(POST)[0]
        names = ["to.name", "items", "first", "price", "floor", "route", "route[0]", "helpers", "notes", "stamps",
                 "from.home", "items_type", "items[9]", "first@Parcel.fragile"]
        with python.Verifier(ORDERS.read_bytes()) as verifier:
            paths = (python._Path * len(names))(*map(verifier.resolve, names))
            values, verdict = (python._Value * len(names))(), python._Verdict()
            options = python.Options(prefixed=1)
            given = (options, data, len(data), paths, values, len(names), verdict)
            for scratch in (None, calls.fbcheck_scratch_new(8)):
                options.max_depth = 8 if scratch else 64
                got = calls.fbcheck_read(verifier._schema, scratch, *given)
                self.same("the message is good", (got, verdict.tables > 1), (0, True))
                for name, path, value in zip(names, paths, values):
                    alone = python._Value(kind=77)
                    calls.fbcheck_read(verifier._schema, None, options, data, len(data), path, alone, 1, None)
                    self.same(f"{name} is told as alone", bytes(value), bytes(alone))
                    kind = python.Kind(value.kind)
                    unset = {"INT": "number at size", "UINT": "integer at size", "BOOL": "integer at size",
                             "TEXT": "number integer", "STRUCT": "number integer", "FLOAT": "number integer",
                             "VECTOR": "integer", "UNION": "integer at size", "DEFAULT_FLOAT": "integer at size"}
                    for member in ["reserved", *unset.get(kind.name, "number integer at size").split()]:
                        self.same(f"{name}, {kind.name}: {member} isn't told", getattr(value, member), 0)
                calls.fbcheck_scratch_free(scratch)
        self.bytes_of_vectors(python, buffer(WHOLE))

    def test_first_misfit(self):
        """Of several paths the first that doesn't fit is told by its place, whatever the buffer is."""
        python = module()
        calls, data, options = python._library(), messages_of(POST)[0], python.Options(prefixed=1)
        with python.Verifier(ORDERS.read_bytes()) as verifier:
            fit = [verifier.resolve(path) for path in ("to.name", "items", "first", "price", "floor", "route")]
            for scratch in (None, calls.fbcheck_scratch_new(64)):
                for unfit, at in [((2, 4), 2), ((4,), 4), ((5,), 5), ((0, 5), 0), (range(6), 0)]:
                    paths, values, verdict = (python._Path * 6)(*fit), (python._Value * 6)(), python._Verdict()
                    for place in unfit:
                        paths[place] = python._Path(1, 0, ((1, 999),))
                    for given in (data, b"?" * 99):
                        got = calls.fbcheck_read(verifier._schema, scratch, options, given, len(given), paths, values,
                                                 6, verdict)
                        want = python._Verdict(status=python.Status.MISFIT, field=python.NONE, at=at)
                        told = (got, bytes(verdict), bytes(values))
                        self.same(f"of {list(unfit)}, in {len(given)} bytes", told, (19, bytes(want), bytes(40 * 6)))
                calls.fbcheck_scratch_free(scratch)

    def bytes_of_vectors(self, python, data):
        """Of each vector of scalars or structs, the bytes in a row are those of its elements one after another."""
        seen = 0
        with python.Verifier(ALL.read_bytes()) as verifier:
            root = verifier.verify(b"").object
            names = [name for number in range(200) if (name := verifier.field_name(root, number))]
            for name in names:
                value = python._Value()
                one = lambda path: verifier._calls.fbcheck_read(verifier._schema, None, None, data, len(data),
                                                                verifier.resolve(path), value, 1, None)
                self.same(f"{name} is read", one(name), 0)
                if value.kind != python.Kind.VECTOR or value.number == 0:
                    continue
                at, size, count = value.at, value.size, value.number
                elements = []
                for index in range(count):
                    one(f"{name}[{index}]")
                    elements.append((value.kind, value.at, value.size))
                if elements[0][0] in (python.Kind.STRUCT, python.Kind.FLOAT):
                    want = [(at + index * size // count, size // count) for index in range(count)]
                    self.same(f"{name}: where its elements are", [one[1:] for one in elements], want)
                    seen += 1
                elif elements[0][0] in (python.Kind.INT, python.Kind.UINT, python.Kind.BOOL):
                    width = size // count
                    for index in range(count):
                        one(f"{name}[{index}]")
                        number = value.integer if value.kind == python.Kind.INT else value.number
                        stands = data[at + index * width:at + (index + 1) * width]
                        read = int.from_bytes(stands, "little", signed=value.kind == python.Kind.INT)
                        told = bool(read) if value.kind == python.Kind.BOOL else read
                        self.same(f"{name}[{index}] stands in its bytes", told, number)
                    seen += 1
                else:
                    self.same(f"{name} has no bytes of its own", (at, size), (0, 0))
        self.holds("there are some vectors", seen > 3, seen)
