"""What --strict asks of a schema's tables is found in a time that grows as the schema does, whatever its order: chains
of tables, each of which leads to the next one or to the one before, and of which the last has a union; and tables whose
fields hold flexbuffers, many of one table, one of each of many tables, or many that several tables share.
"""

import resource
import struct
import subprocess

from tests.support.cases import Case
from tests.support.program import PROGRAM, TOP, file_of, loaded
from tests.support.schemas import NONE, U_TYPE, a_union, an_object, field, schema, table, union

HOSTILE = loaded(TOP / "bench/hostile")

TABLES = 8_192
RUNS = 5


def chain(tables, step):
    """A schema file with so many tables, each of which leads to the table `step` behind it, but the one where the chain
    ends: that has a union. The root is where it begins."""
    begin, end = (0, tables - 1) if step > 0 else (tables - 1, 0)
    objects = [table(f"T{k:05}", field("next", an_object(k + step), 4)) for k in range(tables)]
    objects[end] = table(f"T{end:05}", field("u_type", U_TYPE, 4), field("u", a_union(0), 6))
    return schema(objects, [union("U", ("NONE", 0, NONE), ("A", 1, an_object(0)))], root=f"T{begin:05}")


def put_marked(layout, number):
    """Adds a field of this number, of the type "bytes", required and with the attributes "marks"."""
    begin = len(layout.align().data)
    layout.data += struct.pack("<12H", 24, 19, 4, 8, 0, 16, 0, 0, 0, 18, 0, 12)
    layout.name(f"field {number}").number(len(layout.data) - begin, "i").offset(f"name of field {number}")
    layout.offset("bytes").offset("marks").number(4 + 2 * number, "H").number(1, "B")
    layout.text(f"name of field {number}", b"f%05d" % number)


def marked(tables, fields):
    """A schema file with so many tables, which share a vector of so many fields, each marked as a flexbuffer, and as
    required, which shows that built-in attributes were written. The root is the first table."""
    layout = HOSTILE.begun(b"BFBS").table("root", {4: "tables", 6: "enums", 12: "table 0"})
    layout.vector("tables", [f"table {number}" for number in range(tables)]).vector("enums", [])
    for number in range(tables):
        layout.table(f"table {number}", {4: f"name of table {number}", 6: "fields"})
        layout.text(f"name of table {number}", b"T%05d" % number)
    layout.vector("fields", [f"field {number}" for number in range(fields)])
    for number in range(fields):
        put_marked(layout, number)
    layout.align().data += struct.pack("<4H", 8, 6, 4, 5)
    layout.name("bytes").number(8, "i").number(14, "B").number(4, "B")
    layout.vector("marks", ["flexbuffer", "required"])
    for key in "flexbuffer", "required":
        layout.table(key, {4: f"{key} key", 6: "value"}).text(f"{key} key", key.encode())
    return layout.text("value", b"0").bytes()


def used():
    """The processor's time of all programs that ended."""
    usage = resource.getrusage(resource.RUSAGE_CHILDREN)
    return usage.ru_utime + usage.ru_stime


def seconds(file):
    """The processor's time of the fastest run of the program over an empty input: it loads the schema and makes the
    plan."""
    times = []
    for _ in range(RUNS):
        begun = used()
        subprocess.run([PROGRAM, "--schema", file, "--strict"], stdin=subprocess.DEVNULL, check=True)
        times.append(used() - begun)
    return min(times)


class PlanTime(Case):
    def grows(self, name, made, small, large):
        """The time of a file that has four times the rows is about four times the time."""
        one, four = (seconds(file_of(f"{name} {args}.bfbs", made(*args))) for args in (small, large))
        self.holds(name, four <= 8 * one + 0.05, (one, four))

    def test_four_times_the_tables_take_about_four_times_the_time(self):
        for name, step in [("to the next", 1), ("to the one before", -1)]:
            self.grows(name, chain, (TABLES, step), (4 * TABLES, step))

    def test_four_times_the_marks_take_about_four_times_the_time(self):
        for name, small, large in [
            ("of one table", (1, 8_000), (1, 32_000)),
            ("one of each table", (TABLES, 1), (4 * TABLES, 1)),
            ("of tables that share them", (1, 8_000), (4, 8_000)),
        ]:
            self.grows(name, marked, small, large)
