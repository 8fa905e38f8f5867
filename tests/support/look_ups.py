"""What a loaded schema answers of its names, and every look-up that a path or a listing makes, beside plain walks over
its rows."""

import re
import subprocess

from tests.support.listing import Listing, described
from tests.support.naive import Schema
from tests.support.paths import names_in, ways


def told_widest(python, verifier):
    """How many live fields the widest table has, by the most reads in a buffer of 992 bytes with one table."""
    options = python.Options(max_tables=1, max_reads=2**63, reads_per_byte=2**32 - 1)
    return (verifier.most_reads(992, options) - 8) / 1000


def is_root(python, verifier, name):
    """Whether the library takes a name for that of a table."""
    try:
        verifier.choose_root(name)
        return True
    except python.Error as error:
        return error if error.verdict.status != python.Status.NO_ROOT else False


def of_names(python, verifier, objects, schema):
    """Pairs of what the library tells of names and numbers, and what the rows say."""
    told = [verifier.object_name(number) for number in range(len(objects) + 1)]
    yield told, [name or None for name in [*schema.names, ""]]
    for name in {*schema.names, *(field[0] for row in objects for field in row[1]), "nothing"} - {""}:
        yield (name, is_root(python, verifier, name)), (name, name in schema.names and is_table(schema, name))
    for number, fields in enumerate(schema.tables):
        by_number = {(field.slot - 4) // 2: field.name or None for field in fields or []}
        for field in [*by_number, len(by_number), 2**16]:
            yield verifier.field_name(number, field), by_number.get(field)
    live = [len(fields) for fields in schema.tables if fields is not None]
    yield told_widest(python, verifier), max(live, default=0)


def is_table(schema, name):
    return schema.tables[schema.names.index(name)] is not None


def listed(probe, file):
    """The listing of a schema file."""
    ran = subprocess.run([probe, "list"], input=file, capture_output=True, timeout=60)
    return ran.stdout.decode().splitlines()


def look_ups(python, probe, verifier, file, row):
    """The look-ups of a schema that was loaded from a file that answer otherwise than they should by the row of the
    table Schema there, and how many paths were asked."""
    objects, enums, paths = row[0], row[1], 0
    schema = Schema(objects, enums)
    wrong = [pair for pair in of_names(python, verifier, objects, schema) if pair[0] != pair[1]]
    got, want = listed(probe, file), list(Listing(described(row)).lines())
    wrong += [] if got == want else [(got, want)]
    names = [name for name in [*names_in(objects, enums), "nothing"] if re.fullmatch(r"[A-Za-z_][A-Za-z0-9_]*", name)]
    for number, name in enumerate(schema.names):
        if is_table(schema, name):
            verifier.choose_root(name)
            found, differing = ways(python, verifier, schema, number, names, 2)
            wrong, paths = wrong + differing, paths + len(found)
    return wrong, paths
