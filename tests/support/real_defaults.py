"""A schema whose floats have defaults, a buffer without these floats, and what each of them is, worked out by hand."""

from tests.support.builder import buffer
from tests.support.schemas import DOUBLE, FLOAT, an_object, field, schema, table, vector

NAN, INFINITY = float("nan"), float("inf")

# The name of a field, its type, its default in the schema file (None: left out), its value as JSON, and as a number.
FIELDS = [
    ("zero", FLOAT, None, "0.0", 0.0), ("wide_zero", DOUBLE, None, "0.0", 0.0),
    ("exact", FLOAT, 1.5, "1.5", 1.5), ("wide_exact", DOUBLE, 1.5, "1.5", 1.5),
    ("tenth", FLOAT, 0.1, "0.1", 0.10000000149011612), ("wide_tenth", DOUBLE, 0.1, "0.1", 0.1),
    ("minus", FLOAT, -0.0, "-0.0", -0.0), ("wide_minus", DOUBLE, -0.0, "-0.0", -0.0),
    ("none", FLOAT, NAN, '"NaN"', NAN), ("wide_none", DOUBLE, NAN, '"NaN"', NAN),
    ("most", FLOAT, INFINITY, '"Infinity"', INFINITY), ("wide_least", DOUBLE, -INFINITY, '"-Infinity"', -INFINITY),
    ("large", FLOAT, 1e300, '"Infinity"', INFINITY), ("wide_large", DOUBLE, 1e300, "1e300", 1e300),
    ("odd", FLOAT, 16777217.0, "16777216.0", 16777216.0), ("wide_odd", DOUBLE, 16777217.0, "16777217.0", 16777217.0),
]
INNER = [
    field("f", FLOAT, 4, real=2.5), field("d", DOUBLE, 6, real=-0.1), field("maybe", FLOAT, 8, real=2.5, optional=True),
]
COUNT = len(FIELDS)
ROWS = [
    table("Real", *(field(name, kind, 4 + 2 * at, real=real) for at, (name, kind, real, _, _) in enumerate(FIELDS)),
          field("inner", an_object(1), 4 + 2 * COUNT), field("gone", an_object(1), 6 + 2 * COUNT),
          field("list", vector(an_object(1)), 8 + 2 * COUNT),
          field("maybe", DOUBLE, 10 + 2 * COUNT, real=1.5, optional=True)),
    table("Inner", *INNER),
]
FILE = schema(ROWS, root="Real")
# Of its tables `inner` and the first of the list have none of their floats, and the second has d.
ROOT = {COUNT: {}, COUNT + 2: [{}, {1: ("d", 3.25)}]}
MESSAGE = buffer(ROOT)
# The path, what the plain line has, what the line of JSON has, and the number in calls, None where nothing is.
VALUES = [
    *((name, "absent", told, number) for name, _, _, told, number in FIELDS),
    ("inner.f", "absent", "2.5", 2.5), ("inner.d", "absent", "-0.1", -0.1), ("inner.maybe", "absent", "null", None),
    ("gone.f", "absent", "null", None), ("gone.d", "absent", "null", None), ("maybe", "absent", "null", None),
    ("list[0].f", "absent", "2.5", 2.5), ("list[0].d", "absent", "-0.1", -0.1),
    ("list[1].d", "float:0000000000000a40", "3.25", 3.25),
    ("list[2].d", "no-element", '{"absent":"no-element"}', None),
]
