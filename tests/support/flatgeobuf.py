"""Layers of random features, the FlatGeobuf files that GDAL's ogr2ogr writes of them, what it says of these files, and
the parts of a file."""

import concurrent.futures
import csv
import dataclasses
import functools
import io
import pathlib
import random
import re
import subprocess

from tests.support.clone import FOLDER, TOP

EXAMPLE = TOP / "examples/flatgeobuf"
SCHEMA = EXAMPLE / "flatgeobuf.bfbs"
HEADER = "FlatGeobuf.Header"
# How the source of a layer is read: no column is made of the geometry's text but the geometry.
READ = ["-oo", "KEEP_GEOM_COLUMNS=NO", "-oo", "GEOM_POSSIBLE_NAMES=WKT"]

# The kinds of geometry in the order of their numbers; nothing is of the two that stand for several, 13 and 14.
KINDS = [
    "Unknown", "Point", "LineString", "Polygon", "MultiPoint", "MultiLineString", "MultiPolygon", "GeometryCollection",
    "CircularString", "CompoundCurve", "CurvePolygon", "MultiCurve", "MultiSurface", None, None, "PolyhedralSurface",
    "TIN", "Triangle",
]
MADE = [kind for kind in KINDS[1:] if kind]
# Kinds of which a geometry has parts, each a geometry too; and those of which it has ends, if it has several lines.
OF_PARTS = {"MultiPolygon", "GeometryCollection", "CompoundCurve", "CurvePolygon", "MultiCurve", "MultiSurface",
            "PolyhedralSurface"}
OF_LINES = {"Polygon", "MultiLineString", "TIN", "Triangle"}

# The columns: what the source says of each, and the number of the type that FlatGeobuf has for it.
COLUMNS = {
    "id": ("Integer", 5), "flag": ("Integer(Boolean)", 2), "small": ("Integer(Int16)", 3), "big": ("Integer64", 7),
    "part": ("Real(Float32)", 9), "real": ("Real", 10), "text": ("String", 11), "day": ("Date", 13),
    "hour": ("Time", 13), "at": ("DateTime", 13),
}


class Shapes:
    """Random geometries as well-known text. Numbers are multiples of 1/64, so that their decimals are exact."""

    def __init__(self, chance, dims):
        self.chance, self.dims = chance, dims
        self.width = 2 + len(dims)

    def point(self):
        return " ".join(f"{self.chance.randint(-180 * 64, 180 * 64) / 64:.6f}" for _ in range(self.width))

    def points(self, least=2, most=9):
        return [self.point() for _ in range(self.chance.randint(least, most))]

    def arc(self):
        """Points of arcs: an odd number."""
        return [self.point() for _ in range(self.chance.choice([3, 5, 7]))]

    def some(self, make, most=4):
        return ",".join(make() for _ in range(self.chance.randint(1, most)))

    def line(self):
        return f"({','.join(self.points())})"

    def ring(self, least=3, most=9):
        points = self.points(least, most)
        return f"({','.join([*points, points[0]])})"

    def rings(self):
        return f"({self.some(self.ring, 3)})"

    def triangle(self):
        return f"({self.ring(3, 3)})"

    def closed_arc(self):
        points = self.arc()
        return self.tagged("CircularString", f"({','.join([*points[:-1], points[0]])})")

    def lines_and_arcs(self):
        """A line, arcs from its end, and a line from theirs."""
        first, arc, last = self.points(), self.arc(), self.points()
        arc[0], last[0] = first[-1], arc[-1]
        return f"(({','.join(first)}),{self.tagged('CircularString', '(' + ','.join(arc) + ')')},({','.join(last)}))"

    def tagged(self, kind, body):
        return f"{kind.upper()} {self.dims}{' ' if self.dims else ''}{body}"

    def body(self, kind):
        some = self.some
        return {
            "Point": lambda: f"({self.point()})",
            "LineString": self.line,
            "Polygon": self.rings,
            "MultiPoint": lambda: f"({some(lambda: f'({self.point()})', 9)})",
            "MultiLineString": lambda: f"({some(self.line)})",
            "MultiPolygon": lambda: f"({some(self.rings)})",
            "GeometryCollection": lambda: f"({some(self.collected)})",
            "CircularString": lambda: f"({','.join(self.arc())})",
            "CompoundCurve": self.lines_and_arcs,
            "CurvePolygon": lambda: f"({some(lambda: self.chance.choice([self.ring, self.closed_arc])(), 3)})",
            "MultiCurve": lambda: f"({some(lambda: self.chance.choice([self.line, self.closed_arc])())})",
            "MultiSurface": lambda: f"({some(lambda: self.chance.choice([self.rings, self.curved])())})",
            "PolyhedralSurface": lambda: f"({some(self.triangle)})",
            "TIN": lambda: f"({some(self.triangle)})",
            "Triangle": self.triangle,
        }[kind]()

    def collected(self):
        """A part of a collection: of a plain kind, or a collection of one point."""
        kind = self.chance.choice(MADE[:7])
        return self.tagged(kind, f"({self.of('Point')})" if kind == "GeometryCollection" else self.body(kind))

    def curved(self):
        return self.tagged("CurvePolygon", self.body("CurvePolygon"))

    def of(self, kind):
        return self.tagged(kind, self.body(kind))


@dataclasses.dataclass(frozen=True)
class Layer:
    """So many features, of one kind of geometry or of any (`Unknown`), with z, m, both or neither."""

    kind: str
    dims: str
    count: int
    raw: bool = False  # whether a column of bytes is made of the texts

    @property
    def name(self):
        return f"{self.kind}{self.dims}".lower()

    def values(self, chance, number):
        """The values of a feature's columns, some of which are left out."""
        text = "".join(chance.choice('ab,"; \näß漢') for _ in range(chance.randrange(12)))
        values = [chance.randrange(2), chance.randint(-2**15, 2**15 - 1), chance.randint(-2**63, 2**63 - 1),
                  chance.randint(-99, 99) / 8, chance.randint(-10**9, 10**9) / 64, text,
                  f"{chance.randint(1800, 2200)}/02/{chance.randint(1, 28):02}", f"{chance.randrange(24):02}:10:20",
                  f"2026/11/{chance.randint(1, 30):02} {chance.randrange(24):02}:59:01"]
        return [number, *(value if chance.random() < 0.8 else "" for value in values)]

    def source(self):
        """The file that ogr2ogr reads the layer from."""
        chance, shapes = random.Random(self.name), Shapes(random.Random(self.kind), self.dims)
        path = FOLDER / f"{self.name}.csv"
        kinds = ["WKT", *(kind for kind, _ in COLUMNS.values())]
        path.with_suffix(".csvt").write_text(",".join(f'"{kind}"' for kind in kinds))
        with open(path, "w", newline="") as file:
            rows = csv.writer(file)
            rows.writerow(["WKT", *COLUMNS])
            for number in range(self.count):
                kind = MADE[number % len(MADE)] if self.kind == "Unknown" else self.kind
                rows.writerow([shapes.of(kind), *self.values(chance, number)])
        return path

    def written(self, source, indexed):
        """The file that ogr2ogr writes of the layer, with an index or without one."""
        path = FOLDER / f"{self.name}-{'indexed' if indexed else 'plain'}.fgb"
        kind = "GEOMETRY" if self.kind == "Unknown" else f"{self.kind}{self.dims}".upper()
        query = f'SELECT *, CAST(text AS BLOB) AS raw FROM "{self.name}"'
        words = ["-dialect", "SQLite", "-sql", query] if self.raw else []
        ogr2ogr("-f", "FlatGeobuf", path, source, *READ, "-nlt", kind, "-a_srs", "EPSG:4326", *words,
                "-nln", self.name, "-lco", f"SPATIAL_INDEX={'YES' if indexed else 'NO'}")
        return path


# 10,000 features: all kinds in one layer, and each kind in one of its own.
LAYERS = [
    Layer("Unknown", "", 3250),
    *(Layer(kind, dims, 450, raw=kind == "Point")
      for kind, dims in zip(MADE, ["", "Z", "M", "ZM"] * len(MADE))),
]


def ogr2ogr(*words):
    """What ogr2ogr writes to standard output; it may tell warnings."""
    ran = subprocess.run(["ogr2ogr", *map(str, words)], capture_output=True, text=True, timeout=60)
    if ran.returncode != 0 or "ERROR" in ran.stderr:
        raise RuntimeError(f"ogr2ogr fails: {words}\n{ran.stderr}")
    return ran.stdout


def told(path):
    """What ogr2ogr reads in a FlatGeobuf file: the head of a table, and its rows, in the file's order."""
    text = ogr2ogr("-f", "CSV", "/vsistdout/", path, "-lco", "GEOMETRY=AS_WKT")
    head, *rows = csv.reader(io.StringIO(text, newline=""))
    return head, [dict(zip(head, row)) for row in rows]


def node_count(count, size=16):
    """How many nodes an index has: one for each feature, and above them one for each 16 below, up to a single one."""
    levels = [count]
    while len(levels) == 1 or levels[-1] > 1:
        levels.append((levels[-1] + size - 1) // size)
    return sum(levels)


@dataclasses.dataclass(frozen=True)
class File:
    """A FlatGeobuf file of a layer, of whose features it has an index or not."""

    layer: Layer
    path: pathlib.Path
    is_indexed: bool

    @functools.cached_property
    def data(self):
        return self.path.read_bytes()

    @property
    def header(self):
        return self.data[8 : 12 + int.from_bytes(self.data[8:12], "little")]

    @property
    def begin(self):
        """Where the features begin."""
        return 8 + len(self.header) + (40 * node_count(self.layer.count) if self.is_indexed else 0)

    @property
    def features(self):
        return self.data[self.begin :]


@functools.cache
def files():
    """The files of all layers, and what ogr2ogr reads in each of a layer's first."""
    def made(layer):
        source = layer.source()
        files = [File(layer, layer.written(source, indexed), indexed) for indexed in (True, False)]
        return files, told(files[0].path)
    with concurrent.futures.ThreadPoolExecutor(2) as threads:
        return list(threads.map(made, LAYERS))


def points(text):
    """The points of a geometry's text, each as its numbers."""
    return [tuple(map(float, point.split())) for point in re.findall(r"-?[\d.]+(?: -?[\d.]+)+", text)]


def lines(text):
    """How many lists of points a geometry's text has."""
    return len(re.findall(r"\([^()]*\)", text))


def parts(text):
    """How many parts a geometry's text has, each of which is a geometry or a list."""
    depth, count = 0, 1
    for sign in text:
        depth += (sign == "(") - (sign == ")")
        count += sign == "," and depth == 1
    return count
