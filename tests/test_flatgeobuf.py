"""FlatGeobuf files that GDAL writes: headers and features are ok, and have the values that GDAL reads. On damaged ones
the program agrees with the verifier that flatc generates for C++, and GDAL refuses what it refuses. The commands of the
page, and examples/flatgeobuf/features_at.

What needs such files is skipped where ogr2ogr isn't there (Debian's package gdal-bin).
"""

import concurrent.futures
import json
import os
import random
import re
import struct
import subprocess
import sys
import unittest

from tests.support.builder import buffer, changed, messages_of
from tests.support.cases import Case
from tests.support.flatgeobuf import (
    COLUMNS, EXAMPLE, HEADER, KINDS, OF_LINES, OF_PARTS, SCHEMA, File, Layer, files, lines, node_count, parts, points,
)
from tests.support.program import PROGRAM, TOP, file_of, folder_of, run
from tests.support.tools import there

sys.path.insert(0, str(TOP / "bench" / "comparison"))

import building  # noqa: E402  (the folder is named just above)
import verdicts  # noqa: E402

FOLDER = folder_of(__name__)
LACKING = building.missing()
WITH_GDAL = unittest.skipUnless(there("ogr2ogr"), "ogr2ogr isn't there")
BY_HEADER = ["--schema", SCHEMA, "--root", HEADER]
BY_FEATURE = ["--schema", SCHEMA]
STRICTEST = ["--strict", "--known-fields", "--utf8"]
PATHS = ["geometry.type", "geometry.ends", "geometry.parts", "geometry.xy", "geometry.z", "geometry.m",
         *(f"properties[{number}]" for number in (0, 2, 3, 4))]
# Where a geometry's first point may stand: in its own points, in those of its first part, or of that one's.
FIRST = [f"geometry{where}.{name}" for where in ("", ".parts[0]", ".parts[0].parts[0]")
         for name in ("xy[0]", "xy[1]", "z[0]", "m[0]")]
# Vectors whose elements need more to be aligned than their count does, which C++ doesn't ask.
WIDE = {"envelope", "xy", "z", "m", "t", "tm"}
# The example's parts.
PLACES = File(Layer("places", "", 5), EXAMPLE / "places.fgb", True)


def values(words, paths, given):
    """The values at these paths in each message, all of which are ok."""
    ran = run(*words, "--json", *(word for path in paths for word in ("--path", path)), given=given)
    told = [json.loads(line) for line in ran.out.splitlines()]
    bad = [line for line in told if not line["ok"]]
    if ran.status != 0 or ran.err or bad:
        raise AssertionError(f"status {ran.status}: {ran.err} {bad[:3]}")
    return [line["values"] for line in told]


def vector(count):
    """What is shown of a vector of so many; one without elements isn't written."""
    return {"vector": count} if count else None


def wanted(layer, row):
    """What a feature has at these paths, by what GDAL reads, with its first point."""
    text, number = row["WKT"], int(row["id"])
    kind = next(kind for kind in KINDS if kind and kind.upper() == text.split(" ")[0])
    first = dict(zip("XY" + layer.dims, points(text)[0]))
    count = 0 if kind in OF_PARTS else len(points(text))
    return {
        "geometry.type": KINDS.index(kind),
        "geometry.ends": vector(lines(text) if kind in OF_LINES else 0),
        "geometry.parts": vector(parts(text) if kind in OF_PARTS else 0),
        "geometry.xy": vector(2 * count),
        "geometry.z": vector(count if "Z" in layer.dims else 0),
        "geometry.m": vector(count if "M" in layer.dims else 0),
        "properties[0]": 0,
        **{f"properties[{2 + place}]": byte for place, byte in enumerate(number.to_bytes(3, "little"))},
        "first": [first.get(name) for name in "XYZM"],
    }


def found(layer, stream):
    """The same of each feature of a stream, as fbcheck reads it, with what needn't be written: the type that the header
    has, and the end of a single line."""
    words = [*BY_FEATURE, *STRICTEST]
    for got, first in zip(values(words, PATHS, stream), values(words, FIRST, stream), strict=True):
        got["geometry.type"] = got["geometry.type"] or KINDS.index(layer.kind)
        if KINDS[got["geometry.type"]] in OF_LINES:
            got["geometry.ends"] = got["geometry.ends"] or vector(1)
        points = [[first[path] for path in FIRST[place : place + 4]] for place in (0, 4, 8)]
        yield {**got, "first": next((point for point in points if point[0] is not None), None)}


@WITH_GDAL
class Files(Case):
    def test_headers(self):
        for of_layer, _ in files():
            for file in of_layer:
                layer, header = file.layer, file.header
                self.same(f"{file.path.name}: how it begins", file.data[:7], b"fgb\3fgb")
                self.same(f"{file.path.name}: plainly", run(*BY_HEADER, "--quiet", given=header), (0, b"", b""))
                want = {"name": layer.name, "features_count": layer.count, "index_node_size": 16 * file.is_indexed,
                        "geometry_type": KINDS.index(layer.kind), "has_z": "Z" in layer.dims,
                        "has_m": "M" in layer.dims, "has_t": False, "crs.code": 4326, "crs.org": "EPSG"}
                self.same(file.path.name, values([*BY_HEADER, *STRICTEST], want, header), [want])
                columns = {name: number for name, (_, number) in COLUMNS.items()} | ({"raw": 14} if layer.raw else {})
                for what, found in [("name", columns.keys()), ("type", columns.values())]:
                    want = {f"columns[{number}].{what}": value for number, value in enumerate(found)}
                    self.same(f"{file.path.name}: {what} of columns", values(BY_HEADER, want, header), [want])

    def test_features(self):
        """All are ok, strictly too, and have the values that GDAL reads."""
        total = 0
        for of_layer, (head, rows) in files():
            layer = of_layer[0].layer
            total += layer.count
            self.same(f"{layer.name}: columns", head, ["WKT", *COLUMNS, *["raw"] * layer.raw])
            self.same(f"{layer.name}: rows", sorted(int(row["id"]) for row in rows), list(range(layer.count)))
            want = [wanted(layer, row) for row in rows]
            for file in of_layer:
                ran = run(*BY_FEATURE, "--quiet", "--summary", given=file.features)
                text = f"summary: messages={layer.count} yes={layer.count} no=0 ".encode()
                self.same(f"{file.path.name}: plainly", (ran.status, ran.out, ran.err[:len(text)]), (0, b"", text))
                got = list(found(layer, file.features))
                if not file.is_indexed:
                    by_number = lambda row: [row[f"properties[{place}]"] for place in (4, 3, 2)]
                    got, want = sorted(got, key=by_number), sorted(want, key=by_number)
                wrong = [pair for pair in zip(got, want) if pair[0] != pair[1]]
                self.same(f"{file.path.name}: values", (len(got), wrong[:2]), (layer.count, []))
        self.same("in all", total, 10_000)


def lines_of(root, aligned, stream):
    """What fbcheck says of each message of a stream, as JSON, and what the generated verifier says."""
    words = [] if aligned else ["--no-alignment"]
    ran = run(*BY_FEATURE, "--root", f"FlatGeobuf.{root}", "--strict", "--json", *words, given=stream)
    command = [FOLDER / f"by_generated_{root}_{aligned}", "--fenced"]
    theirs = subprocess.run(command, input=stream, capture_output=True, check=True).stdout.decode().splitlines()
    return [json.loads(line) for line in ran.out.splitlines()], [line.split(" ")[1] for line in theirs]


def is_known(message, line, other, aligned):
    """Whether this is what the generated verifier takes though fbcheck refuses it: elements of a vector that aren't
    aligned, an offset of 0 in a vector of tables, a vtable of 0 or 2 bytes."""
    code, at = line.get("code"), line.get("at")
    return other == "ok" and (
        code == "V3" and aligned and line["field"] in WIDE
        or code == "V4" and line["place"].endswith("]")
        or code == "V8" and int.from_bytes(message[at : at + 2], "little") in (0, 2)
    )


@WITH_GDAL
@unittest.skipIf(LACKING, f"not there: {', '.join(LACKING)}")
class Damaged(Case):
    """Damaged headers and features, beside the verifier that flatc generates for C++."""

    @classmethod
    def setUpClass(cls):
        super().setUpClass()
        building.run("flatc", "--cpp", "-o", FOLDER, EXAMPLE / "flatgeobuf.fbs")
        wanted = [(root, aligned) for root in ("Header", "Feature") for aligned in (True, False)]
        with concurrent.futures.ThreadPoolExecutor(2) as threads:
            list(threads.map(lambda asked: cls.compile(*asked), wanted))

    @staticmethod
    def compile(root, aligned):
        words = [f"-I{FOLDER}", '-DGENERATED="flatgeobuf_generated.h"', f"-DROOT=FlatGeobuf::{root}"]
        source, made = building.HERE / "by_generated.cpp", FOLDER / f"by_generated_{root}_{aligned}"
        building.run("g++", "-std=c++17", *words, f"-DALIGNED={str(aligned).lower()}", source, "-o", made)

    def test_beside_generated_code(self):
        chances = random.Random(11)
        headers = [file.header for of_layer, _ in files() for file in of_layer]
        features = [feature for of_layer, _ in files() for feature in messages_of(of_layer[0].features)]
        for root, whole in [("Header", headers * 60), ("Feature", features)]:
            damaged = [verdicts.damaged(message, chances) for message in whole]
            for aligned in (True, False):
                name = f"{root}, {'aligned' if aligned else 'not aligned'}"
                mine, theirs = lines_of(root, aligned, b"".join(damaged))
                self.same(f"{name}: lines", (len(mine), len(theirs)), (len(damaged), len(damaged)))
                bad = sum(not line["ok"] for line in mine)
                self.holds(f"{name}: many are bad, and many ok", len(whole) / 4 < bad < len(whole) * 3 / 4, bad)
                wrong = [(line, other) for message, line, other in zip(damaged, mine, theirs)
                         if other != ("ok" if line["ok"] else "bad") and not is_known(message, line, other, aligned)]
                self.same(f"{name}: differences of no known kind", wrong[:2], [])


@WITH_GDAL
class ReadByGdal(Case):
    def test_what_is_bad_is_refused(self):
        """GDAL refuses a file with a bad header or feature, and says no more than that verification failed."""
        chances = random.Random(3)
        refused = 0
        for _ in range(60):
            at = chances.choice([chances.randrange(12, 8 + len(PLACES.header)),
                                 chances.randrange(PLACES.begin + 4, len(PLACES.data))])
            data = changed(PLACES.data, (at, f"{chances.randrange(256):02x}"))
            path = file_of("damaged.fgb", data)
            for words, given, text in [
                (BY_HEADER, data[8 : 8 + len(PLACES.header)], b"Header failed consistency verification"),
                (BY_FEATURE, data[PLACES.begin :], b"Buffer verification failed"),
            ]:
                ran = run(*words, "--no-alignment", "--quiet", given=given)
                if ran.status != 1 or b" bad V8 " in ran.out or b" bad V4 " in ran.out:
                    continue
                refused += 1
                told = subprocess.run(["ogrinfo", "-al", "-q", path], capture_output=True, timeout=60).stderr
                self.holds(f"byte {at}", b"ERROR 1: " + text in told, (ran.out, told))
        self.holds("some are bad", refused > 10, refused)


def features_at(*words):
    """How features_at ends, and what it writes."""
    ran = subprocess.run([EXAMPLE / "features_at", *words], capture_output=True, text=True, timeout=60)
    return ran.returncode, ran.stdout, ran.stderr


def headed(features, size, more=b""):
    """A file whose header has these numbers."""
    return b"fgb\3fgb\1" + buffer({8: ("Q", features), 9: ("H", size)}, prefix=True) + more


class FeaturesAt(Case):
    def test_where_features_begin(self):
        self.same("in the example", features_at(EXAMPLE / "places.fgb", PROGRAM), (0, f"{PLACES.begin} 5\n", ""))
        for features, size, nodes in [
            (0, 16, 0), (9, 0, 0), (1, 16, 2), (2, 16, 3), (16, 16, 17), (17, 16, 20), (256, 16, 273), (257, 16, 277),
            (5, 2, 11), (8, 2, 15), (9, 65535, 10),
        ]:
            data = headed(features, size, bytes(40 * nodes))
            path = file_of("headed.fgb", data)
            self.same(f"{features} by {size}", features_at(path, PROGRAM), (0, f"{len(data)} {features}\n", ""))
            if size == 16 and features:
                self.same(f"{features}: as the tests count", node_count(features), nodes)

    def test_files_of_gdal(self):
        if not there("ogr2ogr"):
            self.skipTest("ogr2ogr isn't there")
        for of_layer, _ in files()[:2]:
            for file in of_layer:
                want = 0, f"{file.begin} {file.layer.count}\n", ""
                self.same(file.path.name, features_at(file.path, PROGRAM), want)

    def test_faults(self):
        long = headed(2**64 - 1, 2)
        refusing = file_of("refusing", b"#!/bin/sh\necho no schema >&2\nexit 2\n")
        refusing.chmod(0o755)
        bad = "the header isn't ok: "
        for name, data, status, text in [
            ("another file", b"{}", 1, "no FlatGeobuf file of version 3"),
            ("another version", changed(PLACES.data, (3, "02")), 1, "no FlatGeobuf file of version 3"),
            ("cut in its header", PLACES.data[:99], 1, "the file ends in its header (91 of 696 bytes)"),
            ("cut before it", PLACES.data[:8], 1, "the file ends in its header (0 of 4 bytes)"),
            ("cut in its prefix", PLACES.data[:11], 1, "the file ends in its header (3 of 4 bytes)"),
            ("a header longer than the file", changed(PLACES.data, (8, "ffffffff")), 1,
             f"the file ends in its header ({len(PLACES.data) - 8} of {2**32 + 3} bytes)"),
            ("a header that no limit allows", headed(9, 16)[:8] + struct.pack("<I", 1 << 26) + bytes(1 << 26), 1,
             f"{bad}{{\"fault\":\"stream: S1 Oversize declared={1 << 26}\""),
            ("a bad header", changed(PLACES.data, (12, "ffffff7f")), 1, f'{bad}{{"message":1,"begin":8,"bytes":696,'),
            ("cut in its index", PLACES.data[:900], 1, "the index ends at 944, after the file's end"),
            ("a longer index than there is", long, 1, f"the index ends at {len(long) + 40 * (2**65 - 2)}, after the"),
            ("nodes of one", headed(9, 1), 1, "the header has index_node_size 1"),
        ]:
            path = file_of("wrong.fgb", data)
            got, out, err = features_at(path, PROGRAM)
            self.same(name, (got, out), (status, ""))
            self.holds(f"{name}: it's told", f"features_at: {path}: {text}" in err, err)
        for name, words, text in [
            ("no file", [FOLDER / "gone.fgb"], f"{FOLDER}/gone.fgb: No such file or directory"),
            ("no program", [EXAMPLE / "places.fgb", FOLDER / "gone"], f"{FOLDER}/gone: No such file or directory"),
            ("one that checks nothing", [EXAMPLE / "places.fgb", refusing], "no schema"),
        ]:
            self.same(name, features_at(*words), (2, "", f"features_at: {text}\n"))
        for words in [(), ("--help",), ("a", "b", "c")]:
            self.same(f"{words}", features_at(*words)[:2], (2, ""))


class Page(Case):
    """The commands of the page print what stands below them."""

    BLOCKS = re.findall(r"```sh\n(.*?)```", (EXAMPLE / "README.md").read_text(), re.S)

    @classmethod
    def setUpClass(cls):
        super().setUpClass()
        cls.path = FOLDER / "on the path"
        cls.path.mkdir()
        (cls.path / "fbcheck").symlink_to(PROGRAM)

    def ran(self, block, folder):
        """How bash ends by these commands in a folder, and the lines that it writes."""
        ran = subprocess.run(["bash", "-c", block], cwd=folder, stdout=subprocess.PIPE, stderr=subprocess.STDOUT,
                             timeout=60, env={**os.environ, "PATH": f"{self.path}:{os.environ['PATH']}"})
        return ran.returncode, ran.stdout.decode().splitlines()

    def test_commands(self):
        self.same("commands", len(self.BLOCKS), 5)
        for block in self.BLOCKS:
            shown = [line.removeprefix("# ") for line in block.splitlines() if line.startswith("# ")]
            self.same(block.splitlines()[0], self.ran(block, EXAMPLE), (0, shown))

    def test_many_files(self):
        """The loop tells of bad features, and of files that lack some."""
        folder = FOLDER / "many files"
        folder.mkdir()
        for name in ("features_at", "flatgeobuf.bfbs"):
            (folder / name).symlink_to(EXAMPLE / name)
        data, begin = PLACES.data, PLACES.begin
        lengths = [len(message) for message in messages_of(data[begin:])]
        swallowing = struct.pack("<I", sum(lengths[1:4]) - 4).hex()
        unknown = buffer({8: ("Q", 0), 9: ("H", 0)}, prefix=True)
        for name, file in [
            ("a.fgb", data),
            ("b.fgb", data[: begin + sum(lengths[:3])]),
            ("c.fgb", changed(data, (begin + lengths[0], swallowing))),
            ("d.fgb", changed(data, (begin + 4, "ffffff7f"))),
            ("e.fgb", data[:-1]),
            ("f.fgb", data[:99]),
            ("g.fgb", data[:8] + unknown + data[begin:]),
        ]:
            (folder / name).write_bytes(file)
        self.same("what is told", self.ran(self.BLOCKS[-1], folder), (0, [
            "b.fgb: 3 of 5 features",
            "c.fgb: 3 of 5 features",
            "d.fgb: 1 bad V2 OutOfBuffer at=2147483651 object=2 field=- reads=2 in . [FlatGeobuf.Feature]",
            f"fbcheck: e.fgb: stream: S2 Truncated held={lengths[4] - 1}",
            "e.fgb: 4 of 5 features",
            "features_at: f.fgb: the file ends in its header (91 of 696 bytes)",
        ]))

    @unittest.skipUnless(there("flatc"), "flatc isn't there")
    def test_schema_file(self):
        """The schema file is what flatc makes of the schema, with built-in attributes."""
        folder = FOLDER / "made again"
        words = ["flatc", "--binary", "--schema", "--bfbs-filenames", EXAMPLE, "-o", folder]
        building.run(*words, "--bfbs-builtins", EXAMPLE / "flatgeobuf.fbs")
        self.same("it's the same", (folder / SCHEMA.name).read_bytes(), SCHEMA.read_bytes())
        building.run(*words, EXAMPLE / "flatgeobuf.fbs")
        ran = run("--schema", folder / SCHEMA.name, "--strict")
        text = b"strict can't tell which bytes are nested buffers or flexbuffers: FlatGeobuf.Feature.properties;"
        self.holds("without built-in attributes --strict can't tell", ran.status == 2 and text in ran.err, ran)
