"""Builds the package by a C compiler alone: what pip asks for (PEP 517), and what ./install and scripts/package do.

    python3 backend.py FOLDER    puts the package into this folder, as it is imported

The library is libfbcheck.a of the clone (../../out, which scripts/build_c makes), or else what pkg-config knows as
fbcheck; of this the static form is taken, where it is there. The extension serves every later CPython. The same files
are packed as the same bytes: names are sorted, and all have the time that SOURCE_DATE_EPOCH tells, or one that is
fixed.
"""

import base64
import gzip
import hashlib
import io
import os
import pathlib
import re
import shutil
import subprocess
import sys
import sysconfig
import tarfile
import tempfile
import time
import tomllib
import zipfile

HERE = pathlib.Path(__file__).resolve().parent
TOP = HERE.parents[1]
PARTS = ("__init__.py", "_codes.py", "_columns.py", "_fbcheck.pyi", "_formats.py", "_rows.py", "_shapes.py", "_streams.py",
         "py.typed")
SOURCES = ("_dicts.c", "_fbcheck.c", "_messages.c", "_shapes.c", "_streams.c", "_values.c")
HEADERS = ("_fbcheck.h", "_shapes.h")
EXTENSION = "_fbcheck.abi3.so"
WARNINGS = ("-Wall", "-Wextra")


def fail(text):
    sys.exit(f"fbcheck: {text}")


def of_clone():
    """Whether this lies in a clone that has the library."""
    return TOP / "bindings/python" == HERE and (TOP / "out/libfbcheck.a").exists()


def library():
    """The folder of the header, and what is linked."""
    if of_clone():
        return TOP / "include", [TOP / "out/libfbcheck.a"]
    told = lambda *words: subprocess.run(["pkg-config", *words, "fbcheck"], capture_output=True, text=True)
    if shutil.which("pkg-config") is None or told("--exists").returncode:
        fail("the library for C isn't found by pkg-config: install it (libfbcheck-dev), or name the folder of fbcheck.pc "
             "in PKG_CONFIG_PATH")
    folder = pathlib.Path(told("--variable=libdir").stdout.strip())
    archive = folder / "libfbcheck.a"
    return told("--variable=includedir").stdout.strip(), [archive] if archive.exists() else told("--libs").stdout.split()


def build_extension(folder):
    """Compiles the extension into this folder."""
    compiler = os.environ.get("CC", "cc").split()
    headers = pathlib.Path(sysconfig.get_path("include"))
    if sys.version_info < (3, 11):
        fail("Python 3.11 or later is needed")
    if not (headers / "Python.h").exists():
        fail(f"the headers of Python aren't in {headers} (python3-dev)")
    if shutil.which(compiler[0]) is None:
        fail(f"a C compiler is needed: there is no {compiler[0]}")
    include, linked = library()
    subprocess.run(
        [*compiler, "-std=c99", "-O2", "-fPIC", "-shared", *WARNINGS, "-I", headers, "-I", include,
         *(HERE / "src" / source for source in SOURCES), *linked, "-Wl,--exclude-libs,ALL", "-Wl,-s", "-o", folder / EXTENSION], check=True)


def put(folder):
    """Puts the package into a folder."""
    package = pathlib.Path(folder) / "fbcheck"
    package.mkdir(parents=True, exist_ok=True)
    for part in PARTS:
        shutil.copy(HERE / "src/fbcheck" / part, package / part)
    build_extension(package)


def tag_of(extension):
    """The tag of a wheel with this extension: one of the oldest glibc that has all that it asks for."""
    versions = re.findall(rb"\0GLIBC_(\d+)\.(\d+)", extension)
    alone = b"libfbcheck.so" not in extension
    platform = "linux" if not versions or not alone else "manylinux_%d_%d" % max((int(a), int(b)) for a, b in versions)
    return f"cp311-abi3-{platform}_x86_64"


def project():
    return tomllib.loads((HERE / "pyproject.toml").read_text())["project"]


def metadata():
    """What is known of the package, with its page, in which only links to other places lead somewhere."""
    known = project()
    page = re.sub(r"\[([^\]]+)\]\((?!http)[^)]*\)", r"\1", (HERE / known["readme"]).read_text())
    return "\n".join([
        "Metadata-Version: 2.1", f"Name: {known['name']}", f"Version: {known['version']}",
        f"Summary: {known['description']}", f"Requires-Python: {known['requires-python']}",
        *(f"Classifier: {one}" for one in known["classifiers"]), "Description-Content-Type: text/markdown", "", page])


def when():
    return max(int(os.environ.get("SOURCE_DATE_EPOCH", 0)), 315_532_800)  # no zip has a time before 1980


def zipped(path, files):
    """Writes a zip of these files, whose bytes or paths they are by their names, in their order."""
    with zipfile.ZipFile(path, "w") as made:
        for name, data in files.items():
            entry = zipfile.ZipInfo(name, time.gmtime(when())[:6])
            entry.compress_type, entry.external_attr = zipfile.ZIP_DEFLATED, (0o100000 | mode_of(data)) << 16
            entry.create_system = 3
            made.writestr(entry, bytes_of(data))


def tarred(path, folder, files):
    """Writes a tarball of these files, by their names below a folder."""
    with open(path, "wb") as made, gzip.GzipFile("", "wb", 9, made, 0) as packed, \
            tarfile.open(fileobj=packed, mode="w", format=tarfile.GNU_FORMAT) as tar:
        for name, data in sorted(files.items()):
            entry = tarfile.TarInfo(f"{folder}/{name}")
            entry.mode, entry.mtime, entry.size = mode_of(data), when(), len(bytes_of(data))
            tar.addfile(entry, io.BytesIO(bytes_of(data)))


def bytes_of(data):
    return data.read_bytes() if isinstance(data, pathlib.Path) else data.encode() if isinstance(data, str) else data


def mode_of(data):
    return 0o755 if isinstance(data, pathlib.Path) and os.access(data, os.X_OK) else 0o644


def record_of(files):
    """The lines of a wheel that tell the sums of its other files."""
    rows = []
    for name, data in files.items():
        digest = base64.urlsafe_b64encode(hashlib.sha256(bytes_of(data)).digest()).rstrip(b"=").decode()
        rows.append(f"{name},sha256={digest},{len(bytes_of(data))}\n")
    return "".join(rows)


def build_wheel(wheel_directory, config_settings=None, metadata_directory=None):
    """Makes the wheel, with what is linked in where `sbom` has it, and tells its name."""
    with tempfile.TemporaryDirectory() as made:
        put(made)
        files = {f"fbcheck/{name}": (pathlib.Path(made) / "fbcheck" / name).read_bytes() for name in (*PARTS, EXTENSION)}
    tag, name = tag_of(files[f"fbcheck/{EXTENSION}"]), "fbcheck-" + project()["version"]
    known = f"{name}.dist-info"
    files[f"{known}/METADATA"] = metadata()
    files[f"{known}/WHEEL"] = f"Wheel-Version: 1.0\nGenerator: fbcheck\nRoot-Is-Purelib: false\nTag: {tag}\n"
    if config_settings and "sbom" in config_settings:
        files[f"{known}/sboms/fbcheck.cdx.json"] = config_settings["sbom"]
    files[f"{known}/RECORD"] = record_of(files) + f"{known}/RECORD,,\n"
    zipped(pathlib.Path(wheel_directory) / f"{name}-{tag}.whl", files)
    return f"{name}-{tag}.whl"


def build_sdist(sdist_directory, config_settings=None):
    """Makes the tarball of the sources, and tells its name."""
    name = "fbcheck-" + project()["version"]
    sources = ["README.md", "backend.py", "pyproject.toml", *(f"src/{source}" for source in (*HEADERS, *SOURCES)),
               *(f"src/fbcheck/{part}" for part in PARTS)]
    tarred(pathlib.Path(sdist_directory) / f"{name}.tar.gz", name,
           {"PKG-INFO": metadata(), **{source: (HERE / source).read_bytes() for source in sources}})
    return f"{name}.tar.gz"


if __name__ == "__main__":
    if len(sys.argv) != 2 or sys.argv[1].startswith("-"):
        sys.exit("usage: python3 backend.py FOLDER")
    put(sys.argv[1])
