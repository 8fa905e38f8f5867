"""What scripts/package makes: a tarball and Debian packages, which are unpacked and used below roots of their own, and
the version, which stands in one place and is told everywhere. The packages of languages are used in test_packages.py.
"""

import hashlib
import os
import re
import shutil
import subprocess
import sys
import unittest

from tests.support.library import LibraryCase, ran
from tests.support.program import PROGRAM, TOP, folder_of, run
from tests.support.tools import jdk_of_22, node_headers, there, with_jdk
from tests.test_install import dead_links

FOLDER = folder_of(__name__)
VERSION = (TOP / "VERSION").read_text().strip()
DEBS = [f"{name}_{VERSION}_amd64.deb" for name in ("fbcheck", "libfbcheck-dev", "libfbcheck1", "python3-fbcheck")]
TARBALL = f"fbcheck-{VERSION}-x86_64-linux.tar.gz"
BILL = f"fbcheck-{VERSION}.cdx.json"
LANGUAGES = [f"fbcheck-{VERSION}-cp311-abi3-manylinux_x86_64.whl", f"fbcheck-{VERSION}.tar.gz",
             f"fbcheck-{VERSION}.0.0.crate", f"fbcheck-go-{VERSION}.0.0.tar.gz", f"fbcheck-{VERSION}-sources.jar"]
LIBRARIES = "usr/lib/x86_64-linux-gnu"
PACKAGES = "usr/lib/python3/dist-packages"
GOOD = ["--schema", TOP / "examples/deliveries.bfbs", "--path", "to.name"]
STREAM = (TOP / "examples/deliveries.bin").read_bytes()


# What a program in Python does with the package: it checks the stream, and reads values of good messages.
IN_PYTHON = """
import importlib.metadata, sys
import fbcheck
schema = fbcheck.Schema(sys.argv[1], prefixed=True)
for message, verdict in schema.messages(sys.stdin.buffer):
    print(verdict, *([repr(schema.read(message, "to.name"))] if verdict else []))
print(importlib.metadata.version("fbcheck"), fbcheck.__file__)
"""


def packed(folder, **environment):
    """How scripts/package ends, and the files that it makes."""
    told = subprocess.run([TOP / "scripts/package", folder], capture_output=True, text=True, timeout=600,
                          env={**os.environ, "DEBEMAIL": "fbcheck@fbcheck.dev", **with_jdk(), **environment})
    # The wheel's name has the glibc that it needs.
    names = sorted(re.sub(r"(manylinux)_\d+_\d+", r"\1", name) for name in os.listdir(folder))
    return told.returncode, told.stderr, names


def made_here():
    """What is told, and the packages that are made, where some tools may lack."""
    said, names = "", [*DEBS, TARBALL, BILL, *LANGUAGES, "SHA256SUMS"]
    if shutil.which("node") and node_headers():
        names.append(f"fbcheck-{VERSION}.0.0.tgz")
    else:
        said += "package: the package for Node isn't made: "
    if jdk_of_22():
        names.append(f"fbcheck-{VERSION}.jar")
    else:
        said += "package: the jar isn't made: "
    return said, sorted(names)


def newest_glibc(*files):
    """The greatest version of glibc whose names these files ask for."""
    told = subprocess.run(["objdump", "-T", *files], capture_output=True, text=True, check=True).stdout
    return max(re.findall(r"GLIBC_([\d.]+)", told), key=lambda text: [int(part) for part in text.split(".")])


class Version(LibraryCase):
    def test_it_is_the_same_everywhere(self):
        header = (TOP / "include/fbcheck.h").read_text()
        major = VERSION.split(".")[0]
        for name, told, want in [
            ("the program tells it", run("--version").out.decode().splitlines()[0], f"fbcheck {VERSION}"),
            ("the header", re.search(r"#define FBCHECK_VERSION (\d+)u", header)[1], major),
            ("pkg-config", re.search(r"Version: (.*)", (TOP / "c/fbcheck.pc.in").read_text())[1], VERSION),
            ("the first heading of the changes",
             re.search(r"^## (\S+)", (TOP / "CHANGELOG.md").read_text(), re.M)[1], VERSION),
            ("the shared library's name", os.readlink(TOP / "out/libfbcheck.so"), f"libfbcheck.so.{major}"),
        ]:
            self.same(name, told, want)


@unittest.skipIf(PROGRAM != TOP / "crates/fbcheck/out/fbcheck", "another program is tested")
@unittest.skipIf(shutil.which("dpkg-deb") is None, "dpkg-deb isn't there")
class Package(LibraryCase):
    @classmethod
    def setUpClass(cls):
        super().setUpClass()
        cls.dist = FOLDER / "dist"
        cls.told = packed(cls.dist)

    def test_what_is_made(self):
        said, names = made_here()
        told = "".join(re.findall(r"^package: [^:]*: ", self.told[1], re.M))
        self.same("all is made, and nothing else", (self.told[0], told, self.told[2]), (0, said, names))
        sums = dict(reversed(line.split()) for line in (self.dist / "SHA256SUMS").read_text().splitlines())
        real = {name: hashlib.sha256((self.dist / name).read_bytes()).hexdigest() for name in os.listdir(self.dist)}
        self.same("the sums are theirs", sums, {name: real[name] for name in {*real} - {"SHA256SUMS"}})
        again = FOLDER / "again"
        self.same("made once more", packed(again), self.told)
        self.same("it is the same bytes", (again / "SHA256SUMS").read_text(), (self.dist / "SHA256SUMS").read_text())
        want = sorted({*DEBS[:-1], TARBALL, BILL, "SHA256SUMS"})
        told = ("package: python3-fbcheck isn't made: no headers of Python 3.11 or later\n"
                "package: the packages of languages aren't made: no Python 3.11 or later\n")
        for python in ("", "/bin/false"):
            self.same(f"without a Python, {python!r}", packed(FOLDER / "without", PYTHON=python), (0, told, want))
        status, out, err = ran(TOP / "scripts/package", "--help")
        self.same("a word with dashes is refused", (status, out, err), (2, "", "usage: scripts/package [FOLDER]\n"))

    def test_the_tarball(self):
        top = FOLDER / "prefix"
        top.mkdir()
        page = (TOP / "README.md").read_text()
        words = re.search(r"tar xzf dist/(\S+) -C PREFIX (--\S+)`", page)
        self.same("it has the name that the README tells", words[1], TARBALL)
        subprocess.run(["tar", "xzf", self.dist / TARBALL, "-C", top, words[2]], check=True)
        self.used(top / "bin/fbcheck", top / "include", top / "lib", top / "lib/pkgconfig")
        self.same("a prefix gets its own folders alone", sorted(os.listdir(top)), ["bin", "include", "lib", "share"])
        self.the_pages(top, "README.md", "CHANGELOG.md")

    def test_the_debian_packages(self):
        root = FOLDER / "root"
        for deb in DEBS:
            subprocess.run(["dpkg-deb", "--extract", self.dist / deb, root], check=True)
        self.used(root / "usr/bin/fbcheck", root / "usr/include", root / LIBRARIES, None)
        page = (root / LIBRARIES / "pkgconfig/fbcheck.pc").read_text()
        self.same("pkg-config is told where they are", page.splitlines()[:2],
                  [f"libdir=/{LIBRARIES}", "includedir=/usr/include"])
        page = (root / LIBRARIES / "cmake/fbcheck/fbcheck-config.cmake").read_text()
        self.same("and so is CMake", re.findall(r'^ +set\(fbcheck_(\S+) "(.*)"\)', page, re.M),
                  [("libdir", f"/{LIBRARIES}"), ("includedir", "/usr/include")])
        self.holds("man finds the page", (root / "usr/share/man/man1/fbcheck.1.gz").exists())
        self.the_pages(root / "usr", "README.md", "changelog.gz")
        for deb, files in [(DEBS[0], [root / "usr/bin/fbcheck"]), (DEBS[2], [root / LIBRARIES / "libfbcheck.so.1"])]:
            needs = ran("dpkg-deb", "--field", self.dist / deb, "Depends")[1].strip()
            self.same(f"{deb} asks for the glibc that it needs", needs, f"libc6 (>= {newest_glibc(*files)})")
        needs = ran("dpkg-deb", "--field", self.dist / DEBS[1], "Depends")[1].strip()
        self.same("the headers are for their own library", needs, f"libfbcheck1 (= {VERSION})")
        extension = root / PACKAGES / "fbcheck/_fbcheck.abi3.so"
        needs = ran("dpkg-deb", "--field", self.dist / DEBS[3], "Depends")[1].strip()
        self.same("and the package for Python asks for Python and the library", needs,
                  f"python3 (>= 3.11), libfbcheck1 (>= {VERSION}), libc6 (>= {newest_glibc(extension)})")
        self.holds("which it takes when it runs", "libfbcheck.so.1" in ran("objdump", "-p", extension)[1])
        self.python_uses(root)

    def test_what_they_need(self):
        program, library = PROGRAM, TOP / "out/libfbcheck.so.1"
        page = (TOP / "README.md").read_text()
        self.holds("the README tells the program's glibc", f"glibc {newest_glibc(program)}" in page)
        self.holds("the library needs no newer one", newest_glibc(program, library) == newest_glibc(program))
        code = subprocess.run(["objdump", "-d", "--no-show-raw-insn", program, library], capture_output=True, text=True,
                              check=True).stdout
        newer = r"v[a-z0-9]+|andn|bextr|bls[a-z]+|lzcnt|mulx|pdep|pext|[rs][ah][lr]x|rorx"
        later = re.findall(rf"^ +[0-9a-f]+:\t({newer})\b", code, re.M)
        self.same("no instruction is newer than those that the README tells", sorted(set(later)), [])
        self.holds("and it tells these", "x86-64-v2" in page)

    def test_what_lintian_says(self):
        if shutil.which("lintian") is None:
            self.skipTest("lintian isn't there")
        status, out, err = ran("lintian", "--fail-on", "error", *(self.dist / deb for deb in DEBS))
        self.same("no errors", (status, [line for line in out.splitlines() if line.startswith("E: ")]), (0, []))

    def test_dpkg_installs_them(self):
        if shutil.which("dpkg") is None or os.geteuid() != 0:
            self.skipTest("dpkg isn't there, or this isn't root")
        root = FOLDER / "fresh"
        for place in ("var/lib/dpkg/info", "var/lib/dpkg/updates", "var/lib/dpkg/triggers"):
            (root / place).mkdir(parents=True)
        (root / "var/lib/dpkg/status").touch()
        status, out, err = ran("dpkg", f"--root={root}", "--force-depends", "--force-script-chrootless", "--install",
                               *(self.dist / deb for deb in DEBS))
        self.same("dpkg takes them", status, 0)
        listed = ran("dpkg-query", f"--admindir={root}/var/lib/dpkg", "-W", "-f", "${Package} ${Version}\n")[1]
        self.same("and knows them", sorted(listed.splitlines()),
                  sorted(f"{deb.split('_')[0]} {VERSION}" for deb in DEBS))
        self.used(root / "usr/bin/fbcheck", root / "usr/include", root / LIBRARIES, None)
        self.python_uses(root)
        status, out, err = ran("dpkg", f"--root={root}", "--force-depends", "--force-script-chrootless", "--remove",
                               "python3-fbcheck")
        self.same("and takes them away", (status, (root / PACKAGES).exists()), (0, False))

    def the_pages(self, prefix, *names):
        """The pages are where the manual page says, and link to one another."""
        pages = prefix / "share/doc/fbcheck"
        place = re.search(r"^\.I /usr/(share/\S+)$", (TOP / "docs/fbcheck.1").read_text(), re.M)[1]
        self.same("the reference is where man says", (prefix / place).read_text(),
                  (TOP / "docs/REFERENCE.md").read_text())
        self.same("their links lead somewhere", dead_links(pages), [])
        self.same("beside it are", [name for name in names if not (pages / name).exists()], [])

    def python_uses(self, root):
        """The package checks a stream by the system's Python, and by that of the tests."""
        lines = run("--schema", GOOD[1], "--names", "--path", "to.name", given=STREAM).out.decode().splitlines()
        want = [line.partition(" ")[2].replace('"', "'") for line in lines]
        paths = {"PYTHONPATH": str(root / PACKAGES), "LD_LIBRARY_PATH": str(root / LIBRARIES), "PATH": "/usr/bin:/bin"}
        for python in sorted({"/usr/bin/python3", sys.executable}):
            if subprocess.run([python, "-c", "import sys; sys.exit(sys.version_info < (3, 11))"]).returncode:
                continue
            told = subprocess.run([python, "-B", "-c", IN_PYTHON, GOOD[1]], input=STREAM, capture_output=True,
                                  env=paths, timeout=60)
            *verdicts, last = told.stdout.decode().splitlines() or [""]
            self.same(f"{python} is told what the program tells", (told.stderr, verdicts), (b"", want))
            self.same("by this package", last, f"{VERSION} {root / PACKAGES / 'fbcheck/__init__.py'}")

    def used(self, program, headers, libraries, pages):
        """The program checks a stream, and a program in C is built and checks a buffer."""
        told = subprocess.run([program, *GOOD], input=STREAM, capture_output=True, timeout=60)
        want = run(*GOOD, given=STREAM)
        self.same(f"{program} runs", (told.returncode, told.stdout), (want.status, want.out))
        words = [f"-I{headers}", f"-L{libraries}", "-lfbcheck"]
        if pages and there("pkg-config"):
            words = ran("pkg-config", "--cflags", "--libs", "fbcheck", PKG_CONFIG_PATH=pages)[1].split()
        made = FOLDER / "packaged"
        told = ran("cc", TOP / "examples/c/check.c", *words, f"-Wl,-rpath,{libraries}", "-o", made)
        self.same("a program is built by the package", told, (0, "", ""))
        status, out, _ = ran(made, TOP / "examples/deliveries.bfbs", TOP / "README.md")
        self.holds("and runs", status == 1 and out.startswith("bad V2 "), (status, out))
