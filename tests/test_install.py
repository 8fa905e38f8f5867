"""What ./install puts in place: the program, its manual page and its completions, which all know the same options, the
pages, the library for C, and the package for Python."""

import os
import re
import shutil
import subprocess
import unittest

from tests.support.library import LibraryCase
from tests.support.program import PROGRAM, TOP, folder_of, run
from tests.support.tools import there

FOLDER = folder_of(__name__)
PAGES = ("README.md", "CHANGELOG.md", "CONTRIBUTING.md", "docs/*.md", "bindings/*/README.md", "bindings/node/index.d.ts",
         "bench/README.md", "bench/compare.svg", "crates/example_name_reader/src/lib.rt", "examples/deliveries.*",
         "examples/jq.md", "examples/c/*", "examples/split", "examples/engines/*", "examples/flatgeobuf/*")
PLACES = {
    "bin/fbcheck": 0o755,
    "share/man/man1/fbcheck.1": 0o644,
    "share/bash-completion/completions/fbcheck": 0o644,
    "share/zsh/site-functions/_fbcheck": 0o644,
    **{f"share/doc/fbcheck/{page.relative_to(TOP)}": 0o755 if page.stat().st_mode & 0o100 else 0o644
       for pages in PAGES for page in sorted(TOP.glob(pages))},
    "include/fbcheck.h": 0o644,
    "include/fbcheck.hpp": 0o644,
    "lib/libfbcheck.a": 0o644,
    "lib/libfbcheck.so.1": 0o755,
    "lib/libfbcheck.so": 0o755,
    "lib/pkgconfig/fbcheck.pc": 0o644,
    "lib/cmake/fbcheck/fbcheck-config.cmake": 0o644,
    "lib/cmake/fbcheck/fbcheck-config-version.cmake": 0o644,
}
PACKAGE = ["__init__.py", "_codes.py", "_columns.py", "_fbcheck.pyi", "_formats.py", "_rows.py", "_shapes.py", "_streams.py",
           "py.typed", "_fbcheck.abi3.so"]
PAGE = (TOP / "docs/fbcheck.1").read_text()
VERSION = (TOP / "VERSION").read_text().strip()

# A program that was built elsewhere isn't what ./install takes.
by_the_own_program = unittest.skipIf(PROGRAM != TOP / "crates/fbcheck/out/fbcheck", "another program is tested")


def installed(*words, **environment):
    """How ./install ends, with what it wrote. It finds the program and the library built."""
    ran = subprocess.run([TOP / "install", *words], capture_output=True, text=True, timeout=600, cwd=FOLDER,
                         env={"PATH": os.environ["PATH"], **environment})
    return ran.returncode, ran.stdout.splitlines(), ran.stderr


def packages():
    """Where the package is put below a folder that python3 doesn't look into."""
    version = subprocess.check_output(["python3", "-c", "import sys; print(*sys.version_info[:2], sep='.')"], text=True)
    return f"lib/python{version.strip()}/site-packages"


def options():
    """The long options of the program, as its help has them."""
    return re.findall(r"^ +(?:-[a-zHV], )?(--[a-z0-9-]+)", run("--help").out.decode(), re.M)


def reasons():
    """The reasons with their codes, as the reference has them."""
    page = (TOP / "docs/REFERENCE.md").read_text()
    return re.findall(r"V\d+ [A-Z]\w+", page.split("## Reasons")[1].split("\n## ")[0])


def faults():
    """The texts of errors that the reference has, those of paths each by itself."""
    reference = (TOP / "docs/REFERENCE.md").read_text()
    texts = re.findall(r"^- `([^`]+)`", reference.split("## Errors")[1].split("\n## ")[0], re.M)
    paths = re.findall(r"^- `(P[1-6] [^`]+)`", reference, re.M)
    return [text for text in texts if text != "path: TEXT"] + [f"path: {text}" for text in paths]


def codes():
    """The codes of what is no legal schema, as the reference has them."""
    demands = (TOP / "docs/REFERENCE.md").read_text().split("## What a legal schema is")[1].split("\n## ")[0]
    return re.findall(r"^- `(C\d+ \w+)`", demands, re.M)


def plain(page):
    """A manual page without its marks."""
    return re.sub(r"\\f[BIPR]", "", page.replace(r"\-", "-"))


def dead_links(folder):
    """The links between these pages that lead nowhere."""
    links = [(page, link) for page in folder.rglob("*.md")
             for link in re.findall(r"\]\(((?!http)[^)#]+)", page.read_text())]
    return [(page.name, link) for page, link in links if not (page.parent / link).exists()]


def completed(folder, *words):
    """What bash offers for the last of these words."""
    script = '. "$1"; shift; COMP_WORDS=("$@"); COMP_CWORD=$(($# - 1)); _fbcheck; printf "%s\\n" "${COMPREPLY[@]}"'
    ran = subprocess.run(["bash", "-c", script, "bash", TOP / "completions/fbcheck.bash", "fbcheck", *words],
                         capture_output=True, text=True, cwd=folder, timeout=60)
    return sorted(ran.stdout.split())


class Install(LibraryCase):
    @by_the_own_program
    def test_what_is_put(self):
        for name, environment, top in [
            ("PREFIX", {"PREFIX": f"{FOLDER}/local"}, FOLDER / "local"),
            ("DESTDIR", {"DESTDIR": f"{FOLDER}/pkg", "PREFIX": "/opt/it"}, FOLDER / "pkg/opt/it"),
            ("a PREFIX below this folder", {"PREFIX": "here"}, FOLDER / "here"),
            ("neither PREFIX", {"DESTDIR": f"{FOLDER}/own", "PATH": self.without_python()}, FOLDER / "own/usr/local"),
            ("no Python", {"DESTDIR": f"{FOLDER}/no-package", "PYTHON": ""}, FOLDER / "no-package/usr/local"),
        ]:
            files = [*(f"fbcheck/{file}" for file in PACKAGE), f"fbcheck-{VERSION}.dist-info/METADATA"]
            python = {f"{packages()}/{file}": 0o644 for file in files} if "PREFIX" in environment else {}
            places = {**PLACES, **python}
            status, out, err = installed(**environment)
            self.same(f"{name}: each file is told", (status, out), (0, [f"{top}/{place}" for place in places]))
            folder = FOLDER / environment.get("PREFIX", "")
            want = f"install: python3 finds the package with PYTHONPATH={folder}/{packages()}\n" if python else ""
            if "PATH" in environment:
                want = "install: the package for Python isn't put: no python\n"
            self.same(f"{name}: what is said of Python", err, want)
            found = {place: (top / place).stat().st_mode & 0o777 for place in places}
            self.same(f"{name}: each file is there with its mode", found, places)
        program = FOLDER / "local/bin/fbcheck"
        ran = subprocess.run([program, "--help"], capture_output=True, timeout=60)
        self.same("the program runs where it was put", (ran.returncode, ran.stdout), (0, run("--help").out))
        page = (FOLDER / "here/lib/pkgconfig/fbcheck.pc").read_text()
        self.holds("a file for pkg-config has a whole path", f"libdir={FOLDER}/here/lib\n" in page, page)
        page = (FOLDER / "pkg/opt/it/lib/pkgconfig/fbcheck.pc").read_text()
        self.holds("a package's file for pkg-config knows nothing of DESTDIR", "libdir=/opt/it/lib\n" in page, page)
        pages = FOLDER / "local/share/doc/fbcheck"
        self.same("the pages link to what is there", dead_links(pages), [])
        self.first_example(program, pages)
        self.the_package(FOLDER / "local" / packages())
        self.a_program_in_c(FOLDER / "local")

    def first_example(self, program, pages):
        """The README's first command, for who has no sources: by the program that was put, in the folder of the pages."""
        command, *lines = re.search(r"\./(fbcheck .*\n(?:# .*\n)+)", (pages / "README.md").read_text())[1].splitlines()
        ran = subprocess.run(["sh", "-c", command], cwd=pages, capture_output=True, text=True, timeout=60,
                             env={"PATH": f"{program.parent}:{os.environ['PATH']}"})
        told = (ran.returncode, ran.stdout.splitlines(), ran.stderr)
        self.same("its first example runs among them", told, (1, [line.removeprefix("# ") for line in lines], ""))

    def the_package(self, folder):
        """The package is used where it was put, and its version is known there; an older one isn't any more."""
        code = ("import fbcheck, importlib.metadata; print(fbcheck.Schema('deliveries.bfbs').check(b''))\n"
                "print(*[one.version for one in importlib.metadata.distributions() if one.name == 'fbcheck'])")
        (folder / f"fbcheck-{VERSION}.dist-info").rename(folder / "fbcheck-0.dist-info")
        installed(PREFIX=f"{FOLDER}/local")
        ran = subprocess.run(["python3", "-c", code], capture_output=True, text=True, cwd=TOP / "examples",
                             env={"PATH": os.environ["PATH"], "PYTHONPATH": folder})
        want = f"bad V2 OutOfBuffer at=0 object=1 field=- reads=0 in . [post.Delivery]\n{VERSION}\n"
        self.same("the package is used, and its version is known", (ran.returncode, ran.stdout), (0, want))

    def without_python(self):
        """A PATH with a python3 that builds nothing."""
        folder = FOLDER / "no-python"
        folder.mkdir()
        (folder / "python3").write_text("#!/bin/sh\necho no python >&2\nexit 1\n")
        (folder / "python3").chmod(0o755)
        return f"{folder}:{os.environ['PATH']}"

    def a_program_in_c(self, top):
        """The example in C is built by what was put there."""
        if not shutil.which("pkg-config"):
            self.skipTest("pkg-config isn't there")
        paths = {"PATH": os.environ["PATH"], "PKG_CONFIG_PATH": f"{top}/lib/pkgconfig"}
        told = subprocess.run(["pkg-config", "--cflags", "--libs", "fbcheck"], capture_output=True, text=True,
                              env=paths)
        self.same("pkg-config knows it", (told.returncode, told.stdout.split()),
                  (0, [f"-I{top}/include", f"-L{top}/lib", "-lfbcheck"]))
        made = FOLDER / "check"
        ran = subprocess.run(["cc", TOP / "examples/c/check.c", *told.stdout.split(), "-o", made], capture_output=True)
        self.same("a program is built by it", (ran.returncode, ran.stderr), (0, b""))
        ran = subprocess.run([made, TOP / "examples/deliveries.bfbs", TOP / "README.md"], capture_output=True,
                             env={"LD_LIBRARY_PATH": f"{top}/lib"})
        self.holds("and runs", ran.returncode == 1 and ran.stdout.startswith(b"bad V2 "), ran)

    def test_what_is_refused(self):
        status, out, err = installed("here")
        self.same("a word is refused, and nothing is put", (status, out), (2, []))
        self.holds("by the usage", err.startswith("usage: "), err)

    @by_the_own_program
    def test_a_folder_that_can_not_be_made(self):
        status, out, err = installed(PREFIX="/dev/null/x")
        self.holds("is a fault", status != 0 and not out and err, (status, out, err))

    def test_the_page(self):
        told = PAGE.replace(r"\-", "-").split(".SH OPTIONS")[1].split(".SH LINES")[0]
        known = re.findall(r"^\.TP\n\.B[IR]? (?:-[a-zHV] \", \" )?(--[a-z0-9-]+)", told, re.M)
        self.same("the page has each option in the order of help", known, options())
        page = plain(PAGE)
        for reason in reasons():
            self.holds(f"the page has {reason}", f".B {reason}\n" in page)
        told = re.findall(r"^\.TP\n(?:\.B )?(.+)$", page.split(".SH DIAGNOSTICS")[1].split("\n.SH ")[0], re.M)
        self.same("the page has each fault and no other", sorted(told), sorted(faults()))
        for code in codes():
            self.holds(f"the page has {code}", f".B {code}\n" in page)
        self.same("the page has each exit status", re.findall(r"^\.B (\d)$", page, re.M), ["0", "1", "2", "3"])
        if there("groff"):
            ran = subprocess.run(["groff", "-man", "-Tutf8", "-ww", "-z", TOP / "docs/fbcheck.1"], capture_output=True)
            self.same("groff has nothing to say of the page", (ran.returncode, ran.stderr), (0, b""))

    def test_completions(self):
        folder = FOLDER / "files"
        (folder / "more").mkdir(parents=True)
        for name in ("a.bfbs", "b.bfbs", "a.fbs"):
            (folder / name).write_bytes(b"")
        self.same("bash offers each option", completed(folder, "-"), sorted(options()))
        self.same("or else the files that there are", completed(folder, ""), ["a.bfbs", "a.fbs", "b.bfbs", "more"])
        self.same("or those that begin so", completed(folder, "--max-r"), ["--max-reads"])
        self.same("for a schema, files of schemas and folders", completed(folder, "--schema", ""),
                  ["a.bfbs", "b.bfbs", "more"])
        files = completed(folder, "--schema", "")
        self.same("also behind an equals sign", completed(folder, "--schema", "="), files)
        self.same("with a name begun", completed(folder, "--schema", "=", ""), files)
        self.same("and behind its letter", completed(folder, "-s", ""), files)
        self.same("and nothing for a number", completed(folder, "--max-depth", ""), [])
        for name, words, gone in [
            ("not what stands there", ["--quiet", "--max-depth", "9", "--json"],
             {"--quiet", "--max-depth", "--json", "--csv"}),
            ("nor behind an equals sign", ["--schema", "=", "a.bfbs"], {"--schema"}),
            ("nor what excludes it", ["--bare", "--ident", "KIND"],
             {"--bare", "--delimited", "--delimited-be", "--ident", "--schema-ident"}),
            ("nor the other way round", ["--delimited", "--schema-ident"],
             {"--bare", "--delimited", "--delimited-be", "--ident", "--schema-ident"}),
            ("a path again, and no filter", ["--path", "id"], {"--filter"}),
            ("or the other way round", ["--filter"], {"--filter", "--path", "--csv"}),
            ("nor what a letter stands for", ["-s", "a.bfbs", "-rpost.Order", "-q", "-j", "-H"],
             {"--schema", "--root", "--quiet", "--json", "--with-filename", "--csv"}),
            ("a path again behind its letter, and no filter", ["-p", "id"], {"--filter"}),
        ]:
            self.same(f"bash offers {name}", completed(folder, *words, "--"), sorted({*options()} - gone))
        (folder / "-x.bin").write_bytes(b"")
        self.same("and files alone behind --", completed(folder, "--bare", "--", "-"), ["-x.bin"])
        zsh = (TOP / "completions/_fbcheck").read_text()
        self.same("zsh knows each option", re.findall(r"(--[a-z0-9-]+)=?(?:\[|\})", zsh), options())
        valued = re.findall(r"^ +(?:-[a-zHV], )?(--[a-z0-9-]+) <", run("--help").out.decode(), re.M)
        self.same("and which have a value, behind an equals sign too", re.findall(r"(--[a-z0-9-]+)=(?:\[|\})", zsh), valued)
