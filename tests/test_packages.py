"""The packages of languages that scripts/package makes: each is installed into an empty environment by its language's
own tool, without a network, and used there on a good message and on a bad one, whose place it tells.
"""

import json
import os
import re
import shutil
import subprocess
import sys
import tarfile
import unittest
import zipfile

from tests.support.buffers import POST
from tests.support.builder import messages_of
from tests.support.library import LibraryCase, ran
from tests.support.program import PROGRAM, TOP, file_of, folder_of
from tests.support.tools import jdk_of_22, node_headers, with_jdk

FOLDER = folder_of(__name__)
VERSION = (TOP / "VERSION").read_text().strip()
ORDERS = TOP / "examples/deliveries.bfbs"
GOOD, BAD = (file_of(name, messages_of(POST)[at]) for name, at in [("good", 0), ("bad", 4)])

# What each program tells of the two messages, one a line.
PLACE = "in items[1]@Note [post.Delivery.items]"
FAULT = f"V10 NoTerminator at=314 object=1 field=6 reads=63 {PLACE}"

PYTHON = """
import importlib.metadata, sys
import fbcheck
schema = fbcheck.Schema(sys.argv[1], prefixed=True)
good, bad = (open(path, "rb").read() for path in sys.argv[2:])
print(schema.read(good, "to.name"))
print(schema.check(bad))
print(fbcheck.__file__, importlib.metadata.version("fbcheck"))
"""

RUST = """
use std::{env, fs};

fn main() -> Result<(), Box<dyn std::error::Error>> {
    let files: Result<Vec<_>, _> = env::args().skip(1).map(fs::read).collect();
    let files = files?;
    let schema = fbcheck::Options::new().prefixed(true).load(&files[0])?;
    let [name] = schema.read(&files[1], &[schema.path("to.name")?])?;
    println!("{name}\\nbad {}", schema.check(&files[2]).unwrap_err());
    Ok(())
}
"""

NODE = """
const fs = require('node:fs');
const { Schema } = require('fbcheck');
const [file, good, bad] = process.argv.slice(2);
const schema = new Schema(file, { prefixed: true });
console.log(schema.read(fs.readFileSync(good), 'to.name')[0].value);
console.log(String(schema.check(fs.readFileSync(bad))));
"""

GO = """
package main

import (
	"fmt"
	"os"

	"fbcheck.dev/fbcheck"
)

func main() {
	var files [3][]byte
	for i := range files {
		files[i], _ = os.ReadFile(os.Args[i+1])
	}
	schema, err := fbcheck.NewSchema(files[0], fbcheck.Options{Prefixed: true})
	if err != nil {
		panic(err)
	}
	path, err := schema.Path("to.name")
	if err != nil {
		panic(err)
	}
	values, err := schema.Read(files[1], path)
	fmt.Println(values[0], err)
	fmt.Println(schema.Check(files[2]))
}
"""

JAVA = """
import fbcheck.*;
import java.nio.file.*;

public class Main {
    public static void main(String[] words) throws Exception {
        try (Schema schema = Schema.load(Path.of(words[0]), Options.DEFAULT.prefixed(true))) {
            System.out.println(schema.read(Files.readAllBytes(Path.of(words[1])), schema.path("to.name"))[0]);
            System.out.println(schema.check(Files.readAllBytes(Path.of(words[2]))));
        }
    }
}
"""

CMAKE = """cmake_minimum_required(VERSION 3.13)
project(service C)
find_package(fbcheck {version} REQUIRED)
add_executable(shared {top}/examples/c/check.c)
target_link_libraries(shared fbcheck::fbcheck)
add_executable(static {top}/examples/c/check.c)
target_link_libraries(static fbcheck::static)
"""

# An environment in which no library is found that this machine may have.
ALONE = {"PKG_CONFIG_PATH": "", "PKG_CONFIG_LIBDIR": "/nowhere", "LD_LIBRARY_PATH": "", "FBCHECK_LIB_DIR": "",
         "PYTHONPATH": "", "PIP_NO_INDEX": "1", "PIP_DISABLE_PIP_VERSION_CHECK": "1", "PIP_CONFIG_FILE": os.devnull}


def alone(*words, folder=FOLDER, seconds=120, **more):
    """How a process ends in such an environment, with all that it says."""
    environment = {name: value for name, value in {**os.environ, **ALONE, **more}.items() if value}
    told = subprocess.run([str(word) for word in words], cwd=folder, env=environment, stdin=subprocess.DEVNULL,
                          stdout=subprocess.PIPE, stderr=subprocess.STDOUT, text=True, timeout=seconds)
    return told.returncode, told.stdout


def newest_glibc(file):
    """The greatest version of glibc whose names a file asks for."""
    told = subprocess.run(["objdump", "-T", file], capture_output=True, text=True, check=True).stdout
    return max(tuple(map(int, found.split("."))) for found in re.findall(r"GLIBC_([\d.]+)", told))


def made(pattern):
    """The package of this name that was made, or none."""
    return next(iter(sorted((FOLDER / "dist").glob(pattern))), None)


def pythons():
    """The interpreters that are there: the one that runs the tests, and the system's."""
    for python in sorted({sys.executable, "/usr/bin/python3"}):
        if shutil.which(python) and ran(python, "-c", "import sys; sys.exit(sys.version_info < (3, 11))")[0] == 0:
            yield python


@unittest.skipIf(PROGRAM != TOP / "crates/fbcheck/out/fbcheck", "another program is tested")
@unittest.skipIf(shutil.which("dpkg-deb") is None, "dpkg-deb isn't there")
class Packages(LibraryCase):
    @classmethod
    def setUpClass(cls):
        super().setUpClass()
        told = ran(TOP / "scripts/package", FOLDER / "dist", seconds=600, **with_jdk())
        if told[0] != 0:
            raise RuntimeError(f"scripts/package has failed:\n{told}")
        cls.told = told[2]
        cls.prefix = cls.unpacked(made("*-x86_64-linux.tar.gz"))

    @staticmethod
    def unpacked(package):
        """The folder that a tarball unpacks to."""
        with tarfile.open(package) as tar:
            tar.extractall(FOLDER / "unpacked")
            return FOLDER / "unpacked" / tar.getnames()[0].partition("/")[0]

    def need(self, package, *tools):
        """The package, or the reason why it's skipped."""
        lacking = [tool for tool in tools if shutil.which(tool) is None]
        if lacking:
            self.skipTest(f"{lacking[0]} isn't there")
        if made(package) is None:
            self.skipTest(f"{package} isn't there: {' '.join(self.told.split())}")
        return made(package)

    def used(self, name, told, last=""):
        """What a program told is what it should, which both messages and then this line."""
        want = "".join(f"{line}\n" for line in ("Ada", f"bad {FAULT}", *filter(None, [last])))
        self.same(f"{name} is used", told, (0, want))

    def environment(self, python, name):
        """An empty environment of Python, and what pip installs into it by."""
        folder = FOLDER / name
        told = alone(python, "-m", "venv", "--without-pip", folder)
        self.same(f"{name}: an environment is made", told[0], 0)
        return folder, [sys.executable, "-m", "pip", "--python", folder / "bin/python", "install", "--quiet"]

    def imported(self, name, folder):
        """The package as it's installed there checks both messages."""
        told = alone(folder / "bin/python", "-I", "-c", PYTHON, ORDERS, GOOD, BAD)
        place = re.search(r"\S+/fbcheck/__init__.py", told[1])
        self.holds(f"{name}: it's the one of the environment", place and str(folder) in place[0], told)
        self.used(name, told, f"{place and place[0]} {VERSION}")

    def test_wheel(self):
        wheel = self.need("*.whl")
        if ran(sys.executable, "-m", "pip", "--version")[0]:
            self.skipTest("pip isn't there")
        for number, python in enumerate(pythons()):
            folder, pip = self.environment(python, f"wheel-{number}")
            self.same(f"{python}: pip installs it", alone(*pip, wheel), (0, ""))
            self.imported(f"the wheel by {python}", folder)
        self.same("and it's the only one", len([*(FOLDER / "dist").glob("*.whl")]), 1)

    def test_what_the_wheel_says(self):
        """Its tag names the glibc that it needs, as it does to auditwheel, and its record is true."""
        wheel = self.need("*.whl", "objdump")
        with zipfile.ZipFile(wheel) as file:
            file.extractall(FOLDER / "wheel")
            lines = file.read(f"fbcheck-{VERSION}.dist-info/RECORD").decode().splitlines()
            names = file.namelist()
            sizes = {line.split(",")[0]: line.split(",")[2] for line in lines[:-1]}
            self.same("its record", sizes, {name: str(file.getinfo(name).file_size) for name in names[:-1]})
        extension = FOLDER / "wheel/fbcheck/_fbcheck.abi3.so"
        major, minor, *_ = newest_glibc(extension)
        self.same("its name", wheel.name, f"fbcheck-{VERSION}-cp311-abi3-manylinux_{major}_{minor}_x86_64.whl")
        needed = re.findall(r"NEEDED +(\S+)", ran("objdump", "-p", extension)[1])
        self.same("it needs glibc alone", {*needed} - {"ld-linux-x86-64.so.2"}, {"libc.so.6"})
        if shutil.which("auditwheel"):
            told = ran("auditwheel", "show", wheel)
            self.holds("auditwheel agrees", told[0] == 0 and f"manylinux_{major}_" in told[1], told)

    def test_sources_for_python(self):
        package = self.need(f"fbcheck-{VERSION}.tar.gz", "pkg-config")
        if ran(sys.executable, "-m", "pip", "--version")[0]:
            self.skipTest("pip isn't there")
        folder, pip = self.environment(sys.executable, "sources")
        status, said = alone(*pip, package)
        self.holds("without the library one is told what to do", status != 0 and "fbcheck: the library for C isn't "
                   "found by pkg-config: install it (libfbcheck-dev), or name the folder of fbcheck.pc in "
                   "PKG_CONFIG_PATH" in said, said)
        told = alone(*pip, package, PKG_CONFIG_PATH=self.prefix / "lib/pkgconfig")
        self.same("pip builds it by the library that pkg-config finds", told, (0, ""))
        self.imported("the package of its sources", folder)

    def test_crate(self):
        crate = self.unpacked(self.need("*.crate", "cargo"))
        folder = FOLDER / "rust"
        (folder / "src").mkdir(parents=True)
        (folder / "src/main.rs").write_text(RUST)
        (folder / "Cargo.toml").write_text('[package]\nname = "page"\nversion = "0.0.0"\nedition = "2021"\n')
        self.same("cargo adds it", alone("cargo", "add", "--quiet", "--offline", "--path", crate, folder=folder)[0], 0)
        told = alone("cargo", "run", "--quiet", "--offline", "--", ORDERS, GOOD, BAD, folder=folder)
        self.used("the crate", told)
        told = ran("ldd", folder / "target/debug/page")[1]
        self.holds("the library is in the program", "fbcheck" not in told, told)

    def page(self, package, language):
        """The first program of its page, what it writes, and the last command there that is typed in a user's folder."""
        text = (package / "README.md").read_text()
        code, want = re.search(rf"```{language}\n(.*?)```.*?```text\n(.*?)```", text, re.S).groups()
        return code, want, re.search(r"cp -r \S+/examples \.", text)[0]

    def test_page_of_crate(self):
        """What stands on its page can be done where it's unpacked, and its documentation is tested in a workspace."""
        crate = self.unpacked(self.need("*.crate", "cargo"))
        code, want, copy = self.page(crate, "rust")
        folder = FOLDER / "rust-page"
        (folder / "src").mkdir(parents=True)
        shutil.copytree(crate, folder / crate.name)
        (folder / "src/main.rs").write_text(code)
        (folder / "Cargo.toml").write_text('[package]\nname = "page"\nversion = "0.0.0"\nedition = "2021"\n')
        words = ["--quiet", "--offline"]
        self.same("cargo adds it", alone("cargo", "add", *words, "--path", crate.name, folder=folder)[0], 0)
        self.same("the examples are copied", alone(*copy.split(), folder=folder), (0, ""))
        self.same("the page's program", alone("cargo", "run", *words, folder=folder), (0, want))
        with open(folder / "Cargo.toml", "a") as file:
            file.write(f'[workspace]\nmembers = ["{crate.name}"]\n')
        told = alone("cargo", "test", *words, "--workspace", folder=folder, seconds=300)
        self.holds("a workspace's tests pass", told[0] == 0 and "2 passed" in told[1], told)

    def test_page_of_module(self):
        module = self.unpacked(self.need("fbcheck-go-*", "go"))
        code, want, copy = self.page(module, "go")
        folder = FOLDER / "go-page"
        folder.mkdir()
        shutil.copytree(module, folder / module.name)
        (folder / "main.go").write_text(code)
        (folder / "go.mod").write_text("module page\n\ngo 1.19\n")
        edit = re.search(r"go mod edit -require.*", (module / "README.md").read_text())[0]
        for words in (edit, copy, "go build -o page ."):
            self.same(words, alone(*words.split(), folder=folder, GOPROXY="off", GOFLAGS="-mod=mod"), (0, ""))
        told = ran("sh", "-c", f"cd {folder} && ./page < examples/deliveries.bin")
        self.same("the page's program", told, (0, want, ""))

    def test_package_for_node(self):
        package = self.need("*.tgz", "node", "npm")
        for name in ("node", "node-built"):
            folder = FOLDER / name
            folder.mkdir()
            (folder / "package.json").write_text('{ "private": true }\n')
            (folder / "main.js").write_text(NODE)
            if name == "node-built":  # as where the addon that it carries doesn't serve
                if not node_headers():
                    continue
                package = self.unpacked(package).rename(FOLDER / "without-addon")
                (package / "fbcheck.node").unlink()
            words = ["--offline", "--no-audit", "--no-fund", "--silent", "--install-links", "--cache", folder / "cache"]
            self.same(f"{name}: npm installs it", alone("npm", "install", *words, package, folder=folder), (0, ""))
            self.used(name, alone("node", "main.js", ORDERS, GOOD, BAD, folder=folder))

    def test_module_for_go(self):
        module = self.unpacked(self.need("fbcheck-go-*", "go"))
        folder = FOLDER / "go"
        folder.mkdir()
        (folder / "main.go").write_text(GO)
        (folder / "go.mod").write_text("module page\n\ngo 1.19\n")
        words = ["-require", "fbcheck.dev/fbcheck@v1.0.0", "-replace", f"fbcheck.dev/fbcheck={module}"]
        self.same("go takes it", alone("go", "mod", "edit", *words, folder=folder), (0, ""))
        offline = {"GOPROXY": "off", "GOFLAGS": "-mod=mod"}
        for step, given in [("mod", ["vendor"]), ("build", ["-mod=vendor", "-o", folder / "page", "."])]:
            self.same(f"go {step}", alone("go", step, *given, folder=folder, **offline), (0, ""))
        status, said = alone(folder / "page", ORDERS, GOOD, BAD)
        self.used("the module for Go", (status, said.replace("Ada <nil>", "Ada")))

    def test_jar(self):
        """With its sources, and the library in it."""
        jdk = jdk_of_22()
        if jdk is None:
            self.skipTest("no JDK of 22 or later is there")
        jar = self.need(f"fbcheck-{VERSION}.jar")
        with zipfile.ZipFile(jar) as file, zipfile.ZipFile(self.need("*-sources.jar")) as sources:
            classes = {name for name in file.namelist() if name.endswith(".class") and "$" not in name}
            self.same("a class of each source", sorted(classes), sorted(
                name.replace(".java", ".class") for name in sources.namelist()))
        source, rest = file_of("Main.java", JAVA.encode()), FOLDER / "temporary"
        rest.mkdir()
        words = ["--enable-native-access=ALL-UNNAMED", f"-Djava.io.tmpdir={rest}", "-XX:TieredStopAtLevel=1"]
        self.used("the jar", alone(jdk / "bin/java", *words, "-cp", jar, source, ORDERS, GOOD, BAD))
        self.same("nothing is left", [*rest.iterdir()], [])

    def test_cmake(self):
        """Ten lines that find the library where the tarball was unpacked, and in the clone."""
        if shutil.which("cmake") is None:
            self.skipTest("cmake isn't there")
        for name, prefix in [("tarball", self.prefix), ("clone", TOP / "out")]:
            folder = FOLDER / f"cmake-{name}"
            folder.mkdir()
            (folder / "CMakeLists.txt").write_text(CMAKE.format(version=VERSION, top=TOP))
            words = ["-S", folder, "-B", folder / "made", f"-DCMAKE_PREFIX_PATH={prefix}"]
            self.same(f"{name}: it's found", alone("cmake", *words)[0], 0)
            told = alone("cmake", "--build", folder / "made")
            self.same(f"{name}: and linked", told[0], 0)
            for program in ("shared", "static"):
                status, said = alone(folder / "made" / program, ORDERS, file_of("bare", GOOD.read_bytes()[4:]))
                self.holds(f"{name}: {program} runs", (status, said.split(" ")[0]) in [(0, "ok"), (1, "bad")], said)
                needs = "libfbcheck.so.1" in ran("objdump", "-p", folder / "made" / program)[1]
                self.same(f"{name}: {program} needs the shared library", needs, program == "shared")
        (folder / "CMakeLists.txt").write_text(CMAKE.format(version=int(VERSION) + 1, top=TOP))
        self.holds("a later version isn't there", alone("cmake", *words)[0] != 0)

    def test_what_is_linked_in(self):
        """The bill of materials has all crates that crates.txt names below the program and the library, and those whose
        functions are in them, and it is the same in each package."""
        bill = (FOLDER / f"dist/fbcheck-{VERSION}.cdx.json").read_bytes()
        told = json.loads(bill)
        self.same("its form", (told["bomFormat"], told["specVersion"]), ("CycloneDX", "1.5"))
        below = {line.split(":")[0].split()[0]: line.split(":")[1].split()
                 for line in (TOP / "crates.txt").read_text().splitlines() if ":" in line and line[0] != "#"}
        parts = {one["ref"]: one["dependsOn"] for one in told["dependencies"]}
        logic = re.search(r"must end in `(logic [^`]+)`", (TOP / "README.md").read_text())[1]
        for name, crate, file in [("program", "fbcheck", PROGRAM), ("library", "fbcheck_c", TOP / "out/libfbcheck.a")]:
            wanted = {crate, "liblibc_c"}
            while more := {one for each in wanted for one in below.get(each, [])} - wanted:
                wanted |= more
            symbols = ran("objdump", "-t", file)[1]
            wanted |= set(re.findall(r"\s\"?([a-z][a-z0-9_]*)::\S+$", symbols, re.M))
            self.same(f"what is in the {name}", parts[name], sorted(wanted))
        known = {one["bom-ref"]: one["version"] for one in told["components"]}
        self.same("each is a component, once", sorted(known), sorted({"library", *parts["program"], *parts["library"]}))
        versions = {name: VERSION if (TOP / "crates" / name).is_dir() or name == "library" else logic for name in known}
        self.same("with its version", known, versions)
        for package, place in [("*.whl", f"fbcheck-{VERSION}.dist-info/sboms/fbcheck.cdx.json"),
                               (f"fbcheck-{VERSION}.jar", "META-INF/fbcheck.cdx.json"), ("*.crate", None),
                               ("*.tgz", None), ("fbcheck-go-*", None)]:
            if made(package) and place:
                with zipfile.ZipFile(made(package)) as file:
                    self.holds(f"{package} has it", file.read(place) == bill)
            elif made(package):
                self.holds(f"{package} has it", (self.unpacked(made(package)) / "fbcheck.cdx.json").read_bytes() == bill)
        for deb in sorted((FOLDER / "dist").glob("*.deb")):
            name = deb.name.partition("_")[0]
            told = ran("sh", "-c", f'dpkg-deb --fsys-tarfile "$0" | tar xO ./usr/share/doc/{name}/fbcheck.cdx.json', deb)
            self.holds(f"{name} has it", told[1].encode() == bill, told)
        self.same("the tarball has it", (self.prefix / "share/doc/fbcheck/fbcheck.cdx.json").read_bytes(), bill)

    def test_pages(self):
        """Each package has its page, whose links lead somewhere."""
        for package in ("*.crate", "*.tgz", "fbcheck-go-*"):
            if made(package) is None:
                continue
            folder = self.unpacked(made(package))
            for page in ("README.md", "docs/REFERENCE.md", "docs/SECURITY.md"):
                links = re.findall(r"\]\(((?!http)[^)#]+)", (folder / page).read_text())
                dead = [link for link in links if not ((folder / page).parent / link).exists()]
                self.same(f"{package}: dead links of {page}", dead, [])

    def test_versions(self):
        """The same in each, with the zeros that a language wants."""
        text = lambda path: (TOP / path).read_text()
        for name, told, want in [
            ("the wheel", re.search(r'^version = "(.*)"', text("bindings/python/pyproject.toml"), re.M)[1], VERSION),
            ("the crate", re.search(r'^version = "(.*)"', text("bindings/rust/Cargo.toml"), re.M)[1], f"{VERSION}.0.0"),
            ("the package for Node", json.loads(text("bindings/node/package.json"))["version"], f"{VERSION}.0.0"),
            ("CMake", re.search(r"PACKAGE_VERSION (\d+)", text("c/fbcheck-config-version.cmake"))[1], VERSION),
        ]:
            self.same(name, told, want)
