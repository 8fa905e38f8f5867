"""The library for C where scripts/build_c puts it, and how programs are made with it.

python3 -m tests runs the files that name this one once the library is there.
"""

import os
import subprocess

from tests.support.cases import Case
from tests.support.clone import TOP, folder_of, loaded
from tests.support.tools import there

OUT = TOP / "out"
STRICT = ["-O1", "-Wall", "-Wextra", "-Wpedantic", "-Werror", "-I", TOP / "include"]
SANITIZED = ["-g", "-fsanitize=address,undefined", "-fno-sanitize-recover=all"]
SHARED = [OUT / "libfbcheck.so", f"-Wl,-rpath,{OUT}"]
STATIC = [OUT / "libfbcheck.a"]


def ran(*words, given=None, seconds=120, **environment):
    """How a process ends, and what it writes."""
    words = [word if isinstance(word, bytes) else str(word) for word in words]
    told = subprocess.run(words, input=given, stdin=None if given is not None else subprocess.DEVNULL,
                          capture_output=True, timeout=seconds, env={**os.environ, **environment})
    return told.returncode, told.stdout.decode(), told.stderr.decode()


def cpp_of(year):
    """How C++ of this year is compiled, or None where there is no compiler for it."""
    return {"compiler": "c++", "standard": f"-std=c++{year}"} if there("c++") else None


def module():
    """The calls of the library that was built."""
    os.environ["FBCHECK_LIBRARY"] = str(OUT / "libfbcheck.so.1")
    return loaded(TOP / "tests/support/calls.py")


class LibraryCase(Case):
    """A test that begins with a library that isn't stale."""

    @classmethod
    def setUpClass(cls):
        subprocess.run([TOP / "scripts/build_c"], check=True)

    def compiled(self, name, source, *words, compiler="cc", standard="-std=gnu99"):
        """The program that a source is compiled to."""
        made = folder_of(self.__module__) / name
        told = ran(compiler, standard, *STRICT, source, "-o", made, *words)
        self.same(f"{name} compiles without a warning", told, (0, "", ""))
        return made
