"""The Makefile: each of its targets calls the scripts that are there for it, and has its line of help."""

import re
import shutil
import unittest

from tests.support.cases import Case
from tests.support.clone import TOP
from tests.support.scripts import Scripts

SCRIPTS = ["scripts/build", "scripts/build_c", "scripts/package", "scripts/reproduce", "test", "install",
           "bench/hostile", "bench/compare"]


@unittest.skipIf(shutil.which("make") is None, "make isn't there")
class Make(Case):
    def test_each_target(self):
        folder = make("make")
        for script in SCRIPTS:
            folder.write(script, f'#!/bin/sh\necho {script} "$@" "${{PREFIX-}}" "${{DESTDIR-}}"\n')
        made = [folder.write(f"{place}/file", "") for place in ("out", "dist", "bench/out", "crates/a/out")]
        kept = folder.write("crates/a/src/lib.rt", "")
        for words, told in [
            ([], ["scripts/build fbcheck  ", "scripts/build_c  "]),
            (["-j2"], ["scripts/build fbcheck  ", "scripts/build_c  "]),
            (["build"], ["scripts/build fbcheck  "]),
            (["library"], ["scripts/build_c  "]),
            (["test"], ["test  "]),
            (["check"], ["test  "]),
            (["install", "PREFIX=/a", "DESTDIR=b"], ["install /a b"]),
            (["package"], ["scripts/package  "]),
            (["reproduce"], ["scripts/reproduce  "]),
            (["reproduce", "FILE=a file"], ["scripts/reproduce a file  "]),
            (["bench"], ["bench/hostile  ", "bench/compare  "]),
            (["clean"], []),
        ]:
            ran = folder.call("bin/here", *words)
            self.same(f"make {words}", (ran.status, ran.out.decode().splitlines()), (0, told))
        self.same("clean removes what was built", [path.exists() for path in [*made, kept]], [False] * 4 + [True])

    def test_help(self):
        ran = make("help").call("bin/here", "help")
        page = (TOP / "Makefile").read_text()
        targets = re.search(r"(?m)^\.PHONY: (.*)$", page)[1].split()
        told = [re.fullmatch(r"make (\w*) +\w.*", line) for line in ran.out.decode().splitlines()]
        self.same("a line of each target, that of all first, where make alone calls it",
                  [line and (line[1] or "all") for line in told], [name for name in targets if name != "check"])
        there = " ".join(re.findall(r"(?m)^([\w ]+):", page)).split()
        self.same("and all are there", there, targets)


def make(name):
    """The Makefile in a folder of its own, where bin/here calls make."""
    folder = Scripts(name, ["Makefile"], ["make", "sh", "rm", "sed"])
    folder.write("bin/here", '#!/bin/sh\ncd "${0%/*}/.." && exec make --silent "$@"\n')
    return folder
