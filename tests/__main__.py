"""Runs the tests from outside and counts their cases: each subtest, and each test that has none.

  python3 -m tests                     all files side by side, those that need the library for C once scripts/build_c
                                       ends, to which other words are handed on
  python3 -m tests --packaged          the files that need the program alone, side by side
  python3 -m tests tests.test_filter   these files here, one after another

The last line is the count, and the status is 0 where nothing failed. The line before it tells why what was left out, as
for want of a tool.
"""

import concurrent.futures
import os
import re
import subprocess
import sys
import unittest

from tests.support import program
from tests.support.cases import Counts
from tests.support.clone import TOP

LEFT_OUT = "left out: "
PACKAGED = "--packaged"
BUILD_C = "scripts/build_c"


def here(names):
    """Runs these files in this process, and answers what passed, what failed, and why what was left out."""
    suite = unittest.defaultTestLoader.loadTestsFromNames(names)
    result = unittest.TextTestRunner(sys.stdout, verbosity=0, resultclass=Counts).run(suite)
    return result.passed, result.failed + (result.testsRun + len(result.skipped) == 0), result.left_out


def ended(*words):
    """How a process ends, with all that it says."""
    return subprocess.run(words, stdout=subprocess.PIPE, stderr=subprocess.STDOUT, text=True)


def apart(file, *words):
    """Runs a file in a process of its own, and answers what it says, what passed, what failed, and why what was left
    out."""
    ran = ended(sys.executable, "-m", "tests", *words, f"tests.{file.stem}")
    count = re.search(rf"^(?:{LEFT_OUT}(.*)\n)?(\d+) passed, (\d+) failed\n\Z", ran.stdout, re.M)
    if count and (ran.returncode == 0) == (count[3] == "0"):
        return ran.stdout, int(count[2]), int(count[3]), count[1].split("; ") if count[1] else []
    return f"{ran.stdout}its status is {ran.returncode}, and its last line no count that fits it\n", 0, 1, []


def library(words):
    """Makes the library for C, and answers the same of it."""
    ran = ended(TOP / BUILD_C, *words)
    return ran.stdout, 0, int(ran.returncode != 0), []


def files_of_tests():
    """All files, those among them that need the library for C, and those that need the program."""
    files = sorted((TOP / "tests").glob("test_*.py"))
    imports = re.compile(r"(?m)^ *(?:from|import) tests\.support\.(\w+)")
    needed = {file: set(imports.findall(file.read_text())) for file in files}
    return files, *({file for file in files if modules & needed[file]} for modules in ({"library", "python"}, {"program"}))


def told(begun):
    """Shows what each of these parts says, in their order, and answers the sums and reasons."""
    passed, failed, left_out = 0, 0, set()
    for part, future in begun.items():
        said, good, bad, reasons = future.result()
        print(f"== {part if part == BUILD_C else part.relative_to(TOP)}\n{said}", end="", flush=True)
        passed, failed, left_out = passed + good, failed + bad, left_out | {*reasons}
    return passed, failed, sorted(left_out)


def side_by_side(words):
    """Runs all files, one a core at a time, and answers the sums and reasons."""
    files, needing, _ = files_of_tests()
    with concurrent.futures.ThreadPoolExecutor(os.cpu_count()) as pool:
        begun = {BUILD_C: pool.submit(library, words)}
        begun |= {file: pool.submit(apart, file) for file in files if file not in needing}
        begun[BUILD_C].result()
        begun |= {file: pool.submit(apart, file) for file in needing}
        return told({part: begun[part] for part in [BUILD_C, *files]})


def packaged():
    """The same of the files that need the program alone, with the names of those that were left out."""
    files, needing, asking = files_of_tests()
    with concurrent.futures.ThreadPoolExecutor(os.cpu_count()) as pool:
        passed, failed, left_out = told({file: pool.submit(apart, file, PACKAGED)
                                         for file in files if file in asking - needing})
    for why, others in [("need the library for C", needing), ("don't ask the program", {*files} - needing - asking)]:
        if others:
            left_out.append(f"{', '.join(sorted(file.stem for file in others))} {why}")
    return passed, failed, left_out


def main():
    words = [word for word in sys.argv[1:] if word.startswith("-")]
    names = [word for word in sys.argv[1:] if word not in words]
    program.IS_PACKAGED = PACKAGED in words
    if names:
        passed, failed, left_out = here(names)
    else:
        passed, failed, left_out = packaged() if program.IS_PACKAGED else side_by_side(words)
    if left_out:
        print(f"{LEFT_OUT}{'; '.join(left_out)}")
    print(f"{passed} passed, {failed} failed")
    return int(failed != 0)


if __name__ == "__main__":
    sys.exit(main())
