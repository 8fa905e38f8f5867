"""The commands of docs/SCALE.md, each in a folder of its own: together they tell of a stream what one process tells.

Each is run as it stands in the document. For ssh there is a stand-in, which gives the words to a shell as ssh does.
"""

import os
import re
import shutil
import subprocess
import sys

from tests.support.buffers import POST
from tests.support.cases import Case
from tests.support.program import PROGRAM, TOP, folder_of, run

FOLDER = folder_of(__name__)
SECONDS = 300  # a recipe starts some sixty processes, and others may keep the machine busy
PAGE = (TOP / "docs/SCALE.md").read_text()
SCHEMA = (TOP / "examples/deliveries.bfbs").read_bytes()
GOOD = POST[:840]  # the first four messages

# Stands for ssh: leaves the host out, and has a shell run the other words in the folder that stands for the host's.
SSH = """#!/bin/sh
echo "$1" >> "$HOSTS"
shift
exec sh -c "$*"
"""


def blocks(section):
    """The commands of a section, as the document has them."""
    return re.findall(r"```sh\n(.*?)```", PAGE.split(f"\n## {section}\n")[1].split("\n## ")[0], re.S)


CUT, = blocks("Cutting a stream")
NUMBERS, STATUS = blocks("Numbers and status of the whole")
RECIPES = {
    "xargs": (blocks("On one machine")[0], ["xargs"]),
    "no files": (blocks("On one machine")[1], ["xargs", "tail", "head"]),
    "pipes": (blocks("On one machine")[2], ["mkfifo"]),
    "ssh": (blocks("Over ssh")[0], []),
}


def shell(commands, folder, **more):
    """What the shell writes that runs these commands in a folder: its status, output and what it tells."""
    environment = {**os.environ, "PATH": f"{folder}/bin:{os.environ['PATH']}", "HOSTS": f"{folder}/hosts", **more}
    ran = subprocess.run(["sh", "-c", commands], cwd=folder, capture_output=True, text=True, timeout=SECONDS,
                         env=environment)
    return ran.returncode, ran.stdout, ran.stderr


def folder_with(name, stream):
    """A folder with what the document's commands are for."""
    folder = FOLDER / name
    (folder / "bin").mkdir(parents=True)
    (folder / "bin/fbcheck").symlink_to(PROGRAM)
    (folder / "fbcheck").symlink_to(PROGRAM)
    (folder / "examples").symlink_to(TOP / "examples")
    (folder / "bin/ssh").write_text(SSH)
    (folder / "bin/ssh").chmod(0o755)
    (folder / "my.bfbs").write_bytes(SCHEMA)
    (folder / "stream.bin").write_bytes(stream)
    return folder


def streams():
    """Streams by name: good and bad messages, four good ones, and one that is cut."""
    yield "many", POST * 300
    yield "four", GOOD
    yield "cut", POST * 20 + POST[:700]


class Scale(Case):
    def test_each_recipe(self):
        for recipe, (commands, tools) in RECIPES.items():
            lacking = [tool for tool in tools if not shutil.which(tool)]
            if lacking:
                with self.subTest(f"by {recipe}"):
                    self.skipTest(f"{', '.join(lacking)} isn't there")
                continue
            for stream_name, stream in streams():
                name = f"{stream_name} by {recipe}"
                folder = folder_with(name, stream)
                whole = run("--schema", folder / "my.bfbs", given=stream)
                _, out, err = shell(commands, folder)
                self.same(f"{name}: what is told", (out, err), ("", whole.err.decode().replace("fbcheck:", "split:")))
                shell(NUMBERS, folder)
                self.holds(f"{name}: the lines", (folder / "lines.txt").read_bytes() == whole.out)
                want = 1 if b" bad " in whole.out else 0
                self.same(f"{name}: the status of the parts", shell(STATUS, folder)[1], f"{want}\n")
                if recipe == "ssh":
                    hosts = sorted((folder / "hosts").read_text().split())
                    self.same(f"{name}: the hosts in turn", hosts, ["alpha", "alpha", "beta", "beta"])

    def test_a_second_run(self):
        """Where a stream with bad messages was checked before, a good one has its own status."""
        clear, = re.findall(r"`(rm [^`]*)`", PAGE)
        for recipe, (commands, tools) in RECIPES.items():
            if not all(map(shutil.which, tools)):
                continue  # each_recipe tells it
            folder = folder_with(f"two by {recipe}", POST)
            shell(f"{clear}\n{commands}", folder)
            self.same(f"{recipe}: the status of the first", shell(STATUS, folder)[1], "1\n")
            (folder / "stream.bin").write_bytes(GOOD)
            self.same(f"{recipe}: a second run", shell(f"{clear}\n{commands}", folder)[1:], ("", ""))
            self.same(f"{recipe}: its status", shell(STATUS, folder)[1], "0\n")

    def test_a_part_that_fails(self):
        """A process that ends early is seen in the status, and its part can be checked again."""
        for recipe in ("xargs", "ssh"):
            folder = folder_with(f"a fault by {recipe}", POST * 20)
            fails = '#!/bin/sh\nmkdir once 2> /dev/null && exit 255\nexec real "$@"\n'
            (folder / "bin/real").symlink_to(PROGRAM)
            for place in ("bin/fbcheck", "fbcheck"):
                (folder / place).unlink()
                (folder / place).write_text(fails)
                (folder / place).chmod(0o755)
            shell(RECIPES[recipe][0].replace("-P 4", "-P 1"), folder)
            self.same(f"{recipe}: the status", shell(STATUS, folder)[1], "255\n")
            empty = [path.name for path in (folder / "lines").iterdir() if not path.stat().st_size]
            self.same(f"{recipe}: one part has no lines", len(empty), 1)
            shell(f"fbcheck --schema my.bfbs < parts/{empty[0]} > lines/{empty[0]}; {NUMBERS}", folder)
            whole = run("--schema", folder / "my.bfbs", given=POST * 20)
            self.holds(f"{recipe}: checked again, it is whole", (folder / "lines.txt").read_bytes() == whole.out)

    def test_what_the_page_shows(self):
        folder = folder_with("shown", POST)
        self.same("a cut into four", shell(CUT, folder), (0, "", ""))
        self.same("makes four files", sorted(os.listdir(folder / "parts")), [f"part-{n}" for n in range(1, 5)])
        shown, = re.findall(r"```text\n(.*?)```", PAGE.split("\n## Cutting a stream\n")[1].split("\n## ")[0], re.S)
        self.same("deliveries in two", shell("examples/split 2 < stream.bin", folder), (0, shown, ""))

    def test_measured(self):
        """bench/scale measures, on streams of a megabyte."""
        ran = subprocess.run([sys.executable, TOP / "bench/scale", "--megabytes", "1", "--runs", "1"],
                             capture_output=True, text=True, timeout=SECONDS)
        self.same("it ends well", (ran.returncode, ran.stderr), (0, ""))
        figures = re.findall(r"^  (.{36}) +(\d+) MB/s +(\d+) messages/s$", ran.stdout, re.M)
        self.same("with so many figures", len(figures), 3 * 14)
        for name, program in [("no program", FOLDER / "nothing"), ("one that refuses all", shutil.which("false"))]:
            ran = subprocess.run([sys.executable, TOP / "bench/scale", "--megabytes", "1", "--runs", "1"],
                                 timeout=SECONDS, capture_output=True,
                                 env={**os.environ, "FBCHECK_PROGRAM": str(program)})
            self.holds(f"{name}: a fault, and no figure", ran.returncode != 0 and b"MB/s" not in ran.stdout, ran)
