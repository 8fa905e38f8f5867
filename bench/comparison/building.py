"""What is compared: the corpora, and the programs that are built for them. All of it goes to bench/out/compare."""

import concurrent.futures
import dataclasses
import os
import pathlib
import shutil
import subprocess

HERE = pathlib.Path(__file__).resolve().parent
TOP = HERE.parent.parent
MADE = HERE.parent / "out" / "compare"
HEADER = pathlib.Path("/usr/include/flatbuffers/reflection.h")
COMPILE = ["g++", "-std=c++17", "-O3", "-DNDEBUG", "-Wall", "-Wextra"]
SOURCE = os.environ.get("FLATBUFFERS_SOURCE")
# The verifier that goes by a binary schema isn't in the headers: it is linked, or compiled where its source is there.
HOW = "_source" if SOURCE else ""
REFLECTION = f"by_reflection{HOW}"
LINKED = [f"{SOURCE}/src/{name}.cpp" for name in ("reflection", "util")] if SOURCE else ["-l:libflatbuffers.a"]


class Failed(Exception):
    """Why a comparison can't go on, as it is told."""


@dataclasses.dataclass(frozen=True)
class Size:
    """So many messages, each with so many elements or levels, where its kind has them."""

    messages: int
    parts: int = 1


@dataclasses.dataclass(frozen=True)
class Corpus:
    """A kind of message, in three sizes: to be timed, to have its instructions counted, and to be damaged."""

    name: str
    root: str
    shape: str
    unit: str
    timed: Size
    counted: Size
    damaged: Size

    @property
    def schema(self):
        return MADE / f"{self.name}.bfbs"

    @property
    def cached(self):
        """So many as stay in the cache of a core, to be timed in process: a fifth of those that are counted."""
        messages, parts = self.counted.messages, self.counted.parts
        return Size(messages // 5, parts) if messages > 1 else Size(1, parts // 5)

    def units(self, size):
        """What instructions are told by: messages, or the elements of long ones."""
        return size.messages * (1 if self.unit == "message" else size.parts)


# The streams of whole runs. An item more would be one table more than the limit of a million allows.
STREAMS = [
    Corpus("monsters", "Monster", "nested tables of all kinds", "message", Size(50000), Size(2000), Size(1200)),
    Corpus("movies", "Movie", "vectors of unions", "message", Size(300000), Size(12000), Size(1200)),
    Corpus("wide", "Reading", "flat tables", "message", Size(1000000), Size(40000), Size(1200)),
    Corpus("deep", "Folder", "60 tables in one another", "message", Size(30000, 60), Size(1200, 60), Size(1200, 6)),
    Corpus("items", "Store", "a long vector of tables", "table", Size(3, 999999), Size(1, 120000), Size(1200, 8)),
    Corpus("names", "Directory", "a long vector of strings", "string", Size(4, 10**6), Size(1, 160000), Size(1200, 8)),
]
# What is checked by calls alone: messages as servers get them, of 200 to 400 bytes.
ORDERS = Corpus("orders", "Order", "small messages", "message", Size(300000), Size(12000), Size(1200))
CORPORA = [*STREAMS, ORDERS]


def missing():
    """What of Debian's packages isn't there."""
    needed = [
        (shutil.which("flatc"), "flatc (Debian's package flatbuffers-compiler)"),
        (HEADER.is_file(), f"{HEADER} (Debian's package libflatbuffers-dev)"),
        (shutil.which("g++"), "g++"),
    ]
    return [text for there, text in needed if not there]


def is_fresh(made, sources):
    """Whether a file is there, and no older than what it is made of."""
    return made.is_file() and made.stat().st_mtime >= max(source.stat().st_mtime for source in sources)


def run(*words):
    """Runs a command that makes something; what it says is told only where it fails."""
    ran = subprocess.run([str(word) for word in words], capture_output=True, text=True)
    if ran.returncode != 0:
        raise Failed(f"{words[0]} failed:\n{ran.stdout}{ran.stderr}")


def fbcheck():
    """The repository's program, built where it is stale; or the one that FBCHECK_PROGRAM names."""
    named = os.environ.get("FBCHECK_PROGRAM")
    if named:
        return pathlib.Path(named).resolve()
    ran = subprocess.run([TOP / "scripts/build", "fbcheck"], stdout=subprocess.PIPE, text=True)
    if ran.returncode != 0:
        raise Failed("scripts/build fbcheck fails")
    return pathlib.Path(ran.stdout.strip())


def generate(corpus):
    """The schema file and the header of a corpus, by flatc."""
    source = HERE / f"{corpus.name}.fbs"
    header = MADE / f"{corpus.name}_generated.h"
    if not is_fresh(corpus.schema, [source]) or not is_fresh(header, [source]):
        run("flatc", "--cpp", "-o", MADE, source)
        run("flatc", "--binary", "--schema", "-o", MADE, source)


def made_for(corpus):
    """The words by which a source is compiled for one corpus."""
    return [f'-DGENERATED="{corpus.name}_generated.h"', f"-DROOT=compare::{corpus.root}"]


def compile_program(name, source, *words, library=()):
    """A program of one source, which may stand on the headers of all schemas, and on a library."""
    made = MADE / name
    headers = [MADE / f"{corpus.name}_generated.h" for corpus in CORPORA]
    if not is_fresh(made, [HERE / source, HERE / "stream.h", HEADER, *headers, *library]):
        run(*COMPILE, f"-I{MADE}", f"-I{HERE}", HERE / source, "-o", made, *words)


def compile_programs(wanted, library=()):
    """Such programs, each with the words for it, side by side."""
    with concurrent.futures.ThreadPoolExecutor(os.cpu_count()) as threads:
        list(threads.map(lambda words: compile_program(*words, library=library), wanted))


def build():
    """All that a comparison stands on, but for the messages and fbcheck."""
    MADE.mkdir(parents=True, exist_ok=True)
    for corpus in CORPORA:
        generate(corpus)
    wanted = [("make_messages", "make_messages.cpp"), (REFLECTION, "by_reflection.cpp", *LINKED)]
    for corpus in CORPORA:
        wanted.append((f"by_generated_{corpus.name}", "by_generated.cpp", *made_for(corpus)))
    compile_programs(wanted)


def in_process(corpus):
    """The program in which all verifiers check messages of this corpus."""
    return MADE / f"in_process_{corpus.name}{HOW}"


def build_in_process():
    """These programs, and the library for C where it is stale."""
    run(TOP / "scripts/build_c")
    archive, header = TOP / "out/libfbcheck.a", TOP / "include/fbcheck.h"
    words = [f"-I{header.parent}", archive, *LINKED, "-lpthread"]
    wanted = [(in_process(corpus), "in_process.cpp", *made_for(corpus), *words) for corpus in CORPORA]
    compile_programs(wanted, [archive, header])


def messages(corpus, size):
    """The file with so many messages of a corpus."""
    made = MADE / f"{corpus.name}-{size.messages}-{size.parts}.bin"
    maker = MADE / "make_messages"
    if not is_fresh(made, [maker]):
        part = made.with_suffix(".part")
        with open(part, "wb") as out:
            words = [maker, corpus.name, str(size.messages), str(size.parts)]
            if subprocess.run(words, stdout=out).returncode != 0:
                raise Failed(f"the messages of {corpus.name} can't be made")
        part.rename(made)
    return made


def commands(corpus, program):
    """How each program is called on a stream of this corpus, by its name."""
    return {
        "fbcheck": [program, "--schema", corpus.schema],
        "reflection": [MADE / REFLECTION, corpus.schema],
        "generated": [MADE / f"by_generated_{corpus.name}"],
    }
