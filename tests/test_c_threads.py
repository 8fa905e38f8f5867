"""The library for C on many threads, under valgrind, and on a heap that refuses, is counted, or is shut."""

import shutil

from tests.support import schemas
from tests.support.buffers import POST
from tests.support.builder import buffer, messages_of, prefixed
from tests.support.every_kind import FILE, LITTLE, WHOLE, variants
from tests.support.library import SANITIZED, SHARED, STATIC, LibraryCase, ran
from tests.support.preloaded import ALONE, sweep
from tests.support.program import TOP, file_of, run

ORDERS = TOP / "examples/deliveries.bfbs"
ALL = file_of("all.bfbs", FILE)
# The messages of the example, each once more with one byte changed.
STREAM = file_of("shared", b"".join(m + m[:30] + bytes([m[30] ^ 255]) + m[31:] for m in messages_of(POST)))
VALGRIND = ["valgrind", "-q", "--error-exitcode=9"]


class LibraryOnThreads(LibraryCase):
    def test_under_valgrind(self):
        """Where there is one: the messages of the example and some damaged ones, with nothing read that isn't there."""
        if not shutil.which("valgrind"):
            self.skipTest("valgrind isn't there")
        tell = self.compiled("tell_plain", TOP / "tests/c/tell.c", *SHARED)
        data = buffer(LITTLE, b"KIND", prefix=True)[4:]
        given = b"".join(map(prefixed, variants(data, [1])))
        status, out, err = ran(*VALGRIND, "--leak-check=full", tell, "--schema", ALL, given=given, seconds=600)
        self.same("valgrind has nothing to say", (status, err), (0, ""))
        self.same("and the lines are the program's", out, run("--schema", str(ALL), given=given).out.decode())

    def test_memory(self):
        """Loads and frees leave the heap as it was."""
        bare = file_of("bare", buffer(WHOLE))
        loads = self.compiled("loads", TOP / "tests/c/loads.c", *SHARED)
        # Without the blocks that the heap keeps by for the next request, which are counted as in use.
        tunables = {"GLIBC_TUNABLES": "glibc.malloc.tcache_count=0"}
        self.same("100,000 rounds", ran(loads, ALL, bare, 100_000, **tunables), (0, "flat\n", ""))
        sane = self.compiled("loads_sane", TOP / "tests/c/loads.c", *SANITIZED, *STATIC)
        status, _, err = ran(sane, ALL, bare, 2_000)
        self.same("and none under the sanitizers leaks", (status, err), (0, ""))
        heapless = self.compiled("heapless", TOP / "tests/c/heapless.c", *SHARED, "-lpthread")
        few = file_of("few", buffer({6: "Orc", 11: ["one", "two"]}))
        self.same("no other call asks for memory", ran(heapless, ALL, few, "name", "texts[*]"), (0, "", ""))

    def test_refused_memory(self):
        """Each request for memory that is made is refused once, and the call that made it tells so."""
        starved = self.compiled("starved", TOP / "tests/c/starved.c", *SHARED)
        good, bad = (file_of(f"post-{number}", messages_of(POST)[number]) for number in (0, 4))
        statuses = [one.status for one in sweep([starved, ORDERS, good, bad, "items[0]@Parcel.tags[1]",
                                                    "items[*]@Parcel.tags[1]"], b"", ALONE)]
        self.same("by each call in its turn", list(dict.fromkeys(statuses)), [11, 12, 13])
        self.same("and by none out of it", statuses, sorted(statuses))

    def test_threads(self):
        """Eight threads on one schema are told what one is, 10,000,000 times."""
        made = self.compiled("threads", TOP / "tests/c/threads.c", "-O2", *STATIC, "-lpthread")
        self.same("each time", self.by_threads(made, rounds=52_084), (0, "10000128\n", ""))
        self.same("by a plan too", self.by_threads(made, rounds=5_208, demands=[9]), (0, "999936\n", ""))

    def test_races(self):
        """Neither helgrind, which sees each access of the library, nor the thread sanitizer has anything to say."""
        tsan = self.compiled("threads_tsan", TOP / "tests/c/threads.c", "-g", "-fsanitize=thread", *STATIC, "-lpthread")
        for demands in [], [9]:
            told = self.by_threads(tsan, rounds=500, demands=demands)
            self.same(f"the thread sanitizer, {demands}", told, (0, "96000\n", ""))
        if not shutil.which("valgrind"):
            self.skipTest("valgrind isn't there")
        made = self.compiled("threads_plain", TOP / "tests/c/threads.c", "-g", *SHARED, "-lpthread")
        self.same("helgrind", self.by_threads(*VALGRIND, "--tool=helgrind", made, rounds=100), (0, "19200\n", ""))

    def by_threads(self, *words, rounds, demands=()):
        """How eight threads end that check good and bad messages so often, with these demands."""
        return ran(*words, ORDERS, STREAM, "to.name", 8, rounds, *demands, seconds=900)
