"""The comparison with C++ (bench/compare): that verdicts agree, and that it tells where they don't; bench/linear, and
bench/jumps. The comparison in process links the library for C.

It is skipped where flatc, g++ or the headers of flatbuffers aren't there. No time is asked here.
"""

import contextlib
import dataclasses
import hashlib
import io
import os
import re
import shutil
import subprocess
import sys
import unittest
import xml.etree.ElementTree

from tests.support.library import LibraryCase
from tests.support.program import PROGRAM, TOP, file_of, loaded, run

COMPARE = TOP / "bench" / "compare"
sys.path.insert(0, str(TOP / "bench" / "comparison"))

import building  # noqa: E402  (the folder is named just above)
import chart  # noqa: E402
import timing  # noqa: E402

LACKING = building.missing()


def compared(program, **environment):
    """The quick comparison by this program."""
    environment = {**os.environ, "FBCHECK_PROGRAM": str(program), **environment}
    return subprocess.run([sys.executable, COMPARE, "--quick"], env=environment, capture_output=True, text=True)


def changed(name, edit):
    """The program, with each of its lines changed by sed."""
    text = f"""#!/bin/sh\n'{PROGRAM}' "$@" | sed '{edit}'\n"""
    made = file_of(name, text.encode())
    made.chmod(0o755)
    return made


@unittest.skipIf(LACKING, f"not there: {', '.join(LACKING)}")
class Bench(LibraryCase):
    @classmethod
    def setUpClass(cls):
        super().setUpClass()
        building.build()
        building.build_in_process()

    def test_verdicts_agree(self):
        ran = compared(PROGRAM)
        told = ran.stdout.splitlines()
        self.same("status and standard error", (ran.returncode, ran.stderr), (0, ""))
        for corpus in building.CORPORA:
            text = f"{corpus.name}, {corpus.shape}: all three say yes to each of {corpus.counted.messages}"
            self.holds(corpus.name, text in told, told)
        self.holds("damaged messages are counted", any(" of 8400 damaged messages" in line for line in told), told)

    def test_differences_are_told(self):
        for name, edit, text in [
            ("a good message is refused", "s/^3 ok.*/3 bad V1/", "monsters: fbcheck says of good message 3: 3 bad V1"),
            ("a line is missing", "$d", "monsters: fbcheck has 1999 lines for 2000 good messages"),
            ("a line has another's number", "s/^7 /8 /", "monsters: fbcheck says of good message 7: 8 ok"),
            ("each damaged message is good", "s/ bad .*/ ok/", "a difference on damaged messages is of no known kind"),
            ("each bad vtable is taken", "s/ bad V8 .*/ ok/", "a difference on damaged messages is of no known kind"),
        ]:
            ran = compared(changed(name, edit))
            self.same(name, ran.returncode, 1)
            self.holds(f"{name}: it is told", text in ran.stderr, ran.stderr)

    def test_what_is_missing_is_named(self):
        ran = compared(PROGRAM, PATH="/nowhere")
        self.same("status", (ran.returncode, ran.stdout), (2, ""))
        for text in ["flatc (Debian's package flatbuffers-compiler)", "g++"]:
            self.holds(text, text in ran.stderr, ran.stderr)

    def test_corpora_are_the_same_each_time(self):
        for corpus in building.CORPORA:
            words = [building.MADE / "make_messages", corpus.name, "20", "5"]
            first, second = (hashlib.sha256(subprocess.check_output(words)).hexdigest() for _ in range(2))
            self.same(corpus.name, first, second)

    def test_costs_are_measured(self):
        few = building.Size(50, 5)
        corpus = dataclasses.replace(building.CORPORA[0], timed=few, counted=few)
        costs = timing.measure(corpus, PROGRAM, 3)
        self.same("of all three", sorted(costs), ["fbcheck", "generated", "reflection"])
        for name, cost in costs.items():
            self.holds(f"{name}: best and median", 0 < cost.best <= cost.median, cost)
            counted = cost.instructions is None if shutil.which("valgrind") is None else 1000 < cost.instructions < 1e6
            self.holds(f"{name}: instructions a message", counted, cost)

    def test_verifiers_are_timed_in_process(self):
        corpus = dataclasses.replace(building.CORPORA[0], counted=building.Size(50))
        stream = building.messages(corpus, corpus.cached)
        tables, taken = timing.measure_in_process(corpus, 2)
        lines = run("--schema", corpus.schema, given=stream.read_bytes()).out.decode().splitlines()
        want = sum(int(line.partition("tables=")[2].split()[0]) for line in lines)
        self.same("the tables that the program tells of ten messages", (tables, len(lines)), (want, 10))
        self.same("all three, on one thread and on more", sorted(taken),
                  sorted((name, threads) for name in ("fbcheck", "generated", "reflection") for threads in (1, 2, 4)))
        self.holds("seconds of the best round", all(0 < seconds < 1 for seconds in taken.values()), taken)
        last_is_bad = building.MADE / "last_is_bad.bin"
        last_is_bad.write_bytes(stream.read_bytes() + bytes(4))
        for pair in taken:
            with self.subTest(f"{pair} is timed on good messages alone"), self.assertRaises(building.Failed):
                timing.time_in_process(corpus, last_is_bad, 1, [pair])
        compare = loaded(TOP / "bench/compare")
        told = io.StringIO()
        with contextlib.redirect_stdout(told):
            compare.tell_in_process([(corpus, (20, dict.fromkeys(taken, 1e-6)))])
            compare.tell_threads([(corpus, (20, {(name, threads): 1e-6 * threads for name, threads in taken}))])
        rows = [line.split() for line in told.getvalue().splitlines() if line.startswith("monsters")]
        self.same("a microsecond for ten messages of two tables",
                  rows[0], ["monsters", "message", *["100.0"] * 3, "1.00", "1.00", "50.0", "a", "table"])
        self.same("and as many on more threads in as much longer", rows[1], ["monsters", "message", *["10.00"] * 6])

    def test_reads_are_timed(self):
        linear = loaded(TOP / "bench/linear")
        names = next(corpus for corpus in building.CORPORA if corpus.name == "names")
        one, ten = (dataclasses.replace(names, timed=building.Size(20, parts)) for parts in (1, 10))
        reads = [linear.reads_of(corpus, PROGRAM) for corpus in (one, ten)]
        self.same("three a string: its offset word, its length, its terminator", reads[1] - reads[0], 27)
        self.holds("nanoseconds a read", 0 < linear.nanoseconds(ten, reads[1], 2) < 1e6)
        self.same("growing sizes", linear.sizes(333), [1, 10, 100, 333])
        self.holds("a start", 0 < linear.start(PROGRAM, names.schema, 2) < 10)

    @unittest.skipUnless(shutil.which("valgrind") and shutil.which("objdump"), "valgrind or objdump isn't there")
    def test_jumps_are_counted(self):
        jumps = loaded(TOP / "bench/jumps")
        found = list(jumps.jumps(PROGRAM))
        self.holds("what is fused begins before the jump", all(begin <= at < end for _, at, begin, end in found))
        count = jumps.runs(PROGRAM, dataclasses.replace(building.CORPORA[0], counted=building.Size(50)))
        walk = sum(count[at] for function, at, _, _ in found if "::walk_on" in function)
        self.holds("a walk over 50 messages makes some thousand", 50 * 100 < walk < 50 * 10_000, walk)

    @unittest.skipUnless(shutil.which("valgrind"), "valgrind isn't there")
    def test_what_demands_cost(self):
        """On an eighth of each stream, what the page says."""
        demands = loaded(TOP / "bench/demands")
        rows = re.findall(r"(?m)^\| `(\w+)` \([^|]*\) \| ([\d.]+) \| ([\d.]+) \| ([\d.]+) \|$",
                          (TOP / "docs/REFERENCE.md").read_text())
        self.same("the streams of the page", [name for name, *_ in rows], demands.STREAMS)
        for corpus, (name, *said) in zip(demands.corpora(), rows):
            messages, parts = corpus.counted.messages, corpus.counted.parts
            size = building.Size(max(messages // 8, 1), parts if messages > 8 else parts // 8)
            for option, page, found in zip(demands.OPTIONS, said, demands.ratios(PROGRAM, corpus, size)):
                self.holds(f"{name}, {option}", abs(found - float(page)) <= 0.1, (found, page))

    def test_a_chart_is_drawn(self):
        costs = {"fbcheck": timing.Cost(1.0, 1.0, None), "reflection": timing.Cost(2.0, 2.5, None),
                 "generated": timing.Cost(0.5, 0.5, None)}
        drawn = chart.chart([(corpus, costs) for corpus in building.STREAMS])
        root = xml.etree.ElementTree.fromstring(drawn)
        widths = [float(bar.get("width")) for bar in root.iter("{http://www.w3.org/2000/svg}rect")]
        bars = [chart.ROOM / 2, chart.ROOM, chart.ROOM / 4]
        self.same("the legend's marks, and three bars a corpus", widths[3:], bars * len(building.STREAMS))
        texts = [text.text for text in root.iter("{http://www.w3.org/2000/svg}text")]
        self.holds("times a unit", "2.00  (2 µs a message)" in texts and "0.50  (125 ns a string)" in texts, texts)
