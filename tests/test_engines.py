"""examples/engines: on Dask and on a client of Kafka, where they are there, and on stand-ins: an engine that writes
partitions to processes, and a client of Kafka that reads standard input."""

import base64
import contextlib
import json
import os
import pathlib
import shutil
import signal
import struct
import subprocess
import sys
import threading
import time

from tests.support import schemas
from tests.support.buffers import ORC, PLAIN, POST, named
from tests.support.builder import changed, messages_of, prefixed
from tests.support.library import SANITIZED, SHARED, STATIC, LibraryCase
from tests.support.program import TOP, file_of, folder_of, run, waiting
from tests.support.python import package

FOLDER = folder_of(__name__)
CHECK_LINES = TOP / "examples/engines/check_lines"
CONSUMER = TOP / "examples/engines/consumer.c"
PATIENCE = 300  # seconds in which a cluster does what is asked of it, beside other work
BY_M = schemas.files()["M"]
BY_POST = TOP / "examples/deliveries.bfbs"

# By M: good ones, one without its last byte, an empty one, and one whose vtable has an odd size.
BUFFERS = [ORC, PLAIN, ORC[:-1], b"", changed(PLAIN, (4, "0500")), named(5000, prefix=False), ORC]


def bare(data):
    """The line of the program on a bare buffer, without its number and with the place."""
    return run("--schema", BY_M, "--bare", "--names", given=data).out.decode().partition(" ")[2].rstrip()


def bare_of_consumer(data):
    """What the consumer tells of a bare buffer."""
    line = bare(data)
    return line.split(" object=")[0] + " in M" if line.startswith("bad") else line.split(" depth=")[0]


def pipe(partition, *words):
    """What an engine gets that writes a partition's elements to a process as lines while it reads its lines."""
    environment = {**os.environ, "PYTHONPATH": str(package())}
    with subprocess.Popen([CHECK_LINES, *words], stdin=subprocess.PIPE, stdout=subprocess.PIPE, stderr=subprocess.PIPE,
                          text=True, env=environment) as ran:
        writer = threading.Thread(target=fed, args=(ran.stdin, partition))
        writer.start()
        lines = [line.rstrip("\n") for line in ran.stdout]
        told = ran.stderr.read()
        writer.join()
    return ran.returncode, lines, told


def fed(pipe, lines):
    """Writes the lines, as far as they are taken."""
    try:
        with pipe:
            pipe.writelines(f"{line}\n" for line in lines)
    except BrokenPipeError:
        pass


def in_base64(messages):
    return [base64.b64encode(message).decode() for message in messages]


def consumed(program, given, *words):
    ran = subprocess.run([program, *words], input=given, capture_output=True, timeout=60)
    return ran.returncode, ran.stdout.decode().splitlines(), ran.stderr.decode().splitlines()


class Engines(LibraryCase):
    def test_each_element_gets_its_line(self):
        want = [bare(data) for data in BUFFERS]
        self.same("there are good and bad ones", sorted({line.split()[0] for line in want}), ["bad", "ok"])
        partitions = [BUFFERS[:3], BUFFERS[3:], [], BUFFERS * 200]
        for number, partition in enumerate(partitions):
            told = pipe(in_base64(partition), BY_M)
            wanted = [f"{place} {bare_line}" for place, bare_line in
                      enumerate((want[BUFFERS.index(data)] for data in partition), 1)]
            self.same(f"partition {number}", told, (0, wanted, ""))
        by_program = run("--schema", BY_POST, "--names", given=POST).out.decode().splitlines()
        self.same("messages with their size", pipe(in_base64(messages_of(POST)), "--prefixed", BY_POST),
                  (0, by_program, ""))
        by_program = run("--schema", BY_POST, "--names", "--root", "post.Person", given=POST).out.decode().splitlines()
        self.same("another root", pipe(in_base64(messages_of(POST)), "--prefixed", "--root", "post.Person", BY_POST),
                  (0, by_program, ""))
        told = pipe(in_base64([ORC]), "--max-reads", "5", BY_M)
        want = run("--schema", BY_M, "--bare", "--names", "--max-reads", "5", given=ORC).out.decode().splitlines()
        self.same("a budget", told, (0, want, ""))

    def test_each_line_is_answered_at_once(self):
        """An engine may wait for an answer before it writes the next line."""
        environment = {**os.environ, "PYTHONPATH": str(package())}
        with subprocess.Popen([CHECK_LINES, BY_M], stdin=subprocess.PIPE, stdout=subprocess.PIPE, text=True, bufsize=1,
                              env=environment) as ran:
            for number, data in enumerate(BUFFERS, 1):
                ran.stdin.write(f"{base64.b64encode(data).decode()}\n")
                ran.stdin.flush()
                self.same(f"line {number}", ran.stdout.readline(), f"{number} {bare(data)}\n")
            ran.stdin.close()

    def test_faults_of_lines(self):
        good = in_base64([ORC])
        for name, lines, words, want in [
            ("a line that isn't Base64", [*good, "so so", *good], [BY_M], (3, 1, "check_lines: line 2 isn't Base64\n")),
            ("a line that is cut", [good[0][:-1]], [BY_M], (3, 0, "check_lines: line 1 isn't Base64\n")),
        ]:
            status, told, text = pipe(lines, *words)
            self.same(name, (status, len(told), text), want)
        for name, words in [("no such schema", ["nothing.bfbs"]), ("a schema that is none", [CHECK_LINES]),
                            ("no such root", ["--root", "N", BY_M]), ("no schema", []),
                            ("a wrong word", ["--x", BY_M])]:
            status, told, text = pipe(good, *words)
            self.holds(f"{name}: status 2, told", (status, told) == (2, []) and text, (status, told, text))

    def test_a_consumer_of_kafka(self):
        topic = b"".join(map(prefixed, BUFFERS))
        words = ["broker:9092", "checkers", "orders"]
        passing, lasting = struct.pack("<I", 0xFFFFFFFF), struct.pack("<I", 0xFFFFFFFE)
        want = [f"3@{offset} {line}" for offset, line in enumerate(map(bare_of_consumer, BUFFERS))]
        stand_in = [TOP / "tests/engines/rdkafka.c", f"-I{TOP}/tests/engines"]
        for form, libraries in {"consumer": SHARED, "consumer_sane": [*SANITIZED, *STATIC]}.items():
            program = self.compiled(form, CONSUMER, *stand_in, *libraries)
            self.same(f"{form}: each message", consumed(program, topic, *words, BY_M), (0, want, []))
            self.same(f"{form}: past a fault that passes", consumed(program, passing + topic, *words, BY_M),
                      (0, want, ["consumer: the broker is away"]))
            self.same(f"{form}: up to a fault for good", consumed(program, topic + lasting + topic, *words, BY_M),
                      (3, want, ["consumer: the broker is away"]))
            no_root = file_of("no_root.bfbs", schemas.schema([schemas.table("A")]))
            for path in [no_root, CONSUMER, FOLDER / "nothing"]:
                self.same(f"{form}: no schema {path.name}", consumed(program, topic, *words, path),
                          (2, [], [f"consumer: {path} is no schema with a root table"]))
            self.same(f"{form}: no brokers", consumed(program, topic, "", *words[1:], BY_M),
                      (2, [], ["consumer: no value for bootstrap.servers", "consumer: a setting is missing"]))
            self.same(f"{form}: no words", consumed(program, topic),
                      (2, [], ["usage: consumer BROKERS GROUP TOPIC SCHEMA.bfbs"]))

    def test_by_the_client_itself(self):
        """Where the client of Kafka is there, the consumer gets each message of a broker over a socket."""
        if not shutil.which("pkg-config") or subprocess.run(["pkg-config", "rdkafka"], capture_output=True).returncode:
            self.skipTest("librdkafka isn't there (Debian's package librdkafka-dev)")
        words = subprocess.check_output(["pkg-config", "--cflags", "--libs", "rdkafka"], text=True).split()
        consumer = self.compiled("real", CONSUMER, *words, *STATIC)
        broker = self.compiled("broker", TOP / "tests/engines/broker.c", *words)
        messages = BUFFERS * 30
        topic = file_of("topic", b"".join(map(prefixed, messages)))
        told = {place % 3: [] for place in range(3)}
        for place, data in enumerate(messages):
            told[place % 3].append(bare_of_consumer(data))
        want = sorted(f"{partition}@{offset} {line}" for partition, lines in told.items()
                      for offset, line in enumerate(lines))
        with topic.open("rb") as given, subprocess.Popen([broker], stdin=given, stdout=subprocess.PIPE,
                                                         stderr=subprocess.DEVNULL) as serving:
            try:
                address = serving.stdout.readline().strip()
                with subprocess.Popen([consumer, address, "checkers", "orders", BY_M], stdout=subprocess.PIPE,
                                      text=True) as consuming:
                    lines = [consuming.stdout.readline().rstrip() for _ in messages]
                    consuming.send_signal(signal.SIGTERM)
                    rest = consuming.stdout.read()
            finally:
                serving.kill()
        self.same("each message once", (sorted(lines), rest, consuming.returncode), (want, "", 0))


def with_dask():
    """The first interpreter that has Dask: the one that runs the tests, or the system's own."""
    for python in (sys.executable, "/usr/bin/python3"):
        imports = [python, "-c", "import distributed"]
        if shutil.which(python) and subprocess.run(imports, capture_output=True).returncode == 0:
            return python
    return None


@contextlib.contextmanager
def cluster(python, environment, count):
    """A scheduler on this machine, by its address, with so many processes as workers."""
    file = FOLDER / "scheduler.json"
    begun = []
    common = ["--no-dashboard", "--scheduler-file", file]
    worker = ["dask_worker", "--nthreads", "1", "--no-nanny", "--host", "127.0.0.1", "--local-directory", FOLDER]
    try:
        for words in (["dask_scheduler", "--host", "127.0.0.1", "--port", "0"], *[worker] * count):
            command = [python, "-m", f"distributed.cli.{words[0]}", *words[1:], *common]
            begun.append(subprocess.Popen(command, env=environment, stdout=subprocess.DEVNULL,
                                          stderr=subprocess.DEVNULL))
            until(lambda: file.exists() and file.read_text().endswith("}"))
        yield json.loads(file.read_text())["address"], begun[1:]
    finally:
        for process in begun:
            process.kill()
            process.wait()


def until(fact):
    """Waits for the fact, and answers it."""
    ends = time.monotonic() + PATIENCE
    while not (found := fact()):
        if time.monotonic() > ends:
            raise TimeoutError("it doesn't come")
        time.sleep(0.02)
    return found


def told(error):
    """What the script and split tell, without what Dask's own loop logs where a worker is lost while it closes."""
    lines = error.splitlines()
    return "\n".join(line for line in lines if line.startswith(("dask_check: ", "split: ")))


def reader_of(pipe, processes):
    """The process that has this pipe open."""
    for process in processes:
        with contextlib.suppress(OSError):
            if any(link.resolve() == pipe for link in pathlib.Path(f"/proc/{process.pid}/fd").iterdir()):
                return process
    return None


class OnDask(LibraryCase):
    def test_a_worker_is_lost(self):
        """Two workers check a folder, of which one is killed in the middle of a part, and then a stream.

        The first and the last part are pipes. While one worker waits at the first, so that no result is asked for yet,
        the other checks those between, and is killed at the last: what it has found is lost with it.
        """
        python = with_dask()
        if python is None:
            self.skipTest("Dask isn't there (Debian's package python3-distributed)")
        environment = {**os.environ, "PYTHONPATH": str(package(python))}
        script = [python, TOP / "examples/engines/dask_check"]
        whole = POST * 50
        want = run("--schema", BY_POST, "--names", given=whole).out.decode().splitlines()
        folder = FOLDER / "streams"
        folder.mkdir()
        names = [f"part-{number}" for number in range(8)]
        for name in names:
            (folder / name).write_bytes(whole)
        first, last = folder / names[0], folder / names[-1]
        for pipe in (first, last):
            pipe.unlink()
            os.mkfifo(pipe)
        with cluster(python, environment, 2) as (address, workers):
            with subprocess.Popen([*script, "--scheduler", address, BY_POST, folder], env=environment, text=True,
                                  stdout=subprocess.PIPE, stderr=subprocess.PIPE) as running:
                with open(first, "wb", buffering=0) as pipe:
                    with open(last, "wb", buffering=0) as other:
                        other.write(whole[: len(whole) // 2])
                        until(lambda: not waiting(other))
                        lost = until(lambda: reader_of(last, workers))
                        self.same("each has a part", {lost, reader_of(first, workers)}, {*workers})
                        lost.send_signal(signal.SIGKILL)
                        lost.wait()
                    pipe.write(whole)
                with open(last, "wb", buffering=0) as other:
                    other.write(whole)
                out, err = running.communicate(timeout=PATIENCE)
            lines = [f"{name}: {line}" for name in names for line in want]
            self.same("each verdict comes once, in order", (running.returncode, out.splitlines(), told(err)),
                      (1, lines, ""))
            self.same("one worker was killed", [worker.poll() for worker in workers if worker.poll() is not None], [-9])
            for name, given, status, text in [("stream", whole, 1, ""), ("good", messages_of(POST)[0] * 40, 0, ""),
                                              ("cut", whole[:-1], 3, "S2 Truncated held=199")]:
                lines = run("--schema", BY_POST, "--names", given=given).out.decode().splitlines()
                words = [*script, "--scheduler", address, "--parts", "5", BY_POST, file_of(name, given)]
                ran = subprocess.run(words, env=environment, capture_output=True, text=True, timeout=PATIENCE)
                self.same(f"{name}: by one worker", (ran.returncode, ran.stdout.splitlines()), (status, lines))
                own = told(ran.stderr)
                self.holds(f"{name}: what is told", text in own and bool(text) == bool(own), ran.stderr)
            for path in (first, last):
                path.unlink()
            first.write_bytes(whole[:7])
            for name, path, text in [("a file that ends early", folder, "part-0: the stream ends inside message 1"),
                                     ("no stream", FOLDER / "nowhere", "nowhere")]:
                ran = subprocess.run([*script, "--scheduler", address, BY_POST, path], env=environment,
                                     capture_output=True, text=True, timeout=PATIENCE)
                self.holds(name, text in ran.stderr and ran.returncode == (3 if path == folder else 2), ran)
