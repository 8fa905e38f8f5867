"""What the programs cost: processor time side by side, and instructions by callgrind; what calls in a process take."""

import dataclasses
import os
import re
import shutil
import statistics
import subprocess
import typing

from building import Failed, commands, in_process, messages

# On how many threads the verifiers are timed in process.
THREADS = (1, 2, 4)


@dataclasses.dataclass(frozen=True)
class Cost:
    """What a program takes for a corpus: seconds of the best and of the median run, and instructions a unit."""

    best: float
    median: float
    instructions: typing.Optional[float]


def processor_time(command, stream):
    """The seconds of processor time, in the program and for it in the kernel, that a run on a stream takes."""
    with open(stream, "rb") as given:
        running = subprocess.Popen(command, stdin=given, stdout=subprocess.DEVNULL)
        _, status, used = os.wait4(running.pid, 0)
    running.returncode = status
    if status != 0:
        raise Failed(f"{command[0]} ended with status {status} on {stream}")
    return used.ru_utime + used.ru_stime


def in_turn(called, stream, runs, take):
    """What is taken of each program on a stream; they run in turn, and each turn begins with the next one."""
    called = list(called.items())
    taken = {name: [] for name, _ in called}
    for turn in range(runs):
        first = turn % len(called)
        for name, command in called[first:] + called[:first]:
            taken[name].append(take(command, stream))
    return taken


def time_in_process(corpus, stream, rounds, asked):
    """The tables of a stream's messages, and the seconds that each of these verifiers takes for all of them in its best
    round, all in one process and each on so many threads."""
    words = [in_process(corpus), corpus.schema, str(rounds), *(str(word) for pair in asked for word in pair)]
    with open(stream, "rb") as given:
        ran = subprocess.run(words, stdin=given, capture_output=True, text=True)
    if ran.returncode != 0:
        raise Failed(f"{words[0]} ended with status {ran.returncode} on {stream}: {ran.stderr}")
    tables, *told = ran.stdout.splitlines()
    return int(tables.split()[1]), {pair: int(line) / 1e9 for pair, line in zip(asked, told)}


def count_instructions(command, stream):
    """The instructions of a run on a stream."""
    words = ["valgrind", "--tool=callgrind", "--callgrind-out-file=/dev/null", *command]
    with open(stream, "rb") as given:
        ran = subprocess.run(words, stdin=given, stdout=subprocess.DEVNULL, stderr=subprocess.PIPE, text=True)
    found = re.search(r"Collected : (\d+)", ran.stderr)
    if ran.returncode != 0 or found is None:
        raise Failed(f"callgrind says nothing of {command[0]}: {ran.stderr}")
    return int(found[1])


def instructions(corpus, program):
    """The instructions a unit of each program, without its start; none where valgrind isn't there."""
    called = commands(corpus, program)
    if shutil.which("valgrind") is None:
        return dict.fromkeys(called)
    stream = messages(corpus, corpus.counted)
    units = corpus.units(corpus.counted)
    return {
        name: (count_instructions(command, stream) - count_instructions(command, os.devnull)) / units
        for name, command in called.items()
    }


def measure_in_process(corpus, rounds):
    """The same of all verifiers on the messages of a corpus, on one thread and on more."""
    asked = [(name, threads) for threads in THREADS for name in ("fbcheck", "reflection", "generated")]
    return time_in_process(corpus, messages(corpus, corpus.cached), rounds, asked)


def measure(corpus, program, runs):
    """The cost of each program on a corpus, by its name."""
    taken = in_turn(commands(corpus, program), messages(corpus, corpus.timed), runs, processor_time)
    counted = instructions(corpus, program)
    return {name: Cost(min(taken[name]), statistics.median(taken[name]), counted[name]) for name in taken}
