"""Runs of the built program, on files and pipes.

The program is crates/fbcheck/out/fbcheck, or the file that the variable FBCHECK_PROGRAM names, so that a program built
otherwise is held against the same cases. Expected values are worked out by hand from the format's rules, never taken
from what the program says.
"""

import fcntl
import os
import pathlib
import resource
import select
import signal
import struct
import subprocess
import sys
import termios
import time
import tty
import typing
import unittest

from tests.support.clone import TOP, file_of, folder_of, loaded  # noqa: F401  (who asks the program takes them here)

PROGRAM = pathlib.Path(os.environ.get("FBCHECK_PROGRAM") or TOP / "crates/fbcheck/out/fbcheck")
SECONDS = 60
IS_PACKAGED = False  # whether the program is all that is there (python3 -m tests --packaged)
if not os.access(PROGRAM, os.X_OK):
    print(f"no program at {PROGRAM}: scripts/build fbcheck builds it", file=sys.stderr)


# What is told of a schema file that is empty, and of one that is none.
NO_BYTES = "this is empty"
NO_SCHEMA = "this is no binary schema, which flatc --binary --schema makes"


class Ran(typing.NamedTuple):
    """How a run ended, and what it wrote."""

    status: int
    out: bytes
    err: bytes


def run(*words, given=b"", **how):
    """Runs the program with these words on these bytes."""
    ran = subprocess.run([PROGRAM, *words], input=given, capture_output=True, timeout=SECONDS, **how)
    return Ran(ran.returncode, ran.stdout, ran.stderr)


def run_in_shell(redirections, *words, given=b""):
    """Runs the program by a shell that opens or closes its descriptors as the text says, for example `>&-`."""
    command = ["sh", "-c", f'exec "$0" "$@" {redirections}', PROGRAM, *words]
    ran = subprocess.run(command, input=given, capture_output=True, timeout=SECONDS)
    return Ran(ran.returncode, ran.stdout, ran.stderr)


def run_unread(*words, given=b""):
    """Runs the program on these bytes, with a pipe as standard output that nobody reads."""
    there, here = os.pipe()
    os.close(there)
    ran = subprocess.run([PROGRAM, *words], input=given, stdout=here, stderr=subprocess.PIPE, timeout=SECONDS)
    os.close(here)
    return Ran(ran.returncode, b"", ran.stderr)


def run_broken_off(*words, given):
    """Runs the program on a terminal's far end, of which a read fails once all of these bytes were read."""
    far, near = os.openpty()
    tty.setraw(near)
    program = subprocess.Popen([PROGRAM, *words], stdin=far, stdout=subprocess.PIPE, stderr=subprocess.PIPE)
    os.write(near, given)
    while waiting(far) and program.poll() is None:
        pass
    os.close(near)
    out, err = program.communicate(timeout=SECONDS)
    os.close(far)
    return Ran(program.returncode, out, err)


def run_starved(*words, given=b"", **how):
    """Runs the program in 16 MiB."""
    return run(*words, given=given, **how, preexec_fn=lambda: resource.setrlimit(resource.RLIMIT_AS, (1 << 24, 1 << 24)))


def lines(*texts):
    """The bytes of these lines."""
    return "".join(f"{text}\n" for text in texts).encode()


def good(*texts):
    """A run whose buffers all had a yes, with these lines."""
    return Ran(0, lines(*texts), b"")


def bad(*texts):
    """A run in which a buffer had a no, with these lines."""
    return Ran(1, lines(*texts), b"")


def refused(text):
    """A run that ended before it read anything, told by this text."""
    return Ran(2, b"", lines(f"fbcheck: {text}"))


def listed(names):
    """Names as they are told behind a fault: up to ten, and whether there are more."""
    return "".join(f" {name}" for name in names[:10]) + " .." * (len(names) > 10)


def rootless(name, *tables, schema=True):
    """A run without a root table: the name that was asked for, or none, the tables that there are, and whose these are
    where no schema file is named."""
    told = "" if schema else ("; these are of schema files, which input is taken for without --schema: "
                              "flatc --binary --schema makes the .bfbs")
    return refused(f"no root table{'' if name is None else ' ' + name}; tables:{listed(tables)}{told}")


def fieldless(*fields, step=0, meant=""):
    """A run with a path of which this step's name is no field of the table or struct there, which has these, and maybe
    one that may have been meant."""
    asked = meant and f"; did you mean {meant}?"
    return refused(f"path: P2 NoSuchField step={step}{asked}; fields:{listed(fields)}")


def schemaless(text, path, look=""):
    """A run whose schema file, the one of this path, gives no schema: why, and what it is where that is told."""
    return refused(f"schema: {text} in {path}{look and '; ' + look}")


def failed(text, *before):
    """A run that a fault ended, told by this text, with the lines that were written by then."""
    return Ran(3, lines(*before), lines(f"fbcheck: {text}"))


def astray(text, *, delimited=False):
    """The text of a stream's fault, where no good message came before."""
    long = is_allowed(text.partition("declared=")[2])
    return (f"{text}; no good message came before: --bare is for a buffer without a prefix"
            + ", --delimited for prefixes outside the buffers" * (not delimited)
            + (", --max-bytes for longer messages" if long else
               f", --delimited-be for big-endian {'lengths' if delimited else 'ones'}, --skip for a header"))


def is_allowed(declared):
    """Whether some limit allows a message of this length, and it isn't four characters."""
    if not declared or int(declared) > 2_147_483_643:
        return False
    return not all(byte in b"\t\n\r" or 32 <= byte <= 126 for byte in int(declared).to_bytes(4, "little"))


def oversize(declared):
    """The text where a message is too long behind a good one."""
    return f"stream: S1 Oversize declared={declared}" + "; --max-bytes allows longer messages" * is_allowed(str(declared))


def overlong(most):
    """The text of a bare input that is too long."""
    return f"input longer than {most} bytes; --max-bytes allows longer ones"


NOT_UTF_8 = "nothing was checked: words must be UTF-8, and a file of any name can be standard input"


# what is told of a stream of which each message is misaligned, and of an output that takes nothing
UNSCHEMED = "without --schema the tables are those of schema files"
SHIFTED = "each message is misaligned: --delimited is for prefixes outside the buffers"
FULL = "fbcheck: write failed after 0 bytes: no storage space"
CLOSED = "fbcheck: write failed after 0 bytes"


def shifted(*told, schema=True):
    """A run of which these lines are all, each message being misaligned."""
    return Ran(1, lines(*told), lines(f"fbcheck: {SHIFTED}{'' if schema else '; ' + UNSCHEMED}"))


def unschemed(*told):
    """A run without a schema file, of which these lines are all, and no message is good."""
    return Ran(1, lines(*told), lines(f"fbcheck: no message was good: {UNSCHEMED}"))


def built(crate):
    """The program of a crate, which scripts/build builds where it's stale."""
    if IS_PACKAGED:
        raise unittest.SkipTest(f"{crate} is in no package")
    told = subprocess.run([TOP / "scripts/build", crate], stdout=subprocess.PIPE, text=True, check=True)
    return pathlib.Path(told.stdout.strip())


class Talk:
    """A run that is spoken to piece by piece."""

    def __init__(self, *words):
        self.run = subprocess.Popen(
            [PROGRAM, *words], stdin=subprocess.PIPE, stdout=subprocess.PIPE, stderr=subprocess.PIPE, bufsize=0
        )

    def __enter__(self):
        return self

    def __exit__(self, *_):
        if self.run.poll() is None:
            self.run.send_signal(signal.SIGKILL)
        self.run.wait()
        for pipe in (self.run.stdin, self.run.stdout, self.run.stderr):
            pipe.close()

    def say(self, data):
        """Writes these bytes, and waits until the program has read them."""
        self.run.stdin.write(data)
        ends = time.monotonic() + SECONDS
        while waiting(self.run.stdin.fileno()) and self.run.poll() is None:
            if time.monotonic() > ends:
                raise TimeoutError("the program doesn't read")

    def hear(self, seconds=SECONDS):
        """What the program writes next, up to a line's end, or up to where nothing more comes within these seconds."""
        heard = b""
        while not heard.endswith(b"\n") and select.select([self.run.stdout], [], [], seconds)[0]:
            more = self.run.stdout.read(1)
            if not more:
                break
            heard += more
        return heard

    def ended(self):
        """How the run ended by itself, while its input stays open, with what wasn't heard yet."""
        self.run.wait(SECONDS)
        return Ran(self.run.returncode, self.run.stdout.read(), self.run.stderr.read())

    def end(self):
        """Ends the input, and answers how the run ended with what wasn't heard yet."""
        out, err = self.run.communicate(timeout=SECONDS)
        return Ran(self.run.returncode, out, err)


def waiting(pipe):
    """How many bytes wait in a pipe."""
    return struct.unpack("i", fcntl.ioctl(pipe, termios.FIONREAD, b"\0" * 4))[0]
