"""Why a read, a write or an open failed: the words for each kind of an error of the system.

The words were written down by hand. A library before the program's others brings about each error number of Linux that
has a kind; the kinds that none has are held against the definition, which the code was proved to follow.
"""

import errno
import re

from tests.support.cases import Case
from tests.support.preloaded import narrowed
from tests.support.program import Ran, TOP, failed, lines, refused

WORDS = {
    "NotFound": "no such file", "PermissionDenied": "permission denied", "ConnectionRefused": "connection refused",
    "ConnectionReset": "connection reset", "HostUnreachable": "host unreachable",
    "NetworkUnreachable": "network unreachable", "ConnectionAborted": "connection aborted",
    "NotConnected": "not connected", "AddrInUse": "address in use", "AddrNotAvailable": "address not available",
    "NetworkDown": "network down", "BrokenPipe": "broken pipe", "AlreadyExists": "entity already exists",
    "WouldBlock": "operation would block", "NotADirectory": "not a directory", "IsADirectory": "is a directory",
    "DirectoryNotEmpty": "directory not empty", "ReadOnlyFilesystem": "read-only filesystem or storage medium",
    "FilesystemLoop": "too many links", "StaleNetworkFileHandle": "stale network file handle",
    "InvalidInput": "invalid input parameter", "InvalidData": "invalid data", "TimedOut": "timed out",
    "WriteZero": "write zero", "StorageFull": "no storage space", "NotSeekable": "seek on unseekable file",
    "QuotaExceeded": "quota exceeded", "FileTooLarge": "file too large", "ResourceBusy": "resource busy",
    "ExecutableFileBusy": "executable file busy", "Deadlock": "deadlock",
    "CrossesDevices": "cross-device link or rename", "TooManyLinks": "too many links",
    "InvalidFilename": "invalid file name", "ArgumentListTooLong": "argument list too long",
    "Interrupted": "operation interrupted", "Unsupported": "unsupported", "UnexpectedEof": "unexpected end of file",
    "OutOfMemory": "out of memory", "InProgress": "in progress", "Other": "other error",
}

# The error numbers of each kind, by their names.
NUMBERS = {
    "NotFound": "ENOENT", "PermissionDenied": "EPERM EACCES", "ConnectionRefused": "ECONNREFUSED",
    "ConnectionReset": "ECONNRESET", "HostUnreachable": "EHOSTUNREACH", "NetworkUnreachable": "ENETUNREACH",
    "ConnectionAborted": "ECONNABORTED", "NotConnected": "ENOTCONN", "AddrInUse": "EADDRINUSE",
    "AddrNotAvailable": "EADDRNOTAVAIL", "NetworkDown": "ENETDOWN", "BrokenPipe": "EPIPE", "AlreadyExists": "EEXIST",
    "WouldBlock": "EAGAIN", "NotADirectory": "ENOTDIR", "IsADirectory": "EISDIR", "DirectoryNotEmpty": "ENOTEMPTY",
    "ReadOnlyFilesystem": "EROFS", "FilesystemLoop": "ELOOP", "StaleNetworkFileHandle": "ESTALE",
    "InvalidInput": "EINVAL", "TimedOut": "ETIMEDOUT", "StorageFull": "ENOSPC", "NotSeekable": "ESPIPE",
    "QuotaExceeded": "EDQUOT", "FileTooLarge": "EFBIG", "ResourceBusy": "EBUSY", "ExecutableFileBusy": "ETXTBSY",
    "Deadlock": "EDEADLK", "CrossesDevices": "EXDEV", "TooManyLinks": "EMLINK", "InvalidFilename": "ENAMETOOLONG",
    "ArgumentListTooLong": "E2BIG", "Interrupted": "EINTR", "Unsupported": "ENOSYS EOPNOTSUPP",
    "OutOfMemory": "ENOMEM", "InProgress": "EINPROGRESS",
}
UNKNOWN = "EIO ENXIO EBADF EMFILE ENODEV EPROTO"
NO_MEMORY = Ran(3, b"", lines("fbcheck: out of memory"))


def of_cause(name, *words, **limits):
    """A run that meets the error of this name."""
    return narrowed(*words, given=b"", cause=getattr(errno, name), **limits)


class Causes(Case):
    def told(self, name, words):
        """Where a read, a write or an open fails so, why is told in these words, if there are some; nothing of a write
        that nobody reads."""
        behind = f": {words}" if words else ""
        self.same(f"{name} of a read", of_cause(name, fails=1), failed(f"read failed{behind}"))
        write = Ran(3, b"", b"") if name == "EPIPE" else failed(f"write failed after 0 bytes{behind}")
        self.same(f"{name} of a write", of_cause(name, "--help", stops=1), write)
        if name == "EINTR":
            return
        words = words or "an open or a read failed"
        schema, file = of_cause(name, "--schema", "s.bfbs", opens=1), of_cause(name, "f", opens=1)
        no_memory = words == WORDS["OutOfMemory"]
        self.same(f"{name} of a schema file", schema, NO_MEMORY if no_memory else refused(
            f"cannot read schema s.bfbs: {words}"))
        self.same(f"{name} of a file", file, NO_MEMORY if no_memory else failed(f"f: {words}"))

    def test_error_numbers(self):
        for kind, numbers in NUMBERS.items():
            for name in numbers.split():
                self.told(name, WORDS[kind])
        for name in UNKNOWN.split():
            self.told(name, "")

    def test_an_open_that_is_interrupted(self):
        """It is tried again, and fails for another cause here."""
        self.same("a file", of_cause("EINTR", "/nowhere", opens=1), failed("/nowhere: no such file"))

    def test_words_of_each_kind(self):
        text = (TOP / "crates/fbcheck_texts/specs/Causes.antt").read_text()
        found = dict(re.findall(r'(?m)^known_reason kind\.(\w+) = Some \(codes "(.*)"\)$', text))
        self.same("the words for each kind", found, WORDS)
        self.same("each line of it", len(re.findall(r"(?m)^known_reason ", text)), len(WORDS) + 1)
        self.same("the kinds that no error number has", sorted(WORDS.keys() - NUMBERS.keys()),
                  ["InvalidData", "Other", "UnexpectedEof", "WriteZero"])
