"""Framers of the library for C, and of the module for Python, and what may be given to that as bytes."""

import array
import ctypes
import struct

from tests.support import schemas
from tests.support.buffers import ORC
from tests.support.builder import prefixed
from tests.support.library import LibraryCase, module


def why(kind, call):
    """The words of the exception of this kind that a call ends by, or None."""
    try:
        call()
    except kind as error:
        return error.args
    return None


class FramersForC(LibraryCase):
    def test_framers(self):
        """The messages of a stream, however it is cut, and what may be wrong with one."""
        python = module()
        calls, status = python._library(), python.Status
        m, used = prefixed(ORC), ctypes.c_size_t(77)
        cut = lambda given, size: [given[at:at + size] for at in range(0, len(given), size)]
        stream = m + prefixed(b"") + m + prefixed(b"abc")
        for size in range(1, len(stream) + 1):
            framer = python.Framer(len(m))
            told = [message for piece in cut(stream, size) for message in framer.messages(piece)]
            self.same(f"messages in pieces of {size}", told, [m, bytes(4), m, prefixed(b"abc")])
            self.same(f"and the end in pieces of {size}", framer.finish(), None)

        def fed(framer, piece):
            answer = calls.fbcheck_framer_feed(*framer._room, piece, len(piece), used)
            return answer, used.value, framer._framer.held

        framer = python.Framer(len(m))
        other = python.Framer(2 * len(m))
        steps = [fed(framer, m), calls.fbcheck_framer_next(*framer._room)]
        other._framer = framer._framer
        other._room = (framer._framer, *other._room[1:])
        steps += [fed(other, m[:7]), fed(other, m[7:]), calls.fbcheck_framer_next(*other._room)]
        self.same("another room, of another size, between two messages", steps,
                  [(0, len(m), len(m)), 0, (13, 7, 7), (0, len(m) - 7, len(m)), 0])
        finish = lambda: calls.fbcheck_framer_finish(*framer._room)
        steps = [fed(framer, m + m), fed(framer, m), finish(), calls.fbcheck_framer_next(*framer._room),
                 fed(framer, b"")]
        n = len(m)
        self.same("a message is held until it is given up", steps, [(0, n, n), (0, 0, n), 0, 0, (13, 0, 0)])
        steps = [fed(framer, m[:2]), calls.fbcheck_framer_next(*framer._room), fed(framer, m[2:9])]
        self.same("a part isn't given up", steps, [(13, 2, 2), 0, (13, 7, 9)])
        steps = [finish(), fed(framer, m), finish(), framer._framer.held]
        self.same("nor may a stream end in one", steps, [15, (16, 7, 9), 16, 9])
        for limit, first, want in [(n, n - 4, (13, 5, 5)), (n - 1, n - 4, (14, 77, 4)), (8, 2**32 - 1, (14, 77, 4))]:
            framer, used.value = python.Framer(limit), 77
            got = fed(framer, struct.pack("<I", first) + b"?")
            self.same(f"{first} declared for room of {limit}", got, want)
            declared = first if want[0] == 14 else 0
            self.same("which is told", (framer._framer.declared, bool(framer._framer.failed)),
                      (declared, declared != 0))
        for limit, want in [(7, 4), (8, 13), (2**31 - 1, 13), (2**31, 4)]:
            framer = python.Framer(8)
            room = (framer._framer, framer._room[1], limit)
            got = [calls.fbcheck_framer_feed(*room, b"", 0, used), calls.fbcheck_framer_next(*room),
                   calls.fbcheck_framer_finish(*room)]
            self.same(f"room of {limit}", got, [want, 0, 0] if want == 13 else [4] * 3)
        framer._framer.held, room = 9, (framer._framer, framer._room[1], 8)
        self.same("more held than there is room for", calls.fbcheck_framer_feed(*room, b"?", 1, used), status.FAILED)
        for place in (0, 1, 3, 5):
            words = [*room, b"?", 1, used]
            words[place] = None
            self.same(f"no word {place}", calls.fbcheck_framer_feed(*words), status.NULL)
            if place < 2:
                self.same("none either at the end", calls.fbcheck_framer_finish(*words[:3]), status.NULL)
                self.same("or to give up", calls.fbcheck_framer_next(*words[:3]), status.NULL)

    def test_framers_of_python(self):
        """What a loop leaves is kept for the next one, and a fault has what is known of it."""
        python, three = module(), [prefixed(b"1"), prefixed(b"22"), prefixed(b"333")]
        framer, stream = python.Framer(8), b"".join(three)
        for message in framer.messages(stream):
            break
        self.same("a loop that is left", message, three[0])
        self.same("leaves the rest of the piece", why(ValueError, framer.finish),
                  ("not all of the stream was gone through: messages() still has some of it",))
        self.same("to the next loop", list(framer.messages(stream[:3])), three[1:])
        framer.messages(stream[3:])
        self.same("also where none was begun", list(framer.messages()), three)
        self.same("and then it may end", framer.finish(), None)
        for kind in (bytes, bytearray, memoryview, lambda given: array.array("B", given)):
            self.same(f"a piece that is {type(kind(b'')).__name__}", list(framer.messages(kind(stream))), three)
        declared = lambda: list(framer.messages(three[0] + b"\5\0\0\0" + stream))
        self.same("one that is too long", why(python.Error, declared), ("OVERSIZE", "declared=5"))
        self.same("has failed", why(python.Error, framer.finish)[0], "FAILED")
        failed = python.Framer(8)
        list(failed.messages(b"\4\0\0\0abc"))
        try:
            failed.finish()
        except python.Error as error:
            self.same("another fault declares nothing", (error.verdict.status, error.declared), (15, None))

    def test_given_to_python(self):
        """Bytes may be given as anything that has bytes, and what has none is refused, as are wrong identifiers."""
        python = module()
        for kind in (bytes, bytearray, memoryview, lambda given: array.array("B", given)):
            name = type(kind(b"")).__name__
            with python.Verifier(kind(schemas.M)) as verifier:
                self.same(f"{name}: verify", verifier.verify(kind(ORC)).ok, True)
                told = verifier.verify_each(kind(ORC), [(0, len(ORC))])
                self.same(f"{name}: verify_each", [verdict.ok for verdict in told], [True])
                told = verifier.read(kind(ORC), verifier.resolve("name"))
                self.same(f"{name}: read", told, (python.Kind.TEXT, b"Orc"))
                self.same(f"{name}: an identifier", verifier.verify(ORC, python.Options(kind(b"NONE"))).reason, 5)
        for given, text in [(b"abc", "b'abc' has 3"), (b"", "b'' has 0"), (b"abcde", "b'abcde' has 5")]:
            told = why(ValueError, lambda: python.Options(ident=given))
            self.same(f"the identifier {given}", told, (f"a file identifier has 4 bytes, and {text}",))
        for given in (5, "text", None):
            for name, call in [("a schema", python.Verifier), ("a piece", python.Framer().messages)]:
                self.holds(f"{name} that is {given!r} is refused", why(TypeError, lambda: call(given)))
