"""The most memory that loading a schema file takes, whatever it has: its own bytes, and so many for each row."""

from tests.support.cases import Case
from tests.support.program import TOP, file_of, loaded

HOSTILE = loaded(TOP / "bench/hostile")

MIB = 2**20
SIZES = [MIB, 2400 * 1024]
# What a process has of its own, and of the one that starts it.
ITSELF = 12 * MIB
# The most bytes of a row, and of one of a union, itself or a member.
A_ROW = 165
OF_A_UNION = 95


def peak_of(data):
    """The most bytes of memory of a run that loads this schema file."""
    return HOSTILE.once(["--schema", file_of("hostile.bfbs", data)], b"").memory * MIB


def most_of(size, rows, each):
    """The most bytes for a schema file of this size, with so many rows of so many bytes each."""
    return ITSELF + 2 * size + each * rows


def rows_paid_by(size):
    """The most rows that a schema file of this size may have."""
    return 65_536 + size // 4


def unions(size, values):
    """A schema file of as many unions as its length pays for, which are all one, with members of these values."""
    count = min(rows_paid_by(size) // (len(values) + 1) - 1, 990_000 // (2 * len(values) + 1))
    layout = HOSTILE.begun(b"BFBS").table("root", {4: "objects", 6: "unions"})
    layout.vector("objects", ["object"]).table("object", {4: "text", 6: "none"})
    layout.vector("unions", ["union"] * count).union("union", "text", "members", "none").vector("none", [])
    layout.vector("members", [f"member {value}" for value in values])
    for value in values:
        layout.member(f"member {value}", f"name {value}", value, "type")
    for value in values:
        layout.text(f"name {value}", b"%d" % value)
    return count, HOSTILE.padded(layout.text("text", b"T").object_type("type").bytes(), size)


class LoadMemory(Case):
    def test_the_most_of_each_shape(self):
        for shape in HOSTILE.FILES:
            for size in SIZES:
                data = shape.made(size)
                memory, most = peak_of(data), most_of(len(data), rows_paid_by(len(data)), A_ROW)
                self.holds(f"{shape.name}, {len(data)} bytes", memory <= most, (memory, most))

    def test_unions_take_room_for_their_members_alone(self):
        """Not for the values below the greatest that a member has."""
        for values in [255], [1], [1, 255], [2, 129, 255], range(128, 256):
            for size in SIZES:
                count, data = unions(size, values)
                memory, most = peak_of(data), most_of(size, count * (len(values) + 1), OF_A_UNION)
                self.holds(f"{count} unions of {len(values)} to {max(values)}", memory <= most, (memory, most))
