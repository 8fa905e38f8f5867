"""Small messages by the schemas of tests/generated, worked out as values, and what is done to their bytes."""

import json
import struct

from tests.support.builder import Plain, buffer

SPOT = Plain(struct.pack("<hxxxxxxq", -2, 7), 8)
PAIR = struct.pack("<bxxxi", -1, 70_000)
ROW = struct.pack("<Bx3h8s8sQ", 4, 1, -2, 3, PAIR, PAIR, 2**40)


def inside(fields):
    """The value of a field whose bytes hold a buffer with this root."""
    data = buffer(fields)
    return Plain(data, 8, len(data))


# By unions.fbs: types that are known, unknown and absent, of texts, a struct and tables, and of nothing.
UNIONS = [
    {
        0: ("B", 1), 1: {1: "ab"}, 2: {0: {0: ("i", 5)}}, 3: ("B", 3), 4: SPOT, 5: Plain(bytes([1, 3, 7, 0, 200, 9]), 1, 6),
        6: [{0: ("i", 1)}, SPOT, "text", None, "beyond", {0: ("B", 7), 1: "w"}],
        7: {0: ("B", 7), 1: "w", 4: {}, 5: [{}, {6: ["", "x"]}]}, 8: "name",
    },
    {0: ("B", 200), 1: "what", 4: "untyped"},
    {7: {4: {0: ("B", 9), 1: {4: {}}}, 5: [{}, {0: ("B", 1), 1: {}}]}},
    {5: Plain(bytes([0, 7]), 1, 2), 6: [None, ""], 3: ("B", 0)},
    {2: {1: Plain(struct.pack("<2I", 1, 2), 4, 2)}, 7: {2: Plain(b"", 1, 0), 3: []}},
]

INNER = {0: {0: ("I", 7), 1: "in"}, 1: ("B", 3), 2: "word"}
TWICE_INSIDE = {1: ("B", 4), 2: {3: inside({})}, 3: inside({1: ("B", 200), 2: "x"})}

# By kinds.fbs: all fields, few of them, buffers inside, a deprecated field, and the value of an unknown type.
KINDS = [
    {
        0: ("B", 1), 1: ("b", -1), 2: ("B", 9), 3: ("h", 300), 4: ("H", 5), 5: ("B", 4), 6: ("q", 7), 7: ("d", 1.5),
        8: ("f", 2.5), 9: ("8s", PAIR), 10: ("32s", ROW), 11: "name", 12: {0: ("I", 1)}, 13: Plain(b"abc", 1, 3),
        14: Plain(b"\1\0", 1, 2), 15: Plain(struct.pack("<q", -1), 8, 1), 16: Plain(b"\5", 1, 1), 17: Plain(PAIR, 4, 1),
        18: Plain(ROW, 8, 1), 19: ["one", ""], 20: [{0: ("I", 2), 1: "w"}], 21: ("B", 5), 22: Plain(ROW, 8),
        23: Plain(bytes([1, 2, 3, 4, 5, 0, 99]), 1, 7),
        24: [{}, Plain(PAIR, 4), "text", {0: {}}, Plain(ROW, 8), None, "beyond"], 27: inside(INNER), 29: ("i", 9),
    },
    {11: "n", 27: inside({})},
    {11: "", 21: ("B", 3), 22: "one", 23: Plain(bytes([2, 4]), 1, 2), 24: [Plain(PAIR, 4), {0: {1: "é"}}]},
    {11: "n", 22: "untyped", 25: "old", 26: Plain(b"old", 1, 3)},
    {11: "n", 27: inside(TWICE_INSIDE), 29: ("i", 1)},
    {11: "n", 20: [{}, {}], 21: ("B", 4), 22: {1: ("B", 1), 2: {}}},
]

LEAF = {0: ("q", 5), 1: "leaf"}
NODE = {0: inside(LEAF), 1: inside({2: {5: [{}]}}), 3: ("B", 2), 4: "word"}

# By nests.fbs.
NESTS = [
    {0: inside(NODE), 6: inside(LEAF)},
    {0: inside({}), 1: {1: inside({1: inside({1: inside({})})})}},
    {0: inside({2: {}}), 2: ("B", 1), 3: {0: inside(LEAF)}, 4: Plain(bytes([1, 2, 9]), 1, 3), 5: [{7: inside({})}, "w", ""]},
    {0: inside({5: [{}, {1: inside({3: ("B", 1), 4: {}})}]})},
]

VALUES = {"unions": UNIONS, "kinds": KINDS, "nests": NESTS}
MESSAGES = {name: [buffer(fields) for fields in values] for name, values in VALUES.items()}
# The same behind their lengths.
PREFIXED = {name: [buffer(fields, prefix=True) for fields in values] for name, values in VALUES.items()}

# Such as JSON, of which flatc makes buffers as its builder lays them out: from the end, with shared vtables.
NESTED_NODE = {"leaf": {"number": 5, "word": "leaf"}, "node": {"below": {"nodes": [{}, {}]}}, "choice_type": "Word", "choice": "w"}
IN_JSON = {
    "unions": [
        {
            "first_type": "Leaf", "first": {"word": "ab", "spots": [{"x": 1, "y": 2}]}, "second_type": "Spot",
            "second": {"x": 3, "y": 4}, "many_type": ["Word", "Holder", "Spot"],
            "many": ["text", {"one_type": "Leaf", "one": {}}, {"x": 5, "y": 6}],
            "holder": {"next": {"words": ["", "x"]}, "list": [{}, {}]}, "name": "name",
        },
    ],
    "kinds": [
        {
            "name": "name", "pair": {"first": 1, "second": 2}, "words": ["a", "b"], "leaves": [{"id": 1}, {"id": 2, "word": "w"}],
            "one_type": "Inner", "one": {"any_type": "Pair", "any": {"first": 3, "second": 4}}, "longs": [1, 2],
            "inside": {"leaf": {"id": 3}, "deeper": {"any_type": "Word", "any": "w", "deeper": {}}}, "last": 5,
        },
    ],
    "nests": [
        {
            "payload": NESTED_NODE, "node": {"bytes": [1, 2], "node": NESTED_NODE}, "choices_type": ["Node", "Word"],
            "choices": [{"leaf": {"word": ""}}, "w"],
        },
    ],
}
TEXTS = {name: [json.dumps(value) for value in values] for name, values in IN_JSON.items()}


def every_byte(message):
    """The message with each byte changed to every other value."""
    for at, byte in enumerate(message):
        for other in range(256):
            if other != byte:
                yield message[:at] + bytes([other]) + message[at + 1 :]


def cut(message):
    """The message cut off everywhere."""
    return (message[:length] for length in range(len(message)))


# Words that are worth being tried wherever one stands.
HALVES = [0, 1, 2, 3, 4, 5, 6, 8, 12, 16, 0xFFFF, 0xFFFE, 0x7FFF, 0x8000]
WORDS = [*HALVES, 0xFFFFFFFF, 0xFFFFFFFC, 0x7FFFFFFF, 0x80000000, 0xFFFF0000]


def words_changed(dice, message):
    """The message with some words and slots changed at random, now and then to one that leads about as far as its end,
    or to what another word of it has."""
    data = bytearray(message)
    for _ in range(1 + dice.below(4)):
        size = 4 if dice.once_in(2) else 2
        at = dice.below(len(data) // size) * size
        near = [0, 1, 4, 8, dice.below(len(data)), len(data) - at, len(data) - at - 1, len(data) - at - 4]
        source = dice.below(len(data) // size) * size
        other = int.from_bytes(data[source : source + size], "little")
        word = dice.choice([dice.choice(HALVES if size == 2 else WORDS), dice.choice(near), dice.choice(near), other])
        data[at : at + size] = (word % 256**size).to_bytes(size, "little")
    return bytes(data)


def bytes_changed(dice, message):
    """The message with some bytes changed at random."""
    data = bytearray(message)
    for _ in range(1 + dice.below(4)):
        data[dice.below(len(data))] = dice.choice([dice.below(256), dice.below(16), dice.below(64), 0, 4])
    return bytes(data[: dice.below(len(data))] if dice.once_in(40) else data)
