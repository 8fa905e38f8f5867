"""Paths by the rows alone: the pieces of which they are written, and the steps that they are or the fault in them."""

from tests.support.naive import ARRAY, ELEMENT, FIELD, MEMBER, OBJECT, UNION, VECTOR, kind_of

NO_FIELD, NO_VECTOR, NO_UNION, NO_MEMBER, NO_TABLE = range(2, 7)
NUMBERS = [0, 1, 2**32 - 1]


def pieces_of(names):
    """A piece for each of these names as a field's, and as a member's, and for some numbers of elements."""
    return [*[(FIELD, name) for name in names], *[(MEMBER, name) for name in names],
            *[(ELEMENT, number) for number in NUMBERS]]


def names_in(objects, enums):
    """The names of all fields and members, each once, but for the empty one, which no path can have."""
    return sorted({row[0] for owner in [*objects, *enums] for row in owner[1]} - {""})


def piece_text(piece):
    kind, word = piece
    return f".{word}" if kind == FIELD else f"@{word}" if kind == MEMBER else f"[{word}]"


def text_of(pieces):
    """The path that these pieces make, of which the first is a field's name."""
    return "".join(map(piece_text, pieces))[1:]


def next_step(schema, kind, piece):
    """The step that a piece is at a value of this type, with the type to which it leads; or the number of the fault."""
    what, word = piece
    if what == FIELD:
        if kind.base != OBJECT:
            return NO_TABLE
        parts = schema.parts[kind.index]
        fields = schema.tables[kind.index] if parts is None else parts
        found = [(place, field) for place, field in enumerate(fields) if field.name == word]
        if not found:
            return NO_FIELD
        place, field = found[0]
        return (FIELD, (field.slot - 4) // 2 if parts is None else place), field
    if what == ELEMENT:
        return ((ELEMENT, word), kind_of(kind.element, kind.index)) if kind.base in (VECTOR, ARRAY) else NO_VECTOR
    if kind.base != UNION:
        return NO_UNION
    found = [value for value, member in schema.unions[kind.index].items() if member.name == word]
    return ((MEMBER, found[0]), schema.unions[kind.index][found[0]]) if found else NO_MEMBER


def resolved(schema, root, pieces):
    """The steps of a path from this table; or the number of the first fault, and that of its step."""
    return walked(schema, kind_of(OBJECT, root), [], pieces)[0]


def walked(schema, kind, steps, pieces):
    """The same where these steps lead to this type, and the type to which all lead, None where there is a fault."""
    for piece in pieces:
        found = next_step(schema, kind, piece)
        if isinstance(found, int):
            return (found, len(steps)), None
        step, kind = found
        steps = [*steps, step]
    return steps, kind


def told(python, verifier, text):
    """What the library tells of a path, in the same words."""
    try:
        return verifier.resolve(text).numbers()
    except python.Error as error:
        verdict = error.verdict
        return (verdict.reason, verdict.at) if verdict.status == python.Status.BAD_PATH else error


def ways(python, verifier, schema, root, names, longest):
    """The paths of up to so many steps that resolve, with their steps, and what is told otherwise than it should be.

    Each path that resolves is asked with each piece behind it.
    """
    found, differing, front = [], [], [([], [], kind_of(OBJECT, root))]
    pieces = [(piece, piece_text(piece)) for piece in pieces_of(names)]
    for length in range(longest):
        following = []
        for before, steps, kind in front:
            text_before = text_of(before)
            for piece, text in pieces if length else pieces[: len(names)]:
                text = text_before + text if length else text[1:]
                want, end = walked(schema, kind, steps, [piece])
                got = told(python, verifier, text)
                if got != want:
                    differing.append((text, got, want))
                elif end is not None:
                    following.append(([*before, piece], want, end))
        found += [(path, steps) for path, steps, _ in following]
        front = following
    return found, differing
