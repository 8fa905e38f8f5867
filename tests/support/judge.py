"""A judge of rows that only follows the demands on a schema, one after another: the first that is broken.

Rows are those that schemas.py makes schema files of. A demand is told by the number in its code, 2 for C2, the number
of the object or enum that breaks it, and the place of the field or member in its list, None where it's none of these.
"""

from tests.support.naive import OBJECT, SIZES, TEXT, UNION, VECTOR, number_at

U_TYPE, ARRAY = 1, 17
NO_OBJECT, NO_ENUM, UNSUPPORTED, BAD_SLOT, NO_TYPE_FIELD, BAD_STRUCT, BAD_MEMBER, NAME_TWICE = range(1, 9)


def first_broken(objects, enums):
    """Objects in rising number, and then the unions among the enums."""
    for number, row in enumerate(objects):
        found = broken_object(objects, enums, number, row)
        if found:
            return found
    for number, row in enumerate(enums):
        for place, member in enumerate(row[1]):
            code = number_at(row, 2) and broken_member(objects, row[1][:place], member)
            if code:
                return code, number, place
    return None


def broken_object(objects, enums, number, row):
    """A name of its own, a struct's size and alignment, and then the fields in the order of the list."""
    if any(other[0] == row[0] for other in objects[:number]):
        return NAME_TWICE, number, None
    is_struct = number_at(row, 2)
    if is_struct and (number_at(row, 4) < 1 or number_at(row, 3) not in [2**power for power in range(9)]):
        return BAD_STRUCT, number, None
    for place, field in enumerate(row[1]):
        if any(other[0] == field[0] for other in row[1][:place]):
            return NAME_TWICE, number, place
        in_owner = broken_in_struct if is_struct else broken_in_table
        code = in_owner(objects, enums, row, place, field)
        if code:
            return code, number, place
    return None


def type_of(row, field=1):
    """A type's base, element, index and length; that of no type is none."""
    kind = row.get(field, {2: ("i", -1)})
    return [number_at(kind, part) for part in range(4)]


def there(rows, index):
    """The row with this number, None where there is none."""
    return rows[index] if 0 <= index < len(rows) else None


def is_scalar(base):
    return 1 <= base < len(SIZES)


def broken_in_struct(objects, _, owner, __, field):
    """A scalar, a struct or an array of these that ends within the struct."""
    base, element, index, length = type_of(field)
    held, count = (element, length) if base == ARRAY else (base, 1)
    if is_scalar(held):
        size = SIZES[held]
    elif held != OBJECT:
        return BAD_STRUCT
    elif there(objects, index) is None:
        return NO_OBJECT
    elif not number_at(objects[index], 2):
        return BAD_STRUCT
    else:
        size = number_at(objects[index], 4)
    return BAD_STRUCT if number_at(field, 3) + count * size > number_at(owner, 4) else None


def broken_in_table(objects, enums, owner, place, field):
    """A slot of its own; and of a live field a type that tables have, which names what it should."""
    slot = number_at(field, 3)
    if slot % 2 or slot < 4 or any(number_at(other, 3) == slot for other in owner[1][:place]):
        return BAD_SLOT
    if number_at(field, 6):
        return None
    base, element, index, _ = type_of(field)
    held = element if base == VECTOR else base
    if number_at(field, 13) or not is_scalar(held) and held not in (TEXT, OBJECT, UNION):
        return UNSUPPORTED
    if held == OBJECT and there(objects, index) is None:
        return NO_OBJECT
    if held == UNION:
        if not there(enums, index) or not number_at(enums[index], 2):
            return NO_ENUM
        types = (VECTOR, U_TYPE) if base == VECTOR else (U_TYPE,)
        below = [other for other in owner[1] if number_at(other, 3) + 2 == slot and not number_at(other, 6)]
        if not any(tuple(type_of(other)[: len(types)]) == types for other in below):
            return NO_TYPE_FIELD
    return None


def broken_member(objects, earlier, member):
    """A value of one byte that no earlier member has; where it isn't 0, also a name of its own, and a table, a struct
    or a text."""
    value = number_at(member, 1)
    if not 0 <= value <= 255 or any(number_at(other, 1) == value for other in earlier):
        return BAD_MEMBER
    if value == 0:
        return None
    if any(number_at(other, 1) and other[0] == member[0] for other in earlier):
        return NAME_TWICE
    base, _, index, _ = type_of(member, 3)
    if base == OBJECT and there(objects, index) is None:
        return NO_OBJECT
    return None if base in (TEXT, OBJECT) else BAD_MEMBER
