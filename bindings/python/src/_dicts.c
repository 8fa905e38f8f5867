/*
 * Whole tables as dicts.
 *
 * Each position is tested before it is read, whatever a check said before. Nothing goes as deep as tables lie one in
 * another: one that an offset leads to is begun, and its fields are filled in later. What several offsets lead to is
 * made once, and the bytes are counted of which something is made. So it takes time and memory in proportion to the
 * message.
 */
#include "_shapes.h"

/* The bytes that a dict may be made of: so many times those of the message and of so many more. That is enough for any
   message whose parts lie apart, as they do if no hostile one made them overlap. */
#define TIMES 4
#define MORE 64

/* After how many dicts and elements others may run, and signals are looked at. */
#define TURN 16384

/* What was made of a place, by what is read there; of a vector of unions, `other` is the place of the types. */
typedef struct {
    PyObject *made;
    uint32_t at, other, index, next;
    char form, element;
} Known;

/* A dict whose parts are still to be filled in. */
typedef struct {
    PyObject *into;
    const Shape *shape;
    uint64_t at;
} Open;

/* What a walk is at. `heads` has twice as many elements as there is room for in `known`: where a chain of these begins,
   as their places from 1. */
typedef struct {
    Schema *schema;
    const Shapes *shapes;
    const uint8_t *bytes;
    uint64_t length, left;
    Known *known;
    uint32_t *heads;
    uint32_t known_count, known_room;
    Open *open;
    size_t open_count, open_room;
    uint32_t turns;
} Walk;

/* Raises that the bytes aren't those of a good message. */
static int changed(const Walk *on)
{
    refused(on->schema, FBCHECK_CHANGED);
    return 0;
}

/* Whether so many bytes of a place are inside. */
static inline int is_inside(const Walk *on, uint64_t at, uint64_t size)
{
    return (at <= on->length && size <= on->length - at) || changed(on);
}

/* Copies the bytes of a place. */
static inline int get(const Walk *on, uint64_t at, void *into, size_t size)
{
    if (!is_inside(on, at, size))
        return 0;
    memcpy(into, on->bytes + at, size);
    return 1;
}

/* Tells where an offset leads. */
static int follow(const Walk *on, uint64_t at, uint64_t *to)
{
    uint32_t offset;
    if (!get(on, at, &offset, sizeof offset))
        return 0;
    *to = at + offset;
    return (offset != 0 && *to < on->length) || changed(on);
}

/* Counts bytes of which something is made. */
static int pay(Walk *on, uint64_t size)
{
    if (size > on->left) {
        PyErr_SetString(on->schema->overlap, "parts of the message overlap, and are longer than four messages");
        return 0;
    }
    on->left -= size;
    return 1;
}

/* Lets others run and looks at signals, now and then. */
static int take_turn(Walk *on)
{
    if (++on->turns % TURN != 0)
        return 1;
    Py_BEGIN_ALLOW_THREADS
    Py_END_ALLOW_THREADS
    return PyErr_CheckSignals() == 0;
}

/* ---- what is known ---- */

/* Where the chain of this begins. */
static uint32_t *head_of(const Walk *on, const Known *key)
{
    const uint64_t *salts = on->shapes->salts;
    uint64_t sum = salts[0] * key->at + salts[1] * key->other + salts[2] * key->index;
    sum += salts[3] * ((uint32_t)(uint8_t)key->form << 8 | (uint8_t)key->element);
    return on->heads + ((uint32_t)(sum >> 32) & (2 * on->known_room - 1));
}

/* What was made of a place before, or null. */
static PyObject *known_of(const Walk *on, const Known *key)
{
    uint32_t at = on->known_room != 0 ? *head_of(on, key) : 0;
    while (at != 0) {
        const Known *one = on->known + at - 1;
        if (one->at == key->at && one->other == key->other && one->index == key->index && one->form == key->form &&
            one->element == key->element)
            return one->made;
        at = one->next;
    }
    return NULL;
}

/* Makes room for twice as many. */
static int more_known(Walk *on)
{
    uint32_t at, room = on->known_room != 0 ? 2 * on->known_room : 16;
    Known *known = room < UINT32_MAX / 4 ? realloc(on->known, room * sizeof *known) : NULL;
    uint32_t *heads = known != NULL ? calloc(2 * (size_t)room, sizeof *heads) : NULL;
    if (known != NULL)
        on->known = known;
    if (heads == NULL) {
        PyErr_NoMemory();
        return 0;
    }
    free(on->heads);
    on->heads = heads;
    on->known_room = room;
    for (at = 0; at < on->known_count; at++) {
        uint32_t *head = head_of(on, known + at);
        known[at].next = *head;
        *head = at + 1;
    }
    return 1;
}

/* Keeps what was made of a place. */
static int keep(Walk *on, const Known *key, PyObject *made)
{
    uint32_t *head;
    if (on->known_count == on->known_room && !more_known(on))
        return 0;
    head = head_of(on, key);
    on->known[on->known_count] = *key;
    on->known[on->known_count].made = Py_NewRef(made);
    on->known[on->known_count].next = *head;
    *head = ++on->known_count;
    return 1;
}

/* ---- what is made ---- */

static PyObject *value_at(Walk *on, const Kind *kind, uint64_t at);

/* How many bytes an element of a vector or array has. */
static uint64_t size_of(const Walk *on, char element, uint32_t index)
{
    switch (element) {
    case STRUCT:
        return on->shapes->shapes[index].size;
    case '?':
    case 'b':
    case 'B':
    case TYPE:
        return 1;
    case 'h':
    case 'H':
        return 2;
    case 'q':
    case 'Q':
    case 'd':
        return 8;
    default:
        return 4;
    }
}

/* A number by its letter. */
static PyObject *number_at(const Walk *on, char form, uint64_t at)
{
    union {
        uint8_t B;
        int8_t b;
        uint16_t H;
        int16_t h;
        uint32_t I;
        int32_t i;
        uint64_t Q;
        int64_t q;
        float f;
        double d;
    } it;
    if (!get(on, at, &it, (size_t)size_of(on, form, 0)))
        return NULL;
    switch (form) {
    case '?':
        return PyBool_FromLong(it.B != 0);
    case 'b':
        return PyLong_FromLong(it.b);
    case 'B':
        return PyLong_FromLong(it.B);
    case 'h':
        return PyLong_FromLong(it.h);
    case 'H':
        return PyLong_FromLong(it.H);
    case 'i':
        return PyLong_FromLong(it.i);
    case 'I':
        return PyLong_FromUnsignedLong(it.I);
    case 'q':
        return PyLong_FromLongLong(it.q);
    case 'Q':
        return PyLong_FromUnsignedLongLong(it.Q);
    case 'f':
        return PyFloat_FromDouble(it.f);
    default:
        return PyFloat_FromDouble(it.d);
    }
}

/* Tells the length of a text or vector whose elements have this size, and counts its bytes. */
static int length_at(Walk *on, uint64_t at, uint64_t size, uint32_t *count)
{
    return get(on, at, count, sizeof *count) && is_inside(on, at + 4, *count * size) && pay(on, 4 + *count * size);
}

static PyObject *text_at(Walk *on, uint64_t at)
{
    uint32_t length;
    if (!length_at(on, at, 1, &length))
        return NULL;
    return PyUnicode_DecodeUTF8((const char *)on->bytes + at + 4, length, "surrogateescape");
}

static PyObject *bytes_at(Walk *on, uint64_t at)
{
    uint32_t length;
    if (!length_at(on, at, 1, &length))
        return NULL;
    return PyBytes_FromStringAndSize((const char *)on->bytes + at + 4, length);
}

/* Begins the dict of a table or struct, which is filled in later. */
static PyObject *begun(Walk *on, uint32_t index, uint64_t at)
{
    const Shape *shape = on->shapes->shapes + index;
    PyObject *made;
    if (on->open_count == on->open_room) {
        size_t room = on->open_room != 0 ? 2 * on->open_room : 16;
        Open *open = realloc(on->open, room * sizeof *open);
        if (open == NULL)
            return PyErr_NoMemory();
        on->open = open;
        on->open_room = room;
    }
    made = PyDict_Copy(shape->blank);
    if (made != NULL)
        on->open[on->open_count++] = (Open){ Py_NewRef(made), shape, at };
    return made;
}

/* Puts a value into a dict, unless it's null. */
static int put(PyObject *into, PyObject *name, PyObject *value)
{
    int is_put = value != NULL && PyDict_SetItem(into, name, value) == 0;
    Py_XDECREF(value);
    return is_put;
}

static int fill_struct(Walk *on, PyObject *into, const Shape *shape, uint64_t at)
{
    uint32_t number;
    for (number = 0; number < shape->count; number++) {
        const Part *part = shape->parts + number;
        if (!put(into, part->name, value_at(on, &part->kind, at + part->at)))
            return 0;
    }
    return 1;
}

/* A struct: one that has others in it is filled in later. */
static PyObject *struct_at(Walk *on, uint32_t index, uint64_t at)
{
    const Shape *shape = on->shapes->shapes + index;
    PyObject *made;
    if (!shape->is_flat)
        return begun(on, index, at);
    made = PyDict_Copy(shape->blank);
    if (made != NULL && !fill_struct(on, made, shape, at))
        Py_CLEAR(made);
    return made;
}

static PyObject *array_at(Walk *on, const Kind *kind, uint64_t at)
{
    Kind element = { kind->element, 0, kind->index, 0 };
    uint64_t size = size_of(on, kind->element, kind->index);
    PyObject *made = PyList_New(kind->count);
    uint32_t number;
    for (number = 0; made != NULL && number < kind->count; number++) {
        PyObject *value = value_at(on, &element, at + number * size);
        if (value == NULL || PyList_SetItem(made, number, value) != 0)
            Py_CLEAR(made);
    }
    return made;
}

static PyObject *shared_at(Walk *on, const Kind *kind, uint64_t at, uint64_t other);

/* The value of a union of this type, to which the offset at a place leads; None for no type, or an unknown one. */
static PyObject *union_at(Walk *on, uint32_t index, uint8_t type, uint64_t at)
{
    const Member *member = *on->shapes->unions[index] + type;
    uint64_t to;
    if (type == 0 || member->name == NULL || member->kind.form == NOTHING)
        return Py_NewRef(Py_None);
    if (!follow(on, at, &to))
        return NULL;
    return shared_at(on, &member->kind, to, 0);
}

/* An element of a vector; of unions, whose types have this place, or 0. */
static PyObject *element_at(Walk *on, const Kind *element, uint64_t at, uint64_t types, uint32_t number)
{
    uint8_t type = 0;
    if (element->form != UNION)
        return value_at(on, element, at);
    return types == 0 || get(on, types + 4 + number, &type, 1) ? union_at(on, element->index, type, at) : NULL;
}

static PyObject *vector_at(Walk *on, const Kind *kind, uint64_t at, uint64_t types)
{
    Kind element = { kind->element, 0, kind->index, 0 };
    uint64_t size = size_of(on, kind->element, kind->index);
    uint32_t number, count;
    PyObject *made;
    if (!length_at(on, at, size, &count))
        return NULL;
    made = PyList_New(count);
    for (number = 0; made != NULL && number < count; number++) {
        PyObject *value = take_turn(on) ? element_at(on, &element, at + 4 + number * size, types, number) : NULL;
        if (value == NULL || PyList_SetItem(made, number, value) != 0)
            Py_CLEAR(made);
    }
    return made;
}

/* What an offset leads to, made for the first one that does. */
static PyObject *shared_at(Walk *on, const Kind *kind, uint64_t at, uint64_t other)
{
    Known key = { NULL, (uint32_t)at, (uint32_t)other, kind->index, 0, kind->form, kind->element };
    PyObject *made = known_of(on, &key);
    if (made != NULL)
        return Py_NewRef(made);
    switch (kind->form) {
    case TEXT:
        made = text_at(on, at);
        break;
    case BYTES:
        made = bytes_at(on, at);
        break;
    case VECTOR:
        made = vector_at(on, kind, at, other);
        break;
    case STRUCT:
        made = pay(on, on->shapes->shapes[kind->index].size) ? struct_at(on, kind->index, at) : NULL;
        break;
    default:
        made = pay(on, 4) ? begun(on, kind->index, at) : NULL;
    }
    if (made != NULL && !keep(on, &key, made))
        Py_CLEAR(made);
    return made;
}

/* A value that stands at a place, or to which the offset there leads. A union needs its type: see part_at(). */
static PyObject *value_at(Walk *on, const Kind *kind, uint64_t at)
{
    uint64_t to;
    uint8_t type;
    switch (kind->form) {
    case STRUCT:
        return struct_at(on, kind->index, at);
    case ARRAY:
        return array_at(on, kind, at);
    case TYPE:
        return get(on, at, &type, 1) ? name_of_type(on->shapes, kind->index, type) : NULL;
    case TEXT:
    case BYTES:
    case TABLE:
    case VECTOR:
        return follow(on, at, &to) ? shared_at(on, kind, to, 0) : NULL;
    default:
        return number_at(on, kind->form, at);
    }
}

/* ---- tables ---- */

/* A table: where it is, and where its vtable is, of so many bytes. */
typedef struct {
    uint64_t at, slots;
    uint16_t size;
} Row;

static int row_at(const Walk *on, uint64_t at, Row *row)
{
    int32_t back;
    if (!get(on, at, &back, sizeof back))
        return 0;
    row->at = at;
    row->slots = at - (uint64_t)(int64_t)back;
    return get(on, row->slots, &row->size, sizeof row->size);
}

/* Tells where the field of a slot is, 0 if it is absent. */
static int field_at(const Walk *on, const Row *row, uint32_t slot, uint64_t *at)
{
    uint16_t offset = 0;
    if (slot + 2 <= row->size && !get(on, row->slots + slot, &offset, sizeof offset))
        return 0;
    *at = offset != 0 ? row->at + offset : 0;
    return 1;
}

/* Tells the type of a union by its slot, or where the types of a vector of unions are; 0 if they are absent. */
static int type_at(const Walk *on, const Row *row, const Part *part, uint8_t *type, uint64_t *types)
{
    uint64_t at;
    *type = 0;
    *types = 0;
    if (!field_at(on, row, part->at - 2, &at))
        return 0;
    if (at == 0)
        return 1;
    return part->kind.form == UNION ? get(on, at, type, 1) : follow(on, at, types);
}

/* The value of a field of a table that is at a place. */
static PyObject *part_at(Walk *on, const Row *row, const Part *part, uint64_t at)
{
    uint8_t type;
    uint64_t to, types;
    if (part->kind.form == STRUCT && !pay(on, on->shapes->shapes[part->kind.index].size))
        return NULL;
    if (part->kind.form != UNION && part->kind.element != UNION)
        return value_at(on, &part->kind, at);
    if (!type_at(on, row, part, &type, &types))
        return NULL;
    if (part->kind.form == UNION)
        return union_at(on, part->kind.index, type, at);
    return follow(on, at, &to) ? shared_at(on, &part->kind, to, types) : NULL;
}

static int fill_table(Walk *on, PyObject *into, const Shape *shape, uint64_t at)
{
    Row row;
    uint32_t number;
    if (!row_at(on, at, &row))
        return 0;
    for (number = 0; number < shape->count && shape->parts[number].at + 2 <= row.size; number++) {
        const Part *part = shape->parts + number;
        uint64_t place;
        if (!field_at(on, &row, part->at, &place))
            return 0;
        if (place != 0 && !put(into, part->name, part_at(on, &row, part, place)))
            return 0;
    }
    return 1;
}

/* Fills in all that was begun. */
static int fill_all(Walk *on)
{
    int is_filled = 1;
    while (is_filled && on->open_count != 0) {
        Open one = on->open[--on->open_count];
        is_filled = take_turn(on) && (one.shape->size != 0 ? fill_struct : fill_table)(on, one.into, one.shape, one.at);
        Py_DECREF(one.into);
    }
    return is_filled;
}

/* ---- paths ---- */

/* What a path has come to; where that is, if it is there. A union's offset is at `at`, with this type. */
typedef struct {
    Kind kind;
    int is_there;
    uint64_t at, types;
    uint8_t type;
} Spot;

/* Goes on to what stands at a place, or to which the offset there leads. */
static int go_to(const Walk *on, Spot *spot, Kind kind, uint64_t at)
{
    spot->kind = kind;
    spot->at = at;
    if (!spot->is_there || (kind.form != TABLE && kind.form != VECTOR))
        return 1;
    return follow(on, at, &spot->at);
}

/* The part of this number, or null. */
static const Part *part_of_number(const Shape *shape, uint32_t number)
{
    uint32_t at;
    for (at = 0; at < shape->count; at++)
        if (shape->parts[at].number == number)
            return shape->parts + at;
    return NULL;
}

static int go_to_field(const Walk *on, Spot *spot, uint32_t number)
{
    const Shape *shape = on->shapes->shapes + spot->kind.index;
    const Part *part = part_of_number(shape, number);
    uint64_t at = 0;
    Row row;
    if (part == NULL)
        return 0;
    if (shape->size != 0)
        return go_to(on, spot, part->kind, spot->at + part->at);
    if (spot->is_there && (!row_at(on, spot->at, &row) || !field_at(on, &row, part->at, &at)))
        return 0;
    spot->is_there &= at != 0;
    if (spot->is_there && (part->kind.form == UNION || part->kind.element == UNION) &&
        !type_at(on, &row, part, &spot->type, &spot->types))
        return 0;
    return go_to(on, spot, part->kind, at);
}

static int go_to_element(const Walk *on, Spot *spot, uint32_t number)
{
    Kind element = { spot->kind.element, 0, spot->kind.index, 0 };
    uint64_t at = spot->at, size = size_of(on, element.form, element.index);
    uint32_t count = spot->kind.count;
    if (spot->kind.form == VECTOR && spot->is_there && !get(on, at, &count, sizeof count))
        return 0;
    at += (spot->kind.form == VECTOR ? 4 : 0) + number * size;
    spot->is_there &= number < count;
    if (spot->is_there && element.form == UNION) {
        spot->is_there = spot->types != 0;
        if (spot->is_there && !get(on, spot->types + 4 + number, &spot->type, 1))
            return 0;
    }
    return go_to(on, spot, element, at);
}

/* To the member of this value; the offset of a struct or table is followed. */
static int go_to_member(const Walk *on, Spot *spot, uint32_t value)
{
    const Member *member = *on->shapes->unions[spot->kind.index] + (uint8_t)value;
    uint64_t at = spot->at;
    spot->is_there &= spot->type == value;
    spot->kind = member->kind;
    return !spot->is_there || follow(on, at, &spot->at);
}

/* Goes one step, and tells whether there was no fault. */
static int go(const Walk *on, Spot *spot, const fbcheck_step *step)
{
    char form = spot->kind.form;
    int is_done = 0;
    if (step->kind == FBCHECK_STEP_FIELD && (form == TABLE || form == STRUCT))
        is_done = go_to_field(on, spot, step->number);
    else if (step->kind == FBCHECK_STEP_ELEMENT && (form == VECTOR || form == ARRAY))
        is_done = go_to_element(on, spot, step->number);
    else if (step->kind == FBCHECK_STEP_MEMBER && form == UNION)
        is_done = go_to_member(on, spot, step->number);
    else if (step->kind == FBCHECK_STEP_ELEMENT && form == BYTES) {
        spot->kind.form = 'B';
        is_done = 1;
    }
    if (!is_done && !PyErr_Occurred())
        refused(on->schema, FBCHECK_MISFIT);
    return is_done;
}

/* Begins the dict of what a path leads to; None if it isn't there. */
static PyObject *begun_at(Walk *on, const fbcheck_path *path)
{
    Spot spot = { { TABLE, 0, on->schema->root, 0 }, 1, 0, 0, 0 };
    uint32_t step;
    if (!follow(on, on->schema->options.prefixed ? 4 : 0, &spot.at))
        return NULL;
    for (step = 0; step < path->count; step++)
        if (!go(on, &spot, path->steps + step))
            return NULL;
    if (spot.kind.form != TABLE && spot.kind.form != STRUCT) {
        PyErr_SetString(on->schema->path_error, "to_dict() takes a path to a table or a struct");
        return NULL;
    }
    return spot.is_there ? begun(on, spot.kind.index, spot.at) : Py_NewRef(Py_None);
}

/* The dict of what a path leads to in a message. */
static PyObject *dict_of(Schema *self, const uint8_t *bytes, size_t length, const fbcheck_path *path)
{
    Walk on = { .schema = self, .shapes = self->shapes, .bytes = bytes, .length = length };
    PyObject *made;
    on.left = TIMES * (on.length + MORE);
    made = begun_at(&on, path);
    if (made != NULL && !fill_all(&on))
        Py_CLEAR(made);
    while (on.open_count != 0)
        Py_DECREF(on.open[--on.open_count].into);
    while (on.known_count != 0)
        Py_DECREF(on.known[--on.known_count].made);
    free(on.open);
    free(on.known);
    free(on.heads);
    return made;
}

PyObject *schema_to_dict(Schema *self, PyObject *message)
{
    static const fbcheck_path root = { 0, 0, { { 0, 0 } } };
    Check check;
    uint32_t status;
    PyObject *made;
    if (!are_shaped(self) || begin(self, message, &check) != 0)
        return NULL;
    status = fbcheck_verify(self->schema, check.scratch, &self->options, check.bytes, (size_t)check.view.len, NULL);
    if (status == FBCHECK_BAD)
        return raised(self, located(self, &check));
    resume(&check);
    made = status == FBCHECK_OK ? dict_of(self, check.bytes, (size_t)check.view.len, &root) : refused(self, status);
    end(self, &check);
    return made;
}

PyObject *view_to_dict(View *self, PyObject *const *words, Py_ssize_t count)
{
    fbcheck_path path = { 0, 0, { { 0, 0 } } };
    Letters letters;
    if (count > 1) {
        PyErr_SetString(PyExc_TypeError, "to_dict() takes one path");
        return NULL;
    }
    if (count == 1 && !(PyUnicode_Check(words[0]) && PyUnicode_GetLength(words[0]) == 0) &&
        copy_single(self->schema, words[0], &path, &letters) != 0)
        return NULL;
    if (!are_shaped(self->schema))
        return NULL;
    return dict_of(self->schema, self->buffer.buf, (size_t)self->buffer.len, &path);
}
