/*
 * Columns of what is read of the messages of a stream: memory that whatever has the buffer protocol takes without a
 * copy.
 */
#include "_fbcheck.h"

#include <math.h>

/* How many bytes are gone through between two looks at signals. */
#define PART ((size_t)1 << 20)

/* Of how many bad messages the verdicts are kept. */
#define MOST_VERDICTS 1000

/* ---- columns ---- */

/* So many numbers of one format; `valid` tells by a byte of each whether it is there, or is None where all are. */
typedef struct {
    PyObject_HEAD
    char *bytes; /* null where there is none */
    Py_ssize_t count, size;
    char format[2];
    PyObject *valid;
} Column;

/* Bytes that grow. */
typedef struct {
    char *bytes;
    size_t used, room;
} Growing;

/* What a letter of _formats.py asks for: the kind of its values, and the format and size of the numbers that are kept:
   of a text, a struct or a vector the place where its bytes end. */
typedef struct {
    char letter, format;
    uint32_t kind;
    size_t size;
} Form;

static const Form forms[] = {
    { '?', '?', FBCHECK_BOOL, 1 },  { 'b', 'b', FBCHECK_INT, 1 },    { 'h', 'h', FBCHECK_INT, 2 },
    { 'i', 'i', FBCHECK_INT, 4 },   { 'q', 'q', FBCHECK_INT, 8 },    { 'B', 'B', FBCHECK_UINT, 1 },
    { 'H', 'H', FBCHECK_UINT, 2 },  { 'I', 'I', FBCHECK_UINT, 4 },   { 'Q', 'Q', FBCHECK_UINT, 8 },
    { 'f', 'f', FBCHECK_FLOAT, 4 }, { 'd', 'd', FBCHECK_FLOAT, 8 },  { 'n', 'I', FBCHECK_VECTOR, 4 },
    { 's', 'q', FBCHECK_TEXT, 8 },  { 'r', 'q', FBCHECK_STRUCT, 8 }, { 'v', 'q', FBCHECK_VECTOR, 8 },
};

/* A column in the making. */
typedef struct {
    const Form *form;
    char element;    /* the format of the numbers in a vector, else 'B', */
    size_t width;    /* and the size of one */
    size_t count;
    Growing numbers; /* each value, or the place where it ends, in elements, behind a 0 */
    Growing data;    /* the bytes of texts, structs and vectors */
    Growing valid;   /* empty where no value is missing */
} Making;

/* What was told of a bad message; its place has so many bytes. */
typedef struct {
    fbcheck_verdict told;
    size_t length;
} Bad;

/* What a call is at: the columns, and the message that comes. */
typedef struct {
    Schema *schema;
    fbcheck_scratch *scratch;
    Messages *from;
    uint8_t *copy; /* null until a piece comes that may be written */
    size_t count;
    fbcheck_path *paths;
    fbcheck_value *values;
    Making *columns;
    int skips;
    Growing starts;                            /* where each good message begins in the stream, */
    Growing skipped, skipped_starts, reasons;  /* of the bad ones their numbers, and why they are bad, */
    Growing bad, places;                       /* and what was told of the first ones */
} Gathering;

/* Makes room for so many bytes more than are there; 0 where memory is refused. */
static int grow(Growing *to, size_t size)
{
    size_t room = to->used + size > 2 * to->room ? to->used + size + 64 : 2 * to->room;
    char *bytes = size < PY_SSIZE_T_MAX - to->used - 64 ? realloc(to->bytes, room) : NULL;
    if (bytes == NULL)
        return 0;
    to->bytes = bytes;
    to->room = room;
    return 1;
}

/* Room for so many bytes more behind those that are there; null where memory is refused. */
static inline char *more(Growing *to, size_t size)
{
    if ((to->bytes == NULL || size > to->room - to->used) && !grow(to, size))
        return NULL;
    to->used += size;
    return to->bytes + to->used - size;
}

/* The same with these bytes in it. */
static inline int add(Growing *to, const void *bytes, size_t size)
{
    char *room = more(to, size);
    if (room != NULL && size != 0)
        memcpy(room, bytes, size);
    return room != NULL;
}

/* Writes whether a value is there, once one is missing. */
static int add_valid(Making *to, int is_there)
{
    size_t before = to->valid.used == 0 ? to->count : 0;
    char *room;
    if (is_there && to->valid.used == 0)
        return 1;
    room = more(&to->valid, before + 1);
    if (room == NULL)
        return 0;
    memset(room, 1, before);
    room[before] = (char)is_there;
    return 1;
}

/* Whether a value is of the form's kind, as a float is by its default. */
static int is_of(const Form *form, const fbcheck_value *value)
{
    return value->kind == form->kind || (value->kind == FBCHECK_DEFAULT_FLOAT && form->kind == FBCHECK_FLOAT);
}

/* Whether a number is one of the form, as all are that the schema's own paths lead to. */
static int fits(const Form *form, const fbcheck_value *value)
{
    uint64_t half = (uint64_t)1 << (8 * form->size - 1);
    if (value->kind == FBCHECK_DEFAULT_FLOAT)
        return 1;
    if (form->kind == FBCHECK_FLOAT)
        return value->size == form->size;
    if (form->kind == FBCHECK_VECTOR)
        return value->at == 0; /* a vector without bytes of its own */
    if (form->kind == FBCHECK_INT)
        return form->size == 8 || (uint64_t)value->integer + half < 2 * half;
    return form->size == 8 || value->number < 2 * half;
}

/* Writes a float that isn't in the message: its default, or nan for one that is missing. */
static int add_float(Making *to, const fbcheck_value *value, int is_there)
{
    double whole = NAN;
    float single;
    if (is_there)
        memcpy(&whole, &value->number, sizeof whole);
    single = (float)whole;
    return to->form->size == sizeof single ? add(&to->numbers, &single, sizeof single)
                                           : add(&to->numbers, &whole, sizeof whole);
}

/* Writes a number of a message, or what stands for one that is missing. */
static uint32_t add_number(Making *to, const uint8_t *message, const fbcheck_value *value, int is_there)
{
    static const uint64_t zero = 0;
    const Form *form = to->form;
    const void *bytes = &zero;
    if (is_there && !fits(form, value))
        return FBCHECK_MISFIT;
    if (form->kind == FBCHECK_FLOAT && value->kind != FBCHECK_FLOAT)
        return add_float(to, value, is_there) ? FBCHECK_OK : FBCHECK_NO_MEMORY;
    if (form->kind == FBCHECK_FLOAT)
        bytes = message + value->at;
    else if (is_there)
        bytes = form->kind == FBCHECK_INT ? (const void *)&value->integer : &value->number;
    return add(&to->numbers, bytes, form->size) ? FBCHECK_OK : FBCHECK_NO_MEMORY;
}

/* Writes the bytes of a text, struct or vector, and where they end. */
static uint32_t add_bytes(Making *to, const uint8_t *message, const fbcheck_value *value, int is_there)
{
    int64_t end;
    if (is_there && (value->at == 0 || (to->width != 1 && value->size != value->number * to->width)))
        return FBCHECK_MISFIT;
    if (is_there && !add(&to->data, message + value->at, (size_t)value->size))
        return FBCHECK_NO_MEMORY;
    end = (int64_t)(to->data.used / to->width);
    return add(&to->numbers, &end, sizeof end) ? FBCHECK_OK : FBCHECK_NO_MEMORY;
}

/* Writes the values that were read of a message. */
static uint32_t add_values(Gathering *on)
{
    size_t at;
    for (at = 0; at < on->count; at++) {
        const fbcheck_value *value = on->values + at;
        Making *to = on->columns + at;
        int is_there = value->kind > FBCHECK_OTHER_MEMBER;
        uint32_t status;
        if (is_there && !is_of(to->form, value))
            return FBCHECK_MISFIT;
        status = (to->width != 0 ? add_bytes : add_number)(to, on->from->room, value, is_there);
        if (status != FBCHECK_OK)
            return status;
        if (!add_valid(to, is_there))
            return FBCHECK_NO_MEMORY;
        to->count++;
    }
    return FBCHECK_OK;
}

/* Keeps what was told of the bad message in the room, and of the first ones the verdict, by a second check for its
   place. */
static uint32_t add_bad(Gathering *on, const fbcheck_verdict *told)
{
    const Messages *from = on->from;
    char place[FBCHECK_LONGEST_PLACE];
    uint64_t number = from->count + 1;
    uint8_t reason = (uint8_t)told->reason;
    Bad bad = { .length = 0 };
    uint32_t status;
    if (!add(&on->skipped, &number, sizeof number) || !add(&on->skipped_starts, &from->begin, sizeof from->begin) ||
        !add(&on->reasons, &reason, sizeof reason))
        return FBCHECK_NO_MEMORY;
    if (on->bad.used == MOST_VERDICTS * sizeof bad)
        return FBCHECK_OK;
    status = fbcheck_locate(on->schema->schema, on->scratch, &on->schema->options, from->room, from->framer.held, place,
                            sizeof place, &bad.length, &bad.told);
    if (status != FBCHECK_BAD)
        return FBCHECK_FAILED;
    return add(&on->bad, &bad, sizeof bad) && add(&on->places, place, bad.length) ? FBCHECK_OK : FBCHECK_NO_MEMORY;
}

/* Checks and reads the message in the room, and goes past it. */
static uint32_t gather_message(Gathering *on)
{
    Messages *from = on->from;
    fbcheck_verdict told;
    uint32_t status = fbcheck_read(on->schema->schema, on->scratch, &on->schema->options, from->room, from->framer.held,
                                   on->paths, on->values, on->count, &told);
    int is_bad = status == FBCHECK_BAD;
    if (status == FBCHECK_OK)
        status = add(&on->starts, &from->begin, sizeof from->begin) ? add_values(on) : FBCHECK_NO_MEMORY;
    else if (is_bad)
        status = add_bad(on, &told);
    if (status == FBCHECK_OK)
        pass_message(from, !is_bad);
    return is_bad && status == FBCHECK_OK && !on->skips ? FBCHECK_BAD : status;
}

/* Goes through the messages that end in these bytes, and tells how many were taken. It ends by FBCHECK_MORE, or what
   keeps it from going on. */
static uint32_t gather(Gathering *on, const uint8_t *bytes, size_t length, size_t *taken)
{
    Messages *from = on->from;
    size_t used = 0;
    uint32_t status = FBCHECK_OK;
    *taken = 0;
    while (status == FBCHECK_OK) {
        status = fbcheck_framer_feed(&from->framer, from->room, from->size, bytes + *taken, length - *taken, &used);
        *taken += used;
        if (status != FBCHECK_OK)
            break;
        status = gather_message(on);
    }
    return status;
}

/* Goes through a part of the piece, of which what others may write is copied first. They run meanwhile, unless it is
   short. */
static uint32_t gather_part(Gathering *on, const Py_buffer *piece)
{
    Messages *from = on->from;
    size_t left = (size_t)piece->len - from->at, length = left < PART ? left : PART, taken;
    const uint8_t *bytes = (const uint8_t *)piece->buf + from->at;
    PyThreadState *others = NULL;
    uint32_t status;
    if (length != 0 && !piece->readonly && on->copy == NULL && (on->copy = malloc(PART)) == NULL)
        return FBCHECK_NO_MEMORY;
    if (is_long(on->schema, from->framer.held + length))
        others = PyEval_SaveThread();
    if (length != 0 && !piece->readonly)
        bytes = memcpy(on->copy, bytes, length);
    status = gather(on, bytes, length, &taken);
    if (others != NULL)
        PyEval_RestoreThread(others);
    from->at += taken;
    return status;
}

/* Goes through what is left of the piece. */
static uint32_t gather_piece(Gathering *on)
{
    Py_buffer piece;
    uint32_t status = FBCHECK_FAILED;
    if (get_piece(on->from, &piece) != 0)
        return status;
    do {
        status = gather_part(on, &piece);
        if (PyErr_CheckSignals() != 0)
            status = FBCHECK_FAILED;
    } while (status == FBCHECK_MORE && on->from->at < (size_t)piece.len);
    give_piece(on->from, &piece);
    return status;
}

/* Goes through all pieces. */
static uint32_t gather_all(Gathering *on)
{
    uint32_t status;
    do
        status = gather_piece(on);
    while (status == FBCHECK_MORE && ask_piece(on->from));
    return PyErr_Occurred() ? FBCHECK_FAILED : status;
}

/* ---- what is made of them ---- */

/* The numbers as a column of this class, which takes them over, as it does a reference to `valid`. */
static PyObject *column_of(PyObject *class, Growing *from, char format, size_t size, PyObject *valid)
{
    Column *made = valid != NULL ? (Column *)PyType_GenericAlloc((PyTypeObject *)class, 0) : NULL;
    char *exact = made != NULL && from->used != 0 ? realloc(from->bytes, from->used) : NULL;
    if (made == NULL) {
        Py_XDECREF(valid);
        return NULL;
    }
    made->bytes = exact != NULL ? exact : from->bytes;
    made->count = (Py_ssize_t)(from->used / size);
    made->size = (Py_ssize_t)size;
    made->format[0] = format;
    made->valid = valid;
    memset(from, 0, sizeof *from);
    return (PyObject *)made;
}

/* A view of a column without missing values. */
static PyObject *view_of(PyObject *class, Growing *from, char format, size_t size)
{
    PyObject *column = column_of(class, from, format, size, Py_NewRef(Py_None));
    PyObject *view = column != NULL ? PyMemoryView_FromObject(column) : NULL;
    Py_XDECREF(column);
    return view;
}

/* What a path has: a column, or of texts, structs and vectors a letter, their bytes, where each ends, and which are
   there. */
static PyObject *made_of(PyObject *class, Making *from)
{
    PyObject *valid = from->valid.used != 0 ? view_of(class, &from->valid, '?', 1) : Py_NewRef(Py_None);
    PyObject *data, *ends;
    if (from->width == 0)
        return column_of(class, &from->numbers, from->form->format, from->form->size, valid);
    data = valid != NULL ? view_of(class, &from->data, from->element, from->width) : NULL;
    ends = data != NULL ? view_of(class, &from->numbers, from->form->format, from->form->size) : NULL;
    return Py_BuildValue("CNNN", from->form->letter, data, ends, valid);
}

/* The verdicts on the first bad messages. */
static PyObject *verdicts_of(const Gathering *on)
{
    const Bad *bad = (const Bad *)on->bad.bytes;
    const char *place = on->places.bytes;
    size_t at, count = on->bad.used / sizeof *bad;
    PyObject *told = PyTuple_New((Py_ssize_t)count);
    for (at = 0; told != NULL && at < count; at++) {
        PyObject *verdict = judged(on->schema, &bad[at].told, place, bad[at].length);
        place += bad[at].length;
        if (verdict == NULL || PyTuple_SetItem(told, (Py_ssize_t)at, verdict) != 0)
            Py_CLEAR(told);
    }
    return told;
}

/* Numbers of all messages, which take over what is given. */
static PyObject *whole_column(PyObject *class, Growing *from, char format, size_t size)
{
    return column_of(class, from, format, size, Py_NewRef(Py_None));
}

/* How the stream ended, with what was read of it. */
static PyObject *told_of(Gathering *on, uint32_t status, PyObject *class)
{
    PyObject *columns = PyTuple_New((Py_ssize_t)on->count);
    size_t at;
    for (at = 0; columns != NULL && at < on->count; at++) {
        PyObject *one = made_of(class, on->columns + at);
        if (one == NULL || PyTuple_SetItem(columns, (Py_ssize_t)at, one) != 0)
            Py_CLEAR(columns);
    }
    return columns == NULL
               ? NULL
               : Py_BuildValue("INNNNNN", status, columns, whole_column(class, &on->starts, 'q', 8),
                               whole_column(class, &on->skipped, 'Q', 8),
                               whole_column(class, &on->skipped_starts, 'q', 8),
                               whole_column(class, &on->reasons, 'B', 1), verdicts_of(on));
}

/* The form of this letter, or null. */
static const Form *form_of(char letter)
{
    size_t at;
    for (at = 0; at < sizeof forms / sizeof *forms; at++)
        if (forms[at].letter == letter)
            return forms + at;
    return NULL;
}

/* The form of numbers that a memoryview calls so, or null with what that raises. */
static const Form *numbers_of(char letter)
{
    const Form *form = form_of(letter);
    if (form != NULL && form->format == letter)
        return form;
    PyErr_SetString(PyExc_ValueError, "no format of numbers");
    return NULL;
}

/* Begins a column with what its path leads to. */
static int begin_column(Making *to, Letters letters)
{
    static const int64_t first = 0;
    const Form *element = numbers_of(letters.element);
    if (element == NULL)
        return -1;
    to->form = form_of(letters.column);
    to->element = letters.element;
    if (to->form == NULL) {
        PyErr_SetString(PyExc_ValueError, "a path to what has no column");
        return -1;
    }
    if (to->form->format != 'q' || to->form->letter == 'q')
        return 0;
    to->width = element->size;
    if (add(&to->numbers, &first, sizeof first))
        return 0;
    PyErr_NoMemory();
    return -1;
}

/* Takes the room that a call needs; it is all given back by the end(), whatever this answers. */
static int begin_columns(Gathering *on, PyObject *paths)
{
    size_t at;
    Letters letters;
    on->paths = calloc(on->count + 1, sizeof *on->paths);
    on->values = calloc(on->count + 1, sizeof *on->values);
    on->columns = calloc(on->count + 1, sizeof *on->columns);
    if (on->paths == NULL || on->values == NULL || on->columns == NULL ||
        take_scratch(on->schema, &on->scratch) != 0) {
        PyErr_NoMemory();
        return -1;
    }
    for (at = 0; at < on->count; at++)
        if (copy_single(on->schema, PyTuple_GetItem(paths, (Py_ssize_t)at), on->paths + at, &letters) != 0 ||
            begin_column(on->columns + at, letters) != 0)
            return -1;
    return 0;
}

static void end_columns(Gathering *on)
{
    size_t at;
    for (at = 0; on->columns != NULL && at < on->count; at++) {
        free(on->columns[at].numbers.bytes);
        free(on->columns[at].data.bytes);
        free(on->columns[at].valid.bytes);
    }
    free(on->columns);
    free(on->values);
    free(on->paths);
    free(on->copy);
    free(on->starts.bytes);
    free(on->skipped.bytes);
    free(on->skipped_starts.bytes);
    free(on->reasons.bytes);
    free(on->bad.bytes);
    free(on->places.bytes);
    give_scratch(on->schema, on->scratch);
}

/* _columns(messages, paths, skips, Column): by which status the stream ended, the columns, where the messages in them
   begin, and of the bad ones the numbers, where they begin, the reasons, and the verdicts on the first ones. */
PyObject *schema_columns(Schema *self, PyObject *words)
{
    Gathering on = { .schema = self };
    PyObject *paths, *class, *told = NULL;
    if (!PyArg_ParseTuple(words, "OO!pO", &on.from, &PyTuple_Type, &paths, &on.skips, &class) ||
        begin_turn(on.from) != 0)
        return NULL;
    on.count = (size_t)PyTuple_Size(paths);
    if (begin_columns(&on, paths) == 0) {
        uint32_t status = gather_all(&on);
        if (PyErr_Occurred())
            told = NULL;
        else if (status == FBCHECK_BAD || status == FBCHECK_MORE || on.from->framer.failed)
            told = told_of(&on, status, class);
        else
            told = refused(self, status);
    }
    on.from->is_taken = 0;
    end_columns(&on);
    return told;
}

/* ---- the class of columns ---- */

/* Column(format, bytes, valid): a column with a copy of these bytes. */
static PyObject *column_new(PyTypeObject *type, PyObject *words, PyObject *named)
{
    Growing copy = { 0 };
    int format;
    Py_buffer bytes;
    PyObject *valid, *made = NULL;
    const Form *form;
    (void)named;
    if (!PyArg_ParseTuple(words, "Cy*O", &format, &bytes, &valid))
        return NULL;
    form = numbers_of(format < 128 ? (char)format : 0);
    if (form != NULL && (size_t)bytes.len % form->size != 0)
        PyErr_SetString(PyExc_ValueError, "these bytes end inside a number");
    else if (form != NULL && !add(&copy, bytes.buf, (size_t)bytes.len))
        PyErr_NoMemory();
    else if (form != NULL)
        made = column_of((PyObject *)type, &copy, form->format, form->size, Py_NewRef(valid));
    free(copy.bytes);
    PyBuffer_Release(&bytes);
    return made;
}

static void column_free(PyObject *object)
{
    Column *self = (Column *)object;
    free(self->bytes);
    Py_XDECREF(self->valid);
    freed(object);
}

static Py_ssize_t column_length(PyObject *self)
{
    return ((Column *)self)->count;
}

static int column_buffer(PyObject *object, Py_buffer *view, int flags)
{
    static uint64_t nothing;
    Column *self = (Column *)object;
    view->obj = NULL;
    if (flags & PyBUF_WRITABLE) {
        PyErr_SetString(PyExc_BufferError, "a column isn't written");
        return -1;
    }
    view->buf = self->bytes != NULL ? (void *)self->bytes : &nothing;
    view->obj = Py_NewRef(object);
    view->len = self->count * self->size;
    view->itemsize = self->size;
    view->readonly = 1;
    view->ndim = 1;
    view->format = flags & PyBUF_FORMAT ? self->format : NULL;
    view->shape = (flags & PyBUF_ND) == PyBUF_ND ? &self->count : NULL;
    view->strides = (flags & PyBUF_STRIDES) == PyBUF_STRIDES ? &self->size : NULL;
    view->suboffsets = NULL;
    view->internal = NULL;
    return 0;
}

static PyObject *column_data(PyObject *self, void *nothing)
{
    (void)nothing;
    return PyMemoryView_FromObject(self);
}

static PyGetSetDef column_properties[] = {
    { "data", column_data, NULL, "the numbers as a memoryview: 0, False or nan where a value is missing", NULL },
    { NULL, NULL, NULL, NULL, NULL },
};

static PyMemberDef column_members[] = {
    { "format", T_STRING_INPLACE, offsetof(Column, format), READONLY, "what a memoryview calls these numbers" },
    { "valid", T_OBJECT, offsetof(Column, valid), READONLY,
      "a memoryview of Bools: which values are there; None where all are" },
    { NULL, 0, 0, 0, NULL },
};

static PyType_Slot column_slots[] = {
    { Py_tp_new, column_new },
    { Py_tp_dealloc, column_free },
    { Py_tp_members, column_members },
    { Py_tp_getset, column_properties },
    { Py_sq_length, column_length },
    { Py_bf_getbuffer, column_buffer },
    { 0, NULL },
};

PyType_Spec column_spec = {
    "fbcheck._fbcheck.Column", sizeof(Column), 0, Py_TPFLAGS_DEFAULT | Py_TPFLAGS_BASETYPE, column_slots,
};
