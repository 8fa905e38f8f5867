/*
 * The values at the ends of paths: read by the check of a message, or of one that was checked before, which a view
 * keeps.
 */
#include "_fbcheck.h"

/* _resolve(path): the bytes of a path, or the numbers of why it is none, with what helps then. */
PyObject *schema_resolve(Schema *self, PyObject *text)
{
    fbcheck_path path;
    fbcheck_verdict why;
    char hint[FBCHECK_LONGEST_HINT];
    Py_ssize_t length;
    const char *bytes = PyUnicode_AsUTF8AndSize(text, &length);
    if (bytes == NULL)
        return NULL;
    if (fbcheck_resolve(self->schema, &self->options, bytes, (size_t)length, &path, &why) == FBCHECK_OK)
        return PyBytes_FromStringAndSize((const char *)&path, sizeof path);
    length = (Py_ssize_t)fbcheck_path_hint(self->schema, self->options.root, bytes, (size_t)length, hint, sizeof hint);
    return Py_BuildValue("IIKs#", why.status, why.reason, (unsigned long long)why.at, hint, length);
}

static PyObject *float_of(const char *bytes, uint64_t size)
{
    float single;
    double whole;
    if (size == sizeof whole) {
        memcpy(&whole, bytes, sizeof whole);
        return PyFloat_FromDouble(whole);
    }
    memcpy(&single, bytes, sizeof single);
    return PyFloat_FromDouble(single);
}

/* An instance of a class that has one number by this name, which can't be changed later. */
static PyObject *numbered(PyObject *class, PyObject *name, uint64_t number)
{
    PyObject *made = PyType_GenericAlloc((PyTypeObject *)class, 0);
    PyObject *value = PyLong_FromUnsignedLongLong(number);
    if (made != NULL && (value == NULL || PyObject_GenericSetAttr(made, name, value) != 0))
        Py_CLEAR(made);
    Py_XDECREF(value);
    return made;
}

/* The value of a union by its number in the schema file: the same each time, for one type. */
static PyObject *union_of(Schema *self, uint32_t owner, uint64_t type)
{
    PyObject *key = PyLong_FromUnsignedLongLong(((uint64_t)owner << 8) + type);
    PyObject *made = key != NULL ? PyDict_GetItemWithError(self->unions, key) : NULL;
    Py_XINCREF(made);
    if (made == NULL && !PyErr_Occurred()) {
        made = PyObject_CallFunction(self->a_union, "OIK", self, owner, (unsigned long long)type);
        if (made != NULL && PyDict_SetItem(self->unions, key, made) != 0)
            Py_CLEAR(made);
    }
    Py_XDECREF(key);
    return made;
}

/* What a method of a view answers, which takes the place of the view; a view that is null stays so. */
static PyObject *instead(PyObject *view, const char *method, const char *letter)
{
    PyObject *next = view == NULL     ? NULL
                     : letter == NULL ? PyObject_CallMethod(view, method, NULL)
                                      : PyObject_CallMethod(view, method, "s", letter);
    Py_XDECREF(view);
    return next;
}

/* The part of a message where a value lies, as a view that doesn't write; a vector's numbers have this letter. */
static PyObject *part_of(PyObject *message, const fbcheck_value *value, char letter)
{
    char letters[2] = { letter, 0 };
    Py_ssize_t at = (Py_ssize_t)value->at;
    PyObject *part, *view = PyMemoryView_FromObject(message);
    int as_it_is = PyBytes_CheckExact(message);
    if (!as_it_is)
        view = instead(view, "cast", "B");
    if (view == NULL)
        return NULL;
    part = PySequence_GetSlice(view, at, at + (Py_ssize_t)value->size);
    Py_DECREF(view);
    if (!as_it_is)
        part = instead(part, "toreadonly", NULL);
    return letter == 'B' ? part : instead(part, "cast", letters);
}

/* A value as Python has it; of a vector of numbers by their letter. */
PyObject *value_of(Schema *self, PyObject *message, const char *bytes, const fbcheck_value *value, char letter)
{
    switch (value->kind) {
    case FBCHECK_ABSENT:
    case FBCHECK_NO_ELEMENT:
    case FBCHECK_OTHER_MEMBER:
        Py_RETURN_NONE;
    case FBCHECK_BOOL:
        return PyBool_FromLong(value->number != 0);
    case FBCHECK_INT:
        return PyLong_FromLongLong(value->integer);
    case FBCHECK_UINT:
        return PyLong_FromUnsignedLongLong(value->number);
    case FBCHECK_FLOAT:
        return float_of(bytes + value->at, value->size);
    case FBCHECK_DEFAULT_FLOAT:
        return float_of((const char *)&value->number, sizeof value->number);
    case FBCHECK_TEXT:
        return PyUnicode_DecodeUTF8(bytes + value->at, (Py_ssize_t)value->size, "surrogateescape");
    case FBCHECK_TABLE:
        return Py_NewRef(self->table);
    case FBCHECK_UNION:
        return union_of(self, NO_UNION, value->number);
    default:
        return value->at == 0 ? numbered(self->vector, self->count, value->number) : part_of(message, value, letter);
    }
}

/* The same at the end of a path with these letters, which know a union. */
static PyObject *at_end(Schema *self, PyObject *message, const char *bytes, const fbcheck_value *value,
                        const Letters *letters)
{
    uint32_t owner;
    if (value->kind != FBCHECK_UNION)
        return value_of(self, message, bytes, value, letters->element);
    memcpy(&owner, letters->owner, sizeof owner);
    return union_of(self, owner, value->number);
}

/* What a path with [*] has, while it is the path to the vector; else 0. */
typedef struct {
    uint32_t count;
    uint32_t each;
} Whole;

/* What is read of a message: of each path its steps, its letters, and the value, with [*] that of the vector. */
typedef struct {
    size_t count;
    fbcheck_path *paths;
    fbcheck_value *values;
    Letters *letters;
    Whole *wholes;
    PyObject *told;   /* the tuple of paths of who wants a tuple of values, with the verdict, or null */
    const View *view; /* the message, if it was checked before, or null */
} Read;

/* How many elements are read by one call. */
#define BLOCK 32

/* The texts of elements: each is made once, though many elements may lead to it. */
typedef struct {
    PyObject *known; /* a dict of them by their places, or null while there is none */
    uint64_t left;   /* how many bytes more they may have, or else they overlap, and could fill any memory */
} Texts;

/* The text at a place, which was made before, or is made. */
static PyObject *text_once(Schema *self, Texts *texts, const char *bytes, const fbcheck_value *value)
{
    PyObject *place = PyLong_FromUnsignedLongLong(value->at), *text = NULL;
    if (texts->known == NULL)
        texts->known = PyDict_New();
    if (place != NULL && texts->known != NULL)
        text = Py_XNewRef(PyDict_GetItemWithError(texts->known, place));
    if (text == NULL && !PyErr_Occurred()) {
        if (value->size > texts->left) {
            PyErr_SetString(self->overlap, "texts of the message overlap, and are longer than the message");
        } else {
            texts->left -= value->size;
            text = value_of(self, NULL, bytes, value, 0);
            if (text != NULL && PyDict_SetItem(texts->known, place, text) != 0)
                Py_CLEAR(text);
        }
    }
    Py_XDECREF(place);
    return text;
}

/* The value of each element to which a path with [*] leads, in a list. */
static PyObject *elements_of(Schema *self, PyObject *message, const char *bytes, size_t length,
                             const fbcheck_path *path, const Letters *letters)
{
    fbcheck_value values[BLOCK];
    Texts texts = { NULL, length };
    size_t first = 0, count = 0, at;
    PyObject *told = NULL;
    do {
        size_t elements;
        uint32_t status = fbcheck_read_each(self->schema, &self->options, (const uint8_t *)bytes, length, path, first,
                                            values, BLOCK, &elements, NULL);
        if (told == NULL) {
            count = status == FBCHECK_OK ? elements : 0;
            told = PyList_New((Py_ssize_t)count);
        }
        if (told != NULL && (status != FBCHECK_OK || elements != count)) {
            Py_CLEAR(told);
            refused(self, status != FBCHECK_OK ? status : FBCHECK_CHANGED);
        }
        for (at = 0; told != NULL && at < BLOCK && first + at < count; at++) {
            PyObject *one = values[at].kind == FBCHECK_TEXT ? text_once(self, &texts, bytes, values + at)
                                                            : at_end(self, message, bytes, values + at, letters);
            if (one == NULL || PyList_SetItem(told, (Py_ssize_t)(first + at), one) != 0)
                Py_CLEAR(told);
        }
        first += BLOCK;
    } while (told != NULL && first < count);
    Py_XDECREF(texts.known);
    return told;
}

/* The value at one path, or those of the elements. */
static PyObject *value_at(Schema *self, PyObject *message, const char *bytes, size_t length, const Read *read,
                          size_t at)
{
    const Whole *whole = read->wholes + at;
    fbcheck_path *path = read->paths + at;
    if (whole->each == 0)
        return at_end(self, message, bytes, read->values + at, read->letters + at);
    path->count = whole->count;
    path->each = whole->each;
    return elements_of(self, message, bytes, length, path, read->letters + at);
}

/* The values that were read: one, or a tuple of several. */
static PyObject *values_of(Schema *self, PyObject *message, const char *bytes, size_t length, const Read *read)
{
    size_t at;
    PyObject *told;
    if (read->count == 1 && read->told == NULL)
        return value_at(self, message, bytes, length, read, 0);
    told = PyTuple_New((Py_ssize_t)read->count);
    for (at = 0; told != NULL && at < read->count; at++) {
        PyObject *one = value_at(self, message, bytes, length, read, at);
        if (one == NULL || PyTuple_SetItem(told, (Py_ssize_t)at, one) != 0)
            Py_CLEAR(told);
    }
    return told;
}

/* Copies the steps of a text or path, and its letters. The first time the package resolves it, and keeps that. */
static int copy_steps(Schema *self, PyObject *path, fbcheck_path *steps, Letters *letters)
{
    PyObject *kept = PyDict_GetItemWithError(self->paths, path);
    Py_ssize_t size;
    char *bytes;
    int answer;
    Py_XINCREF(kept);
    if (kept == NULL && PyErr_Occurred() && PyErr_ExceptionMatches(PyExc_TypeError))
        PyErr_Clear(); /* what can't be looked up is no path, which is told there */
    if (kept == NULL && !PyErr_Occurred())
        kept = PyObject_CallMethod((PyObject *)self, "_keep", "(O)", path);
    if (kept == NULL)
        return -1;
    answer = PyBytes_AsStringAndSize(kept, &bytes, &size);
    if (answer == 0 && (size_t)size == sizeof *steps + sizeof *letters) {
        memcpy(steps, bytes, sizeof *steps);
        memcpy(letters, bytes + sizeof *steps, sizeof *letters);
    } else if (answer == 0) {
        PyErr_SetString(PyExc_ValueError, "not the bytes of a path");
        answer = -1;
    }
    Py_DECREF(kept);
    return answer;
}

/* The same for a path to one value: one with [*] is refused. */
int copy_single(Schema *self, PyObject *path, fbcheck_path *steps, Letters *letters)
{
    if (copy_steps(self, path, steps, letters) != 0)
        return -1;
    if (steps->each == 0)
        return 0;
    PyErr_SetString(self->path_error, "a path with [*] leads to several values, which only read() returns");
    return -1;
}

/* Reads of a message that was checked before. */
static PyObject *read_again(Schema *self, const Read *read)
{
    const View *view = read->view;
    uint32_t status = fbcheck_read_again(self->schema, &self->options, view->buffer.buf, (size_t)view->buffer.len,
                                         read->paths, read->values, read->count, NULL);
    if (status != FBCHECK_OK)
        return refused(self, status);
    return values_of(self, view->message, view->buffer.buf, (size_t)view->buffer.len, read);
}

/* Checks a message once, unless it was, and reads at these texts and paths, unless they are told. */
static PyObject *read_at(Schema *self, PyObject *message, PyObject *const *paths, Read *read)
{
    PyObject *path;
    Check check;
    size_t at;
    uint32_t status;
    fbcheck_verdict told;
    PyObject *values;
    for (at = 0; at < read->count; at++) {
        fbcheck_path *steps = read->paths + at;
        path = read->told != NULL ? PyTuple_GetItem(read->told, (Py_ssize_t)at) : paths[at];
        if (copy_steps(self, path, steps, read->letters + at) != 0)
            return NULL;
        read->wholes[at] = (Whole){ steps->count, steps->each };
        if (steps->each != 0) {
            steps->count = steps->each - 1;
            steps->each = 0;
        }
    }
    if (read->view != NULL)
        return read_again(self, read);
    if (begin(self, message, &check) != 0)
        return NULL;
    status = fbcheck_read(self->schema, check.scratch, &self->options, check.bytes, (size_t)check.view.len, read->paths,
                          read->values, read->count, &told);
    if (status == FBCHECK_BAD)
        return read->told != NULL ? Py_BuildValue("N()", located(self, &check)) : raised(self, located(self, &check));
    resume(&check);
    values = status != FBCHECK_OK
                 ? refused(self, status)
                 : values_of(self, message, (const char *)check.bytes, (size_t)check.view.len, read);
    end(self, &check);
    return read->told != NULL && values != NULL ? Py_BuildValue("NN", judged(self, &told, NULL, 0), values) : values;
}

/* Reads of a message, or of a view where that isn't null, with the room that so many paths need. */
static PyObject *reading(Schema *self, PyObject *message, const View *view, PyObject *const *paths, size_t count,
                         PyObject *told)
{
    fbcheck_path few[FEW_PATHS];
    fbcheck_value values[FEW_PATHS];
    Letters letters[FEW_PATHS];
    Whole wholes[FEW_PATHS];
    Read read = { count, few, values, letters, wholes, told, view };
    PyObject *found;
    if (read.count <= FEW_PATHS)
        return read_at(self, message, paths, &read);
    read.paths = malloc(read.count *
                        (sizeof *read.paths + sizeof *read.values + sizeof *read.wholes + sizeof *read.letters));
    if (read.paths == NULL)
        return PyErr_NoMemory();
    read.values = (fbcheck_value *)(read.paths + read.count);
    read.wholes = (Whole *)(read.values + read.count);
    read.letters = (Letters *)(read.wholes + read.count);
    found = read_at(self, message, paths, &read);
    free(read.paths);
    return found;
}

PyObject *schema_read(Schema *self, PyObject *const *words, Py_ssize_t count)
{
    if (count >= 2)
        return reading(self, words[0], NULL, words + 1, (size_t)count - 1, NULL);
    PyErr_SetString(PyExc_TypeError, "read() takes a message, and a path or several");
    return NULL;
}

/* _found(message, paths): the verdict, and a tuple of the values at a tuple of paths, empty for a bad message. */
PyObject *schema_found(Schema *self, PyObject *words)
{
    PyObject *message, *paths;
    if (!PyArg_ParseTuple(words, "OO!", &message, &PyTuple_Type, &paths))
        return NULL;
    return reading(self, message, NULL, NULL, (size_t)PyTuple_Size(paths), paths);
}

/* ---- views ---- */

/* What a view keeps of a message: the message itself, or a copy where it may be written. One that is too long for a
   check is left as it is. */
static PyObject *kept_of(PyObject *message)
{
    Py_buffer buffer;
    PyObject *kept;
    if (PyBytes_CheckExact(message))
        return Py_NewRef(message);
    if (PyObject_GetBuffer(message, &buffer, PyBUF_SIMPLE) != 0)
        return NULL;
    kept = buffer.readonly || buffer.len > LONGEST_MESSAGE ? Py_NewRef(message)
                                                           : PyBytes_FromStringAndSize(buffer.buf, buffer.len);
    PyBuffer_Release(&buffer);
    return kept;
}

/* A view of what kept_of() answers, with the verdict on it. */
static PyObject *view_of(Schema *self, PyObject *kept, PyObject *verdict)
{
    View *made = (View *)PyType_GenericAlloc((PyTypeObject *)self->view, 0);
    if (made == NULL)
        return NULL;
    made->schema = (Schema *)Py_NewRef((PyObject *)self);
    made->message = Py_NewRef(kept);
    made->verdict = Py_NewRef(verdict);
    if (PyObject_GetBuffer(kept, &made->buffer, PyBUF_SIMPLE) != 0)
        Py_CLEAR(made);
    return (PyObject *)made;
}

PyObject *schema_view(Schema *self, PyObject *message)
{
    PyObject *kept = kept_of(message);
    PyObject *verdict = kept != NULL ? schema_verify(self, kept) : NULL;
    PyObject *view = verdict != NULL ? view_of(self, kept, verdict) : NULL;
    Py_XDECREF(kept);
    Py_XDECREF(verdict);
    return view;
}

/* _viewed(message): the verdict, and a view of a good message, or None. The message can't be written. */
PyObject *schema_viewed(Schema *self, PyObject *message)
{
    PyObject *verdict = schema_check(self, message);
    PyObject *view = verdict == NULL            ? NULL
                     : verdict_is_good(verdict) ? view_of(self, message, verdict)
                                                : Py_NewRef(Py_None);
    if (view != NULL)
        return Py_BuildValue("NN", verdict, view);
    Py_XDECREF(verdict);
    return NULL;
}

static void view_free(PyObject *object)
{
    View *self = (View *)object;
    PyBuffer_Release(&self->buffer);
    Py_XDECREF((PyObject *)self->schema);
    Py_XDECREF(self->message);
    Py_XDECREF(self->verdict);
    freed(object);
}

static PyObject *view_read(View *self, PyObject *const *paths, Py_ssize_t count)
{
    if (count >= 1)
        return reading(self->schema, NULL, self, paths, (size_t)count, NULL);
    PyErr_SetString(PyExc_TypeError, "read() takes a path or several");
    return NULL;
}

static PyObject *view_item(View *self, PyObject *path)
{
    return reading(self->schema, NULL, self, &path, 1, NULL);
}

static PyMethodDef view_methods[] = {
    { "read", (PyCFunction)(void (*)(void))view_read, METH_FASTCALL,
      "read($self, path, /, *paths)\n--\n\n"
      "The value at the end of a path, or a tuple of those at the end of several, as Schema.read() has them.\n\n"
      "Raises PathError, and Changed if somebody wrote to the message." },
    { "to_dict", (PyCFunction)(void (*)(void))view_to_dict, METH_FASTCALL,
      "to_dict($self, path='', /)\n--\n\n"
      "The whole root table, or the table or struct at the end of a path, as Schema.to_dict() has it; None if that\n"
      "isn't there.\n\n"
      "Raises PathError, Overlap, and Changed if somebody wrote to the message." },
    { NULL, NULL, 0, NULL },
};

static PyMemberDef view_members[] = {
    { "schema", T_OBJECT, offsetof(View, schema), READONLY, "by which the message was checked" },
    { "message", T_OBJECT, offsetof(View, message), READONLY, "the message, or its copy if it was mutable" },
    { "verdict", T_OBJECT, offsetof(View, verdict), READONLY, "that on the message" },
    { NULL, 0, 0, 0, NULL },
};

static PyType_Slot view_slots[] = {
    { Py_tp_dealloc, view_free },
    { Py_tp_methods, view_methods },
    { Py_tp_members, view_members },
    { Py_mp_subscript, view_item },
    { 0, NULL },
};

PyType_Spec view_spec = {
    "fbcheck._fbcheck.View", sizeof(View), 0,
    Py_TPFLAGS_DEFAULT | Py_TPFLAGS_BASETYPE | Py_TPFLAGS_DISALLOW_INSTANTIATION, view_slots,
};
