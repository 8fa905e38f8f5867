/*
 * What the package fbcheck does for each message: the calls of fbcheck.h on whatever has the buffer protocol. All else
 * is Python.
 *
 * It keeps no pointer into a message once a call returns. What can be written is checked as a copy: no lock of the
 * interpreter keeps another process from writing it, nor a thread that reads a socket or a file into it.
 */
#include "_fbcheck.h"

#define HANDLE "fbcheck.schema"

/* How long a name is without memory of its own. */
#define SHORT_NAME 128

/* A verdict; of a bad message with texts, each of which may be null for None. */
typedef struct {
    PyObject_HEAD
    fbcheck_verdict told;
    PyObject *place;
    PyObject *object;
    PyObject *field;
    uint32_t framing; /* what the first bytes of a bad message show */
} Verdict;

/* They are its size though that isn't asked for, or aren't though it is. */
enum { FRAMED = 1, UNFRAMED = 2 };

/* Gives back an object whose parts were given up. */
void freed(PyObject *self)
{
    PyTypeObject *type = Py_TYPE(self);
    ((freefunc)PyType_GetSlot(type, Py_tp_free))(self);
    Py_DECREF(type);
}

/* ---- verdicts ---- */

static Verdict *verdict_of(PyObject *type, const fbcheck_verdict *told)
{
    Verdict *self = (Verdict *)PyType_GenericAlloc((PyTypeObject *)type, 0);
    if (self != NULL)
        self->told = *told;
    return self;
}

static PyObject *verdict_new(PyTypeObject *type, PyObject *words, PyObject *named)
{
    fbcheck_verdict told = { 0 };
    unsigned long long at, reads;
    uint32_t framing;
    PyObject *place, *object, *field;
    Verdict *self;
    (void)named;
    if (!PyArg_ParseTuple(words, "IIIIIIKKOOOI", &told.status, &told.reason, &told.object, &told.field, &told.tables,
                          &told.depth, &at, &reads, &place, &object, &field, &framing))
        return NULL;
    told.at = at;
    told.reads = reads;
    self = verdict_of((PyObject *)type, &told);
    if (self != NULL) {
        self->place = Py_NewRef(place);
        self->object = Py_NewRef(object);
        self->field = Py_NewRef(field);
        self->framing = framing;
    }
    return (PyObject *)self;
}

int verdict_is_good(PyObject *self)
{
    return ((Verdict *)self)->told.status == FBCHECK_OK;
}

static void verdict_free(PyObject *object)
{
    Verdict *self = (Verdict *)object;
    Py_XDECREF(self->place);
    Py_XDECREF(self->object);
    Py_XDECREF(self->field);
    freed(object);
}

#define TOLD(name) offsetof(Verdict, told.name)
static PyMemberDef verdict_members[] = {
    { "tables", T_UINT, TOLD(tables), READONLY, "how many tables were visited; 0 of a bad message" },
    { "depth", T_UINT, TOLD(depth), READONLY, "the most tables open at once; 0 of a bad message" },
    { "reads", T_ULONGLONG, TOLD(reads), READONLY, "how many reads were counted" },
    { "object", T_OBJECT, offsetof(Verdict, object), READONLY,
      "of a bad message the name of the table or struct under check, with its namespace" },
    { "field", T_OBJECT, offsetof(Verdict, field), READONLY, "the name of its field under check, if it is one" },
    { "_status", T_UINT, TOLD(status), READONLY, NULL },
    { "_reason", T_UINT, TOLD(reason), READONLY, NULL },
    { "_object_number", T_UINT, TOLD(object), READONLY, NULL },
    { "_field_number", T_UINT, TOLD(field), READONLY, NULL },
    { "_at", T_ULONGLONG, TOLD(at), READONLY, NULL },
    { "_place", T_OBJECT, offsetof(Verdict, place), READONLY, NULL },
    { "_framing", T_UINT, offsetof(Verdict, framing), READONLY, NULL },
    { NULL, 0, 0, 0, NULL },
};

static PyType_Slot verdict_slots[] = {
    { Py_tp_new, verdict_new },
    { Py_tp_dealloc, verdict_free },
    { Py_tp_members, verdict_members },
    { Py_nb_bool, verdict_is_good },
    { 0, NULL },
};

static PyType_Spec verdict_spec = {
    "fbcheck._fbcheck.Verdict", sizeof(Verdict), 0, Py_TPFLAGS_DEFAULT | Py_TPFLAGS_BASETYPE, verdict_slots,
};

/* ---- schemas ---- */

static void free_handle(PyObject *handle)
{
    fbcheck_schema_free(PyCapsule_GetPointer(handle, HANDLE));
}

/* load(file, demands): what holds the schema of a schema file, for checks with these demands, or the numbers of why
   there is none. */
static PyObject *load(PyObject *module, PyObject *words)
{
    fbcheck_options options = FBCHECK_OPTIONS_INIT;
    Py_buffer view;
    fbcheck_verdict why;
    fbcheck_schema *schema;
    PyObject *handle;
    (void)module;
    if (!PyArg_ParseTuple(words, "y*I", &view, &options.demands))
        return NULL;
    Py_BEGIN_ALLOW_THREADS
    schema = fbcheck_schema_new(view.buf, (size_t)view.len, &options, &why);
    Py_END_ALLOW_THREADS
    PyBuffer_Release(&view);
    if (schema == NULL)
        return Py_BuildValue("IIIIK", why.status, why.reason, why.object, why.field, (unsigned long long)why.at);
    handle = PyCapsule_New(schema, HANDLE, free_handle);
    if (handle == NULL)
        fbcheck_schema_free(schema);
    return handle;
}

/* table(handle, name): the number of the table of this name, or None. */
static PyObject *table(PyObject *module, PyObject *words)
{
    PyObject *handle;
    const char *name;
    Py_ssize_t length;
    fbcheck_schema *schema;
    uint32_t number;
    (void)module;
    if (!PyArg_ParseTuple(words, "Os#", &handle, &name, &length))
        return NULL;
    schema = PyCapsule_GetPointer(handle, HANDLE);
    if (schema == NULL)
        return NULL;
    number = fbcheck_table(schema, name, (size_t)length);
    if (number == FBCHECK_NO_TABLE)
        Py_RETURN_NONE;
    return PyLong_FromUnsignedLong(number);
}

/* root_hint(handle, name): what helps where no table has this name; empty where one has. */
static PyObject *root_hint(PyObject *module, PyObject *words)
{
    PyObject *handle;
    const char *name;
    Py_ssize_t length;
    fbcheck_schema *schema;
    char hint[FBCHECK_LONGEST_HINT];
    (void)module;
    if (!PyArg_ParseTuple(words, "Os#", &handle, &name, &length))
        return NULL;
    schema = PyCapsule_GetPointer(handle, HANDLE);
    if (schema == NULL)
        return NULL;
    length = (Py_ssize_t)fbcheck_root_hint(schema, name, (size_t)length, hint, sizeof hint);
    return PyUnicode_FromStringAndSize(hint, length);
}

/* Raises what tells that a call wasn't done. */
PyObject *refused(Schema *self, uint32_t status)
{
    PyObject *fault = PyObject_CallFunction(self->fault, "I", status);
    if (fault != NULL) {
        PyErr_SetObject((PyObject *)Py_TYPE(fault), fault);
        Py_DECREF(fault);
    }
    return NULL;
}

static void schema_free(PyObject *object)
{
    Schema *self = (Schema *)object;
    fbcheck_scratch_free(self->idle);
    Py_XDECREF(self->handle);
    Py_XDECREF(self->told[0]);
    Py_XDECREF(self->told[1]);
    Py_XDECREF(self->paths);
    Py_XDECREF(self->unions);
    Py_XDECREF(self->kept);
    Py_XDECREF(self->shaped);
    freed(object);
}

/* Makes room for tables, and tells whether the options can be served: no bytes are bad then. */
static uint32_t tried(Schema *self)
{
    self->idle = fbcheck_scratch_new(self->options.max_depth);
    return self->idle == NULL ? FBCHECK_NO_MEMORY
                              : fbcheck_verify(self->schema, self->idle, &self->options, NULL, 0, NULL);
}

/* Schema(handle, (root, ident_from, ident, prefixed, alignment, inline_size, max_depth, max_tables, max_reads,
   reads_per_byte, demands), (Verdict, BadBuffer, fault, Table(), _union, Vector, "count", View, Overlap, PathError)) */
static PyObject *schema_new(PyTypeObject *type, PyObject *words, PyObject *named)
{
    fbcheck_options asked = FBCHECK_OPTIONS_INIT;
    unsigned long long max_reads;
    int prefixed, alignment, inline_size;
    const char *ident;
    Py_ssize_t length;
    PyObject *handle, *kept;
    Schema *self;
    uint32_t status;
    (void)named;
    if (!PyArg_ParseTuple(words, "O(Iby#pppIIKII)O!", &handle, &asked.root, &asked.ident_from, &ident, &length,
                          &prefixed, &alignment, &inline_size, &asked.max_depth, &asked.max_tables, &max_reads,
                          &asked.reads_per_byte, &asked.demands, &PyTuple_Type, &kept))
        return NULL;
    memcpy(asked.ident, ident, length < 4 ? (size_t)length : 4);
    asked.max_reads = max_reads;
    asked.prefixed = (uint8_t)prefixed;
    asked.no_alignment = (uint8_t)!alignment;
    asked.inline_size = (uint8_t)inline_size;
    self = (Schema *)PyType_GenericAlloc(type, 0);
    if (self == NULL)
        return NULL;
    self->options = asked;
    self->handle = Py_NewRef(handle);
    self->kept = Py_NewRef(kept);
    status = FBCHECK_NULL;
    if (PyArg_ParseTuple(kept, "OOOOOOOOOO", &self->verdict, &self->bad_buffer, &self->fault, &self->table,
                         &self->a_union, &self->vector, &self->count, &self->view, &self->overlap,
                         &self->path_error) &&
        (self->paths = PyDict_New()) != NULL && (self->unions = PyDict_New()) != NULL &&
        (self->schema = PyCapsule_GetPointer(handle, HANDLE)) != NULL)
        status = tried(self);
    if (status != FBCHECK_BAD) {
        if (!PyErr_Occurred())
            refused(self, status);
        Py_DECREF(self);
        return NULL;
    }
    return (PyObject *)self;
}

/* Takes room for tables, which is null where a call needs none; -1 where memory is refused. */
int take_scratch(Schema *self, fbcheck_scratch **scratch)
{
    *scratch = self->idle;
    self->idle = NULL;
    if (*scratch != NULL || self->options.max_depth <= FBCHECK_DEEP)
        return 0;
    *scratch = fbcheck_scratch_new(self->options.max_depth);
    return *scratch != NULL ? 0 : -1;
}

/* Gives back what take_scratch() took. */
void give_scratch(Schema *self, fbcheck_scratch *scratch)
{
    if (self->idle == NULL)
        self->idle = scratch;
    else
        fbcheck_scratch_free(scratch);
}

/* Takes room for tables, and for a copy; -1 where memory is refused. */
static int take_room(Schema *self, Check *check)
{
    int copied = !check->view.readonly && check->view.len <= LONGEST_MESSAGE;
    check->copy = copied ? malloc((size_t)check->view.len + 1) : NULL;
    if ((!copied || check->copy != NULL) && take_scratch(self, &check->scratch) == 0)
        return 0;
    free(check->copy);
    return -1;
}

/* Takes the bytes of a message, and room for tables. */
int begin(Schema *self, PyObject *message, Check *check)
{
    if (PyObject_GetBuffer(message, &check->view, PyBUF_SIMPLE) != 0)
        return -1;
    if (take_room(self, check) != 0) {
        PyBuffer_Release(&check->view);
        PyErr_NoMemory();
        return -1;
    }
    check->others = NULL;
    if (is_long(self, (size_t)check->view.len))
        check->others = PyEval_SaveThread();
    check->bytes = check->view.buf;
    if (check->copy != NULL)
        check->bytes = memcpy(check->copy, check->view.buf, (size_t)check->view.len);
    return 0;
}

/* Goes on as the one thread of the interpreter. */
void resume(Check *check)
{
    if (check->others != NULL)
        PyEval_RestoreThread(check->others);
    check->others = NULL;
}

/* Gives back what begin() took. */
void end(Schema *self, Check *check)
{
    resume(check);
    give_scratch(self, check->scratch);
    free(check->copy);
    PyBuffer_Release(&check->view);
}

/* Copies the name of an object, or of its field where `field` is one, and tells its length. */
static size_t copy_name(const fbcheck_schema *schema, uint32_t object, uint32_t field, char *text, size_t room)
{
    return field == FBCHECK_NONE ? fbcheck_object_name(schema, object, text, room)
                                 : fbcheck_field_name(schema, object, field, text, room);
}

/* This name as a text. */
static PyObject *name_of(const fbcheck_schema *schema, uint32_t object, uint32_t field)
{
    char room[SHORT_NAME], *text = room;
    size_t length = copy_name(schema, object, field, room, SHORT_NAME);
    PyObject *name;
    if (length > SHORT_NAME) {
        text = malloc(length);
        if (text == NULL)
            return PyErr_NoMemory();
        copy_name(schema, object, field, text, length);
    }
    name = PyUnicode_DecodeUTF8(text, (Py_ssize_t)length, "replace");
    if (text != room)
        free(text);
    return name;
}

/* name(handle, object, field): the name of an object with that of its field. */
static PyObject *name(PyObject *module, PyObject *words)
{
    PyObject *handle;
    uint32_t object, field;
    fbcheck_schema *schema;
    PyObject *owner, *part, *whole;
    (void)module;
    if (!PyArg_ParseTuple(words, "OII", &handle, &object, &field))
        return NULL;
    schema = PyCapsule_GetPointer(handle, HANDLE);
    if (schema == NULL)
        return NULL;
    owner = name_of(schema, object, FBCHECK_NONE);
    part = owner != NULL ? name_of(schema, object, field) : NULL;
    whole = part != NULL ? PyUnicode_FromFormat("%U.%U", owner, part) : NULL;
    Py_XDECREF(owner);
    Py_XDECREF(part);
    return whole;
}

/* A verdict with what was told: one of the last two again, where nobody else has that any more. So a loop that holds
   each verdict until it has the next one makes no third. */
static Verdict *another(Schema *self, const fbcheck_verdict *told)
{
    PyObject **last = self->told, *kept = last[0];
    Verdict *verdict;
    if (kept == NULL || Py_REFCNT(kept) != 1)
        kept = last[1];
    if (kept == NULL || Py_REFCNT(kept) != 1) {
        verdict = verdict_of(self->verdict, told);
        if (verdict == NULL)
            return NULL;
        last[1] = last[0];
        last[0] = Py_NewRef((PyObject *)verdict);
        Py_XDECREF(kept);
        return verdict;
    }
    verdict = (Verdict *)Py_NewRef(kept);
    verdict->told = *told;
    verdict->framing = 0;
    Py_CLEAR(verdict->place);
    Py_CLEAR(verdict->object);
    Py_CLEAR(verdict->field);
    return verdict;
}

/* The verdict that was told, of a bad message with this place. */
PyObject *judged(Schema *self, const fbcheck_verdict *told, const char *place, size_t length)
{
    Verdict *verdict = another(self, told);
    if (verdict != NULL && told->status == FBCHECK_BAD) {
        verdict->place = PyUnicode_DecodeUTF8(place, (Py_ssize_t)length, "replace");
        verdict->object = name_of(self->schema, told->object, FBCHECK_NONE);
        verdict->field = told->field != FBCHECK_NONE ? name_of(self->schema, told->object, told->field) : NULL;
        if (PyErr_Occurred())
            Py_CLEAR(verdict);
    }
    return (PyObject *)verdict;
}

/* What the first bytes of a bad message show. */
static uint32_t framing_of(const Schema *self, const Check *check, const fbcheck_verdict *told)
{
    const uint8_t *bytes = check->bytes;
    size_t length = (size_t)check->view.len;
    if (self->options.prefixed)
        return told->reason == FBCHECK_WRONG_PREFIX ? UNFRAMED : 0;
    if (length < 8)
        return 0;
    return bytes[0] + 256u * bytes[1] + 65536u * bytes[2] + 16777216u * bytes[3] == length - 4 ? FRAMED : 0;
}

/* The verdict on a message that begin() took. */
PyObject *located(Schema *self, Check *check)
{
    char place[FBCHECK_LONGEST_PLACE];
    size_t length = 0;
    fbcheck_verdict told;
    uint32_t framing;
    PyObject *verdict;
    uint32_t status = fbcheck_locate(self->schema, check->scratch, &self->options, check->bytes,
                                     (size_t)check->view.len, place, sizeof place, &length, &told);
    framing = status == FBCHECK_BAD ? framing_of(self, check, &told) : 0;
    end(self, check);
    if (status > FBCHECK_BAD)
        return refused(self, status);
    verdict = judged(self, &told, place, length);
    if (verdict != NULL)
        ((Verdict *)verdict)->framing = framing;
    return verdict;
}

PyObject *schema_check(Schema *self, PyObject *message)
{
    Check check;
    return begin(self, message, &check) == 0 ? located(self, &check) : NULL;
}

/* Raises that a message is bad, of which this is the verdict. */
PyObject *raised(Schema *self, PyObject *verdict)
{
    if (verdict != NULL) {
        PyErr_SetObject(self->bad_buffer, verdict);
        Py_DECREF(verdict);
    }
    return NULL;
}

PyObject *schema_verify(Schema *self, PyObject *message)
{
    PyObject *verdict = schema_check(self, message);
    return verdict == NULL || verdict_is_good(verdict) ? verdict : raised(self, verdict);
}

static PyMethodDef schema_methods[] = {
    { "check", (PyCFunction)schema_check, METH_O,
      "check($self, message, /)\n--\n\nChecks a message (anything with the buffer protocol); returns the verdict." },
    { "verify", (PyCFunction)schema_verify, METH_O,
      "verify($self, message, /)\n--\n\nChecks a message; returns the verdict if it is ok, or raises BadBuffer." },
    { "read", (PyCFunction)(void (*)(void))schema_read, METH_FASTCALL,
      "read($self, message, path, /, *paths)\n--\n\n"
      "Checks a message once, and reads the value at the end of a path, or a tuple of those at the end of several.\n\n"
      "None means that nothing is there: the field, or one on the way, is absent and has no default, the vector has\n"
      "fewer elements, or the union another type. A text is a str; bytes of it that aren't UTF-8 are as with\n"
      "os.fsdecode(): text.encode('utf-8', 'surrogateescape') gives them back. A struct is a memoryview of its bytes,\n"
      "and a vector of numbers one of these (of Bools and structs, of their bytes): read-only slices of the message,\n"
      "which keep it alive, and show what is written there later. A path with [*] for an index, once, leads to a list\n"
      "of the values at all indices, empty if there is no vector.\n\n"
      "Raises PathError, and BadBuffer: a bad message is walked once more, to name the place of its fault." },
    { "view", (PyCFunction)schema_view, METH_O,
      "view($self, message, /)\n--\n\n"
      "Checks a message once, and gives a View of it, which reads its values without another check. It keeps the\n"
      "message, or a copy if that is mutable.\n\n"
      "Raises BadBuffer." },
    { "to_dict", (PyCFunction)schema_to_dict, METH_O,
      "to_dict($self, message, /)\n--\n\n"
      "Checks a message, and gives its whole root table as a dict: the values by the names of the fields.\n\n"
      "Structs and tables are dicts in it, and vectors and arrays lists (of unsigned bytes, bytes). Texts are as with\n"
      "read(). A field that is absent has its default, and None if it has none. A field with the type of a union has\n"
      "the name of the member, and the union its value; of a type that the schema doesn't know, the number, and None.\n"
      "What several offsets of the message lead to is one object in the dict.\n\n"
      "Raises BadBuffer, and Overlap." },
    { "_resolve", (PyCFunction)schema_resolve, METH_O, NULL },
    { "_found", (PyCFunction)schema_found, METH_VARARGS, NULL },
    { "_viewed", (PyCFunction)schema_viewed, METH_O, NULL },
    { "_shapes", (PyCFunction)schema_shapes, METH_VARARGS, NULL },
    { "_stream", (PyCFunction)schema_stream, METH_VARARGS, NULL },
    { "_columns", (PyCFunction)schema_columns, METH_VARARGS, NULL },
    { NULL, NULL, 0, NULL },
};

static PyMemberDef schema_members[] = {
    { "_paths", T_OBJECT, offsetof(Schema, paths), READONLY, NULL },
    { NULL, 0, 0, 0, NULL },
};

static PyType_Slot schema_slots[] = {
    { Py_tp_new, schema_new },
    { Py_tp_dealloc, schema_free },
    { Py_tp_methods, schema_methods },
    { Py_tp_members, schema_members },
    { 0, NULL },
};

static PyType_Spec schema_spec = {
    "fbcheck._fbcheck.Schema", sizeof(Schema), 0, Py_TPFLAGS_DEFAULT | Py_TPFLAGS_BASETYPE, schema_slots,
};

/* ---- the module ---- */

static int module_exec(PyObject *module)
{
    PyType_Spec *const specs[] = { &verdict_spec, &schema_spec, &view_spec, &messages_spec, &later_spec,
                                  &column_spec };
    static const char *const names[] = { "Verdict", "Schema", "View", "Messages", "AsyncMessages", "Column" };
    size_t at;
    if (fbcheck_version() != FBCHECK_VERSION) {
        PyErr_Format(PyExc_ImportError, "libfbcheck has version %u, and the header %u", (unsigned)fbcheck_version(),
                     (unsigned)FBCHECK_VERSION);
        return -1;
    }
    for (at = 0; at < sizeof specs / sizeof *specs; at++) {
        PyObject *type = PyType_FromSpec(specs[at]);
        int answer = type != NULL ? PyModule_AddObjectRef(module, names[at], type) : -1;
        Py_XDECREF(type);
        if (answer != 0)
            return -1;
    }
    return PyModule_AddStringConstant(module, "commit", fbcheck_commit());
}

static PyMethodDef module_methods[] = {
    { "load", load, METH_VARARGS, NULL },
    { "table", table, METH_VARARGS, NULL },
    { "root_hint", root_hint, METH_VARARGS, NULL },
    { "name", name, METH_VARARGS, NULL },
    { NULL, NULL, 0, NULL },
};

static PyModuleDef_Slot module_slots[] = {
    { Py_mod_exec, module_exec },
    { 0, NULL },
};

static struct PyModuleDef module_def = {
    PyModuleDef_HEAD_INIT, "fbcheck._fbcheck", NULL, 0, module_methods, module_slots, NULL, NULL, NULL,
};

PyMODINIT_FUNC PyInit__fbcheck(void)
{
    return PyModuleDef_Init(&module_def);
}
