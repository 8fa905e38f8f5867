/*
 * The messages of a stream, one after another. What came of one is held whatever its source raises, so that the next
 * call goes on from there.
 */
#include "_fbcheck.h"

/* ---- what comes ---- */

/* Begins a call that takes of the stream; -1 while another one does. */
int begin_turn(Messages *self)
{
    if (!self->is_taken) {
        self->is_taken = 1;
        return 0;
    }
    PyErr_SetString(PyExc_ValueError, "another call takes messages of this stream at the moment");
    return -1;
}

/* Gets the bytes of the piece that is gone through; there are none between two pieces. */
int get_piece(Messages *self, Py_buffer *piece)
{
    memset(piece, 0, sizeof *piece);
    if (self->piece != NULL && PyUnicode_Check(self->piece)) {
        PyErr_SetString(PyExc_TypeError, "a stream has bytes, and no str: open its file with \"rb\"");
        return -1;
    }
    if (self->piece != NULL && PyObject_GetBuffer(self->piece, piece, PyBUF_SIMPLE) != 0)
        return -1;
    if (self->at > (size_t)piece->len)
        self->at = (size_t)piece->len;
    return 0;
}

/* Gives them back, and the piece once it was gone through. */
void give_piece(Messages *self, Py_buffer *piece)
{
    if (self->at == (size_t)piece->len) {
        Py_CLEAR(self->piece);
        self->at = 0;
    }
    PyBuffer_Release(piece);
}

/* Asks the source for the next piece: 0 at the stream's end, and where that raises. */
int ask_piece(Messages *self)
{
    PyObject *piece = self->is_over ? NULL : PyObject_CallMethod((PyObject *)self, "_more", NULL);
    if (piece != NULL) {
        self->piece = piece;
        return 1;
    }
    if (PyErr_Occurred() && PyErr_ExceptionMatches(PyExc_StopIteration)) {
        PyErr_Clear();
        self->is_over = 1;
    }
    return 0;
}

/* Goes past the message in the room. */
void pass_message(Messages *self, int is_good)
{
    if (self->count == 0 && self->framer.held >= 8)
        memcpy(self->ident, self->room + 4, 4);
    if (is_good)
        self->has_good = 1;
    self->count++;
    self->begin += self->framer.held;
    fbcheck_framer_next(&self->framer, self->room, self->size);
}

/* Raises why the stream can't go on; a stream that ends between two messages can. */
static PyObject *fail(Messages *self)
{
    PyObject *nothing = PyObject_CallMethod((PyObject *)self, "_fail", NULL);
    Py_XDECREF(nothing);
    return NULL;
}

/* ---- messages ---- */

/* A message with its verdict, and its view or values if asked for. */
static PyObject *told_of(Messages *self, PyObject *message)
{
    PyObject *words, *told, *made;
    if (!self->views && self->paths == NULL) {
        told = schema_check(self->schema, message);
        made = told != NULL ? PyTuple_Pack(2, message, told) : NULL;
        Py_XDECREF(told);
        return made;
    }
    words = self->views ? NULL : Py_BuildValue("OO", message, self->paths);
    told = self->views     ? schema_viewed(self->schema, message)
           : words != NULL ? schema_found(self->schema, words)
                           : NULL;
    made = told != NULL ? PyTuple_Pack(3, message, PyTuple_GetItem(told, 0), PyTuple_GetItem(told, 1)) : NULL;
    Py_XDECREF(words);
    Py_XDECREF(told);
    return made;
}

/* The next message that ends in the piece, or null: with an exception, or where the next piece is needed. */
static PyObject *take(Messages *self)
{
    Py_buffer piece;
    size_t used = 0;
    uint32_t status;
    PyObject *message, *told;
    if (get_piece(self, &piece) != 0)
        return NULL;
    status = fbcheck_framer_feed(&self->framer, self->room, self->size, (const uint8_t *)piece.buf + self->at,
                                 (size_t)piece.len - self->at, &used);
    self->at += used;
    give_piece(self, &piece);
    if (status == FBCHECK_MORE)
        return NULL;
    if (status != FBCHECK_OK)
        return fail(self);
    message = PyBytes_FromStringAndSize((const char *)self->room, (Py_ssize_t)self->framer.held);
    told = message != NULL ? told_of(self, message) : NULL;
    Py_XDECREF(message);
    if (told != NULL)
        pass_message(self, verdict_is_good(PyTuple_GetItem(told, 1)));
    return told;
}

static PyObject *messages_next(PyObject *object)
{
    Messages *self = (Messages *)object;
    PyObject *told;
    int goes_on = 1;
    if (begin_turn(self) != 0)
        return NULL;
    while ((told = take(self)) == NULL && goes_on && !PyErr_Occurred())
        goes_on = ask_piece(self);
    self->is_taken = 0;
    return told == NULL && !PyErr_Occurred() ? fail(self) : told;
}

/* _next(): the next message of what came, or None. */
static PyObject *messages_taken(Messages *self, PyObject *nothing)
{
    PyObject *told;
    (void)nothing;
    if (begin_turn(self) != 0)
        return NULL;
    told = take(self);
    self->is_taken = 0;
    return told == NULL && !PyErr_Occurred() ? Py_NewRef(Py_None) : told;
}

/* _give(piece): goes on with this piece, once the one before was gone through. */
static PyObject *messages_give(Messages *self, PyObject *piece)
{
    Py_XDECREF(self->piece);
    self->piece = Py_NewRef(piece);
    self->at = 0;
    Py_RETURN_NONE;
}

/* _front(): the first bytes of a message that goes on, or of what its prefix is that declares too much. */
static PyObject *messages_front(Messages *self, PyObject *nothing)
{
    uint32_t declared = self->framer.declared;
    const char bytes[] = { (char)declared, (char)(declared >> 8), (char)(declared >> 16), (char)(declared >> 24) };
    Py_ssize_t held = (Py_ssize_t)self->framer.held;
    (void)nothing;
    if (self->framer.failed)
        return PyBytes_FromStringAndSize(bytes, sizeof bytes);
    return PyBytes_FromStringAndSize((const char *)self->room, held < 4 ? held : 4);
}

static PyObject *messages_ident(PyObject *self, void *nothing)
{
    (void)nothing;
    return PyBytes_FromStringAndSize(((Messages *)self)->ident, 4);
}

/* _stream(Messages, paths, views, max_bytes): a stream of this class before its first piece, with a tuple of paths or
   None. */
PyObject *schema_stream(Schema *self, PyObject *words)
{
    PyObject *class, *paths;
    Py_ssize_t size;
    int views;
    Messages *made;
    if (!PyArg_ParseTuple(words, "OOpn", &class, &paths, &views, &size))
        return NULL;
    made = (Messages *)PyType_GenericAlloc((PyTypeObject *)class, 0);
    if (made == NULL)
        return NULL;
    made->schema = (Schema *)Py_NewRef((PyObject *)self);
    made->paths = paths != Py_None ? Py_NewRef(paths) : NULL;
    made->views = views;
    made->size = (size_t)size;
    made->room = malloc(made->size);
    if (made->room != NULL)
        return (PyObject *)made;
    Py_DECREF((PyObject *)made);
    return PyErr_NoMemory();
}

static void messages_free(PyObject *object)
{
    Messages *self = (Messages *)object;
    free(self->room);
    Py_XDECREF((PyObject *)self->schema);
    Py_XDECREF(self->paths);
    Py_XDECREF(self->piece);
    freed(object);
}

static PyMethodDef messages_methods[] = {
    { "_next", (PyCFunction)messages_taken, METH_NOARGS, NULL },
    { "_give", (PyCFunction)messages_give, METH_O, NULL },
    { "_front", (PyCFunction)messages_front, METH_NOARGS, NULL },
    { NULL, NULL, 0, NULL },
};

static PyMemberDef messages_members[] = {
    { "_count", T_ULONGLONG, offsetof(Messages, count), READONLY, NULL },
    { "_begin", T_ULONGLONG, offsetof(Messages, begin), READONLY, NULL },
    { "_held", T_PYSSIZET, offsetof(Messages, framer.held), READONLY, NULL },
    { "_has_good", T_BOOL, offsetof(Messages, has_good), READONLY, NULL },
    { "_failed", T_UINT, offsetof(Messages, framer.failed), READONLY, NULL },
    { "_limit", T_PYSSIZET, offsetof(Messages, size), READONLY, NULL },
    { NULL, 0, 0, 0, NULL },
};

static PyGetSetDef messages_properties[] = {
    { "_ident", messages_ident, NULL, NULL, NULL },
    { NULL, NULL, NULL, NULL, NULL },
};

static PyType_Slot messages_slots[] = {
    { Py_tp_dealloc, messages_free },
    { Py_tp_methods, messages_methods },
    { Py_tp_members, messages_members },
    { Py_tp_getset, messages_properties },
    { Py_tp_iter, PyObject_SelfIter },
    { Py_tp_iternext, messages_next },
    { 0, NULL },
};

/* The same without what `for` asks. */
static PyType_Slot later_slots[] = {
    { Py_tp_dealloc, messages_free },
    { Py_tp_methods, messages_methods },
    { Py_tp_members, messages_members },
    { Py_tp_getset, messages_properties },
    { 0, NULL },
};

#define OF_SCHEMAS Py_TPFLAGS_DEFAULT | Py_TPFLAGS_BASETYPE | Py_TPFLAGS_DISALLOW_INSTANTIATION

PyType_Spec messages_spec = { "fbcheck._fbcheck.Messages", sizeof(Messages), 0, OF_SCHEMAS, messages_slots };
PyType_Spec later_spec = { "fbcheck._fbcheck.AsyncMessages", sizeof(Messages), 0, OF_SCHEMAS, later_slots };
