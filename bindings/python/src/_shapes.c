/*
 * The tables, structs and unions of a schema, as _shapes.py tells them.
 */
#include "_shapes.h"

#define SHAPES "fbcheck.shapes"

static void free_shapes(Shapes *of)
{
    uint32_t at, part;
    for (at = 0; of->shapes != NULL && at < of->count; at++) {
        for (part = 0; of->shapes[at].parts != NULL && part < of->shapes[at].count; part++)
            Py_XDECREF(of->shapes[at].parts[part].name);
        free(of->shapes[at].parts);
        Py_XDECREF(of->shapes[at].blank);
    }
    for (at = 0; of->unions != NULL && at < of->union_count; at++) {
        for (part = 0; of->unions[at] != NULL && part < 256; part++)
            Py_XDECREF((*of->unions[at])[part].name);
        free(of->unions[at]);
    }
    free(of->shapes);
    free(of->unions);
    free(of);
}

static void free_capsule(PyObject *capsule)
{
    free_shapes(PyCapsule_GetPointer(capsule, SHAPES));
}

/* So many elements of this size, all 0, or null with what that raises. */
static void *zeroed(Py_ssize_t count, size_t size)
{
    void *room = count < UINT32_MAX ? calloc((size_t)count + 1, size) : NULL;
    if (room == NULL)
        PyErr_NoMemory();
    return room;
}

/* The name of a type of a union, or the type itself where the schema has no such member. */
PyObject *name_of_type(const Shapes *shapes, uint32_t index, uint8_t type)
{
    PyObject *name = (*shapes->unions[index])[type].name;
    return name != NULL ? Py_NewRef(name) : PyLong_FromLong(type);
}

/* What is told of a table's field that is absent: what is read of a table without fields. */
static PyObject *absent(Schema *schema, const Shapes *shapes, uint32_t table, const Part *part)
{
    static const uint8_t message[12] = { 8, 0, 0, 0, 4, 0, 4, 0, 4, 0, 0, 0 };
    fbcheck_options options = FBCHECK_OPTIONS_INIT;
    fbcheck_path path = { 1, 0, { { FBCHECK_STEP_FIELD, part->number } } };
    fbcheck_value value;
    uint32_t status;
    options.root = table;
    status = fbcheck_read_again(schema->schema, &options, message, sizeof message, &path, &value, 1, NULL);
    if (status != FBCHECK_OK)
        return refused(schema, status);
    if (part->kind.form == TYPE && value.kind == FBCHECK_UINT)
        return name_of_type(shapes, part->kind.index, (uint8_t)value.number);
    return value_of(schema, NULL, (const char *)message, &value, 'B');
}

/* Whether there is what an index leads to. */
static int is_kind(const Shapes *shapes, const Kind *kind)
{
    char last = kind->form == VECTOR || kind->form == ARRAY ? kind->element : kind->form;
    int is_good = 1;
    if (last == TABLE || last == STRUCT)
        is_good = kind->index < shapes->count;
    else if (last == UNION || last == TYPE)
        is_good = kind->index < shapes->union_count && shapes->unions[kind->index] != NULL;
    if (!is_good)
        PyErr_SetString(PyExc_ValueError, "no shape has this index");
    return is_good;
}

/* Takes a part of a shape from (name, at, number, form, element, index, count). */
static int take_part(const Shapes *shapes, Shape *shape, Part *part, PyObject *told)
{
    int form, element;
    if (!PyArg_ParseTuple(told, "UIICCII", &part->name, &part->at, &part->number, &form, &element, &part->kind.index,
                          &part->kind.count)) {
        part->name = NULL;
        return 0;
    }
    Py_INCREF(part->name);
    PyUnicode_InternInPlace(&part->name);
    part->kind.form = (char)form;
    part->kind.element = (char)element;
    shape->is_flat &= form != STRUCT && element != STRUCT;
    return is_kind(shapes, &part->kind);
}

/* Takes a shape from (size, parts), and makes the dict with which one begins. */
static int take_shape(Schema *schema, const Shapes *shapes, uint32_t number, PyObject *told)
{
    Shape *shape = shapes->shapes + number;
    PyObject *parts;
    uint32_t at, count;
    if (!PyArg_ParseTuple(told, "IO!", &shape->size, &PyTuple_Type, &parts) ||
        (shape->parts = zeroed(PyTuple_Size(parts), sizeof *shape->parts)) == NULL ||
        (shape->blank = PyDict_New()) == NULL)
        return 0;
    shape->is_flat = 1;
    shape->count = count = (uint32_t)PyTuple_Size(parts);
    for (at = 0; at < count; at++) {
        Part *part = shape->parts + at;
        PyObject *value;
        int is_put;
        if (!take_part(shapes, shape, part, PyTuple_GetItem(parts, at)))
            return 0;
        value = shape->size != 0 ? Py_NewRef(Py_None) : absent(schema, shapes, number, part);
        is_put = value != NULL && PyDict_SetItem(shape->blank, part->name, value) == 0;
        Py_XDECREF(value);
        if (!is_put)
            return 0;
    }
    return 1;
}

/* Takes a union from ((value, name, form, index), ..); of None, which stands for an enum, nothing. */
static int take_union(Members **into, PyObject *told)
{
    Py_ssize_t at;
    if (told == Py_None)
        return 1;
    if (!PyTuple_Check(told) || (*into = zeroed(1, sizeof **into)) == NULL)
        return 0;
    for (at = 0; at < PyTuple_Size(told); at++) {
        unsigned char value;
        PyObject *name;
        uint32_t index;
        int form;
        Member *member;
        if (!PyArg_ParseTuple(PyTuple_GetItem(told, at), "bUCI", &value, &name, &form, &index))
            return 0;
        member = **into + value;
        Py_XDECREF(member->name);
        member->name = Py_NewRef(name);
        member->kind.form = (char)form;
        member->kind.index = index;
    }
    return 1;
}

/* Whether each member is a text, or there is what its index leads to. */
static int are_members(const Shapes *shapes)
{
    uint32_t at, value;
    for (at = 0; at < shapes->union_count; at++)
        for (value = 0; shapes->unions[at] != NULL && value < 256; value++)
            if (!is_kind(shapes, &(*shapes->unions[at])[value].kind))
                return 0;
    return 1;
}

/* Takes all of them, from tuples. */
static int take_shapes(Schema *schema, Shapes *into, PyObject *objects, PyObject *unions)
{
    uint32_t at;
    into->shapes = zeroed(PyTuple_Size(objects), sizeof *into->shapes);
    into->unions = zeroed(PyTuple_Size(unions), sizeof *into->unions);
    if (into->shapes == NULL || into->unions == NULL)
        return 0;
    into->count = (uint32_t)PyTuple_Size(objects);
    into->union_count = (uint32_t)PyTuple_Size(unions);
    for (at = 0; at < into->union_count; at++)
        if (!take_union(into->unions + at, PyTuple_GetItem(unions, at)))
            return 0;
    for (at = 0; at < into->count; at++)
        if (!take_shape(schema, into, at, PyTuple_GetItem(objects, at)))
            return 0;
    return are_members(into);
}

/* _shapes(objects, unions, salts): what owns the shapes that these tell of. */
PyObject *schema_shapes(Schema *self, PyObject *words)
{
    PyObject *objects, *unions, *capsule = NULL;
    const char *salts;
    Py_ssize_t length;
    Shapes *made;
    if (!PyArg_ParseTuple(words, "O!O!y#", &PyTuple_Type, &objects, &PyTuple_Type, &unions, &salts, &length))
        return NULL;
    made = zeroed(1, sizeof *made);
    if (made == NULL)
        return NULL;
    memcpy(made->salts, salts, (size_t)length < sizeof made->salts ? (size_t)length : sizeof made->salts);
    if (take_shapes(self, made, objects, unions))
        capsule = PyCapsule_New(made, SHAPES, free_capsule);
    if (capsule == NULL)
        free_shapes(made);
    return capsule;
}

/* Has the package tell the shapes, the first time, and the number of the root table. */
int are_shaped(Schema *self)
{
    PyObject *told, *shaped;
    const Shapes *shapes = NULL;
    uint32_t root;
    if (self->shapes != NULL)
        return 1;
    told = PyObject_CallMethod((PyObject *)self, "_shaped", NULL);
    if (told != NULL && PyArg_ParseTuple(told, "OI", &shaped, &root))
        shapes = PyCapsule_GetPointer(shaped, SHAPES);
    if (shapes != NULL && root >= shapes->count) {
        PyErr_SetString(PyExc_ValueError, "no shape has the root's number");
        shapes = NULL;
    }
    if (shapes != NULL && self->shapes == NULL) {
        self->shaped = Py_NewRef(shaped);
        self->root = root;
        self->shapes = shapes;
    }
    Py_XDECREF(told);
    return shapes != NULL;
}
