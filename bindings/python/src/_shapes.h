/*
 * What dicts are made by: _shapes.c takes it from the package, _dicts.c makes them.
 */
#ifndef FBCHECK_PYTHON_SHAPES_H
#define FBCHECK_PYTHON_SHAPES_H

#include "_fbcheck.h"

/* What something is, as _shapes.py writes it: the letter of a number (_formats.py), or one of these. */
#define NOTHING '-'
#define TEXT 's'
#define BYTES 'y' /* a vector of unsigned bytes */
#define TABLE 't'
#define STRUCT 'r'
#define UNION 'U'
#define TYPE 'u' /* the type of a union */
#define VECTOR 'v'
#define ARRAY 'a'

/* What something is; of vectors and arrays, what an element is. `index` says which table, struct or union. */
typedef struct {
    char form, element;
    uint32_t index, count; /* an array has so many */
} Kind;

/* A field: of a table by its slot, of a struct by its place. `number` is that of a path's step. */
typedef struct {
    PyObject *name;
    uint32_t at, number;
    Kind kind;
} Part;

/* A table or a struct. Its parts are in the order of `at`. */
typedef struct {
    PyObject *blank; /* a dict with what is told of a table without fields */
    Part *parts;
    uint32_t count;
    uint32_t size; /* of a struct; 0 for a table */
    int is_flat;   /* no part is a struct, or an array of these */
} Shape;

/* A member of a union; one that isn't there has no name. */
typedef struct {
    PyObject *name;
    Kind kind;
} Member;

/* The members of a union by their values. */
typedef Member Members[256];

struct Shapes {
    Shape *shapes;
    Members **unions; /* null for an enum */
    uint32_t count, union_count;
    uint64_t salts[4];
};

#pragma GCC visibility push(hidden)
int are_shaped(Schema *self);
PyObject *name_of_type(const Shapes *shapes, uint32_t index, uint8_t type);
#pragma GCC visibility pop

#endif
