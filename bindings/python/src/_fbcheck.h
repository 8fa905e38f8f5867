/*
 * What the files of the extension share: _fbcheck.c has verdicts and schemas, _values.c the values of a message and
 * views of messages, _dicts.c and _shapes.c whole tables as dicts, _messages.c the messages of a stream, _streams.c the
 * columns that are read of it.
 *
 * All are written against the limited API of Python 3.11.
 */
#ifndef FBCHECK_PYTHON_H
#define FBCHECK_PYTHON_H

#define Py_LIMITED_API 0x030b0000
#define PY_SSIZE_T_CLEAN
#include <Python.h>
#include <structmember.h>

#include <stddef.h>
#include <stdlib.h>
#include <string.h>

#include <fbcheck.h>

/* What dicts are made by (_shapes.h). */
typedef struct Shapes Shapes;

/* A schema with its options; `handle` owns what `schema` leads to, and other options may share it. `kept` has what the
   package makes of what is told. */
typedef struct {
    PyObject_HEAD
    PyObject *handle;
    const fbcheck_schema *schema;
    fbcheck_options options;
    fbcheck_scratch *idle; /* room for tables that no call has at the moment, or null */
    PyObject *told[2];     /* the verdicts that were told last, or null */
    PyObject *paths;       /* by each text or path that was read at, the bytes of _resolve() with its letters behind */
    PyObject *unions;      /* by its number and its type, each value of a union that was made */
    PyObject *kept;
    PyObject *verdict, *bad_buffer, *fault; /* the class of verdicts, the exception with one, and that of a status */
    PyObject *table, *a_union;              /* what stands for a table, what makes the value of a union, */
    PyObject *vector, *count;               /* and the class of vectors, with the name of what they have */
    PyObject *view;                         /* the class of views, */
    PyObject *overlap, *path_error;         /* and exceptions */
    PyObject *shaped;     /* what owns the shapes, or null until a dict is asked for, */
    const Shapes *shapes; /* these, */
    uint32_t root;        /* and the number of the root table */
} Schema;

/* One message under check, whose bytes are a copy where others may write them meanwhile. */
typedef struct {
    Py_buffer view;
    const uint8_t *bytes;
    uint8_t *copy; /* or null */
    fbcheck_scratch *scratch;
    PyThreadState *others; /* null while this thread keeps the lock of the interpreter */
} Check;

/* A message that was good, whose bytes are kept as long as this lives. */
typedef struct {
    PyObject_HEAD
    Schema *schema;
    PyObject *message; /* itself, or a copy where others may have written it */
    PyObject *verdict;
    Py_buffer buffer;
} View;

/* The messages of a stream, of which the next one comes to stand in `room`. */
typedef struct {
    PyObject_HEAD
    Schema *schema;
    PyObject *paths; /* a tuple of those whose values come with each message, or null */
    int views;       /* whether a view does */
    char is_taken;   /* while a call goes on */
    char is_over;    /* once the source told its end */
    char has_good;   /* once a message was good */
    char ident[4];   /* where the first one may have an identifier */
    fbcheck_framer framer;
    uint8_t *room;
    size_t size;
    PyObject *piece; /* that is gone through, or null, */
    size_t at;       /* up to this place */
    uint64_t count;  /* how many messages were whole, */
    uint64_t begin;  /* and where the next one begins in the stream */
} Messages;

/* What the schema file says of the end of a path, as _formats.py writes it. */
typedef struct {
    char element;     /* what a memoryview calls the numbers of a vector */
    char column;      /* what a column of such values has */
    uint8_t owner[4]; /* the number of the union in the file, or that of none */
} Letters;

/* The number of no union. */
#define NO_UNION 0xffffffff

/* How many paths are without memory of their own. */
#define FEW_PATHS 8

/* The longest message. */
#define LONGEST_MESSAGE 0x7fffffff

/* Where a message is longer, or may cost more reads a byte than by default, other threads run while it is checked. */
#define SHORT_MESSAGE 2048
#define FEW_READS 64

static inline int is_long(const Schema *schema, size_t length)
{
    return length > SHORT_MESSAGE || schema->options.reads_per_byte > FEW_READS;
}

/* No name leaves the extension but the one that the interpreter looks for. */
#pragma GCC visibility push(hidden)

/* Of _fbcheck.c. */
void freed(PyObject *self);
PyObject *refused(Schema *self, uint32_t status);
int take_scratch(Schema *self, fbcheck_scratch **scratch);
void give_scratch(Schema *self, fbcheck_scratch *scratch);
int begin(Schema *self, PyObject *message, Check *check);
void resume(Check *check);
void end(Schema *self, Check *check);
PyObject *judged(Schema *self, const fbcheck_verdict *told, const char *place, size_t length);
PyObject *located(Schema *self, Check *check);
PyObject *raised(Schema *self, PyObject *verdict);
int verdict_is_good(PyObject *verdict);
PyObject *schema_check(Schema *self, PyObject *message);
PyObject *schema_verify(Schema *self, PyObject *message);

/* Of _values.c. */
extern PyType_Spec view_spec;
int copy_single(Schema *self, PyObject *path, fbcheck_path *steps, Letters *letters);
PyObject *value_of(Schema *self, PyObject *message, const char *bytes, const fbcheck_value *value, char letter);
PyObject *schema_resolve(Schema *self, PyObject *text);
PyObject *schema_read(Schema *self, PyObject *const *words, Py_ssize_t count);
PyObject *schema_found(Schema *self, PyObject *words);
PyObject *schema_view(Schema *self, PyObject *message);
PyObject *schema_viewed(Schema *self, PyObject *message);

/* Of _shapes.c. */
PyObject *schema_shapes(Schema *self, PyObject *words);

/* Of _dicts.c. */
PyObject *schema_to_dict(Schema *self, PyObject *message);
PyObject *view_to_dict(View *self, PyObject *const *words, Py_ssize_t count);

/* Of _messages.c. */
extern PyType_Spec messages_spec, later_spec;
int begin_turn(Messages *self);
int get_piece(Messages *self, Py_buffer *piece);
void give_piece(Messages *self, Py_buffer *piece);
int ask_piece(Messages *self);
void pass_message(Messages *self, int is_good);
PyObject *schema_stream(Schema *self, PyObject *words);

/* Of _streams.c. */
extern PyType_Spec column_spec;
PyObject *schema_columns(Schema *self, PyObject *words);

#pragma GCC visibility pop

#endif
