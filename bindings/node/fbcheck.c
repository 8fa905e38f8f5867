/*
 * The calls of libfbcheck as index.js takes them, over Node-API. What a call tells beside its answer it writes into the
 * numbers that index.js gave to begin(), and it checks in room that is kept for that; each thread of Node has its own.
 */
#define NAPI_VERSION 8
#include <fbcheck.h>
#include <node_api.h>

#include <stdbool.h>
#include <stdlib.h>
#include <string.h>

/* The places of the numbers that are told. */
enum { STATUS, REASON, OBJECT, FIELD, TABLES, DEPTH, AT, READS, USED, LEFT };

/* What a thread of Node has: the numbers that are told, what makes an FbcheckError of a code and a text, and room for
   so many open tables. */
struct thread {
    double *told;
    napi_ref error;
    fbcheck_scratch *scratch;
    uint32_t depth;
};

/* A schema of the library, which is freed with the last of its users. */
struct rows {
    size_t users;
    fbcheck_schema *schema;
    int64_t size; /* about how many bytes it has, by which JavaScript collects garbage in time */
};

/* What a Schema of JavaScript holds: rows, or null once it's closed. */
struct checker {
    struct rows *rows;
    fbcheck_options options;
    struct thread *thread;
};

/* What goes through a stream. */
struct stream {
    fbcheck_framer framer;
    uint8_t *room;
    size_t size;
    double *told;
};

static struct thread *thread_of(napi_env env)
{
    void *thread = NULL;
    napi_get_instance_data(env, &thread);
    return thread;
}

static uint32_t tell(double *told, const fbcheck_verdict *verdict)
{
    told[STATUS] = verdict->status;
    told[REASON] = verdict->reason;
    told[OBJECT] = verdict->object;
    told[FIELD] = verdict->field;
    told[TABLES] = verdict->tables;
    told[DEPTH] = verdict->depth;
    told[AT] = (double)verdict->at;
    told[READS] = (double)verdict->reads;
    return verdict->status;
}

static napi_value number(napi_env env, uint32_t value)
{
    napi_value made = NULL;
    napi_create_uint32(env, value, &made);
    return made;
}

static napi_value text_of(napi_env env, const char *text, size_t length)
{
    napi_value made = NULL;
    napi_create_string_utf8(env, text, length, &made);
    return made;
}

/* Throws an FbcheckError with this code, or any error where there is none. */
static napi_value failed(napi_env env, const char *code, const char *why)
{
    napi_value make, error, words[2];
    if (code == NULL || napi_get_reference_value(env, thread_of(env)->error, &make) != napi_ok) {
        napi_throw_error(env, NULL, why);
        return NULL;
    }
    words[0] = text_of(env, code, NAPI_AUTO_LENGTH);
    words[1] = text_of(env, why, NAPI_AUTO_LENGTH);
    if (napi_call_function(env, make, make, 2, words, &error) == napi_ok)
        napi_throw(env, error);
    return NULL;
}

static napi_value no_memory(napi_env env)
{
    return failed(env, "NO_MEMORY", "out of memory");
}

/* Room for the open tables of a check, or null where memory is refused, which is thrown. A check would do with its own
   stack, but then it clears 5 KB where more than three tables are open. */
static fbcheck_scratch *scratch_for(napi_env env, const struct checker *checker)
{
    struct thread *thread = checker->thread;
    if (thread->scratch == NULL || thread->depth < checker->options.max_depth) {
        fbcheck_scratch_free(thread->scratch);
        thread->depth = checker->options.max_depth > FBCHECK_DEEP ? checker->options.max_depth : FBCHECK_DEEP;
        thread->scratch = fbcheck_scratch_new(thread->depth);
        if (thread->scratch == NULL)
            no_memory(env);
    }
    return thread->scratch;
}

/* The arguments, and what the first one holds. */
static void *arguments(napi_env env, napi_callback_info info, napi_value *words, size_t count)
{
    void *held = NULL;
    napi_get_cb_info(env, info, &count, words, NULL, NULL);
    napi_get_value_external(env, words[0], &held);
    return held;
}

/* The checker that the first argument holds, unless it's closed, which is thrown. */
static struct checker *checker_of(napi_env env, napi_callback_info info, napi_value *words, size_t count)
{
    struct checker *checker = arguments(env, info, words, count);
    if (checker != NULL && checker->rows != NULL)
        return checker;
    failed(env, "CLOSED", "the schema is closed");
    return NULL;
}

/* The bytes of an argument where they are, or false where it has none, which is thrown. */
static bool bytes_of(napi_env env, napi_value word, uint8_t **bytes, size_t *length)
{
    napi_typedarray_type type;
    void *data = NULL;
    if (napi_get_typedarray_info(env, word, &type, length, &data, NULL, NULL) != napi_ok || type != napi_uint8_array) {
        napi_throw_type_error(env, NULL, "a Buffer or Uint8Array is needed");
        return false;
    }
    *bytes = data;
    return true;
}

/* Whether an array's bytes were handed on to another thread, so that it has none any more. */
static bool is_detached(napi_env env, napi_value array)
{
    napi_value buffer;
    bool detached = false;
    if (napi_get_typedarray_info(env, array, NULL, NULL, NULL, &buffer, NULL) == napi_ok)
        napi_is_detached_arraybuffer(env, buffer, &detached);
    return detached;
}

static void leave(napi_env env, struct checker *checker)
{
    int64_t all;
    if (checker->rows != NULL && --checker->rows->users == 0) {
        napi_adjust_external_memory(env, -checker->rows->size, &all);
        fbcheck_schema_free(checker->rows->schema);
        free(checker->rows);
    }
    checker->rows = NULL;
}

static void free_checker(napi_env env, void *held, void *hint)
{
    (void)hint;
    leave(env, held);
    free(held);
}

static void free_thread(napi_env env, void *held, void *hint)
{
    struct thread *thread = held;
    (void)env, (void)hint;
    fbcheck_scratch_free(thread->scratch);
    free(thread);
}

static void free_stream(napi_env env, void *held, void *hint)
{
    struct stream *stream = held;
    (void)env, (void)hint;
    free(stream->room);
    free(stream);
}

/* begin(numbers, error): the Float64Array into which calls tell, and what makes an FbcheckError of a code and text. */
static napi_value begin(napi_env env, napi_callback_info info)
{
    napi_value words[2], version;
    napi_ref kept;
    void *numbers;
    struct thread *thread = calloc(1, sizeof *thread);
    if (thread == NULL)
        return failed(env, NULL, "out of memory");
    arguments(env, info, words, 2);
    napi_create_reference(env, words[1], 1, &thread->error);
    napi_get_typedarray_info(env, words[0], NULL, NULL, &numbers, NULL, NULL);
    napi_create_reference(env, words[0], 1, &kept);
    thread->told = numbers;
    napi_set_instance_data(env, thread, free_thread, NULL);
    napi_create_uint32(env, fbcheck_version(), &version);
    return version;
}

/* commit(): the commit that last changed the library's sources, or undefined if they weren't committed. */
static napi_value commit(napi_env env, napi_callback_info info)
{
    const char *text = fbcheck_commit();
    (void)info;
    return *text == '?' ? NULL : text_of(env, text, NAPI_AUTO_LENGTH);
}

/* A checker of these rows as a value, which frees it. */
static napi_value holding(napi_env env, struct rows *rows, const fbcheck_options *options)
{
    struct checker *checker = malloc(sizeof *checker);
    napi_value made;
    if (checker == NULL)
        return no_memory(env);
    *checker = (struct checker){ rows, *options, thread_of(env) };
    rows->users++;
    if (napi_create_external(env, checker, free_checker, NULL, &made) == napi_ok)
        return made;
    free_checker(env, checker, NULL);
    return no_memory(env);
}

/* load(file, demands): a schema for checks with these demands, or undefined where there is none. */
static napi_value load(napi_env env, napi_callback_info info)
{
    fbcheck_options options = FBCHECK_OPTIONS_INIT;
    napi_value words[2], made;
    fbcheck_verdict verdict;
    struct rows *rows;
    uint8_t *file;
    size_t length;
    int64_t all;
    arguments(env, info, words, 2);
    if (!bytes_of(env, words[0], &file, &length))
        return NULL;
    napi_get_value_uint32(env, words[1], &options.demands);
    rows = calloc(1, sizeof *rows);
    if (rows == NULL)
        return no_memory(env);
    rows->users = 1;
    rows->size = 8 * (int64_t)length;
    napi_adjust_external_memory(env, rows->size, &all);
    rows->schema = fbcheck_schema_new(file, length, &options, &verdict);
    tell(thread_of(env)->told, &verdict);
    made = rows->schema == NULL ? NULL : holding(env, rows, &options);
    leave(env, &(struct checker){ .rows = rows });
    return made;
}

/* choose(schema, options): the same schema with these options, which are the library's by their bytes. */
static napi_value choose(napi_env env, napi_callback_info info)
{
    napi_value words[2];
    fbcheck_options options;
    struct checker *checker = checker_of(env, info, words, 2);
    uint8_t *bytes;
    size_t length;
    if (checker == NULL || !bytes_of(env, words[1], &bytes, &length))
        return NULL;
    if (length != sizeof options)
        return failed(env, NULL, "these are no options");
    memcpy(&options, bytes, length);
    return holding(env, checker->rows, &options);
}

static napi_value close_schema(napi_env env, napi_callback_info info)
{
    napi_value words[1];
    struct checker *checker = arguments(env, info, words, 1);
    leave(env, checker);
    return NULL;
}

/* table(schema, name): the number of a table. */
static napi_value table(napi_env env, napi_callback_info info)
{
    napi_value words[2];
    struct checker *checker = checker_of(env, info, words, 2);
    uint8_t *name;
    size_t length;
    if (checker == NULL || !bytes_of(env, words[1], &name, &length))
        return NULL;
    return number(env, fbcheck_table(checker->rows->schema, (const char *)name, length));
}

/* locate(schema, message): undefined where it's good, else where its fault is, in words, at most 1,024 bytes. */
static napi_value locate(napi_env env, napi_callback_info info)
{
    napi_value words[2];
    struct checker *checker = checker_of(env, info, words, 2);
    fbcheck_scratch *scratch;
    fbcheck_verdict verdict;
    uint8_t *message;
    size_t length, written = 0;
    char text[1024];
    if (checker == NULL || !bytes_of(env, words[1], &message, &length))
        return NULL;
    if ((scratch = scratch_for(env, checker)) == NULL)
        return NULL;
    fbcheck_locate(checker->rows->schema, scratch, &checker->options, message, length, text, sizeof text, &written,
                   &verdict);
    if (tell(checker->thread->told, &verdict) == FBCHECK_OK)
        return NULL;
    return text_of(env, text, written < sizeof text ? written : sizeof text);
}

/* resolve(schema, text): the bytes of a path, or undefined where there is none. */
static napi_value resolve(napi_env env, napi_callback_info info)
{
    napi_value words[2], made = NULL;
    struct checker *checker = checker_of(env, info, words, 2);
    fbcheck_verdict verdict;
    fbcheck_path path;
    uint8_t *text;
    size_t length;
    if (checker == NULL || !bytes_of(env, words[1], &text, &length))
        return NULL;
    memset(&path, 0, sizeof path);
    fbcheck_resolve(checker->rows->schema, &checker->options, (const char *)text, length, &path, &verdict);
    if (tell(checker->thread->told, &verdict) == FBCHECK_OK)
        napi_create_buffer_copy(env, sizeof path, &path, NULL, &made);
    return made;
}

/* pathHint(schema, text): what helps with a text that is no path. */
static napi_value path_hint(napi_env env, napi_callback_info info)
{
    napi_value words[2];
    struct checker *checker = checker_of(env, info, words, 2);
    uint8_t *path;
    size_t length;
    char text[FBCHECK_LONGEST_HINT];
    if (checker == NULL || !bytes_of(env, words[1], &path, &length))
        return NULL;
    return text_of(env, text, fbcheck_path_hint(checker->rows->schema, checker->options.root, (const char *)path,
                                                length, text, sizeof text));
}

/* rootHint(schema, name): what helps with a name that no table has. */
static napi_value root_hint(napi_env env, napi_callback_info info)
{
    napi_value words[2];
    struct checker *checker = checker_of(env, info, words, 2);
    uint8_t *name;
    size_t length;
    char text[FBCHECK_LONGEST_HINT];
    if (checker == NULL || !bytes_of(env, words[1], &name, &length))
        return NULL;
    return text_of(env, text, fbcheck_root_hint(checker->rows->schema, (const char *)name, length, text, sizeof text));
}

/* What read() and again() take: paths and values are the library's by their bytes. */
struct reading {
    struct checker *checker;
    uint8_t *message;
    size_t length;
    const fbcheck_path *paths;
    fbcheck_value *values;
    size_t count;
};

/* Whether the arguments (schema, message, paths, values) are such; where not, that is thrown. */
static bool reading_of(napi_env env, napi_callback_info info, struct reading *reading)
{
    napi_value words[4];
    uint8_t *paths, *values;
    size_t paths_length, values_length;
    reading->checker = checker_of(env, info, words, 4);
    if (reading->checker == NULL || !bytes_of(env, words[1], &reading->message, &reading->length) ||
        !bytes_of(env, words[2], &paths, &paths_length) || !bytes_of(env, words[3], &values, &values_length))
        return false;
    reading->paths = (const fbcheck_path *)(void *)paths;
    reading->values = (fbcheck_value *)(void *)values;
    reading->count = paths_length / sizeof(fbcheck_path);
    if (values_length / sizeof(fbcheck_value) >= reading->count && (uintptr_t)values % 8 == 0 &&
        (uintptr_t)paths % 8 == 0)
        return true;
    failed(env, NULL, "there is no room for the values");
    return false;
}

/* read(schema, message, paths, values): checks the message, and gives the status. */
static napi_value read_values(napi_env env, napi_callback_info info)
{
    struct reading of;
    fbcheck_scratch *scratch;
    fbcheck_verdict verdict;
    if (!reading_of(env, info, &of) || (scratch = scratch_for(env, of.checker)) == NULL)
        return NULL;
    fbcheck_read(of.checker->rows->schema, scratch, &of.checker->options, of.message, of.length, of.paths, of.values,
                 of.count, &verdict);
    return number(env, tell(of.checker->thread->told, &verdict));
}

/* again(schema, message, paths, values): the same for a message that was ok, without a check. */
static napi_value read_again(napi_env env, napi_callback_info info)
{
    struct reading of;
    fbcheck_verdict verdict;
    if (!reading_of(env, info, &of))
        return NULL;
    fbcheck_read_again(of.checker->rows->schema, &of.checker->options, of.message, of.length, of.paths, of.values,
                       of.count, &verdict);
    return number(env, tell(of.checker->thread->told, &verdict));
}

/* each(schema, message, path, first, values): for a message that was ok, fills in what the path with [*] leads to from as
   many elements as there is room for, beginning with this one. Gives the status. */
static napi_value read_each(napi_env env, napi_callback_info info)
{
    napi_value words[5];
    struct checker *checker = checker_of(env, info, words, 5);
    fbcheck_path path;
    uint8_t *message, *bytes, *room;
    size_t length, path_length, room_length, elements = 0;
    uint32_t first = 0;
    if (checker == NULL || !bytes_of(env, words[1], &message, &length) ||
        !bytes_of(env, words[2], &bytes, &path_length) || !bytes_of(env, words[4], &room, &room_length))
        return NULL;
    napi_get_value_uint32(env, words[3], &first);
    if (path_length != sizeof path || (uintptr_t)room % 8 != 0)
        return failed(env, NULL, "there is no room for the values");
    memcpy(&path, bytes, sizeof path);
    fbcheck_value *values = (fbcheck_value *)(void *)room;
    size_t count = room_length / sizeof *values;
    uint32_t status = fbcheck_read_each(checker->rows->schema, &checker->options, message, length, &path, first, values,
                                        count, &elements, NULL);
    if (status == FBCHECK_OK && elements < first + count)
        status = FBCHECK_CHANGED; /* the message had as many when they were counted */
    return number(env, status);
}

/* mostReads(schema, length): as a bigint, both. */
static napi_value most_reads(napi_env env, napi_callback_info info)
{
    napi_value words[2], made = NULL;
    struct checker *checker = checker_of(env, info, words, 2);
    uint64_t length = 0, reads = 0;
    bool whole;
    if (checker == NULL)
        return NULL;
    napi_get_value_bigint_uint64(env, words[1], &length, &whole);
    fbcheck_most_reads(checker->rows->schema, &checker->options, length, &reads);
    napi_create_bigint_uint64(env, reads, &made);
    return made;
}

/* name(schema, object, field): of an object, with no field, or of a field; empty where there is none. */
static napi_value name(napi_env env, napi_callback_info info)
{
    napi_value words[3], made;
    struct checker *checker = checker_of(env, info, words, 3);
    uint32_t object, field;
    if (checker == NULL)
        return NULL;
    bool of_object = napi_get_value_uint32(env, words[2], &field) != napi_ok;
    if (napi_get_value_uint32(env, words[1], &object) != napi_ok)
        return failed(env, NULL, "a number is needed");
    const fbcheck_schema *schema = checker->rows->schema;
    size_t length = of_object ? fbcheck_object_name(schema, object, NULL, 0)
                              : fbcheck_field_name(schema, object, field, NULL, 0);
    char *text = malloc(length + 1);
    if (text == NULL)
        return no_memory(env);
    if (of_object)
        fbcheck_object_name(schema, object, text, length);
    else
        fbcheck_field_name(schema, object, field, text, length);
    made = text_of(env, text, length);
    free(text);
    return made;
}

/* stream(limit): what goes through a stream. */
static napi_value stream_of(napi_env env, napi_callback_info info)
{
    napi_value words[1], made;
    uint32_t size = 0;
    arguments(env, info, words, 1);
    napi_get_value_uint32(env, words[0], &size);
    struct stream *stream = calloc(1, sizeof *stream);
    if (stream == NULL || (stream->room = calloc(size, 1)) == NULL) {
        free(stream);
        return no_memory(env);
    }
    stream->size = size;
    stream->told = thread_of(env)->told;
    if (napi_create_external(env, stream, free_stream, NULL, &made) == napi_ok)
        return made;
    free_stream(env, stream, NULL);
    return no_memory(env);
}

/* feed(stream, piece, at): a message that is whole now, or undefined. Tells the status, how much was used of the piece
   from this place on, and how much is left: 0 too where the piece has become shorter. */
static napi_value feed(napi_env env, napi_callback_info info)
{
    napi_value words[3], made = NULL;
    struct stream *stream = arguments(env, info, words, 3);
    uint8_t *piece;
    size_t length, used = 0;
    double at = 0;
    if (!bytes_of(env, words[1], &piece, &length))
        return NULL;
    napi_get_value_double(env, words[2], &at);
    if (at == 0 && length == 0 && is_detached(env, words[1])) {
        napi_throw_type_error(env, NULL, "a piece of the stream is detached: it has no bytes any more");
        return NULL;
    }
    size_t from = at < (double)length ? (size_t)at : length;
    piece = from == 0 ? piece : piece + from;
    uint32_t status = fbcheck_framer_feed(&stream->framer, stream->room, stream->size, piece, length - from, &used);
    stream->told[STATUS] = status;
    stream->told[AT] = stream->framer.declared;
    stream->told[USED] = (double)used;
    stream->told[LEFT] = (double)(length - from - used);
    if (status == FBCHECK_OK) {
        napi_create_buffer_copy(env, stream->framer.held, stream->room, NULL, &made);
        fbcheck_framer_next(&stream->framer, stream->room, stream->size);
    }
    return made;
}

/* finish(stream): the status at the end; tells how much is held. */
static napi_value finish(napi_env env, napi_callback_info info)
{
    napi_value words[1];
    struct stream *stream = arguments(env, info, words, 1);
    stream->told[AT] = (double)stream->framer.held;
    return number(env, fbcheck_framer_finish(&stream->framer, stream->room, stream->size));
}

NAPI_MODULE_INIT()
{
    static const struct {
        const char *name;
        napi_callback call;
    } calls[] = { { "begin", begin },         { "commit", commit },       { "load", load },
                  { "choose", choose },       { "close", close_schema },  { "table", table },
                  { "locate", locate },       { "resolve", resolve },     { "read", read_values },
                  { "again", read_again },    { "each", read_each },      { "pathHint", path_hint },
                  { "rootHint", root_hint },  { "mostReads", most_reads },{ "name", name },
                  { "stream", stream_of },    { "feed", feed },           { "finish", finish } };
    for (size_t i = 0; i < sizeof calls / sizeof *calls; i++) {
        napi_value made;
        napi_create_function(env, calls[i].name, NAPI_AUTO_LENGTH, calls[i].call, NULL, &made);
        napi_set_named_property(env, exports, calls[i].name, made);
    }
    return exports;
}
