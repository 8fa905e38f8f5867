/*
 * Has threads check buffers by one schema at the same time: threads SCHEMA.bfbs STREAM PATH THREADS ROUNDS [DEMANDS]
 *
 * The stream's messages have their size in front. One thread checks each message first, reads the value at the path's
 * end in it, and tells the names of its fault; then every thread does so as often as there are rounds, and must be told
 * the same. Every second thread has a scratch, and the others use their stack. The schema's file is forgotten at once,
 * and a thread that isn't the one that made the schema frees it. Prints how many checks were made.
 */
#include "../../examples/c/telling.h"

#include <pthread.h>
#include <string.h>

#define MOST 4096

static fbcheck_schema *schema;
static fbcheck_options options = FBCHECK_OPTIONS_INIT;
static fbcheck_path path;
static uint8_t *stream;
static size_t rounds, messages;
static fbcheck_span spans[MOST];

/* What is told of a message. */
struct told {
    fbcheck_verdict verdict;
    fbcheck_value value;
    char name[64];
    size_t length;
};

static struct told first[MOST];

static void fail(const char *what)
{
    fprintf(stderr, "threads: %s\n", what);
    exit(2);
}

static void tell_message(size_t number, fbcheck_scratch *scratch, struct told *told)
{
    const uint8_t *message = stream + spans[number].at;
    size_t length = spans[number].length;
    memset(told, 0, sizeof *told);
    fbcheck_verify(schema, scratch, &options, message, length, &told->verdict);
    fbcheck_read(schema, scratch, &options, message, length, &path, &told->value, 1, NULL);
    told->length = fbcheck_object_name(schema, told->verdict.object, told->name, sizeof told->name);
}

static void *check_all(void *number)
{
    fbcheck_scratch *scratch = (size_t)number % 2 == 1 ? fbcheck_scratch_new(FBCHECK_DEEP) : NULL;
    struct told told;
    for (size_t round = 0; round < rounds; round++)
        for (size_t i = 0; i < messages; i++) {
            tell_message((i + (size_t)number) % messages, scratch, &told);
            if (memcmp(&told, &first[(i + (size_t)number) % messages], sizeof told) != 0)
                fail("a thread was told something else");
        }
    fbcheck_scratch_free(scratch);
    return NULL;
}

static void *free_schema(void *unused)
{
    fbcheck_schema_free(schema);
    return unused;
}

static void take_messages(size_t length)
{
    for (size_t at = 0; at < length; at += spans[messages++].length) {
        const uint8_t *m = stream + at;
        if (messages == MOST || length - at < 4)
            fail("too many messages, or half of one");
        spans[messages].at = at;
        spans[messages].length = 4 + ((size_t)m[0] | (size_t)m[1] << 8 | (size_t)m[2] << 16 | (size_t)m[3] << 24);
    }
}

int main(int count, char **words)
{
    pthread_t threads[64];
    size_t length, many;
    uint8_t *file = count == 6 || count == 7 ? bytes_of(fopen(words[1], "rb"), &length) : NULL;
    options.demands = count == 7 ? (uint32_t)strtoul(words[6], NULL, 10) : 0;
    if (file == NULL || (schema = fbcheck_schema_new(file, length, &options, NULL)) == NULL)
        fail("no schema");
    memset(file, 0, length);
    free(file);
    stream = bytes_of(fopen(words[2], "rb"), &length);
    if (stream == NULL)
        fail("no stream");
    take_messages(length);
    options.prefixed = 1;
    if (fbcheck_resolve(schema, &options, words[3], strlen(words[3]), &path, NULL) != FBCHECK_OK)
        fail("no path");
    many = strtoul(words[4], NULL, 10);
    rounds = strtoul(words[5], NULL, 10);
    for (size_t i = 0; i < messages; i++)
        tell_message(i, NULL, &first[i]);
    for (size_t i = 0; i < many && many <= 64; i++)
        if (pthread_create(&threads[i], NULL, check_all, (void *)i) != 0)
            fail("no thread");
    for (size_t i = 0; i < many && many <= 64; i++)
        pthread_join(threads[i], NULL);
    if (pthread_create(&threads[0], NULL, free_schema, NULL) != 0)
        fail("no thread");
    pthread_join(threads[0], NULL);
    free(stream);
    printf("%zu\n", 2 * many * rounds * messages);
    return 0;
}
