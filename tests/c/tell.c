/*
 * Checks each message of a stream by the library, with words as the program takes them, and tells it by a line as the
 * program does.
 *
 * A message stands right before a page that can't be read, and the next time right behind one, so that a read outside
 * of it ends the process. Each time it is checked on the call's own stack, where that has room, and with a scratch.
 * Then all are checked at once where they stand in the stream, which must give the same verdicts.
 */
#include "../../examples/c/telling.h"

#include <string.h>
#include <sys/mman.h>
#include <unistd.h>

static void fail(const char *what)
{
    fprintf(stderr, "tell: %s\n", what);
    exit(2);
}

/* A run of pages between two that can't be read. */
struct field {
    uint8_t *first;
    size_t length;
};

static struct field field_of(size_t length)
{
    size_t page = (size_t)sysconf(_SC_PAGESIZE);
    struct field field = { NULL, (length + page) / page * page };
    uint8_t *at = mmap(NULL, field.length + 2 * page, PROT_NONE, MAP_PRIVATE | MAP_ANONYMOUS, -1, 0);
    if (at == MAP_FAILED || mprotect(at + page, field.length, PROT_READ | PROT_WRITE) != 0)
        fail("no pages");
    field.first = at + page;
    return field;
}

/* What the words ask for: the schema file's name, the root's, and the options. */
struct asked {
    const char *path, *root;
    fbcheck_options options;
};

static struct asked asked_by(int count, char **words)
{
    struct asked asked = { "", NULL, FBCHECK_OPTIONS_INIT };
    fbcheck_options *options = &asked.options;
    options->prefixed = 1;
    for (int i = 1; i < count; i++) {
        const char *word = words[i], *value = i + 1 < count ? words[i + 1] : "";
        if (strcmp(word, "--no-alignment") == 0)
            options->no_alignment = 1;
        else if (strcmp(word, "--inline-size") == 0)
            options->inline_size = 255;
        else if (strcmp(word, "--strict") == 0)
            options->demands |= FBCHECK_STRICT;
        else if (strcmp(word, "--known-fields") == 0)
            options->demands |= FBCHECK_KNOWN_FIELDS;
        else if (strcmp(word, "--utf8") == 0)
            options->demands |= FBCHECK_UTF8;
        else if (strcmp(word, "--plain-bytes") == 0)
            options->demands |= FBCHECK_PLAIN_BYTES;
        else if (i++, strcmp(word, "--schema") == 0)
            asked.path = value;
        else if (strcmp(word, "--root") == 0)
            asked.root = value;
        else if (strcmp(word, "--max-depth") == 0)
            options->max_depth = (uint32_t)strtoul(value, NULL, 10);
        else if (strcmp(word, "--max-tables") == 0)
            options->max_tables = (uint32_t)strtoul(value, NULL, 10);
        else if (strcmp(word, "--max-reads") == 0)
            options->max_reads = strtoull(value, NULL, 10);
        else if (strcmp(word, "--ident") == 0 && strlen(value) == 4)
            memcpy(options->ident, value, 4), options->ident_from = FBCHECK_IDENT_THIS;
        else
            fail("a word is wrong");
    }
    return asked;
}

/* Checks a message where it stands, on the call's own stack where that has room, and with a scratch. */
static fbcheck_verdict verdict_at(const fbcheck_schema *schema, fbcheck_scratch *scratch,
                                  const fbcheck_options *options, const uint8_t *place, size_t length)
{
    fbcheck_verdict alone, with;
    fbcheck_verify(schema, options->max_depth > FBCHECK_DEEP ? scratch : NULL, options, place, length, &alone);
    fbcheck_verify(schema, scratch, options, place, length, &with);
    if (memcmp(&alone, &with, sizeof alone) != 0)
        fail("a verdict with a scratch differs");
    return alone;
}

/* The verdict on a message, which beside two pages that can't be read is the same. */
static fbcheck_verdict verdict_on(const fbcheck_schema *schema, fbcheck_scratch *scratch,
                                  const fbcheck_options *options, struct field field, const uint8_t *message,
                                  size_t length)
{
    fbcheck_verdict before, behind;
    uint8_t *place = field.first + field.length - length;
    memcpy(place, message, length);
    before = verdict_at(schema, scratch, options, place, length);
    memcpy(field.first, message, length);
    behind = verdict_at(schema, scratch, options, field.first, length);
    if (memcmp(&before, &behind, sizeof before) != 0)
        fail("two verdicts on one message differ");
    return before;
}

/* Where the messages of a stream lie. */
static fbcheck_span *spans_of(const uint8_t *stream, size_t length, size_t *count)
{
    fbcheck_span *spans = calloc(length / 4 + 1, sizeof *spans);
    if (spans == NULL)
        fail("out of memory");
    *count = 0;
    for (size_t at = 0; at < length; at += spans[(*count)++].length) {
        const uint8_t *m = stream + at;
        spans[*count].at = at;
        spans[*count].length = 4 + ((size_t)m[0] | (size_t)m[1] << 8 | (size_t)m[2] << 16 | (size_t)m[3] << 24);
    }
    return spans;
}

/* Checks all messages of a stream at once, and holds them against the verdicts on each. */
static void check_at_once(const fbcheck_schema *schema, fbcheck_scratch *scratch, const fbcheck_options *options,
                          const uint8_t *stream, size_t length, const fbcheck_span *spans,
                          const fbcheck_verdict *verdicts, size_t count)
{
    fbcheck_verdict *batch = calloc(count + 1, sizeof *batch);
    uint32_t status, want = FBCHECK_OK;
    if (batch == NULL)
        fail("out of memory");
    for (size_t i = 0; i < count; i++)
        want |= verdicts[i].status != FBCHECK_OK ? FBCHECK_BAD : FBCHECK_OK;
    status = fbcheck_verify_each(schema, scratch, options, stream, length, spans, batch, count);
    if (memcmp(batch, verdicts, count * sizeof *batch) != 0)
        fail("a verdict of all at once differs");
    if (status != want)
        fail("the answer isn't that of the verdicts");
    free(batch);
}

int main(int count, char **words)
{
    struct asked asked = asked_by(count, words);
    fbcheck_options made_with = FBCHECK_OPTIONS_INIT;
    fbcheck_schema *schema;
    fbcheck_scratch *scratch;
    size_t length, stream_length, messages;
    uint8_t *file = bytes_of(fopen(asked.path, "rb"), &length);
    uint8_t *stream = bytes_of(stdin, &stream_length);
    struct field field;
    fbcheck_span *spans;
    fbcheck_verdict *verdicts;
    if (file == NULL || stream == NULL)
        fail("no schema file, or no stream");
    made_with.demands = asked.options.demands;
    schema = fbcheck_schema_new(file, length, &made_with, NULL);
    scratch = fbcheck_scratch_new(asked.options.max_depth);
    free(file);
    if (schema == NULL || scratch == NULL)
        fail("no schema, or no scratch");
    if (asked.root != NULL)
        asked.options.root = fbcheck_table(schema, asked.root, strlen(asked.root));
    field = field_of(stream_length);
    spans = spans_of(stream, stream_length, &messages);
    verdicts = calloc(messages + 1, sizeof *verdicts);
    if (verdicts == NULL)
        fail("out of memory");
    for (size_t i = 0; i < messages; i++) {
        verdicts[i] = verdict_on(schema, scratch, &asked.options, field, stream + spans[i].at, spans[i].length);
        printf("%zu ", i + 1);
        tell(&verdicts[i]);
        putchar('\n');
    }
    check_at_once(schema, scratch, &asked.options, stream, stream_length, spans, verdicts, messages);
    fbcheck_scratch_free(scratch);
    fbcheck_schema_free(schema);
    free(stream);
    free(spans);
    free(verdicts);
    return 0;
}
