/*
 * Checks one buffer against a schema file, and prints the verdict.
 *
 *     cc check.c $(pkg-config --cflags --libs fbcheck) -o check
 *     ./check [--prefixed] SCHEMA.bfbs BUFFER [ROOT]
 *
 * With --prefixed, the buffer begins with its prefix, as each message of examples/deliveries.bin does. The first of
 * these has 512 bytes, and is ok:
 *
 *     head -c 512 examples/deliveries.bin > first.bin
 *     ./check --prefixed examples/deliveries.bfbs first.bin
 *
 * In a clone, make library puts the library and fbcheck.pc into out/. There it is built so:
 *
 *     cc examples/c/check.c $(PKG_CONFIG_PATH=out pkg-config --cflags --libs fbcheck) -Wl,-rpath,$PWD/out -o check
 *
 * The exit status is 0 for an ok buffer, 1 for a bad one, and 2 if none was checked.
 */
#include "telling.h"

#include <string.h>

/* The bytes of a file, from malloc; or null, after a message on standard error. */
static uint8_t *contents(const char *path, size_t *length)
{
    FILE *file = fopen(path, "rb");
    uint8_t *bytes = bytes_of(file, length);
    if (file != NULL)
        fclose(file);
    if (bytes == NULL)
        fprintf(stderr, "check: %s can't be read\n", path);
    return bytes;
}

/* Prints the names of the table and the field, if any, in which a fault is. */
static void tell_names(const fbcheck_schema *schema, const fbcheck_verdict *verdict)
{
    char table[256], field[256];
    size_t lengths[2];
    lengths[0] = fbcheck_object_name(schema, verdict->object, table, sizeof table);
    lengths[1] = fbcheck_field_name(schema, verdict->object, verdict->field, field, sizeof field);
    if (lengths[0] <= sizeof table && lengths[1] <= sizeof field)
        printf("in %.*s%s%.*s\n", (int)lengths[0], table, lengths[1] > 0 ? "." : "", (int)lengths[1], field);
}

/* Checks the buffer in a file against a schema. */
static int check(const fbcheck_schema *schema, const fbcheck_options *options, const char *path)
{
    fbcheck_verdict verdict;
    size_t length;
    uint8_t *buffer = contents(path, &length);
    if (buffer == NULL)
        return 2;
    fbcheck_verify(schema, NULL, options, buffer, length, &verdict);
    free(buffer);
    if (verdict.status > FBCHECK_BAD) {
        fprintf(stderr, "check: nothing was checked: %" PRIu32 "\n", verdict.status);
        return 2;
    }
    tell(&verdict);
    putchar('\n');
    if (verdict.status == FBCHECK_BAD)
        tell_names(schema, &verdict);
    return (int)verdict.status;
}

int main(int count, char **words)
{
    fbcheck_options options = FBCHECK_OPTIONS_INIT;
    fbcheck_schema *schema;
    fbcheck_verdict why;
    size_t length;
    uint8_t *file;
    int status = 2;
    if (count > 1 && strcmp(words[1], "--prefixed") == 0) {
        options.prefixed = 1;
        words++;
        count--;
    }
    if (count < 3 || count > 4) {
        fprintf(stderr, "usage: check [--prefixed] SCHEMA.bfbs BUFFER [ROOT]\n");
        return 2;
    }
    file = contents(words[1], &length);
    if (file == NULL)
        return 2;
    schema = fbcheck_schema_new(file, length, NULL, &why);
    free(file);
    if (schema == NULL) {
        fprintf(stderr, "check: no schema: %" PRIu32 ", reason %" PRIu32 " at %" PRIu64 "\n", why.status, why.reason,
                why.at);
        return 2;
    }
    if (count == 4)
        options.root = fbcheck_table(schema, words[3], strlen(words[3]));
    if (options.root == FBCHECK_NO_TABLE)
        fprintf(stderr, "check: no table %s\n", words[3]);
    else
        status = check(schema, &options, words[2]);
    fbcheck_schema_free(schema);
    return status;
}
