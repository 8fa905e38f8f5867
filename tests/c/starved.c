/*
 * Makes a schema with demands and a scratch, and resolves two paths, where a request for memory may be refused
 * (tests/memory/refuse.c), has a fault told in words, and asks the heap for nothing itself: starved SCHEMA.bfbs GOOD
 * BAD PATH PATH_WITH_STAR, of two buffers with their size in front.
 *
 * Ends with 0 where all was done, and with 11 to 13 where one of the first three told the want of memory, by which. What
 * it should have written is as it was then, nothing else is disturbed, and the next time, when nothing is refused, it
 * does as it should.
 */
#include <fbcheck.h>
#include <fcntl.h>
#include <stdlib.h>
#include <string.h>
#include <unistd.h>

static uint8_t bytes[3][65536];
static size_t lengths[3];
static int met; /* by which call the want of memory was told */

static void read_file(int which, const char *path)
{
    int file = open(path, O_RDONLY);
    ssize_t length = file < 0 ? -1 : read(file, bytes[which], sizeof bytes[which]);
    if (length < 0)
        exit(2);
    close(file);
    lengths[which] = (size_t)length;
}

/* Whether a call told the want of memory, in place of the status that is wanted. No more than one may. */
static int was_refused(int call, uint32_t status, uint32_t wanted)
{
    if (status == wanted)
        return 0;
    if (status != FBCHECK_NO_MEMORY || met != 0)
        exit(3);
    met = call;
    return 1;
}

static fbcheck_schema *make_schema(void)
{
    fbcheck_verdict why;
    fbcheck_options options = FBCHECK_OPTIONS_INIT;
    fbcheck_schema *schema;
    options.demands = FBCHECK_STRICT | FBCHECK_PLAIN_BYTES;
    schema = fbcheck_schema_new(bytes[0], lengths[0], &options, &why);
    if ((schema == NULL) != (why.status != FBCHECK_OK))
        exit(4);
    return was_refused(11, why.status, FBCHECK_OK) ? make_schema() : schema;
}

static fbcheck_scratch *make_scratch(void)
{
    fbcheck_scratch *scratch = fbcheck_scratch_new(FBCHECK_DEEP);
    return was_refused(12, scratch == NULL ? FBCHECK_NO_MEMORY : FBCHECK_OK, FBCHECK_OK) ? make_scratch() : scratch;
}

static void resolve(const fbcheck_schema *schema, const char *text, fbcheck_path *path)
{
    fbcheck_verdict why;
    fbcheck_path before = *path;
    uint32_t status = fbcheck_resolve(schema, NULL, text, strlen(text), path, &why);
    if (status != why.status || (status != FBCHECK_OK && memcmp(path, &before, sizeof before) != 0))
        exit(5);
    if (was_refused(13, status, FBCHECK_OK))
        resolve(schema, text, path);
}

static void locate(const fbcheck_schema *schema, fbcheck_scratch *scratch, const fbcheck_options *options)
{
    fbcheck_verdict why;
    char text[256] = "";
    size_t written = 77;
    uint32_t status = fbcheck_locate(schema, scratch, options, bytes[2], lengths[2], text, sizeof text, &written, &why);
    if (status != FBCHECK_BAD || status != why.status || written == 0 || text[0] == 0)
        exit(6);
}

int main(int count, char **words)
{
    fbcheck_options options = FBCHECK_OPTIONS_INIT;
    fbcheck_path path = { 0, 0, { { 0, 0 } } }, wide = path;
    fbcheck_value value;
    fbcheck_schema *schema;
    fbcheck_scratch *scratch;
    if (count != 6)
        return 2;
    for (int which = 0; which < 3; which++)
        read_file(which, words[which + 1]);
    options.prefixed = 1;
    schema = make_schema();
    scratch = make_scratch();
    resolve(schema, words[4], &path);
    resolve(schema, words[5], &wide);
    if (path.each != 0 || wide.each == 0)
        return 8;
    locate(schema, scratch, &options);
    if (fbcheck_read(schema, scratch, &options, bytes[1], lengths[1], &path, &value, 1, NULL) != FBCHECK_OK
        || value.kind == FBCHECK_ABSENT)
        return 7;
    fbcheck_scratch_free(scratch);
    fbcheck_schema_free(schema);
    return met;
}
