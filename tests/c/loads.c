/*
 * Makes a schema, checks a buffer, reads a value and frees, over and over: with a scratch and without, from a file that
 * is cut off, and with a scratch that is too deep. Tells how many bytes of the heap are in use after a few rounds, and
 * after many.
 */
#include <fbcheck.h>
#include <malloc.h>
#include <stdio.h>
#include <stdlib.h>
#include <string.h>

static uint8_t bytes[2][65536];
static size_t lengths[2];

static void read_file(int which, const char *path)
{
    FILE *file = fopen(path, "rb");
    if (file == NULL)
        exit(2);
    lengths[which] = fread(bytes[which], 1, sizeof bytes[which], file);
    fclose(file);
}

/* Resolves the root's first field, and reads it. */
static void read_first_field(const fbcheck_schema *schema, fbcheck_scratch *scratch)
{
    char name[64];
    fbcheck_path path;
    fbcheck_value value;
    fbcheck_verdict verdict;
    size_t length;
    fbcheck_verify(schema, NULL, NULL, NULL, 0, &verdict); /* it names the root */
    length = fbcheck_field_name(schema, verdict.object, 0, name, sizeof name);
    if (fbcheck_resolve(schema, NULL, name, length, &path, NULL) != FBCHECK_OK || path.count != 1)
        exit(8);
    if (fbcheck_read(schema, scratch, NULL, bytes[1], lengths[1], &path, &value, 1, NULL) != FBCHECK_OK)
        exit(9);
}

static void round_of(size_t number)
{
    fbcheck_verdict verdict;
    fbcheck_schema *schema = fbcheck_schema_new(bytes[0], lengths[0], NULL, &verdict);
    fbcheck_scratch *scratch = number % 2 == 0 ? fbcheck_scratch_new(FBCHECK_DEEPEST) : NULL;
    if (schema == NULL || verdict.status != FBCHECK_OK)
        exit(3);
    if (fbcheck_verify(schema, scratch, NULL, bytes[1], lengths[1], &verdict) != FBCHECK_OK || verdict.tables == 0)
        exit(4);
    read_first_field(schema, scratch);
    if (fbcheck_schema_new(bytes[0], number % lengths[0], NULL, &verdict) != NULL || verdict.status == FBCHECK_OK)
        exit(5);
    if (fbcheck_verify(schema, scratch, NULL, bytes[1], lengths[1], NULL) != FBCHECK_OK)
        exit(6);
    if (fbcheck_scratch_new(FBCHECK_DEEPEST + 1) != NULL)
        exit(7);
    fbcheck_scratch_free(scratch);
    fbcheck_schema_free(schema);
}

int main(int count, char **words)
{
    size_t rounds;
    if (count != 4)
        return 2;
    read_file(0, words[1]);
    read_file(1, words[2]);
    rounds = strtoul(words[3], NULL, 10);
    for (size_t i = 0; i < 20; i++)
        round_of(i);
    size_t few = mallinfo2().uordblks;
    for (size_t i = 0; i < rounds; i++)
        round_of(i);
    size_t many = mallinfo2().uordblks;
    fprintf(stdout, "%s\n", few == many ? "flat" : "it grows");
    return 0;
}
