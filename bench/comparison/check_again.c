/*
 * Checks one message with its size in front over and over, and tells the nanoseconds a check of the best of 400 rounds.
 */
#include <fbcheck.h>
#include <stdio.h>
#include <stdlib.h>
#include <time.h>

static uint8_t schema_file[1 << 16], message[1 << 16];

static size_t read_file(const char *path, uint8_t *bytes, size_t room)
{
    FILE *file = fopen(path, "rb");
    size_t length = file == NULL ? 0 : fread(bytes, 1, room, file);
    if (length == 0)
        exit(2);
    fclose(file);
    return length;
}

static double now(void)
{
    struct timespec time;
    clock_gettime(CLOCK_MONOTONIC, &time);
    return (double)time.tv_sec * 1e9 + (double)time.tv_nsec;
}

int main(int count, char **words)
{
    fbcheck_options options = FBCHECK_OPTIONS_INIT;
    fbcheck_verdict verdict;
    double best = 1e18;
    if (count != 4)
        return 2;
    size_t length = read_file(words[1], schema_file, sizeof schema_file), checks = strtoul(words[3], NULL, 10) / 400;
    fbcheck_schema *schema = fbcheck_schema_new(schema_file, length, NULL, NULL);
    fbcheck_scratch *scratch = fbcheck_scratch_new(FBCHECK_DEEP);
    length = read_file(words[2], message, sizeof message);
    options.prefixed = 1;
    for (int round = 0; round < 400; round++) {
        double begun = now();
        for (size_t i = 0; i < checks; i++)
            if (fbcheck_verify(schema, scratch, &options, message, length, &verdict) != FBCHECK_OK)
                return 3;
        double taken = (now() - begun) / (double)checks;
        best = taken < best ? taken : best;
    }
    fbcheck_scratch_free(scratch);
    fbcheck_schema_free(schema);
    printf("%.0f\n", best);
    return 0;
}
