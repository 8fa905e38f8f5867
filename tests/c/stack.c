/*
 * Tells how many bytes of its thread's stack each kind of call takes for a buffer: stack SCHEMA.bfbs BUFFER DEMANDS.
 * The thread's stack is memory of this program, which is painted below the caller before each call: what isn't as it
 * was painted afterwards was written. Each call is made with a scratch and without; the larger number counts.
 */
#define _GNU_SOURCE
#include <fbcheck.h>
#include <fcntl.h>
#include <pthread.h>
#include <stdio.h>
#include <stdlib.h>
#include <sys/mman.h>
#include <unistd.h>

#define ROOM 262144
#define PAINT 0xA5
#define CALLS 4

static const char *const names[CALLS] = { "verify", "verify_each", "read", "locate" };
static uint8_t files[2][1 << 20];
static size_t lengths[2];
static uint8_t *stack;
static fbcheck_schema *schema;
static fbcheck_options options = FBCHECK_OPTIONS_INIT;
static size_t most[CALLS];

static void read_file(int which, const char *path)
{
    int file = open(path, O_RDONLY);
    ssize_t length = file < 0 ? -1 : read(file, files[which], sizeof files[which]);
    if (length < 0)
        _exit(2);
    lengths[which] = (size_t)length;
}

static void call(int which, fbcheck_scratch *scratch)
{
    static char text[FBCHECK_LONGEST_PLACE];
    static fbcheck_path root;
    static fbcheck_value value;
    static fbcheck_verdict verdict;
    size_t written;
    fbcheck_span span = { 0, 0 };
    span.length = lengths[1];
    if (which == 0)
        fbcheck_verify(schema, scratch, &options, files[1], lengths[1], &verdict);
    else if (which == 1)
        fbcheck_verify_each(schema, scratch, &options, files[1], lengths[1], &span, &verdict, 1);
    else if (which == 2)
        fbcheck_read(schema, scratch, &options, files[1], lengths[1], &root, &value, 1, &verdict);
    else
        fbcheck_locate(schema, scratch, &options, files[1], lengths[1], text, sizeof text, &written, &verdict);
    if (verdict.status > FBCHECK_BAD)
        _exit(3);
}

static void *measure(void *scratch)
{
    volatile uint8_t *below = (volatile uint8_t *)__builtin_frame_address(0) - 256;
    for (int which = 0; which < CALLS; which++) {
        volatile uint8_t *lowest;
        for (volatile uint8_t *at = stack; at < below; at++)
            *at = PAINT;
        call(which, scratch);
        for (lowest = stack; *lowest == PAINT; lowest++)
            ;
        if ((size_t)(below - lowest) > most[which])
            most[which] = (size_t)(below - lowest);
    }
    return NULL;
}

int main(int count, char **words)
{
    pthread_attr_t own;
    pthread_t thread;
    fbcheck_scratch *scratch = fbcheck_scratch_new(FBCHECK_DEEP);
    if (count != 4)
        return 2;
    read_file(0, words[1]);
    read_file(1, words[2]);
    options.demands = (uint32_t)atoi(words[3]);
    schema = fbcheck_schema_new(files[0], lengths[0], &options, NULL);
    stack = mmap(NULL, ROOM, PROT_READ | PROT_WRITE, MAP_PRIVATE | MAP_ANONYMOUS, -1, 0);
    if (schema == NULL || scratch == NULL || stack == MAP_FAILED)
        return 4;
    for (int turn = 0; turn < 2; turn++)
        if (pthread_attr_init(&own) != 0 || pthread_attr_setstack(&own, stack, ROOM) != 0
            || pthread_create(&thread, &own, measure, turn == 0 ? scratch : NULL) != 0
            || pthread_join(thread, NULL) != 0)
            return 5;
    for (int which = 0; which < CALLS; which++)
        printf("%s %zu\n", names[which], most[which]);
    fbcheck_scratch_free(scratch);
    fbcheck_schema_free(schema);
    return 0;
}
