/*
 * Makes every call but those that make and free something, with a scratch and without, with demands and without, in a
 * thread with 32 KB of stack, while a request for memory ends the process: heapless SCHEMA.bfbs BUFFER PATH
 * PATH_WITH_STAR, of which the buffer is good. Only fbcheck_resolve may ask.
 */
#include <fbcheck.h>
#include <fcntl.h>
#include <pthread.h>
#include <stdlib.h>
#include <string.h>
#include <unistd.h>

static uint8_t bytes[2][65536];
static size_t lengths[2];
static int is_shut;
static fbcheck_schema *schema;
static fbcheck_scratch *scratch;
static fbcheck_path path, wide;
static fbcheck_options strict = FBCHECK_OPTIONS_INIT;

void *__libc_malloc(size_t size);
void *__libc_realloc(void *old, size_t size);

void *malloc(size_t size)
{
    if (is_shut)
        _exit(9);
    return __libc_malloc(size);
}

void *realloc(void *old, size_t size)
{
    if (is_shut)
        _exit(9);
    return __libc_realloc(old, size);
}

static void read_file(int which, const char *path)
{
    int file = open(path, O_RDONLY);
    ssize_t length = file < 0 ? -1 : read(file, bytes[which], sizeof bytes[which]);
    if (length < 0)
        _exit(2);
    lengths[which] = (size_t)length;
}

static void call_each(fbcheck_scratch *scratch, const fbcheck_options *asked)
{
    char name[64];
    uint64_t reads;
    size_t used, written;
    uint8_t room[8];
    fbcheck_framer framer = FBCHECK_FRAMER_INIT;
    fbcheck_options options;
    fbcheck_sizes sizes;
    fbcheck_verdict verdicts[2];
    fbcheck_value value, values[2];
    fbcheck_span spans[2] = { { 0, 0 }, { 0, 3 } };
    spans[0].length = lengths[1];
    if (fbcheck_verify(schema, scratch, asked, bytes[1], lengths[1], verdicts) != FBCHECK_OK
        || fbcheck_verify(schema, scratch, asked, bytes[1], 3, verdicts) != FBCHECK_BAD
        || fbcheck_verify_each(schema, scratch, asked, bytes[1], lengths[1], spans, verdicts, 2) != FBCHECK_BAD
        || fbcheck_read(schema, scratch, asked, bytes[1], lengths[1], &path, &value, 1, verdicts) != FBCHECK_OK
        || fbcheck_read_again(schema, asked, bytes[1], lengths[1], &path, &value, 1, verdicts) != FBCHECK_OK
        || fbcheck_read_each(schema, asked, bytes[1], lengths[1], &wide, 0, values, 2, &used, verdicts) != FBCHECK_OK
        || values[1].kind != FBCHECK_TEXT
        || fbcheck_locate(schema, scratch, asked, bytes[1], lengths[1], name, 64, &written, verdicts) != FBCHECK_OK
        || fbcheck_locate(schema, scratch, asked, bytes[1], 3, name, 64, &written, verdicts) != FBCHECK_BAD
        || fbcheck_most_reads(schema, asked, 99, &reads) != FBCHECK_OK
        || fbcheck_table(schema, "?", 1) != FBCHECK_NO_TABLE
        || fbcheck_framer_feed(&framer, room, sizeof room, (const uint8_t *)"abc", 3, &used) != FBCHECK_MORE
        || fbcheck_framer_next(&framer, room, sizeof room) != FBCHECK_OK
        || fbcheck_framer_finish(&framer, room, sizeof room) != FBCHECK_TRUNCATED
        || fbcheck_options_init(&options) != FBCHECK_OK || fbcheck_struct_sizes(&sizes) != FBCHECK_OK
        || fbcheck_version() != FBCHECK_VERSION)
        _exit(3);
    if (fbcheck_object_name(schema, 0, name, sizeof name) == 0
        || fbcheck_field_name(schema, 0, 0, name, sizeof name) > sizeof name
        || fbcheck_reason_name(1, name, sizeof name) == 0 || fbcheck_fault_name(1, 1, name, sizeof name) == 0
        || fbcheck_status_text(0, name, sizeof name) != 4
        || fbcheck_path_hint(schema, FBCHECK_NONE, "_", 1, name, sizeof name) == 0
        || fbcheck_root_hint(schema, "_", 1, name, sizeof name) == 0)
        _exit(4);
}

static void *call_all(void *unused)
{
    is_shut = 1;
    call_each(NULL, NULL);
    call_each(scratch, NULL);
    call_each(NULL, &strict);
    call_each(scratch, &strict);
    is_shut = 0;
    return unused;
}

int main(int count, char **words)
{
    pthread_attr_t small;
    pthread_t thread;
    if (count != 5)
        return 2;
    read_file(0, words[1]);
    read_file(1, words[2]);
    strict.demands = FBCHECK_STRICT | FBCHECK_KNOWN_FIELDS | FBCHECK_UTF8 | FBCHECK_PLAIN_BYTES;
    schema = fbcheck_schema_new(bytes[0], lengths[0], &strict, NULL);
    scratch = fbcheck_scratch_new(FBCHECK_DEEPEST);
    if (schema == NULL || scratch == NULL
        || fbcheck_resolve(schema, NULL, words[3], strlen(words[3]), &path, NULL) != FBCHECK_OK
        || fbcheck_resolve(schema, NULL, words[4], strlen(words[4]), &wide, NULL) != FBCHECK_OK)
        return 5;
    if (pthread_attr_init(&small) != 0 || pthread_attr_setstacksize(&small, 32768) != 0
        || pthread_create(&thread, &small, call_all, NULL) != 0 || pthread_join(thread, NULL) != 0)
        return 6;
    fbcheck_scratch_free(scratch);
    fbcheck_schema_free(schema);
    return 0;
}
