/*
 * Reads values in a buffer that is ok, and in what becomes of it: again SCHEMA.bfbs BUFFER PREFIXED ROUNDS PATH..
 *
 * The buffer stands right before a page that can't be read, and the next time right behind one, so that a read outside
 * of it ends the process. Its values are those of fbcheck_read. Then each byte is changed to some others, the end is
 * cut off at each place, words at random places are random, and another thread changes bytes meanwhile. Each time a
 * path is told a value that lies inside, which is that of fbcheck_read if a check still says ok, or that bytes changed.
 * A path with [*] is told, for each element, what the path to this element is told. Prints how many reads were told a
 * value, and how many that bytes changed; and the same of reads of elements.
 */
#include "../../examples/c/telling.h"

#include <pthread.h>
#include <stdatomic.h>
#include <string.h>
#include <sys/mman.h>
#include <unistd.h>

#define MOST 64

static fbcheck_schema *schema;
static fbcheck_options options = FBCHECK_OPTIONS_INIT;
static fbcheck_path paths[MOST], wide[MOST];
static size_t count, wide_count;
static size_t told, changed, elements_told, elements_changed;
static uint64_t dice = 88172645463325252u;
static atomic_int is_over;

static void demand(int is, const char *what)
{
    if (is)
        return;
    fprintf(stderr, "again: %s\n", what);
    exit(2);
}

static uint64_t thrown(void)
{
    dice ^= dice << 13;
    dice ^= dice >> 7;
    dice ^= dice << 17;
    return dice;
}

/* A run of pages between two that can't be read. */
struct field {
    uint8_t *first;
    size_t length;
};

static struct field field_of(size_t length)
{
    size_t page = (size_t)sysconf(_SC_PAGESIZE);
    struct field field = { NULL, (length + page) / page * page };
    uint8_t *at = mmap(NULL, field.length + 2 * page, PROT_NONE, MAP_PRIVATE | MAP_ANONYMOUS, -1, 0);
    demand(at != MAP_FAILED && mprotect(at + page, field.length, PROT_READ | PROT_WRITE) == 0, "no pages");
    field.first = at + page;
    return field;
}

/* Reads one path, and holds what is told against the buffer's length. */
static uint32_t read_one(const uint8_t *buffer, size_t length, const fbcheck_path *path, fbcheck_value *value)
{
    fbcheck_verdict verdict;
    fbcheck_value before;
    uint32_t status;
    memset(&before, 85, sizeof before);
    *value = before;
    status = fbcheck_read_again(schema, &options, buffer, length, path, value, 1, &verdict);
    demand(verdict.status == status && verdict.at == 0 && verdict.reads == 0, "the verdict is of something else");
    demand(status == FBCHECK_OK || status == FBCHECK_CHANGED, "another status");
    if (status == FBCHECK_CHANGED)
        demand(memcmp(value, &before, sizeof before) == 0, "a value is told beside FBCHECK_CHANGED");
    else
        demand(value->at <= length && value->size <= length - value->at, "a value lies outside");
    return status;
}

/* Reads all paths at once, which tells what each tells alone, up to the first that tells of a change. */
static void read_together(const uint8_t *buffer, size_t length, const uint32_t *statuses, const fbcheck_value *alone)
{
    fbcheck_value values[MOST], before;
    fbcheck_verdict verdict;
    size_t first = 0;
    uint32_t status;
    memset(values, 85, sizeof values);
    memset(&before, 85, sizeof before);
    status = fbcheck_read_again(schema, &options, buffer, length, paths, values, count, &verdict);
    while (first < count && statuses[first] == FBCHECK_OK)
        first++;
    demand(status == (first == count ? FBCHECK_OK : FBCHECK_CHANGED), "all at once end otherwise");
    demand(verdict.at == (first == count ? 0 : first), "another path is named");
    demand(memcmp(values, alone, first * sizeof *values) == 0, "a value of all at once is another");
    for (size_t i = first; i < MOST; i++)
        demand(memcmp(&values[i], &before, sizeof before) == 0, "a value behind a change is told");
}

/* The path to one element, and that to all of them. */
static fbcheck_path path_to(const fbcheck_path *path, size_t element)
{
    fbcheck_path one = *path;
    one.each = 0;
    one.steps[path->each - 1].number = (uint32_t)element;
    return one;
}

static fbcheck_path path_to_all(const fbcheck_path *path)
{
    fbcheck_path all = *path;
    all.each = 0;
    all.count = path->each - 1;
    return all;
}

/* Reads elements by a path with [*], and holds what is told against the buffer's length. */
static uint32_t read_elements(const uint8_t *buffer, size_t length, const fbcheck_path *path, size_t first,
                              size_t room, fbcheck_value *values, size_t *elements, size_t *filled)
{
    fbcheck_verdict verdict;
    fbcheck_value before;
    uint32_t status;
    memset(&before, 85, sizeof before);
    memset(values, 85, MOST * sizeof *values);
    *elements = 77;
    status = fbcheck_read_each(schema, &options, buffer, length, path, first, values, room, elements, &verdict);
    demand(verdict.status == status && verdict.reads == 0, "the verdict of elements is of something else");
    demand(status == FBCHECK_OK || status == FBCHECK_CHANGED, "another status of elements");
    demand(status == FBCHECK_OK || *elements == 77, "elements are counted beside FBCHECK_CHANGED");
    demand(status == FBCHECK_CHANGED || verdict.at == 0, "a place of elements that are told");
    demand(status == FBCHECK_CHANGED || *elements <= length || *elements < 65536, "too many elements");
    *filled = status == FBCHECK_CHANGED ? verdict.at : *elements < first ? 0 : *elements - first;
    if (*filled > room)
        *filled = room;
    for (size_t i = 0; i < MOST; i++)
        if (i < *filled)
            demand(values[i].at <= length && values[i].size <= length - values[i].at, "an element lies outside");
        else
            demand(memcmp(&values[i], &before, sizeof before) == 0, "a value behind the elements is told");
    return status;
}

/* Reads elements, and then each by a path of its own, which tells the same; of an ok buffer, what fbcheck_read does. */
static void read_wide(const uint8_t *buffer, size_t length, const fbcheck_path *path, int is_ok)
{
    fbcheck_value values[MOST], one, vector;
    size_t first = thrown() % 8 < 5 ? 0 : thrown() % 4, room = thrown() % MOST, elements, filled;
    fbcheck_path all = path_to_all(path), next;
    uint32_t status = read_elements(buffer, length, path, first, room, values, &elements, &filled), found;
    found = fbcheck_read_again(schema, &options, buffer, length, &all, &vector, 1, NULL);
    elements_told += filled;
    elements_changed += status == FBCHECK_CHANGED;
    demand(status == FBCHECK_OK || !is_ok, "an ok buffer's elements are said to have changed");
    if (status == FBCHECK_OK)
        demand(found == FBCHECK_OK && elements == (vector.kind == FBCHECK_VECTOR ? vector.number : 0),
               "another count of elements");
    for (size_t i = 0; i < filled; i++) {
        next = path_to(path, first + i);
        demand(read_one(buffer, length, &next, &one) == FBCHECK_OK && memcmp(&one, &values[i], sizeof one) == 0,
               "an element's value isn't that of its path");
        if (is_ok)
            demand(fbcheck_read(schema, NULL, &options, buffer, length, &next, &one, 1, NULL) == FBCHECK_OK
                       && memcmp(&one, &values[i], sizeof one) == 0,
                   "an element's value isn't that of fbcheck_read");
    }
    next = path_to(path, first + filled);
    if (status == FBCHECK_CHANGED)
        demand(found == FBCHECK_CHANGED || read_one(buffer, length, &next, &one) == FBCHECK_CHANGED,
               "bytes are said to have changed, and no path says so");
    if (status == FBCHECK_CHANGED && found == FBCHECK_CHANGED)
        demand(filled == 0, "elements are told of no vector");
}

/* Reads each path, and if the buffer is ok holds the values against those of fbcheck_read. */
static int read_each(const uint8_t *buffer, size_t length)
{
    uint32_t statuses[MOST];
    fbcheck_value values[MOST], want[MOST];
    int is_ok = fbcheck_read(schema, NULL, &options, buffer, length, paths, want, count, NULL) == FBCHECK_OK;
    for (size_t i = 0; i < count; i++) {
        statuses[i] = read_one(buffer, length, &paths[i], &values[i]);
        told += statuses[i] == FBCHECK_OK;
        changed += statuses[i] == FBCHECK_CHANGED;
        demand(!is_ok || statuses[i] == FBCHECK_OK, "an ok buffer is said to have changed");
    }
    if (is_ok)
        demand(memcmp(values, want, count * sizeof *values) == 0, "a value isn't that of fbcheck_read");
    read_together(buffer, length, statuses, values);
    for (size_t i = 0; i < wide_count; i++)
        read_wide(buffer, length, &wide[i], is_ok);
    return is_ok;
}

/* Each byte is another, at both ends of the field. */
static void spoil_each(struct field field, const uint8_t *buffer, size_t length)
{
    static const uint8_t others[] = { 0, 1, 4, 127, 128, 252, 255 };
    uint8_t *places[2] = { field.first + field.length - length, field.first };
    for (size_t end = 0; end < 2; end++) {
        memcpy(places[end], buffer, length);
        demand(read_each(places[end], length), "the buffer isn't ok");
        for (size_t at = 0; at < length; at++) {
            for (size_t i = 0; i < sizeof others; i++) {
                places[end][at] = others[i];
                read_each(places[end], length);
            }
            places[end][at] = buffer[at];
        }
    }
}

/* The end is cut off at each place. */
static void cut_each(struct field field, const uint8_t *buffer, size_t length)
{
    for (size_t left = 0; left < length; left++) {
        uint8_t *place = field.first + field.length - left;
        memcpy(place, buffer, left);
        read_each(place, left);
    }
}

/* Some words at random places are random; and in the end all are. */
static void shuffle(struct field field, const uint8_t *buffer, size_t length, size_t rounds)
{
    uint8_t *place = field.first + field.length - length;
    for (size_t round = 0; round < rounds; round++) {
        memcpy(place, buffer, length);
        for (size_t left = round % 16 == 15 ? length : 1 + round % 4; left > 0; left--) {
            uint64_t word = thrown() >> thrown() % 64;
            size_t at = thrown() % length;
            memcpy(place + at, &word, length - at < 4 ? length - at : 4);
        }
        read_each(place, length);
    }
}

/* A buffer that a thread changes as long as it isn't over. */
struct changing {
    volatile uint8_t *place;
    const uint8_t *buffer;
    size_t length;
};

static void *change(void *given)
{
    const struct changing *changing = given;
    uint64_t word = 1;
    while (!atomic_load(&is_over))
        for (size_t at = 0; at < changing->length; at++) {
            word = word * 6364136223846793005u + 1442695040888963407u;
            changing->place[at] = word >> 61 == 0 ? (uint8_t)(word >> 40) : changing->buffer[at];
        }
    return NULL;
}

/* Another thread changes bytes while they are read. */
static void change_meanwhile(struct field field, const uint8_t *buffer, size_t length, size_t rounds)
{
    struct changing changing = { field.first + field.length - length, buffer, length };
    const uint8_t *place = field.first + field.length - length;
    fbcheck_value value, values[MOST];
    size_t elements, filled;
    pthread_t thread;
    memcpy(field.first + field.length - length, buffer, length);
    demand(pthread_create(&thread, NULL, change, &changing) == 0, "no thread");
    for (size_t round = 0; round < 100 * rounds; round++)
        if (read_one(place, length, &paths[round % count], &value) == FBCHECK_OK)
            told++;
        else
            changed++;
    for (size_t round = 0; round < 20 * rounds && wide_count > 0; round++) {
        const fbcheck_path *path = &wide[round % wide_count];
        uint32_t status = read_elements(place, length, path, round % 2, MOST - 2, values, &elements, &filled);
        elements_told += filled;
        elements_changed += status == FBCHECK_CHANGED;
    }
    atomic_store(&is_over, 1);
    pthread_join(thread, NULL);
}

int main(int number, char **words)
{
    size_t file_length, length, rounds;
    uint8_t *file, *buffer;
    struct field field;
    demand(number > 5 && number - 5 <= MOST, "a schema, a buffer, whether it has a prefix, rounds, and paths");
    file = bytes_of(fopen(words[1], "rb"), &file_length);
    buffer = bytes_of(fopen(words[2], "rb"), &length);
    options.prefixed = words[3][0] != '0';
    rounds = strtoul(words[4], NULL, 10);
    schema = fbcheck_schema_new(file, file_length, NULL, NULL);
    demand(schema != NULL, "no schema");
    for (int at = 5; at < number; at++) {
        fbcheck_path path;
        demand(fbcheck_resolve(schema, &options, words[at], strlen(words[at]), &path, NULL) == FBCHECK_OK, words[at]);
        demand((path.each != 0) == (strchr(words[at], '*') != NULL), "a path with [*] that isn't one");
        if (path.each != 0)
            wide[wide_count++] = path;
        else
            paths[count++] = path;
    }
    field = field_of(length);
    spoil_each(field, buffer, length);
    cut_each(field, buffer, length);
    shuffle(field, buffer, length, rounds);
    change_meanwhile(field, buffer, length, rounds);
    printf("told %zu changed %zu elements %zu changed %zu\n", told, changed, elements_told, elements_changed);
    fbcheck_schema_free(schema);
    free(file);
    free(buffer);
    return 0;
}
