/* A library that is loaded before a program's others (LD_PRELOAD) and stands between it and the C library's heap.
   It counts the program's requests for memory, and refuses some of them.

   REFUSE_FIRST   the number of the request to refuse, from 1 on; 0 refuses none
   REFUSE_LATER   1: every later request is refused too
   REFUSE_REPORT  the file that the report goes to: a line `read A N` before each read of up to N bytes of standard
                  input and `write A N` before each write of N bytes to standard output, where A is the number of
                  requests made so far, and at the end `most B 0`, where B is the most bytes that one asked for since
                  standard input was read first, and `end A R`, where R is the number of those refused

   Requests that the loader makes before the program starts aren't counted, and neither are releases. */
#define _GNU_SOURCE
#include <errno.h>
#include <fcntl.h>
#include <stdio.h>
#include <stdlib.h>
#include <sys/syscall.h>
#include <unistd.h>

/* The heap itself, by the C library's other names. */
extern void *__libc_malloc(size_t size);
extern void *__libc_calloc(size_t count, size_t size);
extern void *__libc_realloc(void *old, size_t size);
extern void *__libc_memalign(size_t alignment, size_t size);

static unsigned long asked, refused, first, most;
static int later, report = -1, counting, reads;

static unsigned long number_in(const char *name) {
    const char *text = getenv(name);
    return text ? strtoul(text, NULL, 10) : 0;
}

static void tell(const char *what, unsigned long one, unsigned long other) {
    char line[64];
    if (report < 0) return;
    int length = snprintf(line, sizeof line, "%s %lu %lu\n", what, one, other);
    if (syscall(SYS_write, report, line, length) != length) report = -1;
}

__attribute__((constructor)) static void start(void) {
    const char *path = getenv("REFUSE_REPORT");
    first = number_in("REFUSE_FIRST");
    later = number_in("REFUSE_LATER") == 1;
    if (path) report = open(path, O_WRONLY | O_CREAT | O_TRUNC | O_CLOEXEC, 0600);
    counting = 1;
}

__attribute__((destructor)) static void end(void) {
    counting = 0;
    tell("most", most, 0);
    tell("end", asked, refused);
}

/* Counts a request for so many bytes, and says whether it is refused. */
static int is_refused(size_t bytes) {
    if (!counting) return 0;
    asked++;
    if (reads && bytes > most) most = bytes;
    if (first == 0 || asked < first || (asked > first && !later)) return 0;
    refused++;
    errno = ENOMEM;
    return 1;
}

void *malloc(size_t size) { return is_refused(size) ? NULL : __libc_malloc(size); }

void *calloc(size_t count, size_t size) { return is_refused(count * size) ? NULL : __libc_calloc(count, size); }

void *realloc(void *old, size_t size) { return is_refused(size) ? NULL : __libc_realloc(old, size); }

void *reallocarray(void *old, size_t count, size_t size) {
    size_t bytes;
    if (__builtin_mul_overflow(count, size, &bytes)) {
        errno = ENOMEM;
        return NULL;
    }
    return realloc(old, bytes);
}

void *memalign(size_t alignment, size_t size) { return is_refused(size) ? NULL : __libc_memalign(alignment, size); }

void *aligned_alloc(size_t alignment, size_t size) { return memalign(alignment, size); }

int posix_memalign(void **made, size_t alignment, size_t size) {
    int before = errno;
    void *memory = memalign(alignment, size);
    errno = before;
    if (!memory) return ENOMEM;
    *made = memory;
    return 0;
}

ssize_t read(int from, void *bytes, size_t count) {
    if (from == STDIN_FILENO) {
        reads = 1;
        tell("read", asked, count);
    }
    return syscall(SYS_read, from, bytes, count);
}

ssize_t write(int to, const void *bytes, size_t count) {
    if (to == STDOUT_FILENO) tell("write", asked, count);
    return syscall(SYS_write, to, bytes, count);
}

/* The names by which the programs call them. */
ssize_t __read(int from, void *bytes, size_t count) { return read(from, bytes, count); }

ssize_t __write(int to, const void *bytes, size_t count) { return write(to, bytes, count); }
