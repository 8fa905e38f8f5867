/* A library that is loaded before a program's others (LD_PRELOAD) and stands between it and its standard input and
   output, and the files that it opens: a call gives or takes only so many bytes, or fails. Each variable that isn't set
   changes nothing.

   NARROW_READ     the most bytes that one read gives
   NARROW_FAILS    the number of the read that fails, from 1 on
   NARROW_WRITE    the most bytes that one write takes
   NARROW_STOPS    the number of the write that fails, from 1 on; later ones don't
   NARROW_ROOM     how many bytes are taken in all; from then on a write fails
   NARROW_FULL     1: such a write doesn't fail, but takes nothing
   NARROW_OPENS    the number of the open that fails, from 1 on; later ones don't
   NARROW_CAUSE    the error number of what fails, else EIO
   NARROW_OPENED   the file to which the name of each file that is opened goes, a line for each
   NARROW_REPORT   the file to which the number of reads goes at the end

   What is left of a call goes on to the next library, or to the C library. */
#define _GNU_SOURCE
#include <dlfcn.h>
#include <errno.h>
#include <fcntl.h>
#include <limits.h>
#include <stdarg.h>
#include <stdio.h>
#include <stdlib.h>
#include <unistd.h>

static ssize_t (*read_on)(int, void *, size_t);
static ssize_t (*write_on)(int, const void *, size_t);
static unsigned long most_read, fails, reads, most_written, stops, writes, room, bars, opens;
static int full, cause, names = -1;

static unsigned long number_in(const char *name, unsigned long otherwise) {
    const char *text = getenv(name);
    return text ? strtoul(text, NULL, 10) : otherwise;
}

static size_t least(size_t one, size_t other) { return one < other ? one : other; }

__attribute__((constructor)) static void start(void) {
    read_on = dlsym(RTLD_NEXT, "read");
    write_on = dlsym(RTLD_NEXT, "write");
    most_read = number_in("NARROW_READ", ULONG_MAX);
    fails = number_in("NARROW_FAILS", 0);
    most_written = number_in("NARROW_WRITE", ULONG_MAX);
    stops = number_in("NARROW_STOPS", 0);
    room = number_in("NARROW_ROOM", ULONG_MAX);
    full = number_in("NARROW_FULL", 0) == 1;
    bars = number_in("NARROW_OPENS", 0);
    cause = (int)number_in("NARROW_CAUSE", EIO);
}

/* Another library may open a file before this one starts. */
static int (*open_next(void))(const char *, int, ...) {
    static int (*next)(const char *, int, ...);
    if (!next) next = dlsym(RTLD_NEXT, "open");
    return next;
}

__attribute__((destructor)) static void end(void) {
    const char *path = getenv("NARROW_REPORT");
    int report = path ? open_next()(path, O_WRONLY | O_CREAT | O_TRUNC | O_CLOEXEC, 0600) : -1;
    if (report >= 0) dprintf(report, "%lu\n", reads);
}

__attribute__((constructor)) static void begin_names(void) {
    const char *path = getenv("NARROW_OPENED");
    if (path) names = open_next()(path, O_WRONLY | O_CREAT | O_TRUNC | O_CLOEXEC, 0600);
}

static int refused(void) {
    errno = cause;
    return -1;
}

ssize_t read(int from, void *bytes, size_t count) {
    if (from != STDIN_FILENO) return read_on(from, bytes, count);
    if (++reads == fails) return refused();
    return read_on(from, bytes, least(count, most_read));
}

ssize_t write(int to, const void *bytes, size_t count) {
    if (to != STDOUT_FILENO) return write_on(to, bytes, count);
    if (++writes == stops || (count > 0 && room == 0 && !full)) return refused();
    ssize_t taken = write_on(to, bytes, least(least(count, most_written), room));
    if (taken > 0) room -= taken;
    return taken;
}

int open(const char *path, int how, ...) {
    if (names >= 0) dprintf(names, "%s\n", path);
    if (++opens == bars) return refused();
    va_list more;
    va_start(more, how);
    int mode = how & O_CREAT ? va_arg(more, int) : 0;
    va_end(more);
    return open_next()(path, how, mode);
}

/* The names by which the programs call them. */
ssize_t __read(int from, void *bytes, size_t count) { return read(from, bytes, count); }

ssize_t __write(int to, const void *bytes, size_t count) { return write(to, bytes, count); }
