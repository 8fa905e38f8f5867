/* What the examples share: the bytes of a file, and a verdict as the program prints it. */
#ifndef FBCHECK_TELLING_H
#define FBCHECK_TELLING_H

#include <fbcheck.h>
#include <inttypes.h>
#include <stdio.h>
#include <stdlib.h>

/* The bytes of a file, from malloc; null if there is no file, or it can't be read. */
static inline uint8_t *bytes_of(FILE *file, size_t *length)
{
    uint8_t *bytes = NULL;
    size_t room = 0;
    *length = 0;
    if (file == NULL)
        return NULL;
    do {
        uint8_t *more = realloc(bytes, room += 65536);
        if (more == NULL)
            break;
        bytes = more;
        *length += fread(bytes + *length, 1, room - *length, file);
    } while (*length == room);
    if (ferror(file) || *length == room) {
        free(bytes);
        bytes = NULL;
    }
    return bytes;
}

/* Prints a verdict on a buffer as the program fbcheck does, without the newline. */
static inline void tell(const fbcheck_verdict *verdict)
{
    char reason[20];
    if (verdict->status == FBCHECK_OK) {
        printf("ok tables=%" PRIu32 " depth=%" PRIu32, verdict->tables, verdict->depth);
    } else {
        size_t length = fbcheck_reason_name(verdict->reason, reason, sizeof reason);
        printf("bad %.*s at=%" PRIu64 " object=%" PRIu32 " field=", (int)length, reason, verdict->at, verdict->object);
        if (verdict->field == FBCHECK_NONE)
            printf("-");
        else
            printf("%" PRIu32, verdict->field);
    }
    printf(" reads=%" PRIu64, verdict->reads);
}

#endif
