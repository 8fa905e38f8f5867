/* The calls of libfbcheck as Go makes them: no Go memory is needed for what is told. */
#ifndef CALLS_H
#define CALLS_H

#include <stdlib.h>

#include <fbcheck.h>

/* What a check is asked with: the schema, as a number so that Go has no pointer to look at, and the options. */
typedef struct checker {
	uintptr_t schema;
	fbcheck_options options;
} checker;

/* What a check tells, and of a bad message its place in words: null for none, or bytes that the caller frees. */
typedef struct located {
	fbcheck_verdict verdict;
	char *place;
	size_t length;
} located;

/* What a framer answers, and how much it took. */
typedef struct fed {
	uint32_t status;
	size_t used;
} fed;

void free_schema(uintptr_t schema);
uint32_t table_of(const checker *checker, const uint8_t *name, size_t length);
fbcheck_verdict check_nothing(const checker *checker);
located check_message(const checker *checker, const uint8_t *message, size_t length);
fbcheck_verdict resolve_path(const checker *checker, const uint8_t *text, size_t length, fbcheck_path *path);
fbcheck_verdict read_values(const checker *checker, const uint8_t *message, size_t length, const fbcheck_path *paths,
                            fbcheck_value *values, size_t count);
uint32_t read_again(const checker *checker, const uint8_t *message, size_t length, const fbcheck_path *paths,
                    fbcheck_value *values, size_t count);
uint64_t most_reads_of(const checker *checker, uint64_t length);
size_t name_of(const checker *checker, int of_field, uint32_t object, uint32_t field, char *text, size_t room);
size_t path_hint_of(const checker *checker, const uint8_t *path, size_t length, char *text, size_t room);
size_t root_hint_of(const checker *checker, const uint8_t *name, size_t length, char *text, size_t room);
fed feed_piece(fbcheck_framer *framer, uint8_t *room, size_t size, const uint8_t *piece, size_t length);

#endif
