//go:build cgo && linux && amd64

#include "calls.h"

#include <pthread.h>
#include <string.h>

/* Room for so many open tables, which a thread keeps until it ends. */
static __thread fbcheck_scratch *kept;
static __thread uint32_t kept_depth;
static pthread_key_t ending;
static pthread_once_t once = PTHREAD_ONCE_INIT;

static void free_kept(void *scratch)
{
	fbcheck_scratch_free(scratch);
}

static void begin(void)
{
	pthread_key_create(&ending, free_kept);
}

/* Room for the open tables of a check. A check would do with its own stack, which null stands for where memory is
   refused, but then it clears 5 KB where more than three tables are open. */
static fbcheck_scratch *scratch_for(const checker *checker)
{
	uint32_t depth = checker->options.max_depth > FBCHECK_DEEP ? checker->options.max_depth : FBCHECK_DEEP;
	if (kept_depth < depth) {
		fbcheck_scratch *scratch = fbcheck_scratch_new(depth);
		if (scratch == NULL)
			return NULL;
		pthread_once(&once, begin);
		fbcheck_scratch_free(kept);
		kept = scratch;
		kept_depth = depth;
		pthread_setspecific(ending, kept);
	}
	return kept;
}

static const fbcheck_schema *schema_of(const checker *checker)
{
	return (const fbcheck_schema *)checker->schema;
}

void free_schema(uintptr_t schema)
{
	fbcheck_schema_free((fbcheck_schema *)schema);
}

uint32_t table_of(const checker *checker, const uint8_t *name, size_t length)
{
	return fbcheck_table(schema_of(checker), (const char *)name, length);
}

fbcheck_verdict check_nothing(const checker *checker)
{
	fbcheck_verdict verdict;
	fbcheck_verify(schema_of(checker), scratch_for(checker), &checker->options, NULL, 0, &verdict);
	return verdict;
}

located check_message(const checker *checker, const uint8_t *message, size_t length)
{
	located told = { .place = NULL };
	char text[1024];
	size_t written = 0;
	fbcheck_locate(schema_of(checker), scratch_for(checker), &checker->options, message, length, text, sizeof text,
	               &written, &told.verdict);
	if (written > 0)
		told.place = malloc(sizeof text);
	if (told.place != NULL) {
		told.length = written < sizeof text ? written : sizeof text;
		memcpy(told.place, text, told.length);
	}
	return told;
}

fbcheck_verdict resolve_path(const checker *checker, const uint8_t *text, size_t length, fbcheck_path *path)
{
	fbcheck_verdict verdict;
	uint32_t status = fbcheck_resolve(schema_of(checker), &checker->options, (const char *)text, length, path, &verdict);
	if (status == FBCHECK_OK && path->each != 0) {
		/* A text with [*] is a path to several elements for the library, which has no value of its own here. */
		verdict.status = FBCHECK_BAD_PATH;
		verdict.reason = FBCHECK_BAD_TEXT;
		while (verdict.at < length && text[verdict.at] != '*')
			verdict.at++;
	}
	return verdict;
}

fbcheck_verdict read_values(const checker *checker, const uint8_t *message, size_t length, const fbcheck_path *paths,
                            fbcheck_value *values, size_t count)
{
	fbcheck_verdict verdict;
	fbcheck_read(schema_of(checker), scratch_for(checker), &checker->options, message, length, paths, values, count,
	             &verdict);
	return verdict;
}

uint32_t read_again(const checker *checker, const uint8_t *message, size_t length, const fbcheck_path *paths,
                    fbcheck_value *values, size_t count)
{
	return fbcheck_read_again(schema_of(checker), &checker->options, message, length, paths, values, count, NULL);
}

uint64_t most_reads_of(const checker *checker, uint64_t length)
{
	uint64_t reads = 0;
	fbcheck_most_reads(schema_of(checker), &checker->options, length, &reads);
	return reads;
}

size_t name_of(const checker *checker, int of_field, uint32_t object, uint32_t field, char *text, size_t room)
{
	return of_field ? fbcheck_field_name(schema_of(checker), object, field, text, room)
	                : fbcheck_object_name(schema_of(checker), object, text, room);
}

size_t path_hint_of(const checker *checker, const uint8_t *path, size_t length, char *text, size_t room)
{
	return fbcheck_path_hint(schema_of(checker), checker->options.root, (const char *)path, length, text, room);
}

size_t root_hint_of(const checker *checker, const uint8_t *name, size_t length, char *text, size_t room)
{
	return fbcheck_root_hint(schema_of(checker), (const char *)name, length, text, room);
}

fed feed_piece(fbcheck_framer *framer, uint8_t *room, size_t size, const uint8_t *piece, size_t length)
{
	fed fed = { 0, 0 };
	fed.status = fbcheck_framer_feed(framer, room, size, piece, length, &fed.used);
	return fed;
}
