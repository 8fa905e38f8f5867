/*
 * The calls of include/fbcheck.h, each of which tests its pointers against null and then makes the proved call of
 * crates/fbcheck_c. No proof speaks of this file: keep it at that, and at these two promises, by which a schema is
 * shared. Its file's bytes lie behind the handle that owns it, as long as that does; and a call is given the pointer in
 * that handle, to read by, while the handle itself is used to make and to free alone.
 */
#include "fbcheck.h"

#include <stdlib.h>
#include <string.h>

/* Which commit last changed the sources; scripts/build_c says it. */
#ifndef FBCHECK_COMMIT
#define FBCHECK_COMMIT "????????????????????????????????????????"
#endif

/* What the proofs know as a handle: a pointer to what it owns, or null. */
typedef struct handle {
    void *inside;
} handle;

struct fbcheck_schema {
    handle owner;
    uint8_t file[];
};

struct fbcheck_scratch {
    handle owner;
};

/* The proved calls. None of their pointers may be null. A slice of bytes is a pointer and a length. */
void fbcheck_sizes_proved(fbcheck_sizes *sizes);
void fbcheck_options_proved(fbcheck_options *options);
uint32_t fbcheck_load_proved(handle *owner, const uint8_t *file, size_t length, const fbcheck_options *options,
                             fbcheck_verdict *verdict);
uint32_t fbcheck_room_proved(handle *owner, uint32_t depth);
void fbcheck_free_proved(handle *owner);
uint32_t fbcheck_table_proved(handle schema, const uint8_t *name, size_t length);
uint32_t fbcheck_verify_proved(handle schema, handle *room, const fbcheck_options *options, const uint8_t *buffer,
                               size_t length, fbcheck_verdict *verdict);
uint32_t fbcheck_verify_alone_proved(handle schema, fbcheck_verdict *verdict, const fbcheck_options *options,
                                     const uint8_t *buffer, size_t length);
uint32_t fbcheck_verify_each_proved(handle schema, handle *room, const fbcheck_options *options, const uint8_t *block,
                                    size_t length, const fbcheck_span *spans, size_t span_count,
                                    fbcheck_verdict *verdicts, size_t verdict_count);
uint32_t fbcheck_locate_proved(handle schema, handle *room, const fbcheck_options *options, const uint8_t *buffer,
                               size_t length, uint8_t *text, size_t size, size_t *written, fbcheck_verdict *verdict);
uint32_t fbcheck_resolve_proved(handle schema, const fbcheck_options *options, const uint8_t *text, size_t length,
                                fbcheck_path *path, fbcheck_verdict *verdict);
uint32_t fbcheck_read_proved(handle schema, handle *room, const fbcheck_options *options, const uint8_t *buffer,
                             size_t length, const fbcheck_path *paths, size_t path_count, fbcheck_value *values,
                             size_t value_count, fbcheck_verdict *verdict);
uint32_t fbcheck_read_again_proved(handle schema, const fbcheck_options *options, const uint8_t *buffer, size_t length,
                                   const fbcheck_path *paths, size_t path_count, fbcheck_value *values,
                                   size_t value_count, fbcheck_verdict *verdict);
uint32_t fbcheck_read_each_proved(handle schema, const fbcheck_options *options, const uint8_t *buffer, size_t length,
                                  const fbcheck_path *path, size_t first, fbcheck_value *values, size_t value_count,
                                  size_t *elements, fbcheck_verdict *verdict);
uint32_t fbcheck_most_reads_proved(handle schema, const fbcheck_options *options, uint64_t length, uint64_t *reads);
size_t fbcheck_reason_name_proved(uint32_t reason, uint8_t *text, size_t room);
size_t fbcheck_fault_name_proved(uint32_t status, uint32_t number, uint8_t *text, size_t room);
size_t fbcheck_status_text_proved(uint32_t status, uint8_t *text, size_t room);
size_t fbcheck_object_name_proved(handle schema, uint32_t object, uint8_t *text, size_t room);
size_t fbcheck_field_name_proved(handle schema, uint32_t object, uint32_t field, uint8_t *text, size_t room);
size_t fbcheck_path_hint_proved(handle schema, uint32_t root, const uint8_t *path, size_t length, uint8_t *text,
                                size_t room);
size_t fbcheck_root_hint_proved(handle schema, const uint8_t *name, size_t length, uint8_t *text, size_t room);
uint32_t fbcheck_framer_feed_proved(fbcheck_framer *framer, uint8_t *room, size_t size, const uint8_t *piece,
                                    size_t length, size_t *used);
uint32_t fbcheck_framer_next_proved(fbcheck_framer *framer, const uint8_t *room, size_t size);
uint32_t fbcheck_framer_finish_proved(fbcheck_framer *framer, const uint8_t *room, size_t size);

static const fbcheck_options published = FBCHECK_OPTIONS_INIT;
static const uint8_t no_bytes[1] = { 0 };
static const fbcheck_path no_path = { 0, 0, { { 0, 0 } } };

/* A status with nothing more to tell. */
static uint32_t told(uint32_t status, fbcheck_verdict *verdict)
{
    fbcheck_verdict blank = { 0, 0, 0, FBCHECK_NONE, 0, 0, 0, 0, { 0, 0, 0 } };
    blank.status = status;
    if (verdict != NULL)
        *verdict = blank;
    return status;
}

fbcheck_schema *fbcheck_schema_new(const uint8_t *file, size_t length, const fbcheck_options *options,
                                   fbcheck_verdict *verdict)
{
    fbcheck_verdict unseen;
    fbcheck_schema *schema = NULL;
    if (file == NULL && length != 0) {
        told(FBCHECK_NULL, verdict);
        return NULL;
    }
    if (length <= SIZE_MAX - sizeof *schema)
        schema = malloc(sizeof *schema + length);
    if (schema == NULL) {
        told(FBCHECK_NO_MEMORY, verdict);
        return NULL;
    }
    schema->owner.inside = NULL;
    if (length != 0)
        memcpy(schema->file, file, length);
    if (fbcheck_load_proved(&schema->owner, schema->file, length, options != NULL ? options : &published,
                            verdict != NULL ? verdict : &unseen) != FBCHECK_OK) {
        free(schema);
        return NULL;
    }
    return schema;
}

void fbcheck_schema_free(fbcheck_schema *schema)
{
    if (schema != NULL)
        fbcheck_free_proved(&schema->owner);
    free(schema);
}

fbcheck_scratch *fbcheck_scratch_new(uint32_t depth)
{
    fbcheck_scratch *scratch = malloc(sizeof *scratch);
    if (scratch == NULL)
        return NULL;
    scratch->owner.inside = NULL;
    if (fbcheck_room_proved(&scratch->owner, depth) != FBCHECK_OK) {
        free(scratch);
        return NULL;
    }
    return scratch;
}

void fbcheck_scratch_free(fbcheck_scratch *scratch)
{
    if (scratch != NULL)
        fbcheck_free_proved(&scratch->owner);
    free(scratch);
}

uint32_t fbcheck_table(const fbcheck_schema *schema, const char *name, size_t length)
{
    if (schema == NULL || (name == NULL && length != 0))
        return FBCHECK_NO_TABLE;
    return fbcheck_table_proved(schema->owner, name != NULL ? (const uint8_t *)name : no_bytes, length);
}

/* The same without a verdict. It stands apart, so that a call with one needs no room for another. */
static uint32_t verify_untold(const fbcheck_schema *schema, fbcheck_scratch *scratch, const fbcheck_options *options,
                              const uint8_t *buffer, size_t length)
{
    fbcheck_verdict unseen;
    return fbcheck_verify(schema, scratch, options, buffer, length, &unseen);
}

/* The same where a pointer is null. It stands apart, so that a call without such pays one test for each. */
static uint32_t verify_with_null(const fbcheck_schema *schema, fbcheck_scratch *scratch, const fbcheck_options *options,
                                 const uint8_t *buffer, size_t length, fbcheck_verdict *verdict)
{
    if (schema == NULL || (buffer == NULL && length != 0))
        return told(FBCHECK_NULL, verdict);
    if (verdict == NULL)
        return verify_untold(schema, scratch, options, buffer, length);
    if (options == NULL)
        options = &published;
    if (buffer == NULL)
        buffer = no_bytes;
    if (scratch == NULL)
        return fbcheck_verify_alone_proved(schema->owner, verdict, options, buffer, length);
    return fbcheck_verify_proved(schema->owner, &scratch->owner, options, buffer, length, verdict);
}

uint32_t fbcheck_verify(const fbcheck_schema *schema, fbcheck_scratch *scratch, const fbcheck_options *options,
                        const uint8_t *buffer, size_t length, fbcheck_verdict *verdict)
{
    if (schema == NULL || buffer == NULL || scratch == NULL || options == NULL || verdict == NULL)
        return verify_with_null(schema, scratch, options, buffer, length, verdict);
    return fbcheck_verify_proved(schema->owner, &scratch->owner, options, buffer, length, verdict);
}

uint32_t fbcheck_verify_each(const fbcheck_schema *schema, fbcheck_scratch *scratch, const fbcheck_options *options,
                             const uint8_t *block, size_t length, const fbcheck_span *spans, fbcheck_verdict *verdicts,
                             size_t count)
{
    static const fbcheck_span no_span = { 0, 0 };
    handle none = { NULL };
    fbcheck_verdict unseen;
    if (schema == NULL || (block == NULL && length != 0) || ((spans == NULL || verdicts == NULL) && count != 0))
        return FBCHECK_NULL;
    return fbcheck_verify_each_proved(schema->owner, scratch != NULL ? &scratch->owner : &none,
                                      options != NULL ? options : &published, block != NULL ? block : no_bytes, length,
                                      spans != NULL ? spans : &no_span, count, verdicts != NULL ? verdicts : &unseen,
                                      count);
}

uint32_t fbcheck_locate(const fbcheck_schema *schema, fbcheck_scratch *scratch, const fbcheck_options *options,
                        const uint8_t *buffer, size_t length, char *text, size_t room, size_t *written,
                        fbcheck_verdict *verdict)
{
    handle none = { NULL };
    fbcheck_verdict unseen;
    uint8_t no_text[1];
    if (schema == NULL || (buffer == NULL && length != 0) || (text == NULL && room != 0) || written == NULL)
        return told(FBCHECK_NULL, verdict);
    return fbcheck_locate_proved(schema->owner, scratch != NULL ? &scratch->owner : &none,
                                 options != NULL ? options : &published, buffer != NULL ? buffer : no_bytes, length,
                                 text != NULL ? (uint8_t *)text : no_text, room, written,
                                 verdict != NULL ? verdict : &unseen);
}

uint32_t fbcheck_resolve(const fbcheck_schema *schema, const fbcheck_options *options, const char *text, size_t length,
                         fbcheck_path *path, fbcheck_verdict *verdict)
{
    fbcheck_verdict unseen;
    if (schema == NULL || (text == NULL && length != 0) || path == NULL)
        return told(FBCHECK_NULL, verdict);
    return fbcheck_resolve_proved(schema->owner, options != NULL ? options : &published,
                                  text != NULL ? (const uint8_t *)text : no_bytes, length, path,
                                  verdict != NULL ? verdict : &unseen);
}

uint32_t fbcheck_read(const fbcheck_schema *schema, fbcheck_scratch *scratch, const fbcheck_options *options,
                      const uint8_t *buffer, size_t length, const fbcheck_path *paths, fbcheck_value *values,
                      size_t count, fbcheck_verdict *verdict)
{
    handle none = { NULL };
    fbcheck_verdict unseen;
    fbcheck_value no_value;
    if (schema == NULL || (buffer == NULL && length != 0) || ((paths == NULL || values == NULL) && count != 0))
        return told(FBCHECK_NULL, verdict);
    return fbcheck_read_proved(schema->owner, scratch != NULL ? &scratch->owner : &none,
                               options != NULL ? options : &published, buffer != NULL ? buffer : no_bytes, length,
                               paths != NULL ? paths : &no_path, count, values != NULL ? values : &no_value, count,
                               verdict != NULL ? verdict : &unseen);
}

uint32_t fbcheck_read_again(const fbcheck_schema *schema, const fbcheck_options *options, const uint8_t *buffer,
                            size_t length, const fbcheck_path *paths, fbcheck_value *values, size_t count,
                            fbcheck_verdict *verdict)
{
    fbcheck_verdict unseen;
    fbcheck_value no_value;
    if (schema == NULL || (buffer == NULL && length != 0) || ((paths == NULL || values == NULL) && count != 0))
        return told(FBCHECK_NULL, verdict);
    return fbcheck_read_again_proved(schema->owner, options != NULL ? options : &published,
                                     buffer != NULL ? buffer : no_bytes, length, paths != NULL ? paths : &no_path,
                                     count, values != NULL ? values : &no_value, count,
                                     verdict != NULL ? verdict : &unseen);
}

uint32_t fbcheck_read_each(const fbcheck_schema *schema, const fbcheck_options *options, const uint8_t *buffer,
                           size_t length, const fbcheck_path *path, size_t first, fbcheck_value *values, size_t count,
                           size_t *elements, fbcheck_verdict *verdict)
{
    fbcheck_verdict unseen;
    fbcheck_value no_value;
    if (schema == NULL || (buffer == NULL && length != 0) || path == NULL || (values == NULL && count != 0)
        || elements == NULL)
        return told(FBCHECK_NULL, verdict);
    return fbcheck_read_each_proved(schema->owner, options != NULL ? options : &published,
                                    buffer != NULL ? buffer : no_bytes, length, path, first,
                                    values != NULL ? values : &no_value, count, elements,
                                    verdict != NULL ? verdict : &unseen);
}

uint32_t fbcheck_most_reads(const fbcheck_schema *schema, const fbcheck_options *options, uint64_t length,
                            uint64_t *reads)
{
    if (schema == NULL || reads == NULL)
        return FBCHECK_NULL;
    return fbcheck_most_reads_proved(schema->owner, options != NULL ? options : &published, length, reads);
}

size_t fbcheck_reason_name(uint32_t reason, char *text, size_t room)
{
    uint8_t none[1];
    if (text == NULL && room != 0)
        return 0;
    return fbcheck_reason_name_proved(reason, text != NULL ? (uint8_t *)text : none, room);
}

size_t fbcheck_fault_name(uint32_t status, uint32_t number, char *text, size_t room)
{
    uint8_t none[1];
    if (text == NULL && room != 0)
        return 0;
    return fbcheck_fault_name_proved(status, number, text != NULL ? (uint8_t *)text : none, room);
}

size_t fbcheck_status_text(uint32_t status, char *text, size_t room)
{
    uint8_t none[1];
    if (text == NULL && room != 0)
        return 0;
    return fbcheck_status_text_proved(status, text != NULL ? (uint8_t *)text : none, room);
}

size_t fbcheck_object_name(const fbcheck_schema *schema, uint32_t object, char *text, size_t room)
{
    uint8_t none[1];
    if (schema == NULL || (text == NULL && room != 0))
        return 0;
    return fbcheck_object_name_proved(schema->owner, object, text != NULL ? (uint8_t *)text : none, room);
}

size_t fbcheck_field_name(const fbcheck_schema *schema, uint32_t object, uint32_t field, char *text, size_t room)
{
    uint8_t none[1];
    if (schema == NULL || (text == NULL && room != 0))
        return 0;
    return fbcheck_field_name_proved(schema->owner, object, field, text != NULL ? (uint8_t *)text : none, room);
}

size_t fbcheck_path_hint(const fbcheck_schema *schema, uint32_t root, const char *path, size_t length, char *text,
                         size_t room)
{
    uint8_t none[1];
    if (schema == NULL || (path == NULL && length != 0) || (text == NULL && room != 0))
        return 0;
    return fbcheck_path_hint_proved(schema->owner, root, path != NULL ? (const uint8_t *)path : no_bytes, length,
                                    text != NULL ? (uint8_t *)text : none, room);
}

size_t fbcheck_root_hint(const fbcheck_schema *schema, const char *name, size_t length, char *text, size_t room)
{
    uint8_t none[1];
    if (schema == NULL || (name == NULL && length != 0) || (text == NULL && room != 0))
        return 0;
    return fbcheck_root_hint_proved(schema->owner, name != NULL ? (const uint8_t *)name : no_bytes, length,
                                    text != NULL ? (uint8_t *)text : none, room);
}

uint32_t fbcheck_framer_feed(fbcheck_framer *framer, uint8_t *room, size_t size, const uint8_t *piece, size_t length,
                             size_t *used)
{
    if (framer == NULL || room == NULL || (piece == NULL && length != 0) || used == NULL)
        return FBCHECK_NULL;
    return fbcheck_framer_feed_proved(framer, room, size, piece != NULL ? piece : no_bytes, length, used);
}

uint32_t fbcheck_framer_next(fbcheck_framer *framer, const uint8_t *room, size_t size)
{
    if (framer == NULL || room == NULL)
        return FBCHECK_NULL;
    return fbcheck_framer_next_proved(framer, room, size);
}

uint32_t fbcheck_framer_finish(fbcheck_framer *framer, const uint8_t *room, size_t size)
{
    if (framer == NULL || room == NULL)
        return FBCHECK_NULL;
    return fbcheck_framer_finish_proved(framer, room, size);
}

uint32_t fbcheck_options_init(fbcheck_options *options)
{
    if (options == NULL)
        return FBCHECK_NULL;
    fbcheck_options_proved(options);
    return FBCHECK_OK;
}

uint32_t fbcheck_version(void)
{
    return FBCHECK_VERSION;
}

const char *fbcheck_commit(void)
{
    return FBCHECK_COMMIT;
}

uint32_t fbcheck_struct_sizes(fbcheck_sizes *sizes)
{
    if (sizes == NULL)
        return FBCHECK_NULL;
    fbcheck_sizes_proved(sizes);
    return FBCHECK_OK;
}
