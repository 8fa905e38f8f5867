/*
 * Checks the size-prefixed messages of many connections, each in a thread of its own, and logs a line for each message.
 *
 *     cc server.c $(pkg-config --cflags --libs fbcheck) -pthread -o server
 *     ./server SCHEMA.bfbs ROOT PATH CONNECTION..
 *
 * A connection is a file or a named pipe, or - for standard input (a socket, say). The lines are those of
 *
 *     fbcheck -H --names --strict --utf8 --schema SCHEMA.bfbs --root ROOT --path PATH CONNECTION..
 *
 * but those of several connections mix. The exit status is 0 if all messages were ok, 1 if one was bad, 2 if the server
 * didn't start, and 3 if a connection ended otherwise than after a message.
 */
#include "telling.h"

#include <fcntl.h>
#include <pthread.h>
#include <string.h>
#include <unistd.h>

/* The most bytes of a message, its prefix included. */
#define ROOM (1 << 20)

/* What all threads share. Nothing of it changes once the server has started. */
struct service {
    fbcheck_schema *schema;
    fbcheck_options options;
    fbcheck_path path;
};

/* What one connection has. Only its thread uses it. */
struct connection {
    const struct service *service;
    const char *name;
    pthread_t thread;
    fbcheck_scratch *scratch;
    fbcheck_framer framer;
    uint8_t *room;
    uint64_t messages;
    int status;
    int running;
};

/* What a server does with a message, a connection, or itself. */
enum action { SERVE, WAIT, DROP, CLOSE, STOP };

/* What a server does at each status. Compilers warn if one is missing. */
static enum action action_at(uint32_t status)
{
    switch ((enum fbcheck_status)status) {
    case FBCHECK_OK:
        return SERVE;
    case FBCHECK_MORE:
        return WAIT; /* for the rest of the message */
    case FBCHECK_BAD:
    case FBCHECK_TOO_LONG: /* of a buffer that no framer held */
        return DROP;       /* the connection may go on, since the framer knows where the next message begins */
    case FBCHECK_OVERSIZE:
    case FBCHECK_TRUNCATED:
    case FBCHECK_FAILED:
        return CLOSE; /* nothing shows where the next message begins */
    case FBCHECK_NOT_WELL_FORMED: /* these come when the server starts, of the schema file */
    case FBCHECK_BAD_SCHEMA:
    case FBCHECK_ROOT_NOT_LISTED:
    case FBCHECK_TOO_MUCH_SHARED:
    case FBCHECK_UNMARKED_BYTES:
    case FBCHECK_NO_SUCH_TABLE:
    case FBCHECK_NO_MEMORY: /* a check needs none */
    case FBCHECK_NO_ROOT:   /* and these, of the options and paths, if they are tried then */
    case FBCHECK_NO_IDENT:
    case FBCHECK_BAD_PATH:
    case FBCHECK_NO_ROOM:
    case FBCHECK_NULL: /* and these never: they are mistakes of this program */
    case FBCHECK_UNKNOWN_OPTIONS:
    case FBCHECK_OUT_OF_RANGE:
    case FBCHECK_NOT_PLANNED:
    case FBCHECK_NO_SPAN:
    case FBCHECK_MISFIT:
    case FBCHECK_CHANGED: /* it keeps no message, and so reads none again */
        break;
    }
    return STOP;
}

/* Logs bytes that a stranger has chosen, as the program writes them: none can end a line, or begin another. */
static void tell_text(const uint8_t *bytes, uint64_t size)
{
    for (uint64_t i = 0; i < size; i++)
        if (bytes[i] == '"' || bytes[i] == '\\')
            printf("\\%c", bytes[i]);
        else if (bytes[i] < 32 || bytes[i] > 126)
            printf("\\x%02x", bytes[i]);
        else
            putchar(bytes[i]);
}

/* Logs a value, whose bytes are in the message. */
static void tell_value(const fbcheck_value *value, const uint8_t *message)
{
    static const char *const labels[] = { "absent", "no-element", "other-member", "", "", "", "float:", "", "struct:",
                                          "vector:", "table", "union:", "absent" };
    const uint8_t *bytes = message + value->at;
    printf(" %s", labels[value->kind]);
    switch ((enum fbcheck_kind)value->kind) {
    case FBCHECK_BOOL:
        printf("%s", value->number != 0 ? "true" : "false");
        break;
    case FBCHECK_INT:
        printf("%" PRId64, value->integer);
        break;
    case FBCHECK_UINT:
    case FBCHECK_VECTOR:
    case FBCHECK_UNION:
        printf("%" PRIu64, value->number);
        break;
    case FBCHECK_TEXT:
        putchar('"');
        tell_text(bytes, value->size);
        putchar('"');
        break;
    case FBCHECK_FLOAT:
    case FBCHECK_STRUCT:
        for (uint64_t i = 0; i < value->size; i++)
            printf("%02x", bytes[i]);
        break;
    case FBCHECK_ABSENT:
    case FBCHECK_NO_ELEMENT:
    case FBCHECK_OTHER_MEMBER:
    case FBCHECK_TABLE:
    case FBCHECK_DEFAULT_FLOAT: /* as the program's lines tell it */
        break;
    }
}

/* Checks the message that is held, reads a value if it is ok, and logs its line. Returns the check's result. */
static uint32_t check_message(struct connection *own)
{
    const struct service *service = own->service;
    const size_t length = own->framer.held;
    char place[FBCHECK_LONGEST_PLACE];
    size_t written = 0;
    fbcheck_value value;
    fbcheck_verdict verdict;
    uint32_t status = fbcheck_read(service->schema, own->scratch, &service->options, own->room, length, &service->path,
                                   &value, 1, &verdict);
    if (status == FBCHECK_BAD) { /* checked once more, but only if it is bad */
        fbcheck_locate(service->schema, own->scratch, &service->options, own->room, length, place, sizeof place,
                       &written, &verdict);
        own->status = 1;
    } else if (status != FBCHECK_OK) {
        return status;
    }
    flockfile(stdout);
    tell_text((const uint8_t *)own->name, strlen(own->name));
    printf(": %" PRIu64 " ", ++own->messages);
    tell(&verdict);
    if (status == FBCHECK_OK)
        tell_value(&value, own->room);
    printf("%s%.*s\n", written > 0 ? " " : "", (int)written, place);
    funlockfile(stdout);
    return status;
}

/* Checks the messages that end in a piece of a connection's stream. Returns the last call's result. */
static uint32_t check_piece(struct connection *own, const uint8_t *piece, size_t length)
{
    uint32_t status = FBCHECK_MORE;
    while (length > 0 && action_at(status) < CLOSE) {
        size_t used = 0;
        status = fbcheck_framer_feed(&own->framer, own->room, ROOM, piece, length, &used);
        piece += used;
        length -= used;
        if (action_at(status) == SERVE) {
            status = check_message(own);
            fbcheck_framer_next(&own->framer, own->room, ROOM);
        }
    }
    fflush(stdout);
    return status;
}

/* Checks a connection's stream to its end: what a thread does. */
static void *check_stream(void *connection)
{
    struct connection *own = connection;
    const int input = strcmp(own->name, "-") == 0 ? STDIN_FILENO : open(own->name, O_RDONLY);
    uint32_t status = FBCHECK_MORE;
    uint8_t piece[65536];
    char why[64];
    ssize_t length = 0;
    while (action_at(status) < CLOSE && (length = read(input, piece, sizeof piece)) > 0)
        status = check_piece(own, piece, (size_t)length);
    if (length == 0)
        status = fbcheck_framer_finish(&own->framer, own->room, ROOM);
    if (length < 0) {
        fprintf(stderr, "server: %s can't be read\n", own->name);
        own->status = 3;
    } else if (action_at(status) >= CLOSE) {
        size_t size = fbcheck_status_text(status, why, sizeof why);
        fprintf(stderr, "server: %s: %.*s\n", own->name, (int)size, why);
        own->status = 3;
    }
    if (input > STDIN_FILENO)
        close(input);
    return NULL;
}

/* Logs why the server doesn't start: what is wrong with the schema file, or with the root or the path by it. */
static void tell_refusal(const char *about, const fbcheck_verdict *why)
{
    char text[64], fault[20];
    size_t length = fbcheck_status_text(why->status, text, sizeof text);
    size_t fault_length = fbcheck_fault_name(why->status, why->reason, fault, sizeof fault);
    fprintf(stderr, "server: %s: %.*s%s%.*s\n", about, (int)length, text, fault_length > 0 ? ", " : "",
            (int)fault_length, fault);
}

/* Logs the name of the field for which demands refused a schema file. Without demands it makes a schema. */
static void tell_field(const uint8_t *file, size_t length, const fbcheck_verdict *why)
{
    char table[256], field[256];
    fbcheck_schema *schema = fbcheck_schema_new(file, length, NULL, NULL);
    size_t table_length = fbcheck_object_name(schema, why->object, table, sizeof table);
    size_t field_length = fbcheck_field_name(schema, why->object, why->field, field, sizeof field);
    if (table_length <= sizeof table && field_length <= sizeof field)
        fprintf(stderr, "server: in %.*s.%.*s\n", (int)table_length, table, (int)field_length, field);
    fbcheck_schema_free(schema);
}

/* Makes the schema from its file. Returns null, after a line that says why, if that can't be done. */
static fbcheck_schema *schema_of(const char *path, const fbcheck_options *options)
{
    FILE *opened = fopen(path, "rb");
    fbcheck_schema *schema = NULL;
    fbcheck_verdict why;
    size_t length;
    uint8_t *file = bytes_of(opened, &length);
    if (opened != NULL)
        fclose(opened);
    if (file == NULL)
        fprintf(stderr, "server: %s can't be read\n", path);
    else if ((schema = fbcheck_schema_new(file, length, options, &why)) == NULL)
        tell_refusal(path, &why);
    if (file != NULL && schema == NULL && (why.status == FBCHECK_UNMARKED_BYTES || why.status == FBCHECK_NO_SUCH_TABLE))
        tell_field(file, length, &why);
    free(file);
    return schema;
}

/* Logs which names there are, if the root table or a name of the path isn't there. */
static void tell_hint(const struct service *service, const char *root, const char *path, uint32_t status)
{
    char text[FBCHECK_LONGEST_HINT];
    const fbcheck_schema *schema = service->schema;
    size_t length = status == FBCHECK_NO_ROOT
                        ? fbcheck_root_hint(schema, root, strlen(root), text, sizeof text)
                        : fbcheck_path_hint(schema, service->options.root, path, strlen(path), text, sizeof text);
    if (length > 0)
        fprintf(stderr, "server: %.*s\n", (int)length, text);
}

/* Makes what all threads share. Returns STOP, after a line that says why, if that can't be done. */
static enum action start(struct service *service, const char *file, const char *root, const char *path)
{
    fbcheck_options *options = &service->options;
    fbcheck_verdict why;
    fbcheck_value value;
    fbcheck_options_init(options);
    options->prefixed = 1;
    options->demands = FBCHECK_STRICT | FBCHECK_UTF8;
    service->schema = schema_of(file, options);
    if (service->schema == NULL)
        return STOP;
    options->root = fbcheck_table(service->schema, root, strlen(root));
    if (fbcheck_resolve(service->schema, options, path, strlen(path), &service->path, &why) == FBCHECK_OK)
        fbcheck_read(service->schema, NULL, options, NULL, 0, &service->path, &value, 1, &why);
    if (why.status == FBCHECK_BAD) /* no bytes are a bad buffer: schema, options and path can be used */
        return SERVE;
    tell_refusal(why.status == FBCHECK_NO_ROOT ? root : path, &why);
    tell_hint(service, root, path, why.status);
    return STOP;
}

/* Serves each connection by a thread of its own. Returns the highest of their statuses. */
static int serve(const struct service *service, char **names, int count)
{
    struct connection *all = calloc((size_t)count, sizeof *all);
    int status = all != NULL ? 0 : 3;
    for (int i = 0; all != NULL && i < count; i++) {
        all[i].service = service;
        all[i].name = names[i];
        all[i].room = malloc(ROOM);
        all[i].scratch = fbcheck_scratch_new(service->options.max_depth); /* without one, up to FBCHECK_DEEP */
        all[i].running = all[i].room != NULL && all[i].scratch != NULL &&
                         pthread_create(&all[i].thread, NULL, check_stream, &all[i]) == 0;
    }
    for (int i = 0; all != NULL && i < count; i++) {
        if (all[i].running)
            pthread_join(all[i].thread, NULL);
        else
            all[i].status = 3;
        status = all[i].status > status ? all[i].status : status;
        fbcheck_scratch_free(all[i].scratch);
        free(all[i].room);
    }
    free(all);
    return status;
}

int main(int count, char **words)
{
    struct service service;
    int status = 2;
    if (count < 5) {
        fprintf(stderr, "usage: server SCHEMA.bfbs ROOT PATH CONNECTION..\n");
        return 2;
    }
    if (start(&service, words[1], words[2], words[3]) == SERVE)
        status = serve(&service, words + 4, count - 4);
    fbcheck_schema_free(service.schema);
    return status;
}
