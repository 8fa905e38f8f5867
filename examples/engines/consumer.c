/*
 * Checks each message of a Kafka topic by a schema file before anything else reads it, in the consumer's own process.
 *
 *     cc consumer.c $(pkg-config --cflags --libs fbcheck rdkafka) -o consumer
 *     ./consumer BROKERS GROUP TOPIC SCHEMA.bfbs
 *
 * It prints a line for each message, with its partition and offset, until SIGINT or SIGTERM. The exit status is 0 then,
 * 2 if it couldn't begin, and 3 if the client has failed for good. Consumers of one group share the topic's partitions,
 * as processes or machines; each loads the schema for itself.
 */
#include <fbcheck.h>
#include <inttypes.h>
#include <librdkafka/rdkafka.h>
#include <signal.h>
#include <stdio.h>

/* At most so many reads of one message, so that none holds up its partition. Choose some ten times the reads of your
 * largest honest message (`reads=` in the program's line for it). */
#define MOST_READS 1000000

static volatile sig_atomic_t stopped;

static void stop(int signal)
{
    (void)signal;
    stopped = 1;
}

/* An ok message, to be read as docs/REFERENCE.md says ("What an ok asks of readers"). Your code goes here. */
static void take(const rd_kafka_message_t *message, const fbcheck_verdict *verdict)
{
    printf("%" PRId32 "@%" PRId64 " ok tables=%" PRIu32 "\n", message->partition, message->offset, verdict->tables);
}

/* A bad message, which nothing may read. It is skipped: the verdict would be the same another time. To look at such
 * messages later, write them to a topic of their own here. */
static void refuse(const fbcheck_schema *schema, const rd_kafka_message_t *message, const fbcheck_verdict *verdict)
{
    char reason[21] = "", table[256] = "";
    fbcheck_reason_name(verdict->reason, reason, sizeof reason - 1);
    fbcheck_object_name(schema, verdict->object, table, sizeof table - 1);
    printf("%" PRId32 "@%" PRId64 " bad %s at=%" PRIu64 " in %s\n", message->partition, message->offset, reason,
           verdict->at, table);
}

/* Checks messages until the process is asked to stop, or the client has failed for good. */
static int consume(rd_kafka_t *client, const fbcheck_schema *schema)
{
    fbcheck_options options = FBCHECK_OPTIONS_INIT;
    fbcheck_verdict verdict;
    options.max_reads = MOST_READS;
    while (!stopped && !rd_kafka_fatal_error(client, NULL, 0)) {
        rd_kafka_message_t *message = rd_kafka_consumer_poll(client, 500);
        if (message == NULL)
            continue;
        if (message->err)
            fprintf(stderr, "consumer: %s\n", rd_kafka_message_errstr(message));
        else if (fbcheck_verify(schema, NULL, &options, message->payload, message->len, &verdict) == FBCHECK_OK)
            take(message, &verdict);
        else
            refuse(schema, message, &verdict);
        rd_kafka_message_destroy(message);
        fflush(stdout);
    }
    return stopped ? 0 : 3;
}

/* A client of the group that gets the topic from its beginning, or null, after a message on standard error. */
static rd_kafka_t *client_of(const char *brokers, const char *group, const char *topic)
{
    const char *settings[][2] = { { "bootstrap.servers", brokers }, { "group.id", group },
                                  { "auto.offset.reset", "earliest" } };
    char why[256] = "";
    rd_kafka_conf_t *conf = rd_kafka_conf_new();
    rd_kafka_topic_partition_list_t *topics = rd_kafka_topic_partition_list_new(1);
    rd_kafka_t *client;
    for (size_t at = 0; at < sizeof settings / sizeof *settings; at++)
        if (rd_kafka_conf_set(conf, settings[at][0], settings[at][1], why, sizeof why) != RD_KAFKA_CONF_OK)
            fprintf(stderr, "consumer: %s\n", why);
    client = rd_kafka_new(RD_KAFKA_CONSUMER, conf, why, sizeof why);
    if (client == NULL) {
        fprintf(stderr, "consumer: %s\n", why);
        rd_kafka_conf_destroy(conf);
    } else {
        rd_kafka_poll_set_consumer(client);
        rd_kafka_topic_partition_list_add(topics, topic, RD_KAFKA_PARTITION_UA);
        if (rd_kafka_subscribe(client, topics))
            fprintf(stderr, "consumer: %s: no such topic can be asked for\n", topic);
    }
    rd_kafka_topic_partition_list_destroy(topics);
    return client;
}

/* The schema of a file, or null if it can't be used for checks; one that can says bad to an empty buffer. */
static fbcheck_schema *schema_of(const char *path)
{
    static uint8_t bytes[1 << 20];
    FILE *file = fopen(path, "rb");
    size_t length = file == NULL ? 0 : fread(bytes, 1, sizeof bytes, file);
    fbcheck_schema *schema = length < sizeof bytes ? fbcheck_schema_new(bytes, length, NULL, NULL) : NULL;
    if (file != NULL)
        fclose(file);
    if (schema == NULL || fbcheck_verify(schema, NULL, NULL, NULL, 0, NULL) == FBCHECK_BAD)
        return schema;
    fbcheck_schema_free(schema);
    return NULL;
}

int main(int count, char **words)
{
    fbcheck_schema *schema;
    rd_kafka_t *client;
    int status = 2;
    if (count != 5)
        return fprintf(stderr, "usage: consumer BROKERS GROUP TOPIC SCHEMA.bfbs\n"), 2;
    signal(SIGINT, stop);
    signal(SIGTERM, stop);
    schema = schema_of(words[4]);
    if (schema == NULL) {
        fprintf(stderr, "consumer: %s is no schema with a root table\n", words[4]);
    } else if ((client = client_of(words[1], words[2], words[3])) != NULL) {
        status = consume(client, schema);
        rd_kafka_consumer_close(client);
        rd_kafka_destroy(client);
    }
    fbcheck_schema_free(schema);
    return status;
}
