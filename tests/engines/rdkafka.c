/*
 * Stands for the C client of Kafka: its topic is standard input, messages behind their sizes. A size of 0xffffffff stands
 * for a fault that passes, and 0xfffffffe for one for good. At the input's end the process is asked to stop.
 */
#include <librdkafka/rdkafka.h>
#include <signal.h>
#include <stdio.h>
#include <stdlib.h>
#include <string.h>

struct rd_kafka_conf_s {
    int settings;
};

struct rd_kafka_topic_partition_list_s {
    char topic[100];
};

struct rd_kafka_s {
    rd_kafka_conf_t *conf;
    char topic[100];
    int64_t offset;
    rd_kafka_resp_err_t fatal;
};

static void *made(size_t size)
{
    void *memory = calloc(1, size);
    if (memory == NULL)
        abort();
    return memory;
}

rd_kafka_conf_t *rd_kafka_conf_new(void)
{
    return made(sizeof(rd_kafka_conf_t));
}

rd_kafka_conf_res_t rd_kafka_conf_set(rd_kafka_conf_t *conf, const char *name, const char *value, char *why, size_t size)
{
    if (*value == 0) {
        snprintf(why, size, "no value for %s", name);
        return RD_KAFKA_CONF_INVALID;
    }
    conf->settings++;
    return RD_KAFKA_CONF_OK;
}

void rd_kafka_conf_destroy(rd_kafka_conf_t *conf)
{
    free(conf);
}

rd_kafka_t *rd_kafka_new(rd_kafka_type_t type, rd_kafka_conf_t *conf, char *why, size_t size)
{
    rd_kafka_t *client = NULL;
    if (type != RD_KAFKA_CONSUMER || conf->settings < 3) {
        snprintf(why, size, "a setting is missing");
    } else {
        client = made(sizeof *client);
        client->conf = conf;
    }
    return client;
}

rd_kafka_resp_err_t rd_kafka_poll_set_consumer(rd_kafka_t *client)
{
    return client->fatal;
}

rd_kafka_topic_partition_list_t *rd_kafka_topic_partition_list_new(int size)
{
    return made((size_t)size * sizeof(rd_kafka_topic_partition_list_t));
}

void *rd_kafka_topic_partition_list_add(rd_kafka_topic_partition_list_t *list, const char *topic, int32_t partition)
{
    if (partition == RD_KAFKA_PARTITION_UA)
        snprintf(list->topic, sizeof list->topic, "%s", topic);
    return list;
}

void rd_kafka_topic_partition_list_destroy(rd_kafka_topic_partition_list_t *list)
{
    free(list);
}

rd_kafka_resp_err_t rd_kafka_subscribe(rd_kafka_t *client, const rd_kafka_topic_partition_list_t *topics)
{
    strcpy(client->topic, topics->topic);
    return *client->topic ? RD_KAFKA_RESP_ERR_NO_ERROR : RD_KAFKA_RESP_ERR__FATAL;
}

/* The next message; its bytes stand in a block of their own length, so that a read past them is seen. */
rd_kafka_message_t *rd_kafka_consumer_poll(rd_kafka_t *client, int milliseconds)
{
    uint32_t size;
    rd_kafka_message_t *message;
    if (milliseconds <= 0 || fread(&size, sizeof size, 1, stdin) != 1) {
        raise(SIGTERM);
        return NULL;
    }
    message = made(sizeof *message);
    if (size >= 0xfffffffe) {
        message->err = RD_KAFKA_RESP_ERR__FATAL;
        client->fatal = size == 0xffffffff ? RD_KAFKA_RESP_ERR_NO_ERROR : RD_KAFKA_RESP_ERR__FATAL;
        return message;
    }
    message->partition = 3;
    message->offset = client->offset++;
    message->len = size;
    message->payload = size == 0 ? NULL : made(size);
    if (size != 0 && fread(message->payload, size, 1, stdin) != 1)
        abort();
    return message;
}

const char *rd_kafka_message_errstr(const rd_kafka_message_t *message)
{
    return message->err ? "the broker is away" : "";
}

void rd_kafka_message_destroy(rd_kafka_message_t *message)
{
    free(message->payload);
    free(message);
}

rd_kafka_resp_err_t rd_kafka_fatal_error(rd_kafka_t *client, char *why, size_t size)
{
    if (why != NULL && size > 0)
        *why = 0;
    return client->fatal;
}

rd_kafka_resp_err_t rd_kafka_consumer_close(rd_kafka_t *client)
{
    return client->fatal;
}

void rd_kafka_destroy(rd_kafka_t *client)
{
    free(client->conf);
    free(client);
}
