/* Stands for the C client of Kafka in tests: what examples/engines/consumer.c uses of it, in the client's own names. */
#ifndef STAND_IN_RDKAFKA_H
#define STAND_IN_RDKAFKA_H

#include <stddef.h>
#include <stdint.h>

typedef struct rd_kafka_s rd_kafka_t;
typedef struct rd_kafka_conf_s rd_kafka_conf_t;
typedef struct rd_kafka_topic_partition_list_s rd_kafka_topic_partition_list_t;
typedef enum { RD_KAFKA_PRODUCER, RD_KAFKA_CONSUMER } rd_kafka_type_t;
typedef enum { RD_KAFKA_CONF_OK, RD_KAFKA_CONF_INVALID } rd_kafka_conf_res_t;
typedef enum { RD_KAFKA_RESP_ERR__FATAL = -150, RD_KAFKA_RESP_ERR_NO_ERROR = 0 } rd_kafka_resp_err_t;
typedef struct rd_kafka_message_s {
    rd_kafka_resp_err_t err;
    int32_t partition;
    void *payload;
    size_t len;
    int64_t offset;
} rd_kafka_message_t;
#define RD_KAFKA_PARTITION_UA ((int32_t)-1)

rd_kafka_conf_t *rd_kafka_conf_new(void);
rd_kafka_conf_res_t rd_kafka_conf_set(rd_kafka_conf_t *conf, const char *name, const char *value, char *why, size_t size);
void rd_kafka_conf_destroy(rd_kafka_conf_t *conf);
rd_kafka_t *rd_kafka_new(rd_kafka_type_t type, rd_kafka_conf_t *conf, char *why, size_t size);
rd_kafka_resp_err_t rd_kafka_poll_set_consumer(rd_kafka_t *client);
rd_kafka_topic_partition_list_t *rd_kafka_topic_partition_list_new(int size);
void *rd_kafka_topic_partition_list_add(rd_kafka_topic_partition_list_t *list, const char *topic, int32_t partition);
void rd_kafka_topic_partition_list_destroy(rd_kafka_topic_partition_list_t *list);
rd_kafka_resp_err_t rd_kafka_subscribe(rd_kafka_t *client, const rd_kafka_topic_partition_list_t *topics);
rd_kafka_message_t *rd_kafka_consumer_poll(rd_kafka_t *client, int milliseconds);
const char *rd_kafka_message_errstr(const rd_kafka_message_t *message);
void rd_kafka_message_destroy(rd_kafka_message_t *message);
rd_kafka_resp_err_t rd_kafka_fatal_error(rd_kafka_t *client, char *why, size_t size);
rd_kafka_resp_err_t rd_kafka_consumer_close(rd_kafka_t *client);
void rd_kafka_destroy(rd_kafka_t *client);

#endif
