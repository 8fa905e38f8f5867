/*
 * A broker of Kafka that librdkafka has for tests: on a socket, with the topic "orders" of three partitions, which get the
 * messages of standard input in turn, each behind its size there. Once all are in place it prints its address, and it
 * stays until it is killed.
 */
#include <librdkafka/rdkafka.h>
#include <librdkafka/rdkafka_mock.h>
#include <stdint.h>
#include <stdio.h>
#include <stdlib.h>
#include <unistd.h>

#define PARTITIONS 3

/* Sends what standard input has. */
static int send_all(rd_kafka_t *client, rd_kafka_topic_t *topic)
{
    uint32_t size;
    int32_t partition = 0;
    while (fread(&size, sizeof size, 1, stdin) == 1) {
        void *message = malloc(size + 1);
        if (message == NULL || fread(message, 1, size, stdin) != size
            || rd_kafka_produce(topic, partition, RD_KAFKA_MSG_F_COPY, message, size, NULL, 0, NULL) != 0)
            return 0;
        free(message);
        partition = (partition + 1) % PARTITIONS;
    }
    return rd_kafka_flush(client, 30000) == RD_KAFKA_RESP_ERR_NO_ERROR;
}

int main(void)
{
    char why[256] = "";
    rd_kafka_conf_t *conf = rd_kafka_conf_new();
    rd_kafka_t *client = NULL;
    rd_kafka_mock_cluster_t *cluster;
    if (rd_kafka_conf_set(conf, "test.mock.num.brokers", "1", why, sizeof why) == RD_KAFKA_CONF_OK)
        client = rd_kafka_new(RD_KAFKA_PRODUCER, conf, why, sizeof why);
    if (client == NULL)
        return fprintf(stderr, "broker: %s\n", why), 1;
    cluster = rd_kafka_handle_mock_cluster(client);
    if (rd_kafka_mock_topic_create(cluster, "orders", PARTITIONS, 1) != RD_KAFKA_RESP_ERR_NO_ERROR
        || !send_all(client, rd_kafka_topic_new(client, "orders", NULL)))
        return fprintf(stderr, "broker: the messages aren't taken\n"), 1;
    puts(rd_kafka_mock_cluster_bootstraps(cluster));
    fflush(stdout);
    for (;;)
        pause();
}
