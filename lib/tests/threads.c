/* Threads with handles of their own, or with one that they share: threads CONFIG own|small|shared ROUNDS
 *
 * For helgrind and drd: `own` has no race, and `shared` has them, which shows that they look. With `small` each has 64 KB of stack. CONFIG has a user
 * bob. Not proved. */
#define _GNU_SOURCE
#include "snmpsec.h"
#include <pthread.h>
#include <stdio.h>
#include <stdlib.h>
#include <string.h>

enum { NOW = 1000, THREADS = 4 };
static const uint8_t engine[] = {0x80, 0, 0x1f, 0x88, 4, 'x'};
static const uint32_t name[] = {1, 3, 6, 1, 2, 1, 1, 1, 0};
static uint8_t config[1 << 16];
static size_t config_len;
static int rounds;
static snmpsec_agent *shared;

static void must(int answer, int wanted, const char *what) {
    if (answer != wanted) { fprintf(stderr, "%s: %d\n", what, answer); abort(); }
}

static void exchange(snmpsec_agent *agent, snmpsec_manager *manager, uint32_t id) {
    uint8_t message[4096], list[64];
    size_t len = 0, list_len = 0;
    must(snmpsec_binding_write(name, 9, 4, (const uint8_t *)"hello", 5, list, sizeof list, &list_len), 0, "binding");
    snmpsec_request r = {.pdu = SNMPSEC_GET_REQUEST, .message_id = id, .request_id = id, .level = SNMPSEC_AUTH_PRIV, .engine = {engine, sizeof engine},
                         .user = {(const uint8_t *)"bob", 3}, .context_engine = {engine, sizeof engine}, .list = {list, list_len}, .salt = id};
    must(snmpsec_manager_request(manager, NOW, &r), 0, "request");
    must(snmpsec_manager_message(manager, message, sizeof message, &len), 0, "message");
    int answer = snmpsec_agent_take(agent, NOW, message, len);
    if (answer && answer != SNMPSEC_NOT_IN_WINDOW) must(answer, 0, "take");
    if (!answer) must(snmpsec_agent_respond(agent, NOW, 0, 0, list, list_len, id), 0, "respond");
    must(snmpsec_agent_message(agent, message, sizeof message, &len), 0, "answer");
    must(snmpsec_manager_take(manager, NOW, message, len), 0, "manager");
}

static void *work(void *unused) {
    snmpsec_agent *agent = shared;
    snmpsec_manager *manager = NULL;
    (void)unused;
    if (!shared) must(snmpsec_agent_new(config, config_len, engine, sizeof engine, 5, NOW - 100, &agent), 0, "agent");
    must(snmpsec_manager_new(config, config_len, (const uint8_t *)SNMPSEC_NO_CLOCKS, strlen(SNMPSEC_NO_CLOCKS), NOW, &manager), 0, "manager");
    for (int i = 1; i <= rounds; i++)
        if (shared) must(snmpsec_agent_take(shared, NOW, (const uint8_t *)"0\2\1\3", 4), SNMPSEC_NOT_MESSAGE, "take");
        else exchange(agent, manager, (uint32_t)i);
    if (!shared) snmpsec_agent_free(agent);
    snmpsec_manager_free(manager);
    return NULL;
}

int main(int argc, char **argv) {
    enum { SMALL = 65536 };
    pthread_t threads[THREADS];
    pthread_attr_t with;
    pthread_attr_init(&with);
    FILE *file = argc == 4 ? fopen(argv[1], "rb") : NULL;
    if (!file) return 2;
    config_len = fread(config, 1, sizeof config, file);
    fclose(file);
    rounds = atoi(argv[3]);
    if (!strcmp(argv[2], "shared")) must(snmpsec_agent_new(config, config_len, engine, sizeof engine, 5, NOW - 100, &shared), 0, "agent");
    if (!strcmp(argv[2], "small")) must(pthread_attr_setstacksize(&with, SMALL), 0, "stack");
    for (int i = 0; i < THREADS; i++) must(pthread_create(&threads[i], &with, work, NULL), 0, "thread");
    for (int i = 0; i < THREADS; i++) pthread_join(threads[i], NULL);
    snmpsec_agent_free(shared);
    puts("ended");
    return 0;
}
