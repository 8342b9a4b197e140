/* An agent and a manager with users of each hash that talk, and stop for looks at the memory (look.py): hold CONFIG ENGINE-HEX
 *
 * It writes a word and waits for a line before they are made, when they are, when each user has asked at each level, and when they are
 * freed. Not proved. */
#define _GNU_SOURCE
#include "snmpsec.h"
#include "words_of.h"
#include <fcntl.h>
#include <stdio.h>
#include <stdlib.h>
#include <string.h>
#include <unistd.h>

enum { NOW = 1000 };
static const uint32_t name[] = {1, 3, 6, 1, 2, 1, 1, 1, 0};
static const char *const users[] = {"ann", "bob", "sam"};
static uint8_t message[65536];
static size_t len;

static void wait_for_look(const char *word) {
    char line[8];
    if (write(1, word, strlen(word)) < 0 || read(0, line, sizeof line) <= 0) _exit(1);
}

static void must(int answer, int wanted, const char *what) {
    if (answer != wanted) { fprintf(stderr, "%s: %d\n", what, answer); _exit(1); }
}

static int ask_by(snmpsec_pdu pdu, snmpsec_manager *manager, const uint8_t *engine, size_t engine_len, const char *user, uint32_t level, uint32_t id,
                  const uint8_t *list, size_t list_len) {
    snmpsec_request r = {.pdu = pdu, .message_id = id, .request_id = id, .level = (snmpsec_level)level, .engine = {engine, engine_len},
                         .user = {(const uint8_t *)user, strlen(user)}, .context_engine = {engine, engine_len}, .list = {list, list_len}, .salt = id};
    return snmpsec_manager_request(manager, NOW, &r);
}

static int ask(snmpsec_manager *manager, const uint8_t *engine, size_t engine_len, const char *user, uint32_t level, uint32_t id, const uint8_t *list,
               size_t list_len) {
    return ask_by(SNMPSEC_GET_REQUEST, manager, engine, engine_len, user, level, id, list, list_len);
}

/* A receiver of notifications is made, takes an Inform of each user, and is freed: nothing of its keys stays. */
static void listen_once(const uint8_t *config, size_t config_len, const uint8_t *engine, size_t engine_len, const char *engine_hex) {
    char clocks[128];
    snmpsec_listener *listener = NULL;
    snmpsec_manager *sender = NULL;
    snmpsec_listener_event event;
    int clocks_len = snprintf(clocks, sizeof clocks, "%s%s 5 100 %d\n", SNMPSEC_NO_CLOCKS, engine_hex, NOW), why;
    snmpsec_listener_settings of = {.boots = 5, .started = NOW - 100, .most = 9, .engine = {engine, engine_len},
                                    .clocks = {(const uint8_t *)SNMPSEC_NO_CLOCKS, strlen(SNMPSEC_NO_CLOCKS)}};
    must(snmpsec_listener_new(config, config_len, &of, NULL, 0, &listener), 0, "listener");
    must(snmpsec_manager_new(config, config_len, (const uint8_t *)clocks, (size_t)clocks_len, NOW, &sender), 0, "sender");
    for (uint32_t i = 0; i < 3; i++) {
        must(ask_by(SNMPSEC_INFORM_REQUEST, sender, engine, engine_len, users[i], SNMPSEC_AUTH_PRIV, i, NULL, 0), 0, "inform");
        must(snmpsec_manager_message(sender, message, sizeof message, &len), 0, "message");
        must(snmpsec_listener_take(listener, NOW, NULL, 0, message, len, i, &event, &why), 0, "listener takes");
        must(event, SNMPSEC_LISTENER_INFORM, "it is reported");
    }
    snmpsec_listener_free(listener);
    snmpsec_manager_free(sender);
}

/* A user asks at a level, and once more where the boots and the time are learned by a report. */
static void exchange(snmpsec_agent *agent, snmpsec_manager *manager, const uint8_t *engine, size_t engine_len, const char *user, uint32_t level) {
    static uint32_t id;
    uint8_t list[64];
    size_t list_len = 0;
    must(snmpsec_binding_write(name, 9, 4, (const uint8_t *)"hello", 5, list, sizeof list, &list_len), 0, "binding");
    for (int tries = 0, answer = 1; answer && tries < 2; tries++) {
        must(ask(manager, engine, engine_len, user, level, ++id, list, list_len), 0, "ask");
        must(snmpsec_manager_message(manager, message, sizeof message, &len), 0, "message");
        answer = snmpsec_agent_take(agent, NOW, message, len);
        if (!answer) must(snmpsec_agent_respond(agent, NOW, 0, 0, list, list_len, id), 0, "respond");
        else must(answer, SNMPSEC_NOT_IN_WINDOW, "take");
        must(snmpsec_agent_message(agent, message, sizeof message, &len), 0, "report");
        must(snmpsec_manager_take(manager, NOW, message, len), 0, "manager takes");
    }
}

int main(int argc, char **argv) {
    snmpsec_agent *agent = NULL;
    snmpsec_manager *manager = NULL;
    uint8_t engine[32];
    size_t engine_len;
    if (argc != 3 || engine_of(argv[2], engine, &engine_len)) return 2;
    wait_for_look("began\n");
    uint8_t *config = malloc(65536);
    int file = open(argv[1], O_RDONLY);
    ssize_t config_len = config && file >= 0 ? read(file, config, 65536) : -1;
    if (config_len < 0) return 2;
    close(file);
    must(snmpsec_agent_new(config, (size_t)config_len, engine, engine_len, 5, NOW - 100, &agent), 0, "agent");
    /* the keys of before are wiped */
    must(snmpsec_agent_reconfigure(agent, config, (size_t)config_len), 0, "reconfigure");
    must(snmpsec_manager_new(config, (size_t)config_len, (const uint8_t *)SNMPSEC_NO_CLOCKS, strlen(SNMPSEC_NO_CLOCKS), NOW, &manager), 0, "manager");
    listen_once(config, (size_t)config_len, engine, engine_len, argv[2]);
    snmpsec_wipe(config, 65536);
    wait_for_look("made\n");
    for (int i = 0; i < 3; i++)
        for (uint32_t level = SNMPSEC_NO_AUTH_NO_PRIV; level <= SNMPSEC_AUTH_PRIV; level++) exchange(agent, manager, engine, engine_len, users[i], level);
    wait_for_look("used\n");
    snmpsec_agent_free(agent);
    snmpsec_manager_free(manager);
    wait_for_look("closed\n");
    free(config);
    return 0;
}
