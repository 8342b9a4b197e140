/* What the calls cost in nanoseconds, the best of some rounds: cost CONFIG ROUNDS
 *
 * Linked with plain.c it is `cost_plain`, in which nothing is wiped. CONFIG has a user bob with SHA-1 and a privacy password. Not proved. */
#define _GNU_SOURCE
#include "snmpsec.h"
#include <stdio.h>
#include <stdlib.h>
#include <string.h>
#include <time.h>

enum { NOW = 1000, REPEATS = 100 };
static const uint8_t engine[] = {0x80, 0, 0x1f, 0x88, 4, 'x'};
static uint8_t config[1 << 16], list[4000], message[65536], out[65536];
static size_t config_len, list_len, len, out_len;
static double now_ns(void) { struct timespec t; clock_gettime(CLOCK_MONOTONIC, &t); return 1e9 * (double)t.tv_sec + (double)t.tv_nsec; }
static void must(int answer, const char *what) { if (answer) { fprintf(stderr, "%s %d\n", what, answer); exit(1); } }
static uint64_t salt;

static int ask(snmpsec_manager *m, const char *user, uint32_t level, uint32_t id) {
    snmpsec_request r = {.pdu = SNMPSEC_GET_REQUEST, .message_id = id, .request_id = id, .level = (snmpsec_level)level, .engine = {engine, sizeof engine},
                         .user = {(const uint8_t *)user, 3}, .context_engine = {engine, sizeof engine}, .list = {list, list_len}, .salt = ++salt};
    return snmpsec_manager_request(m, NOW, &r);
}
/* Lowers what a call was seen to take, since the moment at which its repeats began; and the moment now. */
static double least(double *seen, double begin) {
    double now = now_ns(), took = (now - begin) / REPEATS;
    if (took < *seen) *seen = took;
    return now;
}

static void run(const char *what, const char *user, uint32_t level, int bindings, int rounds) {
    snmpsec_agent *agent;
    snmpsec_manager *manager;
    must(snmpsec_agent_new(config, config_len, engine, sizeof engine, 5, NOW - 100, &agent), "agent");
    must(snmpsec_manager_new(config, config_len, (const uint8_t *)"snmp-clocks 2\n80001f880478 5 100 1000\n", 38, NOW, &manager), "manager");
    list_len = 0;
    for (int i = 0; i < bindings; i++) {
        size_t more;
        uint32_t arcs[] = {1, 3, 6, 1, 2, 1, 1, 1, (uint32_t)i};
        must(snmpsec_binding_write(arcs, 9, 4, (const uint8_t *)"hello, world", 12, list + list_len, sizeof list - list_len, &more), "binding");
        list_len += more;
    }
    double take = 1e18, both = 1e18, request = 1e18, read = 1e18;
    int answer = 0;
    must(ask(manager, user, level, 1), "ask");
    must(snmpsec_manager_message(manager, message, sizeof message, &len), "message");
    for (int round = 0; round < rounds; round++) {
        double begin = now_ns();
        for (int i = 0; i < REPEATS; i++) answer |= snmpsec_agent_take(agent, NOW, message, len);
        begin = least(&take, begin);
        for (int i = 0; i < REPEATS; i++) {
            answer |= snmpsec_agent_take(agent, NOW, message, len);
            answer |= snmpsec_agent_respond(agent, NOW, 0, 0, list, list_len, ++salt);
            answer |= snmpsec_agent_message(agent, out, sizeof out, &out_len);
        }
        begin = least(&both, begin);
        for (int i = 0; i < REPEATS; i++) answer |= ask(manager, user, level, 1);
        begin = least(&request, begin);
        for (int i = 0; i < REPEATS; i++) answer |= snmpsec_manager_take(manager, NOW, out, out_len);
        least(&read, begin);
    }
    must(answer, "a call");
    printf("%-34s %5zu octets: take %6.0f, take+respond %6.0f, request %6.0f, manager's take %6.0f ns\n", what, len, take, both, request, read);
    snmpsec_agent_free(agent);
    snmpsec_manager_free(manager);
}

int main(int argc, char **argv) {
    enum { NEW = 20 };
    snmpsec_agent *agent;
    FILE *file = argc == 3 ? fopen(argv[1], "rb") : NULL;
    if (!file) return 2;
    config_len = fread(config, 1, sizeof config, file);
    fclose(file);
    int rounds = atoi(argv[2]);
    run("noAuthNoPriv, 1 binding", "bob", 1, 1, rounds);
    run("authNoPriv SHA-1, 1 binding", "bob", 2, 1, rounds);
    run("authPriv SHA-1 AES, 1 binding", "bob", 3, 1, rounds);
    run("authPriv SHA-1 AES, 100 bindings", "bob", 3, 100, rounds);
    double begin = now_ns();
    for (int i = 0; i < NEW; i++) {
        must(snmpsec_agent_new(config, config_len, engine, sizeof engine, 5, NOW - 100, &agent), "agent");
        snmpsec_agent_free(agent);
    }
    printf("new and free: %.0f us\n", (now_ns() - begin) / NEW / 1000);
    return 0;
}
