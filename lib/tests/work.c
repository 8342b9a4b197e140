/* What calls of an agent cost, over datagrams and tables that grow: work, under valgrind's callgrind, which dumps the instructions of each call under a
 * name with a number: `take-bindings 1000`. work.py runs it and knows how they may grow. Not proved. */
#include "snmpsec.h"
#include <stdio.h>
#include <stdlib.h>
#include <string.h>
#include <valgrind/callgrind.h>

enum { NOW = 1000, MOST_TEXT = 4 << 20 };
static const uint8_t engine[] = {0x80, 0, 0x1f, 0x88, 4, 'x'};
static char config[MOST_TEXT];
static size_t config_len;
static uint8_t message[65536], list[65536], out[65536];
static size_t len, list_len, out_len;
static snmpsec_agent *agent;
static snmpsec_manager *manager;

static void must(int answer, const char *what) {
    if (answer) { fprintf(stderr, "%s: %s\n", what, snmpsec_strerror(answer)); exit(1); }
}

static void dump(const char *what, int n) {
    char name[64];
    snprintf(name, sizeof name, "%s %d", what, n);
    CALLGRIND_DUMP_STATS_AT(name);
}

/* Counts the instructions of a call alone. */
#define COUNTED(what, n, call)          \
    do {                                \
        CALLGRIND_START_INSTRUMENTATION; \
        CALLGRIND_ZERO_STATS;           \
        int answer = (call);            \
        dump(what, n);                  \
        CALLGRIND_STOP_INSTRUMENTATION; \
        must(answer, what);             \
    } while (0)

static void say(const char *form, int n) {
    config_len += (size_t)snprintf(config + config_len, sizeof config - config_len, form, n);
    if (config_len >= sizeof config) exit(2);
}

/* A configuration of so many rows in each table, where the view's families have a mask or none. The user has the longest hash. */
static void begin(int rows, const char *family) {
    snmpsec_agent_free(agent);
    snmpsec_manager_free(manager);
    config_len = 0;
    say("[[user]]\nname = \"sha\"\nauth = \"sha256\"\nauth-password = \"maplesyrup\"\npriv-password = \"syrupmaple\"\n[[context]]\nname = \"\"\n", 0);
    say("[[group]]\nmodel = 3\nname = \"sha\"\ngroup = \"g\"\n"
        "[[access]]\ngroup = \"g\"\nprefix = \"\"\nmodel = 3\nlevel = \"noAuthNoPriv\"\nmatch = \"exact\"\nread = \"v\"\n", 0);
    for (int i = 0; i < rows; i++) {
        say("[[user]]\nname = \"u%d\"\n", i);
        say("[[group]]\nmodel = 3\nname = \"u%d\"\ngroup = \"g\"\n", i);
        say(family, i);
    }
    const uint8_t *text = (const uint8_t *)config, *clocks = (const uint8_t *)"snmp-clocks 2\n80001f880478 5 100 1000\n";
    must(snmpsec_agent_new(text, config_len, engine, sizeof engine, 5, NOW - 100, &agent), "agent");
    must(snmpsec_manager_new(text, config_len, clocks, strlen((const char *)clocks), NOW, &manager), "manager");
}

static const char plain[] = "[[family]]\nview = \"v\"\nsubtree = \"1.3.6.1.4.1.%d\"\ninclude = true\n";
static const char masked[] = "[[family]]\nview = \"v\"\nsubtree = \"1.3.6.1.4.1.%d\"\ninclude = true\nmask = \"fa\"\n";

static void list_of(int bindings) {
    list_len = 0;
    for (int i = 0; i < bindings; i++) {
        size_t more = 0;
        uint32_t arcs[] = {1, 3, 6, 1, 2, 1, 1, 1, (uint32_t)i};
        must(snmpsec_binding_write(arcs, 9, 4, (const uint8_t *)"hello, world", 12, list + list_len, sizeof list - list_len, &more), "binding");
        list_len += more;
    }
}

static void ask(snmpsec_level level) {
    static uint32_t id;
    id++;
    snmpsec_request r = {.pdu = SNMPSEC_GET_REQUEST, .message_id = id, .request_id = id, .level = level, .engine = {engine, sizeof engine},
                         .user = {(const uint8_t *)"sha", 3}, .context_engine = {engine, sizeof engine}, .list = {list, list_len}, .salt = id};
    must(snmpsec_manager_request(manager, NOW, &r), "request");
    must(snmpsec_manager_message(manager, message, sizeof message, &len), "message");
}

/* As many bindings as these octets have, each as short as one can be. */
static void list_of_shortest(size_t octets) {
    static const uint8_t shortest[] = {0x30, 5, 6, 1, 0x2b, 5, 0};
    for (list_len = 0; list_len + sizeof shortest <= octets; list_len += sizeof shortest) memcpy(list + list_len, shortest, sizeof shortest);
}

static void over_datagram(const char *take, const char *respond, const char *respond_front, snmpsec_level level) {
    size_t count = 0;
    ask(level);
    must(snmpsec_agent_take(agent, NOW, message, len), "take"); /* the key is found again */
    COUNTED(take, (int)len, snmpsec_agent_take(agent, NOW, message, len));
    COUNTED("part", (int)list_len, snmpsec_agent_part(agent, SNMPSEC_BINDINGS, out, sizeof out, &out_len));
    COUNTED(respond, (int)list_len, snmpsec_agent_respond(agent, NOW, 0, 0, list, list_len, 1));
    COUNTED(respond_front, (int)list_len, snmpsec_agent_respond_front(agent, NOW, 0, 0, list, list_len, 1, 484, &count));
}

static void over_levels(void) {
    over_datagram("take", "respond", "respond_front", SNMPSEC_NO_AUTH_NO_PRIV);
    over_datagram("take-signed", "respond-signed", "respond_front-signed", SNMPSEC_AUTH_NO_PRIV);
    over_datagram("take-sealed", "respond-sealed", "respond_front-sealed", SNMPSEC_AUTH_PRIV);
}

static void over_datagrams(void) {
    static const int bindings[] = {1, 10, 100, 1000, 2000};
    begin(1, plain);
    for (size_t i = 0; i < sizeof bindings / sizeof *bindings; i++) {
        list_of(bindings[i]);
        over_levels();
    }
    for (size_t octets = 100; octets < 65000; octets *= 8) {
        list_of_shortest(octets);
        over_levels();
    }
}

static void over_rows(const char *what_access, const char *what_take, const char *family) {
    static const int rows[] = {10, 100, 1000, 10000};
    static const uint32_t arcs[] = {1, 3, 6, 1, 4, 1, 7, 1, 0};
    for (size_t i = 0; i < sizeof rows / sizeof *rows; i++) {
        snmpsec_access access;
        begin(rows[i], family);
        list_of(1);
        ask(SNMPSEC_NO_AUTH_NO_PRIV);
        COUNTED(what_take, rows[i], snmpsec_agent_take(agent, NOW, message, len));
        COUNTED(what_access, rows[i], snmpsec_agent_access(agent, SNMPSEC_READ, arcs, 9, &access));
    }
}

int main(void) {
    over_datagrams();
    over_rows("access", "take-users", plain);
    over_rows("access-masked", "take-users-masked", masked);
    return 0;
}
