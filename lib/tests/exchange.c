/* An agent and a manager of the library that talk to each other: exchange CONFIG CAPTURED-LOG
 *
 * Each user of the capture asks at each level: the engine is discovered, its boots and time are learned from a report, and the request
 * is asked again and answered. Then the bounds of the time window (RFC 3414, section 3.2, step 7), and a trap. Not proved. */
#include "checks.h"
#include <stdio.h>
#include <string.h>

enum { GREATEST = 2147483647, AGENT_BOOTS = 5, AGENT_TIME = 1000, STARTED = NOW - AGENT_TIME };
static const uint32_t name[] = {1, 3, 6, 1, 2, 1, 1, 1, 0};
static const size_t name_len = sizeof name / sizeof *name;

static snmpsec_agent *agent;
static snmpsec_manager *manager;
static uint32_t id;

static void begin(uint32_t boots, const char *clocks) {
    id = 0;
    check("an agent", 0, snmpsec_agent_new(config, config_len, engine, sizeof engine, boots, STARTED, &agent));
    check("a manager", 0, snmpsec_manager_new(config, config_len, (const uint8_t *)clocks, strlen(clocks), NOW, &manager));
}

static void end(void) {
    snmpsec_agent_free(agent);
    snmpsec_manager_free(manager);
}

static int to_agent(void) {
    struct text request = message_of(manager);
    return snmpsec_agent_take(agent, NOW, fenced(request.octets, request.len), request.len);
}

static int to_manager(void) {
    uint8_t message[MOST_OCTETS];
    size_t len = 0;
    check("what is sent back", 0, snmpsec_agent_message(agent, message, sizeof message, &len));
    return snmpsec_manager_take(manager, NOW, fenced(message, len), len);
}

/* What is kept is to the request: a Report of counter n is 10 + n. */
enum { RESPONSE = 0, OTHER = 1, REPORT = 10 };

static int replied(void) {
    snmpsec_reply reply;
    int answer = snmpsec_manager_reply(manager, &reply);
    if (answer) return answer;
    if (reply.kind == SNMPSEC_REPLY_REPORT) return REPORT + reply.counter;
    check("no counter", 0, reply.counter);
    return reply.kind == SNMPSEC_REPLY_RESPONSE ? RESPONSE : OTHER;
}

static snmpsec_counters counters_of_agent(void) {
    snmpsec_counters counters = {0};
    check("counters", 0, snmpsec_agent_counters(agent, &counters));
    return counters;
}

static void ask(const char *user, snmpsec_level level) {
    uint8_t list[64];
    size_t len = 0;
    id++;
    check("a binding", 0, snmpsec_binding_write(name, name_len, 0x05, (const uint8_t *)"", 0, list, sizeof list, &len));
    snmpsec_request request = {.pdu = SNMPSEC_GET_REQUEST, .message_id = id, .request_id = id, .level = level, .engine = {engine, sizeof engine},
                               .user = {(const uint8_t *)user, strlen(user)}, .context_engine = {engine, sizeof engine}, .list = {list, len},
                               .salt = id};
    check("request", 0, snmpsec_manager_request(manager, NOW, &request));
}

static void discover(void) {
    uint8_t found[32];
    size_t len = 0;
    id++;
    check("discover", 0, snmpsec_manager_discover(manager, id));
    check("the agent reports itself", SNMPSEC_UNKNOWN_ENGINE, to_agent());
    check("the report is taken", 0, to_manager());
    check("it is of counter 4", REPORT + SNMPSEC_UNKNOWN_ENGINES, replied());
    check("its engine", 0, snmpsec_manager_part(manager, SNMPSEC_ENGINE, found, sizeof found, &len));
    check("the agent's", 1, len == sizeof engine && !memcmp(found, engine, len));
}

static void learn(void) {
    snmpsec_clock clock = {0};
    check("not in the window", SNMPSEC_NOT_IN_WINDOW, to_agent());
    check("nothing is held yet", SNMPSEC_NOTHING_TAKEN, snmpsec_manager_clock(manager, engine, sizeof engine, &clock));
    check("the report is taken", 0, to_manager());
    check("it is of counter 2", REPORT + SNMPSEC_NOT_IN_WINDOWS, replied());
    check("the clock", 0, snmpsec_manager_clock(manager, engine, sizeof engine, &clock));
    check("the agent's boots", AGENT_BOOTS, clock.boots);
    check("the agent's time", AGENT_TIME, clock.time);
}

/* Answers what the agent keeps with a text, and looks at what comes of it. */
static void respond(void) {
    uint8_t list[64], back[64];
    snmpsec_info info = {0};
    snmpsec_binding one;
    size_t len = 0, back_len = 0, at = 0;
    check("a binding", 0, snmpsec_binding_write(name, name_len, 0x04, (const uint8_t *)"hello", 5, list, sizeof list, &len));
    check("respond", 0, snmpsec_agent_respond(agent, NOW, 0, 0, list, len, 77));
    check("the Response is taken", 0, to_manager());
    check("it is the Response", RESPONSE, replied());
    check("info", 0, snmpsec_manager_info(manager, &info));
    check("its PDU", SNMPSEC_RESPONSE_PDU, info.pdu);
    check("its request-id", id, info.request_id);
    check("its msgID", id, info.message_id);
    check("its status", 0, info.error_status);
    check("its bindings", 0, snmpsec_manager_part(manager, SNMPSEC_BINDINGS, back, sizeof back, &back_len));
    check("those that were written", 1, len == back_len && !memcmp(list, back, len));
    check("read", 0, snmpsec_binding_read(back, back_len, &at, &one));
    check("the name", 1, one.arcs_len == name_len && !memcmp(one.arcs, name, sizeof name));
    check("the value", 1, one.tag == 4 && one.content_len == 5 && !memcmp(one.content, "hello", 5));
    check("the end", (long long)back_len, (long long)at);
}

static void levels(void) {
    static const char *const users[] = {"ann", "bob", "sam"};
    for (size_t i = 0; i < 3; i++)
        for (uint32_t level = SNMPSEC_NO_AUTH_NO_PRIV; level <= SNMPSEC_AUTH_PRIV; level++) {
            begin(AGENT_BOOTS, SNMPSEC_NO_CLOCKS);
            discover();
            ask(users[i], (snmpsec_level)level);
            if (level != SNMPSEC_NO_AUTH_NO_PRIV) { learn(); ask(users[i], (snmpsec_level)level); }
            check("asked", 0, to_agent());
            respond();
            check("counter 2", level != SNMPSEC_NO_AUTH_NO_PRIV, counters_of_agent().not_in_windows);
            check("counter 4", 1, counters_of_agent().unknown_engines);
            end();
        }
}

/* A request whose boots and time are off by so much from the agent's: what the agent answers, what the manager makes of the report,
 * and what that is to the request. */
struct window { const char *name; int boots, time, agent, manager, reply; };

static const struct window windows[] = {
    {"149 s behind", 0, -149, SNMPSEC_OK, SNMPSEC_OK, RESPONSE},
    {"150 s behind", 0, -150, SNMPSEC_OK, SNMPSEC_OK, RESPONSE},
    {"151 s behind", 0, -151, SNMPSEC_NOT_IN_WINDOW, SNMPSEC_OK, REPORT + 2},
    {"149 s ahead", 0, 149, SNMPSEC_OK, SNMPSEC_OK, RESPONSE},
    {"150 s ahead", 0, 150, SNMPSEC_OK, SNMPSEC_OK, RESPONSE},
    {"151 s ahead", 0, 151, SNMPSEC_NOT_IN_WINDOW, SNMPSEC_NOT_IN_WINDOW, SNMPSEC_NOTHING_TAKEN},
    {"boots one less", -1, 0, SNMPSEC_NOT_IN_WINDOW, SNMPSEC_OK, REPORT + 2},
    {"boots one more", 1, 0, SNMPSEC_NOT_IN_WINDOW, SNMPSEC_NOT_IN_WINDOW, SNMPSEC_NOTHING_TAKEN},
};

/* Begins with a manager that holds this pair of the agent's engine. */
static void begin_holding(uint32_t agent_boots, long boots, long time) {
    char clocks[128], hex[2 * sizeof engine + 1];
    for (size_t i = 0; i < sizeof engine; i++) sprintf(hex + 2 * i, "%02x", engine[i]);
    snprintf(clocks, sizeof clocks, SNMPSEC_NO_CLOCKS "%s %ld %ld %d\n", hex, boots, time, NOW);
    begin(agent_boots, clocks);
}

static void in_window(const struct window *window) {
    begin_holding(AGENT_BOOTS, AGENT_BOOTS + window->boots, AGENT_TIME + window->time);
    ask("bob", SNMPSEC_AUTH_NO_PRIV);
    check(window->name, window->agent, to_agent());
    check("counter 2", window->agent == SNMPSEC_NOT_IN_WINDOW, counters_of_agent().not_in_windows);
    if (window->agent) {
        check(window->name, window->manager, to_manager());
        check(window->name, window->reply, replied());
    } else respond();
    if (window->reply == REPORT + 2) { ask("bob", SNMPSEC_AUTH_NO_PRIV); check("asked again", 0, to_agent()); respond(); }
    snmpsec_counters n = counters_of_agent();
    check("no other counter", 0, n.unsupported_levels + n.unknown_users + n.unknown_engines + n.wrong_digests + n.decryption_errors);
    end();
}

/* Boots that can't grow are outside of each window. */
static void last_boots(void) {
    begin_holding(GREATEST, GREATEST, AGENT_TIME);
    ask("bob", SNMPSEC_AUTH_NO_PRIV);
    check("the last boots", SNMPSEC_NOT_IN_WINDOW, to_agent());
    end();
}

static void trap(void) {
    uint8_t list[64], user[32];
    snmpsec_info info = {0};
    snmpsec_clock clock = {0};
    size_t len = 0;
    begin(AGENT_BOOTS, SNMPSEC_NO_CLOCKS);
    check("a binding", 0, snmpsec_binding_write(name, name_len, 0x04, (const uint8_t *)"hello", 5, list, sizeof list, &len));
    snmpsec_notice notice = {.message_id = 9, .request_id = 8, .level = SNMPSEC_AUTH_PRIV, .user = {(const uint8_t *)"sam", 3},
                             .context_engine = {engine, sizeof engine}, .list = {list, len}, .salt = 1};
    check("notify", 0, snmpsec_agent_notify(agent, NOW, &notice));
    check("the trap is taken", 0, to_manager());
    check("its info", 0, snmpsec_manager_info(manager, &info));
    check("its PDU", SNMPSEC_TRAP, info.pdu);
    check("its level", SNMPSEC_AUTH_PRIV, info.level);
    check("its msgID", 9, info.message_id);
    check("its request-id", 8, info.request_id);
    check("its user", 0, snmpsec_manager_part(manager, SNMPSEC_USER, user, sizeof user, &len));
    check("sam", 1, len == 3 && !memcmp(user, "sam", 3));
    check("the clock is learned", 0, snmpsec_manager_clock(manager, engine, sizeof engine, &clock));
    check("its boots", AGENT_BOOTS, clock.boots);
    end();
}

int main(int argc, char **argv) {
    read_capture(argc, argv);
    levels();
    for (size_t i = 0; i < sizeof windows / sizeof *windows; i++) in_window(&windows[i]);
    last_boots();
    trap();
    return checks_told();
}
