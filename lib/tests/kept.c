/* Requests that wait outside of their agent for their Responses, and an agent with another configuration: kept CONFIG CAPTURED-LOG. Not proved. */
#include "checks.h"
#include <string.h>

enum { AGENT_BOOTS = 5, STARTED = NOW - 1000, FIRST = 100, SEVERAL = 60, LATER = NOW + 40, SALT = 77 };
static const uint32_t name[] = {1, 3, 6, 1, 2, 1, 1, 1, 0};

static snmpsec_agent *agent, *other;
static snmpsec_manager *manager;
static uint8_t list[64], answer_list[64];
static size_t list_len, answer_list_len;

static snmpsec_agent *made(uint32_t boots) {
    snmpsec_agent *it = NULL;
    check("an agent", 0, snmpsec_agent_new(config, config_len, engine, sizeof engine, boots, STARTED, &it));
    return it;
}

static struct text asked(snmpsec_level level, uint32_t id) {
    snmpsec_request request = {.pdu = SNMPSEC_GET_REQUEST, .message_id = id, .request_id = id, .level = level, .engine = {engine, sizeof engine},
                               .user = {(const uint8_t *)"ann", 3}, .context_engine = {engine, sizeof engine}, .list = {list, list_len}, .salt = id};
    uint64_t token;
    check("ask", 0, snmpsec_manager_ask(manager, NOW, &request, &token));
    return message_of(manager);
}

static int takes(snmpsec_agent *it, const struct text *datagram) {
    return snmpsec_agent_take(it, NOW, fenced(datagram->octets, datagram->len), datagram->len);
}

static struct text written(snmpsec_agent *it) {
    struct text message = {.len = 0};
    check("what is sent", 0, snmpsec_agent_message(it, message.octets, sizeof message.octets, &message.len));
    return message;
}

/* Two agents of one configuration, and a manager that knows their time. */
static void begin(void) {
    snmpsec_answered answered;
    agent = made(AGENT_BOOTS);
    other = made(AGENT_BOOTS);
    check("a manager", 0, snmpsec_manager_new(config, config_len, (const uint8_t *)SNMPSEC_NO_CLOCKS, strlen(SNMPSEC_NO_CLOCKS), NOW, &manager));
    struct text datagram = asked(SNMPSEC_AUTH_NO_PRIV, 1);
    check("the time is unknown", SNMPSEC_NOT_IN_WINDOW, takes(agent, &datagram));
    struct text report = written(agent);
    check("the time", 0, snmpsec_manager_take(manager, NOW, report.octets, report.len));
    check("of the request", 0, snmpsec_manager_answered(manager, &answered));
    check("it waits no longer", 0, snmpsec_manager_give_up(manager, answered.token));
}

static void end(void) {
    snmpsec_agent_free(agent);
    snmpsec_agent_free(other);
    snmpsec_manager_free(manager);
}

static snmpsec_kept *kept_of(snmpsec_agent *it) {
    snmpsec_kept *kept = NULL;
    check("keep", 0, snmpsec_agent_keep(it, &kept));
    check("an object", 1, kept != NULL);
    return kept;
}

static void keeps_nothing(void) {
    snmpsec_info info;
    check("the agent keeps nothing", SNMPSEC_NOTHING_TAKEN, snmpsec_agent_info(agent, &info));
}

/* What is kept is what the other agent keeps, which took the same datagram. */
static void is_as_of_other(snmpsec_kept *kept) {
    snmpsec_info found = {0}, expected = {0};
    uint32_t size = 0, expected_size = 1;
    check("info", 0, snmpsec_kept_info(kept, &found));
    check("the other's info", 0, snmpsec_agent_info(other, &expected));
    check("the same numbers", 0, memcmp(&found, &expected, sizeof found));
    check("max_size", 0, snmpsec_kept_max_size(kept, &size));
    check("the other's max_size", 0, snmpsec_agent_max_size(other, &expected_size));
    check("the same size", expected_size, size);
    for (snmpsec_part part = SNMPSEC_BINDINGS; part <= SNMPSEC_ENGINE; part++) {
        struct text a = {.len = 0}, b = {.len = 0};
        check("a part", 0, snmpsec_kept_part(kept, part, a.octets, sizeof a.octets, &a.len));
        check("the other's part", 0, snmpsec_agent_part(other, part, b.octets, sizeof b.octets, &b.len));
        check("the same octets", 1, is_same(&a, &b));
        if (!a.len) continue;
        size_t wanted = 0;
        check("no room", SNMPSEC_SHORT_BUFFER, snmpsec_kept_part(kept, part, a.octets, a.len - 1, &wanted));
        check("how much", (long long)a.len, (long long)wanted);
    }
}

/* Requests at each level, kept in one order and answered in another, at a later moment. */
static void out_of_order(void) {
    static snmpsec_kept *kept[SEVERAL];
    static struct text datagrams_of[SEVERAL];
    begin();
    for (uint32_t i = 0; i < SEVERAL; i++) {
        datagrams_of[i] = asked((snmpsec_level)(1 + i % 3), FIRST + i);
        check("the agent accepts it", 0, takes(agent, &datagrams_of[i]));
        kept[i] = kept_of(agent);
        keeps_nothing();
    }
    for (uint32_t n = 0; n < SEVERAL; n++) {
        uint32_t i = n * 7 % SEVERAL;
        check("the other takes it", 0, takes(other, &datagrams_of[i]));
        is_as_of_other(kept[i]);
        check("the other answers", 0, snmpsec_agent_respond(other, LATER, 0, 0, answer_list, answer_list_len, SALT + i));
        struct text expected = written(other);
        check("respond", 0, snmpsec_kept_respond(kept[i], agent, LATER, 0, 0, answer_list, answer_list_len, SALT + i));
        struct text response = written(agent);
        check("the same Response, octet for octet", 1, is_same(&expected, &response));
        is_as_of_other(kept[i]);
        keeps_nothing();
        snmpsec_kept_free(kept[i]);
        snmpsec_answered answered = {.token = 0};
        check("the manager accepts it", 0, snmpsec_manager_take(manager, LATER, response.octets, response.len));
        check("whose is it", 0, snmpsec_manager_answered(manager, &answered));
        check("a Response", SNMPSEC_REPLY_RESPONSE, answered.kind);
        check("its own", 1 + 1 + i, (long long)answered.token);
    }
    end();
}

/* What the agent accepted last stays beside what is kept. */
static void beside_the_last(void) {
    snmpsec_info info = {0};
    begin();
    struct text first = asked(SNMPSEC_AUTH_PRIV, 1000), second = asked(SNMPSEC_AUTH_NO_PRIV, 2000);
    check("the first", 0, takes(agent, &first));
    snmpsec_kept *kept = kept_of(agent);
    check("the second", 0, takes(agent, &second));
    check("the first is answered", 0, snmpsec_kept_respond(kept, agent, NOW, 0, 0, answer_list, answer_list_len, SALT));
    check("the second is there", 0, snmpsec_agent_info(agent, &info));
    check("as it was", 2000, info.request_id);
    check("the second is answered", 0, snmpsec_agent_respond(agent, NOW, 0, 0, answer_list, answer_list_len, SALT + 1));
    check("the other takes it", 0, takes(other, &second));
    check("the other answers", 0, snmpsec_agent_respond(other, NOW, 0, 0, answer_list, answer_list_len, SALT + 1));
    struct text expected = written(other), found = written(agent);
    check("as if nothing else was kept", 1, is_same(&expected, &found));
    check("back", 0, snmpsec_agent_restore(agent, kept));
    check("the first is there", 0, snmpsec_agent_info(agent, &info));
    check("instead of the second", 1000, info.request_id);
    snmpsec_access access;
    check("access is asked of its sender", 0, snmpsec_agent_access(agent, SNMPSEC_READ, name, sizeof name / sizeof *name, &access));
    check("there is no context", SNMPSEC_NO_SUCH_CONTEXT, access);
    struct text message = written(agent);
    check("what is to be sent stays", 1, is_same(&expected, &message));
    end();
}

/* Another agent, after a restart, answers what the first one accepted, and the first one is gone. */
static void another_agent(void) {
    snmpsec_answered answered = {.token = 0};
    begin();
    struct text datagram = asked(SNMPSEC_AUTH_PRIV, 3000);
    check("the agent accepts it", 0, takes(agent, &datagram));
    snmpsec_kept *kept = kept_of(agent);
    snmpsec_agent_free(agent);
    agent = made(AGENT_BOOTS + 1);
    check("respond", 0, snmpsec_kept_respond(kept, agent, LATER, 0, 0, answer_list, answer_list_len, SALT));
    struct text response = written(agent);
    check("the manager accepts it", 0, snmpsec_manager_take(manager, LATER, response.octets, response.len));
    check("whose is it", 0, snmpsec_manager_answered(manager, &answered));
    check("a Response", SNMPSEC_REPLY_RESPONSE, answered.kind);
    snmpsec_agent_free(agent);
    agent = NULL;
    snmpsec_info info = {0};
    check("it says what it is without an agent", 0, snmpsec_kept_info(kept, &info));
    check("the same", 3000, info.request_id);
    snmpsec_kept_free(kept);
    end();
}

/* Answers within a limit. */
static void within(void) {
    size_t count = 9;
    begin();
    struct text datagram = asked(SNMPSEC_NO_AUTH_NO_PRIV, 4000);
    check("the agent accepts it", 0, takes(agent, &datagram));
    snmpsec_kept *kept = kept_of(agent);
    check("respond", 0, snmpsec_kept_respond(kept, agent, NOW, 0, 0, answer_list, answer_list_len, SALT));
    struct text whole = written(agent);
    uint32_t len = (uint32_t)whole.len;
    check("with room", 0, snmpsec_kept_respond_within(kept, agent, NOW, 0, 0, answer_list, answer_list_len, SALT, len));
    struct text same = written(agent);
    check("the same", 1, is_same(&whole, &same));
    check("too long", SNMPSEC_TOO_LARGE, snmpsec_kept_respond_within(kept, agent, NOW, 0, 0, answer_list, answer_list_len, SALT, len - 1));
    check("the front", 0, snmpsec_kept_respond_front(kept, agent, NOW, 0, 0, answer_list, answer_list_len, SALT, len, &count));
    check("all", 1, (long long)count);
    check("less", 0, snmpsec_kept_respond_front(kept, agent, NOW, 0, 0, answer_list, answer_list_len, SALT, len - 1, &count));
    check("none", 0, (long long)count);
    count = 9;
    check("no room", SNMPSEC_TOO_LARGE, snmpsec_kept_respond_front(kept, agent, NOW, 0, 0, answer_list, answer_list_len, SALT, 10, &count));
    check("unwritten", 9, (long long)count);
    check("put back", 0, snmpsec_agent_restore(agent, kept));
    struct text before = written(agent);
    check("room for all", 0, snmpsec_agent_fits(agent, NOW, 0, 0, answer_list, answer_list_len, len, &count));
    check("all", 1, (long long)count);
    check("less room", 0, snmpsec_agent_fits(agent, NOW, 0, 0, answer_list, answer_list_len, len - 1, &count));
    check("none", 0, (long long)count);
    count = 9;
    check("no room", SNMPSEC_TOO_LARGE, snmpsec_agent_fits(agent, NOW, 0, 0, answer_list, answer_list_len, 10, &count));
    check("no status", SNMPSEC_BAD_ARGUMENT, snmpsec_agent_fits(agent, NOW, 2147483648u, 0, answer_list, answer_list_len, len, &count));
    check("no bindings", SNMPSEC_BAD_BINDINGS, snmpsec_agent_fits(agent, NOW, 0, 0, answer_list, answer_list_len - 1, len, &count));
    check("no count", SNMPSEC_BAD_ARGUMENT, snmpsec_agent_fits(agent, NOW, 0, 0, answer_list, answer_list_len, len, NULL));
    check("unwritten", 9, (long long)count);
    struct text after = written(agent);
    check("what is to be sent stays", 1, is_same(&before, &after));
    check("taken out", 0, snmpsec_agent_keep(agent, &kept));
    check("nothing is kept", SNMPSEC_NOTHING_TAKEN, snmpsec_agent_fits(agent, NOW, 0, 0, answer_list, answer_list_len, len, &count));
    snmpsec_kept_free(kept);
    end();
}

static void refused(void) {
    snmpsec_kept *kept = (snmpsec_kept *)1;
    snmpsec_info info;
    uint32_t size;
    size_t count;
    begin();
    check("nothing is accepted", SNMPSEC_NOTHING_TAKEN, snmpsec_agent_keep(agent, &kept));
    check("no object", 1, kept == NULL);
    check("no agent", SNMPSEC_BAD_ARGUMENT, snmpsec_agent_keep(NULL, &kept));
    check("nowhere to write", SNMPSEC_BAD_ARGUMENT, snmpsec_agent_keep(agent, NULL));
    struct text datagram = asked(SNMPSEC_AUTH_PRIV, 5000);
    check("the agent accepts it", 0, takes(agent, &datagram));
    check("respond", 0, snmpsec_agent_respond(agent, NOW, 0, 0, answer_list, answer_list_len, SALT));
    struct text before = written(agent);
    kept = kept_of(agent);
    check("once", SNMPSEC_NOTHING_TAKEN, snmpsec_agent_keep(agent, &(snmpsec_kept *){NULL}));
    check("a status out of range", SNMPSEC_BAD_ARGUMENT, snmpsec_kept_respond(kept, agent, NOW, 2147483648u, 0, answer_list, answer_list_len, SALT));
    check("an index out of range", SNMPSEC_BAD_ARGUMENT, snmpsec_kept_respond(kept, agent, NOW, 0, 2147483648u, answer_list, answer_list_len, SALT));
    check("no bindings", SNMPSEC_BAD_BINDINGS, snmpsec_kept_respond(kept, agent, NOW, 0, 0, answer_list, answer_list_len - 1, SALT));
    check("no part", SNMPSEC_BAD_ARGUMENT, snmpsec_kept_part(kept, (snmpsec_part)5, list, sizeof list, &count));
    struct text after = written(agent);
    check("what is to be sent stays", 1, is_same(&before, &after));
    check("no object", SNMPSEC_BAD_ARGUMENT, snmpsec_kept_info(NULL, &info));
    check("no numbers", SNMPSEC_BAD_ARGUMENT, snmpsec_kept_info(kept, NULL));
    check("no size", SNMPSEC_BAD_ARGUMENT, snmpsec_kept_max_size(kept, NULL));
    check("no object with a size", SNMPSEC_BAD_ARGUMENT, snmpsec_kept_max_size(NULL, &size));
    check("no length", SNMPSEC_BAD_ARGUMENT, snmpsec_kept_part(kept, SNMPSEC_USER, list, sizeof list, NULL));
    check("nothing to answer", SNMPSEC_BAD_ARGUMENT, snmpsec_kept_respond(NULL, agent, NOW, 0, 0, NULL, 0, SALT));
    check("nobody to answer", SNMPSEC_BAD_ARGUMENT, snmpsec_kept_respond(kept, NULL, NOW, 0, 0, NULL, 0, SALT));
    check("nobody to answer", SNMPSEC_BAD_ARGUMENT, snmpsec_kept_respond_within(kept, NULL, NOW, 0, 0, NULL, 0, SALT, 484));
    check("no count", SNMPSEC_BAD_ARGUMENT, snmpsec_kept_respond_front(kept, agent, NOW, 0, 0, NULL, 0, SALT, 484, NULL));
    check("nothing to put back", SNMPSEC_BAD_ARGUMENT, snmpsec_agent_restore(agent, NULL));
    check("nobody to put it back to", SNMPSEC_BAD_ARGUMENT, snmpsec_agent_restore(NULL, kept));
    snmpsec_kept_free(kept);
    snmpsec_kept_free(NULL);
    end();
}

/* An agent with other users answers for those that it has, and counts on. */
static void another_configuration(void) {
    static const char only_bob[] = "[[user]]\nname = 'bob'\n";
    snmpsec_counters before, after;
    begin();
    struct text datagram = asked(SNMPSEC_AUTH_PRIV, 7000);
    check("the agent accepts it", 0, takes(agent, &datagram));
    snmpsec_kept *kept = kept_of(agent);
    check("and again", 0, takes(agent, &datagram));
    check("the message", 0, snmpsec_agent_respond(agent, NOW, 0, 0, answer_list, answer_list_len, SALT));
    struct text message = written(agent);
    check("counters", 0, snmpsec_agent_counters(agent, &before));
    check("one was outside of the window", 1, before.not_in_windows);
    check("no configuration", SNMPSEC_BAD_CONFIGURATION, snmpsec_agent_reconfigure(agent, (const uint8_t *)"no", 2));
    check("no agent", SNMPSEC_BAD_ARGUMENT, snmpsec_agent_reconfigure(NULL, config, config_len));
    check("as before", 0, snmpsec_kept_respond(kept, agent, NOW, 0, 0, answer_list, answer_list_len, SALT));
    struct text same = written(agent);
    check("the same Response", 1, is_same(&message, &same));
    check("other users", 0, snmpsec_agent_reconfigure(agent, (const uint8_t *)only_bob, sizeof only_bob - 1));
    same = written(agent);
    check("the message stays", 1, is_same(&message, &same));
    snmpsec_info info;
    check("what is kept stays", 0, snmpsec_agent_info(agent, &info));
    check("counters", 0, snmpsec_agent_counters(agent, &after));
    check("they stay", 0, memcmp(&before, &after, sizeof before));
    check("she is unknown", SNMPSEC_UNKNOWN_USER, snmpsec_kept_respond(kept, agent, NOW, 0, 0, answer_list, answer_list_len, SALT));
    check("to the agent too", SNMPSEC_UNKNOWN_USER, takes(agent, &datagram));
    check("counters", 0, snmpsec_agent_counters(agent, &after));
    check("they go on", (long long)before.unknown_users + 1, after.unknown_users);
    int answer = SNMPSEC_OUT_OF_MEMORY;
    long granted = 0;
    for (; answer == SNMPSEC_OUT_OF_MEMORY && granted < 1000; granted++) {
        check("she is unknown", SNMPSEC_UNKNOWN_USER, snmpsec_kept_respond(kept, agent, NOW, 0, 0, answer_list, answer_list_len, SALT));
        left = granted;
        answer = snmpsec_agent_reconfigure(agent, config, config_len);
        left = -1;
    }
    check("at last", 0, answer);
    check("some growths were refused", 1, granted > 1);
    check("she is back", 0, snmpsec_kept_respond(kept, agent, NOW, 0, 0, answer_list, answer_list_len, SALT));
    same = written(agent);
    check("with the same engine, boots and time", 1, is_same(&message, &same));
    snmpsec_kept_free(kept);
    end();
}

/* A growth that is refused leaves all as it was. */
static void without_memory(void) {
    snmpsec_kept *kept = NULL;
    int answer = SNMPSEC_OUT_OF_MEMORY;
    long granted = 0;
    snmpsec_info info;
    begin();
    struct text datagram = asked(SNMPSEC_AUTH_PRIV, 6000);
    check("the agent accepts it", 0, takes(agent, &datagram));
    for (; answer == SNMPSEC_OUT_OF_MEMORY && granted < 100; granted++) {
        check("it is there", 0, snmpsec_agent_info(agent, &info));
        left = granted;
        answer = snmpsec_agent_keep(agent, &kept);
        left = -1;
    }
    check("kept at last", 0, answer);
    check("some growths were refused", 1, granted > 1);
    answer = SNMPSEC_OUT_OF_MEMORY;
    for (granted = 0; answer == SNMPSEC_OUT_OF_MEMORY && granted < 100; granted++) {
        size_t count;
        check("it is kept", 0, snmpsec_kept_info(kept, &info));
        check("nothing is to be sent", SNMPSEC_NOTHING_TAKEN, snmpsec_agent_message(agent, NULL, 0, &count));
        keeps_nothing();
        left = granted;
        answer = snmpsec_kept_respond(kept, agent, NOW, 0, 0, answer_list, answer_list_len, SALT);
        left = -1;
    }
    check("answered at last", 0, answer);
    check("some growths were refused", 1, granted > 1);
    left = 0;
    check("back, without memory", 0, snmpsec_agent_restore(agent, kept));
    left = -1;
    check("it is there again", 0, snmpsec_agent_info(agent, &info));
    check("the same", 6000, info.request_id);
    kept = kept_of(agent);
    left = 0;
    snmpsec_kept_free(kept);
    left = -1;
    end();
}

int main(int argc, char **argv) {
    size_t arcs = sizeof name / sizeof *name;
    read_capture(argc, argv);
    check("a binding", 0, snmpsec_binding_write(name, arcs, 0x05, (const uint8_t *)"", 0, list, sizeof list, &list_len));
    check("its value", 0, snmpsec_binding_write(name, arcs, 0x04, (const uint8_t *)"a device", 8, answer_list, sizeof answer_list, &answer_list_len));
    out_of_order();
    beside_the_last();
    another_agent();
    within();
    refused();
    another_configuration();
    without_memory();
    return checks_told();
}
