/* Calls from C that net-snmp doesn't make: calls CONFIG CAPTURED-LOG
 *
 * Arguments out of their ranges, buffers that are too short, captured datagrams whole, cut at every length and with each bit
 * turned, and a malloc that fails at the Nth call. To be linked with -Wl,--wrap=malloc,--wrap=realloc. Not proved. */
#include "checks.h"
#include "inside.h"
#include "proved.h"
#include <stdio.h>
#include <string.h>

/* The agent of the capture. */
static int begin(snmpsec_agent **agent) {
    return snmpsec_agent_new(config, config_len, engine, sizeof engine, BOOTS, NOW - TIME, agent);
}

/* What is reported of a configuration, at each length of a buffer; and of memory that is refused it. */
static void check_config_fault(void) {
    static const char text[] = "[[user]]\nname = \"ann\"\n[[user]]\nname = \"bob\"\nauht = \"md5\"\n";
    static const char expected[] = "refused config user 1 BadKey\nuser 1: auht: not a key of this table, the nearest is auth\n";
    static const char missing[] = "[[family]]\nview = \"v\"\n";
    uint8_t out[sizeof expected], more[128];
    size_t written = 7;
    snmpsec_config_place place = {9, 9, 9, 9};
    int answer;
    check("a configuration", SNMPSEC_OK, snmpsec_config_fault(config, config_len, &place, out, sizeof out, &written));
    check("nothing is reported of it", 0, (long long)written);
    check("no text is one", SNMPSEC_OK, snmpsec_config_fault(NULL, 0, &place, out, sizeof out, &written));
    for (size_t room = 0; room < sizeof out; room++) {
        memset(out, 'x', sizeof out);
        answer = snmpsec_config_fault((const uint8_t *)text, strlen(text), &place, out, room, &written);
        check("a misspelt key", room < strlen(expected) ? SNMPSEC_SHORT_BUFFER : SNMPSEC_BAD_CONFIGURATION, answer);
        check("its table, row and reason", 1, place.table == SNMPSEC_USER_TABLE && place.position == 1 && place.reason == SNMPSEC_UNLISTED_KEY
                                                  && place.key == SNMPSEC_NO_KEY);
        check("what is reported of it", 1, written == strlen(expected) && (room < written ? out[0] == 'x' : !memcmp(out, expected, written)));
    }
    answer = snmpsec_config_fault((const uint8_t *)missing, strlen(missing), &place, more, sizeof more, &written);
    check("a key that is missing", 1, answer == SNMPSEC_BAD_CONFIGURATION && place.table == SNMPSEC_FAMILY_TABLE && place.reason == SNMPSEC_MISSING_KEY
                                          && place.key == SNMPSEC_KEY_SUBTREE);
    check("no place", SNMPSEC_BAD_ARGUMENT, snmpsec_config_fault(config, config_len, NULL, out, sizeof out, &written));
    answer = SNMPSEC_OUT_OF_MEMORY;
    for (long granted = 0; answer == SNMPSEC_OUT_OF_MEMORY; granted++) {
        place = (snmpsec_config_place){9, 9, 9, 9};
        left = granted;
        answer = snmpsec_config_fault((const uint8_t *)text, strlen(text), &place, out, sizeof out, &written);
        left = -1;
        check("out of memory writes nothing", 1, answer != SNMPSEC_OUT_OF_MEMORY || place.table == 9);
    }
    check("and then the fault is written", SNMPSEC_BAD_CONFIGURATION, answer);
}

/* A number that is no call's, nor what is copied: it is answered so, and nothing is written. */
static void no_calls(void *agent, void *manager) {
    static const uint8_t none[16];
    static const uint32_t no_arcs[4];
    const proved_octets octets = {none, 0};
    const proved_agent_asked of_agent = {.call = PROVED_AGENT_COUNT + 1, .user = octets, .context_engine = octets,
                                         .context_name = octets, .octets = octets, .arcs = {no_arcs, 0}};
    const proved_manager_asked of_manager = {.call = PROVED_MANAGER_PAIR + 1, .engine = octets, .user = octets,
                                             .context_engine = octets, .context_name = octets, .octets = octets};
    proved_agent_said agent_said = {.access = 7, .count = 7};
    proved_manager_said manager_said = {.kind = 7, .token = 7};
    uint8_t out[1] = {7};
    size_t written = 7;
    check("no call of an agent", SNMPSEC_BAD_ARGUMENT, proved_agent_call(agent, &of_agent, &agent_said));
    check("no call of a manager", SNMPSEC_BAD_ARGUMENT, proved_manager_call(manager, &of_manager, &manager_said));
    check("nothing is copied", SNMPSEC_BAD_ARGUMENT, proved_agent_copy(agent, PROVED_MESSAGE + 1, 0, out, 1, &written));
    check("nor of a manager", SNMPSEC_BAD_ARGUMENT, proved_manager_copy(manager, PROVED_PART, 5, out, 1, &written));
    check("nothing is written", 1, agent_said.access == 7 && agent_said.count == 7 && manager_said.kind == 7
                                       && manager_said.token == 7 && out[0] == 7 && written == 7);
}

/* Each _new of the archive writes its handle where it answers 0, which no contract says, and else nothing. */
static void handles(void) {
    static const char clocks[] = SNMPSEC_NO_CLOCKS;
    void *agent = NULL, *manager = NULL;
    int answer = SNMPSEC_OUT_OF_MEMORY;
    check("no agent", SNMPSEC_BAD_ARGUMENT, proved_agent_new(config, config_len, engine, 4, BOOTS, NOW, &agent));
    check("no manager", SNMPSEC_BAD_CLOCKS, proved_manager_new(config, config_len, config, 1, NOW, &manager));
    check("no handle is written", 1, !agent && !manager);
    for (long granted = 0; answer == SNMPSEC_OUT_OF_MEMORY; granted++) {
        check("out of memory writes no agent", 1, !agent);
        left = granted;
        answer = proved_agent_new(config, config_len, engine, sizeof engine, BOOTS, NOW, &agent);
        left = -1;
    }
    check("an agent is written", 1, answer == SNMPSEC_OK && agent);
    for (long granted = 0; granted == 0 || answer == SNMPSEC_OUT_OF_MEMORY; granted++) {
        check("out of memory writes no manager", 1, !manager);
        left = granted;
        answer = proved_manager_new(config, config_len, (const uint8_t *)clocks, sizeof clocks - 1, NOW, &manager);
        left = -1;
    }
    check("a manager is written", 1, answer == SNMPSEC_OK && manager);
    no_calls(agent, manager);
    snmpsec_inside_free_handle(agent, proved_agent_clear);
    snmpsec_inside_free_handle(manager, proved_manager_clear);
}

static void arguments(void) {
    snmpsec_agent *agent = NULL;
    uint32_t arcs[129] = {1, 3, 6}, next[3];
    uint8_t out[8];
    size_t written = 0;
    snmpsec_info info;
    snmpsec_access access;
    snmpsec_counters counters;
    static const snmpsec_octets ann = {(const uint8_t *)"ann", 3}, empty = {NULL, 0};
    uint8_t same[32];
    check("short engine ID", SNMPSEC_BAD_ARGUMENT, snmpsec_agent_new(config, config_len, engine, 4, 1, 0, &agent));
    check("boots", SNMPSEC_BAD_ARGUMENT, snmpsec_agent_new(config, config_len, engine, sizeof engine, 2147483648u, 0, &agent));
    check("configuration", SNMPSEC_BAD_CONFIGURATION, snmpsec_agent_new((const uint8_t *)"no", 2, engine, sizeof engine, 1, 0, &agent));
    check("no pointer was written", 1, agent == NULL);
    memset(same, 0xff, sizeof same);
    check("an engine ID of ones", SNMPSEC_BAD_ARGUMENT, snmpsec_agent_new(config, config_len, same, sizeof same, 1, 0, &agent));
    memset(same, 0, sizeof same);
    check("an engine ID of zeros", SNMPSEC_BAD_ARGUMENT, snmpsec_agent_new(config, config_len, same, sizeof same, 1, 0, &agent));
    check_config_fault();
    agent = (snmpsec_agent *)same;
    check("no room for the pointer", SNMPSEC_BAD_ARGUMENT, snmpsec_agent_new(config, config_len, engine, sizeof engine, 1, 0, NULL));
    check("no configuration", SNMPSEC_BAD_CONFIGURATION, snmpsec_agent_new((const uint8_t *)"no", 2, engine, sizeof engine, 1, 0, &agent));
    check("the pointer is null", 1, agent == NULL);
    snmpsec_agent_free(agent);
    check("an agent without users", 0, snmpsec_agent_new(NULL, 0, engine, sizeof engine, 1, 0, &agent));
    snmpsec_agent_free(agent);
    check("new", 0, begin(&agent));
    check("no message", SNMPSEC_NOTHING_TAKEN, snmpsec_agent_message(agent, out, sizeof out, &written));
    check("nothing kept", SNMPSEC_NOTHING_TAKEN, snmpsec_agent_info(agent, &info));
    check("no part", SNMPSEC_BAD_ARGUMENT, snmpsec_agent_part(agent, (snmpsec_part)5, out, sizeof out, &written));
    check("access to nothing", SNMPSEC_NOTHING_TAKEN, snmpsec_agent_access(agent, SNMPSEC_READ, arcs, 3, &access));
    check("nothing is allowed", false, snmpsec_agent_allows(agent, SNMPSEC_READ, arcs, 3));
    check("no view", SNMPSEC_BAD_ARGUMENT, snmpsec_agent_access(agent, (snmpsec_view)3, arcs, 3, &access));
    check("129 arcs", SNMPSEC_BAD_ARGUMENT, snmpsec_agent_access(agent, SNMPSEC_READ, arcs, 129, &access));
    check("no arcs", SNMPSEC_BAD_ARGUMENT, snmpsec_agent_access(agent, SNMPSEC_READ, NULL, 0, &access));
    check("next of nothing", SNMPSEC_NOTHING_TAKEN, snmpsec_agent_next(agent, SNMPSEC_READ, arcs, 3, next, 3, &written));
    check("next in no view", SNMPSEC_BAD_ARGUMENT, snmpsec_agent_next(agent, (snmpsec_view)3, arcs, 3, next, 3, &written));
    check("next of no arcs", SNMPSEC_BAD_ARGUMENT, snmpsec_agent_next(agent, SNMPSEC_READ, NULL, 0, next, 3, &written));
    check("no level", SNMPSEC_BAD_ARGUMENT, snmpsec_agent_user_access(agent, ann, (snmpsec_level)0, empty, SNMPSEC_READ, arcs, 3, &access));
    check("no level: not allowed", false, snmpsec_agent_user_allows(agent, ann, (snmpsec_level)0, empty, SNMPSEC_READ, arcs, 3));
    check("user", 0, snmpsec_agent_user_access(agent, ann, SNMPSEC_NO_AUTH_NO_PRIV, empty, SNMPSEC_READ, arcs, 3, &access));
    check("no context", SNMPSEC_NO_SUCH_CONTEXT, access);
    check("no context: not allowed", false, snmpsec_agent_user_allows(agent, ann, SNMPSEC_NO_AUTH_NO_PRIV, empty, SNMPSEC_READ, arcs, 3));
    check("counters", 0, snmpsec_agent_counters(agent, &counters));
    check("none is counted", 0, counters.unsupported_levels + counters.not_in_windows + counters.unknown_users + counters.unknown_engines
                                    + counters.wrong_digests + counters.decryption_errors);
    check("respond to nothing", SNMPSEC_NOTHING_TAKEN, snmpsec_agent_respond(agent, NOW, 0, 0, NULL, 0, 1));
    check("notify of nothing", SNMPSEC_BAD_ARGUMENT, snmpsec_agent_notify(agent, NOW, NULL));
    snmpsec_agent_free(agent);
}

/* A null handle, and a null pointer to what is to be written. */
static void nulls(void) {
    snmpsec_agent *agent = NULL;
    snmpsec_counters counters;
    snmpsec_notice notice = {.level = SNMPSEC_AUTH_PRIV};
    snmpsec_info info;
    uint8_t out[8];
    size_t written = 0;
    snmpsec_agent_free(NULL);
    check("null: take", SNMPSEC_BAD_ARGUMENT, snmpsec_agent_take(NULL, NOW, out, sizeof out));
    check("null: info", SNMPSEC_BAD_ARGUMENT, snmpsec_agent_info(NULL, &info));
    check("null: part", SNMPSEC_BAD_ARGUMENT, snmpsec_agent_part(NULL, SNMPSEC_USER, out, sizeof out, &written));
    check("null: message", SNMPSEC_BAD_ARGUMENT, snmpsec_agent_message(NULL, out, sizeof out, &written));
    check("null: allows", false, snmpsec_agent_allows(NULL, SNMPSEC_READ, NULL, 0));
    check("null: next", SNMPSEC_BAD_ARGUMENT, snmpsec_agent_next(NULL, SNMPSEC_READ, NULL, 0, NULL, 0, &written));
    check("null: respond", SNMPSEC_BAD_ARGUMENT, snmpsec_agent_respond(NULL, NOW, 0, 0, NULL, 0, 1));
    check("null: notify", SNMPSEC_BAD_ARGUMENT, snmpsec_agent_notify(NULL, NOW, &notice));
    check("null: counters", SNMPSEC_BAD_ARGUMENT, snmpsec_agent_counters(NULL, &counters));
    check("new", 0, begin(&agent));
    check("an empty datagram", SNMPSEC_NOT_MESSAGE, snmpsec_agent_take(agent, NOW, NULL, 0));
    check("no info", SNMPSEC_BAD_ARGUMENT, snmpsec_agent_info(agent, NULL));
    check("no count", SNMPSEC_BAD_ARGUMENT, snmpsec_agent_message(agent, out, sizeof out, NULL));
    check("no counters", SNMPSEC_BAD_ARGUMENT, snmpsec_agent_counters(agent, NULL));
    check("no access", SNMPSEC_BAD_ARGUMENT, snmpsec_agent_access(agent, SNMPSEC_READ, NULL, 0, NULL));
    snmpsec_agent_free(agent);
}

/* Each answer has words and a name of its own, and other numbers have none. */
static void words(void) {
    long named = 0;
    for (int answer = -100; answer <= 100; answer++) {
        const char *name = snmpsec_error_name(answer);
        if (name) named++;
        check("words where there is a name", name != NULL, strcmp(snmpsec_strerror(answer), "unknown answer") != 0);
    }
    check("names", 26, named);
    check("the name of 9", 0, strcmp(snmpsec_error_name(SNMPSEC_WRONG_DIGEST), "WRONG_DIGEST"));
    check("the version", 0, strcmp(snmpsec_version(), SNMPSEC_VERSION));
    uint8_t secret[4] = {1, 2, 3, 4};
    snmpsec_wipe(secret, 3);
    check("wiped", 4, secret[0] + secret[1] + secret[2] + secret[3]);
    snmpsec_wipe(NULL, 0);
}

/* Counter n, by its place. */
static uint32_t counter(snmpsec_agent *agent, int n) {
    snmpsec_counters told;
    check("counters", 0, snmpsec_agent_counters(agent, &told));
    const uint32_t counters[] = {told.unsupported_levels, told.not_in_windows, told.unknown_users, told.unknown_engines, told.wrong_digests,
                                 told.decryption_errors};
    return counters[n - 1];
}

static void refusals(void) {
    snmpsec_agent *agent = NULL;
    uint8_t out[512];
    size_t written = 0, wanted = 0;
    check("new", 0, begin(&agent));
    check("discovery", SNMPSEC_UNKNOWN_ENGINE, snmpsec_agent_take(agent, NOW, datagrams[0], lengths[0]));
    memset(out, 0xaa, sizeof out);
    check("no room for the report", SNMPSEC_SHORT_BUFFER, snmpsec_agent_message(agent, out, 4, &wanted));
    check("the buffer is as it was", 0xaa, out[0]);
    check("one octet short", SNMPSEC_SHORT_BUFFER, snmpsec_agent_message(agent, out, wanted - 1, &written));
    check("room", 0, snmpsec_agent_message(agent, out, wanted, &written));
    check("as much as was wanted", (long long)wanted, (long long)written);
    check("nothing behind it", 0xaa, out[wanted]);
    /* net-snmp's report on the same request */
    check("the report is net-snmp's", 0, (long long)(wanted != lengths[1]) || memcmp(out + 60, datagrams[1] + 60, 20));
    check("counter 4", 1, counter(agent, SNMPSEC_UNKNOWN_ENGINES));
    snmpsec_agent_free(agent);
}

/* The requests of the capture are accepted at each level, and answered. */
static void accepted(void) {
    snmpsec_agent *agent = NULL;
    uint8_t out[2048], user[32];
    size_t written = 0;
    snmpsec_info info;
    long count = 0;
    check("new", 0, begin(&agent));
    for (size_t i = 0; i < datagrams_len; i++) {
        if (snmpsec_agent_take(agent, NOW, datagrams[i], lengths[i]) || snmpsec_agent_info(agent, &info) || info.pdu != SNMPSEC_GET_REQUEST) continue;
        count++;
        check("user", 0, snmpsec_agent_part(agent, SNMPSEC_USER, user, sizeof user, &written));
        check("a name", 3, (long long)written);
        check("bindings", 0, snmpsec_agent_part(agent, SNMPSEC_BINDINGS, out, sizeof out, &written));
        check("bad status", SNMPSEC_BAD_ARGUMENT, snmpsec_agent_respond(agent, NOW, 2147483648u, 0, out, written, 1));
        check("half a binding", SNMPSEC_BAD_BINDINGS, snmpsec_agent_respond(agent, NOW, 0, 0, out, 1, 1));
        check("respond", 0, snmpsec_agent_respond(agent, NOW, 0, 0, out, written, 1));
        check("response", 0, snmpsec_agent_message(agent, out, sizeof out, &written));
        check("out of the window", info.level == SNMPSEC_NO_AUTH_NO_PRIV ? 0 : SNMPSEC_NOT_IN_WINDOW, snmpsec_agent_take(agent, NOW + 200, datagrams[i], lengths[i]));
    }
    printf("%ld captured requests accepted\n", count);
    check("captured requests", 1, count >= 5);
    snmpsec_agent_free(agent);
}

/* Cut at every length, and with each bit turned: an answer from the table, and the counters add up. */
static void hostile(void) {
    snmpsec_agent *agent = NULL;
    static uint8_t changed[2048], out[SNMPSEC_LARGEST];
    long counted = 0, told[19] = {0};
    size_t written;
    check("new", 0, begin(&agent));
    for (size_t i = 0; i < datagrams_len; i++) {
        for (size_t cut = 0; cut <= lengths[i]; cut++) {
            int answer = snmpsec_agent_take(agent, NOW, fenced(datagrams[i], cut), cut);
            check("an answer of the table", 1, answer >= 0 && answer <= 18);
            if (answer >= 0 && answer <= 18) told[answer]++;
            int told_message = snmpsec_agent_message(agent, out, sizeof out, &written);
            check("a report or none", 1, told_message == SNMPSEC_OK || told_message == SNMPSEC_NOTHING_TAKEN);
        }
        for (size_t bit = 0; bit < 8 * lengths[i]; bit++) {
            memcpy(changed, datagrams[i], lengths[i]);
            changed[bit / 8] ^= (uint8_t)(1 << (bit % 8));
            int answer = snmpsec_agent_take(agent, NOW, changed, lengths[i]);
            check("an answer of the table", 1, answer >= 0 && answer <= 18);
            if (answer >= 0 && answer <= 18) told[answer]++;
        }
    }
    static const int counter_of[] = {8, 10, 7, 6, 9, 11};
    for (int n = 1; n <= 6; n++) { check("a counter", told[counter_of[n - 1]], counter(agent, n)); counted += told[counter_of[n - 1]]; }
    printf("%ld of the changed datagrams counted\n", counted);
    snmpsec_agent_free(agent);
}

/* All calls once, where the Nth growth of memory is refused: each answers 0 or 14, and what is refused changes no counter. */
static int all_calls(size_t request) {
    snmpsec_agent *agent = NULL;
    uint8_t out[2048];
    size_t written = 0;
    int answer = begin(&agent);
    if (answer) { check("no pointer was written", 1, agent == NULL); return answer; }
    answer = snmpsec_agent_take(agent, NOW, datagrams[request], lengths[request]);
    if (!answer && !(answer = snmpsec_agent_part(agent, SNMPSEC_BINDINGS, out, sizeof out, &written))) answer = snmpsec_agent_respond(agent, NOW, 0, 0, out, written, 1);
    if (!answer) {
        snmpsec_notice notice = {.message_id = 1, .request_id = 1, .level = SNMPSEC_AUTH_PRIV, .user = {(const uint8_t *)"ann", 3},
                                 .context_engine = {engine, sizeof engine}, .list = {out, written}, .salt = 2};
        answer = snmpsec_agent_notify(agent, NOW, &notice);
    }
    if (answer) for (int n = 1; n <= 6; n++) check("a counter of nothing", 0, counter(agent, n));
    left = 0;       /* freeing wants no memory, or the leak sanitizer tells */
    snmpsec_agent_free(agent);
    return answer;
}

static void refused_memory(void) {
    long n = 0;
    size_t request = 14;        /* an authPriv request of the capture */
    for (; n < 100000; n++) {
        left = n;
        int answer = all_calls(request);
        left = -1;
        if (!answer) break;
        check("out of memory", SNMPSEC_OUT_OF_MEMORY, answer);
    }
    printf("%ld growths of memory refused in turn\n", n);
    check("some growths", 1, n > 10);
}

int main(int argc, char **argv) {
    read_capture(argc, argv);
    handles();
    arguments();
    nulls();
    words();
    refusals();
    accepted();
    hostile();
    refused_memory();
    return checks_told();
}
