/* Calls on a manager: manager_calls CONFIG CAPTURED-LOG PRINTED
 *
 * Arguments out of their ranges, buffers that are too short, saved clocks, scopedPDUs that are sealed under any header and read by an agent, and the
 * captured log, whose answers are those that the program's replay printed. Not proved. */
#include "checks.h"
#include <stdio.h>
#include <stdlib.h>
#include <string.h>

static const uint8_t *const no_clocks = (const uint8_t *)SNMPSEC_NO_CLOCKS, *const nothing = (const uint8_t *)"";
enum { NO_CLOCKS = sizeof SNMPSEC_NO_CLOCKS - 1 };

static int begin(snmpsec_manager **manager) {
    return snmpsec_manager_new(config, config_len, no_clocks, NO_CLOCKS, NOW, manager);
}

static int ask(snmpsec_manager *manager, const char *user, uint32_t level, uint32_t pdu, uint32_t request_id, size_t engine_len, size_t list_len) {
    snmpsec_request request = {.pdu = (snmpsec_pdu)pdu, .message_id = 1, .request_id = request_id, .level = (snmpsec_level)level,
                               .engine = {engine, engine_len}, .user = {(const uint8_t *)user, strlen(user)},
                               .context_engine = {engine, sizeof engine}, .list = {nothing, list_len}, .salt = 1};
    return snmpsec_manager_request(manager, NOW, &request);
}

static void no_manager(void) {
    snmpsec_manager *manager = NULL;
    check("clocks", SNMPSEC_BAD_CLOCKS, snmpsec_manager_new(config, config_len, nothing, 0, NOW, &manager));
    check("configuration", SNMPSEC_BAD_CONFIGURATION, snmpsec_manager_new((const uint8_t *)"no", 2, no_clocks, NO_CLOCKS, NOW, &manager));
    check("no pointer was written", 1, manager == NULL);
    check("no room for the pointer", SNMPSEC_BAD_ARGUMENT, snmpsec_manager_new(config, config_len, no_clocks, NO_CLOCKS, NOW, NULL));
    snmpsec_manager_free(NULL);
}

/* A null handle, and a null pointer to what is to be written. */
static void nulls(void) {
    snmpsec_manager *manager = NULL;
    snmpsec_request request = {.level = SNMPSEC_AUTH_PRIV};
    snmpsec_reply reply;
    snmpsec_clock clock;
    snmpsec_info info;
    uint8_t out[8];
    size_t written = 0;
    check("null: take", SNMPSEC_BAD_ARGUMENT, snmpsec_manager_take(NULL, NOW, out, sizeof out));
    check("null: info", SNMPSEC_BAD_ARGUMENT, snmpsec_manager_info(NULL, &info));
    check("null: part", SNMPSEC_BAD_ARGUMENT, snmpsec_manager_part(NULL, SNMPSEC_USER, out, sizeof out, &written));
    check("null: message", SNMPSEC_BAD_ARGUMENT, snmpsec_manager_message(NULL, out, sizeof out, &written));
    check("null: reply", SNMPSEC_BAD_ARGUMENT, snmpsec_manager_reply(NULL, &reply));
    check("null: discover", SNMPSEC_BAD_ARGUMENT, snmpsec_manager_discover(NULL, 1));
    check("null: request", SNMPSEC_BAD_ARGUMENT, snmpsec_manager_request(NULL, NOW, &request));
    check("null: absorb", SNMPSEC_BAD_ARGUMENT, snmpsec_manager_absorb(NULL, out, sizeof out, NOW));
    check("null: save", SNMPSEC_BAD_ARGUMENT, snmpsec_manager_save(NULL, out, sizeof out, &written));
    check("null: clock", SNMPSEC_BAD_ARGUMENT, snmpsec_manager_clock(NULL, engine, sizeof engine, &clock));
    check("new", 0, begin(&manager));
    check("no request", SNMPSEC_BAD_ARGUMENT, snmpsec_manager_request(manager, NOW, NULL));
    check("no reply", SNMPSEC_BAD_ARGUMENT, snmpsec_manager_reply(manager, NULL));
    check("no clock", SNMPSEC_BAD_ARGUMENT, snmpsec_manager_clock(manager, engine, sizeof engine, NULL));
    check("no count", SNMPSEC_BAD_ARGUMENT, snmpsec_manager_save(manager, out, sizeof out, NULL));
    check("no room to save", SNMPSEC_SHORT_BUFFER, snmpsec_manager_save(manager, NULL, 0, &written));
    check("so much is wanted", NO_CLOCKS, (long long)written);
    snmpsec_manager_free(manager);
}

static void arguments(void) {
    snmpsec_manager *manager = NULL;
    uint8_t out[8];
    size_t written = 0;
    snmpsec_info info;
    snmpsec_reply reply;
    snmpsec_clock clock;
    check("new", 0, begin(&manager));
    check("no message", SNMPSEC_NOTHING_TAKEN, snmpsec_manager_message(manager, out, sizeof out, &written));
    check("nothing kept", SNMPSEC_NOTHING_TAKEN, snmpsec_manager_info(manager, &info));
    check("no part", SNMPSEC_BAD_ARGUMENT, snmpsec_manager_part(manager, (snmpsec_part)5, out, sizeof out, &written));
    check("no reply", SNMPSEC_NOTHING_TAKEN, snmpsec_manager_reply(manager, &reply));
    check("no engine ID", SNMPSEC_BAD_ARGUMENT, snmpsec_manager_clock(manager, engine, 4, &clock));
    check("no clock", SNMPSEC_NOTHING_TAKEN, snmpsec_manager_clock(manager, engine, sizeof engine, &clock));
    check("msgID", SNMPSEC_BAD_ARGUMENT, snmpsec_manager_discover(manager, 2147483648u));
    check("request: engine ID", SNMPSEC_BAD_ARGUMENT, ask(manager, "ann", SNMPSEC_AUTH_PRIV, 0xA0, 1, 4, 0));
    check("request: level", SNMPSEC_BAD_ARGUMENT, ask(manager, "ann", 4, 0xA0, 1, sizeof engine, 0));
    check("request: tag", SNMPSEC_BAD_ARGUMENT, ask(manager, "ann", SNMPSEC_AUTH_PRIV, 0xA4, 1, sizeof engine, 0));
    check("request: request-id", SNMPSEC_BAD_ARGUMENT, ask(manager, "ann", SNMPSEC_AUTH_PRIV, 0xA0, 2147483648u, sizeof engine, 0));
    check("request: bindings", SNMPSEC_BAD_BINDINGS, ask(manager, "ann", SNMPSEC_AUTH_PRIV, 0xA0, 1, sizeof engine, 1));
    check("request: user", SNMPSEC_UNKNOWN_USER, ask(manager, "eve", SNMPSEC_AUTH_PRIV, 0xA0, 1, sizeof engine, 0));
    check("still no message", SNMPSEC_NOTHING_TAKEN, snmpsec_manager_message(manager, out, sizeof out, &written));
    check("request", 0, ask(manager, "ann", SNMPSEC_AUTH_PRIV, 0xA0, 1, sizeof engine, 0));
    check("no room", SNMPSEC_SHORT_BUFFER, snmpsec_manager_message(manager, out, sizeof out, &written));
    check("more is wanted", 1, written > sizeof out);
    snmpsec_manager_free(manager);
}

static void saved_is(snmpsec_manager *manager, const char *text) {
    struct text saved = saved_of(manager);
    check("the saved text", 1, saved.len == strlen(text) && !memcmp(saved.octets, text, saved.len));
}

/* A request is there until it is taken to be answered, though the clocks are saved before it is fetched. */
static void request_and_saved(void) {
    snmpsec_manager *manager = NULL;
    uint8_t out[8];
    size_t written = 0;
    check("new", 0, begin(&manager));
    saved_is(manager, SNMPSEC_NO_CLOCKS);
    check("saved without a request", SNMPSEC_NOTHING_TAKEN, snmpsec_manager_message(manager, out, sizeof out, &written));
    check("discover", 0, snmpsec_manager_discover(manager, 7));
    struct text request = message_of(manager);
    check("save without room", SNMPSEC_SHORT_BUFFER, snmpsec_manager_save(manager, out, sizeof out, &written));
    saved_is(manager, SNMPSEC_NO_CLOCKS);
    check("no room for the request", SNMPSEC_SHORT_BUFFER, snmpsec_manager_message(manager, out, sizeof out, &written));
    check("so much is wanted", (long long)request.len, (long long)written);
    struct text still = message_of(manager);
    check("the request is there", 1, is_same(&request, &still));
    saved_is(manager, SNMPSEC_NO_CLOCKS);
    check("a refused request", SNMPSEC_UNKNOWN_USER, ask(manager, "eve", SNMPSEC_AUTH_PRIV, 0xA0, 1, sizeof engine, 0));
    still = message_of(manager);
    check("the request is there still", 1, is_same(&request, &still));
    check("discover", 0, snmpsec_manager_discover(manager, 8));
    still = message_of(manager);
    check("the next one", 0, is_same(&request, &still));
    saved_is(manager, SNMPSEC_NO_CLOCKS);
    check("taken", SNMPSEC_NOT_MESSAGE, snmpsec_manager_take(manager, NOW, nothing, 0));
    check("no message", SNMPSEC_NOTHING_TAKEN, snmpsec_manager_message(manager, out, sizeof out, &written));
    snmpsec_manager_free(manager);
}

static void absorbed(void) {
    static const char *const earlier = SNMPSEC_NO_CLOCKS "0102030405 1 8 6\n", *const marks = "snmp-clocks 1\n0102030405 1 9\n";
    snmpsec_manager *manager = NULL;
    snmpsec_clock clock = {0};
    check("new", 0, begin(&manager));
    check("no clocks", SNMPSEC_BAD_CLOCKS, snmpsec_manager_absorb(manager, nothing, 0, NOW));
    saved_is(manager, SNMPSEC_NO_CLOCKS);
    check("absorb marks", 0, snmpsec_manager_absorb(manager, (const uint8_t *)marks, strlen(marks), 7));
    check("absorb what is earlier", 0, snmpsec_manager_absorb(manager, (const uint8_t *)earlier, strlen(earlier), NOW));
    saved_is(manager, SNMPSEC_NO_CLOCKS "0102030405 1 9 7\n");
    check("the clock", 0, snmpsec_manager_clock(manager, (const uint8_t *)"\1\2\3\4\5", 5, &clock));
    check("its boots", 1, clock.boots);
    check("its time", 9, clock.time);
    snmpsec_manager_free(manager);
}

/* ---- scopedPDUs that are sealed under any header */

enum { LEAST = 484, GREATEST = 2147483647, NEGATIVE = -2147483647 - 1, REQUEST_ID = -1 };

/* A scopedPDU without bindings. */
static struct text scoped_of(int32_t request_id, int32_t second, int32_t third) {
    struct text text = {.len = 0};
    snmpsec_scoped scoped = {.pdu = SNMPSEC_GET_BULK_REQUEST, .request_id = request_id, .non_repeaters = second, .max_repetitions = third,
                             .context_engine = {engine, sizeof engine}};
    check("scoped", 0, snmpsec_scoped_write(&scoped, text.octets, sizeof text.octets, &text.len));
    return text;
}

static void no_scoped(void) {
    static uint8_t large[SNMPSEC_LARGEST];
    snmpsec_scoped scoped = {.pdu = SNMPSEC_GET_REQUEST, .list = {large, 1}};
    uint8_t out[64];
    size_t written = 7;
    check("null: scoped", SNMPSEC_BAD_ARGUMENT, snmpsec_scoped_write(NULL, out, sizeof out, &written));
    check("no count", SNMPSEC_BAD_ARGUMENT, snmpsec_scoped_write(&scoped, out, sizeof out, NULL));
    check("scoped: bindings", SNMPSEC_BAD_BINDINGS, snmpsec_scoped_write(&scoped, out, sizeof out, &written));
    scoped.pdu = (snmpsec_pdu)0xA4;
    check("scoped: tag", SNMPSEC_BAD_ARGUMENT, snmpsec_scoped_write(&scoped, out, sizeof out, &written));
    scoped = (snmpsec_scoped){.pdu = SNMPSEC_GET_REQUEST, .context_name = {large, sizeof large}};
    check("scoped: too large", SNMPSEC_TOO_LARGE, snmpsec_scoped_write(&scoped, out, sizeof out, &written));
    scoped.context_name.len = 0;
    check("nothing is counted", 7, (long long)written);
    check("scoped: no room", SNMPSEC_SHORT_BUFFER, snmpsec_scoped_write(&scoped, out, 18, &written));
    check("so much is wanted", 19, (long long)written);
    check("scoped: room", 0, snmpsec_scoped_write(&scoped, out, 19, &written));
    check("the text", 0, memcmp(out, "\x30\x11\x04\0\x04\0\xa0\x0b\x02\x01\0\x02\x01\0\x02\x01\0\x30\0", 19));
}

/* How a scopedPDU is sealed, and what the call answers. */
struct row { const char *name; int expected; uint32_t message_id, max_size, level, boots, time; const char *user; size_t cut; };

static const struct row rows[] = {
    {"seal: msgID", SNMPSEC_BAD_ARGUMENT, 2147483648u, LEAST, 3, BOOTS, TIME, "ann", 0},
    {"seal: msgMaxSize of 483", SNMPSEC_BAD_ARGUMENT, 1, LEAST - 1, 3, BOOTS, TIME, "ann", 0},
    {"seal: msgMaxSize of 2147483648", SNMPSEC_BAD_ARGUMENT, 1, 2147483648u, 3, BOOTS, TIME, "ann", 0},
    {"seal: level 0", SNMPSEC_BAD_ARGUMENT, 1, LEAST, 0, BOOTS, TIME, "ann", 0},
    {"seal: level 4", SNMPSEC_BAD_ARGUMENT, 1, LEAST, 4, BOOTS, TIME, "ann", 0},
    {"seal: boots", SNMPSEC_BAD_ARGUMENT, 1, LEAST, 3, 2147483648u, TIME, "ann", 0},
    {"seal: time", SNMPSEC_BAD_ARGUMENT, 1, LEAST, 3, BOOTS, 2147483648u, "ann", 0},
    {"seal: a name of 33 octets", SNMPSEC_BAD_ARGUMENT, 1, LEAST, 3, BOOTS, TIME, "012345678901234567890123456789012", 0},
    {"seal: a scopedPDU that is cut", SNMPSEC_BAD_ARGUMENT, 1, LEAST, 3, BOOTS, TIME, "ann", 1},
    {"seal: no such user", SNMPSEC_UNKNOWN_USER, 1, LEAST, 2, BOOTS, TIME, "eve", 0},
    {"seal: nobody without authentication", 0, 1, LEAST, 1, BOOTS, TIME, "eve", 0},
    {"seal: the least", 0, 0, LEAST, 3, 0, 0, "ann", 0},
    {"seal: the greatest", 0, GREATEST, GREATEST, 3, GREATEST, GREATEST, "ann", 0},
};

static int sealed_by(snmpsec_manager *manager, const struct row *row, bool is_reportable, const struct text *scoped) {
    snmpsec_sealing sealing = {.message_id = row->message_id, .max_size = row->max_size, .is_reportable = is_reportable,
                               .level = (snmpsec_level)row->level, .engine = {engine, sizeof engine}, .boots = row->boots, .time = row->time,
                               .user = {(const uint8_t *)row->user, strlen(row->user)}, .scoped = {scoped->octets, scoped->len - row->cut}, .salt = 1};
    return snmpsec_manager_seal(manager, &sealing);
}

static void seal_arguments(void) {
    static const char *const without_privacy = "[[user]]\nname = \"ann\"\nauth = \"md5\"\nauth-password = \"maplesyrup\"\n";
    static uint8_t large[SNMPSEC_LARGEST] = {0x30, 0x82, 0xff, 0xdf};
    const struct row private = {"", 0, 1, LEAST, 3, BOOTS, TIME, "ann", 0};
    struct text scoped = scoped_of(1, 0, 0);
    snmpsec_sealing sealing = {.max_size = LEAST, .level = SNMPSEC_NO_AUTH_NO_PRIV, .scoped = {large, sizeof large}};
    snmpsec_manager *manager = NULL, *other = NULL;
    check("new", 0, begin(&manager));
    for (size_t i = 0; i < sizeof rows / sizeof *rows; i++) check(rows[i].name, rows[i].expected, sealed_by(manager, &rows[i], true, &scoped));
    struct text message = message_of(manager);
    check("null: seal", SNMPSEC_BAD_ARGUMENT, snmpsec_manager_seal(NULL, &sealing));
    check("no sealing", SNMPSEC_BAD_ARGUMENT, snmpsec_manager_seal(manager, NULL));
    check("seal: too large", SNMPSEC_TOO_LARGE, snmpsec_manager_seal(manager, &sealing));
    struct text still = message_of(manager);
    check("the message is there still", 1, is_same(&message, &still));
    check("new", 0, snmpsec_manager_new((const uint8_t *)without_privacy, strlen(without_privacy), no_clocks, NO_CLOCKS, NOW, &other));
    check("seal: no privacy", SNMPSEC_UNSUPPORTED_LEVEL, sealed_by(other, &private, true, &scoped));
    snmpsec_manager_free(manager);
    snmpsec_manager_free(other);
}

/* Each growth of memory refused in turn: the answer says so, and the message is there still. */
static void refused_memory(void) {
    const struct row row = {"", 0, 1, LEAST, 3, BOOTS, TIME, "ann", 0};
    snmpsec_scoped said = {.pdu = SNMPSEC_GET_REQUEST};
    snmpsec_manager *manager = NULL;
    struct text scoped = {.len = 0};
    int answer = SNMPSEC_OUT_OF_MEMORY;
    for (long n = 0; n < 100 && answer; n++) {
        left = n;
        answer = snmpsec_scoped_write(&said, scoped.octets, sizeof scoped.octets, &scoped.len);
        left = -1;
        if (answer) check("scoped: no memory", SNMPSEC_OUT_OF_MEMORY, answer);
    }
    check("scoped: memory", 0, answer);
    check("new", 0, begin(&manager));
    check("discover", 0, snmpsec_manager_discover(manager, 7));
    struct text request = message_of(manager);
    answer = SNMPSEC_OUT_OF_MEMORY;
    for (long n = 0; n < 100 && answer; n++) {
        left = n;
        answer = sealed_by(manager, &row, true, &scoped);
        left = -1;
        struct text still = message_of(manager);
        if (answer) check("seal: no memory", SNMPSEC_OUT_OF_MEMORY, answer);
        check("the message is there until it is sealed", answer != 0, is_same(&request, &still));
    }
    check("seal: memory", 0, answer);
    snmpsec_manager_free(manager);
}

/* What an agent keeps of a sealed message. */
static void seen_by(snmpsec_agent *agent, const struct row *row, int32_t second, int32_t third) {
    snmpsec_info info = {0};
    uint32_t size = 0;
    check("info", 0, snmpsec_agent_info(agent, &info));
    check("its level", row->level, info.level);
    check("its PDU", SNMPSEC_GET_BULK_REQUEST, info.pdu);
    check("its request-id", REQUEST_ID, info.request_id);
    check("its non-repeaters", second, info.non_repeaters);
    check("its max-repetitions", third, info.max_repetitions);
    check("its msgID", row->message_id, info.message_id);
    check("msgMaxSize", 0, snmpsec_agent_max_size(agent, &size));
    check("its msgMaxSize", row->max_size, size);
}

/* Negative numbers and another msgMaxSize are read by an agent, and the Response has the request-id. No clock is learned by sealing. */
static void sealed_and_read(void) {
    const struct row row = {"", 0, 7, LEAST, 3, BOOTS, TIME, "ann", 0};
    snmpsec_agent *agent = NULL;
    snmpsec_manager *manager = NULL;
    snmpsec_clock clock;
    snmpsec_reply reply;
    snmpsec_info info = {0};
    struct text scoped = scoped_of(REQUEST_ID, NEGATIVE, GREATEST), back = {.len = 0};
    check("agent", 0, snmpsec_agent_new(config, config_len, engine, sizeof engine, BOOTS, NOW - TIME, &agent));
    check("new", 0, begin(&manager));
    check("seal", 0, sealed_by(manager, &row, true, &scoped));
    check("no clock is learned", SNMPSEC_NOTHING_TAKEN, snmpsec_manager_clock(manager, engine, sizeof engine, &clock));
    struct text message = message_of(manager);
    check("the agent takes it", 0, snmpsec_agent_take(agent, NOW, message.octets, message.len));
    seen_by(agent, &row, NEGATIVE, GREATEST);
    check("respond", 0, snmpsec_agent_respond(agent, NOW, 0, 0, nothing, 0, 1));
    check("the Response", 0, snmpsec_agent_message(agent, back.octets, sizeof back.octets, &back.len));
    check("the manager takes it", 0, snmpsec_manager_take(manager, NOW, back.octets, back.len));
    check("nothing is waited for", SNMPSEC_NOTHING_TAKEN, snmpsec_manager_reply(manager, &reply));
    check("info", 0, snmpsec_manager_info(manager, &info));
    check("the same request-id", REQUEST_ID, info.request_id);
    check("the same msgID", 7, info.message_id);
    snmpsec_agent_free(agent);
    snmpsec_manager_free(manager);
}

/* SEQUENCEs that are no scopedPDU, or whose data is no PDU, and how an agent refuses them. */
static void sealed_and_refused(void) {
    static const struct { const char *name; uint32_t level; int expected; struct text scoped; } junk[] = {
        {"an empty SEQUENCE, plain", 1, SNMPSEC_NOT_SCOPED, {"\x30\0", 2}},
        {"an empty SEQUENCE, signed", 2, SNMPSEC_NOT_SCOPED, {"\x30\0", 2}},
        {"an empty SEQUENCE, sealed", 3, SNMPSEC_BAD_SCOPED, {"\x30\0", 2}},
        {"a NULL for a PDU, plain", 1, SNMPSEC_BAD_PDU, {"\x30\6\4\0\4\0\5\0", 8}},
        {"a NULL for a PDU, sealed", 3, SNMPSEC_BAD_PDU, {"\x30\6\4\0\4\0\5\0", 8}},
    };
    snmpsec_agent *agent = NULL;
    snmpsec_manager *manager = NULL;
    check("agent", 0, snmpsec_agent_new(config, config_len, engine, sizeof engine, BOOTS, NOW - TIME, &agent));
    check("new", 0, begin(&manager));
    for (size_t i = 0; i < sizeof junk / sizeof *junk; i++) {
        const struct row row = {"", 0, 7, LEAST, junk[i].level, BOOTS, TIME, "ann", 0};
        check("seal", 0, sealed_by(manager, &row, true, &junk[i].scoped));
        struct text message = message_of(manager);
        check(junk[i].name, junk[i].expected, snmpsec_agent_take(agent, NOW, message.octets, message.len));
    }
    snmpsec_agent_free(agent);
    snmpsec_manager_free(manager);
}

/* A message outside of the time window is reported exactly where it says so. What is waited for stays. */
static void reported_or_not(void) {
    const struct row late = {"", 0, 7, GREATEST, 2, BOOTS + 1, TIME, "ann", 0};
    snmpsec_agent *agent = NULL;
    snmpsec_manager *manager = NULL;
    snmpsec_reply reply = {0};
    struct text scoped = scoped_of(REQUEST_ID, 0, 0), back = {.len = 0};
    check("agent", 0, snmpsec_agent_new(config, config_len, engine, sizeof engine, BOOTS, NOW - TIME, &agent));
    check("new", 0, begin(&manager));
    check("request", 0, ask(manager, "ann", SNMPSEC_NO_AUTH_NO_PRIV, 0xA0, 5, sizeof engine, 0));
    struct text request = message_of(manager);
    for (int is_reportable = 0; is_reportable < 2; is_reportable++) {
        check("seal", 0, sealed_by(manager, &late, is_reportable, &scoped));
        struct text message = message_of(manager);
        check("boots of another time", SNMPSEC_NOT_IN_WINDOW, snmpsec_agent_take(agent, NOW, message.octets, message.len));
        check("its report", is_reportable ? 0 : SNMPSEC_NOTHING_TAKEN, snmpsec_agent_message(agent, back.octets, sizeof back.octets, &back.len));
    }
    check("the agent takes the request", 0, snmpsec_agent_take(agent, NOW, request.octets, request.len));
    check("respond", 0, snmpsec_agent_respond(agent, NOW, 0, 0, nothing, 0, 1));
    check("the Response", 0, snmpsec_agent_message(agent, back.octets, sizeof back.octets, &back.len));
    check("the manager takes it", 0, snmpsec_manager_take(manager, NOW, back.octets, back.len));
    check("it is waited for still", 0, snmpsec_manager_reply(manager, &reply));
    check("the Response to the request", SNMPSEC_REPLY_RESPONSE, reply.kind);
    snmpsec_agent_free(agent);
    snmpsec_manager_free(manager);
}

/* One line of what replay printed beside the answer: `N MOMENT accepted LEVEL TAG`, or `N MOMENT refused NUMBER NAME`. */
static void as_printed(snmpsec_manager *manager, const char *line, size_t i) {
    static const char *const levels[] = {"", "noAuthNoPriv", "authNoPriv", "authPriv"};
    unsigned long long moment;
    unsigned tag;
    char verdict[16], first[16], second[32];
    snmpsec_info info;
    if (sscanf(line, "%*u %llu %15s %15s %31s", &moment, verdict, first, second) != 4) { check("a line of replay", 1, 0); return; }
    int answer = snmpsec_manager_take(manager, moment, datagrams[i], lengths[i]);
    if (strcmp(verdict, "accepted")) { check(line, atoi(first), answer); return; }
    check(line, SNMPSEC_OK, answer);
    if (snmpsec_manager_info(manager, &info) || sscanf(second, "%x", &tag) != 1) { check(line, 1, 0); return; }
    check(line, 0, strcmp(first, levels[info.level]));
    check(line, tag, info.pdu);
}

static void replayed(const char *path) {
    snmpsec_manager *manager = NULL;
    char line[256];
    FILE *file = fopen(path, "r");
    if (!file) { perror(path); exit(2); }
    check("new", 0, begin(&manager));
    for (size_t i = 0; i < datagrams_len && fgets(line, sizeof line, file); i++) as_printed(manager, line, i);
    size_t len = fread(line, 1, sizeof line - 1, file);
    line[len] = 0;
    saved_is(manager, line);
    fclose(file);
    snmpsec_manager_free(manager);
}

/* ---- refused growths of memory: each is reported, leaves what the manager holds, and the same call succeeds afterwards */

static const char keyed[] = "[[user]]\nname = 'ann'\nauth = 'md5'\nauth-password = 'maplesyrup'\npriv-password = 'maplesyrup'\n";
static const uint8_t other_engine[] = {0x80, 0, 0, 0, 1};

static snmpsec_manager *made_with_keys(void) {
    snmpsec_manager *manager = NULL;
    check("a manager", 0, snmpsec_manager_new((const uint8_t *)keyed, sizeof keyed - 1, no_clocks, NO_CLOCKS, NOW, &manager));
    return manager;
}

/* A message at authPriv with this pair. */
static struct text sealed_with(uint32_t boots, uint32_t time) {
    uint8_t scoped[128];
    size_t len = 0;
    snmpsec_manager *manager = made_with_keys();
    check("scopedPDU", 0, snmpsec_scoped_write(&(snmpsec_scoped){.pdu = SNMPSEC_GET_REQUEST, .context_engine = {other_engine, 5}}, scoped, sizeof scoped, &len));
    check("seal", 0, snmpsec_manager_seal(manager, &(snmpsec_sealing){.max_size = SNMPSEC_LARGEST, .level = SNMPSEC_AUTH_PRIV, .engine = {other_engine, 5},
                                                                      .user = {(const uint8_t *)"ann", 3}, .boots = boots, .time = time,
                                                                      .scoped = {scoped, len}}));
    struct text sealed = message_of(manager);
    snmpsec_manager_free(manager);
    return sealed;
}

static int absorbs(snmpsec_manager *manager, const struct text *text) { return snmpsec_manager_absorb(manager, text->octets, text->len, NOW); }
static int takes(snmpsec_manager *manager, const struct text *text) { return snmpsec_manager_take(manager, NOW, text->octets, text->len); }

static int requests(snmpsec_manager *manager, const struct text *text) {
    (void)text;
    snmpsec_request request = {.pdu = SNMPSEC_GET_REQUEST, .message_id = 1, .request_id = 1, .level = SNMPSEC_AUTH_PRIV, .engine = {other_engine, 5},
                               .user = {(const uint8_t *)"ann", 3}, .context_engine = {other_engine, 5}};
    return snmpsec_manager_request(manager, NOW, &request);
}

static int discovers(snmpsec_manager *manager, const struct text *text) {
    (void)text;
    return snmpsec_manager_discover(manager, 1);
}

/* Refuses each growth of a call in turn. In the end it answers `wanted`, and the manager holds a pair of the engine, or none. */
static void refused_in_turn(const char *name, int (*call)(snmpsec_manager *, const struct text *), const struct text *text, int wanted, int held) {
    snmpsec_clock clock;
    int is_refused = 1;
    for (long n = 0; is_refused; n++) {
        snmpsec_manager *manager = made_with_keys();
        left = n;
        int answer = call(manager, text);
        left = -1;
        is_refused = answer == SNMPSEC_OUT_OF_MEMORY;
        if (is_refused) {
            check(name, SNMPSEC_NOTHING_TAKEN, snmpsec_manager_clock(manager, other_engine, 5, &clock));
            struct text saved = saved_of(manager);
            check(name, NO_CLOCKS, (long long)saved.len);
            answer = call(manager, text);
        }
        check(name, wanted, answer);
        check(name, held ? 0 : SNMPSEC_NOTHING_TAKEN, snmpsec_manager_clock(manager, other_engine, 5, &clock));
        snmpsec_manager_free(manager);
    }
}

static void refused_growths(void) {
    static const char saved[] = "snmp-clocks 2\n8000000001 1 5 7\n8000000002 1 5 7\n";
    struct text clocks = {.len = sizeof saved - 1}, in_time = sealed_with(1, 5), last = sealed_with(2147483647, 0), wrong = in_time;
    memcpy(clocks.octets, saved, clocks.len);
    wrong.octets[wrong.len - 1] ^= 1;
    refused_in_turn("absorb without memory", absorbs, &clocks, 0, 1);
    refused_in_turn("take without memory", takes, &in_time, 0, 1);
    refused_in_turn("a refused growth is reported before the window", takes, &last, SNMPSEC_NOT_IN_WINDOW, 1);
    refused_in_turn("a refused growth is not told of a wrong code", takes, &wrong, SNMPSEC_WRONG_DIGEST, 0);
    refused_in_turn("request without memory", requests, NULL, 0, 0);
    refused_in_turn("discover without memory", discovers, NULL, 0, 0);
}

int main(int argc, char **argv) {
    read_capture(argc, argv);
    if (argc != 4) return 2;
    no_manager();
    nulls();
    arguments();
    request_and_saved();
    absorbed();
    no_scoped();
    seal_arguments();
    refused_memory();
    refused_growths();
    sealed_and_read();
    sealed_and_refused();
    reported_or_not();
    replayed(argv[3]);
    return checks_told();
}
