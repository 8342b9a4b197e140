/* Many requests of a manager at once, which an agent of the library answers in any order: many CONFIG CAPTURED-LOG. Not proved. */
#include "checks.h"
#include <stdio.h>
#include <string.h>

enum { AGENT_BOOTS = 5, STARTED = NOW - 1000, FIRST = 2147483640, SEVERAL = 20, MOST_WAITING = 65536 };
static const uint32_t name[] = {1, 3, 6, 1, 2, 1, 1, 1, 0};
static const uint64_t unwritten = 123456789;

static snmpsec_agent *agent;
static snmpsec_manager *manager;
static uint8_t list[64];
static size_t list_len;

static void begin(void) {
    check("an agent", 0, snmpsec_agent_new(config, config_len, engine, sizeof engine, AGENT_BOOTS, STARTED, &agent));
    check("a manager", 0, snmpsec_manager_new(config, config_len, (const uint8_t *)SNMPSEC_NO_CLOCKS, strlen(SNMPSEC_NO_CLOCKS), NOW, &manager));
}

static void end(void) {
    snmpsec_agent_free(agent);
    snmpsec_manager_free(manager);
}

static int ask_for(const char *user, snmpsec_level level, uint32_t request_id, uint64_t *token) {
    snmpsec_request request = {.pdu = SNMPSEC_GET_REQUEST, .message_id = FIRST, .request_id = request_id, .level = level,
                               .engine = {engine, sizeof engine}, .user = {(const uint8_t *)user, strlen(user)},
                               .context_engine = {engine, sizeof engine}, .list = {list, list_len}, .salt = request_id};
    return snmpsec_manager_ask(manager, NOW, &request, token);
}

static uint64_t asked(snmpsec_level level, uint32_t request_id) {
    uint64_t token = unwritten;
    check("ask", 0, ask_for("ann", level, request_id, &token));
    return token;
}

static int to_agent(const struct text *request) { return snmpsec_agent_take(agent, NOW, fenced(request->octets, request->len), request->len); }

static struct text from_agent(void) {
    struct text message = {.len = 0};
    check("what is sent back", 0, snmpsec_agent_message(agent, message.octets, sizeof message.octets, &message.len));
    return message;
}

static struct text response_to(const struct text *request) {
    check("the agent accepts it", 0, to_agent(request));
    check("respond", 0, snmpsec_agent_respond(agent, NOW, 0, 0, (const uint8_t *)"", 0, 77));
    return from_agent();
}

static void takes(const struct text *message) {
    check("the manager accepts it", 0, snmpsec_manager_take(manager, NOW, fenced(message->octets, message->len), message->len));
}

static void answers(const char *what, snmpsec_reply_kind kind, int counter, bool is_authentic, uint64_t token) {
    snmpsec_answered found = {.counter = -1};
    check(what, 0, snmpsec_manager_answered(manager, &found));
    check(what, kind, found.kind);
    check(what, counter, found.counter);
    check(what, is_authentic, found.is_authentic);
    check(what, (long long)token, (long long)found.token);
}

static void answers_none(const char *what) { answers(what, SNMPSEC_REPLY_OTHER, 0, false, 0); }

/* The device is discovered, asked for its time by an unsealed request, and asked (RFC 3414, section 4). */
static void unknown_device(void) {
    uint64_t discovery = unwritten, token;
    begin();
    check("discover", 0, snmpsec_manager_ask_discovery(manager, FIRST, &discovery));
    check("the first token", FIRST, (long long)discovery);
    struct text sent = message_of(manager);
    check("the agent reports itself", SNMPSEC_UNKNOWN_ENGINE, to_agent(&sent));
    struct text report = from_agent();
    takes(&report);
    answers("the discovery", SNMPSEC_REPLY_REPORT, SNMPSEC_UNKNOWN_ENGINES, false, discovery);
    answers("a Report ends nothing", SNMPSEC_REPLY_REPORT, SNMPSEC_UNKNOWN_ENGINES, false, discovery);
    check("give up", 0, snmpsec_manager_give_up(manager, discovery));
    check("once", SNMPSEC_NOTHING_TAKEN, snmpsec_manager_give_up(manager, discovery));
    answers_none("what was given up");
    token = asked(SNMPSEC_AUTH_NO_PRIV, 2);
    sent = message_of(manager);
    check("outside of the window", SNMPSEC_NOT_IN_WINDOW, to_agent(&sent));
    report = from_agent();
    takes(&report);
    answers("the time", SNMPSEC_REPLY_REPORT, SNMPSEC_NOT_IN_WINDOWS, true, token);
    check("give up the first", 0, snmpsec_manager_give_up(manager, token));
    token = asked(SNMPSEC_AUTH_PRIV, 3);
    sent = message_of(manager);
    struct text response = response_to(&sent);
    takes(&response);
    answers("the Response", SNMPSEC_REPLY_RESPONSE, 0, false, token);
    answers_none("the Response once more");
    end();
}

static snmpsec_step heard(snmpsec_device *device, snmpsec_reply_kind kind, int counter, bool is_authentic) {
    snmpsec_answered answered = {.kind = kind, .counter = counter, .is_authentic = is_authentic};
    snmpsec_step step = SNMPSEC_DENIED;
    check("hear", 0, snmpsec_device_hear(device, &answered, true, &step));
    return step;
}

/* What is to be sent to a device that is unknown. */
static void steps(void) {
    snmpsec_device device;
    snmpsec_step step = SNMPSEC_DENIED;
    snmpsec_answered found = {.kind = SNMPSEC_REPLY_REPORT, .counter = SNMPSEC_UNKNOWN_ENGINES};
    check("begin", 0, snmpsec_device_begin(&device, SNMPSEC_AUTH_PRIV, SNMPSEC_KNOWN_NOTHING, &step));
    check("discover", SNMPSEC_SEND_DISCOVERY, step);
    check("a Report of another counter", SNMPSEC_WAIT, heard(&device, SNMPSEC_REPLY_REPORT, SNMPSEC_UNKNOWN_USERS, false));
    check("is the hint", SNMPSEC_UNKNOWN_USERS, device.counter);
    check("the engine", 0, snmpsec_device_hear(&device, &found, false, &step));
    check("its time", SNMPSEC_SEND_TIME_REQUEST, step);
    check("anybody's time", SNMPSEC_WAIT, heard(&device, SNMPSEC_REPLY_REPORT, SNMPSEC_NOT_IN_WINDOWS, false));
    check("the time", SNMPSEC_SEND_REQUEST, heard(&device, SNMPSEC_REPLY_REPORT, SNMPSEC_NOT_IN_WINDOWS, true));
    check("none", SNMPSEC_WAIT, heard(&device, SNMPSEC_REPLY_OTHER, 0, false));
    for (int counter = 0; counter < 10; counter++)
        check("anybody's Report ends nothing", SNMPSEC_WAIT, heard(&device, SNMPSEC_REPLY_REPORT, counter, false));
    check("again", SNMPSEC_SEND_REQUEST, heard(&device, SNMPSEC_REPLY_REPORT, SNMPSEC_NOT_IN_WINDOWS, true));
    check("at its level", SNMPSEC_AUTH_PRIV, device.level);
    check("once", SNMPSEC_DENIED, heard(&device, SNMPSEC_REPLY_REPORT, SNMPSEC_NOT_IN_WINDOWS, true));
    check("for that", SNMPSEC_NOT_IN_WINDOWS, device.counter);
    check("with authentication", 1, device.is_authentic);
    check("it is over", SNMPSEC_WAIT, heard(&device, SNMPSEC_REPLY_RESPONSE, 0, false));
    check("begin", 0, snmpsec_device_begin(&device, SNMPSEC_NO_AUTH_NO_PRIV, SNMPSEC_KNOWN_ENGINE, &step));
    check("the request", SNMPSEC_SEND_REQUEST, step);
    check("answered", SNMPSEC_ANSWERED, heard(&device, SNMPSEC_REPLY_RESPONSE, 0, false));
    check("no such level", SNMPSEC_BAD_ARGUMENT, snmpsec_device_begin(&device, (snmpsec_level)4, SNMPSEC_KNOWN_ENGINE, &step));
    check("no such knowledge", SNMPSEC_BAD_ARGUMENT, snmpsec_device_begin(&device, SNMPSEC_AUTH_PRIV, (snmpsec_known)3, &step));
    check("no device", SNMPSEC_BAD_ARGUMENT, snmpsec_device_begin(NULL, SNMPSEC_AUTH_PRIV, SNMPSEC_KNOWN_CLOCK, &step));
    check("no answer", SNMPSEC_BAD_ARGUMENT, snmpsec_device_hear(&device, NULL, true, &step));
}

/* Responses in reverse order, each twice. The msgIDs begin again at 0. */
static void several(void) {
    static struct text responses[SEVERAL];
    uint64_t tokens[SEVERAL];
    begin();
    for (uint32_t i = 0; i < SEVERAL; i++) {
        tokens[i] = asked(SNMPSEC_NO_AUTH_NO_PRIV, 1000 + i);
        struct text sent = message_of(manager);
        responses[i] = response_to(&sent);
        snmpsec_info info = {0};
        check("info", 0, snmpsec_agent_info(agent, &info));
        check("the msgID of its token", (long long)((uint64_t)FIRST + i) % 2147483648, info.message_id);
        check("tokens rise", (long long)((uint64_t)FIRST + i), (long long)tokens[i]);
    }
    check("give up one", 0, snmpsec_manager_give_up(manager, tokens[3]));
    for (uint32_t i = SEVERAL; i-- > 0;) {
        takes(&responses[i]);
        if (i == 3) { answers_none("what was given up"); continue; }
        answers("its own", SNMPSEC_REPLY_RESPONSE, 0, false, tokens[i]);
        takes(&responses[i]);
        answers_none("a copy");
    }
    end();
}

/* A Response with the msgID of one request and the request-id of another. */
static void another_request(void) {
    begin();
    uint64_t first = asked(SNMPSEC_NO_AUTH_NO_PRIV, 1);
    struct text sent = message_of(manager);
    struct text response = response_to(&sent);
    check("give up", 0, snmpsec_manager_give_up(manager, first));
    snmpsec_manager_free(manager);
    check("a manager", 0, snmpsec_manager_new(config, config_len, (const uint8_t *)SNMPSEC_NO_CLOCKS, strlen(SNMPSEC_NO_CLOCKS), NOW, &manager));
    check("the same msgID", (long long)first, (long long)asked(SNMPSEC_NO_AUTH_NO_PRIV, 2));
    takes(&response);
    answers_none("the Response of before");
    end();
}

/* The request that was written last is apart from those that were asked. */
static void beside_the_last(void) {
    snmpsec_reply reply;
    begin();
    check("discover", 0, snmpsec_manager_discover(manager, 9));
    struct text sent = message_of(manager);
    uint64_t token = asked(SNMPSEC_NO_AUTH_NO_PRIV, 1);
    check("the agent reports itself", SNMPSEC_UNKNOWN_ENGINE, to_agent(&sent));
    struct text report = from_agent();
    takes(&report);
    answers_none("none that was asked");
    check("reply", 0, snmpsec_manager_reply(manager, &reply));
    check("it is to the last", SNMPSEC_REPLY_REPORT, reply.kind);
    check("the other waits", 0, snmpsec_manager_give_up(manager, token));
    end();
}

static void refused(void) {
    uint64_t token = unwritten;
    snmpsec_answered found;
    begin();
    check("nothing is kept", SNMPSEC_NOTHING_TAKEN, snmpsec_manager_answered(manager, &found));
    check("no user", SNMPSEC_UNKNOWN_USER, ask_for("nobody", SNMPSEC_AUTH_PRIV, 1, &token));
    check("a request-id out of range", SNMPSEC_BAD_ARGUMENT, ask_for("ann", SNMPSEC_AUTH_PRIV, 2147483648u, &token));
    check("a msgID out of range", SNMPSEC_BAD_ARGUMENT, snmpsec_manager_ask_discovery(manager, 2147483648u, &token));
    check("no pointers", SNMPSEC_BAD_ARGUMENT, snmpsec_manager_ask(manager, NOW, NULL, &token));
    check("no manager", SNMPSEC_BAD_ARGUMENT, snmpsec_manager_ask_discovery(NULL, 1, &token));
    check("nowhere to write", SNMPSEC_BAD_ARGUMENT, snmpsec_manager_answered(manager, NULL));
    check("no token", SNMPSEC_NOTHING_TAKEN, snmpsec_manager_give_up(manager, 0));
    int answer = SNMPSEC_OUT_OF_MEMORY;
    long granted = 0;
    for (; answer == SNMPSEC_OUT_OF_MEMORY && granted < 100; granted++) {
        check("unwritten", (long long)unwritten, (long long)token);
        left = granted;
        answer = ask_for("ann", SNMPSEC_AUTH_NO_PRIV, 1, &token);
    }
    left = -1;
    check("asked at last", 0, answer);
    check("some growths were refused", 1, granted > 1);
    check("the first token all the same", FIRST, (long long)token);
    end();
}

static void as_many_as_may(void) {
    uint64_t token = 0, last = 0;
    int answer = 0;
    begin();
    for (int i = 0; i < MOST_WAITING && !answer; i++) answer = snmpsec_manager_ask_discovery(manager, FIRST, &token);
    check("each is asked", 0, answer);
    check("one more", SNMPSEC_TOO_MANY_REQUESTS, snmpsec_manager_ask_discovery(manager, FIRST, &last));
    check("one more for a user", SNMPSEC_TOO_MANY_REQUESTS, ask_for("ann", SNMPSEC_AUTH_NO_PRIV, 1, &last));
    check("give up", 0, snmpsec_manager_give_up(manager, FIRST + 5));
    check("there is room", 0, snmpsec_manager_ask_discovery(manager, FIRST, &last));
    check("for the next token", (long long)token + 1, (long long)last);
    end();
}

int main(int argc, char **argv) {
    read_capture(argc, argv);
    check("a binding", 0, snmpsec_binding_write(name, sizeof name / sizeof *name, 0x05, (const uint8_t *)"", 0, list, sizeof list, &list_len));
    steps();
    unknown_device();
    several();
    another_request();
    beside_the_last();
    refused();
    as_many_as_may();
    return checks_told();
}
