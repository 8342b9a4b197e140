/* The calls on a receiver of notifications: listener_calls CONFIG CAPTURED-LOG
 *
 * Null pointers, settings out of range, Traps and Informs that are reported, and those that aren't, and refused memory. The senders are an agent and a
 * manager of the library. Not proved. */
#define _GNU_SOURCE
#include "checks.h"
#include <string.h>

static const char users[] = "[[user]]\nname = 'ann'\nauth = 'sha256'\nauth-password = 'maplesyrup'\npriv-password = 'another passphrase'\n"
    "[[user]]\nname = 'eve'\n";
static const uint8_t own[] = {0x80, 0, 0x1f, 0x88, 4, 'o', 'w', 'n'}, far_off[] = {0x80, 0, 0x1f, 0x88, 4, 'f', 'a', 'r'};
static const uint8_t binding[] = "\x30\x0d\x06\x08\x2b\x06\x01\x02\x01\x01\x03\x00\x43\x01\x05";
static const snmpsec_octets sources[] = {{(const uint8_t *)"192.0.2.1", 9}, {(const uint8_t *)"192.0.2.2", 9}};
static snmpsec_octets slice(const void *at, size_t len) { return (snmpsec_octets){at, len}; }

static snmpsec_listener_settings settings(void) {
    return (snmpsec_listener_settings){.boots = 1, .started = NOW, .most = 3, .engine = slice(own, sizeof own),
                                       .clocks = slice(SNMPSEC_NO_CLOCKS, strlen(SNMPSEC_NO_CLOCKS))};
}

static int made(snmpsec_listener_settings of, snmpsec_listener **listener) {
    return snmpsec_listener_new((const uint8_t *)users, sizeof users - 1, &of, sources, 2, listener);
}

static void settings_out_of_range(void) {
    static const char deep[] = "a = [[[[[[[[[[[[[[[[[[[[[[]]]]]]]]]]]]]]]]]]]]]]";
    static const snmpsec_octets none[] = {{NULL, 0}};
    snmpsec_listener *listener = (snmpsec_listener *)&none;
    snmpsec_listener_settings of = settings();
    of.least_level = 4;
    check("no such level", SNMPSEC_BAD_ARGUMENT, made(of, &listener));
    check("makes none", 1, listener == NULL);
    of = settings();
    of.boots = 2147483648u;
    check("too many boots", SNMPSEC_BAD_ARGUMENT, made(of, &listener));
    of = settings();
    of.engine = slice("\0\0\0\0\0", 5);
    check("an engine ID of zeros", SNMPSEC_BAD_ARGUMENT, made(of, &listener));
    of = settings();
    of.clocks = slice("clocks", 6);
    check("no clocks", SNMPSEC_BAD_CLOCKS, made(of, &listener));
    of = settings();
    check("no configuration", SNMPSEC_BAD_CONFIGURATION, snmpsec_listener_new((const uint8_t *)"x", 1, &of, NULL, 0, &listener));
    check("nested too deep", SNMPSEC_BAD_CONFIGURATION, snmpsec_listener_new((const uint8_t *)deep, sizeof deep - 1, &of, NULL, 0, &listener));
    check("a source of nothing", SNMPSEC_BAD_ARGUMENT, snmpsec_listener_new((const uint8_t *)users, sizeof users - 1, &of, none, 1, &listener));
    check("sources of nothing", SNMPSEC_BAD_ARGUMENT, snmpsec_listener_new((const uint8_t *)users, sizeof users - 1, &of, NULL, 1, &listener));
    check("no settings", SNMPSEC_BAD_ARGUMENT, snmpsec_listener_new((const uint8_t *)users, sizeof users - 1, NULL, NULL, 0, &listener));
    check("no place", SNMPSEC_BAD_ARGUMENT, made(of, NULL));
}

static void nothing_given(void) {
    snmpsec_listener_event event;
    snmpsec_info info;
    snmpsec_clock clock;
    uint64_t count;
    size_t len;
    int why;
    snmpsec_listener_free(NULL);
    check("no receiver: take", SNMPSEC_BAD_ARGUMENT, snmpsec_listener_take(NULL, 0, NULL, 0, NULL, 0, 0, &event, &why));
    check("no receiver: info", SNMPSEC_BAD_ARGUMENT, snmpsec_listener_info(NULL, &info));
    check("no receiver: part", SNMPSEC_BAD_ARGUMENT, snmpsec_listener_part(NULL, SNMPSEC_USER, NULL, 0, &len));
    check("no receiver: message", SNMPSEC_BAD_ARGUMENT, snmpsec_listener_message(NULL, NULL, 0, &len));
    check("no receiver: count", SNMPSEC_BAD_ARGUMENT, snmpsec_listener_count(NULL, SNMPSEC_LISTENER_COPY, &count));
    check("no receiver: save", SNMPSEC_BAD_ARGUMENT, snmpsec_listener_save(NULL, NULL, 0, &len));
    check("no receiver: clock", SNMPSEC_BAD_ARGUMENT, snmpsec_listener_clock(NULL, own, sizeof own, &clock));
}

static struct text trap(const char *user, snmpsec_level level, uint32_t boots, uint32_t id) {
    struct text text = {.len = 0};
    snmpsec_agent *agent;
    snmpsec_notice notice = {.message_id = id, .request_id = id, .level = level, .user = slice(user, strlen(user)),
                             .context_engine = slice(far_off, sizeof far_off), .list = slice(binding, sizeof binding - 1), .salt = id};
    check("a sender", 0, snmpsec_agent_new((const uint8_t *)users, sizeof users - 1, far_off, sizeof far_off, boots, NOW - 100, &agent));
    check("its trap", 0, snmpsec_agent_notify(agent, NOW, &notice));
    check("is there", 0, snmpsec_agent_message(agent, text.octets, sizeof text.octets, &text.len));
    snmpsec_agent_free(agent);
    return text;
}

static snmpsec_manager *sender_of_informs(void) {
    static const char clocks[] = "snmp-clocks 2\n80001f88046f776e 1 0 1000\n";
    snmpsec_manager *manager;
    check("a sender of Informs", 0, snmpsec_manager_new((const uint8_t *)users, sizeof users - 1, (const uint8_t *)clocks, sizeof clocks - 1, NOW, &manager));
    return manager;
}

static struct text inform(snmpsec_manager *manager, uint32_t id) {
    snmpsec_request request = {.pdu = SNMPSEC_INFORM_REQUEST, .message_id = id, .request_id = id, .level = SNMPSEC_AUTH_PRIV,
                               .engine = slice(own, sizeof own), .user = slice("ann", 3), .context_engine = slice(own, sizeof own),
                               .list = slice(binding, sizeof binding - 1), .salt = id};
    check("an Inform", 0, snmpsec_manager_request(manager, NOW, &request));
    return message_of(manager);
}

/* What becomes of a datagram from this address, and whether there is a message. */
static void becomes(const char *name, snmpsec_listener *listener, const char *from, const struct text *of, int wanted, int answer) {
    static uint64_t salt;
    snmpsec_listener_event event = 0;
    uint8_t out[MOST_OCTETS];
    size_t len = 0;
    int why = -1;
    check(name, 0, snmpsec_listener_take(listener, NOW, (const uint8_t *)from, strlen(from), fenced(of->octets, of->len), of->len, ++salt, &event, &why));
    check(name, wanted, event);
    check(name, answer, snmpsec_listener_message(listener, out, sizeof out, &len));
}

static uint64_t count_of(snmpsec_listener *listener, uint32_t reason) {
    uint64_t count = 0;
    check("a count", 0, snmpsec_listener_count(listener, reason, &count));
    return count;
}

static void traps(void) {
    snmpsec_listener *listener;
    snmpsec_clock clock;
    snmpsec_info info;
    uint64_t count = 7;
    uint8_t user[3];
    size_t len = 0;
    check("new", 0, made(settings(), &listener));
    struct text first = trap("ann", SNMPSEC_AUTH_PRIV, 5, 1), low = trap("ann", SNMPSEC_AUTH_NO_PRIV, 5, 2), eve = trap("eve", SNMPSEC_NO_AUTH_NO_PRIV, 5, 3);
    becomes("a trap", listener, "", &first, SNMPSEC_LISTENER_TRAP, SNMPSEC_NOTHING_TAKEN);
    check("its numbers", 0, snmpsec_listener_info(listener, &info));
    check("its level", SNMPSEC_AUTH_PRIV, info.level);
    check("too short for its user", SNMPSEC_SHORT_BUFFER, snmpsec_listener_part(listener, SNMPSEC_USER, user, 2, &len));
    check("its user", 0, snmpsec_listener_part(listener, SNMPSEC_USER, user, len, &len));
    check("is ann", 0, memcmp(user, "ann", 3));
    check("no such part", SNMPSEC_BAD_ARGUMENT, snmpsec_listener_part(listener, (snmpsec_part)5, user, 3, &len));
    becomes("a copy", listener, "", &first, SNMPSEC_LISTENER_COPY, SNMPSEC_NOTHING_TAKEN);
    check("nothing is kept", SNMPSEC_NOTHING_TAKEN, snmpsec_listener_info(listener, &info));
    becomes("a lower level", listener, "192.0.2.1", &low, SNMPSEC_LISTENER_LOW_LEVEL, SNMPSEC_NOTHING_TAKEN);
    becomes("another address", listener, "192.0.2.3", &eve, SNMPSEC_LISTENER_OTHER_ADDRESS, SNMPSEC_NOTHING_TAKEN);
    becomes("its own address", listener, "192.0.2.2", &eve, SNMPSEC_LISTENER_TRAP, SNMPSEC_NOTHING_TAKEN);
    first.octets[first.len - 1] ^= 1;
    becomes("a forged one", listener, "", &first, SNMPSEC_LISTENER_REFUSED, SNMPSEC_NOTHING_TAKEN);
    check("counted", 1, (long long)count_of(listener, SNMPSEC_WRONG_DIGEST));
    check("a copy is counted", 1, (long long)count_of(listener, SNMPSEC_LISTENER_COPY));
    check("no count", SNMPSEC_BAD_ARGUMENT, snmpsec_listener_count(listener, 0, &count));
    check("no count", SNMPSEC_BAD_ARGUMENT, snmpsec_listener_count(listener, 25, &count));
    check("and none is written", 7, (long long)count);
    check("a clock", 0, snmpsec_listener_clock(listener, far_off, sizeof far_off, &clock));
    check("its boots", 5, clock.boots);
    check("no clock", SNMPSEC_NOTHING_TAKEN, snmpsec_listener_clock(listener, own, sizeof own, &clock));
    check("no engine ID", SNMPSEC_BAD_ARGUMENT, snmpsec_listener_clock(listener, own, 4, &clock));
    struct text third = trap("ann", SNMPSEC_AUTH_PRIV, 5, 4), fourth = trap("ann", SNMPSEC_AUTH_PRIV, 5, 5);
    becomes("a third", listener, "", &third, SNMPSEC_LISTENER_TRAP, SNMPSEC_NOTHING_TAKEN);
    becomes("one too many", listener, "", &fourth, SNMPSEC_LISTENER_NO_ROOM, SNMPSEC_NOTHING_TAKEN);
    snmpsec_listener_free(listener);
}

static void informs(void) {
    snmpsec_listener *listener;
    snmpsec_reply reply;
    struct text answer = {.len = 0}, saved = {.len = 0};
    size_t wanted = 0;
    check("new", 0, made(settings(), &listener));
    snmpsec_manager *sender = sender_of_informs();
    struct text text = inform(sender, 6);
    becomes("an Inform", listener, "", &text, SNMPSEC_LISTENER_INFORM, 0);
    becomes("its copy", listener, "", &text, SNMPSEC_LISTENER_COPY, 0);
    check("its acknowledgement", 0, snmpsec_listener_message(listener, answer.octets, sizeof answer.octets, &answer.len));
    check("is accepted", 0, snmpsec_manager_take(sender, NOW, answer.octets, answer.len));
    check("is for its sender", 0, snmpsec_manager_reply(sender, &reply));
    check("is its Response", SNMPSEC_REPLY_RESPONSE, reply.kind);
    struct text first = trap("ann", SNMPSEC_AUTH_PRIV, 5, 7), old = trap("ann", SNMPSEC_AUTH_PRIV, 4, 8);
    becomes("a trap", listener, "", &first, SNMPSEC_LISTENER_TRAP, SNMPSEC_NOTHING_TAKEN);
    check("too short for the clocks", SNMPSEC_SHORT_BUFFER, snmpsec_listener_save(listener, NULL, 0, &wanted));
    check("the clocks", 0, snmpsec_listener_save(listener, saved.octets, sizeof saved.octets, &saved.len));
    check("as long as was said", (long long)wanted, (long long)saved.len);
    snmpsec_listener_free(listener);
    snmpsec_listener_settings of = settings();
    of.clocks = slice(saved.octets, saved.len);
    check("after a restart", 0, made(of, &listener));
    becomes("a trap of before", listener, "", &old, SNMPSEC_LISTENER_REFUSED, SNMPSEC_NOTHING_TAKEN);
    check("is counted", 1, (long long)count_of(listener, SNMPSEC_NOT_IN_WINDOW));
    snmpsec_listener_free(listener);
    snmpsec_manager_free(sender);
}

/* Each growth is refused in turn: then nothing was taken, and all is as before. */
static void refused_growths(void) {
    snmpsec_listener *listener = NULL;
    snmpsec_listener_event event = 0;
    snmpsec_manager *sender = sender_of_informs();
    struct text text = inform(sender, 9), first = trap("ann", SNMPSEC_AUTH_PRIV, 5, 10);
    int why, answer;
    long granted = 0;
    for (answer = SNMPSEC_OUT_OF_MEMORY; answer == SNMPSEC_OUT_OF_MEMORY; granted++) {
        left = granted;
        answer = made(settings(), &listener);
        left = -1;
    }
    check("made at last", 0, answer);
    const struct text *both[] = {&text, &first};
    for (int i = 0; i < 2; i++) {
        granted = 0;
        for (answer = SNMPSEC_OUT_OF_MEMORY; answer == SNMPSEC_OUT_OF_MEMORY; granted++) {
            left = granted;
            answer = snmpsec_listener_take(listener, NOW, NULL, 0, both[i]->octets, both[i]->len, (uint64_t)granted + 100, &event, &why);
            left = -1;
        }
        check("taken at last", 0, answer);
        check("memory was refused before", 1, granted > 1);
        check("and it is reported", i ? SNMPSEC_LISTENER_TRAP : SNMPSEC_LISTENER_INFORM, event);
    }
    snmpsec_listener_free(listener);
    snmpsec_manager_free(sender);
}

int main(int argc, char **argv) {
    read_capture(argc, argv);
    settings_out_of_range();
    nothing_given();
    traps();
    informs();
    refused_growths();
    return checks_told();
}
