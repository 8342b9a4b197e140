/* How much stack each call uses, and that it is less than what is wiped behind it: stack CONFIG
 *
 * Each call is made on a stack of its own that was painted before, and what is no paint after it is counted. To be linked with plain.c, which
 * wipes nothing. The status is 1 where a call uses more than seven eighths of what is wiped. Not proved. */
#define _GNU_SOURCE
#include "inside.h"
#include "snmpsec.h"
#include <stdio.h>
#include <stdlib.h>
#include <string.h>
#include <ucontext.h>

enum { SIZE = 1 << 20, NOW = 1000 };
static uint8_t *stack;
static ucontext_t back, there;
static void (*call)(void);
static const uint8_t engine[] = {0x80, 0, 0x1f, 0x88, 4, 'x'};
static uint8_t config[1 << 16], message[65536], list[60000];
static size_t config_len, len, list_len;
static snmpsec_agent *agent;
static snmpsec_manager *manager;
static int answer, too_deep;

static void measure(const char *what, void (*of)(void), size_t wiped) {
    memset(stack, 0xa5, SIZE);
    call = of;
    getcontext(&there);
    there.uc_stack.ss_sp = stack;
    there.uc_stack.ss_size = SIZE;
    there.uc_link = &back;
    makecontext(&there, call, 0);
    swapcontext(&back, &there);
    size_t clean = 0;
    while (clean < SIZE && stack[clean] == 0xa5) clean++;
    size_t used = SIZE - clean;
    printf("%-14s answer %d, %6zu octets of stack, and %zu are wiped\n", what, answer, used, wiped);
    if (used > wiped / 8 * 7) { printf("FAILED %s uses too much stack\n", what); too_deep = 1; }
}

/* Texts in which the parser goes down: so many parts of keys, tables and arrays in one another, after a header of so many parts. */
static char deep[1 << 14];
static void config_fault(void) {
    snmpsec_config_place place;
    uint8_t told[4096];
    size_t told_len = 0;
    answer = snmpsec_config_fault((const uint8_t *)deep, strlen(deep), &place, told, sizeof told, &told_len);
}

static void repeat(const char *text, int times) { for (int i = 0; i < times; i++) strcat(deep, text); }

static void nest(int header, const char *begin, const char *each, int times, const char *end, const char *each_end) {
    deep[0] = 0;
    if (header) { repeat("[", 1); repeat("h.", header); repeat("h]\n", 1); }
    repeat(begin, 1);
    repeat(each, times);
    repeat(end, 1);
    repeat(each_end, times);
    repeat("\n", 1);
    measure("config_fault", config_fault, SNMPSEC_DEEP_STACK);
}

static void nested_configurations(void) {
    for (int times = 5; times <= 320; times *= 2)
        for (int header = 0; header <= 12; header += 6) {
            nest(header, "", "a.", times, "a = 1", "");
            nest(header, "a = ", "[", times, "1", "]");
            nest(header, "a = ", "{ a = ", times, "1", "}");
            nest(header, "a = ", "[\n", times, "1", "]");
            nest(header, "a = { ", "b.", times, "b = 1 }", "");
            nest(header, "a = ", "{ b.b.b.b.b.b = ", times, "1", "}");
        }
}

static uint32_t id;
static snmpsec_level level = SNMPSEC_AUTH_PRIV;
static const char *user = "bob";
static void agent_new(void) { answer = snmpsec_agent_new(config, config_len, engine, sizeof engine, 5, NOW - 100, &agent); }
static void reconfigure(void) { answer = snmpsec_agent_reconfigure(agent, config, config_len); }
static void manager_new(void) { answer = snmpsec_manager_new(config, config_len, (const uint8_t *)SNMPSEC_NO_CLOCKS, strlen(SNMPSEC_NO_CLOCKS), NOW, &manager); }
static uint64_t token;
static snmpsec_request asked(void) {
    id++;
    return (snmpsec_request){.pdu = SNMPSEC_GET_REQUEST, .message_id = id, .request_id = id, .level = level, .engine = {engine, sizeof engine},
                             .user = {(const uint8_t *)user, 3}, .context_engine = {engine, sizeof engine}, .list = {list, list_len}, .salt = id};
}
static void request(void) {
    snmpsec_request r = asked();
    answer = snmpsec_manager_request(manager, NOW, &r);
}
static void ask(void) {
    snmpsec_request r = asked();
    answer = snmpsec_manager_ask(manager, NOW, &r, &token);
}
static uint8_t scoped[65536];
static size_t scoped_len;
static void scoped_write(void) {
    snmpsec_scoped said = {.pdu = SNMPSEC_GET_REQUEST, .request_id = -1, .context_engine = {engine, sizeof engine}, .list = {list, list_len}};
    answer = snmpsec_scoped_write(&said, scoped, sizeof scoped, &scoped_len);
}
static void manager_seal(void) {
    id++;
    snmpsec_sealing sealing = {.message_id = id, .max_size = 484, .level = level, .engine = {engine, sizeof engine}, .boots = 5, .time = 100,
                               .user = {(const uint8_t *)user, 3}, .scoped = {scoped, scoped_len}, .salt = id};
    answer = snmpsec_manager_seal(manager, &sealing);
}
static void ask_discovery(void) { answer = snmpsec_manager_ask_discovery(manager, id, &token); }
static void answered(void) {
    snmpsec_answered found;
    answer = snmpsec_manager_answered(manager, &found);
}
static void give_up(void) { answer = snmpsec_manager_give_up(manager, token); }
static void agent_take(void) { answer = snmpsec_agent_take(agent, NOW, message, len); }
static void respond(void) { answer = snmpsec_agent_respond(agent, NOW, 0, 0, list, list_len, id); }
static snmpsec_kept *kept;
static void agent_keep(void) { answer = snmpsec_agent_keep(agent, &kept); }
static void fits(void) {
    size_t count;
    answer = snmpsec_agent_fits(agent, NOW, 0, 0, list, list_len, 484, &count);
}
static void kept_respond(void) { answer = snmpsec_kept_respond(kept, agent, NOW, 0, 0, list, list_len, id); }
static void kept_free(void) { snmpsec_kept_free(kept); answer = 0; }
static void manager_take(void) { answer = snmpsec_manager_take(manager, NOW, message, len); }
static void agent_free(void) { snmpsec_agent_free(agent); answer = 0; }
static void manager_free(void) { snmpsec_manager_free(manager); answer = 0; }
static uint8_t key[32];
static size_t key_len;
static void password_key(void) { answer = snmpsec_password_key(SNMPSEC_SHA256, (const uint8_t *)"maplesyrup", 10, key, sizeof key, &key_len); }
static void localised(void) { answer = snmpsec_localise(SNMPSEC_SHA256, key, key_len, engine, sizeof engine, key, sizeof key, &key_len); }
static void macced(void) { answer = snmpsec_mac(SNMPSEC_SHA256, key, key_len, list, 100, 24, list, 100, message, 64, &len); }
static void sealed(void) { answer = snmpsec_seal(key, 16, 1, 2, key, 8, message, 1000); }


/* ---- a gateway, whose device is asked and answers */

#define USERS "[[user]]\nname = 'bob'\nauth = 'sha256'\nauth-password = 'maplesyrup'\npriv-password = 'syrupmaple'\n" \
    "[[group]]\nmodel = 3\nname = 'bob'\ngroup = 'all'\n" \
    "[[access]]\ngroup = 'all'\nprefix = ''\nmodel = 3\nlevel = 'noAuthNoPriv'\nmatch = 'exact'\nread = 'all'\nwrite = 'all'\n" \
    "[[family]]\nview = 'all'\nsubtree = '1.3'\ninclude = true\n"
static const char users[] = USERS, gate_config[] = "[gate]\nengine = '80001f880478'\nboots = '/boots'\nlisten = ['127.0.0.1:161']\n"
    "[[device]]\ncontext = ''\naddress = '127.0.0.1:162'\ncommunity = 'reads'\nwrite-community = 'reads'\n" USERS;
static snmpsec_gate *gate;
static snmpsec_gate_event event;
static snmpsec_pdu asks_by;
static void gate_new(void) { answer = snmpsec_gate_new((const uint8_t *)gate_config, sizeof gate_config - 1, 5, NOW - 100, &gate); }
static void gate_request(void) {
    snmpsec_request r = asked();
    r.pdu = asks_by;
    if (asks_by == SNMPSEC_GET_BULK_REQUEST) r.max_repetitions = 10;
    answer = snmpsec_manager_request(manager, NOW, &r);
}
static void gate_take_client(void) { answer = snmpsec_gate_take_client(gate, NOW * 1000, engine, sizeof engine, message, len, &event); }
static void gate_take_device(void) { answer = snmpsec_gate_take_device(gate, NOW * 1000, 0, message, len, &event); }
static void gate_next(void) {
    int why;
    id++;
    answer = snmpsec_gate_next(gate, NOW * 1000, id, id, &event, &why);
}
static void gate_line(void) {
    static uint8_t line[1024];
    uint32_t kinds = 0;
    size_t written = 0;
    answer = snmpsec_gate_lines(gate, &kinds);
    for (uint32_t kind = 1; kind && !answer; kind <<= 1)
        if (kinds & kind) answer = snmpsec_gate_line(gate, kind, (const uint8_t *)"192.0.2.9:7", 11, message, len, line, sizeof line, &written);
}
static void gate_free(void) { snmpsec_gate_free(gate); answer = 0; }

/* What a device is asked, as its Response: the names with what follows them, which is an error. */
static void answer_of_device(void) {
    for (size_t at = 8; at < 20 && at < len; at++)
        if (message[at] == 0xA0 || message[at] == 0xA1 || message[at] == 0xA3 || message[at] == 0xA5) { message[at] = 0xA2; return; }
}

static int one_request(void) {
    gate_request();
    if (answer || snmpsec_manager_message(manager, message, sizeof message, &len)) return 1;
    measure("gate_take_client", gate_take_client, SNMPSEC_DEEP_STACK);
    if (answer || event != SNMPSEC_GATE_BEGINS) return 1;
    measure("gate_next", gate_next, SNMPSEC_DEEP_STACK);
    if (event == SNMPSEC_GATE_TO_DEVICE) {
        if (snmpsec_gate_message(gate, message, sizeof message, &len)) return 1;
        answer_of_device();
        measure("gate_take_device", gate_take_device, SNMPSEC_DEEP_STACK);
        measure("gate_line", gate_line, SNMPSEC_DEEP_STACK);
        measure("gate_next to the client", gate_next, SNMPSEC_DEEP_STACK);
    }
    return event != SNMPSEC_GATE_TO_CLIENT;
}

static int measure_gate(void) {
    static const snmpsec_pdu types[] = {SNMPSEC_GET_REQUEST, SNMPSEC_GET_NEXT_REQUEST, SNMPSEC_GET_BULK_REQUEST, SNMPSEC_SET_REQUEST};
    snmpsec_manager_free(manager);
    if (snmpsec_manager_new((const uint8_t *)users, sizeof users - 1, (const uint8_t *)SNMPSEC_NO_CLOCKS, strlen(SNMPSEC_NO_CLOCKS), NOW, &manager)) return 1;
    measure("gate_new", gate_new, SNMPSEC_DEEP_STACK);
    if (answer) return 1;
    /* the manager learns the gateway's boots and time by its report */
    asks_by = SNMPSEC_GET_REQUEST;
    gate_request();
    if (snmpsec_manager_message(manager, message, sizeof message, &len)) return 1;
    gate_take_client();
    if (snmpsec_gate_message(gate, message, sizeof message, &len) || snmpsec_manager_take(manager, NOW, message, len)) return 1;
    for (size_t i = 0; i < sizeof types / sizeof *types; i++) {
        asks_by = types[i];
        if (one_request()) return 1;
    }
    measure("gate_free", gate_free, SNMPSEC_DEEP_STACK);
    return 0;
}

/* ---- a forwarder, which sends a device's Trap on, to one receiver as a Trap and to another as an Inform */

static const char forward_config[] = "[gate]\nengine = '80001f880478'\nboots = '/boots'\nlisten = ['127.0.0.1:161']\ntraps = ['127.0.0.1:162']\n"
    "[[device]]\ncontext = ''\naddress = '127.0.0.1:162'\ncommunity = 'public'\n"
    "[[user]]\nname = 'bob'\nauth = 'sha256'\nauth-password = 'maplesyrup'\npriv-password = 'syrupmaple'\n"
    "[[group]]\nmodel = 3\nname = 'bob'\ngroup = 'all'\n"
    "[[access]]\ngroup = 'all'\nprefix = ''\nmodel = 3\nlevel = 'noAuthNoPriv'\nmatch = 'exact'\nnotify = 'all'\n"
    "[[family]]\nview = 'all'\nsubtree = '1.3'\ninclude = true\n"
    "[[receiver]]\naddress = '127.0.0.1:163'\nuser = 'bob'\nlevel = 'authPriv'\n"
    "[[receiver]]\naddress = '127.0.0.1:164'\nuser = 'bob'\nlevel = 'authPriv'\nkind = 'inform'\n";
static const uint8_t trap[] = "\x30\x40\x02\x01\x01\x04\x06public\xa7\x33\x02\x01\x07\x02\x01\x00\x02\x01\x00\x30\x28\x30\x0d\x06\x08\x2b\x06\x01\x02\x01\x01"
    "\x03\x00\x43\x01\x05\x30\x17\x06\x0a\x2b\x06\x01\x06\x03\x01\x01\x04\x01\x00\x06\x09\x2b\x06\x01\x06\x03\x01\x01\x05\x01";
static snmpsec_forward *forward;
static snmpsec_forward_event told;
static void forward_new(void) { answer = snmpsec_forward_new((const uint8_t *)forward_config, sizeof forward_config - 1, 5, NOW - 100, &forward); }
static void forward_take_trap(void) { answer = snmpsec_forward_take_trap(forward, 0, trap, sizeof trap - 1, &told); }
static void forward_next(void) {
    int why;
    id++;
    answer = snmpsec_forward_next(forward, NOW * 1000, id, id, &told, &why);
}
static void forward_take_receiver(void) { answer = snmpsec_forward_take_receiver(forward, NOW * 1000, 1, message, len, &told); }
static void forward_free(void) { snmpsec_forward_free(forward); answer = 0; }

/* The receiver's engine answers what is sent for an Inform. */
static int answer_of_receiver(snmpsec_agent *receiver) {
    if (snmpsec_forward_message(forward, message, sizeof message, &len)) return 1;
    if (!snmpsec_agent_take(receiver, NOW, message, len) && snmpsec_agent_respond(receiver, NOW, 0, 0, NULL, 0, id)) return 1;
    return snmpsec_agent_message(receiver, message, sizeof message, &len);
}

static int measure_inform(snmpsec_agent *receiver) {
    measure("forward_next, an Inform begins", forward_next, SNMPSEC_DEEP_STACK);
    if (answer || told != SNMPSEC_FORWARD_INFORM_BEGINS) return 1;
    do {
        measure("forward_next for an Inform", forward_next, SNMPSEC_DEEP_STACK);
        if (answer || told != SNMPSEC_FORWARD_INFORM_TO_RECEIVER || answer_of_receiver(receiver)) return 1;
        measure("forward_take_receiver", forward_take_receiver, SNMPSEC_DEEP_STACK);
    } while (!answer && told == SNMPSEC_FORWARD_HEARD);
    return answer || told != SNMPSEC_FORWARD_ACKNOWLEDGED;
}

static int measure_forward(void) {
    static const uint8_t other_engine[] = {0x80, 0, 0x1f, 0x88, 4, 'y'};
    snmpsec_agent *receiver;
    if (snmpsec_agent_new((const uint8_t *)users, sizeof users - 1, other_engine, sizeof other_engine, 5, NOW - 100, &receiver)) return 1;
    measure("forward_new", forward_new, SNMPSEC_DEEP_STACK);
    if (answer) return 1;
    measure("forward_take_trap", forward_take_trap, SNMPSEC_DEEP_STACK);
    if (answer || told != SNMPSEC_FORWARD_WAITS) return 1;
    measure("forward_next", forward_next, SNMPSEC_DEEP_STACK);
    if (answer || told != SNMPSEC_FORWARD_TO_RECEIVER || measure_inform(receiver)) return 1;
    snmpsec_agent_free(receiver);
    measure("forward_free", forward_free, SNMPSEC_DEEP_STACK);
    return 0;
}

/* ---- a receiver of notifications, which reports a Trap, and an Inform that it acknowledges */

static snmpsec_listener *listener;
static snmpsec_listener_event notified;
static const uint8_t listener_engine[] = {0x80, 0, 0x1f, 0x88, 4, 'z'};
static void listener_new(void) {
    static const char saved[] = SNMPSEC_NO_CLOCKS;
    snmpsec_listener_settings of = {.boots = 5, .started = NOW - 100, .most = 9, .engine = {listener_engine, sizeof listener_engine},
                                    .clocks = {(const uint8_t *)saved, sizeof saved - 1}};
    answer = snmpsec_listener_new((const uint8_t *)users, sizeof users - 1, &of, NULL, 0, &listener);
}
static void listener_take(void) {
    int why;
    id++;
    answer = snmpsec_listener_take(listener, NOW, NULL, 0, message, len, id, &notified, &why);
}
static void listener_free(void) { snmpsec_listener_free(listener); answer = 0; }

/* An Inform to the receiver. */
static int written_inform(void) {
    static const char clocks[] = "snmp-clocks 2\n80001f88047a 5 100 1000\n";
    snmpsec_manager *sender;
    snmpsec_request r = {.pdu = SNMPSEC_INFORM_REQUEST, .message_id = 1, .request_id = 1, .level = SNMPSEC_AUTH_PRIV,
                         .engine = {listener_engine, sizeof listener_engine}, .user = {(const uint8_t *)"bob", 3},
                         .context_engine = {listener_engine, sizeof listener_engine}, .list = {list, list_len}, .salt = 1};
    if (snmpsec_manager_new((const uint8_t *)users, sizeof users - 1, (const uint8_t *)clocks, sizeof clocks - 1, NOW, &sender)) return 1;
    if (snmpsec_manager_request(sender, NOW, &r) || snmpsec_manager_message(sender, message, sizeof message, &len)) return 1;
    snmpsec_manager_free(sender);
    return 0;
}

static int measure_listener(void) {
    snmpsec_agent *sender;
    snmpsec_notice notice = {.message_id = 1, .request_id = 1, .level = SNMPSEC_AUTH_PRIV, .user = {(const uint8_t *)"bob", 3}, .list = {list, list_len}};
    if (snmpsec_agent_new((const uint8_t *)users, sizeof users - 1, engine, sizeof engine, 5, NOW - 100, &sender)) return 1;
    measure("listener_new", listener_new, SNMPSEC_DEEP_STACK);
    if (answer || snmpsec_agent_notify(sender, NOW, &notice) || snmpsec_agent_message(sender, message, sizeof message, &len)) return 1;
    snmpsec_agent_free(sender);
    measure("listener_take, a Trap", listener_take, SNMPSEC_DEEP_STACK);
    if (answer || notified != SNMPSEC_LISTENER_TRAP || written_inform()) return 1;
    for (int i = 0; i < 2; i++) {
        measure("listener_take, an Inform", listener_take, SNMPSEC_DEEP_STACK);
        if (answer || notified != (i ? SNMPSEC_LISTENER_COPY : SNMPSEC_LISTENER_INFORM)) return 1;
    }
    measure("listener_free", listener_free, SNMPSEC_DEEP_STACK);
    return 0;
}

int main(int argc, char **argv) {
    FILE *file = argc == 2 ? fopen(argv[1], "rb") : NULL;
    stack = malloc(SIZE);
    if (!file || !stack) return 2;
    config_len = fread(config, 1, sizeof config, file);
    fclose(file);
    nested_configurations();
    measure("agent_new", agent_new, SNMPSEC_DEEP_STACK);
    measure("agent_reconfigure", reconfigure, SNMPSEC_DEEP_STACK);
    measure("manager_new", manager_new, SNMPSEC_DEEP_STACK);
    for (uint32_t i = 0; i < 1500; i++) {
        uint32_t arcs[] = {1, 3, 6, 1, 2, 1, 1, 1, i};
        size_t more;
        if (snmpsec_binding_write(arcs, 9, 4, (const uint8_t *)"hello, world", 12, list + list_len, sizeof list - list_len, &more)) break;
        list_len += more;
    }
    for (int round = 0; round < 3; round++) {
        if (round == 2) list_len = 0;
        measure("request", request, SNMPSEC_STACK);
        measure("scoped_write", scoped_write, SNMPSEC_STACK);
        measure("manager_seal", manager_seal, SNMPSEC_STACK);
        measure("ask_discovery", ask_discovery, SNMPSEC_STACK);
        measure("give_up", give_up, SNMPSEC_STACK);
        measure("ask", ask, SNMPSEC_STACK);
        if (snmpsec_manager_message(manager, message, sizeof message, &len)) return 1;
        measure("agent_take", agent_take, SNMPSEC_STACK);
        if (!answer) {
            measure("respond", respond, SNMPSEC_STACK);
            measure("fits", fits, SNMPSEC_STACK);
            measure("agent_keep", agent_keep, SNMPSEC_STACK);
            measure("kept_respond", kept_respond, SNMPSEC_STACK);
            measure("kept_free", kept_free, SNMPSEC_FREE_STACK);
        }
        if (snmpsec_agent_message(agent, message, sizeof message, &len)) return 1;
        measure("manager_take", manager_take, SNMPSEC_STACK);
        measure("answered", answered, SNMPSEC_STACK);
    }
    list_len = 0;
    for (uint32_t i = 0; i < 20; i++) {
        uint32_t arcs[] = {1, 3, 6, 1, 2, 1, 1, 1, i};
        size_t more;
        if (snmpsec_binding_write(arcs, 9, 4, (const uint8_t *)"hello, world", 12, list + list_len, sizeof list - list_len, &more)) return 1;
        list_len += more;
    }
    if (measure_gate()) { printf("FAILED the gateway's exchange stops at answer %d, event %d\n", answer, event); return 1; }
    if (measure_forward()) { printf("FAILED the forwarder stops at answer %d, event %d\n", answer, told); return 1; }
    if (measure_listener()) { printf("FAILED the receiver stops at answer %d, event %d\n", answer, notified); return 1; }
    measure("password_key", password_key, SNMPSEC_STACK);
    measure("localise", localised, SNMPSEC_STACK);
    measure("mac", macced, SNMPSEC_STACK);
    measure("seal", sealed, SNMPSEC_STACK);
    measure("agent_free", agent_free, SNMPSEC_FREE_STACK);
    measure("manager_free", manager_free, SNMPSEC_FREE_STACK);
    free(stack);
    return too_deep;
}
