/* Rows on a gateway: what it takes and sends. Not proved.
 *
 * A call that finds no memory is made again: it leaves the gateway as it was. */
#include "stations.h"
#include "tables.h"
#include <stdlib.h>
#include <string.h>

static struct growing settings, devices, tables;
static snmpsec_gate *gate;

static void need(int answer) {
    if (answer) fail_of(answer);
}

static void add_setting(const char *key) { add(&settings, "%s = %s\n", key, word()); }

static void add_flag(const char *key) { add(&settings, "%s = %s\n", key, number() ? "true" : "false"); }

/* `limits WAITING ROUNDS AGAIN TRIES LAST GATHER LONG-ANSWERS REPORT-UNREACHABLE`, the last two as 0 or 1. */
static void limits(void) {
    static const char *const keys[] = {"waiting", "rounds", "again", "tries", "last", "gather"};
    empty(&settings);
    for (size_t i = 0; i < sizeof keys / sizeof *keys; i++) add_setting(keys[i]);
    add_flag("long-answers");
    add_flag("report-unreachable");
}

/* `share WAITING-PER-DEVICE`, after `limits` */
static void share(void) { add_setting("waiting-per-device"); }

static void add_text(const char *key, snmpsec_octets of) {
    add(&devices, "%s = ", key);
    add_name(&devices, of);
    add(&devices, "\n");
}

/* `device CONTEXT COMMUNITY WRITE-COMMUNITY MAX-SIZE REPETITIONS AT-ONCE`: a device of the next gateway. */
static void device(void) {
    add(&devices, "[[device]]\naddress = \"127.0.0.1:161\"\n");
    add_text("context", octets());
    add_text("community", octets());
    if (!is_next("none")) add_text("write-community", octets());
    add(&devices, "max-size = %u\n", number32());
    add(&devices, "repetitions = %u\n", number32());
    add(&devices, "at-once = %u\n", number32());
}

static void set_tables(void) {
    snmpsec_octets text = octets();
    empty(&tables);
    add_octets(&tables, text.at, text.len);
}

/* `gate ENGINE BOOTS STARTED`: a gateway of these users, tables, devices and limits. */
static void begin(void) {
    struct growing text = {0};
    add(&text, "[gate]\nboots = \"b\"\nlisten = [\"127.0.0.1:161\"]\nengine = \"%s\"\n", word());
    uint32_t boots = number32();
    uint64_t started = number();
    const struct growing *parts[] = {&settings, &devices, &loaded_users, &tables};
    for (size_t i = 0; i < 4; i++) add_octets(&text, parts[i]->at, parts[i]->len);
    snmpsec_gate_free(gate);
    need(snmpsec_gate_new(octets_of(&text).at, text.len, boots, started, &gate));
    free(text.at);
    empty(&devices);
}

static snmpsec_gate_info numbers(void) {
    snmpsec_gate_info it;
    need(snmpsec_gate_numbers(gate, &it));
    return it;
}

/* When there is something to do: UINT64_MAX for never. */
static uint64_t due(void) {
    uint64_t at;
    int answer = snmpsec_gate_due(gate, &at);
    if (answer && answer != SNMPSEC_NOTHING_TAKEN) fail_of(answer);
    return answer ? UINT64_MAX : at;
}

/* Whether a call is to be made again, that found no memory. */
static bool is_again(int answer, uint64_t waiting, uint64_t at) {
    if (answer != SNMPSEC_OUT_OF_MEMORY) return false;
    if (numbers().waiting != waiting || due() != at) fail("a call that finds no memory leaves the gateway as it was");
    return true;
}

static snmpsec_octets message(void) {
    static uint8_t made[SNMPSEC_LARGEST];
    size_t len;
    need(snmpsec_gate_message(gate, made, sizeof made, &len));
    return (snmpsec_octets){made, len};
}

static void take_client(void) {
    snmpsec_gate_event event;
    uint64_t now = number(), waiting = numbers().waiting, at = due();
    snmpsec_octets client = octets(), datagram = octets();
    uint8_t report[2048];
    size_t len;
    int answer;
    do answer = snmpsec_gate_take_client(gate, now, client.at, client.len, datagram.at, datagram.len, &event);
    while (is_again(answer, waiting, at));
    if (answer) {
        int has_none = snmpsec_gate_message(gate, report, sizeof report, &len);
        say_refused(answer, datagram);
        say(has_none ? " no report" : " report");
    } else if (event == SNMPSEC_GATE_NO_ROOM) say("no room");
    else if (event == SNMPSEC_GATE_SET_OF_BEFORE) say("set of before");
    else say("%s %llu", event == SNMPSEC_GATE_BEGINS ? "begins" : "joins", (unsigned long long)numbers().request);
}

static void say_misfit(const snmpsec_gate_info *it) {
    static const char *const names[] = {"", "TooFew", "TooMany", "OtherName", "NotAfter", "NotValue", "AfterEnd"};
    if (it->misfit == SNMPSEC_MISFIT_NONE) return;
    if (it->misfit < SNMPSEC_MISFIT_OTHER_NAME) say(" %s", names[it->misfit]);
    else say(" AtBinding(%llu, %s)", (unsigned long long)it->binding - 1, names[it->misfit]);
}

static void take_device(void) {
    snmpsec_gate_event event;
    uint64_t now = number(), waiting = numbers().waiting, at = due();
    uint32_t from = number32();
    snmpsec_octets datagram = octets();
    int answer;
    do answer = snmpsec_gate_take_device(gate, now, from, datagram.at, datagram.len, &event);
    while (is_again(answer, waiting, at));
    need(answer);
    if (event == SNMPSEC_GATE_NOT_WAITED_FOR) say("not waited for");
    else if (event == SNMPSEC_GATE_UNREADABLE) say("unreadable");
    else {
        snmpsec_gate_info it = numbers();
        say("answers %llu", (unsigned long long)it.request);
        if (it.hidden) say(" hidden %llu", (unsigned long long)it.hidden);
        say_misfit(&it);
    }
}

static void say_to_client(const snmpsec_gate_info *it) {
    uint8_t client[64];
    size_t len;
    need(snmpsec_gate_client(gate, client, sizeof client, &len));
    say("to client %llu ", (unsigned long long)it->request);
    show_text((snmpsec_octets){client, len});
    if (it->is_report) say(" report ");
    else say(" %d %d ", (int32_t)it->status, (int32_t)it->index);
    show(message());
}

static void next(void) {
    snmpsec_gate_event event;
    uint64_t now = number(), waiting = numbers().waiting, at = due(), with = salt();
    uint32_t id = number32();
    int answer, why;
    do answer = snmpsec_gate_next(gate, now, with, id, &event, &why);
    while (is_again(answer, waiting, at));
    need(answer);
    snmpsec_gate_info it = numbers();
    unsigned long long request = it.request, device_of = it.device;
    if (event == SNMPSEC_GATE_NOTHING) say("nothing");
    else if (event == SNMPSEC_GATE_TO_CLIENT) say_to_client(&it);
    else if (event == SNMPSEC_GATE_TO_DEVICE) {
        say("to device %llu %llu ", request, device_of);
        show(message());
    } else if (event == SNMPSEC_GATE_GIVEN_UP) say("given up %llu %llu", request, device_of);
    else {
        say("unanswered %llu", request);
        if (why) {
            say(" ");
            say_refusal_name(why);
        }
    }
}

void gate_row(const char *kind) {
    if (!strcmp(kind, "device")) device();
    else if (!strcmp(kind, "tables")) set_tables();
    else if (is_table_row(kind)) return;
    else if (!strcmp(kind, "limits")) limits();
    else if (!strcmp(kind, "share")) share();
    else if (!strcmp(kind, "gate")) begin();
    else if (!gate) fail("a gateway");
    else if (!strcmp(kind, "take_client")) take_client();
    else if (!strcmp(kind, "take_device")) take_device();
    else if (!strcmp(kind, "next")) next();
    else if (!strcmp(kind, "waiting")) say("%llu", (unsigned long long)numbers().waiting);
    else if (!strcmp(kind, "due")) {
        uint64_t at = due();
        if (at == UINT64_MAX) say("none");
        else say("%llu", (unsigned long long)at);
    } else fail("no row is of this kind");
}
