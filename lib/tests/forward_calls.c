/* The calls on a forwarder of notifications: forward_calls CONFIG CAPTURED-LOG
 *
 * Null pointers, refused configurations, Traps that are taken and that aren't, what is sent to whom, who may be notified, Informs to an engine that the
 * test plays, and refused memory. The captured datagrams are of SNMPv3, so none of them is a device's Trap. Not proved. */
#define _GNU_SOURCE
#include "checks.h"
#include "proved.h"
#include <malloc.h>
#include <stdio.h>
#include <string.h>

#define HEAD "[gate]\nengine = '80001f8804676174652d31'\nboots = '/var/lib/boots'\nlisten = ['192.0.2.1:161']\ntraps = ['[::]:162']\n"
#define DEVICE "[[device]]\ncontext = 'pdu'\naddress = '10.1.0.7:161'\ncommunity = 'public'\n"
#define USERS "[[user]]\nname = 'ann'\nauth = 'sha256'\nauth-password = 'maplesyrup'\npriv-password = 'another passphrase'\n[[user]]\nname = 'bob'\n"
#define ACCESS "[[group]]\nmodel = 3\nname = 'ann'\ngroup = 'g'\n[[access]]\ngroup = 'g'\nprefix = 'pdu'\nmatch = 'exact'\nmodel = 3\n" \
    "level = 'noAuthNoPriv'\nnotify = 'all'\n[[family]]\nview = 'all'\nsubtree = '1.3.6'\ninclude = true\n"
#define RECEIVERS "[[receiver]]\naddress = '192.0.2.50:162'\nuser = 'bob'\nlevel = 'noAuthNoPriv'\n" \
    "[[receiver]]\naddress = '192.0.2.51:162'\nuser = 'ann'\nlevel = 'authPriv'\n"
#define INFORMED "[[receiver]]\naddress = '192.0.2.52:162'\nuser = 'ann'\nlevel = 'authPriv'\nkind = 'inform'\n"
static const char text[] = HEAD DEVICE "[[device]]\ncontext = 'ups'\naddress = '10.1.0.8:161'\ncommunity = 'other'\n" USERS ACCESS RECEIVERS;

static const char informing[] = HEAD DEVICE USERS ACCESS INFORMED;

/* coldStart of a device with the community "public" */
static const uint8_t trap[] = "\x30\x40\x02\x01\x01\x04\x06public\xa7\x33\x02\x01\x07\x02\x01\x00\x02\x01\x00\x30\x28\x30\x0d\x06\x08\x2b\x06\x01\x02\x01\x01\x03"
    "\x00\x43\x01\x05\x30\x17\x06\x0a\x2b\x06\x01\x06\x03\x01\x01\x04\x01\x00\x06\x09\x2b\x06\x01\x06\x03\x01\x01\x05\x01";
enum { TRAP = sizeof trap - 1 };

static int made(const char *words, snmpsec_forward **forward) {
    return snmpsec_forward_new((const uint8_t *)words, strlen(words), 1, 0, forward);
}

static void refused_texts(void) {
    static const char bad[] = HEAD "[[receiver]]\naddress = '192.0.2.50:162'\nuser = 'ann'\nlevel = 'authPriv'\n";
    static const char deep[] = "a = [[[[[[[[[[[[[[[[[[[[[[]]]]]]]]]]]]]]]]]]]]]]";
    size_t len = 0;
    snmpsec_forward *forward = (snmpsec_forward *)&len;
    check("a refused text", SNMPSEC_BAD_CONFIGURATION, made(bad, &forward));
    check("makes none", 1, forward == NULL);
    check("nested too deep", SNMPSEC_BAD_CONFIGURATION, made(deep, &forward));
    check("too many boots", SNMPSEC_BAD_ARGUMENT, snmpsec_forward_new((const uint8_t *)text, sizeof text - 1, 2147483648u, 0, &forward));
}

static void nothing_given(void) {
    snmpsec_forward_event event;
    snmpsec_forward_info info;
    snmpsec_access access;
    uint64_t at;
    size_t len;
    int why;
    snmpsec_forward_free(NULL);
    check("no place", SNMPSEC_BAD_ARGUMENT, made(text, NULL));
    check("no forwarder: take_trap", SNMPSEC_BAD_ARGUMENT, snmpsec_forward_take_trap(NULL, 0, NULL, 0, &event));
    check("no forwarder: take_receiver", SNMPSEC_BAD_ARGUMENT, snmpsec_forward_take_receiver(NULL, 0, 0, NULL, 0, &event));
    check("no forwarder: next", SNMPSEC_BAD_ARGUMENT, snmpsec_forward_next(NULL, 0, 0, 0, &event, &why));
    check("no forwarder: due", SNMPSEC_BAD_ARGUMENT, snmpsec_forward_due(NULL, &at));
    check("no forwarder: message", SNMPSEC_BAD_ARGUMENT, snmpsec_forward_message(NULL, NULL, 0, &len));
    check("no forwarder: numbers", SNMPSEC_BAD_ARGUMENT, snmpsec_forward_numbers(NULL, &info));
    check("no gateway: may_notify", SNMPSEC_BAD_ARGUMENT, snmpsec_gate_may_notify(NULL, 0, 0, NULL, 0, &access));
}

/* What becomes of a datagram of this device. */
static void becomes(const char *name, snmpsec_forward *forward, size_t device, const uint8_t *datagram, size_t len, snmpsec_forward_event wanted) {
    snmpsec_forward_event event = SNMPSEC_FORWARD_NOTHING;
    check(name, 0, snmpsec_forward_take_trap(forward, device, datagram, len, &event));
    check(name, wanted, event);
}

static void traps(void) {
    snmpsec_forward *forward;
    snmpsec_forward_event event;
    snmpsec_forward_info info;
    uint8_t out[SNMPSEC_LARGEST], other[sizeof trap];
    uint64_t at = 7;
    size_t len = 0;
    int why = 1;
    check("new", 0, made(text, &forward));
    check("nothing is due", SNMPSEC_NOTHING_TAKEN, snmpsec_forward_due(forward, &at));
    check("and nothing is written", 7, (long long)at);
    for (size_t i = 0; i < datagrams_len; i++)
        becomes("of SNMPv3", forward, 0, fenced(datagrams[i], lengths[i]), lengths[i], SNMPSEC_FORWARD_UNREADABLE);
    becomes("no octets", forward, 0, NULL, 0, SNMPSEC_FORWARD_UNREADABLE);
    memcpy(other, trap, sizeof trap);
    other[13] = 0xa0;
    becomes("a Get", forward, 0, other, TRAP, SNMPSEC_FORWARD_NOT_TRAP);
    other[13] = 0xa7;
    other[52] = 2;
    becomes("no snmpTrapOID.0", forward, 0, other, TRAP, SNMPSEC_FORWARD_NO_TRAP_OID);
    becomes("another community", forward, 1, trap, TRAP, SNMPSEC_FORWARD_OTHER_COMMUNITY);
    becomes("no such device", forward, 2, trap, TRAP, SNMPSEC_FORWARD_OTHER_COMMUNITY);
    becomes("a Trap", forward, 0, fenced(trap, TRAP), TRAP, SNMPSEC_FORWARD_WAITS);
    check("it is due", 0, snmpsec_forward_due(forward, &at));
    check("at once", 0, (long long)at);
    check("numbers", 0, snmpsec_forward_numbers(forward, &info));
    check("one waits", 1, (long long)info.waiting);
    check("next", 0, snmpsec_forward_next(forward, 5000, 1, 1, &event, &why));
    check("to a receiver", SNMPSEC_FORWARD_TO_RECEIVER, event);
    check("for no reason", 0, why);
    check("numbers of that", 0, snmpsec_forward_numbers(forward, &info));
    check("to ann, and not to bob, who may be notified of nothing", 1, (long long)info.receiver);
    check("none waits", 0, (long long)info.waiting);
    check("a short buffer", SNMPSEC_SHORT_BUFFER, snmpsec_forward_message(forward, out, 10, &len));
    check("the datagram", 0, snmpsec_forward_message(forward, out, sizeof out, &len));
    check("has no community", 1, memmem(out, len, "public", 6) == NULL);
    check("has no context that can be read", 1, memmem(out, len, "pdu", 3) == NULL);
    check("names its user", 1, memmem(out, len, "ann", 3) != NULL);
    check("nothing more", 0, snmpsec_forward_next(forward, 5000, 2, 2, &event, &why));
    check("is to be done", SNMPSEC_FORWARD_NOTHING, event);
    check("nothing is to be sent", SNMPSEC_NOTHING_TAKEN, snmpsec_forward_message(forward, out, sizeof out, &len));
    snmpsec_forward_free(forward);
}

/* Traps wait up to the limit, and no more. */
static void many(void) {
    enum { LIMIT = 1024 };
    snmpsec_forward *forward;
    snmpsec_forward_event event;
    size_t sent = 0;
    int why;
    check("new", 0, made(text, &forward));
    for (size_t i = 0; i < LIMIT; i++) becomes("a Trap of many", forward, 0, trap, TRAP, SNMPSEC_FORWARD_WAITS);
    becomes("one more", forward, 0, trap, TRAP, SNMPSEC_FORWARD_NO_ROOM);
    while (!snmpsec_forward_next(forward, 5000, sent, (uint32_t)sent, &event, &why) && event == SNMPSEC_FORWARD_TO_RECEIVER) sent++;
    check("each is sent", LIMIT, (long long)sent);
    snmpsec_forward_free(forward);
}

/* ---- Informs, to an engine that the test plays */

static const uint8_t junk[] = "\x30\x03\x02\x01\x03";

struct datagram { uint8_t octets[SNMPSEC_LARGEST]; size_t len; };

static snmpsec_agent *played(const char *users) {
    snmpsec_agent *agent = NULL;
    check("the receiver's engine", 0, snmpsec_agent_new((const uint8_t *)users, strlen(users), engine, sizeof engine, BOOTS, NOW - TIME, &agent));
    return agent;
}

static snmpsec_forward_info numbers_of(const char *name, snmpsec_forward *forward) {
    snmpsec_forward_info info = {0};
    check(name, 0, snmpsec_forward_numbers(forward, &info));
    return info;
}

/* What is done next, at this moment, and the numbers of it. */
static snmpsec_forward_info goes_out(const char *name, snmpsec_forward *forward, uint64_t now, snmpsec_forward_event wanted, int reason) {
    static uint32_t ask_id;
    snmpsec_forward_event event = SNMPSEC_FORWARD_WAITS;
    int why = 1;
    ask_id++;
    check(name, 0, snmpsec_forward_next(forward, now, ask_id, ask_id, &event, &why));
    check(name, wanted, event);
    check(name, reason, why);
    return numbers_of(name, forward);
}

/* What becomes of a datagram of this receiver, and the numbers of it. */
static snmpsec_forward_info hears(const char *name, snmpsec_forward *forward, size_t receiver, const struct datagram *from, snmpsec_forward_event wanted) {
    snmpsec_forward_event event = SNMPSEC_FORWARD_NOTHING;
    check(name, 0, snmpsec_forward_take_receiver(forward, 1000, receiver, fenced(from->octets, from->len), from->len, &event));
    check(name, wanted, event);
    return numbers_of(name, forward);
}

/* Such a message is sent for an Inform. */
static struct datagram sends(const char *name, snmpsec_forward *forward, uint64_t now, snmpsec_inform_message wanted) {
    struct datagram sent = {.len = 0};
    check(name, wanted, (long long)goes_out(name, forward, now, SNMPSEC_FORWARD_INFORM_TO_RECEIVER, 0).message);
    check(name, 0, snmpsec_forward_message(forward, sent.octets, sizeof sent.octets, &sent.len));
    return sent;
}

/* What the receiver's engine answers: a Report, or the Response. */
static struct datagram answered(const char *name, snmpsec_agent *agent, const struct datagram *asked) {
    struct datagram answer = {.len = 0};
    if (!snmpsec_agent_take(agent, NOW, asked->octets, asked->len)) check(name, 0, snmpsec_agent_respond(agent, NOW, 0, 0, NULL, 0, 1));
    check(name, 0, snmpsec_agent_message(agent, answer.octets, sizeof answer.octets, &answer.len));
    return answer;
}

/* A Trap of the device begins to wait as an Inform. */
static void begins(snmpsec_forward *forward) {
    becomes("a Trap", forward, 0, trap, TRAP, SNMPSEC_FORWARD_WAITS);
    goes_out("begins", forward, 1000, SNMPSEC_FORWARD_INFORM_BEGINS, 0);
}

/* A forwarder that has found the receiver's engine and its time, and sends an Inform to it. */
static snmpsec_forward *informed(snmpsec_agent *agent, struct datagram *inform) {
    snmpsec_forward *forward;
    check("new", 0, made(informing, &forward));
    begins(forward);
    for (snmpsec_inform_message which = SNMPSEC_INFORM_DISCOVERY; which < SNMPSEC_INFORM_ITSELF; which++) {
        struct datagram asked = sends("before the Inform", forward, 1000, which), answer = answered("a Report", agent, &asked);
        hears("is heard", forward, 0, &answer, SNMPSEC_FORWARD_HEARD);
    }
    *inform = sends("the Inform", forward, 1000, SNMPSEC_INFORM_ITSELF);
    return forward;
}

static void informs(void) {
    snmpsec_agent *agent = played(USERS);
    snmpsec_forward *forward;
    snmpsec_forward_event event;
    snmpsec_forward_info info;
    uint64_t at = 7;
    check("new", 0, made(informing, &forward));
    check("nothing is due", SNMPSEC_NOTHING_TAKEN, snmpsec_forward_due(forward, &at));
    becomes("a Trap", forward, 0, trap, TRAP, SNMPSEC_FORWARD_WAITS);
    info = goes_out("begins", forward, 1000, SNMPSEC_FORWARD_INFORM_BEGINS, 0);
    check("no notification waits", 0, (long long)info.waiting);
    check("but an Inform", 1, (long long)info.informs);
    check("of which nothing was sent", 0, (long long)info.message);
    check("it is due", 0, snmpsec_forward_due(forward, &at));
    check("at once", 1, at <= 1000);
    struct datagram asked = sends("the discovery", forward, 1000, SNMPSEC_INFORM_DISCOVERY), answer = answered("a Report", agent, &asked);
    goes_out("nothing more", forward, 1000, SNMPSEC_FORWARD_NOTHING, 0);
    check("the answer is waited for", 0, snmpsec_forward_due(forward, &at));
    check("for 5 seconds", 6000, (long long)at);
    check("no message", SNMPSEC_NOT_MESSAGE, snmpsec_forward_take_receiver(forward, 1000, 0, junk, sizeof junk - 1, &event));
    hears("of another receiver", forward, 1, &answer, SNMPSEC_FORWARD_NO_ANSWER);
    info = hears("of the receiver", forward, 0, &answer, SNMPSEC_FORWARD_HEARD);
    check("nothing is to be sent", 0, (long long)info.message);
    asked = sends("for the time", forward, 1000, SNMPSEC_INFORM_TIME);
    answer = answered("a Report", agent, &asked);
    hears("the time", forward, 0, &answer, SNMPSEC_FORWARD_HEARD);
    asked = sends("the Inform", forward, 1000, SNMPSEC_INFORM_ITSELF);
    check("has no community", 1, memmem(asked.octets, asked.len, "public", 6) == NULL);
    check("has no context that can be read", 1, memmem(asked.octets, asked.len, "pdu", 3) == NULL);
    check("names its user", 1, memmem(asked.octets, asked.len, "ann", 3) != NULL);
    answer = answered("the Response", agent, &asked);
    hears("the Response of another receiver", forward, 1, &answer, SNMPSEC_FORWARD_NO_ANSWER);
    info = hears("the Response", forward, 0, &answer, SNMPSEC_FORWARD_ACKNOWLEDGED);
    check("to the Inform", 0, (long long)info.inform);
    check("none waits", 0, (long long)info.informs);
    hears("the Response once more", forward, 0, &answer, SNMPSEC_FORWARD_NO_ANSWER);
    check("nothing is due any more", SNMPSEC_NOTHING_TAKEN, snmpsec_forward_due(forward, &at));
    snmpsec_forward_free(forward);
    snmpsec_agent_free(agent);
}

/* The receiver's engine refuses the Inform, by a Report with authentication. */
static void denied(void) {
    snmpsec_agent *agent = played(USERS);
    struct datagram inform, report;
    snmpsec_forward *forward = informed(agent, &inform);
    check("the Inform is taken", 0, snmpsec_agent_take(agent, NOW, inform.octets, inform.len));
    check("and refused", 0, snmpsec_agent_refuse(agent, NOW, SNMPSEC_UNKNOWN_CONTEXTS, 2));
    check("by a Report", 0, snmpsec_agent_message(agent, report.octets, sizeof report.octets, &report.len));
    snmpsec_forward_info info = hears("the Report", forward, 0, &report, SNMPSEC_FORWARD_DENIED);
    check("for its context", SNMPSEC_UNKNOWN_CONTEXTS, (long long)info.counter);
    check("none waits", 0, (long long)info.informs);
    check("the counter is of that call alone", 0, (long long)goes_out("nothing", forward, 1000, SNMPSEC_FORWARD_NOTHING, 0).counter);
    snmpsec_forward_free(forward);
    snmpsec_agent_free(agent);
}

/* An Inform without an answer is given up after three tries. Its receiver's engine doesn't know the user. */
static void given_up(void) {
    enum { UNKNOWN_USERS = 3 };
    snmpsec_agent *agent = played("[[user]]\nname = 'cid'\n");
    snmpsec_forward *forward;
    snmpsec_forward_info info;
    uint64_t now = 1000;
    check("new", 0, made(informing, &forward));
    begins(forward);
    begins(forward);
    struct datagram asked = sends("the discovery", forward, now, SNMPSEC_INFORM_DISCOVERY), answer = answered("a Report", agent, &asked);
    sends("the second discovery", forward, now, SNMPSEC_INFORM_DISCOVERY);
    hears("the first is answered", forward, 0, &answer, SNMPSEC_FORWARD_HEARD);
    for (int i = 0; i < 3; i++, now += 5000) {
        asked = sends("for the time", forward, now, SNMPSEC_INFORM_TIME);
        answer = answered("a Report", agent, &asked);
        hears("that anybody can have sent", forward, 0, &answer, SNMPSEC_FORWARD_HEARD);
        if (i) sends("the second discovery again", forward, now, SNMPSEC_INFORM_DISCOVERY);
    }
    info = goes_out("the first is given up", forward, now, SNMPSEC_FORWARD_INFORM_GIVEN_UP, 0);
    check("the first", 0, (long long)info.inform);
    check("for its user", UNKNOWN_USERS, (long long)info.counter);
    info = goes_out("the second is given up", forward, now, SNMPSEC_FORWARD_INFORM_GIVEN_UP, 0);
    check("the second", 1, (long long)info.inform);
    check("without a Report", 0, (long long)info.counter);
    check("none waits", 0, (long long)info.informs);
    snmpsec_forward_free(forward);
    snmpsec_agent_free(agent);
}

static size_t put(uint8_t *out, uint8_t tag, size_t len) {
    out[0] = tag;
    out[1] = 0x82;
    out[2] = (uint8_t)(len >> 8);
    out[3] = (uint8_t)len;
    return 4;
}

/* The Trap with a third variable of many octets, so that it fits into a datagram, and a message of SNMPv3 with it doesn't. */
static size_t long_trap(uint8_t *out) {
    enum { VALUE = 65350, BINDING = 8 + 4 + VALUE, LIST = 40 + 4 + BINDING, PDU = 9 + 4 + LIST };
    size_t at = put(out, 0x30, 11 + 4 + PDU);
    memcpy(out + at, trap + 2, 11);
    at += 11;
    at += put(out + at, 0xa7, PDU);
    memcpy(out + at, trap + 15, 9);
    at += 9;
    at += put(out + at, 0x30, LIST);
    memcpy(out + at, trap + 26, 40);
    at += 40;
    at += put(out + at, 0x30, BINDING);
    memcpy(out + at, "\x06\x06\x2b\x06\x01\x02\x01\x01", 8);
    at += 8;
    at += put(out + at, 0x04, VALUE);
    memset(out + at, 'x', VALUE);
    return at + VALUE;
}

/* A notification that is too long is sent neither as a Trap nor as an Inform. */
static void too_long(void) {
    static uint8_t octets[SNMPSEC_LARGEST];
    size_t len = long_trap(octets);
    snmpsec_agent *agent = played(USERS);
    struct datagram asked, answer;
    snmpsec_forward *forward = informed(agent, &asked);
    answer = answered("the Response", agent, &asked);
    hears("the Response", forward, 0, &answer, SNMPSEC_FORWARD_ACKNOWLEDGED);
    becomes("a long Trap", forward, 0, octets, len, SNMPSEC_FORWARD_WAITS);
    goes_out("begins", forward, 1000, SNMPSEC_FORWARD_INFORM_BEGINS, 0);
    asked = sends("the discovery", forward, 1000, SNMPSEC_INFORM_DISCOVERY);
    answer = answered("a Report", agent, &asked);
    hears("is heard", forward, 0, &answer, SNMPSEC_FORWARD_HEARD);
    snmpsec_forward_info info = goes_out("not as an Inform", forward, 1000, SNMPSEC_FORWARD_INFORM_UNSENT, SNMPSEC_TOO_LARGE);
    check("the second", 1, (long long)info.inform);
    check("none waits", 0, (long long)info.informs);
    snmpsec_forward_free(forward);
    check("new", 0, made(text, &forward));
    becomes("a long Trap", forward, 0, octets, len, SNMPSEC_FORWARD_WAITS);
    goes_out("not as a Trap", forward, 1000, SNMPSEC_FORWARD_UNSENT, SNMPSEC_TOO_LARGE);
    snmpsec_forward_free(forward);
    snmpsec_agent_free(agent);
}

/* As many Informs wait as notifications may. */
static void many_informs(void) {
    enum { LIMIT = 1024 };
    snmpsec_forward *forward;
    check("new", 0, made(informing, &forward));
    for (size_t i = 0; i < LIMIT; i++) begins(forward);
    becomes("a Trap", forward, 0, trap, TRAP, SNMPSEC_FORWARD_WAITS);
    snmpsec_forward_info info = goes_out("no room", forward, 1000, SNMPSEC_FORWARD_INFORM_NO_ROOM, 0);
    check("for the last", LIMIT, (long long)info.notification);
    check("as many wait", LIMIT, (long long)info.informs);
    snmpsec_forward_free(forward);
}

static void settings(void) {
    static const uint32_t trap_oid[] = {1, 3, 6, 1, 6, 3, 1, 1, 4, 1, 0}, none[] = {1, 2, 840};
    static const struct { snmpsec_gate_text which; size_t position; const char *words; } all[] = {
        {SNMPSEC_GATE_TRAPS, 0, "[::]:162"}, {SNMPSEC_GATE_RECEIVER, 1, "192.0.2.51:162"}, {SNMPSEC_GATE_RECEIVER_USER, 0, "bob"},
        {SNMPSEC_GATE_RECEIVER_LEVEL, 1, "authPriv"}};
    snmpsec_gate *gate;
    snmpsec_access access = SNMPSEC_NO_SUCH_CONTEXT;
    uint8_t out[40];
    size_t len = 0;
    check("a gateway", 0, snmpsec_gate_new((const uint8_t *)text, sizeof text - 1, 1, 0, &gate));
    for (size_t i = 0; i < sizeof all / sizeof *all; i++) {
        check(all[i].words, 0, snmpsec_gate_setting(gate, all[i].which, all[i].position, out, sizeof out, &len));
        check(all[i].words, 1, len == strlen(all[i].words) && !memcmp(out, all[i].words, len));
        check(all[i].words, SNMPSEC_NOTHING_TAKEN, snmpsec_gate_setting(gate, all[i].which, 2, out, sizeof out, &len));
    }
    check("ann may be notified of the first device", 0, snmpsec_gate_may_notify(gate, 1, 0, trap_oid, 11, &access));
    check("allowed", SNMPSEC_ACCESS_ALLOWED, access);
    check("not of the second", 0, snmpsec_gate_may_notify(gate, 1, 1, trap_oid, 11, &access));
    check("no row", SNMPSEC_NO_ACCESS_ENTRY, access);
    check("and not of all variables", 0, snmpsec_gate_may_notify(gate, 1, 0, none, 3, &access));
    check("not in the view", SNMPSEC_NOT_IN_VIEW, access);
    check("bob isn't in a group", 0, snmpsec_gate_may_notify(gate, 0, 0, trap_oid, 11, &access));
    check("no group", SNMPSEC_NO_GROUP_NAME, access);
    check("no such receiver", SNMPSEC_NOTHING_TAKEN, snmpsec_gate_may_notify(gate, 2, 0, trap_oid, 11, &access));
    check("no such device", SNMPSEC_NOTHING_TAKEN, snmpsec_gate_may_notify(gate, 0, 2, trap_oid, 11, &access));
    check("no arcs", SNMPSEC_BAD_ARGUMENT, snmpsec_gate_may_notify(gate, 0, 0, NULL, 0, &access));
    snmpsec_gate_free(gate);
}

/* Each growth of memory is refused in turn, and nothing is lost. */
static void refused_memory(void) {
    snmpsec_forward *forward;
    snmpsec_forward_event event = SNMPSEC_FORWARD_NOTHING;
    int answer = SNMPSEC_OUT_OF_MEMORY, why;
    for (long n = 0; answer == SNMPSEC_OUT_OF_MEMORY && n < 100000; n++) {
        left = n;
        answer = made(text, &forward);
        left = -1;
        if (answer) check("no forwarder without memory", 1, forward == NULL);
    }
    check("new, once there is enough", 0, answer);
    answer = SNMPSEC_OUT_OF_MEMORY;
    for (long n = 0; answer == SNMPSEC_OUT_OF_MEMORY && n < 1000; n++) {
        left = n;
        answer = snmpsec_forward_take_trap(forward, 0, trap, TRAP, &event);
        left = -1;
    }
    check("a Trap, once there is enough", SNMPSEC_FORWARD_WAITS, event);
    answer = SNMPSEC_OUT_OF_MEMORY;
    for (long n = 0; answer == SNMPSEC_OUT_OF_MEMORY && n < 1000; n++) {
        left = n;
        answer = snmpsec_forward_next(forward, 5000, 1, 1, &event, &why);
        left = -1;
    }
    check("is sent, once there is enough", SNMPSEC_FORWARD_TO_RECEIVER, event);
    left = 0;
    snmpsec_forward_free(forward);
    left = -1;
}

/* And so for what is sent for an Inform, and for its answer. */
static void refused_memory_of_informs(void) {
    snmpsec_agent *agent = played(USERS);
    struct datagram asked, answer;
    snmpsec_forward *forward = informed(agent, &asked);
    snmpsec_forward_event event = SNMPSEC_FORWARD_NOTHING;
    int done = SNMPSEC_OUT_OF_MEMORY, why;
    for (long n = 0; done == SNMPSEC_OUT_OF_MEMORY && n < 1000; n++) {
        left = n;
        done = snmpsec_forward_next(forward, 6000, 1000 + (uint64_t)n, 1000, &event, &why);
        left = -1;
    }
    check("the Inform once more, once there is enough", SNMPSEC_FORWARD_INFORM_TO_RECEIVER, event);
    check("the datagram", 0, snmpsec_forward_message(forward, asked.octets, sizeof asked.octets, &asked.len));
    answer = answered("the Response", agent, &asked);
    done = SNMPSEC_OUT_OF_MEMORY;
    for (long n = 0; done == SNMPSEC_OUT_OF_MEMORY && n < 1000; n++) {
        left = n;
        done = snmpsec_forward_take_receiver(forward, 6000, 0, answer.octets, answer.len, &event);
        left = -1;
    }
    check("its answer, once there is enough", SNMPSEC_FORWARD_ACKNOWLEDGED, event);
    left = 0;
    snmpsec_forward_free(forward);
    left = -1;
    snmpsec_agent_free(agent);
}

/* A number that is no call's: it is answered so, and nothing is written. */
static void no_calls(void) {
    static const uint8_t none[16];
    const proved_forward_asked asked = {.call = PROVED_FORWARD_INFO + 1, .datagram = {none, 0}};
    proved_forward_said said = {.event = 7, .why = 7};
    snmpsec_forward *forward;
    check("new", 0, made(text, &forward));
    check("no call", SNMPSEC_BAD_ARGUMENT, proved_forward_call(forward, &asked, &said));
    check("nothing is written", 1, said.event == 7 && said.why == 7);
    snmpsec_forward_free(forward);
}

/* Freeing gives back all, and wants no memory for that: as much is held after each further forwarder. */
static void given_back(void) {
    enum { ROUNDS = 4 };
    size_t held[ROUNDS];
    for (int i = 0; i < ROUNDS; i++) {
        snmpsec_forward *forward;
        check("new", 0, made(informing, &forward));
        left = 0;
        snmpsec_forward_free(forward);
        left = -1;
        held[i] = mallinfo2().uordblks;
    }
    check("all is given back", (long long)held[1], (long long)held[ROUNDS - 1]);
}

int main(int argc, char **argv) {
    read_capture(argc, argv);
    refused_texts();
    nothing_given();
    traps();
    many();
    informs();
    denied();
    given_up();
    too_long();
    many_informs();
    settings();
    refused_memory();
    refused_memory_of_informs();
    no_calls();
    given_back();
    return checks_told();
}
