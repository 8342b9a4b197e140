#define _GNU_SOURCE
#include "receivers.h"
#include "gateway.h"
#include "lines.h"
#include "notified.h"
#include "service.h"
#include <errno.h>
#include <stdio.h>
#include <stdlib.h>
#include <string.h>
#include <unistd.h>

/* as many datagrams of a socket are taken at a wake */
enum { MOST_AT_ONCE = 64 };

static uint8_t datagram[65536], message[SNMPSEC_LARGEST];

void wipe_notifications(void) {
    snmpsec_wipe(datagram, sizeof datagram);
    snmpsec_wipe(message, sizeof message);
}

/* ---- receivers */

static int receiver_words(snmpsec_gate *gate, size_t number, const char *address, char *words) {
    char user[CONTEXT_WORDS];
    size_t len;
    char *name = setting_of(gate, SNMPSEC_GATE_RECEIVER_USER, number, &len);
    if (!name) return 1;
    shown((const uint8_t *)name, len, user, sizeof user);
    free(name);
    snprintf(words, RECEIVER_WORDS, "user %s at %s", user, address);
    return 0;
}

static int open_receiver(snmpsec_gate *gate, size_t number, struct receiver *receiver) {
    size_t len;
    char *address = setting_of(gate, SNMPSEC_GATE_RECEIVER, number, &len);
    int fault = !address || receiver_words(gate, number, address, receiver->words)
        || connect_to(address, &receiver->socket);
    free(address);
    return fault;
}

void close_receivers(struct receiver *receivers, size_t *len) {
    while (*len) close(receivers[--*len].socket);
}

int open_receivers(snmpsec_gate *gate, struct receiver *receivers, size_t *len) {
    size_t n = count_of(gate, SNMPSEC_GATE_RECEIVER);
    *len = 0;
    if (n > MOST_RECEIVERS) { fprintf(stderr, "snmpsec-gate: more than %d receivers\n", MOST_RECEIVERS); return 1; }
    for (size_t i = 0; i < n; i++) {
        if (open_receiver(gate, i, &receivers[i])) { close_receivers(receivers, len); return 1; }
        ++*len;
    }
    return 0;
}

/* Whether the receiver may be notified of the two variables that each notification has (RFC 3416, section 4.2.6). */
static bool may_notify(snmpsec_gate *gate, size_t receiver, size_t device) {
    static const uint32_t sys_up_time[] = {1, 3, 6, 1, 2, 1, 1, 3, 0}, trap_oid[] = {1, 3, 6, 1, 6, 3, 1, 1, 4, 1, 0};
    snmpsec_access one, other;
    return !snmpsec_gate_may_notify(gate, receiver, device, sys_up_time, 9, &one) && one == SNMPSEC_ACCESS_ALLOWED
        && !snmpsec_gate_may_notify(gate, receiver, device, trap_oid, 11, &other) && other == SNMPSEC_ACCESS_ALLOWED;
}

static void say_devices(snmpsec_gate *gate, size_t receiver) {
    char device[CONTEXT_WORDS];
    bool none = true;
    for (size_t i = 0, n = count_of(gate, SNMPSEC_GATE_ADDRESS); i < n; i++) {
        if (!may_notify(gate, receiver, i)) continue;
        context_words(gate, i, device);
        printf(" %s", device);
        none = false;
    }
    puts(none ? " no device" : "");
}

static void say_receiver(snmpsec_gate *gate, size_t receiver) {
    size_t len;
    char words[RECEIVER_WORDS], *address = setting_of(gate, SNMPSEC_GATE_RECEIVER, receiver, &len);
    char *level = setting_of(gate, SNMPSEC_GATE_RECEIVER_LEVEL, receiver, &len),
        *kind = setting_of(gate, SNMPSEC_GATE_RECEIVER_KIND, receiver, &len);
    if (address && level && kind && !receiver_words(gate, receiver, address, words)) {
        printf("%s, %s, by %s: notified of", words, level, strcmp(kind, "inform") ? "Traps" : "Informs");
        say_devices(gate, receiver);
    }
    free(address);
    free(level);
    free(kind);
}

void say_receivers(snmpsec_gate *gate) {
    for (size_t i = 0, n = count_of(gate, SNMPSEC_GATE_RECEIVER); i < n; i++) say_receiver(gate, i);
}

/* ---- lines */

/* Says what became of a notification for a receiver, and why if that isn't empty. NULL: nothing is known of it any
 * more. */
static void say(const struct gateway *gateway, const struct notified *of, uint64_t receiver, const char *what,
                const char *why) {
    if (!of || of->device >= gateway->devices_len) return;
    line("device %s notifies of %s: %s %s%s%s", gateway->devices[of->device].words, of->oid, what,
         gateway->receivers[receiver].words, *why ? ": " : "", why);
}

static void say_unsent(const struct gateway *gateway, const struct notified *of, uint64_t receiver, uint64_t now,
                       const char *why) {
    if (line_has_room(LINE_NOT_NOTIFIED, now)) say(gateway, of, receiver, "it isn't sent to", why);
}

/* A counter that a Report tells, by its number (RFC 3414, section 5, and RFC 3412, section 5). */
static const char *counter_name(int counter) {
    static const char *const names[] = {"no counter that is known", "usmStatsUnsupportedSecLevels",
                                        "usmStatsNotInTimeWindows", "usmStatsUnknownUserNames",
                                        "usmStatsUnknownEngineIDs", "usmStatsWrongDigests", "usmStatsDecryptionErrors",
                                        "snmpUnknownPDUHandlers",
                                        "snmpUnavailableContexts", "snmpUnknownContexts"};
    return names[counter > 0 && counter < 10 ? counter : 0];
}

static const struct notified *told_of(const struct informed *inform) { return inform ? &inform->of : NULL; }

/* Says that an Inform ends without an acknowledgement. A Report without authentication is a hint, since anybody can
 * have sent it. */
static void say_given_up(const struct gateway *gateway, const snmpsec_forward_info *info, uint64_t now) {
    char why[120] = "its engine doesn't answer";
    const struct informed *inform = informed_of(info->inform);
    if (!line_has_room(LINE_NOT_NOTIFIED, now)) return;
    if (inform && inform->times) snprintf(why, sizeof why, "sent %u times", inform->times);
    if (info->counter)
        snprintf(why + strlen(why), sizeof why - strlen(why), ", a Report says %s (not authenticated)",
                 counter_name((int)info->counter));
    say(gateway, told_of(inform), info->receiver, "not acknowledged by", why);
}

/* ---- what comes from receivers */

static void take_answer(struct gateway *gateway, uint64_t now, size_t receiver, snmpsec_forward_event event) {
    snmpsec_forward_info info;
    gateway->counts.forwards[event]++;
    if (snmpsec_forward_numbers(gateway->forward, &info)) return;
    const struct notified *of = told_of(informed_of(info.inform));
    if (event == SNMPSEC_FORWARD_ACKNOWLEDGED && line_has_room(LINE_ACKNOWLEDGED, now))
        say(gateway, of, receiver, "acknowledged by", "");
    if (event == SNMPSEC_FORWARD_DENIED && line_has_room(LINE_NOT_NOTIFIED, now))
        say(gateway, of, receiver, "refused by", counter_name((int)info.counter));
}

static void take_datagram(struct gateway *gateway, size_t receiver, size_t len) {
    snmpsec_forward_event event = SNMPSEC_FORWARD_NOTHING;
    uint64_t now = now_in_milliseconds();
    int refusal = snmpsec_forward_take_receiver(gateway->forward, now, receiver, datagram, len, &event);
    if (!refusal) { take_answer(gateway, now, receiver, event); return; }
    if (refusal == SNMPSEC_OUT_OF_MEMORY || refusal < 1 || refusal > 18) { gateway->out_of_memory = true; return; }
    gateway->counts.receivers_refused[refusal]++;
    if (line_has_room(LINE_RECEIVER, now))
        line("refused %d %s from a receiver, %s (not authenticated)", refusal, snmpsec_error_name(refusal),
             gateway->receivers[receiver].words);
}

/* A receiver that is off answers by ICMP: that is an error of its socket, and what waits for it is sent again as if
 * nothing had come. What is due by a datagram goes out before the next is taken. */
void hear_receiver(struct gateway *gateway, size_t receiver) {
    if (receiver >= gateway->receivers_len) return;
    for (int i = 0; i < MOST_AT_ONCE; i++) {
        ssize_t len = recv(gateway->receivers[receiver].socket, datagram, sizeof datagram, 0);
        if (len < 0 && errno != ECONNREFUSED) return;
        if (len < 0 || !gateway->forward || gateway->out_of_memory) continue;
        take_datagram(gateway, receiver, (size_t)len);
        send_notifications(gateway, now_in_milliseconds());
    }
}

/* ---- what goes to receivers */

/* Sends the message to a receiver, and says so of what it notifies of: `what` it is, or nothing is said. */
static void send_message(struct gateway *gateway, const snmpsec_forward_info *info, const struct notified *of,
                         uint64_t now, const char *what) {
    size_t len = 0;
    if (snmpsec_forward_message(gateway->forward, message, sizeof message, &len)) return;
    if (!send_connected(gateway->receivers[info->receiver].socket, message, len)) {
        gateway->counts.unsent++;
        say_unsent(gateway, of, info->receiver, now, "the system doesn't send it");
    } else if (*what && line_has_room(LINE_NOTIFIED, now)) {
        say(gateway, of, info->receiver, what, "");
    }
}

/* Of an Inform there is a line when it is sent for the first time. */
static void send_inform(struct gateway *gateway, const snmpsec_forward_info *info, uint64_t now) {
    struct informed *inform = informed_of(info->inform);
    bool is_first = info->message == SNMPSEC_INFORM_ITSELF && inform && !inform->times;
    gateway->counts.informs[info->message < INFORM_MESSAGES ? info->message : 0]++;
    if (inform && info->message == SNMPSEC_INFORM_ITSELF) inform->times++;
    send_message(gateway, info, told_of(inform), now, is_first ? "sent as an Inform to" : "");
}

static void take_event(struct gateway *gateway, uint64_t now, snmpsec_forward_event event, int why) {
    snmpsec_forward_info info;
    if (snmpsec_forward_numbers(gateway->forward, &info) || info.receiver >= gateway->receivers_len) return;
    const struct notified *of = notified_of(info.notification);
    gateway->counts.forwards[event]++;
    switch (event) {
    case SNMPSEC_FORWARD_TO_RECEIVER: send_message(gateway, &info, of, now, "sent to"); break;
    case SNMPSEC_FORWARD_UNSENT: say_unsent(gateway, of, info.receiver, now, snmpsec_strerror(why)); break;
    case SNMPSEC_FORWARD_INFORM_BEGINS: informed_waits(info.inform, info.notification); break;
    case SNMPSEC_FORWARD_INFORM_NO_ROOM:
        say_unsent(gateway, of, info.receiver, now, "as many Informs wait as may");
        break;
    case SNMPSEC_FORWARD_INFORM_TO_RECEIVER: send_inform(gateway, &info, now); break;
    case SNMPSEC_FORWARD_INFORM_UNSENT:
        say_unsent(gateway, told_of(informed_of(info.inform)), info.receiver, now, snmpsec_strerror(why));
        break;
    case SNMPSEC_FORWARD_INFORM_GIVEN_UP: say_given_up(gateway, &info, now); break;
    default: break;
    }
}

void send_notifications(struct gateway *gateway, uint64_t now) {
    snmpsec_forward_event event = SNMPSEC_FORWARD_NOTHING;
    int why = 0;
    if (!gateway->forward || gateway->out_of_memory) return;
    for (;;) {
        if (snmpsec_forward_next(gateway->forward, now, new_random(), new_ask_id(), &event, &why)) {
            gateway->out_of_memory = true;
            return;
        }
        if (event == SNMPSEC_FORWARD_NOTHING) return;
        take_event(gateway, now, event, why);
    }
}
