#define _GNU_SOURCE
#include "traps.h"
#include "gateway.h"
#include "lines.h"
#include "notified.h"
#include "service.h"
#include "sockets.h"
#include <snmpsec.h>
#include <stdio.h>

/* as many datagrams of a socket are taken at a wake */
enum { MOST_AT_ONCE = 64 };

static uint8_t datagram[65536];

void wipe_traps(void) { snmpsec_wipe(datagram, sizeof datagram); }

static void oid_words(size_t len, char *words) {
    const uint8_t *oid;
    size_t oid_len;
    snprintf(words, OID_WORDS, "a Trap");
    if (trap_oid_of(datagram, len, &oid, &oid_len)) name_words(oid, oid_len, words, OID_WORDS);
}

/* Keeps for lines what a notification tells. */
static void note_waits(struct gateway *gateway, size_t device, size_t len) {
    snmpsec_forward_info info;
    char oid[OID_WORDS];
    gateway->devices[device].counts.notifies++;
    if (snmpsec_forward_numbers(gateway->forward, &info)) return;
    oid_words(len, oid);
    notified_waits(info.notification, device, oid);
}

/* Says why a device's datagram isn't sent on. */
static void say_dropped(const struct device *device, size_t len, snmpsec_forward_event event) {
    char oid[OID_WORDS];
    oid_words(len, oid);
    switch (event) {
    case SNMPSEC_FORWARD_UNREADABLE:
        line("device %s sends a datagram that isn't a message of SNMPv2c", device->words);
        break;
    case SNMPSEC_FORWARD_NOT_TRAP:
        line("device %s sends a message of SNMPv2c that isn't an SNMPv2-Trap", device->words);
        break;
    case SNMPSEC_FORWARD_NO_TRAP_OID:
        line("device %s sends a Trap whose second binding isn't snmpTrapOID.0", device->words);
        break;
    case SNMPSEC_FORWARD_OTHER_COMMUNITY: line("device %s sends a Trap with another community", device->words); break;
    case SNMPSEC_FORWARD_FOR_NOBODY:
        line("device %s notifies of %s: no receiver may be notified of it", device->words, oid);
        break;
    case SNMPSEC_FORWARD_NO_ROOM:
        line("device %s notifies of %s: no room, as many notifications wait as may", device->words, oid);
        break;
    default: break;
    }
}

/* Takes the datagram as one of this device: false where it has another community. */
static bool take_trap(struct gateway *gateway, size_t number, size_t len, snmpsec_forward_event *event) {
    if (snmpsec_forward_take_trap(gateway->forward, number, datagram, len, event)) {
        gateway->out_of_memory = true;
        return true;
    }
    return *event != SNMPSEC_FORWARD_OTHER_COMMUNITY;
}

/* Devices at one address are distinguished by their communities. */
static void take_datagram(struct gateway *gateway, const struct client *from, size_t len) {
    snmpsec_forward_event event = SNMPSEC_FORWARD_NOTHING;
    size_t device = gateway->devices_len;
    uint64_t now = now_in_milliseconds();
    for (size_t i = 0; i < gateway->devices_len; i++) {
        if (!are_of_one_host(&gateway->devices[i].address, &from->from)) continue;
        device = i;
        if (take_trap(gateway, i, len, &event)) break;
    }
    if (gateway->out_of_memory) return;
    if (device == gateway->devices_len) {
        char words[ADDRESS_WORDS];
        gateway->counts.traps_of_nobody++;
        if (!line_has_room(LINE_NOT_NOTIFIED, now)) return;
        address_words(&from->from, words);
        line("a Trap from %s: no device has this address", words);
        return;
    }
    gateway->counts.forwards[event]++;
    if (event == SNMPSEC_FORWARD_WAITS) note_waits(gateway, device, len);
    else if (line_has_room(LINE_NOT_NOTIFIED, now)) say_dropped(&gateway->devices[device], len, event);
}

void hear_traps(struct gateway *gateway, size_t listener) {
    struct client from;
    struct listener *at = &gateway->trap_listeners[listener];
    uint64_t lost = at->lost;
    for (int i = 0; i < MOST_AT_ONCE; i++) {
        ssize_t len = receive_from(at, &from, datagram, sizeof datagram);
        if (len < 0) break;
        if (gateway->forward && !gateway->out_of_memory) take_datagram(gateway, &from, (size_t)len);
    }
    say_lost(at, lost);
}
