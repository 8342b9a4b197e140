/* Who is sent notifications: sockets connected to receivers, what goes to them and comes from them, and what lines say
 * of that. Not proved. */
#ifndef RECEIVERS_H
#define RECEIVERS_H

#include "sockets.h"
#include <snmpsec.h>
#include <stddef.h>

struct gateway;

/* A socket connected to a receiver, and "user ann at 192.0.2.50:162". */
enum { MOST_RECEIVERS = 256, RECEIVER_WORDS = ADDRESS_WORDS + 160 };
struct receiver {
    int socket;
    char words[RECEIVER_WORDS];
};

/* Opens a socket connected to each receiver: 0, or 1 and none is open. */
int open_receivers(snmpsec_gate *gate, struct receiver *receivers, size_t *len);
void close_receivers(struct receiver *receivers, size_t *len);

/* Prints how each receiver is notified, and of which devices. */
void say_receivers(snmpsec_gate *gate);

/* Takes what came from a receiver: its engine's Reports, and its answers to Informs. */
void hear_receiver(struct gateway *gateway, size_t receiver);
/* Sends what is due to receivers by now. */
void send_notifications(struct gateway *gateway, uint64_t now);
/* Notifications may be secret: nothing is left of the last datagrams. */
void wipe_notifications(void);

#endif
