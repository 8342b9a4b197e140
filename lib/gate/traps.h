/* Traps of devices: which device sent one, and what lines say of that. Not proved. */
#ifndef TRAPS_H
#define TRAPS_H

#include <stddef.h>

struct gateway;

/* Takes what came to a socket at which Traps are taken. */
void hear_traps(struct gateway *gateway, size_t listener);
/* Datagrams of devices have communities: nothing is left of the last one. */
void wipe_traps(void);

#endif
