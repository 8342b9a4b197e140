/* What the gateway does until it ends: it takes what comes, and sends what is due. Not proved. */
#ifndef SERVICE_H
#define SERVICE_H

#include "gateway.h"

/* Signals wait from here on until `serve` hears them: a SIGHUP at the start doesn't end it. */
void hold_signals(void);
/* Eight random octets, and a number that didn't come lately. */
uint64_t new_random(void);
uint32_t new_ask_id(void);
/* A send answers the error of a datagram of before, and then sends nothing: so it is tried twice. Whether it was
 * sent. */
bool send_connected(int socket, const uint8_t *octets, size_t len);
/* Says how many datagrams a listening socket lost, where it lost more than before. */
void say_lost(const struct listener *listener, uint64_t before);
/* 0, or the status to end with. */
int serve(struct gateway *gateway, const struct words *words);

#endif
