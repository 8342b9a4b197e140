/* What a datagram says of itself, looked at before the library reads it. Not proved. */
#ifndef PEEK_H
#define PEEK_H

#include <stdbool.h>
#include <stddef.h>
#include <stdint.h>

/* Whether the msgFlags of an SNMPv3 message say that it is authenticated (RFC 3412, section 6.4). Nothing that the
 * library accepts with authentication says otherwise. */
bool says_authenticated(const uint8_t *datagram, size_t datagram_len);
/* Whether it is without authentication and names no engine: a discovery (RFC 3414, section 4). */
bool says_discovery(const uint8_t *datagram, size_t datagram_len);

#endif
