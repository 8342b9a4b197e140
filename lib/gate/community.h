/* What lines say of a Trap (RFC 1901), and words of counts. Not proved, and nothing is decided by it. */
#ifndef COMMUNITY_H
#define COMMUNITY_H

#include <stdbool.h>
#include <stddef.h>
#include <stdint.h>

/* The value of snmpTrapOID.0, the second binding of an SNMPv2-Trap, in octets of the datagram: whether it has one (RFC
 * 3416, section 4.2.6). */
bool trap_oid_of(const uint8_t *datagram, size_t len, const uint8_t **oid, size_t *oid_len);

/* The name of an error-status (RFC 3416, section 3), or NULL; they count from 0. */
enum { STATUSES = 19 };
const char *status_name(uint32_t status);
/* The name of a request's PDU by its tag, as "get". */
const char *pdu_name(uint8_t tag);

/* A name in octets as numbers with dots, at most `most` with the 0 at the end; what has no room is left out after two
 * dots. */
void name_words(const uint8_t *octets, size_t len, char *words, size_t most);

#endif
