/* Messages that rows make, and what a gateway sends to a device. Not proved. */
#ifndef ASKING_H
#define ASKING_H

#include "rows.h"

/* A message of a user without keys, with a PDU of these numbers and bindings, that stands until the next. Its msgID and
 * request-id are new ones. */
snmpsec_octets message_of(snmpsec_octets engine, snmpsec_octets user, snmpsec_octets context, snmpsec_pdu pdu,
                          int32_t second, int32_t third, snmpsec_octets list);
/* A message of a user at the level authNoPriv, with this pair of its engine. It stands until the next. */
snmpsec_octets sealed_message(snmpsec_manager *by, snmpsec_octets engine, snmpsec_octets user, uint32_t boots,
                              uint32_t time);
/* A message of boots and time 0 with a code of 12 zeros, if it has one: only its engine, its user and its level count.
 * It stands until the next. */
snmpsec_octets uncoded_message(snmpsec_octets engine, snmpsec_octets user, snmpsec_level level);
/* The bindings of these names, each with no value. They stand until the next row. */
snmpsec_octets names_of(const struct arcs *names, size_t count);

/* A PDU, read: its tag, its numbers and its bindings. */
struct pdu {
    uint8_t tag;
    int32_t request_id, second, third;
    snmpsec_octets list;
};
struct pdu pdu_of(snmpsec_octets octets);
/* The PDU in a scopedPDU; and the time that the security parameters of a message of SNMPv3 say. */
snmpsec_octets pdu_in_scoped(snmpsec_octets scoped);
int32_t time_in(snmpsec_octets datagram);
/* A message of a user without keys that has these octets instead of its PDU, and what the program shows of a
 * message. */
snmpsec_octets message_with(snmpsec_octets pdu);
const char *shown(snmpsec_octets datagram);
/* A message of SNMPv2c, read: its PDU. */
struct pdu pdu_of_device(snmpsec_octets datagram);

#endif
