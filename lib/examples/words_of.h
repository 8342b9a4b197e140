/* Words of a command line, read whole: what isn't just the number, octets or name is no such thing. Not proved.
 *
 * Each call answers 0, or -1 where the word is none, and then writes nothing that counts. */
#ifndef WORDS_OF_H
#define WORDS_OF_H

#include <stddef.h>
#include <stdint.h>

/* A whole number in decimal from `least` to `most`, both at most 4294967295. */
int number_of(const char *word, uint32_t least, uint32_t most, uint32_t *number);
/* A whole number in decimal, with a minus sign before it or not, from `least` to `most`. */
int integer_of(const char *word, int64_t least, int64_t most, int64_t *number);
/* The octets of pairs of hex digits, `least` to `most` of them. */
int octets_of(const char *word, size_t least, size_t most, uint8_t *octets, size_t *octets_len);
/* An engine ID, 5 to 32 octets of which not all are 00 nor all ff (SnmpEngineID, RFC 3411, section 5), as net-snmp's
 * tools print and take one: in pairs of hex digits, with 0x before them or not, and with a blank or a colon between the
 * pairs or not. */
int engine_of(const char *word, uint8_t engine[32], size_t *engine_len);
/* The arcs of a name in dotted decimal, with a dot before it or not, 1 to `most`, each at most 4294967295. */
int arcs_of(const char *word, size_t most, uint32_t *arcs, size_t *arcs_len);

#endif
