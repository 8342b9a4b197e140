/* The parts of the gateway that say lines: gate_parts
 *
 * A datagram of SNMPv2c is cut at every length and has each octet turned, before a page that can't be read. Not proved. */
#include "checks.h"
#include "community.h"
#include "lines.h"
#include <stdio.h>
#include <string.h>

/* A datagram of two bindings, the second of which is an OBJECT IDENTIFIER. */
static const uint8_t trap[] = {0x30, 0x35, 2, 1, 1, 4, 5, 'r', 'e', 'a', 'd', 's', 0xA7, 0x29, 2, 1, 1, 2, 1, 0, 2, 1, 0, 0x30, 0x1e, 0x30, 0x0d, 6, 8,
                               0x2b, 6, 1, 2, 1, 1, 3, 0, 0x43, 1, 7, 0x30, 0x0d, 6, 8, 0x2b, 6, 1, 2, 1, 1, 5, 0, 6, 1, 0x2b};

static void traps(void) {
    uint8_t copy[sizeof trap];
    const uint8_t *oid = NULL;
    size_t oid_len = 0;
    check("a Trap", 1, trap_oid_of(fenced(trap, sizeof trap), sizeof trap, &oid, &oid_len));
    check("has its name", 1, oid_len == 1 && *oid == 0x2b);
    for (size_t len = 0; len < sizeof trap; len++) check("a cut datagram", 0, trap_oid_of(fenced(trap, len), len, &oid, &oid_len));
    for (size_t i = 0; i < sizeof trap; i++)
        for (int octet = 0; octet < 256; octet++) {
            memcpy(copy, trap, sizeof trap);
            copy[i] = (uint8_t)octet;
            (void)trap_oid_of(fenced(copy, sizeof copy), sizeof copy, &oid, &oid_len);
        }
    check("a length of five octets", 0, trap_oid_of((const uint8_t *)"\x30\x85\0\0\0\0\1", 7, &oid, &oid_len));
    check("no octets", 0, trap_oid_of(NULL, 0, &oid, &oid_len));
    check("genErr", 0, strcmp(status_name(5), "genErr"));
    check("no such status", 1, status_name(19) == NULL);
}

/* ---- words */

static void name_is(const char *octets, size_t len, size_t most, const char *expected) {
    char words[64];
    name_words(fenced((const uint8_t *)octets, len), len, words, most);
    check(expected, 0, strcmp(words, expected));
}

static void names(void) {
    name_is("\x2b\x06\x01", 3, 64, "1.3.6.1");
    name_is("\x88\x37\x03", 3, 64, "2.999.3");
    name_is("\x00", 1, 64, "0.0");
    name_is("\x2b\x8f\xff\xff\xff\x7f", 6, 64, "1.3.4294967295");
    name_is("\x2b\x06\x01\x04\x01", 5, 9, "1.3.6..");
    name_is("\x2b\x86", 2, 64, "1.3");
    name_is("", 0, 64, "");
}

static void octets_shown(void) {
    char words[12];
    shown((const uint8_t *)"a b\\\n\xff", 6, words, sizeof words);
    check("octets that are hard to print", 0, strcmp(words, "a\\x20b\\x5c"));
}

/* At most ten lines of a kind a second; the eleventh isn't written, and the next second has room again. */
static void limits(void) {
    for (int i = 0; i < 10; i++) check("a line has room", 1, line_has_room(LINE_REFUSED, 5000));
    check("the eleventh hasn't", 0, line_has_room(LINE_REFUSED, 5999));
    check("one of another kind has", 1, line_has_room(LINE_SET, 5999));
    check("the next second has", 1, line_has_room(LINE_REFUSED, 6000));
}

int main(void) {
    traps();
    names();
    octets_shown();
    limits();
    return checks_told();
}
