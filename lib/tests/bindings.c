/* Variable bindings as octets: bindings CONFIG CAPTURED-LOG
 *
 * Arguments out of their ranges, buffers that are too short, refused memory, and any octets instead of a list. Not proved. */
#include "checks.h"
#include <stdio.h>
#include <string.h>

enum { OCTET_STRING = 0x04 };
static const uint8_t *const nothing = (const uint8_t *)"";
static const uint32_t name[] = {1, 3, 6, 1, 2, 1, 1, 1, 0};
enum { NAME = sizeof name / sizeof *name };

static int write_named(const uint32_t *arcs, size_t arcs_len, uint8_t tag, size_t content_len) {
    static const uint8_t content[SNMPSEC_LARGEST + 1];
    static uint8_t out[SNMPSEC_LARGEST + 100];
    size_t written = 0;
    return snmpsec_binding_write(arcs, arcs_len, tag, content, content_len, out, sizeof out, &written);
}

static void write_arguments(void) {
    static const uint32_t many[SNMPSEC_MOST_ARCS + 1] = {1, 3}, wrong_first[] = {3, 1}, wrong_second[] = {1, 40};
    check("write", 0, write_named(name, NAME, OCTET_STRING, 5));
    check("write: 128 arcs", 0, write_named(many, SNMPSEC_MOST_ARCS, OCTET_STRING, 0));
    check("write: 129 arcs", SNMPSEC_BAD_ARGUMENT, write_named(many, SNMPSEC_MOST_ARCS + 1, OCTET_STRING, 0));
    check("write: no arcs", SNMPSEC_BAD_ARGUMENT, write_named(many, 0, OCTET_STRING, 0));
    check("write: first arc", SNMPSEC_BAD_ARGUMENT, write_named(wrong_first, 2, OCTET_STRING, 0));
    check("write: second arc", SNMPSEC_BAD_ARGUMENT, write_named(wrong_second, 2, OCTET_STRING, 0));
    check("write: a tag of more octets", SNMPSEC_BAD_ARGUMENT, write_named(name, NAME, 0x1f, 0));
    check("write: the longest content", 0, write_named(name, NAME, OCTET_STRING, SNMPSEC_LARGEST));
    check("write: too long", SNMPSEC_BAD_ARGUMENT, write_named(name, NAME, OCTET_STRING, SNMPSEC_LARGEST + 1));
}

/* What is written is read again, from buffers of its length before a page that nobody may touch. */
static void round_trip(void) {
    static const uint8_t empty[64];
    uint8_t *out = fenced(empty, 0);
    snmpsec_binding one;
    size_t len = 0, written = 0, at = 0;
    check("no room", SNMPSEC_SHORT_BUFFER, snmpsec_binding_write(name, NAME, OCTET_STRING, (const uint8_t *)"hello", 5, out, 0, &len));
    out = fenced(empty, len);
    check("room", 0, snmpsec_binding_write(name, NAME, OCTET_STRING, (const uint8_t *)"hello", 5, out, len, &written));
    check("as much as was wanted", (long long)len, (long long)written);
    at = len + 1;
    check("behind the list", SNMPSEC_BAD_ARGUMENT, snmpsec_binding_read(out, len, &at, &one));
    at = len;
    check("at its end", SNMPSEC_BAD_ARGUMENT, snmpsec_binding_read(out, len, &at, &one));
    check("the place stays", (long long)len, (long long)at);
    at = 1;
    check("inside of it", SNMPSEC_BAD_BINDINGS, snmpsec_binding_read(out, len, &at, &one));
    check("the place stays", 1, (long long)at);
    at = 0;
    check("no place", SNMPSEC_BAD_ARGUMENT, snmpsec_binding_read(out, len, NULL, &one));
    check("no binding to be written", SNMPSEC_BAD_ARGUMENT, snmpsec_binding_read(out, len, &at, NULL));
    check("no list", SNMPSEC_BAD_ARGUMENT, snmpsec_binding_read(NULL, 0, &at, &one));
    check("no count", SNMPSEC_BAD_ARGUMENT, snmpsec_binding_write(name, NAME, OCTET_STRING, NULL, 0, out, len, NULL));
    check("read", 0, snmpsec_binding_read(out, len, &at, &one));
    check("its name", 1, one.arcs_len == NAME && !memcmp(one.arcs, name, sizeof name));
    check("its tag", OCTET_STRING, one.tag);
    check("its content", 1, one.content_len == 5 && !memcmp(one.content, "hello", 5));
    check("its end", (long long)len, (long long)at);
}

static void read_at(const uint8_t *list, size_t list_len, size_t begin, long *found) {
    snmpsec_binding one;
    size_t at = begin;
    int answer = snmpsec_binding_read(list, list_len, &at, &one);
    if (answer) {
        check("no binding", begin < list_len ? SNMPSEC_BAD_BINDINGS : SNMPSEC_BAD_ARGUMENT, answer);
        check("the place stays", (long long)begin, (long long)at);
        return;
    }
    (*found)++;
    check("its arcs", 1, one.arcs_len >= 1 && one.arcs_len <= SNMPSEC_MOST_ARCS);
    check("its content is in the list", 1, list + begin < one.content && one.content <= list + at);
    check("its end is that of its content", 1, list + at == one.content + one.content_len);
    check("its end is in the list", 1, at <= list_len);
}

/* A captured datagram, read as a list from each place on, whole and cut. */
static void hostile(void) {
    long found = 0;
    for (size_t i = 0; i < datagrams_len; i++)
        for (size_t cut = 0; cut <= lengths[i]; cut++) {
            const uint8_t *list = fenced(datagrams[i], cut);
            for (size_t at = 0; at <= cut; at++) read_at(list, cut, at, &found);
        }
    printf("%ld bindings found\n", found);
    check("some bindings", 1, found > 0);
}

static void refused_memory(void) {
    uint8_t out[64];
    size_t written = 0;
    int answer = SNMPSEC_OUT_OF_MEMORY;
    for (long n = 0; n < 100 && answer; n++) {
        left = n;
        answer = snmpsec_binding_write(name, NAME, 0x05, nothing, 0, out, sizeof out, &written);
        left = -1;
        if (answer) check("out of memory", SNMPSEC_OUT_OF_MEMORY, answer);
    }
    check("written with memory", 0, answer);
}

int main(int argc, char **argv) {
    read_capture(argc, argv);
    write_arguments();
    round_trip();
    hostile();
    refused_memory();
    return checks_told();
}
