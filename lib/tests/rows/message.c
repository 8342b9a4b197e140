/* Rows on messages and their layers, as the program shows them, and on variable bindings and values (RFC 3412, section
 * 6; RFC 3414, section 2.4; RFC 3416, section 3). Not proved. */
#include "asking.h"
#include "stations.h"
#include <stdio.h>
#include <stdlib.h>
#include <string.h>

static void need(int answer) {
    if (answer) fail_of(answer);
}

/* The refusal of a PDU in the open, which the program alone tells. */
enum { NOT_PDU = 5 };

/* How a refusal is reported in words. */
static const char *words_of(int refusal) {
    switch (refusal) {
    case SNMPSEC_NOT_MESSAGE: return "not a message";
    case SNMPSEC_BAD_VERSION: return "not version 3";
    case SNMPSEC_NOT_SECURITY: return "not security parameters";
    case SNMPSEC_NOT_SCOPED: return "not a scoped PDU";
    case NOT_PDU: return "not a PDU";
    default: return "another refusal";
    }
}

/* What is reported of a refusal that the program printed, if it is one; `offset` octets stand before the place 0. */
static bool is_told(const char *text, size_t offset) {
    const char *place = strstr(text, " at ");
    if (strncmp(text, "refused ", 8)) return false;
    say("%s", words_of(atoi(text + 8)));
    if (place) say(" at octet %zu", strtoul(place + 4, NULL, 10) - offset);
    return true;
}

/* `layers DATAGRAM`: why a layer refuses it. */
static void layers(void) {
    if (!is_told(shown(octets()), 0)) say("read");
}

/* `canonical DATAGRAM`: its canonical spelling, or why it has none. */
static void canonical(void) {
    const char *text = shown(octets()), *line = strstr(text, "\ncanonical ");
    if (!is_told(text, 0)) say("%.*s", (int)strcspn(line + 11, "\n"), line + 11);
}

/* `read_pdu OCTETS AT END`: the PDU there, as the data of a message: its tag, its three numbers and its bindings, or
 * the fault. */
static void read_pdu(void) {
    snmpsec_octets whole = octets();
    size_t at = number32(), end = number32();
    if (at > end || end > whole.len) fail("places of the octets");
    snmpsec_octets message = message_with((snmpsec_octets){whole.at + at, end - at});
    const char *text = shown(message), *line = strstr(text, "\npdu ");
    if (is_told(text, message.len - (end - at) - at)) return;
    say("tag %.*s", (int)strcspn(line + 5, "\n"), line + 5);
    while ((line = strstr(line + 1, "\nbinding "))) {
        int name = (int)strcspn(line + 9, " "), tag = (int)strcspn(line + 10 + name, " ");
        const char *content = line + 11 + name + tag;
        say(" %.*s=%.*s:%.*s", name, line + 9, tag, line + 10 + name, (int)strcspn(content, "\n"), content);
    }
}

/* The PDU with other numbers, written around its bindings. */
static snmpsec_octets written(const struct pdu *pdu, int32_t id, int32_t second, int32_t third) {
    static uint8_t scoped[SNMPSEC_LARGEST];
    size_t len;
    need(snmpsec_scoped_write(&(snmpsec_scoped){.pdu = (snmpsec_pdu)pdu->tag,
                                                .request_id = id,
                                                .error_status = second,
                                                .error_index = third,
                                                .list = pdu->list},
                              scoped, sizeof scoped, &len));
    return pdu_in_scoped((snmpsec_octets){scoped, len});
}

/* `write_pdu PDU`: whether it is written as it is. */
static void write_pdu(void) {
    snmpsec_octets of = octets();
    struct pdu pdu = pdu_of(of);
    say(is_same(of, written(&pdu, pdu.request_id, pdu.second, pdu.third)) ? "true" : "false");
}

/* `written_pdu_len ID SECOND THIRD PDU`: how long a PDU is of these numbers and the bindings of this one. */
static void written_pdu_len(void) {
    int32_t id = signed32(), second = signed32(), third = signed32();
    struct pdu pdu = pdu_of(octets());
    say("list %zu pdu %zu", pdu.list.len, written(&pdu, id, second, third).len);
}

static const uint32_t name_of_value[] = {1, 3};

/* `binding_len CONTENT`: how long the binding of 1.3 is to this OCTET STRING. */
static size_t binding_of(snmpsec_octets content, uint8_t *out, size_t room, int *answer) {
    size_t len = 0;
    *answer = snmpsec_binding_write(name_of_value, 2, 4, content.at, content.len, out, room, &len);
    if (*answer == SNMPSEC_OUT_OF_MEMORY) lack();
    return len;
}

static void binding_len(void) {
    static uint8_t out[1 << 17];
    int answer;
    size_t len = binding_of(octets(), out, sizeof out, &answer);
    if (answer) say("none");
    else say("%zu", len);
}

/* `write_value CONTENT`: how long the scopedPDU is of a GetRequest that binds 1.3 to this OCTET STRING. */
static void write_value(void) {
    static uint8_t list[1 << 17], scoped[1 << 17];
    int answer;
    size_t len = binding_of(octets(), list, sizeof list, &answer);
    if (!answer)
        answer = snmpsec_scoped_write(&(snmpsec_scoped){.pdu = SNMPSEC_GET_REQUEST, .list = {list, len}}, scoped,
                                      sizeof scoped, &len);
    if (answer && answer != SNMPSEC_TOO_LARGE && answer != SNMPSEC_BAD_ARGUMENT) fail_of(answer);
    if (answer) say("longer than a datagram");
    else say("len %zu", len);
}

/* `read_binding OCTETS AT END`: the binding there: its name, the tag and the content of its value, and its end. */
static void read_binding(void) {
    snmpsec_octets of = octets();
    size_t at = number32(), end = number32();
    snmpsec_binding it;
    if (end > of.len) fail("places of the octets");
    int answer = snmpsec_binding_read(of.at, end, &at, &it);
    if (answer == SNMPSEC_OUT_OF_MEMORY) lack();
    if (answer) {
        say("none");
        return;
    }
    struct arcs name = {.len = it.arcs_len};
    memcpy(name.at, it.arcs, sizeof name.at);
    show_arcs(&name);
    say(" %02x ", it.tag);
    show((snmpsec_octets){it.content, it.content_len});
    say(" end %zu", at);
}

void message_row(const char *kind) {
    if (!strcmp(kind, "layers")) layers();
    else if (!strcmp(kind, "canonical")) canonical();
    else if (!strcmp(kind, "read_pdu")) read_pdu();
    else if (!strcmp(kind, "write_pdu")) write_pdu();
    else if (!strcmp(kind, "written_pdu_len")) written_pdu_len();
    else if (!strcmp(kind, "binding_len")) binding_len();
    else if (!strcmp(kind, "write_value")) write_value();
    else if (!strcmp(kind, "read_binding")) read_binding();
    else if (!strcmp(kind, "value_is")) {
        uint8_t tag = octet();
        snmpsec_octets content = octets();
        say(snmpsec_value_is(tag, content.at, content.len) ? "true" : "false");
    } else fail("no row is of this kind");
}
