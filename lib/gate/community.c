#include "community.h"
#include <inttypes.h>
#include <snmpsec.h>
#include <stdio.h>

enum { INTEGER = 0x02, OCTET_STRING = 0x04, OBJECT_IDENTIFIER = 0x06, SEQUENCE = 0x30 };

/* What isn't read yet of a text. */
struct rest { const uint8_t *at; size_t len; };

/* A length, of at most four octets behind the first: false where it is another one, or longer than what is left. */
static bool take_length(struct rest *rest, size_t *len) {
    if (!rest->len) return false;
    *len = *rest->at++;
    rest->len--;
    if (*len < 0x80) return *len <= rest->len;
    size_t octets = *len & 0x7f;
    if (!octets || octets > 4 || octets > rest->len) return false;
    for (*len = 0; octets; octets--, rest->len--) *len = *len << 8 | *rest->at++;
    return *len <= rest->len;
}

/* The next element, and its tag. */
static bool take_any(struct rest *rest, uint8_t *tag, struct rest *content) {
    if (!rest->len) return false;
    *tag = *rest->at++;
    rest->len--;
    if (!take_length(rest, &content->len)) return false;
    content->at = rest->at;
    rest->at += content->len;
    rest->len -= content->len;
    return true;
}

static bool take(struct rest *rest, uint8_t wanted, struct rest *content) {
    uint8_t tag;
    return take_any(rest, &tag, content) && tag == wanted;
}

/* An INTEGER in 32 bits, which these numbers have. */
static bool take_number(struct rest *rest, uint32_t *number) {
    struct rest content;
    if (!take(rest, INTEGER, &content) || !content.len || content.len > 5) return false;
    for (*number = 0; content.len; content.len--) *number = *number << 8 | *content.at++;
    return true;
}

/* The bindings of the PDU. */
static bool take_bindings(struct rest rest, struct rest *list) {
    struct rest message, community, inner;
    uint32_t number;
    uint8_t tag;
    return take(&rest, SEQUENCE, &message) && take_number(&message, &number)
        && take(&message, OCTET_STRING, &community)
        && take_any(&message, &tag, &inner) && take_number(&inner, &number)
        && take_number(&inner, &number)
        && take_number(&inner, &number) && take(&inner, SEQUENCE, list);
}

bool trap_oid_of(const uint8_t *datagram, size_t len, const uint8_t **oid, size_t *oid_len) {
    struct rest list, first, second, name, value;
    if (!take_bindings((struct rest){datagram, len}, &list) || !take(&list, SEQUENCE, &first)
        || !take(&list, SEQUENCE, &second)
        || !take(&second, OBJECT_IDENTIFIER, &name) || !take(&second, OBJECT_IDENTIFIER, &value))
        return false;
    *oid = value.at;
    *oid_len = value.len;
    return true;
}

static const char *const statuses[STATUSES] = {
    "noError", "tooBig", "noSuchName", "badValue", "readOnly", "genErr", "noAccess", "wrongType", "wrongLength",
    "wrongEncoding", "wrongValue",
    "noCreation", "inconsistentValue", "resourceUnavailable", "commitFailed", "undoFailed", "authorizationError",
    "notWritable", "inconsistentName"};

const char *status_name(uint32_t status) { return status < STATUSES ? statuses[status] : NULL; }

const char *pdu_name(uint8_t tag) {
    switch (tag) {
    case SNMPSEC_GET_REQUEST: return "get";
    case SNMPSEC_GET_NEXT_REQUEST: return "getnext";
    case SNMPSEC_GET_BULK_REQUEST: return "getbulk";
    case SNMPSEC_SET_REQUEST: return "set";
    default: return "request";
    }
}

/* Writes an arc, and a dot before all but the first: false where there is no room for it and two dots. */
static bool write_arc(uint64_t arc, char *words, size_t most, size_t *at) {
    char text[24];
    int len = snprintf(text, sizeof text, "%s%" PRIu64, *at ? "." : "", arc);
    if (*at + (size_t)len + 3 > most) return false;
    *at += (size_t)snprintf(words + *at, most - *at, "%s", text);
    return true;
}

void name_words(const uint8_t *octets, size_t len, char *words, size_t most) {
    uint64_t arc = 0;
    size_t at = 0;
    bool fits = true;
    words[0] = 0;
    for (size_t i = 0; i < len && fits; i++) {
        arc = arc << 7 | (octets[i] & 0x7f);
        if (octets[i] & 0x80) continue;
        if (!at) {
            uint64_t first = arc < 80 ? arc / 40 : 2;
            fits = write_arc(first, words, most, &at);
            arc -= 40 * first;
        }
        fits = fits && write_arc(arc, words, most, &at);
        arc = 0;
    }
    if (!fits) snprintf(words + at, most - at, "..");
}
