#include "peek.h"

enum { INTEGER = 2, OCTET_STRING = 4, SEQUENCE = 0x30, AUTH = 1, MOST_LENGTH_OCTETS = 4 };

struct cursor { const uint8_t *at, *end; };

/* Goes behind the tag and the length of an element, definite and of at most four octets: whether it has this tag; how
 * many octets its content has. */
static bool head(struct cursor *cursor, uint8_t tag, size_t *len) {
    if (cursor->end - cursor->at < 2 || *cursor->at++ != tag) return false;
    *len = *cursor->at++;
    if (*len < 0x80) return true;
    size_t octets = *len & 0x7f;
    if (!octets || octets > MOST_LENGTH_OCTETS || (size_t)(cursor->end - cursor->at) < octets) return false;
    for (*len = 0; octets; octets--) *len = *len << 8 | *cursor->at++;
    return true;
}

static bool skip(struct cursor *cursor, uint8_t tag) {
    size_t len;
    if (!head(cursor, tag, &len) || (size_t)(cursor->end - cursor->at) < len) return false;
    cursor->at += len;
    return true;
}

/* Goes behind the msgFlags: whether they are one octet, and which. */
static bool flags_of(struct cursor *cursor, uint8_t *flags) {
    size_t len;
    if (!head(cursor, SEQUENCE, &len) || !skip(cursor, INTEGER) || !head(cursor, SEQUENCE, &len)) return false;
    if (!skip(cursor, INTEGER) || !skip(cursor, INTEGER) || !head(cursor, OCTET_STRING, &len)) return false;
    if (len != 1 || cursor->at == cursor->end) return false;
    *flags = *cursor->at++;
    return true;
}

bool says_authenticated(const uint8_t *datagram, size_t datagram_len) {
    struct cursor cursor = {datagram, datagram + datagram_len};
    uint8_t flags;
    return flags_of(&cursor, &flags) && flags & AUTH;
}

bool says_discovery(const uint8_t *datagram, size_t datagram_len) {
    struct cursor cursor = {datagram, datagram + datagram_len};
    uint8_t flags;
    size_t len;
    if (!flags_of(&cursor, &flags) || flags & AUTH || !skip(&cursor, INTEGER)) return false;
    if (!head(&cursor, OCTET_STRING, &len) || !head(&cursor, SEQUENCE, &len)) return false;
    return head(&cursor, OCTET_STRING, &len) && !len;
}
