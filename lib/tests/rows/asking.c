#include "asking.h"
#include <stdlib.h>
#include <string.h>

static int need(int answer) { return answer ? (fail_of(answer), answer) : 0; }

static snmpsec_manager *sealer(void) {
    static snmpsec_manager *manager;
    if (!manager)
        need(snmpsec_manager_new(NULL, 0, (const uint8_t *)SNMPSEC_NO_CLOCKS, sizeof SNMPSEC_NO_CLOCKS - 1, 0,
                                 &manager));
    return manager;
}

snmpsec_octets message_with(snmpsec_octets pdu) {
    static const uint8_t contexts[] = {4, 0, 4, 0};
    static uint8_t scoped[SNMPSEC_LARGEST], made[SNMPSEC_LARGEST];
    size_t len = sizeof contexts + pdu.len, head = 4;
    uint8_t front[] = {0x30, 0x82, (uint8_t)(len >> 8), (uint8_t)len};
    if (len < 0x80) {
        front[1] = front[3];
        head = 2;
    } else if (len < 0x100) {
        front[1] = 0x81;
        front[2] = front[3];
        head = 3;
    }
    memcpy(scoped, front, head);
    memcpy(scoped + head, contexts, sizeof contexts);
    if (pdu.len) memcpy(scoped + head + sizeof contexts, pdu.at, pdu.len);
    need(snmpsec_manager_seal(sealer(), &(snmpsec_sealing){.max_size = SNMPSEC_LARGEST,
                                                           .level = SNMPSEC_NO_AUTH_NO_PRIV,
                                                           .scoped = {scoped, head + len}}));
    need(snmpsec_manager_message(sealer(), made, sizeof made, &len));
    return (snmpsec_octets){made, len};
}

const char *shown(snmpsec_octets datagram) {
    struct growing hex = {0};
    empty(&hex);
    for (size_t i = 0; i < datagram.len; i++) add(&hex, "%02x", datagram.at[i]);
    const char *words[] = {NULL, "show", hex.at, NULL}, *text = printed(words, NULL);
    free(hex.at);
    return text;
}

snmpsec_octets message_of(snmpsec_octets engine, snmpsec_octets user, snmpsec_octets context, snmpsec_pdu pdu,
                          int32_t second, int32_t third, snmpsec_octets list) {
    static uint32_t number;
    static uint8_t scoped[SNMPSEC_LARGEST], made[SNMPSEC_LARGEST];
    size_t len;
    snmpsec_scoped said = {.pdu = pdu,
                           .request_id = (int32_t)++number,
                           .error_status = second,
                           .error_index = third,
                           .context_engine = engine,
                           .context_name = context,
                           .list = list};
    need(snmpsec_scoped_write(&said, scoped, sizeof scoped, &len));
    need(snmpsec_manager_seal(sealer(), &(snmpsec_sealing){.message_id = number,
                                                           .max_size = SNMPSEC_LARGEST,
                                                           .is_reportable = true,
                                                           .level = SNMPSEC_NO_AUTH_NO_PRIV,
                                                           .engine = engine,
                                                           .user = user,
                                                           .scoped = {scoped, len}}));
    need(snmpsec_manager_message(sealer(), made, sizeof made, &len));
    return (snmpsec_octets){made, len};
}

snmpsec_octets sealed_message(snmpsec_manager *by, snmpsec_octets engine, snmpsec_octets user, uint32_t boots,
                              uint32_t time) {
    static uint8_t scoped[128], made[512];
    size_t len;
    need(snmpsec_scoped_write(&(snmpsec_scoped){.pdu = SNMPSEC_GET_REQUEST, .context_engine = engine}, scoped,
                              sizeof scoped, &len));
    need(snmpsec_manager_seal(by, &(snmpsec_sealing){.max_size = SNMPSEC_LARGEST,
                                                     .level = SNMPSEC_AUTH_NO_PRIV,
                                                     .engine = engine,
                                                     .user = user,
                                                     .boots = boots,
                                                     .time = time,
                                                     .scoped = {scoped, len}}));
    need(snmpsec_manager_message(by, made, sizeof made, &len));
    return (snmpsec_octets){made, len};
}

/* Puts an element of at most 127 octets behind others. */
static size_t put(uint8_t *to, uint8_t tag, const void *content, size_t len) {
    if (len) memmove(to + 2, content, len);
    to[0] = tag;
    to[1] = (uint8_t)len;
    return len + 2;
}

snmpsec_octets uncoded_message(snmpsec_octets engine, snmpsec_octets user, snmpsec_level level) {
    static const uint8_t zeros[12], header[] = "\x02\x01\x01\x02\x03\x00\xff\xe3\x04\x01\x04\x02\x01\x03",
                                    pdu[] = "\xa0\x0b\x02\x01\x01\x02\x01\0\x02\x01\0\x30";
    static uint8_t made[256];
    uint8_t security[128], scoped[64], whole[256];
    bool is_auth = level > SNMPSEC_NO_AUTH_NO_PRIV, is_priv = level == SNMPSEC_AUTH_PRIV;
    size_t len = put(security, 4, engine.at, engine.len), at = put(whole, 2, "\3", 1);
    for (int i = 0; i < 2; i++) len += put(security + len, 2, zeros, 1);
    len += put(security + len, 4, user.at, user.len);
    len += put(security + len, 4, zeros, is_auth ? 12 : 0);
    len += put(security + len, 4, zeros, is_priv ? 8 : 0);
    len = put(security, 0x30, security, len);
    at += put(whole + at, 0x30, header, sizeof header - 1);
    whole[at - 4] = (uint8_t)(4 + is_auth + 2 * is_priv);
    at += put(whole + at, 4, security, len);
    len = put(scoped, 4, zeros, 0);
    len += put(scoped + len, 4, zeros, 0);
    memcpy(scoped + len, pdu, sizeof pdu);
    at += put(whole + at, is_priv ? 4 : 0x30, scoped, len + sizeof pdu);
    return (snmpsec_octets){made, put(made, 0x30, whole, at)};
}

snmpsec_octets names_of(const struct arcs *names, size_t count) {
    size_t len = 0, written, room = 1024 * count;
    uint8_t *list = kept(room);
    for (size_t i = 0; i < count; i++, len += written)
        need(snmpsec_binding_write(names[i].at, names[i].len, 5, NULL, 0, list + len, room - len, &written));
    return (snmpsec_octets){list, len};
}

/* The element at the beginning of the octets, which are then those behind it: its content. Its tag goes to *tag. */
static snmpsec_octets element(snmpsec_octets *of, uint8_t *tag) {
    size_t head = 2, len = of->len > 1 ? of->at[1] : 0;
    if (len & 0x80)
        for (size_t octets = len & 0x7f, i = len = 0; i < octets && head < of->len; i++)
            len = len << 8 | of->at[head++];
    if (head > of->len || len > of->len - head) fail("an element");
    snmpsec_octets content = {of->at + head, len};
    *tag = of->at[0];
    *of = (snmpsec_octets){content.at + len, of->len - head - len};
    return content;
}

static int32_t integer(snmpsec_octets *of) {
    uint8_t tag;
    snmpsec_octets content = element(of, &tag);
    uint32_t number = content.len && content.at[0] & 0x80 ? UINT32_MAX : 0;
    for (size_t i = 0; i < content.len; i++) number = number << 8 | content.at[i];
    return (int32_t)number;
}

struct pdu pdu_of(snmpsec_octets of) {
    struct pdu it;
    uint8_t tag;
    snmpsec_octets content = element(&of, &it.tag);
    it.request_id = integer(&content);
    it.second = integer(&content);
    it.third = integer(&content);
    it.list = element(&content, &tag);
    return it;
}

snmpsec_octets pdu_in_scoped(snmpsec_octets scoped) {
    uint8_t tag;
    snmpsec_octets content = element(&scoped, &tag);
    element(&content, &tag);
    element(&content, &tag);
    return content;
}

int32_t time_in(snmpsec_octets datagram) {
    uint8_t tag;
    snmpsec_octets message = element(&datagram, &tag);
    element(&message, &tag);
    element(&message, &tag);
    snmpsec_octets text = element(&message, &tag), security = element(&text, &tag);
    element(&security, &tag);
    element(&security, &tag);
    return integer(&security);
}

struct pdu pdu_of_device(snmpsec_octets datagram) {
    return pdu_of(pdu_in_scoped(datagram));
}
