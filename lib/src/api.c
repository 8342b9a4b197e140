/* The header's calls that want no object over the archive's. Not proved. */
#define _GNU_SOURCE
#include "snmpsec.h"
#include "inside.h"
#include "proved.h"
#include "slices.h"
#include <string.h>

_Static_assert(sizeof(snmpsec_config_place) == 4 * sizeof(size_t), "the numbers of a fault lie one after another");

/* What is reported of a configuration that is nested too deep, as the archive tells of a text that isn't TOML. */
static int told_deep(snmpsec_config_place *place, uint8_t *out, size_t out_len, size_t *written) {
    static const char text[] =
        "refused config toml\nnested more than 16 deep: a configuration has rows of keys and values\n";
    *place = (snmpsec_config_place){.reason = SNMPSEC_NO_TOML};
    *written = sizeof text - 1;
    if (out_len < *written) return SNMPSEC_SHORT_BUFFER;
    memcpy(out, text, *written);
    return SNMPSEC_BAD_CONFIGURATION;
}

int snmpsec_config_fault(const uint8_t *config, size_t config_len, snmpsec_config_place *place, uint8_t *out,
                         size_t out_len, size_t *written) {
    if (!place || !written) return SNMPSEC_BAD_ARGUMENT;
    if (snmpsec_inside_is_deep(config, config_len)) return told_deep(place, out, out_len, written);
    return done_deep(proved_config_fault(in(config, config_len), config_len, (size_t *)place, 4, room(out, out_len),
                                         out_len, written));
}

int snmpsec_status_of(snmpsec_access access, snmpsec_pdu pdu, snmpsec_status *out) {
    if (!out) return SNMPSEC_BAD_ARGUMENT;
    uint32_t status = 0;
    int32_t answer = proved_status_of(access, pdu, &status);
    if (!answer) *out = (snmpsec_status)status;
    return answer;
}

int snmpsec_device_begin(snmpsec_device *device, snmpsec_level level, snmpsec_known known, snmpsec_step *step) {
    if (!device || !step) return SNMPSEC_BAD_ARGUMENT;
    uint32_t first = 0;
    int32_t answer = proved_device_begin(level, known, &first);
    if (answer) return answer;
    *device = (snmpsec_device){.level = level, .sent = first, .counter = -1};
    *step = (snmpsec_step)first;
    return SNMPSEC_OK;
}

int snmpsec_device_hear(snmpsec_device *device, const snmpsec_answered *answered, bool holds_clock,
                        snmpsec_step *step) {
    if (!device || !answered || !step) return SNMPSEC_BAD_ARGUMENT;
    if (answered->kind == SNMPSEC_REPLY_OTHER) {
        *step = SNMPSEC_WAIT;
        return SNMPSEC_OK;
    }
    proved_device_said said = {.sent = device->sent, .again = device->again};
    int32_t answer = proved_device_hear(device->level, answered->kind, (uint32_t)answered->counter,
                                        answered->is_authentic, holds_clock, &said);
    if (answer) return answer;
    device->sent = said.sent;
    device->again = said.again;
    *step = (snmpsec_step)said.step;
    if (answered->kind == SNMPSEC_REPLY_REPORT && (*step == SNMPSEC_WAIT || *step == SNMPSEC_DENIED)) {
        device->counter = answered->counter;
        device->is_authentic = *step == SNMPSEC_DENIED;
    }
    return SNMPSEC_OK;
}

int snmpsec_binding_read(const uint8_t *list, size_t list_len, size_t *at, snmpsec_binding *out) {
    enum { ARCS, TAG, AT, LENGTH, NEXT, PLACES };
    size_t n[PLACES];
    if (!at || !out || *at >= list_len) return SNMPSEC_BAD_ARGUMENT;
    int32_t answer = proved_binding_read(list, list_len, *at, out->arcs, SNMPSEC_MOST_ARCS, n, PLACES);
    if (answer) return answer;
    out->arcs_len = n[ARCS];
    out->tag = (uint8_t)n[TAG];
    out->content = list + n[AT];
    out->content_len = n[LENGTH];
    *at = n[NEXT];
    return SNMPSEC_OK;
}

int snmpsec_binding_write(const uint32_t *arcs, size_t arcs_len, uint8_t tag, const uint8_t *content,
                          size_t content_len, uint8_t *out,
                          size_t out_len, size_t *written) {
    if (!written) return SNMPSEC_BAD_ARGUMENT;
    return proved_binding_write(name(arcs, arcs_len), arcs_len, tag, in(content, content_len), content_len,
                                room(out, out_len), out_len, written);
}

int snmpsec_scoped_write(const snmpsec_scoped *s, uint8_t *out, size_t out_len, size_t *written) {
    if (!s || !written) return SNMPSEC_BAD_ARGUMENT;
    return proved_scoped_write(in(s->context_engine.at, s->context_engine.len), s->context_engine.len,
                               in(s->context_name.at, s->context_name.len),
                               s->context_name.len, s->pdu, s->request_id, s->error_status, s->error_index,
                               in(s->list.at, s->list.len),
                               s->list.len, room(out, out_len), out_len, written);
}

bool snmpsec_value_is(uint8_t tag, const uint8_t *content, size_t content_len) {
    return proved_value_is(tag, in(content, content_len), content_len) == 1;
}

int snmpsec_password_key(snmpsec_protocol protocol, const uint8_t *password, size_t password_len, uint8_t *out,
                         size_t out_len, size_t *written) {
    return written ? done(proved_password_key(protocol, in(password, password_len), password_len, room(out, out_len),
                                              out_len, written))
                   : SNMPSEC_BAD_ARGUMENT;
}

int snmpsec_localise(snmpsec_protocol protocol, const uint8_t *key, size_t key_len, const uint8_t *engine,
                     size_t engine_len, uint8_t *out,
                     size_t out_len, size_t *written) {
    return written ? done(proved_localise(protocol, in(key, key_len), key_len, in(engine, engine_len), engine_len,
                                          room(out, out_len), out_len,
                                          written))
                   : SNMPSEC_BAD_ARGUMENT;
}

int snmpsec_mac(snmpsec_protocol protocol, const uint8_t *key, size_t key_len, const uint8_t *front, size_t front_len,
                size_t zeros,
                const uint8_t *back, size_t back_len, uint8_t *out, size_t out_len, size_t *written) {
    return written ? done(proved_mac(protocol, in(key, key_len), key_len, in(front, front_len), front_len, zeros,
                                     in(back, back_len), back_len,
                                     room(out, out_len), out_len, written))
                   : SNMPSEC_BAD_ARGUMENT;
}

int snmpsec_seal(const uint8_t *key, size_t key_len, uint32_t boots, uint32_t time, const uint8_t *salt,
                 size_t salt_len, uint8_t *text,
                 size_t text_len) {
    return done(proved_seal(in(key, key_len), key_len, boots, time, in(salt, salt_len), salt_len, room(text, text_len),
                            text_len));
}

int snmpsec_open(const uint8_t *key, size_t key_len, uint32_t boots, uint32_t time, const uint8_t *salt,
                 size_t salt_len, uint8_t *text,
                 size_t text_len) {
    return done(proved_open(in(key, key_len), key_len, boots, time, in(salt, salt_len), salt_len, room(text, text_len),
                            text_len));
}

void snmpsec_wipe(void *octets, size_t octets_len) { snmpsec_inside_wipe(octets, octets_len); }
