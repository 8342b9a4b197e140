/* The header's calls on a gateway over the archive's. They go deeper than those on an agent. Not proved. */
#define _GNU_SOURCE
#include "snmpsec.h"
#include "inside.h"
#include "proved.h"
#include "slices.h"
#include <string.h>

int snmpsec_gate_fault(const uint8_t *config, size_t config_len, uint8_t *out, size_t out_len, size_t *written) {
    static const char deep[] =
        "refused config nesting\nnested more than 16 deep: a configuration has rows of keys and values\n";
    if (!written) return SNMPSEC_BAD_ARGUMENT;
    if (!snmpsec_inside_is_deep(config, config_len))
        return done_deep(proved_gate_fault(in(config, config_len), config_len, room(out, out_len), out_len, written));
    *written = sizeof deep - 1;
    if (out_len < *written) return SNMPSEC_SHORT_BUFFER;
    memcpy(out, deep, *written);
    return SNMPSEC_BAD_CONFIGURATION;
}

int snmpsec_gate_new(const uint8_t *config, size_t config_len, uint32_t boots, uint64_t started, snmpsec_gate **out) {
    void *handle = NULL;
    if (!out) return SNMPSEC_BAD_ARGUMENT;
    *out = NULL;
    if (snmpsec_inside_is_deep(config, config_len)) return SNMPSEC_BAD_CONFIGURATION;
    int answer = done_deep(proved_gate_new(in(config, config_len), config_len, boots, started, &handle));
    if (!answer) *out = handle;
    return answer;
}

int snmpsec_gate_read(const uint8_t *config, size_t config_len, snmpsec_gate **out) {
    void *handle = NULL;
    if (!out) return SNMPSEC_BAD_ARGUMENT;
    *out = NULL;
    if (snmpsec_inside_is_deep(config, config_len)) return SNMPSEC_BAD_CONFIGURATION;
    int answer = done_deep(proved_gate_read(in(config, config_len), config_len, &handle));
    if (!answer) *out = handle;
    return answer;
}

void snmpsec_gate_free(snmpsec_gate *gate) {
    if (!gate) return;
    snmpsec_inside_free_handle(gate, proved_gate_clear);
    snmpsec_inside_wipe_deep_stack();
}

int snmpsec_gate_setting(snmpsec_gate *gate, snmpsec_gate_text text, size_t position, uint8_t *out, size_t out_len,
                         size_t *written) {
    return gate && written ? proved_gate_copy(gate, PROVED_GATE_SETTING, text, position, room(out, out_len), out_len,
                                              written) : SNMPSEC_BAD_ARGUMENT;
}

/* If it answers 0, `said` has what the call reports. */
static int32_t ask_gate(snmpsec_gate *gate, proved_gate_asked asked, proved_gate_said *said) {
    fit(&asked.client);
    fit(&asked.datagram);
    asked.arcs.at = name(asked.arcs.at, asked.arcs.len);
    return proved_gate_call(gate, &asked, said);
}

/* The same of a call that tells an event. */
static int ask_event(snmpsec_gate *gate, proved_gate_asked asked, proved_gate_said *said, snmpsec_gate_event *event) {
    int answer = done_deep(ask_gate(gate, asked, said));
    if (!answer) *event = (snmpsec_gate_event)said->event;
    return answer;
}

int snmpsec_gate_take_client(snmpsec_gate *gate, uint64_t now, const uint8_t *client, size_t client_len,
                             const uint8_t *datagram,
                             size_t datagram_len, snmpsec_gate_event *event) {
    proved_gate_said said = {0};
    if (!gate || !event) return SNMPSEC_BAD_ARGUMENT;
    return ask_event(gate, (proved_gate_asked){.call = PROVED_GATE_TAKE_CLIENT, .moment = now,
                                               .client = {client, client_len},
                                               .datagram = {datagram, datagram_len}}, &said, event);
}

int snmpsec_gate_take_device(snmpsec_gate *gate, uint64_t now, size_t device, const uint8_t *datagram,
                             size_t datagram_len,
                             snmpsec_gate_event *event) {
    proved_gate_said said = {0};
    if (!gate || !event) return SNMPSEC_BAD_ARGUMENT;
    return ask_event(gate, (proved_gate_asked){.call = PROVED_GATE_TAKE_DEVICE, .moment = now, .device = device,
                                               .datagram = {datagram, datagram_len}}, &said, event);
}

int snmpsec_gate_next(snmpsec_gate *gate, uint64_t now, uint64_t salt, uint32_t ask_id, snmpsec_gate_event *event,
                      int *why) {
    proved_gate_said said = {0};
    if (!gate || !event || !why) return SNMPSEC_BAD_ARGUMENT;
    int answer = ask_event(gate, (proved_gate_asked){.call = PROVED_GATE_NEXT, .moment = now, .salt = salt,
                                                     .ask_id = ask_id}, &said, event);
    *why = (int)said.why;
    return answer;
}

int snmpsec_gate_due(snmpsec_gate *gate, uint64_t *at) {
    proved_gate_said said = {0};
    if (!gate || !at) return SNMPSEC_BAD_ARGUMENT;
    int32_t answer = ask_gate(gate, (proved_gate_asked){.call = PROVED_GATE_DUE}, &said);
    if (!answer) *at = said.due;
    return answer;
}

int snmpsec_gate_message(snmpsec_gate *gate, uint8_t *out, size_t out_len, size_t *written) {
    return gate && written ? proved_gate_copy(gate, PROVED_GATE_MESSAGE, 0, 0, room(out, out_len), out_len, written)
        : SNMPSEC_BAD_ARGUMENT;
}

int snmpsec_gate_client(snmpsec_gate *gate, uint8_t *out, size_t out_len, size_t *written) {
    return gate && written ? proved_gate_copy(gate, PROVED_GATE_CLIENT, 0, 0, room(out, out_len), out_len, written)
        : SNMPSEC_BAD_ARGUMENT;
}

int snmpsec_gate_asker(snmpsec_gate *gate, uint64_t request, uint8_t *out, size_t out_len, size_t *written) {
    return gate && written ? proved_gate_copy(gate, PROVED_GATE_ASKER, 0, request, room(out, out_len), out_len,
                                              written) : SNMPSEC_BAD_ARGUMENT;
}

int snmpsec_gate_lines(snmpsec_gate *gate, uint32_t *kinds) {
    proved_gate_said said = {0};
    if (!gate || !kinds) return SNMPSEC_BAD_ARGUMENT;
    int32_t answer = ask_gate(gate, (proved_gate_asked){.call = PROVED_GATE_LINES}, &said);
    if (!answer) *kinds = said.value;
    return answer;
}

int snmpsec_gate_line(snmpsec_gate *gate, snmpsec_line kind, const uint8_t *client, size_t client_len,
                      const uint8_t *datagram, size_t datagram_len, uint8_t *out, size_t out_len, size_t *written) {
    proved_line_asked asked = {.kind = kind, .client = {client, client_len}, .datagram = {datagram, datagram_len}};
    if (!gate || !written) return SNMPSEC_BAD_ARGUMENT;
    fit(&asked.client);
    fit(&asked.datagram);
    return done_deep(proved_gate_line(gate, &asked, room(out, out_len), out_len, written));
}

int snmpsec_gate_numbers(snmpsec_gate *gate, snmpsec_gate_info *out) {
    proved_gate_said said = {0};
    if (!gate || !out) return SNMPSEC_BAD_ARGUMENT;
    int32_t answer = ask_gate(gate, (proved_gate_asked){.call = PROVED_GATE_INFO}, &said);
    if (answer) return answer;
    *out = (snmpsec_gate_info){
        .request = said.info.request, .device = said.info.device, .waiting = said.info.waiting,
        .status = said.info.status, .index = said.info.index, .is_report = said.info.is_report,
        .misfit = said.info.misfit, .binding = said.info.binding, .hidden = said.info.hidden, .pdu = said.info.pdu,
        .ended = said.info.ended, .unhandled = said.info.unhandled, .again = said.info.again,
        .times = said.info.times};
    return SNMPSEC_OK;
}

/* The value of a counter that there is. */
static uint32_t value_of(snmpsec_gate *gate, uint32_t call, uint32_t counter) {
    proved_gate_said said = {0};
    ask_gate(gate, (proved_gate_asked){.call = call, .counter = counter}, &said);
    return said.value;
}

int snmpsec_gate_counters(snmpsec_gate *gate, snmpsec_counters *out) {
    uint32_t n[6];
    if (!gate || !out) return SNMPSEC_BAD_ARGUMENT;
    for (uint32_t i = 0; i < 6; i++) n[i] = value_of(gate, PROVED_GATE_COUNTER, i + 1);
    *out = (snmpsec_counters){n[0], n[1], n[2], n[3], n[4], n[5]};
    return SNMPSEC_OK;
}

int snmpsec_gate_counts(snmpsec_gate *gate, snmpsec_counts *out) {
    enum { FIRST = 7, COUNTS = 8 };
    uint32_t n[COUNTS];
    if (!gate || !out) return SNMPSEC_BAD_ARGUMENT;
    for (uint32_t i = 0; i < COUNTS; i++) n[i] = value_of(gate, PROVED_GATE_COUNT, FIRST + i);
    *out = (snmpsec_counts){n[0], n[1], n[2], n[3], n[4], n[5], n[6], n[7]};
    return SNMPSEC_OK;
}

int snmpsec_gate_may_notify(snmpsec_gate *gate, size_t receiver, size_t device, const uint32_t *arcs, size_t arcs_len,
                            snmpsec_access *out) {
    proved_gate_said said = {0};
    if (!gate || !out) return SNMPSEC_BAD_ARGUMENT;
    int32_t answer = ask_gate(gate, (proved_gate_asked){.call = PROVED_GATE_MAY_NOTIFY, .receiver = receiver,
                                                        .device = device, .arcs = {arcs, arcs_len}}, &said);
    if (!answer) *out = (snmpsec_access)said.access;
    return answer;
}

int snmpsec_datagram_user(const uint8_t *datagram, size_t datagram_len, uint8_t *out, size_t out_len, size_t *written) {
    return written ? proved_datagram_user(in(datagram, datagram_len), datagram_len, room(out, out_len), out_len,
                                          written) : SNMPSEC_BAD_ARGUMENT;
}
