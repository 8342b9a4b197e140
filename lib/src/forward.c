/* The header's calls on a forwarder of notifications over the archive's. Not proved. */
#define _GNU_SOURCE
#include "snmpsec.h"
#include "inside.h"
#include "proved.h"
#include "slices.h"

int snmpsec_forward_new(const uint8_t *config, size_t config_len, uint32_t boots, uint64_t started,
                        snmpsec_forward **out) {
    void *handle = NULL;
    if (!out) return SNMPSEC_BAD_ARGUMENT;
    *out = NULL;
    if (snmpsec_inside_is_deep(config, config_len)) return SNMPSEC_BAD_CONFIGURATION;
    int answer = done_deep(proved_forward_new(in(config, config_len), config_len, boots, started, &handle));
    if (!answer) *out = handle;
    return answer;
}

void snmpsec_forward_free(snmpsec_forward *forward) {
    if (!forward) return;
    snmpsec_inside_free_large_handle(forward, proved_forward_clear);
    snmpsec_inside_wipe_deep_stack();
}

/* If it answers 0, `said` has what the call reports. */
static int32_t ask_forward(snmpsec_forward *forward, proved_forward_asked asked, proved_forward_said *said) {
    fit(&asked.datagram);
    return proved_forward_call(forward, &asked, said);
}

/* The same of a call that tells an event. */
static int ask_event(snmpsec_forward *forward, proved_forward_asked asked, proved_forward_said *said,
                     snmpsec_forward_event *event) {
    int answer = done_deep(ask_forward(forward, asked, said));
    if (!answer) *event = (snmpsec_forward_event)said->event;
    return answer;
}

int snmpsec_forward_take_trap(snmpsec_forward *forward, size_t device, const uint8_t *datagram, size_t datagram_len,
                              snmpsec_forward_event *event) {
    proved_forward_said said = {0};
    if (!forward || !event) return SNMPSEC_BAD_ARGUMENT;
    return ask_event(forward, (proved_forward_asked){.call = PROVED_FORWARD_TAKE_TRAP, .device = device,
                                                     .datagram = {datagram, datagram_len}}, &said, event);
}

int snmpsec_forward_take_receiver(snmpsec_forward *forward, uint64_t now, size_t receiver, const uint8_t *datagram,
                                  size_t datagram_len,
                                  snmpsec_forward_event *event) {
    proved_forward_said said = {0};
    if (!forward || !event) return SNMPSEC_BAD_ARGUMENT;
    return ask_event(forward, (proved_forward_asked){.call = PROVED_FORWARD_TAKE_RECEIVER, .moment = now,
                                                     .receiver = receiver,
                                                     .datagram = {datagram, datagram_len}}, &said, event);
}

int snmpsec_forward_next(snmpsec_forward *forward, uint64_t now, uint64_t salt, uint32_t ask_id,
                         snmpsec_forward_event *event, int *why) {
    proved_forward_said said = {0};
    if (!forward || !event || !why) return SNMPSEC_BAD_ARGUMENT;
    int answer = ask_event(forward, (proved_forward_asked){.call = PROVED_FORWARD_NEXT, .moment = now, .salt = salt,
                                                           .ask_id = ask_id}, &said, event);
    *why = (int)said.why;
    return answer;
}

int snmpsec_forward_due(snmpsec_forward *forward, uint64_t *at) {
    proved_forward_said said = {0};
    if (!forward || !at) return SNMPSEC_BAD_ARGUMENT;
    int32_t answer = ask_forward(forward, (proved_forward_asked){.call = PROVED_FORWARD_DUE}, &said);
    if (!answer) *at = said.due;
    return answer;
}

int snmpsec_forward_message(snmpsec_forward *forward, uint8_t *out, size_t out_len, size_t *written) {
    return forward && written ? proved_forward_copy(forward, room(out, out_len), out_len, written)
        : SNMPSEC_BAD_ARGUMENT;
}

int snmpsec_forward_numbers(snmpsec_forward *forward, snmpsec_forward_info *out) {
    proved_forward_said said = {0};
    if (!forward || !out) return SNMPSEC_BAD_ARGUMENT;
    int32_t answer = ask_forward(forward, (proved_forward_asked){.call = PROVED_FORWARD_INFO}, &said);
    if (answer) return answer;
    *out = (snmpsec_forward_info){
        .notification = said.info.notification, .receiver = said.info.receiver, .waiting = said.info.waiting,
        .inform = said.info.inform, .informs = said.info.informs, .message = said.info.message,
        .counter = said.info.counter};
    return SNMPSEC_OK;
}
