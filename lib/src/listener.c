/* The header's calls on a receiver of notifications over the archive's. Not proved. */
#define _GNU_SOURCE
#include "snmpsec.h"
#include "inside.h"
#include "proved.h"
#include "slices.h"

static proved_octets slice(snmpsec_octets octets) { return (proved_octets){in(octets.at, octets.len), octets.len}; }

_Static_assert(sizeof(snmpsec_octets) == sizeof(proved_notifying_source), "the sources are handed on as they are");

/* None of the sources is null, though its length be 0. */
static bool have_octets(const snmpsec_octets *sources, size_t len) {
    if (len && !sources) return false;
    for (size_t i = 0; i < len; i++)
        if (!sources[i].at) return false;
    return true;
}

int snmpsec_listener_new(const uint8_t *config, size_t config_len, const snmpsec_listener_settings *settings,
                         const snmpsec_octets *sources, size_t sources_len, snmpsec_listener **out) {
    static const proved_notifying_source no_source[1];
    void *handle = NULL;
    if (!out) return SNMPSEC_BAD_ARGUMENT;
    *out = NULL;
    if (!settings || !have_octets(sources, sources_len)) return SNMPSEC_BAD_ARGUMENT;
    if (snmpsec_inside_is_deep(config, config_len)) return SNMPSEC_BAD_CONFIGURATION;
    proved_listener_settings made = {
        .least_level = settings->least_level, .boots = settings->boots, .started = settings->started,
        .clocks_moment = settings->clocks_moment, .most = settings->most,
        .config = {in(config, config_len), config_len}, .engine = slice(settings->engine),
        .clocks = slice(settings->clocks),
        .sources = {sources_len ? (const proved_notifying_source *)(const void *)sources : no_source, sources_len}};
    int answer = done_deep(proved_listener_new(&made, &handle));
    if (!answer) *out = handle;
    return answer;
}

void snmpsec_listener_free(snmpsec_listener *listener) {
    if (!listener) return;
    snmpsec_inside_free_large_handle(listener, proved_listener_clear);
    snmpsec_inside_wipe_deep_stack();
}

/* If it answers 0, `said` has what the call reports. */
static int32_t ask_listener(snmpsec_listener *listener, proved_listener_asked asked, proved_listener_said *said) {
    fit(&asked.from);
    fit(&asked.octets);
    fit(&asked.engine);
    return proved_listener_call(listener, &asked, said);
}

int snmpsec_listener_take(snmpsec_listener *listener, uint64_t now, const uint8_t *source, size_t source_len,
                          const uint8_t *datagram, size_t datagram_len, uint64_t salt, snmpsec_listener_event *event,
                          int *why) {
    proved_listener_said said = {0};
    if (!listener || !event || !why) return SNMPSEC_BAD_ARGUMENT;
    int answer = done_deep(ask_listener(listener, (proved_listener_asked){
        .call = PROVED_LISTENER_TAKE, .moment = now, .salt = salt, .from = {source, source_len},
        .octets = {datagram, datagram_len}}, &said));
    if (answer) return answer;
    *event = (snmpsec_listener_event)said.event;
    *why = (int)said.why;
    return SNMPSEC_OK;
}

int snmpsec_listener_info(snmpsec_listener *listener, snmpsec_info *out) {
    proved_listener_said said = {0};
    if (!listener || !out) return SNMPSEC_BAD_ARGUMENT;
    int32_t answer = ask_listener(listener, (proved_listener_asked){.call = PROVED_LISTENER_INFO}, &said);
    return told_info(answer, &said.accepted, out);
}

int snmpsec_listener_part(snmpsec_listener *listener, snmpsec_part part, uint8_t *out, size_t out_len,
                          size_t *written) {
    if (!listener || !written) return SNMPSEC_BAD_ARGUMENT;
    return proved_listener_copy(listener, PROVED_PART, part, room(out, out_len), out_len, written);
}

int snmpsec_listener_message(snmpsec_listener *listener, uint8_t *out, size_t out_len, size_t *written) {
    if (!listener || !written) return SNMPSEC_BAD_ARGUMENT;
    return proved_listener_copy(listener, PROVED_MESSAGE, 0, room(out, out_len), out_len, written);
}

int snmpsec_listener_count(snmpsec_listener *listener, uint32_t reason, uint64_t *out) {
    proved_listener_said said = {0};
    if (!listener || !out || !reason) return SNMPSEC_BAD_ARGUMENT;
    int32_t answer = ask_listener(listener, (proved_listener_asked){.call = PROVED_LISTENER_COUNT, .place = reason},
                                  &said);
    if (!answer) *out = said.count;
    return answer;
}

int snmpsec_listener_save(snmpsec_listener *listener, uint8_t *out, size_t out_len, size_t *written) {
    proved_listener_said said = {0};
    if (!listener || !written) return SNMPSEC_BAD_ARGUMENT;
    int32_t answer = ask_listener(listener, (proved_listener_asked){.call = PROVED_LISTENER_SAVE}, &said);
    if (answer) return answer;
    return proved_listener_copy(listener, PROVED_MESSAGE, 0, room(out, out_len), out_len, written);
}

int snmpsec_listener_clock(snmpsec_listener *listener, const uint8_t *engine, size_t engine_len, snmpsec_clock *out) {
    proved_listener_said said = {0};
    if (!listener || !out) return SNMPSEC_BAD_ARGUMENT;
    int32_t answer = ask_listener(listener, (proved_listener_asked){.call = PROVED_LISTENER_PAIR,
                                                                    .engine = {engine, engine_len}}, &said);
    if (!answer) *out = (snmpsec_clock){.boots = said.boots, .time = said.time};
    return answer;
}
