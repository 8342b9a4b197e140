/* The header's calls on an agent, and on a message that is kept beside it, over the archive's. Not proved. */
#define _GNU_SOURCE
#include "snmpsec.h"
#include "inside.h"
#include "proved.h"
#include "slices.h"

int snmpsec_agent_new(const uint8_t *config, size_t config_len, const uint8_t *engine, size_t engine_len,
                      uint32_t boots, uint64_t started,
                      snmpsec_agent **out) {
    void *handle = NULL;
    if (!out) return SNMPSEC_BAD_ARGUMENT;
    *out = NULL;
    if (snmpsec_inside_is_deep(config, config_len)) return SNMPSEC_BAD_CONFIGURATION;
    int answer = done_deep(proved_agent_new(in(config, config_len), config_len, in(engine, engine_len), engine_len,
                                            boots, started, &handle));
    if (!answer) *out = handle;
    return answer;
}

void snmpsec_agent_free(snmpsec_agent *agent) {
    if (agent) snmpsec_inside_free_handle(agent, proved_agent_clear);
}

/* The slices are never null. */
static void fit_all(proved_agent_asked *asked) {
    fit(&asked->user);
    fit(&asked->context_engine);
    fit(&asked->context_name);
    fit(&asked->octets);
    asked->arcs.at = name(asked->arcs.at, asked->arcs.len);
}

/* If it answers 0, `said` has what the call reports. */
static int32_t ask_agent(snmpsec_agent *agent, proved_agent_asked *asked, proved_agent_said *said) {
    fit_all(asked);
    return proved_agent_call(agent, asked, said);
}

/* The same of a call that tells nothing and sees a key. */
static int agent_does(snmpsec_agent *agent, proved_agent_asked *asked) {
    proved_agent_said said = {0};
    return agent ? done(ask_agent(agent, asked, &said)) : SNMPSEC_BAD_ARGUMENT;
}

int snmpsec_agent_reconfigure(snmpsec_agent *agent, const uint8_t *config, size_t config_len) {
    proved_agent_said said = {0};
    if (!agent) return SNMPSEC_BAD_ARGUMENT;
    if (snmpsec_inside_is_deep(config, config_len)) return SNMPSEC_BAD_CONFIGURATION;
    return done_deep(ask_agent(agent, &(proved_agent_asked){.call = PROVED_AGENT_RECONFIGURE,
                                                            .octets = {config, config_len}}, &said));
}

int snmpsec_agent_take(snmpsec_agent *agent, uint64_t now, const uint8_t *datagram, size_t datagram_len) {
    return agent_does(agent, &(proved_agent_asked){.call = PROVED_AGENT_TAKE, .moment = now,
                                                   .octets = {datagram, datagram_len}});
}

int snmpsec_agent_info(snmpsec_agent *agent, snmpsec_info *out) {
    proved_agent_said said = {0};
    if (!agent || !out) return SNMPSEC_BAD_ARGUMENT;
    int32_t answer = ask_agent(agent, &(proved_agent_asked){.call = PROVED_AGENT_INFO}, &said);
    return told_info(answer, &said.accepted, out);
}

int snmpsec_agent_part(snmpsec_agent *agent, snmpsec_part part, uint8_t *out, size_t out_len, size_t *written) {
    return agent && written ? proved_agent_copy(agent, PROVED_PART, part, room(out, out_len), out_len, written)
        : SNMPSEC_BAD_ARGUMENT;
}

int snmpsec_agent_message(snmpsec_agent *agent, uint8_t *out, size_t out_len, size_t *written) {
    return agent && written ? proved_agent_copy(agent, PROVED_MESSAGE, 0, room(out, out_len), out_len, written)
        : SNMPSEC_BAD_ARGUMENT;
}

static int told_access(snmpsec_agent *agent, proved_agent_asked *asked, snmpsec_access *out) {
    proved_agent_said said = {0};
    if (!agent || !out) return SNMPSEC_BAD_ARGUMENT;
    int32_t answer = ask_agent(agent, asked, &said);
    if (!answer) *out = (snmpsec_access)said.access;
    return answer;
}

int snmpsec_agent_access(snmpsec_agent *agent, snmpsec_view view, const uint32_t *arcs, size_t arcs_len,
                         snmpsec_access *out) {
    return told_access(agent, &(proved_agent_asked){.call = PROVED_AGENT_ALLOWS, .view = view,
                                                    .arcs = {arcs, arcs_len}}, out);
}

bool snmpsec_agent_allows(snmpsec_agent *agent, snmpsec_view view, const uint32_t *arcs, size_t arcs_len) {
    snmpsec_access access;
    return snmpsec_agent_access(agent, view, arcs, arcs_len, &access) == SNMPSEC_OK && access == SNMPSEC_ACCESS_ALLOWED;
}

int snmpsec_agent_next(snmpsec_agent *agent, snmpsec_view view, const uint32_t *arcs, size_t arcs_len, uint32_t *out,
                       size_t out_len,
                       size_t *written) {
    if (!agent || !written) return SNMPSEC_BAD_ARGUMENT;
    return proved_agent_next(agent, view, name(arcs, arcs_len), arcs_len, room_for_arcs(out, out_len), out_len,
                             written);
}

int snmpsec_agent_user_access(snmpsec_agent *agent, snmpsec_octets user, snmpsec_level level, snmpsec_octets context,
                              snmpsec_view view,
                              const uint32_t *arcs, size_t arcs_len, snmpsec_access *out) {
    return told_access(agent, &(proved_agent_asked){.call = PROVED_AGENT_MAY, .level = level, .view = view,
                                                    .user = {user.at, user.len},
                                                   .context_name = {context.at, context.len},
                                                   .arcs = {arcs, arcs_len}}, out);
}

bool snmpsec_agent_user_allows(snmpsec_agent *agent, snmpsec_octets user, snmpsec_level level, snmpsec_octets context,
                               snmpsec_view view,
                               const uint32_t *arcs, size_t arcs_len) {
    snmpsec_access access;
    return snmpsec_agent_user_access(agent, user, level, context, view, arcs, arcs_len, &access) == SNMPSEC_OK
        && access == SNMPSEC_ACCESS_ALLOWED;
}

int snmpsec_agent_respond(snmpsec_agent *agent, uint64_t now, uint32_t error_status, uint32_t error_index,
                          const uint8_t *list, size_t list_len,
                          uint64_t salt) {
    return agent_does(agent, &(proved_agent_asked){.call = PROVED_AGENT_RESPOND, .moment = now, .status = error_status,
                                                   .index = error_index, .octets = {list, list_len}, .salt = salt});
}

int snmpsec_agent_respond_within(snmpsec_agent *agent, uint64_t now, uint32_t error_status, uint32_t error_index,
                                 const uint8_t *list,
                                 size_t list_len, uint64_t salt, uint32_t limit) {
    return agent_does(agent, &(proved_agent_asked){.call = PROVED_AGENT_RESPOND_WITHIN, .moment = now,
                                                   .status = error_status, .index = error_index,
                                                   .octets = {list, list_len}, .salt = salt, .limit = limit});
}

/* Writes how many bindings the Response has, or has room for. */
static int told_count(int32_t answer, const proved_agent_said *said, size_t *count) {
    if (!answer) *count = said->count;
    return done(answer);
}

int snmpsec_agent_respond_front(snmpsec_agent *agent, uint64_t now, uint32_t error_status, uint32_t error_index,
                                const uint8_t *list,
                                size_t list_len, uint64_t salt, uint32_t limit, size_t *count) {
    proved_agent_said said = {0};
    if (!agent || !count) return SNMPSEC_BAD_ARGUMENT;
    int32_t answer = ask_agent(agent, &(proved_agent_asked){.call = PROVED_AGENT_RESPOND_FRONT, .moment = now,
                                                            .status = error_status, .index = error_index,
                                                            .octets = {list, list_len}, .salt = salt, .limit = limit},
                               &said);
    return told_count(answer, &said, count);
}

int snmpsec_agent_fits(snmpsec_agent *agent, uint64_t now, uint32_t error_status, uint32_t error_index,
                       const uint8_t *list, size_t list_len, uint32_t limit, size_t *count) {
    proved_agent_said said = {0};
    if (!agent || !count) return SNMPSEC_BAD_ARGUMENT;
    int32_t answer = ask_agent(agent, &(proved_agent_asked){.call = PROVED_AGENT_FITS, .moment = now,
                                                            .status = error_status, .index = error_index,
                                                            .octets = {list, list_len}, .limit = limit}, &said);
    return told_count(answer, &said, count);
}

int snmpsec_agent_max_size(snmpsec_agent *agent, uint32_t *out) {
    proved_agent_said said = {0};
    if (!agent || !out) return SNMPSEC_BAD_ARGUMENT;
    int32_t answer = ask_agent(agent, &(proved_agent_asked){.call = PROVED_AGENT_MAX_SIZE}, &said);
    if (!answer) *out = said.max_size;
    return answer;
}

int snmpsec_agent_unhandled(snmpsec_agent *agent, snmpsec_unhandled *out) {
    proved_agent_said said = {0};
    if (!agent || !out) return SNMPSEC_BAD_ARGUMENT;
    int32_t answer = ask_agent(agent, &(proved_agent_asked){.call = PROVED_AGENT_UNHANDLED}, &said);
    if (!answer) *out = (snmpsec_unhandled)said.unhandled;
    return answer;
}

int snmpsec_agent_refuse(snmpsec_agent *agent, uint64_t now, snmpsec_unhandled why, uint64_t salt) {
    return agent_does(agent, &(proved_agent_asked){.call = PROVED_AGENT_REFUSE, .moment = now, .why = why,
                                                   .salt = salt});
}

int snmpsec_agent_silent_drop(snmpsec_agent *agent) {
    proved_agent_said said = {0};
    return agent ? ask_agent(agent, &(proved_agent_asked){.call = PROVED_AGENT_SILENT_DROP}, &said)
        : SNMPSEC_BAD_ARGUMENT;
}

void snmpsec_kept_free(snmpsec_kept *kept) {
    if (kept) snmpsec_inside_free_handle(kept, proved_kept_clear);
}

int snmpsec_agent_keep(snmpsec_agent *agent, snmpsec_kept **out) {
    void *kept = NULL;
    if (!out) return SNMPSEC_BAD_ARGUMENT;
    *out = NULL;
    if (!agent) return SNMPSEC_BAD_ARGUMENT;
    int answer = proved_kept_new(&kept);
    if (answer) return answer;
    answer = proved_agent_keep(agent, kept);
    if (answer) snmpsec_kept_free(kept);
    else *out = kept;
    return answer;
}

int snmpsec_agent_restore(snmpsec_agent *agent, snmpsec_kept *kept) {
    if (!agent || !kept) return SNMPSEC_BAD_ARGUMENT;
    int answer = proved_agent_restore(agent, kept);
    if (!answer) snmpsec_kept_free(kept);
    return answer;
}

int snmpsec_kept_info(snmpsec_kept *kept, snmpsec_info *out) {
    proved_agent_said said = {0};
    if (!kept || !out) return SNMPSEC_BAD_ARGUMENT;
    return told_info(proved_kept_call(kept, PROVED_AGENT_INFO, &said), &said.accepted, out);
}

int snmpsec_kept_part(snmpsec_kept *kept, snmpsec_part part, uint8_t *out, size_t out_len, size_t *written) {
    return kept && written ? proved_kept_copy(kept, part, room(out, out_len), out_len, written) : SNMPSEC_BAD_ARGUMENT;
}

int snmpsec_kept_max_size(snmpsec_kept *kept, uint32_t *out) {
    proved_agent_said said = {0};
    if (!kept || !out) return SNMPSEC_BAD_ARGUMENT;
    int32_t answer = proved_kept_call(kept, PROVED_AGENT_MAX_SIZE, &said);
    if (!answer) *out = said.max_size;
    return answer;
}

/* Asks an agent to answer what is kept. */
static int32_t ask_of_kept(snmpsec_kept *kept, snmpsec_agent *agent, proved_agent_asked *asked,
                           proved_agent_said *said) {
    fit_all(asked);
    return proved_kept_respond(agent, kept, asked, said);
}

int snmpsec_kept_respond(snmpsec_kept *kept, snmpsec_agent *agent, uint64_t now, uint32_t error_status,
                         uint32_t error_index, const uint8_t *list,
                         size_t list_len, uint64_t salt) {
    proved_agent_said said = {0};
    if (!kept || !agent) return SNMPSEC_BAD_ARGUMENT;
    return done(ask_of_kept(kept, agent, &(proved_agent_asked){.call = PROVED_AGENT_RESPOND, .moment = now,
                                                               .status = error_status, .index = error_index,
                                                               .octets = {list, list_len}, .salt = salt}, &said));
}

int snmpsec_kept_respond_within(snmpsec_kept *kept, snmpsec_agent *agent, uint64_t now, uint32_t error_status,
                                uint32_t error_index,
                                const uint8_t *list, size_t list_len, uint64_t salt, uint32_t limit) {
    proved_agent_said said = {0};
    if (!kept || !agent) return SNMPSEC_BAD_ARGUMENT;
    return done(ask_of_kept(kept, agent, &(proved_agent_asked){.call = PROVED_AGENT_RESPOND_WITHIN, .moment = now,
                                                               .status = error_status, .index = error_index,
                                                               .octets = {list, list_len}, .salt = salt,
                                                              .limit = limit}, &said));
}

int snmpsec_kept_respond_front(snmpsec_kept *kept, snmpsec_agent *agent, uint64_t now, uint32_t error_status,
                               uint32_t error_index,
                               const uint8_t *list, size_t list_len, uint64_t salt, uint32_t limit, size_t *count) {
    proved_agent_said said = {0};
    if (!kept || !agent || !count) return SNMPSEC_BAD_ARGUMENT;
    int32_t answer = ask_of_kept(kept, agent, &(proved_agent_asked){.call = PROVED_AGENT_RESPOND_FRONT, .moment = now,
                                                                    .status = error_status, .index = error_index,
                                                                    .octets = {list, list_len}, .salt = salt,
                                                                   .limit = limit}, &said);
    return told_count(answer, &said, count);
}

int snmpsec_agent_notify(snmpsec_agent *agent, uint64_t now, const snmpsec_notice *n) {
    if (!agent || !n) return SNMPSEC_BAD_ARGUMENT;
    return agent_does(agent, &(proved_agent_asked){
        .call = PROVED_AGENT_NOTIFY, .moment = now, .message_id = n->message_id, .user = {n->user.at, n->user.len},
        .level = n->level, .request_id = n->request_id,
        .context_engine = {n->context_engine.at, n->context_engine.len},
        .context_name = {n->context_name.at, n->context_name.len}, .octets = {n->list.at, n->list.len},
        .salt = n->salt});
}

/* The value of a counter that there is. */
static uint32_t value_of(snmpsec_agent *agent, uint32_t call, uint32_t counter) {
    proved_agent_said said = {0};
    ask_agent(agent, &(proved_agent_asked){.call = call, .counter = counter}, &said);
    return said.value;
}

int snmpsec_agent_counters(snmpsec_agent *agent, snmpsec_counters *out) {
    uint32_t n[6];
    if (!agent || !out) return SNMPSEC_BAD_ARGUMENT;
    for (uint32_t i = 0; i < 6; i++) n[i] = value_of(agent, PROVED_AGENT_COUNTER, i + 1);
    *out = (snmpsec_counters){n[0], n[1], n[2], n[3], n[4], n[5]};
    return SNMPSEC_OK;
}

int snmpsec_agent_counts(snmpsec_agent *agent, snmpsec_counts *out) {
    enum { FIRST = 7, COUNTS = 8 };
    uint32_t n[COUNTS];
    if (!agent || !out) return SNMPSEC_BAD_ARGUMENT;
    for (uint32_t i = 0; i < COUNTS; i++) n[i] = value_of(agent, PROVED_AGENT_COUNT, FIRST + i);
    *out = (snmpsec_counts){n[0], n[1], n[2], n[3], n[4], n[5], n[6], n[7]};
    return SNMPSEC_OK;
}
