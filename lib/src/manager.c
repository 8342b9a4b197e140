/* The header's calls on a manager over the archive's. Not proved. */
#define _GNU_SOURCE
#include "snmpsec.h"
#include "inside.h"
#include "proved.h"
#include "slices.h"
#include <string.h>

/* The archive's manager has one message: a request, or the saved text. A request that was there when the clocks were
 * saved is kept beside it, so that it may still be fetched. */
struct snmpsec_manager {
    void *held;
    /* the held message is a saved text, and in its place stands this one, or none where it is NULL */
    bool is_saved;
    uint8_t *kept;
    size_t kept_len;
};

/* The held message is the manager's own again. */
static void forget_kept(snmpsec_manager *manager) {
    snmpsec_inside_free_block(manager->kept);
    manager->kept = NULL;
    manager->is_saved = false;
}

int snmpsec_manager_new(const uint8_t *config, size_t config_len, const uint8_t *clocks, size_t clocks_len,
                        uint64_t now, snmpsec_manager **out) {
    if (!out) return SNMPSEC_BAD_ARGUMENT;
    *out = NULL;
    if (snmpsec_inside_is_deep(config, config_len)) return SNMPSEC_BAD_CONFIGURATION;
    snmpsec_manager *manager = snmpsec_inside_block(sizeof *manager);
    if (!manager) return SNMPSEC_OUT_OF_MEMORY;
    *manager = (snmpsec_manager){0};
    int answer = done_deep(proved_manager_new(in(config, config_len), config_len, in(clocks, clocks_len), clocks_len,
                                              now, &manager->held));
    if (!answer) *out = manager;
    else snmpsec_inside_free_block(manager);
    return answer;
}

void snmpsec_manager_free(snmpsec_manager *manager) {
    if (!manager) return;
    forget_kept(manager);
    snmpsec_inside_free_handle(manager->held, proved_manager_clear);
    snmpsec_inside_free_block(manager);
}

/* If it answers 0, `said` has what the call reports. */
static int32_t ask_manager(snmpsec_manager *manager, proved_manager_asked *asked, proved_manager_said *said) {
    fit(&asked->engine);
    fit(&asked->user);
    fit(&asked->context_engine);
    fit(&asked->context_name);
    fit(&asked->octets);
    return proved_manager_call(manager->held, asked, said);
}

int snmpsec_manager_take(snmpsec_manager *manager, uint64_t now, const uint8_t *datagram, size_t datagram_len) {
    proved_manager_said said = {0};
    if (!manager) return SNMPSEC_BAD_ARGUMENT;
    forget_kept(manager);
    return done(ask_manager(manager, &(proved_manager_asked){.call = PROVED_MANAGER_TAKE, .moment = now,
                                                             .octets = {datagram, datagram_len}}, &said));
}

int snmpsec_manager_info(snmpsec_manager *manager, snmpsec_info *out) {
    proved_manager_said said = {0};
    if (!manager || !out) return SNMPSEC_BAD_ARGUMENT;
    int32_t answer = ask_manager(manager, &(proved_manager_asked){.call = PROVED_MANAGER_INFO}, &said);
    return told_info(answer, &said.accepted, out);
}

int snmpsec_manager_part(snmpsec_manager *manager, snmpsec_part part, uint8_t *out, size_t out_len, size_t *written) {
    if (!manager || !written) return SNMPSEC_BAD_ARGUMENT;
    return proved_manager_copy(manager->held, PROVED_PART, part, room(out, out_len), out_len, written);
}

static int held_message(snmpsec_manager *manager, uint8_t *out, size_t out_len, size_t *written) {
    return proved_manager_copy(manager->held, PROVED_MESSAGE, 0, out, out_len, written);
}

static int kept_message(const snmpsec_manager *manager, uint8_t *out, size_t out_len, size_t *written) {
    if (!manager->kept) return SNMPSEC_NOTHING_TAKEN;
    *written = manager->kept_len;
    if (out_len < manager->kept_len) return SNMPSEC_SHORT_BUFFER;
    memcpy(out, manager->kept, manager->kept_len);
    return SNMPSEC_OK;
}

int snmpsec_manager_message(snmpsec_manager *manager, uint8_t *out, size_t out_len, size_t *written) {
    if (!manager || !written) return SNMPSEC_BAD_ARGUMENT;
    if (manager->is_saved) return kept_message(manager, out, out_len, written);
    return held_message(manager, room(out, out_len), out_len, written);
}

static int told_reply(snmpsec_manager *manager, uint32_t call, snmpsec_reply *out) {
    proved_manager_said said = {0};
    if (!manager || !out) return SNMPSEC_BAD_ARGUMENT;
    int32_t answer = ask_manager(manager, &(proved_manager_asked){.call = call}, &said);
    if (answer) return answer;
    *out = (snmpsec_reply){.kind = (snmpsec_reply_kind)said.kind, .counter = (int)said.counter};
    return SNMPSEC_OK;
}

int snmpsec_manager_reply(snmpsec_manager *manager, snmpsec_reply *out) {
    return told_reply(manager, PROVED_MANAGER_ANSWER, out);
}

int snmpsec_manager_take_reply(snmpsec_manager *manager, snmpsec_reply *out) {
    return told_reply(manager, PROVED_MANAGER_TAKE_ANSWER, out);
}

int snmpsec_manager_report(snmpsec_manager *manager, snmpsec_report *out) {
    proved_manager_said said = {0};
    if (!manager || !out) return SNMPSEC_BAD_ARGUMENT;
    int32_t answer = ask_manager(manager, &(proved_manager_asked){.call = PROVED_MANAGER_REPORT}, &said);
    if (answer) return answer;
    if (!said.is_report) return SNMPSEC_NOTHING_TAKEN;
    *out = (snmpsec_report){.counter = (int)said.counter, .value = said.value, .has_value = said.has_value,
                            .is_authenticated = said.authentic};
    return SNMPSEC_OK;
}

int snmpsec_manager_max_size(snmpsec_manager *manager, uint32_t *out) {
    proved_manager_said said = {0};
    if (!manager || !out) return SNMPSEC_BAD_ARGUMENT;
    int32_t answer = ask_manager(manager, &(proved_manager_asked){.call = PROVED_MANAGER_MAX_SIZE}, &said);
    if (!answer) *out = said.max_size;
    return answer;
}

/* A call that writes a request: where it is done the held message is the request. */
static int written_request(snmpsec_manager *manager, proved_manager_asked *asked, proved_manager_said *said) {
    int32_t answer = ask_manager(manager, asked, said);
    if (!answer) forget_kept(manager);
    return done(answer);
}

/* The same, whose token is reported. */
static int told_token(snmpsec_manager *manager, proved_manager_asked *asked, uint64_t *token) {
    proved_manager_said said = {0};
    int answer = written_request(manager, asked, &said);
    if (!answer) *token = said.token;
    return answer;
}

int snmpsec_manager_discover(snmpsec_manager *manager, uint32_t message_id) {
    proved_manager_said said = {0};
    if (!manager) return SNMPSEC_BAD_ARGUMENT;
    return written_request(manager, &(proved_manager_asked){.call = PROVED_MANAGER_DISCOVER, .message_id = message_id},
                           &said);
}

static proved_octets slice(snmpsec_octets octets) { return (proved_octets){octets.at, octets.len}; }

static proved_manager_asked request_of(uint32_t call, uint64_t now, const snmpsec_request *r) {
    return (proved_manager_asked){
        .call = call, .moment = now, .message_id = r->message_id, .level = r->level, .tag = r->pdu,
        .request_id = r->request_id, .second = r->error_status, .third = r->error_index, .salt = r->salt,
        .engine = slice(r->engine), .user = slice(r->user), .context_engine = slice(r->context_engine),
        .context_name = slice(r->context_name), .octets = slice(r->list)};
}

int snmpsec_manager_request(snmpsec_manager *manager, uint64_t now, const snmpsec_request *r) {
    proved_manager_said said = {0};
    if (!manager || !r) return SNMPSEC_BAD_ARGUMENT;
    proved_manager_asked asked = request_of(PROVED_MANAGER_REQUEST, now, r);
    return written_request(manager, &asked, &said);
}

int snmpsec_manager_ask(snmpsec_manager *manager, uint64_t now, const snmpsec_request *r, uint64_t *token) {
    if (!manager || !r || !token) return SNMPSEC_BAD_ARGUMENT;
    proved_manager_asked asked = request_of(PROVED_MANAGER_ASK, now, r);
    return told_token(manager, &asked, token);
}

int snmpsec_manager_ask_discovery(snmpsec_manager *manager, uint32_t message_id, uint64_t *token) {
    if (!manager || !token) return SNMPSEC_BAD_ARGUMENT;
    return told_token(manager, &(proved_manager_asked){.call = PROVED_MANAGER_ASK_DISCOVERY, .message_id = message_id},
                      token);
}

int snmpsec_manager_answered(snmpsec_manager *manager, snmpsec_answered *out) {
    proved_manager_said said = {0};
    if (!manager || !out) return SNMPSEC_BAD_ARGUMENT;
    int32_t answer = ask_manager(manager, &(proved_manager_asked){.call = PROVED_MANAGER_FIND_ANSWER}, &said);
    if (answer) return answer;
    *out = (snmpsec_answered){.kind = (snmpsec_reply_kind)said.kind, .counter = (int)said.counter,
                              .is_authentic = said.authentic, .token = said.token};
    return SNMPSEC_OK;
}

int snmpsec_manager_give_up(snmpsec_manager *manager, uint64_t token) {
    proved_manager_said said = {0};
    if (!manager) return SNMPSEC_BAD_ARGUMENT;
    return ask_manager(manager, &(proved_manager_asked){.call = PROVED_MANAGER_GIVE_UP, .token = token}, &said);
}

int snmpsec_manager_absorb(snmpsec_manager *manager, const uint8_t *text, size_t text_len, uint64_t now) {
    proved_manager_said said = {0};
    if (!manager) return SNMPSEC_BAD_ARGUMENT;
    return ask_manager(manager, &(proved_manager_asked){.call = PROVED_MANAGER_ABSORB, .moment = now,
                                                        .octets = {text, text_len}}, &said);
}

/* Copies the held request beside the handle, since the saved text takes its place. */
static int keep_request(snmpsec_manager *manager) {
    size_t len = 0, written;
    if (manager->is_saved) return SNMPSEC_OK;
    int answer = held_message(manager, no_room, 0, &len);
    if (answer == SNMPSEC_NOTHING_TAKEN) return SNMPSEC_OK;
    if (!(manager->kept = snmpsec_inside_block(len))) return SNMPSEC_OUT_OF_MEMORY;
    manager->kept_len = len;
    return held_message(manager, manager->kept, len, &written);
}

int snmpsec_manager_save(snmpsec_manager *manager, uint8_t *out, size_t out_len, size_t *written) {
    proved_manager_said said = {0};
    if (!manager || !written) return SNMPSEC_BAD_ARGUMENT;
    int answer = keep_request(manager);
    if (!answer) answer = ask_manager(manager, &(proved_manager_asked){.call = PROVED_MANAGER_SAVE}, &said);
    if (answer) {
        if (!manager->is_saved) forget_kept(manager);
        return answer;
    }
    manager->is_saved = true;
    return held_message(manager, room(out, out_len), out_len, written);
}

int snmpsec_manager_clock(snmpsec_manager *manager, const uint8_t *engine, size_t engine_len, snmpsec_clock *out) {
    proved_manager_said said = {0};
    if (!manager || !out) return SNMPSEC_BAD_ARGUMENT;
    int32_t answer = ask_manager(manager, &(proved_manager_asked){.call = PROVED_MANAGER_PAIR,
                                                                  .engine = {engine, engine_len}}, &said);
    if (!answer) *out = (snmpsec_clock){.boots = said.boots, .time = said.time};
    return answer;
}

int snmpsec_manager_seal(snmpsec_manager *manager, const snmpsec_sealing *s) {
    proved_manager_said said = {0};
    if (!manager || !s) return SNMPSEC_BAD_ARGUMENT;
    return written_request(manager, &(proved_manager_asked){
        .call = PROVED_MANAGER_SEAL, .message_id = s->message_id, .max_size = s->max_size,
        .reportable = s->is_reportable, .engine = slice(s->engine), .boots = s->boots, .time = s->time,
        .user = slice(s->user), .level = s->level, .octets = slice(s->scoped), .salt = s->salt}, &said);
}
