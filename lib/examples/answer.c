#define _GNU_SOURCE
#include "answer.h"
#include "looks.h"
#include <stdlib.h>
#include <string.h>
#include <sys/random.h>

enum { NO_SUCH_OBJECT = 0x80, NO_SUCH_INSTANCE = 0x81, END_OF_MIB_VIEW = 0x82 };
/* error-status (RFC 3416, section 3) */
enum { TOO_BIG = 1, GEN_ERR = 5, NO_ACCESS = 6, WRONG_TYPE = 7, WRONG_LENGTH = 8, WRONG_ENCODING = 9,
      AUTHORIZATION_ERROR = 16, NOT_WRITABLE = 17 };
/* the greatest error-status and error-index */
enum { GREATEST = 2147483647 };
/* the most bindings of a datagram, of 7 octets each */
enum { MOST_BINDINGS = SNMPSEC_LARGEST / 7 };
/* what an answer without authentication may always have: a datagram on Ethernet */
enum { SHORT_ANSWER = 1472 };
/* the most repetitions of a GetBulkRequest that are answered */
enum { MOST_REPETITIONS = 1000 };

/* what is asked and answered */
static snmpsec_agent *agent;
static struct table *table;
static struct looks looks;
/* the bindings of the answer */
static uint8_t list[SNMPSEC_LARGEST];
static size_t list_len;

uint64_t new_salt(void) {
    uint64_t salt;
    if (getrandom(&salt, sizeof salt, 0) != sizeof salt) abort();
    return salt;
}

/* Appends a binding: an error-status, TOO_BIG where the answer has no room for it. */
static uint32_t put(const uint32_t *arcs, size_t arcs_len, uint8_t tag, const uint8_t *value, size_t value_len) {
    size_t written = 0;
    if (snmpsec_binding_write(arcs, arcs_len, tag, value, value_len, list + list_len, sizeof list - list_len, &written))
        return TOO_BIG;
    list_len += written;
    return 0;
}

static uint32_t put_row(const struct row *row) {
    return put(row->arcs, row->arcs_len, row->tag, row->value, row->value_len);
}

/* the object that was looked for last, by its arcs, in the request that is answered, and whether a readable row is of
 * it */
static struct { uint32_t arcs[MOST_ARCS]; size_t len; bool is_there; } object;

static bool find_object(const uint32_t *arcs, size_t arcs_len) {
    const struct row *row = NULL;
    size_t i = table_after(table, arcs, arcs_len);
    while ((row = looks_readable(&looks, i, arcs, arcs_len)) && row->arcs_len != arcs_len + 1)
        i = (size_t)(row - table->rows) + 1;
    return row;
}

/* Whether a readable row is of the same object: of the same name but for its last arc (RFC 3416, section 4.2.1). */
static bool has_object(const uint32_t *arcs, size_t arcs_len) {
    if (arcs_len < 2) return false;
    size_t size = (arcs_len - 1) * sizeof *arcs;
    if (object.len == arcs_len - 1 && !memcmp(object.arcs, arcs, size)) return object.is_there;
    memcpy(object.arcs, arcs, size);
    object.len = arcs_len - 1;
    return object.is_there = find_object(arcs, arcs_len - 1);
}

/* Appends the variable of this name: an error-status, GEN_ERR where the looks are used up. */
static uint32_t put_exact(const uint32_t *arcs, size_t arcs_len) {
    const struct row *row = table_at(table, arcs, arcs_len);
    if (looks_may(&looks, SNMPSEC_READ, arcs, arcs_len) && row) return put_row(row);
    uint8_t tag = has_object(arcs, arcs_len) ? NO_SUCH_INSTANCE : NO_SUCH_OBJECT;
    return looks.are_used_up ? GEN_ERR : put(arcs, arcs_len, tag, (const uint8_t *)"", 0);
}

/* Appends the first readable row after the variable's name, and makes its name and tag the variable's: an error-status,
 * likewise. */
static uint32_t put_next(snmpsec_binding *one) {
    const struct row *row = looks_readable(&looks, table_after(table, one->arcs, one->arcs_len), NULL, 0);
    if (looks.are_used_up) return GEN_ERR;
    one->tag = row ? row->tag : END_OF_MIB_VIEW;
    if (!row) return put(one->arcs, one->arcs_len, END_OF_MIB_VIEW, (const uint8_t *)"", 0);
    memcpy(one->arcs, row->arcs, row->arcs_len * sizeof *row->arcs);
    one->arcs_len = row->arcs_len;
    return put_row(row);
}

static snmpsec_binding asked[MOST_BINDINGS];

/* The bindings that are asked for, how many they are, or -1. */
static long asked_of(const uint8_t *octets, size_t octets_len) {
    long len = 0;
    for (size_t at = 0; at < octets_len; len++) {
        if (len == MOST_BINDINGS) return -1;
        if (snmpsec_binding_read(octets, octets_len, &at, &asked[len])) return -1;
    }
    return len;
}

/* A repetition of a GetBulkRequest: whether another may follow. One that can't be looked at whole is left out, and none
 * follows one in which all variables are at their end (RFC 3416, section 4.2.3). */
static bool repeat(snmpsec_binding *first, snmpsec_binding *end, size_t limit) {
    bool are_at_end = true;
    size_t begun = list_len;
    for (snmpsec_binding *one = first; one < end; one++) {
        if (list_len > limit) return false;
        if (put_next(one)) {
            if (looks.are_used_up) list_len = begun;
            return false;
        }
        if (one->tag != END_OF_MIB_VIEW) are_at_end = false;
    }
    return !are_at_end;
}

/* GetBulkRequest: up to what surely doesn't fit. */
static void bulk(long len, int32_t non_repeaters, int32_t repetitions, size_t limit) {
    long first = non_repeaters < 0 ? 0 : non_repeaters < len ? non_repeaters : len;
    for (long i = 0; i < first; i++)
        if (list_len > limit || put_next(&asked[i])) return;
    for (int32_t k = 0; k < repetitions && k < MOST_REPETITIONS && !looks.are_unauthorized; k++)
        if (!repeat(asked + first, asked + len, limit)) return;
}

/* SetRequest (RFC 3416, section 4.2.5): all bindings are looked at before any is set. */
static uint32_t set(long len, uint32_t *index) {
    for (long i = 0; i < len; i++) {
        *index = (uint32_t)i + 1;
        if (!looks_may(&looks, SNMPSEC_WRITE, asked[i].arcs, asked[i].arcs_len)) return NO_ACCESS;
        const struct row *row = table_at(table, asked[i].arcs, asked[i].arcs_len);
        if (!row) return NOT_WRITABLE;
        if (row->tag != asked[i].tag) return WRONG_TYPE;
        if (asked[i].content_len > MOST_VALUE) return WRONG_LENGTH;
        if (!snmpsec_value_is(asked[i].tag, asked[i].content, asked[i].content_len)) return WRONG_ENCODING;
    }
    for (long i = 0; i < len; i++) {
        struct row *row = table_at(table, asked[i].arcs, asked[i].arcs_len);
        memcpy(row->value, asked[i].content, asked[i].content_len);
        row->value_len = asked[i].content_len;
        if (put_row(row)) return GEN_ERR;
    }
    *index = 0;
    return 0;
}

/* Fills the bindings of the answer: an error-status and an error-index. */
static uint32_t fill(const snmpsec_info *info, const uint8_t *octets, size_t octets_len, uint32_t *index,
                     size_t limit) {
    long len = asked_of(octets, octets_len);
    list_len = object.len = 0;
    *index = 0;
    looks_begin(&looks, agent, table, (snmpsec_pdu)info->pdu, len < 0 ? 0 : (size_t)len);
    if (len < 0) return GEN_ERR;
    if (info->pdu == SNMPSEC_SET_REQUEST) return set(len, index);
    if (info->pdu == SNMPSEC_GET_BULK_REQUEST) {
        bulk(len, info->non_repeaters, info->max_repetitions, limit);
        return 0;
    }
    for (long i = 0; i < len; i++) {
        uint32_t status = info->pdu == SNMPSEC_GET_REQUEST ? put_exact(asked[i].arcs, asked[i].arcs_len)
            : put_next(&asked[i]);
        if (status) { *index = status == TOO_BIG ? 0 : (uint32_t)i + 1; return status; }
    }
    return 0;
}

/* A Response without bindings; where even that is too long, nothing is sent. */
static int respond_too_big(uint64_t now, uint32_t limit) {
    int answer = snmpsec_agent_respond_within(agent, now, TOO_BIG, 0, list, 0, new_salt(), limit);
    if (answer == SNMPSEC_TOO_LARGE && snmpsec_agent_silent_drop(agent)) return SNMPSEC_BAD_ARGUMENT;
    return answer;
}

/* The Response to a GetBulkRequest with as many of the bindings as have room (RFC 3416, section 4.2.3). One without
 * bindings would end a walk, so where not even the first has room it is tooBig. */
static int respond_bulk(uint64_t now, uint32_t limit) {
    size_t count = 0;
    int answer = snmpsec_agent_respond_front(agent, now, 0, 0, list, list_len, new_salt(), limit, &count);
    return answer == SNMPSEC_TOO_LARGE || (!answer && list_len && !count) ? respond_too_big(now, limit) : answer;
}

/* A SetRequest is looked at for its size before anything is set, with the longest error-status and error-index (RFC
 * 3416, section 4.2.5). */
static bool set_is_too_big(uint64_t now, const uint8_t *octets, size_t octets_len, uint32_t limit) {
    size_t count = 0;
    int answer = snmpsec_agent_fits(agent, now, GREATEST, GREATEST, octets, octets_len, limit, &count);
    return answer == SNMPSEC_TOO_LARGE || (!answer && (long)count < asked_of(octets, octets_len));
}

/* Answers what is kept, in at most so many octets: the Response is the message to be sent. */
static int respond(uint64_t now, uint32_t limit) {
    static uint8_t octets[SNMPSEC_LARGEST];
    snmpsec_info info;
    size_t octets_len = 0;
    uint32_t index = 0;
    if (snmpsec_agent_info(agent, &info) || snmpsec_agent_part(agent, SNMPSEC_BINDINGS, octets, sizeof octets,
        &octets_len))
        return SNMPSEC_NOTHING_TAKEN;
    if (info.pdu == SNMPSEC_SET_REQUEST && set_is_too_big(now, octets, octets_len, limit))
        return respond_too_big(now, limit);
    uint32_t status = fill(&info, octets, octets_len, &index, limit);
    if (looks.are_unauthorized) { status = AUTHORIZATION_ERROR; index = 0; }
    if (status == TOO_BIG) return respond_too_big(now, limit);
    if (info.pdu == SNMPSEC_GET_BULK_REQUEST && !status) return respond_bulk(now, limit);
    if (status) { memcpy(list, octets, octets_len); list_len = octets_len; }
    int answer = snmpsec_agent_respond_within(agent, now, status, index, list, list_len, new_salt(), limit);
    return answer == SNMPSEC_TOO_LARGE ? respond_too_big(now, limit) : answer;
}

/* How long an answer may be. A request without authentication may come in somebody else's name, and its answer goes
 * there. It amplifies: a short answer has up to 17 times the octets of its request, a longer one twice as many at most.
 * With OF_THE_REQUEST it has no more of them. */
static uint32_t limit_of(size_t request_len, enum answer_size size) {
    snmpsec_info info;
    uint32_t limit = SHORT_ANSWER, most = (uint32_t)request_len;
    if (snmpsec_agent_max_size(agent, &limit) || snmpsec_agent_info(agent, &info)) return limit;
    if (limit > SNMPSEC_LARGEST) limit = SNMPSEC_LARGEST;
    if (info.level != SNMPSEC_NO_AUTH_NO_PRIV || size == OF_MAX_SIZE) return limit;
    if (size == SHORT_OR_TWICE) most = 2 * most > SHORT_ANSWER ? 2 * most : SHORT_ANSWER;
    return limit > most ? most : limit;
}

int answer_kept(snmpsec_agent *of, struct table *values, uint64_t now, size_t request_len, enum answer_size size) {
    agent = of;
    table = values;
    snmpsec_unhandled why;
    int answer = snmpsec_agent_unhandled(agent, &why);
    if (answer) return answer;
    return why == SNMPSEC_HANDLED ? respond(now, limit_of(request_len, size)) : snmpsec_agent_refuse(agent, now, why,
        new_salt());
}
