#include "looks.h"
#include <string.h>

/* instead of a number of rows */
enum { READABLE = UINT16_MAX };

void looks_begin(struct looks *looks, snmpsec_agent *agent, const struct table *table, snmpsec_pdu pdu, size_t named) {
    looks->agent = agent;
    looks->table = table;
    looks->pdu = pdu;
    looks->left = MOST_LOOKED_AT + named;
    looks->are_used_up = looks->are_unauthorized = false;
    memset(looks->hidden, 0, table->rows_len * sizeof *looks->hidden);
}

static bool has_look(struct looks *looks) {
    if (looks->left) looks->left--;
    else looks->are_used_up = true;
    return !looks->are_used_up;
}

/* RFC 3413, section 3.2. */
bool looks_may(struct looks *looks, snmpsec_view view, const uint32_t *arcs, size_t arcs_len) {
    snmpsec_access access;
    snmpsec_status status;
    if (!has_look(looks) || snmpsec_agent_access(looks->agent, view, arcs, arcs_len, &access)) return false;
    if (snmpsec_status_of(access, looks->pdu, &status)) return false;
    if (status == SNMPSEC_AUTHORIZATION_ERROR) looks->are_unauthorized = true;
    return status == SNMPSEC_NO_ERROR;
}

/* How many rows, from this hidden one on, come before the next name that the sender may see (RFC 3416, section
 * 4.2.2). */
static uint16_t hidden_from(const struct looks *looks, size_t i) {
    uint32_t arcs[MOST_ARCS];
    size_t len = 0, end = looks->table->rows_len;
    const struct row *row = &looks->table->rows[i];
    int answer = snmpsec_agent_next(looks->agent, SNMPSEC_READ, row->arcs, row->arcs_len, arcs, MOST_ARCS, &len);
    if (!answer && len) end = table_from(looks->table, arcs, len);
    return (uint16_t)(end > i ? end - i : 1);
}

static bool is_readable(struct looks *looks, size_t i) {
    const struct row *row = &looks->table->rows[i];
    uint16_t known = looks->hidden[i];
    if (known) return known == READABLE && has_look(looks);
    bool may = looks_may(looks, SNMPSEC_READ, row->arcs, row->arcs_len);
    if (!looks->are_used_up) looks->hidden[i] = may ? READABLE : hidden_from(looks, i);
    return may;
}

static bool begins_with(const struct row *row, const uint32_t *arcs, size_t arcs_len) {
    return !arcs_len || (row->arcs_len >= arcs_len && !memcmp(row->arcs, arcs, arcs_len * sizeof *arcs));
}

const struct row *looks_readable(struct looks *looks, size_t from, const uint32_t *arcs, size_t arcs_len) {
    for (size_t i = from; i < looks->table->rows_len; i += looks->hidden[i]) {
        if (!begins_with(&looks->table->rows[i], arcs, arcs_len)) return NULL;
        if (is_readable(looks, i)) return &looks->table->rows[i];
        if (looks->are_used_up || looks->are_unauthorized) return NULL;
    }
    return NULL;
}
