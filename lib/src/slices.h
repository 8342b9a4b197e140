/* How the library's own C calls the archive: slices that are never null, what an accepted message is, and the stack
 * wiped behind a call. Not proved. */
#ifndef SLICES_H
#define SLICES_H

#include "inside.h"
#include "proved.h"
#include "snmpsec.h"

static const uint8_t no_octets[16];
static uint8_t no_room[16];

/* A slice is never null, though its length be 0. */
static inline const uint8_t *in(const uint8_t *at, size_t len) { return len ? at : no_octets; }
static inline uint8_t *room(uint8_t *at, size_t len) { return len ? at : no_room; }

static const uint32_t no_arcs[4];
static uint32_t no_room_for_arcs[4];

static inline const uint32_t *name(const uint32_t *at, size_t len) { return len ? at : no_arcs; }
static inline uint32_t *room_for_arcs(uint32_t *at, size_t len) { return len ? at : no_room_for_arcs; }

/* The same of a slice in a struct. */
static inline void fit(proved_octets *slice) { slice->at = in(slice->at, slice->len); }

/* What is reported of an accepted message, where it is. */
static inline int told_info(int32_t answer, const proved_accepted *told, snmpsec_info *out) {
    if (answer) return answer;
    *out = (snmpsec_info){.level = told->level, .pdu = told->tag, .request_id = told->request_id,
                          .error_status = told->second, .error_index = told->third, .message_id = told->message_id};
    return SNMPSEC_OK;
}

/* After a call that sees a key. */
static inline int done(int32_t answer) {
    snmpsec_inside_wipe_stack();
    return answer;
}

/* After one that read a configuration, or did something for a gateway. */
static inline int done_deep(int32_t answer) {
    snmpsec_inside_wipe_deep_stack();
    return answer;
}

#endif
