/* Which variables the sender of what is kept may see, as far as a datagram may have the agent look at them. Not proved.
 *
 * Anybody may send a request that names thousands of variables, or steps over thousands of rows that its sender may not
 * read. So a datagram has a number of looks, and no row is asked about twice for it. */
#ifndef LOOKS_H
#define LOOKS_H

#include "snmpsec.h"
#include "table.h"
#include <stdbool.h>

/* The most variables that are looked at for a datagram, beside one for each that it names. All rows of a table are as
 * many, so that one repetition of a GetBulkRequest is always completed (RFC 3416, section 4.2.3). */
enum { MOST_LOOKED_AT = 4096 };
_Static_assert((int)MOST_LOOKED_AT >= (int)MOST_ROWS, "each row can be looked at once");

struct looks {
    snmpsec_agent *agent;
    const struct table *table;
    snmpsec_pdu pdu;
    /* how many looks are left; and whether there was none for what was wanted */
    size_t left;
    bool are_used_up;
    /* the sender has no group, no access or no view for a variable: nothing of the request is answered (RFC 3413,
     * section 3.2) */
    bool are_unauthorized;
    /* how many rows, from each on, the sender may not read; READABLE of one that it may, and 0 where that isn't known
     * yet */
    uint16_t hidden[MOST_ROWS];
};

/* Begins with a datagram of this PDU that names so many variables. */
void looks_begin(struct looks *looks, snmpsec_agent *agent, const struct table *table, snmpsec_pdu pdu, size_t named);
/* Whether the sender may see, or set, this variable. It takes a look. */
bool looks_may(struct looks *looks, snmpsec_view view, const uint32_t *arcs, size_t arcs_len);
/* The first row from this place on that the sender may read, among those whose names begin with these arcs; NULL, where
 * there is none or where the looks are used up. The row that it gives takes a look, and so does each hidden one that it
 * meets first. From there it goes on at the next name that the sender may see, and steps over no row. */
const struct row *looks_readable(struct looks *looks, size_t from, const uint32_t *arcs, size_t arcs_len);

#endif
