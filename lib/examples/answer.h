/* What an agent answers: the values of a table, as far as the sender of what is kept may see and set them, in as many
 * octets as the answer may have. Not proved. */
#ifndef ANSWER_H
#define ANSWER_H

#include "snmpsec.h"
#include "table.h"

/* A salt that never came before. */
uint64_t new_salt(void);

/* How many octets an answer without authentication may have, besides the msgMaxSize of its request: 1472, or twice
 * those of the request, whichever is more; any; or those of the request. */
enum answer_size { SHORT_OR_TWICE, OF_MAX_SIZE, OF_THE_REQUEST };

/* Writes what is to be sent on the request that is kept, of so many octets: its Response, or the report that nothing
 * answers it, or nothing. It answers as the library's calls do. */
int answer_kept(snmpsec_agent *agent, struct table *table, uint64_t now, size_t request_len, enum answer_size size);

#endif
