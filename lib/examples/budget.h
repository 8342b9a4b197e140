/* A token bucket of time: a share of it is what the agent spends on senders that it can't tell. It fills as time
 * passes, and what is spent is the processor's time: a machine that does other work takes nothing from it. Not
 * proved. */
#ifndef BUDGET_H
#define BUDGET_H

#include <stdbool.h>
#include <stdint.h>

struct budget {
    /* of the whole time, 1 to 100 */
    uint32_t percent;
    /* nanoseconds that may be spent; below 0 more was spent than there was */
    int64_t left;
    uint64_t filled_at;
};

/* A clock that never goes back, and the processor's time that the calling thread has used, in nanoseconds. */
uint64_t now_in_nanoseconds(void);
uint64_t work_in_nanoseconds(void);

/* Begins with a full bucket. */
void budget_begin(struct budget *budget, uint32_t percent, uint64_t now);
/* Fills the bucket by the share of the time since it was filled last: whether there is any. */
bool budget_has(struct budget *budget, uint64_t now);
void budget_spend(struct budget *budget, uint64_t nanoseconds);

#endif
