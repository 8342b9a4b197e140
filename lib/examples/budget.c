#define _GNU_SOURCE
#include "budget.h"
#include <time.h>

/* a full bucket is the share of a tenth of a second */
enum { SECOND = 1000000000, FULL = SECOND / 10, WHOLE = 100 };

static uint64_t nanoseconds_of(clockid_t clock) {
    struct timespec now;
    clock_gettime(clock, &now);
    return (uint64_t)now.tv_sec * SECOND + (uint64_t)now.tv_nsec;
}

uint64_t now_in_nanoseconds(void) { return nanoseconds_of(CLOCK_MONOTONIC); }
uint64_t work_in_nanoseconds(void) { return nanoseconds_of(CLOCK_THREAD_CPUTIME_ID); }

static int64_t share_of(const struct budget *budget, uint64_t nanoseconds) {
    return (int64_t)(nanoseconds / WHOLE * budget->percent);
}

void budget_begin(struct budget *budget, uint32_t percent, uint64_t now) {
    *budget = (struct budget){.percent = percent, .filled_at = now};
    budget->left = share_of(budget, FULL);
}

bool budget_has(struct budget *budget, uint64_t now) {
    int64_t most = share_of(budget, FULL);
    budget->left += share_of(budget, now - budget->filled_at);
    if (budget->left > most) budget->left = most;
    budget->filled_at = now;
    return budget->left > 0;
}

void budget_spend(struct budget *budget, uint64_t nanoseconds) { budget->left -= (int64_t)nanoseconds; }
