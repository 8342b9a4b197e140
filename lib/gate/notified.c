#include "notified.h"
#include <stdio.h>

/* so many notifications wait, and so many Informs (docs/gateway.md); both numbers rise by one */
enum { MOST_WAITING = 1024 };
static struct notified notifications[MOST_WAITING];
static struct informed informs[MOST_WAITING];

void notified_waits(uint64_t number, size_t device, const char *oid) {
    struct notified *made = &notifications[number % MOST_WAITING];
    made->number = number;
    made->device = device;
    snprintf(made->oid, sizeof made->oid, "%s", oid);
}

const struct notified *notified_of(uint64_t number) {
    const struct notified *found = &notifications[number % MOST_WAITING];
    return found->number == number && *found->oid ? found : NULL;
}

void informed_waits(uint64_t inform, uint64_t notification) {
    struct informed *made = &informs[inform % MOST_WAITING];
    const struct notified *of = notified_of(notification);
    *made = (struct informed){.number = inform};
    if (of) made->of = *of;
}

struct informed *informed_of(uint64_t inform) {
    struct informed *found = &informs[inform % MOST_WAITING];
    return found->number == inform && *found->of.oid ? found : NULL;
}
