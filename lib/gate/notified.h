/* What lines say of notifications, by the numbers that the library gives them. Not proved. */
#ifndef NOTIFIED_H
#define NOTIFIED_H

#include <stddef.h>
#include <stdint.h>

enum { OID_WORDS = 100 };

/* A notification: the position of its device, and the value of its snmpTrapOID.0. */
struct notified {
    uint64_t number;
    size_t device;
    char oid[OID_WORDS];
};

/* An Inform: what it notifies of, and how often it was sent. */
struct informed {
    uint64_t number;
    struct notified of;
    unsigned times;
};

/* A notification waits to be sent, and one waits to be acknowledged as this Inform. */
void notified_waits(uint64_t number, size_t device, const char *oid);
void informed_waits(uint64_t inform, uint64_t notification);

/* What is kept of one; NULL: 1024 or more came since. */
const struct notified *notified_of(uint64_t number);
struct informed *informed_of(uint64_t inform);

#endif
