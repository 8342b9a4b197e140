/* A gateway with its sockets: made of a configuration, made anew of another, and closed. Not proved. */
#ifndef GATEWAY_H
#define GATEWAY_H

#include "counts.h"
#include "receivers.h"
#include "traps.h"
#include <snmpsec.h>
#include <stdbool.h>
#include <stddef.h>
#include <stdint.h>

/* the most listening sockets and devices */
enum { MOST_LISTENERS = 64, MOST_DEVICES = 4096 };

/* What the command line says. */
struct words {
    const char *config, *user, *log, *counts;
    const char *listen[MOST_LISTENERS];
    size_t listens;
    bool checks;
};

struct gateway {
    snmpsec_gate *gate;
    /* the path of the boots' file, and its boots */
    char *boots_path;
    uint32_t boots;
    struct listener listeners[MOST_LISTENERS];
    size_t listeners_len;
    struct device devices[MOST_DEVICES];
    size_t devices_len;
    /* or NULL: no Traps are taken */
    snmpsec_forward *forward;
    struct listener trap_listeners[MOST_LISTENERS];
    size_t trap_listeners_len;
    struct receiver receivers[MOST_RECEIVERS];
    size_t receivers_len;
    int poll;
    /* the file of --log-datagrams, or -1 */
    int log;
    /* a call found no memory, and nothing is promised of the gateway any more */
    bool out_of_memory;
    struct counts counts;
};

/* What a socket of the poll is. */
enum source { FROM_DEVICE, FROM_CLIENT, FROM_TRAPS, FROM_RECEIVER, FROM_SIGNAL };
static inline uint64_t source_of(enum source source, size_t number) { return (uint64_t)source << 32 | number; }

/* The boot clock, in milliseconds. */
uint64_t now_in_milliseconds(void);

/* Checks a configuration, and says what it has: 0, or the status to end with. */
int gateway_check(const struct words *words);
/* Makes the gateway, and opens its sockets: 0, or the status to end with. */
int gateway_open(struct gateway *gateway, const struct words *words);
/* Makes it anew of the file as it is now, with one more boot, so that no message of before is accepted again. Where
 * that fails all stays. */
void gateway_reload(struct gateway *gateway, const struct words *words);
void gateway_close(struct gateway *gateway);
/* Writes the counts where the command line says. */
void gateway_counts(const struct gateway *gateway, const struct words *words);

/* How many of them the configuration says. */
size_t count_of(snmpsec_gate *gate, snmpsec_gate_text text);
/* A device's contextName in words, CONTEXT_WORDS at most; of the default context "". */
void context_words(snmpsec_gate *gate, size_t device, char *words);
/* A text that the configuration says, in a block that the caller frees; NULL: it says nothing there. */
char *setting_of(snmpsec_gate *gate, snmpsec_gate_text text, size_t position, size_t *len);

#endif
