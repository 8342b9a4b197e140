/* What the gateway counts, and these counts as Prometheus reads them. Not proved. */
#ifndef COUNTS_H
#define COUNTS_H

#include "community.h"
#include "sockets.h"
#include <snmpsec.h>
#include <stdint.h>

/* of a device: what it was asked and what came from it */
struct device_counts { uint64_t asked, asked_again, answered, unfit, given_up, not_waited_for, unreadable, errors,
                      notifies; };

/* the kinds of snmpsec_misfit, and that there is none */
enum { MISFITS = SNMPSEC_MISFIT_AFTER_END + 1 };

enum { INFORM_MESSAGES = SNMPSEC_INFORM_ITSELF + 1 };
/* the tags of PDUs, from that of a GetRequest to that of a Report */
enum { PDUS = SNMPSEC_REPORT_PDU - SNMPSEC_GET_REQUEST + 1 };
struct counts {
    /* by the event's number: what was taken from clients and devices, and what went out */
    uint64_t events[SNMPSEC_GATE_UNANSWERED + 1];
    /* requests that were accepted and wait, by the PDU's tag from that of a GetRequest on */
    uint64_t messages[PDUS];
    /* by the refusal's number */
    uint64_t refused[19];
    /* answers of devices by their error-status; the last is of those that have no name */
    uint64_t statuses[STATUSES + 1];
    /* answers of devices that don't fit what was asked, by why; and bindings of their answers that the user may not
     * read */
    uint64_t misfits[MISFITS], hidden_bindings;
    /* Responses to clients, by their error-status, and Reports on requests; and requests that wanted more rounds than
     * they may have */
    uint64_t responses[STATUSES + 1], request_reports, rounds_used_up;
    uint64_t reports, unsent, unlogged;
    /* by the event's number: what was taken of devices' Traps and of receivers, and what went to these; and datagrams
     * that no device's address sent */
    uint64_t forwards[SNMPSEC_FORWARD_INFORM_UNSENT + 1], traps_of_nobody;
    /* by what was sent for Informs; and by the refusal's number, what came from receivers */
    uint64_t informs[INFORM_MESSAGES], receivers_refused[19];
};

/* A device of the configuration. */
enum { CONTEXT_WORDS = 140 };
struct device {
    int socket;
    struct sockaddr_storage address;
    /* its contextName */
    char words[CONTEXT_WORDS];
    struct device_counts counts;
};

/* What is written, of these devices. */
struct told {
    const struct counts *counts;
    const struct device *devices;
    size_t devices_len;
    const struct listener *listeners;
    size_t listeners_len;
    const struct listener *trap_listeners;
    size_t trap_listeners_len;
    snmpsec_gate *gate;
    /* or NULL: no Traps are taken */
    snmpsec_forward *forward;
};

/* Writes the counts to a file, whole and replaced, or to standard error where the path is NULL: 0, or -1 and says
 * why. */
int counts_write(const struct told *told, const char *path);

#endif
