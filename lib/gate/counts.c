#define _GNU_SOURCE
#include "counts.h"
#include "files.h"
#include "lines.h"
#include <inttypes.h>
#include <stddef.h>
#include <stdio.h>
#include <stdlib.h>
#include <string.h>

static const struct { int event; const char *name; } names[] = {
    {SNMPSEC_GATE_BEGINS, "begins"}, {SNMPSEC_GATE_JOINS, "joins"}, {SNMPSEC_GATE_NO_ROOM, "no_room"},
    {SNMPSEC_GATE_SET_OF_BEFORE, "set_of_before"}, {SNMPSEC_GATE_ANSWERS, "answers"},
    {SNMPSEC_GATE_NOT_WAITED_FOR, "not_waited_for"},
    {SNMPSEC_GATE_UNREADABLE, "unreadable"}, {SNMPSEC_GATE_TO_CLIENT, "to_client"},
    {SNMPSEC_GATE_TO_DEVICE, "to_device"},
    {SNMPSEC_GATE_GIVEN_UP, "given_up"}, {SNMPSEC_GATE_UNANSWERED, "unanswered"}};

static const struct { int event; const char *name; } trap_names[] = {
    {SNMPSEC_FORWARD_UNREADABLE, "unreadable"}, {SNMPSEC_FORWARD_NOT_TRAP, "not_trap"},
    {SNMPSEC_FORWARD_NO_TRAP_OID, "no_trap_oid"},
    {SNMPSEC_FORWARD_OTHER_COMMUNITY, "other_community"}, {SNMPSEC_FORWARD_FOR_NOBODY, "for_nobody"},
    {SNMPSEC_FORWARD_NO_ROOM, "no_room"},
    {SNMPSEC_FORWARD_WAITS, "waits"}, {SNMPSEC_FORWARD_TO_RECEIVER, "to_receiver"}, {SNMPSEC_FORWARD_UNSENT, "unsent"}};

static const struct { int event; const char *name; } inform_names[] = {
    {SNMPSEC_FORWARD_INFORM_BEGINS, "begins"}, {SNMPSEC_FORWARD_INFORM_NO_ROOM, "no_room"},
    {SNMPSEC_FORWARD_HEARD, "heard"},
    {SNMPSEC_FORWARD_NO_ANSWER, "no_answer"}, {SNMPSEC_FORWARD_ACKNOWLEDGED, "acknowledged"},
    {SNMPSEC_FORWARD_DENIED, "denied"},
    {SNMPSEC_FORWARD_INFORM_GIVEN_UP, "given_up"}, {SNMPSEC_FORWARD_INFORM_UNSENT, "unsent"}};
static const char *const inform_messages[INFORM_MESSAGES] = {
    [SNMPSEC_INFORM_DISCOVERY] = "discovery", [SNMPSEC_INFORM_TIME] = "time", [SNMPSEC_INFORM_ITSELF] = "inform"};

static const struct { const char *name; size_t at; } of_device[] = {
    {"asked", offsetof(struct device_counts, asked)}, {"asked_again", offsetof(struct device_counts, asked_again)},
    {"answered", offsetof(struct device_counts, answered)}, {"unfit", offsetof(struct device_counts, unfit)},
    {"given_up", offsetof(struct device_counts, given_up)},
    {"not_waited_for", offsetof(struct device_counts, not_waited_for)},
    {"unreadable", offsetof(struct device_counts, unreadable)},
    {"socket_errors", offsetof(struct device_counts, errors)}, {"notifies", offsetof(struct device_counts, notifies)}};

static void write_name(FILE *to, const char *name, const char *kind) {
    fprintf(to, "# TYPE snmpsec_gate_%s %s\n", name, kind);
}

static void write_one(FILE *to, const char *name, const char *kind, uint64_t value) {
    write_name(to, name, kind);
    fprintf(to, "snmpsec_gate_%s %" PRIu64 "\n", name, value);
}

static void write_agent(FILE *to, snmpsec_gate *gate) {
    snmpsec_counters n;
    snmpsec_counts m;
    if (snmpsec_gate_counters(gate, &n) || snmpsec_gate_counts(gate, &m)) return;
    const struct { const char *name; uint32_t value; } all[] = {
        {"usmStatsUnsupportedSecLevels", n.unsupported_levels}, {"usmStatsNotInTimeWindows", n.not_in_windows},
        {"usmStatsUnknownUserNames", n.unknown_users}, {"usmStatsUnknownEngineIDs", n.unknown_engines},
        {"usmStatsWrongDigests", n.wrong_digests}, {"usmStatsDecryptionErrors", n.decryption_errors},
        {"snmpUnknownPDUHandlers", m.unknown_pdu_handlers}, {"snmpUnavailableContexts", m.unavailable_contexts},
        {"snmpUnknownContexts", m.unknown_contexts}, {"snmpInBadVersions", m.bad_versions},
        {"snmpInASNParseErrs", m.asn_parse_errors},
        {"snmpUnknownSecurityModels", m.unknown_security_models}, {"snmpInvalidMsgs", m.invalid_messages},
        {"snmpSilentDrops", m.silent_drops}};
    write_name(to, "agent_total", "counter");
    for (size_t i = 0; i < sizeof all / sizeof *all; i++)
        fprintf(to, "snmpsec_gate_agent_total{counter=\"%s\"} %u\n", all[i].name, all[i].value);
}

/* A text between the quotes of a label. */
static void write_label(FILE *to, const char *words) {
    for (; *words; words++) {
        if (*words == '"' || *words == '\\') fputc('\\', to);
        fputc(*words, to);
    }
}

/* What isn't 0 of each device: of a thousand most are. */
static void write_devices(FILE *to, const struct device *devices, size_t len) {
    write_name(to, "device_total", "counter");
    for (size_t i = 0; i < len; i++)
        for (size_t j = 0; j < sizeof of_device / sizeof *of_device; j++) {
            uint64_t value;
            memcpy(&value, (const char *)&devices[i].counts + of_device[j].at, sizeof value);
            if (!value) continue;
            fputs("snmpsec_gate_device_total{device=\"", to);
            write_label(to, devices[i].words);
            fprintf(to, "\",event=\"%s\"} %" PRIu64 "\n", of_device[j].name, value);
        }
}

/* What each listening socket lost. */
static void write_lost(FILE *to, const struct told *told) {
    write_name(to, "receive_overflows_total", "counter");
    for (size_t i = 0; i < told->listeners_len + told->trap_listeners_len; i++) {
        const struct listener *it = i < told->listeners_len ? &told->listeners[i]
                                                            : &told->trap_listeners[i - told->listeners_len];
        fprintf(to, "snmpsec_gate_receive_overflows_total{socket=\"%s\"} %" PRIu64 "\n", it->words, it->lost);
    }
}

static void write_statuses(FILE *to, const char *name, const uint64_t *statuses) {
    write_name(to, name, "counter");
    for (uint32_t i = 0; i <= STATUSES; i++)
        fprintf(to, "snmpsec_gate_%s{error_status=\"%s\"} %" PRIu64 "\n", name, i < STATUSES ? status_name(i) : "other",
                statuses[i]);
}

static void write_misfits(FILE *to, const uint64_t *misfits) {
    static const char *const kinds[MISFITS] = {NULL, "too_few", "too_many", "other_name", "not_after", "no_value",
                                               "after_end"};
    write_name(to, "misfits_total", "counter");
    for (size_t i = 1; i < MISFITS; i++)
        fprintf(to, "snmpsec_gate_misfits_total{misfit=\"%s\"} %" PRIu64 "\n", kinds[i], misfits[i]);
}

static void write_refused(FILE *to, const char *name, const uint64_t *counts) {
    write_name(to, name, "counter");
    for (int i = 1; i <= 18; i++)
        if (snmpsec_error_name(i))
            fprintf(to, "snmpsec_gate_%s{refusal=\"%s\"} %" PRIu64 "\n", name, snmpsec_error_name(i), counts[i]);
}

static void write_informs(FILE *to, const struct counts *counts) {
    write_name(to, "informs_total", "counter");
    for (size_t i = 0; i < sizeof inform_names / sizeof *inform_names; i++)
        fprintf(to, "snmpsec_gate_informs_total{event=\"%s\"} %" PRIu64 "\n", inform_names[i].name,
                counts->forwards[inform_names[i].event]);
    write_name(to, "informs_sent_total", "counter");
    for (size_t i = 1; i < INFORM_MESSAGES; i++)
        fprintf(to, "snmpsec_gate_informs_sent_total{message=\"%s\"} %" PRIu64 "\n", inform_messages[i],
                counts->informs[i]);
    write_refused(to, "receivers_refused_total", counts->receivers_refused);
}

static void write_traps(FILE *to, const struct told *told) {
    snmpsec_forward_info info;
    write_name(to, "traps_total", "counter");
    for (size_t i = 0; i < sizeof trap_names / sizeof *trap_names; i++)
        fprintf(to, "snmpsec_gate_traps_total{event=\"%s\"} %" PRIu64 "\n", trap_names[i].name,
                told->counts->forwards[trap_names[i].event]);
    fprintf(to, "snmpsec_gate_traps_total{event=\"of_nobody\"} %" PRIu64 "\n", told->counts->traps_of_nobody);
    write_informs(to, told->counts);
    if (snmpsec_forward_numbers(told->forward, &info)) return;
    write_one(to, "notifications_waiting", "gauge", info.waiting);
    write_one(to, "informs_waiting", "gauge", info.informs);
}

/* (PDUs that no gateway answers are counted together) */
static void write_messages(FILE *to, const uint64_t *messages) {
    static const uint8_t tags[] = {SNMPSEC_GET_REQUEST, SNMPSEC_GET_NEXT_REQUEST, SNMPSEC_GET_BULK_REQUEST,
                                   SNMPSEC_SET_REQUEST};
    uint64_t others = 0;
    write_name(to, "messages_total", "counter");
    for (size_t i = 0; i < PDUS; i++) others += messages[i];
    for (size_t i = 0; i < sizeof tags; i++) {
        uint64_t count = messages[tags[i] - SNMPSEC_GET_REQUEST];
        others -= count;
        fprintf(to, "snmpsec_gate_messages_total{pdu=\"%s\"} %" PRIu64 "\n", pdu_name(tags[i]), count);
    }
    fprintf(to, "snmpsec_gate_messages_total{pdu=\"other\"} %" PRIu64 "\n", others);
}

static void write_all(FILE *to, const struct told *told) {
    const struct counts *counts = told->counts;
    snmpsec_gate_info info;
    write_name(to, "events_total", "counter");
    for (size_t i = 0; i < sizeof names / sizeof *names; i++)
        fprintf(to, "snmpsec_gate_events_total{event=\"%s\"} %" PRIu64 "\n", names[i].name,
                counts->events[names[i].event]);
    write_messages(to, counts->messages);
    write_refused(to, "refused_total", counts->refused);
    write_one(to, "reports_total", "counter", counts->reports);
    write_one(to, "request_reports_total", "counter", counts->request_reports);
    write_one(to, "rounds_used_up_total", "counter", counts->rounds_used_up);
    write_one(to, "unsent_total", "counter", counts->unsent);
    write_one(to, "unlogged_total", "counter", counts->unlogged);
    write_one(to, "dropped_lines_total", "counter", lines_dropped());
    write_lost(to, told);
    write_statuses(to, "answers_total", counts->statuses);
    write_misfits(to, counts->misfits);
    write_one(to, "hidden_bindings_total", "counter", counts->hidden_bindings);
    write_statuses(to, "responses_total", counts->responses);
    if (told->forward) write_traps(to, told);
    write_devices(to, told->devices, told->devices_len);
    if (!snmpsec_gate_numbers(told->gate, &info)) write_one(to, "waiting", "gauge", info.waiting);
    write_agent(to, told->gate);
}

int counts_write(const struct told *told, const char *path) {
    char *text = NULL;
    size_t len = 0;
    FILE *to = open_memstream(&text, &len);
    if (!to) { perror("snmpsec-gate: counts"); return -1; }
    write_all(to, told);
    if (fclose(to)) { perror("snmpsec-gate: counts"); free(text); return -1; }
    int answer = 0;
    if (path) answer = file_replace(path, text, len);
    else fwrite(text, 1, len, stderr);
    free(text);
    return answer;
}
