/* SNMPv3 user security and view access, for C and C++: libsnmpsec.
 *
 * Each call that answers an int answers SNMPSEC_OK, a refusal (above 0) or a fault of the call (below 0);
 * snmpsec_strerror says each in words. A call that doesn't answer SNMPSEC_OK writes no result; where a text's length
 * isn't known before, a too short buffer gets it. A buffer is the caller's. What the library makes is freed by the
 * _free of its name and by nothing else.
 *
 * Threads: a handle is used by one thread at a time, by any thread; the caller locks where two could meet, and a call
 * that only reads is no exception. Handles share nothing, so threads with handles of their own need no lock. Calls
 * without a handle may be made by any thread at any time. No call is made from a signal handler, and in a forked child
 * of a process with threads only after exec.
 *
 * Secrets: what the library frees is wiped first, and so is the stack that its calls used. The caller wipes the
 * configuration that it handed in. Keys lie in memory as long as their handle does.
 *
 * Stack: the calls that read a configuration, those on a gateway or a forwarder, and those that take a datagram of a
 * receiver of notifications or free it need 52 KB of it, the two that free another handle 24 KB, and any other 16 KB.
 * So a thread with 64 KB can make each of them.
 *
 * Work: a datagram makes a call look at its own octets, and at a few rows. _take reads a datagram once, and hashes and
 * opens it once if its user has the keys; it finds the user by halving the table. _part and _message copy. _respond and
 * _respond_front read the list, write, hash and seal it once. _access halves the tables; of the view's families it
 * looks at each with a mask. On x86-64 that is at most so many instructions (tests/work.c):
 *
 *     _take                   50,000 and 140 for each octet of the datagram (without authentication 25,000 and 60)
 *     _part, _message          2,000 and 2 for each octet
 *     _respond                50,000 and 180 for each octet of the list
 *     _respond_front          80,000 and 60 for each octet of the list
 *     _access                  5,000 and 200 for each family with a mask, over 10,000 rows in each table
 *
 * How many variables an answer looks at is the program's: it asks _access for each. The example agent has a limit
 * (examples/looks.h), and a budget for messages without authentication (examples/budget.h).
 *
 * Processor: on x86-64 one of the level x86-64-v2 (SSE4.2 and POPCNT). A program that loads the library on an older one
 * ends with a line on standard error and the status 127.
 *
 * The caller's duties, which nothing checks: a pointer is valid for its length and what is written overlaps nothing
 * else; moments are seconds from one beginning and don't go back; a salt never comes twice for a key, also not after a
 * restart. A length of 0 may come with a null pointer, and a null handle answers SNMPSEC_BAD_ARGUMENT.
 *
 * This file is not proved.
 *
 * Written of lib/calls.toml by tools/write-calls. */
#ifndef SNMPSEC_H
#define SNMPSEC_H

#include <stdbool.h>
#include <stddef.h>
#include <stdint.h>

#define SNMPSEC_VERSION_MAJOR 0
#define SNMPSEC_VERSION_MINOR 1
#define SNMPSEC_VERSION_PATCH 0
#define SNMPSEC_VERSION "0.1.0"

#if defined(__GNUC__)
#define SNMPSEC_CALL __attribute__((visibility("default")))
#define SNMPSEC_CHECK __attribute__((visibility("default"), warn_unused_result))
#else
#define SNMPSEC_CALL
#define SNMPSEC_CHECK
#endif

#ifdef __cplusplus
extern "C" {
#endif

typedef enum snmpsec_answer {
    SNMPSEC_OK = 0,
    /* refusals of a message */
    SNMPSEC_NOT_MESSAGE = 1, SNMPSEC_BAD_VERSION = 2, SNMPSEC_NOT_SECURITY = 3, SNMPSEC_NOT_SCOPED = 4,
    SNMPSEC_UNKNOWN_ENGINE = 6, SNMPSEC_UNKNOWN_USER = 7, SNMPSEC_UNSUPPORTED_LEVEL = 8, SNMPSEC_WRONG_DIGEST = 9,
    SNMPSEC_NOT_IN_WINDOW = 10, SNMPSEC_DECRYPTION_ERROR = 11, SNMPSEC_BAD_SCOPED = 12, SNMPSEC_BAD_PDU = 13,
    SNMPSEC_OUT_OF_MEMORY = 14, SNMPSEC_CLOCK_EXHAUSTED = 15, SNMPSEC_TOO_LARGE = 16, SNMPSEC_UNKNOWN_MODEL = 17,
    SNMPSEC_INVALID_FLAGS = 18,
    /* faults of a call */
    SNMPSEC_BAD_ARGUMENT = -1, SNMPSEC_NOTHING_TAKEN = -2, SNMPSEC_NOT_ASKED = -3, SNMPSEC_BAD_BINDINGS = -4,
    SNMPSEC_SHORT_BUFFER = -5, SNMPSEC_BAD_CONFIGURATION = -6, SNMPSEC_BAD_CLOCKS = -7, SNMPSEC_TOO_MANY_REQUESTS = -8
} snmpsec_answer;

/* The version of the library that runs, as SNMPSEC_VERSION is that of this header. */
SNMPSEC_CALL const char *snmpsec_version(void);
/* An answer in words, never null, nor to be freed: "unknown answer" if there is no such answer. */
SNMPSEC_CALL const char *snmpsec_strerror(int answer);
/* Its name, as "WRONG_DIGEST"; null if there is no such answer. */
SNMPSEC_CALL const char *snmpsec_error_name(int answer);

/* the most octets of a datagram over UDP and IPv4, and the most arcs of a name */
#define SNMPSEC_LARGEST 65507
#define SNMPSEC_MOST_ARCS 128

typedef enum snmpsec_level {
    SNMPSEC_NO_AUTH_NO_PRIV = 1, SNMPSEC_AUTH_NO_PRIV = 2, SNMPSEC_AUTH_PRIV = 3
} snmpsec_level;
typedef enum snmpsec_view { SNMPSEC_READ = 0, SNMPSEC_WRITE = 1, SNMPSEC_NOTIFY = 2 } snmpsec_view;

/* isAccessAllowed (RFC 3415, section 3) */
typedef enum snmpsec_access {
    SNMPSEC_ACCESS_ALLOWED = 0, SNMPSEC_NOT_IN_VIEW = 1, SNMPSEC_NO_SUCH_VIEW = 2, SNMPSEC_NO_ACCESS_ENTRY = 3,
    SNMPSEC_NO_GROUP_NAME = 4, SNMPSEC_NO_SUCH_CONTEXT = 5
} snmpsec_access;

/* PDUs by their tags (RFC 3416) */
typedef enum snmpsec_pdu {
    SNMPSEC_GET_REQUEST = 0xA0, SNMPSEC_GET_NEXT_REQUEST = 0xA1, SNMPSEC_RESPONSE_PDU = 0xA2,
    SNMPSEC_SET_REQUEST = 0xA3, SNMPSEC_GET_BULK_REQUEST = 0xA5, SNMPSEC_INFORM_REQUEST = 0xA6, SNMPSEC_TRAP = 0xA7,
    SNMPSEC_REPORT_PDU = 0xA8
} snmpsec_pdu;

/* The numbers of a message that is kept. Of a GetBulkRequest the second and third are non-repeaters and
 * max-repetitions, of other PDUs error-status and error-index. */
typedef struct snmpsec_info {
    int32_t level, pdu, request_id;
    union { int32_t error_status, non_repeaters; };
    union { int32_t error_index, max_repetitions; };
    int32_t message_id;
} snmpsec_info;

/* the parts of a message that is kept */
typedef enum snmpsec_part {
    SNMPSEC_BINDINGS = 0, SNMPSEC_USER = 1, SNMPSEC_CONTEXT_ENGINE = 2, SNMPSEC_CONTEXT_NAME = 3, SNMPSEC_ENGINE = 4
} snmpsec_part;

/* octets of the caller */
typedef struct snmpsec_octets { const uint8_t *at; size_t len; } snmpsec_octets;

/* ---- a configuration */

/* the tables of a configuration */
typedef enum snmpsec_config_table {
    SNMPSEC_NO_TABLE = 0, SNMPSEC_USER_TABLE = 1, SNMPSEC_CONTEXT_TABLE = 2, SNMPSEC_GROUP_TABLE = 3,
    SNMPSEC_ACCESS_TABLE = 4, SNMPSEC_FAMILY_TABLE = 5
} snmpsec_config_table;

/* why one is refused: it is no TOML; it has another key at the top, or one that is no array of tables; a row's key
 * isn't listed, is missing, or hasn't a value that is wanted; or the row is none that can stand there */
typedef enum snmpsec_config_reason {
    SNMPSEC_NO_TOML = 1, SNMPSEC_BAD_TOP = 2, SNMPSEC_UNLISTED_KEY = 3, SNMPSEC_MISSING_KEY = 4, SNMPSEC_BAD_VALUE = 5,
    SNMPSEC_BAD_USER = 6, SNMPSEC_SHORT_PASSWORD = 7, SNMPSEC_DUPLICATE_USER = 8, SNMPSEC_BAD_ROW = 9,
    SNMPSEC_DUPLICATE_ROW = 10
} snmpsec_config_reason;

/* the keys of rows */
typedef enum snmpsec_config_key {
    SNMPSEC_NO_KEY = 0, SNMPSEC_KEY_NAME = 1, SNMPSEC_KEY_AUTH = 2, SNMPSEC_KEY_AUTH_PASSWORD = 3,
    SNMPSEC_KEY_PRIV_PASSWORD = 4, SNMPSEC_KEY_MODEL = 5, SNMPSEC_KEY_GROUP = 6, SNMPSEC_KEY_PREFIX = 7,
    SNMPSEC_KEY_LEVEL = 8, SNMPSEC_KEY_MATCH = 9, SNMPSEC_KEY_READ = 10, SNMPSEC_KEY_WRITE = 11,
    SNMPSEC_KEY_NOTIFY = 12, SNMPSEC_KEY_VIEW = 13, SNMPSEC_KEY_SUBTREE = 14, SNMPSEC_KEY_INCLUDE = 15,
    SNMPSEC_KEY_MASK = 16
} snmpsec_config_key;

/* Where: a snmpsec_config_table, the row's position in it from 0, a snmpsec_config_reason, and the snmpsec_config_key
 * that is missing or has that value. What isn't so is 0. */
typedef struct snmpsec_config_place { size_t table, position, reason, key; } snmpsec_config_place;

/* Why a text is refused as a configuration, as `snmpsec check-config` tells it; only one whose keys, tables and arrays
 * are nested more than 16 deep is refused as SNMPSEC_NO_TOML before it is read. SNMPSEC_OK: it isn't refused, and
 * *written is 0. SNMPSEC_BAD_CONFIGURATION: *place says where, and in the buffer are two lines, the refusal, and what
 * is wrong and what is wanted; they name keys of the text and no value. SNMPSEC_SHORT_BUFFER: *place says where, and
 * *written how much is wanted. SNMPSEC_OUT_OF_MEMORY. */
SNMPSEC_CHECK int snmpsec_config_fault(const uint8_t *config, size_t config_len, snmpsec_config_place *place,
                                       uint8_t *out, size_t out_len, size_t *written);

/* ---- an agent */

typedef struct snmpsec_agent snmpsec_agent;

SNMPSEC_CALL void snmpsec_agent_free(snmpsec_agent *agent);
/* Makes an agent of a configuration in TOML, with its engine ID (5 to 32 octets, neither all 00 nor all ff) and boots
 * (at most 2147483647), that started at the moment `started`: SNMPSEC_BAD_ARGUMENT, SNMPSEC_BAD_CONFIGURATION
 * (snmpsec_config_fault says where), SNMPSEC_OUT_OF_MEMORY; *out is then null. */
SNMPSEC_CHECK int snmpsec_agent_new(const uint8_t *config, size_t config_len, const uint8_t *engine, size_t engine_len,
                                    uint32_t boots, uint64_t started, snmpsec_agent **out);

/* Users and tables become those of a changed configuration. The engine ID, the boots, the moment of the start, all
 * counters, what is kept and the message stay: so there is no restart, and managers need not learn the engine anew.
 * SNMPSEC_BAD_CONFIGURATION (snmpsec_config_fault says where), SNMPSEC_OUT_OF_MEMORY: nothing changes. */
SNMPSEC_CHECK int snmpsec_agent_reconfigure(snmpsec_agent *agent, const uint8_t *config, size_t config_len);

/* Takes a datagram. SNMPSEC_OK: it is accepted, and kept for the calls below. A refusal: its report, if there is one,
 * is the message. */
SNMPSEC_CHECK int snmpsec_agent_take(snmpsec_agent *agent, uint64_t now, const uint8_t *datagram, size_t datagram_len);
/* SNMPSEC_NOTHING_TAKEN: no message is kept. */
SNMPSEC_CHECK int snmpsec_agent_info(snmpsec_agent *agent, snmpsec_info *out);
/* SNMPSEC_SHORT_BUFFER, and *written says how much is wanted; SNMPSEC_NOTHING_TAKEN, or SNMPSEC_BAD_ARGUMENT: no such
 * part, and nothing is written. */
SNMPSEC_CHECK int snmpsec_agent_part(snmpsec_agent *agent, snmpsec_part part, uint8_t *out, size_t out_len,
                                     size_t *written);
/* The message to be sent, in the same way: the report on what was taken last, or what was written since. */
SNMPSEC_CHECK int snmpsec_agent_message(snmpsec_agent *agent, uint8_t *out, size_t out_len, size_t *written);

/* Whether the sender of what is kept may see a variable in the message's context. It is false on each fault too. An
 * agent asks for each variable before it gives or sets it. */
SNMPSEC_CHECK bool snmpsec_agent_allows(snmpsec_agent *agent, snmpsec_view view, const uint32_t *arcs, size_t arcs_len);
/* The same with the reason: SNMPSEC_BAD_ARGUMENT: no such view, or not 1 to 128 arcs; SNMPSEC_NOTHING_TAKEN. */
SNMPSEC_CHECK int snmpsec_agent_access(snmpsec_agent *agent, snmpsec_view view, const uint32_t *arcs, size_t arcs_len,
                                       snmpsec_access *out);
/* The least name, at or after these arcs, that the sender of what is kept may see (RFC 3416, section 4.2.2): its arcs
 * in *out, and how many they are in *written, at most 128, or 0 if there is no such name. An agent that walks goes on
 * there, and steps over no variable that is hidden. SNMPSEC_SHORT_BUFFER: *written says how many arcs are wanted;
 * SNMPSEC_BAD_ARGUMENT or SNMPSEC_NOTHING_TAKEN, as above: nothing is written. */
SNMPSEC_CHECK int snmpsec_agent_next(snmpsec_agent *agent, snmpsec_view view, const uint32_t *arcs, size_t arcs_len,
                                     uint32_t *out, size_t out_len, size_t *written);
/* As snmpsec_agent_allows and _access, for a user at a level in a context, without a message. */
SNMPSEC_CHECK bool snmpsec_agent_user_allows(snmpsec_agent *agent, snmpsec_octets user, snmpsec_level level,
                                             snmpsec_octets context, snmpsec_view view, const uint32_t *arcs,
                                             size_t arcs_len);
SNMPSEC_CHECK int snmpsec_agent_user_access(snmpsec_agent *agent, snmpsec_octets user, snmpsec_level level,
                                            snmpsec_octets context, snmpsec_view view, const uint32_t *arcs,
                                            size_t arcs_len, snmpsec_access *out);

/* Writes the Response to what is kept: SNMPSEC_BAD_ARGUMENT: a number above 2147483647; SNMPSEC_NOTHING_TAKEN;
 * SNMPSEC_NOT_ASKED: its PDU isn't one that is answered; SNMPSEC_BAD_BINDINGS; or a refusal: SNMPSEC_CLOCK_EXHAUSTED,
 * SNMPSEC_UNKNOWN_USER, SNMPSEC_UNSUPPORTED_LEVEL, SNMPSEC_TOO_LARGE (answer tooBig then: error-status 1 and no
 * bindings), SNMPSEC_OUT_OF_MEMORY. */
SNMPSEC_CHECK int snmpsec_agent_respond(snmpsec_agent *agent, uint64_t now, uint32_t error_status, uint32_t error_index,
                                        const uint8_t *list, size_t list_len, uint64_t salt);

/* How many octets the sender of what is kept takes, 484 to 2147483647 (msgMaxSize): SNMPSEC_NOTHING_TAKEN. */
SNMPSEC_CHECK int snmpsec_agent_max_size(snmpsec_agent *agent, uint32_t *out);
/* What snmpsec_agent_respond writes, where it has at most `limit` octets; else SNMPSEC_TOO_LARGE. A Response without
 * bindings fits into 484 if contextEngineID and contextName have at most 32 octets each. */
SNMPSEC_CHECK int snmpsec_agent_respond_within(snmpsec_agent *agent, uint64_t now, uint32_t error_status,
                                               uint32_t error_index, const uint8_t *list, size_t list_len,
                                               uint64_t salt, uint32_t limit);
/* The Response with as many of the bindings, from the first on, as have room in `limit` octets: `*count` is how many
 * they are. A GetBulk is answered with it (RFC 3416, section 4.2.3). One text is sealed, whatever is left out.
 * SNMPSEC_TOO_LARGE where there is no room even for a Response without bindings; `*count` stays on an error. */
SNMPSEC_CHECK int snmpsec_agent_respond_front(snmpsec_agent *agent, uint64_t now, uint32_t error_status,
                                              uint32_t error_index, const uint8_t *list, size_t list_len, uint64_t salt,
                                              uint32_t limit, size_t *count);
/* How many of the bindings, from the first on, have room in that Response, whatever its salt: `*count` is what
 * _respond_front would say, with its answers. Nothing is sealed or written. So it says of a Set, before anything is
 * set, whether its answer has room. */
SNMPSEC_CHECK int snmpsec_agent_fits(snmpsec_agent *agent, uint64_t now, uint32_t error_status, uint32_t error_index,
                                     const uint8_t *list, size_t list_len, uint32_t limit, size_t *count);

/* Why nothing answers what is kept, the first that applies: no request waits for a Response or a Report; its
 * contextEngineID isn't the agent's, or its PDU is no Get, GetNext, Set or GetBulk (RFC 3412, section 4.2.2); or no
 * context has its name (RFC 3413, section 3.2). An agent that can't reach a context now says so by itself. */
typedef enum snmpsec_unhandled {
    SNMPSEC_HANDLED = 0, SNMPSEC_NO_REQUEST = 1, SNMPSEC_UNKNOWN_PDU_HANDLERS = 7, SNMPSEC_UNAVAILABLE_CONTEXTS = 8,
    SNMPSEC_UNKNOWN_CONTEXTS = 9
} snmpsec_unhandled;
/* SNMPSEC_NOTHING_TAKEN: no message is kept. */
SNMPSEC_CHECK int snmpsec_agent_unhandled(snmpsec_agent *agent, snmpsec_unhandled *out);
/* Counts what is kept as one that isn't answered, and writes the report on it, where its PDU asks for an answer; else
 * there is no message. SNMPSEC_BAD_ARGUMENT: no such reason, or SNMPSEC_HANDLED; SNMPSEC_NOTHING_TAKEN; or a refusal as
 * of snmpsec_agent_respond. */
SNMPSEC_CHECK int snmpsec_agent_refuse(snmpsec_agent *agent, uint64_t now, snmpsec_unhandled why, uint64_t salt);
/* Counts what is kept in snmpSilentDrops: even its answer without bindings is too long (RFC 3416, section 4.2.1). */
SNMPSEC_CHECK int snmpsec_agent_silent_drop(snmpsec_agent *agent);

/* A message that was accepted, kept outside of its agent: any number may wait there for their Responses, which are
 * written in any order, at any later moment. It takes some 350 octets of memory besides its text, and is freed before
 * or after its agent. The text lies in memory as it was decrypted until then. */
typedef struct snmpsec_kept snmpsec_kept;

SNMPSEC_CALL void snmpsec_kept_free(snmpsec_kept *kept);
/* Takes what is kept out of the agent, into *out: the agent keeps no message then, until the next _take. The message
 * that is to be sent stays. SNMPSEC_NOTHING_TAKEN, SNMPSEC_OUT_OF_MEMORY: the agent keeps what it kept; *out is then
 * null. */
SNMPSEC_CHECK int snmpsec_agent_keep(snmpsec_agent *agent, snmpsec_kept **out);
/* Puts it back, and frees it: the agent keeps it, instead of what it kept, as if it had been accepted last. So _access,
 * _next, _unhandled and _refuse are asked of a message that waited. */
SNMPSEC_CHECK int snmpsec_agent_restore(snmpsec_agent *agent, snmpsec_kept *kept);
/* What it is: as snmpsec_agent_info, _part and _max_size, but that there is always a message. */
SNMPSEC_CHECK int snmpsec_kept_info(snmpsec_kept *kept, snmpsec_info *out);
SNMPSEC_CHECK int snmpsec_kept_part(snmpsec_kept *kept, snmpsec_part part, uint8_t *out, size_t out_len,
                                    size_t *written);
SNMPSEC_CHECK int snmpsec_kept_max_size(snmpsec_kept *kept, uint32_t *out);
/* Writes the Response to it, as the agent's message, just as snmpsec_agent_respond, _respond_within and _respond_front
 * write that to what the agent keeps, at the moment `now` and with their answers. What the agent keeps stays, and so
 * does this one. The agent may be another one than that which accepted it, as one that was made of a new configuration:
 * the Response is sealed for the user that the agent has by this name, under its engine ID. */
SNMPSEC_CHECK int snmpsec_kept_respond(snmpsec_kept *kept, snmpsec_agent *agent, uint64_t now, uint32_t error_status,
                                       uint32_t error_index, const uint8_t *list, size_t list_len, uint64_t salt);
SNMPSEC_CHECK int snmpsec_kept_respond_within(snmpsec_kept *kept, snmpsec_agent *agent, uint64_t now,
                                              uint32_t error_status, uint32_t error_index, const uint8_t *list,
                                              size_t list_len, uint64_t salt, uint32_t limit);
SNMPSEC_CHECK int snmpsec_kept_respond_front(snmpsec_kept *kept, snmpsec_agent *agent, uint64_t now,
                                             uint32_t error_status, uint32_t error_index, const uint8_t *list,
                                             size_t list_len, uint64_t salt, uint32_t limit, size_t *count);

/* What becomes of a variable (RFC 3413, section 3.2): it is answered; the error-status 6 or 16; its value is
 * noSuchObject; a walk goes on after it; or the message is refused for SNMPSEC_UNKNOWN_CONTEXTS. */
typedef enum snmpsec_status {
    SNMPSEC_NO_ERROR = 0, SNMPSEC_NO_ACCESS = 6, SNMPSEC_AUTHORIZATION_ERROR = 16, SNMPSEC_NO_SUCH_OBJECT = 128,
    SNMPSEC_NOT_SEEN = 256, SNMPSEC_UNKNOWN_CONTEXT = 257
} snmpsec_status;
/* By the answer on access, and the PDU that asks. SNMPSEC_BAD_ARGUMENT: no such answer, or the PDU is above 255. */
SNMPSEC_CHECK int snmpsec_status_of(snmpsec_access access, snmpsec_pdu pdu, snmpsec_status *out);

typedef struct snmpsec_notice {
    uint32_t message_id, request_id;
    snmpsec_level level;
    snmpsec_octets user, context_engine, context_name, list;
    uint64_t salt;
} snmpsec_notice;

/* Writes an SNMPv2-Trap. */
SNMPSEC_CHECK int snmpsec_agent_notify(snmpsec_agent *agent, uint64_t now, const snmpsec_notice *notice);

/* usmStats (RFC 3414, section 5) */
typedef struct snmpsec_counters {
    uint32_t unsupported_levels, not_in_windows, unknown_users, unknown_engines, wrong_digests, decryption_errors;
} snmpsec_counters;
SNMPSEC_CHECK int snmpsec_agent_counters(snmpsec_agent *agent, snmpsec_counters *out);
/* The counters of messages that weren't answered or were refused without a report: snmpUnknownPDUHandlers,
 * snmpUnavailableContexts, snmpUnknownContexts, snmpInBadVersions, snmpInASNParseErrs, snmpUnknownSecurityModels,
 * snmpInvalidMsgs, snmpSilentDrops (RFC 3412, section 5; RFC 3413, section 4.1.2; RFC 3418) */
typedef struct snmpsec_counts {
    uint32_t unknown_pdu_handlers, unavailable_contexts, unknown_contexts, bad_versions, asn_parse_errors,
        unknown_security_models, invalid_messages, silent_drops;
} snmpsec_counts;
SNMPSEC_CHECK int snmpsec_agent_counts(snmpsec_agent *agent, snmpsec_counts *out);

/* ---- a manager */

typedef struct snmpsec_manager snmpsec_manager;

/* the saved text of no clocks */
#define SNMPSEC_NO_CLOCKS "snmp-clocks 2\n"

SNMPSEC_CALL void snmpsec_manager_free(snmpsec_manager *manager);
/* Makes a manager with the users of a configuration, that begins with the clocks of a saved text, where the marks of
 * version 1 were seen at the moment `now`: SNMPSEC_BAD_CLOCKS, SNMPSEC_BAD_CONFIGURATION, SNMPSEC_OUT_OF_MEMORY; *out
 * is then null. */
SNMPSEC_CHECK int snmpsec_manager_new(const uint8_t *config, size_t config_len, const uint8_t *clocks,
                                      size_t clocks_len, uint64_t now, snmpsec_manager **out);

/* Takes a datagram, and learns its engine's boots and time where it is authentic. SNMPSEC_OK: it is accepted, and kept.
 * SNMPSEC_OUT_OF_MEMORY: nothing is learned, so it may be taken again. */
SNMPSEC_CHECK int snmpsec_manager_take(snmpsec_manager *manager, uint64_t now, const uint8_t *datagram,
                                       size_t datagram_len);
SNMPSEC_CHECK int snmpsec_manager_info(snmpsec_manager *manager, snmpsec_info *out);
SNMPSEC_CHECK int snmpsec_manager_part(snmpsec_manager *manager, snmpsec_part part, uint8_t *out, size_t out_len,
                                       size_t *written);
/* The request that was written last: SNMPSEC_NOTHING_TAKEN: none was since the last _take. */
SNMPSEC_CHECK int snmpsec_manager_message(snmpsec_manager *manager, uint8_t *out, size_t out_len, size_t *written);

/* What a message is to the request that was written last: its Response, a Report (of the counter 1 to 6, by the order
 * of snmpsec_counters, or 0 of none), or neither. */
typedef enum snmpsec_reply_kind {
    SNMPSEC_REPLY_RESPONSE = 0, SNMPSEC_REPLY_OTHER = 1, SNMPSEC_REPLY_REPORT = 2
} snmpsec_reply_kind;
enum {
    SNMPSEC_UNSUPPORTED_LEVELS = 1, SNMPSEC_NOT_IN_WINDOWS = 2, SNMPSEC_UNKNOWN_USERS = 3, SNMPSEC_UNKNOWN_ENGINES = 4,
    SNMPSEC_WRONG_DIGESTS = 5, SNMPSEC_DECRYPTION_ERRORS = 6
};
typedef struct snmpsec_reply { snmpsec_reply_kind kind; int counter; } snmpsec_reply;
/* SNMPSEC_NOTHING_TAKEN: no message is kept, or nothing was asked. */
SNMPSEC_CHECK int snmpsec_manager_reply(snmpsec_manager *manager, snmpsec_reply *out);
/* The same, and where it is the Response the request isn't waited for any more: the same message again is
 * SNMPSEC_NOTHING_TAKEN. */
SNMPSEC_CHECK int snmpsec_manager_take_reply(snmpsec_manager *manager, snmpsec_reply *out);
/* What a Report tells: its counter (1 to 6 as above, the numbers of snmpsec_unhandled, or 0 of none), the counter's
 * value where it has one, and whether it came with authentication; without, it can be anybody's. */
typedef struct snmpsec_report { int counter; uint32_t value; bool has_value, is_authenticated; } snmpsec_report;
/* SNMPSEC_NOTHING_TAKEN: what is kept is no Report on the request that was written last. */
SNMPSEC_CHECK int snmpsec_manager_report(snmpsec_manager *manager, snmpsec_report *out);
/* How many octets the sender of what is kept takes, 484 to 2147483647 (msgMaxSize): SNMPSEC_NOTHING_TAKEN. */
SNMPSEC_CHECK int snmpsec_manager_max_size(snmpsec_manager *manager, uint32_t *out);

/* Writes the request by which an engine is discovered; its answer is a Report that has the engine's ID. */
SNMPSEC_CHECK int snmpsec_manager_discover(snmpsec_manager *manager, uint32_t message_id);

typedef struct snmpsec_request {
    snmpsec_pdu pdu;
    uint32_t message_id, request_id;
    union { uint32_t error_status, non_repeaters; };
    union { uint32_t error_index, max_repetitions; };
    snmpsec_level level;
    snmpsec_octets engine, user, context_engine, context_name, list;
    uint64_t salt;
} snmpsec_request;

/* Writes a request: SNMPSEC_BAD_ARGUMENT: a number or a length is out of its range; SNMPSEC_BAD_BINDINGS; or a refusal:
 * SNMPSEC_UNKNOWN_USER, SNMPSEC_UNSUPPORTED_LEVEL, SNMPSEC_TOO_LARGE, SNMPSEC_OUT_OF_MEMORY. One such request is waited
 * for at a time, the last; snmpsec_manager_ask has many. */
SNMPSEC_CHECK int snmpsec_manager_request(snmpsec_manager *manager, uint64_t now, const snmpsec_request *request);

/* Many requests at once. Each that is asked waits for its answer, beside all others and beside the one that was written
 * last, until its Response comes or it is given up. It has a token, which no other is ever given, and a msgID, which no
 * other has that waits (RFC 3412, section 6.2). At most 65,536 wait. */

/* Writes a request as snmpsec_manager_request does, and waits for its answer too: its token goes to *token. The first
 * of all has the message_id of the struct, which is to be random; later ones have the next that is free, and their
 * message_id only has to be in its range. SNMPSEC_TOO_MANY_REQUESTS: 65,536 wait; or an answer of
 * snmpsec_manager_request. On an error nothing changes. */
SNMPSEC_CHECK int snmpsec_manager_ask(snmpsec_manager *manager, uint64_t now, const snmpsec_request *request,
                                      uint64_t *token);
/* The same for the request by which an engine is discovered; its answer is a Report of SNMPSEC_UNKNOWN_ENGINES that has
 * the engine's ID. It waits until it is given up. SNMPSEC_BAD_ARGUMENT, SNMPSEC_TOO_MANY_REQUESTS,
 * SNMPSEC_OUT_OF_MEMORY. */
SNMPSEC_CHECK int snmpsec_manager_ask_discovery(snmpsec_manager *manager, uint32_t message_id, uint64_t *token);

/* Which request that waits is answered by the message that is kept, and how: `kind` is SNMPSEC_REPLY_RESPONSE, which
 * ends the request, SNMPSEC_REPLY_REPORT, or SNMPSEC_REPLY_OTHER where none is answered; then token is 0. A Report has
 * its counter, as snmpsec_report has it, and is_authentic says if it came with authentication, from the engine that was
 * asked and for the user that asks; any other can be anybody's. */
typedef struct snmpsec_answered {
    snmpsec_reply_kind kind;
    int counter;
    bool is_authentic;
    uint64_t token;
} snmpsec_answered;
/* A message answers one request alone, and the Response of a request is reported once. SNMPSEC_NOTHING_TAKEN: no
 * message is kept. */
SNMPSEC_CHECK int snmpsec_manager_answered(snmpsec_manager *manager, snmpsec_answered *out);
/* The request isn't waited for any more, and no message answers it. SNMPSEC_NOTHING_TAKEN: no request with this token
 * waits. */
SNMPSEC_CHECK int snmpsec_manager_give_up(snmpsec_manager *manager, uint64_t token);

/* What is sent to a device whose engine ID, or whose boots and time, may be unknown (RFC 3414, section 4): a discovery;
 * a request without bindings at SNMPSEC_AUTH_NO_PRIV, by whose Report the manager learns boots and time, so that
 * nothing is sealed with a time that may be wrong; and the request, at its own level and no other. Or what is to be
 * done: wait for an answer to what was sent last; the request is answered; or the engine refused it. */
typedef enum snmpsec_step {
    SNMPSEC_SEND_DISCOVERY = 0, SNMPSEC_SEND_TIME_REQUEST = 1, SNMPSEC_SEND_REQUEST = 2, SNMPSEC_WAIT = 3,
    SNMPSEC_ANSWERED = 4, SNMPSEC_DENIED = 5
} snmpsec_step;
/* What is known of a device: nothing; its engine ID; or the manager holds boots and time of its engine too
 * (snmpsec_manager_clock). */
typedef enum snmpsec_known {
    SNMPSEC_KNOWN_NOTHING = 0, SNMPSEC_KNOWN_ENGINE = 1, SNMPSEC_KNOWN_CLOCK = 2
} snmpsec_known;
/* A request of a device: its level, what was sent last (SNMPSEC_WAIT: nothing is sent any more), and whether the
 * request was sent again. `counter` is that of the last Report that says why the request is refused or, where it isn't
 * authentic, is likely to have no answer; -1 of none. */
typedef struct snmpsec_device {
    snmpsec_level level;
    uint32_t sent, again;
    int counter;
    bool is_authentic;
} snmpsec_device;

/* Begins a request of a device, and says what is sent first. SNMPSEC_BAD_ARGUMENT: no such level, or no such
 * knowledge. */
SNMPSEC_CHECK int snmpsec_device_begin(snmpsec_device *device, snmpsec_level level, snmpsec_known known,
                                       snmpsec_step *step);
/* Says what is to be done once a message answered what was sent last. holds_clock: the manager holds boots and time of
 * the engine that answered. A Report that isn't authentic ends nothing. The request is sent again once, after an
 * authentic Report of SNMPSEC_NOT_IN_WINDOWS; any other authentic Report, and a second one, is SNMPSEC_DENIED.
 * SNMPSEC_BAD_ARGUMENT: a number is out of its range; then nothing changes. */
SNMPSEC_CHECK int snmpsec_device_hear(snmpsec_device *device, const snmpsec_answered *answered, bool holds_clock,
                                      snmpsec_step *step);

/* Joins in the clocks of a saved text: SNMPSEC_BAD_CLOCKS, SNMPSEC_OUT_OF_MEMORY. */
SNMPSEC_CHECK int snmpsec_manager_absorb(snmpsec_manager *manager, const uint8_t *text, size_t text_len, uint64_t now);
/* The saved text of the clocks, in the same way as the message, which stays: SNMPSEC_SHORT_BUFFER, and *written says
 * how much is wanted; SNMPSEC_OUT_OF_MEMORY. */
SNMPSEC_CHECK int snmpsec_manager_save(snmpsec_manager *manager, uint8_t *out, size_t out_len, size_t *written);

typedef struct snmpsec_clock { uint32_t boots, time; } snmpsec_clock;
/* What is held of an engine: SNMPSEC_BAD_ARGUMENT: no engine ID; SNMPSEC_NOTHING_TAKEN: nothing is held. */
SNMPSEC_CHECK int snmpsec_manager_clock(snmpsec_manager *manager, const uint8_t *engine, size_t engine_len,
                                        snmpsec_clock *out);

/* How a scopedPDU is sealed, and for whom (RFC 3412, section 6; RFC 3414, section 2.4): for programs that test agents,
 * which send what no well-behaved manager sends. */
typedef struct snmpsec_sealing {
    /* msgID, 0 to 2147483647, and msgMaxSize in octets, 484 to 2147483647 */
    uint32_t message_id, max_size;
    /* the reportableFlag of msgFlags */
    bool is_reportable;
    snmpsec_level level;
    /* the authoritative engine's ID, of any length, and the user's name, of at most 32 octets */
    snmpsec_octets engine, user;
    /* boots and time, in seconds, that the message says of that engine: each 0 to 2147483647 */
    uint32_t boots, time;
    /* one whole SEQUENCE, as snmpsec_scoped_write writes it; what stands in it isn't looked at */
    snmpsec_octets scoped;
    uint64_t salt;
} snmpsec_sealing;

/* Seals a scopedPDU, and leaves the message to be sent as snmpsec_manager_request does. No answer to it is waited for:
 * the clocks, what is kept and what is waited for stay. SNMPSEC_BAD_ARGUMENT: a number or a length is out of its range,
 * or `scoped` isn't one whole SEQUENCE; or a refusal: SNMPSEC_UNKNOWN_USER and SNMPSEC_UNSUPPORTED_LEVEL, at levels
 * with authentication; SNMPSEC_TOO_LARGE, SNMPSEC_OUT_OF_MEMORY. */
SNMPSEC_CHECK int snmpsec_manager_seal(snmpsec_manager *manager, const snmpsec_sealing *sealing);

/* ---- a receiver of notifications: Traps, and Informs, which it acknowledges
 *
 * It takes a Trap as a manager, and an Inform as the engine that it is sent to (RFC 3413, section 3.4). A notification
 * is reported if and only if it is accepted; isn't below the least level; comes from one of the sources, if it has no
 * authentication; is in its user's notify view, if the configuration gives the user's group one (RFC 3413, section
 * 3.3); and wasn't reported before, as long as it can be accepted again. The program has the socket: it gives each
 * datagram to _take, and sends _message, if there is one, to the datagram's sender. */

typedef struct snmpsec_listener snmpsec_listener;

/* least_level: a snmpsec_level, or 0: for each user the highest level for which the user has passwords. boots, started,
 * engine: of the receiver's own engine, as of an agent. clocks: the saved clocks of senders, as of a manager, where the
 * marks of version 1 were seen at clocks_moment. most: how many notifications are remembered at once: a Trap with
 * authentication until its sender's time, as it is held here, is more than 150 seconds later, and any other one for 301
 * seconds. When so many are remembered, no other one is reported. Moments are seconds from the beginning that the
 * clocks have. */
typedef struct snmpsec_listener_settings {
    uint32_t least_level, boots;
    uint64_t started, clocks_moment;
    size_t most;
    snmpsec_octets engine, clocks;
} snmpsec_listener_settings;

SNMPSEC_CALL void snmpsec_listener_free(snmpsec_listener *listener);
/* Makes a receiver with the users and the access of a configuration. sources: the addresses from which notifications at
 * SNMPSEC_NO_AUTH_NO_PRIV are taken, each by any octets that the program gives it. SNMPSEC_BAD_ARGUMENT,
 * SNMPSEC_BAD_CLOCKS, SNMPSEC_BAD_CONFIGURATION (snmpsec_config_fault says where), SNMPSEC_OUT_OF_MEMORY; *out is then
 * null. */
SNMPSEC_CHECK int snmpsec_listener_new(const uint8_t *config, size_t config_len,
                                       const snmpsec_listener_settings *settings, const snmpsec_octets *sources,
                                       size_t sources_len, snmpsec_listener **out);

/* What becomes of a datagram. */
typedef enum snmpsec_listener_event {
    /* it is reported, and kept for the calls below; the acknowledgement of an Inform is the message */
    SNMPSEC_LISTENER_TRAP = 1, SNMPSEC_LISTENER_INFORM = 2,
    /* it is refused, for *why; its Report, or the Response tooBig to an Inform, is the message, if there is one */
    SNMPSEC_LISTENER_REFUSED = 3,
    /* it is accepted, but it is no notification; is below the least level; has no authentication and comes from another
     * address; isn't in its user's notify view */
    SNMPSEC_LISTENER_OTHER_PDU = 19, SNMPSEC_LISTENER_LOW_LEVEL = 20, SNMPSEC_LISTENER_OTHER_ADDRESS = 21,
    SNMPSEC_LISTENER_OUTSIDE_VIEW = 22,
    /* it was reported before, and the message is the acknowledgement of an Inform; as many are remembered as may be */
    SNMPSEC_LISTENER_COPY = 23, SNMPSEC_LISTENER_NO_ROOM = 24
} snmpsec_listener_event;

/* Takes a datagram from this address: SNMPSEC_OK; SNMPSEC_OUT_OF_MEMORY: nothing changes, and it may be taken again.
 * Each salt is another one, also after a restart. *why is a refusal, or 0. */
SNMPSEC_CHECK int snmpsec_listener_take(snmpsec_listener *listener, uint64_t now, const uint8_t *source,
                                        size_t source_len, const uint8_t *datagram, size_t datagram_len, uint64_t salt,
                                        snmpsec_listener_event *event, int *why);
/* The notification that was reported last, as of an agent. SNMPSEC_NOTHING_TAKEN: the last datagram wasn't reported. */
SNMPSEC_CHECK int snmpsec_listener_info(snmpsec_listener *listener, snmpsec_info *out);
SNMPSEC_CHECK int snmpsec_listener_part(snmpsec_listener *listener, snmpsec_part part, uint8_t *out, size_t out_len,
                                        size_t *written);
/* What is to be sent to the sender of the datagram that was taken last: SNMPSEC_NOTHING_TAKEN, SNMPSEC_SHORT_BUFFER. */
SNMPSEC_CHECK int snmpsec_listener_message(snmpsec_listener *listener, uint8_t *out, size_t out_len, size_t *written);

/* How many datagrams weren't reported, by the reason: a refusal, or a snmpsec_listener_event from 19 on.
 * SNMPSEC_BAD_ARGUMENT: no such reason. */
SNMPSEC_CHECK int snmpsec_listener_count(snmpsec_listener *listener, uint32_t reason, uint64_t *out);

/* The saved text of the clocks, which is the message then: SNMPSEC_SHORT_BUFFER, and *written says how much is
 * wanted. */
SNMPSEC_CHECK int snmpsec_listener_save(snmpsec_listener *listener, uint8_t *out, size_t out_len, size_t *written);
/* What is held of a sender's engine, as of a manager. */
SNMPSEC_CHECK int snmpsec_listener_clock(snmpsec_listener *listener, const uint8_t *engine, size_t engine_len,
                                         snmpsec_clock *out);

/* ---- a gateway: managers that speak SNMPv3 before devices that speak SNMPv2c (docs/gateway.md)
 *
 * Moments are milliseconds from one beginning that don't go back; the agent's seconds are those moments by 1000. The
 * program has the sockets: it gives each datagram to the gateway, devices' first, and then calls _next until there is
 * nothing to do. */

typedef struct snmpsec_gate snmpsec_gate;

/* What becomes of a datagram, and what goes out. */
typedef enum snmpsec_gate_event {
    /* _next: there is nothing to do now */
    SNMPSEC_GATE_NOTHING = 0,
    /* _take_client: it begins a request; it asks again what waits; as many wait as may; it is a repeated Set whose
     * outcome isn't known */
    SNMPSEC_GATE_BEGINS = 20, SNMPSEC_GATE_JOINS = 21, SNMPSEC_GATE_NO_ROOM = 22, SNMPSEC_GATE_SET_OF_BEFORE = 23,
    /* _take_device: it is the answer to what was asked; nothing waits for it; it is no Response of SNMPv2c */
    SNMPSEC_GATE_ANSWERS = 24, SNMPSEC_GATE_NOT_WAITED_FOR = 25, SNMPSEC_GATE_UNREADABLE = 26,
    /* _next: _message goes to _client, or to the device; a device is given up; a message isn't answered */
    SNMPSEC_GATE_TO_CLIENT = 27, SNMPSEC_GATE_TO_DEVICE = 28, SNMPSEC_GATE_GIVEN_UP = 29, SNMPSEC_GATE_UNANSWERED = 30
} snmpsec_gate_event;

SNMPSEC_CALL void snmpsec_gate_free(snmpsec_gate *gate);
/* Why a text is refused as a gateway's configuration, in two lines: the refusal, and what is wrong. SNMPSEC_OK: it
 * isn't, and *written is 0; SNMPSEC_BAD_CONFIGURATION: they are written; SNMPSEC_SHORT_BUFFER;
 * SNMPSEC_OUT_OF_MEMORY. */
SNMPSEC_CHECK int snmpsec_gate_fault(const uint8_t *config, size_t config_len, uint8_t *out, size_t out_len,
                                     size_t *written);
/* Makes a gateway of a configuration, whose agent started at this moment in seconds: SNMPSEC_BAD_ARGUMENT: boots are
 * above 2147483647; SNMPSEC_BAD_CONFIGURATION, SNMPSEC_OUT_OF_MEMORY; *out is then null. The path of its boots is a
 * setting, which snmpsec_gate_read tells before. */
SNMPSEC_CHECK int snmpsec_gate_new(const uint8_t *config, size_t config_len, uint32_t boots, uint64_t started,
                                   snmpsec_gate **out);
/* Reads what a configuration says, for snmpsec_gate_setting and snmpsec_gate_may_notify. No password is hashed, so it
 * takes little time. This gateway has no users and no devices, and answers nobody. It refuses what snmpsec_gate_new
 * refuses: SNMPSEC_BAD_CONFIGURATION, SNMPSEC_OUT_OF_MEMORY; *out is then null. */
SNMPSEC_CHECK int snmpsec_gate_read(const uint8_t *config, size_t config_len, snmpsec_gate **out);

/* What the configuration says, at a position from 0. Boots are at each. */
typedef enum snmpsec_gate_text {
    /* the path of the boots' file; an address at which the gateway listens */
    SNMPSEC_GATE_BOOTS = 0, SNMPSEC_GATE_LISTEN = 1,
    /* of a device: its contextName, its address, and what about it is probably a mistake */
    SNMPSEC_GATE_CONTEXT = 2, SNMPSEC_GATE_ADDRESS = 3, SNMPSEC_GATE_NOTE = 4,
    /* an address at which Traps of devices are taken */
    SNMPSEC_GATE_TRAPS = 5,
    /* of a receiver of notifications: its address, its user, and the word for its level */
    SNMPSEC_GATE_RECEIVER = 6, SNMPSEC_GATE_RECEIVER_USER = 7, SNMPSEC_GATE_RECEIVER_LEVEL = 8,
    /* how it is notified: "trap" or "inform" */
    SNMPSEC_GATE_RECEIVER_KIND = 9,
    /* a read view that access rows name and no family row has, each once: nobody sees anything by it */
    SNMPSEC_GATE_VIEW_WITHOUT_FAMILY = 10
} snmpsec_gate_text;
/* Copies it: SNMPSEC_NOTHING_TAKEN: nothing is said there; SNMPSEC_SHORT_BUFFER, and *written says how much is wanted;
 * SNMPSEC_OUT_OF_MEMORY. */
SNMPSEC_CHECK int snmpsec_gate_setting(snmpsec_gate *gate, snmpsec_gate_text text, size_t position, uint8_t *out,
                                       size_t out_len, size_t *written);

/* Takes a datagram from a client, whose address is any octets that tell it from others. SNMPSEC_OK: *event says what
 * becomes of it; a refusal, and _message is the report on it, if there is one. SNMPSEC_OUT_OF_MEMORY: it isn't taken,
 * and may be taken again. */
SNMPSEC_CHECK int snmpsec_gate_take_client(snmpsec_gate *gate, uint64_t now, const uint8_t *client, size_t client_len,
                                           const uint8_t *datagram, size_t datagram_len, snmpsec_gate_event *event);
/* Takes a datagram from the device at this position: SNMPSEC_OK, SNMPSEC_OUT_OF_MEMORY. */
SNMPSEC_CHECK int snmpsec_gate_take_device(snmpsec_gate *gate, uint64_t now, size_t device, const uint8_t *datagram,
                                           size_t datagram_len, snmpsec_gate_event *event);
/* Does the first thing that is due: SNMPSEC_OK, SNMPSEC_OUT_OF_MEMORY. Each salt is another one, also after a restart,
 * and each ask_id. *why is a refusal for which a message isn't answered, or 0. */
SNMPSEC_CHECK int snmpsec_gate_next(snmpsec_gate *gate, uint64_t now, uint64_t salt, uint32_t ask_id,
                                    snmpsec_gate_event *event, int *why);
/* The moment from which on _next has something to do by time alone: SNMPSEC_NOTHING_TAKEN: there is none. */
SNMPSEC_CHECK int snmpsec_gate_due(snmpsec_gate *gate, uint64_t *at);
/* The datagram that is to be sent; and the client whose message is answered, or isn't: SNMPSEC_NOTHING_TAKEN,
 * SNMPSEC_SHORT_BUFFER. */
SNMPSEC_CHECK int snmpsec_gate_message(snmpsec_gate *gate, uint8_t *out, size_t out_len, size_t *written);
SNMPSEC_CHECK int snmpsec_gate_client(snmpsec_gate *gate, uint8_t *out, size_t out_len, size_t *written);
/* The client that asks a request that waits, by its number: SNMPSEC_NOTHING_TAKEN: no such request waits;
 * SNMPSEC_SHORT_BUFFER, and *written says how much is wanted. */
SNMPSEC_CHECK int snmpsec_gate_asker(snmpsec_gate *gate, uint64_t request, uint8_t *out, size_t out_len,
                                     size_t *written);

/* The kinds of lines that a log may have of a call on a gateway, each a bit. */
typedef enum snmpsec_line {
    /* a client's datagram is refused; no application answers; a Set that is done, or isn't done again; a device doesn't
     * answer */
    SNMPSEC_LINE_REFUSED = 1, SNMPSEC_LINE_UNHANDLED = 2, SNMPSEC_LINE_SET = 4, SNMPSEC_LINE_GIVEN_UP = 8,
    /* what nothing waits for; an error-status of a device; no room for a message; a message isn't answered */
    SNMPSEC_LINE_DEVICE = 16, SNMPSEC_LINE_STATUS = 32, SNMPSEC_LINE_DROPPED = 64, SNMPSEC_LINE_UNANSWERED = 128,
    /* an answer that doesn't fit what was asked; as many rounds as may be */
    SNMPSEC_LINE_MISFIT = 256, SNMPSEC_LINE_ROUNDS = 512
} snmpsec_line;
/* The kinds of the lines that the last call has, mostly none: SNMPSEC_OK. */
SNMPSEC_CHECK int snmpsec_gate_lines(snmpsec_gate *gate, uint32_t *kinds);
/* One of these lines, without a line feed. It is for people, and its words may change. `client` is the client's address
 * as a text; `datagram` is what the last call took. SNMPSEC_NOTHING_TAKEN: there is no such line; SNMPSEC_SHORT_BUFFER,
 * and *written says how much is wanted; SNMPSEC_OUT_OF_MEMORY. */
SNMPSEC_CHECK int snmpsec_gate_line(snmpsec_gate *gate, snmpsec_line kind, const uint8_t *client, size_t client_len,
                                    const uint8_t *datagram, size_t datagram_len, uint8_t *out, size_t out_len,
                                    size_t *written);
/* Why the bindings of a device's answer don't answer what it was asked: the first of these from the left. Such a
 * request is answered genErr. */
typedef enum snmpsec_misfit {
    /* they do, or the answer has an error; it has fewer bindings than were asked, or more */
    SNMPSEC_MISFIT_NONE = 0, SNMPSEC_MISFIT_TOO_FEW = 1, SNMPSEC_MISFIT_TOO_MANY = 2,
    /* a binding has another name than the one asked; or in a walk a name that isn't after the one asked, or after the
     * one before it */
    SNMPSEC_MISFIT_OTHER_NAME = 3, SNMPSEC_MISFIT_NOT_AFTER = 4,
    /* it has no value, or one that isn't spelled as its tag has it; or a value behind endOfMibView */
    SNMPSEC_MISFIT_NO_VALUE = 5, SNMPSEC_MISFIT_AFTER_END = 6
} snmpsec_misfit;
/* How a request ended of which a message is answered, or isn't. A message isn't answered though its request ended by an
 * answer, and no refusal is the reason: even tooBig without bindings is too long (snmpSilentDrops). */
typedef enum snmpsec_ended {
    SNMPSEC_ENDED_NOT_TOLD = 0,
    /* by what its device answered, or by an error of the gateway's own; by what was told of its datagram before: it is
     * a Set that came again; by genErr, since its device was asked as often as it may be for one request */
    SNMPSEC_ENDED_BY_ANSWER = 1, SNMPSEC_ENDED_REPEATED = 2, SNMPSEC_ENDED_ROUNDS_USED_UP = 3,
    /* no application answers it; it was given up, and nothing is said of it */
    SNMPSEC_ENDED_UNHANDLED = 4, SNMPSEC_ENDED_IN_SILENCE = 5
} snmpsec_ended;
/* The request and the device that the last call was about, where it was about one, and how many requests wait. Then
 * what the last call told, and 0 for what it didn't tell. SNMPSEC_GATE_BEGINS, SNMPSEC_GATE_JOINS: the PDU by which the
 * message asks, an snmpsec_pdu. SNMPSEC_GATE_TO_CLIENT: error-status and error-index of the Response, or is_report is
 * 1; and how the request ended, an snmpsec_ended, as of SNMPSEC_GATE_UNANSWERED, with the snmpsec_unhandled of a
 * request that no application answers. SNMPSEC_GATE_TO_DEVICE: again is 1 if the device is asked the same again, since
 * it didn't answer. SNMPSEC_GATE_GIVEN_UP: how often it was asked. SNMPSEC_GATE_ANSWERS: error-status and error-index
 * of the answer, and 4294967295 for one below 0; why the answer doesn't fit, an snmpsec_misfit, and the number of the
 * answer's binding from 1, or 0; and how many of its bindings are hidden: the user may not read variables of their
 * names. Of an answer to a Set that is 0. */
typedef struct snmpsec_gate_info {
    uint64_t request, device, waiting, status, index, is_report, misfit, binding, hidden, pdu, ended, unhandled, again,
        times;
} snmpsec_gate_info;
SNMPSEC_CHECK int snmpsec_gate_numbers(snmpsec_gate *gate, snmpsec_gate_info *out);
/* The agent's counters. */
SNMPSEC_CHECK int snmpsec_gate_counters(snmpsec_gate *gate, snmpsec_counters *out);
SNMPSEC_CHECK int snmpsec_gate_counts(snmpsec_gate *gate, snmpsec_counts *out);
/* Whether the receiver at this position may be notified of a variable of the device at this one (RFC 3413, section 3.3,
 * step 4): SNMPSEC_OK: *out says what isAccessAllowed answers; SNMPSEC_BAD_ARGUMENT: not 1 to 128 arcs;
 * SNMPSEC_NOTHING_TAKEN: no such receiver or device. */
SNMPSEC_CHECK int snmpsec_gate_may_notify(snmpsec_gate *gate, size_t receiver, size_t device, const uint32_t *arcs,
                                          size_t arcs_len, snmpsec_access *out);
/* The msgUserName of a datagram, at most 32 octets, for a log. Nobody has shown that it is the sender's.
 * SNMPSEC_NOT_MESSAGE, SNMPSEC_BAD_VERSION, SNMPSEC_NOT_SECURITY: there is none; SNMPSEC_SHORT_BUFFER. */
SNMPSEC_CHECK int snmpsec_datagram_user(const uint8_t *datagram, size_t datagram_len, uint8_t *out, size_t out_len,
                                        size_t *written);

/* ---- a forwarder: Traps of devices that speak SNMPv2c, sent on to receivers that speak SNMPv3, as Traps or as Informs
 * (docs/gateway.md)
 *
 * It is made of the configuration of a gateway, and has its engine, boots, users, access and devices. The two share
 * nothing: no salt may come twice at either. It is made in as much time as the gateway, since its users have keys of
 * their own. */

typedef struct snmpsec_forward snmpsec_forward;

/* What becomes of a datagram, and what goes out. */
typedef enum snmpsec_forward_event {
    /* _next: there is nothing to do now */
    SNMPSEC_FORWARD_NOTHING = 0,
    /* _take_trap: it isn't a message of SNMPv2c; it has no SNMPv2-Trap; its second binding isn't snmpTrapOID.0 */
    SNMPSEC_FORWARD_UNREADABLE = 20, SNMPSEC_FORWARD_NOT_TRAP = 21, SNMPSEC_FORWARD_NO_TRAP_OID = 22,
    /* _take_trap: it hasn't the device's community; no receiver may be notified of it; as many wait as may; it waits to
     * be sent */
    SNMPSEC_FORWARD_OTHER_COMMUNITY = 23, SNMPSEC_FORWARD_FOR_NOBODY = 24, SNMPSEC_FORWARD_NO_ROOM = 25,
    SNMPSEC_FORWARD_WAITS = 26,
    /* _next: _message goes to the receiver, as a Trap; a notification isn't sent to it */
    SNMPSEC_FORWARD_TO_RECEIVER = 27, SNMPSEC_FORWARD_UNSENT = 30,
    /* _take_receiver: it is no answer to what is waited for; it is an answer to what was sent last for an Inform, which
     * goes on */
    SNMPSEC_FORWARD_NO_ANSWER = 50, SNMPSEC_FORWARD_HEARD = 51,
    /* _take_receiver: an Inform has ended: it is acknowledged; the receiver's engine refused it, by the counter of
     * _numbers */
    SNMPSEC_FORWARD_ACKNOWLEDGED = 52, SNMPSEC_FORWARD_DENIED = 53,
    /* _next: a notification begins to wait for its acknowledgement, as an Inform; _message goes to the receiver of an
     * Inform */
    SNMPSEC_FORWARD_INFORM_BEGINS = 54, SNMPSEC_FORWARD_INFORM_TO_RECEIVER = 55,
    /* _next: a notification isn't sent to the receiver: as many Informs wait as may */
    SNMPSEC_FORWARD_INFORM_NO_ROOM = 56,
    /* _next: an Inform has ended: no answer came, and _numbers has the counter that was last reported without
     * authentication, which anybody can have sent; nothing can be sealed for the receiver's user */
    SNMPSEC_FORWARD_INFORM_GIVEN_UP = 57, SNMPSEC_FORWARD_INFORM_UNSENT = 60
} snmpsec_forward_event;

SNMPSEC_CALL void snmpsec_forward_free(snmpsec_forward *forward);
/* Makes a forwarder of a gateway's configuration, as snmpsec_gate_new makes a gateway, and with the gateway's boots. */
SNMPSEC_CHECK int snmpsec_forward_new(const uint8_t *config, size_t config_len, uint32_t boots, uint64_t started,
                                      snmpsec_forward **out);
/* Takes a datagram from the device at this position: SNMPSEC_OK, SNMPSEC_OUT_OF_MEMORY. It rests on the caller that it
 * came from this device: a community is no secret on the way. */
SNMPSEC_CHECK int snmpsec_forward_take_trap(snmpsec_forward *forward, size_t device, const uint8_t *datagram,
                                            size_t datagram_len, snmpsec_forward_event *event);
/* Takes a datagram from the receiver at this position, at this moment in milliseconds: SNMPSEC_OK;
 * SNMPSEC_OUT_OF_MEMORY; or the refusal of the datagram. An Inform is acknowledged by its own receiver alone, so it
 * rests on the caller that the datagram came from it. */
SNMPSEC_CHECK int snmpsec_forward_take_receiver(snmpsec_forward *forward, uint64_t now, size_t receiver,
                                                const uint8_t *datagram, size_t datagram_len,
                                                snmpsec_forward_event *event);
/* Does the first thing that is to be done at this moment in milliseconds: SNMPSEC_OK, SNMPSEC_OUT_OF_MEMORY. Each salt
 * is another one, also after a restart, and each ask_id, the first of them random. *why is the refusal for which a
 * notification or an Inform isn't sent, or 0. */
SNMPSEC_CHECK int snmpsec_forward_next(snmpsec_forward *forward, uint64_t now, uint64_t salt, uint32_t ask_id,
                                       snmpsec_forward_event *event, int *why);
/* The moment in milliseconds from which on _next has something to do, 0 if a notification waits: SNMPSEC_NOTHING_TAKEN:
 * there is none. */
SNMPSEC_CHECK int snmpsec_forward_due(snmpsec_forward *forward, uint64_t *at);
/* The datagram that is to be sent: SNMPSEC_NOTHING_TAKEN, SNMPSEC_SHORT_BUFFER. */
SNMPSEC_CHECK int snmpsec_forward_message(snmpsec_forward *forward, uint8_t *out, size_t out_len, size_t *written);
/* What is sent for an Inform: what asks for the engine ID of the receiver's engine, what asks for its time, and the
 * Inform itself. */
typedef enum snmpsec_inform_message {
    SNMPSEC_INFORM_DISCOVERY = 1, SNMPSEC_INFORM_TIME = 2, SNMPSEC_INFORM_ITSELF = 3
} snmpsec_inform_message;
/* The notification and the receiver that the last call was about, and how many notifications wait to be sent; the
 * Inform that it was about, and how many wait for an answer. What it wasn't about stays. But message is what the last
 * call left to be sent for an Inform, or 0, and counter is what the Inform's receiver reported, as snmpsec_report has
 * it, or 0. */
typedef struct snmpsec_forward_info {
    uint64_t notification, receiver, waiting, inform, informs, message, counter;
} snmpsec_forward_info;
SNMPSEC_CHECK int snmpsec_forward_numbers(snmpsec_forward *forward, snmpsec_forward_info *out);

/* ---- variable bindings, as octets */

typedef struct snmpsec_binding {
    uint32_t arcs[SNMPSEC_MOST_ARCS];
    size_t arcs_len;
    uint8_t tag;
    /* in the list that was read */
    const uint8_t *content;
    size_t content_len;
} snmpsec_binding;

/* Reads the binding at the place *at of a list and moves *at after it: SNMPSEC_BAD_ARGUMENT: *at isn't in the list;
 * SNMPSEC_BAD_BINDINGS. So `for (size_t at = 0; at < len;)` goes through them. */
SNMPSEC_CHECK int snmpsec_binding_read(const uint8_t *list, size_t list_len, size_t *at, snmpsec_binding *out);
/* Writes a binding: SNMPSEC_BAD_ARGUMENT: the arcs are no identifier's, the tag's low five bits are all ones, or the
 * content is above 65507 octets; SNMPSEC_OUT_OF_MEMORY; SNMPSEC_SHORT_BUFFER, and *written says how much is wanted. */
SNMPSEC_CHECK int snmpsec_binding_write(const uint32_t *arcs, size_t arcs_len, uint8_t tag, const uint8_t *content,
                                        size_t content_len, uint8_t *out, size_t out_len, size_t *written);

/* What a scopedPDU says (RFC 3412, section 6.8; RFC 3416, section 3). Its numbers may be negative, which no
 * well-behaved program writes, and its contextEngineID and contextName have any length. */
typedef struct snmpsec_scoped {
    snmpsec_pdu pdu;
    int32_t request_id;
    union { int32_t error_status, non_repeaters; };
    union { int32_t error_index, max_repetitions; };
    snmpsec_octets context_engine, context_name, list;
} snmpsec_scoped;

/* Writes a scopedPDU, which snmpsec_manager_seal seals: SNMPSEC_BAD_ARGUMENT: no such PDU; SNMPSEC_BAD_BINDINGS;
 * SNMPSEC_TOO_LARGE: it would have more than 65507 octets; SNMPSEC_OUT_OF_MEMORY; SNMPSEC_SHORT_BUFFER, and *written
 * says how much is wanted. */
SNMPSEC_CHECK int snmpsec_scoped_write(const snmpsec_scoped *scoped, uint8_t *out, size_t out_len, size_t *written);

/* Whether this is the content of a value with this tag (RFC 2578, section 7.1; RFC 3416, section 3); false where the
 * tag is of no value. */
SNMPSEC_CHECK bool snmpsec_value_is(uint8_t tag, const uint8_t *content, size_t content_len);

/* ---- keys, codes and sealed texts, for programs that spell messages themselves
 *
 * They keep nothing. A message that came is checked by a handle's _take. A protocol for authentication has its number
 * below snmpAuthProtocols (RFC 3414, section 5; RFC 7860, section 8). SNMPSEC_BAD_ARGUMENT comes before
 * SNMPSEC_SHORT_BUFFER, and neither writes anything: *written stays as it was too. */

typedef enum snmpsec_protocol { SNMPSEC_MD5 = 2, SNMPSEC_SHA1 = 3, SNMPSEC_SHA256 = 5 } snmpsec_protocol;

#define SNMPSEC_LARGEST_KEY 32
#define SNMPSEC_LARGEST_CODE 24

/* The key of a password, the same for all engines (RFC 3414, section A.2; RFC 7860, section 5): 16, 20 or 32 octets.
 * SNMPSEC_BAD_ARGUMENT: no such protocol, or fewer than 8 octets; SNMPSEC_SHORT_BUFFER. It hashes 1,048,576 octets. */
SNMPSEC_CHECK int snmpsec_password_key(snmpsec_protocol protocol, const uint8_t *password, size_t password_len,
                                       uint8_t *out, size_t out_len, size_t *written);
/* The key localised to an engine (RFC 3414, section 2.6; RFC 7860, section 5). SNMPSEC_BAD_ARGUMENT: no such protocol,
 * the key has more than 32 octets, or the engine ID not 5 to 32; SNMPSEC_SHORT_BUFFER. */
SNMPSEC_CHECK int snmpsec_localise(snmpsec_protocol protocol, const uint8_t *key, size_t key_len, const uint8_t *engine,
                                   size_t engine_len, uint8_t *out, size_t out_len, size_t *written);
/* The code, under a localised key, of `front`, this many zero octets and `back`, joined: 12 octets (MD5 and SHA-1; RFC
 * 3414, sections 6.3.1 and 7.3.1) or 24 (SHA-256; RFC 7860, section 4.2.1). The zeros stand in the code's own place, so
 * in a message they are as many as the code has octets. SNMPSEC_BAD_ARGUMENT: no such protocol, the key has more than
 * 32 octets, or there are more than 24 zeros; SNMPSEC_SHORT_BUFFER. */
SNMPSEC_CHECK int snmpsec_mac(snmpsec_protocol protocol, const uint8_t *key, size_t key_len, const uint8_t *front,
                              size_t front_len, size_t zeros, const uint8_t *back, size_t back_len, uint8_t *out,
                              size_t out_len, size_t *written);

/* Seals, and opens, a text of any length in its place, by AES-128 in cipher feedback mode (RFC 3826, section 3.1). The
 * key is the first 16 octets of a localised key. Boots and time, in seconds, are the authoritative engine's that the
 * message says; any are taken. The salt is the content of its msgPrivacyParameters, 8 octets. SNMPSEC_BAD_ARGUMENT: the
 * key hasn't 16 octets or the salt hasn't 8, and the text stays as it was. _open can't tell a wrong key: whatever the
 * octets are, they open to some text. */
SNMPSEC_CHECK int snmpsec_seal(const uint8_t *key, size_t key_len, uint32_t boots, uint32_t time, const uint8_t *salt,
                               size_t salt_len, uint8_t *text, size_t text_len);
SNMPSEC_CHECK int snmpsec_open(const uint8_t *key, size_t key_len, uint32_t boots, uint32_t time, const uint8_t *salt,
                               size_t salt_len, uint8_t *text, size_t text_len);

/* Wipes octets, as a configuration or a password, also where a compiler sees that nobody reads them again. */
SNMPSEC_CALL void snmpsec_wipe(void *octets, size_t octets_len);

#ifdef __cplusplus
}
#endif
#endif
