/* Rows on managers and agents of the same users (RFC 3413, RFC 3414). Not proved. */
#include "asking.h"
#include "stations.h"
#include "tables.h"
#include <stdio.h>
#include <stdlib.h>
#include <string.h>

enum { BITS_NOW = 5 };
static const uint64_t agent_salt = 0x0001020304050607;
static snmpsec_manager *manager;
static snmpsec_agent *agent;
static uint8_t message[1 << 17];

static void need(int answer) {
    if (answer) fail_of(answer);
}

/* ---- a request, and the one before it, which stand behind their rows */

struct asked {
    uint64_t now;
    snmpsec_request request;
};
static struct asked last, earlier;

static void copy(snmpsec_octets *of) {
    uint8_t *at = malloc(of->len + 1);
    if (!at) lack();
    if (of->len) memcpy(at, of->at, of->len);
    of->at = at;
}

static void each_of(snmpsec_request *it, void (*act)(snmpsec_octets *of)) {
    act(&it->engine);
    act(&it->user);
    act(&it->context_engine);
    act(&it->context_name);
    act(&it->list);
}

static void let_go(snmpsec_octets *of) { free((void *)of->at); }

static void remember(struct asked asked) {
    each_of(&asked.request, copy);
    each_of(&earlier.request, let_go);
    earlier = last;
    last = asked;
}

/* ---- what a message says */

static const char *const levels[] = {"", "NoAuthNoPriv", "AuthNoPriv", "AuthPriv"};

/* A handle's calls on what it keeps. */
struct reader {
    int (*info)(void *, snmpsec_info *), (*part)(void *, snmpsec_part, uint8_t *, size_t, size_t *);
};

static int manager_info(void *of, snmpsec_info *out) { return snmpsec_manager_info(of, out); }
static int agent_info(void *of, snmpsec_info *out) { return snmpsec_agent_info(of, out); }
static int manager_part(void *of, snmpsec_part it, uint8_t *out, size_t len, size_t *written) {
    return snmpsec_manager_part(of, it, out, len, written);
}
static int agent_part(void *of, snmpsec_part it, uint8_t *out, size_t len, size_t *written) {
    return snmpsec_agent_part(of, it, out, len, written);
}
static const struct reader of_manager = {manager_info, manager_part}, of_agent = {agent_info, agent_part};

static snmpsec_octets part(const struct reader *reader, void *handle, snmpsec_part it) {
    size_t len = 0;
    uint8_t *at = kept(SNMPSEC_LARGEST);
    need(reader->part(handle, it, at, SNMPSEC_LARGEST, &len));
    return (snmpsec_octets){at, len};
}

/* Who sent what is kept, its contexts and its PDU, with its place in the scopedPDU. */
static void say_taken(const struct reader *reader, void *handle) {
    snmpsec_info info;
    need(reader->info(handle, &info));
    snmpsec_scoped it = {.pdu = (snmpsec_pdu)info.pdu,
                         .request_id = info.request_id,
                         .error_status = info.error_status,
                         .error_index = info.error_index,
                         .context_engine = part(reader, handle, SNMPSEC_CONTEXT_ENGINE),
                         .context_name = part(reader, handle, SNMPSEC_CONTEXT_NAME),
                         .list = part(reader, handle, SNMPSEC_BINDINGS)};
    size_t len, at;
    need(snmpsec_scoped_write(&it, message, sizeof message, &len));
    snmpsec_octets pdu = pdu_in_scoped((snmpsec_octets){message, len});
    at = (size_t)(pdu.at - message);
    say("accepted %s id %d engine ", levels[info.level], info.message_id);
    show(part(reader, handle, SNMPSEC_ENGINE));
    say(" user ");
    show_text(part(reader, handle, SNMPSEC_USER));
    say(" context ");
    show(it.context_engine);
    say(" ");
    show_text(it.context_name);
    say(" data %zu ", at);
    show(pdu);
    say(" tag %02x request %d", (unsigned)info.pdu, info.request_id);
}

/* Whether the refusal has a place, and whether the program needs the users to find it: they aren't needed for what is
 * in the open. */
static bool has_place(int answer, bool *is_in_open) {
    *is_in_open = answer == SNMPSEC_NOT_MESSAGE || answer == SNMPSEC_NOT_SECURITY || answer == SNMPSEC_NOT_SCOPED;
    return *is_in_open || answer == SNMPSEC_BAD_SCOPED || answer == SNMPSEC_BAD_PDU;
}

void say_refused(int answer, snmpsec_octets datagram) {
    struct growing hex = {0};
    bool is_in_open;
    say("refused ");
    say_refusal(answer);
    if (!has_place(answer, &is_in_open)) return;
    empty(&hex);
    for (size_t i = 0; i < datagram.len; i++) add(&hex, "%02x", datagram.at[i]);
    const char *shown[] = {NULL, "show", hex.at, NULL},
               *opened[] = {NULL, "open", file_of(octets_of(&loaded_users)), hex.at, NULL};
    const char *text = printed(is_in_open ? shown : opened, NULL), *at = strstr(text, " at ");
    free(hex.at);
    if (!at || strncmp(text, "refused ", 8) || atoi(text + 8) != answer) say(" but the program says %.60s", text);
    else say(" %.*s", (int)strcspn(at + 4, "\n"), at + 4);
}

/* ---- a manager */

enum { PREPARED = 12 };
static snmpsec_manager *prepared[PREPARED];
static size_t prepared_len;
const snmpsec_octets no_clocks = {(const uint8_t *)SNMPSEC_NO_CLOCKS, sizeof SNMPSEC_NO_CLOCKS - 1};

static snmpsec_manager *made(snmpsec_octets clocks, uint64_t now) {
    snmpsec_manager *of;
    need(snmpsec_manager_new(octets_of(&loaded_users).at, loaded_users.len, clocks.at, clocks.len, now, &of));
    return of;
}

void prepare_managers(void) {
    while (prepared_len < PREPARED) prepared[prepared_len++] = made(no_clocks, 0);
}

snmpsec_manager *fresh_manager(snmpsec_octets clocks, uint64_t now) {
    if (!prepared_len) return made(clocks, now);
    snmpsec_manager *of = prepared[--prepared_len];
    need(snmpsec_manager_absorb(of, clocks.at, clocks.len, now));
    return of;
}

/* `manager CLOCKS`: a manager of the users, which begins with these saved clocks. */
static void begin_manager(void) {
    snmpsec_octets clocks = octets();
    snmpsec_manager_free(manager);
    manager = is_same(clocks, no_clocks) ? fresh_manager(clocks, 0) : made(clocks, 0);
}

static void say_outcome(uint64_t now, snmpsec_octets datagram) {
    snmpsec_info info;
    int answer = snmpsec_manager_take(manager, now, datagram.at, datagram.len);
    if (answer) {
        say_refused(answer, datagram);
        return;
    }
    need(snmpsec_manager_info(manager, &info));
    say("accepted %s %02x", levels[info.level], (unsigned)info.pdu);
}

static void take(void) {
    uint64_t now = number();
    snmpsec_octets datagram = octets();
    int answer = snmpsec_manager_take(manager, now, datagram.at, datagram.len);
    if (answer) say_refused(answer, datagram);
    else say_taken(&of_manager, manager);
}

static void run(void) {
    for (bool is_first = true; left(); is_first = false) {
        uint64_t now = number();
        if (!is_first) say(", ");
        say_outcome(now, octets());
    }
}

/* `take_changed BITS DATAGRAM`: in how many places it is accepted with these bits of an octet changed. */
static void take_changed(void) {
    uint8_t bits = octet();
    snmpsec_octets datagram = octets();
    int accepted = 0;
    uint8_t *at = memcpy(message, datagram.at, datagram.len);
    for (size_t i = 0; i < datagram.len; i++) {
        at[i] ^= bits;
        int answer = snmpsec_manager_take(manager, BITS_NOW, at, datagram.len);
        if (answer == SNMPSEC_OUT_OF_MEMORY) lack();
        accepted += !answer;
        at[i] ^= bits;
    }
    say("accepted %d", accepted);
}

snmpsec_octets saved_of(snmpsec_manager *of) {
    size_t len, room = 1 << 20;
    uint8_t *at = kept(room);
    need(snmpsec_manager_save(of, at, room, &len));
    return (snmpsec_octets){at, len};
}

void say_pair(snmpsec_manager *of, snmpsec_octets engine) {
    snmpsec_clock clock;
    int answer = snmpsec_manager_clock(of, engine.at, engine.len, &clock);
    if (answer == SNMPSEC_NOTHING_TAKEN) say("none");
    else if (answer) fail_of(answer);
    else say("%u %u", clock.boots, clock.time);
}

void say_mark(snmpsec_manager *of, snmpsec_octets engine) {
    snmpsec_octets saved = saved_of(of);
    struct growing line = {0};
    unsigned boots, time;
    unsigned long long seen;
    add(&line, "\n");
    for (size_t i = 0; i < engine.len; i++) add(&line, "%02x", engine.at[i]);
    add(&line, " ");
    char *text = memcpy(kept(saved.len + 1), saved.at, saved.len);
    text[saved.len] = 0;
    const char *at = strstr(text, line.at);
    if (at && sscanf(at + line.len, "%u %u %llu", &boots, &time, &seen) == 3) say("%u %u seen %llu", boots, time, seen);
    else say("none");
    free(line.at);
}

/* A message that a manager wrote, until it writes the next. */
static snmpsec_octets written_by(snmpsec_manager *of) {
    size_t len;
    need(snmpsec_manager_message(of, message, sizeof message, &len));
    return (snmpsec_octets){message, len};
}

void say_notion(snmpsec_manager *of, snmpsec_octets engine, uint64_t now) {
    snmpsec_clock clock;
    if (snmpsec_manager_clock(of, engine.at, engine.len, &clock)) {
        say("none");
        return;
    }
    snmpsec_request request = {.pdu = SNMPSEC_GET_REQUEST,
                               .level = SNMPSEC_AUTH_NO_PRIV,
                               .engine = engine,
                               .user = {(const uint8_t *)"ann", 3}};
    need(snmpsec_manager_request(of, now, &request));
    say("%d", time_in(written_by(of)));
}

/* NOW ID ENGINE USER LEVEL CONTEXT SALT PDU */
static struct asked asked_in_row(void) {
    struct asked it = {.now = number()};
    it.request.message_id = number32();
    it.request.engine = it.request.context_engine = octets();
    it.request.user = name();
    it.request.level = level();
    it.request.context_name = octets();
    it.request.salt = salt();
    struct pdu pdu = pdu_of(octets());
    it.request.pdu = (snmpsec_pdu)pdu.tag;
    it.request.request_id = (uint32_t)pdu.request_id;
    it.request.error_status = (uint32_t)pdu.second;
    it.request.error_index = (uint32_t)pdu.third;
    it.request.list = pdu.list;
    return it;
}

static void say_written(int answer) {
    if (!answer) {
        show(written_by(manager));
        return;
    }
    say("refused ");
    say_refusal(answer);
}

static void request(void) {
    struct asked it = asked_in_row();
    int answer = snmpsec_manager_request(manager, it.now, &it.request);
    say_written(answer);
    if (!answer) remember(it);
}

/* `ask ..`: the first request that waits beside others. */
static void ask(void) {
    struct asked it = asked_in_row();
    uint64_t token;
    say_written(snmpsec_manager_ask(manager, it.now, &it.request, &token));
}

static void reply(void) {
    snmpsec_reply it;
    uint64_t now = number();
    snmpsec_octets datagram = octets();
    int answer = snmpsec_manager_take(manager, now, datagram.at, datagram.len);
    if (answer) {
        say_refused(answer, datagram);
        return;
    }
    need(snmpsec_manager_reply(manager, &it));
    if (it.kind == SNMPSEC_REPLY_REPORT) say("Report(%d)", it.counter);
    else say(it.kind == SNMPSEC_REPLY_RESPONSE ? "Response" : "NotForIt");
}

static bool is_manager_row(const char *kind) {
    if (!strcmp(kind, "manager")) {
        begin_manager();
        return true;
    }
    if (!manager) return false;
    if (!strcmp(kind, "take")) take();
    else if (!strcmp(kind, "take_one")) {
        uint64_t now = number();
        say_outcome(now, octets());
    } else if (!strcmp(kind, "take_changed")) take_changed();
    else if (!strcmp(kind, "run")) run();
    else if (!strcmp(kind, "save")) show_text(saved_of(manager));
    else if (!strcmp(kind, "pair")) say_pair(manager, octets());
    else if (!strcmp(kind, "mark")) say_mark(manager, octets());
    else if (!strcmp(kind, "notion")) {
        snmpsec_octets engine = octets();
        say_notion(manager, engine, number());
    } else if (!strcmp(kind, "absorb")) {
        snmpsec_octets text = octets();
        need(snmpsec_manager_absorb(manager, text.at, text.len, number()));
    } else if (!strcmp(kind, "discover")) {
        need(snmpsec_manager_discover(manager, number32()));
        show(written_by(manager));
    } else if (!strcmp(kind, "request")) request();
    else if (!strcmp(kind, "ask")) ask();
    else if (!strcmp(kind, "request_time")) request_time();
    else if (!strcmp(kind, "reply")) reply();
    /* the request before the last is written again, so that it is the last */
    else if (!strcmp(kind, "reply_to_earlier")) {
        need(snmpsec_manager_request(manager, earlier.now, &earlier.request));
        reply();
    } else return false;
    return true;
}

/* ---- an agent */

/* `agent ENGINE BOOTS STARTED`: an agent of the users and the tables that were loaded. */
static void begin_agent(void) {
    snmpsec_octets engine = octets();
    uint32_t boots = number32();
    uint64_t started = number();
    struct growing text = configuration();
    snmpsec_agent_free(agent);
    need(snmpsec_agent_new(octets_of(&text).at, text.len, engine.at, engine.len, boots, started, &agent));
    free(text.at);
}

/* The message that is to be sent, if there is one. */
static bool agent_message(snmpsec_octets *out) {
    size_t len;
    int answer = snmpsec_agent_message(agent, message, sizeof message, &len);
    if (answer && answer != SNMPSEC_NOTHING_TAKEN) fail_of(answer);
    *out = (snmpsec_octets){message, len};
    return !answer;
}

/* `agent_take NOW DATAGRAM`: accepted, or the refusal and the report on it. */
static void say_agent_refusal(int answer, snmpsec_octets datagram) {
    snmpsec_octets report;
    bool has_report = agent_message(&report);
    say_refused(answer, datagram);
    say(has_report ? " report " : " no report");
    if (has_report) show(report);
}

static void counters(void) {
    snmpsec_counters n;
    need(snmpsec_agent_counters(agent, &n));
    say("counters %u %u %u %u %u %u", n.unsupported_levels, n.not_in_windows, n.unknown_users, n.unknown_engines,
        n.wrong_digests, n.decryption_errors);
}

static void count(void) {
    snmpsec_counts n;
    need(snmpsec_agent_counts(agent, &n));
    say("%u %u", n.unknown_pdu_handlers, n.unknown_contexts);
}

/* `decide NOW DATAGRAM`: the answer on access for each name of a request by name. */
static void decide(void) {
    snmpsec_info info;
    snmpsec_binding binding;
    snmpsec_access access;
    need(snmpsec_agent_info(agent, &info));
    if (info.pdu != SNMPSEC_GET_REQUEST && info.pdu != SNMPSEC_SET_REQUEST) {
        say("NotByName");
        return;
    }
    snmpsec_octets list = part(&of_agent, agent, SNMPSEC_BINDINGS);
    say("ByName([");
    for (size_t at = 0; at < list.len;) {
        if (at) say(", ");
        need(snmpsec_binding_read(list.at, list.len, &at, &binding));
        need(snmpsec_agent_access(agent, info.pdu == SNMPSEC_SET_REQUEST ? SNMPSEC_WRITE : SNMPSEC_READ, binding.arcs,
                                  binding.arcs_len, &access));
        say("%s", access_names[access]);
    }
    say("])");
}

static void may(void) {
    snmpsec_access access;
    snmpsec_octets user = name();
    snmpsec_level at = level();
    snmpsec_octets context = name();
    snmpsec_view of = view();
    struct arcs of_name = arcs();
    need(snmpsec_agent_user_access(agent, user, at, context, of, of_name.at, of_name.len, &access));
    say_access(access);
}

static void allows(void) {
    snmpsec_access access;
    snmpsec_view of = view();
    struct arcs of_name = arcs();
    need(snmpsec_agent_access(agent, of, of_name.at, of_name.len, &access));
    say_access(access);
    if (snmpsec_agent_allows(agent, of, of_name.at, of_name.len) != !access) say(" but not the same");
}

static void unhandled(void) {
    snmpsec_unhandled why;
    need(snmpsec_agent_unhandled(agent, &why));
    if (why == SNMPSEC_HANDLED) say("None");
    else
        say("Some(%s)", why == SNMPSEC_NO_REQUEST             ? "NoRequest"
                        : why == SNMPSEC_UNKNOWN_PDU_HANDLERS ? "UnknownPduHandlers"
                                                              : "UnknownContexts");
}

static void refuse(uint64_t now) {
    snmpsec_octets report;
    need(snmpsec_agent_refuse(agent, now, SNMPSEC_UNKNOWN_PDU_HANDLERS, agent_salt));
    say(agent_message(&report) ? "true" : "false");
}

static void statuses(void) {
    uint8_t tag = octet();
    say("status");
    for (int access = 0; access < 6; access++) {
        snmpsec_status status;
        need(snmpsec_status_of((snmpsec_access)access, (snmpsec_pdu)tag, &status));
        say(" %s", status == SNMPSEC_NO_ERROR              ? "NoError"
                   : status == SNMPSEC_NO_ACCESS           ? "NoAccess"
                   : status == SNMPSEC_AUTHORIZATION_ERROR ? "AuthorizationError"
                   : status == SNMPSEC_NO_SUCH_OBJECT      ? "NoSuchObject"
                   : status == SNMPSEC_NOT_SEEN            ? "NotSeen"
                                                           : "UnknownContext");
    }
}

static void say_sent(int answer) {
    snmpsec_octets sent;
    if (answer) {
        say("refused ");
        say_refusal(answer);
    } else if (agent_message(&sent)) show(sent);
}

/* `notify NOW ID ENGINE USER LEVEL CONTEXT PDU` */
static void notify(void) {
    uint64_t now = number();
    snmpsec_notice notice = {.message_id = number32(), .salt = agent_salt};
    notice.context_engine = octets();
    notice.user = name();
    notice.level = level();
    notice.context_name = octets();
    struct pdu pdu = pdu_of(octets());
    notice.request_id = (uint32_t)pdu.request_id;
    notice.list = pdu.list;
    say_sent(snmpsec_agent_notify(agent, now, &notice));
}

static void respond_kept(uint64_t now, snmpsec_octets list) {
    snmpsec_kept *taken;
    need(snmpsec_agent_keep(agent, &taken));
    int answer = snmpsec_kept_respond(taken, agent, now, 0, 0, list.at, list.len, agent_salt);
    snmpsec_kept_free(taken);
    say_sent(answer);
}

/* Whether the Response with the first `count` bindings, which have `len` octets, is written if there is room for it and
 * for no octet more, and one with a binding fewer, or none, if there is an octet less. */
static bool has_front(uint64_t now, snmpsec_octets list, size_t count, size_t len) {
    snmpsec_octets whole, front;
    size_t found = count + 1, counted, fewer;
    need(snmpsec_agent_respond(agent, now, 0, 0, list.at, len, agent_salt));
    agent_message(&whole);
    uint8_t *at = memcpy(kept(whole.len), whole.at, whole.len);
    whole.at = at;
    need(snmpsec_agent_respond_front(agent, now, 0, 0, list.at, list.len, agent_salt, (uint32_t)whole.len, &found));
    agent_message(&front);
    if (found != count || !is_same(whole, front)) return false;
    need(snmpsec_agent_fits(agent, now, 0, 0, list.at, list.len, (uint32_t)whole.len, &counted));
    if (counted != count) return false;
    counted = list.len;
    int fits = snmpsec_agent_fits(agent, now, 0, 0, list.at, list.len, (uint32_t)whole.len - 1, &counted);
    int answer = snmpsec_agent_respond_front(agent, now, 0, 0, list.at, list.len, agent_salt, (uint32_t)whole.len - 1,
                                             &fewer);
    if (answer && answer != SNMPSEC_TOO_LARGE) fail_of(answer);
    if (fits != answer || (!fits && counted != fewer)) return false;
    return count ? !answer && fewer == count - 1 : answer == SNMPSEC_TOO_LARGE;
}

/* `fronts NOW DATAGRAM PDU`: how many of the beginnings of the bindings have their own room. */
static void fronts(uint64_t now, snmpsec_octets list) {
    snmpsec_binding binding;
    int whole = 0;
    for (size_t count = 0, at = 0;; count++) {
        whole += has_front(now, list, count, at);
        if (at == list.len) break;
        need(snmpsec_binding_read(list.at, list.len, &at, &binding));
    }
    say("whole %d", whole);
}

/* A row that answers a message with the bindings of a PDU. */
static void of_list(const char *kind, uint64_t now, snmpsec_octets list) {
    if (!strcmp(kind, "respond")) say_sent(snmpsec_agent_respond(agent, now, 0, 0, list.at, list.len, agent_salt));
    else if (!strcmp(kind, "respond_within"))
        say_sent(snmpsec_agent_respond_within(agent, now, 0, 0, list.at, list.len, agent_salt, SNMPSEC_LARGEST));
    else if (!strcmp(kind, "respond_kept")) respond_kept(now, list);
    else if (!strcmp(kind, "fronts")) fronts(now, list);
    else fail("no row is of this kind");
}

/* A row that begins with NOW DATAGRAM. */
static void of_datagram(const char *kind) {
    uint64_t now = number();
    snmpsec_octets datagram = octets();
    int answer = snmpsec_agent_take(agent, now, datagram.at, datagram.len);
    if (answer == SNMPSEC_OUT_OF_MEMORY) lack();
    if (!strcmp(kind, "agent_take")) {
        if (answer) say_agent_refusal(answer, datagram);
        else say("accepted");
    } else if (answer) fail("a message that is accepted");
    else if (!strcmp(kind, "agent_read")) say_taken(&of_agent, agent);
    else if (!strcmp(kind, "decide")) decide();
    else if (!strcmp(kind, "unhandled")) unhandled();
    else if (!strcmp(kind, "refuse")) refuse(now);
    else if (!strcmp(kind, "allows")) allows();
    else of_list(kind, now, pdu_of(octets()).list);
}

void stations_row(const char *kind) {
    if (!strcmp(kind, "agent")) begin_agent();
    else if (is_table_row(kind) || is_manager_row(kind)) return;
    else if (!agent) fail("an agent");
    else if (!strcmp(kind, "counters")) counters();
    else if (!strcmp(kind, "count")) count();
    else if (!strcmp(kind, "may")) may();
    else if (!strcmp(kind, "status_of")) statuses();
    else if (!strcmp(kind, "notify")) notify();
    else of_datagram(kind);
}
