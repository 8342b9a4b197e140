/* Rows on users, and on messages that are opened and sealed for them (RFC 3414, section 3). Not proved.
 *
 * A message is authentic to a manager, or to an agent, if it is accepted, or refused for a later step: its time, or
 * what stands in it. */
#include "asking.h"
#include "stations.h"
#include "tables.h"
#include <stdio.h>
#include <stdlib.h>
#include <string.h>

static const char *const levels[] = {"", "NoAuthNoPriv", "AuthNoPriv", "AuthPriv"};
static snmpsec_manager *manager;
static snmpsec_agent *agent;

static void need(int answer) {
    if (answer) fail_of(answer);
}

static bool is_authentic(int answer) {
    if (answer == SNMPSEC_OUT_OF_MEMORY) lack();
    return !answer || (answer >= SNMPSEC_NOT_IN_WINDOW && answer <= SNMPSEC_BAD_PDU);
}

static void end_agent(void) {
    snmpsec_agent_free(agent);
    agent = NULL;
}

/* `fresh`: the users that were loaded last open and seal from here on. */
static void begin(void) {
    snmpsec_manager_free(manager);
    end_agent();
    manager = fresh_manager(no_clocks, 0);
}

static void begin_agent(snmpsec_octets engine, uint32_t boots) {
    end_agent();
    need(snmpsec_agent_new(octets_of(&loaded_users).at, loaded_users.len, engine.at, engine.len, boots, 0, &agent));
}

/* The words behind a word that a line of what is shown begins with. */
static snmpsec_octets line_of(const char *text, const char *of) {
    const char *line = strstr(text, of);
    if (!line) fail("a line that is shown");
    line += strlen(of);
    return (snmpsec_octets){(const uint8_t *)line, strcspn(line, "\n")};
}

static void say_line(const char *text, const char *of) {
    snmpsec_octets line = line_of(text, of);
    say("%.*s", (int)line.len, (const char *)line.at);
}

static uint32_t number_of(const char *text, const char *of) {
    return (uint32_t)strtoul((const char *)line_of(text, of).at, NULL, 10);
}

/* The octets of a line in hex, as a text. */
static void say_user(const char *text) {
    snmpsec_octets line = line_of(text, "\nuser ");
    say("'");
    for (size_t i = 0; i + 1 < line.len; i += 2) {
        unsigned octet;
        sscanf((const char *)line.at + i, "%2x", &octet);
        say("%c", (int)octet);
    }
}

/* What a message says of its sender, level and time. */
static void say_message(const char *text) {
    const char *flags = (const char *)line_of(text, "\nflags ").at;
    bool is_auth = !strncmp(flags, "auth", 4), is_priv = is_auth && !strncmp(flags + 4, " priv", 5);
    say("%s id ", levels[1 + is_auth + is_priv]);
    say("%u engine ", (unsigned)strtoul(text + 3, NULL, 10));
    say_line(text, "\nengine ");
    say(" boots %u time %u user ", number_of(text, "\nboots "), number_of(text, "\ntime "));
    say_user(text);
}

/* Whose part is taken: `manager`, or the engine ID of an agent. */
static bool is_manager(snmpsec_octets *engine) {
    if (is_next("manager")) return true;
    *engine = octets();
    return false;
}

/* `open ROLE DATAGRAM`: what the message says, or why it isn't authentic. */
static void opened(void) {
    snmpsec_octets engine, datagram;
    bool is_asking = is_manager(&engine);
    datagram = octets();
    if (!is_asking && !agent) begin_agent(engine, 7);
    int answer = is_asking ? snmpsec_manager_take(manager, 0, datagram.at, datagram.len)
                           : snmpsec_agent_take(agent, 1000, datagram.at, datagram.len);
    if (is_authentic(answer)) say_message(shown(datagram));
    else say_refused(answer, datagram);
}

static int manager_part(void *of, snmpsec_part it, uint8_t *out, size_t len, size_t *written) {
    return snmpsec_manager_part(of, it, out, len, written);
}
static int agent_part(void *of, snmpsec_part it, uint8_t *out, size_t len, size_t *written) {
    return snmpsec_agent_part(of, it, out, len, written);
}

/* The scopedPDU of what is kept, spelled again; of a message in the open its content alone. */
static void say_scoped(int (*part)(void *, snmpsec_part, uint8_t *, size_t, size_t *), void *handle,
                       const snmpsec_info *info) {
    snmpsec_octets parts[4];
    static uint8_t scoped[SNMPSEC_LARGEST];
    size_t len;
    for (int i = 0; i < 4; i++) {
        uint8_t *at = kept(SNMPSEC_LARGEST);
        need(part(handle, (snmpsec_part)i, at, SNMPSEC_LARGEST, &parts[i].len));
        parts[i].at = at;
    }
    need(snmpsec_scoped_write(&(snmpsec_scoped){.pdu = (snmpsec_pdu)info->pdu,
                                                .request_id = info->request_id,
                                                .error_status = info->error_status,
                                                .error_index = info->error_index,
                                                .context_engine = parts[SNMPSEC_CONTEXT_ENGINE],
                                                .context_name = parts[SNMPSEC_CONTEXT_NAME],
                                                .list = parts[SNMPSEC_BINDINGS]},
                              scoped, sizeof scoped, &len));
    size_t head = info->level == SNMPSEC_AUTH_PRIV ? 0 : scoped[1] < 0x80 ? 2 : 2 + (scoped[1] & 0x7f);
    show((snmpsec_octets){scoped + head, len - head});
}

/* `plain ROLE DATAGRAM`: the content of msgData in the open, or why there is none: to a manager that holds nothing, or
 * an agent at its time. */
static void plain(void) {
    snmpsec_octets engine, datagram;
    bool is_asking = is_manager(&engine);
    datagram = octets();
    const char *text = shown(datagram);
    uint32_t boots = number_of(text, "\nboots "), time = number_of(text, "\ntime ");
    snmpsec_info info;
    snmpsec_manager *own = is_asking ? fresh_manager(no_clocks, 0) : NULL;
    if (!is_asking) begin_agent(engine, boots);
    int answer = is_asking ? snmpsec_manager_take(own, 0, datagram.at, datagram.len)
                           : snmpsec_agent_take(agent, time, datagram.at, datagram.len);
    if (answer) say_refused(answer, datagram);
    else {
        need(is_asking ? snmpsec_manager_info(own, &info) : snmpsec_agent_info(agent, &info));
        say_scoped(is_asking ? manager_part : agent_part, is_asking ? (void *)own : agent, &info);
    }
    snmpsec_manager_free(own);
    if (!is_asking) end_agent();
}

/* `again COUNT DATAGRAM`: how often of so many times a manager finds it authentic. */
static void again(void) {
    uint32_t count = number32();
    unsigned authentic = 0;
    snmpsec_octets datagram = octets();
    for (; count; count--) authentic += is_authentic(snmpsec_manager_take(manager, 0, datagram.at, datagram.len));
    say("authentic %u", authentic);
}

/* `changed BITS DATAGRAM`: in how many places a manager finds it authentic with these bits of an octet changed. */
static void changed(void) {
    uint8_t bits = octet();
    unsigned authentic = 0;
    snmpsec_octets datagram = octets();
    uint8_t *at = memcpy(kept(datagram.len), datagram.at, datagram.len);
    for (size_t i = 0; i < datagram.len; i++) {
        at[i] ^= bits;
        authentic += is_authentic(snmpsec_manager_take(manager, 0, at, datagram.len));
        at[i] ^= bits;
    }
    say("authentic %u", authentic);
}

/* `supports NAME LEVEL`: whether the user has the keys that the level needs. An agent looks for them before it looks at
 * a code. */
static void supports(void) {
    static const uint8_t engine[] = {0, 0, 0, 0, 0, 0, 0, 0, 0, 0, 0, 2};
    snmpsec_octets user = name();
    snmpsec_level at = level();
    snmpsec_octets message = uncoded_message((snmpsec_octets){engine, sizeof engine}, user, at);
    if (!agent) begin_agent((snmpsec_octets){engine, sizeof engine}, 7);
    int answer = snmpsec_agent_take(agent, 0, message.at, message.len);
    if (answer == SNMPSEC_UNKNOWN_USER || answer == SNMPSEC_UNSUPPORTED_LEVEL) say_refused(answer, message);
    else if (answer && answer != SNMPSEC_WRONG_DIGEST) fail_of(answer);
    else say("supported");
}

/* `seal ID FLAGS ENGINE BOOTS/TIME USER SALT CONTEXT PDU`: the message, or why it isn't sealed; and `sealed_len ..`:
 * its length. */
static void seal(bool is_whole) {
    static uint8_t made[SNMPSEC_LARGEST];
    size_t len;
    uint32_t id = number32(), boots, time;
    uint8_t flags = octet();
    snmpsec_octets engine = octets();
    if (sscanf(word(), "%u/%u", &boots, &time) != 2) fail("BOOTS/TIME");
    snmpsec_octets user = name();
    uint64_t with = salt();
    snmpsec_octets context = octets();
    struct pdu pdu = pdu_of(octets());
    uint8_t *scoped = kept(1 << 17);
    snmpsec_scoped said = {.pdu = (snmpsec_pdu)pdu.tag,
                           .request_id = pdu.request_id,
                           .error_status = pdu.second,
                           .error_index = pdu.third,
                           .context_engine = engine,
                           .context_name = context,
                           .list = pdu.list};
    need(snmpsec_scoped_write(&said, scoped, 1 << 17, &len));
    int answer = snmpsec_manager_seal(manager,
                                      &(snmpsec_sealing){.message_id = id,
                                                         .max_size = SNMPSEC_LARGEST,
                                                         .is_reportable = flags & 4,
                                                         .level = (snmpsec_level)(1 + (flags & 1) + (flags >> 1 & 1)),
                                                         .engine = engine,
                                                         .user = user,
                                                         .boots = boots,
                                                         .time = time,
                                                         .scoped = {scoped, len},
                                                         .salt = with});
    if (!answer) need(snmpsec_manager_message(manager, made, sizeof made, &len));
    if (answer) {
        say("refused ");
        say_refusal(answer);
    } else if (is_whole) show((snmpsec_octets){made, len});
    else say("len %zu", len);
}

void usm_row(const char *kind) {
    if (!strcmp(kind, "fresh")) begin();
    else if (is_table_row(kind)) return;
    else if (!manager) fail("users");
    else if (!strcmp(kind, "open")) opened();
    else if (!strcmp(kind, "plain")) plain();
    else if (!strcmp(kind, "again")) again();
    else if (!strcmp(kind, "changed")) changed();
    else if (!strcmp(kind, "supports")) supports();
    else if (!strcmp(kind, "seal")) seal(true);
    else if (!strcmp(kind, "sealed_len")) seal(false);
    else fail("no row is of this kind");
}
