/* Rows on access (RFC 3415): the rows of the four tables, questions, and the rows that decide on them. Not proved.
 *
 * A question is asked of an agent that has the tables, and of the program where it is of another security model than
 * USM. The next name is asked for a message that the agent took. From where a walk asks is what a gateway asks the
 * device behind it. */
#include "asking.h"
#include "tables.h"
#include <stdio.h>
#include <stdlib.h>
#include <string.h>

enum { USM = 3 };
static const uint8_t engine[] = {0x80, 0, 0x1f, 0x88, 4, 'r', 'o', 'w', 's'};
static const snmpsec_octets engine_id = {engine, sizeof engine};
static snmpsec_agent *agent;
static struct growing agent_user;

/* A question: MODEL NAME LEVEL VIEW CONTEXT ARCS. */
struct question {
    uint32_t model;
    snmpsec_octets name, context;
    snmpsec_level level;
    snmpsec_view view;
    struct arcs arcs;
};

static struct question question(void) {
    struct question it = {.model = number32()};
    it.name = name();
    it.level = level();
    it.view = view();
    it.context = name();
    it.arcs = arcs();
    return it;
}

static void need(int answer) {
    if (answer) fail_of(answer);
}

/* A user without passwords. */
static void add_user(struct growing *text, snmpsec_octets user) {
    add(text, "[[user]]\nname = ");
    add_name(text, user);
    add(text, "\n");
}

static void end_agent(void) {
    snmpsec_agent_free(agent);
    agent = NULL;
}

/* An agent that has the tables and this user. */
static void begin_agent(snmpsec_octets user) {
    if (agent && is_same(user, octets_of(&agent_user))) return;
    struct growing text = {0};
    add_octets(&text, loaded_tables.at, loaded_tables.len);
    add_user(&text, user);
    end_agent();
    need(snmpsec_agent_new(octets_of(&text).at, text.len, engine, sizeof engine, 1, 0, &agent));
    free(text.at);
    empty(&agent_user);
    add_octets(&agent_user, user.at, user.len);
}

/* ---- asked of the program */

/* What the program prints of a question, to this command. */
static const char *printed_of(const char *command, snmpsec_octets tables) {
    const char *words[10] = {NULL, command, file_of(tables)};
    for (int i = 3; i < 9; i++) words[i] = is_next("-") ? "@" : word();
    const char *text = printed(words, NULL);
    if (strstr(text, "out of memory")) lack();
    return text;
}

/* The answer that a line begins with, as accessAllowed. */
static snmpsec_access access_in(const char *line) {
    for (int i = 0; i < 6; i++)
        if (*line == access_names[i][0] + 32 && !strncmp(line + 1, access_names[i] + 1, strcspn(line + 1, "\n")))
            return (snmpsec_access)i;
    fail("an answer on access");
}

snmpsec_access access_printed(const char *command, snmpsec_octets tables) {
    return access_in(printed_of(command, tables));
}

/* The second word of the line that begins with this word, if there is one. */
static bool told(const char *text, const char *of, char found[64]) {
    const char *line = strstr(text, of);
    if (line) snprintf(found, 64, "%.*s", (int)strcspn(line + strlen(of), "\n"), line + strlen(of));
    return line;
}

/* `explain ..`: the answer of tables of the rows, and the positions of those that decide. */
static void explain(void) {
    struct growing tables = {0};
    char found[64], *space;
    add_tables(&tables);
    const char *text = printed_of("explain-access", octets_of(&tables));
    free(tables.at);
    say("%s", access_names[access_in(text)]);
    if (told(text, "\ncontext ", found)) say(" context %s", found);
    if (told(text, "\ngroup ", found)) {
        if ((space = strchr(found, ' '))) *space = 0;
        say(" group %s '%s", found, space ? space + 1 : "");
    }
    if (told(text, "\naccess ", found)) say(" access %s", found);
    if (!told(text, "\nview ", found)) return;
    say(" view '%s", found);
    if (told(text, "\nfamily ", found)) say(" family Some(%s)", found);
    else say(" family None");
}

/* ---- asked of the library */

static void allowed(const struct question *it) {
    snmpsec_access access;
    begin_agent(agent ? octets_of(&agent_user) : it->name);
    need(snmpsec_agent_user_access(agent, it->name, it->level, it->context, it->view, it->arcs.at, it->arcs.len,
                                   &access));
    say_access(access);
}

/* `next ..`: the next name from there on that may be seen. */
static void next(const struct question *it) {
    struct arcs found;
    begin_agent(it->name);
    snmpsec_octets message = message_of(engine_id, it->name, it->context, SNMPSEC_GET_NEXT_REQUEST, 0, 0,
                                        (snmpsec_octets){NULL, 0});
    need(snmpsec_agent_take(agent, 0, message.at, message.len));
    need(snmpsec_agent_next(agent, it->view, it->arcs.at, it->arcs.len, found.at, SNMPSEC_MOST_ARCS, &found.len));
    if (found.len) show_arcs(&found);
    else say("none");
}

/* The configuration of a gateway before a device of this context. */
static struct growing gateway_for(const struct question *it) {
    struct growing text = {0};
    snmpsec_octets tables = loaded_without_contexts();
    add(&text,
        "[gate]\nengine = \"80001f8804726f7773\"\nboots = \"b\"\nlisten = [\"127.0.0.1:161\"]\n[[device]]\ncontext = ");
    add_name(&text, it->context);
    add(&text, "\naddress = \"127.0.0.1:162\"\ncommunity = \"public\"\n");
    add_octets(&text, tables.at, tables.len);
    add_user(&text, it->name);
    return text;
}

/* `walk ..`: the name from which a walk asks that has come to this name. */
static void walk(const struct question *it) {
    snmpsec_gate *gate;
    snmpsec_gate_event event;
    uint8_t asked[1500];
    size_t len, at = 0;
    int why;
    struct growing text = gateway_for(it);
    need(snmpsec_gate_new(octets_of(&text).at, text.len, 1, 0, &gate));
    free(text.at);
    snmpsec_octets message = message_of(engine_id, it->name, it->context, SNMPSEC_GET_NEXT_REQUEST, 0, 0,
                                        names_of(&it->arcs, 1));
    need(snmpsec_gate_take_client(gate, 0, engine, 1, message.at, message.len, &event));
    need(snmpsec_gate_next(gate, 0, 0, 1, &event, &why));
    if (event == SNMPSEC_GATE_TO_DEVICE) {
        snmpsec_binding binding;
        need(snmpsec_gate_message(gate, asked, sizeof asked, &len));
        snmpsec_octets list = pdu_of_device((snmpsec_octets){asked, len}).list;
        need(snmpsec_binding_read(list.at, list.len, &at, &binding));
        struct arcs found = {.len = binding.arcs_len};
        memcpy(found.at, binding.arcs, sizeof found.at);
        show_arcs(&found);
    } else say("none");
    snmpsec_gate_free(gate);
}

/* ---- what a name and a mask may be */

static void is_one(const char *before, const char *behind) {
    struct growing text = {0};
    snmpsec_config_place place;
    uint8_t out[512];
    size_t written;
    bool is_mask = *behind == '\n';
    snmpsec_octets of = octets();
    add(&text, "%s", before);
    if (!is_mask) add_name(&text, of);
    else
        for (size_t i = 0; i < of.len; i++) add(&text, "%02x", of.at[i]);
    add(&text, "%s", is_mask ? "\"\n" : behind);
    int answer = snmpsec_config_fault(octets_of(&text).at, text.len, &place, out, sizeof out, &written);
    free(text.at);
    if (answer && answer != SNMPSEC_BAD_CONFIGURATION) fail_of(answer);
    say(answer ? "none" : "one");
}

void access_row(const char *kind) {
    if (is_table_row(kind)) end_agent();
    else if (!strcmp(kind, "name")) is_one("[[context]]\nname = ", " ");
    else if (!strcmp(kind, "mask"))
        is_one("[[family]]\nview = \"v\"\nsubtree = \"1\"\ninclude = true\nmask = \"", "\n");
    else if (!strcmp(kind, "explain")) explain();
    else if (!loaded_tables.len) fail("tables that are loaded");
    else if (!strcmp(kind, "allowed") && !is_at("3"))
        say_access(access_printed("check-access", octets_of(&loaded_tables)));
    else {
        struct question it = question();
        if (it.model != USM) fail("the security model 3");
        if (!strcmp(kind, "allowed")) allowed(&it);
        else if (!strcmp(kind, "next")) next(&it);
        else if (!strcmp(kind, "walk")) walk(&it);
        else fail("no row is of this kind");
    }
}
