/* Rows on what is known of engines: pairs of boots and time, their joins, saved texts and time windows (RFC 3414,
 * sections 2.2 and 3.2). Not proved.
 *
 * What is known is a manager's. It learns a pair from a message that is sealed with it. */
#include "asking.h"
#include "stations.h"
#include "tables.h"
#include <stdio.h>
#include <stdlib.h>
#include <string.h>

static const char users[] = "[[user]]\nname = \"ann\"\nauth = \"md5\"\nauth-password = \"maplesyrup\"\n";
static const snmpsec_octets ann = {(const uint8_t *)"ann", 3};
static snmpsec_manager *held, *copied, *sealing;

static void need(int answer) {
    if (answer) fail_of(answer);
}

static void begin(snmpsec_manager **of, snmpsec_manager *with) {
    snmpsec_manager_free(*of);
    *of = with;
}

void prepare_clocks(void) {
    if (sealing) return;
    empty(&loaded_users);
    add(&loaded_users, "%s", users);
    prepare_managers();
    sealing = fresh_manager(no_clocks, 0);
}

struct pair {
    uint32_t boots, time;
};

/* BOOTS/TIME */
static struct pair pair(const char *text) {
    struct pair it;
    char behind;
    if (sscanf(text, "%u/%u%c", &it.boots, &it.time, &behind) != 2) fail("BOOTS/TIME");
    return it;
}

/* Takes a message of an engine with this pair. Says whether it is in the time window. */
static bool takes(snmpsec_manager *manager, snmpsec_agent *agent, snmpsec_octets engine, struct pair of, uint64_t now) {
    snmpsec_octets message = sealed_message(sealing, engine, ann, of.boots, of.time);
    int answer = agent ? snmpsec_agent_take(agent, now, message.at, message.len)
                       : snmpsec_manager_take(manager, now, message.at, message.len);
    if (answer && answer != SNMPSEC_NOT_IN_WINDOW) fail_of(answer);
    return !answer;
}

/* `learn ENGINE BOOTS TIME NOW` */
static void learn(void) {
    snmpsec_octets engine = octets();
    struct pair of = {.boots = number32()};
    of.time = number32();
    takes(held, NULL, engine, of, number());
}

/* `read_saved TEXT NOW`: whether it is read, or its first line at fault. What is read takes the place of what is known.
 */
static void read_saved(void) {
    snmpsec_octets text = octets();
    uint64_t now = number();
    snmpsec_manager *read;
    int answer = snmpsec_manager_new(octets_of(&loaded_users).at, loaded_users.len, text.at, text.len, now, &read);
    if (answer && answer != SNMPSEC_BAD_CLOCKS) fail_of(answer);
    const char *words[] = {NULL, "check-clocks", file_of(text), NULL}, *told = printed(words, NULL),
               *line = strstr(told, " line ");
    if (!answer != !strncmp(told, "clocks ", 7)) say("but the program says ");
    if (answer) {
        say("%.*s", (int)strcspn(line + 1, "\n"), line + 1);
        return;
    }
    begin(&held, read);
    say("read");
}

/* The engine that rows without an engine are about. */
static const uint8_t engine_1[] = {0x80, 0, 0, 0, 1};
static const snmpsec_octets some_engine = {engine_1, sizeof engine_1};

/* A manager that has joined saved texts of an engine, each of these words where it isn't `-`: BOOTS/TIME@SEEN. */
static snmpsec_manager *joined(const char *first, const char *second) {
    snmpsec_manager *manager = fresh_manager(no_clocks, 0);
    const char *words[] = {first, second};
    for (int i = 0; i < 2; i++) {
        struct growing text = {0};
        const char *seen = strchr(words[i], '@');
        if (!strcmp(words[i], "-")) continue;
        struct growing of = {0};
        add(&of, "%.*s", (int)strcspn(words[i], "@"), words[i]);
        struct pair it = pair(of.at);
        add(&text, "snmp-clocks 2\n8000000001 %u %u %s\n", it.boots, it.time, seen ? seen + 1 : "0");
        need(snmpsec_manager_absorb(manager, (const uint8_t *)text.at, text.len, 0));
        free(text.at);
        free(of.at);
    }
    return manager;
}

static void join(bool is_mark) {
    const char *first = word();
    snmpsec_manager *manager = joined(first, word());
    if (is_mark) say_mark(manager, some_engine);
    else say_pair(manager, some_engine);
    snmpsec_manager_free(manager);
}

/* `pair_of BOOTS TIME`: the pair, if a saved text can have it. */
static void pair_of(void) {
    struct growing text = {0};
    snmpsec_manager *manager = fresh_manager(no_clocks, 0);
    const char *boots = word();
    add(&text, "snmp-clocks 2\n8000000001 %s %s 0\n", boots, word());
    int answer = snmpsec_manager_absorb(manager, (const uint8_t *)text.at, text.len, 0);
    if (answer && answer != SNMPSEC_BAD_CLOCKS) fail_of(answer);
    say_pair(manager, some_engine);
    free(text.at);
    snmpsec_manager_free(manager);
}

/* `engine_id OCTETS`: it, as a saved text has it, or none. */
static void engine_id(void) {
    snmpsec_octets engine = octets();
    snmpsec_clock clock;
    struct growing text = {0};
    int answer = snmpsec_manager_clock(sealing, engine.at, engine.len, &clock);
    if (answer == SNMPSEC_BAD_ARGUMENT) {
        say("none");
        return;
    }
    if (answer != SNMPSEC_NOTHING_TAKEN) fail_of(answer);
    add(&text, "snmp-clocks 2\n");
    for (size_t i = 0; i < engine.len; i++) add(&text, "%02x", engine.at[i]);
    add(&text, " 0 0 0\n");
    snmpsec_manager *manager = fresh_manager(octets_of(&text), 0);
    snmpsec_octets saved = saved_of(manager);
    const char *line = (const char *)saved.at + sizeof "snmp-clocks 2";
    say("%.*s", (int)strcspn(line, " "), line);
    if (!is_same(saved, octets_of(&text))) say(" but other clocks");
    snmpsec_manager_free(manager);
    free(text.at);
}

/* `in_window_manager HELD NOTION PAIR`: whether a message with the pair is in the time window of a manager that holds a
 * pair with this notion. */
static void in_window_manager(void) {
    struct growing text = {0};
    struct pair of = pair(word());
    uint64_t now = number() - of.time;
    add(&text, "snmp-clocks 2\n8000000001 %u %u 0\n", of.boots, of.time);
    snmpsec_manager *manager = fresh_manager(octets_of(&text), 0);
    say(takes(manager, NULL, some_engine, pair(word()), now) ? "true" : "false");
    snmpsec_manager_free(manager);
    free(text.at);
}

/* `in_window_agent OWN PAIR` */
static void in_window_agent(void) {
    snmpsec_agent *agent;
    struct pair own = pair(word());
    need(snmpsec_agent_new((const uint8_t *)users, sizeof users - 1, engine_1, sizeof engine_1, own.boots, 0, &agent));
    say(takes(NULL, agent, some_engine, pair(word()), own.time) ? "true" : "false");
    snmpsec_agent_free(agent);
}

/* `copy`: keeps a copy of what is known. */
static void copy(void) { begin(&copied, fresh_manager(saved_of(held), 0)); }

static void turn(void) {
    snmpsec_manager *before = held;
    held = copied;
    copied = before;
}

static void absorb(void) {
    snmpsec_octets text = octets();
    need(snmpsec_manager_absorb(held, text.at, text.len, number()));
}

static void notion(void) {
    snmpsec_octets engine = octets();
    say_notion(held, engine, number());
}

static bool is_of_values(const char *kind) {
    if (!strcmp(kind, "engine_id")) engine_id();
    else if (!strcmp(kind, "pair_of")) pair_of();
    else if (!strcmp(kind, "join_pairs")) join(false);
    else if (!strcmp(kind, "join_marks")) join(true);
    else if (!strcmp(kind, "in_window_manager")) in_window_manager();
    else if (!strcmp(kind, "in_window_agent")) in_window_agent();
    else return false;
    return true;
}

void clocks_row(const char *kind) {
    prepare_clocks();
    if (!held || !strcmp(kind, "new")) begin(&held, fresh_manager(no_clocks, 0));
    if (!strcmp(kind, "new") || is_of_values(kind)) return;
    if (!strcmp(kind, "learn")) learn();
    else if (!strcmp(kind, "absorb")) absorb();
    else if (!strcmp(kind, "copy")) copy();
    else if (!strcmp(kind, "turn")) turn();
    else if (!strcmp(kind, "read_saved")) read_saved();
    else if (!strcmp(kind, "save")) show_text(saved_of(held));
    else if (!strcmp(kind, "pair")) say_pair(held, octets());
    else if (!strcmp(kind, "mark")) say_mark(held, octets());
    else if (!strcmp(kind, "notion")) notion();
    else fail("no row is of this kind");
}
