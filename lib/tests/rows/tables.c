#include "tables.h"
#include <stdlib.h>
#include <string.h>

/* ---- rows, each as the text of a table of TOML */

enum { CONTEXTS, GROUPS, ACCESS, FAMILIES, USERS, TABLES = USERS, LISTS };
static struct list {
    char **at;
    size_t len;
} lists[LISTS];
struct growing loaded_users, loaded_tables;
static size_t loaded_contexts_len;

static void put(struct list *list, struct growing text) {
    char **at = realloc(list->at, (list->len + 1) * sizeof *at);
    if (!at) lack();
    list->at = at;
    at[list->len++] = text.at;
}

static void clear(struct list *list) {
    while (list->len) free(list->at[--list->len]);
}

static void turn(struct list *list) {
    for (size_t i = 0, j = list->len; i + 1 < j; i++) {
        char *held = list->at[--j];
        list->at[j] = list->at[i];
        list->at[i] = held;
    }
}

static void add_list(struct growing *text, const struct list *list) {
    for (size_t i = 0; i < list->len; i++) add_octets(text, list->at[i], strlen(list->at[i]));
}

void add_tables(struct growing *text) {
    for (int i = 0; i < TABLES; i++) add_list(text, &lists[i]);
}

snmpsec_octets loaded_without_contexts(void) {
    return (snmpsec_octets){(const uint8_t *)loaded_tables.at + loaded_contexts_len,
                            loaded_tables.len - loaded_contexts_len};
}

struct growing configuration(void) {
    struct growing text = {0};
    add_octets(&text, loaded_users.at, loaded_users.len);
    add_octets(&text, loaded_tables.at, loaded_tables.len);
    return text;
}

/* ---- rows that add one */

static void add_key(struct growing *text, const char *key, snmpsec_octets value) {
    add(text, "%s = ", key);
    add_name(text, value);
    add(text, "\n");
}

/* `user NAME PROTOCOL:PASSWORD PRIVACY_PASSWORD`, each of the passwords `-` for none. */
static struct growing user(void) {
    struct growing text = {0};
    add(&text, "[[user]]\n");
    add_key(&text, "name", name());
    const char *given = word(), *colon = strchr(given, ':');
    if (strcmp(given, "-")) {
        if (!colon) fail("PROTOCOL:PASSWORD");
        add_key(&text, "auth", (snmpsec_octets){(const uint8_t *)given, (size_t)(colon - given)});
        add_key(&text, "auth-password", (snmpsec_octets){(const uint8_t *)colon + 1, strlen(colon + 1)});
    }
    snmpsec_octets privacy = name();
    if (privacy.at[0] != '-' || privacy.len) add_key(&text, "priv-password", privacy);
    return text;
}

static struct growing context(void) {
    struct growing text = {0};
    add(&text, "[[context]]\n");
    add_key(&text, "name", name());
    return text;
}

static struct growing group(void) {
    struct growing text = {0};
    add(&text, "[[group]]\nmodel = %u\n", number32());
    add_key(&text, "name", name());
    add_key(&text, "group", name());
    return text;
}

static struct growing access_of(void) {
    static const char *const keys[] = {"level", "match", "read", "write", "notify"};
    struct growing text = {0};
    add(&text, "[[access]]\n");
    add_key(&text, "group", name());
    add_key(&text, "prefix", name());
    add(&text, "model = %u\n", number32());
    for (size_t i = 0; i < sizeof keys / sizeof *keys; i++) add_key(&text, keys[i], name());
    return text;
}

static struct growing family(void) {
    struct growing text = {0};
    add(&text, "[[family]]\n");
    add_key(&text, "view", name());
    add_key(&text, "subtree", name());
    const char *mask = word();
    if (strcmp(mask, "-")) add(&text, "mask = \"%s\"\n", mask);
    add(&text, "include = %s\n", is_next("included") ? "true" : "false");
    if (!strstr(text.at, "true")) word();
    return text;
}

/* ---- rows that load them */

/* `load`, `users`: whether they are loaded, or the first row at fault, as BadRow { table: Access, position: 0 } or
 * BadUser { position: 1 }. */
static void load(struct growing *loaded, struct growing text) {
    static const char *const tables[] = {"", "", "Contexts", "Groups", "Access", "Families"};
    static const char *const why[] = {
        "", "", "", "", "", "BadRow", "BadUser", "ShortPassword", "DuplicateUser", "BadRow", "Duplicate"};
    snmpsec_config_place place;
    uint8_t out[512];
    size_t written;
    int answer = snmpsec_config_fault((const uint8_t *)text.at, text.len, &place, out, sizeof out, &written);
    if (!answer) {
        free(loaded->at);
        *loaded = text;
        say("loaded");
        return;
    }
    free(text.at);
    if (answer != SNMPSEC_BAD_CONFIGURATION || place.reason < SNMPSEC_BAD_VALUE) fail_of(answer);
    if (place.table == SNMPSEC_USER_TABLE) say("%s { position: %zu }", why[place.reason], place.position);
    else say("%s { table: %s, position: %zu }", why[place.reason], tables[place.table], place.position);
}

static void load_users(void) {
    struct growing text = {0};
    add_list(&text, &lists[USERS]);
    load(&loaded_users, text);
}

static void load_tables(void) {
    struct growing contexts = {0}, text = {0};
    add_list(&contexts, &lists[CONTEXTS]);
    add_tables(&text);
    load(&loaded_tables, text);
    if (loaded_tables.at == text.at) loaded_contexts_len = contexts.len;
    free(contexts.at);
}

static void clear_all(void) {
    for (int i = 0; i < LISTS; i++) clear(&lists[i]);
    empty(&loaded_tables);
}

static void turn_all(void) {
    for (int i = 0; i < TABLES; i++) turn(&lists[i]);
}

bool is_table_row(const char *kind) {
    if (!strcmp(kind, "user")) put(&lists[USERS], user());
    else if (!strcmp(kind, "context")) put(&lists[CONTEXTS], context());
    else if (!strcmp(kind, "group")) put(&lists[GROUPS], group());
    else if (!strcmp(kind, "access")) put(&lists[ACCESS], access_of());
    else if (!strcmp(kind, "family")) put(&lists[FAMILIES], family());
    else if (!strcmp(kind, "users")) load_users();
    else if (!strcmp(kind, "load")) load_tables();
    else if (!strcmp(kind, "turn")) turn_all();
    else if (!strcmp(kind, "new")) clear_all();
    else return false;
    return true;
}

/* ---- access */

const char *const access_names[6] = {"AccessAllowed", "NotInView",   "NoSuchView",
                                     "NoAccessEntry", "NoGroupName", "NoSuchContext"};

snmpsec_view view(void) {
    return is_next("read")     ? SNMPSEC_READ
           : is_next("write")  ? SNMPSEC_WRITE
           : is_next("notify") ? SNMPSEC_NOTIFY
                               : (fail("a view"), SNMPSEC_READ);
}

void say_access(snmpsec_access access) { say("%s %d", access_names[access], access); }
