/* Rows on managers that share what they know through saved files. Not proved. */
#include "stations.h"
#include "tables.h"
#include <stdlib.h>
#include <string.h>

enum { MOST_MANAGERS = 8, MOST_FILES = 64, MOST_MESSAGES = 64 };
static snmpsec_manager *managers[MOST_MANAGERS];
static struct growing files[MOST_FILES], messages[MOST_MESSAGES];
static size_t managers_len, files_len, messages_len;

static void need(int answer) {
    if (answer) fail_of(answer);
}

static void add_manager(snmpsec_octets clocks) {
    if (managers_len == MOST_MANAGERS) fail("fewer managers");
    managers[managers_len++] = fresh_manager(clocks, 0);
}

static void clear(void) {
    while (managers_len) snmpsec_manager_free(managers[--managers_len]);
    while (files_len) empty(&files[--files_len]);
}

/* The numbers of an event, with dots between. */
static size_t numbers_in(const char *text, uint64_t numbers[3]) {
    size_t count = 0;
    char *end;
    for (; text && count < 3; count++, text = *end ? end + 1 : NULL) {
        numbers[count] = strtoull(text, &end, 10);
        if (end == text || (*end && *end != '.')) fail("an event");
    }
    if (text) fail("an event");
    return count;
}

static bool is_there(uint64_t manager, const uint64_t *file) {
    return manager < managers_len && (!file || *file < files_len);
}

static bool took(uint64_t manager, uint64_t now, snmpsec_octets datagram) {
    if (!is_there(manager, NULL)) return false;
    if (snmpsec_manager_take(managers[manager], now, datagram.at, datagram.len) == SNMPSEC_OUT_OF_MEMORY) lack();
    return true;
}

static bool saved(uint64_t manager) {
    if (!is_there(manager, NULL)) return false;
    if (files_len == MOST_FILES) fail("fewer files");
    snmpsec_octets text = saved_of(managers[manager]);
    empty(&files[files_len]);
    add_octets(&files[files_len++], text.at, text.len);
    return true;
}

static bool absorbed(uint64_t manager, uint64_t file, uint64_t now) {
    if (!is_there(manager, &file)) return false;
    snmpsec_octets text = octets_of(&files[file]);
    need(snmpsec_manager_absorb(managers[manager], text.at, text.len, now));
    return true;
}

static bool restarted(uint64_t manager, uint64_t file, uint64_t now) {
    if (!is_there(manager, &file)) return false;
    snmpsec_manager_free(managers[manager]);
    managers[manager] = fresh_manager(octets_of(&files[file]), now);
    return true;
}

/* The next event: `take:MANAGER.NOW.MESSAGE`, `noise:MANAGER.NOW`, `save:MANAGER`, `absorb:MANAGER.FILE.NOW` or
 * `restart:MANAGER.FILE.NOW`. Says whether there are such a manager and such a file. */
static bool event(void) {
    static const snmpsec_octets no_message = {(const uint8_t *)"no message", 10};
    const char *text = word(), *colon = strchr(text, ':');
    uint64_t n[3];
    size_t count = numbers_in(colon ? colon + 1 : "", n);
    if (*text == 't' && count == 3 && n[2] < messages_len) return took(n[0], n[1], octets_of(&messages[n[2]]));
    if (*text == 'n' && count == 2) return took(n[0], n[1], no_message);
    if (*text == 's' && count == 1) return saved(n[0]);
    if (*text == 'a' && count == 3) return absorbed(n[0], n[1], n[2]);
    if (*text == 'r' && count == 3) return restarted(n[0], n[1], n[2]);
    fail("an event");
}

static void run(void) {
    size_t done = 0;
    while (left() && event()) done++;
    while (left()) word();
    say("done %zu", done);
}

/* `pairs MANAGERS ENGINES`: what each manager holds of the engines 8000000001 and on. */
static void pairs(void) {
    uint32_t count = number32();
    uint8_t engines = octet();
    snmpsec_clock clock;
    if (count > managers_len) fail("so many managers");
    say("held");
    for (uint32_t i = 0; i < count; i++)
        for (uint8_t engine = 1; engine <= engines; engine++) {
            int answer = snmpsec_manager_clock(managers[i], (uint8_t[]){0x80, 0, 0, 0, engine}, 5, &clock);
            if (answer == SNMPSEC_NOTHING_TAKEN) say(" -");
            else {
                need(answer);
                say(" %u/%u", clock.boots, clock.time);
            }
        }
}

static void message(void) {
    snmpsec_octets datagram = octets();
    if (messages_len == MOST_MESSAGES) fail("fewer messages");
    add_octets(&messages[messages_len++], datagram.at, datagram.len);
}

static void world(void) {
    clear();
    for (uint32_t count = number32(); count; count--) add_manager(no_clocks);
}

static void world_of(void) {
    clear();
    add_manager(octets());
}

static void file(void) {
    uint32_t place = number32();
    if (place < files_len) show_text(octets_of(&files[place]));
    else say("none");
}

void world_row(const char *kind) {
    if (is_table_row(kind)) return;
    if (!strcmp(kind, "message")) message();
    else if (!strcmp(kind, "world")) world();
    else if (!strcmp(kind, "world_of")) world_of();
    else if (!strcmp(kind, "step")) say(event() ? "done" : "NoSuch");
    else if (!strcmp(kind, "run")) run();
    else if (!strcmp(kind, "size")) say("%zu %zu", managers_len, files_len);
    else if (!strcmp(kind, "file")) file();
    else if (!strcmp(kind, "pairs")) pairs();
    else if (!strcmp(kind, "pair")) {
        uint32_t place = number32();
        snmpsec_octets engine = octets();
        if (place < managers_len) say_pair(managers[place], engine);
        else say("none");
    } else fail("no row is of this kind");
}
