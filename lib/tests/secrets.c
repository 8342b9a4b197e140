/* Under valgrind's memcheck, with passwords and keys marked as octets that were never written, so that it tells each branch and each address
 * that depends on them: secrets. The keys of handles are looked for on the heap and marked there, and all that is made of them follows. What was
 * sent is public, and so marked. judge_secrets.py runs it, and knows which branches there may be in each of the functions below. Not proved. */
#define _GNU_SOURCE
#include "snmpsec.h"
#include <inttypes.h>
#include <stdio.h>
#include <stdlib.h>
#include <string.h>
#include <valgrind/memcheck.h>

/* In memcheck's log this stands before what it tells of a part of the test. */
static void begin(const char *name) { VALGRIND_PRINTF("begin %s\n", name); }

enum { NOW = 1000 };
static const uint8_t engine[] = {0x80, 0, 0x1f, 0x88, 4, 'x'}, salt[8] = "a salt";
static const uint32_t name[] = {1, 3, 6, 1, 2, 1, 1, 1, 0};
static const snmpsec_protocol protocols[] = {SNMPSEC_MD5, SNMPSEC_SHA1, SNMPSEC_SHA256};
static const char *const users[] = {"ann", "bob", "sam"};
static const char config[] = "[[user]]\nname = \"ann\"\nauth = \"md5\"\nauth-password = \"an auth word\"\npriv-password = \"a priv word\"\n"
                             "[[user]]\nname = \"bob\"\nauth = \"sha1\"\nauth-password = \"an auth word\"\npriv-password = \"a priv word\"\n"
                             "[[user]]\nname = \"sam\"\nauth = \"sha256\"\nauth-password = \"an auth word\"\npriv-password = \"a priv word\"\n";
static const char *const passwords[] = {"an auth word", "a priv word"};
static uint8_t password[] = "a secret word", text[1000], message[65536], list[64], keys[3][SNMPSEC_LARGEST_KEY];
static size_t key_len[3], len, list_len;
static snmpsec_agent *agent;
static snmpsec_manager *manager;

static void must(int answer, int wanted, const char *what) {
    if (answer != wanted) { fprintf(stderr, "%s: %d\n", what, answer); exit(1); }
}

static void secret(void *octets, size_t octets_len) { (void)VALGRIND_MAKE_MEM_UNDEFINED(octets, octets_len); }
static void public(void *octets, size_t octets_len) { (void)VALGRIND_MAKE_MEM_DEFINED(octets, octets_len); }
static int is_secret(const uint8_t *octets, size_t octets_len) {
    uint8_t bits, are_undefined = 0;
    for (size_t i = 0; i < octets_len; i++)
        if (VALGRIND_GET_VBITS(octets + i, &bits, 1) == 1) are_undefined |= bits;
    return are_undefined != 0;
}

/* memcheck tells of this one: else it tells nothing. */
static void a_branch_on_a_secret(void) {
    begin(__func__);
    if (password[0] == 'x') len++;
}

static void keys_are_made(void) {
    begin(__func__);
    for (int i = 0; i < 3; i++) {
        must(snmpsec_password_key(protocols[i], password, sizeof password, keys[i], sizeof keys[i], &key_len[i]), 0, "password_key");
        must(snmpsec_localise(protocols[i], keys[i], key_len[i], engine, sizeof engine, keys[i], sizeof keys[i], &key_len[i]), 0, "localise");
    }
}

static void codes_are_made(void) {
    begin(__func__);
    for (int i = 0; i < 3; i++) {
        uint8_t code[SNMPSEC_LARGEST_CODE];
        must(snmpsec_mac(protocols[i], keys[i], key_len[i], text, 100, 12, text, 100, code, sizeof code, &len), 0, "mac");
        must(is_secret(code, len), 1, "a code depends on its key");
    }
}

static void texts_are_sealed(void) { begin(__func__); must(snmpsec_seal(keys[0], 16, 1, 2, salt, sizeof salt, text, sizeof text), 0, "seal"); }
static void texts_are_opened(void) { begin(__func__); must(snmpsec_open(keys[0], 16, 1, 2, salt, sizeof salt, text, sizeof text), 0, "open"); }

static void handles_are_made(void) {
    const uint8_t *of = (const uint8_t *)config, *clocks = (const uint8_t *)SNMPSEC_NO_CLOCKS;
    must(snmpsec_agent_new(of, sizeof config - 1, engine, sizeof engine, 5, NOW - 100, &agent), 0, "agent");
    must(snmpsec_manager_new(of, sizeof config - 1, clocks, strlen(SNMPSEC_NO_CLOCKS), NOW, &manager), 0, "manager");
}

static uint32_t id;

/* The request, with its list: what comes out of the handle is sent, and so public. */
static void request(const char *user, snmpsec_level level) {
    id++;
    snmpsec_request r = {.pdu = SNMPSEC_GET_REQUEST, .message_id = id, .request_id = id, .level = level, .engine = {engine, sizeof engine},
                         .user = {(const uint8_t *)user, 3}, .context_engine = {engine, sizeof engine}, .list = {list, list_len}, .salt = id};
    must(snmpsec_manager_request(manager, NOW, &r), 0, "request");
}
static void requests_are_signed(const char *user) { begin(__func__); request(user, SNMPSEC_AUTH_NO_PRIV); }
static void requests_are_sealed(const char *user) { begin(__func__); request(user, SNMPSEC_AUTH_PRIV); }

static void sent(int answer) {
    must(answer, 0, "message");
    must(is_secret(message, len), 1, "what is sent depends on its keys");
    public(message, len);
}
static void sent_by_manager(void) { sent(snmpsec_manager_message(manager, message, sizeof message, &len)); }
static void sent_by_agent(void) { sent(snmpsec_agent_message(agent, message, sizeof message, &len)); }

static void signed_requests_are_taken(int wanted) { begin(__func__); must(snmpsec_agent_take(agent, NOW, message, len), wanted, "take"); }
static void sealed_requests_are_taken(void) { begin(__func__); must(snmpsec_agent_take(agent, NOW, message, len), 0, "take"); }
static void forged_requests_are_taken(void) { begin(__func__); must(snmpsec_agent_take(agent, NOW, message, len), SNMPSEC_WRONG_DIGEST, "take"); }
static void responses_are_signed(void) { begin(__func__); must(snmpsec_agent_respond(agent, NOW, 0, 0, list, list_len, id), 0, "respond"); }
static void traps_are_sealed(const char *user) {
    begin(__func__);
    snmpsec_octets whom = {(const uint8_t *)user, 3}, context_engine = {engine, sizeof engine}, variables = {list, list_len};
    snmpsec_notice notice = {.message_id = 1, .request_id = 1, .level = SNMPSEC_AUTH_PRIV, .user = whom, .context_engine = context_engine,
                             .list = variables, .salt = id};
    must(snmpsec_agent_notify(agent, NOW, &notice), 0, "notify");
}
static void signed_responses_are_taken(void) { begin(__func__); must(snmpsec_manager_take(manager, NOW, message, len), 0, "manager takes"); }
static void sealed_traps_are_taken(void) { begin(__func__); must(snmpsec_manager_take(manager, NOW, message, len), 0, "manager takes"); }

/* The manager learns the agent's boots and time by an authentic report. */
static void learn(const char *user) {
    requests_are_signed(user);
    sent_by_manager();
    signed_requests_are_taken(SNMPSEC_NOT_IN_WINDOW);
    sent_by_agent();
    signed_responses_are_taken();
}

static void exchange(const char *user) {
    requests_are_signed(user);
    sent_by_manager();
    signed_requests_are_taken(SNMPSEC_OK);
    responses_are_signed();
    sent_by_agent();
    signed_responses_are_taken();
    requests_are_sealed(user);
    sent_by_manager();
    sealed_requests_are_taken();
    traps_are_sealed(user);
    sent_by_agent();
    sealed_traps_are_taken();
    requests_are_signed(user);
    sent_by_manager();
    message[len - 1] ^= 1;
    forged_requests_are_taken();
}

static void handles_are_freed(void) {
    begin(__func__);
    snmpsec_agent_free(agent);
    snmpsec_manager_free(manager);
}

/* Whether the program may read these octets of its memory. */
static int is_readable(uintptr_t at, size_t octets_len) {
    uint8_t bits[16];
    return VALGRIND_GET_VBITS(at, bits, octets_len) == 1;
}

/* Marks these octets where they lie in a part of the heap, and tells how often they do. */
static int mark(uintptr_t begin, uintptr_t end, const uint8_t *octets, size_t octets_len) {
    int count = 0;
    for (uintptr_t from = begin, to; from < end; from = to + 16) {
        for (to = from; to < end && is_readable(to, 16); to += 16) {}
        for (uint8_t *at = (uint8_t *)from; (at = memmem(at, to - (uintptr_t)at, octets, octets_len)); at += octets_len, count++)
            secret(at, octets_len);
    }
    return count;
}

/* The key of a password lies in both handles, on the heap that valgrind gives out below its own code. */
static void key_is_secret(const uint8_t *octets, size_t octets_len) {
    enum { VALGRIND = 0x58000000, HANDLES = 2 };
    char line[256];
    uintptr_t begin, end;
    int count = 0;
    FILE *maps = fopen("/proc/self/maps", "r");
    while (maps && fgets(line, sizeof line, maps))
        if (sscanf(line, "%" SCNxPTR "-%" SCNxPTR " rw-p 00000000 00:00 %*d %*s", &begin, &end) == 2 && end < VALGRIND && !strchr(line, '['))
            count += mark(begin, end, octets, octets_len);
    if (maps) fclose(maps);
    if (count < HANDLES) { fprintf(stderr, "a key lies %d times on the heap\n", count); exit(1); }
}

static void keys_are_secret(void) {
    VALGRIND_DISABLE_ERROR_REPORTING;
    for (int i = 0; i < 6; i++) {
        const char *word = passwords[i % 2];
        uint8_t copy[SNMPSEC_LARGEST_KEY];
        size_t copy_len = 0;
        must(snmpsec_password_key(protocols[i / 2], (const uint8_t *)word, strlen(word), copy, sizeof copy, &copy_len), 0, "password_key");
        key_is_secret(copy, copy_len);
    }
    VALGRIND_ENABLE_ERROR_REPORTING;
}

int main(void) {
    must(RUNNING_ON_VALGRIND > 0, 1, "valgrind");
    must(snmpsec_binding_write(name, 9, 4, (const uint8_t *)"hello", 5, list, sizeof list, &list_len), 0, "binding");
    secret(password, sizeof password);
    a_branch_on_a_secret();
    keys_are_made();
    codes_are_made();
    texts_are_sealed();
    texts_are_opened();
    handles_are_made();
    keys_are_secret();
    learn(users[0]);
    for (int i = 0; i < 3; i++) exchange(users[i]);
    handles_are_freed();
    return 0;
}
