/* What a fuzzer's octets make of the library: fuzz FILE.., each file an input. fuzz.sh links it with a fuzzer that goes by coverage, instead of
 * main. The first octet of an input says what the others are: a datagram for an agent or a manager, a ScopedPDU for one of them that is signed
 * here, and sealed, a configuration, or saved clocks. So what comes after a right code is reached too. It aborts at an answer that there may not
 * be. Not proved. */
#define _GNU_SOURCE
#include "snmpsec.h"
#include <stdio.h>
#include <stdlib.h>
#include <string.h>

enum { NOW = 1000, BOOTS = 5, TIME = 100, MOST = 60000, CODE_LEN = 12, SALT_LEN = 8 };
static const uint8_t engine[] = {0x80, 0, 0x1f, 0x88, 4, 'x'}, salt[SALT_LEN] = "saltsalt", zeros[CODE_LEN];
static const char clocks[] = "snmp-clocks 2\n80001f880478 5 100 1000\n";
static const char config[] =
    "[[user]]\nname = \"bob\"\nauth = \"sha1\"\nauth-password = \"maplesyrup\"\npriv-password = \"another-one\"\n"
    "[[context]]\nname = \"\"\n[[group]]\nmodel = 3\nname = \"bob\"\ngroup = \"g\"\n"
    "[[access]]\ngroup = \"g\"\nprefix = \"\"\nmodel = 3\nlevel = \"noAuthNoPriv\"\nmatch = \"exact\"\nread = \"v\"\nwrite = \"v\"\n"
    "[[family]]\nview = \"v\"\nsubtree = \"1.3.6.1.2\"\ninclude = true\n"
    "[[family]]\nview = \"v\"\nsubtree = \"1.3.6.1.2.1.1.1\"\ninclude = false\nmask = \"fa\"\n";
static snmpsec_agent *agent;
static snmpsec_manager *manager;
static uint8_t auth_key[SNMPSEC_LARGEST_KEY], priv_key[SNMPSEC_LARGEST_KEY];
static size_t key_len;

static void must(bool holds) {
    if (!holds) abort();
}

static void key_of(const char *password, uint8_t *key) {
    must(!snmpsec_password_key(SNMPSEC_SHA1, (const uint8_t *)password, strlen(password), key, SNMPSEC_LARGEST_KEY, &key_len));
    must(!snmpsec_localise(SNMPSEC_SHA1, key, key_len, engine, sizeof engine, key, SNMPSEC_LARGEST_KEY, &key_len));
}

static void begin(void) {
    if (agent) return;
    must(!snmpsec_agent_new((const uint8_t *)config, sizeof config - 1, engine, sizeof engine, BOOTS, NOW - TIME, &agent));
    must(!snmpsec_manager_new((const uint8_t *)config, sizeof config - 1, (const uint8_t *)clocks, sizeof clocks - 1, NOW, &manager));
    key_of("maplesyrup", auth_key);
    key_of("another-one", priv_key);
}

/* Octets that are written from their end to their beginning, so that a length is known before it is written. */
struct writer { uint8_t octets[65536]; size_t begin; };

static void put(struct writer *to, const void *octets, size_t len) {
    to->begin -= len;
    memcpy(to->octets + to->begin, octets, len);
}

/* The tag and the length of what was written since the place `end`. */
static void put_head(struct writer *to, uint8_t tag, size_t end) {
    size_t len = end - to->begin;
    uint8_t head[] = {tag, 0x82, (uint8_t)(len >> 8), (uint8_t)len};
    put(to, head, sizeof head);
}

static void put_element(struct writer *to, uint8_t tag, const void *octets, size_t len) {
    size_t end = to->begin;
    put(to, octets, len);
    put_head(to, tag, end);
}

/* The message of a text, signed, and sealed where its flags say; where its code begins. */
static size_t spell(struct writer *to, const uint8_t *text, size_t text_len, bool is_sealed) {
    static uint8_t sealed[MOST];
    uint8_t flags = is_sealed ? 7 : 5, boots = BOOTS, time = TIME, id = 1, model = 3, version = 3, size[] = {0, 0xff, 0xe3};
    size_t end = to->begin = sizeof to->octets, inner, code;
    if (is_sealed) {
        memcpy(sealed, text, text_len);
        must(!snmpsec_seal(priv_key, 16, BOOTS, TIME, salt, SALT_LEN, sealed, text_len));
        put_element(to, 4, sealed, text_len);
    } else put(to, text, text_len);
    inner = to->begin;
    put_element(to, 4, salt, is_sealed ? SALT_LEN : 0);
    put(to, zeros, CODE_LEN);
    code = to->begin;
    put_head(to, 4, code + CODE_LEN);
    put_element(to, 4, "bob", 3);
    put_element(to, 2, &time, 1);
    put_element(to, 2, &boots, 1);
    put_element(to, 4, engine, sizeof engine);
    put_head(to, 0x30, inner);
    put_head(to, 4, inner);
    inner = to->begin;
    put_element(to, 2, &model, 1);
    put_element(to, 4, &flags, 1);
    put_element(to, 2, size, sizeof size);
    put_element(to, 2, &id, 1);
    put_head(to, 0x30, inner);
    put_element(to, 2, &version, 1);
    put_head(to, 0x30, end);
    return code;
}

static void sign(struct writer *to, size_t code) {
    size_t after = code + CODE_LEN, written;
    must(!snmpsec_mac(SNMPSEC_SHA1, auth_key, key_len, to->octets + to->begin, code - to->begin, CODE_LEN, to->octets + after,
                      sizeof to->octets - after, to->octets + code, CODE_LEN, &written));
}

static uint8_t list[SNMPSEC_LARGEST], out[SNMPSEC_LARGEST];

/* Each binding of what the agent kept is read and asked for, and the request is answered in each way. */
static void answer(void) {
    size_t list_len = 0, count = 0, len = 0;
    snmpsec_binding one;
    snmpsec_unhandled why;
    must(!snmpsec_agent_part(agent, SNMPSEC_BINDINGS, list, sizeof list, &list_len));
    for (size_t at = 0; at < list_len;) {
        snmpsec_access access;
        must(!snmpsec_binding_read(list, list_len, &at, &one));
        must(!snmpsec_agent_access(agent, SNMPSEC_READ, one.arcs, one.arcs_len, &access));
        bool is_value = snmpsec_value_is(one.tag, one.content, one.content_len);
        (void)is_value;
    }
    must(!snmpsec_agent_unhandled(agent, &why));
    if (why != SNMPSEC_HANDLED) { must(snmpsec_agent_refuse(agent, NOW, why, 1) >= 0); return; }
    int whole = snmpsec_agent_respond(agent, NOW, 0, 0, list, list_len, 1);
    must(!whole || whole == SNMPSEC_TOO_LARGE);
    must(!snmpsec_agent_respond_front(agent, NOW, 0, 0, list, list_len, 1, 484, &count));
    must(!snmpsec_agent_message(agent, out, sizeof out, &len) && len <= 484);
    snmpsec_kept *kept;
    must(!snmpsec_agent_keep(agent, &kept));
    must(snmpsec_kept_respond(kept, agent, NOW, 0, 0, list, list_len, 1) == whole);
    must(!snmpsec_agent_restore(agent, kept));
}

static void agent_takes(const uint8_t *octets, size_t len, bool is_signed) {
    int told = snmpsec_agent_take(agent, NOW, octets, len);
    must(told >= SNMPSEC_OK && told <= SNMPSEC_INVALID_FLAGS && told != SNMPSEC_OUT_OF_MEMORY);
    must(!is_signed || (told != SNMPSEC_WRONG_DIGEST && told != SNMPSEC_NOT_IN_WINDOW && told != SNMPSEC_UNKNOWN_USER));
    if (told == SNMPSEC_OK) answer();
}

static void manager_takes(const uint8_t *octets, size_t len, bool is_signed) {
    snmpsec_reply reply;
    must(!snmpsec_manager_discover(manager, 1));
    int told = snmpsec_manager_take(manager, NOW, octets, len);
    must(told >= SNMPSEC_OK && told <= SNMPSEC_INVALID_FLAGS && told != SNMPSEC_OUT_OF_MEMORY);
    must(!is_signed || (told != SNMPSEC_WRONG_DIGEST && told != SNMPSEC_NOT_IN_WINDOW && told != SNMPSEC_UNKNOWN_USER));
    if (told == SNMPSEC_OK) must(!snmpsec_manager_reply(manager, &reply));
}

static void configuration(const uint8_t *octets, size_t len) {
    snmpsec_config_place place;
    size_t told_len = 0;
    int told = snmpsec_config_fault(octets, len, &place, out, sizeof out, &told_len);
    must(told == SNMPSEC_OK || told == SNMPSEC_BAD_CONFIGURATION || told == SNMPSEC_SHORT_BUFFER);
}

/* Saved clocks that are read are saved again as a text that is read. */
static void saved_clocks(const uint8_t *octets, size_t len) {
    size_t saved = 0;
    int told = snmpsec_manager_absorb(manager, octets, len, NOW);
    must(told == SNMPSEC_OK || told == SNMPSEC_BAD_CLOCKS);
    told = snmpsec_manager_save(manager, out, sizeof out, &saved);
    must(told == SNMPSEC_OK || told == SNMPSEC_SHORT_BUFFER);
    if (!told) must(!snmpsec_manager_absorb(manager, out, saved, NOW));
    if (!told && saved < sizeof out / 2) return;
    snmpsec_manager_free(manager); /* of many engines: begun anew */
    snmpsec_agent_free(agent);
    agent = NULL;
    begin();
}

int LLVMFuzzerTestOneInput(const uint8_t *octets, size_t len);
int LLVMFuzzerTestOneInput(const uint8_t *octets, size_t len) {
    static struct writer message;
    if (!len || len > MOST) return 0;
    begin();
    uint8_t kind = octets[0] % 8;
    octets++, len--;
    if (kind == 0) agent_takes(octets, len, false);
    else if (kind == 1) manager_takes(octets, len, false);
    else if (kind == 2) configuration(octets, len);
    else if (kind == 3) saved_clocks(octets, len);
    else {
        sign(&message, spell(&message, octets, len, kind & 1));
        (kind < 6 ? agent_takes : manager_takes)(message.octets + message.begin, sizeof message.octets - message.begin, true);
    }
    return 0;
}

#ifndef BY_FUZZER
int main(int argc, char **argv) {
    static uint8_t octets[MOST + 1];
    for (int i = 1; i < argc; i++) {
        FILE *file = fopen(argv[i], "rb");
        if (!file) { perror(argv[i]); return 2; }
        size_t len = fread(octets, 1, sizeof octets, file);
        fclose(file);
        LLVMFuzzerTestOneInput(octets, len);
    }
    printf("%d inputs\n", argc - 1);
    return 0;
}
#endif
