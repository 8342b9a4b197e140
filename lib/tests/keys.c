/* Calls without a handle, on keys, codes and sealed texts: keys CONFIG CAPTURED-LOG
 *
 * Vectors, arguments out of their ranges, buffers that are too short, and the captured messages, whose codes and sealed texts are made
 * again. Not proved. */
#include "checks.h"
#include <stdio.h>
#include <string.h>

/* The octets are those of the hex text. */
static void same(const char *name, const char *hex, const uint8_t *found, size_t found_len) {
    char text[2 * 64 + 1] = "";
    for (size_t i = 0; i < found_len && i < 64; i++) sprintf(text + 2 * i, "%02x", (unsigned)found[i]);
    check(name, 0, strcmp(hex, text));
}

/* Of the password `maplesyrup` the key, and that key localised to the engine 00..02 (RFC 3414, sections A.3.1 and A.3.2; the third row by
 * Python's hashlib); and the code of `Hi There` under octets 0b (RFC 2202, sections 2 and 3; RFC 4231, section 4.2). */
static const struct { snmpsec_protocol protocol; size_t size, code_size, key_size; const char *key, *localised, *code; } vectors[] = {
    {SNMPSEC_MD5, 16, 12, 16, "9faf3283884e92834ebc9847d8edd963", "526f5eed9fcce26f8964c2930787d82b", "9294727a3638bb1c13f48ef8"},
    {SNMPSEC_SHA1, 20, 12, 20, "9fb5cc0381497b3793528939ff788d5d79145211", "6695febc9288e36282235fc7151f128497b38f3f", "b617318655057264e28bc0b6"},
    {SNMPSEC_SHA256, 32, 24, 20, "ab51014d1e077f6017df2b12bee5f5aa72993177e9bb569c4dff5a4ca0b4afac",
     "8982e0e549e866db361a6b625d84cccc11162d453ee8ce3a6445c2d6776f0f8b", "b0344c61d8db38535ca8afceaf0bf12b881dc200c9833da7"},
};

static const uint8_t password[] = "maplesyrup";
enum { PASSWORD = sizeof password - 1 };

static void derived(void) {
    static const uint8_t of_rfc[12] = {0, 0, 0, 0, 0, 0, 0, 0, 0, 0, 0, 2};
    for (size_t i = 0; i < sizeof vectors / sizeof *vectors; i++) {
        uint8_t key[SNMPSEC_LARGEST_KEY + 1], local[SNMPSEC_LARGEST_KEY + 1], code[SNMPSEC_LARGEST_CODE + 1], by[32];
        snmpsec_protocol protocol = vectors[i].protocol;
        size_t size = vectors[i].size, code_size = vectors[i].code_size, written = 99;
        memset(key, 0xaa, sizeof key);
        memset(local, 0xaa, sizeof local);
        memset(code, 0xaa, sizeof code);
        memset(by, 0x0b, sizeof by);
        check("key without room", SNMPSEC_SHORT_BUFFER, snmpsec_password_key(protocol, password, PASSWORD, key, size - 1, &written));
        check("localised without room", SNMPSEC_SHORT_BUFFER, snmpsec_localise(protocol, by, 20, of_rfc, 12, local, size - 1, &written));
        check("code without room", SNMPSEC_SHORT_BUFFER, snmpsec_mac(protocol, by, 20, by, 3, 12, by, 3, code, code_size - 1, &written));
        check("nothing is counted", 99, (long long)written);
        check("nothing is written", 3 * 0xaa, key[0] + local[0] + code[0]);
        check("key", 0, snmpsec_password_key(protocol, password, PASSWORD, key, size, &written));
        check("octets of the key", (long long)size, (long long)written);
        same("key", vectors[i].key, key, size);
        check("localised", 0, snmpsec_localise(protocol, key, size, of_rfc, 12, local, sizeof local, &written));
        check("octets of the localised key", (long long)size, (long long)written);
        same("localised", vectors[i].localised, local, size);
        check("code", 0, snmpsec_mac(protocol, by, vectors[i].key_size, (const uint8_t *)"Hi ", 3, 0, (const uint8_t *)"There", 5, code, sizeof code, &written));
        check("octets of the code", (long long)code_size, (long long)written);
        same("code", vectors[i].code, code, code_size);
        check("nothing behind it", 3 * 0xaa, key[size] + local[size] + code[code_size]);
    }
}

static void no_keys(void) {
    static const snmpsec_protocol none[] = {(snmpsec_protocol)0, (snmpsec_protocol)1, (snmpsec_protocol)4, (snmpsec_protocol)6, (snmpsec_protocol)0x10002};
    uint8_t octets[40] = {1}, out[32];
    size_t written = 99;
    memset(out, 0xaa, sizeof out);
    for (size_t i = 0; i < sizeof none / sizeof *none; i++) {
        check("key of no protocol", SNMPSEC_BAD_ARGUMENT, snmpsec_password_key(none[i], password, PASSWORD, out, sizeof out, &written));
        check("localised by none", SNMPSEC_BAD_ARGUMENT, snmpsec_localise(none[i], octets, 16, engine, sizeof engine, out, sizeof out, &written));
        check("code of none", SNMPSEC_BAD_ARGUMENT, snmpsec_mac(none[i], octets, 16, octets, 1, 0, octets, 1, out, sizeof out, &written));
    }
    check("short password", SNMPSEC_BAD_ARGUMENT, snmpsec_password_key(SNMPSEC_MD5, password, 7, out, sizeof out, &written));
    check("long key", SNMPSEC_BAD_ARGUMENT, snmpsec_localise(SNMPSEC_MD5, octets, 33, engine, sizeof engine, out, sizeof out, &written));
    check("short engine ID", SNMPSEC_BAD_ARGUMENT, snmpsec_localise(SNMPSEC_MD5, octets, 16, engine, 4, out, sizeof out, &written));
    check("long engine ID", SNMPSEC_BAD_ARGUMENT, snmpsec_localise(SNMPSEC_MD5, octets, 16, octets, 33, out, sizeof out, &written));
    check("code by a long key", SNMPSEC_BAD_ARGUMENT, snmpsec_mac(SNMPSEC_MD5, octets, 33, octets, 1, 0, octets, 1, out, sizeof out, &written));
    check("25 zeros", SNMPSEC_BAD_ARGUMENT, snmpsec_mac(SNMPSEC_SHA256, octets, 32, octets, 1, 25, octets, 1, out, sizeof out, &written));
    check("a key for nobody", SNMPSEC_BAD_ARGUMENT, snmpsec_password_key(SNMPSEC_MD5, password, PASSWORD, out, sizeof out, NULL));
    check("localised for nobody", SNMPSEC_BAD_ARGUMENT, snmpsec_localise(SNMPSEC_MD5, octets, 16, engine, sizeof engine, out, sizeof out, NULL));
    check("a code for nobody", SNMPSEC_BAD_ARGUMENT, snmpsec_mac(SNMPSEC_MD5, octets, 16, NULL, 0, 0, NULL, 0, out, sizeof out, NULL));
    check("an argument before the room", SNMPSEC_BAD_ARGUMENT, snmpsec_password_key(SNMPSEC_MD5, password, 7, out, 0, &written));
    check("nothing is counted", 99, (long long)written);
    for (size_t i = 0; i < sizeof out; i++) check("nothing is written", 0xaa, out[i]);
}

/* NIST SP 800-38A, section F.3.13: the initialization vector 00 01 to 0f is boots, time and salt. Each front is sealed to the front. */
static void sealed(void) {
    static const uint8_t key[16] = {0x2b, 0x7e, 0x15, 0x16, 0x28, 0xae, 0xd2, 0xa6, 0xab, 0xf7, 0x15, 0x88, 0x09, 0xcf, 0x4f, 0x3c};
    static const uint8_t salt[9] = {8, 9, 10, 11, 12, 13, 14, 15, 16};
    static const uint8_t plain[32] = {0x6b, 0xc1, 0xbe, 0xe2, 0x2e, 0x40, 0x9f, 0x96, 0xe9, 0x3d, 0x7e, 0x11, 0x73, 0x93, 0x17, 0x2a,
                                      0xae, 0x2d, 0x8a, 0x57, 0x1e, 0x03, 0xac, 0x9c, 0x9e, 0xb7, 0x6f, 0xac, 0x45, 0xaf, 0x8e, 0x51};
    static const char whole[] = "3b3fd92eb72dad20333449f8e83cfb4ac8a64537a0b3a93fcde3cdad9f1ce58b";
    enum { IV_BOOTS = 0x00010203, IV_TIME = 0x04050607 };
    uint8_t text[32];
    char front[sizeof whole];
    for (size_t len = 0; len <= sizeof plain; len++) {
        memcpy(text, plain, sizeof plain);
        memcpy(front, whole, sizeof whole);
        front[2 * len] = 0;
        check("seal", 0, snmpsec_seal(key, 16, IV_BOOTS, IV_TIME, salt, 8, text, len));
        same("sealed", front, text, len);
        check("nothing behind it", 0, memcmp(text + len, plain + len, sizeof plain - len));
        check("open", 0, snmpsec_open(key, 16, IV_BOOTS, IV_TIME, salt, 8, text, len));
        check("opened", 0, memcmp(text, plain, sizeof plain));
    }
    static const size_t lengths_of[][2] = {{15, 8}, {0, 8}, {16, 7}, {16, 9}, {16, 0}};
    for (size_t i = 0; i < sizeof lengths_of / sizeof *lengths_of; i++) {
        check("key or salt to seal", SNMPSEC_BAD_ARGUMENT, snmpsec_seal(key, lengths_of[i][0], 1, 2, salt, lengths_of[i][1], text, sizeof text));
        check("key or salt to open", SNMPSEC_BAD_ARGUMENT, snmpsec_open(key, lengths_of[i][0], 1, 2, salt, lengths_of[i][1], text, sizeof text));
    }
    check("17 octets of key", SNMPSEC_BAD_ARGUMENT, snmpsec_seal(plain, 17, 1, 2, salt, 8, text, sizeof text));
    check("the text is as it was", 0, memcmp(text, plain, sizeof plain));
}

/* A captured datagram of this user: its code is made again, and what it has sealed is opened and sealed again. */
enum { OF_ANOTHER, WRONG_CODE, CODED, SEALED };
static int made_again(const char *user, snmpsec_protocol protocol, uint8_t code_size, const uint8_t *w, size_t len) {
    uint8_t before[] = {2, 1, BOOTS, 2, 1, TIME, 4, 3, (uint8_t)user[0], (uint8_t)user[1], (uint8_t)user[2], 4, code_size};
    uint8_t key[SNMPSEC_LARGEST_KEY], local[SNMPSEC_LARGEST_KEY], code[SNMPSEC_LARGEST_CODE], text[256];
    size_t at = 0, size, written;
    while (at + sizeof before <= len && memcmp(w + at, before, sizeof before)) at++;
    if ((at += sizeof before) + code_size + 12 > len) return OF_ANOTHER;
    check("key", 0, snmpsec_password_key(protocol, password, PASSWORD, key, sizeof key, &size));
    check("localised", 0, snmpsec_localise(protocol, key, size, engine, sizeof engine, local, sizeof local, &size));
    const uint8_t *behind = w + at + code_size;
    check("code", 0, snmpsec_mac(protocol, local, size, w, at, code_size, behind, len - at - code_size, code, sizeof code, &written));
    check("octets of the code", code_size, (long long)written);
    if (memcmp(code, w + at, code_size)) return WRONG_CODE;
    const uint8_t *salt = behind + 2, *octets = behind + 12;
    size_t octets_len = len - (size_t)(octets - w);
    if (behind[0] != 4 || behind[1] != 8 || octets_len > sizeof text) return CODED;
    check("octets that are sealed", (long long)octets_len, behind[11]);
    memcpy(text, octets, octets_len);
    check("open", 0, snmpsec_open(local, 16, BOOTS, TIME, salt, 8, text, octets_len));
    check("a scoped PDU", 0x30, text[0]);
    check("as long as its text", (long long)octets_len, text[1] + 2);
    check("seal", 0, snmpsec_seal(local, 16, BOOTS, TIME, salt, 8, text, octets_len));
    check("sealed as it was", 0, memcmp(text, octets, octets_len));
    return SEALED;
}

static void captured(void) {
    static const struct { const char *name; snmpsec_protocol protocol; uint8_t code_size; } users[] = {{"ann", SNMPSEC_MD5, 12}, {"bob", SNMPSEC_SHA1, 12}, {"sam", SNMPSEC_SHA256, 24}};
    long made[SEALED + 1] = {0};
    for (size_t i = 0; i < datagrams_len; i++)
        for (size_t u = 0; u < sizeof users / sizeof *users; u++) made[made_again(users[u].name, users[u].protocol, users[u].code_size, datagrams[i], lengths[i])]++;
    printf("%ld captured codes made again, and %ld sealed texts opened\n", made[CODED] + made[SEALED], made[SEALED]);
    check("messages with auth alone", 4, made[CODED]);
    check("messages that are sealed", 4, made[SEALED]);
    check("the message of a wrong password", 1, made[WRONG_CODE]);
}

int main(int argc, char **argv) {
    read_capture(argc, argv);
    derived();
    no_keys();
    sealed();
    captured();
    return checks_told();
}
