/* Rows on keys of passwords, message authentication codes and sealed texts (RFC 3414, RFC 3826, RFC 7860). Not proved.
 */
#include "rows.h"
#include <string.h>

static snmpsec_protocol protocol(void) {
    if (is_next("md5")) return SNMPSEC_MD5;
    if (is_next("sha1")) return SNMPSEC_SHA1;
    if (is_next("sha256")) return SNMPSEC_SHA256;
    fail("a protocol is md5, sha1 or sha256");
}

/* `password_key PROTOCOL PASSWORD ENGINE`: the key of the password, and that key localised to the engine. */
static void derived(void) {
    snmpsec_protocol of = protocol();
    snmpsec_octets password = octets(), engine = octets();
    uint8_t key[SNMPSEC_LARGEST_KEY], local[SNMPSEC_LARGEST_KEY];
    size_t key_len, local_len;
    if (snmpsec_password_key(of, password.at, password.len, key, sizeof key, &key_len)) {
        say("a password has at least 8 octets");
        return;
    }
    int answer = snmpsec_localise(of, key, key_len, engine.at, engine.len, local, sizeof local, &local_len);
    if (answer) fail_of(answer);
    show((snmpsec_octets){key, key_len});
    say(" ");
    show((snmpsec_octets){local, local_len});
}

/* `localise PROTOCOL KEY ENGINE`: the key localised to the engine, or none. */
static void localised(void) {
    snmpsec_protocol of = protocol();
    snmpsec_octets key = octets(), engine = octets();
    uint8_t local[SNMPSEC_LARGEST_KEY];
    size_t local_len;
    if (snmpsec_localise(of, key.at, key.len, engine.at, engine.len, local, sizeof local, &local_len)) say("none");
    else show((snmpsec_octets){local, local_len});
}

/* `mac PROTOCOL KEY FRONT ZEROS BACK`: the code of the octets with so many zeros between, or none. */
static void code(void) {
    snmpsec_protocol of = protocol();
    snmpsec_octets key = octets(), front = octets();
    size_t zeros = number32(), code_len;
    snmpsec_octets back = octets();
    uint8_t made[SNMPSEC_LARGEST_CODE];
    if (snmpsec_mac(of, key.at, key.len, front.at, front.len, zeros, back.at, back.len, made, sizeof made, &code_len))
        say("none");
    else show((snmpsec_octets){made, code_len});
}

static uint32_t whole(const uint8_t *at) {
    return (uint32_t)at[0] << 24 | (uint32_t)at[1] << 16 | (uint32_t)at[2] << 8 | at[3];
}

/* The text sealed or opened under a key, with an initialization vector: boots, time and salt. */
static void ciphered(bool is_sealed, snmpsec_octets key, snmpsec_octets iv, snmpsec_octets text) {
    uint8_t *made = kept(text.len);
    if (iv.len != 16) fail("16 octets");
    if (text.len) memcpy(made, text.at, text.len);
    int answer = (is_sealed ? snmpsec_seal : snmpsec_open)(key.at, key.len, whole(iv.at), whole(iv.at + 4), iv.at + 8,
                                                           8, made, text.len);
    if (answer) fail_of(answer);
    show((snmpsec_octets){made, text.len});
}

/* A linear congruential generator of octets. */
static uint64_t state;

static uint8_t next_octet(void) {
    state = state * 6364136223846793005u + 1442695040888963407u;
    return (uint8_t)(state >> 56);
}

static void fill(uint8_t *at, size_t len) {
    for (size_t i = 0; i < len; i++) at[i] = next_octet();
}

/* The FNV-1a digest of 64 bits, carried on over a text. */
static uint64_t digest(uint64_t so_far, const uint8_t *at, size_t len) {
    for (size_t i = 0; i < len; i++) so_far = (so_far ^ at[i]) * 0x100000001b3u;
    return so_far;
}

/* `random_texts COUNT`: the digests of so many texts sealed, and opened, each with its own key, initialization vector
 * and length. */
static void random_texts(void) {
    enum { LONGEST = 300 };
    uint64_t sealed = 0xcbf29ce484222325u, opened = sealed;
    uint8_t key[16], iv[16], plain[LONGEST], text[LONGEST];
    state = 1;
    for (uint32_t count = number32(); count; count--) {
        fill(key, sizeof key);
        fill(iv, sizeof iv);
        size_t len = (size_t)next_octet() << 8;
        len = (len | next_octet()) % (LONGEST + 1);
        fill(plain, len);
        memcpy(text, plain, len);
        int answer = snmpsec_seal(key, sizeof key, whole(iv), whole(iv + 4), iv + 8, 8, text, len);
        sealed = digest(sealed, text, len);
        memcpy(text, plain, len);
        if (!answer) answer = snmpsec_open(key, sizeof key, whole(iv), whole(iv + 4), iv + 8, 8, text, len);
        if (answer) fail_of(answer);
        opened = digest(opened, text, len);
    }
    say("%016llx %016llx", (unsigned long long)sealed, (unsigned long long)opened);
}

void keys_row(const char *kind) {
    static const uint8_t zeros[16];
    if (!strcmp(kind, "password_key")) derived();
    else if (!strcmp(kind, "localise")) localised();
    else if (!strcmp(kind, "mac")) code();
    else if (!strcmp(kind, "random_texts")) random_texts();
    else {
        snmpsec_octets key = octets(), iv = octets();
        /* `encrypt_block KEY BLOCK`: the block, enciphered, with which 16 zeros are sealed that have it as
         * initialization vector. */
        if (!strcmp(kind, "encrypt_block")) ciphered(true, key, iv, (snmpsec_octets){zeros, sizeof zeros});
        else if (!strcmp(kind, "cfb_seal")) ciphered(true, key, iv, octets());
        else if (!strcmp(kind, "cfb_open")) ciphered(false, key, iv, octets());
        else fail("no row is of this kind");
    }
}
