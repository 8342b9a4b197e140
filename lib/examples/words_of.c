#include "words_of.h"
#include <string.h>

/* The decimal at the front of a word, and what is behind it; -1 where there is none up to 4294967295. */
static int decimal(const char **word, uint32_t *number) {
    uint64_t value = 0;
    const char *at = *word;
    if (*at < '0' || *at > '9') return -1;
    for (; *at >= '0' && *at <= '9'; at++) {
        value = value * 10 + (uint64_t)(*at - '0');
        if (value > UINT32_MAX) return -1;
    }
    *word = at;
    *number = (uint32_t)value;
    return 0;
}

int number_of(const char *word, uint32_t least, uint32_t most, uint32_t *number) {
    return decimal(&word, number) || *word || *number < least || *number > most ? -1 : 0;
}

int integer_of(const char *word, int64_t least, int64_t most, int64_t *number) {
    uint32_t value;
    int is_negative = *word == '-';
    if (is_negative) word++;
    if (decimal(&word, &value) || *word) return -1;
    *number = is_negative ? -(int64_t)value : (int64_t)value;
    return *number < least || *number > most ? -1 : 0;
}

static int digit(char c) {
    if (c >= '0' && c <= '9') return c - '0';
    if (c >= 'a' && c <= 'f') return c - 'a' + 10;
    return c >= 'A' && c <= 'F' ? c - 'A' + 10 : -1;
}

/* The octet of the pair of hex digits at the front of a word, or -1. */
static int pair(const char *word) {
    int high = digit(word[0]), low = high < 0 ? -1 : digit(word[1]);
    return low < 0 ? -1 : high * 16 + low;
}

int octets_of(const char *word, size_t least, size_t most, uint8_t *octets, size_t *octets_len) {
    size_t len = 0;
    for (; *word; word += 2) {
        int octet = pair(word);
        if (octet < 0 || len == most) return -1;
        octets[len++] = (uint8_t)octet;
    }
    *octets_len = len;
    return len < least ? -1 : 0;
}

static int is_all(const uint8_t *octets, size_t octets_len, uint8_t one) {
    for (size_t i = 0; i < octets_len; i++)
        if (octets[i] != one) return 0;
    return 1;
}

static const char *behind_blanks(const char *word) { return word + strspn(word, " "); }

int engine_of(const char *word, uint8_t engine[32], size_t *engine_len) {
    size_t len = 0;
    word = behind_blanks(word);
    if (word[0] == '0' && (word[1] == 'x' || word[1] == 'X')) word = behind_blanks(word + 2);
    while (*word) {
        int octet = pair(word);
        if (octet < 0 || len == 32) return -1;
        engine[len++] = (uint8_t)octet;
        word += 2;
        if (*word == ':' && word[1]) word++;
        else word = behind_blanks(word);
    }
    *engine_len = len;
    return len < 5 || is_all(engine, len, 0) || is_all(engine, len, 0xff) ? -1 : 0;
}

int arcs_of(const char *word, size_t most, uint32_t *arcs, size_t *arcs_len) {
    if (*word == '.') word++;
    for (size_t len = 0; len < most;) {
        if (decimal(&word, &arcs[len])) return -1;
        len++;
        if (!*word) { *arcs_len = len; return 0; }
        if (*word++ != '.') return -1;
    }
    return -1;
}
