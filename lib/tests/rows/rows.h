/* Rows of data, asked of the library over its header, and of the program: what the subjects share. Not proved.
 *
 * A row is a line of words with a space between them. The first word names the kind of row. The words after it are its
 * inputs, and the words after `->` are the answer that is expected:
 *
 *     join_pairs 1/500 2/10 -> 2 10
 *     engine_id 00*4 -> none
 *
 * An empty line and one that begins with `#` are passed over. A row without `->` sets up what the rows after it use,
 * and a row `new` begins anew. An input of octets is one of these:
 *
 *     -          no octets
 *     040a       hex
 *     2a*127     so many times the same octet
 *     'ab_c|     the text "ab c" with a line feed: `_` is a space, and `|` a line feed
 *     @          the octets of the last row `octets`
 *     @5=31,6=7f the same with other octets at these places
 *     @39..57    those from a place to another */
#ifndef ROWS_H
#define ROWS_H

#include "snmpsec.h"
#include <stdarg.h>

/* ---- the row that is answered */

/* Ends the program: the row can't be understood, or there is no memory for its answer. */
_Noreturn void fail(const char *why);
_Noreturn void lack(void);
/* Ends it for out of memory, or else for an answer that the row can't have. */
_Noreturn void fail_of(int answer);

/* The next word; whether it is this one, and the same where it is then read; and how many are left. */
const char *word(void);
bool is_at(const char *text);
bool is_next(const char *text);
size_t left(void);
/* The octets that the next word spells, those of the word itself, of which `-` has none, and those that it spells as a
 * text. They stand until the next row. */
snmpsec_octets octets(void);
snmpsec_octets name(void);
const char *said(void);
uint64_t number(void);
uint32_t number32(void);
int32_t signed32(void);
uint8_t octet(void);
snmpsec_level level(void);
/* a salt of 8 octets */
uint64_t salt(void);
struct arcs {
    uint32_t at[SNMPSEC_MOST_ARCS];
    size_t len;
};
struct arcs arcs(void);
/* The arcs of a text, and whether it has some: 1 to 128 numbers of 32 bits, with dots between them. */
bool read_arcs(const char *text, struct arcs *out);

/* Answers more: words, octets in hex or `-`, and a text as rows have it. */
__attribute__((format(printf, 1, 2))) void say(const char *format, ...);
void show(snmpsec_octets of);
void show_text(snmpsec_octets of);
void show_arcs(const struct arcs *of);
/* A refusal: its name, as NotInWindow, and its number before its name. */
void say_refusal_name(int answer);
void say_refusal(int answer);

/* Memory that stands until the next row. */
void *kept(size_t size);

/* ---- texts that grow, and files of rows */

struct growing {
    char *at;
    size_t len, room;
};
__attribute__((format(printf, 2, 3))) void add(struct growing *text, const char *format, ...);
void add_octets(struct growing *text, const void *at, size_t len);
/* A name as a text of TOML. */
void add_name(struct growing *text, snmpsec_octets of);
void empty(struct growing *text);
static inline snmpsec_octets octets_of(const struct growing *text) {
    return (snmpsec_octets){(const uint8_t *)text->at, text->len};
}
static inline bool is_same(snmpsec_octets a, snmpsec_octets b) {
    return a.len == b.len && (!a.len || !__builtin_memcmp(a.at, b.at, a.len));
}

/* What the program prints, on both its streams, to these words: the first is none of its own, and the last a null. */
const char *printed(const char *words[], int *status);
/* The path of a file that has these octets until it is written again. */
const char *file_of(snmpsec_octets octets);

/* What rows of a file are about. The answer to a row is said; a kind that none has fails. */
typedef void subject(const char *kind);
extern subject access_row, clocks_row, config_row, gate_config_row, gate_row, keys_row, message_row, replay_row,
    stations_row, usm_row, world_row;

#endif
