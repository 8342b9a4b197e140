#define _GNU_SOURCE
#include "table.h"
#include "files.h"
#include "snmpsec.h"
#include "words_of.h"
#include <stdio.h>
#include <stdlib.h>
#include <string.h>

static int compare(const uint32_t *a, size_t a_len, const uint32_t *b, size_t b_len) {
    for (size_t i = 0; i < a_len && i < b_len; i++)
        if (a[i] != b[i]) return a[i] < b[i] ? -1 : 1;
    return a_len < b_len ? -1 : a_len > b_len;
}

static int by_name(const void *a, const void *b) {
    const struct row *x = a, *y = b;
    return compare(x->arcs, x->arcs_len, y->arcs, y->arcs_len);
}

/* A whole number in the fewest octets of two's complement. */
static size_t number(int64_t value, uint8_t *out) {
    size_t len = 1;
    while (len < 8 && (value < -(1LL << (8 * len - 1)) || value >= 1LL << (8 * len - 1))) len++;
    for (size_t i = 0; i < len; i++) out[i] = (uint8_t)(value >> (8 * (len - 1 - i)));
    return len;
}

static int number_value(struct row *row, uint8_t tag, const char *text, int64_t least, int64_t most) {
    int64_t value;
    if (integer_of(text, least, most, &value)) return -1;
    row->tag = tag;
    row->value_len = number(value, row->value);
    return 0;
}

/* The content of an OBJECT IDENTIFIER, by the library: the binding of that name is written, and its name's content
 * taken. */
static int name_value(struct row *row, const char *text) {
    uint32_t arcs[MOST_ARCS];
    uint8_t binding[1024];
    size_t written, arcs_len;
    if (arcs_of(text, MOST_ARCS, arcs, &arcs_len) || snmpsec_binding_write(arcs, arcs_len, 0x05, NULL, 0, binding,
        sizeof binding, &written)) return -1;
    size_t at = binding[1] < 0x80 ? 2 : 2 + (binding[1] & 0x7fu);
    size_t head = binding[at + 1] < 0x80 ? 2 : 2 + (binding[at + 1] & 0x7fu);
    row->tag = 0x06;
    row->value_len = written - at - head - 2;
    memcpy(row->value, binding + at + head, row->value_len);
    return 0;
}

static int text_value(struct row *row, const char *text) {
    row->tag = 0x04;
    row->value_len = strlen(text);
    if (row->value_len > MOST_VALUE) return -1;
    memcpy(row->value, text, row->value_len);
    return 0;
}

static int value_of(struct row *row, const char *type, const char *text) {
    if (!type[0] || type[1]) return -1;
    switch (type[0]) {
    case 'i': return number_value(row, 0x02, text, INT32_MIN, INT32_MAX);
    case 'c': return number_value(row, 0x41, text, 0, UINT32_MAX);
    case 'u': return number_value(row, 0x42, text, 0, UINT32_MAX);
    case 't': return number_value(row, 0x43, text, 0, UINT32_MAX);
    case 'o': return name_value(row, text);
    case 's': return text_value(row, text);
    case 'x': row->tag = 0x04; return octets_of(text, 0, MOST_VALUE, row->value, &row->value_len);
    default: return -1;
    }
}

static int told(const char *path, size_t line, const char *why) {
    fprintf(stderr, "%s: line %zu: %s\n", path, line, why);
    return -1;
}

/* The word at the front of a line, which then begins behind it and the blanks after it. */
static char *word_of(char **line) {
    char *word = *line, *end = word + strcspn(word, " \t");
    *line = end + strspn(end, " \t");
    *end = 0;
    return word;
}

/* Reads a row of OID TYPE VALUE; the line is taken apart. */
static int read_row(struct row *row, char *line) {
    char *name = word_of(&line), *type = word_of(&line);
    return arcs_of(name, MOST_ARCS, row->arcs, &row->arcs_len) || value_of(row, type, line) ? -1 : 0;
}

/* Reads the lines of a text that ends with a NUL. */
static int read_rows(struct table *table, const char *path, char *text) {
    for (size_t number = 1; text; number++) {
        char *line = strsep(&text, "\n");
        if (!line[0] || line[0] == '#') continue;
        if (table->rows_len == MOST_ROWS) return told(path, number, "more than 4096 rows");
        struct row *row = &table->rows[table->rows_len++];
        row->line = number;
        if (read_row(row, line)) return told(path, number, "not OID TYPE VALUE, with a value of that type");
    }
    return 0;
}

static int sort_rows(struct table *table, const char *path) {
    qsort(table->rows, table->rows_len, sizeof *table->rows, by_name);
    for (size_t i = 1; i < table->rows_len; i++)
        if (!by_name(&table->rows[i - 1], &table->rows[i]))
            return told(path, table->rows[i].line, "its name has another row too");
    return 0;
}

int table_load(struct table *table, const char *path) {
    uint8_t *text;
    size_t text_len;
    *table = (struct table){.rows = calloc(MOST_ROWS, sizeof *table->rows)};
    if (!table->rows) { fprintf(stderr, "%s: no memory\n", path); return -1; }
    if (file_read(path, MOST_ROWS * 8192, &text, &text_len)) return -1;
    int bad = memchr(text, 0, text_len) ? told(path, 1, "the file has an octet 0")
        : read_rows(table, path, (char *)text);
    file_free(text, text_len);
    return bad ? -1 : sort_rows(table, path);
}

size_t table_from(const struct table *table, const uint32_t *arcs, size_t arcs_len) {
    size_t low = 0, high = table->rows_len;
    while (low < high) {
        size_t middle = low + (high - low) / 2;
        const struct row *row = &table->rows[middle];
        if (compare(row->arcs, row->arcs_len, arcs, arcs_len) < 0) low = middle + 1; else high = middle;
    }
    return low;
}

size_t table_after(const struct table *table, const uint32_t *arcs, size_t arcs_len) {
    size_t from = table_from(table, arcs, arcs_len);
    if (from == table->rows_len) return from;
    const struct row *row = &table->rows[from];
    return compare(row->arcs, row->arcs_len, arcs, arcs_len) ? from : from + 1;
}

struct row *table_at(struct table *table, const uint32_t *arcs, size_t arcs_len) {
    size_t after = table_after(table, arcs, arcs_len);
    if (!after) return NULL;
    struct row *row = &table->rows[after - 1];
    return compare(row->arcs, row->arcs_len, arcs, arcs_len) ? NULL : row;
}
