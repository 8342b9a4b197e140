/* A table of variables in a file, for the example agent. A line is OID TYPE VALUE, in any order: i an INTEGER, u a
 * Gauge32, c a Counter32, t TimeTicks, o an OBJECT IDENTIFIER, s a text, x octets in hex. A line that begins with # is
 * none. Not proved. */
#ifndef TABLE_H
#define TABLE_H

#include <stddef.h>
#include <stdint.h>

enum { MOST_ARCS = 128, MOST_VALUE = 1024, MOST_ROWS = 4096 };

struct row {
    uint32_t arcs[MOST_ARCS];
    size_t arcs_len;
    uint8_t tag;
    uint8_t value[MOST_VALUE];
    size_t value_len;
    size_t line;
};

struct table {
    struct row *rows;
    size_t rows_len;
};

/* Loads it, in the order of the names: 0, or -1 and says on standard error which line isn't a row, or why there is no
 * table. */
int table_load(struct table *table, const char *path);
/* The row of this name, or NULL. */
struct row *table_at(struct table *table, const uint32_t *arcs, size_t arcs_len);
/* The place of the first row with this name or a later one. */
size_t table_from(const struct table *table, const uint32_t *arcs, size_t arcs_len);
/* The place of the first row after this name. */
size_t table_after(const struct table *table, const uint32_t *arcs, size_t arcs_len);

#endif
